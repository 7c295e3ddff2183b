%% @doc Makes this Erlang a node that reaches those that are to be traced.
%%
%% It is hidden, listens to nobody, and has a name of its own, which nobody needs to resolve: so a
%% node with a long name is reached from a host without a domain too, as containers are. What `erl'
%% is told by `ERL_FLAGS', as to speak TLS, holds for it.
-module(seqaudit_reach).

-export([is_node_name/1, kind/1, connect/2, unreachable/1, format_error/1]).

-import(seqaudit_errors, [text/2]).

%% Nobody connects to this node, so any host will do that a long name may have.
-define(HOST, "@127.0.0.1").
-define(LONGEST, 255).

-type options() :: #{string() => [string()]}.
%% The words after each option of the command, the last one first.

%% @doc Whether this is written as the name of a node is.
-spec is_node_name(string()) -> boolean().
is_node_name(Word) ->
    case string:split(Word, "@", all) of
        [[_ | _], [_ | _]] -> length(Word) =< ?LONGEST;
        _ -> false
    end.

%% @doc Whether a node has a long name, with a domain or an address behind the `@', or a short one.
%% Nodes of one kind can't reach those of the other.
-spec kind(node()) -> longnames | shortnames.
kind(Node) ->
    case re:run(atom_to_list(Node), "@.*\\.|:", [unicode]) of
        nomatch -> shortnames;
        {match, _} -> longnames
    end.

%% @doc Makes this a node that can reach this one, with the cookie that the options name, or else
%% the variable `SEQAUDIT_COOKIE', `ERL_FLAGS' or the user's `.erlang.cookie'.
-spec connect(node(), options()) -> ok | {error, {cookie | distribution, term()}}.
connect(Node, Options) ->
    case cookie(Options) of
        {ok, Cookie} -> begin_node(kind(Node), Cookie);
        {error, Reason} -> {error, {cookie, Reason}}
    end.

begin_node(Kind, Cookie) ->
    _ = [application:ensure_all_started(ssl)
         || {ok, Carriers} <- [init:get_argument(proto_dist)],
            [Carrier] <- Carriers, string:find(Carrier, "tls") =/= nomatch],
    Own = #{name_domain => Kind, dist_listen => false, hidden => true},
    case is_alive() orelse silently(fun() -> net_kernel:start(own_name(Kind), Own) end) of
        {error, Reason} ->
            {error, {distribution, Reason}};
        _ ->
            Cookie =:= own orelse erlang:set_cookie(list_to_atom(Cookie)),
            ok
    end.

%% The command says itself what went wrong.
silently(Do) ->
    #{level := Level} = logger:get_primary_config(),
    ok = logger:set_primary_config(level, none),
    try Do()
    after logger:set_primary_config(level, Level)
    end.

%% In containers many commands have the same number, so that alone would be no name.
own_name(Kind) ->
    Name = text("seqaudit_~ts_~8.16.0b", [os:getpid(), rand:uniform(16#FFFF_FFFF)]),
    list_to_atom(Name ++ case Kind of longnames -> ?HOST; shortnames -> "" end).

%% Words of a command line are seen by all users of the machine; a file and a variable aren't.
cookie(#{"--cookie" := [Cookie | _]}) ->
    checked(Cookie, "--cookie");
cookie(#{"--cookie-file" := [File | _]}) ->
    of_file(File);
cookie(_) ->
    case {os:getenv("SEQAUDIT_COOKIE"), init:get_argument(setcookie)} of
        {false, {ok, _}} -> {ok, own};
        {false, error} -> of_user();
        {Cookie, _} -> checked(Cookie, "the variable SEQAUDIT_COOKIE")
    end.

of_file(File) ->
    case file:read_file(File) of
        {ok, Bytes} -> checked(string:trim(binary_to_list(Bytes)), File);
        {error, Reason} -> {error, {file, File, Reason}}
    end.

%% Where `erl' looks for it too. Unlike `erl' this makes no such file, which would be of no use.
of_user() ->
    Files = [filename:join(Folder, ".erlang.cookie")
             || Home <- [os:getenv("HOME")], Home =/= false,
                Configuration <- [os:getenv("XDG_CONFIG_HOME", filename:join(Home, ".config"))],
                Folder <- [Home, filename:join(Configuration, "erlang")]],
    case [File || File <- Files, filelib:is_regular(File)] of
        [File | _] -> of_file(File);
        [] -> {error, none}
    end.

checked(Cookie, From) when Cookie =:= []; length(Cookie) > ?LONGEST -> {error, {length, From}};
checked(Cookie, From) ->
    case lists:all(fun(Letter) -> Letter < 256 end, Cookie) of
        true -> {ok, Cookie};
        false -> {error, {letter, From}}
    end.

%% @doc Why a node can't be reached, as far as its host tells.
-spec unreachable(node()) -> string().
unreachable(Node) ->
    [Name, Host] = string:split(atom_to_list(Node), "@"),
    text("node ~ts can't be reached: ~ts", [Node, host_says(Name, Host, erl_epmd:names(Host))]).

host_says(Name, Host, {ok, Nodes}) ->
    case {lists:keymember(Name, 1, Nodes), Nodes} of
        {true, _} ->
            text("the name server (epmd) of ~ts knows it, but it doesn't let this command in; is "
                 "the cookie the same, is the way to its port open, and if it speaks TLS, does "
                 "this command (ERL_FLAGS)?", [Host]);
        {false, []} ->
            text("the name server (epmd) of ~ts knows no node at all; is it running?", [Host]);
        {false, _} ->
            text("the name server (epmd) of ~ts knows no ~ts, but ~ts",
                 [Host, Name, lists:join(", ", [One || {One, _} <- Nodes])])
    end;
host_says(_Name, Host, {error, address}) ->
    text("no name server (epmd) can be reached on ~ts; is a node running there, and is the way to "
         "it open?", [Host]);
host_says(_Name, Host, {error, Reason}) ->
    text("~ts: ~ts; is its name spelled so?", [Host, inet:format_error(Reason)]).

-spec format_error({cookie | distribution, term()}) -> string().
format_error({cookie, none}) ->
    "there is no cookie; put it into a file (--cookie-file FILE, or ~/.erlang.cookie) or into the "
    "variable SEQAUDIT_COOKIE";
format_error({cookie, {file, File, Reason}}) ->
    text("the cookie can't be used: ~ts: ~ts", [File, file:format_error(Reason)]);
format_error({cookie, {length, From}}) ->
    text("the cookie of ~ts can't be used: it is empty, or longer than ~b characters",
         [From, ?LONGEST]);
format_error({cookie, {letter, From}}) ->
    text("the cookie of ~ts can't be used: it has a letter that no cookie can have", [From]);
format_error({distribution, Reason}) ->
    text("this Erlang can't become a node~ts: ~0tp",
         [case init:get_argument(proto_dist) of
              {ok, [[Carrier] | _]} ->
                  ["; it was told to use ", Carrier, ", and may lack the files for that"];
              _ -> ""
          end, brief(Reason)]).

%% Leaves out what the supervisors of `kernel' add to the reason, which helps nobody.
brief({{shutdown, {failed_to_start_child, Child, Reason}}, _}) -> {Child, Reason};
brief(Reason) -> Reason.
