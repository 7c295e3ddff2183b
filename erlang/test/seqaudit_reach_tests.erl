%% The command reaches nodes whatever their names, cookies and carriers are.
-module(seqaudit_reach_tests).

-export([long_name_test_/0, cookie_of_user_test_/0, unreachable_test_/0, mixed_names_test_/0,
         tls_test_/0]).

-import(seqaudit_test_shell, [node_command/0, run/2]).

-define(COOKIE, "reach_cookie").

%% A node with a long name is reached from a host that has no domain, and so are two of them.
long_name_test_() ->
    {timeout, 60, fun() ->
        with_node([], fun(Node) ->
            with_node([], fun(Other) ->
                {0, Said} =
                    collect(["--node ", Node, " --node ", Other], [{"SEQAUDIT_COOKIE", ?COOKIE}]),
                {_, _} = binary:match(Said, iolist_to_binary([Node, " writes its events to"])),
                {_, _} = binary:match(Said, iolist_to_binary([Other, " writes its events to"]))
            end)
        end)
    end}.

%% Without another one the user's own cookie is taken, and a user without a home folder gives one.
cookie_of_user_test_() ->
    {timeout, 60, fun() ->
        Home = seqaudit_audits:file("home"),
        Kept = filename:join(Home, ".erlang.cookie"),
        ok = filelib:ensure_dir(Kept),
        ok = file:write_file(Kept, ?COOKIE "\n"),
        with_node([], fun(Node) ->
            To = ["--node ", Node],
            {0, _} = collect(To, [{"HOME", Home}]),
            {0, _} = collect(To, [{"HOME", "/no/such/home"}, {"SEQAUDIT_COOKIE", ?COOKIE}]),
            {0, _} = collect(To, [{"HOME", false}, {"SEQAUDIT_COOKIE", ?COOKIE}]),
            {0, _} = collect(To, [{"HOME", false}, {"ERL_FLAGS", "-setcookie " ?COOKIE}]),
            {4, None} = collect(To, [{"HOME", "/no/such/home"}]),
            {_, _} = binary:match(None, <<"there is no cookie; put it into a file">>),
            {4, Empty} = collect([To, " --cookie ''"], []),
            {_, _} = binary:match(Empty, <<"the cookie of --cookie can't be used: it is empty">>)
        end)
    end}.

%% The words about a node that can't be reached say what is known of it.
unreachable_test_() ->
    {timeout, 60, fun() ->
        with_node([], fun(Node) ->
            {4, Wrong} = collect(["--node ", Node, " --cookie wrong"], []),
            {_, _} = binary:match(Wrong,
                                  <<"of 127.0.0.1 knows it, but it doesn't let this command in; is "
                                    "the cookie the "
                                    "same">>),
            {4, Unknown} = collect(["--node nobody@127.0.0.1 --cookie x"], []),
            {_, _} = binary:match(Unknown,
                                  <<"node nobody@127.0.0.1 can't be reached: the name server "
                                    "(epmd) of "
                                    "127.0.0.1 knows no nobody, but ">>),
            {_, _} = binary:match(Unknown, list_to_binary(hd(string:split(Node, "@")))),
            {4, Host} = collect(["--node nobody@no-such-host.invalid --cookie x"], []),
            {_, _} = binary:match(Host, <<"no-such-host.invalid: ">>)
        end)
    end}.

mixed_names_test_() ->
    {timeout, 60, fun() ->
        {3, Said} = collect(["--node a@short --node a@long.name --cookie x"], []),
        {_, _} = binary:match(Said,
                              <<"some of these nodes have long names, with a dot in the host, and "
                                "some short ones">>)
    end}.

%% A node that speaks TLS alone is reached with the options that `erl' has for that, and what it
%% wrote is fetched.
tls_test_() ->
    {timeout, 60, fun() ->
        case {code:which(inet_tls_dist), os:find_executable("openssl")} of
            {Module, Program} when Module =:= non_existing; Program =:= false ->
                io:format(user, "TLS: skipped, there is no erlang-ssl or no openssl~n", []);
            _ ->
                Flags = ["-proto_dist", "inet_tls", "-ssl_dist_optfile", tls_options()],
                with_peer(Flags, fun(Peer, Node) ->
                    To = ["--node ", Node, " --cookie " ?COOKIE],
                    {4, Plain} = collect(To, []),
                    {_, _} = binary:match(Plain,
                                          <<"if it speaks TLS, does this command (ERL_FLAGS)?">>),
                    Caller = spawn(fun() -> call_on(Peer) end),
                    {0, Said} = collect([To, " --trigger application:which_applications/0",
                                         " --label 7"],
                                        [{"ERL_FLAGS", lists:append(lists:join(" ", Flags))}]),
                    exit(Caller, kill),
                    {match, [Events]} = re:run(Said, "^([0-9]+) events of ",
                                               [multiline, {capture, [1], list}]),
                    true = list_to_integer(Events) >= 4
                end)
        end
    end}.

%% Calls a server again and again: a call and its reply are four events.
call_on(Peer) ->
    [_ | _] = peer:call(Peer, application, which_applications, []),
    receive after 20 -> call_on(Peer) end.

%% A certificate that signs itself, which the client has no reason to trust, so it doesn't ask.
tls_options() ->
    Key = seqaudit_audits:file("tls.key"),
    Certificate = seqaudit_audits:file("tls.pem"),
    {0, _} = seqaudit_test_shell:run(["openssl req -x509 -newkey rsa:2048 -nodes -days 2 -subj "
                                      "/CN=127.0.0.1 -keyout ",
                                      Key, " -out ", Certificate]),
    File = seqaudit_audits:file("tls.options"),
    ok = file:write_file(File,
                         io_lib:format("~p.~n",
                                       [[{server, [{certfile, Certificate}, {keyfile, Key}]},
                                         {client, [{verify, verify_none}]}]])),
    File.

collect(To, Variables) ->
    run([node_command(), " collect ", To, " --seconds 1 -o ", seqaudit_audits:file("reach")],
        Variables).

%% Another node with a long name, which this one isn't connected to.
with_node(Flags, Do) ->
    with_peer(Flags, fun(_Peer, Node) -> Do(Node) end).

with_peer(Flags, Do) ->
    Name = lists:append(["seqaudit_far_", os:getpid(), "_",
                         integer_to_list(erlang:unique_integer([positive]))]),
    {ok, Peer, Node} =
        peer:start_link(#{name => list_to_atom(Name), host => "127.0.0.1", longnames => true,
                          connection => standard_io, args => ["-setcookie", ?COOKIE | Flags]}),
    try Do(Peer, atom_to_list(Node))
    after peer:stop(Peer)
    end.
