%% @doc Loads modules on another node, whichever release of OTP it runs, and takes them off again.
%%
%% A release may refuse what the compiler of another one writes. So a node of another release
%% than this one compiles the modules itself, from the forms that they have as debug information;
%% nothing of that touches its disk. A node of the same release loads them as they are, and so does
%% one without a compiler, which works where it is newer and still takes them. A node that has this
%% application itself keeps it.
-module(seqaudit_load).

-export([on/2, kept/2]).

-import(seqaudit_errors, [text/2]).

%% A busy node takes a while to compile a module of some hundred lines.
-define(REMOTE_MS, 60_000).

-type reason() :: {load | load_elsewhere, module(), term()} | {no_forms, module()}.

%% @doc Loads these modules there, but those of which the very same is loaded already.
-spec on(node(), [module()]) -> ok | {error, reason()}.
on(Node, Modules) ->
    try
        From = from(Node, erpc:call(Node, erlang, system_info, [otp_release], ?REMOTE_MS)),
        lists:foreach(fun(Module) -> load(From, Node, Module) end, Modules)
    catch
        throw:Reason -> {error, Reason}
    end.

%% Whether modules for this node are those that run here, or it compiles them.
from(Node, Release) ->
    case Release =:= erlang:system_info(otp_release) of
        true -> here;
        false ->
            case erpc:call(Node, code, ensure_loaded, [compile], ?REMOTE_MS) of
                {module, compile} -> compiled;
                {error, _} -> other_release
            end
    end.

load(From, Node, Module) ->
    {Module, Own, File} = code:get_object_code(Module),
    Binary = case From of
                 compiled -> compiled(Node, Module, Own);
                 _ -> Own
             end,
    There = try erpc:call(Node, Module, module_info, [md5], ?REMOTE_MS)
            catch error:{exception, undef, _} -> none
            end,
    %% Only the release that compiled a module can be sure to read it.
    {ok, {Module, Here}} = case From of
                               compiled -> erpc:call(Node, beam_lib, md5, [Binary], ?REMOTE_MS);
                               _ -> beam_lib:md5(Binary)
                           end,
    Here =:= There orelse load(From, Node, Module, File, Binary).

load(From, Node, Module, File, Binary) ->
    case erpc:call(Node, code, load_binary, [Module, File, Binary], ?REMOTE_MS) of
        {module, Module} -> ok;
        {error, Reason} when From =:= other_release -> throw({load_elsewhere, Module, Reason});
        {error, Reason} -> throw({load, Module, Reason})
    end.

compiled(Node, Module, Own) ->
    case erpc:call(Node, compile, noenv_forms, [forms(Module, Own), [binary, return_errors]],
                   ?REMOTE_MS) of
        {ok, Module, Binary} -> Binary;
        {ok, Module, Binary, _Warnings} -> Binary;
        {error, Reason, _} -> throw({load, Module, Reason});
        error -> throw({load, Module, compile})
    end.

forms(Module, Own) ->
    case beam_lib:chunks(Own, [abstract_code]) of
        {ok, {Module, [{abstract_code, {raw_abstract_v1, Forms}}]}} -> Forms;
        _ -> throw({no_forms, Module})
    end.

%% @doc Says which of these modules a node keeps, after taking them off if that is asked.
-spec kept(node(), Unload :: boolean()) -> string().
kept(Node, Unload) ->
    _ = Unload andalso unload(Node),
    case {loaded(Node), Unload} of
        {[], _} -> "";
        {Modules, false} ->
            text("  ~ts keeps the modules ~ts; --unload takes them off~n", [Node, listed(Modules)]);
        {Modules, true} ->
            text("  ~ts still runs the modules ~ts, so they stay~n", [Node, listed(Modules)])
    end.

listed(Modules) -> lists:join(", ", [atom_to_list(Module) || Module <- Modules]).

%% The modules of this application that a node has only because they were loaded there.
loaded(Node) when Node =:= node() -> [];
loaded(Node) ->
    try lists:sort([Module || Module <- erpc:call(Node, erlang, loaded, [], ?REMOTE_MS),
                              lists:prefix("seqaudit_", atom_to_list(Module)),
                              erpc:call(Node, code, where_is_file,
                                        [atom_to_list(Module) ++ ".beam"], ?REMOTE_MS)
                                  =:= non_existing,
                              code:which(Module) =/= non_existing])
    catch
        error:{erpc, _} -> []
    end.

%% Former code goes first, then what is loaded. What a process still runs stays.
unload(Node) ->
    Call = fun(Function, Module) ->
                   try erpc:call(Node, code, Function, [Module], ?REMOTE_MS)
                   catch error:{erpc, _} -> false
                   end
           end,
    [Call(soft_purge, Module) andalso Call(delete, Module) andalso Call(soft_purge, Module)
     || Module <- loaded(Node)].
