%% @doc Calls of functions that set a token on this node, by match specifications, which send no
%% message.
%%
%% From OTP 27 on the calls are traced in a session of their own. Before, nothing is begun beside
%% somebody else's tracer or match specification. Calls are traced for a process that is linked with
%% the caller: whatever ends that takes the tracing off, and nobody else's.
%%
%% Calls are counted in the node's trace control word, which match specifications can read and set.
%% Calls on several schedulers at once may read the same number.
-module(seqaudit_trigger).

-export([is_valid/1, pull/1, tick/1, release/1, format_error/2]).
-export_type([trigger/0, pulled/0]).

%% They are there from OTP 27 on, and called only then.
-ignore_xref([{trace, session_create, 3}, {trace, session_destroy, 1}, {trace, function, 4},
              {trace, process, 4}]).

-import(seqaudit_errors, [text/2]).

%% To ask a process who traces it wakes it, and a node may have millions.
-define(ASKED, 1_000).
-define(SECOND_MS, 1_000).

%% Bits of the word that count the calls in a second; the others number the second.
-define(SECOND_BITS, 12).
-define(MOST_IN_SECOND, (1 bsl ?SECOND_BITS - 1)).
-define(WORD, 16#FFFF_FFFF).

-type clause() :: {Head :: '_' | [term()], Guards :: [term()]}
                | {Head :: [term()], Guards :: [term()], Label :: term()}.
%% The pattern of the arguments, as in a match specification; and the label as an expression in its
%% body, if it isn't that of the trigger.

-type trigger() :: #{function => mfa(), functions => [{mfa(), [clause()]}], label := term(),
                     times := boolean(),
                     calls => infinity | pos_integer() | {pos_integer(), second},
                     numbered => boolean()}.
%% `numbered' says whether the labels of clauses have the number of the call (`get_tcw'). Whoever
%% calls one of these functions gets a token with this label: `function' by any call of it, of
%% `functions' by those that one of the clauses matches; `times': whether the events have
%% timestamps; `calls': how many calls may set a token, in all or in a second.

-record(pulled, {functions :: [{mfa(), [term()]}],
                 tracer :: pid(),
                 session :: default | term(),
                 calls :: infinity | pos_integer() | {pos_integer(), second},
                 counts :: boolean(),
                 since :: integer()}).

-opaque pulled() :: #pulled{}.

%% @doc Whether this is a trigger, or `none'.
-spec is_valid(term()) -> boolean().
is_valid(none) -> true;
is_valid(#{label := _, times := Times} = Trigger) ->
    is_boolean(Times) andalso functions(Trigger) =/= []
        andalso lists:all(fun is_function_with_clauses/1, functions(Trigger))
        andalso is_limit(maps:get(calls, Trigger, infinity));
is_valid(_) -> false.

is_function_with_clauses({{M, F, A}, Clauses}) ->
    is_atom(M) andalso is_atom(F) andalso is_integer(A) andalso A >= 0 andalso A =< 255
        andalso is_list(Clauses) andalso Clauses =/= [];
is_function_with_clauses(_) -> false.

is_limit(infinity) -> true;
is_limit({Calls, second}) -> is_limit(Calls) andalso Calls =< ?MOST_IN_SECOND;
is_limit(Calls) -> is_integer(Calls) andalso Calls > 0.

functions(#{functions := Functions}) when is_list(Functions) -> Functions;
functions(#{function := Function}) -> [{Function, [{'_', []}]}];
functions(_) -> [].

%% @doc From now on calls set the token.
-spec pull(trigger() | none) -> {ok, pulled() | none} | {error, {trigger, term()}}.
pull(none) ->
    {ok, none};
pull(Trigger) ->
    Calls = maps:get(calls, Trigger, infinity),
    Counts = Calls =/= infinity orelse maps:get(numbered, Trigger, false),
    Functions = [{Function, specification(Clauses, Trigger, Calls, Counts)}
                 || {Function, Clauses} <- functions(Trigger)],
    _ = [code:ensure_loaded(Module) || {{Module, _, _}, _} <- Functions],
    HasSessions = has_sessions(),
    Others = [Reason || not HasSessions,
              Reason <- in_use([Function || {Function, _} <- Functions])],
    case Others ++ word_in_use(Counts) of
        [] ->
            Tracer = spawn_link(fun() -> receive stop -> ok end end),
            set(#pulled{functions = Functions, tracer = Tracer,
                        session = session(HasSessions, Tracer), calls = Calls,
                        counts = Counts, since = erlang:monotonic_time(millisecond)});
        [Reason | _] ->
            {error, {trigger, Reason}}
    end.

%% A node that loads modules when they are called may not have loaded this one.
has_sessions() ->
    code:ensure_loaded(trace) =:= {module, trace}
        andalso erlang:function_exported(trace, session_create, 3).

session(true, Tracer) -> apply(trace, session_create, [seqaudit, Tracer, []]);
session(false, _Tracer) -> default.

%% A function that isn't there ends all: none is traced then.
set(#pulled{functions = Functions} = Pulled) ->
    Set = [{Function, set(Function, Specification, Pulled)}
           || {Function, Specification} <- Functions],
    case [{Reason, Function} || {Function, Reason} <- Set, Reason =/= ok] of
        [] ->
            _ = trace_all(Pulled),
            {ok, Pulled};
        [Reason | _] ->
            _ = take_off(Pulled#pulled{functions = [Entry || {Function, _} = Entry <- Functions,
                                                             lists:member({Function, ok}, Set)]}),
            {error, {trigger, Reason}}
    end.

set(Function, Specification, Pulled) ->
    try set_pattern(Function, Specification, Pulled) of
        0 -> no_function;
        _ -> ok
    catch
        error:_ -> no_match_specification
    end.

set_pattern(Function, Specification, #pulled{session = default}) ->
    erlang:trace_pattern(Function, Specification, [local]);
set_pattern(Function, Specification, #pulled{session = Session}) ->
    apply(trace, function, [Session, Function, Specification, [local]]).

trace_all(#pulled{session = default, tracer = Tracer}) ->
    erlang:trace(all, true, [call, {tracer, Tracer}]);
trace_all(#pulled{session = Session}) -> apply(trace, process, [Session, all, true, [call]]).

%% The clauses in turn, each with the condition that fewer calls than allowed set a token; and each
%% with what becomes of a token if no more are allowed.
specification(Clauses, #{times := Times} = Trigger, Calls, Counts) ->
    Flags = [send, 'receive', print],
    Times1 = [{set_seq_token, strict_monotonic_timestamp, true} || Times],
    Count = [{set_tcw, {'+', {get_tcw}, 1}} || Counts],
    [{Head, Guards ++ allowed(Calls),
      Count ++ [{set_seq_token, label, Label} | [{set_seq_token, Flag, true} || Flag <- Flags]]
          ++ Times1
          ++ [{message, false}]}
     || Clause <- Clauses, {Head, Guards, Label} <- [with_label(Clause, Trigger)]]
        ++ [{element(1, Clause), element(2, Clause) ++ [{is_seq_trace}],
             [{set_seq_token, Flag, false} || Flag <- Flags] ++ [{message, false}]}
            || Calls =/= infinity, Clause <- Clauses].

with_label({_, _, _} = Clause, _Trigger) -> Clause;
with_label({Head, Guards}, #{label := Label}) -> {Head, Guards, {const, Label}}.

allowed(infinity) -> [];
allowed({Calls, second}) -> [{'<', {'band', {get_tcw}, ?MOST_IN_SECOND}, Calls}];
allowed(Calls) -> [{'<', {get_tcw}, Calls}].

%% Looks for somebody else's tracing in the way. Patterns that a killed collector left have no
%% effect.
in_use(Functions) ->
    [{function_in_use, Function, owners()}
     || Function <- Functions, is_others(erlang:trace_info(Function, all))]
        ++ [{tracer_in_use, Owners} || [_ | _] = Owners <- [owners()]].

is_others({all, undefined}) -> false;
is_others({all, false}) -> false;
is_others({all, Known}) ->
    case lists:keyfind(match_spec, 1, Known) of
        {match_spec, [_ | _] = Specification} -> not lists:all(fun is_own/1, Specification);
        _ -> true
    end.

is_own({_, _, Acts}) ->
    lists:last(Acts) =:= {message, false} andalso lists:keymember(set_seq_token, 1, Acts);
is_own(_) -> false.

%% Who traces the calls of new processes, of registered ones, and of as many others as may be asked.
owners() ->
    Some = lists:sublist([Pid || Name <- registered(), Pid <- [whereis(Name)], is_pid(Pid)]
                         ++ processes(), ?ASKED),
    [owner(Tracer)
     || Tracer <- lists:usort([Tracer || Of <- [new | Some], Tracer <- tracer_of_calls(Of)])].

tracer_of_calls(Of) ->
    try {erlang:trace_info(Of, flags), erlang:trace_info(Of, tracer)} of
        {{flags, Flags}, {tracer, Tracer}} when is_list(Flags), Tracer =/= [] ->
            [Tracer || lists:member(call, Flags)];
        _ -> []
    catch
        error:badarg -> []
    end.

%% As its own node prints it: what it is called, and if it is one of `dbg', that.
owner(Tracer) when is_pid(Tracer), node(Tracer) =:= node() ->
    Dbg = whereis(dbg),
    case process_info(Tracer, [registered_name, links]) of
        [{registered_name, Name}, _] when is_atom(Name) -> {pid_to_list(Tracer), Name};
        [_, {links, Links}] ->
            {pid_to_list(Tracer), case lists:member(Dbg, Links) of true -> dbg; false -> none end};
        undefined -> {pid_to_list(Tracer), none}
    end;
owner(Tracer) ->
    {lists:flatten(io_lib:format("~0tp", [Tracer])), none}.

word_in_use(Counts) ->
    [{word_in_use, Word} || Counts, Word <- [erlang:system_info(trace_control_word)], Word =/= 0].

%% @doc To be called a few times a second: a new second allows new calls.
-spec tick(Pulled) -> Pulled when Pulled :: pulled() | none.
tick(#pulled{calls = {_, second}, since = Since} = Pulled) ->
    Now = erlang:monotonic_time(millisecond),
    case Now - Since >= ?SECOND_MS of
        true ->
            Second = (erlang:system_info(trace_control_word) bsr ?SECOND_BITS) + 1,
            _ = erlang:system_flag(trace_control_word, (Second bsl ?SECOND_BITS) band ?WORD),
            Pulled#pulled{since = Now};
        false -> Pulled
    end;
tick(Pulled) ->
    Pulled.

%% @doc Calls set no token any more. Those that are set stay.
-spec release(pulled()) -> ok.
release(#pulled{counts = Counts} = Pulled) ->
    _ = take_off(Pulled),
    _ = Counts andalso erlang:system_flag(trace_control_word, 0),
    ok.

%% A function that somebody else has begun to trace meanwhile keeps their match specification.
take_off(#pulled{functions = Functions, tracer = Tracer, session = Session}) ->
    case Session of
        default ->
            _ = [erlang:trace_pattern(Function, false, [local])
                 || {Function, _} <- Functions, not is_others(erlang:trace_info(Function, all))];
        _ ->
            _ = apply(trace, session_destroy, [Session])
    end,
    unlink(Tracer),
    exit(Tracer, kill).

-spec format_error(node(), term()) -> string().
format_error(Node, {no_function, {Module, Function, Arity}}) ->
    text("node ~ts has no function ~ts:~ts/~b; is its module loaded there, and is it spelled so?",
         [Node, Module, Function, Arity]);
format_error(Node, {no_match_specification, {Module, Function, Arity}}) ->
    text("node ~ts doesn't take this condition on the arguments of ~ts:~ts/~b",
         [Node, Module, Function, Arity]);
format_error(Node, {function_in_use, {Module, Function, Arity}, Owners}) ->
    text("on node ~ts ~ts:~ts/~b is traced already~ts; before OTP 27 a function can be traced only "
         "once, so ask them to end it, or trigger on another function",
         [Node, Module, Function, Arity, by(Owners)]);
format_error(Node, {tracer_in_use, Owners}) ->
    text("on node ~ts calls are traced already~ts; before OTP 27 each process has one tracer, so "
         "ask them to end it, or set tokens without --trigger", [Node, by(Owners)]);
format_error(Node, {word_in_use, Word}) ->
    text("on node ~ts somebody uses the trace control word (it is ~b), in which calls are counted; "
         "leave out --calls, or if a killed collector left it, call "
         "erlang:system_flag(trace_control_word, 0) there", [Node, Word]).

by([]) -> "";
by(Owners) ->
    [" for ", lists:join(", ", [case Name of
                                    none -> ["process ", Pid];
                                    _ -> text("process ~ts (~ts)", [Pid, Name])
                                end || {Pid, Name} <- Owners])].
