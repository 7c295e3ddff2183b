%% Calls set tokens as they are told to, and nobody else who traces is disturbed.
-module(seqaudit_trigger_tests).

-export([beside_dbg_test_/0, session_test_/0, ends_its_own_test/0, conditions_test/0,
         several_functions_test/0, calls_test/0, calls_of_a_loop_test/0, label_of_each_call_test/0,
         label_words_test/0, calls_in_a_second_test_/0, control_word_test/0, words_test/0]).
%% Called by name.
-export([ordered/1, order/1, loop/1, begin_dbg/0, counted/0]).

%% Before OTP 27 somebody's tracing is found and named, and goes on; from then on both trace.
beside_dbg_test_() ->
    {timeout, 120, fun() ->
        seqaudit_test_nodes:on_port("beside dbg", fun() ->
            seqaudit_test_nodes:with_second("beside dbg", fun beside_dbg/1)
        end)
    end}.

beside_dbg(There) ->
    {_, Binary, File} = code:get_object_code(?MODULE),
    {module, _} = erpc:call(There, code, load_binary, [?MODULE, File, Binary]),
    ok = erpc:call(There, seqaudit_test_server, begin_shop, []),
    {ok, _} = erpc:call(There, ?MODULE, begin_dbg, []),
    {ok, _} = erpc:call(There, dbg, p, [all, [call]]),
    {ok, _} = erpc:call(There, dbg, tpl, [?MODULE, ordered, 1, []]),
    _ = erpc:call(There, erlang, spawn, [?MODULE, loop, [0]]),
    Goes = fun() ->
                   Before = erpc:call(There, ?MODULE, counted, []),
                   seqaudit_test_nodes:until(fun() ->
                       erpc:call(There, ?MODULE, counted, []) > Before + 5 end)
           end,
    Goes(),
    HasSessions = has_sessions(),
    [begin
         {Status, Said} = collect(There, Function),
         case {HasSessions, Status} of
             {true, 0} ->
                 [{_, _} = binary:match(Said, <<"events of 1 process">>)
                  || Function =:= "ordered/1"];
             {false, 4} ->
                 {_, _} = binary:match(Said, Sentence),
                 {_, _} = binary:match(Said, <<" (dbg); before OTP 27">>)
         end,
         false = erpc:call(There, seq_trace, get_system_tracer, []),
         Goes()
     end || {Function, Sentence} <-
                [{"ordered/1", <<":ordered/1 is traced already for process <0.">>},
                 {"order/1", <<" calls are traced already for process <0.">>}]],
    ok = erpc:call(There, dbg, stop, []),
    {0, _} = collect(There, "ordered/1"),
    {flags, []} = erpc:call(There, erlang, trace_info, [new, flags]).

begin_dbg() ->
    Counter = counters:new(1, []),
    ok = persistent_term:put(?MODULE, Counter),
    dbg:tracer(process,
               {fun({trace, _, call, _}, _) -> counters:add(Counter, 1, 1); (_, _) -> ok end, ok}).

%% How many calls dbg was told of.
counted() ->
    counters:get(persistent_term:get(?MODULE), 1).

collect(There, Function) ->
    seqaudit_test_shell:run([seqaudit_test_shell:node_command(), " collect --node ",
                             atom_to_list(There), " --trigger ",
                             atom_to_list(?MODULE), $:, Function, " --label 1 --seconds 1 -o ",
                             seqaudit_audits:file("beside_dbg")], seqaudit_test_shell:cookie()).

%% From OTP 27 on somebody else is told of the same calls before, while and after they set tokens,
%% and a collector that is killed takes its session with it.
session_test_() ->
    {timeout, 60, fun() ->
        case has_sessions() of
            true -> in_session();
            false -> io:format(user, "trace sessions: skipped, they come with OTP 27~n", [])
        end
    end}.

in_session() ->
    1 = erlang:trace_pattern({?MODULE, ordered, 1}, true, [local]),
    0 = erlang:trace(new, true, [call]),
    told(1),
    [2, 3] = triggered(#{function => {?MODULE, ordered, 1}}, fun() -> [told(N) || N <- [2, 3]] end),
    told(4),
    Name = seqaudit_audits:file("in_session"),
    ok = seqaudit_trace:start(#{name => Name,
                                trigger => trigger(#{function => {?MODULE, ordered, 1}})}),
    true = is_pulled(),
    exit(whereis(seqaudit_collector), kill),
    seqaudit_test_nodes:until(fun() -> not is_pulled() end),
    told(5),
    _ = seqaudit_trace:stop(),
    0 = erlang:trace(new, false, [call]),
    1 = erlang:trace_pattern({?MODULE, ordered, 1}, false, [local]).

%% The test's process traces calls, and is told of one of its own.
told(What) ->
    called(ordered, What),
    receive {trace, _, call, {?MODULE, ordered, [What]}} -> ok after 60_000 ->
        error({not_told, What}) end.

has_sessions() -> code:ensure_loaded(trace) =:= {module, trace}.

%% Whether calls set tokens on this node.
is_pulled() ->
    case has_sessions() of
        true -> lists:keymember(seqaudit, 1, trace:session_info(all));
        false -> {flags, []} =/= erlang:trace_info(new, flags)
    end.

%% Somebody else who began to trace the function meanwhile keeps their match specification.
ends_its_own_test() ->
    Trigger = trigger(#{function => {?MODULE, ordered, 1}}),
    {ok, Pulled} = seqaudit_trigger:pull(Trigger),
    Theirs = [{[17], [], [{message, false}]}],
    1 = erlang:trace_pattern({?MODULE, ordered, 1}, Theirs, [local]),
    ok = seqaudit_trigger:release(Pulled),
    {match_spec, Theirs} = erlang:trace_info({?MODULE, ordered, 1}, match_spec),
    [{error, {trigger,
              {function_in_use, {?MODULE, ordered, 1}, []}}} = seqaudit_trigger:pull(Trigger)
     || not has_sessions()],
    {match_spec, Theirs} = erlang:trace_info({?MODULE, ordered, 1}, match_spec),
    1 = erlang:trace_pattern({?MODULE, ordered, 1}, false, [local]),
    false = is_pulled().

trigger(More) -> maps:merge(#{label => 1, times => false}, More).

conditions_test() ->
    {ok, Function} =
        seqaudit_calls:function("seqaudit_trigger_tests:ordered({N, Who}) when N > 5, Who =:= "
                                "\"me\""),
    [{7, "me"}, {8, "me"}] =
        triggered(#{functions => [Function]}, fun() ->
            [called(ordered, {N, Who}) || N <- [5, 7, 8], Who <- ["you", "me"]]
        end).

several_functions_test() ->
    Functions = [{{?MODULE, ordered, 1}, [{'_', []}]}, {{?MODULE, order, 1}, [{[2], []}]}],
    [1, 2, 2] = triggered(#{functions => Functions}, fun() ->
                    [called(Function, N) || N <- [1, 2], Function <- [ordered, order]]
                end),
    {error, {trigger, {no_function, {?MODULE, nothing, 1}}}} =
        seqaudit_trigger:pull(trigger(#{functions => Functions
                                        ++ [{{?MODULE, nothing, 1}, [{'_', []}]}]})),
    {error, {trigger, {no_match_specification, {?MODULE, order, 1}}}} =
        seqaudit_trigger:pull(trigger(#{functions => [hd(Functions),
                                                      {{?MODULE, order, 1},
                                                       [{['$1'], [{nonsense, 1}]}]}]})),
    %% Where one of them fails nothing is traced.
    [{traced, false} = erlang:trace_info({?MODULE, Function, 1}, traced)
     || Function <- [ordered, order]],
    false = is_pulled().

%% Only the first calls set a token.
calls_test() ->
    [1, 2, 3] = triggered(#{function => {?MODULE, ordered, 1}, calls => 3}, fun() ->
        [called(ordered, N) || N <- lists:seq(1, 20)]
    end),
    false = is_pulled(),
    0 = erlang:system_info(trace_control_word).

%% A process that calls again and again keeps its token, and its trace ends where it calls once more
%% than is allowed.
calls_of_a_loop_test() ->
    [1, 2, 3] = triggered(#{function => {?MODULE, ordered, 1}, calls => 3}, fun() ->
        {_, Monitor} =
            spawn_monitor(fun() ->
                [begin ?MODULE:ordered(N), timer:sleep(20) end || N <- lists:seq(1, 30)] end),
        receive {'DOWN', Monitor, process, _, normal} -> ok end
    end),
    false = is_pulled().

%% Each call has a label with its number or its arguments, also where so many are allowed in a
%% second.
label_of_each_call_test() ->
    Labels = fun(Function, Label, Calls) ->
                     {ok, {expression, Expression, Numbered}} = seqaudit_calls:label(Label),
                     {ok, Labelled} = seqaudit_calls:labelled(Function, Expression),
                     labelled(#{functions => [Labelled], label => Label, numbered => Numbered,
                                calls => Calls})
             end,
    Name = "seqaudit_trigger_tests:ordered",
    [{1, a}, {2, b}, {3, a}] = Labels(Name ++ "/1", "_", infinity),
    [{1, a}, {2, b}] = Labels(Name ++ "/1", "_", 2),
    [{a, a}, {b, b}, {a, a}] = Labels(Name ++ "(What)", "What", infinity),
    [{a, a}, {a, a}] = Labels(Name ++ "(What) when What =/= b", "What", infinity),
    [{N, a}, {M, b}, {_, a}] = Labels(Name ++ "/1", "_", {4_000, second}),
    true = N =/= M,
    0 = erlang:system_info(trace_control_word).

labelled(Trigger) ->
    Name = seqaudit_audits:file("labelled"),
    ok = seqaudit_trace:start(#{name => Name, trigger => Trigger#{times => false}}),
    [called(ordered, What) || What <- [a, b, a]],
    {ok, _} = seqaudit_trace:stop(),
    {ok, [#{events := Events}]} = seqaudit_test_files:read(Name ++ ".events"),
    [{Label, What} || {seq_trace, Label, {print, _, _, _, {ordered, What}}} <- Events].

calls_in_a_second_test_() ->
    {timeout, 60, fun() ->
        Self = self(),
        Triggered = triggered(#{function => {?MODULE, ordered, 1}, calls => {2, second}}, fun() ->
            [called(ordered, N) || N <- [1, 2, 3, 4]],
            Second = second(),
            seqaudit_test_nodes:until(fun() -> second() > Second end),
            [called(ordered, N) || N <- [5, 6, 7, 8]],
            Self ! {seconds, second()}
        end),
        %% On a busy machine a second may end between the calls.
        [1, 2] = Triggered -- [3, 4, 5, 6, 7, 8],
        true = lists:member(5, Triggered),
        receive {seconds, Seconds} -> true = length(Triggered) =< 2 * (Seconds + 1) end
    end}.

%% How many seconds have ended since calls set tokens, by the word in which they are counted.
second() -> erlang:system_info(trace_control_word) bsr 12.

%% Somebody else's use of the word in which calls are counted is found.
control_word_test() ->
    0 = erlang:system_flag(trace_control_word, 17),
    {error, {trigger, {word_in_use, 17} = Reason}} =
        seqaudit_trigger:pull(trigger(#{function => {?MODULE, ordered, 1}, calls => 1})),
    true = string:find(seqaudit_trigger:format_error(node(), Reason), "it is 17") =/= nomatch,
    {ok, Pulled} = seqaudit_trigger:pull(trigger(#{function => {?MODULE, ordered, 1}})),
    ok = seqaudit_trigger:release(Pulled),
    17 = erlang:system_flag(trace_control_word, 0),
    ok.

words_test() ->
    {ok, {{shop, order, 2}, [{'_', []}]}} = seqaudit_calls:function("shop:order/2"),
    {ok, {{shop, order, 2}, [{[apple, '$1'], [{'>', '$1', 10}]}]}} =
        seqaudit_calls:function("shop:order(apple, N) when N > 10"),
    {ok, {{'Elixir.Shop', order, 1}, [{['_'], []}]}} =
        seqaudit_calls:function("Elixir.Shop:order(_)"),
    {ok, {{shop, stop, 0}, [{[], []}]}} = seqaudit_calls:function("shop:stop()"),
    [{error, _} = seqaudit_calls:function(Word)
     || Word <- ["shop", "shop:order", "shop:order/x", "shop:order(", "shop:order(A) when",
                 "shop:order(A) when own(A)",
                 "shop:order(A) when B"]],
    {ok, 10} = seqaudit_calls:limit("10"),
    {ok, {5, second}} = seqaudit_calls:limit("5/s"),
    [{error, _} = seqaudit_calls:limit(Word) || Word <- ["0", "-1", "ten", "10/m", "0/s"]],
    ok.

label_words_test() ->
    {ok, {term, {order, 7}}} = seqaudit_calls:label("{order, 7}"),
    {ok, {expression, _, true}} = seqaudit_calls:label("_"),
    [{error, _} = seqaudit_calls:label(Word)
     || Word <- ["{order", "", "a, b", "f(x)", "{order, _}", "{order, N}"]],
    {ok, {expression, Unbound, false}} = seqaudit_calls:label("N"),
    {error, _} = seqaudit_calls:labelled("shop:order/2", Unbound),
    ok.

%% The prints under the tokens that these calls set.
triggered(Trigger, Do) ->
    Name = seqaudit_audits:file("triggered"),
    ok = seqaudit_trace:start(#{name => Name, trigger => trigger(Trigger)}),
    _ = Do(),
    {ok, _} = seqaudit_trace:stop(),
    {ok, [#{events := Events}]} = seqaudit_test_files:read(Name ++ ".events"),
    [What || {seq_trace, 1, {print, _, _, _, {ordered, What}}} <- Events].

%% A process calls the function, and ends.
called(Function, What) ->
    {_, Monitor} = spawn_monitor(?MODULE, Function, [What]),
    receive {'DOWN', Monitor, process, _, normal} -> ok end.

ordered(What) -> seq_trace:print({ordered, What}).

order(What) -> seq_trace:print({ordered, What}).

loop(N) ->
    ?MODULE:ordered(N),
    receive after 5 -> loop(N + 1) end.
