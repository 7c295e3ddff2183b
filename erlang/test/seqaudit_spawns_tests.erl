%% Services that spawn under their tokens: counters wrap, and what the spawner reports of a new
%% process may come late.
-module(seqaudit_spawns_tests).

-export([requests_are_whole_test_/0, births_come_first_test/0, only_births_move_test/0,
         answers_test/0, signs_test/0, children_that_spawn_test_/0, exit_test_/0,
         past_the_greatest_test_/0]).

%% Each request runs in a process of its own, calls the server, waits for a task that calls it, and
%% calls it again: 21 events with its print. Nothing is left out, by either tracer, whatever the
%% counters are.
requests_are_whole_test_() ->
    [{timeout, 300, {text(Requests, Port), fun() -> requests_are_whole(Requests, Port) end}}
     || Requests <- [20, 300, 3_000], Port <- [true, false]].

text(Requests, Port) -> lists:flatten(io_lib:format("~b requests, port ~p", [Requests, Port])).

requests_are_whole(Requests, Port) ->
    Name = seqaudit_audits:file("requests"),
    {ok, #{events := Events, dropped := 0}} = served(Name, Requests, #{port => Port}),
    %% A machine that is busy may not keep up with 3,000: then the collector says so.
    case seqaudit_test_traces:losses(Name) of
        [] -> is_whole(Name, Requests, Events);
        Losses ->
            [{_, _} = binary:match(Loss, <<"events came faster than they could be written">>)
             || Loss <- Losses]
    end.

is_whole(Name, Requests, Events) ->
    Events = 21 * Requests,
    {ok, Text} = file:read_file(Name ++ ".seqtrace"),
    <<"seqtrace 3\n", _/binary>> = Text,
    Events = length(binary:matches(Text, <<"{seq_trace,">>)),
    Answers = length(binary:matches(Text, <<"{answer,">>)),
    Answers = Requests,
    true = length(binary:matches(Text, <<",{-">>)) > Requests,
    %% Every process begins with its birth, so none sends before it has received.
    Streams = streams(Text),
    [] = [Events0 || [First | _] = Events0 <- maps:values(Streams), kind(First) =:= <<"send">>,
                     length(Events0) =< 6].

%% Processes that spawn one child each at once: the spawners' reports come late if the tracer is a
%% process.
children_that_spawn_test_() ->
    {timeout, 60, fun() ->
        Name = seqaudit_audits:file("children"),
        ok = seqaudit_trace:start(#{name => Name, port => false}),
        Self = self(),
        Spawners = [spawn(fun() -> receive go -> ok end, spawner({spawner, N}), Self ! done end)
                    || N <- lists:seq(1, 300)],
        [Spawner ! go || Spawner <- Spawners],
        [receive done -> ok end || _ <- Spawners],
        {ok, #{dropped := 0}} = seqaudit_trace:stop(),
        seqaudit_audits:fits(Name)
    end}.

spawner(Label) ->
    seqaudit_trace:with_trace(Label, fun() ->
        Child = spawn(fun() -> receive {From, asked} -> From ! {self(), done} end end),
        Child ! {self(), asked},
        receive {Child, done} -> ok end
    end).

%% A process that doesn't trap exits gets no message of the end of one that is linked with it.
exit_test_() ->
    {timeout, 60, fun() -> seqaudit_audits:with_gemshowal("an exit", fun(_) -> exits() end) end}.

exits() ->
    Name = seqaudit_audits:file("exits"),
    ok = seqaudit_trace:start(#{name => Name}),
    {_, Ended} = spawn_monitor(fun() -> seqaudit_trace:with_trace(1, fun linked/0) end),
    receive {'DOWN', Ended, process, _, normal} -> ok end,
    {ok, #{dropped := 0}} = seqaudit_trace:stop(),
    {0, Said} = seqaudit_audits:gemshowal(["audit", Name]),
    {_, _} = binary:match(Said, <<"; 1 message has no reported receive, and may still wait, or "
                                  "told of an exit, which is no message if it isn't trapped\n">>).

linked() ->
    Child = spawn_link(fun() -> receive go_on -> ok end end),
    Monitor = monitor(process, Child),
    Child ! go_on,
    receive {'DOWN', Monitor, process, Child, normal} -> ok end.

%% The counters of two servers that have spawned under tokens are past 2^60, and show counts without
%% a minus, the second one a smaller count than it receives.
past_the_greatest_test_() ->
    {timeout, 60, fun() ->
        Name = seqaudit_audits:file("past_the_greatest"),
        Nothing = fun() -> ok end,
        [A, B] = Servers = [seqaudit_test_server:start(fun(Do) -> Do() end) || _ <- [1, 2]],
        [seqaudit_test_server:with_token(fun(_) ->
             gen_server:call(Server, fun() -> spawn(Nothing), ok end)
         end) || Server <- lists:duplicate(15, A) ++ lists:duplicate(30, B)],
        ok = seqaudit_trace:start(#{name => Name}),
        {_, Monitor} = spawn_monitor(fun() ->
            seqaudit_trace:with_trace(1, fun() ->
                [ok = gen_server:call(Server, Nothing) || Server <- Servers] end)
        end),
        receive {'DOWN', Monitor, process, _, normal} -> ok end,
        {ok, #{events := 8, dropped := 0}} = seqaudit_trace:stop(),
        [ok = gen_server:stop(Server) || Server <- Servers],
        {ok, <<"seqtrace 3\n", _/binary>>} = file:read_file(Name ++ ".seqtrace"),
        true = lists:all(fun(#{prev := Prev, this := This}) -> Prev >= 0 andalso This > 0 end,
                         seqaudit_test_traces:events(Name)),
        seqaudit_audits:with_gemshowal("past the greatest count", fun(_) ->
            {0, Said} = seqaudit_audits:gemshowal(["audit", Name]),
            {0, _} = binary:match(Said, <<"fits: 8 events of 3 processes; the counters of 2 "
                                          "processes go on from before; nothing is known">>)
        end)
    end}.

%% The receive of the request and the send of the reply go first, wherever they came.
births_come_first_test() ->
    {Events, _, _} = birth({erlang, apply, 2}),
    [Request, Received, Reply, Answer, Own] = Events,
    Expected = [<<"'receive'">>, <<"send">>, <<"print">>],
    [Expected = kinds("<0.31.0>", Order)
     || Order <- [[Request, Received, Reply, Answer, Own], [Request, Own, Received, Reply, Answer],
                  [Request, Own, Reply, Received, Answer], [Request, Received, Own, Answer,
                                                            Reply]]].

%% A message that only looks like one of a spawn stays where it came.
only_births_move_test() ->
    {[Request, {_, _, {_, _, _, Child, Message}}, _, _, Own], Parent, Child} =
        birth({erlang, apply, 2}),
    Forwarder = pid(40),
    Forwarded = {seq_trace, 1, {'receive', {7, 8}, Forwarder, Child, Message}},
    [<<"print">>, <<"'receive'">>] = kinds("<0.31.0>", [Request, Own, Forwarded]),
    true = is_pid(Parent).

%% The reply that `spawn' waits for is an answer; that of `spawn_request' is a receive. Only a text
%% of version 3 says so.
answers_test() ->
    Kinds = fun(Call, Change) ->
                    {Events, _, _} = birth(Call),
                    kinds("<0.30.0>", [Change(Event) || Event <- Events])
            end,
    Wrap = fun({seq_trace, Label, {Kind, {Prev, This}, From, To, Message}}) ->
                   {seq_trace, Label, {Kind, {Prev - 100, This - 100}, From, To, Message}}
           end,
    [<<"send">>, <<"'receive'">>] = Kinds({erlang, apply, 2}, fun(Event) -> Event end),
    [<<"send">>, <<"answer">>] = Kinds({erlang, apply, 2}, Wrap),
    [<<"send">>, <<"'receive'">>] = Kinds({erts_internal, spawn_init, 1}, Wrap).

%% Counts are as the node prints them; a number that no node has is no serial. A count that isn't
%% above the other number is of a counter past 2^60, unless such counts go on from 1, as those of a
%% token that a process made while it had none and put back.
signs_test() ->
    Print = fun(Prev, This) -> {seq_trace, 1, {print, {Prev, This}, self(), [], seen}} end,
    Least = -(1 bsl 59),
    #{seqtrace := Text, dropped := 0} = converted([Print(-3, Least)]),
    {match, _} = re:run(Text, "^seqtrace 3\n.*\n.*\\{print,\\{-3,-576460752303423488\\},"),
    #{dropped := 1} = converted([Print(Least - 1, 5)]),
    [1, 1, 1, 3, 3, 3] =
        [version([Print(Prev, This) || {Prev, This} <- Serials])
         || Serials <- [[{3, -Least - 1}], [{7, 1}, {7, 2}, {7, 3}], [{7, 1}, {0, 8}, {7, 2}],
                        [{7, 2}], [{7, 1}, {7, 3}], [{7, 0}]]].

version(Events) ->
    #{seqtrace := <<"seqtrace ", Version, $\n, _/binary>>} = converted(Events),
    Version - $0.

%% The request and its receive, the reply and its receive, and a print of the child.
birth(Call) ->
    [Parent, Child] = [pid(30), pid(31)],
    Reference = make_ref(),
    Request = {spawn_request, Reference, Parent, Parent, Call, [], spawn_reply, []},
    Reply = {spawn_reply, Reference, ok, Child},
    {[{seq_trace, 1, {send, {0, 1}, Parent, Child, Request}},
      {seq_trace, 1, {'receive', {0, 1}, Parent, Child, Request}},
      {seq_trace, 1, {send, {1, 2}, Child, Parent, Reply}},
      {seq_trace, 1, {'receive', {1, 2}, Child, Parent, Reply}},
      {seq_trace, 1, {print, {1, 3}, Child, [], born}}], Parent, Child}.

kinds(Process, Events) ->
    #{seqtrace := Text} = converted(Events),
    [kind(Line) || Line <- maps:get(list_to_binary(Process), streams(Text))].

converted(Events) ->
    seqaudit_test_files:convert([#{node => node(), events => Events}]).

%% The lines of each process.
streams(Text) ->
    [_ | Processes] = binary:split(Text, <<"process ">>, [global]),
    maps:from_list([{Pid, Lines} || Process <- Processes,
                                    [Pid | Lines] <- [binary:split(Process, <<"\n">>,
                                                                   [global, trim_all])]]).

kind(Line) ->
    {match, [Kind]} = re:run(Line, "^\\{seq_trace,[0-9]+,\\{([^,]*),", [{capture, [1], binary}]),
    Kind.

pid(Number) -> list_to_pid("<0." ++ integer_to_list(Number) ++ ".0>").

%% A service of requests one after the other, each under a label and in a process of its own.
served(Name, Requests, Options) ->
    Server = seqaudit_test_server:start(fun(X) -> X end),
    ok = seqaudit_trace:start(Options#{name => Name}),
    [begin
         {Pid, Monitor} = spawn_monitor(seqaudit_test_services, request, [Server, Number]),
         receive {'DOWN', Monitor, process, Pid, normal} -> ok end
     end || Number <- lists:seq(1, Requests)],
    seqaudit_trace:stop().
