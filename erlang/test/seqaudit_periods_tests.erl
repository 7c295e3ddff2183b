%% Collecting goes on without a gap while it is looked at, period by period.
-module(seqaudit_periods_tests).

-export([rotate_test_/0, again_test_/0, other_tracer_test_/0, slow_disk_test_/0,
         cancel_on_slow_disk_test_/0, large_event_test/0, ended_test_/0, back_test_/0,
         wrapped_test_/0, quiet_test/0, rest_test/0, never_quiet_test/0, watch_test_/0,
         unaudited_test_/0, set_by_hand/0]).

%% No event is lost between two files, and processes keep their names.
rotate_test_() ->
    {timeout, 120, fun() ->
        [rotated(Port) || Port <- [true, false]]
    end}.

rotated(Port) ->
    Name = seqaudit_audits:file("rotated"),
    ok = seqaudit_trace:start(#{name => Name, port => Port}),
    Self = self(),
    Count = counters:new(1, []),
    Printer = spawn_link(fun() ->
                             true = register(printer, self()),
                             seqaudit_trace:with_trace(1, fun() -> print(1, Count, Self) end)
                         end),
    Files = [begin
                 Before = counters:get(Count, 1),
                 seqaudit_test_nodes:until(fun() -> counters:get(Count, 1) > Before + 1_000 end),
                 [{_, {ok, File}}] = seqaudit_trace:rotate(Name ++ "." ++ integer_to_list(N)),
                 File
             end || N <- lists:seq(1, 4)],
    Printer ! stop,
    receive {printed, Most} -> ok end,
    {ok, _} = seqaudit_trace:stop(),
    Printed = [numbers(File) || File <- Files ++ [Name ++ ".events"]],
    [] = [empty || [] <- lists:droplast(Printed)],
    true = lists:append(Printed) =:= lists:seq(1, Most),
    {ok, _} = seqaudit_convert:from_files([lists:nth(3, Files)], Name),
    {ok, Terms} = file:read_file(Name ++ ".terms"),
    {_, _} = binary:match(Terms, <<"\tprinter\t">>).

print(N, Count, To) ->
    seq_trace:print(N),
    ok = counters:put(Count, 1, N),
    N rem 20 =:= 0 andalso receive after 1 -> ok end,
    receive stop -> unregister(printer), To ! {printed, N}
    after 0 -> print(N + 1, Count, To)
    end.

numbers(File) ->
    {ok, [#{events := Events}]} = seqaudit_test_files:read(File),
    [case Printed of {N, _} -> N; N -> N end
     || {seq_trace, 1, {print, _, _, _, Printed}} <- Events].

%% A collector that ended by itself, or was killed, is begun again, and what it has is written with
%% the reason.
again_test_() ->
    [{timeout, 60, fun() -> begun_again(Port, Why, Break) end}
     || {Port, Why, Break} <-
            [{true, "the trace file couldn't be written (enospc)", fun break_port/0},
             {false, "the trace file couldn't be written (enospc)", fun break_scribe/0},
             {true, "its collector went down (killed)", fun kill_collector/0},
             {false, "its collector went down (killed)", fun kill_collector/0}]].

begun_again(Port, Why, Break) ->
    Name = seqaudit_audits:file("again"),
    ok = seqaudit_trace:start(#{name => Name, port => Port}),
    seqaudit_trace:with_trace(1, fun() -> seq_trace:print(1) end),
    [{_, Folder}] = seqaudit_trace:folders(),
    seqaudit_test_nodes:on_disk(Folder, 1),
    Break(),
    seqaudit_test_nodes:until(fun() -> seq_trace:get_system_tracer() =:= false end),
    seqaudit_trace:with_trace(1, fun() -> seq_trace:print(2) end),
    [{_, {again, Before}}] = seqaudit_trace:rotate(Name ++ ".1"),
    seqaudit_trace:with_trace(1, fun() -> seq_trace:print(3) end),
    [{_, {ok, Behind}}] = seqaudit_trace:rotate(Name ++ ".2"),
    {ok, _} = seqaudit_trace:stop(),
    {[1], [3]} = {numbers(Before), numbers(Behind)},
    {ok, #{notes := Notes}} = seqaudit_convert:from_files([Before], Name),
    [_] = [Note || Note <- Notes, string:find(Note, Why) =/= nomatch],
    false = filelib:is_dir(Folder).

break_port() ->
    case seq_trace:get_system_tracer() of
        Port when is_port(Port) -> exit(Port, enospc);
        _ -> break_scribe()
    end.

break_scribe() ->
    {links, Links} = process_info(whereis(seqaudit_collector), links),
    [Writer] = [Pid || Pid <- Links, process_info(Pid, priority) =:= {priority, high}],
    seqaudit_collector ! {seqaudit_scribe, Writer, enospc}.

kill_collector() -> exit(whereis(seqaudit_collector), kill).

%% A tracer that somebody else put there stays, and once it is gone collecting begins again.
other_tracer_test_() ->
    [{timeout, 60, fun() ->
         Name = seqaudit_audits:file("other_tracer"),
         ok = seqaudit_trace:start(#{name => Name, port => Port}),
         Other = spawn(timer, sleep, [infinity]),
         _ = seq_trace:set_system_tracer(Other),
         [{_, {gone, File, other_tracer}}] = seqaudit_trace:rotate(Name ++ ".1"),
         {ok, #{notes := Notes}} = seqaudit_convert:from_files([File], Name),
         [_] = [Note || Note <- Notes,
                string:find(Note, "another system tracer took the collector's") =/= nomatch],
         [{_, {error, other_tracer}}] = seqaudit_trace:rotate(Name ++ ".2"),
         Other = seq_trace:get_system_tracer(),
         _ = seq_trace:set_system_tracer(false),
         [{_, {again, none}}] = seqaudit_trace:rotate(Name ++ ".3"),
         seqaudit_trace:with_trace(1, fun() -> seq_trace:print(1) end),
         [{_, {ok, Behind}}] = seqaudit_trace:rotate(Name ++ ".4"),
         [1] = numbers(Behind),
         ok = seqaudit_trace:cancel(),
         exit(Other, kill)
     end} || Port <- [true, false]].

%% If the collector itself is the tracer, it goes on while a disk that takes its former files is
%% stuck; nothing is lost. The file of facts is a pipe here, which nobody reads at first.
slow_disk_test_() ->
    {timeout, 120, fun() ->
        {Name, Facts} = begin_slow(),
        Self = self(),
        _ = spawn_link(fun() -> Self ! {rotated, seqaudit_trace:rotate(Name ++ ".1")} end),
        print_in_pace(1, 4_000),
        receive {rotated, _} = Early -> error(Early) after 0 -> ok end,
        _ = spawn(fun() -> read_slow(Facts, 20) end),
        [{_, {ok, File}}] = receive {rotated, Rotated} -> Rotated end,
        print_in_pace(4_001, 4_010),
        {ok, #{notes := Notes}} = seqaudit_trace:stop(),
        [] = [Note || Note <- Notes, string:find(Note, "ended early") =/= nomatch],
        true = numbers(File) ++ numbers(Name ++ ".events") =:= lists:seq(1, 4_010),
        ok = file:del_dir_r(filename:dirname(Facts))
    end}.

%% Nor does whoever ends it wait for that disk.
cancel_on_slow_disk_test_() ->
    {timeout, 120, fun() ->
        {Name, Facts} = begin_slow(),
        _ = spawn(fun() -> seqaudit_trace:rotate(Name ++ ".1") end),
        Collector = whereis(seqaudit_collector),
        seqaudit_test_nodes:until(fun() ->
            seqaudit_collector:folder(Collector) =/= filename:dirname(Facts) end),
        print_in_pace(1, 10),
        ok = seqaudit_trace:cancel(),
        false = seq_trace:get_system_tracer(),
        read_slow(Facts, 1),
        ok = file:del_dir_r(filename:dirname(Facts))
    end}.

begin_slow() ->
    Name = seqaudit_audits:file("slow_disk"),
    ok = seqaudit_trace:start(#{name => Name, port => false}),
    [{_, Folder}] = seqaudit_trace:folders(),
    seqaudit_test_nodes:met(Folder, [whereis(init)]),
    Facts = filename:join(Folder, "facts"),
    ok = file:delete(Facts),
    [] = os:cmd("mkfifo " ++ Facts),
    {Name, Facts}.

read_slow(Facts, Seconds) ->
    [] = os:cmd(lists:concat(["timeout ", Seconds, " cat <>", Facts, " >/dev/null"])).

%% 1,000 of these events would be too many for the collector's queue. A process that is new has to
%% be asked for its name.
print_in_pace(First, Last) ->
    lists:foreach(fun(N) ->
                          {_, Monitor} = spawn_monitor(fun() -> print_large(N) end),
                          receive {'DOWN', Monitor, process, _, normal} -> ok end,
                          N rem 100 =:= 0 andalso seqaudit_test_nodes:await_collector()
                  end, lists:seq(First, Last)).

print_large(N) ->
    seqaudit_trace:with_trace(1, fun() -> seq_trace:print({N, binary:copy(<<0>>, 1_024)}) end).

%% One large event says nothing of those that wait behind it, and least of all right after the files
%% were exchanged.
large_event_test() ->
    Name = seqaudit_audits:file("large_event"),
    ok = seqaudit_trace:start(#{name => Name, port => false}),
    Print = fun(N) -> seq_trace:print(N), seqaudit_test_nodes:keep_pace() end,
    seqaudit_trace:with_trace(1, fun() -> lists:foreach(Print, lists:seq(1, 100)) end),
    [{_, {ok, _}}] = seqaudit_trace:rotate(Name ++ ".1"),
    Collector = whereis(seqaudit_collector),
    true = erlang:suspend_process(Collector),
    seqaudit_trace:with_trace(1, fun() ->
        seq_trace:print(binary:copy(<<0>>, 100_000)),
        [seq_trace:print(N) || N <- lists:seq(1, 100)]
    end),
    true = erlang:resume_process(Collector),
    {ok, #{events := 101, notes := Notes}} = seqaudit_trace:stop(),
    [] = [Note || Note <- Notes, string:find(Note, "ended early") =/= nomatch].

%% The last moment without a message under way is before the send of a message that nobody received
%% yet; one that waits since long doesn't count, nor does one whose send isn't there.
quiet_test() ->
    [A, B] = [self(), spawn(fun() -> ok end)],
    Send = fun(N) -> {seq_trace, 1, {send, {N - 1, N}, A, B, N}} end,
    Receive = fun(N) -> {seq_trace, 1, {'receive', {N - 1, N}, A, B, N}} end,
    Print = fun(N) -> {seq_trace, 1, {print, {N - 1, N}, A, [], N}} end,
    {4, 2} = cut([[Send(1), Receive(1), Send(2), Receive(2), Send(3), Print(4)]]),
    {6, 0} = cut([[Send(1), Send(2), Receive(2), Send(3), Receive(3), Print(4)]]),
    {4, 0} = cut([[Receive(9), Send(2), Receive(2), Print(4)]]),
    %% One of two that are alike, as when a token is put back, is under way yet; none of three that
    %% were received is.
    {2, 3} = cut([[Send(1), Receive(1), Send(1), Print(3), Print(4)]]),
    {4, 1} = cut([[Send(1), Send(1), Receive(1), Receive(1), Send(1)]]),
    {7, 0} = cut([[Send(1), Send(1), Receive(1), Send(1), Receive(1), Receive(1), Print(3)]]),
    %% One of three on two nodes is under way.
    {4, 4, 2, 1} =
        cut([[Print(7), Print(8), Send(1), Receive(1), Send(2), Send(2), Send(2), Receive(2)],
             [Print(3), Print(4), Receive(2)]]),
    %% On two nodes: what was sent here wasn't received there yet.
    {3, 1, 2, 0} = cut([[Send(1), Print(2), Print(3), Send(4)], [Receive(1), Print(5)]]).

%% How many events each part of each file has.
cut(Events) ->
    Names = [write(N, Own) || {N, Own} <- lists:enumerate(Events)],
    [Own, Rest] =
        [[seqaudit_audits:file(lists:append(["quiet", integer_to_list(N), Which, ".events"]))
          || N <- lists:seq(1, length(Names))] || Which <- ["_own", "_rest"]],
    ok = seqaudit_quiet:cut(Names, Own, Rest),
    list_to_tuple(lists:append([[count(First), count(Second)]
                                || {First, Second} <- lists:zip(Own, Rest)])).

write(N, Events) ->
    Name = seqaudit_audits:file("quiet" ++ integer_to_list(N)),
    {ok, Device} = seqaudit_events:open(Name),
    ok = seqaudit_events:begin_collection(Device, #{node => node()}),
    ok = file:write(Device,
                                seqaudit_spool:entry(#{processes => #{self() => #{name => tester}},
                                                       written => 17})),
    ok = file:write(Device, [[<<0, (byte_size(Bytes)):32>>, Bytes] || Event <- Events,
                                         Bytes <- [term_to_binary(Event)]]),
    ok = seqaudit_events:close(Device),
    Name ++ ".events".

%% Each part knows the processes that it names, if it has events.
count(File) ->
    {ok, [#{events := Events, processes := #{} = Processes}]} = seqaudit_test_files:read(File),
    [#{name := tester} = maps:get(self(), Processes) || Events =/= []],
    length(Events).

%% The rest of a period has its own collections and processes alone, or watching would take more
%% with each period.
rest_test() ->
    [A, B, C] = [spawn(fun() -> ok end) || _ <- [a, b, c]],
    Name = seqaudit_audits:file("rest"),
    {ok, Device} = seqaudit_events:open(Name),
    [begin
         ok = seqaudit_events:begin_collection(Device, #{node => node()}),
         ok = file:write(Device, [seqaudit_spool:entry(Facts) || Facts <- Known]),
         ok = file:write(Device, [[<<0, (byte_size(Bytes)):32>>, Bytes]
                                              || Event <- Events, Bytes <- [term_to_binary(Event)]])
     end || {Known, Events} <-
                [{[#{processes => #{A => #{name => a}}}, #{processes => #{B => #{name => b}}}],
                  [{seq_trace, 1, {print, {0, 1}, A, [], x}},
                   {seq_trace, 1, {print, {0, 1}, B, [], x}}]},
                 {[#{processes => #{A => #{name => a}, B => #{name => b}}},
                   #{processes => #{C => #{name => c}}}],
                  [{seq_trace, 1, {print, {1, 2}, A, [], x}},
                   {seq_trace, 1, {print, {0, 1}, C, [], x}},
                   {seq_trace, 1, {send, {1, 2}, C, B, x}}]}]],
    ok = seqaudit_events:close(Device),
    {4, 1} = cut_file(Name ++ ".events"),
    {ok, [#{processes := #{} = Left}]} =
        seqaudit_test_files:read(seqaudit_audits:file("rest_rest") ++ ".events"),
    [#{name := b}, #{name := c}] = [maps:get(Pid, Left) || Pid <- [B, C]],
    2 = map_size(Left).

cut_file(File) ->
    Parts = [filename:rootname(File) ++ Which ++ ".events" || Which <- ["_own", "_rest"]],
    [Own, Rest] = Parts,
    ok = seqaudit_quiet:cut([File], [Own], [Rest]),
    list_to_tuple([length(lists:append([Events || #{events := Events} <- Read]))
                   || Part <- Parts, {ok, Read} <- [seqaudit_test_files:read(Part)]]).

never_quiet_test() ->
    [A, B] = [self(), spawn(fun() -> ok end)],
    Events = lists:append([[{seq_trace, 1, {send, {N, N + 1}, A, B, N}},
                            {seq_trace, 1, {'receive', {N - 1, N}, A, B, N - 1}}]
                           || N <- lists:seq(1, 100)]),
    none = seqaudit_quiet:cut([write(1, Events)], [seqaudit_audits:file("x_own")],
                              [seqaudit_audits:file("x_rest")]).

%% A node under load is watched: what fits goes, a reset is kept with the periods beside it, and the
%% command ends at once.
watch_test_() ->
    with_gemshowal("w", fun watched/4).

with_gemshowal(Name, Test) ->
    {timeout, 600, fun() ->
        seqaudit_audits:with_gemshowal("watch", fun(Program) -> with_watch(Name, Program, Test) end)
    end}.

with_watch(Name, Gemshowal, Test) ->
    seqaudit_test_nodes:with_second("watch", fun(There) -> begun(There, Name, Gemshowal, Test) end).

%% The command watches a node with a service, and what it says goes to a file.
begun(There, Name, Gemshowal, Test) ->
    Folder = seqaudit_audits:file("watched_" ++ Name),
    _ = file:del_dir_r(Folder),
    ok = file:make_dir(Folder),
    Said = filename:join(Folder, "said"),
    _ = seqaudit_test_shell:begin_run(["echo $$ >", Folder, "/pid; exec ",
                                       seqaudit_test_shell:node_command(),
                                       " watch --node ",
                                       atom_to_list(There), " --every 2 -o ",
                                       filename:join(Folder, Name), " >", Said,
                                       " 2>&1"],
                                      [{"GEMSHOWAL", Gemshowal} | seqaudit_test_shell:cookie()]),
    seqaudit_test_nodes:until(fun() -> seqaudit_test_nodes:is_traced(There) end),
    Service = served(There, calls, 25),
    Says = fun(Pattern) ->
                   {ok, Text} = file:read_file(Said),
                   case re:run(Text, Pattern, [global, {capture, all, list}]) of
                       {match, Found} -> Found;
                       nomatch -> []
                   end
           end,
    {ok, Pid} = file:read_file(filename:join(Folder, "pid")),
    Kill = fun() -> os:cmd("kill -TERM " ++ string:trim(binary_to_list(Pid)) ++ " 2>&1") end,
    End = fun() ->
                  [] = Kill(),
                  {Status, _} = seqaudit_test_shell:ended(),
                  false = erpc:call(There, seq_trace, get_system_tracer, []),
                  Status
          end,
    try Test(There, filename:join(Folder, Name), Says, End)
    catch
        Class:Reason:Stack ->
            {ok, Lines} = file:read_file(Said),
            io:format(user, "watch said:~n~ts", [Lines]),
            erlang:raise(Class, Reason, Stack)
    after
        %% A command that a test didn't end would watch the node of the next one.
        Kill()
    end,
    exit(Service, kill).

%% The node has this module and a service.
served(There, Service, InSecond) ->
    [begin
         {_, Binary, File} = code:get_object_code(Module),
         {module, _} = erpc:call(There, code, load_binary, [Module, File, Binary])
     end || Module <- [?MODULE, seqaudit_test_server, seqaudit_test_services]],
    erpc:call(There, erlang, spawn, [seqaudit_test_services, Service, [InSecond]]).

%% Prints with serials that no process of a node gets by itself: a trace of them fits only if
%% something wasn't reported.
set_by_hand() ->
    seq_trace:set_token(label, 1),
    seq_trace:set_token(print, true),
    [begin
         seq_trace:set_token(serial, Serial),
         seq_trace:print(1, by_hand)
     end || Serial <- [{1, 5}, {2, 3}]],
    seq_trace:set_token([]),
    ok.

watched(There, Name, Says, End) ->
    seqaudit_test_nodes:until(fun() -> length(Says("period [0-9]+: fits.*: .* not kept")) >= 3 end),
    ok = erpc:call(There, ?MODULE, set_by_hand, []),
    seqaudit_test_nodes:until(fun() -> Says("period [0-9]+: fits if .*: ") =/= [] end),
    seqaudit_test_nodes:until(fun() ->
        Says("fits if .*: .*\n.*period [0-9]+: fits.*: .*; kept as ") =/= [] end),
    seqaudit_test_nodes:until(fun() -> length(Says("period [0-9]+: fits.*: .* not kept")) >= 5 end),
    Ended = erlang:monotonic_time(millisecond),
    1 = End(),
    Took = erlang:monotonic_time(millisecond) - Ended,
    io:format(user, "watch: ended in ~b ms~n", [Took]),
    %% On a machine with other work it may take longer than the second that it is to take.
    true = Took < 10_000,
    [[_, Unfit]] = Says("period ([0-9]+): fits if .*: "),
    Around = lists:sort([integer_to_list(list_to_integer(Unfit) + N) || N <- [-1, 0, 1]]),
    Around = lists:sort([Number || One <- filelib:wildcard(Name ++ ".*.seqtrace"),
                                   ["w", Number, "seqtrace"] <-
                                       [string:split(filename:basename(One), ".", all)]]),
    [_ | _] = Says("cut at a quiet moment"),
    [[_]] = Says("[0-9]+ periods, 3 kept; period [0-9]+, which was running, isn't audited\n"),
    [] = filelib:wildcard(Name ++ ".*.rest.events").

%% A collector that ended by itself is begun again: the line says since when what is lost, and the
%% next periods are whole.
ended_test_() ->
    with_gemshowal("ended", fun(There, Name, Says, End) ->
        seqaudit_test_nodes:until(fun() -> Says("period [0-9]+: fits.*: .* not kept") =/= [] end),
        ok = erpc:call(There, fun() -> _ = break_port(), ok end),
        seqaudit_test_nodes:until(fun() ->
            Says("period [0-9]+: .*; [^;]*: collecting ended early, at 2[^;]*: the trace file "
                 "couldn't be written "
                 "\\(enospc\\); cut at its end, [^ ]* had stopped collecting and began again; not "
                 "kept") =/= []
        end),
        seqaudit_test_nodes:until(fun() ->
            Says("began again; .*\n(.*period [0-9]+: fits.*: .*; not kept\n){3}") =/= []
        end),
        0 = End(),
        [] = filelib:wildcard(Name ++ ".*")
    end).

%% A node that went down and was started anew is watched again.
back_test_() ->
    with_gemshowal("back", fun(There, _Name, Says, End) ->
        seqaudit_test_nodes:until(fun() -> Says("period [0-9]+: fits.*: .* not kept") =/= [] end),
        seqaudit_test_nodes:kill(There),
        seqaudit_test_nodes:until(fun() ->
            Says("wasn't asked \\(it can't be reached\\)") =/= [] end),
        Stop = seqaudit_test_nodes:again(There),
        seqaudit_test_nodes:until(fun() ->
            Says("had stopped collecting and began again") =/= [] end),
        _ = served(There, calls, 25),
        seqaudit_test_nodes:until(fun() ->
            Says("began again; .*\n(.*\n)*.*period [0-9]+: fits.*: ") =/= [] end),
        0 = End(),
        Stop()
    end).

%% The periods of a service that spawns under its tokens fit too, though its counters wrap.
wrapped_test_() ->
    with_gemshowal("wrapped", fun(There, Name, Says, End) ->
        _ = served(There, spawns, 25),
        seqaudit_test_nodes:until(fun() ->
            length(Says("period [0-9]+: fits: .*; the counters? of .* from before; .*; not kept")) >= 3
        end),
        0 = End(),
        [] = filelib:wildcard(Name ++ ".*")
    end).

%% Without gemshowal each period is kept, and its line says that it wasn't audited, and what to do.
unaudited_test_() ->
    {timeout, 600, fun() ->
        with_watch("unaudited", "/no/such/gemshowal", fun(_There, Name, Says, End) ->
            Advice = "there is no /no/such/gemshowal, which the variable GEMSHOWAL names",
            seqaudit_test_nodes:until(fun() ->
                length(Says("period [0-9]+: [0-9]+ events, not audited: " ++ Advice
                            ++ "; cut .*; kept as ")) >= 2
            end),
            1 = End(),
            [[_]] = Says("seqaudit-node: " ++ Advice ++ "; periods are kept without an audit\n"),
            [_, _ | _] = filelib:wildcard(Name ++ ".*.seqtrace")
        end)
    end}.
