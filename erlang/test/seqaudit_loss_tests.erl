%% Nodes and processes end while a trace is collected: nothing that came is lost.
-module(seqaudit_loss_tests).

-export([net_split_test_/0, killed_node_test_/0, out_of_reach_test_/0, killed_collector_test_/0,
         killed_leader_test_/0, lost_owner_test_/0, stray_calls_test_/0, other_disk_test_/0,
         late_events_test/0, written_over_test/0, broken_port_test/0, told_at_once_test/0,
         broken_disk_test_/0, stray_tokens_test_/0, own_events_test/0, late_names_test_/0,
         refused_options_test/0, unread_test_/0]).

%% Runs a test of this name on a second node.
on_two(What, Test) ->
    {timeout, 60, fun() -> seqaudit_test_nodes:with_second(What, Test) end}.

begin_on(There, Name, Options) ->
    File = seqaudit_audits:file(Name),
    ok = seqaudit_trace:start(Options#{name => File, nodes => [node(), There]}),
    [_, _] = Folders = seqaudit_trace:folders(),
    {File, [Folder || {_, Folder} <- Folders]}.

print(There, What) ->
    ok = erpc:call(There, seqaudit_test_server, print, [1, What]).

until(Done) -> seqaudit_test_nodes:until(Done).
on_disk(Folder, Count) -> seqaudit_test_nodes:on_disk(Folder, Count).
is_traced(Node) -> seqaudit_test_nodes:is_traced(Node).

%% The messages of the prints in a file of events.
printed(File) ->
    {ok, Collections} = seqaudit_test_files:read(File ++ ".events"),
    [What || #{events := Events} <- Collections,
             {seq_trace, 1, {print, _, _, _, What}} <- Events].

one_note(Part, Notes) ->
    [_] = [Note || Note <- Notes, string:find(Note, Part) =/= nomatch],
    ok.

removed(Folders) ->
    [] = [Folder || Folder <- Folders, filelib:is_dir(Folder)].

net_split_test_() ->
    on_two("net split", fun(There) ->
        {File, Folders} = begin_on(There, "split", #{}),
        Tracer = erpc:call(There, seq_trace, get_system_tracer, []),
        ok = print(There, before),
        true = erlang:disconnect_node(There),
        until(fun() -> not is_led(There) end),
        until(fun() -> net_kernel:connect_node(There) =:= true end),
        ok = print(There, behind),
        until(fun() -> is_led(There) end),
        Tracer = erpc:call(There, seq_trace, get_system_tracer, []),
        {ok, #{events := 2, dropped := 0, notes := Notes}} = seqaudit_trace:stop(),
        [before, behind] = printed(File),
        ok = one_note("the connection was lost once", Notes),
        false = erpc:call(There, seq_trace, get_system_tracer, []),
        removed(Folders)
    end).

%% Whether the collector there is led from here: then the process that leads it has a monitor on it.
is_led(There) ->
    {monitors, Monitors} = process_info(whereis(seqaudit_trace), monitors),
    [] =/= [Pid || {process, Pid} <- Monitors, node(Pid) =:= There].

%% A node that is killed leaves on the disk what came until a tick before.
killed_node_test_() ->
    on_two("killed node", fun(There) ->
        {File, [_, Folder] = Folders} = begin_on(There, "killed_node", #{}),
        ok = print(There, before),
        seqaudit_test_server:print(1, here),
        on_disk(Folder, 1),
        seqaudit_test_nodes:kill(There),
        {ok, #{events := 2, notes := Notes}} = seqaudit_trace:stop(),
        [before, here] = lists:sort(printed(File)),
        ok = one_note("the node was lost, or the connection to it; what it wrote before, 1 event, "
                      "is here", Notes),
        removed(Folders)
    end).

%% A node is gone with its disk: the notes say where the events are.
out_of_reach_test_() ->
    on_two("out of reach", fun(There) ->
        {File, [_, Folder] = Folders} = begin_on(There, "no_reach", #{}),
        ok = print(There, away),
        on_disk(Folder, 1),
        seqaudit_test_nodes:kill(There),
        {ok, #{events := 0, notes := Notes}} = apart(fun seqaudit_trace:stop/0),
        [Left] = [Each || Each <- Folders, filelib:is_dir(Each),
                          [] =/= [Note || Note <- Notes, string:find(Note, Each) =/= nomatch]],
        ok = one_note("`seqaudit-node convert' takes that folder", Notes),
        {ok, #{events := 1}} = seqaudit_convert:from_files([Left], File),
        [ok = seqaudit_spool:remove(Each) || Each <- Folders, filelib:is_dir(Each)]
    end).

%% Events that can't be fetched, as while a connection is away, stay where they are, and the notes
%% say where.
unread_test_() ->
    on_two("unread", fun(There) ->
        {File, [_, Folder] = Folders} = begin_on(There, "unread", #{}),
        ok = print(There, kept),
        on_disk(Folder, 1),
        {module, _} =
            erpc:call(There, code, load_binary, [seqaudit_spool, "unreadable", unreadable()]),
        {ok, #{events := 0, notes := Notes}} = apart(fun seqaudit_trace:stop/0),
        ok = one_note("of what was collected couldn't be read; they are in ", Notes),
        [Left] = [Each || Each <- Folders, filelib:is_dir(Each)],
        {ok, #{events := 1}} = seqaudit_convert:from_files([Left], File),
        ok = seqaudit_spool:remove(Left)
    end).

%% The module that reads there, with a function that doesn't.
unreadable() ->
    {ok, {_, [{abstract_code, {_, Forms}}]}} =
        beam_lib:chunks(code:which(seqaudit_spool), [abstract_code]),
    {ok, _, Module} = compile:forms([case Form of
                                         {function, At, read, 3, _} ->
                                             Any = [{var, At, '_'} || _ <- [file, offset, size]],
                                             Exit = {call, At, {atom, At, exit},
                                                     [{atom, At, away}]},
                                             {function, At, read, 3,
                                              [{clause, At, Any, [], [Exit]}]};
                                         _ -> Form
                                     end || Form <- Forms], [return_errors]),
    Module.

%% As if the nodes had no disk in common.
apart(Do) ->
    ok = application:set_env(seqaudit, shared_disk, false),
    try Do() after application:unset_env(seqaudit, shared_disk) end.

other_disk_test_() ->
    on_two("other disk", fun(There) ->
        {File, Folders} = begin_on(There, "other_disk", #{}),
        [ok = print(There, {K, lists:duplicate(1_000, K)}) || K <- lists:seq(1, 3_000)],
        {ok, #{events := 3_000}} = apart(fun seqaudit_trace:stop/0),
        3_000 = length(printed(File)),
        removed(Folders)
    end).

killed_collector_test_() ->
    [killed_collector(Port) || Port <- [true, false]].

killed_collector(Port) ->
    on_two("killed collector", fun(There) ->
        {File, [_, Folder] = Folders} = begin_on(There, "killed_collector", #{port => Port}),
        ok = print(There, before),
        on_disk(Folder, 1),
        exit(erpc:call(There, erlang, whereis, [seqaudit_collector]), kill),
        until(fun() -> not is_traced(There) end),
        ok = print(There, behind),
        {ok, #{events := 1, notes := Notes}} = seqaudit_trace:stop(),
        [before] = printed(File),
        ok = one_note("its collector went down (killed)", Notes),
        removed(Folders)
    end).

%% Whoever leads the collection is killed: `stop' writes what came until then.
killed_leader_test_() ->
    on_two("killed leader", fun(There) ->
        {File, Folders} = begin_on(There, "killed_leader", #{}),
        ok = print(There, before),
        exit(whereis(seqaudit_trace), kill),
        until(fun() -> whereis(seqaudit_trace) =:= undefined andalso not is_traced(There) end),
        {error, left_over} = seqaudit_trace:start(#{name => File}),
        true = is_list(seqaudit_trace:format_error(left_over)),
        {ok, #{events := 1, notes := Notes}} = seqaudit_trace:stop(),
        [before] = printed(File),
        [_, _] = [Note || Note <- Notes,
                          string:find(Note,
                                      "the process that led the collection ended "
                                      "(killed)") =/= nomatch],
        {error, not_started} = seqaudit_trace:stop(),
        removed(Folders)
    end).

%% A collector whose owner's node doesn't come back ends by itself, and leaves what it has.
lost_owner_test_() ->
    on_two("lost owner", fun(There) ->
        Folder = filename:dirname(seqaudit_audits:file("x")),
        Owner = spawn(fun() -> receive stop -> ok end end),
        ok = seqaudit_trace:start(#{name => seqaudit_audits:file("x"), nodes => [There]}),
        {ok, _} = seqaudit_trace:stop(),
        {ok, Collector} = erpc:call(There, seqaudit_collector, start,
                                    [#{owner => Owner, port => true, grace => 300,
                                       folder => Folder}]),
        Spool = seqaudit_collector:folder(Collector),
        ok = print(There, before),
        true = erlang:disconnect_node(There),
        until(fun() ->
                  net_kernel:connect_node(There) =:= true
                      andalso not erpc:call(There, erlang, is_process_alive, [Collector])
              end),
        false = is_traced(There),
        {ok, #{events := 1, notes := Notes}} =
            seqaudit_convert:from_files([Spool], seqaudit_audits:file("lost_owner")),
        ok = one_note("out of reach for too long", Notes),
        ok = seqaudit_spool:remove(Spool),
        exit(Owner, kill)
    end).

stray_calls_test_() ->
    on_two("stray calls", fun(There) ->
        {File, _} = begin_on(There, "stray_calls", #{}),
        ok = print(There, before),
        {error, unknown_call} = gen_server:call(seqaudit_trace, stray),
        {error, unknown_call} = gen_server:call({seqaudit_collector, There}, stray),
        ok = gen_server:cast(seqaudit_trace, stray),
        seqaudit_trace ! stray,
        ok = print(There, behind),
        {ok, #{events := 2, notes := Notes}} = seqaudit_trace:stop(),
        [before, behind] = printed(File),
        ok = one_note("the collector got 1 message besides trace events", Notes)
    end).

%% A file that the port wrote over has no term where the collector looks for the next event; it goes
%% on.
written_over_test() ->
    seqaudit_test_nodes:on_port("written_over", fun written_over/0).

written_over() ->
    Name = seqaudit_audits:file("written_over"),
    ok = seqaudit_trace:start(#{name => Name}),
    Collector = whereis(seqaudit_collector),
    ok = seqaudit_test_server:print(1, before),
    [{_, Folder}] = seqaudit_trace:folders(),
    on_disk(Folder, 1),
    {Base, Suffix} = seqaudit_spool:base(Folder),
    ok = file:write_file(Base ++ "0" ++ Suffix, <<0, 3:32, 131, 1, 2>>, [append]),
    receive after 500 -> ok end,
    Collector = whereis(seqaudit_collector),
    true = is_traced(node()),
    {ok, #{notes := Notes}} = seqaudit_trace:stop(),
    [] = [Note || Note <- Notes, string:find(Note, "went down") =/= nomatch],
    [before] = printed(Name).

%% A trace file that can't be written any more, as on a full disk, ends the collecting with a note.
broken_port_test() ->
    seqaudit_test_nodes:on_port("broken_port", fun broken_port/0).

%% Whoever waits for the trace hears at once that a disk is full.
told_at_once_test() ->
    Self = self(),
    ok = seqaudit_trace:start(#{name => seqaudit_audits:file("told_at_once"), port => false,
                                tell => fun(Node, News) -> Self ! {told, Node, News} end}),
    Collector = whereis(seqaudit_collector),
    {links, Links} = process_info(Collector, links),
    [Writer] = [Pid || Pid <- Links, process_info(Pid, priority) =:= {priority, high}],
    Collector ! {seqaudit_scribe, Writer, enospc},
    receive {told, Node, {ended, {disk, enospc}}}
        when Node =:= node() -> ok after 30_000 -> error(not_told) end,
    {ok, _} = seqaudit_trace:stop().

broken_port() ->
    Name = seqaudit_audits:file("broken_port"),
    ok = seqaudit_trace:start(#{name => Name}),
    ok = seqaudit_test_server:print(1, before),
    [{_, Folder}] = seqaudit_trace:folders(),
    on_disk(Folder, 1),
    exit(seq_trace:get_system_tracer(), enospc),
    until(fun() ->
              {links, Links} = process_info(whereis(seqaudit_collector), links),
              [] =:= [Port || Port <- Links, is_port(Port)]
          end),
    false = seq_trace:get_system_tracer(),
    {ok, #{events := 1, notes := Notes}} = seqaudit_trace:stop(),
    ok = one_note("the trace file couldn't be written (enospc)", Notes).

%% Without a trace port: a disk that is full, and a process that wrote and is gone.
broken_disk_test_() ->
    [{timeout, 60, fun() ->
         ok = seqaudit_trace:start(#{name => seqaudit_audits:file("broken_disk"), port => false}),
         ok = seqaudit_test_server:print(1, before),
         Collector = whereis(seqaudit_collector),
         {links, Links} = process_info(Collector, links),
         [Writer] = [Pid || Pid <- Links, process_info(Pid, priority) =:= {priority, high}],
         [{_, Folder}] = seqaudit_trace:folders(),
         on_disk(Folder, 1),
         Break(Collector, Writer),
         until(fun() -> seq_trace:get_system_tracer() =:= false end),
         {ok, #{events := 1, dropped := 0, notes := Notes}} = seqaudit_trace:stop(),
         ok = one_note(["the trace file couldn't be written (", Why, ")"], Notes)
     end} || {Why, Break} <-
                 [{"enospc", fun(To, Writer) -> To ! {seqaudit_scribe, Writer, enospc} end},
                 {"killed", fun(_, Writer) -> exit(Writer, kill) end}]].

%% The collector waits for events that are on their way when the tracer is taken off.
late_events_test() ->
    Name = seqaudit_audits:file("late"),
    ok = seqaudit_trace:start(#{name => Name, port => false}),
    Collector = whereis(seqaudit_collector),
    true = erlang:suspend_process(Collector),
    {Stopper, Monitor} = spawn_monitor(fun() -> {ok, #{events := 1}} = seqaudit_trace:stop() end),
    until(fun() -> {messages, Waiting} = process_info(Collector, messages),
          lists:keymember(stop, 3, Waiting) end),
    Collector ! {seq_trace, 1, {print, {0, 1}, self(), [], late}},
    true = erlang:resume_process(Collector),
    receive {'DOWN', Monitor, process, Stopper, Reason} -> normal = Reason end,
    [late] = printed(Name).

%% A stray message with a token leaves the collector without one.
stray_tokens_test_() ->
    [{timeout, 60, fun() ->
         ok = seqaudit_trace:start(#{name => seqaudit_audits:file("tokens"), port => Port}),
         Collector = whereis(seqaudit_collector),
         %% Looked at before the next message, which would take the token away anyhow.
         [begin
              seqaudit_trace:with_trace(1, fun() -> Stray(Collector) end),
              seqaudit_test_nodes:await_collector(),
              {sequential_trace_token, []} = process_info(Collector, sequential_trace_token)
          end || Stray <- [fun(To) -> To ! stray end,
                           fun(To) -> gen_server:cast(To, stray) end,
                           fun(To) -> {error, unknown_call} = gen_server:call(To, stray) end]],
         {ok, #{notes := Notes}} = seqaudit_trace:stop(),
         ok = one_note("the collector got 3 messages besides trace events", Notes)
     end} || Port <- [true, false]].

%% Events that name the collector are counted and left out.
own_events_test() ->
    Name = seqaudit_audits:file("own"),
    ok = seqaudit_trace:start(#{name => Name}),
    Collector = whereis(seqaudit_collector),
    seqaudit_trace:with_trace(1, fun() -> Collector ! one, Collector ! two,
                              seq_trace:print(kept) end),
    seqaudit_test_nodes:await_collector(),
    {ok, #{events := 1, dropped := Dropped, notes := Notes}} = seqaudit_trace:stop(),
    true = Dropped >= 2 + 2,
    [Own] = [Note || Note <- Notes,
             string:find(Note, "events that named the collector") =/= nomatch],
    {match, [Count]} = re:run(Own, "left out ([0-9]+) events", [{capture, [1], list}]),
    true = list_to_integer(Count) >= 2.

%% A process that is named only after it was seen has its name at the end; one that came and went
%% has what it was started with.
late_names_test_() ->
    {timeout, 30, fun() ->
        Name = seqaudit_audits:file("late_names"),
        ok = seqaudit_trace:start(#{name => Name}),
        Self = self(),
        Late = spawn(fun() -> receive go -> Self ! gone, receive stop -> ok end end end),
        Short = seqaudit_test_server:start(fun(X) -> X end),
        seqaudit_trace:with_trace(1, fun() ->
            Late ! go,
            receive gone -> ok end,
            ok = gen_server:call(Short, ok)
        end),
        [{_, Folder}] = seqaudit_trace:folders(),
        seqaudit_test_nodes:met(Folder, [Late, Short]),
        ok = gen_server:stop(Short),
        true = register(seqaudit_test_late, Late),
        {ok, _} = seqaudit_trace:stop(),
        [<<"seqaudit_test_late">>, <<"seqaudit_test_server:init/1 <0.", _/binary>>] =
            [maps:get({process, list_to_binary(pid_to_list(Pid))}, seqaudit_test_traces:terms(Name))
             || Pid <- [Late, Short]],
        exit(Late, kill)
    end}.

refused_options_test() ->
    [begin
         {error, {option, Option, Value} = Reason} = seqaudit_trace:start(#{Option => Value}),
         true = is_list(seqaudit_trace:format_error(Reason)),
         undefined = whereis(seqaudit_trace)
     end || {Option, Value} <- [{nodes, []}, {nodes, here}, {name, 17}, {name, ""},
                                {bytes, 0}, {reset, yes}, {folder, 1}, {trigger, {a, b, 1}},
                                {trigger, #{function => {a, b, 1}, label => 1, times => true,
                                            calls => 0}}]],
    {error, {node, _, {trigger, {no_function, {shop, nothing, 9}}} = Missing}} =
        seqaudit_trace:start(#{name => seqaudit_audits:file("refused"),
                               trigger => #{function => {shop, nothing, 9}, label => 1,
                                            times => false}}),
    true = is_list(seqaudit_trace:format_error({node, node(), Missing})),
    {error, {node, _, {file, _, enoent}}} =
        seqaudit_trace:start(#{name => seqaudit_audits:file("refused"),
                               folder => "/no/such/folder"}),
    false = seq_trace:get_system_tracer(),
    ok.
