%% Programs that are hard to collect or to judge: services that spawn, each way to spawn, what ends
%% and links, what a node sends by itself, two nodes, and random programs that put tokens back. Each
%% is traced alone, and leaves FOLDER/PROGRAM.given: how its audit begins, and its events, without
%% what differs from run to run. `same_on_releases' compares those of two releases of OTP.
-module(seqaudit_hard_programs).
-behaviour(supervisor).

-export([main/1]).
%% Called by name.
-export([init/1, run/1, nothing/0, begun/0]).

-import(seqaudit_test_services, [awaited/1]).

-define(FIRST, seqaudit_hard_first).
-define(SECOND, seqaudit_hard_second).
-define(TIMES, 20).
-define(RANDOM, 20).

main([Folder]) ->
    ok = logger:set_primary_config(level, none),
    _ = os:cmd("epmd -daemon"),
    %% Loading one of them under a token would add messages of the code server.
    ok = code:ensure_modules_loaded([gen_event, io, proc_lib, supervisor, sys, timer]),
    ok = filelib:ensure_dir(filename:join(Folder, "x")),
    Name = fun(Program) -> filename:join(Folder, Program) end,
    [alone(Name(Program), Times, AtOnce, Do) || {Program, Times, AtOnce, Do} <- services()],
    [alone(Name(Deed), ?TIMES, 1, fun(World, N) -> between_tasks(Deed, N, Do, World) end)
     || {Deed, Do} <- spawning() ++ linking() ++ sending()],
    [random(Name(["random_", Row, "_", integer_to_list(Seed)]), Row, Seed)
     || Row <- ["all", "none_put_back"], Seed <- lists:seq(1, ?RANDOM)],
    seqaudit_test_nodes:with_second("two nodes", fun(There) -> two_nodes(Name, There) end),
    halt().

alone(Name, Times, AtOnce, Do) ->
    alone(Name, Times, AtOnce, Do, [node()]).

%% Traces a program, so many processes of which some run at once.
alone(Name, Times, AtOnce, Do, Nodes) ->
    World = world(),
    ok = seqaudit_trace:start(#{name => Name, reset => true, nodes => Nodes}),
    Before = erlang:system_info(process_count),
    lists:foreach(fun(First) ->
        Begun = [spawn_monitor(fun() -> Do(World, N) end)
                 || N <- lists:seq(First, First + AtOnce - 1)],
        [normal = down(Monitor) || {_, Monitor} <- Begun]
    end, lists:seq(1, Times, AtOnce)),
    seqaudit_test_nodes:until(fun() -> erlang:system_info(process_count) =< Before end),
    {ok, #{dropped := 0}} = seqaudit_trace:stop(),
    [exit(Process, kill) || Process <- lists:flatten(maps:values(World))],
    given(Name, AtOnce =:= 1).

%% Writes how the audit begins, and the events of a trace that is whole and fits. Their serials are
%% the same in each run if one process ran after the other.
given(Name, InTurn) ->
    [] = seqaudit_test_traces:losses(Name),
    {0, Said} = seqaudit_audits:gemshowal(["audit", Name]),
    [Headline | _] = binary:split(Said, <<"\n">>),
    Terms = seqaudit_test_traces:terms(Name),
    Labels = maps:from_list([{Number, Term} || {{label, Term}, Number} <- maps:to_list(Terms)]),
    Lines = [[maps:get(Label, Labels), $\s, Kind, $\s,
              [io_lib:format("{~b,~b} ", [Prev, This]) || InTurn], maps:get({value, Value}, Terms),
              $\n]
             || #{label := Label, kind := Kind, prev := Prev, this := This, value := Value}
                    <- seqaudit_test_traces:events(Name)],
    Names = "(<|#Ref<|#Port<|#Fun<[a-z_]+\\.)[a-z0-9_@.]+>|(seqaudit_[ab]_)[0-9]+",
    Nameless = re:replace(lists:sort(Lines), Names, "\\1\\2..", [global]),
    ok = file:write_file(Name ++ ".given", [Headline, $\n, Nameless]).

%% The trace of a random program is what happened, and time decides what that is.
random(Name, Row, Seed) ->
    How = (seqaudit_truth_rows:how(Row))#{nodes => [node()]},
    {[], [], []} = seqaudit_truth:run(Seed, How, Name),
    {0, Said} = seqaudit_audits:gemshowal(["audit", Name]),
    [Verdict | _] = binary:split(Said, <<":">>),
    ok = file:write_file(Name ++ ".given", [Verdict, $\n]).

%% Servers that nobody has a token for yet.
world() ->
    [Named, Simple] = [begin
                           {ok, Supervisor} = supervisor:start_link(?MODULE, Kind),
                           true = unlink(Supervisor),
                           Supervisor
                       end || Kind <- [named, simple]],
    #{servers => [seqaudit_test_server:start(fun run/1) || _ <- [1, 2, 3]], named => Named,
      simple => Simple, echo => spawn(fun echo/0), aide => spawn(fun aide/0)}.

init(named) ->
    {ok, {#{strategy => rest_for_one, intensity => 1_000, period => 1},
          [child(Name, [{local, Name}]) || Name <- [?FIRST, ?SECOND]]}};
init(simple) ->
    {ok, {#{strategy => simple_one_for_one, intensity => 1_000, period => 1}, [child(one, [])]}};
init(fails) ->
    {stop, fails}.

child(Id, Name) ->
    #{id => Id, start => {gen_server, start_link,
                          Name ++ [seqaudit_test_server, fun ?MODULE:run/1, []]}}.

%% A server runs the request, and replies what that returns.
run(Do) when is_function(Do, 0) -> Do();
run(Request) -> Request.

%% A request that a server lets another process do, and waits for it.
delegated(Do) -> fun() -> awaited(Do) end.

%% A request to which another process replies.
later(Reply) -> {later, fun(From) -> spawn(fun() -> gen_server:reply(From, Reply) end) end}.

ask(Process, Question) ->
    Process ! {self(), Question},
    receive {Process, Answer} -> Answer end.

echo() ->
    answer(),
    echo().

answer() -> receive {From, Question} -> From ! {self(), Question} end.

%% Does what it is told by a timer, so without a token.
aide() ->
    receive Do -> Do() end,
    aide().

idle() -> receive stop -> ok end.

left(Linked) -> receive {'EXIT', Linked, Reason} -> Reason end.

down(Monitor) -> receive {'DOWN', Monitor, _, _, Reason} -> Reason end.

%% Programs, how many processes run each, and how many of them at once.
services() ->
    Request = fun(#{servers := [Server | _]}, N) -> seqaudit_test_services:request(Server, N) end,
    [{"requests", 3_000, 1, Request},
     {"requests_at_once", 3_000, 20, Request},
     {"deep", 300, 5, traced(deep, fun deep/2)},
     {"one_label", 300, 1, fun one_label/2},
     {"supervised", 30, 1, traced(supervised, fun(World, _) -> supervised(World) end)},
     {"spawner", 1, 1, traced(spawner, fun(_, _) -> [asked_child() || _ <- lists:seq(1, 600)] end)},
     {"children", 3_000, 3_000, traced(children, fun(_, _) -> asked_child() end)},
     {"fan", 1, 1, traced(fan, fun(_, _) -> fan(lists:seq(1, 300)) end)},
     {"chain", 1, 1, traced(chain, fun(_, _) -> chain(40, self()), receive bottom -> ok end end)},
     {"stream", 4, 4, traced(stream, fun(_, _) -> stream(lists:seq(1, 30), []) end)}].

traced(Label, Do) ->
    fun(World, N) -> seqaudit_trace:with_trace({Label, N}, fun() -> Do(World, N) end) end.

%% Servers that spawn to answer, three deep.
deep(#{servers := [A, B, C]}, N) ->
    AskC = fun() -> gen_server:call(C, later(N)) end,
    AskB = fun() -> gen_server:call(B, delegated(AskC)) end,
    N = gen_server:call(A, delegated(AskB)),
    N = gen_server:call(B, AskC).

one_label(#{servers := [Server | _]}, N) ->
    seqaudit_trace:with_trace(one, fun() ->
        N = gen_server:call(Server, N),
        N = awaited(fun() -> gen_server:call(Server, N) end),
        N = gen_server:call(Server, later(N))
    end).

asked_child() ->
    {Child, Monitor} = spawn_monitor(fun answer/0),
    asked = ask(Child, asked),
    normal = down(Monitor).

fan(Numbers) ->
    Self = self(),
    Children = [spawn(fun() -> receive {go, N} -> Self ! {N, self()} end end) || N <- Numbers],
    [Child ! {go, N} || {N, Child} <- lists:zip(Numbers, Children)],
    [receive {_, Child} -> ok end || Child <- lists:reverse(Children)].

chain(0, Self) -> Self ! bottom;
chain(Depth, Self) -> spawn(fun() -> chain(Depth - 1, Self) end).

%% Tasks, four at a time.
stream([], []) -> ok;
stream([N | Numbers], Running) when length(Running) < 4 ->
    Self = self(),
    Task = spawn(fun() -> receive after N rem 3 -> Self ! {self(), N} end end),
    stream(Numbers, [Task | Running]);
stream(Numbers, Running) ->
    receive {Task, _} -> stream(Numbers, lists:delete(Task, Running)) end.

%% Supervisors that start children again that end, and start and end others.
supervised(#{named := Named, simple := Simple}) ->
    again([?FIRST, ?SECOND],
          fun() -> tried(fun() -> gen_server:call(?FIRST, fun() -> exit(ends) end) end) end),
    asked = gen_server:call(?SECOND, fun() -> gen_server:call(?FIRST, asked) end),
    again([?SECOND], fun() -> gen_server:cast(?SECOND, fun() -> exit(ends) end) end),
    {ok, Child} = supervisor:start_child(Simple, []),
    asked = gen_server:call(Child, asked),
    exit(Child, kill),
    seqaudit_test_nodes:until(fun() ->
        {links, Links} = process_info(Simple, links),
        Links =/= [] andalso Links =/= [Child]
    end),
    [{_, Next, _, _}] = supervisor:which_children(Simple),
    ok = supervisor:terminate_child(Simple, Next),
    {ok, _} = supervisor:start_child(Named, child(other, [])),
    ok = supervisor:terminate_child(Named, other),
    {ok, _} = supervisor:restart_child(Named, other),
    ok = supervisor:terminate_child(Named, other),
    ok = supervisor:delete_child(Named, other).

%% Runs what may fail.
tried(Do) -> try Do() catch _:_ -> failed end.

%% Waits until these names belong to other processes.
again(Names, Do) ->
    Before = [whereis(Name) || Name <- Names],
    Do(),
    seqaudit_test_nodes:until(fun() ->
        Now = [whereis(Name) || Name <- Names],
        not lists:member(undefined, Now) andalso Now -- Before =:= Now
    end).

%% Does a deed under a label of its own between two tasks of a server. Whether the token is still
%% there after the deed shows by a print.
between_tasks(Deed, N, Do, #{servers := [Server | _], echo := Echo} = World) ->
    Task = delegated(fun() -> ask(Echo, task) end),
    process_flag(trap_exit, true),
    Idle = spawn(fun idle/0),
    seqaudit_trace:with_trace({list_to_atom(Deed), N}, fun() ->
        task = gen_server:call(Server, Task),
        Do(World#{idle => Idle}),
        seq_trace:print(done),
        task = gen_server:call(Server, Task)
    end),
    exit(Idle, kill).

%% Each way to spawn.
spawning() ->
    Nothing = fun ?MODULE:nothing/0,
    [{"spawn", fun(_) -> spawn(Nothing) end},
     {"spawn_of_name", fun(_) -> spawn(?MODULE, nothing, []) end},
     {"spawn_link", fun(_) -> normal = left(spawn_link(Nothing)) end},
     {"spawn_monitor", fun(_) -> {_, Monitor} = spawn_monitor(Nothing), normal = down(Monitor) end},
     {"spawn_opt", fun(_) ->
          {Child, Monitor} = spawn_opt(fun answer/0, [link, {monitor, [{alias, reply_demonitor}]},
                                                      {fullsweep_after, 0}]),
          asked = ask(Child, asked),
          normal = left(Child),
          normal = down(Monitor)
      end},
     {"spawn_request", fun(_) ->
          Request = spawn_request(Nothing),
          seq_trace:print(requested),
          receive {spawn_reply, Request, ok, _} -> ok end
      end},
     {"spawn_request_tag", fun(_) ->
          Request = spawn_request(Nothing, [{reply_tag, tag}]),
          spawn(Nothing),
          receive {tag, Request, ok, _} -> ok end
      end},
     {"spawn_request_silent", fun(_) -> spawn_request(Nothing, [{reply, no}]) end},
     {"spawn_request_refused", fun(_) ->
          Request = spawn_request(?MODULE, nothing, [], [nonsense]),
          receive {spawn_reply, Request, error, badopt} -> ok end
      end},
     {"proc_lib_spawn", fun(_) -> proc_lib:spawn(Nothing) end},
     {"proc_lib_start_link", fun(_) ->
          {ok, Child} = proc_lib:start_link(?MODULE, begun, []),
          asked = ask(Child, asked),
          normal = left(Child)
      end},
     {"gen_server", fun(_) ->
          {ok, Child} = gen_server:start_link(seqaudit_test_server, fun run/1, []),
          asked = gen_server:call(Child, asked),
          ok = gen_server:stop(Child),
          normal = left(Child)
      end},
     {"gen_server_fails", fun(_) -> {error, fails} = gen_server:start(?MODULE, fails, []) end},
     {"gen_server_ends", fun(_) ->
          {ok, {Child, Monitor}} = gen_server:start_monitor(seqaudit_test_server, fun run/1, []),
          tried(fun() -> gen_server:call(Child, fun() -> exit(ends) end) end),
          ends = down(Monitor)
      end},
     {"gen_event", fun(_) ->
          {ok, Manager} = gen_event:start(),
          [] = gen_event:which_handlers(Manager),
          ok = gen_event:stop(Manager)
      end}].

nothing() -> ok.

begun() ->
    proc_lib:init_ack({ok, self()}),
    answer().

%% Processes that end, and those that are told.
linking() ->
    [{"link_ends", fun(_) ->
          Child = spawn_link(fun() -> receive go -> exit(ends) end end),
          Child ! go,
          ends = left(Child)
      end},
     {"link_trapped", fun(_) ->
          Child = spawn_link(fun() -> trapping(fun(Reason) -> exit({got, Reason}) end) end),
          asked = ask(Child, asked),
          exit(Child, told),
          {got, told} = left(Child)
      end},
     {"link_trapped_normal", fun(#{servers := [Server | _]}) ->
          Child = spawn_link(fun() ->
                      trapping(fun(normal) -> asked = gen_server:call(Server, asked) end) end),
          asked = ask(Child, asked),
          exit(Child, normal),
          normal = left(Child)
      end},
     {"link_and_monitor", fun(_) ->
          Child = spawn(fun idle/0),
          Monitor = monitor(process, Child),
          link(Child),
          Child ! stop,
          normal = down(Monitor),
          normal = left(Child)
      end},
     {"link_of_link", fun(_) ->
          deep = left(spawn_link(fun() -> spawn_link(fun() -> exit(deep) end), idle() end))
      end},
     {"link_killed", fun(_) ->
          Unlinked = spawn_link(fun idle/0),
          unlink(Unlinked),
          exit(Unlinked, kill),
          Child = spawn_link(fun idle/0),
          exit(Child, kill),
          killed = left(Child)
      end},
     {"link_plain", fun(#{idle := Idle}) ->
          link(Idle),
          erlang:send_after(0, Idle, stop),
          normal = left(Idle)
      end},
     {"link_nobody", fun(_) -> Nobody = ended(), link(Nobody), noproc = left(Nobody) end},
     {"monitor_nobody", fun(_) -> noproc = down(monitor(process, ended())) end},
     {"monitor_plain", fun(#{idle := Idle}) ->
          Monitor = monitor(process, Idle),
          erlang:send_after(0, Idle, stop),
          normal = down(Monitor)
      end},
     {"exit_of_itself", fun(_) -> exit(self(), told), told = left(self()) end},
     {"exit_plain", fun(#{aide := Aide}) ->
          Self = self(),
          erlang:send_after(0, Aide, fun() -> exit(Self, told) end),
          told = left(Aide)
      end},
     {"task_ends", fun(#{servers := [Server | _]}) ->
          ends = gen_server:call(Server, delegated(fun() -> exit(ends) end))
      end}].

%% Does this once it is told that the process that it is linked with ends.
trapping(Do) ->
    process_flag(trap_exit, true),
    answer(),
    receive {'EXIT', _, Reason} -> Do(Reason) end.

ended() ->
    {Child, Monitor} = spawn_monitor(fun ?MODULE:nothing/0),
    normal = down(Monitor),
    Child.

%% Other messages of a process.
sending() ->
    [{"plain_message", fun(#{aide := Aide}) ->
          Self = self(),
          erlang:send_after(0, Aide, fun() -> Self ! plain end),
          receive plain -> ok end
      end},
     {"own_message", fun(_) -> self() ! own, receive own -> ok end end},
     {"timers", fun(#{echo := Echo}) ->
          erlang:send_after(1, self(), time),
          asked = ask(Echo, asked),
          receive time -> ok end,
          erlang:start_timer(0, self(), time),
          receive {timeout, _, time} -> asked = ask(Echo, asked) end
      end},
     {"timer_server", fun(_) -> {ok, _} = timer:send_after(1, time), receive time -> ok end end},
     {"aliases", fun(#{echo := Echo}) ->
          Alias = monitor(process, Echo, [{alias, reply_demonitor}]),
          Echo ! {Alias, asked},
          receive {Echo, asked} -> ok end,
          Once = alias([reply]),
          spawn(fun() -> Once ! first, Once ! late end),
          receive first -> ok end
      end},
     {"late_reply", fun(#{servers := [Server | _]}) ->
          Self = self(),
          Later = {later, fun(From) -> Self ! {from, From} end},
          tried(fun() -> gen_server:call(Server, Later, 1) end),
          receive {from, From} -> spawn(fun() -> gen_server:reply(From, late) end) end
      end},
     {"names", fun(#{echo := Echo}) ->
          register(?MODULE, Echo),
          ?MODULE ! {self(), here},
          receive {Echo, here} -> ok end,
          {?MODULE, node()} ! {self(), node},
          receive {Echo, node} -> unregister(?MODULE) end,
          tried(fun() -> ?MODULE ! gone end)
      end},
     {"port", fun(_) ->
          Port = open_port({spawn, "cat"}, [binary]),
          Port ! {self(), {command, <<"sent">>}},
          receive {Port, {data, <<"sent">>}} -> seq_trace:print(sent) end,
          port_command(Port, <<"called">>),
          receive {Port, {data, <<"called">>}} -> seq_trace:print(called) end,
          port_close(Port),
          normal = left(Port)
      end},
     {"table", fun(_) ->
          {Heir, Monitor} = spawn_monitor(fun() ->
              receive {'ETS-TRANSFER', _, _, given} -> seq_trace:print(given) end
          end),
          ets:give_away(ets:new(table, []), Heir, given),
          normal = down(Monitor)
      end},
     {"table_plain", fun(#{aide := Aide}) ->
          Self = self(),
          erlang:send_after(0, Aide, fun() -> ets:give_away(ets:new(table, []), Self, given) end),
          receive {'ETS-TRANSFER', _, _, given} -> ok end
      end},
     {"garbage", fun(#{echo := Echo}) ->
          async = erlang:garbage_collect(Echo, [{async, asked}]),
          receive {garbage_collect, asked, true} -> ok end
      end},
     {"output", fun(_) -> io:format("~s", [""]), {error, enoent} = file:read_file("nothing") end}].

two_nodes(Name, There) ->
    [{module, _} = erpc:call(There, code, load_binary, [Module, File, Binary])
     || Module <- [?MODULE, seqaudit_test_services],
        {_, Binary, File} <- [code:get_object_code(Module)]],
    [alone(Name(Deed), ?TIMES, 1, fun(World, N) ->
         Remote = erpc:call(There, seqaudit_test_server, start, [fun ?MODULE:run/1]),
         between_tasks(Deed, N, Do, World#{there => There, remote => Remote})
     end, [node(), There]) || {Deed, Do} <- elsewhere()].

%% Work that another node does for a process, and the messages about it.
elsewhere() ->
    Nothing = fun ?MODULE:nothing/0,
    [{"there_delegated", fun(#{servers := [Server, Other | _], remote := Remote}) ->
          Later = fun() -> gen_server:call(Other, later(asked)) end,
          Delegated = fun() -> gen_server:call(Server, delegated(Later)) end,
          asked = gen_server:call(Remote, delegated(Delegated))
      end},
     {"there_spawn", fun(#{there := There}) ->
          Self = self(),
          Child = spawn(There, fun() -> Self ! {self(), spawned} end),
          receive {Child, spawned} -> ok end
      end},
     {"there_link", fun(#{there := There}) -> normal = left(spawn_link(There, Nothing)) end},
     {"there_monitor", fun(#{there := There, servers := [Server | _]}) ->
          {_, Monitor} = spawn_monitor(There, fun() -> gen_server:call(Server, asked) end),
          normal = down(Monitor)
      end},
     {"there_spawn_opt", fun(#{there := There}) ->
          Child = spawn_opt(There, fun answer/0, [link, {fullsweep_after, 0}]),
          asked = ask(Child, asked),
          normal = left(Child)
      end},
     {"there_spawn_request", fun(#{there := There, remote := Remote}) ->
          Request = spawn_request(There, fun() -> gen_server:call(Remote, asked) end),
          receive {spawn_reply, Request, ok, _} -> ok end
      end},
     {"there_erpc", fun(#{there := There, remote := Remote}) ->
          asked = erpc:call(There, fun() -> gen_server:call(Remote, asked) end)
      end},
     {"there_rpc", fun(#{there := There}) -> There = rpc:call(There, erlang, node, []) end}].
