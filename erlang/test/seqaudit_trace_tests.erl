%% Programs that run on this node are traced, converted and audited.
-module(seqaudit_trace_tests).

-export([fitting_test_/0, term_labels_test/0, registered_names_test/0, initial_call_test/0,
         timestamps_test/0, same_name_test/0, full_collector_test/0,
         former_tracer_is_put_back_test/0, former_tracer_is_gone_test/0, second_tracer_stays_test/0,
         owner_ends_test/0, collector_stays_out_test/0, token_is_taken_off_test/0,
         nothing_is_lost_test_/0, reset_between_clients_test/0, start_refuses_test/0,
         unfit_is_unfit_test/0]).

-define(FLAGS, [send, 'receive', print]).

%% Each program runs under a trace with all flags, and fits.
fitting_test_() ->
    [{Name, {timeout, 60, fun() -> fits(Name, Program) end}} || {Name, Program} <- programs()].

fits(Name, Program) ->
    Run = Program(),
    {Events, _} = traced(Name, #{}, fun() -> seqaudit_trace:with_trace(17, Run) end),
    true = Events > 0,
    ok_or_skipped(seqaudit_audits:fits(seqaudit_audits:file(Name))).

%% The first part of each program makes its processes, before any token is set.
programs() ->
    [{"client_server_server", fun() ->
          B = seqaudit_test_server:start(fun({get, K}) -> K * 2 end),
          A = seqaudit_test_server:start(fun({lookup, K}) -> gen_server:call(B, {get, K}) + 1 end),
          fun() -> 21 = gen_server:call(A, {lookup, 10}) end
      end},
     {"ring", fun() ->
          Self = self(),
          Ring = [spawn(fun() -> receive {next, Next} -> pass(Next) end end)
                  || _ <- lists:seq(1, 9)],
          lists:foldr(fun(Pid, Next) -> Pid ! {next, Next}, Pid end, Self, Ring),
          fun() ->
              [begin hd(Ring) ! {round, K}, receive {round, K} -> ok end end || K <- [1, 2, 3]]
          end
      end},
     {"scatter_and_gather", fun() ->
          Workers = [spawn(fun() -> echo(K) end) || K <- lists:seq(1, 20)],
          fun() ->
              [Worker ! {self(), job} || Worker <- Workers],
              [receive {Worker, _} -> ok end || Worker <- Workers],
              seq_trace:print(gathered)
          end
      end},
     {"call_that_times_out", fun() ->
          Slow = seqaudit_test_server:start(fun(Ms) -> receive after Ms -> Ms end end),
          fun() ->
              late = try gen_server:call(Slow, 2_000, 20) catch exit:{timeout, _} -> late end,
              0 = gen_server:call(Slow, 0)
          end
      end},
     {"casts", fun() ->
          Self = self(),
          Server = seqaudit_test_server:start(fun(K) -> seq_trace:print({got, K}),
                                              Self ! {done, K} end),
          fun() ->
              [gen_server:cast(Server, K) || K <- lists:seq(1, 5)],
              [receive {done, K} -> ok end || K <- lists:seq(1, 5)]
          end
      end},
     {"self_send", fun() ->
          fun() -> self() ! me, receive me -> seq_trace:print(mine) end end
      end},
     {"dead_receiver", fun() ->
          {Pid, Monitor} = spawn_monitor(fun() -> ok end),
          receive {'DOWN', Monitor, process, Pid, normal} -> ok end,
          fun() -> Pid ! hello, seq_trace:print(sent), self() ! on, receive on -> ok end end
      end}].

pass(Next) -> receive Message -> Next ! Message, pass(Next) end.
echo(K) -> receive {From, Job} -> From ! {self(), {K, Job}}, echo(K) end.

term_labels_test() ->
    Server = seqaudit_test_server:start(fun(X) -> X end),
    Labels = [{request, <<"abc">>}, -5, 7, make_ref()],
    {16, Terms} = traced("term_labels", #{}, fun() ->
        [seqaudit_trace:with_trace(Label, fun() -> gen_server:call(Server, Label) end)
         || Label <- Labels]
    end),
    #{{label, <<"7">>} := <<"7">>, {label, <<"{request,<<\"abc\">>}">>} := <<"1000000">>,
      {label, <<"-5">>} := <<"1000001">>} = Terms,
    ok_or_skipped(seqaudit_audits:fits(seqaudit_audits:file("term_labels"))).

registered_names_test() ->
    Server = seqaudit_test_server:start(seqaudit_test_alice, fun(X) -> X end),
    {Events, Terms} = traced("names", #{}, fun() ->
        seqaudit_trace:with_trace(1, fun() -> gen_server:call(seqaudit_test_alice, hello) end)
    end),
    4 = Events,
    Pid = list_to_binary(pid_to_list(Server)),
    #{{process, Pid} := <<"seqaudit_test_alice">>, {about, Pid} := About} = Terms,
    {_, _} = binary:match(About,
                          <<", registered as seqaudit_test_alice, started by "
                            "seqaudit_test_server:init/1">>),
    ok = gen_server:stop(Server),
    ok_or_skipped(seqaudit_audits:fits(seqaudit_audits:file("names"))).

%% A process without a name is called by what it was started with, also after its end. If there is a
%% trace port, that is known once the collector is on.
initial_call_test() ->
    Server = seqaudit_test_server:start(fun(X) -> X end),
    {4, Terms} = traced("initial_call", #{}, fun() ->
        seqaudit_trace:with_trace(1, fun() -> gen_server:call(Server, hello) end),
        [{_, Folder}] = seqaudit_trace:folders(),
        is_port(seq_trace:get_system_tracer()) orelse seqaudit_test_nodes:met(Folder, [Server]),
        exit(Server, kill)
    end),
    Pid = pid_to_list(Server),
    Name = list_to_binary("seqaudit_test_server:init/1 " ++ Pid),
    Name = maps:get({process, list_to_binary(Pid)}, Terms).

timestamps_test() ->
    Server = seqaudit_test_server:start(fun(X) -> X end),
    ok = seqaudit_trace:start(#{name => seqaudit_audits:file("timestamps")}),
    seqaudit_trace:with_trace(1, [monotonic_timestamp | ?FLAGS],
                              fun() -> gen_server:call(Server, hello) end),
    {ok, #{events := 4, dropped := 0, notes := Notes}} = seqaudit_trace:stop(),
    [] = [Note || Note <- Notes, string:find(Note, "timestamp") =/= nomatch],
    File = seqaudit_audits:file("timestamps"),
    {4, _} = seqaudit_test_traces:times(File),
    ok_or_skipped(seqaudit_audits:fits(File)).

%% The files of an earlier trace with this name don't stay next to a new one.
same_name_test() ->
    Name = seqaudit_audits:file("same_name"),
    Traced = fun(Flags) ->
                 ok = seqaudit_trace:start(#{name => Name}),
                 seqaudit_trace:with_trace(1, Flags, fun() -> seq_trace:print(x) end),
                 {ok, _} = seqaudit_trace:stop()
             end,
    Traced([print, timestamp]),
    true = filelib:is_regular(Name ++ ".times"),
    Traced([print]),
    false = filelib:is_regular(Name ++ ".times").

full_collector_test() ->
    Name = seqaudit_audits:file("full"),
    ok = seqaudit_trace:start(#{name => Name, port => false, bytes => 65_536}),
    Print = fun(_) -> seq_trace:print(binary:copy(<<0>>, 1_024)),
    seqaudit_test_nodes:keep_pace() end,
    seqaudit_trace:with_trace(1, fun() -> lists:foreach(Print, lists:seq(1, 100)) end),
    {ok, #{events := Kept, dropped := Dropped, notes := [Note]}} = seqaudit_trace:stop(),
    {true, 100} = {Kept > 50 andalso Dropped > 0, Kept + Dropped},
    {match, _} =
        re:run(Note,
               [": the collector dropped ", integer_to_list(Dropped), " events; raise --bytes"]),
    ok_or_skipped(seqaudit_audits:fits(Name)).

former_tracer_is_put_back_test() ->
    Former = spawn(fun() -> receive stop -> ok end end),
    false = seq_trace:set_system_tracer(Former),
    {1, _} = traced("former", #{}, fun() ->
        seqaudit_trace:with_trace(1, fun() -> seq_trace:print(seen) end)
    end),
    Former = seq_trace:set_system_tracer(false),
    {messages, []} = process_info(Former, messages),
    exit(Former, kill),
    false = seq_trace:get_system_tracer(),
    ok.

former_tracer_is_gone_test() ->
    {Former, Monitor} = spawn_monitor(fun() -> receive stop -> ok end end),
    false = seq_trace:set_system_tracer(Former),
    ok = seqaudit_trace:start(#{name => seqaudit_audits:file("gone")}),
    exit(Former, kill),
    receive {'DOWN', Monitor, process, Former, killed} -> ok end,
    {ok, #{notes := [_, Note]}} = seqaudit_trace:stop(),
    {match, _} = re:run(Note, "the former system tracer is gone"),
    false = seq_trace:get_system_tracer(),
    ok.

%% Whoever put another tracer in the collector's place keeps it, and the notes say so.
second_tracer_stays_test() ->
    Second = spawn(fun() -> receive stop -> ok end end),
    ok = seqaudit_trace:start(#{name => seqaudit_audits:file("second")}),
    seq_trace:set_system_tracer(Second),
    {ok, #{notes := [Note]}} = seqaudit_trace:stop(),
    {match, _} = re:run(Note, "another system tracer took the collector's place"),
    Second = seq_trace:set_system_tracer(false),
    exit(Second, kill),
    ok.

owner_ends_test() ->
    Owner = spawn(fun() -> receive stop -> ok end end),
    {ok, Collector} = seqaudit_collector:start(#{owner => Owner, reset => false}),
    Collector = seq_trace:get_system_tracer(),
    Monitor = monitor(process, Collector),
    exit(Owner, kill),
    receive {'DOWN', Monitor, process, Collector, normal} -> ok end,
    false = seq_trace:get_system_tracer(),
    ok.

%% A traced process that writes to the collector leaves the collector untraced.
collector_stays_out_test() ->
    {module, _} = code:ensure_loaded(seqaudit_test_nodes),
    {2, _} = traced("stays_out", #{}, fun() ->
        seqaudit_trace:with_trace(1, fun() ->
            seq_trace:print(before),
            seqaudit_collector ! stray,
            seqaudit_test_nodes:await_collector(),
            seq_trace:print(behind)
        end)
    end),
    ok_or_skipped(seqaudit_audits:fits(seqaudit_audits:file("stays_out"))).

token_is_taken_off_test() ->
    done = seqaudit_trace:with_trace(1, fun() -> [_ | _] = tuple_to_list(seq_trace:get_token()),
                                     done end),
    [] = seq_trace:get_token(),
    failed = try seqaudit_trace:with_trace(1,
                                           fun() -> error(deliberate) end) catch error:deliberate ->
                                               failed end,
    [] = seq_trace:get_token(),
    thrown = try seqaudit_trace:with_trace({a, term}, [send],
                                           fun() -> throw(thrown) end) catch Thrown -> Thrown end,
    [] = seq_trace:get_token(),
    refused = try seqaudit_trace:with_trace(1, [sent], fun() -> ok end) catch error:badarg ->
        refused end,
    ok.

%% 20,000 events of 20 processes at once: all of them come, in each process's order.
nothing_is_lost_test_() ->
    {timeout, 60, fun() ->
        {module, _} = code:ensure_loaded(seqaudit_test_nodes),
        Run = fun() ->
            [begin seq_trace:print(K), K rem 100 > 0 orelse seqaudit_test_nodes:keep_pace() end
             || K <- lists:seq(1, 1000)]
        end,
        {20_000, _} = traced("many", #{}, fun() ->
            Started = [spawn_monitor(fun() -> seqaudit_trace:with_trace(L, Run) end)
                       || L <- lists:seq(1, 20)],
            [receive {'DOWN', Monitor, process, Pid, normal} -> ok end || {Pid, Monitor} <- Started]
        end)
    end}.

start_refuses_test() ->
    {error, {unknown_options, [nodess]}} = seqaudit_trace:start(#{nodess => []}),
    {error, not_started} = seqaudit_trace:stop(),
    ok = seqaudit_trace:start(#{name => seqaudit_audits:file("twice")}),
    {error, {already_started, _} = Reason} = seqaudit_trace:start(),
    true = is_list(seqaudit_trace:format_error(Reason)),
    {ok, #{events := 0}} = seqaudit_trace:stop(),
    {error, {unwritable, _, enoent}} = seqaudit_trace:start(#{name => "/no/such/folder/x"}),
    {error, {node, 'nobody@localhost', unreachable}} =
        seqaudit_trace:start(#{name => seqaudit_audits:file("nobody"),
                               nodes => [node(), 'nobody@localhost']}),
    false = seq_trace:get_system_tracer(),
    ok.

%% After a reset a server stamps its reply to the second client as that to the first; each reply
%% goes to whoever received it.
reset_between_clients_test() ->
    Server = seqaudit_test_server:start(fun(X) -> X end),
    Clients = [{Label, spawn(fun() ->
                    receive {go, From} -> ok end,
                    From ! {seqaudit_trace:with_trace(Label,
                                                      fun() -> gen_server:call(Server, same) end),
                            Label},
                    receive stop -> ok end
                end)} || Label <- [1, 2]],
    {8, _} = traced("reset_between", #{}, fun() ->
        [begin
             Client ! {go, self()},
             receive {same, Label} -> ok end,
             seq_trace:reset_trace()
         end || {Label, Client} <- Clients]
    end),
    {ok, Bundle} = file:read_file(seqaudit_audits:file("reset_between.seqtrace")),
    [begin
         Reply = ["\\{seq_trace,", integer_to_list(Label), ",\\{send,\\{1,2\\},",
                  pid_to_list(Server), $,,
                  pid_to_list(Client), $,],
         {match, [_]} = re:run(Bundle, Reply, [global]),
         exit(Client, kill)
     end || {Label, Client} <- Clients].

%% A token that is put back after a receive moves the clock of a standard node.
unfit_is_unfit_test() ->
    Log = seqaudit_test_server:start(fun(_) -> ok end),
    Server = seqaudit_test_server:start(fun(X) ->
        Token = seq_trace:set_token([]),
        ok = gen_server:call(Log, {log, X}),
        seq_trace:set_token(Token),
        X
    end),
    traced("put_back", #{}, fun() ->
        seqaudit_trace:with_trace(11, fun() -> [gen_server:call(Server, K) || K <- [1, 2, 3]] end)
    end),
    case seqaudit_audits:audit(seqaudit_audits:file("put_back")) of
        {1, Answer} -> {match, _} = re:run(Answer, "^unfit <[0-9.]*> 1 uncaused\n");
        skipped -> skipped
    end.

%% Runs the function under a trace; how many events there are, and what their numbers mean.
traced(Name, Options, Run) ->
    File = seqaudit_audits:file(Name),
    ok = seqaudit_trace:start(Options#{name => File}),
    Run(),
    {ok, #{events := Events, files := Files}} = seqaudit_trace:stop(),
    5 = length([ok || Written <- Files, filelib:is_regular(Written)]),
    {Events, seqaudit_test_traces:terms(File)}.

ok_or_skipped(ok) -> ok;
ok_or_skipped(skipped) -> skipped.
