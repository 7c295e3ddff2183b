%% Deeds of a standard node that the machine has no acts for: ports, timers, exits, spawning, names.
%%
%% Each case is a small program that a fresh process runs with a token, all three flags on; the case
%% says what the program comes to and which events the system tracer gets. Where a node does
%% something else, the case fails and its row in docs/MACHINE.md has to change.
-module(conformance_cases).

-export([main/0, names/0]).

-define(EVENTS_MS, 5_000).
-define(LABEL, 1).
-define(END_LABEL, 2).
%% The greatest count of a node.
-define(GREATEST, ((1 bsl 59) - 1)).

main() ->
    Nodes = conformance_nodes:start(),
    Cases = here() ++ [{Name, fun() -> Case(There) end}
                       || There <- tl(Nodes), {Name, Case} <- there()],
    [io:format("there is no second node: ~b cases are skipped~n", [length(there())])
     || tl(Nodes) =:= []],
    Failed = [Name || {Name, Case} <- Cases, not holds(Name, Case)],
    io:format("~b of ~b cases hold~n", [length(Cases) - length(Failed), length(Cases)]),
    halt(length(Failed)).

%% The names of the cases, by which docs/MACHINE.md has their rows.
names() ->
    [Name || {Name, _} <- here()] ++ [Name || {Name, _} <- there()].

holds(Name, Case) ->
    try Case() of
        _ -> true
    catch
        Class:Reason:Stack ->
            io:format("case ~ts doesn't hold: ~0p~n~p~n", [Name, {Class, Reason}, Stack]),
            false
    end.

here() ->
    [{"counts", fun counts_wrap/0},
     {"alias", fun alias_is_named/0},
     {"name-here", fun name_here_is_its_process/0},
     {"port", fun port_has_no_token/0},
     {"socket", fun socket_has_no_token/0},
     {"timer", fun timers_leave_the_token/0},
     {"monitor", fun monitors_leave_the_token/0},
     {"exit", fun exit_takes_the_token/0},
     {"link", fun linked_end_gives_its_token/0},
     {"link-plain", fun plain_linked_end_takes_the_token/0},
     {"link-nobody", fun link_to_nobody_may_take_the_token/0},
     {"spawn-here", fun spawn_here_is_four_events/0},
     {"spawn-counts", fun spawn_here_sets_the_counts/0},
     {"spawn-request", fun spawn_request_is_answered_as_any/0},
     {"dead-tracer", fun dead_tracer_is_silent/0}].

there() ->
    [{"name-there", fun name_there_is_named/1},
     {"spawn-there", fun spawn_there_is_two_sends/1},
     {"monitor-there", fun monitors_there_may_take_the_token/1},
     {"erpc-there", fun erpc_may_take_the_token/1},
     {"rpc-there", fun only_the_first_rpc_is_traced/1},
     {"exit-there", fun linked_end_there_gives_its_token/1},
     {"fun-there", fun fun_arrives_as_it_was/1}].

%% The count after the greatest one is the least negative one.
counts_wrap() ->
    {P, {?GREATEST, _, Last}, Events} =
        traced(2, fun() ->
                      ok = seq_trace:set_token({4, 1, ?GREATEST - 1, self(), 0}),
                      seq_trace:print(one),
                      Count = element(3, seq_trace:get_token()),
                      seq_trace:print(two),
                      {Count, ok, element(3, seq_trace:get_token())}
                  end),
    Last = -?GREATEST - 1,
    [{print, {0, ?GREATEST}, P, [], one}, {print, {0, Last}, P, [], two}] = Events.

%% The event of a send to an alias names the alias, as the replies of gen_server do.
alias_is_named() ->
    Server = conformance_actors:start(node()),
    {P, [], Events} = traced(4, fun() -> gen_server:call(Server, events) end),
    ok = gen_server:stop(Server),
    [{send, {0, 1}, P, Server, {'$gen_call', {P, [alias | Alias] = Tag}, events}},
     {'receive', {0, 1}, P, Server, _},
     {send, {1, 2}, Server, Alias, {Tag, []}},
     {'receive', {1, 2}, Server, P, {Tag, []}}] = in_order(Events),
    true = is_reference(Alias).

%% The event of a send to a name of this node names the process.
name_here_is_its_process() ->
    {P, _, Events} = traced(2, fun() ->
                                   register(?MODULE, self()),
                                   ?MODULE ! one,
                                   {?MODULE, node()} ! two
                               end),
    [{send, {0, 1}, P, P, one}, {send, {0, 2}, P, P, two}] = Events.

name_there_is_named(There) ->
    {P, _, Events} = traced(1, fun() -> {?MODULE, There} ! message end),
    [{send, {0, 1}, P, {?MODULE, There}, message}] = Events.

%% A send to a port is an event; what it sends back is none, and leaves the token.
port_has_no_token() ->
    {P, {Port, Token, Token}, Events} =
        traced(1, fun() ->
                      Port = open_port({spawn, "cat"}, []),
                      Port ! {self(), {command, "text"}},
                      Sent = seq_trace:get_token(),
                      receive {Port, {data, "text"}} -> ok end,
                      {Port, Sent, seq_trace:get_token()}
                  end),
    [{send, {0, 1}, P, Port, {P, {command, "text"}}}] = Events,
    true = is_port(Port).

%% A message from a socket has no token, is no event, and leaves the receiver's.
socket_has_no_token() ->
    {_, {{7, 1, _, _, _} = Token, Token}, []} =
        traced(0, fun() ->
                      _ = seq_trace:set_token([]),
                      Sender = connected(),
                      new_token(?LABEL),
                      Before = seq_trace:get_token(),
                      erlang:send_after(1, Sender, send),
                      receive {tcp, _, "text"} -> {Before, seq_trace:get_token()} end
                  end).

%% A process that writes to a socket of this process when it is told.
connected() ->
    {ok, Listener} = gen_tcp:listen(0, [{ip, {127, 0, 0, 1}}, {active, true}]),
    {ok, Port} = inet:port(Listener),
    Sender = spawn(fun() ->
                       {ok, Socket} = gen_tcp:connect({127, 0, 0, 1}, Port, []),
                       receive send -> ok = gen_tcp:send(Socket, "text") end,
                       receive after infinity -> ok end
                   end),
    {ok, _} = gen_tcp:accept(Listener),
    Sender.

%% A timer's message has no token, is no event, and leaves the receiver's.
timers_leave_the_token() ->
    unmoved(fun() -> erlang:start_timer(1, self(), time), receive {timeout, _, time} -> ok end end),
    unmoved(fun() -> erlang:send_after(1, self(), time), receive time -> ok end end).

%% So does a monitor's message.
monitors_leave_the_token() ->
    Ended = ended(),
    unmoved(fun() ->
                erlang:monitor(process, Ended),
                receive {'DOWN', _, _, Ended, _} -> ok end
            end).

%% The EXIT message of exit/2 has no token and is no event; but it takes the receiver's away.
exit_takes_the_token() ->
    Other = spawn(fun() -> receive Pid -> exit(Pid, reason) end end),
    taken(fun() -> exit(self(), reason) end),
    taken(fun() -> erlang:send_after(1, Other, self()) end).

%% So does that of a linked process that ends without a token.
plain_linked_end_takes_the_token() ->
    Plain = spawn(fun() -> receive after infinity -> ok end end),
    taken(fun() -> link(Plain), exit(Plain, kill) end).

%% The EXIT message of a link to a process that is gone leaves the token up to OTP 27, and takes it
%% away from OTP 29 on. (OTP 28 wasn't measured.)
link_to_nobody_may_take_the_token() ->
    Ended = ended(),
    {_, {Before, After}, []} = around(fun() ->
                                          process_flag(trap_exit, true),
                                          link(Ended),
                                          receive {'EXIT', Ended, noproc} -> ok end
                                      end),
    {7, 1, _, _, _} = Before,
    case release() of
        Early when Early =< 27 -> Before = After;
        Late when Late >= 29 -> [] = After;
        _ -> not_measured
    end.

%% A linked process that ends with a token sends it with its EXIT message, and both are events.
linked_end_gives_its_token() ->
    {P, {Child, {7, 1, 3, Child, 1}}, Events} =
        traced(6, fun() ->
                      process_flag(trap_exit, true),
                      Child = spawn_link(fun() -> exit(reason) end),
                      receive {'EXIT', Child, reason} -> {Child, seq_trace:get_token()} end
                  end),
    Exit = {'EXIT', Child, reason},
    [{send, {1, 3}, Child, P, Exit}, {'receive', {1, 3}, Child, P, Exit}] =
        [Event || {_, _, _, _, Message} = Event <- in_order(Events), Message =:= Exit].

%% The request is a send and a receive, and the new process has the token; the answer is both too,
%% but gives the spawning process no token.
spawn_here_is_four_events() ->
    {P, {Child, {7, 1, 1, P, 0}}, Events} =
        traced(5, fun() -> {spawn(fun() -> seq_trace:print(child) end), seq_trace:get_token()} end),
    [{send, {0, 1}, P, Child, Request}, {'receive', {0, 1}, P, Child, Request},
     {send, {1, 2}, Child, P, Answer}, {'receive', {1, 2}, Child, P, Answer},
     {print, {1, 3}, Child, [], child}] = in_order(Events),
    {spawn_request, spawn_reply} = {element(1, Request), element(1, Answer)}.

%% With the answer's serial number T the spawning process's clock and last become 16 T + 15.
spawn_here_sets_the_counts() ->
    {P, _, Events} = traced(5, fun() -> spawn(fun() -> ok end), seq_trace:print(parent) end),
    [T] = [This || {'receive', {_, This}, _, To, _} <- Events, To =:= P],
    [Next] = [Serial || {print, Serial, From, _, _} <- Events, From =:= P],
    Next = {16 * T + 15, 16 * T + 16}.

%% The answer to spawn_request is received like any other message, and sets token and counts as one.
spawn_request_is_answered_as_any() ->
    {P, {Child, {7, 1, T, Child, _}}, Events} =
        traced(5, fun() ->
                      Request = spawn_request(fun() -> ok end),
                      Child = receive {spawn_reply, Request, ok, Pid} -> Pid end,
                      Token = seq_trace:get_token(),
                      seq_trace:print(parent),
                      {Child, Token}
                  end),
    [T] = [This || {'receive', {_, This}, _, To, _} <- Events, To =:= P],
    [{T, Next}] = [Serial || {print, Serial, From, _, _} <- Events, From =:= P],
    Next = T + 1.

%% The request is two sends to the node, the second with the arguments; the answer is a receive like
%% any other, and sets token and counts as one.
spawn_there_is_two_sends(There) ->
    {P, {Child, {7, 1, 2, Child, 1}}, Events} =
        traced(4, fun() ->
                      Child = spawn(There, erlang, self, []),
                      Token = seq_trace:get_token(),
                      seq_trace:print(parent),
                      {Child, Token}
                  end),
    [{send, {0, 1}, P, There, Request}, {send, {0, 2}, P, There, []},
     {'receive', {1, 2}, Child, P, Answer}, {print, {2, 3}, P, [], parent}] = Events,
    {spawn_request, spawn_reply} = {element(1, Request), element(1, Answer)}.

%% A monitor's message from another node takes the token away up to OTP 25, and leaves it from OTP
%% 27 on. (OTP 26 wasn't measured.)
monitors_there_may_take_the_token(There) ->
    Other = spawn(There, erlang, self, []),
    by_release(fun() ->
                   erlang:monitor(process, Other),
                   receive {'DOWN', _, _, Other, _} -> ok end
               end).

%% The answer of erpc is such a message.
erpc_may_take_the_token(There) ->
    by_release(fun() -> There = erpc:call(There, erlang, node, []) end).

by_release(Fun) ->
    {_, {Before, After}, _} = around(Fun),
    {7, 1, _, _, _} = Before,
    case release() of
        Early when Early =< 25 -> [] = After;
        Late when Late >= 27 -> {7, 1, _, _, _} = After;
        _ -> not_measured
    end.

release() -> list_to_integer(erlang:system_info(otp_release)).

%% So of several calls by rpc or erpc only the first one is traced up to OTP 25.
only_the_first_rpc_is_traced(There) ->
    Call = fun() -> There = rpc:call(There, erlang, node, []) end,
    {P, _, Events} = traced(2, fun() -> Call(), Call() end),
    Requests = [Request || {send, _, From, To, Request} <- Events,
                           From =:= P, To =:= There, is_tuple(Request)],
    case {release(), length(Requests)} of
        {Early, Count} when Early =< 25 -> 1 = Count;
        {Late, Count} when Late >= 27 -> 2 = Count;
        _ -> not_measured
    end.

%% A linked process of another node that ends with a token gives it with its EXIT message, which is
%% a receive here.
linked_end_there_gives_its_token(There) ->
    {P, {Child, {7, 1, _, Child, _}}, Events} =
        traced(0, fun() ->
                      process_flag(trap_exit, true),
                      Child = spawn_link(There, erlang, exit, [reason]),
                      receive {'EXIT', Child, reason} -> {Child, seq_trace:get_token()} end
                  end),
    [_] = [received || {'receive', _, From, To, {'EXIT', Left, reason}} <- Events,
                       From =:= Child, To =:= P, Left =:= Child].

%% A fun that goes to another node and back is the same term, whatever its bytes are on the way.
fun_arrives_as_it_was(There) ->
    X = make_ref(),
    Fun = fun() -> X end,
    Fun = erpc:call(There, erlang, hd, [[Fun]]),
    Same = term_to_binary(Fun) =:= erpc:call(There, erlang, term_to_binary, [Fun]),
    case release() of
        Early when Early =< 25 -> true = Same;
        Late when Late >= 27 -> false = Same;
        _ -> not_measured
    end.

%% Stamps go on as they were, and nobody is told; who asks is told that there is no tracer.
dead_tracer_is_silent() ->
    {_, {{7, 1, 2, _, 0}, false, []}, []} =
        traced(0, fun() ->
                      Tracer = seq_trace:get_system_tracer(),
                      Monitor = erlang:monitor(process, Tracer),
                      exit(Tracer, kill),
                      receive {'DOWN', Monitor, _, _, _} -> ok end,
                      seq_trace:print(one),
                      seq_trace:print(two),
                      {messages, Mail} = process_info(self(), messages),
                      {seq_trace:get_token(), seq_trace:get_system_tracer(), Mail}
                  end).

%% The function brings no event, and leaves the token.
unmoved(Fun) ->
    {_, {Token, Token}, []} = around(Fun).

%% The token before the function and after it.
around(Fun) ->
    traced(0, fun() -> Before = seq_trace:get_token(), Fun(), {Before, seq_trace:get_token()} end).

%% The function brings an EXIT message, which is no event and takes the token away.
taken(Fun) ->
    {_, [], []} = traced(0, fun() ->
                                process_flag(trap_exit, true),
                                Fun(),
                                receive {'EXIT', _, _} -> seq_trace:get_token() end
                            end).

ended() ->
    {Pid, Monitor} = spawn_monitor(fun() -> ok end),
    receive {'DOWN', Monitor, process, Pid, _} -> Pid end.

%% The process that ran the function with a token, what the function returned, and the events: all
%% of this process, and at least so many of all processes.
traced(Count, Fun) ->
    Tracer = spawn(fun() -> tracer([]) end),
    true = seq_trace:reset_trace(),
    _ = seq_trace:set_system_tracer(Tracer),
    {Pid, Monitor} = spawn_monitor(fun() ->
        new_token(?LABEL),
        Result = Fun(),
        new_token(?END_LABEL),
        seq_trace:print(ended),
        _ = seq_trace:set_token([]),
        exit({returned, Result})
    end),
    Result = receive {'DOWN', Monitor, process, Pid, Reason} -> returned(Reason) end,
    Events = events(Tracer, Count),
    _ = seq_trace:set_system_tracer(false),
    exit(Tracer, kill),
    {Pid, Result, Events}.

returned({returned, Result}) -> Result.

new_token(Label) ->
    _ = seq_trace:set_token([]),
    _ = seq_trace:set_token(label, Label),
    lists:foreach(fun(Flag) -> seq_trace:set_token(Flag, true) end, [send, 'receive', print]).

%% After its last print no event of the traced process is on its way.
tracer(Events) ->
    receive
        {seq_trace, ?LABEL, Event} -> tracer([Event | Events]);
        {seq_trace, ?END_LABEL, _} -> at_end(Events)
    end.

at_end(Events) ->
    receive
        {seq_trace, ?LABEL, Event} -> at_end([Event | Events]);
        {events, Count, For} when length(Events) >= Count -> For ! {self(), lists:reverse(Events)}
    end.

%% The events once so many came, or those that came in time. A dead tracer has none.
events(Tracer, Count) ->
    Monitor = erlang:monitor(process, Tracer),
    Tracer ! {events, Count, self()},
    receive
        {Tracer, Events} -> true = erlang:demonitor(Monitor, [flush]), Events;
        {'DOWN', Monitor, _, _, _} -> []
    after ?EVENTS_MS ->
        Count > 0 orelse error(no_events),
        events(Tracer, 0)
    end.

%% Events of several processes by rising serial, sends first.
in_order(Events) ->
    Sorted = lists:sort([{{element(2, Event), element(1, Event) =:= 'receive'}, Event}
                         || Event <- Events]),
    [Event || {_, Event} <- Sorted].
