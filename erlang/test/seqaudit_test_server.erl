%% A gen_server whose state is a fun of its requests, but of one that is to be replied to later.
-module(seqaudit_test_server).
-behaviour(gen_server).

-export([start/1, start/2, print/2, timed/2, flood/1, load/2, running/1, without_runtime_tools/0,
         begin_shop/0, order/1, shop_token/0, with_token/1, init/1, handle_call/3, handle_cast/2]).

start(Fun) ->
    {ok, Pid} = gen_server:start(?MODULE, Fun, []),
    Pid.

start(Name, Fun) ->
    {ok, Pid} = gen_server:start({local, Name}, ?MODULE, Fun, []),
    Pid.

init(Fun) ->
    {ok, Fun}.

handle_call({later, Do}, From, Fun) ->
    Do(From),
    {noreply, Fun};
handle_call(Request, _From, Fun) ->
    {reply, Fun(Request), Fun}.

handle_cast(Request, Fun) ->
    Fun(Request),
    {noreply, Fun}.

%% Prints under a token, in this process.
print(Label, What) ->
    seqaudit_trace:with_trace(Label, fun() -> seq_trace:print(What), ok end).

%% Prints with the time.
timed(Label, What) ->
    seqaudit_trace:with_trace(Label, [print, monotonic_timestamp],
                              fun() -> seq_trace:print(What), ok end).

%% Prints so many messages of 32 KB in a moment.
flood(Times) ->
    Large = binary:copy(<<0>>, 32_768),
    seqaudit_trace:with_trace(1, fun() -> [seq_trace:print(Large) || _ <- lists:seq(1, Times)] end),
    ok.

%% Lets pairs write lists of 500 numbers to each other for some time, all under tokens; returns how
%% many messages that was.
load(Pairs, Milliseconds) ->
    End = erlang:monotonic_time(millisecond) + Milliseconds,
    Started = [spawn_monitor(fun() -> exit({sent, pair(Label, End)}) end)
               || Label <- lists:seq(1, Pairs)],
    lists:sum([receive {'DOWN', Monitor, process, _, {sent, Count}} -> Count end
               || {_, Monitor} <- Started]).

pair(Label, End) ->
    Self = self(),
    Numbers = lists:seq(1, 500),
    Other = spawn_link(fun() -> echo(Self) end),
    seq_trace:set_token(label, Label),
    [seq_trace:set_token(Flag, true) || Flag <- [send, 'receive', print]],
    Count = write(Other, Numbers, End, 0),
    seq_trace:set_token([]),
    unlink(Other),
    exit(Other, kill),
    Count.

write(Other, Numbers, End, Count) ->
    Other ! {Count, Numbers},
    receive {back, {Count, _}} -> ok end,
    case Count rem 100 =:= 0 andalso erlang:monotonic_time(millisecond) > End of
        true -> 2 * Count;
        false -> write(Other, Numbers, End, Count + 1)
    end.

echo(To) ->
    receive Message -> To ! {back, Message}, echo(To) end.

%% The processes that are in a function of the module.
running(Module) ->
    [Pid || Pid <- processes(), {_, {In, _, _}} <- [process_info(Pid, current_function)],
     In =:= Module].

%% As if the node had no runtime_tools, which it may not have.
without_runtime_tools() ->
    _ = code:purge(dbg),
    _ = code:delete(dbg),
    _ = code:del_path(runtime_tools),
    {error, _} = code:ensure_loaded(dbg),
    ok.

%% A server that is called by what somebody may trace.
begin_shop() ->
    _ = start(seqaudit_test_shop, fun(Order) -> Order end),
    ok.

order(Order) ->
    gen_server:call(seqaudit_test_shop, Order).

shop_token() ->
    process_info(whereis(seqaudit_test_shop), sequential_trace_token).

%% Calls the function under a token, whoever traces.
with_token(Fun) ->
    seq_trace:set_token(label, 1),
    [seq_trace:set_token(Flag, true) || Flag <- [send, 'receive', print]],
    _ = Fun(7),
    seq_trace:set_token([]),
    true.
