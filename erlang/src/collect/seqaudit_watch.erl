%% @doc Bounds what a trace port holds in memory.
%%
%% Traced processes don't wait for the port: what it hasn't written yet is held as binaries. It
%% answers a question once it has written what came before. So if an answer is late, and the node's
%% binaries have grown meanwhile, the port has fallen behind. Then the tracer is off until the port
%% answers: all that it was given is written, and the facts say for how long nothing was.
%%
%% Two processes do this, and run before others: one waits for the port, and the other one for
%% nothing. Both end with the collector.
-module(seqaudit_watch).

-export([start/2, stop/1, failure/2]).
-export_type([watch/0, pauses/0]).

%% An answer that takes longer is late. If much came to the port it is asked again after this time.
-define(LOOK_MS, 20).
%% If less came, asking so often would cost a node that is hardly traced more than tracing does.
-define(BUSY_BYTES, 1_048_576).
-define(QUIET_MS, 100).
%% The port is behind if the node's binaries have grown by so many bytes since it was last in time.
-define(BEHIND_BYTES, 33_554_432).
%% To ask how much they take costs each scheduler a moment. It is done if much came to the port, and
%% else after so many answers.
-define(ANSWERS, 10).
-define(MOST_PAUSES, 1_000).
-define(LISTED, 10).

-opaque watch() :: pid().

-type pauses() :: {Times :: non_neg_integer(), Milliseconds :: non_neg_integer(),
                 First :: [{Since :: non_neg_integer(), Milliseconds :: non_neg_integer() | open}]}.
%% How often the tracer was off, for how long in all, and the first pauses: when each began, in
%% milliseconds since 1970, and how long it was, if it has ended.

-record(state, {port :: port(),
                folder :: file:filename(),
                collector :: pid(),
                asker :: pid(),
                %% Bytes that the port had written and the binaries took when it was last in time.
                written = 0 :: non_neg_integer(),
                binaries :: non_neg_integer(),
                answers = 0 :: non_neg_integer(),
                rest = ?LOOK_MS :: ?LOOK_MS | ?QUIET_MS,
                off = no :: no | {Since :: non_neg_integer(), Monotonic :: integer()},
                pauses = {0, 0, []} :: pauses()}).

%% @doc Begins to watch a trace port of the caller, which writes to this folder.
-spec start(port(), file:filename()) -> watch().
start(Port, Folder) ->
    Collector = self(),
    spawn_opt(fun() ->
                      Asker = spawn_opt(fun() -> ask_on(Port) end, [link, {priority, high}]),
                      look(#state{port = Port, folder = Folder, collector = Collector,
                                  asker = Asker, binaries = erlang:memory(binary)})
              end, [link, {priority, high}]).

%% @doc Ends it. Whether the tracer may be off because the port was behind, and the facts of that.
-spec stop(watch()) -> {boolean(), #{pauses => pauses()}}.
stop(Watch) ->
    seqaudit_scribe:closed(Watch, infinity, fun(_) -> {true, #{}} end).

%% @doc Whether this message to the collector says that the tracer has to stay off.
-spec failure(term(), watch()) -> {failed, term()} | none.
failure({?MODULE, Watch, Reason}, Watch) -> {failed, Reason};
failure({'EXIT', Watch, Reason}, Watch) -> {failed, {unwatched, Reason}};
failure(_, _) -> none.

%% The port's answer is how many bytes it has written.
ask_on(Port) ->
    receive
        {ask, Watch} ->
            Watch ! {self(), erlang:port_info(Port, output)},
            ask_on(Port);
        close ->
            ok
    end.

look(#state{asker = Asker, off = Off} = State) ->
    Asker ! {ask, self()},
    await(case Off of no -> in_time; _ -> off end, State).

%% The answer is in time yet, late, or one to a question that was asked while the tracer was off.
await(Answer, #state{asker = Asker} = State) ->
    receive
        {Asker, {output, Written}} -> rest(answered(Answer, Written, State));
        {Asker, undefined} -> await_end(State);
        {close, From, Closed} -> close(From, Closed, State)
    after ?LOOK_MS ->
        late(Answer, State)
    end.

rest(#state{rest = Rest} = State) ->
    receive
        {close, From, Closed} -> close(From, Closed, State)
    after Rest ->
        look(State)
    end.

await_end(State) ->
    receive
        {close, From, Closed} -> close(From, Closed, State)
    end.

close(From, Closed, #state{off = Off, asker = Asker} = State) ->
    Asker ! close,
    unlink(From),
    Facts = case pause_ended(State) of
                #state{pauses = {0, _, _}} -> #{};
                #state{pauses = Pauses} -> #{pauses => Pauses}
            end,
    From ! {Closed, {Off =/= no, Facts}},
    ok.

answered(late, _Written, State) ->
    State#state{rest = ?LOOK_MS};
answered(in_time, Written, #state{off = no, written = Before, answers = Answers} = State)
  when Written - Before < ?BUSY_BYTES, Answers < ?ANSWERS ->
    State#state{written = Written, answers = Answers + 1, rest = ?QUIET_MS};
answered(_, Written, State) ->
    On = put_on(State),
    On#state{written = Written, answers = 0, binaries = erlang:memory(binary), rest = ?LOOK_MS}.

late(_, #state{off = no, binaries = Before} = State) ->
    case erlang:memory(binary) - Before > ?BEHIND_BYTES of
        true -> behind(take_off(State));
        false -> await(late, State)
    end;
late(Answer, State) ->
    await(Answer, State).

behind(#state{pauses = {?MOST_PAUSES, _, _}} = State) ->
    State#state.collector ! {?MODULE, self(), {fell_behind, ?MOST_PAUSES}},
    await_end(State);
behind(State) ->
    await(late, State).

%% A tracer that somebody else put in the port's place stays there.
take_off(#state{port = Port, pauses = {Times, Lasted, First}} = State) ->
    case seq_trace:get_system_tracer() of
        Port ->
            _ = seq_trace:set_system_tracer(false),
            Since = erlang:system_time(millisecond),
            Listed = First ++ [{Since, open} || Times < ?LISTED],
            noted(State#state{off = {Since, erlang:monotonic_time(millisecond)},
                              pauses = {Times + 1, Lasted, Listed}});
        _ ->
            State
    end.

put_on(#state{off = no} = State) ->
    State;
put_on(#state{port = Port} = State) ->
    %% The disk may be slow, so it is waited for while the tracer is off. The port may be gone.
    _ = noted(pause_ended(State)),
    _ = seq_trace:get_system_tracer() =:= false
        andalso try seq_trace:set_system_tracer(Port) catch error:_ -> gone end,
    pause_ended(State).

pause_ended(#state{off = no} = State) ->
    State;
pause_ended(#state{off = {Since, Monotonic}, pauses = {Times, Lasted, First}} = State) ->
    Took = erlang:monotonic_time(millisecond) - Monotonic,
    Listed = lists:keyreplace(Since, 1, First, {Since, Took}),
    State#state{off = no, pauses = {Times, Lasted + Took, Listed}}.

noted(#state{folder = Folder, pauses = Pauses} = State) ->
    _ = seqaudit_spool:note(Folder, #{pauses => Pauses}),
    State.
