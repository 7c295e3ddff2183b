%% @doc Collects the events of one node on its own disk, in memory that is bounded.
%%
%% A collector takes the place of the node's system tracer, and puts the former one back at its end.
%% A trace port of `runtime_tools' writes wrapped files, and {@link seqaudit_watch} bounds what it
%% holds. If there is no `runtime_tools', the collector itself is the tracer, {@link
%% seqaudit_scribe} writes, and the collector takes itself off when its queue grows faster than it
%% is emptied. A traced process waits for neither.
%%
%% The collector has no token of its own: it drops one that a stray message brings.
-module(seqaudit_collector).
-behaviour(gen_server).

-export([start/1, folder/1, most_bytes/0, rotate_all/1, stop_all/1, adopt/2]).
-export([init/1, handle_continue/2, handle_call/3, handle_cast/2, handle_info/2, terminate/2]).
-export_type([options/0, use/0]).

%% Trace messages that are on their way when the tracer is taken off come within this time.
-define(SETTLE_MS, 50).
%% The port's buffer goes to the disk, and new processes are looked for, in these steps.
-define(TICK_MS, 100).
%% Bytes of new events that are looked through for processes in one step. If a node is busy, the
%% collector looks at a part, and never works more than a few milliseconds in each tick.
-define(LOOK_BYTES, 262_144).
%% Processes that are asked what they are called; a node may have millions.
-define(PROCESSES, 20_000).
-define(FILES, 8).
%% A trace port takes no larger file.
-define(FILE_BYTES, 16#FFFF_FFFF).
-define(BYTES, 268_435_456).
%% If the collector itself is the tracer it runs before others, as it has to see that it falls
%% behind. The tracer is taken off when so many bytes wait in its queue and for the disk. An event
%% in a queue takes up to eight times the bytes that it has in a file.
-define(QUEUE_BYTES, 8_388_608).
-define(QUEUE_FACTOR, 8).
-define(BUFFER_BYTES, 65_536).
%% The owner's node may come back within this time, as after a net split.
-define(GRACE_MS, 60_000).

-type options() :: #{owner := pid(), reset => boolean(), bytes => pos_integer(),
                     port => boolean(), folder => file:filename() | default,
                     trigger => seqaudit_trigger:trigger() | none, grace => non_neg_integer()}.
%% `owner': the process whose end ends the collector; `grace': how many milliseconds it may be out
%% of reach. The others are those of {@link seqaudit_trace:options()}.

-type use() :: #{owner := node(), folder := file:filename(), left := non_neg_integer() | led}.
%% For whose node a collector works, and how many milliseconds it still waits for it, if that is out
%% of reach.

-type tracer() :: pid() | port() | {module(), term()} | false.

-record(state, {owner :: reference(),
                leader :: pid(),
                folder :: file:filename(),
                bytes :: pos_integer(),
                grace :: non_neg_integer(),
                trigger = none :: seqaudit_trigger:pulled() | none,
                former :: tracer(),
                by :: {port, port()} | {scribe, seqaudit_scribe:scribe()} | closed,
                watch = none :: none | seqaudit_watch:watch(),
                paused = #{} :: seqaudit_spool:facts(),
                asker :: seqaudit_asker:asker() | undefined,
                buffer = {0, []} :: {non_neg_integer(), iolist()},
                %% All events since the start and their bytes, if the collector itself is the
                %% tracer.
                came = {0, 0} :: {non_neg_integer(), non_neg_integer()},
                written = 0 :: non_neg_integer(),
                dropped = 0 :: non_neg_integer(),
                strays = 0 :: non_neg_integer(),
                look = {0, 0} :: {File :: non_neg_integer(), Offset :: non_neg_integer()},
                met = #{} :: #{pid() => met},
                %% Who waits until the files are exchanged, and who prepares the next one.
                turning = no :: no | {gen_server:from(), seqaudit_scribe:scribe()},
                tracer = on :: on | put_back | taken | gone,
                ended = no :: no | {term(), calendar:datetime()},
                lost :: reference() | undefined,
                asked :: gen_server:from() | undefined}).

-type gone_on() :: {noreply, #state{}} | {noreply, #state{}, timeout()}.

%% @doc Starts the collector of this node and makes it, or its port, the system tracer.
-spec start(options()) -> {ok, pid()} | {error, {in_use, use()} | term()}.
start(Options) ->
    case gen_server:start({local, ?MODULE}, ?MODULE, Options,
                          [{spawn_opt, [{message_queue_data, off_heap}]}]) of
        {error, {already_started, Other}} -> start_beside(Other, Options);
        {error, {shutdown, Reason}} -> {error, Reason};
        Started -> Started
    end.

%% There is one already, or was when it was asked.
start_beside(Other, Options) ->
    try {error, {in_use, gen_server:call(Other, in_use)}}
    catch exit:{noproc, _} -> start(Options)
    end.

-spec folder(pid()) -> file:filename().
folder(Collector) ->
    gen_server:call(Collector, folder).

%% @doc The greatest total size of the files, which a trace port still takes.
-spec most_bytes() -> pos_integer().
most_bytes() -> ?FILES * ?FILE_BYTES.

%% @doc From now on the events of each collector go to a new folder; the former one has all that
%% came before. No event is lost between. If a collector has ended or is gone, the list says so in
%% its place.
-spec rotate_all([pid()]) -> [{ok, file:filename()} | {error, ended | {gone, term()} | term()}].
rotate_all(Collectors) -> ask_all(rotate, Collectors).

%% @doc Takes the collectors off, all at the same time: each puts the former tracer back, waits for
%% events on their way, and ends. Its facts are in its folder. If a collector is gone, the list
%% says why in its place.
-spec stop_all([pid()]) -> [ok | {error, {gone, term()}}].
stop_all(Collectors) -> ask_all(stop, Collectors).

ask_all(Request, Collectors) ->
    Requests = [gen_server:send_request(Collector, Request) || Collector <- Collectors],
    [case gen_server:receive_response(Each, infinity) of
         {reply, Reply} -> Reply;
         {error, {Reason, _}} -> {error, {gone, Reason}}
     end || Each <- Requests].

%% @doc Makes this process the owner of a collector whose owner, or the way to it, was lost.
-spec adopt(pid(), pid()) -> ok.
adopt(Collector, Owner) ->
    gen_server:call(Collector, {adopt, Owner}).

%% @private
-spec init(options()) -> {ok, #state{}, {continue, names}} | {stop, {shutdown, term()}}.
init(#{owner := Owner} = Options) ->
    process_flag(trap_exit, true),
    group_leader(whereis(init), self()),
    _ = seq_trace:set_token([]),
    case seqaudit_spool:create(maps:get(folder, Options, default)) of
        {ok, Folder} ->
            State = #state{owner = monitor(process, Owner), leader = Owner,
                           folder = Folder,
                           bytes = maps:get(bytes, Options, ?BYTES),
                           grace = maps:get(grace, Options, ?GRACE_MS),
                           former = seq_trace:get_system_tracer(), by = closed},
            begin_tracing(State, Options);
        {error, Reason} ->
            {stop, {shutdown, Reason}}
    end.

begin_tracing(#state{folder = Folder} = State, Options) ->
    try
        By = open(maps:get(port, Options, false), State),
        ok = seqaudit_spool:note(Folder, first_facts(element(1, By), State)),
        _ = maps:get(reset, Options, false) andalso seq_trace:reset_trace(),
        _ = seq_trace:set_system_tracer(own_tracer(By)),
        Opened = State#state{by = By, watch = watch(By, State),
                             asker = seqaudit_asker:start(Folder)},
        case seqaudit_trigger:pull(maps:get(trigger, Options, none)) of
            {ok, Trigger} ->
                erlang:send_after(?TICK_MS, self(), tick),
                {ok, Opened#state{trigger = Trigger}, {continue, names}};
            {error, Reason} ->
                _ = close(take_off(Opened)),
                _ = seqaudit_spool:remove(Folder),
                {stop, {shutdown, Reason}}
        end
    catch
        error:{badmatch, {error, Fault}} ->
            _ = seqaudit_spool:remove(Folder),
            {stop, {shutdown, {file, Folder, Fault}}}
    end.

first_facts(By, #state{bytes = Bytes}) ->
    #{node => node(), collector => self(), since => erlang:universaltime(), bytes => Bytes,
      by => case By of port -> port; scribe -> process end,
      clock => {erlang:time_offset(), erlang:convert_time_unit(1, second, native)}}.

open(true, #state{folder = Folder, bytes = Bytes} = State) ->
    case trace_port(Folder, Bytes) of
        not_there ->
            open(false, State);
        Opened ->
            {ok, Port} = Opened,
            {port, Port}
    end;
open(false, #state{folder = Folder}) ->
    _ = process_flag(priority, high),
    {ok, Scribe} = seqaudit_scribe:open(Folder),
    {scribe, Scribe}.

%% The port is made by whoever calls the function of `dbg', and ends with that process. It can be
%% watched if the node knows how much memory binaries take; else it is as if there were no `dbg'.
trace_port(Folder, Bytes) ->
    {Base, Suffix} = seqaudit_spool:base(Folder),
    Size = max(1, Bytes div ?FILES),
    try
        _ = erlang:memory(binary),
        Port = (dbg:trace_port(file, {Base, wrap, Suffix, Size, ?FILES}))(),
        true = is_port(Port),
        {ok, Port}
    catch
        error:Reason when Reason =:= undef; Reason =:= notsup -> not_there;
        error:Reason -> {error, Reason}
    end.

own_tracer({port, Port}) -> Port;
own_tracer({scribe, _}) -> self().

watch({port, Port}, #state{folder = Folder}) -> seqaudit_watch:start(Port, Folder);
watch({scribe, _}, _State) -> none.

%% Tokens that the trigger set would stay with their processes; if nobody else traces, all are
%% taken off.
release_trigger(#state{trigger = none}) ->
    ok;
release_trigger(#state{trigger = Pulled, former = Former}) ->
    ok = seqaudit_trigger:release(Pulled),
    _ = Former =:= false andalso seq_trace:reset_trace(),
    ok.

%% @private
-spec handle_continue(names, #state{}) -> {noreply, #state{}}.
handle_continue(names, State) ->
    Pids = case erlang:system_info(process_count) =< ?PROCESSES of
               true -> processes();
               false -> [Pid || Name <- registered(), Pid <- [whereis(Name)], is_pid(Pid)]
           end,
    Met = meet(Pids, State),
    %% If the collector isn't the tracer, it may wait: whoever has begun knows that these have their
    %% names.
    _ = [seqaudit_asker:await(State#state.asker) || State#state.watch =/= none],
    {noreply, Met}.

%% @private
-spec handle_call(term(), gen_server:from(), #state{}) ->
          gone_on() | {reply, term(), #state{}}.
handle_call(folder, _From, State) ->
    {reply, State#state.folder, State};
handle_call({adopt, Owner}, _From, State) ->
    demonitor(State#state.owner, [flush]),
    {reply, ok, State#state{owner = monitor(process, Owner), leader = Owner,
                            lost = undefined}};
handle_call(in_use, _From, #state{leader = Leader, folder = Folder, lost = Lost} = State) ->
    Left = case Lost of
               undefined -> led;
               _ -> case erlang:read_timer(Lost) of false -> 0; Milliseconds -> Milliseconds end
           end,
    {reply, #{owner => node(Leader), folder => Folder, left => Left}, State};
handle_call(rotate, From, #state{tracer = on, ended = no, turning = no, by = {port, _}} = State) ->
    go_on(turn_port(From, State));
handle_call(rotate, From, #state{tracer = on, ended = no, turning = no} = State) ->
    Next = seqaudit_scribe:prepare(new_folder(scribe, State)),
    go_on(State#state{turning = {From, Next}});
handle_call(rotate, _From, #state{turning = {_, _}} = State) ->
    {reply, {error, turning}, State};
handle_call(rotate, _From, State) ->
    {reply, {error, ended}, State};
handle_call(stop, From, State) ->
    {noreply, (take_off(State))#state{asked = From}, ?SETTLE_MS};
handle_call(_Stray, _From, State) ->
    _ = seq_trace:set_token([]),
    {reply, {error, unknown_call}, State#state{strays = State#state.strays + 1}}.

%% @private
-spec handle_cast(term(), #state{}) -> gone_on().
handle_cast(_Stray, State) ->
    stray(State).

%% @private
-spec handle_info(term(), #state{}) -> gone_on() | {stop, normal, #state{}}.
handle_info({seq_trace, _Label, Info} = Event, State) ->
    go_on(event(Event, Info, State));
handle_info({seq_trace, _Label, Info, _Time} = Event, State) ->
    go_on(event(Event, Info, State));
handle_info(timeout, #state{asked = From} = State) when From =/= undefined ->
    Closed = close(State),
    gen_server:reply(From, ok),
    {stop, normal, Closed#state{asked = undefined}};
handle_info(tick, #state{trigger = Trigger} = State) ->
    erlang:send_after(?TICK_MS, self(), tick),
    go_on(tick(State#state{trigger = seqaudit_trigger:tick(Trigger)}));
handle_info({'DOWN', Owner, process, _, noconnection}, #state{owner = Owner} = State) ->
    go_on(State#state{lost = erlang:start_timer(State#state.grace, self(), owner)});
handle_info({timeout, Lost, owner}, #state{lost = Lost} = State) ->
    {stop, normal, close(take_off(ended(owner_out_of_reach, State)))};
handle_info({'DOWN', Owner, process, _, Reason}, #state{owner = Owner} = State) ->
    {stop, normal, close(take_off(ended({owner, Reason}, State)))};
handle_info({'EXIT', Port, Reason}, #state{by = {port, Port}} = State) ->
    go_on(ended({disk, Reason}, (take_off(State))#state{by = closed}));
handle_info({timeout, _, owner}, State) ->
    go_on(State);
handle_info(Message, State) ->
    case {failure(Message, State), prepared(Message, State)} of
        {{failed, Why}, _} -> go_on(close(ended(Why, take_off(State))));
        {none, {ready, Folder}} -> go_on(turn_scribe(Folder, State));
        {none, {failed, {disk, Reason}}} -> go_on(not_turned({error, Reason}, State));
        {none, none} -> stray(State)
    end.

failure(Message, #state{by = {scribe, Scribe}}) -> seqaudit_scribe:failure(Message, Scribe);
failure(_Message, #state{watch = none}) -> none;
failure(Message, #state{watch = Watch}) -> seqaudit_watch:failure(Message, Watch).

prepared(_Message, #state{turning = no}) ->
    none;
prepared(Message, #state{turning = {_, Next}}) ->
    case seqaudit_scribe:ready(Message, Next) of
        none -> seqaudit_scribe:failure(Message, Next);
        Ready -> Ready
    end.

%% @private
-spec terminate(term(), #state{}) -> ok.
terminate(Reason, State) ->
    _ = close(take_off(case State#state.by of
                           closed -> State;
                           _ -> ended({terminated, Reason}, State)
                       end)),
    ok.

%% While a stop waits for the last events, each message begins the wait anew.
go_on(#state{asked = undefined} = State) -> {noreply, State};
go_on(State) -> {noreply, State, ?SETTLE_MS}.

stray(State) ->
    _ = seq_trace:set_token([]),
    go_on(State#state{strays = State#state.strays + 1}).

%% Only the first end is one. Whoever leads the collector hears of it at once; nobody waits for that
%% message.
ended(Why, #state{ended = no, leader = Leader} = State) ->
    _ = erlang:send(Leader, {ended, node(), Why}, [noconnect, nosuspend]),
    State#state{ended = {Why, erlang:universaltime()}};
ended(_Why, State) -> State.

event(Event, Info, #state{by = {scribe, _}, written = Written} = State0) ->
    Bytes = term_to_binary(Event),
    Size = byte_size(Bytes) + 5,
    {Events, Sum} = State0#state.came,
    State = State0#state{came = {Events + 1, Sum + Size}},
    case Written + Size =< State#state.bytes of
        true ->
            Buffered = buffer([<<0, (byte_size(Bytes)):32>>, Bytes], Size, State),
            look_at_queue(meet_all([Info], Buffered#state{written = Written + Size}));
        false ->
            look_at_queue(State#state{dropped = State#state.dropped + 1})
    end;
event(_Event, _Info, #state{by = closed, dropped = Dropped} = State) ->
    State#state{dropped = Dropped + 1};
event(_Event, _Info, State) ->
    State#state{strays = State#state.strays + 1}.

buffer(Entry, Size, #state{buffer = {Before, Entries}} = State) ->
    Buffered = State#state{buffer = {Before + Size, [Entries, Entry]}},
    case Before + Size > ?BUFFER_BYTES of
        true -> flush(Buffered);
        false -> Buffered
    end.

flush(#state{by = {scribe, Scribe}, buffer = {Size, Entries}} = State) when Size > 0 ->
    State#state{by = {scribe, seqaudit_scribe:write(Entries, Size, Scribe)}, buffer = {0, []}};
flush(State) ->
    State.

%% The events in the queue are taken to be as large as those that came.
look_at_queue(#state{tracer = on, by = {scribe, Scribe}} = State) ->
    #state{came = {Events, Bytes}} = State,
    {message_queue_len, Length} = process_info(self(), message_queue_len),
    Waiting = Length * (Bytes div Events) * ?QUEUE_FACTOR,
    case Waiting + seqaudit_scribe:unwritten(Scribe) > ?QUEUE_BYTES of
        true -> take_off(ended(fell_behind, State));
        false -> State
    end;
look_at_queue(State) ->
    State.

%% Has the port write what it holds, so that a node that is killed leaves it on the disk.
tick(#state{by = {port, Port}} = State) ->
    try erlang:port_control(Port, $f, "") of
        _ -> look(note_written(written(Port), State))
    catch
        error:badarg -> State
    end;
tick(State) ->
    flush(State).

%% How much came is noted for each file's worth, so that it is known roughly of a killed node too.
note_written(Now, #state{written = Noted, bytes = Bytes} = State)
  when Now - Noted > Bytes div ?FILES ->
    _ = seqaudit_spool:note(State#state.folder, #{written => Now}),
    State#state{written = Now};
note_written(_Now, State) ->
    State.

%% Looks through new events for processes that weren't seen. The file behind the last one is always
%% missing, so whenever the next one is there, the port has gone on to it.
look(#state{look = {File, Offset}, folder = Folder} = State) ->
    {Base, Suffix} = seqaudit_spool:base(Folder),
    Name = fun(Number) -> Base ++ integer_to_list(Number) ++ Suffix end,
    {Infos, Used} = case seqaudit_spool:read(Name(File), Offset, ?LOOK_BYTES) of
                        {ok, Bytes} -> infos(Bytes, 0, []);
                        _ -> {[], 0}
                    end,
    Next = (File + 1) rem (?FILES + 1),
    MayBeAtEnd = Used =:= 0 orelse Used > ?LOOK_BYTES div 2,
    Place = case MayBeAtEnd andalso file:read_file_info(Name(Next), [raw]) of
                {ok, _} -> {Next, 0};
                _ -> {File, Offset + Used}
            end,
    meet_all(Infos, State#state{look = Place}).

infos(<<0, Size:32, Bytes:Size/binary, Rest/binary>>, Used, Infos) ->
    infos(Rest, Used + 5 + Size, info(Bytes) ++ Infos);
infos(<<1, _:32, Rest/binary>>, Used, Infos) ->
    infos(Rest, Used + 5, Infos);
infos(_, Used, Infos) ->
    {Infos, Used}.

%% A busy port may have written the file over since it was last looked at; then what comes behind
%% the offset begins in the middle of an event, and is no term.
info(Bytes) ->
    try binary_to_term(Bytes, [safe]) of
        {seq_trace, _, Info} -> [Info];
        {seq_trace, _, Info, _} -> [Info];
        _ -> []
    catch
        error:badarg -> []
    end.

meet_all(Infos, State) ->
    meet(lists:usort([Pid || {_Kind, _Serial, From, To, _Message} <- Infos, Pid <- [From, To],
                             is_pid(Pid), node(Pid) =:= node()]), State).

meet(Pids, #state{met = Met, asker = Asker} = State) when map_size(Met) < ?PROCESSES ->
    New = [Pid || Pid <- Pids, not is_map_key(Pid, Met)],
    ok = seqaudit_asker:meet(New, Asker),
    State#state{met = maps:merge(Met, maps:from_keys(New, met))};
meet(_Pids, State) ->
    State.

%% Puts the former tracer back, unless somebody else's is in the collector's place. There may be
%% none because the port is behind, or gone.
take_off(#state{tracer = on} = State) ->
    {Behind, Unwatched} = unwatched(State),
    take_off(Behind, Unwatched);
take_off(State) ->
    State.

take_off(Behind, #state{by = By, former = Former} = State) ->
    ok = release_trigger(State),
    State#state{trigger = none,
                tracer = case {is_own(Behind, State), By} of
                             {true, _} -> put_back(Former);
                             {false, {port, Port}} ->
                                 case {seq_trace:get_system_tracer(), erlang:port_info(Port, id)} of
                                     {false, undefined} -> put_back(Former);
                                     _ -> taken
                                 end;
                             {false, _} -> taken
                         end}.

unwatched(#state{watch = none} = State) ->
    {false, State};
unwatched(#state{watch = Watch} = State) ->
    {Behind, Paused} = seqaudit_watch:stop(Watch),
    {Behind, State#state{watch = none, paused = Paused}}.

is_own(_Behind, #state{by = closed}) -> false;
is_own(Behind, #state{by = By}) ->
    case seq_trace:get_system_tracer() of
        false -> Behind;
        Tracer -> Tracer =:= own_tracer(By)
    end.

put_back(Former) ->
    try seq_trace:set_system_tracer(Former) of
        _ -> put_back
    catch
        error:badarg ->
            _ = seq_trace:set_system_tracer(false),
            gone
    end.

new_folder(By, #state{folder = Former} = State) ->
    Parent = filename:dirname(Former),
    Facts = first_facts(By, State),
    fun() ->
            case seqaudit_spool:create(Parent) of
                {ok, Folder} -> noted(Folder, Facts);
                {error, Reason} -> {error, Reason}
            end
    end.

noted(Folder, Facts) ->
    case seqaudit_spool:note(Folder, Facts) of
        ok ->
            {ok, Folder};
        {error, Fault} ->
            _ = seqaudit_spool:remove(Folder),
            {error, {file, Folder, Fault}}
    end.

%% A port is opened here and at once: the collector isn't the tracer, so nothing waits for it
%% meanwhile.
turn_port(From, #state{bytes = Bytes} = State) ->
    case (new_folder(port, State))() of
        {ok, Folder} ->
            case trace_port(Folder, Bytes) of
                {ok, Port} ->
                    {Behind, Unwatched} = unwatched(State),
                    turn(is_own(Behind, Unwatched), From, Folder, {port, Port}, Unwatched);
                not_there ->
                    not_turned_port({error, no_port}, From, Folder, State);
                {error, Reason} ->
                    not_turned_port({error, {file, Folder, Reason}}, From, Folder, State)
            end;
        {error, Reason} ->
            gen_server:reply(From, {error, Reason}),
            State
    end.

not_turned_port(Reply, From, Folder, State) ->
    _ = seqaudit_spool:remove(Folder),
    gen_server:reply(From, Reply),
    State.

turn_scribe(Folder, #state{turning = {From, Next}} = State) ->
    turn(is_own(false, State), From, Folder, {scribe, Next}, (flush(State))#state{turning = no}).

%% From the moment at which the tracer is exchanged events go to the next files. Somebody else's
%% tracer stays.
turn(true, From, Folder, By, #state{asker = Asker} = Former) ->
    _ = seq_trace:set_system_tracer(own_tracer(By)),
    _ = [unlink(Port) || {port, Port} <- [Former#state.by]],
    Turned = make_ref(),
    Finished = Former#state{tracer = put_back, met = #{}},
    Finisher = spawn(fun() -> finish(Finished, Turned, From, Folder) end),
    ok = seqaudit_asker:turn(Folder, {Finisher, Turned}, Asker),
    Begun = Former#state{folder = Folder, by = By, paused = #{}, buffer = {0, []},
                         written = 0, dropped = 0, strays = 0, look = {0, 0}, met = #{}},
    Begun#state{watch = watch(By, Begun)};
turn(false, From, Folder, By, State) ->
    _ = closed(State#state{by = By}),
    _ = seqaudit_spool:remove(Folder),
    gen_server:reply(From, {error, ended}),
    close(take_off(false, State)).

%% Closes the former files: what is on its way to their port still goes there.
finish(#state{folder = Former} = State, Turned, From, Folder) ->
    receive after ?SETTLE_MS -> ok end,
    Closed = closed(State),
    ok = seqaudit_asker:turned(Turned),
    _ = seqaudit_spool:note(Former, last_facts(Closed)),
    gen_server:reply(From, {ok, Folder}).

not_turned(Reply, #state{turning = {From, _}} = State) ->
    gen_server:reply(From, Reply),
    State#state{turning = no}.

close(#state{turning = {_, Next}} = State) ->
    ok = seqaudit_scribe:drop(Next),
    close(not_turned({error, ended}, State));
close(#state{asker = Asker} = State) ->
    Closed = closed(tick(State)),
    _ = Asker =:= undefined orelse seqaudit_asker:close(Asker),
    _ = seqaudit_spool:note(State#state.folder, last_facts(Closed)),
    Closed#state{asker = undefined}.

%% Closes the files. If the last of them couldn't be written, the facts say what they lack.
closed(#state{by = closed} = State) ->
    State;
closed(#state{by = {port, Port}} = State) ->
    Monitor = monitor(port, Port),
    Written = written(Port),
    _ = try erlang:port_control(Port, $f, "") catch error:_ -> gone end,
    unlink(Port),
    _ = try port_close(Port) catch error:_ -> gone end,
    Closed = State#state{by = closed, written = Written},
    receive
        {'DOWN', Monitor, port, _, normal} -> Closed;
        {'DOWN', Monitor, port, _, Reason} -> ended({disk, Reason}, Closed)
    end;
closed(#state{by = {scribe, Scribe}} = State) ->
    Closed = State#state{by = closed},
    case seqaudit_scribe:close(Scribe) of
        ok -> Closed;
        {error, Reason} -> ended({disk, Reason}, Closed)
    end.

%% All that came to the port, once no more comes.
written(Port) ->
    case erlang:port_info(Port, output) of
        {output, Written} -> Written;
        undefined -> 0
    end.

last_facts(#state{paused = Paused} = State) ->
    Facts = Paused#{written => State#state.written, dropped => State#state.dropped,
                    strays => State#state.strays, tracer => State#state.tracer},
    case State#state.ended of
        no -> Facts;
        Ended -> Facts#{ended => Ended}
    end.
