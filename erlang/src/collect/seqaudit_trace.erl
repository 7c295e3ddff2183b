%% @doc Traces messages on this node or on a list of nodes, and writes what was collected.
%%
%% ```
%% ok = seqaudit_trace:start(#{name => "lookup"}),
%% seqaudit_trace:with_trace(17, fun() -> gen_server:call(catalogue, {lookup, 10}) end),
%% {ok, Summary} = seqaudit_trace:stop().
%% '''
%%
%% `start' puts a {@link seqaudit_collector. collector} on each node, and `stop' fetches what they
%% wrote and converts it. Both take the caller's own token off first, so that nothing of this module
%% enters the trace. Of what ended meanwhile, what came before is read from the disk.
-module(seqaudit_trace).
-behaviour(gen_server).

-export([start/0, start/1, stop/0, rotate/1, cancel/0, folders/0, with_trace/2, with_trace/3,
         bytes/0, format_error/1]).
-export([init/1, handle_call/3, handle_cast/2, handle_info/2]).
-export_type([options/0, flag/0, rotated/0, news/0]).

-import(seqaudit_errors, [text/2]).

-define(BYTES, 268_435_456).
%% A trace file smaller than this is no use: a message is often as large.
-define(LEAST_BYTES, 65_536).
-define(FLAGS, [send, 'receive', print, timestamp, strict_monotonic_timestamp,
                monotonic_timestamp]).
%% Modules that another node needs: the collector, what it calls while it collects, and this one for
%% `with_trace'. What puts reasons into words isn't among them, as that is done here.
-define(MODULES, [seqaudit_spool, seqaudit_asker, seqaudit_scribe, seqaudit_watch, seqaudit_trigger,
                  seqaudit_collector, ?MODULE]).
-define(REMOTE_MS, 15_000).
%% A node that is out of reach is tried again in these steps.
-define(REACH_MS, 500).
%% A collector that has replied is gone within this time, and one that is gone is known to be.
-define(END_MS, 5_000).
-define(PIECE, 1_048_576).
%% The first release of OTP that has what collecting needs, and the first that the tests don't know.
-define(LEAST_OTP, 25).

-type options() :: #{nodes => [node()], name => file:filename(), reset => boolean(),
                     bytes => pos_integer(),
                     folder => file:filename() | default,
                     trigger => seqaudit_trigger:trigger() | none, port => boolean(),
                     tell => fun((node(), news()) -> term())}.
%% `nodes': where to trace, this node alone if it isn't given; `name': the files' name without
%% extension, `"seqaudit"' if it isn't given; `bytes': the total size of each node's files,
%% 268,435,456 if it isn't given; `reset': whether `seq_trace:reset_trace/0' is called on each node
%% first, which takes the tokens of all its users; `folder': where each node makes the folder for
%% its files, its folder for temporary files if it isn't given; `trigger': functions whose callers
%% get a token; `port': whether a trace port may be used, true if it isn't given; `tell': what is
%% called with the news of a node.

-type news() :: away | back | {gone, Reason :: term()} | {ended, Reason :: term()}.
%% A node can't be reached, or can be again; its collector is gone, or collects no more.

-type flag() :: send | 'receive' | print
              | timestamp | strict_monotonic_timestamp | monotonic_timestamp.

-type rotated() :: {ok, file:filename()} | {again, file:filename() | none}
          | {gone, file:filename(), term()}
                 | {error, term()}.
%% The result of a rotation for a node: its events, while its collecting goes on; those until its
%% collecting ended, if they weren't written before, and it began again; those until it ended, and
%% why it couldn't begin again; or nothing, and why.

-record(node, {node :: node(),
               collector :: pid(),
               monitor :: reference() | undefined,
               %% Where its events go, unless it is gone and they were fetched; and files that
               %% weren't fetched yet.
               folder :: file:filename() | none,
               former = [] :: [file:filename()],
               %% Whether the collector is led from here, is out of reach since this time, or is
               %% gone.
               is = on :: on | {away, integer()} | {gone, term()},
               split = {0, 0} :: {Times :: non_neg_integer(), Milliseconds :: non_neg_integer()}}).

-record(state, {name :: file:filename(),
                tell :: fun((node(), news()) -> term()),
                options :: map(),
                nodes :: [#node{}],
                %% The process that exchanges files, and who waits for it.
                turning = no :: no | {pid(), reference(), gen_server:from()}}).

%% @equiv start(#{})
-spec start() -> ok | {error, term()}.
start() ->
    start(#{}).

%% @doc Puts a collector on each node. Either all of them are on afterwards, or none.
-spec start(options()) -> ok | {error, term()}.
start(Options) ->
    _ = seq_trace:set_token([]),
    Defaults = maps:map(fun(_, {Default, _, _}) -> Default end, allowed()),
    All = maps:merge(Defaults, Options),
    Wrong = [{Option, Value} || {Option, {_, IsAllowed, _}} <- maps:to_list(allowed()),
                                Value <- [maps:get(Option, All)], not IsAllowed(Value)],
    case {maps:keys(maps:without(maps:keys(Defaults), Options)), Wrong, left_over()} of
        {[], [], none} -> started(gen_server:start({local, ?MODULE}, ?MODULE, All, []));
        {[], [], _} -> {error, left_over};
        {[], [{Option, Value} | _], _} -> {error, {option, Option, Value}};
        {Unknown, _, _} -> {error, {unknown_options, Unknown}}
    end.

%% Each option: its default, and what its values are.
allowed() ->
    #{nodes => {[node()], fun are_nodes/1, "it is a list of one or more node names"},
      name => {"seqaudit", fun is_name/1, "it is the name of a file"},
      reset => {false, fun is_boolean/1, "it is true or false"},
      port => {true, fun is_boolean/1, "it is true or false"},
      bytes => {?BYTES, fun is_size/1,
                text("it is a whole number of bytes from ~b to ~b", tuple_to_list(bytes()))},
      tell => {fun(_, _) -> ok end, fun(Tell) -> is_function(Tell, 2) end,
               "it is a function of a node and its news"},
      folder => {default, fun(Folder) -> Folder =:= default orelse is_name(Folder) end,
                 "it is the name of a folder"},
      trigger => {none, fun seqaudit_trigger:is_valid/1,
                  "it is a map with function or functions, label, times, and perhaps calls"}}.

are_nodes(Nodes) -> is_list(Nodes) andalso Nodes =/= [] andalso lists:all(fun is_atom/1, Nodes).

is_name(Name) -> io_lib:char_list(Name) andalso Name =/= [].

is_size(Bytes) ->
    {Least, Most} = bytes(),
    is_integer(Bytes) andalso Bytes >= Least andalso Bytes =< Most.

started({ok, _}) -> ok;
started({error, {shutdown, Reason}}) -> {error, Reason};
started({error, Reason}) -> {error, Reason}.

%% @doc The least and the greatest total size that the files of a node can have.
-spec bytes() -> {pos_integer(), pos_integer()}.
bytes() -> {?LEAST_BYTES, seqaudit_collector:most_bytes()}.

%% @doc Takes the collectors off and writes the files. Returns how many events were kept and
%% dropped, and which files were written. If the process that led the collection was killed, it
%% writes what came until then.
-spec stop() -> {ok, seqaudit_convert:summary()} | {error, term()}.
stop() ->
    _ = seq_trace:set_token([]),
    Leader = monitor(process, ?MODULE),
    try gen_server:call(?MODULE, stop, infinity) of
        {ok, Summary} ->
            %% It goes now; once it has gone, the next collection can start.
            receive {'DOWN', Leader, process, _, _} -> {ok, Summary} end;
        {error, Reason} ->
            demonitor(Leader, [flush]),
            {error, Reason}
    catch
        exit:{noproc, _} ->
            demonitor(Leader, [flush]),
            recover(left_over())
    end.

%% @doc Writes what came since the start, or since this was last called, while collecting goes on
%% without a gap: a file of events for each node that can be reached, with this name, a number and
%% `.events'. Where collecting ended by itself meanwhile, as on a disk that was full, and on a node
%% that was started anew, it begins again.
-spec rotate(file:filename()) -> [{node(), rotated()}].
rotate(Name) ->
    gen_server:call(?MODULE, {rotate, Name}, infinity).

%% @doc Takes the collectors off, and removes what came since {@link rotate/1} was last called.
-spec cancel() -> ok.
cancel() ->
    Leader = monitor(process, ?MODULE),
    ok = gen_server:call(?MODULE, cancel, infinity),
    receive {'DOWN', Leader, process, _, _} -> ok end.

recover(none) ->
    {error, not_started};
recover(State) ->
    case gen_server:start({local, ?MODULE}, ?MODULE, {recover, State}, []) of
        {ok, _} -> stop();
        {error, {already_started, _}} -> stop();
        {error, Reason} -> {error, Reason}
    end.

%% Returns a collection whose leader was killed: it is noted outside of that process.
left_over() ->
    case {whereis(?MODULE), application:get_env(seqaudit, collection)} of
        {undefined, {ok, State}} -> State;
        _ -> none
    end.

%% @doc Where each node's events go while they are collected.
-spec folders() -> [{node(), file:filename()}].
folders() ->
    gen_server:call(?MODULE, folders).

%% @equiv with_trace(Label, [send, 'receive', print], Fun)
-spec with_trace(term(), fun(() -> Result)) -> Result.
with_trace(Label, Fun) ->
    with_trace(Label, [send, 'receive', print], Fun).

%% @doc Runs the function under a token with this label and these flags, and takes the token off
%% again, however it ends. A token that was there before is taken off too.
-spec with_trace(term(), [flag()], fun(() -> Result)) -> Result.
with_trace(Label, Flags, Fun) when is_list(Flags), is_function(Fun, 0) ->
    [] =:= Flags -- ?FLAGS orelse error(badarg, [Label, Flags, Fun]),
    _ = seq_trace:set_token([]),
    try
        _ = seq_trace:set_token(label, Label),
        lists:foreach(fun(Flag) -> seq_trace:set_token(Flag, true) end, Flags),
        Fun()
    after
        _ = seq_trace:set_token([])
    end.

-spec format_error(term()) -> string().
format_error({already_started, _}) ->
    "a trace is already being collected here; end it first: seqaudit_trace:stop()";
format_error(not_started) ->
    "no trace is being collected; begin one: seqaudit_trace:start()";
format_error({unknown_options, Names}) ->
    text("start doesn't know the options ~0tp; it takes ~0tp", [Names, maps:keys(allowed())]);
format_error({option, Option, Value}) ->
    {_, _, Allowed} = maps:get(Option, allowed()),
    text("~ts can't be ~0tP: ~ts", [Option, Value, 10, Allowed]);
format_error(left_over) ->
    "a collection whose leader was killed isn't written yet; write it first: seqaudit_trace:stop()";
format_error({otp, Release}) ->
    text("this Erlang is OTP ~ts, and collecting needs OTP ~b or later", [Release, ?LEAST_OTP]);
format_error({node, Node, {otp, Release}}) ->
    text("node ~ts is OTP ~ts, and collecting needs OTP ~b or later", [Node, Release, ?LEAST_OTP]);
format_error({node, Node, {trigger, Reason}}) ->
    seqaudit_trigger:format_error(Node, Reason);
format_error({node, Node, {file, File, Reason}}) ->
    text("node ~ts can't write to ~ts: ~ts; name another folder (--folder)",
         [Node, File, file:format_error(Reason)]);
format_error({node, Node, {in_use, #{owner := Owner, folder := Folder, left := led}}}) ->
    text("node ~ts is traced already, for ~ts (its events go to ~ts); end that first, by Ctrl-C or "
         "seqaudit_trace:stop() there", [Node, Owner, Folder]);
format_error({node, Node, {in_use, #{owner := Owner, folder := Folder, left := Left}}}) ->
    text("node ~ts is still traced for ~ts, which can't be reached any more; that ends in ~b s, "
         "unless it comes back, and leaves its events in ~ts there",
         [Node, Owner, (Left + 999) div 1_000, Folder]);
format_error({node, Node, unreachable}) ->
    text("node ~ts can't be reached; is it running, is its name spelled so, and is the cookie the "
         "same?", [Node]);
format_error({node, Node, {load, Module, Reason}}) ->
    text("node ~ts can't load ~ts (~0tp)", [Node, Module, Reason]);
format_error({node, Node, {load_elsewhere, Module, Reason}}) ->
    text("node ~ts can't load ~ts (~0tp): it has another release of OTP than this command, OTP "
         "~ts, and no compiler; run the command with that node's release", [Node, Module, Reason,
                                                  erlang:system_info(otp_release)]);
format_error({node, Node, {no_forms, Module}}) ->
    text("node ~ts has another release of OTP than this command, and ~ts was compiled without "
         "debug information, from which that node could compile it; `make -C erlang clean all' "
         "compiles it anew", [Node, Module]);
format_error({node, Node, Reason}) ->
    text("no collector could be started on ~ts: ~0tp", [Node, Reason]);
format_error({unwritable, File, Reason}) ->
    text("~ts can't be written: ~ts", [File, file:format_error(Reason)]);
format_error({Which, File, Reason}) when Which =:= file; Which =:= unwritten ->
    text("~ts can't be written: ~ts; once it can, seqaudit_trace:stop() writes what was collected",
         [File, file:format_error(Reason)]);
format_error(Reason) ->
    text("~0tp", [Reason]).

%% @private
-spec init(options() | {recover, #state{}}) -> {ok, #state{}} | {stop, {shutdown, term()}}.
init({recover, #state{nodes = Nodes} = State}) ->
    {ok, State#state{nodes = [Node#node{monitor = monitor(process, Node#node.collector)}
                              || Node <- Nodes]}};
init(#{nodes := Nodes, name := Name, tell := Tell} = Options) ->
    Each = (maps:without([nodes, name, tell], Options))#{owner => self()},
    case {erlang:system_info(otp_release), seqaudit_events:writable(Name)} of
        {Release, ok} ->
            case is_enough(Release) andalso start_all(lists:usort(Nodes), Each, []) of
                {ok, Started} ->
                    {ok, noted(#state{name = Name, tell = Tell, options = Each,
                                      nodes = Started})};
                {error, Reason} -> {stop, {shutdown, Reason}};
                false -> {stop, {shutdown, {otp, Release}}}
            end;
        {_, {error, Reason}} ->
            {stop, {shutdown, Reason}}
    end.

is_enough(Release) -> list_to_integer(Release) >= ?LEAST_OTP.

%% Who takes over if this process is killed reads it there.
noted(State) ->
    ok = application:set_env(seqaudit, collection, State#state{turning = no}),
    State.

%% @private
-spec handle_call(term(), gen_server:from(), #state{}) ->
          {stop, normal, {ok, seqaudit_convert:summary()} | ok, #state{}}
        | {reply, term(), #state{}} | {noreply, #state{}}.
handle_call(stop, _From, State0) ->
    State = stopped(awaited(State0)),
    case gather(State) of
        {ok, Summary} ->
            ok = application:unset_env(seqaudit, collection),
            {stop, normal, {ok, Summary}, State};
        {error, Reason} ->
            {reply, {error, Reason}, State}
    end;
handle_call({rotate, Name}, From, State0) ->
    State = awaited(State0),
    Self = self(),
    {Worker, Monitor} = spawn_monitor(fun() -> Self ! {turned, self(), rotated(Name, State)} end),
    {noreply, State#state{turning = {Worker, Monitor, From}}};
handle_call(cancel, _From, State0) ->
    #state{nodes = Nodes} = State = stopped(given_up(State0)),
    lists:foreach(fun remove/1, Nodes),
    ok = application:unset_env(seqaudit, collection),
    {stop, normal, ok, State};
handle_call(folders, _From, #state{nodes = Nodes} = State) ->
    {reply, [{Node, Folder} || #node{node = Node, folder = Folder} <- Nodes, Folder =/= none],
     State};
handle_call(_Stray, _From, State) ->
    {reply, {error, unknown_call}, State}.

%% @private
-spec handle_cast(term(), #state{}) -> {noreply, #state{}}.
handle_cast(_Stray, State) ->
    {noreply, State}.

%% @private
-spec handle_info(term(), #state{}) -> {noreply, #state{}}.
handle_info({turned, Worker, Rotated}, #state{turning = {Worker, _, _}} = State) ->
    {noreply, turned(Rotated, State)};
handle_info({'DOWN', Monitor, process, _, Reason}, #state{turning = {_, Monitor, _}} = State) ->
    {noreply, not_turned(Reason, State)};
handle_info({'DOWN', Monitor, process, _, Reason}, #state{nodes = Nodes} = State) ->
    case lists:keyfind(Monitor, #node.monitor, Nodes) of
        #node{} = Node -> {noreply, put_node(down(Node, Reason, State), State)};
        false -> {noreply, State}
    end;
handle_info({ended, Name, Why}, #state{tell = Tell} = State) ->
    _ = Tell(Name, {ended, Why}),
    {noreply, State};
handle_info({reach, Name}, #state{nodes = Nodes} = State) ->
    case lists:keyfind(Name, #node.node, Nodes) of
        #node{is = {away, _}} = Node ->
            Self = self(),
            _ = spawn(fun() -> Self ! {reached, Name, connected(Node#node.node)} end),
            {noreply, State};
        _ ->
            {noreply, State}
    end;
handle_info({reached, Name, Connected}, #state{nodes = Nodes} = State) ->
    case lists:keyfind(Name, #node.node, Nodes) of
        #node{is = {away, _}} = Node when Connected ->
            {noreply, put_node(back(lead_on(Node), State), State)};
        #node{is = {away, _}} = Node -> {noreply, put_node(try_later(Node), State)};
        _ -> {noreply, State}
    end;
handle_info(_Stray, State) ->
    {noreply, State}.

put_node(#node{node = Name} = Node, #state{nodes = Nodes} = State) ->
    State#state{nodes = lists:keyreplace(Name, #node.node, Nodes, Node)}.

%% A node that is out of reach may be back soon: its collector goes on and waits for that.
down(#node{node = Name} = Node, noconnection, #state{tell = Tell}) ->
    _ = Tell(Name, away),
    try_later(Node#node{is = {away, erlang:monotonic_time(millisecond)}});
down(#node{node = Name} = Node, Reason, #state{tell = Tell}) ->
    _ = Reason =:= normal orelse Tell(Name, {gone, Reason}),
    Node#node{is = {gone, Reason}}.

back(#node{node = Name, is = Is} = Node, #state{tell = Tell}) ->
    _ = [Tell(Name, News) || News <- case Is of
                                         on -> [back];
                                         {gone, Reason} -> [back, {gone, Reason}];
                                         {away, _} -> []
                                     end],
    Node.

try_later(Node) ->
    _ = erlang:send_after(?REACH_MS, self(), {reach, Node#node.node}),
    Node.

connected(Node) -> net_kernel:connect_node(Node) =:= true.

lead_on(#node{collector = Collector, is = {away, Since}, split = {Times, Sum}} = Node) ->
    try {seqaudit_collector:adopt(Collector, self()), seqaudit_collector:folder(Collector)} of
        {ok, Folder} ->
            Away = erlang:monotonic_time(millisecond) - Since,
            in_folder(Folder, Node#node{is = on, monitor = monitor(process, Collector),
                                        split = {Times + 1, Sum + Away}})
    catch
        exit:{Reason, _}
          when Reason =:= noproc; Reason =:= normal -> Node#node{is = {gone, noproc}};
        exit:_ -> try_later(Node)
    end.

%% A collector may have gone on to other files, and nobody was told where.
in_folder(Folder, #node{folder = Folder} = Node) ->
    Node;
in_folder(Folder, #node{folder = Known, former = Former} = Node) ->
    Node#node{folder = Folder, former = Former ++ [Known]}.

%% If one node fails, the collectors that are on already end with their owner, this process.
start_all([], _Options, Started) ->
    {ok, lists:reverse(Started)};
start_all([Node | Nodes], Options, Started) ->
    case start_on(Node, Options) of
        {ok, Pid} ->
            On = #node{node = Node, collector = Pid, monitor = monitor(process, Pid),
                       folder = seqaudit_collector:folder(Pid)},
            start_all(Nodes, Options, [On | Started]);
        {error, Reason} ->
            %% Nothing was asked of the nodes that are on, so what they have is removed.
            _ = seqaudit_collector:stop_all([Collector || #node{collector = Collector} <- Started]),
            lists:foreach(fun remove/1, Started),
            {error, {node, Node, Reason}}
    end.

start_on(Node, Options) when Node =:= node() ->
    seqaudit_collector:start(Options);
start_on(Node, Options) ->
    try
        Release = erpc:call(Node, erlang, system_info, [otp_release], ?REMOTE_MS),
        is_enough(Release) orelse throw({otp, Release}),
        case seqaudit_load:on(Node, ?MODULES) of
            ok -> erpc:call(Node, seqaudit_collector, start, [Options], ?REMOTE_MS);
            {error, NotLoaded} -> {error, NotLoaded}
        end
    catch
        error:{erpc, noconnection} -> {error, unreachable};
        error:{erpc, Reason} -> {error, Reason};
        throw:Reason -> {error, Reason}
    end.

stopped(#state{nodes = Nodes0} = State) ->
    Nodes = [case Node of
                 #node{is = {away, _}} ->
                     case connected(Node#node.node) of
                         true -> lead_on(Node);
                         false -> Node
                     end;
                 _ -> Node
             end || Node <- Nodes0],
    State#state{nodes = [stopped_node(Node, Reply)
                         || {Node, Reply} <- replies(fun seqaudit_collector:stop_all/1, Nodes)]}.

%% Asks the collectors that are led from here, and returns each node with the reply of its own.
replies(Ask, Nodes) ->
    Led = [Node || #node{is = on} = Node <- Nodes],
    Replies = maps:from_list(lists:zip(Led, Ask([Node#node.collector || Node <- Led]))),
    [{Node, maps:get(Node, Replies, none)} || Node <- Nodes].

stopped_node(Node, ok) ->
    %% It has replied and goes now; once it has gone, the next one can start.
    _ = end_of(Node),
    Node#node{is = {gone, normal}};
stopped_node(Node, {error, {gone, noproc}}) -> Node#node{is = {gone, end_of(Node)}};
stopped_node(Node, {error, {gone, Reason}}) -> Node#node{is = {gone, Reason}};
stopped_node(#node{is = {away, _}} = Node, none) -> Node#node{is = {gone, noconnection}};
stopped_node(Node, none) -> Node.

%% Why the collector ended. The message that says so may still be on its way.
end_of(#node{monitor = Monitor}) ->
    receive
        {'DOWN', Monitor, process, _, Reason} -> Reason
    after ?END_MS ->
        demonitor(Monitor, [flush]),
        noproc
    end.

%% Each collector goes on to other files; then what came before is fetched and removed where it was.
rotated(Name, #state{nodes = Nodes, options = Options}) ->
    [{Node#node.node, rotated(Reply, Node, Name ++ "." ++ integer_to_list(Number), Options)}
     || {Number, {Node, Reply}} <- lists:enumerate(replies(fun seqaudit_collector:rotate_all/1,
                                                           Nodes))].

rotated({ok, Folder}, Node, File, _Options) ->
    {{on, Folder}, fetched(Node#node{is = {gone, normal}}, File)};
rotated({error, ended}, #node{collector = Collector} = Node, File, Options) ->
    _ = seqaudit_collector:stop_all([Collector]),
    begun_again(Node#node{is = {gone, normal}}, File, Options);
rotated({error, {gone, noconnection}}, _Node, _File, _Options) ->
    {same, {error, unreachable}};
rotated({error, {gone, Reason}}, Node, File, Options) ->
    begun_again(Node#node{is = {gone, Reason}}, File, Options);
rotated({error, Reason}, _Node, _File, _Options) ->
    {same, {error, Reason}};
rotated(none, #node{is = {gone, _}} = Node, File, Options) ->
    begun_again(Node, File, Options);
rotated(none, _Node, _File, _Options) ->
    {same, {error, unreachable}}.

%% Somebody else's tracer isn't replaced, nor are tokens taken off a second time.
begun_again(#node{node = Name} = Node, File, Options) ->
    Written = fetched(Node, File),
    Started = try erpc:call(Name, seq_trace, get_system_tracer, [], ?REMOTE_MS) of
                  false -> start_on(Name, Options#{reset => false});
                  _ -> {error, other_tracer}
              catch
                  error:{erpc, _} -> {error, unreachable}
              end,
    case {Started, Written} of
        {{ok, Collector}, _} ->
            {{again, Collector, seqaudit_collector:folder(Collector)},
             case Written of
                 {ok, Events} -> {again, Events};
                 {error, nothing} -> {again, none};
                 {error, Reason} -> {error, Reason}
             end};
        {{error, Reason}, {ok, Events}} -> {gone, {gone, Events, Reason}};
        {{error, Reason}, {error, _}} -> {gone, {error, Reason}}
    end.

fetched(#node{folder = none}, _File) ->
    {error, nothing};
fetched(Node, File) ->
    case seqaudit_events:open(File) of
        {ok, Device} ->
            Fetched = [{One, fetch(One, Device)} || One <- each_folder(Node)],
            ok = seqaudit_events:close(Device),
            _ = [remove(One) || {One, fetched} <- Fetched],
            {ok, File ++ ".events"};
        {error, Reason} ->
            {error, Reason}
    end.

each_folder(#node{folder = none}) -> [];
each_folder(#node{folder = Folder, former = Former} = Node) ->
    [Node#node{folder = One, former = []} || One <- Former ++ [Folder]].

awaited(#state{turning = no} = State) ->
    State;
awaited(#state{turning = {Worker, Monitor, _}} = State) ->
    receive
        {turned, Worker, Rotated} -> turned(Rotated, State);
        {'DOWN', Monitor, process, _, Reason} -> not_turned(Reason, State)
    end.

turned(Rotated, #state{turning = {_, Monitor, From}} = State) ->
    demonitor(Monitor, [flush]),
    Now = lists:foldl(fun({Name, {Has, _}}, #state{nodes = Nodes} = Sum) ->
                              put_node(has(Has, lists:keyfind(Name, #node.node, Nodes)), Sum)
                      end, State#state{turning = no}, Rotated),
    gen_server:reply(From, [{Name, Written} || {Name, {_, Written}} <- Rotated]),
    noted(Now).

has({on, Folder}, Node) ->
    Node#node{folder = Folder, former = [], split = {0, 0}};
has({again, Collector, Folder}, Node) ->
    Node#node{collector = Collector, monitor = monitor(process, Collector), folder = Folder,
              former = [], is = on, split = {0, 0}};
has(gone, Node) ->
    Node#node{folder = none, former = []};
has(same, Node) ->
    Node.

%% Whether a collector has gone on to other files isn't known then.
not_turned(Reason, #state{turning = {_, _, From}, nodes = Nodes} = State) ->
    gen_server:reply(From, [{Name, {error, Reason}} || #node{node = Name} <- Nodes]),
    noted(State#state{turning = no, nodes = [asked_again(Node) || Node <- Nodes]}).

asked_again(#node{is = on, collector = Collector} = Node) ->
    try in_folder(seqaudit_collector:folder(Collector), Node)
    catch exit:_ -> Node
    end;
asked_again(Node) ->
    Node.

given_up(#state{turning = {Worker, Monitor, _}} = State) ->
    exit(Worker, kill),
    receive {'DOWN', Monitor, process, _, Reason} -> ok end,
    receive {turned, Worker, Rotated} -> turned(Rotated, State)
    after 0 -> not_turned(Reason, State)
    end;
given_up(State) ->
    State.

gather(#state{name = Name, nodes = Nodes}) ->
    case seqaudit_events:open(Name) of
        {ok, Device} ->
            try
                Fetched = [{One, fetch(One, Device)} || Node <- Nodes, One <- each_folder(Node)],
                ok = seqaudit_events:close(Device),
                convert(Name, Fetched)
            catch
                error:{badmatch, {error, Reason}} ->
                    _ = file:close(Device),
                    {error, {file, Name ++ ".events", Reason}}
            end;
        {error, Reason} ->
            {error, Reason}
    end.

convert(Name, Fetched) ->
    case seqaudit_convert:from_files([Name ++ ".events"], Name) of
        {ok, #{files := Files} = Summary} ->
            _ = [remove(Node) || {Node, fetched} <- Fetched],
            {ok, Summary#{files => [Name ++ ".events" | Files]}};
        {error, Reason} ->
            {error, Reason}
    end.

remove(Node) ->
    _ = [ask_spool(at(One), One, remove, [One#node.folder]) || One <- each_folder(Node)],
    ok.

%% The folder's name is random: if it is here, this is the disk that the collector wrote to. (Tests
%% say that it isn't.)
at(#node{node = Node, folder = Folder}) ->
    Shared = application:get_env(seqaudit, shared_disk, true),
    case {Shared andalso filelib:is_dir(Folder), connected(Node)} of
        {true, _} -> here;
        {false, true} -> there;
        {false, false} -> nowhere
    end.

fetch(#node{node = Node, folder = Folder, is = {gone, Reason}, split = Split} = Of, Device) ->
    At = at(Of),
    ok = seqaudit_events:begin_collection(Device, maps:from_list(
             [{node, Node}] ++ [{lost, Reason} || Reason =/= normal]
             ++ [{where, Folder} || At =:= nowhere]
             ++ [{split, Split} || Split =/= {0, 0}])),
    case At of
        nowhere ->
            lost;
        _ ->
            Read = fun(Place) -> ask_spool(At, Of, read, Place) end,
            case ask_spool(At, Of, files, [Folder]) of
                {ok, Files} ->
                    Copied = lists:foldl(fun(File, Sum) -> copy(File, Read, Device, Sum) end,
                                         #{kept => 0, kept_bytes => 0, came => 0}, Files),
                    %% The rest that couldn't be read is still there, and nothing else has it.
                    Facts = case Copied of
                                #{unread := _} -> Copied#{where => Folder};
                                #{} -> Copied
                            end,
                    ok = file:write(Device, seqaudit_spool:entry(Facts)),
                    case Copied of #{unread := _} -> lost; #{} -> fetched end;
                {error, Fault} ->
                    ok = file:write(Device, seqaudit_spool:entry(#{lost => Fault})),
                    lost
            end
    end.

ask_spool(here, _Node, Function, Arguments) ->
    apply(seqaudit_spool, Function, Arguments);
ask_spool(there, #node{node = Node}, Function, Arguments) ->
    try erpc:call(Node, seqaudit_spool, Function, Arguments, ?REMOTE_MS)
    catch _:_ -> {error, noconnection}
    end;
ask_spool(nowhere, _Node, _Function, _Arguments) ->
    {error, noconnection}.

%% A connection may be busy for a moment.
read_again(Read, File, Offset) ->
    case Read([File, Offset, ?PIECE]) of
        {error, _} -> Read([File, Offset, ?PIECE]);
        Piece -> Piece
    end.

copy({File, Size}, Read, Device, Sum) ->
    copy(File, 0, Size, <<>>, Read, Device, Sum).

copy(_File, Offset, Size, Begun, _Read, _Device, Sum) when Offset >= Size ->
    Sum#{cut => maps:get(cut, Sum, 0) + byte_size(Begun)};
copy(File, Offset, Size, Begun, Read, Device, Sum) ->
    case read_again(Read, File, Offset) of
        {error, _} ->
            Sum#{unread => maps:get(unread, Sum, 0) + Size - Offset + byte_size(Begun)};
        {ok, Piece} ->
            Bytes = <<Begun/binary, Piece/binary>>,
            {Whole, Rest, More} = seqaudit_events:whole_entries(Bytes, Sum),
            ok = file:write(Device, Whole),
            copy(File, Offset + byte_size(Piece), Size, Rest, Read, Device, More);
        _ ->
            Sum#{cut => maps:get(cut, Sum, 0) + Size - Offset + byte_size(Begun)}
    end.
