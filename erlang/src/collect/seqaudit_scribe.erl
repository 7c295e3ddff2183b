%% @doc Writes for a collector that is the tracer itself.
%%
%% A collector has to be back at its queue at once, and a disk may be slow. So a process of its own
%% writes, through a thread that may wait, and the collector knows how many bytes that process
%% still has to write.
%%
%% It ends with the collector, and first writes what it was given.
-module(seqaudit_scribe).

-export([open/1, prepare/1, ready/2, drop/1, write/3, unwritten/1, failure/2, close/1, closed/3]).
-export_type([scribe/0]).

-record(scribe, {writer :: pid(),
                 given = 0 :: non_neg_integer(),
                 written :: counters:counters_ref()}).

-opaque scribe() :: #scribe{}.

%% @doc Begins to write the first file of the folder. The caller is told when a write fails
%% ({@link failure/2}).
-spec open(file:filename()) -> {ok, scribe()} | {error, term()}.
open(Folder) ->
    #scribe{writer = Writer} = Scribe = prepare(fun() -> {ok, Folder} end),
    receive
        {?MODULE, Writer, {ready, Folder}} -> {ok, Scribe};
        {?MODULE, Writer, {file, _, Reason}} -> {error, Reason}
    end.

%% @doc Begins to write the first file of the folder that this function makes. The caller waits for
%% nothing: it is told when the file is there ({@link ready/2}), or that there can be none ({@link
%% failure/2}).
-spec prepare(fun(() -> {ok, file:filename()} | {error, term()})) -> scribe().
prepare(Make) ->
    Collector = self(),
    Written = counters:new(1, []),
    Writer = spawn_opt(fun() ->
                               process_flag(trap_exit, true),
                               case opened(Make()) of
                                   {ok, Folder, Device} ->
                                       Collector ! {?MODULE, self(), {ready, Folder}},
                                       write_on(Device, Folder, Collector, Written);
                                   {error, Reason} ->
                                       failed(Collector, Reason)
                               end
                       end, [link, {priority, high}]),
    #scribe{writer = Writer, written = Written}.

opened({ok, Folder}) ->
    {Base, Suffix} = seqaudit_spool:base(Folder),
    case file:open(Base ++ "0" ++ Suffix, [append, raw, binary]) of
        {ok, Device} -> {ok, Folder, Device};
        {error, Reason} -> {error, {file, Folder, Reason}}
    end;
opened({error, Reason}) ->
    {error, Reason}.

%% @doc Whether this message to the collector says that the scribe has its file, and in which
%% folder.
-spec ready(term(), scribe()) -> {ready, file:filename()} | none.
ready({?MODULE, Writer, {ready, Folder}}, #scribe{writer = Writer}) -> {ready, Folder};
ready(_, _) -> none.

%% @doc Ends a scribe that has nothing to write, and removes its folder.
-spec drop(scribe()) -> ok.
drop(#scribe{writer = Writer}) ->
    Writer ! drop,
    ok.

-spec write(iodata(), non_neg_integer(), scribe()) -> scribe().
write(Entries, Size, #scribe{writer = Writer, given = Given} = Scribe) ->
    Writer ! {write, Entries, Size},
    Scribe#scribe{given = Given + Size}.

%% @doc How many bytes of what was given aren't written yet.
-spec unwritten(scribe()) -> non_neg_integer().
unwritten(#scribe{given = Given, written = Written}) ->
    Given - counters:get(Written, 1).

%% @doc Whether this message to the collector says that nothing can be written any more.
-spec failure(term(), scribe()) -> {failed, term()} | none.
failure({?MODULE, Writer, Reason}, #scribe{writer = Writer}) -> {failed, {disk, Reason}};
failure({'EXIT', Writer, Reason}, #scribe{writer = Writer}) -> {failed, {disk, Reason}};
failure(_, _) -> none.

%% @doc Ends it, once all that was given is written.
-spec close(scribe()) -> ok | {error, term()}.
close(#scribe{writer = Writer}) ->
    closed(Writer, infinity, fun({shutdown, Reason}) -> {error, Reason};
                                (Reason) -> {error, Reason}
                             end).

%% @doc Asks a process of the collector to end, and returns what it says then, or what the function
%% makes of the reason for which it is gone. If it takes longer than so many milliseconds, it is
%% killed.
-spec closed(pid(), timeout(), fun((Reason :: term()) -> Result)) -> Result.
closed(Process, Patience, Gone) ->
    Closed = monitor(process, Process),
    Process ! {close, self(), Closed},
    receive
        {Closed, Result} ->
            demonitor(Closed, [flush]),
            Result;
        {'DOWN', Closed, process, _, Reason} ->
            Gone(Reason)
    after Patience ->
        unlink(Process),
        exit(Process, kill),
        receive {'DOWN', Closed, process, _, Reason} -> Gone(Reason) end
    end.

write_on(Device, Folder, Collector, Written) ->
    receive
        {write, Entries, Size} ->
            case file:write(Device, Entries) of
                ok ->
                    ok = counters:add(Written, 1, Size),
                    write_on(Device, Folder, Collector, Written);
                {error, Reason} ->
                    _ = file:close(Device),
                    failed(Collector, Reason)
            end;
        {close, From, Closed} ->
            unlink(Collector),
            From ! {Closed, file:close(Device)},
            ok;
        drop ->
            _ = file:close(Device),
            _ = seqaudit_spool:remove(Folder),
            ok;
        {'EXIT', Collector, _} ->
            file:close(Device)
    end.

-spec failed(pid(), term()) -> no_return().
failed(Collector, Reason) ->
    unlink(Collector),
    Collector ! {?MODULE, self(), Reason},
    exit({shutdown, Reason}).
