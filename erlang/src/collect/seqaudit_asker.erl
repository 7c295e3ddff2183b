%% @doc Asks for a collector what processes are called, and notes it in the collector's folder.
%%
%% A process says what it is called only when its turn comes, and the disk may be slow. So a process
%% of its own does this, and the collector waits for neither. It ends with the collector.
-module(seqaudit_asker).

-export([start/1, meet/2, await/1, turn/3, turned/1, close/1]).
-export_type([asker/0]).

%% Nobody waits longer for names; a process whose name isn't known by then has a number alone.
-define(PATIENCE_MS, 5_000).
%% Living processes that keep their names from one folder to the next.
-define(CARRIED, 20_000).

-opaque asker() :: pid().

-type known() :: #{pid() => seqaudit_spool:about()}.

-spec start(file:filename()) -> asker().
start(Folder) ->
    spawn_link(fun() -> ask_on(Folder, #{}, #{}) end).

-spec meet([pid()], asker()) -> ok.
meet([], _Asker) ->
    ok;
meet(Pids, Asker) ->
    Asker ! {meet, Pids},
    ok.

%% @doc Waits until those are asked that were met, if that doesn't take too long.
-spec await(asker()) -> ok.
await(Asker) ->
    Asked = make_ref(),
    Asker ! {await, {self(), Asked}},
    turned(Asked).

%% @doc Notes what is met from now on in another folder, which begins with the processes that are
%% known and live. When the former folder has what it gets, this process is told ({@link turned/1}).
-spec turn(file:filename(), {pid(), reference()}, asker()) -> ok.
turn(Folder, Tell, Asker) ->
    Asker ! {turn, Folder, Tell},
    ok.

%% @doc Waits until the former folder has all names, if that doesn't take too long.
-spec turned(reference()) -> ok.
turned(Turned) ->
    receive {Turned, ok} -> ok
    after ?PATIENCE_MS -> ok
    end.

%% @doc Ends it once all names are noted, or if that takes too long.
-spec close(asker()) -> ok.
close(Asker) ->
    seqaudit_scribe:closed(Asker, ?PATIENCE_MS, fun(_) -> ok end).

%% Writes what was learned when nobody waits to be met, so that a slow disk delays no name.
-spec ask_on(file:filename(), known(), known()) -> ok.
ask_on(Folder, Known, Unnoted) ->
    receive
        {meet, Pids} ->
            New = maps:from_list([{Pid, seqaudit_spool:about(Pid)}
                                  || Pid <- Pids, not is_map_key(Pid, Known)]),
            ask_on(Folder, maps:merge(Known, New), maps:merge(Unnoted, New));
        {await, {To, Asked}} ->
            To ! {Asked, ok},
            ask_on(Folder, Known, Unnoted);
        {turn, Next, {To, Turned}} ->
            _ = note(Folder, maps:merge(Unnoted, named_late(Known))),
            Living = living(Known),
            _ = note(Next, Living),
            To ! {Turned, ok},
            ask_on(Next, Living, #{});
        {close, To, Closed} ->
            _ = note(Folder, maps:merge(Unnoted, named_late(Known))),
            unlink(To),
            To ! {Closed, ok},
            ok
    after case map_size(Unnoted) of 0 -> infinity; _ -> 0 end ->
        _ = note(Folder, Unnoted),
        ask_on(Folder, Known, #{})
    end.

%% A folder that was fetched and removed meanwhile takes nothing more.
note(_Folder, None) when map_size(None) =:= 0 -> ok;
note(Folder, Known) -> seqaudit_spool:note(Folder, #{processes => Known}).

%% Those that had no name when they were first seen may have one now.
named_late(Known) ->
    Nameless = [Pid || {Pid, About} <- maps:to_list(Known), not is_map_key(name, About)],
    maps:from_list([{Pid, About} || Pid <- Nameless, About <- [seqaudit_spool:about(Pid)],
                    is_map_key(name, About)]).

living(Known) ->
    Living = [Process || {Pid, _} = Process <- maps:to_list(Known), is_process_alive(Pid)],
    maps:from_list(lists:sublist(Living, ?CARRIED)).
