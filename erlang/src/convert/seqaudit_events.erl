%% @doc Files of collected events: `NAME.events', the folder of a collector ({@link
%% seqaudit_spool}), one list of events by `term_to_binary/1', a trace file of `dbg' or `ttb', and
%% text ({@link seqaudit_text}). A collection is what one node's tracer was sent, in that order.
%%
%% Nothing in a file is trusted: its terms stay bytes ({@link seqaudit_external}), a size is looked
%% at before anything is made of it, and of a file that is cut or damaged what comes before the
%% damage is taken, and the rest is counted.
-module(seqaudit_events).

-export([fold/3, is_collected/1, about_ttb/1, open/1, begin_collection/2, close/1, whole_entries/2,
         writable/1, format_error/1]).
-export_type([item/0, facts/0, about/0]).

-import(seqaudit_errors, [text/2]).

%% The first line of NAME.events. Entries follow: a byte that says what, a size of four
%% bytes, and a term. Events and drops (whose four bytes are their number) are as in a trace file.
-define(HEADER, "seqaudit events 2\n").
-define(EVENT, 0).
-define(DROPPED, 1).
-define(COLLECTION, 2).
-define(FACTS, 3).
-define(EXTERNAL, 131).
-define(PIECE, 1_048_576).
%% Facts that become terms of this Erlang are at most this large.
-define(FACT, 1_000).

-define(COUNTS, [dropped, own, strays, written, bytes, kept, kept_bytes, came, cut, unread]).

-type about() :: #{name => binary(), call => seqaudit_external:encoded(),
                   caller => seqaudit_external:encoded()}.
-type facts() :: #{node => binary(), collector => seqaudit_external:encoded(),
                   processes => [{seqaudit_external:encoded(), about()}],
                   lost | ended | split | where => seqaudit_external:encoded(),
                   dropped | own | strays | written | bytes | kept | kept_bytes | came
                   | cut | unread => non_neg_integer(),
                   tracer => put_back | taken | gone, pauses => seqaudit_watch:pauses(),
                   by => port | process, clock => {integer(), pos_integer()}}.
%% Facts of a file that have the form that they should have.

-type item() :: collection | {facts, facts()} | {event, binary()} | {dropped, non_neg_integer()}
              | {left, Bytes :: non_neg_integer()} | {left, Bytes :: pos_integer(),
                                                      Where :: string()} | stray
              | {stray, Where :: string(), binary()}
              | {passed, Lines :: pos_integer(), Where :: string()}.
%% The parts of a file, in its order: a collection begins; facts about it; an event's bytes; events
%% that were dropped there; a number of bytes that aren't understood; a term that is no event; lines
%% of a log that have none, and where the first is.

%% @doc Goes through what a file holds, whatever form it has.
-spec fold(file:filename(), fun((item(), Acc) -> Acc), Acc) -> {ok, Acc} | {error, term()}.
fold(File, Do, Acc) ->
    case filelib:is_dir(File) of
        true -> fold_folder(File, Do, Acc);
        false -> fold_file(File, Do, Acc)
    end.

%% @doc Whether a collector wrote the file, or has the folder: then it may be that no events came.
-spec is_collected(file:filename()) -> boolean().
is_collected(File) ->
    filelib:is_dir(File) orelse {ok, <<?HEADER>>} =:= with_file(File, fun first_bytes/1).

with_file(File, Do) ->
    case file:open(File, [read, raw, binary]) of
        {ok, Device} ->
            try Do(Device)
            after file:close(Device)
            end;
        {error, Reason} ->
            {error, {file, File, Reason}}
    end.

first_bytes(Device) -> file:pread(Device, 0, length(?HEADER)).

fold_file(File, Do, Acc) ->
    with_file(File, fun(Device) -> fold_form(first_bytes(Device), File, Device, Do, Acc) end).

fold_form({ok, <<?HEADER>>}, File, Device, Do, Acc) ->
    fold_entries(File, Device, length(?HEADER), Do, Acc);
%% Refuses what `convert' writes, which begins with its name.
fold_form({ok, <<"seqtrace ", _/binary>>}, File, _Device, _Do, _Acc) ->
    {error, {converted, File}};
fold_form({ok, <<"seqaudit ", _/binary>>}, File, _Device, _Do, _Acc) ->
    {error, {written, File}};
fold_form({ok, <<?EXTERNAL, _/binary>>}, File, _Device, Do, Acc) ->
    whole(File, fun(Bytes) -> fold_external(File, Bytes, Do, Acc) end);
fold_form({ok, <<Op, _/binary>>}, File, Device, Do, Acc) when Op =< ?DROPPED ->
    fold_entries(File, Device, 0, Do, names_of_ttb(File, Do, Do(collection, Acc)));
fold_form({error, Reason}, File, _Device, _Do, _Acc) ->
    {error, {file, File, Reason}};
fold_form(_, File, _Device, Do, Acc) ->
    whole(File, fun(Text) ->
        case seqaudit_text:fold(Text, fun(Item, Sum) -> Do(placed(Item, File), Sum) end, Acc) of
            {ok, Folded} -> {ok, Folded};
            {error, {Line, Reason}} -> {error, {text, File, Line, Reason}}
        end
    end).

placed({stray, Line, Term}, File) -> {stray, place(File, Line), Term};
placed({left, Bytes, Line}, File) -> {left, Bytes, place(File, Line)};
placed({passed, Lines, First}, File) -> {passed, Lines, place(File, First)};
placed(Item, _File) -> Item.

place(File, Line) ->
    text("~ts, line ~b", [seqaudit_output:escaped(unicode:characters_to_binary(File)), Line]).

whole(File, Do) ->
    case file:read_file(File) of
        {ok, Bytes} -> Do(Bytes);
        {error, Reason} -> {error, {file, File, Reason}}
    end.

%% The entries of a file. Whether one is whole is seen by the size of the file, before it is read.
fold_entries(File, Device, Offset, Do, Acc) ->
    Size = filelib:file_size(File),
    case entries(<<>>, Device, Offset, Size, {Do, 0}, Acc) of
        {0, Left, _} when Left > 0 -> {error, {broken_trace, File, Left}};
        {_, 0, Folded} -> {ok, Folded};
        {_, Left, Folded} -> {ok, Do({left, Left}, Folded)}
    end.

%% `Offset' is where the file is read on, behind what `Bytes' has of it. Returns how many entries
%% there were, and how many bytes are left that are none.
entries(<<?EVENT, Size:32, Bytes:Size/binary, Rest/binary>>, Device, Offset, End, {Do, N}, Acc) ->
    entries(Rest, Device, Offset, End, {Do, N + 1}, event(Bytes, Do, Acc));
entries(<<?DROPPED, Count:32, Rest/binary>>, Device, Offset, End, {Do, N}, Acc) ->
    entries(Rest, Device, Offset, End, {Do, N}, Do({dropped, Count}, Acc));
entries(<<?COLLECTION, Size:32, Bytes:Size/binary, Rest/binary>>, Device, Offset, End, {Do, N},
        Acc) ->
    entries(Rest, Device, Offset, End, {Do, N + 1}, facts(Bytes, Do, Do(collection, Acc)));
entries(<<?FACTS, Size:32, Bytes:Size/binary, Rest/binary>>, Device, Offset, End, {Do, N}, Acc) ->
    entries(Rest, Device, Offset, End, {Do, N + 1}, facts(Bytes, Do, Acc));
entries(Bytes, Device, Offset, End, {Do, N}, Acc) ->
    case wanted(Bytes, End - Offset) of
        0 ->
            {N, byte_size(Bytes) + max(0, End - Offset), Acc};
        Wanted ->
            case file:pread(Device, Offset, Wanted) of
                {ok, More} ->
                    entries(<<Bytes/binary, More/binary>>, Device, Offset + byte_size(More), End,
                            {Do, N}, Acc);
                _ ->
                    {N, byte_size(Bytes), Acc}
            end
    end.

%% How many bytes more an entry needs; none if they aren't there, or this is no entry.
wanted(<<Op, Size:32, Begun/binary>>, Left) when Op =< ?FACTS, Op =/= ?DROPPED ->
    case Size - byte_size(Begun) of
        Needed when Needed =< Left -> min(max(Needed, ?PIECE), Left);
        _ -> 0
    end;
wanted(<<Op, _/binary>> = Bytes, Left) when Op =< ?FACTS, byte_size(Bytes) < 5 -> min(?PIECE, Left);
wanted(<<>>, Left) -> min(?PIECE, Left);
wanted(_, _) -> 0.

event(<<?EXTERNAL, Bytes/binary>>, Do, Acc) -> Do({event, Bytes}, Acc);
event(_, Do, Acc) -> Do(stray, Acc).

facts(Bytes, Do, Acc) ->
    case seqaudit_external:read(Bytes) of
        {ok, Term} -> Do({facts, read_facts(Term)}, Acc);
        error -> Do(stray, Acc)
    end.

fold_folder(Folder, Do, Acc) ->
    case seqaudit_spool:files(Folder) of
        {ok, []} ->
            {error, {no_spool, Folder}};
        {ok, Files} ->
            {ok, lists:foldl(fun({File, Size}, Sum) -> fold_part(File, Size, Do, Sum) end,
                             Do(collection, Acc), Files)};
        {error, Reason} ->
            {error, Reason}
    end.

fold_part(File, Size, Do, Acc) ->
    case with_file(File, fun(Device) -> fold_entries(File, Device, 0, Do, Acc) end) of
        {ok, Folded} -> Folded;
        {error, {broken_trace, _, Left}} -> Do({left, Left}, Acc);
        {error, {file, _, _}} -> Do({facts, #{unread => Size}}, Acc)
    end.

fold_external(File, <<?EXTERNAL, 108, Length:32, Rest/binary>>, Do, Acc) ->
    case elements(Length, Rest, Do, Do(collection, Acc)) of
        {Folded, <<106>>} -> {ok, Folded};
        _ -> {error, {not_events, File}}
    end;
fold_external(_File, <<?EXTERNAL, 106>>, Do, Acc) ->
    {ok, Do(collection, Acc)};
fold_external(File, _, _Do, _Acc) ->
    {error, {not_events, File}}.

elements(0, Rest, _Do, Acc) ->
    {Acc, Rest};
elements(Left, Bytes, Do, Acc) ->
    case seqaudit_external:take(Bytes) of
        {ok, Event, Rest} -> elements(Left - 1, Rest, Do, Do({event, Event}, Acc));
        error -> damaged
    end.

%% `ttb' writes what processes are called into a file beside the trace: a byte with a size and a
%% term, again and again.
names_of_ttb(File, Do, Acc) ->
    case file:read_file(File ++ ".ti") of
        {ok, Bytes} -> Do({facts, #{processes => ttb_processes(Bytes)}}, Acc);
        {error, _} -> Acc
    end.

ttb_processes(<<Size, Bytes:Size/binary, Rest/binary>>) when Size > 0 ->
    case seqaudit_external:read(Bytes) of
        {ok, Term} -> ttb_process(seqaudit_external:tuple(Term)) ++ ttb_processes(Rest);
        error -> ttb_processes(Rest)
    end;
ttb_processes(_) ->
    [].

ttb_process([Kind, Process]) ->
    case {seqaudit_external:view(Kind), seqaudit_external:tuple(Process)} of
        {{atom, <<"pid">>}, [Pid, Info]} -> [{Pid, about_ttb(Info)}];
        _ -> []
    end;
ttb_process(_) ->
    [].

%% @doc What `ttb' says of a process: a registered name, or the call that it began with.
-spec about_ttb(seqaudit_external:encoded()) -> about().
about_ttb(Info) ->
    case {seqaudit_external:view(Info), seqaudit_external:tuple(Info)} of
        {{atom, Name}, _} -> #{name => binary:copy(Name)};
        {_, [_, _, _]} -> #{call => binary:copy(Info)};
        _ -> #{}
    end.

read_facts(Term) ->
    case seqaudit_external:pairs(Term) of
        other -> #{};
        Pairs -> maps:from_list([Fact || {Key, Value} <- maps:to_list(Pairs),
                                         Fact <- read_fact(Key, Value)])
    end.

read_fact(<<"node">>, Value) ->
    [{node, Node} || {atom, Node} <- [seqaudit_external:view(Value)]];
read_fact(<<"collector">>, Value) ->
    [{collector, Value} || {process, _, _, _} <- [seqaudit_external:view(Value)]];
read_fact(<<"processes">>, Value) ->
    [{processes, [{binary:copy(Pid), About} || {Pid, Info} <- seqaudit_external:map(Value),
                                               About <- read_about(Info)]}];
read_fact(Key, Value) ->
    case {Key, small(Value)} of
        {_, N} when is_integer(N), N >= 0 ->
            [{Fact, N} || Fact <- ?COUNTS, atom_to_binary(Fact) =:= Key];
        {<<"clock">>, {Offset, Second}} when is_integer(Offset), is_integer(Second), Second > 0 ->
            [{clock, {Offset, Second}}];
        {<<"pauses">>, {Times, Lasted, First}}
          when is_integer(Times), Times > 0, is_integer(Lasted), Lasted >= 0, length(First) >= 0 ->
            [{pauses, {Times, Lasted, [Pause || Pause <- First, is_pause(Pause)]}}];
        {<<"by">>, By} when By =:= port; By =:= process -> [{by, By}];
        {<<"tracer">>, Tracer} when Tracer =:= put_back; Tracer =:= taken; Tracer =:= gone ->
            [{tracer, Tracer}];
        _ ->
            [{Fact, Value} || Fact <- [lost, ended, split, where], atom_to_binary(Fact) =:= Key]
    end.

is_pause({Since, open}) -> is_time(Since);
is_pause({Since, Lasted}) -> is_time(Since) andalso is_integer(Lasted) andalso Lasted >= 0;
is_pause(_) -> false.

%% A time of the system in milliseconds, in the years from 1970 to 9999.
is_time(Since) -> is_integer(Since) andalso Since >= 0 andalso Since < 253_402_300_800_000.

small(Value) when byte_size(Value) > ?FACT -> other;
small(Value) -> seqaudit_external:to_term(Value).

read_about(Info) ->
    case seqaudit_external:pairs(Info) of
        other -> [];
        Pairs ->
            [maps:from_list([{name, Name} || #{<<"name">> := Value} <- [Pairs],
                                             {atom, Name} <- [seqaudit_external:view(Value)]]
                            ++ [{call, Call} || #{<<"call">> := Call} <- [Pairs],
                                                [_, _, _] <- [seqaudit_external:tuple(Call)]]
                            ++ [{caller, Caller} || #{<<"caller">> := Caller} <- [Pairs],
                                                    {process, _, _, _}
                                                        <- [seqaudit_external:view(Caller)]])]
    end.

%% @doc Makes `NAME.events', which nobody else may read: it has the contents of messages.
-spec open(file:filename()) -> {ok, file:io_device()} | {error, {file, file:filename(), term()}}.
open(Name) ->
    File = Name ++ ".events",
    try
        {ok, Device} = file:open(File, [write, raw, binary]),
        ok = file:change_mode(File, 8#600),
        ok = file:write(Device, ?HEADER),
        {ok, Device}
    catch
        error:{badmatch, {error, Reason}} -> {error, {file, File, Reason}}
    end.

-spec begin_collection(file:io_device(), #{atom() => term()}) -> ok | {error, term()}.
begin_collection(Device, Facts) ->
    Term = term_to_binary(Facts),
    file:write(Device, [<<?COLLECTION, (byte_size(Term)):32>>, Term]).

%% @doc The whole entries at the beginning of these bytes, and what is left; and the counts: `kept'
%% events of `kept_bytes', and the bytes that `came'.
-spec whole_entries(binary(), Counts) -> {binary(), binary(), Counts}
              when Counts :: #{atom() => non_neg_integer()}.
whole_entries(Bytes, Counts) ->
    {Rest, Counted} = count_whole(Bytes, Counts),
    {binary:part(Bytes, 0, byte_size(Bytes) - byte_size(Rest)), Rest, Counted}.

count_whole(<<?EVENT, Size:32, _:Size/binary, Rest/binary>>,
       #{kept := Kept, kept_bytes := Bytes, came := Came} = Counts) ->
    Entry = Size + 5,
    count_whole(Rest, Counts#{kept := Kept + 1, kept_bytes := Bytes + Entry, came := Came + Entry});
count_whole(<<?DROPPED, _:32, Rest/binary>>, #{came := Came} = Counts) ->
    count_whole(Rest, Counts#{came := Came + 5});
count_whole(<<?FACTS, Size:32, _:Size/binary, Rest/binary>>, Counts) ->
    count_whole(Rest, Counts);
count_whole(Rest, Counts) ->
    {Rest, Counts}.

%% @doc Closes the file, once the disk has it.
-spec close(file:io_device()) -> ok | {error, term()}.
close(Device) ->
    case file:datasync(Device) of
        {error, Reason} when Reason =/= enotsup, Reason =/= einval ->
            _ = file:close(Device),
            {error, Reason};
        _ ->
            file:close(Device)
    end.

%% @doc Whether `NAME.events' can be written; a file that is there stays as it is, and none is left
%% that wasn't there.
-spec writable(file:filename()) -> ok | {error, {unwritable, file:filename(), term()}}.
writable(Name) ->
    File = Name ++ ".events",
    Before = file:read_link_info(File, [raw]),
    case file:open(File, [append, raw]) of
        {ok, Device} ->
            ok = file:close(Device),
            _ = [file:delete(File) || {error, enoent} <- [Before]],
            ok;
        {error, Reason} ->
            {error, {unwritable, File, Reason}}
    end.

-spec format_error(term()) -> string().
format_error({file, File, Reason}) ->
    text("~ts: ~ts", [File, file:format_error(Reason)]);
format_error({unwritten, File, Reason}) ->
    seqaudit_errors:unwritten(File, Reason);
format_error({no_events, [File]}) ->
    text("~ts: no event of seq_trace is in it", [File]);
format_error({no_events, Files}) ->
    text("~ts: no event of seq_trace is in them", [lists:join(", ", Files)]);
format_error({converted, File}) ->
    text("~ts is a trace already; ~ts", [File, case filename:extension(File) of
        ".seqtrace" -> ["`gemshowal audit ", filename:rootname(File), "' audits it"];
        _ -> "called NAME.seqtrace, `gemshowal audit NAME' audits it"
    end]);
format_error({written, File}) ->
    text("~ts is what `seqaudit-node convert' writes beside a trace, and has no events", [File]);
format_error({not_events, File}) ->
    text("~ts has no list of events; give NAME.events, term_to_binary of a list of what the system "
         "tracer got (not compressed), a trace file of dbg or ttb, or the events as text", [File]);
format_error({no_spool, Folder}) ->
    text("~ts is a folder without files of events; give the folder that the collector named",
         [Folder]);
format_error({broken_trace, File, Left}) ->
    text("~ts begins as a collector's file or a trace file of dbg or ttb, and its first entry is "
         "cut or damaged (~b bytes)", [File, Left]);
format_error({text, File, Line, Reason}) ->
    text("~ts, line ~b: ~ts", [File, Line, Reason]).
