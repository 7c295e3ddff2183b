%% @doc Makes a trace for `gemshowal' and `seqaudit' of collected events: `NAME.seqtrace', and
%% beside it `NAME.terms' ({@link seqaudit_legend}), `NAME.facts' and `NAME.notes' ({@link
%% seqaudit_notes}), `NAME.times' if there are times ({@link seqaudit_times}), and if texts are cut
%% `NAME.messages': the whole texts, a line `value NUMBER TERM' each, with tabs between.
%%
%% Only their owner may read them, since they have the contents of messages.
-module(seqaudit_convert).

-include("seqaudit_packed.hrl").

-export([from_files/2]).
-export_type([summary/0]).

-type summary() :: #{events := non_neg_integer(), processes := non_neg_integer(),
                     dropped := non_neg_integer(), notes := [string()],
                     files := [file:filename()]}.
%% `events' are in the bundle; `dropped' are in none of the files, and `notes' say why. Of events
%% that were written over only the bytes are known; their number is estimated.

-define(AT_ONCE, 1_000).
-define(SHARE, 5_000).
-define(MESSAGES, <<"seqaudit messages 1\n">>).
%% The size of a spelled process, `<65535.65535.0>', with a byte for its length.
-define(SLOT, 16).

%% A piece may be the line of a process, and each write waits for a thread.
-define(BUFFER, 65_536).
-define(DELAY_MS, 2_000).

%% The parts of a bundle, each a function that hands its text on piece by piece.
-type part() :: fun((fun((iodata()) -> ok)) -> ok).

-spec from_files([file:filename()], file:filename()) -> {ok, summary()} | {error, term()}.
from_files(Files, Name) ->
    %% The tables of a conversion, and what it leaves on the heap, end with a process of its own.
    seqaudit_workers:result(seqaudit_workers:begun(fun() ->
        Fold = fun(File, {ok, Batches}) ->
                       seqaudit_events:fold(File, fun seqaudit_build:item/2, Batches);
                  (_File, Failed) -> Failed
               end,
        case lists:foldl(Fold, {ok, seqaudit_build:new()}, Files) of
            {ok, Batches} -> write_events(seqaudit_build:build(Batches), Files, Name);
            {error, Reason} -> {error, Reason}
        end
    end, [])).

%% A file without events makes a trace only if a collector wrote it.
write_events(#build{packed = Packed} = Build, Files, Name) ->
    case Packed =/= <<>> orelse lists:any(fun seqaudit_events:is_collected/1, Files) of
        true -> write(Build, Name);
        false -> {error, {no_events, Files}}
    end.

write(Build, Name) ->
    {Parts, Facts} = parts(Build),
    Noted = seqaudit_notes:facts(Facts),
    Notes = [Note || {_, Note} <- Noted],
    %% The tables that were needed until here may be large.
    true = garbage_collect(),
    Text = fun(Lines) -> fun(Out) -> Out(unicode:characters_to_binary(Lines)) end end,
    case write_parts(Parts#{notes => Text([[Note, $\n] || Note <- Notes]),
                            facts => Text(seqaudit_notes:facts_text(Noted))}, Name) of
        {ok, Files} ->
            _ = [file:delete(Name ++ ".times") || not is_map_key(times, Parts)],
            {ok, (maps:with([events, processes, dropped], Facts))#{notes => Notes, files => Files}};
        {error, Reason} ->
            {error, Reason}
    end.

%% The texts of the terms are made of the tables, which are this process's own, and then the whole
%% texts of those that were cut; meanwhile others write the rest.
write_parts(Parts, Name) ->
    Files = [{Name ++ Suffix, Part, maps:get(Part, Parts)}
             || {Part, Suffix} <- [{seqtrace, ".seqtrace"}, {terms, ".terms"},
                                   {messages, ".messages"}, {times, ".times"},
                                   {notes, ".notes"}, {facts, ".facts"}],
                is_map_key(Part, Parts)],
    {OfTables, Others} = lists:partition(fun({_, Part, _}) ->
                                                 Part =:= terms orelse Part =:= messages
                                         end, Files),
    Begun = [seqaudit_workers:begun(fun() -> write_file(File, Write) end, [])
             || {File, _, Write} <- Others],
    Here = [write_file(File, Write) || {File, _, Write} <- OfTables],
    Beside = [seqaudit_workers:result(Worker) || Worker <- Begun],
    case [Reason || {error, Reason} <- Here ++ Beside] of
        [] -> {ok, [File || {File, Part, _} <- Files, Part =/= messages orelse has_messages(File)]};
        [Reason | _] -> {error, Reason}
    end.

%% Without any whole text the file is removed again.
has_messages(File) ->
    filelib:file_size(File) > byte_size(?MESSAGES) orelse ok =/= file:delete(File).

%% The owner alone may read the file, from before anything is in it.
write_file(File, Part) ->
    case file:open(File, [write, raw, binary, {delayed_write, ?BUFFER, ?DELAY_MS}]) of
        {ok, Device} ->
            try
                ok = own(File),
                ok = Part(fun(Piece) -> ok = file:write(Device, Piece) end),
                ok = file:close(Device)
            catch
                error:{badmatch, {error, Reason}} ->
                    _ = file:close(Device),
                    {error, {unwritten, File, Reason}}
            end;
        {error, Reason} ->
            {error, {unwritten, File, Reason}}
    end.

%% A terminal that is written to keeps its mode.
own(File) ->
    case filelib:is_regular(File) of
        true -> file:change_mode(File, 8#600);
        false -> ok
    end.

-spec parts(seqaudit_build:build()) -> {#{atom() => part()}, map()}.
parts(#build{actors = Actors, others = Others} = Whole) ->
    {Untagged, Resolved} = seqaudit_resolve:resolve(Whole),
    %% Lets go of the records from before: each is 43 bytes.
    Build = Whole#build{packed = <<>>},
    true = garbage_collect(),
    Listed = {seqaudit_numbers:listed(Actors), seqaudit_numbers:listed(Others)},
    Used = used(Untagged, Listed),
    Numbers = seqaudit_processes:number(Used),
    Spelled = spelled(Listed, Numbers),
    Labels = seqaudit_numbers:listed(Build#build.labels),
    LabelNumbers = seqaudit_terms:label_numbers(Labels),
    LabelTexts =
        list_to_tuple([integer_to_binary(maps:get(Label, LabelNumbers)) || Label <- Labels]),
    Values = Build#build.values,
    Spawns = seqaudit_spawns:read(Values, element(1, Listed)),
    Births = seqaudit_spawns:births(Untagged, Spawns),
    Packed = seqaudit_spawns:with_tags(Untagged, Spawns, Values),
    Sorted = lists:sort([{Number, Party} || {Party, Number} <- maps:to_list(Numbers)]),
    {Streams, Nameless} = streams(Sorted, Packed, Spelled, Births),
    Wrapped = seqaudit_spawns:has_wrapped(Packed, Spawns),
    Counts = maps:merge(Build#build.counts, Resolved#{nameless => Nameless}),
    Collections = lists:reverse(Build#build.collections),
    IsAnswer = fun(Before, Event) ->
                       Wrapped andalso seqaudit_spawns:is_answer(Before, Event, Spawns)
               end,
    ByLabel = lists:sort([{Number, Label} || {Label, Number} <- maps:to_list(LabelNumbers)]),
    Bundle = fun(Out) ->
                     ok = Out(header(Wrapped, Sorted)),
                     bundle(Streams, Packed, {Spelled, LabelTexts, IsAnswer}, Out)
             end,
    Known = seqaudit_spawns:learn(Births, Packed, element(1, Listed), Values,
                                  Build#build.known),
    Dots = atomics:new(seqaudit_numbers:size(Values) + 1, []),
    Terms = fun(Out) -> terms(Sorted, ByLabel, {Known, Values}, {Numbers, Dots}, Out) end,
    Messages = fun(Out) -> messages(Values, {Numbers, Dots}, Out) end,
    Times = fun(Out) -> seqaudit_times:write(Streams, Packed, Out) end,
    {maps:from_list([{seqtrace, Bundle}, {terms, Terms}, {messages, Messages}]
                    ++ [{times, Times} || is_map_key(timestamps, Counts)]),
     #{collections => Collections, counts => Counts,
       dropped => seqaudit_notes:dropped(Collections, Counts), samples => Build#build.samples,
       wrapped => Wrapped, processes => length(Sorted),
       events => byte_size(Packed) div ?PACKED_SIZE - Nameless}}.

%% The parties that events name, in the order of their first events.
used(Packed, {Actors, Others}) ->
    Used = parties(Packed, #{}),
    [Party || {Number, Party} <- lists:enumerate(0, Actors) ++ lists:enumerate(?OTHER, Others),
              is_map_key(Number, Used)].

parties(<<?PACKED(_Kind, _Label, _Prev, _This, From, To, _Value, _Time), Rest/binary>>, Used) ->
    parties(Rest, Used#{From => used, To => used});
parties(<<>>, Used) ->
    Used.

%% Spells each party as the bundle does, in one binary that processes share. A party that no number
%% was left for has none.
spelled({Actors, Others}, Numbers) ->
    {<< <<(slot(Actor, Numbers))/binary>> || Actor <- Actors >>,
     << <<(slot(Other, Numbers))/binary>> || Other <- Others >>}.

slot(Party, Numbers) ->
    Spelled = case Numbers of
                  #{Party := Number} -> list_to_binary(seqaudit_processes:spell(Number));
                  #{} -> <<>>
              end,
    Size = byte_size(Spelled),
    <<Size, Spelled/binary, 0:(?SLOT - 1 - Size)/unit:8>>.

spell(?NOBODY, _) -> <<"[]">>;
spell(Party, {_, Others}) when Party >= ?OTHER -> in_slot(Party - ?OTHER, Others);
spell(Party, {Actors, _}) -> in_slot(Party, Actors).

in_slot(Place, Slots) ->
    Before = Place * ?SLOT,
    <<_:Before/binary, Size, Spelled:Size/binary, _/binary>> = Slots,
    Spelled.

%% The processes by their spelling, each with the places of its events in the records; and how many
%% events name a party without a number.
streams(Sorted, Packed, Spelled, Births) ->
    {Streams, Nameless} = streams(Packed, 0, Spelled, #{}, 0),
    Ordered = seqaudit_spawns:births_first(Streams, Births),
    ByPid = maps:from_list([{spell(Party, Spelled), Places}
                            || {Party, Places} <- maps:to_list(Ordered)]),
    Pids = [list_to_binary(seqaudit_processes:spell(Number)) || {Number, _} <- Sorted],
    {[{Pid, maps:get(Pid, ByPid, <<>>)} || Pid <- Pids], Nameless}.

streams(<<?PACKED(Kind, _Label, _Prev, _This, From, To, _Value, _Time), Rest/binary>>, Place,
        Spelled, Streams, Nameless) ->
    case spell(From, Spelled) =:= <<>> orelse spell(To, Spelled) =:= <<>> of
        true -> streams(Rest, Place + 1, Spelled, Streams, Nameless + 1);
        false when Kind =:= ?RECEIVE ->
            streams(Rest, Place + 1, Spelled, placed(To, Place, Streams), Nameless);
        false -> streams(Rest, Place + 1, Spelled, placed(From, Place, Streams), Nameless)
    end;
streams(<<>>, _Place, _Spelled, Streams, Nameless) ->
    {Streams, Nameless}.

placed(Actor, Place, Streams) ->
    case Streams of
        #{Actor := Places} -> Streams#{Actor := <<Places/binary, Place:32>>};
        #{} -> Streams#{Actor => <<Place:32>>}
    end.

%% Only a text that needs a later version has it, so that all that read the first one read most.
header(true, _Sorted) -> <<"seqtrace 3\n">>;
header(false, Sorted) ->
    case lists:any(fun({{Node, _}, _}) -> Node > 0 end, Sorted) of
        true -> <<"seqtrace 2\n">>;
        false -> <<"seqtrace 1\n">>
    end.

bundle(Streams, Packed, Texts, Out) ->
    lists:foreach(fun({Pid, Places}) ->
                          ok = Out([<<"process ">>, Pid, $\n]),
                          lines(Places, <<>>, Packed, Texts, Out)
                  end, Streams).

%% The record of the event before tells whether an event is the answer of a spawn.
lines(<<>>, _Last, _Packed, _Texts, _Out) ->
    ok;
lines(Places, Last, Packed, Texts, Out) ->
    Size = min(byte_size(Places), 4 * ?AT_ONCE),
    <<Now:Size/binary, Later/binary>> = Places,
    {Text, Record} = append_lines(Now, Last, Packed, Texts, <<>>),
    ok = Out(Text),
    lines(Later, Record, Packed, Texts, Out).

append_lines(<<Place:32, Places/binary>>, Last, Packed, {Spelled, Labels, IsAnswer} = Texts,
             Before) ->
    Record = binary:part(Packed, Place * ?PACKED_SIZE, ?PACKED_SIZE),
    <<?PACKED(Kind, Label, Prev, This, From, To, Value, _Time)>> = Record,
    Word = case Kind =:= ?RECEIVE andalso IsAnswer(Last, Record) of
               true -> <<",{answer,{">>;
               false -> word(Kind)
           end,
    Text = <<Before/binary, "{seq_trace,", (element(Label + 1, Labels))/binary, Word/binary,
             (integer_to_binary(Prev))/binary, $,, (integer_to_binary(This))/binary, "},",
             (spell(From, Spelled))/binary, $,, (spell(To, Spelled))/binary, $,,
             (integer_to_binary(Value))/binary, "}}\n">>,
    append_lines(Places, Record, Packed, Texts, Text);
append_lines(<<>>, Last, _Packed, _Texts, Text) ->
    {Text, Last}.

word(?SEND) -> <<",{send,{">>;
word(?RECEIVE) -> <<",{'receive',{">>;
word(?PRINT) -> <<",{print,{">>.

%% The legend, whose first lines `seqaudit_legend' makes. The values may be many, so a process makes
%% the texts of some. It notes which of them have dots: all those that are cut do.
terms(Sorted, Labels, {Known, Values}, {Numbers, Dots}, Out) ->
    ok = seqaudit_legend:write(Sorted, Known, Numbers, Out),
    ok = Out([["node\t", integer_to_binary(Node), $\t,
               unicode:characters_to_binary(seqaudit_terms:plain(Name)), $\n]
              || {Node, Name} <- seqaudit_processes:further_nodes(Sorted)]),
    ok = Out([entry(<<"label">>, Number, Label, Numbers, <<>>) || {Number, Label} <- Labels]),
    seqaudit_workers:fold([fun() ->
                                   Entries = entries(First, Values, Numbers),
                                   ok = note_dots(First, Entries, Dots),
                                   Entries
                           end || First <- shares(Values)], fun(Text, ok) -> Out(Text) end, ok).

shares(Values) -> lists:seq(0, seqaudit_numbers:size(Values) - 1, ?SHARE).

entries(First, Table, Numbers) ->
    lists:foldl(fun({Number, Value}, Before) ->
                        entry(<<"value">>, Number, Value, Numbers, Before)
                end, <<>>, lists:enumerate(First, seqaudit_numbers:part(First, ?SHARE, Table))).

note_dots(First, Entries, Dots) ->
    _ = [atomics:put(Dots, Number + 1, 1)
         || binary:match(Entries, <<"...">>) =/= nomatch,
            {Number, Line} <- lists:enumerate(First, binary:split(Entries, <<"\n">>, [global])),
            binary:match(Line, <<"...">>) =/= nomatch],
    ok.

%% The whole texts of the values that are cut in the legend. Each may be large, so they are made one
%% after the other.
messages(Values, {Numbers, Dots}, Out) ->
    ok = Out(?MESSAGES),
    lists:foreach(fun(First) ->
                          Terms = seqaudit_numbers:part(First, ?SHARE, Values),
                          [ok = Out(whole(Number, Term, Numbers))
                           || {Number, Term} <- lists:enumerate(First, Terms),
                              atomics:get(Dots, Number + 1) =:= 1]
                  end, shares(Values)).

%% The entry of a value, if its text is cut and has dots.
whole(Number, Term, Numbers) ->
    Whole = seqaudit_terms:whole(Term, Numbers),
    case seqaudit_terms:append(Term, Numbers, <<>>) of
        Whole -> [];
        _ -> [<<"value\t">>, integer_to_binary(Number), $\t, Whole, $\n]
    end.

%% Behind the entries before.
entry(Kind, Number, Term, Numbers, Before) ->
    Text = seqaudit_terms:append(Term, Numbers,
                                 <<Before/binary, Kind/binary, $\t,
                                   (integer_to_binary(Number))/binary, $\t>>),
    <<Text/binary, $\n>>.
