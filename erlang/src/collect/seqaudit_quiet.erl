%% @doc Cuts collected events at a moment when no message is under way, so that what comes before
%% and what comes behind can be audited by themselves.
%%
%% Each file has the events of one node in their order. Such a moment is a number of first events of
%% each, so that whatever is sent in them is received in them, and the other way round. The last
%% such moment is taken, if it is in the second half of each file. Messages that were sent in the
%% first half and not received at all are taken to wait for ever. Of a message whose send isn't
%% there nothing is known, so it is under way nowhere.
-module(seqaudit_quiet).

-export([cut/3]).

-define(EVENT, 0).
-define(COLLECTION, 2).
-define(FACTS, 3).
%% So often the moment is moved before a message that is under way.
-define(MOVES, 1_000).

%% Where an event is: the number of its file and its place among the events there.
-type place() :: {pos_integer(), non_neg_integer()}.

%% The rest of a collection after the moment: the entry that begins it, what is known of its node
%% and its processes, and its events, the last first.
-record(later, {collection :: iodata(),
                facts = #{} :: #{binary() => seqaudit_external:encoded()},
                processes = #{} :: #{seqaudit_external:encoded() => seqaudit_external:encoded()},
                events = [] :: [binary()]}).

%% @doc Writes the events before the moment and those behind it, each with what is known of the
%% node. `none' if there is no such moment; then nothing is written.
-spec cut([file:filename()], [file:filename()], [file:filename()]) -> ok | none | {error, term()}.
cut(Files, Before, Behind) ->
    case read(Files, []) of
        {ok, Read} ->
            case moment(Read) of
                none -> none;
                Counts -> written(lists:zip(lists:zip(Files, Counts), lists:zip(Before, Behind)))
            end;
        {error, Reason} ->
            {error, Reason}
    end.

written([]) -> ok;
written([{{File, Count}, {Before, Behind}} | Others]) ->
    case split(File, Count, Before, Behind) of
        ok -> written(Others);
        {error, Reason} -> {error, Reason}
    end.

read([], Read) ->
    {Counts, Messages} = lists:unzip(lists:reverse(Read)),
    Ends = [{Key, End, {Number, Place}} || {Number, Places} <- lists:enumerate(Messages),
                                           {Key, End, Place} <- Places],
    {ok, {Counts, maps:values(maps:groups_from_list(fun({Key, _, _}) -> Key end, Ends))}};
read([File | Files], Read) ->
    Item = fun({event, Event}, {Place, Places}) -> {Place + 1, message(Event, Place) ++ Places};
              (_, Known) -> Known
           end,
    case seqaudit_events:fold(File, Item, {0, []}) of
        {ok, Found} -> read(Files, [Found | Read]);
        {error, Reason} -> {error, Reason}
    end.

%% A process stamps a count once, so that and the label say which message it is, unless a token is
%% put back: then several may have both.
message(Bytes, Place) ->
    case seqaudit_external:event(Bytes) of
        {ok, {End, Label, Serial, From, _, _, _}} when End =/= print ->
            [{erlang:md5(term_to_binary({Label, Serial, From})), End, Place}];
        _ -> []
    end.

%% The numbers of first events, moved back until nothing is under way.
moment({Counts, Messages}) ->
    Half = [Count div 2 || Count <- Counts],
    Pairs = lists:append([pairs([Place || {_, send, Place} <- lists:sort(Ends)],
                                [Place || {_, 'receive', Place} <- lists:sort(Ends)])
                          || Ends <- Messages]),
    Known = [{Sent, Received} || {{Number, Place} = Sent, Received} <- Pairs,
                                 Received =/= none orelse Place >= lists:nth(Number, Half)],
    moved(list_to_tuple(Counts), list_to_tuple(Half), Known, ?MOVES).

%% Each send with its receive. Several messages that are alike are under way from the first send to
%% the last receive, and of those that weren't received the last sends are.
-spec pairs([place()], [place()]) -> [{place(), place() | none}].
pairs(Sent, Received) when Sent =:= []; Received =:= [] ->
    [{Send, none} || Send <- Sent];
pairs([First | _] = Sent, Received) ->
    {Taken, Left} = lists:split(min(length(Sent), length(Received)), Sent),
    [{First, Receive} || Receive <- Received]
        ++ [{Send, lists:last(Received)} || Send <- Taken] ++ [{Send, none} || Send <- Left].

moved(_Ends, _Half, _Messages, 0) ->
    none;
moved(Ends, Half, Messages, Moves) ->
    case lists:foldl(fun move/2, Ends, Messages) of
        Ends -> tuple_to_list(Ends);
        Earlier ->
            Pairs = lists:zip(tuple_to_list(Earlier), tuple_to_list(Half)),
            case lists:all(fun({End, Least}) -> End >= Least end, Pairs) of
                true -> moved(Earlier, Half, Messages, Moves - 1);
                false -> none
            end
    end.

move({Sent, Received}, Ends) ->
    case {is_before(Sent, Ends), is_before(Received, Ends)} of
        {true, false} -> end_at(Sent, Ends);
        {false, true} -> end_at(Received, Ends);
        {_, _} -> Ends
    end.

is_before(none, _Ends) -> false;
is_before({Number, Place}, Ends) -> Place < element(Number, Ends).

end_at({Number, Place}, Ends) -> setelement(Number, Ends, Place).

%% Puts what is known of the collection as a whole, as how many bytes came, with the first part; the
%% clock of its node, and what the processes are called that the part names, with both. So what is
%% left of one period to the next doesn't grow.
split(File, Count, Before, Behind) ->
    Open = fun(Name) -> seqaudit_events:open(filename:rootname(Name)) end,
    case {file:read_file(File), Open(Before), Open(Behind)} of
        {{ok, Bytes}, {ok, First}, {ok, Second}} ->
            [_, Entries] = binary:split(Bytes, <<"\n">>),
            {Former, Later} = entries(Entries, Count, [], []),
            _ = {ok, ok} = {file:write(First, Former),
                            file:write(Second, later(Later, []))},
            case {seqaudit_events:close(First), seqaudit_events:close(Second)} of
                {ok, ok} -> ok;
                {{error, Reason}, _} -> {error, {file, Before, Reason}};
                {_, {error, Reason}} -> {error, {file, Behind, Reason}}
            end;
        {{error, Reason}, _, _} -> {error, {file, File, Reason}};
        {_, {error, Reason}, _} -> {error, Reason};
        {_, _, {error, Reason}} -> {error, Reason}
    end.

entries(<<?EVENT, Size:32, Event:Size/binary, Rest/binary>>, 0, Former,
        [#later{events = Events} = Last | Later]) ->
    entries(Rest, 0, Former, [Last#later{events = [Event | Events]} | Later]);
entries(<<?EVENT, Size:32, Event:Size/binary, Rest/binary>>, Count, Former, Later) ->
    entries(Rest, Count - 1, [[<<?EVENT, Size:32>>, Event] | Former], Later);
entries(<<?COLLECTION, Size:32, Facts:Size/binary, Rest/binary>>, Count, Former, Later) ->
    Entry = [<<?COLLECTION, Size:32>>, Facts],
    entries(Rest, Count, [Entry | Former], [#later{collection = Entry} | Later]);
entries(<<?FACTS, Size:32, Facts:Size/binary, Rest/binary>>, Count, Former, [Last | Later]) ->
    entries(Rest, Count, [[<<?FACTS, Size:32>>, Facts] | Former], [learned(Facts, Last) | Later]);
entries(Rest, _Count, Former, Later) ->
    {lists:reverse([Rest | Former]), Later}.

%% They stay bytes: this Erlang needn't have the atoms in them.
learned(Bytes, #later{facts = Facts, processes = Processes} = Later) ->
    case seqaudit_external:read(Bytes) of
        {ok, Term} ->
            Pairs = case seqaudit_external:pairs(Term) of other -> #{}; Known -> Known end,
            New = seqaudit_external:map(maps:get(<<"processes">>, Pairs, <<>>)),
            Later#later{facts = maps:merge(Facts, maps:with([<<"node">>, <<"clock">>,
                                                             <<"collector">>], Pairs)),
                        processes = maps:merge(Processes, maps:from_list(New))};
        error ->
            Later
    end.

%% The collections that have events behind the moment, and the last one, which goes on.
later([], Done) -> Done;
later([#later{events = []} | Others], [_ | _] = Done) -> later(Others, Done);
later([#later{collection = Collection, facts = Facts, processes = Processes,
              events = Events} | Others], Done) ->
    Named = maps:from_keys(lists:append([parties(Event) || Event <- Events]), []),
    Own = maps:to_list(maps:filter(fun(Pid, _) -> is_map_key(seqaudit_external:view(Pid),
                                                             Named) end, Processes)),
    Kept = [{seqaudit_external:atom(Key), Value} || {Key, Value} <- maps:to_list(Facts)]
        ++ [{seqaudit_external:atom(<<"processes">>), map(Own)}],
    Term = <<131, (map(Kept))/binary>>,
    later(Others, [Collection, <<?FACTS, (byte_size(Term)):32>>, Term,
                   [[<<?EVENT, (byte_size(Event)):32>>, Event]
                    || Event <- lists:reverse(Events)] | Done]).

map(Pairs) ->
    iolist_to_binary([<<116, (length(Pairs)):32>> | [[Key, Value] || {Key, Value} <- Pairs]]).

parties(<<131, Bytes/binary>>) ->
    case seqaudit_external:event(Bytes) of
        {ok, {_, _, _, From, To, _, _}} ->
            [seqaudit_external:view(Party) || Party <- [From, To]];
        _ -> []
    end;
parties(_) ->
    [].
