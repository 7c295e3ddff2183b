%% @doc Takes in what files hold, with events side by side, in little memory.
%%
%% An event becomes a record of a fixed size in one binary: numbers for its label, parties and
%% message, its serial and its time. The terms themselves are in tables, each once. So a million
%% events take some tens of megabytes beside their different messages.
%%
%% Most of the work is to read the events' terms and to see which of them are equal. So events are
%% gathered in batches, and a process of its own makes a part of each, in which terms have numbers
%% of their own. The parts are added in the order of the batches: every term has the number that it
%% has if the events are taken in one by one. All else that a file holds is taken in between the
%% batches.
-module(seqaudit_build).

-include("seqaudit_packed.hrl").

-export([new/0, item/2, build/1]).
-export_type([build/0, packed/0, collected/0, batches/0]).

-define(BATCH_EVENTS, 1_000).
-define(BATCH_BYTES, 1_048_576).
%% Words of memory with which a process that reads a batch begins: it needs about as many.
-define(HEAP, 60_000).

%% The greatest count that the text of a bundle has, and the least that a node shows.
-define(GREATEST, 16#FFFF_FFFF_FFFF_FFFF).
-define(LEAST, -(1 bsl 59)).
-define(NANOSECONDS, 1_000_000_000).
-define(NOWHERE, <<"nonode@nohost">>).
%% Entries of each kind that are shown if they are no events, and characters of each.
-define(SAMPLES, 3).
-define(SHOWN, 80).

-type packed() :: binary().
%% Records of events, one behind the other.

-type collected() :: #{node => binary(), facts => seqaudit_events:facts(),
                       dropped => non_neg_integer(), left => non_neg_integer(), left_at => string(),
                       own => non_neg_integer(), passed => {Lines :: pos_integer(),
                                                            First :: string()}}.
%% A collection without its events.

-type build() :: #build{}.

-record(batches, {build :: build(),
                  events = [] :: [binary()],   % last first
                  count = 0 :: non_neg_integer(),
                  bytes = 0 :: non_neg_integer(),
                  reading = queue:new() :: queue:queue(seqaudit_workers:worker())}).

-opaque batches() :: #batches{}.

-type terms() :: seqaudit_numbers:few() | [seqaudit_external:encoded()].
%% The terms of a part, which are a list once it is whole.

%% Some events, with numbers of their own for their terms; the node where they were collected, the
%% process that did so, and what its clock means.
-record(part, {home :: binary() | unknown,
               own :: seqaudit_external:encoded() | none,
               clock :: {integer(), pos_integer()},
               packed = <<>> :: packed(),
               actors = seqaudit_numbers:few() :: terms(),
               others = seqaudit_numbers:few() :: terms(),
               labels = seqaudit_numbers:few() :: terms(),
               values = seqaudit_numbers:few() :: terms(),
               known = #{} :: #{seqaudit_external:encoded() => seqaudit_events:about()},
               counts = #{} :: #{atom() => non_neg_integer()},
               samples = #{} :: #{atom() => [string()]},
               own_events = 0 :: non_neg_integer()}).

%% @doc Nothing taken in yet. The tables end with the process that makes them.
-spec new() -> batches().
new() ->
    #batches{build = #build{actors = seqaudit_numbers:new(), others = seqaudit_numbers:new(),
                            labels = seqaudit_numbers:new(), values = seqaudit_numbers:new()}}.

%% @doc Takes one item of a file in. The first event of a collection may say what is to be known of
%% all of them, so it is taken in at once.
-spec item(seqaudit_events:item(), batches()) -> batches().
item({event, Event}, #batches{build = #build{home = Home}, events = Events, count = Count,
                              bytes = Bytes} = Batches)
  when Home =/= unknown ->
    More = Batches#batches{events = [Event | Events], count = Count + 1,
                           bytes = Bytes + byte_size(Event)},
    case Count + 1 >= ?BATCH_EVENTS orelse More#batches.bytes >= ?BATCH_BYTES of
        true -> begin_batch(More);
        false -> More
    end;
item(Item, Batches) ->
    #batches{build = take_item(Item, build(Batches))}.

%% @doc All that was taken in.
-spec build(batches()) -> build().
build(Batches) ->
    all_added(begin_batch(Batches)).

%% No more batches are read than there are schedulers, so that memory is bounded.
begin_batch(#batches{events = []} = Batches) ->
    Batches;
begin_batch(#batches{reading = Reading, build = Build, events = LastFirst} = Batches) ->
    case queue:len(Reading) >= erlang:system_info(schedulers_online) of
        true ->
            begin_batch(first_added(Batches));
        false ->
            Empty = new_part(Build),
            Worker = seqaudit_workers:begun(fun() -> part(lists:reverse(LastFirst), Empty) end,
                                            [{min_heap_size, ?HEAP}]),
            Batches#batches{events = [], count = 0, bytes = 0, reading = queue:in(Worker, Reading)}
    end.

all_added(#batches{reading = Reading} = Batches) ->
    case queue:is_empty(Reading) of
        true -> Batches#batches.build;
        false -> all_added(first_added(Batches))
    end.

first_added(#batches{reading = Reading, build = Build} = Batches) ->
    {{value, Worker}, Later} = queue:out(Reading),
    Batches#batches{reading = Later, build = add(seqaudit_workers:result(Worker), Build)}.

new_part(#build{home = Home, own = Own, clock = Clock}) ->
    #part{home = Home, own = Own, clock = Clock}.

part(Events, Empty) ->
    Part = lists:foldl(fun take/2, Empty, Events),
    Part#part{actors = seqaudit_numbers:terms(Part#part.actors),
              others = seqaudit_numbers:terms(Part#part.others),
              labels = seqaudit_numbers:terms(Part#part.labels),
              values = seqaudit_numbers:terms(Part#part.values)}.

%% Gives every term of a part the number that it gets if the events come one by one.
add(#part{packed = Records} = Part, #build{packed = Packed} = Build) ->
    Parties = {numbers(Part#part.actors, Build#build.actors),
               numbers(Part#part.others, Build#build.others)},
    Labels = numbers(Part#part.labels, Build#build.labels),
    Values = numbers(Part#part.values, Build#build.values),
    Numbered = << <<?PACKED(Kind, (element(Label + 1, Labels)), Prev, This,
                            (renumbered(From, Parties)), (renumbered(To, Parties)),
                            (element(Value + 1, Values)), Time)>>
                  || <<?PACKED(Kind, Label, Prev, This, From, To, Value, Time)>> <= Records >>,
    known(Part, Build#build{packed = <<Packed/binary, Numbered/binary>>}).

numbers(Terms, Table) ->
    list_to_tuple(seqaudit_numbers:numbers(Terms, Table)).

%% Adds what a part has beside its records and terms.
known(#part{own_events = Own} = Part, Build) ->
    Sum = fun(_, Before, More) -> Before + More end,
    First = fun(_, Before, More) -> first_samples(More ++ Before) end,
    Added = Build#build{home = Part#part.home,
                        known = maps:merge(Part#part.known, Build#build.known),
                        counts = maps:merge_with(Sum, Build#build.counts, Part#part.counts),
                        samples = maps:merge_with(First, Build#build.samples, Part#part.samples)},
    case Own of
        0 -> Added;
        _ -> more(own, Own, Added)
    end.

renumbered(?NOBODY, _) -> ?NOBODY;
renumbered(Party, {_, Others})
  when Party >= ?OTHER -> ?OTHER bor element(Party - ?OTHER + 1, Others);
renumbered(Party, {Actors, _}) -> element(Party + 1, Actors).

take_item(collection, #build{collections = Before} = Build) ->
    Build#build{collections = [#{facts => #{}} | Before], home = unknown, own = none,
                clock = {0, ?NANOSECONDS}};
take_item({facts, Facts}, #build{collections = [Now | Before], known = Known} = Build) ->
    Kept = maps:merge(maps:get(facts, Now), maps:remove(processes, Facts)),
    Build#build{collections = [Now#{facts => Kept} | Before],
                known = lists:foldl(fun learn/2, Known, maps:get(processes, Facts, [])),
                home = maps:get(node, Kept, Build#build.home),
                own = maps:get(collector, Kept, none),
                clock = maps:get(clock, Kept, Build#build.clock)};
take_item({dropped, Count}, Build) ->
    more(dropped, Count, Build);
take_item({left, Bytes}, Build) ->
    more(left, Bytes, Build);
take_item({left, Bytes, Where}, Build) ->
    know(left_at, Where, more(left, Bytes, Build));
take_item({passed, Lines, First}, Build) ->
    know(passed, {Lines, First}, Build);
take_item(stray, #build{counts = Counts} = Build) ->
    Build#build{counts = more(strays, Counts)};
take_item({stray, Where, Term}, #build{counts = Counts, samples = Samples} = Build) ->
    Kind = stray_kind(Term),
    Build#build{counts = more(Kind, Counts),
                samples = sampled(Kind, [Where, ": ", shown(Term)], Samples)};
take_item({event, Bytes}, Build) ->
    add(part([Bytes], new_part(Build)), Build).

%% Prefers what was asked last, but keeps a name that a process had.
learn({Pid, About}, Known) ->
    maps:update_with(Pid, fun(Before) -> maps:merge(Before, About) end, About, Known).

more(What, Count, #build{collections = [Now | Before]} = Build) ->
    Build#build{collections = [Now#{What => maps:get(What, Now, 0) + Count} | Before]}.

know(What, Value, #build{collections = [Now | Before]} = Build) ->
    Build#build{collections = [Now#{What => Value} | Before]}.

more(What, Counts) -> Counts#{What => maps:get(What, Counts, 0) + 1}.

count(What, #part{counts = Counts} = Part) -> Part#part{counts = more(What, Counts)}.

%% An entry that is no event. One that begins as those of seq_trace do is something that the trace
%% lacks.
stray(Bytes, #part{samples = Samples} = Part) ->
    Term = seqaudit_external:readable(Bytes),
    Kind = stray_kind(Term),
    (count(Kind, Part))#part{samples = case Samples of
                                           #{Kind := [_, _, _]} -> Samples;
                                           #{} -> sampled(Kind, shown(Term), Samples)
                                       end}.

stray_kind(Term) ->
    case seqaudit_external:tuple(Term) of
        [First | _] ->
            case seqaudit_external:view(First) of
                {atom, <<"seq_trace">>} -> no_events;
                _ -> strays
            end;
        _ -> strays
    end.

sampled(Kind, Text, Samples) ->
    Samples#{Kind => first_samples([lists:flatten(Text) | maps:get(Kind, Samples, [])])}.

first_samples(Samples) -> lists:nthtail(max(0, length(Samples) - ?SAMPLES), Samples).

shown(Term) ->
    seqaudit_terms:short(seqaudit_terms:encoded(Term, #{}), ?SHOWN).

take(Bytes, Part) ->
    case seqaudit_external:event(Bytes) of
        {ok, Event} ->
            case event(Event, Part) of
                stray -> stray(Bytes, Part);
                Taken -> Taken
            end;
        other ->
            stray(Bytes, Part);
        Unread ->
            count(Unread, Part)
    end.

event({_, _, {Prev, This}, _, _, _, _}, _Part)
  when Prev > ?GREATEST; This > ?GREATEST; Prev < ?LEAST; This < ?LEAST ->
    stray;
event({_, _, _, From, To, _, _} = Event, #part{home = unknown} = Part) ->
    event(Event, Part#part{home = home(From, To)});
event({print, _, _, From, _, _, _} = Event, Part) ->
    place(Event, party(From, Part), none, Part);
event({_, _, _, From, To, _, _} = Event, Part) ->
    place(Event, party(From, Part), party(To, Part), Part).

%% Events that don't say where they were collected were so where their first process lives.
home(From, To) ->
    case [Node || Party <- [From, To], Node <- node_of(seqaudit_external:view(Party))] of
        [Node | _] -> Node;
        [] -> ?NOWHERE
    end.

node_of({process, Node, _, _}) -> [Node];
node_of({first, Process, _}) -> node_of(seqaudit_external:view(Process));
node_of(_) -> [].

%% A node, to which a request to spawn there goes, is the same whichever node reports it. Another
%% name without a node is one of the node that reports it. `ttb' writes a process as a triple, in
%% which is what it is called.
party(<<88, _/binary>> = Process, _Part) -> {actor, Process, none};
party(Bytes, #part{home = Home}) ->
    case seqaudit_external:view(Bytes) of
        {port, _, _} -> {actor, Bytes, none};
        {reference, _, _} -> {other, Bytes, none};
        {name, _, _} -> {other, Bytes, none};
        {atom, Name} ->
            Node = case binary:match(Name, <<"@">>) of nomatch -> Home; _ -> Name end,
            {other, seqaudit_external:name(Name, Node), none};
        {first, First, Info} -> party_of_ttb(seqaudit_external:view(First), First, Info);
        other -> stray
    end.

party_of_ttb({Kind, _, _, _}, First, Info) when Kind =:= process -> {actor, First, Info};
party_of_ttb({port, _, _}, First, _Info) -> {actor, First, none};
party_of_ttb(_, _, _) -> stray.

place(_Event, From, To, _Part) when From =:= stray; To =:= stray ->
    stray;
place(_Event, {_, Own, _}, _To, #part{own = Own} = Part) ->
    Part#part{own_events = Part#part.own_events + 1};
place(_Event, _From, {_, Own, _}, #part{own = Own} = Part) ->
    Part#part{own_events = Part#part.own_events + 1};
place({Kind, Label0, {Prev, This}, _, _, Message, Time0}, From0, To0, Part0) ->
    Part = called(To0, called(From0, Part0)),
    {From, Actors0, Others0} = index(From0, Part#part.actors, Part#part.others),
    {To, Actors, Others} = index(To0, Actors0, Others0),
    {Label, Labels} = seqaudit_numbers:number_few(Label0, Part#part.labels),
    {Value, Values} = seqaudit_numbers:number_few(Message, Part#part.values),
    Time = time(Time0, Part),
    Packed = <<(Part#part.packed)/binary,
               ?PACKED((kind(Kind)), Label, Prev, This, From, To, Value, Time)>>,
    Placed = Part#part{packed = Packed, actors = Actors, others = Others, labels = Labels,
                       values = Values},
    case Time of
        ?NO_TIME -> Placed;
        _ -> count(timestamps, Placed)
    end.

kind(send) -> ?SEND;
kind('receive') -> ?RECEIVE;
kind(print) -> ?PRINT.

index(none, Actors, Others) ->
    {?NOBODY, Actors, Others};
index({actor, Bytes, _}, Actors, Others) ->
    {Number, More} = seqaudit_numbers:number_few(Bytes, Actors),
    {Number, More, Others};
index({other, Bytes, _}, Actors, Others) ->
    {Number, More} = seqaudit_numbers:number_few(Bytes, Others),
    {?OTHER bor Number, Actors, More}.

called({actor, Pid, Info}, #part{known = Known} = Part)
  when Info =/= none, not is_map_key(Pid, Known) ->
    Part#part{known = Known#{binary:copy(Pid) => seqaudit_events:about_ttb(Info)}};
called(_, Part) ->
    Part.

%% Nanoseconds since 1970, if the collection says what the node's clock means; else since some
%% instant of that node.
time(none, _Part) ->
    ?NO_TIME;
time(Time, #part{clock = {Offset, Second}}) ->
    Value = case seqaudit_external:tuple(Time) of
                other -> seqaudit_external:number(Time);
                Parts -> [seqaudit_external:number(Part) || Part <- Parts]
            end,
    case Value of
        Native when is_integer(Native) -> in_range((Native + Offset) * ?NANOSECONDS div Second);
        [Native, Unique] when is_integer(Native), is_integer(Unique) ->
            in_range((Native + Offset) * ?NANOSECONDS div Second);
        [Mega, Seconds, Micro] when is_integer(Mega), is_integer(Seconds), is_integer(Micro) ->
            in_range(((Mega * 1_000_000 + Seconds) * 1_000_000 + Micro) * 1_000);
        _ -> ?NO_TIME
    end.

in_range(Time) when Time > ?NO_TIME, Time < -?NO_TIME -> Time;
in_range(_) -> ?NO_TIME.
