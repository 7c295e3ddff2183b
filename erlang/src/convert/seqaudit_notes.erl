%% @doc `NAME.notes': what the conversion decided, and what it left out.
%%
%% `NAME.facts' has the same sentences, each behind the kind of fact that it says: below the line
%% `seqaudit facts 1' a line each, with a tab between. What a trace lacks is computed from the
%% kinds, as a name in a sentence may be any word.
-module(seqaudit_notes).

-export([facts/1, facts_text/1, losses/1, nothing/0, dropped/2]).
-export_type([fact/0]).

-import(seqaudit_errors, [text/2]).

%% Reasons come from files, so little of them is shown.
-define(REASON, 200).
%% A byte that says what it is, and four with the size.
-define(BEFORE_EVENT, 5).

-define(HEADER, <<"seqaudit facts 1">>).
%% Kinds of facts that say that something is gone.
-define(LOSSES, [nothing, lost, unread, ended, dropped, left, damaged, newer, no_events, pauses,
                 written_over, taken, nameless]).

-type fact() :: {Kind :: atom(), Sentence :: string()}.

%% @doc How many events came and are not in the bundle. Of events that a port wrote over only their
%% bytes are known: they are taken to be as large as the kept ones.
-spec dropped([seqaudit_build:collected()], #{atom() => non_neg_integer()}) -> non_neg_integer().
dropped(Collections, Counts) ->
    lists:sum([count(Kind, Counts) || Kind <- [nameless, strays, damaged, newer, no_events]])
        + lists:sum([known(Kind, Collection) || Collection <- Collections,
                                                Kind <- [dropped, own, strays]])
        + lists:sum([Events || Collection <- Collections, {_, Events} <- [over(Collection)]]).

count(Kind, Counts) ->
    maps:get(Kind, Counts, 0).

%% Adds what a collection says of itself to what was found in it.
known(left, #{facts := Facts} = Collection) ->
    count(cut, Facts) + count(left, Collection);
known(Kind, #{facts := Facts} = Collection) ->
    count(Kind, Facts) + count(Kind, Collection).

%% The bytes that a port wrote over, and about how many events they were: all that came to the port
%% without what its files have. The port counts an event without what comes before it in a file.
over(#{facts := #{by := port, written := Written, came := Came, kept := Kept, kept_bytes := Size,
                  cut := Cut}}) ->
    Over = Written + ?BEFORE_EVENT * Kept - Came - Cut,
    case Size - ?BEFORE_EVENT * Kept of
        _ when Over =< 0 -> {0, 0};
        Bytes when Bytes > 0 -> {Over, max(1, Over * Kept div Bytes)};
        _ -> {Over, 0}
    end;
over(_) ->
    {0, 0}.

%% @doc The facts, whose sentences are the notes.
-spec facts(#{collections := [seqaudit_build:collected()], counts := #{atom() => non_neg_integer()},
              samples := #{atom() => [string()]}, wrapped := boolean(),
              events := non_neg_integer(), atom() => term()}) -> [fact()].
facts(#{collections := Collections, counts := Counts, samples := Samples, wrapped := Wrapped,
        events := Events}) ->
    Known = lists:append([collected(Collection) || Collection <- Collections])
        ++ converted(Counts, Samples),
    lists:append([of_kind(nothing, [nothing() || Events =:= 0, not is_lossy(Known)]),
                  Known,
                  of_kind(wrapped, [wrapped() || Wrapped])]).

of_kind(Kind, Sentences) -> [{Kind, Sentence} || Sentence <- Sentences].

-spec facts_text([fact()]) -> unicode:chardata().
facts_text(Facts) ->
    [?HEADER, $\n,
     [[atom_to_binary(Kind), $\t, Sentence, $\n] || {Kind, Sentence} <- Facts]].

%% @doc Returns a sentence for each thing that is gone by these facts.
-spec losses(binary()) -> [binary()].
losses(Text) ->
    Kinds = [atom_to_binary(Kind) || Kind <- ?LOSSES],
    [Sentence || Line <- binary:split(Text, <<"\n">>, [global, trim]),
                 [Kind, Sentence] <- [binary:split(Line, <<"\t">>)], lists:member(Kind, Kinds)].

%% @doc Says that nothing came, though nothing is known to be gone.
-spec nothing() -> string().
nothing() ->
    "no events came; set a token while the tracer is on, as seqaudit_trace:with_trace/2 does".

wrapped() ->
    "counters have wrapped: each spawn under a token multiplies them by 16, and a serial shows "
    "their lowest 60 bits with a sign; so NAME.seqtrace is of version 3, which has the counts as "
    "the node prints them".

%% Whether something is gone, so that events may have come.
is_lossy(Known) -> lists:any(fun({Kind, _}) -> lists:member(Kind, ?LOSSES) end, Known).

collected(#{facts := Facts} = Collection) ->
    Node = seqaudit_terms:plain(maps:get(node, Facts, <<"a node">>)),
    Tracer = maps:get(tracer, Facts, put_back),
    of_kind(lost, lost(Node, Facts)) ++ of_kind(unread, unread(Node, Facts))
        ++ of_kind(ended, ended(Node, Facts)) ++ of_kind(split, split(Node, Facts))
        ++ [{Kind, text(Format, [Node, seqaudit_errors:count(known(Kind, Collection), Thing)])}
            || {Kind, Thing, Format} <-
                   [{dropped, "event",
                     "~ts: the collector dropped ~ts; raise --bytes or trace for a shorter time"},
                    {own, "event", "~ts: convert left out ~ts that named the collector"},
                    {strays, "message", "~ts: the collector got ~ts besides trace events"}],
               known(Kind, Collection) > 0]
        ++ of_kind(left, left(Node, known(left, Collection), Collection))
        ++ of_kind(passed, passed(Collection)) ++ of_kind(pauses, pauses(Node, Facts))
        ++ of_kind(written_over, written_over(Node, Collection))
        ++ of_kind(Tracer, tracer(Node, Tracer)).

left(_Node, 0, _Collection) ->
    [];
left(_Node, Bytes, #{left_at := Where}) ->
    [text("convert left out the last ~ts, from ~ts on, where an event isn't whole",
          [seqaudit_errors:count(Bytes, "byte"), Where])];
left(Node, Bytes, _Collection) ->
    [text("~ts: convert left out ~ts of the file, which is cut or damaged there",
          [Node, seqaudit_errors:count(Bytes, "byte")])].

passed(#{passed := {Lines, First}}) ->
    [text("convert passed over ~ts without an event of seq_trace; the first is ~ts",
          [seqaudit_errors:count(Lines, "line"), First])];
passed(_) ->
    [].

%% A collector that wrote its last facts ended as it should, though nobody asked it.
lost(_Node, #{lost := _, tracer := _}) ->
    [];
lost(Node, #{lost := Reason} = Facts) ->
    [text("~ts: ~ts~ts",
          [Node,
           case seqaudit_external:view(Reason) of
               {atom, <<"noconnection">>} -> "the node was lost, or the connection to it";
               _ -> text("its collector went down (~ts)", [reason(Reason)])
           end,
           case Facts of
               #{where := Where} -> there("its events", Where);
               #{kept := Kept} -> text("; what it wrote before, ~ts, is here",
                                       [seqaudit_errors:count(Kept, "event")]);
               #{} -> ", and all of its events are lost"
           end])];
lost(_Node, _Facts) ->
    [].

%% Says where the rest is, unless the folder itself is converted.
unread(Node, #{unread := Bytes} = Facts) ->
    [text("~ts: ~ts of what was collected couldn't be read~ts",
          [Node, seqaudit_errors:count(Bytes, "byte"),
           case Facts of
               #{where := Where} -> there("they", Where);
               #{} -> ""
           end])];
unread(_Node, _Facts) ->
    [].

there(What, Where) ->
    text("; ~ts are in ~ts there, and `seqaudit-node convert' takes that folder",
         [What, reason(Where)]).

ended(Node, #{ended := Ended}) ->
    case seqaudit_external:tuple(Ended) of
        [Why, When] -> [text("~ts: collecting ended early, at ~ts: ~ts",
                             [Node, date(seqaudit_external:to_term(When)), why(Why)])];
        _ -> [text("~ts: collecting ended early", [Node])]
    end;
ended(_Node, _Facts) ->
    [].

date({{Year, Month, Day}, {Hour, Minute, Second}})
  when is_integer(Year), is_integer(Month), is_integer(Day), is_integer(Hour), is_integer(Minute),
       is_integer(Second) ->
    text("~4..0b-~2..0b-~2..0b ~2..0b:~2..0b:~2..0b UTC", [Year, Month, Day, Hour, Minute, Second]);
date(_) ->
    "a time that isn't known".

why(Why) ->
    Parts = parts(Why),
    Last = reason(lists:last([Why | Parts])),
    case [seqaudit_external:view(Part) || Part <- Parts] of
        [{atom, <<"fell_behind">>}] ->
            "events came faster than they could be written by a process, not by a trace port; what "
            "came until then is here";
        [{atom, <<"fell_behind">>}, _] ->
            text("events came faster than they could be written, ~ts times", [Last]);
        [{atom, <<"unwatched">>}, _] ->
            text("the process that bounds the memory of the trace port ended (~ts)", [Last]);
        [{atom, <<"owner_out_of_reach">>}] ->
            "the node that led the collection was out of reach for too long";
        [{atom, <<"owner">>}, _] ->
            text("the process that led the collection ended (~ts)", [Last]);
        [{atom, <<"disk">>}, _] ->
            text("the trace file couldn't be written (~ts)", [Last]);
        _ -> reason(Why)
    end.

parts(Why) ->
    case seqaudit_external:tuple(Why) of
        other -> [Why];
        Parts -> Parts
    end.

reason(Term) ->
    seqaudit_terms:short(seqaudit_terms:encoded(Term, #{}), ?REASON).

split(Node, #{split := Split}) ->
    case [seqaudit_external:number(Part) || Part <- parts(Split)] of
        [Times, Milliseconds] when is_integer(Times), is_integer(Milliseconds) ->
            [text("~ts: the connection was lost ~ts, for ~b ms in all; collecting went on",
                  [Node, times(Times), Milliseconds])];
        _ -> []
    end;
split(_Node, _Facts) ->
    [].

pauses(Node, #{pauses := {Times, Lasted, First}}) ->
    [text("~ts: events came faster than they could be written, so the tracer was off ~ts, for ~ts "
          "ms in all, and what happened meanwhile is lost (it can't be counted): ~ts~ts",
          [Node, times(Times), seqaudit_errors:number(Lasted),
           lists:join(", ", lists:map(fun pause/1, First)),
           case Times - length(First) of
               More when More > 0 -> [", and ", times(More), " more"];
               _ -> ""
           end])];
pauses(_Node, _Facts) ->
    [].

times(1) -> "once";
times(Times) -> [seqaudit_errors:number(Times), " times"].

pause({Since, open}) -> ["from ", moment(Since), " to the end"];
pause({Since, Lasted}) -> text("at ~ts for ~b ms", [moment(Since), Lasted]).

moment(Since) ->
    string:replace(calendar:system_time_to_rfc3339(Since, [{unit, millisecond}, {offset, "Z"},
                                                           {time_designator, $\s}]), "Z", " UTC").

written_over(Node, Collection) ->
    case over(Collection) of
        {0, _} -> [];
        {Bytes, Events} ->
            [text("~ts: more came than the files hold, and the oldest ~b bytes were written over, "
                  "about ~b events; raise --bytes or trace for a shorter time",
                  [Node, Bytes, Events])]
    end.

tracer(_Node, put_back) -> [];
tracer(Node, taken) ->
    [text("~ts: another system tracer took the collector's place, and was left there; events after "
          "that are lost", [Node])];
tracer(Node, gone) ->
    [text("~ts: the former system tracer is gone, so the node has none now", [Node])].

converted(Counts, Samples) ->
    [{Kind, text(Format, [seqaudit_errors:count(count(Kind, Counts), thing(Kind))])
            ++ samples(count(Kind, Counts), lists:reverse(maps:get(Kind, Samples, [])))}
     || {Kind, Format} <-
            [{by_receive,
              "~ts to an alias or a name: the receive of each says which process that is"},
             {by_request, "~ts to an alias: the request that handed it out says whose it is"},
             {by_reply, "~ts to another node to spawn there: the reply says which process that is"},
             {ambiguous, "~ts to an alias or a name that two receives or requests fit: it isn't "
                         "known whose it was, and it is shown as a process of its own"},
             {unresolved,
              "~ts to an alias or a name that nothing resolves; it is shown as a process of "
              "its own"},
             {strays, "convert left out ~ts that seq_trace doesn't write"},
             {damaged, "convert left out ~ts that can't be read, since it is damaged"},
             {newer, "convert left out ~ts with terms of a newer Erlang/OTP than this version "
                     "knows"},
             {no_events, "convert left out ~ts of seq_trace whose form it doesn't know"},
             {nameless, "convert left out ~ts, as a trace has 65,536 node numbers and as many "
                        "processes of each"}],
        count(Kind, Counts) > 0].

thing(Kind) when Kind =:= strays; Kind =:= damaged; Kind =:= newer; Kind =:= no_events -> "entry";
thing(nameless) -> "event";
thing(_) -> "send".

samples(_Count, []) ->
    "";
samples(Count, Samples) ->
    lists:append([": ", lists:append(lists:join("; ", Samples)),
                  case Count - length(Samples) of
                      0 -> "";
                      More -> text("; and ~ts more", [seqaudit_errors:number(More)])
                  end]).
