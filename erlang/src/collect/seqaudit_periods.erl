%% @doc The command `watch': traces nodes for as long as it runs, and audits what came period by
%% period.
%%
%% At the end of each period the nodes' events are fetched while collecting goes on without a gap,
%% cut at the last moment at which no message was under way, converted and audited. What fits is
%% thrown away; what doesn't is kept, with the periods before and after it. So disk and memory stay
%% bounded: a node has the events of the period that runs, and here are those of three, and of the
%% last periods that are kept.
-module(seqaudit_periods).

-export([watch/3]).

-import(seqaudit_errors, [text/2, count/2]).

-define(FITS, 0).
-define(UNFIT, 1).
-define(SYSTEM, 4).
%% Kept periods that stay if the command isn't told how many: the last ones.
-define(KEPT, 100).

-type options() :: #{name := file:filename(), every := pos_integer(), keep => pos_integer()}.
%% `name': what the files of each period are called, with the number of the period behind it;
%% `every': its length in milliseconds; `keep': how many periods that didn't fit, or are neighbours
%% of such, stay.

-record(state, {name :: file:filename(),
                every :: pos_integer(),
                keep :: pos_integer(),
                asked :: reference(),
                say :: fun((iodata()) -> ok),
                number = 1 :: pos_integer(),
                %% Events after the cut of the last period.
                rest = [] :: [file:filename()],
                last = none :: none | fits | unfit,
                open = none :: none | pos_integer(),
                kept = [] :: [pos_integer()],   % last first
                unfit = 0 :: non_neg_integer()}).

%% @doc Runs until it is asked to end; collecting has begun. Says a line for each period.
-spec watch(options(), reference(), fun((iodata()) -> ok)) -> ?FITS | ?UNFIT | {?SYSTEM, iodata()}.
watch(#{name := Name, every := Every} = Options, Asked, Say) ->
    run(#state{name = Name, every = Every, keep = maps:get(keep, Options, ?KEPT), asked = Asked,
               say = Say}, erlang:monotonic_time(millisecond)).

run(#state{asked = Asked, every = Every} = State, Began) ->
    case seqaudit_signals:wait(Asked, max(0, Began + Every - erlang:monotonic_time(millisecond))) of
        asked -> ended(State);
        elapsed -> period(State, erlang:monotonic_time(millisecond))
    end.

%% Has a process of its own look at what was collected, so that the command can end meanwhile.
period(#state{asked = Asked} = State, Began) ->
    Self = self(),
    {Worker, Monitor} = spawn_monitor(fun() -> Self ! {self(), audited(State)} end),
    receive
        {Worker, {ok, Verdict, Line, Rest}} ->
            demonitor(Monitor, [flush]),
            run(judged(Verdict, Line, State#state{rest = Rest}), Began);
        {Worker, {error, Text}} ->
            demonitor(Monitor, [flush]),
            ok = seqaudit_trace:cancel(),
            {?SYSTEM, Text};
        {'DOWN', Monitor, process, Worker, Reason} ->
            ok = seqaudit_trace:cancel(),
            {?SYSTEM, text("period ~b couldn't be looked at (~0tP)",
                           [State#state.number, Reason, 20])};
        Asked ->
            exit(Worker, kill),
            receive {'DOWN', Monitor, process, Worker, _} -> ended(State) end
    end.

%% The period that runs isn't audited: that could take long.
ended(#state{name = Name, number = Number, unfit = Unfit, open = Open, say = Say} = State) ->
    ok = seqaudit_trace:cancel(),
    ok = lists:foreach(fun(File) -> file:delete(File) end, State#state.rest),
    ok = lists:foreach(fun(One) -> remove(name(Name, One)) end, [Open || Open =/= none]),
    %% A look at this period may have left something for the next one.
    ok = remove(name(Name, Number), fun(_) -> true end),
    ok = Say(text("~ts, ~b kept; period ~b, which was running, isn't audited~n",
                  [count(Number - 1, "period"), length(State#state.kept),
                   Number])),
    case Unfit of 0 -> ?FITS; _ -> ?UNFIT end.

audited(#state{name = Name, number = Number, rest = Rest}) ->
    Period = name(Name, Number),
    Rotated = seqaudit_trace:rotate(Period),
    Files = Rest ++ [File || {_, Written} <- Rotated, File <- file(Written)],
    case joined(Files, Period) of
        {ok, []} ->
            outcome(Period, 0, ["" | lists:map(fun became/1, Rotated)], []);
        {ok, Joined} ->
            {Own, Later, How} =
                cut(Joined, lists:any(fun({_, Written}) -> has_ended(Written) end, Rotated)),
            case seqaudit_convert:from_files(Own, Period) of
                {ok, #{events := Events}} ->
                    outcome(Period, Events, [How | lists:map(fun became/1, Rotated)], Later);
                {error, Reason} -> {error, seqaudit_events:format_error(Reason)}
            end;
        {error, Reason} ->
            {error, seqaudit_events:format_error(Reason)}
    end.

file({error, _}) -> [];
file({again, none}) -> [];
file(Written) -> [element(2, Written)].

has_ended(Written) -> lists:member(element(1, Written), [again, gone]).

became({_, {ok, _}}) -> "";
became({Node, {again, _}}) -> [", ", atom_to_list(Node), " had stopped collecting and began again"];
became({Node, {gone, _, Reason}}) ->
    [", ", atom_to_list(Node), " stopped collecting (", why(Node, Reason), ")"];
became({Node, {error, Reason}}) ->
    [", ", atom_to_list(Node), " wasn't asked (", why(Node, Reason), ")"].

why(_Node, unreachable) -> "it can't be reached";
why(_Node, other_tracer) -> "somebody else's system tracer is on there";
why(Node, Reason) -> seqaudit_trace:format_error({node, Node, Reason}).

%% Puts what was left of the last period first, in its node's file.
joined(Files, Period) ->
    ByNode = maps:groups_from_list(fun number/1, Files),
    join(lists:sort(maps:to_list(ByNode)), Period, []).

%% Files are called NAME.PERIOD.NODE.events, and what is left of one NAME.PERIOD.NODE.rest.events.
number(File) ->
    [_ | Words] = lists:reverse(string:split(filename:basename(File), ".", all)),
    [Number | _] = [Word || Word <- Words, Word =/= "rest"],
    list_to_integer(Number).

join([], _Period, Joined) ->
    {ok, lists:reverse(Joined)};
join([{Number, [File]} | Others], Period, Joined) ->
    Own = lists:append([Period, ".", integer_to_list(Number), ".events"]),
    ok = file:rename(File, Own),
    join(Others, Period, [Own | Joined]);
join([{_, [Former, Later]} | Others], Period, Joined) ->
    case {file:read_file(Later), file:open(Former, [append, raw, binary])} of
        {{ok, Bytes}, {ok, Device}} ->
            [_, Entries] = binary:split(Bytes, <<"\n">>),
            ok = file:write(Device, Entries),
            ok = file:close(Device),
            ok = file:rename(Former, Later),
            join(Others, Period, [Later | Joined]);
        {{error, Reason}, _} -> {error, {file, Later, Reason}};
        {_, {error, Reason}} -> {error, {file, Former, Reason}}
    end.

%% Joins nothing that came before a node stopped collecting with what comes after that.
cut(Files, true) ->
    {Files, [], "cut at its end"};
cut(Files, false) ->
    Own = [part(File, "own") || File <- Files],
    Rest = [part(File, "rest") || File <- Files],
    case seqaudit_quiet:cut(Files, Own, Rest) of
        ok ->
            _ = [ok = file:rename(Part, File) || {Part, File} <- lists:zip(Own, Files)],
            {Files, Rest, "cut at a quiet moment"};
        none ->
            {Files, [], "cut while messages were under way"};
        {error, Reason} ->
            {Files, [], ["cut at its end (", seqaudit_events:format_error(Reason), ")"]}
    end.

part(File, Which) -> filename:rootname(File) ++ "." ++ Which ++ ".events".

outcome(Period, 0, [_ | Became], Later) ->
    Lost = lists:delete(list_to_binary(seqaudit_notes:nothing()), lost(Period)),
    {ok, fits, ["nothing came", losses(Lost), Became], Later};
outcome(Period, Events, How, Later) ->
    {Verdict, Line} = case seqaudit_verdict:of_trace(Period) of
                          {error, Reason} -> {unfit, unaudited(Events, Reason)};
                          Audited -> Audited
                      end,
    {ok, Verdict, [Line, losses(lost(Period)), "; ", How], Later}.

%% The files of a period that fits go, so what it lacks is said here.
losses(Losses) -> [["; ", Loss] || Loss <- Losses].

lost(Period) ->
    case file:read_file(Period ++ ".facts") of
        {ok, Text} -> seqaudit_notes:losses(Text);
        %% No node was asked, so nothing was converted.
        {error, enoent} -> []
    end.

%% A period of which nobody knows whether it fits is kept as one that doesn't.
unaudited(Events, Reason) ->
    [count(Events, "event"), ", not audited: ", seqaudit_verdict:format_error(Reason)].

%% Removes a period that fits once its next neighbour fits too.
judged(Verdict, Line, #state{number = Number, say = Say, last = Last, open = Open} = State) ->
    Kept = case {Verdict, Open, Last} of
               {unfit, none, _} -> [Number];
               {unfit, _, _} -> [Number, Open];
               {fits, _, unfit} -> [Number];
               {fits, _, _} -> []
           end,
    Gone = [Open || Verdict =:= fits, Open =/= none],
    ok = Say(text("~ts  period ~b: ~ts; ~ts~n",
                  [calendar:system_time_to_rfc3339(erlang:system_time(second), [{offset, "Z"}]),
                   Number, Line,
                   case Kept of
                       [] -> "not kept";
                       _ -> ["kept as ", lists:join(" and ", [name(State#state.name, One)
                                                              || One <- lists:sort(Kept)])]
                   end])),
    ok = lists:foreach(fun(One) -> remove(name(State#state.name, One)) end, Gone),
    bounded(State#state{number = Number + 1, last = Verdict, kept = Kept ++ State#state.kept,
                        open = case Kept of [] -> Number; _ -> none end,
                        unfit = State#state.unfit + case Verdict of unfit -> 1; fits -> 0 end}).

bounded(#state{kept = Kept, keep = Keep, say = Say, name = Name} = State)
  when length(Kept) > Keep ->
    Oldest = lists:last(Kept),
    ok = Say(text("period ~b is removed, as more than ~b are kept (--keep)~n", [Oldest, Keep])),
    ok = remove(name(Name, Oldest)),
    bounded(State#state{kept = lists:droplast(Kept)});
bounded(State) ->
    State.

name(Name, Number) -> text("~ts.~b", [Name, Number]).

%% Not what is left for the next period.
remove(Period) ->
    remove(Period, fun(Name) -> not lists:suffix(".rest.events", Name) end).

remove(Period, Is) ->
    Folder = filename:dirname(Period),
    {ok, Names} = file:list_dir(Folder),
    lists:foreach(fun(Name) -> file:delete(filename:join(Folder, Name)) end,
                  [Name || Name <- Names, lists:prefix(filename:basename(Period) ++ ".", Name),
                   Is(Name)]).
