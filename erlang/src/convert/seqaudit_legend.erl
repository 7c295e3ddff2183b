%% @doc `NAME.terms', which says what each number of a bundle means.
%%
%% It is text in UTF-8, a line an entry, with tabs between its parts: `process PID NAME WHAT',
%% `label NUMBER TERM' and `value NUMBER TERM'; and `node NUMBER NAME' for each further number of a
%% node that has more than one.
-module(seqaudit_legend).

-export([write/4]).

-import(seqaudit_external, [view/1]).

%% Lines that are made before they are handed on: a trace may have millions of processes.
-define(AT_ONCE, 1_000).

-type known() :: #{seqaudit_processes:party() => seqaudit_events:about()}.

-record(names, {known :: known(),
                numbers :: seqaudit_processes:numbers(),
                %% Whether there are several nodes, and the names that several processes had.
                many :: boolean(),
                repeated :: #{string() => repeated}}).

%% @doc Hands on the first lines of the file: the processes by pid, with a short name and all that
%% is known of each. The nodes, labels and values come after them.
-spec write([{seqaudit_processes:pid_number(), seqaudit_processes:party()}], known(),
            seqaudit_processes:numbers(), fun((iodata()) -> ok)) -> ok.
write(Listed, Known, Numbers, Out) ->
    ok = Out(<<"seqaudit terms 1\n">>),
    Many = length(lists:usort([seqaudit_processes:home(Party) || {_, Party} <- Listed])) > 1,
    lines(Listed, #names{known = Known, numbers = Numbers, many = Many,
                         repeated = repeated(Listed, Known, Many)}, Out).

lines([], _Names, _Out) ->
    ok;
lines(Listed, Names, Out) ->
    {Now, Later} = lists:split(min(length(Listed), ?AT_ONCE), Listed),
    ok = Out([line(Each, Names) || Each <- Now]),
    lines(Later, Names, Out).

line({Number, Party}, #names{known = Known, many = Many, repeated = Repeated} = Names) ->
    About = maps:get(Party, Known, #{}),
    Caller = caller(About, Names),
    Pid = seqaudit_processes:spell(Number),
    Name = case registered(Party, About, Many) of
               none -> unregistered(Party, About, Caller, Pid);
               OfSeveral when is_map_key(OfSeveral, Repeated) -> [OfSeveral, $\s, Pid];
               Own -> Own
           end,
    unicode:characters_to_binary(["process\t", Pid, $\t, Name, $\t,
                                  what(Party, About, Caller), $\n]).

repeated(Listed, Known, Many) ->
    Count = fun({_, Party}, Counts) ->
                    About = maps:get(Party, Known, #{}),
                    case registered(Party, About, Many) of
                        none -> Counts;
                        Name when is_map_key(Name, Counts) -> Counts#{Name := repeated};
                        Name -> Counts#{Name => once}
                    end
            end,
    maps:filter(fun(_, How) -> How =:= repeated end, lists:foldl(Count, #{}, Listed)).

caller(#{caller := Caller}, #names{known = Known, numbers = Numbers}) ->
    case Known of
        #{Caller := #{name := Name}} -> seqaudit_terms:atom(Name);
        #{} -> seqaudit_terms:encoded(Caller, Numbers)
    end;
caller(_About, _Names) ->
    "".

%% The registered name of a party. If there are several nodes (`Many'), it says which one is meant.
registered(Party, #{name := Name}, Many) ->
    seqaudit_terms:atom(Name) ++ on(Party, Many);
registered(Party, About, _Many) ->
    case view(Party) of
        {name, Name, _} when map_size(About) =:= 0 -> seqaudit_terms:atom(Name) ++ on(Party, true);
        _ -> none
    end.

on(_Party, false) -> "";
on(Party, true) -> " on " ++ seqaudit_terms:plain(seqaudit_processes:home(Party)).

%% A short name: for whom a task works, what was called first, or what the party is.
unregistered(_Party, #{caller := _}, Caller, Pid) -> "task of " ++ Caller ++ " " ++ Pid;
unregistered(_Party, #{call := Call}, _Caller, Pid) -> called(seqaudit_terms:call(Call), Pid);
unregistered(Party, _About, _Caller, Pid) ->
    case view(Party) of
        {port, _, _} -> "port " ++ Pid;
        {reference, _, _} -> "alias " ++ Pid;
        _ -> Pid
    end.

%% That a process was spawned with a fun says nothing.
called("erlang:apply/2", Pid) -> Pid;
called(Call, Pid) -> Call ++ " " ++ Pid.

%% All that is known of a party, in words.
what(Party, About, Caller) ->
    [kind(view(Party)), " of node ", seqaudit_terms:plain(seqaudit_processes:home(Party))]
        ++ [[", registered as ", seqaudit_terms:atom(Name)] || #{name := Name} <- [About]]
        ++ [[", started by ", seqaudit_terms:call(Call)] || #{call := Call} <- [About]]
        ++ [[", for ", Caller] || #{caller := _} <- [About]].

kind({process, _, Number, Serial}) ->
    ["process <0.", integer_to_list(Number), $., integer_to_list(Serial), $>];
kind({port, _, Number}) -> io_lib:format("port #Port<0.~b>", [Number]);
kind({reference, _, Ids}) ->
    ["alias #Ref<0.", lists:join($., [integer_to_list(Id) || Id <- Ids]),
     "> of an unknown process"];
kind({name, Name, _}) -> ["name ", seqaudit_terms:atom(Name)].
