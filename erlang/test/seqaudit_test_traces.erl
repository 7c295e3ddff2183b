%% Reads the files of a trace, as tests look into them.
-module(seqaudit_test_traces).

-export([events/1, terms/1, times/1, losses/1]).

%% The events of all processes.
events(Name) ->
    {ok, <<"seqtrace ", _, $\n, Text/binary>>} = file:read_file(Name ++ ".seqtrace"),
    [event(Line) || <<"{", _/binary>> = Line <- binary:split(Text, <<"\n">>, [global])].

event(Line) ->
    {match, [Label, Kind, Prev, This, From, To, Value]} =
        re:run(Line, "^{seq_trace,(\\d+),{([^,]*),{(-?\\d+),(-?\\d+)},([^,]*),([^,]*),(\\d+)}}$",
               [{capture, all_but_first, binary}]),
    #{label => Label, kind => Kind, prev => binary_to_integer(Prev),
      this => binary_to_integer(This), from => From, to => To, value => Value}.

%% The names of the processes, labels and values.
terms(Name) ->
    {ok, <<"seqaudit terms 1\n", Text/binary>>} = file:read_file(Name ++ ".terms"),
    maps:from_list(lists:append([entry(binary:split(Line, <<"\t">>, [global]))
                                 || Line <- binary:split(Text, <<"\n">>, [global, trim])])).

entry([<<"process">>, Pid, Name, About]) -> [{{process, Pid}, Name}, {{about, Pid}, About}];
entry([<<"label">>, Number, Term]) -> [{{label, Term}, Number}];
entry([<<"value">>, Number, Term]) -> [{{value, Number}, Term}];
entry([<<"node">>, Number, Name]) -> [{{node, Number}, Name}].

%% The number of events that have a time, and the time that each message took.
times(Name) ->
    {ok, <<"seqaudit times 1\n", Text/binary>>} = file:read_file(Name ++ ".times"),
    Entries = [binary:split(Line, <<" ">>, [global])
               || Line <- binary:split(Text, <<"\n">>, [global, trim])],
    {length([Pid || [<<"event">>, Pid, _, _] <- Entries]),
     [binary_to_integer(Took) || [<<"message">>, _, _, _, _, Took] <- Entries]}.

%% The sentences on what is gone.
losses(Name) ->
    {ok, Facts} = file:read_file(Name ++ ".facts"),
    seqaudit_notes:losses(Facts).
