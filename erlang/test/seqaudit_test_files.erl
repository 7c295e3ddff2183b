%% Files of events as terms, and files made of terms.
-module(seqaudit_test_files).

-export([read/1, text/1, write/2, convert/1]).

%% The collections of a file.
read(File) ->
    case seqaudit_events:fold(File, fun item/2, []) of
        {ok, Read} ->
            {ok, [Facts#{events => lists:reverse(Events)}
                  || {Facts, Events} <- lists:reverse(Read)]};
        {error, Reason} ->
            {error, Reason}
    end.

item(collection, Read) ->
    [{#{dropped => 0, processes => #{}}, []} | Read];
item({facts, Facts}, [{Known, Events} | Read]) ->
    Processes = maps:from_list([{term(Pid), about(About)}
                                || {Pid, About} <- maps:get(processes, Facts, [])]),
    [{maps:merge(Known, Facts#{processes => Processes}), Events} | Read];
item({event, Event}, [{Facts, Events} | Read]) ->
    [{Facts, [term(Event) | Events]} | Read];
item({stray, _Where, Term}, Read) ->
    item({event, Term}, Read);
item(_, Read) ->
    Read.

about(About) ->
    maps:map(fun(name, Name) -> binary_to_atom(Name); (_, Term) -> term(Term) end, About).

%% A pid may have numbers that this node gives none.
term(Encoded) ->
    try binary_to_term(<<131, Encoded/binary>>)
    catch error:badarg -> {encoded, Encoded}
    end.

%% The terms of a text by the node where they were printed.
text(Text) ->
    case seqaudit_text:fold(Text, fun item/2, []) of
        {ok, Read} ->
            {ok, [{binary_to_atom(Node), lists:reverse(Events)}
                  || {#{node := Node}, Events} <- lists:reverse(Read)]};
        {error, Fault} ->
            {error, Fault}
    end.

%% A file with these collections.
write(Name, Collections) ->
    {ok, Device} = seqaudit_events:open(Name),
    [begin
         ok = seqaudit_events:begin_collection(Device, maps:remove(events, Collection)),
         ok = file:write(Device, [[<<0, (byte_size(Bytes)):32>>, Bytes]
                                              || Event <- maps:get(events, Collection, []),
                                                 Bytes <- [term_to_binary(Event)]])
     end || Collection <- Collections],
    ok = seqaudit_events:close(Device),
    Name ++ ".events".

%% Converts them into files of their own: a test that takes too long may still write.
convert(Collections) ->
    Name = seqaudit_audits:file("converted_" ++ os:getpid()
                                ++ integer_to_list(erlang:unique_integer([positive]))),
    {ok, #{files := Files} = Summary} =
        seqaudit_convert:from_files([write(Name, Collections)], Name),
    {ok, Text} = file:read_file(Name ++ ".seqtrace"),
    {ok, Terms} = file:read_file(Name ++ ".terms"),
    [ok = file:delete(File) || File <- [Name ++ ".events" | Files]],
    Summary#{seqtrace => Text, terms => Terms}.
