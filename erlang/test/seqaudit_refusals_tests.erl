%% Refusals, without another node.
-module(seqaudit_refusals_tests).

-export([long_name_is_no_function_test/0, wrong_option_is_usage_test_/0,
         cookie_with_a_letter_test/0, failed_start_leaves_no_file_test/0,
         unwritable_promises_nothing_test/0, unwritten_file_is_said_to_be_so_test/0,
         lacking_option_is_named_test_/0, version_test/0]).

has(Text, Part) ->
    {_, _} = binary:match(unicode:characters_to_binary(Text), unicode:characters_to_binary(Part)).

long_name_is_no_function_test() ->
    Long = lists:duplicate(300, $a),
    [{error, _} = seqaudit_calls:function(Word)
     || Word <- [Long ++ ":f/1", "m:" ++ Long ++ "/1", "m:" ++ Long ++ "(A)", "m:f/256",
                 "m:f(" ++ lists:append(lists:join(",", lists:duplicate(256, "_"))) ++ ")"]],
    {ok, {{m, f, 255}, _}} = seqaudit_calls:function("m:f/255").

wrong_option_is_usage_test_() ->
    Collect = ["collect", "--node", "a@b"],
    {timeout, 60, fun() ->
        [3 = seqaudit_node:run(Words)
         || Words <- [Collect ++ ["-o", ""], ["convert", "x", "-o", ""],
                      Collect ++ ["-o", "x", "--bytes", "5"],
                      Collect ++ ["-o", "x", "--bytes", "100000000000000000000000"],
                      Collect ++ ["-o", "x", "--bytes", "~p"],
                      Collect ++ ["-o", "x", "--trigger", "mess:deep/300", "--label", "1"]]]
    end}.

%% A missing word is named.
lacking_option_is_named_test_() ->
    {timeout, 60, fun() ->
        [begin
             {3, Said} = seqaudit_test_shell:run([seqaudit_test_shell:node_command(), $\s, Words]),
             has(Said, ["seqaudit-node: ", What, "\n"])
         end || {Words, What} <- [{"collect -o x --seconds 1", "collect needs --node NAME@HOST"},
                                  {"collect", "collect needs --node NAME@HOST and -o NAME"},
                                  {"collect --node a@b -o x y",
                                   "collect takes options alone, and y is none"},
                                  {"watch --node a@b -o x", "watch needs --every SECONDS"},
                                  {"convert x", "convert needs -o NAME, once"}]]
    end}.

version_test() ->
    {0, Said} = seqaudit_test_shell:run([seqaudit_test_shell:node_command(), " --version"]),
    has(Said, ["seqaudit-node ", seqaudit_help:version(), " (Erlang/OTP "]).

cookie_with_a_letter_test() ->
    {error, Reason} = seqaudit_reach:connect('a@b', #{"--cookie" => [[16#3B1]]}),
    has(seqaudit_reach:format_error(Reason), "it has a letter that no cookie can have").

failed_start_leaves_no_file_test() ->
    Name = seqaudit_audits:file("failed_start"),
    _ = file:delete(Name ++ ".events"),
    ok = seqaudit_events:writable(Name),
    {error, enoent} = file:read_file(Name ++ ".events"),
    ok = file:write_file(Name ++ ".events", "kept"),
    ok = seqaudit_events:writable(Name),
    {ok, <<"kept">>} = file:read_file(Name ++ ".events").

unwritable_promises_nothing_test() ->
    {error, Reason} = seqaudit_events:writable("/no/such/folder/x"),
    "/no/such/folder/x.events can't be written: no such file or directory" =
        seqaudit_trace:format_error(Reason).

unwritten_file_is_said_to_be_so_test() ->
    Event = {seq_trace, 1, {print, {0, 1}, self(), [], seen}},
    File = seqaudit_test_files:write(seqaudit_audits:file("unwritten"),
                                     [#{node => node(), events => [Event]}]),
    {error, Reason} = seqaudit_convert:from_files([File], "/no/such/folder/x"),
    "/no/such/folder/x.terms can't be written: no such file or directory" =
        seqaudit_events:format_error(Reason).
