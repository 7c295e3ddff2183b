%% The command, run as a program of its own.
-module(seqaudit_node_tests).

-export([usage_test_/0, reading_is_gemshowals_test_/0, convert_test_/0, no_events_test_/0,
         collect_test_/0, printing/0]).

usage_test_() ->
    {timeout, 180, fun() ->
        {0, Help} = command("--help"),
        {_, _} = binary:match(Help, <<"usage: seqaudit-node COMMAND">>),
        %% Each command is in the help, and has its own, with all of its options.
        [begin
             {_, _} = binary:match(Help, <<"\n  ", Command/binary, " ">>),
             {0, <<"usage: seqaudit-node ", Its/binary>> = Same} = command([Command, " --help"]),
             {0, Same} = command([Command, " x -h"]),
             [] = [Option || Option <- Options, binary:match(Its, Option) =:= nomatch]
         end || {Command, Options} <- [{<<"collect">>,
                                        [<<"--node">>, <<"-o">>, <<"--seconds">>, <<"--trigger">>,
                                         <<"--label">>,
                                         <<"--calls">>, <<"--unload">>, <<"--times">>,
                                         <<"--reset">>,
                                         <<"--bytes">>, <<"--folder">>, <<"--cookie-file">>,
                                         <<"--cookie ">>, <<"SEQAUDIT_COOKIE">>]},
                                       {<<"convert">>, [<<"FILE">>, <<"-o">>]},
                                       {<<"watch">>,
                                        [<<"--node">>, <<"--every">>, <<"-o">>, <<"--keep">>]}]],
        [{_, _} = binary:match(Said, Sentence)
         || {Words, Sentence} <- [{"convert x --frob",
                                   <<"convert has no option --frob\nusage: seqaudit-node convert "
                                     "FILE">>},
                                  {"convert x -o",
                                   <<"-o needs a value\nusage: seqaudit-node convert FILE">>},
                                  {"frobnicate",
                                   <<"there is no command frobnicate\nusage: seqaudit-node "
                                     "COMMAND">>}],
            {3, Said} <- [command(Words)]],
        [{3, _} = command(Words)
         || Words <-
                ["", "frobnicate", "convert x", "collect --node a@h", "collect -o x", "convert -o",
                 "watch --node a@h -o x", "watch --every 1 -o x"]],
        {3, Text} = command("collect --node a@h --seconds ten -o x"),
        {_, _} = binary:match(Text,
                              <<"--seconds can't be ten; it takes a whole number from 1 to "
                                "4294967">>)
    end}.

%% A command that this one had before is named in one line.
reading_is_gemshowals_test_() ->
    {timeout, 60, fun() ->
        [{3, Said} = command([Command, " x --json"])
         || Command <- ["audit", "chart", "why", "times"],
            Said <- [iolist_to_binary(["seqaudit-node: `gemshowal ", Command,
                                       "' does this now\n"])]]
    end}.

convert_test_() ->
    {timeout, 60, fun() ->
        Name = seqaudit_audits:file("command"),
        {4, Missing} = command("convert /no/such/file -o " ++ Name),
        {_, _} = binary:match(Missing, <<"/no/such/file: no such file">>),
        ok = file:write_file(Name ++ ".txt", <<"{seq_trace,\n\n1">>),
        {2, Broken} = command(["convert ", Name, ".txt -o ", Name]),
        {_, _} = binary:match(Broken, <<"command.txt, line 1: this isn't an Erlang term">>),
        {4, _} = command(["convert ", capture("ring10"), " -o /no/such/folder/x"]),
        {0, Done} = command(["convert ", capture("ring10"), " -o ", Name]),
        {_, _} = binary:match(Done, <<"60 events of 10 processes">>)
    end}.

%% A text or list without an event is refused, and leaves no trace; so is what belongs to one. A
%% collector's file is none: no events came. Of one that is cut it isn't known whether any came.
no_events_test_() ->
    {timeout, 120, fun() ->
        Name = seqaudit_audits:file("no_events"),
        Convert = fun(Files) -> command(["convert ", Files, " -o ", Name]) end,
        [file:delete(Name ++ Extension) || Extension <- [".seqtrace", ".terms"]],
        [begin
             ok = file:write_file(Name ++ ".txt", Text),
             {2, Refused} = Convert([Name, ".txt"]),
             has(Refused, [Name, ".txt: no event of seq_trace is in it\n"]),
             false = filelib:is_regular(Name ++ ".seqtrace")
         end || Text <-
                    ["", "hello\n", "% node a@h\n", term_to_binary([]), term_to_binary([hello])]],
        {ok, File} = seqaudit_events:open(Name),
        ok = seqaudit_events:close(File),
        {0, Done} = Convert([Name, ".events ", Name, ".txt"]),
        has(Done, "0 events of 0 processes"),
        has(Done, "no events came"),
        {2, Trace} = Convert([Name, ".seqtrace"]),
        has(Trace, [Name, ".seqtrace is a trace already; `gemshowal audit ", Name,
                    "' audits it\n"]),
        {2, Terms} = Convert([Name, ".terms"]),
        has(Terms, [Name,
                    ".terms is what `seqaudit-node convert' writes beside a trace, and has no "
                    "events\n"]),
        {ok, Cut} = seqaudit_events:open(Name),
        ok = seqaudit_events:begin_collection(Cut, #{node => node()}),
        ok = file:write(Cut, <<0, 9:32, 131>>),
        ok = seqaudit_events:close(Cut),
        {0, Left} = Convert([Name, ".events"]),
        has(Left, "convert left out 6 bytes of the file"),
        nomatch = binary:match(Left, <<"no events came">>)
    end}.

has(Text, Part) -> {_, _} = binary:match(Text, iolist_to_binary(Part)).

capture(Name) ->
    Out = filename:dirname(seqaudit_audits:file("x")),
    filename:join([filename:dirname(Out), "captures", Name ++ ".txt"]).

%% The command traces another node, where nothing of it is installed.
collect_test_() ->
    {timeout, 120, fun() ->
        seqaudit_test_nodes:with_second("collect", fun(There) -> nobody(), collect(There) end)
    end}.

nobody() ->
    {4, Text} = command(["collect --node nobody@localhost --cookie c --seconds 1 -o ",
                         seqaudit_audits:file("nobody")]),
    {_, _} = binary:match(Text, <<"node nobody@localhost can't be reached">>).

collect(There) ->
    {_, Binary, File} = code:get_object_code(?MODULE),
    {module, _} = erpc:call(There, code, load_binary, [?MODULE, File, Binary]),
    Name = seqaudit_audits:file("collected"),
    Collect = [seqaudit_test_shell:node_command(), " collect --node ", atom_to_list(There),
               " --cookie ",
               atom_to_list(erlang:get_cookie()), " --reset -o ", Name],
    {0, Said} = seqaudit_test_shell:terminated_when(Collect, Name, fun() -> traced(There) end),
    {_, _} = binary:match(Said, <<"1 event of 1 process">>),
    false = erpc:call(There, seq_trace, get_system_tracer, []),
    %% The modules that the node was sent collect there; the events are converted here.
    Loaded = [Module || Module <- erpc:call(There, erlang, loaded, []),
                        string:prefix(atom_to_list(Module), "seqaudit_") =/= nomatch],
    [seqaudit_asker, seqaudit_collector, seqaudit_scribe, seqaudit_spool, seqaudit_trace,
     seqaudit_trigger,
     seqaudit_watch] =
        lists:sort(Loaded -- [?MODULE, seqaudit_test_server]),
    seqaudit_audits:fits(Name).

%% Once the tracer is on, the node itself has with_trace.
traced(There) ->
    seqaudit_test_nodes:until(fun() -> seqaudit_test_nodes:is_traced(There) end),
    erpc:call(There, seqaudit_trace, with_trace, [1, fun ?MODULE:printing/0]).

printing() -> seq_trace:print(seen).

%% Its status and what it wrote, errors too.
command(Words) ->
    seqaudit_test_shell:run([seqaudit_test_shell:node_command(), $\s, Words]).
