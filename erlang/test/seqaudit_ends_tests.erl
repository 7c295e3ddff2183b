%% How commands end: killed, without their nodes, without a reader, and with what a terminal can't
%% show.
-module(seqaudit_ends_tests).

-export([killed_test_/0, node_down_test_/0, closed_output_test_/0, closed_collect_test_/0,
         full_device_test_/0, unicode_errors_test_/0, control_characters_test_/0, escaped_test/0]).

-import(seqaudit_test_shell, [node_command/0, cookie/0, run/1, run/2, begin_run/2, ended/0]).

%% After a command was killed, the next one says how long its collector stays; nothing is lost.
killed_test_() ->
    {timeout, 180, fun() -> seqaudit_test_nodes:with_second("a killed command", fun killed/1) end}.

killed(There) ->
    Name = seqaudit_audits:file("killed"),
    Collect = [node_command(), " collect --node ", atom_to_list(There), " -o ", Name, " "],
    _ = begin_run(Collect, cookie()),
    seqaudit_test_nodes:print_when_traced(There),
    {4, Led} = run([Collect, "--seconds 1"], cookie()),
    {_, _} = binary:match(Led, <<"is traced already, for seqaudit_">>),
    kill_command(There),
    {_, _} = ended(),
    {4, Lost} = run([Collect, "--seconds 1"], cookie()),
    {match, [Seconds, Folder]} =
        re:run(Lost,
               "can't be reached any more; that ends in ([0-9]+) s, unless it comes back, and "
               "leaves its events in "
               "(\\S+) there", [{capture, all_but_first, list}]),
    true = list_to_integer(Seconds) =< 60,
    receive after 1_000 * list_to_integer(Seconds) -> ok end,
    seqaudit_test_nodes:until(fun() -> not seqaudit_test_nodes:is_traced(There) end),
    {0, _} = run([Collect, "--seconds 1"], cookie()),
    {0, Left} = run([node_command(), " convert ", Folder, " -o ", Name]),
    {_, _} = binary:match(Left, <<"1 event of 1 process">>),
    {_, _} = binary:match(Left,
                          <<"the node that led the collection was out of reach for too long">>),
    ok = seqaudit_spool:remove(Folder).

%% The number of its Erlang is in the name of its node.
kill_command(There) ->
    [Number] = [Pid || Node <- erpc:call(There, erlang, nodes, [hidden]), Node =/= node(),
                       ["seqaudit", Pid, _] <-
                           [string:lexemes(hd(string:split(atom_to_list(Node), "@")), "_")]],
    [] = os:cmd("kill -9 " ++ Number),
    seqaudit_test_nodes:until(fun() ->
        [] =:= erpc:call(There, erlang, nodes, [hidden]) -- [node()] end).

%% That a node went down is said while the command goes on.
node_down_test_() ->
    {timeout, 120, fun() ->
        seqaudit_test_nodes:with_second("a node that goes down is said", fun(There) ->
            Said = seqaudit_audits:file("node_down.said"),
            Name = seqaudit_audits:file("node_down"),
            _ = file:delete(Said),
            _ = begin_run(["echo $$ >", Name, ".pid; exec ", node_command(), " collect --node ",
                           atom_to_list(There),
                           " -o ",
                           Name, " >", Said, " 2>&1"], cookie()),
            seqaudit_test_nodes:print_when_traced(There),
            Says = fun(Sentence) ->
                           fun() ->
                                   case file:read_file(Said) of
                                       {ok, Text} -> binary:match(Text, Sentence) =/= nomatch;
                                       _ -> false
                                   end
                           end
                   end,
            seqaudit_test_nodes:until(Says(<<"writes its events to">>)),
            {ok, Begin} = file:read_file(Said),
            {match, [Folder]} =
                re:run(Begin, "writes its events to (\\S+)", [{capture, all_but_first, list}]),
            ok = seqaudit_test_nodes:on_disk(Folder, 1),
            seqaudit_test_nodes:kill(There),
            seqaudit_test_nodes:until(Says(list_to_binary(["node ", atom_to_list(There),
                                                           " can't be reached any more"]))),
            {ok, Pid} = file:read_file(Name ++ ".pid"),
            [] = os:cmd("kill -TERM " ++ string:trim(binary_to_list(Pid))),
            {0, _} = ended(),
            true = (Says(<<"1 event of 1 process">>))()
        end)
    end}.

%% Whoever reads may go: the command ends as others do, without a word and without a dump of its
%% memory.
closed_output_test_() ->
    {timeout, 120, fun() ->
        Folder = seqaudit_audits:file("closed"),
        ok = filelib:ensure_dir(filename:join(Folder, "x")),
        Capture = filename:join([seqaudit_audits:home(), "test", "captures", "ring10.txt"]),
        [begin
             {0, <<>>} = run(["cd ", Folder, "; rm -f *; { ", node_command(), $\s, Words,
                              " 2>errors; echo $? >status; } | true"]),
             {ok, <<"141\n">>} = file:read_file(filename:join(Folder, "status")),
             {ok, <<>>} = file:read_file(filename:join(Folder, "errors")),
             false = filelib:is_regular(filename:join(Folder, "erl_crash.dump"))
         end || Words <- ["--help", ["convert ", Capture, " -o x"]]],
        %% So it is if nobody reads its errors.
        {0, <<>>} =
            run(["cd ", Folder, "; { ", node_command(),
                 " frobnicate 2>&1; echo $? >status; } | true"]),
        {ok, <<"141\n">>} = file:read_file(filename:join(Folder, "status"))
    end}.

%% The events are written though nobody reads what the command says, and nothing is left on the
%% node.
closed_collect_test_() ->
    {timeout, 120, fun() ->
        seqaudit_test_nodes:with_second("a collection without a reader", fun(There) ->
            Name = seqaudit_audits:file("closed_collect"),
            _ = [file:delete(Name ++ Suffix) || Suffix <- [".status", ".seqtrace"]],
            _ = begin_run(["{ ", node_command(), " collect --node ", atom_to_list(There),
                           " --seconds 60 -o ", Name,
                           "; echo $? >", Name, ".status; } 2>&1 | true"], cookie()),
            {0, <<>>} = ended(),
            {ok, <<"0\n">>} = file:read_file(Name ++ ".status"),
            {ok, <<"seqtrace 1\n">>} = file:read_file(Name ++ ".seqtrace"),
            false = erpc:call(There, seq_trace, get_system_tracer, [])
        end)
    end}.

full_device_test_() ->
    {timeout, 60, fun() ->
        case file:read_file_info("/dev/full") of
            {ok, _} ->
                {4, Said} = run([node_command(), " --help 2>&1 >/dev/full"]),
                {_, _} = binary:match(Said,
                                      <<"the output can't be written: no space left on device">>);
            {error, _} -> io:format(user, "a full device: skipped, there is no /dev/full~n", [])
        end
    end}.

%% Errors show the words as they were written, in every locale.
unicode_errors_test_() ->
    {timeout, 60, fun() ->
        [begin
             {Status, Said} = run([node_command(), $\s, Words], [{"LC_ALL", Locale}]),
             {_, _} = binary:match(Said, unicode:characters_to_binary(Sentence))
         end || Locale <- ["C", "C.UTF-8"],
                {Status, Words, Sentence} <-
                    [{3, "zeichne→käse", "there is no command zeichne→käse"},
                     {4, "convert /no/käse→ -o x", "/no/käse→: no such file"}]]
    end}.

%% The words of a file are shown with their control characters escaped.
control_characters_test_() ->
    {timeout, 120, fun() ->
        Name = seqaudit_audits:file("controls"),
        ok = file:write_file(Name ++ ".txt",
                             <<"{seq_trace,1,{print,{0,1},<0.80.0>,[],x}}.\n"
                               "{seq_trace,1,{'a\\e[31mb',{1,2},<0.80.0>,[],\"x\\x{202e}y\"}}.\n">>),
        {0, Said} = run([node_command(), " convert ", Name, ".txt -o ", Name]),
        {_, _} = binary:match(Said, <<"left out 1 entry of seq_trace whose form it doesn't know">>),
        {_, _} = binary:match(Said, [<<"[31mb">>]),
        nomatch = binary:match(Said, [<<27>>, <<16#202E/utf8>>])
    end}.

escaped_test() ->
    <<"käse\n\tx">> = seqaudit_output:escaped(<<"käse\n\tx">>),
    <<"a\\x{1B}[31m\\x{9B}\\x{7F}\\x{202E}b\\x{0}">> =
        seqaudit_output:escaped(<<"a", 27, "[31m", 16#9B/utf8, 127, 16#202E/utf8, "b", 0>>),
    <<>> = seqaudit_output:escaped(<<>>).
