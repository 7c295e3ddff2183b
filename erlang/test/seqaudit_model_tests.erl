%% The slow model of `seqtool complete' beside the program.
-module(seqaudit_model_tests).

-export([random_traces_test_/0, wrong_program_test_/0, files_test_/0]).

-import(seqaudit_test_shell, [run/2]).

random_traces_test_() ->
    with_programs("random traces", fun(Auditor, Tool) ->
        {0, Said} = compared(Auditor, Tool, 100),
        %% Among them were traces of each sort, and some with hidden sends.
        [] = [{Part, Said}
              || Part <- [<<" lossy: whole, sends hidden\n">>, <<" wild: notrising\n">>,
                          <<" few: unfounded, sends hidden\n">>,
                          <<" chosen: whole, sends hidden, with unlisted processes\n">>],
                              binary:match(Said, Part) =:= nomatch]
    end).

%% A program that finds nothing missing in any trace is found out.
wrong_program_test_() ->
    with_programs("a wrong program", fun(Auditor, Tool) ->
        Wrong = script("wrong_seqtool.sh",
                       ["[ \"$1 $2\" != 'complete ' ] || { echo added 0; exit; }\n"
                        "exec ", Tool, " \"$@\"\n"]),
        {1, Said} = compared(Auditor, Wrong, 100),
        {_, _} = binary:match(Said, <<"AssertionError">>)
    end).

compared(Auditor, Tool, Last) ->
    run([test_file("random_tool.py"), $\s, Auditor, $\s, Tool, " 1 ", integer_to_list(Last)], []).

%% Both read the file that is named, or standard input, and end alike if it can't be opened.
files_test_() ->
    with_programs("files of the model", fun(_, Tool) ->
        Example = filename:join([filename:dirname(seqaudit_audits:home()), "examples",
                                 "crossing.txt"]),
        Both = fun(Words) ->
            [run([Program, $\s, Words], [])
             || Program <- [Tool, test_file("models/slow_seqtool.py")]] end,
        [[{0, Same}, {0, Same}] = Both(Words)
         || Words <-
                [["complete ", Example], ["complete <", Example],
                 ["complete --as streams ", Example],
                 ["renumber ", Example]]],
        [{4, Said}, {4, Said}] = Both("complete /no/such/file"),
        [{2, _}, {2, _}] = Both("complete /dev/null"),
        [{3, _} = run([test_file("models/slow_seqtool.py"), $\s, Words], [])
         || Words <- ["", "complete a b", "complete --as nothing", "lint"]]
    end).

with_programs(What, Test) ->
    {timeout, 300, fun() ->
        case {seqaudit_audits:find("seqaudit"), seqaudit_audits:find("seqtool"),
              seqaudit_audits:model()} of
            {{ok, Auditor}, {ok, Tool}, [_]} -> Test(Auditor, Tool);
            {_, _, []} -> io:format(user, "~ts: skipped, there is no python3~n", [What]);
            _ -> io:format(user, "~ts: skipped, the programs aren't built~n", [What])
        end
    end}.

test_file(Name) ->
    filename:join(seqaudit_audits:tests(), Name).

script(Name, Text) ->
    File = seqaudit_audits:file(Name),
    ok = file:write_file(File, ["#!/bin/sh\n", Text]),
    ok = file:change_mode(File, 8#755),
    File.
