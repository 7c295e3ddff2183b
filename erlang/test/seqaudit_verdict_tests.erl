%% The verdicts that `watch' gets from gemshowal, and from a program that isn't it.
-module(seqaudit_verdict_tests).

-export([verdicts_test_/0, other_programs_test/0]).

%% A trace that fits, one that doesn't, one whose counters have wrapped, and a text that is none.
verdicts_test_() ->
    {timeout, 60, fun() ->
        seqaudit_audits:with_gemshowal("verdicts", fun(Program) ->
            Of = fun(Events) ->
                         Name = seqaudit_audits:file("verdict of a trace"),
                         Print = [["{seq_trace,1,{print,{", Serial, "},<0.80.0>,[],0}}\n"]
                                  || Serial <- Events],
                         ok = file:write_file(Name ++ ".seqtrace",
                                              ["seqtrace 1\nprocess <0.80.0>\n", Print]),
                         asked(Program, Name)
                 end,
            {fits, <<"fits: 2 events of 1 process; nothing is known to be missing">>} =
                Of(["0,1", "0,2"]),
            {unfit, <<"fits if something wasn't reported: ", _/binary>>} = Of(["1,5", "2,4"]),
            {unfit, <<"doesn't fit: no run without a reset reports this trace, because of ",
                      _/binary>>} = Of(["0,1", "0,1"]),
            {error, {refused, Words}} = Of(["0,x"]),
            {_, _} = binary:match(Words, <<"verdict of a trace.seqtrace, line 3, column ">>),
            Wrapped = fun(Serial) ->
                              Name = seqaudit_audits:file("wrapped"),
                              ok = file:write_file(Name ++ ".seqtrace",
                                                   ["seqtrace 3\nprocess <0.80.0>\n"
                                                    "{seq_trace,1,{print,{0,1},<0.80.0>,[],0}}\n"
                                                    "{seq_trace,1,{print,{", Serial,
                                                    "},<0.80.0>,[],0}}\n"]),
                              asked(Program, Name)
                      end,
            {fits, <<"fits: 2 events of 1 process; nothing is known to be missing">>} =
                Wrapped("0,2"),
            {unfit, <<"fits if something wasn't reported: ", _/binary>>} = Wrapped("-5,-4")
        end)
    end}.

%% A program that ends otherwise, or that isn't there, is said to be one.
other_programs_test() ->
    Name = seqaudit_audits:file("other_program"),
    [begin
         ok = file:write_file(Name, ["#!/bin/sh\n", Script]),
         ok = file:change_mode(Name, 8#755),
         {error, Reason} = asked(Name, "x"),
         Said = iolist_to_binary([Name, Words]),
         Said = list_to_binary(seqaudit_verdict:format_error(Reason))
     end || {Script, Words} <-
                [{"", " ended with status 0, and without a verdict"},
                 {"echo fine; echo no >&2", " ended with status 0, and without a verdict"},
                 {"echo \"doesn't fit: x\"", " ended with status 0, and without a verdict"},
                 {"echo 'fits: x'; exit 1", " ended with status 1, and without a verdict"},
                 {"kill -9 $$", " ended with status 137, and without a verdict"}]],
    {refused, <<"no">>} = refused(Name, "echo 'error: no' >&2; exit 2"),
    {error, {missing, "/no/such/program"}} = asked("/no/such/program", "x").

refused(Program, Script) ->
    ok = file:write_file(Program, ["#!/bin/sh\n", Script]),
    {error, Reason} = asked(Program, "x"),
    Reason.

asked(Program, Name) ->
    Before = os:getenv("GEMSHOWAL"),
    true = os:putenv("GEMSHOWAL", Program),
    try seqaudit_verdict:of_trace(Name)
    after
        case Before of
            false -> os:unsetenv("GEMSHOWAL");
            _ -> os:putenv("GEMSHOWAL", Before)
        end
    end.
