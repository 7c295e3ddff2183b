%% Tries what a standard node does and the machine has no acts for, as docs/MACHINE.md has it: the
%% cases of the conformance test hold on this release, on one node and on two, and the page has a
%% row for each.
-module(seqaudit_machine_tests).

-export([cases_test_/0, rows_test/0]).

cases_test_() ->
    {timeout, 300, fun() ->
        true = code:add_patha(folder()),
        Words = ["-noinput", "-pa", folder(), "-s", "conformance_cases", "main"],
        {Status, Said} = seqaudit_test_shell:execute(os:find_executable("erl"), Words, []),
        {0, Said} = {Status, Said},
        Count = length(conformance_cases:names()),
        Whole = iolist_to_binary(io_lib:format("~b of ~b cases hold~n", [Count, Count])),
        case binary:match(Said, [Whole, <<"there is no second node">>]) of
            {_, _} -> io:put_chars(user, Said);
            nomatch -> error({cases, Said})
        end
    end}.

%% Each case has a row, each row names its cases, and the releases on which they were measured.
rows_test() ->
    true = code:add_patha(folder()),
    {ok, Page} =
        file:read_file(filename:join([seqaudit_audits:home(), "..", "docs", "MACHINE.md"])),
    [_, Section] = binary:split(Page, <<"**What the machine has no acts for.**">>),
    [Table | _] = binary:split(Section, <<"\n\nThe emulator">>),
    Rows = [named(Row) || <<"| `", _/binary>> = Row <- binary:split(Table, <<"\n">>, [global])],
    true = lists:usort(lists:append(Rows)) =:= lists:sort(conformance_cases:names()).

named(Row) ->
    {match, [Cases, Releases]} =
        re:run(Row, "^\\| ([^|]*) \\|.*\\| ([0-9, ]+) \\|$", [{capture, all_but_first, list}]),
    [_ | _] = string:lexemes(Releases, ", "),
    {match, Names} = re:run(Cases, "`([a-z-]+)`", [global, {capture, all_but_first, list}]),
    lists:append(Names).

folder() ->
    filename:join([seqaudit_audits:home(), "conformance", "ebin"]).
