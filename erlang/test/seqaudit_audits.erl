%% Asks the programs for the tests. The auditor's model is asked if there is Python, and the program
%% if it is built; then both must write the same.
-module(seqaudit_audits).

-export([file/1, mode/1, home/0, tests/0, tests_of_node/0, fits/1, audit/1, tools/0, model/0]).
-export([find/1, with_gemshowal/2, gemshowal/1]).

-include_lib("kernel/include/file.hrl").

%% A name for files of a test, in a folder that git ignores.
file(Name) ->
    File = filename:join([home(), "test", "out", Name]),
    ok = filelib:ensure_dir(File),
    File.

%% Who may read and write a file.
mode(File) ->
    {ok, #file_info{mode = Mode}} = file:read_file_info(File),
    Mode band 8#777.

%% The folder of the application, above what make or rebar3 compiled.
home() ->
    home(filename:dirname(filename:dirname(filename:absname(code:which(seqaudit_trace))))).

home(Folder) ->
    case filelib:is_regular(filename:join([Folder, "test", "run"]))
        andalso filelib:is_regular(filename:join(Folder, "seqaudit-node")) of
        true -> Folder;
        false -> home(filename:dirname(Folder))
    end.

%% The tests of the programs, next to the folder of the application.
tests() ->
    filename:join(filename:dirname(home()), "tests").

%% The folder of the tests of the application.
tests_of_node() ->
    filename:join(home(), "test").

%% The auditor says that the bundle fits, and the checker confirms its acts.
fits(Name) ->
    case audit(Name) of
        {0, Answer} -> confirmed(Name, Answer);
        {_, Answer} -> error({no_fits, Name, Answer});
        skipped -> skipped
    end.

confirmed(Name, Answer) ->
    File = Name ++ ".acts",
    ok = file:write_file(File, Answer),
    [{0, <<"yes\n", _/binary>>} = run(Program, "check", File) || Program <- programs()],
    ok.

audit(Name) ->
    case lists:usort([run(Program, "audit", Name ++ ".seqtrace") || Program <- programs()]) of
        [Answer] -> Answer;
        [] -> skipped
    end.

run(Program, Command, Input) ->
    seqaudit_test_shell:execute("/bin/sh",
                                ["-c", "exec \"$0\" \"$1\" <\"$2\"", Program, Command, Input],
                                []).

programs() ->
    [File || {ok, File} <- [find("seqaudit")]] ++ model().

%% The model as a program, if there is a Python to run it, and the repository around the
%% application.
model() ->
    Model = filename:join([tests(), "models", "slow_seqaudit.py"]),
    [Model || os:find_executable("python3") =/= false, filelib:is_regular(Model)].

%% A program: where its variable says, or what was built last.
find(Name) ->
    Bin = filename:join(filename:dirname(home()), "bin"),
    Files = case os:getenv(string:uppercase(Name)) of
                false -> [filename:join(Bin, Name), filename:join([Bin, "rust", Name])];
                File -> [File]
            end,
    case lists:filter(fun filelib:is_regular/1, Files) of
        [Found | _] -> {ok, Found};
        [] -> none
    end.

%% Does the test if gemshowal is built.
with_gemshowal(What, Test) ->
    case find("gemshowal") of
        {ok, Program} -> Test(Program);
        none -> io:format(user, "~ts: skipped, gemshowal isn't built~n", [What])
    end.

%% Its status and what it wrote, errors too.
gemshowal(Words) ->
    {ok, Program} = find("gemshowal"),
    seqaudit_test_shell:execute(Program, Words, []).

%% Says which of them the tests ask.
tools() ->
    [io:format("~-10ts ~ts~n", [Name ++ ":", case find(Name) of
                                                 {ok, File} -> File;
                                                 none -> "skipped, it isn't built"
                                             end]) || Name <- ["seqaudit", "seqtool", "gemshowal"]],
    [] =:= model() andalso io:format("model:     skipped, there is no python3, or no repository~n"),
    ok.
