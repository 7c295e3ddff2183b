%% @doc Asks `gemshowal audit' for its verdict on a trace.
-module(seqaudit_verdict).

-export([of_trace/1, find/0, format_error/1]).
-export_type([reason/0]).

-import(seqaudit_errors, [text/2]).

-define(PROGRAM, "gemshowal").
-define(VARIABLE, "GEMSHOWAL").
%% Why it can't judge a trace the program writes to standard error.
-define(SHELL, "exec \"$0\" \"$@\" 2>&1").

-type reason() :: {no_program, [file:filename()]} | {missing, file:filename()}
                | {ended, file:filename(), Status :: non_neg_integer()} | {refused, binary()}.

%% @doc Returns the verdict on the trace of this name, and the sentence that says so. A trace that
%% fits only if something wasn't reported is none that fits.
-spec of_trace(file:filename()) -> {fits | unfit, Headline :: binary()} | {error, reason()}.
of_trace(Name) ->
    case find() of
        {ok, Program} -> said(Program, run(Program, ["audit", "--", Name ++ ".seqtrace"]));
        {error, Reason} -> {error, Reason}
    end.

%% The first line has the verdict, or the reason for which there is none.
said(Program, {Status, Output}) ->
    [Line | _] = binary:split(Output, <<"\n">>),
    case {Status, Line} of
        {0, <<"fits: ", _/binary>>} -> {fits, Line};
        {1, <<"fits if ", _/binary>>} -> {unfit, Line};
        {1, <<"doesn't fit: ", _/binary>>} -> {unfit, Line};
        {_, <<"error: ", Words/binary>>} -> {error, {refused, Words}};
        _ -> {error, {ended, Program, Status}}
    end.

%% @doc Finds the program: the one that the variable names; else one in the folder of this
%% application, or in `bin' next to that; one on the path; or the one that `make rust' builds.
-spec find() -> {ok, file:filename()} | {error, reason()}.
find() ->
    case os:getenv(?VARIABLE) of
        false ->
            Home = filename:dirname(filename:dirname(filename:absname(code:which(?MODULE)))),
            Bin = filename:join(filename:dirname(Home), "bin"),
            Beside = [filename:join(Folder, ?PROGRAM) || Folder <- [Home, Bin]],
            OnPath = [File || File <- [os:find_executable(?PROGRAM)], File =/= false],
            Built = filename:join([Bin, "rust", ?PROGRAM]),
            case lists:filter(fun filelib:is_regular/1, Beside ++ OnPath ++ [Built]) of
                [File | _] -> {ok, File};
                [] -> {error, {no_program, Beside ++ [Built]}}
            end;
        File ->
            case filelib:is_regular(File) of
                true -> {ok, File};
                false -> {error, {missing, File}}
            end
    end.

run(Program, Words) ->
    Port = open_port({spawn_executable, "/bin/sh"},
                     [{args, ["-c", ?SHELL, Program | Words]}, binary, exit_status]),
    output(Port, []).

output(Port, Output) ->
    receive
        {Port, {data, Data}} -> output(Port, [Data | Output]);
        {Port, {exit_status, Status}} -> {Status, iolist_to_binary(lists:reverse(Output))}
    end.

-spec format_error(reason()) -> string().
format_error({no_program, Files}) ->
    text("there is no ~ts at ~ts, nor on the path; `make rust' builds it in the repository, and "
         "`make' in an archive of it; or say where it is in the variable ~ts",
         [?PROGRAM, lists:join(" or ", Files), ?VARIABLE]);
format_error({missing, File}) ->
    text("there is no ~ts, which the variable ~ts names", [File, ?VARIABLE]);
format_error({ended, Program, Status}) ->
    text("~ts ended with status ~b, and without a verdict", [Program, Status]);
format_error({refused, Words}) ->
    text("~ts says: ~ts", [?PROGRAM, Words]).
