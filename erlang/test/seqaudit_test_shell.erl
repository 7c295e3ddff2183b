%% Commands of the shell, seqaudit-node among them, run as programs of their own.
-module(seqaudit_test_shell).

-export([node_command/0, cookie/0, run/1, run/2, execute/3, begin_run/2, ended/0,
         terminated_when/3]).

%% The command of this checkout.
node_command() ->
    filename:join(seqaudit_audits:home(), "seqaudit-node").

%% The variable by which a command gets this node's cookie.
cookie() -> [{"SEQAUDIT_COOKIE", atom_to_list(erlang:get_cookie())}].

run(Words) -> run(Words, []).

%% The status of a command of the shell and what it wrote, errors too.
run(Words, Variables) ->
    execute("/bin/sh", ["-c", unicode:characters_to_list(Words)], Variables).

%% Runs a program with these arguments.
execute(File, Arguments, Variables) ->
    Port = open_port({spawn_executable, File},
                     [{args, Arguments}, {env, Variables}, binary, exit_status, stderr_to_stdout]),
    output(Port, <<>>).

output(Port, Output) ->
    receive
        {Port, {data, Data}} -> output(Port, <<Output/binary, Data/binary>>);
        {Port, {exit_status, Status}} -> {Status, Output}
    end.

%% The command runs beside the test, until ended/0 has its status and what it wrote.
begin_run(Words, Variables) ->
    Self = self(),
    spawn_link(fun() -> Self ! {ended, run(Words, Variables)} end).

ended() ->
    receive {ended, Answer} -> Answer end.

%% The status of a command and what it wrote, which `kill' ends once this is done. Its number is in
%% Name.pid meanwhile.
terminated_when(Words, Name, Do) ->
    _ = begin_run(["echo $$ >", Name, ".pid; exec ", Words], cookie()),
    Do(),
    {ok, Pid} = file:read_file(Name ++ ".pid"),
    [] = os:cmd("kill -TERM " ++ string:trim(binary_to_list(Pid))),
    ended().
