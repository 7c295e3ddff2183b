#!/usr/bin/env escript
%% A process that has a seq_trace token and spawns another: its counters afterwards.
%%
%% The new process answers with a serial number T (a spawn_reply, which the system tracer gets as a
%% receive of the spawning process). As after any receive, the spawning process's next serial should
%% be {T, T + 1}. It is {16 T + 15, 16 T + 16}: 16 T + 15 is how the emulator holds the small
%% integer T, its value with a tag of four bits, so a counter seems to be set from a term that
%% wasn't turned into a number. So each spawn makes the counter 16 times as great. A process that
%% spawns and prints in turn gives its 14th and 15th print the same serial on OTP 25.2.3: the
%% counter has left its 60 bits.
%%
%% `escript spawn_counts.escript' needs nothing but Erlang. The status is 1 where it is so.
%%! -noinput
-mode(compile).

main(_) ->
    io:format("OTP ~ts, erts ~ts, ~ts~n",
              [erlang:system_info(otp_release), erlang:system_info(version),
               erlang:system_info(system_architecture)]),
    Tracer = spawn(fun() -> events([]) end),
    _ = seq_trace:set_system_tracer(Tracer),
    {Pid, Monitor} = spawn_monitor(fun spawning/0),
    receive {'DOWN', Monitor, process, Pid, _} -> ok end,
    Tracer ! {for, self()},
    Events = receive {events, All} -> All end,
    [io:format("    ~0p~n", [Event]) || Event <- Events],
    [T] = [This || {seq_trace, _, {'receive', {_, This}, _, To, _}} <- Events, To =:= Pid],
    [Serial] = [S || {seq_trace, _, {print, S, From, _, _}} <- Events, From =:= Pid],
    io:format("T is ~b: the print should have the serial ~0p, and has ~0p~n",
              [T, {T, T + 1}, Serial]),
    halt(case Serial of {T, _} -> 0; _ -> 1 end).

spawning() ->
    _ = [seq_trace:set_token(Flag, true) || Flag <- [send, 'receive', print]],
    _ = spawn(fun() -> ok end),
    seq_trace:print(after_the_spawn).

%% Answers with the five events: of the request, of its answer, and of the print.
events(Events) when length(Events) =:= 5 ->
    receive {for, Pid} -> Pid ! {events, lists:reverse(Events)} end;
events(Events) ->
    receive {seq_trace, _, _} = Event -> events([Event | Events])
    after 5000 -> exit({only, Events})
    end.
