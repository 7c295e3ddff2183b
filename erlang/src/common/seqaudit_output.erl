%% @doc Where a command writes: standard output and standard error, in UTF-8 whatever the locale is.
%% Whatever a name, a message or a file has in it, a terminal shows characters alone, on their line
%% and in their order.
%%
%% If whoever reads is gone, as `head' is once it has its lines, the command ends quietly, as others
%% do that a signal ends then. Erlang's own processes for these files would take the whole system
%% down, with a crash dump.
-module(seqaudit_output).

-export([open/1, flush/0, escaped/1]).

%% The status that shells report of a command that the signal ended: 128 and its number.
-define(BROKEN_PIPE, 141).
-define(SYSTEM, 4).
-define(DRAIN_MS, 5).

%% ASCII's and Latin-1's control characters without tab and newline; marks of direction; ends of
%% lines and paragraphs.
-define(IS_CONTROL(C), C < 9; C > 10, C < 32; C > 126, C < 160; C =:= 16#200E; C =:= 16#200F;
        C >= 16#2028, C =< 16#202E; C >= 16#2066, C =< 16#2069).

-type closed() :: halt | stop.
%% The end when nobody reads any more: the command halts, or it is asked to stop, as by a signal.

%% @doc From now on what the caller, and whoever it starts, writes to its group leader and to
%% `standard_error' goes there.
-spec open(closed()) -> ok.
open(Closed) ->
    [Output, Errors] = [spawn_link(fun() -> open(File, Closed) end) || File <- [1, 2]],
    true = group_leader(Output, self()),
    _ = try unregister(standard_error) catch error:badarg -> none end,
    true = register(standard_error, Errors),
    ok.

%% @doc Waits until all that was written has gone out.
-spec flush() -> ok.
flush() ->
    _ = [begin
             Flushed = monitor(process, Output),
             Output ! {flush, self(), Flushed},
             receive
                 {Flushed, ok} -> demonitor(Flushed, [flush]);
                 {'DOWN', Flushed, process, _, _} -> true
             end
         end || Output <- [group_leader(), whereis(standard_error)]],
    ok.

open(File, Closed) ->
    process_flag(trap_exit, true),
    serve(open_port({fd, File, File}, [out, binary]), Closed).

serve(Port, Closed) ->
    receive
        {io_request, From, ReplyAs, Request} ->
            From ! {io_reply, ReplyAs, reply(Request, Port)},
            serve(Port, Closed);
        {'EXIT', Port, Reason} ->
            ok = closed(Closed, Reason),
            serve(none, Closed);
        {flush, From, Flushed} ->
            Now = case drained(Port) of
                      ok -> Port;
                      {gone, Reason} ->
                          ok = closed(Closed, Reason),
                          none
                  end,
            From ! {Flushed, ok},
            serve(Now, Closed);
        {'EXIT', _, Reason} ->
            exit(Reason)
    end.

%% Waits for the port, which holds what the file hasn't taken yet.
drained(none) -> ok;
drained(Port) ->
    case erlang:port_info(Port, queue_size) of
        {queue_size, 0} -> ok;
        _ ->
            receive {'EXIT', Port, Reason} -> {gone, Reason}
            after ?DRAIN_MS -> drained(Port)
            end
    end.

closed(stop, _) ->
    seqaudit_signals:output_closed();
closed(halt, epipe) ->
    halt(?BROKEN_PIPE, [{flush, false}]);
closed(halt, Reason) ->
    _ = try
            io:format(standard_error, "seqaudit-node: the output can't be written: ~ts~n",
                      [file:format_error(Reason)])
        catch
            _:_ -> unsaid
        end,
    halt(?SYSTEM).

reply({put_chars, Encoding, Characters}, Port) ->
    write(unicode:characters_to_binary(Characters, Encoding), Port);
reply({put_chars, Encoding, Module, Function, Arguments}, Port) ->
    write(unicode:characters_to_binary(apply(Module, Function, Arguments), Encoding), Port);
reply({requests, Requests}, Port) ->
    lists:foldl(fun(Request, _) -> reply(Request, Port) end, ok, Requests);
reply({setopts, _}, _Port) -> ok;
reply(getopts, _Port) -> [{binary, false}, {encoding, unicode}];
reply(_, _Port) -> {error, enotsup}.

%% Once the port is closed what is written is lost.
write(_, none) -> ok;
write(Bytes, Port) when is_binary(Bytes) ->
    try port_command(Port, escaped(Bytes)) of
        true -> ok
    catch
        error:badarg -> ok
    end;
write(_, _Port) -> {error, put_chars}.

%% @doc The text, in UTF-8, with its control characters escaped as in Erlang's strings: `\x{1b}'.
%% Leaves bytes that are no UTF-8, and escapes that are there already, as they are.
-spec escaped(binary()) -> binary().
escaped(Text) ->
    escaped(Text, <<>>).

escaped(<<C/utf8, Rest/binary>>, Done) when ?IS_CONTROL(C) ->
    escaped(Rest, <<Done/binary, "\\x{", (integer_to_binary(C, 16))/binary, $}>>);
escaped(<<Byte, Rest/binary>>, Done) -> escaped(Rest, <<Done/binary, Byte>>);
escaped(<<>>, Done) -> Done.
