%% @doc Ends a wait when the operating system asks the program to end.
%%
%% `seqaudit-node' passes Ctrl-C on as the same signal as `kill' sends. The first one ends the
%% collecting, and what came is written; a second one ends the program at once.
-module(seqaudit_signals).
-behaviour(gen_event).

-export([listen/0, wait/2, output_closed/0]).
-export([init/1, handle_event/2, handle_call/2]).

%% @doc From now on a signal is kept for {@link wait/2}.
-spec listen() -> reference().
listen() ->
    Asked = make_ref(),
    ok = gen_event:swap_handler(erl_signal_server, {erl_signal_handler, []},
                                {?MODULE, {self(), Asked}}),
    Asked.

%% @doc Waits so many milliseconds, or for ever, or until the signal, which may have come already.
-spec wait(reference(), timeout()) -> elapsed | asked.
wait(Asked, Time) ->
    receive
        Asked -> asked
    after Time ->
        elapsed
    end.

%% @doc Ends the wait since nobody reads any more what the command writes; unlike a signal, any
%% number of times.
-spec output_closed() -> ok.
output_closed() ->
    gen_event:notify(erl_signal_server, output_closed).

%% @private
-spec init({{pid(), reference()}, term()}) -> {ok, {pid(), reference()} | asked}.
init({Waiting, _Former}) ->
    {ok, Waiting}.

%% @private
-spec handle_event(atom(), {pid(), reference()} | asked) -> {ok, {pid(), reference()} | asked}.
handle_event(Signal, {Waiting, Asked}) when Signal =:= sigterm; Signal =:= output_closed ->
    Waiting ! Asked,
    {ok, asked};
handle_event(sigterm, asked) ->
    halt(143, [{flush, false}]);
handle_event(_Signal, State) ->
    {ok, State}.

%% @private
-spec handle_call(term(), State) -> {ok, unknown_call, State}.
handle_call(_Stray, State) ->
    {ok, unknown_call, State}.
