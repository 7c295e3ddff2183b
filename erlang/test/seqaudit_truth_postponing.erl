%% A state machine that serves one client at a time and postpones the requests of others
%% ({@link seqaudit_truth_servers}).
%%
%% A request that was postponed is handled under the token that the process has by then, not under
%% its own.
-module(seqaudit_truth_postponing).
-behaviour(gen_statem).

-export([callback_mode/0, init/1, handle_event/4]).

-import(seqaudit_truth, [know/1, content/1, got/1]).

-define(BUSY_MS, 5).

callback_mode() -> handle_event_function.

%% With the requests that it postponed.
init(none) ->
    know(none),
    {ok, idle, []}.

%% A request that had no token.
handle_event({call, From}, wait, _State, _Postponed) ->
    know(none),
    {keep_state_and_data, {reply, From, ok}};
handle_event({call, From}, Request, State, Postponed) ->
    lists:member(From, Postponed) orelse got(Request),
    case State of
        idle -> {next_state, {busy, From}, lists:delete(From, Postponed),
                 {state_timeout, ?BUSY_MS, done}};
        {busy, _} -> {keep_state, lists:usort([From | Postponed]), postpone}
    end;
handle_event(state_timeout, done, {busy, From}, Postponed) ->
    {next_state, idle, Postponed, {reply, From, content(sent)}}.
