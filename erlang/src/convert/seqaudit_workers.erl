%% @doc Work in processes of its own, beside the process that waits for it.
%%
%% The tables and the heap that some work needs end with its process.
-module(seqaudit_workers).

-export([begun/2, result/1, fold/3]).
-export_type([worker/0]).

-type worker() :: {pid(), reference()}.

-spec begun(fun(() -> term()), [{atom(), term()}]) -> worker().
begun(Do, Options) ->
    Self = self(),
    spawn_opt(fun() -> Self ! {self(), Do()} end, [monitor, {fullsweep_after, 10} | Options]).

%% @doc Returns the result of the work, or fails as it did.
-spec result(worker()) -> term().
result({Worker, Monitor}) ->
    receive
        {Worker, Result} ->
            demonitor(Monitor, [flush]),
            Result;
        {'DOWN', Monitor, process, Worker, Reason} ->
            error(Reason)
    end.

%% @doc Makes results side by side, as many at a time as there are schedulers, and gives them to the
%% function in turn.
-spec fold([fun(() -> Result)], fun((Result, Acc) -> Acc), Acc) -> Acc.
fold(Makes, Take, Acc) ->
    {Now, Later} = lists:split(min(length(Makes), erlang:system_info(schedulers_online)), Makes),
    fold(queue:from_list([begun(Make, []) || Make <- Now]), Later, Take, Acc).

fold(Workers, Later, Take, Acc) ->
    case {queue:out(Workers), Later} of
        {{empty, _}, []} ->
            Acc;
        {{{value, Worker}, Others}, []} ->
            fold(Others, [], Take, Take(result(Worker), Acc));
        {{{value, Worker}, Others}, [Make | Makes]} ->
            Result = result(Worker),
            Next = begun(Make, []),
            fold(queue:in(Next, Others), Makes, Take, Take(Result, Acc))
    end.
