%% @doc The words that sentences of several modules have in common.
-module(seqaudit_errors).

-export([text/2, count/2, number/1, unwritten/2]).

%% @doc As `io_lib:format/2', in one list of characters.
-spec text(io:format(), [term()]) -> string().
text(Format, Values) ->
    lists:flatten(io_lib:format(Format, Values)).

-spec count(non_neg_integer(), string()) -> string().
count(1, Thing) -> "1 " ++ Thing;
count(N, "process") -> number(N) ++ " processes";
count(N, "entry") -> number(N) ++ " entries";
count(N, Thing) -> number(N) ++ " " ++ Thing ++ "s".

%% @doc Writes a number with commas between thousands.
-spec number(non_neg_integer()) -> string().
number(N) when N < 1000 -> integer_to_list(N);
number(N) -> number(N div 1000) ++ text(",~3..0b", [N rem 1000]).

-spec unwritten(file:filename(), term()) -> string().
unwritten(File, Reason) ->
    text("~ts can't be written: ~ts", [File, file:format_error(Reason)]).
