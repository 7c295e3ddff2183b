%% @doc Gives each different term a number, from 0 in the order of first sight.
%%
%% The terms are bytes and are in tables beside the heap, so that a million of them are neither
%% copied nor looked through whenever memory is tidied. Terms that are given together are stored
%% together.
-module(seqaudit_numbers).

-export([new/0, numbers/2, size/1, part/3, listed/1, few/0, number_few/2, terms/1]).
-export_type([table/0, few/0]).

-compile({no_auto_import, [size/1]}).

-record(table, {numbers :: ets:table(),    % the number of each term
                listed :: ets:table()}).   % terms that came together, by the number of the first

-opaque table() :: #table{}.

-opaque few() :: {#{seqaudit_external:encoded() => non_neg_integer()},
                  [seqaudit_external:encoded()]}.
%% The terms of some events, on the heap, where a number is found and given at half the cost.

%% @doc A table without terms. It ends with the process that makes it; others may look terms up.
-spec new() -> table().
new() ->
    #table{numbers = ets:new(?MODULE, [set, protected]),
           listed = ets:new(?MODULE, [ordered_set, protected])}.

%% @doc The numbers of terms; each that isn't in the table gets the next one.
-spec numbers([seqaudit_external:encoded()], table()) -> [non_neg_integer()].
numbers(Terms, #table{numbers = Numbers, listed = Listed} = Table) ->
    First = size(Table),
    Number = fun(Term, {Next, New}) ->
                     case ets:insert_new(Numbers, {Term, Next}) of
                         true -> {Next, {Next + 1, [Term | New]}};
                         false -> {ets:lookup_element(Numbers, Term, 2), {Next, New}}
                     end
             end,
    {Given, {_, New}} = lists:mapfoldl(Number, {First, []}, Terms),
    true = New =:= [] orelse ets:insert(Listed, {First, lists:reverse(New)}),
    Given.

-spec size(table()) -> non_neg_integer().
size(#table{numbers = Numbers}) ->
    ets:info(Numbers, size).

%% @doc Returns a count of terms from this number on, in the order of their numbers.
-spec part(non_neg_integer(), non_neg_integer(), table()) -> [seqaudit_external:encoded()].
part(First, Count, #table{listed = Listed}) ->
    case ets:prev(Listed, First + 1) of
        '$end_of_table' -> [];
        Begin -> part(Begin, First - Begin, Count, Listed)
    end.

part(Begin, Passed, Count, Listed) ->
    Terms = lists:nthtail(Passed, ets:lookup_element(Listed, Begin, 2)),
    case {Count - length(Terms), ets:next(Listed, Begin)} of
        {Left, Next} when Left > 0, is_integer(Next) -> Terms ++ part(Next, 0, Left, Listed);
        _ -> lists:sublist(Terms, Count)
    end.

-spec listed(table()) -> [seqaudit_external:encoded()].
listed(#table{listed = Listed}) ->
    lists:append([Terms || {_, Terms} <- ets:tab2list(Listed)]).

-spec few() -> few().
few() ->
    {#{}, []}.

%% @doc The term's number among these, and these with the term. A copy is kept, as the bytes may be
%% a part of something larger.
-spec number_few(seqaudit_external:encoded(), few()) -> {non_neg_integer(), few()}.
number_few(Term, {Numbers, LastFirst} = Few) ->
    case Numbers of
        #{Term := Number} ->
            {Number, Few};
        #{} ->
            Number = map_size(Numbers),
            Copy = binary:copy(Term),
            {Number, {Numbers#{Copy => Number}, [Copy | LastFirst]}}
    end.

-spec terms(few()) -> [seqaudit_external:encoded()].
terms({_, LastFirst}) ->
    lists:reverse(LastFirst).
