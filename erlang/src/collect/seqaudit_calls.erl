%% @doc Which calls set a token, as it is written on a command line: `shop:order/2', or with
%% conditions on the arguments `shop:order(apple, N) when N > 10'; with which label: a term, a
%% variable for that argument of the call, or `_' for its number; and how many: `10', or `10/s' for
%% ten in each second.
-module(seqaudit_calls).

-export([function/1, label/1, labelled/2, limit/1]).

-import(seqaudit_errors, [text/2]).

%% An atom has at most this many characters, and a function as many arguments.
-define(LONGEST, 255).

-type triggering() :: {mfa(), [{Head :: '_' | [term()], Guards :: [term()]}
                               | {Head :: [term()], Guards :: [term()], Label :: term()}]}.

%% @doc The function with what its arguments have to be, as in a match specification.
-spec function(string()) -> {ok, triggering()} | {error, string()}.
function(Word) ->
    case labelled(Word, none) of
        {ok, {Called, Clauses}} -> {ok, {Called, [{Head, Guards} || {Head, Guards, _} <- Clauses]}};
        Failed -> Failed
    end.

no_function(Word) ->
    {error, text("~ts isn't a function; it is written module:function/2, or with a condition "
                 "module:function(A, B) when A > B", [Word])}.

captured(Word, Pattern) ->
    case re:run(Word, Pattern, [unicode, dotall, {capture, all_but_first, list}]) of
        {match, Captured} -> Captured;
        nomatch -> none
    end.

%% @doc Reads a label: a term, or what replaces it at each call, which is an argument or the number
%% of the call (`_').
%%
%% Nothing is made of them: on all releases up to 29 a match specification that builds a term for a
%% label gives another one, or ends the node.
-spec label(string()) ->
    {ok, {term, term()} | {expression, erl_parse:abstract_expr(), Numbered :: boolean()}}
                       | {error, string()}.
label(Word) ->
    case parsed(Word ++ ".") of
        {ok, [{var, Place, '_'}]} ->
            {ok, {expression, {call, Place, {atom, Place, get_tcw}, []}, true}};
        {ok, [{var, _, _} = Argument]} -> {ok, {expression, Argument, false}};
        {ok, [Expression]} ->
            try {ok, {term, erl_parse:normalise(Expression)}}
            catch error:_ -> no_label(Word)
            end;
        _ -> no_label(Word)
    end.

no_label(Word) ->
    {error, text("~ts can't be a label; it is an Erlang term, a variable of the trigger for that "
                 "argument, or _ for the number of the call", [Word])}.

%% @doc The function as {@link function/1} reads it, with this label in each clause.
-spec labelled(string(), erl_parse:abstract_expr() | none) ->
          {ok, triggering()} | {error, string()}.
labelled(Word, Label) ->
    Captured = case captured(Word, "^([^:(]+):([^:(]+)/([0-9]{1,3})$") of
                   none -> captured(Word, "^([^:(]+):([^:(]+)(\\(.*)$");
                   [Module, Function, Digits] -> [Module, Function, list_to_integer(Digits)]
               end,
    IsAtom = fun(Name) -> length(Name) =< ?LONGEST end,
    case Captured =/= none andalso lists:all(IsAtom, lists:droplast(Captured)) of
        true ->
            [Name, Called, Arguments] = Captured,
            clauses({list_to_atom(Name), list_to_atom(Called), Arguments}, Label, Word);
        false -> no_function(Word)
    end.

clauses({_, _, Arity}, _Label, Word) when is_integer(Arity), Arity > ?LONGEST ->
    no_function(Word);
clauses({_, _, Arity} = Called, none, _Word) when is_integer(Arity) ->
    {ok, {Called, [{'_', [], none}]}};
clauses({Module, Function, Arity}, Label, Word) when is_integer(Arity) ->
    Any = lists:append(lists:join(", ", lists:duplicate(Arity, "_"))),
    clauses({Module, Function, "(" ++ Any ++ ")"}, Label, Word);
%% A call with a guard is the head of a fun, so it is read as one, and made a match specification as
%% `dbg:fun2ms/1' does. The label is its body.
clauses({Module, Function, Condition}, Label, Word) ->
    case parsed("fun" ++ Condition ++ " -> true end.") of
        {ok, [{'fun', _, {clauses, [{clause, Place, Arguments, Guards, Body}]}}]}
          when length(Arguments) =< ?LONGEST ->
            Clause = {clause, Place, [list(Arguments, Place)], Guards,
                      case Label of none -> Body; _ -> [Label] end},
            case ms_transform:transform_from_shell(dbg, [Clause], []) of
                [_ | _] = Specification ->
                    {ok, {{Module, Function, length(Arguments)},
                          [{Head, Tests, Expression}
                           || {Head, Tests, [Expression]} <- Specification]}};
                {error, Errors, _} ->
                    {error, text("~ts can't be a trigger: ~ts", [Word, reasons(Errors)])}
            end;
        _ ->
            {error, text("~ts isn't a function with a condition; it is written module:function(A, "
                         "B) when A > B", [Word])}
    end.

list(Elements, Place) ->
    lists:foldr(fun(Element, Rest) -> {cons, Place, Element, Rest} end, {nil, Place}, Elements).

parsed(Text) ->
    case erl_scan:string(Text) of
        {ok, Tokens, _} -> erl_parse:parse_exprs(Tokens);
        {error, Reason, _} -> {error, Reason}
    end.

reasons(Errors) ->
    lists:join("; ", [Module:format_error(Reason) || {_, Of} <- Errors, {_, Module, Reason} <- Of]).

%% @doc How many calls may set a token.
-spec limit(string()) -> {ok, pos_integer() | {pos_integer(), second}} | {error, string()}.
limit(Word) ->
    case string:to_integer(Word) of
        {Calls, ""} when is_integer(Calls), Calls > 0 -> {ok, Calls};
        {Calls, "/s"} when is_integer(Calls), Calls > 0 -> {ok, {Calls, second}};
        _ -> {error, text("--calls can't be ~ts; it takes a number of calls, or so many in a "
                          "second, as 10/s", [Word])}
    end.
