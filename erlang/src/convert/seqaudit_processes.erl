%% @doc Gives each party of a trace a process of the bundle.
%%
%% A process keeps its number: `<0.80.0>' of the only node stays `<0.80.0>'. Nodes are numbered from
%% 0 by name, so that a process has one number from whichever node it is seen. If another process
%% has the number (after 32,768 spawns Erlang counts on in the pid's last number) or it is above
%% 65,535, and for what is no process, a number is taken that nobody has, from 65,535 downwards.
-module(seqaudit_processes).

-export([number/1, further_nodes/1, home/1, spell/1]).
-export_type([party/0, pid_number/0, numbers/0]).

-import(seqaudit_external, [view/1]).

-define(GREATEST, 65_535).

-type party() :: seqaudit_external:encoded().
%% Who sends or receives, by its bytes: a process, a port, an alias that nothing resolves, or a name
%% with its node.

-type pid_number() :: {Node :: 0..?GREATEST, Number :: 0..?GREATEST}.
-type numbers() :: #{party() => pid_number()}.

%% @doc The numbers of the parties, which are given in the order of their first events. A party that
%% no number is left for has none.
-spec number([party()]) -> numbers().
number(Parties) ->
    Names = lists:usort([home(Party) || Party <- Parties]),
    Nodes = maps:from_list([{Name, Number} || {Number, Name} <- lists:enumerate(0, Names),
                                              Number =< ?GREATEST]),
    Here = [Party || Party <- Parties, is_map_key(home(Party), Nodes)],
    {Own, Rest, Taken} = own_numbers(lists:usort([{maps:get(Node, Nodes), {Number, Serial}, Pid}
                                           || Pid <- Here,
                                              {process, Node, Number, Serial} <- [view(Pid)]])),
    Others = [Party || Party <- Here, element(1, view(Party)) =/= process],
    Wanting = Rest ++ [{maps:get(home(Party), Nodes), Party} || Party <- Others],
    {Numbers, _} = lists:foldl(fun free_number/2, {Own, {Taken, #{}, length(Names)}}, Wanting),
    Numbers.

%% @doc The node numbers that aren't the first of their node, with its name.
-spec further_nodes([{pid_number(), party()}]) -> [{Node :: 0..?GREATEST, Name :: binary()}].
further_nodes(Listed) ->
    Homes = maps:from_list([{Node, Party} || {{Node, _}, Party} <- Listed]),
    Named = lists:sort([{Node, home(Party)} || {Node, Party} <- maps:to_list(Homes)]),
    First = maps:from_list([{Name, Node} || {Node, Name} <- lists:reverse(Named)]),
    [{Node, Name} || {Node, Name} <- Named, maps:get(Name, First) =/= Node].

%% The first process with a number in range keeps it; the others are left over.
own_numbers(Sorted) ->
    {Own, Rest, Taken} =
        lists:foldl(fun({Node, {Number, _}, Pid}, {Own, Rest, Taken}) ->
                            Wanted = {Node, Number},
                            case Number > ?GREATEST orelse is_map_key(Wanted, Taken) of
                                true -> {Own, [{Node, Pid} | Rest], Taken};
                                false -> {Own#{Pid => Wanted}, Rest, Taken#{Wanted => Pid}}
                            end
                    end, {#{}, [], #{}}, Sorted),
    {Own, lists:reverse(Rest), Taken}.

%% `Next' has where the free numbers of a node go on, and `Further' is the first node number that no
%% node has.
free_number({Node, Party}, {Numbers, {Taken, Next, Further}}) ->
    {At, From} = maps:get(Node, Next, {Node, ?GREATEST}),
    case free(At, From, Taken) of
        none when Further > ?GREATEST ->
            {Numbers, {Taken, Next#{Node => {At, -1}}, Further}};
        none ->
            free_number({Node, Party},
                        {Numbers, {Taken, Next#{Node => {Further, ?GREATEST}}, Further + 1}});
        N ->
            {Numbers#{Party => {At, N}}, {Taken, Next#{Node => {At, N - 1}}, Further}}
    end.

free(_Node, N, _Taken) when N < 0 -> none;
free(Node, N, Taken) when is_map_key({Node, N}, Taken) -> free(Node, N - 1, Taken);
free(_Node, N, _Taken) -> N.

-spec home(party()) -> binary().
home(Party) ->
    case view(Party) of
        {name, _, Node} -> Node;
        Other -> element(2, Other)
    end.

-spec spell(pid_number()) -> string().
spell({Node, Number}) ->
    "<" ++ integer_to_list(Node) ++ "." ++ integer_to_list(Number) ++ ".0>".
