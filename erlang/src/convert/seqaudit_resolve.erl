%% @doc Finds the true receiver of each send.
%%
%% A node reports the `to' of a send as the program wrote it: a process, its alias (the replies of
%% `gen_server' since OTP 24), a name on another node. Its receive names the process. So a send to
%% an alias or a name is resolved by the receive with the same from, serial, label and message;
%% else, for an alias, by the request that handed the alias out. The request to spawn on another
%% node names the node, as do the arguments, which come right behind it: both go to the process
%% whose reply has the request's reference. If two processes fit, as after a reset, or alike sends
%% went to two aliases or names, it isn't known who received which; then, and if nothing fits, the
%% alias or the name stays a party of its own.
-module(seqaudit_resolve).

-include("seqaudit_packed.hrl").

-export([resolve/1]).
-export_type([counts/0]).

%% Messages that are taken from their table at once.
-define(AT_ONCE, 1_000).

-type counts() :: #{by_receive | by_request | by_reply | ambiguous | unresolved =>
                        non_neg_integer()}.

%% @doc The events with their receivers, and what was decided, by kind.
-spec resolve(seqaudit_build:build()) -> {seqaudit_build:packed(), counts()}.
resolve(#build{packed = Packed} = Build) ->
    Received = ets:new(received, [set, protected, {read_concurrency, true}]),
    try want(Packed, Received, #{}) of
        Senders when map_size(Senders) =:= 0 ->
            {Packed, #{}};
        Senders ->
            ok = receivers(Packed, Received, Senders),
            {Owners, Begun} = asked(unreceived(Packed, Received), Build),
            ok = replied(Packed, Received, Begun, #{}),
            rewrite(Packed, Received, Owners)
    after
        ets:delete(Received)
    end.

%% Puts the sends to aliases and names into the table, and finds out who sends them.
want(<<?KEYED(?SEND, Key, To, _Time), Rest/binary>>, Received, Senders) when ?IS_OTHER(To) ->
    true = ets:insert_new(Received, {Key, none, To})
        orelse ets:lookup_element(Received, Key, 3) =:= To
        orelse ets:update_element(Received, Key, {2, several}),
    <<From:32, _/binary>> = Key,
    want(Rest, Received, Senders#{From => []});
want(<<_:?PACKED_SIZE/binary, Rest/binary>>, Received, Senders) ->
    want(Rest, Received, Senders);
want(<<>>, _Received, Senders) ->
    Senders.

%% Only receives from these senders are looked at.
receivers(<<?PACKED(?RECEIVE, _, _, _, From, To, _, _), _/binary>> = Packed, Received, Senders)
  when To < ?OTHER, is_map_key(From, Senders) ->
    <<?KEYED(?RECEIVE, Key, _To, _Time), Rest/binary>> = Packed,
    case ets:lookup(Received, Key) of
        [{_, none, _}] -> true = ets:update_element(Received, Key, {2, To});
        [{_, Other, _}] when Other =/= To -> true = ets:update_element(Received, Key, {2, several});
        _ -> true
    end,
    receivers(Rest, Received, Senders);
receivers(<<_:?PACKED_SIZE/binary, Rest/binary>>, Received, Senders) ->
    receivers(Rest, Received, Senders);
receivers(<<>>, _Received, _Senders) ->
    ok.

%% The aliases and names of sends that no receive resolves.
unreceived(Packed, Received) ->
    case ets:match(Received, {'_', none, '_'}, 1) of
        '$end_of_table' -> #{};
        _ -> unreceived(Packed, Received, #{})
    end.

unreceived(<<?KEYED(?SEND, Key, To, _Time), Rest/binary>>, Received, Wanted) when ?IS_OTHER(To) ->
    case ets:lookup_element(Received, Key, 2) of
        none -> unreceived(Rest, Received, Wanted#{To => none});
        _ -> unreceived(Rest, Received, Wanted)
    end;
unreceived(<<_:?PACKED_SIZE/binary, Rest/binary>>, Received, Wanted) ->
    unreceived(Rest, Received, Wanted);
unreceived(<<>>, _Received, Wanted) ->
    Wanted.

%% Whose the wanted aliases are, by the requests that hand them out; and the process that each
%% request to spawn on another node began, by the number of the request among the messages.
asked(Wanted, _Build) when map_size(Wanted) =:= 0 ->
    {Wanted, #{}};
asked(Wanted, #build{values = Values} = Build) ->
    Ask = fun({Number, Message}, Sum) -> ask(Number, Message, Build, Sum) end,
    {Owners, Requests, Replies} =
        lists:foldl(fun(First, Sum) ->
                            Terms = seqaudit_numbers:part(First, ?AT_ONCE, Values),
                            lists:foldl(Ask, Sum, lists:enumerate(First, Terms))
                    end, {Wanted, #{}, #{}},
                    lists:seq(0, seqaudit_numbers:size(Values), ?AT_ONCE)),
    {Owners, maps:from_list([{Number, Child} || {Reference, Number} <- maps:to_list(Requests),
                                                #{Reference := Child} <- [Replies]])}.

ask(Number, Message, #build{others = Others, actors = Actors}, {Owners, Requests, Replies}) ->
    case {seqaudit_external:request(Message), seqaudit_spawns:there(Message)} of
        {{<<88, _/binary>> = Owner, Alias}, _} ->
            [Handed] = seqaudit_numbers:numbers([Alias], Others),
            [Own] = seqaudit_numbers:numbers([Owner], Actors),
            {own(?OTHER bor Handed, Own, Owners), Requests, Replies};
        {_, {request, Reference}} ->
            {Owners, Requests#{Reference => Number}, Replies};
        {_, {reply, Reference, Child}} ->
            [Own] = seqaudit_numbers:numbers([Child], Actors),
            {Owners, Requests, Replies#{Reference => Own}};
        _ ->
            {Owners, Requests, Replies}
    end.

own(Alias, Owner, Owners) ->
    case Owners of
        #{Alias := none} -> Owners#{Alias := Owner};
        #{Alias := Other} when Other =/= Owner -> Owners#{Alias := several};
        #{} -> Owners
    end.

%% Notes which process got each of these requests, and the arguments behind it.
replied(<<?PACKED(?SEND, Label, Prev, This, From, To, Value, _), _/binary>> = Packed, Received,
        Begun, Behind) when ?IS_OTHER(To), map_size(Begun) > 0 ->
    <<?KEYED(?SEND, Key, To, _Time), Rest/binary>> = Packed,
    case {Begun, Behind} of
        {#{Value := Child}, _} ->
            true = got(Key, Child, Received),
            replied(Rest, Received, Begun, Behind#{From => {Child, Label, Prev, This + 1, To}});
        {_, #{From := {Child, Label, Prev, This, To}}} ->
            true = got(Key, Child, Received),
            replied(Rest, Received, Begun, maps:remove(From, Behind));
        _ ->
            replied(Rest, Received, Begun, Behind)
    end;
replied(<<_:?PACKED_SIZE/binary, Rest/binary>>, Received, Begun, Behind) when map_size(Begun) > 0 ->
    replied(Rest, Received, Begun, Behind);
replied(_Packed, _Received, _Begun, _Behind) ->
    ok.

%% A receive says it best. Of alike arguments it isn't known whose they were.
got(Key, Child, Received) ->
    case ets:lookup_element(Received, Key, 2) of
        none -> ets:update_element(Received, Key, {2, {reply, Child}});
        {reply, Other} when Other =/= Child -> ets:update_element(Received, Key, {2, several});
        _ -> true
    end.

%% The records are rewritten in shares, one a scheduler.
rewrite(Packed, Received, Owners) ->
    Bytes = byte_size(Packed),
    Size = ?PACKED_SIZE * (Bytes div ?PACKED_SIZE div erlang:system_info(schedulers_online) + 1),
    Rewrite = fun(First) ->
                      Share = binary:part(Packed, First, min(Size, Bytes - First)),
                      rewrite(Share, Received, Owners, #{}, <<>>)
              end,
    Add = fun(_, Before, More) -> Before + More end,
    seqaudit_workers:fold([fun() -> Rewrite(First) end || First <- lists:seq(0, Bytes - 1, Size)],
                          fun({Rewritten, Counts}, {Done, Sum}) ->
                                  {<<Done/binary, Rewritten/binary>>,
                                   maps:merge_with(Add, Sum, Counts)}
                          end, {<<>>, #{}}).

rewrite(<<?KEYED(?SEND, Key, To0, Time), Rest/binary>>, Received, Owners, Counts, Done)
  when ?IS_OTHER(To0) ->
    {To, How} = resolved(ets:lookup_element(Received, Key, 2), To0, Owners),
    rewrite(Rest, Received, Owners, Counts#{How => maps:get(How, Counts, 0) + 1},
            <<Done/binary, ?KEYED(?SEND, Key, To, Time)>>);
rewrite(<<Record:?PACKED_SIZE/binary, Rest/binary>>, Received, Owners, Counts, Done) ->
    rewrite(Rest, Received, Owners, Counts, <<Done/binary, Record/binary>>);
rewrite(<<>>, _Received, _Owners, Counts, Done) ->
    {Done, Counts}.

resolved(several, To, _Owners) -> {To, ambiguous};
resolved(none, To, Owners) ->
    case Owners of
        #{To := Owner} when is_integer(Owner) -> {Owner, by_request};
        #{To := several} -> {To, ambiguous};
        #{} -> {To, unresolved}
    end;
resolved({reply, Receiver}, _To, _Owners) -> {Receiver, by_reply};
resolved(Receiver, _To, _Owners) -> {Receiver, by_receive}.
