%% @doc The events by which OTP spawns a process: where they belong in its stream, which receives
%% are answers, and what the process was called with.
%%
%% The first two events of a process that is spawned, the receive of the request and the send of the
%% reply, are made by its spawner, so a tracer that is a process may get them behind later ones.
%%
%% The reply is an answer if its receiver spawned by `spawn' and its kin, which wait for it: its
%% next event is the receive of the reply, and it keeps its token. The reply to `spawn_request', and
%% that of another node, is an ordinary message. Another node, whether it spawns or refuses to,
%% doesn't know the tag that the request asks for (`reply_tag'), and reports a `spawn_reply'.
-module(seqaudit_spawns).

-include("seqaudit_packed.hrl").

-export([read/2, births/2, births_first/2, learn/5, has_wrapped/2, is_answer/3, there/1,
         with_tags/3]).
-export_type([spawns/0, births/0]).

%% Kinds of values. The rest of the number is a hash of the process that has to be the sender.
-define(OTHER_MESSAGE, 0).
-define(REQUEST, 1).
-define(ASYNCHRONOUS_REQUEST, 2).
-define(REMOTE_REQUEST, 3).
-define(REPLY, 4).
-define(REMOTE_REPLY, 5).
-define(REFUSAL, 6).
-define(KINDS, 8).
-define(AT_ONCE, 1_000).
%% An answer moves the counter to 16 T + 15. From this T on that is more than the 59 bits which a
%% serial shows without a minus.
-define(LEAST_TO_WRAP, (1 bsl 55)).

-opaque spawns() :: {Kinds :: atomics:atomics_ref(), Actors :: binary()}.
%% The kind of each value, and the hash of each actor, by their numbers.

-opaque births() :: #{Process :: non_neg_integer() =>
                          #{request | remote | reply => Place :: non_neg_integer()}}.
%% The first place of each event that may be of a process's birth.

%% @doc Looks the messages through for those by which OTP spawns.
-spec read(seqaudit_numbers:table(), Actors :: [seqaudit_external:encoded()]) -> spawns().
read(Values, Actors) ->
    Size = seqaudit_numbers:size(Values),
    Kinds = atomics:new(Size + 1, []),
    Read = fun(First) ->
                   Terms = seqaudit_numbers:part(First, ?AT_ONCE, Values),
                   [atomics:put(Kinds, Number + 1, Spawn)
                    || {Number, Term} <- lists:enumerate(First, Terms),
                       Spawn <- [message(Term)], Spawn =/= ?OTHER_MESSAGE],
                   ok
           end,
    ok = seqaudit_workers:fold([fun() -> Read(First) end
                                || First <- lists:seq(0, Size - 1, ?AT_ONCE)],
                               fun(ok, ok) -> ok end, ok),
    {Kinds, << <<(erlang:phash2(Actor)):32>> || Actor <- Actors >>}.

message(<<104, 8, 100, 13:16, "spawn_request", _/binary>> = Term) ->
    [_, _Reference, Parent, _Leader, Call, _Options, _Tag, _Arguments] =
        seqaudit_external:tuple(Term),
    case seqaudit_external:call(Call) of
        {<<"erts_internal">>, <<"spawn_init">>, 1} -> sent_by(Parent, ?ASYNCHRONOUS_REQUEST);
        _ -> sent_by(Parent, ?REQUEST)
    end;
message(<<104, 6, 100, 13:16, "spawn_request", _/binary>> = Term) ->
    [_, _Reference, Parent | _] = seqaudit_external:tuple(Term),
    sent_by(Parent, ?REMOTE_REQUEST);
message(<<104, 4, 100, 11:16, "spawn_reply", _/binary>> = Term) ->
    [_, Reference, Result, Child] = seqaudit_external:tuple(Term),
    case [seqaudit_external:view(Part) || Part <- [Reference, Result, Child]] of
        [{reference, Here, _}, {atom, <<"ok">>}, {process, There, _, _}] when Here =/= There ->
            sent_by(Child, ?REMOTE_REPLY);
        [_, {atom, <<"ok">>}, _] -> sent_by(Child, ?REPLY);
        [_, {atom, <<"error">>}, _] -> ?REFUSAL;
        _ -> ?OTHER_MESSAGE
    end;
message(_) ->
    ?OTHER_MESSAGE.

sent_by(Process, Kind) -> erlang:phash2(Process) * ?KINDS + Kind.

%% @doc Whether a message asks for a process on another node, or is the reply of such a process; the
%% two have one reference.
-spec there(seqaudit_external:encoded()) ->
          {request, Reference :: seqaudit_external:encoded()}
        | {reply, Reference :: seqaudit_external:encoded(), Child :: seqaudit_external:encoded()}
        | none.
there(Term) ->
    case message(Term) rem ?KINDS of
        ?REMOTE_REQUEST ->
            [_, Reference | _] = seqaudit_external:tuple(Term),
            {request, Reference};
        ?REMOTE_REPLY ->
            [_, Reference, _Result, Child] = seqaudit_external:tuple(Term),
            {reply, Reference, Child};
        _ -> none
    end.

%% Returns the kind of an event's message. One that another process sends on is no spawn; a node
%% refuses in its own name.
kind(From, Value, {Kinds, Actors}) ->
    case atomics:get(Kinds, Value + 1) of
        ?OTHER_MESSAGE ->
            ?OTHER_MESSAGE;
        ?REFUSAL when From >= ?OTHER ->
            ?REFUSAL;
        Spawn when From < ?OTHER ->
            Hash = Spawn div ?KINDS,
            case binary:part(Actors, 4 * From, 4) of
                <<Hash:32>> -> Spawn rem ?KINDS;
                _ -> ?OTHER_MESSAGE
            end;
        _ ->
            ?OTHER_MESSAGE
    end.

-spec births(seqaudit_build:packed(), spawns()) -> births().
births(Packed, Spawns) ->
    births(Packed, 0, Spawns, #{}).

%% @doc The places of each process's events, with those of its birth first.
-spec births_first(#{non_neg_integer() => binary()}, births()) -> #{non_neg_integer() => binary()}.
births_first(Streams, Births) ->
    maps:map(fun(Process, Places) ->
                     case Births of
                         #{Process := Birth} -> first(birth(Birth), Places);
                         #{} -> Places
                     end
             end, Streams).

%% Keeps the first places of what may be a process's birth. A request that the other node refuses is
%% received by that node.
births(<<?PACKED(Kind, _L, _P, _T, From, To, Value, _Time), Rest/binary>>, Place, Spawns,
       Births) ->
    More = case {Kind, Kind =/= ?PRINT andalso kind(From, Value, Spawns)} of
               {?SEND, Reply} when Reply =:= ?REPLY; Reply =:= ?REMOTE_REPLY ->
                   birth(From, reply, Place, Births);
               {?RECEIVE, ?REMOTE_REQUEST} when To < ?OTHER -> birth(To, remote, Place, Births);
               {?RECEIVE, Request} when Request =:= ?REQUEST; Request =:= ?ASYNCHRONOUS_REQUEST ->
                   birth(To, request, Place, Births);
               _ -> Births
           end,
    births(Rest, Place + 1, Spawns, More);
births(<<>>, _Place, _Spawns, Births) ->
    Births.

birth(Process, What, Place, Births) ->
    Known = maps:get(Process, Births, #{}),
    Births#{Process => maps:merge(#{What => Place}, Known)}.

%% Another node's spawn has more events, and they come in order.
birth(#{remote := _}) -> [];
birth(Birth) -> [Place || What <- [request, reply], #{What := Place} <- [Birth]].

first(Birth, Places) ->
    Begin = << <<Place:32>> || Place <- Birth >>,
    case Places of
        <<Begin:(byte_size(Begin))/binary, _/binary>> -> Places;
        _ -> << Begin/binary, << <<Place:32>> || <<Place:32>> <= Places,
                                not lists:member(Place, Birth) >>/binary >>
    end.

%% @doc The records with the replies of other nodes as they were received, with their tags.
-spec with_tags(seqaudit_build:packed(), spawns(), seqaudit_numbers:table()) ->
          seqaudit_build:packed().
with_tags(Packed, Spawns, Values) ->
    Sent = maps:groups_from_list(fun({Key, _}) -> Key end, fun({_, Value}) -> Value end,
                                 sent_there(Packed, Spawns)),
    Tags = maps:from_list([{Reply, Value}
                           || map_size(Sent) > 0,
                              <<?WITH_VALUE(?RECEIVE, Key, Value, _)>> <= Packed,
                              Reply <- maps:get(Key, Sent, []), Reply =/= Value,
                              without_tag(Reply, Values) =:= without_tag(Value, Values)]),
    case map_size(Tags) of
        0 -> Packed;
        _ -> << <<?WITH_VALUE(Kind, Key, (maps:get(Value, Tags, Value)), Rest)>>
                || <<?WITH_VALUE(Kind, Key, Value, Rest)>> <= Packed >>
    end.

%% The replies that another node sent, by what they have in common with their receives. A node may
%% refuse two processes with the same counts.
sent_there(Packed, Spawns) ->
    [{Key, Value} || <<?WITH_VALUE(?SEND, Key, Value, _)>> <= Packed,
                     <<From:32, _/binary>> <- [Key],
                     lists:member(kind(From, Value, Spawns), [?REMOTE_REPLY, ?REFUSAL])].

without_tag(Number, Values) ->
    [Term] = seqaudit_numbers:part(Number, 1, Values),
    case seqaudit_external:tuple(Term) of
        [_Tag | Rest] -> Rest;
        _ -> other
    end.

%% @doc Adds to what is known of processes the calls by which those began that nobody asked in time:
%% the requests that spawned them say it.
-spec learn(births(), seqaudit_build:packed(), Actors :: [seqaudit_external:encoded()],
            seqaudit_numbers:table(), Known) -> Known
              when Known :: #{seqaudit_external:encoded() => seqaudit_events:about()}.
learn(Births, Packed, Listed, Values, Known) ->
    Actors = list_to_tuple(Listed),
    Wanted = [{value(Place, Packed), Process}
              || {Actor, Birth} <- maps:to_list(Births),
                 What <- [request, remote], #{What := Place} <- [Birth],
                 Process <- [element(Actor + 1, Actors)],
                 not is_map_key(caller, maps:get(Process, Known, #{}))],
    learn(lists:sort(Wanted), Values, Known, #{}).

value(Place, Packed) ->
    <<?PACKED(_K, _L, _P, _T, _From, _To, Value, _Time)>> =
        binary:part(Packed, Place * ?PACKED_SIZE, ?PACKED_SIZE),
    Value.

%% Keeps once what many processes have in common.
learn([], _Values, Known, _Common) ->
    Known;
learn([{First, _} | _] = Wanted, Values, Known, Common) ->
    Terms = list_to_tuple(seqaudit_numbers:part(First, ?AT_ONCE, Values)),
    {Here, Later} = lists:splitwith(fun({Value, _}) -> Value < First + ?AT_ONCE end, Wanted),
    Learn = fun({Value, Process}, {Sum, Seen}) ->
                    Said = called(seqaudit_external:tuple(element(Value - First + 1, Terms))),
                    About = maps:get(Said, Seen, Said),
                    {Sum#{Process => maps:merge(About, maps:get(Process, Sum, #{}))},
                     Seen#{About => About}}
            end,
    {Learned, Kept} = lists:foldl(Learn, {Known, Common}, Here),
    learn(Later, Values, Learned, Kept).

called([_Word, _Reference, _Parent, _Leader, Call | Others]) ->
    case {seqaudit_external:call(Call), Others} of
        {{<<"proc_lib">>, <<"init_p">>, 5}, [_Options, _Tag, Arguments]} ->
            called_by_proc_lib(seqaudit_external:list(Arguments));
        {{<<"Elixir.Task.Supervised">>, _, _}, [_Options, _Tag, Arguments]} ->
            [Owner | _] = seqaudit_external:list(Arguments) ++ [<<>>],
            maps:merge(#{call => binary:copy(Call)}, owned(seqaudit_external:tuple(Owner)));
        {{_, _, _}, _} -> #{call => binary:copy(Call)};
        {other, _} -> #{}
    end.

%% Returns what `proc_lib' notes in the dictionary of such a process as its initial call, and the
%% process for which a task of Elixir works.
called_by_proc_lib([_Parent, _Ancestors, Module, Function, List]) ->
    Arguments = seqaudit_external:list(List),
    case {seqaudit_external:view(Module), seqaudit_external:view(Function), Arguments} of
        {{atom, <<"gen">>}, {atom, <<"init_it">>}, [_Behaviour, _Starter, _Linked, One, Two | _]} ->
            initialized(One, Two);
        {{atom, <<"Elixir.Task.Supervised">>}, {atom, _}, [Owner | _]} ->
            maps:merge(called(Module, Function, Arguments), owned(seqaudit_external:tuple(Owner)));
        {{atom, _}, {atom, _}, _} -> called(Module, Function, Arguments);
        _ -> #{}
    end;
called_by_proc_lib(_) ->
    #{}.

called(Module, Function, Arguments) when length(Arguments) < 256 ->
    #{call => seqaudit_external:call(Module, Function, length(Arguments))};
called(_Module, _Function, _Arguments) ->
    #{}.

%% The module of a server's functions comes after its name, if it has one.
initialized(One, Two) ->
    Init = seqaudit_external:atom(<<"init">>),
    case {seqaudit_external:view(One), seqaudit_external:view(Two)} of
        {{atom, _}, _} -> called(One, Init, [arguments]);
        {_, {atom, _}} -> called(Two, Init, [arguments]);
        _ -> #{}
    end.

owned([_Node, _Name, Process]) ->
    maps:from_list([{caller, binary:copy(Process)}
                    || {process, _, _, _} <- [seqaudit_external:view(Process)]]);
owned(_) ->
    #{}.

%% @doc Whether a counter has passed what a serial shows without a minus. One past 2^60 shows small
%% counts again, perhaps below the other number of the serial. So do those of a token that was put
%% back and that its process had made while it had none, but they go on from 1.
-spec has_wrapped(seqaudit_build:packed(), spawns()) -> boolean().
has_wrapped(Packed, {Kinds, _}) -> has_wrapped(Packed, Kinds, #{}).

has_wrapped(<<?PACKED(_K, _L, Prev, This, _F, _O, _V, _Time), _/binary>>, _Kinds, _Made)
  when Prev < 0; This < 0 -> true;
has_wrapped(<<?PACKED(Kind, _L, Prev, This, _F, _O, _V, _Time), Rest/binary>>, Kinds, Made)
  when Prev >= This ->
    (Kind =/= ?RECEIVE andalso This =/= 1 andalso not is_map_key({Prev, This - 1}, Made))
        orelse has_wrapped(Rest, Kinds, Made#{{Prev, This} => made});
has_wrapped(<<?PACKED(?RECEIVE, _L, _P, This, _F, _O, Value, _Time), Rest/binary>>, Kinds, Made)
  when This >= ?LEAST_TO_WRAP ->
    atomics:get(Kinds, Value + 1) rem ?KINDS =:= ?REPLY orelse has_wrapped(Rest, Kinds, Made);
has_wrapped(<<_:?PACKED_SIZE/binary, Rest/binary>>, Kinds, Made) ->
    has_wrapped(Rest, Kinds, Made);
has_wrapped(<<>>, _Kinds, _Made) -> false.

%% @doc Whether an event is the answer of a spawn, by the event that comes before it in its
%% process's stream.
-spec is_answer(binary(), binary(), spawns()) -> boolean().
is_answer(<<?PACKED(?SEND, _, _, _, Parent, Child, Request, _)>>,
          <<?PACKED(?RECEIVE, _, _, _, Child, Parent, Reply, _)>>, Spawns) ->
    kind(Parent, Request, Spawns) =:= ?REQUEST
        andalso kind(Child, Reply, Spawns) =:= ?REPLY;
is_answer(_Before, _Event, _Spawns) ->
    false.
