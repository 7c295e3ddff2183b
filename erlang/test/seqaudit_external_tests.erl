%% Two terms that are one message have one form, whichever node and release of OTP wrote them, and
%% no others have.
-module(seqaudit_external_tests).

-export([one_form_test/0, other_terms_test/0, fun_is_a_term_test/0, large_maps_test_/0,
         both_ends_test_/0, funs_on_another_node_test_/0, native_record_test/0, newer_test/0]).
-export([echo/0]).

form(Bytes) ->
    {ok, Term} = seqaudit_external:read(<<131, Bytes/binary>>),
    Term.

written(Term) ->
    <<131, Bytes/binary>> = term_to_binary(Term),
    Bytes.

%% The bytes of one term, written by the node where it is and by another one, by OTP 25 and by later
%% releases.
one_form_test() ->
    Pid = fun(Node, Number) ->
        <<88, 119, (byte_size(Node)), Node/binary, Number:32, 0:32, 7:32>> end,
    Fun = fun(Atom, Process, Free) ->
        new_fun(<<1:128>>, [Atom, <<97, 5>>, <<98, 99:32>>, Process, Free]) end,
    Old = fun(Name) -> <<100, (byte_size(Name)):16, Name/binary>> end,
    New = fun(Name) -> <<119, (byte_size(Name)), Name/binary>> end,
    Maps = [<<116, 2:32, 97, 1, 97, 2, 97, 3, 106>>, <<116, 2:32, 97, 3, 106, 97, 1, 97, 2>>],
    [[Same, Same] = [form(One), form(Other)]
     || {One, Other} <- [{Old(<<"ok">>), New(<<"ok">>)},
                         {<<100, 1:16, 233>>, <<119, 2, 195, 169>>},
                         {Fun(Old(<<"m">>), Pid(<<"a@h">>, 80), <<97, 1>>),
                          Fun(New(<<"m">>), Pid(<<"b@host">>, 0), <<97, 1>>)},
                         {Fun(New(<<"m">>), Pid(<<"a@h">>, 0), Old(<<"ok">>)),
                          Fun(New(<<"m">>), Pid(<<"b@h">>, 0), New(<<"ok">>))},
                         {Fun(New(<<"m">>), Pid(<<"a@h">>, 0), hd(Maps)),
                          Fun(New(<<"m">>), Pid(<<"b@h">>, 0), lists:last(Maps))},
                         {Fun(New(<<"m">>), Pid(<<"a@h">>, 0),
                              Fun(Old(<<"n">>), Pid(<<"a@h">>, 0), <<106>>)),
                          Fun(New(<<"m">>), Pid(<<"b@host">>, 0),
                              Fun(New(<<"n">>), Pid(<<"b@host">>, 0), <<106>>))},
                         {<<113, (Old(<<"m">>))/binary, (Old(<<"f">>))/binary, 97, 1>>,
                          <<113, (New(<<"m">>))/binary, (New(<<"f">>))/binary, 97, 1>>},
                         {<<89, (New(<<"a@h">>))/binary, 8:32, 7:32>>,
                          <<120, (Old(<<"a@h">>))/binary, 8:64, 7:32>>},
                         list_to_tuple(Maps)]].

new_fun(Unique, Parts) ->
    Inner = <<1, Unique/binary, 5:32, 1:32, (iolist_to_binary(Parts))/binary>>,
    <<112, (byte_size(Inner) + 4):32, Inner/binary>>.

%% Terms that differ as messages differ in their form.
other_terms_test() ->
    Fun = fun(Unique, Free) -> new_fun(Unique, [<<119, 1, "m">>, <<97, 5>>, <<98, 99:32>>,
                                                <<88, 119, 3, "a@h", 0:64, 7:32>>, Free]) end,
    Forms = [form(Bytes)
             || Bytes <- [<<70, 0.0/float>>, <<70, 1:1, 0:63>>, <<97, 0>>, <<106>>, <<109, 0:32>>,
                          <<77, 1:32, 3, 16#A0>>, <<77, 1:32, 4, 16#A0>>, <<109, 1:32, 16#A0>>,
                          Fun(<<1:128>>, <<97, 1>>), Fun(<<1:128>>, <<97, 2>>),
                          Fun(<<2:128>>, <<97, 1>>),
                          <<88, 119, 3, "a@h", 1:32, 0:32, 7:32>>,
                          <<88, 119, 3, "a@h", 1:32, 0:32, 8:32>>,
                          <<90, 1:16, 119, 3, "a@h", 7:32, 1:32>>,
                          <<90, 1:16, 119, 3, "a@h", 7:32, 2:32>>,
                          <<119, 2, "ok">>, <<107, 2:16, "ok">>, <<109, 2:32, "ok">>,
                          <<113, 119, 1, "m", 119, 1, "f", 97, 1>>,
                          <<113, 119, 1, "m", 119, 1, "f", 97,
2>>]],
    [] = Forms -- lists:usort(Forms),
    [error = seqaudit_external:take(Bytes)
     || Bytes <- [<<112, 30:32, 1, 1:128, 5:32, 1:32, 119, 1, "m", 97, 5, 98, 99:32, 106, 97, 1>>,
                  new_fun(<<1:128>>,
                          [<<119, 1, "m">>, <<97, 5>>, <<98, 99:32>>,
                           <<88, 119, 3, "a@h", 0:32>>])]].

%% The form of a fun is a term that Erlang reads, and that prints as the fun does.
fun_is_a_term_test() ->
    X = os:getpid(),
    Fun = fun(Y) -> {X, Y} end,
    Form = form(written({Fun, x})),
    Form = form(Form),
    {Fun, x} = seqaudit_external:to_term(Form),
    "{#Fun<" ++ _ = seqaudit_terms:encoded(Form, #{}).

%% The order of pairs doesn't matter, in a map of any size and in maps deep in others.
large_maps_test_() ->
    {timeout, 60, fun() ->
        Map = fun(Pairs) -> <<116, (length(Pairs)):32, (iolist_to_binary(Pairs))/binary>> end,
        Pairs = [[written({K rem 7, K}), written(K)] || K <- lists:seq(1, 50_001)],
        Shuffled = [Pair
                    || {_, Pair} <- lists:sort([{erlang:phash2(Pair), Pair} || Pair <- Pairs])],
        Large = form(Map(Pairs)),
        Large = form(Map(Shuffled)),
        50_001 = map_size(seqaudit_external:to_term(Large)),
        Deep = fun(Order) ->
                   lists:foldl(fun(_, Inner) ->
                       Map(Order([[<<97, 1>>, Inner], [<<97, 2>>, <<106>>]])) end, <<106>>,
                               lists:seq(1, 500))
               end,
        true = form(Deep(fun(P) -> P end)) =:= form(Deep(fun lists:reverse/1))
    end}.

%% Each term is sent from one node to another and back: the receives have what was sent.
both_ends_test_() ->
    on_two("both ends", fun(There) ->
        Count = 20_000,
        Key = fun(K) -> list_to_atom("seqaudit_key_" ++ integer_to_list(K)) end,
        %% The other node numbers the atoms the other way round, so its maps have another order.
        _ = erpc:call(There, fun() -> [Key(Count - K) || K <- lists:seq(0, Count)] end),
        Large = maps:from_list([{Key(K), K} || K <- lists:seq(0, Count)]),
        Deep = lists:foldl(fun(K, Inner) -> #{Key(K) => Inner, Key(K + 1) => K} end, leaf,
                           lists:seq(1, 100)),
        X = make_ref(),
        Terms = [Large, Deep, fun() -> X end, fun lists:map/2, fun(_) -> #{a => X, b => 1.5} end,
                 self(), make_ref(),
                 alias(), hd(erlang:ports()), 0.0, -0.0, <<5:3>>, <<>>, "text", [1 | 2], 1 bsl 70,
                 -1, 255, 256,
                 'é', '', list_to_tuple(lists:seq(1, 300)), lists:duplicate(70_000, $a),
                 maps:from_list([{{K, fun() -> K end}, self()} || K <- lists:seq(1, 40)])],
        Name = seqaudit_audits:file("both_ends"),
        Echo = spawn(There, ?MODULE, echo, []),
        ok = seqaudit_trace:start(#{name => Name, nodes => [node(), There]}),
        seqaudit_trace:with_trace(1,
                                  fun() -> [begin Echo ! {self(), Term},
                                            receive {back, _} -> ok end end
                                            || Term <- Terms] end),
        Events = 4 * length(Terms),
        {ok, #{events := Events}} = seqaudit_trace:stop(),
        [] = differing(Name),
        seqaudit_audits:fits(Name)
    end).

echo() ->
    receive {From, Term} -> From ! {back, Term} end,
    echo().

%% The messages that were received as something else than was sent.
differing(Name) ->
    Events = seqaudit_test_traces:events(Name),
    Sends = [Event || #{kind := <<"send">>} = Event <- Events],
    Sent = maps:from_list([{{From, This}, Value}
                           || #{from := From, this := This, value := Value} <- Sends]),
    [Event || #{kind := <<"'receive'">>, from := From, this := This} = Event <- Events,
              maps:get({From, This}, Sent) =/= maps:get(value, Event)].

%% A fun that runs on another node, by `spawn/2' and by `erpc'.
funs_on_another_node_test_() ->
    on_two("funs", fun(There) ->
        [begin
             Name = seqaudit_audits:file("funs_" ++ atom_to_list(How)),
             Self = self(),
             ok = seqaudit_trace:start(#{name => Name, nodes => [node(), There]}),
             seqaudit_trace:with_trace(1,
                                       fun() -> run(How, There,
                                                    fun() -> Self ! {from, node()} end) end),
             {ok, _} = seqaudit_trace:stop(),
             [] = differing(Name),
             seqaudit_audits:with_gemshowal("funs",
                                            fun(_) -> {0, _} =
                                            seqaudit_audits:gemshowal(["audit", Name]) end)
         end || How <- [spawn, erpc]]
    end).

run(spawn, There, Fun) -> spawn(There, Fun), receive {from, There} -> ok end;
run(erpc, There, Fun) -> {from, There} = erpc:call(There, Fun), receive {from, There} -> ok end.

on_two(What, Test) ->
    {timeout, 60, fun() ->
        seqaudit_test_nodes:with_second(What, fun(There) ->
            {_, Binary, File} = code:get_object_code(?MODULE),
            {module, _} = erpc:call(There, code, load_binary, [?MODULE, File, Binary]),
            Test(There)
        end)
    end}.

%% A native record as OTP 29 writes it, within another term, and as it prints it.
native_record_test() ->
    Record = <<67, 2:32, 0, 119, 2, "nr", 119, 5, "point", 119, 1, "x", 119, 1, "y", 119, 1, "a",
               107, 2:16, "bc">>,
    Empty = <<67, 0:32, 0, 119, 2, "nr", 119, 5, "empty">>,
    "#nr:point{x = a,y = \"bc\"}" = seqaudit_terms:encoded(form(Record), #{}),
    "{[#nr:empty{}],#nr:point{x = a,y = \"bc\"},7}" =
        seqaudit_terms:encoded(form(<<104, 3, 108, 1:32, Empty/binary, 106, Record/binary, 97,
                                      7>>), #{}),
    error = seqaudit_external:read(<<131, 67, 1:32, 0, 119, 2, "nr", 119, 5, "point", 119, 1,
                                     "x">>).

%% A message with a tag that isn't known is shown up to the tag, and its event is kept; elsewhere in
%% an event it is said to be newer, not damaged.
newer_test() ->
    Newer = fun(Event) ->
                    Bytes = term_to_binary(Event),
                    lists:foldl(fun(Marker, Known) ->
                        binary:replace(Known, Marker, <<68, 1, 2, 3>>) end, Bytes,
                                [<<100, 6:16, "marker">>, <<119, 6, "marker">>])
            end,
    Events = [Newer({seq_trace, 1, {print, {0, 1}, self(), [], {reply, marker, 5}}}),
              Newer({seq_trace, 1, {print, {1, 2}, self(), [], #{marker => 1, a => 2}}, {5, 6}}),
              Newer({seq_trace, 1, {print, {2, 3}, self(), [], [marker]}}),
              Newer({seq_trace, marker, {print, {3, 4}, self(), [], x}}),
              binary:part(Newer({seq_trace, 1, {print, {4, 5}, self(), [], "whole"}}), 0, 40)],
    Name = seqaudit_audits:file("newer"),
    ok = file:write_file(Name ++ ".trace",
                         [<<0, (byte_size(Event)):32, Event/binary>> || Event <- Events]),
    {ok, #{events := 3, dropped := 2, notes := Notes}} =
        seqaudit_convert:from_files([Name ++ ".trace"], Name),
    {ok, Terms} = file:read_file(Name ++ ".terms"),
    [{_, _} = binary:match(Terms, Text)
     || Text <- [<<"\t{reply,#Newer<68>,...}\n">>, <<"#Newer<68>">>, <<"\t[#Newer<68>]\n">>]],
    [{_, _} = {1, string:find(lists:append(Notes), Part)}
     || Part <- ["left out 1 entry with terms of a newer Erlang/OTP",
                 "left out 1 entry that can't be read"],
        string:find(lists:append(Notes), Part) =/= nomatch orelse error(Notes)],
    seqaudit_audits:with_gemshowal("newer terms", fun(_) ->
        {0, Said} = seqaudit_audits:gemshowal(["audit", Name]),
        {_, _} = binary:match(Said,
                              <<"The trace isn't whole:\n  convert left out 1 entry that can't be "
                                "read">>),
        {_, _} = binary:match(Said,
                              <<"\n  convert left out 1 entry with terms of a newer Erlang/OTP">>)
    end).
