%% A program on two nodes is traced, converted and audited.
-module(seqaudit_nodes_tests).

-export([two_nodes_test_/0, node_goes_down_test_/0, spawned_there_test_/0]).

%% A client here calls a server there by its process and by its name.
two_nodes_test_() ->
    {timeout, 60, fun() -> seqaudit_test_nodes:with_second("two nodes", fun two_nodes/1) end}.

%% A node that goes down in the middle takes its events with it, and the notes say so.
node_goes_down_test_() ->
    {timeout, 60, fun() ->
        seqaudit_test_nodes:with_second("a node that goes down", fun(There) ->
            ok = seqaudit_trace:start(#{name => seqaudit_audits:file("down"),
                                        nodes => [node(), There]}),
            seqaudit_trace:with_trace(1, fun() -> seq_trace:print(here) end),
            seqaudit_test_nodes:kill(There),
            {ok, #{events := 1, notes := Notes}} = seqaudit_trace:stop(),
            [_] = [Note || Note <- Notes,
                   string:find(Note, "the node was lost, or the connection to it") =/= nomatch]
        end)
    end}.

%% The reply of a process that is spawned there has the tag that the request asks for, and so has
%% the reply to one of two requests that are refused.
spawned_there_test_() ->
    {timeout, 60, fun() ->
        seqaudit_test_nodes:with_second("spawned there", fun(There) ->
            Name = seqaudit_audits:file("spawned_there"),
            ok = seqaudit_trace:start(#{name => Name, nodes => [node(), There]}),
            seqaudit_trace:with_trace(1, fun() ->
                Tagged = spawn_request(There, seq_trace, print, [born], [{reply_tag, tag}]),
                receive {tag, Tagged, ok, _} -> seq_trace:print(spawned) end,
                Refused = spawn_request(There, erlang, self, [], [nonsense]),
                receive {spawn_reply, Refused, error, badopt} -> seq_trace:print(refused) end,
                Both = spawn_request(There, erlang, self, [], [nonsense, {reply_tag, {no, 1}}]),
                receive {{no, 1}, Both, error, badopt} -> seq_trace:print(refused) end
            end),
            {ok, #{events := Events}} = seqaudit_trace:stop(),
            {Events, 20} = {20, Events},
            Terms = seqaudit_test_traces:terms(Name),
            Replies = fun(Kind) ->
                [Tag || #{kind := Of, value := Value} <- seqaudit_test_traces:events(Name),
                        Of =:= Kind,
                        {match, [Tag]} <- [re:run(maps:get({value, Value}, Terms),
                                                  "^{(.*),#Ref<[0-9.]*>,(?:ok|error),",
                                                  [{capture, [1], list}])]]
            end,
            ["spawn_reply", "tag", "{no,1}"] = lists:sort(Replies(<<"'receive'">>)),
            ["spawn_reply", "tag", "{no,1}"] = lists:sort(Replies(<<"send">>)),
            seqaudit_audits:fits(Name)
        end)
    end}.

two_nodes(There) ->
    Name = seqaudit_audits:file("two_nodes"),
    Server = erpc:call(There, seqaudit_test_server, start, [remote, fun erlang:list_to_tuple/1]),
    ok = seqaudit_trace:start(#{name => Name, nodes => [node(), There]}),
    false = erpc:call(There, seq_trace, get_system_tracer, []) =:= false,
    seqaudit_trace:with_trace({to, There}, fun() ->
        {Server} = gen_server:call(Server, [Server]),
        {by_name} = gen_server:call({remote, There}, [by_name]),
        seq_trace:print(asked)
    end),
    {ok, #{events := Events}} = seqaudit_trace:stop(),
    false = erpc:call(There, seq_trace, get_system_tracer, []),
    true = Events >= 9,
    Terms = seqaudit_test_traces:terms(Name),
    {ok, Text} = file:read_file(Name ++ ".seqtrace"),
    {match, [Pid]} = re:run(Text, "<1\\.[0-9]+\\.0>", [{capture, first, binary}]),
    Remote = list_to_binary("remote on " ++ atom_to_list(There)),
    Remote = maps:get({process, Pid}, Terms),
    %% A process of the other node has its number in messages too.
    {match, _} = re:run(lists:join("\n", [Value || {{value, _}, Value} <- maps:to_list(Terms)]),
                        [",{", binary_to_list(Pid), "}}"]),
    seqaudit_audits:fits(Name).
