%% Random programs on real nodes whose messages carry numbers, and whether what is collected of them
%% is what happened.
%%
%% Each process has a list of what it does, in an order that can be kept by all; besides there are
%% servers (seqaudit_truth_servers). Each message and print has a number, that of the message that
%% gave its process the token (`begins', if the process began the trace itself), and whether its
%% process had set the label since. What happens under a token is in a log too, which is written to
%% NAME.truth: what a process sent, received and printed, where it set a label, put a token back and
%% spawned, and the numbers of a request to spawn and its reply.
-module(seqaudit_truth).

-export([load/1, run/3, service/2, begin_log/2, play/4, child/3]).
-export([know/1, known/0, content/1, got/1, put_back/2]).

-define(ALL, [send, 'receive', print]).

%% Loads the programs on another node.
load(Node) ->
    [{module, _} = erpc:call(Node, code, load_binary, [Module, File, Binary])
     || Module <- [?MODULE, seqaudit_truth_servers, seqaudit_truth_postponing],
        {_, Binary, File} <- [code:get_object_code(Module)]],
    ok.

%% Runs the program of this number, with these flags and a tracer that is on from the beginning or
%% comes on late, on these nodes, and returns what the trace has that didn't happen, what happened
%% and isn't in it though it should be, and the messages that were received as something else than
%% was sent. `tokens' says which tokens are put back: some (own), none, or some that another process
%% had (handed_over).
run(Seed, #{nodes := Nodes, flags := Flags, late := Late} = How, Name) ->
    Tokens = maps:get(tokens, How, own),
    _ = rand:seed(exsss, {Seed, 5, 51}),
    Logs = [erpc:call(Node, ?MODULE, begin_log, [N, length(Nodes)])
            || {N, Node} <- lists:enumerate(Nodes)],
    Late orelse (ok = seqaudit_trace:start(#{name => Name, nodes => Nodes})),
    Servers = [erpc:call(Node, seqaudit_truth_servers, start, [server(rand:uniform(6), Tokens)])
               || Node <- Nodes, _ <- [1, 2]],
    {Players, Drawn} = steps(2 + rand:uniform(4), 30 + rand:uniform(60), Servers),
    Steps = [Step || {Player, Own} <- Drawn,
                     Step <- in_place_of(Player, Own, Tokens, length(Players))],
    Pids = [spawn(lists:nth(1 + N rem length(Nodes), Nodes), ?MODULE, play,
                  [N, self(), Flags, Tokens])
            || N <- Players],
    Aliases = [receive {alias, N, Alias} -> {{alias, N}, Alias} end || N <- Players],
    Numbered = maps:from_list(lists:zip(Players, Pids) ++ Aliases),
    Half = length(Steps) div 2,
    ok = play_all(lists:sublist(Steps, Half), Numbered, Servers),
    Late andalso (ok = seqaudit_trace:start(#{name => Name, nodes => Nodes})),
    ok = play_all(lists:nthtail(Half, Steps), Numbered, Servers),
    [Pid ! finish || Pid <- Pids],
    [receive {finished, Pid} -> ok after 60_000 -> error(unfinished) end || Pid <- Pids],
    [ok = seqaudit_truth_servers:wait(Server) || Server <- Servers, _ <- [1, 2]],
    {ok, _} = seqaudit_trace:stop(),
    [ok = seqaudit_truth_servers:stop(Server) || Server <- Servers],
    Log = lists:append([ended_log(Owner) || Owner <- Logs]),
    ok = write_log(Log, Name),
    {Reported, Changed} = reported(Name, Log),
    Whole = not Late andalso [] =:= [send, 'receive', print] -- Flags,
    {Reported -- [{Kind, Number} || {_, _, Kind, Number} <- Log],
     [One || Whole, One <- missing(Reported, Log)],
     Changed}.

%% The server that keeps its client's token puts it back.
server(4, none) -> 1;
server(Kind, _) -> Kind.

in_place_of(P, put, none, _) -> [{P, print}];
in_place_of(P, take, handed_over, _) -> [{P, hand_over}];
in_place_of(P, put, handed_over, _) -> [{P, put_handed}];
in_place_of(P, {send, Q, K}, published, Count) ->
    Both = [Q, 1 + Q rem Count],
    [{P, {publish, Both, K}} | [{R, {wait, K}} || R <- Both]];
in_place_of(_, {wait, _}, published, _) -> [];
in_place_of(P, Step, _, _) -> [{P, Step}].

%% A service that spawns a process for each request, which a client makes one after the other. Each
%% is under a label of its own, asks two servers, and ends.
service(Requests, Name) ->
    Log = begin_log(1, 1),
    Servers = [seqaudit_truth_servers:start(Which) || Which <- [1, 3]],
    ok = seqaudit_trace:start(#{name => Name}),
    {Client, Monitor} = spawn_monitor(fun() -> client(Requests, Servers) end),
    receive {'DOWN', Monitor, process, Client, normal} -> ok end,
    [ok = seqaudit_truth_servers:wait(Server) || Server <- Servers, _ <- [1, 2]],
    {ok, _} = seqaudit_trace:stop(),
    [ok = seqaudit_truth_servers:stop(Server) || Server <- Servers],
    write_log(ended_log(Log), Name).

client(Requests, Servers) ->
    know(none),
    begins(Requests + 1, ?ALL),
    Self = self(),
    [receive {Request, Content} -> got(Content) end
     || Number <- lists:seq(1, Requests),
        Request <- [spawns(fun() -> request(Number, Servers, Self) end, [])]].

request(Number, Servers, Client) ->
    know({spawned, false}),
    begins(Number, ?ALL),
    [seqaudit_truth_servers:ask(Server) || Server <- Servers],
    Client ! {self(), content(sent)}.

%% Returns what the trace has, and the messages that it has with two contents.
reported(Name, Log) ->
    Terms = seqaudit_test_traces:terms(Name),
    Numbers = request_numbers(Log),
    Contents = [{Event, content_of(maps:get({value, Value}, Terms), Numbers)}
                || #{value := Value} = Event <- seqaudit_test_traces:events(Name)],
    Sent = maps:from_list([{message(Event), Number}
                           || {#{kind := <<"send">>} = Event, Number} <- Contents]),
    {[{happened(Kind), Number} || {#{kind := Kind}, Number} <- Contents, is_integer(Number)],
     [Event || {#{kind := <<"'receive'">>} = Event, Number} <- Contents,
               maps:get(message(Event), Sent, Number) =/= Number]}.

message(Event) -> maps:remove(kind, Event).

content_of(Text, Numbers) ->
    case {found(Text, "\\{m,([0-9]+),[a-z0-9]+,(?:true|false)\\}"),
          found(Text, "^\\{(spawn_request|spawn_reply),#Ref<[0-9]+\\.([0-9.]+)>")} of
        {[Number], _} -> list_to_integer(Number);
        {[], [Kind, Reference]} -> maps:get({Kind, Reference}, Numbers, other);
        {[], []} -> other
    end.

%% Returns the numbers of the requests to spawn and of their replies, by the reference, whose first
%% number is that of its node.
request_numbers(Log) ->
    Numbered = [{found(io_lib:format("~p", [Reference]), "\\.([0-9.]+)"), Request, Reply}
                || {_, _, requested, {Reference, {m, Request, _, _}, {m, Reply, _, _}}} <- Log],
    maps:from_list([{{Kind, Reference}, Number}
                    || {[Reference], Request, Reply} <- Numbered,
                       {Kind, Number} <- [{"spawn_request", Request}, {"spawn_reply", Reply}]]).

%% Returns what the groups of a pattern have found in a text.
found(Text, Pattern) ->
    case re:run(Text, Pattern, [{capture, all_but_first, list}]) of
        {match, Found} -> Found;
        nomatch -> []
    end.

happened(<<"send">>) -> sent;
happened(<<"'receive'">>) -> received;
happened(<<"print">>) -> printed.

%% Returns what happened under a token between two reported events of its process, and isn't in the
%% trace.
missing(Reported, Log) ->
    Known = maps:from_keys(Reported, reported),
    Happened = [Entry || {_, _, _, Number} = Entry <- lists:sort(Log), is_integer(Number)],
    ByPid = maps:groups_from_list(fun({_, Pid, _, _}) -> Pid end, Happened),
    lists:append([begin
                      Told = [{is_map_key({Kind, Number}, Known), {Kind, Number}}
                              || {_, _, Kind, Number} <- Entries],
                      From = lists:dropwhile(fun({Is, _}) -> not Is end, Told),
                      To = lists:dropwhile(fun({Is, _}) -> not Is end, lists:reverse(From)),
                      [One || {false, One} <- To]
                  end || Entries <- maps:values(ByPid)]).

%% The record of what happened under tokens on a node, the Nth of several: a table, as a message
%% would be an event. The numbers that it gives are N, N + Nodes, N + 2 * Nodes and so on, so that
%% no other node gives them too.
begin_log(N, Nodes) ->
    Self = self(),
    Owner = spawn(fun() ->
                      ?MODULE = ets:new(?MODULE, [public, named_table]),
                      true = ets:insert(?MODULE, {number, N, Nodes}),
                      Self ! begun,
                      receive {Boss, ended} -> ok end,
                      Boss ! {self(), [Entry || {_, _, _, _} = Entry <- ets:tab2list(?MODULE)]}
                  end),
    receive begun -> Owner end.

next_number() ->
    ets:update_counter(?MODULE, number, {2, ets:lookup_element(?MODULE, number, 3)}).

ended_log(Owner) ->
    Owner ! {self(), ended},
    receive {Owner, Entries} -> Entries end.

log(Kind, What) ->
    ets:insert(?MODULE, {erlang:unique_integer([monotonic]), self(), Kind, What}).

write_log(Log, Name) ->
    file:write_file(Name ++ ".truth",
                    [io_lib:format("~0p ~0p ~0p~n", [Pid, Kind, What])
                     || {_, Pid, Kind, What} <- lists:sort(Log)]).

%% Each player gets its steps of a part, and does them without a message of anybody else in between.
play_all(Steps, Numbered, Servers) ->
    Players = [{N, Pid} || {N, Pid} <- maps:to_list(Numbered), is_integer(N)],
    [Pid ! {steps, [Step || {Who, Step} <- Steps, Who =:= N], Numbered, Servers}
     || {N, Pid} <- Players],
    [receive {played, Pid} -> ok after 60_000 -> error({stuck, Pid}) end || {_, Pid} <- Players],
    ok.

%% The deeds of the players, in one order: messages are received after their sends, in any order.
%% Open has the receives that are still to come.
steps(Count, Length, Servers) ->
    Players = lists:seq(1, Count),
    {Steps, _} =
        lists:mapfoldl(fun(K, Open) -> step(K, Players, length(Servers), Open) end, [],
                       lists:seq(1, Length)),
    {Players, [{P, {begins, P}} || P <- Players, rand:uniform(2) =:= 1] ++ lists:append(Steps)}.

step(K, Players, Servers, Open) ->
    P = lists:nth(rand:uniform(length(Players)), Players),
    Q = lists:nth(rand:uniform(length(Players)), Players),
    case {rand:uniform(20), Open} of
        {N, _} when N =< 4 -> {[{P, {send, Q, K}}], Open ++ [{Q, {wait, K}}]};
        {N, [_ | _]} when N =< 9 ->
            Taken = lists:nth(rand:uniform(length(Open)), Open),
            {[Taken], lists:delete(Taken, Open)};
        {N, _} when N =< 11 -> {[{P, print}], Open};
        {12, _} -> {[{P, {begins, 1_000 * P + K}}], Open};
        {13, _} -> {[{P, clear}], Open};
        {14, _} -> {[{P, take}], Open};
        {15, _} -> {[{P, put}], Open};
        {16, _} -> {[{P, timer}], Open};
        {17, _} -> {[{P, spawn}], Open};
        {N, _} when N =:= 18; N =:= 19 -> {[{P, {request, Q, K}}], Open ++ [{P, {reply, K}}]};
        _ -> {[{P, {call, rand:uniform(Servers)}}], Open}
    end.

%% A player. What it knows of its token: the message that gave it, and whether it set the label
%% itself.
play(Number, Boss, Flags, Tokens) ->
    Boss ! {alias, Number, alias()},
    know(none),
    player(Number, Boss, Flags, Tokens).

player(Number, Boss, Flags, Tokens) ->
    Saved = {seq_trace:set_token([]), get(known)},
    receive
        {steps, Steps, Numbered, Servers} ->
            resume(Saved, Tokens),
            [act(Step, Number, Flags, Numbered, Servers) || Step <- Steps],
            Paused = {seq_trace:set_token([]), get(known)},
            Boss ! {played, self()},
            resume(Paused, Tokens),
            player(Number, Boss, Flags, Tokens);
        finish ->
            Boss ! {finished, self()}
    end.

resume({[], _}, _) -> know(none);
resume(_, none) -> know(none);
resume({Token, Known}, _) -> put_back(Token, Known).

act({send, To, Number}, Me, Flags, Numbered, _) ->
    begins_to_send(Number, Me, Flags),
    maps:get(To, Numbered) ! {Number, content(sent)};
act({publish, [One, Other], Number}, Me, Flags, Numbered, _) ->
    begins_to_send(Number, Me, Flags),
    {Token, Known} = {seq_trace:get_token(), get(known)},
    Message = maps:get({alias, One}, Numbered) ! {Number, content(sent)},
    put_back(Token, Known),
    [log(sent, Sent) || {_, {m, Sent, Cause, _}} <- [Message], Cause =/= none],
    maps:get({alias, Other}, Numbered) ! Message;
act({wait, Number}, _, _, _, _) -> receive {Number, Content} -> got(Content) end;
act(print, _, _, _, _) -> seq_trace:print(content(printed));
act({begins, Label}, _, Flags, _, _) -> begins(Label, Flags);
act(clear, _, _, _, _) -> seq_trace:set_token([]), know(none);
act(take, _, _, _, _) -> put(taken, {seq_trace:set_token([]), get(known)}), know(none);
act(put, _, _, _, _) ->
    case erase(taken) of
        {Token, Known} -> put_back(Token, Known);
        undefined -> ok
    end;
act(hand_over, _, _, _, _) ->
    Token = seq_trace:set_token([]),
    true = ets:insert(?MODULE, {handed_over, {Token, get(known), self()}}),
    know(none);
act(put_handed, _, _, _, _) ->
    case ets:take(?MODULE, handed_over) of
        [{_, {Token, Known, Of}}] ->
            Of =:= self() orelse log(handed_over, Of),
            put_back(Token, Known);
        [] -> ok
    end;
act(timer, _, _, _, _) -> erlang:send_after(1, self(), timeout), receive timeout -> ok end;
act(spawn, _, _, _, _) ->
    Self = self(),
    Parent = lists:nth(rand:uniform(2), [none, Self]),
    Options = lists:nth(rand:uniform(3), [[], [monitor], [link, {fullsweep_after, 0}]]),
    Child = spawns(fun() -> child(Parent) end, Options),
    [receive {Child, Content} -> got(Content) end || Parent =:= Self],
    %% No token comes with it.
    [receive {'DOWN', _, process, Child, normal} -> ok end || Options =:= [monitor]];
act({request, Beside, Number}, _, _, Numbered, _) ->
    Node = node(maps:get(Beside, Numbered)),
    {m, Sent, Cause, _} = Request = content(sent),
    Reply = {m, next_number(), case Cause of none -> none; _ -> Sent end, false},
    %% Arguments are a message of their own to another node.
    Arguments = case Node =:= node() of true -> Request; false -> content(sent) end,
    Reference = spawn_request(Node, ?MODULE, child, [Arguments, Request, Reply]),
    Cause =:= none orelse log(requested, {Reference, Request, Reply}),
    put({reply, Number}, {Reference, Reply});
act({reply, Number}, _, _, _, _) ->
    {Reference, Reply} = erase({reply, Number}),
    receive {spawn_reply, Reference, ok, _} -> got(Reply) end;
act({call, Which}, Me, Flags, Numbered, Servers) ->
    [act({begins, 2_000_000 + erlang:unique_integer([positive])}, Me, Flags, Numbered, Servers)
     || seq_trace:get_token() =:= [], rand:uniform(5) > 1],
    seqaudit_truth_servers:ask(lists:nth(Which, Servers)).

%% Without a token it mostly begins a trace, as the message would take the receiver's token away.
begins_to_send(Number, Me, Flags) ->
    [begins(1_000_000 + 1_000 * Me + Number, Flags)
     || seq_trace:get_token() =:= [], Number rem 5 > 0].

begins(Label, Flags) ->
    Began = seq_trace:get_token() =:= [],
    seq_trace:set_token(label, Label),
    [seq_trace:set_token(Flag, true) || Flag <- Flags, Began],
    log(set, own),
    case Began of
        true -> know({begins, true});
        false -> know(setelement(2, get(known), true))
    end.

put_back([], _) ->
    seq_trace:set_token([]),
    know(none);
put_back(Token, Known) ->
    seq_trace:set_token(Token),
    log(put, own),
    know(Known).

spawns(Do, Options) ->
    Child = case spawn_opt(Do, Options) of
                {Pid, _Monitor} -> Pid;
                Pid -> Pid
            end,
    get(known) =:= none orelse log(spawned, {Child, get(known)}),
    Child.

%% A child has its token from the request to spawn it.
child(Parent) ->
    know(case seq_trace:get_token() of [] -> none; _ -> {spawned, false} end),
    seq_trace:print(content(printed)),
    Parent =/= none andalso (Parent ! {self(), content(sent)}).

%% A child of spawn_request. Its node has replied under the token of the request.
child(Arguments, Request, Reply) ->
    know(none),
    got(Request),
    get(known) =:= none orelse log(sent, element(2, Reply)),
    Arguments =:= Request orelse got(Arguments),
    seq_trace:print(content(printed)).

know(Known) -> put(known, Known).

known() -> get(known).

%% The content of what is sent or printed now.
content(What) ->
    Number = next_number(),
    case {get(known), seq_trace:get_token()} of
        {none, []} ->
            {m, Number, none, false};
        {{Cause, Own}, Token} when Token =/= [] ->
            log(What, Number),
            {m, Number, Cause, Own}
    end.

%% A message that had no token takes the receiver's away.
got({m, _, none, _}) -> know(none);
got({m, Number, _, _}) -> log(received, Number), know({Number, false}).
