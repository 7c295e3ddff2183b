%% Runs scripts of acts on one or two nodes, one act after the other, each to its end.
%%
%% A script comes on standard input as the text of a bundle without events (docs/FORMATS.md), and an
%% empty line ends it. Then come, on standard output, a line for each act's reply, the streams as a
%% bundle has them, and an empty line. A reply is spelled in the words of the machine; a token as
%% the act `restore' spells it.
-module(conformance_scripts).

-export([main/0]).

main() ->
    Nodes = conformance_nodes:start(),
    Parts = [conformance_actors:start(Node) || Node <- Nodes],
    io:format("~ts~n~b~n", [conformance_nodes:title(), length(Nodes)]),
    scripts(Parts).

scripts(Parts) ->
    case script([]) of
        eof -> halt();
        Lines -> io:put_chars([[Line, $\n] || Line <- run(Lines, Parts)] ++ "\n"), scripts(Parts)
    end.

script(Lines) ->
    case io:get_line("") of
        eof -> eof;
        "\n" -> lists:reverse(Lines);
        Line -> script([string:lexemes(string:trim(Line), " ") | Lines])
    end.

%% The lines that a script comes to.
run([["seqtrace", _] | Lines], Parts) ->
    {Listed, [["acts"] | Acts]} = lists:splitwith(fun([Word | _]) -> Word =:= "process" end, Lines),
    Names = [Name || ["process", Name] <- Listed],
    {Replies, World} = lists:mapfoldl(fun act/2, world(Names, Parts), Acts),
    lists:append([Replies, streams(World)]).

%% The processes by their names in a script, each with the node's part that keeps it; their names;
%% the parts; and how many messages lie in each queue.
world(Names, Parts) ->
    Processes = [{Name, {Part, Pid}}
                 || {Number, Part} <- lists:enumerate(0, Parts),
                    Here <- [[Name || Name <- Names, node_number(Name) =:= Number]],
                    {Name, Pid} <- lists:zip(Here, conformance_actors:renew(Part, length(Here)))],
    #{processes => maps:from_list(Processes),
      names => maps:from_list([{Pid, Name} || {Name, {_, Pid}} <- Processes]),
      parts => Parts,
      queued => #{}}.

node_number(Name) ->
    hd(number(Name)).

number(Name) ->
    [list_to_integer(Part) || Part <- string:lexemes(Name, "<.>")].

%% Has one act done, and returns its reply in words. An act that names a process which isn't there,
%% or spawns one that is, isn't done.
act([Word, Actor | Rest] = Act, World) ->
    case is_possible(Act, World) of
        true ->
            Reply = do(Actor, call(Word, Rest, Actor, World), World),
            {reply(Word, Reply, World), acted(Act, Reply, World)};
        false ->
            {"nobody", World}
    end.

is_possible([Word, Parent, Child], #{processes := Processes})
  when Word =:= "spawn"; Word =:= "request" ->
    is_map_key(Parent, Processes) andalso not is_map_key(Child, Processes);
is_possible(Act, #{processes := Processes}) ->
    lists:all(fun(Name) -> is_map_key(Name, Processes) end, [Word || "<" ++ _ = Word <- Act]).

do(Actor, Call, #{processes := Processes}) ->
    {Part, Pid} = map_get(Actor, Processes),
    conformance_actors:act(Part, Pid, Call).

%% The world after an act. A send has come to its end when its message lies in the queue.
acted(["send", _, To, _], _, #{queued := Queued} = World) ->
    More = maps:update_with(To, fun(Count) -> Count + 1 end, 1, Queued),
    _ = do(To, {queued, map_get(To, More)}, World),
    World#{queued := More};
acted(["receive", Actor | _], {_, _}, #{queued := Queued} = World) ->
    World#{queued := maps:update_with(Actor, fun(Count) -> Count - 1 end, Queued)};
acted([_, Parent, Child], {spawned, Pid}, #{processes := Processes, names := Names} = World) ->
    {Part, _} = map_get(Parent, Processes),
    World#{processes := Processes#{Child => {Part, Pid}}, names := Names#{Pid => Child}};
acted(_, _, World) ->
    World.

%% The call that a line of a script means.
call("send", [To, Value], _, World) -> {send, pid(To, World), list_to_integer(Value)};
call("receive", ["first"], _, _) -> {'receive', any, any};
call("receive", ["from", From], _, World) -> {'receive', pid(From, World), any};
call("receive", ["value", Value], _, _) -> {'receive', any, list_to_integer(Value)};
call("receive", ["both", From, Value], _, World) ->
    {'receive', pid(From, World), list_to_integer(Value)};
call("print", [Value], _, _) -> {print, list_to_integer(Value)};
call("printat", [Label, Value], _, _) -> {print, list_to_integer(Label), list_to_integer(Value)};
call("set", ["label", Label], _, _) -> {set, label, list_to_integer(Label)};
call("set", [Flag, Value], _, _) ->
    {set, list_to_existing_atom(Flag), list_to_existing_atom(Value)};
call("clear", [], _, _) -> {token, []};
call("restore", Words, _, World) -> {token, token(Words, World)};
call("look", [], _, _) -> look;
call("reset", [], _, _) -> reset;
call("spawn", [_], _, _) -> spawn;
call("request", [_], _, _) -> request;
call("tracer", ["true"], Actor, #{processes := Processes}) ->
    {tracer, element(1, map_get(Actor, Processes))};
call("tracer", ["false"], _, _) -> {tracer, false}.

pid(Name, #{processes := Processes}) ->
    element(2, map_get(Name, Processes)).

%% A token as a node has it: flags as bits, label, this, from, prev.
token([Label, Send, Receive, Print, Prev, This, From], World) ->
    Flags = lists:sum([Bit || {Bit, "true"} <- [{1, Send}, {2, Receive}, {4, Print}]]),
    {Flags, list_to_integer(Label), list_to_integer(This), pid(From, World), list_to_integer(Prev)}.

reply("send", {_, _}, _) -> "done";
reply(Print, ok, _) when Print =:= "print"; Print =:= "printat" -> "done";
reply("receive", nothing, _) -> "nothing";
reply("receive", {From, Value}, World) -> ["mail ", name(From, World), " ", integer_to_list(Value)];
reply("set", Old, _) -> ["old ", word(Old)];
reply("clear", Old, World) -> ["previous ", token_words(Old, World)];
reply("look", Token, World) -> ["current ", token_words(Token, World)];
reply("restore", ok, _) -> "ok";
reply("reset", true, _) -> "done";
reply("tracer", Before, _) -> ["was ", word(Before =/= false)];
reply(_, {spawned, _}, _) -> "done";
reply(Word, Other, _) -> io_lib:format("~ts ~0p", [Word, Other]).

token_words([], _) ->
    "none";
token_words({Flags, Label, This, From, Prev}, World) ->
    lists:join(" ", [word(Label) | [word(Flags band Bit =/= 0) || Bit <- [1, 2, 4]]]
                    ++ [word(Prev), word(This), name(From, World)]).

word(Number) when is_integer(Number) -> integer_to_list(Number);
word(Atom) when is_atom(Atom) -> atom_to_list(Atom).

name(Pid, #{names := Names}) ->
    maps:get(Pid, Names, io_lib:format("~p", [Pid])).

%% Each process's own events. An event of no process of the script is at the end as it came.
streams(#{processes := Processes, parts := Parts} = World) ->
    Names = lists:sort(fun(One, Other) -> number(One) =< number(Other) end, maps:keys(Processes)),
    Events = [{owner(Event, World), Event}
              || Part <- Parts, Event <- conformance_actors:events(Part)],
    Streams = [[["process ", Name] | [event(Event, World)
                                      || {Owner, Event} <- Events, Owner =:= Name]]
               || Name <- Names],
    Others = [io_lib:format("~0p", [Event])
              || {Owner, Event} <- Events, not lists:member(Owner, Names)],
    lists:append(Streams) ++ Others.

owner({seq_trace, _, {'receive', _, _, To, _}}, World) -> name(To, World);
owner({seq_trace, _, {_, _, From, _, _}}, World) -> name(From, World).

event({seq_trace, Label, {print, Serial, From, [], Value}}, World) when is_integer(Value) ->
    event(Label, "print", Serial, From, "[]", Value, World);
event({seq_trace, Label, {Kind, Serial, From, To, {From, Value}}}, World) ->
    event(Label, io_lib:format("~p", [Kind]), Serial, From, name(To, World), Value, World);
event({seq_trace, Label, {Kind, Serial, From, To, Message}}, World)
  when element(1, Message) =:= spawn_request; element(1, Message) =:= spawn_reply ->
    event(Label, io_lib:format("~p", [Kind]), Serial, From, name(To, World), element(1, Message),
          World);
event(Event, _) ->
    io_lib:format("~0p", [Event]).

event(Label, Kind, {Prev, This}, From, To, Value, World) ->
    io_lib:format("{seq_trace,~b,{~ts,{~b,~b},~ts,~ts,~p}}",
                  [Label, Kind, Prev, This, name(From, World), To, Value]).
