%% @doc The command `seqaudit-node'.
-module(seqaudit_node).

-export([main/1, run/1]).

-import(seqaudit_errors, [text/2, count/2]).

%% Exit statuses, as those of `gemshowal'; of `watch' a 1 says that a period didn't fit.
-define(DONE, 0).
-define(INPUT, 2).
-define(USAGE, 3).
-define(SYSTEM, 4).

%% Erlang waits no longer at once: 49 days.
-define(MOST_SECONDS, 4_294_967).

%% The commands that this one had before `gemshowal'.
-define(READING, ["audit", "chart", "why", "times"]).

-spec main([string()]) -> no_return().
main(Words) ->
    %% Events that were collected are written even if nobody reads what is said of them.
    ok = seqaudit_output:open(case Words of
                                  [Command | _]
                                    when Command =:= "collect"; Command =:= "watch" -> stop;
                                  _ -> halt
                              end),
    Status = try run(Words)
             catch
                 Class:Reason:Stack ->
                     %% A status of 1 would say that a period doesn't fit.
                     io:format(standard_error,
                               "seqaudit-node: an error of its own: ~0tp:~0tp~n~0tp~n",
                               [Class, Reason, Stack]),
                     ?SYSTEM
             end,
    ok = seqaudit_output:flush(),
    halt(Status).

-spec run([string()]) -> ?DONE..?SYSTEM.
run([Help | _]) when Help =:= "--help"; Help =:= "-h"; Help =:= "help" ->
    io:put_chars(seqaudit_help:all()),
    ?DONE;
run(["--version" | _]) ->
    io:format("seqaudit-node ~ts (Erlang/OTP ~ts)~n",
              [seqaudit_help:version(), erlang:system_info(otp_release)]),
    ?DONE;
run([Command | Words]) ->
    case {lists:keyfind(Command, 1, commands()), lists:member(Command, ?READING)} of
        {false, true} -> failed(?USAGE, ["`gemshowal ", Command, "' does this now"]);
        {false, false} -> usage("there is no command ~ts", [Command]);
        {Found, false} -> run(Found, Words)
    end;
run([]) ->
    usage("a command is missing", []).

run({Command, Known, Do}, Words) ->
    case lists:member("--help", Words) orelse lists:member("-h", Words) of
        true ->
            io:put_chars(seqaudit_help:of_command(Command)),
            ?DONE;
        false ->
            try Do(options(Words, Command, Known, #{}))
            catch
                throw:{usage, Text} ->
                    complain("~ts", [Text]),
                    io:put_chars(standard_error, seqaudit_help:usage(Command)),
                    ?USAGE
            end
    end.

%% Each command with its options: those that have a value, and those that have none.
commands() ->
    Common = ["--node", "--cookie", "--cookie-file", "--bytes", "--folder", "--trigger", "--label",
              "--calls", "-o"],
    Flags = ["--reset", "--times", "--unload"],
    [{"collect", {["--seconds" | Common], Flags}, fun collect/1},
     {"watch", {["--every", "--keep" | Common], Flags}, fun watch/1},
     {"convert", {["-o"], []}, fun convert/1}].

usage(Format, Values) ->
    complain(Format, Values),
    io:put_chars(standard_error, seqaudit_help:all()),
    ?USAGE.

complain(Format, Values) ->
    io:format(standard_error, "seqaudit-node: " ++ Format ++ "\n", Values).

failed(Status, Text) ->
    complain("~ts", [Text]),
    Status.

-spec refuse(iodata()) -> no_return().
refuse(Text) -> throw({usage, Text}).

options([], _Command, _Known, Options) ->
    Options;
options([Word | Words], Command, {Valued, Flags} = Known, Options) ->
    case {lists:member(Word, Valued), lists:member(Word, Flags), Words} of
        {true, _, [Value | Rest]} -> options(Rest, Command, Known, add(Word, Value, Options));
        {true, _, []} -> refuse([Word, " needs a value"]);
        {false, true, _} -> options(Words, Command, Known, add(Word, "", Options));
        {false, false, _} when hd(Word) =/= $- ->
            options(Words, Command, Known, add("", Word, Options));
        _ -> refuse([Command, " has no option ", Word])
    end.

add(Option, Value, Options) ->
    maps:update_with(Option, fun(Values) -> [Value | Values] end, [Value], Options).

%% A command that has only options lacks some, or has too much.
needs(Command, Needed, Options) ->
    case {[[Option, Value] || {Option, Value} <- Needed, not is_given(Option, Options)], Options} of
        {[_ | _] = Missing, _} -> refuse([Command, " needs ", lists:join(" and ", Missing)]);
        {[], #{"" := Words}} ->
            refuse([Command, " takes options alone, and ", lists:last(Words), " is none"]);
        {[], #{"-o" := [_, _ | _]}} -> refuse([Command, " takes -o once"]);
        {[], _} -> ok
    end.

is_given(Option, Options) -> lists:any(fun(Word) -> Word =/= "" end, maps:get(Option, Options, [])).

collect(Options) ->
    ok = needs("collect", [{"--node", " NAME@HOST"}, {"-o", " NAME"}], Options),
    Wait = case whole("--seconds", {1, ?MOST_SECONDS}, Options) of
               [] -> infinity;
               [Seconds] -> 1_000 * Seconds
           end,
    traced(Options, fun(Start, Asked) -> collect(Start, Wait, Asked) end).

collect(Start, Wait, Asked) ->
    io:format("tracing ~ts ~ts~ts", [node_list(Start), how_long(Wait), advice(Start)]),
    [io:format("  ~ts writes its events to ~ts~n", [Node, Folder])
     || {Node, Folder} <- seqaudit_trace:folders()],
    _ = seqaudit_signals:wait(Asked, Wait),
    Folders = seqaudit_trace:folders(),
    Stopped = seqaudit_trace:stop(),
    Status = case Stopped of
                 {ok, Summary} -> written(Summary);
                 {error, Reason} -> failed(?SYSTEM, not_written(Reason, Folders))
             end,
    io:put_chars(never_fitted(Stopped, Start)),
    Status.

watch(Options) ->
    ok = needs("watch", [{"--node", " NAME@HOST"}, {"--every", " SECONDS"}, {"-o", " NAME"}],
               Options),
    #{"-o" := [Name]} = Options,
    [Every] = whole("--every", {1, infinity}, Options),
    Periods = maps:from_list([{name, Name}, {every, 1_000 * Every}]
                             ++ [{keep, Keep} || Keep <- whole("--keep", {1, infinity}, Options)]),
    traced(Options, fun(Start, Asked) -> watch(Start, Periods, Asked) end).

watch(Start, Periods, Asked) ->
    io:format("watching ~ts until Ctrl-C~ts", [node_list(Start), advice(Start)]),
    _ = [complain("~ts; periods are kept without an audit",
                  [seqaudit_verdict:format_error(Reason)])
         || {error, Reason} <- [seqaudit_verdict:find()]],
    Say = fun(Line) -> io:put_chars(Line) end,
    case seqaudit_periods:watch(Periods, Asked, Say) of
        {Status, Text} -> failed(Status, Text);
        Status -> Status
    end.

node_list(#{nodes := Nodes}) -> lists:join(", ", [atom_to_list(Node) || Node <- Nodes]).

%% Does something while the nodes are traced, and says meanwhile what happens to them.
traced(Options, Do) ->
    #{nodes := [Node | _]} = Start = start_options(Options),
    case seqaudit_reach:connect(Node, Options) of
        ok -> started(Start, is_map_key("--unload", Options), Do);
        {error, Reason} -> failed(?SYSTEM, seqaudit_reach:format_error(Reason))
    end.

%% The options that seqaudit_trace:start/1 takes.
start_options(#{"--node" := Nodes, "-o" := [Name]} = Options) ->
    maps:from_list([{name, Name}, {nodes, node_names(lists:reverse(Nodes))},
                    {reset, is_map_key("--reset", Options)}, {trigger, trigger(Options)}]
                   ++ [{bytes, Bytes} || Bytes <- whole("--bytes", seqaudit_trace:bytes(), Options)]
                   ++ [{folder, Folder} || #{"--folder" := [Folder | _]} <- [Options]]).

%% The number of an option, if it is given. Any integer is less than an atom.
whole(Option, {Least, Most}, Options) ->
    case Options of
        #{Option := [Word | _]} ->
            case string:to_integer(Word) of
                {Number, ""} when is_integer(Number), Number >= Least, Number =< Most -> [Number];
                _ -> refuse([Option, " can't be ", Word, "; it takes a whole number",
                             case Most of
                                 infinity -> io_lib:format(", ~b or more", [Least]);
                                 _ -> io_lib:format(" from ~b to ~b", [Least, Most])
                             end])
            end;
        #{} -> []
    end.

%% The words of the command line may become atoms: there are few of them, and they are the user's
%% own.
node_names(Words) ->
    Nodes = [case seqaudit_reach:is_node_name(Word) of
                 true -> list_to_atom(Word);
                 false -> refuse([Word, " isn't the name of a node; it is written name@host"])
             end || Word <- Words],
    case lists:usort([seqaudit_reach:kind(Node) || Node <- Nodes]) of
        [_] -> Nodes;
        [_, _] -> refuse("some of these nodes have long names, with a dot in the host, and some "
                         "short ones; one command reaches either")
    end.

trigger(#{"--trigger" := Functions, "--label" := [Word | _]} = Options) ->
    Calls = case Options of
                #{"--calls" := [Most | _]} -> read(fun seqaudit_calls:limit/1, Most);
                #{} -> infinity
            end,
    Trigger = #{times => is_map_key("--times", Options), calls => Calls},
    Read = fun(Each) -> [read(Each, Function) || Function <- lists:reverse(Functions)] end,
    case read(fun seqaudit_calls:label/1, Word) of
        {term, Label} ->
            Trigger#{functions => Read(fun seqaudit_calls:function/1), label => Label};
        {expression, Label, Numbered} ->
            Labelled = fun(Function) -> seqaudit_calls:labelled(Function, Label) end,
            Trigger#{functions => Read(Labelled), label => Word, numbered => Numbered}
    end;
trigger(Options) when is_map_key("--trigger", Options); is_map_key("--label", Options) ->
    refuse("--trigger and --label go together");
trigger(#{"--times" := _}) ->
    refuse("--times goes with --trigger; a program that sets tokens gives them the flag itself, "
           "as seqaudit_trace:with_trace(Label, [send, 'receive', print, timestamp], Fun) does");
trigger(#{"--calls" := _}) ->
    refuse("--calls goes with --trigger");
trigger(_) ->
    none.

read(Read, Word) ->
    case Read(Word) of
        {ok, Result} -> Result;
        {error, Text} -> refuse(Text)
    end.

%% Nobody can call stop once more when this node has ended, so it is said where the events are.
not_written({Which, File, Reason}, Folders) when Which =:= file; Which =:= unwritten ->
    text("~ts; what was collected stays in ~ts: `seqaudit-node convert FOLDER -o NAME' there makes "
         "a trace of it", [seqaudit_errors:unwritten(File, Reason),
          lists:join(" and ", [text("~ts of ~ts", [Folder, Node]) || {Node, Folder} <- Folders])]);
not_written(Reason, _Folders) ->
    seqaudit_trace:format_error(Reason).

started(#{nodes := Nodes} = Start, Unload, Do) ->
    %% A signal that comes while the collectors begin ends them as any other does.
    Asked = seqaudit_signals:listen(),
    case seqaudit_trace:start(Start#{tell => fun tell/2}) of
        ok ->
            try Do(Start, Asked)
            after
                io:put_chars([seqaudit_load:kept(Node, Unload) || Node <- Nodes])
            end;
        {error, {option, _, _} = Reason} ->
            refuse(seqaudit_trace:format_error(Reason));
        {error, {node, Node, unreachable}} ->
            failed(?SYSTEM, seqaudit_reach:unreachable(Node));
        {error, Reason} ->
            failed(?SYSTEM, seqaudit_trace:format_error(Reason))
    end.

%% Says at once what happens to a node.
tell(Node, News) ->
    {_, {Hour, Minute, Second}} = calendar:local_time(),
    complain("~2..0b:~2..0b:~2..0b: ~ts", [Hour, Minute, Second, news(Node, News)]).

news(Node, away) ->
    text("node ~ts can't be reached any more; if it still runs, collecting goes on there for a "
         "minute", [Node]);
news(Node, back) ->
    text("node ~ts can be reached again", [Node]);
news(Node, {gone, noproc}) ->
    text("node ~ts has no collector any more; what came before is still read from its disk",
         [Node]);
news(Node, {gone, Reason}) ->
    text("the collector of node ~ts ended (~0tP); what came before is still read from its disk",
         [Node, Reason, 10]);
news(Node, {ended, {disk, Reason}}) ->
    text("node ~ts collects no more, as the trace file couldn't be written (~0tp); what came "
         "before is there", [Node, Reason]);
news(Node, {ended, Why}) ->
    text("node ~ts collects no more (~0tP); what came before is there", [Node, Why, 10]).

%% No call that the trigger fits was made, or the process that made one did nothing after it.
never_fitted({ok, #{events := 0}}, #{trigger := #{functions := _} = Trigger}) ->
    ["  no call set a token that was used: none that fits ", called(Trigger),
     " was made meanwhile, or its process sent, received and printed nothing after it\n"];
never_fitted(_Stopped, _Start) ->
    "".

how_long(infinity) -> "until Ctrl-C";
how_long(Milliseconds) -> io_lib:format("for ~b s", [Milliseconds div 1000]).

advice(#{trigger := #{calls := Calls} = Trigger}) ->
    io_lib:format("; ~tscalls that fit ~ts set the token~n",
                  [case Calls of
                       infinity -> "";
                       {Most, second} -> io_lib:format("in each second the first ~b ", [Most]);
                       Most -> io_lib:format("the first ~b ", [Most])
                   end,
                   called(Trigger)]);
advice(_) ->
    "; set tokens there, as with\n  seqaudit_trace:with_trace(17, fun() -> .. end).\n".

called(#{functions := Functions}) ->
    lists:join(", ", [io_lib:format("~ts:~ts/~b", [Module, Function, Arity])
                      || {{Module, Function, Arity}, _} <- Functions]).

written(#{events := Events, processes := Processes, notes := Notes, files := Files}) ->
    io:format("~ts of ~ts: ~ts~n",
              [count(Events, "event"), count(Processes, "process"), lists:join(" ", Files)]),
    lists:foreach(fun(Note) -> io:format("  ~ts~n", [Note]) end, Notes),
    ?DONE.

convert(#{"" := Files, "-o" := [[_ | _] = Name]}) ->
    case seqaudit_convert:from_files(lists:reverse(Files), Name) of
        {ok, Summary} ->
            written(Summary);
        {error, {Which, _, _} = Reason} when Which =:= file; Which =:= unwritten ->
            failed(?SYSTEM, seqaudit_events:format_error(Reason));
        {error, Reason} ->
            failed(?INPUT, seqaudit_events:format_error(Reason))
    end;
convert(Options) ->
    Missing = ["files of events" || not is_map_key("", Options)]
        ++ ["-o NAME, once" || length(maps:get("-o", Options, [])) =/= 1
                                   orelse not is_given("-o", Options)],
    refuse(["convert needs ", lists:join(" and ", Missing)]).
