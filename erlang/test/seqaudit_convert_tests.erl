%% From collected events to bundles.
-module(seqaudit_convert_tests).

-export([captures_test_/0, equal_terms_test/0, numbers_test/0, parties_test/0, aliases_test/0,
         reset_aliases_test/0, ambiguous_aliases_test/0, spawned_there_test/0,
         refused_there_test/0, repeated_names_test/0, callers_test/0,
         spawned_test/0, counts_test/0, many_processes_test_/0, lost_test/0, hostile_test_/0,
         hostile_trace_test_/0, hostile_process_test_/0, text_test/0, text_faults_test/0,
         external_test/0, trace_file_test/0, damaged_event_test/0]).

%% The verdicts on traces of real programs that were captured on a node.
captures_test_() ->
    [{Name, {timeout, 60, fun() -> capture(Name, Said) end}}
     || {Name, Said} <- [{"bank", fits}, {"gs_chain", fits}, {"call_timeout", fits},
                         {"term_labels", fits}, {"timestamps", fits}, {"scatter20", fits},
                         {"ring10", fits}, {"prints", fits}, {"selective", fits},
                         {"oddities", fits}, {"manual_example", fits}, {"send_only", fits},
                         {"dist_two_nodes", fits},
                         {"exclude_idiom_after_receive", <<" uncaused\n">>}]].

capture(Name, Said) ->
    Folder = filename:join([filename:dirname(filename:dirname(seqaudit_audits:file("x"))),
                            "captures"]),
    File = seqaudit_audits:file(Name),
    {ok, #{dropped := 0}} =
        seqaudit_convert:from_files([filename:join(Folder, Name ++ ".txt")], File),
    case Said of
        fits ->
            seqaudit_audits:fits(File);
        Reason ->
            case seqaudit_audits:audit(File) of
                {1, <<"unfit ", Answer/binary>>} -> {_, _} = binary:match(Answer, Reason);
                skipped -> skipped
            end
    end.

%% Equal terms have one number, and terms that are only alike have two.
equal_terms_test() ->
    Messages = [{a, "b"}, 1, 1.0, {a, "b"}, 1, <<"b">>, "b"],
    Events = [{seq_trace, 0, {print, {K, K + 1}, self(), [], Message}}
              || {K, Message} <- lists:zip(lists:seq(0, 6), Messages)],
    #{seqtrace := Text} = convert(Events),
    {match, Numbers} = re:run(Text, "\\[\\],([0-9]+)", [global, {capture, [1], list}]),
    [["0"], ["1"], ["2"], ["0"], ["1"], ["3"], ["4"]] = Numbers.

%% A process keeps its number, unless another one has it or it is out of range.
numbers_test() ->
    Party = fun(Node, N, S) -> seqaudit_external:from_term(pid(Node, N, S)) end,
    Pids = [Party('a@h', N, S) || {N, S} <- [{80, 0}, {80, 3}, {65_535, 0}, {70_000, 0}, {81, 2}]],
    Other = Party('b@h', 80, 0),
    Numbers = seqaudit_processes:number([Other | Pids]),
    [{0, 80}, {0, 65_534}, {0, 65_535}, {0, 65_533}, {0, 81}] =
        [maps:get(Pid, Numbers) || Pid <- Pids],
    {1, 80} = maps:get(Other, Numbers),
    #{} = seqaudit_processes:number([]).

%% Ports, names and aliases that nothing resolves are parties of their own.
parties_test() ->
    Port = hd(erlang:ports()),
    Alias = make_ref(),
    #{seqtrace := Text, terms := Terms, notes := Notes} =
        convert([{seq_trace, 0, {send, {0, 1}, self(), Port, x}},
                 {seq_trace, 0, {send, {0, 2}, self(), Alias, x}},
                 {seq_trace, 0, {send, {0, 3}, self(), {srv, node()}, x}},
                 {seq_trace, 0, {send, {0, 4}, self(), srv, x}},
                 {seq_trace, 0, {'receive', {1, 9}, Port, self(), {Port, data}}}]),
    [_, _, _, _] =
        [Line || <<"process ", _/binary>> = Line <- binary:split(Text, <<"\n">>, [global])],
    true = lists:any(fun(Note) -> has(Note, "3 sends to an alias or a name that nothing") end,
                     Notes),
    {match, _} = re:run(Terms, "^process\t<0.65535.0>\t[^\t]*\tport #Port<", [multiline]).

%% The receive says best who has an alias, then the request.
aliases_test() ->
    [A, B, C] = [pid(node(), N, 0) || N <- [30, 31, 32]],
    [R1, R2] = [make_ref(), make_ref()],
    Request = fun(Owner, Alias) -> {'$gen_call', {Owner, [alias | Alias]}, x} end,
    Bundle = convert([{seq_trace, 0, {send, {0, 1}, A, B, Request(A, R1)}},
                      {seq_trace, 0, {send, {0, 2}, A, B, Request(A, R2)}},
                      {seq_trace, 0, {send, {1, 2}, B, R1, {R1, ok}}},
                      {seq_trace, 0, {send, {1, 3}, B, R2, {R2, ok}}},
                      {seq_trace, 0, {'receive', {1, 2}, B, C, {R1, ok}}}]),
    ["<0.31.0>", "<0.31.0>", "<0.32.0>", "<0.30.0>"] = receivers(send, Bundle),
    true = noted("1 send to an alias or a name: the receive of each says", Bundle),
    true = noted("1 send to an alias: the request that handed it out", Bundle).

%% After a reset a server stamps its replies as before: label and message tell them apart, whichever
%% client comes first.
reset_aliases_test() ->
    [S, A, B] = [pid(node(), N, 0) || N <- [30, 31, 32]],
    Reply = fun(Label, To, Alias, Result) ->
                    [{seq_trace, Label, {send, {1, 2}, S, Alias, {Alias, Result}}},
                     {seq_trace, Label, {'receive', {1, 2}, S, To, {Alias, Result}}}]
            end,
    [R1, R2] = [make_ref(), make_ref()],
    First = Reply(one, A, R1, ok) ++ Reply(two, B, R2, ok),
    ["<0.31.0>", "<0.32.0>"] = receivers(send, convert(First)),
    ["<0.32.0>", "<0.31.0>"] =
        receivers(send, convert(Reply(two, B, R2, ok) ++ Reply(one, A, R1, ok))),
    %% Two events of one label: the message tells them apart.
    ["<0.31.0>", "<0.32.0>"] =
        receivers(send, convert(Reply(one, A, R1, ok) ++ Reply(one, B, R2, ok))),
    %% Two events of one message: the label tells them apart.
    ["<0.31.0>", "<0.32.0>"] =
        receivers(send, convert(Reply(one, A, R1, ok) ++ Reply(two, B, R1, ok))).

%% If two receives or two requests fit, nobody is named.
ambiguous_aliases_test() ->
    [S, A, B] = [pid(node(), N, 0) || N <- [30, 31, 32]],
    R = make_ref(),
    Send = {seq_trace, 1, {send, {1, 2}, S, R, {R, ok}}},
    Received = fun(To) -> {seq_trace, 1, {'receive', {1, 2}, S, To, {R, ok}}} end,
    Two = convert([Send, Received(A), Received(B)]),
    ["<0.65535.0>"] = receivers(send, Two),
    true = noted("1 send to an alias or a name that two receives or requests fit", Two),
    ["<0.31.0>"] = receivers(send, convert([Send, Received(A), Received(A)])),
    %% One message went to two aliases, and one of their processes has received it yet.
    Again = {seq_trace, 1, {send, {1, 2}, S, make_ref(), {R, ok}}},
    ["<0.65534.0>", "<0.65535.0>"] =
        lists:sort(receivers(send, convert([Send, Again, Received(A)]))),
    Asks = fun(Owner) ->
                   {seq_trace, 1,
                    {'receive', {0, 1}, Owner, S, {'$gen_call', {Owner, [alias | R]}, x}}}
           end,
    ["<0.65535.0>"] = receivers(send, convert([Asks(A), Asks(B), Send])),
    ["<0.32.0>"] = receivers(send, convert([Asks(B), Asks(B), Send])),
    %% A number that a whole label has isn't given to another one.
    #{terms := Terms} = convert([{seq_trace, Label, {print, {0, 1}, A, [], x}}
                                 || Label <- [term, 1_000_000, other, 1_000_001]]),
    [_, _, _, _] = [found || Line <- ["label\t1000000\t1000000", "label\t1000001\t1000001",
                                      "label\t1000002\tterm", "label\t1000003\tother"],
                             binary:match(iolist_to_binary(Terms),
                                          list_to_binary(Line)) =/= nomatch].

%% A request to spawn on another node and its arguments name the node. Its reply says which process
%% got them, unless alike arguments went to two processes.
spawned_there_test() ->
    [Parent, A, B] = [pid('a@h', 80, 0), pid('b@h', 90, 0), pid('b@h', 91, 0)],
    Spawn = fun(Count, Child, Arguments) ->
                    R = make_ref(),
                    [{seq_trace, 1, {send, {0, Count}, Parent, 'b@h',
                                     {spawn_request, R, Parent, Parent, {m, f, 1}, []}}},
                     {seq_trace, 1, {send, {0, Count + 1}, Parent, 'b@h', Arguments}},
                     {seq_trace, 1, {send, {Count, Count + 1}, Child, Parent,
                                     {spawn_reply, R, ok, Child}}}]
            end,
    Two = convert(Spawn(1, A, [1]) ++ Spawn(3, B, [1])),
    ["<1.90.0>", "<1.90.0>", "<1.91.0>", "<1.91.0>", "<0.80.0>", "<0.80.0>"] = receivers(send, Two),
    true = noted("4 sends to another node to spawn there: the reply says", Two),
    ["<1.90.0>", Unknown, "<1.91.0>", Unknown, "<0.80.0>", "<0.80.0>"] =
        receivers(send, convert(Spawn(1, A, [1]) ++ Spawn(1, B, [1]))),
    false = lists:member(Unknown, ["<1.90.0>", "<1.91.0>"]).

%% A node that refuses the requests of several processes with the same counts gives each its reply,
%% which has the tag of that request.
refused_there_test() ->
    Refused = fun(Parent, Tag) ->
                      R = make_ref(),
                      [{seq_trace, 1, {send, {1, 2}, 'b@h', Parent, {spawn_reply, R, error, no}}},
                       {seq_trace, 1, {'receive', {1, 2}, 'b@h', Parent, {Tag, R, error, no}}}]
              end,
    #{seqtrace := Text} = convert(lists:append([Refused(pid('a@h', N, 0), {tag, N})
                                                || N <- [80, 81, 82]])),
    Replies = fun(Kind) ->
                      {match, Found} = re:run(Text, [Kind, ",.*,(<.*>),([0-9]+)}}"],
                                              [global, {capture, all_but_first, list}]),
                      lists:sort(Found)
              end,
    [["<0.80.0>", _], ["<0.81.0>", _], ["<0.82.0>", _]] = Replies("send"),
    true = Replies("send") =:= Replies("'receive'").

%% The receivers of the sends, or of other events, in the order of the bundle.
receivers(Kind, #{seqtrace := Text}) ->
    {match, Found} =
        re:run(Text, ["\\{", atom_to_list(Kind), ",\\{[0-9,]*\\},<[0-9.]*>,(<[0-9.]*>)"],
               [global, {capture, [1], list}]),
    [To || [To] <- Found].

noted(Part, #{notes := Notes}) ->
    lists:any(fun(Note) -> has(Note, Part) end, Notes).

%% A name that two processes had is told apart.
repeated_names_test() ->
    Pids = [pid('a@h', 30, 0), pid('a@h', 31, 0), pid('a@h', 32, 0)],
    Known = maps:from_list(lists:zip(Pids, [#{name => srv}, #{name => srv}, #{name => other}])),
    #{terms := Terms} = seqaudit_test_files:convert(
        [#{node => 'a@h', processes => Known,
           events => [{seq_trace, 1, {print, {0, 1}, Pid, [], x}} || Pid <- Pids]}]),
    [{_, _}, {_, _}, {_, _}] =
        [binary:match(iolist_to_binary(Terms), Name)
         || Name <- [<<"\tsrv <0.30.0>\t">>, <<"\tsrv <0.31.0>\t">>, <<"\tother\t">>]].

%% A task of Elixir is told by the process for which it works.
callers_test() ->
    Task = proc_lib:spawn(fun() ->
        _ = put('$callers', [self()]),
        receive stop -> ok end
    end),
    seqaudit_test_nodes:until(fun() -> is_map_key(caller, seqaudit_spool:about(Task)) end),
    #{terms := Terms} =
        seqaudit_test_files:convert([#{node => node(),
                                       processes => #{Task => seqaudit_spool:about(Task)},
                                    events => [{seq_trace, 1, {print, {0, 1}, Task, [], x}}]}]),
    exit(Task, kill),
    {match, [Number, Number, Number]} =
        re:run(Terms, "\ttask of (<[0-9.]*>) (<[0-9.]*>)\t.*, for (<[0-9.]*>)\n",
               [{capture, all_but_first, list}]).

%% A process that lived too short a time to be asked is called by the request that spawned it: a
%% server by its module, a task by the process that it works for.
spawned_test() ->
    [Parent, Server, Named, Task, Plain, Fun] = [pid('a@h', N, 0) || N <- [80, 81, 82, 83, 84, 85]],
    Proc = fun(Module, Function, Arguments) ->
        {{proc_lib, init_p, 5}, [shop, [], Module, Function, Arguments]} end,
    Spawn = fun({Child, {Call, Arguments}}) ->
                    Request = {spawn_request, make_ref(), Parent, Parent, Call, [link], spawn_reply,
                               Arguments},
                    Count = 2 * element(2, hd(ets:lookup(counts, Child))),
                    [{seq_trace, 1, {Kind, {Count, Count + 1}, Parent, Child, Request}}
                     || Kind <- [send, 'receive']]
            end,
    Spawned = [{Server, Proc(gen, init_it, [gen_server, Parent, self, stock, [], []])},
               {Named, Proc(gen, init_it,
                            [gen_statem, Parent, Parent, {local, till}, desk, [], []])},
               {Task, Proc('Elixir.Task.Supervised', reply, [{'a@h', shop, Parent}, nomonitor])},
               {Plain, {{post, parcel, 2}, [a, b]}},
               {Fun, {{erlang, apply, 2}, [fun() -> ok end, []]}}],
    counts = ets:new(counts, [named_table]),
    true = ets:insert(counts, [{Child, K} || {K, {Child, _}} <- lists:enumerate(0, Spawned)]),
    #{terms := Terms} =
        seqaudit_test_files:convert([#{node => 'a@h',
                                       processes => #{Parent => #{name => shop}, Task => #{}},
                                    events => lists:append([Spawn(Each) || Each <- Spawned])}]),
    true = ets:delete(counts),
    Lines = binary:split(iolist_to_binary(Terms), <<"\n">>, [global]),
    [[<<"<0.80.0>">>, <<"shop">>], [<<"<0.81.0>">>, <<"stock:init/1 <0.81.0>">>],
     [<<"<0.82.0>">>, <<"desk:init/1 <0.82.0>">>], [<<"<0.83.0>">>, <<"task of shop <0.83.0>">>],
     [<<"<0.84.0>">>, <<"post:parcel/2 <0.84.0>">>], [<<"<0.85.0>">>, <<"<0.85.0>">>]] =
        [[Pid, Name] || Line <- Lines,
         [<<"process">>, Pid, Name, _] <- [binary:split(Line, <<"\t">>, [global])]].

%% An entry that is no event is counted.
counts_test() ->
    Strays = [hello, {seq_trace, 1, {send, {0, 1}, self(), "x", x}}, {seq_trace, 1, 2},
              {seq_trace, 1, {print, {0, -1 bsl 60}, self(), [], x}},
              {seq_trace, 1, {spawn, {0, 1}, 2, 3, 4}},
              {seq_trace, 1, {print, {0, 1 bsl 64}, self(), [], x}}],
    #{events := 1, dropped := 9, notes := [Dropped, Own, Left, Unknown]} =
        seqaudit_test_files:convert([#{node => 'a@h', dropped => 2, own => 1, strays => 0, events =>
            [{seq_trace, 1, {print, {0, 1}, self(), [], x}} | Strays]}]),
    true = has(Dropped, "a@h: the collector dropped 2 events; raise --bytes"),
    true = has(Own, "a@h: convert left out 1 event that named the collector"),
    "convert left out 1 entry that seq_trace doesn't write: hello" = Left,
    true = has(Unknown,
               "convert left out 5 entries of seq_trace whose form it doesn't know: "
               "{seq_trace,1,{send,{0,"),
    true = has(Unknown, "; {seq_trace,1,2}; "),
    true = has(Unknown, "; and 2 more").

%% A node number has 65,536 numbers for processes. With more processes a node gets further numbers,
%% and nothing is left out.
many_processes_test_() ->
    {timeout, 600, fun() ->
        Events = [{seq_trace, 1, {print, {0, 1}, pid('a@h', N, Serial), [], x}}
                  || Serial <- [0, 1, 2, 3, 4], N <- lists:seq(0, 32_767)]
            ++ [{seq_trace, 1, {print, {0, 1}, pid('b@h', 7, 0), [], x}}],
        #{events := 163_841, processes := 163_841, dropped := 0, notes := Notes, terms := Terms,
          seqtrace := Text} =
            convert(Events),
        [] = Notes,
        Lines = binary:split(iolist_to_binary(Terms), <<"\n">>, [global]),
        [<<"node\t2\ta@h">>, <<"node\t3\ta@h">>] = [Line || <<"node", _/binary>> = Line <- Lines],
        {_, _} = binary:match(Text, <<"\nprocess <1.7.0>\n">>),
        {_, _} = binary:match(Text, <<"\nprocess <3.65535.0>\n">>),
        Name = seqaudit_audits:file("many_processes"),
        ok = file:write_file(Name ++ ".terms", Terms),
        #{{node, <<"2">>} := <<"a@h">>, {node, <<"3">>} := <<"a@h">>} =
            seqaudit_test_traces:terms(Name),
        ok = file:write_file(Name ++ ".seqtrace", Text),
        seqaudit_audits:with_gemshowal("many processes", fun(_) ->
            {0, <<"fits: 163,841 events of 163,841 processes", _/binary>>} =
                seqaudit_audits:gemshowal(["audit", Name])
        end)
    end}.

lost_test() ->
    #{events := 0, notes := [Note]} =
        seqaudit_test_files:convert([#{node => 'a@h', lost => noconnection}]),
    true = has(Note,
               "a@h: the node was lost, or the connection to it, and all of its events are lost").

%% Large terms are cut in what is printed, and not in what is compared. The time is the processor's,
%% as a machine that does other things too may keep the test waiting.
hostile_test_() ->
    {timeout, 600, fun() ->
        Terms = hostile(),
        Changed = [{lists:seq(1, 1_000_000) ++ [x]}, {lists:seq(1, 1_000_000) ++ [y]}],
        Events = [{seq_trace, Term, {print, {K, K + 1}, self(), [], Term}}
                  || {K, Term} <- lists:enumerate(0, Terms ++ Changed)],
        {Before, _} = statistics(runtime),
        #{terms := Legend} = convert(Events),
        {After, _} = statistics(runtime),
        true = After - Before < 20_000,
        Lines = binary:split(iolist_to_binary(Legend), <<"\n">>, [global, trim]),
        Length = 2 * length(Events) + 2,
        Length = length(Lines),
        [] = [Line || Line <- Lines, byte_size(Line) > 8_200],
        [_] = lists:usort([lists:last(binary:split(Line, <<"\t">>, [global]))
                           || Line <- lists:nthtail(Length - 2, Lines)])
    end}.

%% The events on their way through the tracer of a node.
hostile_trace_test_() ->
    {timeout, 600, fun() ->
        seqaudit_test_nodes:on_port("hostile_trace",
                                    fun() -> hostile_trace("hostile", true, hostile()) end)
    end}.

%% And without a trace port, through the collector itself. An event of a megabyte would be too much
%% for its queue.
hostile_process_test_() ->
    {timeout, 600, fun() ->
        Small = [Term || Term <- hostile(), erlang:external_size(Term) < 200_000],
        true = length(Small) > 10,
        hostile_trace("hostile_process", false, Small)
    end}.

hostile_trace(File, Port, Terms) ->
    {module, _} = code:ensure_loaded(seqaudit_test_nodes),
    Name = seqaudit_audits:file(File),
    ok = seqaudit_trace:start(#{name => Name, port => Port}),
    seqaudit_trace:with_trace(1, fun() ->
        [begin self() ! Term, receive _ -> ok end, seqaudit_test_nodes:keep_pace() end
         || Term <- Terms]
    end),
    Count = 2 * length(Terms),
    {ok, #{events := Count}} = seqaudit_trace:stop(),
    {ok, [#{events := Events}]} = seqaudit_test_files:read(Name ++ ".events"),
    Count = length(Events),
    seqaudit_audits:fits(Name).

hostile() ->
    Deep = fun(Wrap) -> lists:foldl(fun(_, Term) -> Wrap(Term) end, x, lists:seq(1, 300_000)) end,
    [Deep(fun(T) -> [T] end), Deep(fun(T) -> {T, y} end), Deep(fun(T) -> #{k => T} end),
     Deep(fun(T) -> [y | T] end), lists:seq(1, 1_000_000), lists:duplicate(1_000_000, $a),
     lists:duplicate(1_000_000, 16#1F600), binary:copy(<<"abc">>, 3_000_000),
     <<(binary:copy(<<200, 0>>, 1_000_000))/binary, 1:3>>, 1 bsl 1_000_000, -(1 bsl 1_000_000),
     maps:from_list([{K, K} || K <- lists:seq(1, 300_000)]), list_to_tuple(lists:seq(1, 1_000_000)),
     [lists:duplicate(400, $a) || _ <- lists:seq(1, 1_000)],
     fun() -> hostile end, fun lists:map/2, make_ref(), self(), hd(erlang:ports()),
     list_to_atom(lists:duplicate(255, 16#10FFFF)), "\t\n\"<&>", 'a\nb\tc', [], {}, #{}, <<>>,
     1.0e300].

%% Text as io:format prints it, with what Erlang doesn't read back.
text_test() ->
    Terms = [{seq_trace, {l, <<1, 2>>}, {send, {0, 1}, self(), {srv, 'b@h'}, "a 'b' {<0.1.0>"}},
             {seq_trace, 1.5,
              {print, {0, 1}, self(), [], #{$a => [hd(erlang:ports()) | make_ref()]}}}],
    Text = unicode:characters_to_binary([io_lib:format("~tp~n", [Term]) || Term <- Terms]),
    {ok, [{Node, [First, Second]}]} =
        seqaudit_test_files:text(<<"%% node ", (atom_to_binary(node()))/binary,
                             "\n\n", Text/binary>>),
    Node = node(),
    First = hd(Terms),
    Printed = io_lib:format("~tp", [lists:last(Terms)]),
    Printed = io_lib:format("~tp", [Second]),
    Away = <<"% node a@h\n% channel 77 b@h\n{<77.1.2>,<78.1.2>,<0.1.2>, #Fun<m.1.2>}.\n">>,
    {ok, [{'a@h', [{B, Unknown, A, {'fun', "m.1.2"}}]}]} = seqaudit_test_files:text(Away),
    ['b@h', channel_78, 'a@h'] = [node(Pid) || Pid <- [B, Unknown, A]].

text_faults_test() ->
    [{Line, _} = element(2, seqaudit_test_files:text(Text))
     || {Line, Text} <- [{1, <<"{a">>}, {2, <<"a\n{b,\n\nc,}\n">>}, {3, <<"{a,\n\"b}\"}\n'c">>},
                         {1, <<"<0.1>">>}, {1, <<"#Ref<1>">>}, {1, <<255>>},
                         {3, <<"a\n\n#Port<0.1.2>">>}]],
    {ok, []} = seqaudit_test_files:text(<<"\n% nothing\n">>).

external_test() ->
    File = seqaudit_audits:file("external.bin"),
    Events = [{seq_trace, 1, {print, {0, 1}, self(), [], x}}],
    ok = file:write_file(File, term_to_binary(Events)),
    {ok, [#{events := Events}]} = seqaudit_test_files:read(File),
    ok = file:write_file(File, <<131, 1, 2, 3>>),
    {error, {not_events, File}} = seqaudit_test_files:read(File),
    {error, {file, "/no/such/file", enoent}} = seqaudit_test_files:read("/no/such/file").

%% A trace port of dbg writes what it drops as counts.
trace_file_test() ->
    case code:ensure_loaded(dbg) of
        {error, _} ->
            io:format(user, "trace file: skipped, there is no dbg (erlang-runtime-tools)~n", []);
        {module, dbg} ->
            File = seqaudit_audits:file("port.trace"),
            _ = file:delete(File),
            Port = (dbg:trace_port(file, File))(),
            false = seq_trace:set_system_tracer(Port),
            seqaudit_trace:with_trace(1, fun() -> self() ! me, receive me -> ok end end),
            Port = seq_trace:set_system_tracer(false),
            true = port_close(Port),
            Name = seqaudit_audits:file("port"),
            {ok, #{events := 2, dropped := 0}} = seqaudit_convert:from_files([File], Name),
            seqaudit_audits:fits(Name),
            ok = file:write_file(File, <<1, 7:32, 0, 9:32, 1>>),
            {error, {broken_trace, File, _}} = seqaudit_test_files:read(File)
    end.

convert(Events) ->
    seqaudit_test_files:convert([#{node => node(), events => Events}]).

has(Text, Part) ->
    string:find(Text, Part) =/= nomatch.

%% A process of any node, by the external term format.
pid(Node, Number, Serial) ->
    <<131, Atom/binary>> = term_to_binary(Node),
    binary_to_term(<<131, 88, Atom/binary, Number:32, Serial:32, 0:32>>).

%% An event that can't be read is one that the trace lacks.
damaged_event_test() ->
    Name = seqaudit_audits:file("damaged_event"),
    Entry = fun(Kind, Bytes) -> [<<Kind, (byte_size(Bytes)):32>>, Bytes] end,
    Event = fun(Number) ->
        term_to_binary({seq_trace, 1,
                        {print, {Number - 1, Number}, self(), [], "hello hello"}}) end,
    ok = file:write_file(Name ++ ".events",
                         ["seqaudit events 2\n",
                          Entry(2, term_to_binary(#{node => node(), dropped => 0})),
                          Entry(0, Event(1)),
                          Entry(0, binary:part(Event(2), 0, byte_size(Event(2)) - 3))]),
    {ok, #{events := 1}} = seqaudit_convert:from_files([Name ++ ".events"], Name),
    [<<"convert left out 1 entry that can't be read, since it is damaged">>] =
        seqaudit_test_traces:losses(Name).
