%% Files of events are damaged, hostile or strange: each gives a bundle or a sentence.
-module(seqaudit_reading_tests).

-export([damaged_files_test_/0, damaged_bytes_test_/0, swapped_files_test_/0, no_atoms_test/0,
         forged_names_test/0, log_lines_test/0, foreign_lines_test/0, broken_end_test/0,
         strays_test/0, out_of_range_test/0, compressed_test/0, releases_test/0, equal_maps_test/0,
         before_events_test/0, ttb_names_test_/0, long_text_test_/0, million_events_test_/0]).
-export([many_calls/2, watched/1]).

%% 1,000 files with bytes flipped, cut, doubled or exchanged, by a fixed seed. Nothing crashes, no
%% atom is made, and memory stays below ten times the file's size and 100 MB.
damaged_files_test_() ->
    {timeout, 300, fun() ->
        Originals =
            [{Suffix, Bytes} || {Suffix, File} <- originals(),
             {ok, Bytes} <- [file:read_file(File)]],
        [_, _, _, _, _] = Originals,
        _ = rand:seed(exsss, {35, 1, 2026}),
        _ = [converted(Suffix, Bytes) || {Suffix, Bytes} <- Originals],
        %% Loading a module makes its atoms.
        Beams = filelib:wildcard(filename:join([seqaudit_audits:home(), "ebin", "*.beam"])),
        _ = [code:ensure_loaded(list_to_atom(filename:basename(Beam, ".beam"))) || Beam <- Beams],
        Atoms = erlang:system_info(atom_count),
        Results = [begin
                       {Suffix, Bytes} = lists:nth(N rem length(Originals) + 1, Originals),
                       converted(Suffix, damaged(Bytes))
                   end || N <- lists:seq(1, 1_000)],
        Atoms = erlang:system_info(atom_count),
        1_000 = length(Results),
        true = length([bundle || bundle <- Results]) > 100,
        true = length([sentence || sentence <- Results]) > 100
    end}.

%% Each form of file, of the same events.
originals() ->
    Name = seqaudit_audits:file("whole"),
    Server = seqaudit_test_server:start(fun(X) -> X end),
    ok = seqaudit_trace:start(#{name => Name}),
    [seqaudit_trace:with_trace({label, K}, [send, 'receive', print, timestamp], fun() ->
         K = gen_server:call(Server, K),
         seq_trace:print(#{k => K, 2.5 => "text", <<"b">> => [a | b]})
     end) || K <- lists:seq(1, 20)],
    {ok, _} = seqaudit_trace:stop(),
    {ok, [#{events := Events}]} = seqaudit_test_files:read(Name ++ ".events"),
    ok = file:write_file(Name ++ ".txt", unicode:characters_to_binary(
        [io_lib:format("~tp~n", [Event]) || Event <- Events])),
    ok = file:write_file(Name ++ ".bin", term_to_binary(Events)),
    %% As ttb writes it: a process is a triple.
    Triple = fun(Pid) when is_pid(Pid) -> {Pid, {erlang, apply, 2}, node()}; (Other) -> Other end,
    ok = file:write_file(Name ++ ".trace",
        [[<<0, (byte_size(Bytes)):32>>, Bytes]
         || {seq_trace, Label, {Kind, Serial, From, To, Message}, Time} <- Events,
            Bytes <- [term_to_binary({seq_trace, Label,
                                      {Kind, Serial, Triple(From), Triple(To), Message},
                                      Time})]]),
    %% The file that ttb writes next to its trace: the name of each process.
    Pids = lists:usort([Pid || {seq_trace, _, {_, _, From, To, _}, _} <- Events, Pid <- [From, To],
                        is_pid(Pid)]),
    ok = file:write_file(Name ++ ".trace.ti",
        [[byte_size(Bytes), Bytes] || Pid <- Pids, Called <- [server, {erlang, apply, 2}],
                                      Bytes <- [term_to_binary({pid, {Pid, Called}})]]),
    [{Suffix, Name ++ Suffix} || Suffix <- [".events", ".txt", ".bin", ".trace", ".trace.ti"]].

damaged(Bytes) ->
    lists:foldl(fun(_, Now) -> damage(rand:uniform(4), Now) end, Bytes,
                lists:seq(1, rand:uniform(3))).

damage(_, Bytes) when byte_size(Bytes) < 8 ->
    Bytes;
damage(1, Bytes) ->
    At = rand:uniform(byte_size(Bytes)) - 1,
    <<Before:At/binary, _, Behind/binary>> = Bytes,
    <<Before/binary, (rand:uniform(256) - 1), Behind/binary>>;
damage(2, Bytes) ->
    binary:part(Bytes, 0, rand:uniform(byte_size(Bytes)));
damage(3, Bytes) ->
    %% Two stretches change places.
    [A, B] = lists:sort([rand:uniform(byte_size(Bytes)), rand:uniform(byte_size(Bytes))]),
    Size = min(rand:uniform(40), min(B - A, byte_size(Bytes) - B)),
    <<Begin:A/binary, First:Size/binary, Rest/binary>> = Bytes,
    Middle = B - A - Size,
    <<Between:Middle/binary, Second:Size/binary, End/binary>> = Rest,
    <<Begin/binary, Second/binary, Between/binary, First/binary, End/binary>>;
damage(4, Bytes) ->
    %% Four bytes of a length become great.
    At = rand:uniform(byte_size(Bytes) - 4),
    <<Before:At/binary, _:4/binary, Behind/binary>> = Bytes,
    <<Before/binary, (rand:uniform(16#FFFF_FFFF)):32, Behind/binary>>.

%% Whether the file became a bundle, or a sentence said why it didn't. Names are beside a trace that
%% is whole, so however they are damaged there is a bundle.
converted(".trace.ti", Bytes) ->
    Trace = seqaudit_audits:file("damaged_names.trace"),
    {ok, Size} = file:copy(seqaudit_audits:file("whole.trace"), Trace),
    ok = file:write_file(Trace ++ ".ti", Bytes),
    bundle = converted_in(Trace, Size + byte_size(Bytes));
converted(Suffix, Bytes) ->
    File = seqaudit_audits:file("damaged" ++ Suffix),
    ok = file:write_file(File, Bytes),
    converted_in(File, byte_size(Bytes)).

converted_in(File, Size) ->
    {Peak, Result} = watched(fun() ->
        seqaudit_convert:from_files([File], seqaudit_audits:file("damaged_out"))
    end),
    true = Peak < 10 * Size + 100_000_000,
    case Result of
        {ok, #{notes := Notes}} ->
            [] = [Note || Note <- Notes, lists:member($\n, Note)],
            bundle;
        {error, Reason} ->
            Sentence = seqaudit_events:format_error(Reason),
            false = lists:member($\n, Sentence),
            sentence
    end.

%% By how much the memory grew at most, looked at again and again.
watched(Do) ->
    garbage_collect(),
    Base = erlang:memory(total),
    Watcher = spawn(fun() -> watch(0) end),
    Result = Do(),
    Watcher ! {self(), peak},
    receive {Watcher, Peak} -> {max(0, Peak - Base), Result} end.

watch(Peak) ->
    receive
        {Asker, peak} -> Asker ! {self(), max(Peak, erlang:memory(total))}
    after 1 ->
        watch(max(Peak, erlang:memory(total)))
    end.

%% Each byte of events whose messages have parts of all kinds, one of a newer release among them,
%% becomes each tag, and small and great numbers. Nothing crashes, no atom is made, and each entry
%% is an event or is counted.
damaged_bytes_test_() ->
    {timeout, 300, fun() ->
        [First | _] = Events = all_kinds(),
        _ = damaged_bytes(First),
        Atoms = erlang:system_info(atom_count),
        Kept = [damaged_bytes(Event) || Event <- Events],
        Atoms = erlang:system_info(atom_count),
        [] = [Few || Few <- Kept, Few < 1_000]
    end}.

damaged_bytes(Event) ->
    Values = lists:seq(0, 4) ++ lists:seq(66, 122) ++ [127, 128, 195, 254, 255],
    Entries = [[<<0, (byte_size(Event)):32>>, Before, Value, Behind]
               || At <- lists:seq(1, byte_size(Event) - 1), Value <- Values,
                  {Before, <<_, Behind/binary>>} <- [split_binary(Event, At)]],
    Name = seqaudit_audits:file("damaged_bytes"),
    ok = file:write_file(Name ++ ".trace", Entries),
    {ok, #{events := Kept, dropped := Dropped, notes := Notes}} =
        seqaudit_convert:from_files([Name ++ ".trace"], Name),
    [] = [Note || Note <- Notes, lists:member($\n, Note)],
    {Kept, true} = {Kept, Kept + Dropped =:= length(Entries)},
    Kept.

%% Events of which the parts in front of the newer one, and those behind it, are all kinds of terms;
%% and those that a conversion takes apart.
all_kinds() ->
    Newer = <<68, 1, 2, 3>>,
    Atom = fun(Name) -> <<119, (byte_size(Name)), Name/binary>> end,
    Pid = <<88, (Atom(<<"a@h">>))/binary, 80:32, 0:32, 7:32>>,
    Reference = <<90, 1:16, (Atom(<<"a@h">>))/binary, 7:32, 9:32>>,
    Kinds = [<<100, 1:16, 233>>, Atom(<<"größe"/utf8>>), <<70, 2.5/float>>, <<77, 1:32, 3, 160>>,
             <<107, 2:16, 1, 2>>,
             <<110, 9, 1, 1:72>>, <<111, 2:32, 0, 1, 2>>, <<109, 2:32, 195, 182>>,
             <<105, 1:32, 106>>,
             <<113, (Atom(<<"m">>))/binary, (Atom(<<"f">>))/binary, 97, 1>>,
             <<120, (Atom(<<"a@h">>))/binary, 8:64, 7:32>>,
             <<112, 62:32, 1, 1:128, 5:32, 1:32, (Atom(<<"m">>))/binary, 97, 5, 98, 99:32,
               Pid/binary, 97, 3>>,
             <<67, 1:32, 0, (Atom(<<"nr">>))/binary, (Atom(<<"point">>))/binary,
               (Atom(<<"x">>))/binary, 97, 4>>,
             <<108, 2:32, 97, $a, 97, $b, 106>>,
             <<116, 2:32, 97, 2, 106, (Atom(<<"k">>))/binary, 97, 1>>],
    Tuple = fun(Parts) -> [<<104, (length(Parts))>>, Parts] end,
    Event = fun(Message) ->
                    iolist_to_binary([131, Tuple([Atom(<<"seq_trace">>), <<97, 1>>,
                        Tuple([Atom(<<"send">>), Tuple([<<97, 0>>, <<97, 1>>]), Pid, Pid,
                               Message])])])
            end,
    [Event(Message)
     || Message <- [Tuple(Kinds), Tuple(Kinds ++ [Newer]), Tuple([Newer | Kinds]),
                    [<<116, 3:32>>, Atom(<<"b">>), <<108, 2:32>>, Newer, <<97, 1, 106>>,
                     Atom(<<"a">>), <<97, 1>>,
                     Atom(<<"c">>), <<97, 2>>],
                    [<<112, 62:32, 1, 1:128, 5:32, 1:32>>, Atom(<<"m">>), <<97, 5, 98, 99:32>>, Pid,
                     Newer],
                    [<<113>>, Atom(<<"m">>), Newer],
                    [<<108, 4:32>>, [<<97, C>> || C <- "text"], Newer],
                    Tuple([Atom(<<"$gen_call">>),
                           Tuple([Pid, [<<108, 1:32>>, Atom(<<"alias">>), Reference]]), Newer]),
                    Tuple([Atom(<<"spawn_request">>), Reference, Pid, Pid,
                           Tuple([Atom(<<"m">>), Atom(<<"f">>), <<97, 1>>]), <<106>>, Atom(<<"t">>),
                           Newer]),
                    Tuple([Atom(<<"spawn_reply">>), Reference, Atom(<<"ok">>), Newer])]].

%% Files that claim much, or that are large and say little: 10 times their size and 100 MB are
%% enough.
swapped_files_test_() ->
    {timeout, 300, fun() ->
        Event = fun(Message) ->
                        %% The message comes last; a small number has two bytes in each release of
                        %% OTP.
                        <<131, Rest/binary>> =
                            term_to_binary({seq_trace, 1, {print, {0, 1}, self(), [], 17}}),
                        Size = byte_size(Rest) - 2,
                        <<Head:Size/binary, 97, 17>> = Rest,
                        Bytes = <<131, Head/binary, Message/binary>>,
                        <<0, (byte_size(Bytes)):32, Bytes/binary>>
                end,
        Million = 2_000_000,
        [_ = converted(".trace", Bytes)
         || Bytes <- [Event(<<108, 16#FFFF_FFFF:32>>), Event(<<105, 16#FFFF_FFFF:32>>),
                      Event(<<116, 16#FFFF_FFFF:32>>), Event(<<111, 16#FFFF_FFFF:32, 0, 1>>),
                      Event(<<(binary:copy(<<104, 1>>, Million))/binary, 106>>),
                      Event(<<(binary:copy(<<108, 1:32>>, Million div 2))/binary,
                              (binary:copy(<<106>>, Million div 2 + 1))/binary>>),
                      Event(<<108, Million:32, (binary:copy(<<106>>, Million))/binary, 106>>),
                      Event(<<116, Million:32, (binary:copy(<<97, 1, 106>>, Million))/binary>>),
                      Event(<<(binary:copy(<<116, 1:32, 97, 1>>, Million div 4))/binary, 106>>),
                      binary:copy(Event(<<107, 60_000:16, 0:480_000>>), 100),
                      binary:copy(<<1, 5:32>>, Million)]],
        [_ = converted(".txt", Bytes)
         || Bytes <- [binary:copy(<<"[">>, Million), binary:copy(<<"{">>, Million),
                      binary:copy(<<"1,">>, Million),
                      <<"[", (binary:copy(<<"1,">>, Million))/binary, "1]">>,
                      binary:copy(<<"{\n">>, Million div 2), binary:copy(<<"<0<">>, Million div 4),
                      <<"{", (binary:copy(<<"9">>, Million))/binary, "}">>,
                      binary:copy(<<"\"">>, Million), binary:copy(<<"#{">>, Million div 2)]]
    end}.

%% Atoms of a file that this Erlang doesn't have are printed, and not made.
no_atoms_test() ->
    Word = "never_seen_" ++ [$a + rand:uniform(26) - 1 || _ <- lists:seq(1, 20)],
    File = seqaudit_audits:file("no_atoms.txt"),
    ok = file:write_file(File, ["%% node ", Word, "@h\n{seq_trace,{", Word, ",'", Word,
                                " quoted'},{print,{0,1},<0.80.0>,[],#{", Word, " => ", Word,
                                "}}}\n"]),
    Name = seqaudit_audits:file("no_atoms"),
    {ok, #{events := 1}} = seqaudit_convert:from_files([File], Name),
    _ = try list_to_existing_atom("warm up the exception path") catch error:badarg -> none end,
    Atoms = erlang:system_info(atom_count),
    {ok, #{events := 1}} = seqaudit_convert:from_files([File], Name),
    Atoms = erlang:system_info(atom_count),
    none = try list_to_existing_atom(Word) catch error:badarg -> none end,
    {ok, Terms} = file:read_file(Name ++ ".terms"),
    {_, _} = binary:match(Terms, list_to_binary(["{", Word, ",'", Word, " quoted'}"])),
    {_, _} = binary:match(Terms, list_to_binary(["#{", Word, " => ", Word, "}"])),
    {_, _} = binary:match(Terms, list_to_binary(["process <0.80.0> of node ", Word, "@h"])).

%% A name of a node or a process makes no line of its own in any output.
forged_names_test() ->
    Node = 'a@h\nprocess\t<0.1.0>\tforged\tforged',
    Name = 'srv\nvalue\t0\tforged',
    #{seqtrace := Bundle, terms := Terms, notes := Notes} =
        seqaudit_test_files:convert(
          [#{node => Node, dropped => 3, processes => #{pid(Node, 80) => #{name => Name}},
             events => [{seq_trace, 'l\nlabel',
                         {print, {0, 1}, pid(Node, 80), [], 'm\nvalue\t1\tforged'}},
                        {seq_trace, 1, {send, {0, 1}, pid('b@h', 80), {Name, Node}, x}}]}]),
    [] = [Note || Note <- Notes, lists:member($\n, Note)],
    Lines = binary:split(iolist_to_binary(Terms), <<"\n">>, [global, trim]),
    [] = [Line || Line <- Lines, binary:match(Line, <<"\tforged\tforged">>) =/= nomatch],
    ["l", "l", "p", "p", "p", "s", "v", "v"] =
        lists:sort([[hd(binary_to_list(Line))] || Line <- Lines]),
    {match, _} = re:run(Bundle, "^seqtrace 2\nprocess [^\n]*\n(.*\n)*$").

pid(Node, Number) ->
    <<131, Atom/binary>> = term_to_binary(Node),
    binary_to_term(<<131, 88, Atom/binary, Number:32, 0:32, 0:32>>).

%% The words that logger and others write in front of an event are passed over, with lines of other
%% things.
log_lines_test() ->
    Event = fun(K) ->
        io_lib:format("~p",
                      [{seq_trace, 1, {print, {K, K + 1}, self(), [], {a, "long text", K}}}]) end,
    Text = iolist_to_binary(["2026-11-23T10:00:00.123456+00:00 notice: application started\n",
                             "2026-11-23T10:00:00.123456+00:00 info: ", Event(0), "\n",
                             "[info] <0.99.0> ", Event(1), "\n", Event(2), ".\n",
                             "=INFO REPORT==== 23-Nov-2026::10:00:00 ===\n",
                             "10:00:00.000 [debug] {seq_trace,1,\n   {print,{3,4},<0.80.0>,\n     "
                             "[],x}} trailing\n"]),
    {ok, [{_, [_, _, _, {seq_trace, 1, {print, {3, 4}, _, [], x}}]}]} =
        seqaudit_test_files:text(Text),
    %% Without any event the first line that isn't understood is named.
    {error, {1, "this isn't an Erlang term" ++ _}} =
        seqaudit_test_files:text(<<"2026-11-23 info: started\nok\n">>),
    {error, {2, _}} = seqaudit_test_files:text(<<"ok\n2026-11-23 info: {seq_trace,1,\n">>).

%% Events at the beginnings of lines, between lines of other things: these are counted, and the
%% trace lacks nothing.
foreign_lines_test() ->
    Event = fun(K) ->
        io_lib:format("{seq_trace,1,{print,{~b,~b},<0.80.0>,[],x}}~n", [K, K + 1]) end,
    {[_, _, _], Notes, []} =
        text_converted(["hello world\n", Event(0), "=INFO REPORT====\n'tis\n", Event(1),
                        Event(2)]),
    ["convert passed over 3 lines without an event of seq_trace; the first is " ++ First] = Notes,
    true = lists:suffix("lines.txt, line 1", First),
    %% An event that can't be read, and isn't the end of the text, is an error at its own line.
    [{error, {Line, _}} = seqaudit_test_files:text(iolist_to_binary(Lines))
     || {Line, Lines} <- [{3, ["hello world\n", Event(0), "{seq_trace,1,{print,{1,\n", Event(2)]},
                          {2, [Event(0), "{seq_trace,1,{print,{1,2},<0.80>,[],x}}\n"]}]].

%% A text that ends within an event has what comes before it, wherever it ends and whatever is in
%% the message.
broken_end_test() ->
    Event = fun(K) -> unicode:characters_to_binary(io_lib:format(
                          "{seq_trace,1,~n  {print,{~b,~b},<0.80.0>,[],\"a\\\"}]}é'\"}}~n",
        [K, K + 1])) end,
    Text = <<(Event(0))/binary, (Event(1))/binary>>,
    [begin
         {[_], _, [Loss]} = text_converted(binary:part(Text, 0, Size)),
         {match, [Bytes]} =
             re:run(Loss, "left out the last ([0-9]+) bytes, from .*lines.txt, line 3 on, where an "
                          "event isn't whole$", [{capture, [1], list}]),
         {Size, Left} = {Size, byte_size(Event(0)) + list_to_integer(Bytes)},
         Left = Size
     end || Size <- lists:seq(byte_size(Event(0)) + 12, byte_size(Text) - 2, 9)],
    ok.

%% Entries that begin as those of seq_trace are named by their lines, and the trace lacks them;
%% others are only noted.
strays_test() ->
    {[_], Notes, [Loss]} = text_converted(["{seq_trace,1,{print,{0,1},<0.80.0>,[],x}}\n",
                                           "{seq_trace,1,{recieve,{0,1},<0.80.0>,<0.81.0>,x}}\n",
                                           "hello.\n"]),
    {_, _} = binary:match(Loss,
                          <<"convert left out 1 entry of seq_trace whose form it doesn't know: ">>),
    {_, _} = binary:match(Loss,
                          <<"lines.txt, line 2: "
                            "{seq_trace,1,{recieve,{0,1},<0.80.0>,<0.81.0>,x}}">>),
    [_] = [Note || Note <- Notes,
           string:find(Note, "left out 1 entry that seq_trace doesn't write: ") =/= nomatch,
                   lists:suffix("lines.txt, line 3: hello", Note)].

%% The events of a text, the notes, and what is said to be missing in the trace.
text_converted(Text) ->
    Name = seqaudit_audits:file("lines"),
    ok = file:write_file(Name ++ ".txt", Text),
    {ok, #{notes := Notes}} = seqaudit_convert:from_files([Name ++ ".txt"], Name),
    {seqaudit_test_traces:events(Name), Notes, seqaudit_test_traces:losses(Name)}.

out_of_range_test() ->
    [{error, {1, Reason}} = seqaudit_test_files:text(Text)
     || {Text, Reason} <- [{<<"<0.4294967296.0>">>, "the number 4294967296 is out of range"},
                           {<<"<0.1.99999999999>">>, "the number 99999999999 is out of range"},
                           {<<"#Port<0.18446744073709551616>">>,
                            "the number 18446744073709551616 is out of range"},
                           {<<"#Ref<0.1.4294967296>">>, "the number 4294967296 is out of range"},
                           {<<"<0.1>">>, "a pid hasn't 2 numbers"},
                           {<<"<0.1.">>, "this isn't an Erlang term: a < isn't closed"},
                           {<<"<0.1.>">>, "a number is missing or out of range in <\"0.1.\">"}]],
    {ok, [_]} = seqaudit_test_files:text(<<"<0.4294967295.4294967295>">>).

%% A compressed list is refused, however much it unpacks to.
compressed_test() ->
    File = seqaudit_audits:file("compressed.bin"),
    ok = file:write_file(File,
                         term_to_binary([binary:copy(<<0>>, 100_000_000)], [{compressed, 9}])),
    {error, {not_events, File} = Reason} = seqaudit_test_files:read(File),
    true = string:find(seqaudit_events:format_error(Reason), "(not compressed)") =/= nomatch.

%% Equal terms have equal bytes, whatever release wrote them: atoms and ports of OTP 25 and of later
%% ones.
releases_test() ->
    Read = fun(Bytes) -> {ok, Term} = seqaudit_external:read(Bytes), Term end,
    Node = <<100, 3:16, "a@h">>,
    [Old, Old] = [Read(<<131, 100, 2:16, "ok">>), Read(<<131, 119, 2, "ok">>)],
    [Latin, Latin] = [Read(<<131, 100, 1:16, 228>>), Read(<<131, 119, 2, "ä"/utf8>>)],
    [Port, Port] =
        [Read(<<131, 89, Node/binary, 5:32, 2:32>>), Read(<<131, 120, 119, 3, "a@h", 5:64, 2:32>>)],
    Events = [{seq_trace, K, {print, {0, 1}, self(), [], {ok, #{a => [K]}}}} || K <- [1, 2]],
    [begin
         File = seqaudit_audits:file("release.bin"),
         ok = file:write_file(File, term_to_binary(Events, [{minor_version, Minor}])),
         {ok, [#{events := Events}]} = seqaudit_test_files:read(File)
     end || Minor <- [1, 2]].

%% Maps are equal in whichever order a node writes their pairs.
equal_maps_test() ->
    Read = fun(Bytes) -> {ok, Term} = seqaudit_external:read(Bytes), Term end,
    [Same, Same] = [Read(<<131, 116, 2:32, 97, 1, 97, 2, 97, 3, 106>>),
                    Read(<<131, 116, 2:32, 97, 3, 106, 97, 1, 97, 2>>)],
    "#{1 => 2,3 => []}" = seqaudit_terms:encoded(Same, #{}),
    Nested = fun(Inner) -> Read(<<131, 104, 1, 116, 2:32, 97, 9, Inner/binary, 97, 1, 97, 2>>) end,
    [Deep, Deep] =
        [Nested(<<116, 2:32, 97, 1, 97, 2, 97, 3, 106>>),
         Nested(<<116, 2:32, 97, 3, 106, 97, 1, 97, 2>>)].

%% Before an event in a file there is a byte, and four with the event's size, the greatest first: so
%% a trace port writes it, and so it is read and written here.
before_events_test() ->
    Name = seqaudit_audits:file("before_events"),
    <<131, _/binary>> = Event =
        term_to_binary({seq_trace, 1, {print, {0, 1}, self(), [], lists:duplicate(300, x)}}),
    Size = byte_size(Event),
    [Third, Fourth] = [Size div 256, Size rem 256],
    true = Third > 0 andalso Third =/= Fourth,
    Entry = <<0, 0, 0, Third, Fourth, Event/binary>>,
    ok = file:write_file(Name ++ ".trace", [Entry, Entry]),
    {ok, #{events := 2}} = seqaudit_convert:from_files([Name ++ ".trace"], Name),
    ok = file:write_file(Name ++ ".trace", <<0, Fourth, Third, 0, 0, Event/binary>>),
    {error, {broken_trace, _, _}} = seqaudit_convert:from_files([Name ++ ".trace"], Name),
    [begin
         ok = seqaudit_trace:start(#{name => Name, port => Port}),
         Long = lists:duplicate(300, x),
         seqaudit_trace:with_trace(1, fun() -> seq_trace:print(Long) end),
         {ok, #{events := 1}} = seqaudit_trace:stop(),
         {ok, <<"seqaudit events 2\n", Entries/binary>>} = file:read_file(Name ++ ".events"),
         [Written] = [Bytes || <<131, _/binary>> = Bytes <- by_size(Entries)],
         {seq_trace, 1, {print, _, _, _, Long}} = binary_to_term(Written)
     end || Port <- [true, false]],
    ok.

%% The events of these entries, by the four bytes of their sizes.
by_size(<<0, A, B, C, D, Rest/binary>>) ->
    {Event, Others} = split_binary(Rest, ((A * 256 + B) * 256 + C) * 256 + D),
    [Event | by_size(Others)];
by_size(<<_, A, B, C, D, Rest/binary>>) ->
    {_, Others} = split_binary(Rest, ((A * 256 + B) * 256 + C) * 256 + D),
    by_size(Others);
by_size(<<>>) -> [].

%% A trace of ttb has names beside it.
ttb_names_test_() ->
    {timeout, 60, fun() ->
        case code:ensure_loaded(ttb) of
            {module, ttb} -> seqaudit_test_nodes:with_second("ttb", fun ttb/1);
            {error, _} -> io:format(user, "ttb: skipped, it isn't here (erlang-observer)~n", [])
        end
    end}.

ttb(There) ->
    Folder = filename:dirname(seqaudit_audits:file("x")),
    ok = erpc:call(There, file, set_cwd, [Folder]),
    [ok = file:delete(File) || File <- filelib:wildcard(filename:join(Folder, "*ttb_names*"))],
    ok = erpc:call(There, seqaudit_test_server, begin_shop, []),
    {ok, _} = erpc:call(There, ttb, tracer, [There, [{file, filename:join(Folder, "ttb_names")}]]),
    {ok, _} = erpc:call(There, ttb, p, [all, [call]]),
    true = erpc:call(There, seqaudit_test_server, with_token, [fun seqaudit_test_server:order/1]),
    _ = erpc:call(There, ttb, stop, [nofetch]),
    [File] = [File || File <- filelib:wildcard(filename:join(Folder, "*ttb_names*")),
                      filename:extension(File) =/= ".ti"],
    Name = seqaudit_audits:file("ttb"),
    {ok, #{events := Events}} = seqaudit_convert:from_files([File], Name),
    true = Events >= 4,
    {ok, Terms} = file:read_file(Name ++ ".terms"),
    {_, _} = binary:match(Terms, <<"\tseqaudit_test_shop\t">>).

%% A text is read in time that grows as it does: 40,000 events in some seconds of the processor. A
%% reader that looks at all that follows, once for each process, takes more than a minute.
long_text_test_() ->
    {timeout, 180, fun() ->
        File = seqaudit_audits:file("long.txt"),
        Line = fun(K) -> io_lib:format("~0p~n",
                                       [{seq_trace, 1,
                                         {send, {K, K + 1}, self(), self(),
                                          {from, self(), K}}}]) end,
        ok = file:write_file(File, [Line(K) || K <- lists:seq(1, 40_000)]),
        {Before, _} = statistics(runtime),
        {ok, #{events := 40_000}} =
            seqaudit_convert:from_files([File], seqaudit_audits:file("long_text")),
        {After, _} = statistics(runtime),
        true = After - Before < 30_000
    end}.

%% 1,000,000 events convert in 600 MB by the system's count, on a node of its own, and in 60 s of
%% the processor, four times what they take. On a machine with nothing else to do that's 10 s of the
%% clock: LONG=1 demands it.
million_events_test_() ->
    {timeout, 300, fun() ->
        {Calls, Bytes} = {250_000, 600_000_000},
        File = seqaudit_audits:file("many.trace"),
        ok = many_calls(File, Calls),
        seqaudit_test_nodes:with_second("a million events", fun(There) ->
            {Microseconds, Processor, Peak} = converted_there(There, File, 4 * Calls),
            io:format(user, "~b events: ~b ms, ~b ms of the processor, ~b MB~n",
                      [4 * Calls, Microseconds div 1_000, Processor, Peak div 1_000_000]),
            true = Peak < Bytes,
            true = Processor < 60_000,
            true = os:getenv("LONG") =:= false orelse Microseconds < 10_000_000
        end)
    end}.

%% How long it took by the clock and of the processor, and the greatest memory of the node.
converted_there(There, File, Count) ->
    true = erpc:call(There, code, add_patha, [filename:dirname(code:which(seqaudit_convert))]),
    Name = seqaudit_audits:file("many_events"),
    {Before, _} = erpc:call(There, erlang, statistics, [runtime]),
    {Microseconds, {ok, #{events := Count}}} =
        erpc:call(There, timer, tc, [seqaudit_convert, from_files, [[File], Name]]),
    {After, _} = erpc:call(There, erlang, statistics, [runtime]),
    {Microseconds, After - Before, seqaudit_test_nodes:peak(There)}.

many_calls(File, Calls) ->
    Pids = list_to_tuple([pid('many@h', N) || N <- lists:seq(100, 149)]),
    {ok, Device} = file:open(File, [write, raw, binary, {delayed_write, 1_000_000, 1_000}]),
    lists:foreach(fun(K) ->
        Client = element(K rem 25 + 1, Pids),
        Server = element(K rem 25 + 26, Pids),
        [Alias, At] = [make_ref(), 2 * (K div 25)],
        Call = {'$gen_call', {Client, [alias | Alias]}, {order, apple, K}},
        Reply = {Alias, {left, K}},
        [begin
             Bytes = term_to_binary({seq_trace, K rem 100, Info}),
             ok = file:write(Device, [<<0, (byte_size(Bytes)):32>>, Bytes])
         end || Info <-
                    [{send, {At, At + 1}, Client, Server, Call},
                     {'receive', {At, At + 1}, Client, Server, Call},
                     {send, {At + 1, At + 2}, Server, Alias, Reply},
                     {'receive', {At + 1, At + 2}, Server, Client, Reply}]]
    end, lists:seq(1, Calls)),
    file:close(Device).
