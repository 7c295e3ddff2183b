%% Programs run on real nodes, and what gemshowal says of their traces is what is kept in
%% `expected'.
%%
%% Pids and references, which differ from run to run, are numbered by their first places. With the
%% variable EXPECT set to a folder, the texts are written there instead of compared.
-module(seqaudit_answers_tests).

-export([second_trace_test_/0, workers_test_/0, supervisor_test_/0, flags_test_/0, reset_test_/0,
         early_stop_test_/0, lost_node_test_/0]).
-export([init/1, echo/0]).

-define(ALL, [send, 'receive', print]).

%% A shop that has served 5,000 orders, and one more that is traced.
second_trace_test_() ->
    said("second", fun(Name) ->
        with_shop(fun() ->
            as(customer, fun() ->
                seqaudit_trace:with_trace(before,
                                          fun() -> [order(apple, 1)
                                                    || _ <- lists:seq(1, 5_000)] end),
                ok = seqaudit_trace:start(#{name => Name}),
                seqaudit_trace:with_trace({order, 5_001}, fun() -> order(apple, 3) end)
            end)
        end),
        stopped()
    end, [["audit"], ["chart", "--label", "{order,5001}"], ["why", "post#1"]]).

%% Ten workers that are spawned inside a request.
workers_test_() ->
    said("workers", fun(Name) ->
        Boss = stays(fun boss/0),
        true = register(boss, Boss),
        ok = seqaudit_trace:start(#{name => Name}),
        as(customer, fun() ->
            seqaudit_trace:with_trace(job, fun() -> Boss ! {do, self()},
                                      receive {sum, 55} -> ok end end)
        end),
        stopped()
    end, [["audit"], ["why", "boss#12"], ["chart", "--label", "job"]]).

boss() ->
    receive {do, Client} -> ok end,
    Self = self(),
    Workers = [spawn(fun() -> Self ! {done, self(), N} end) || N <- lists:seq(1, 10)],
    Client ! {sum, lists:sum([receive {done, Worker, N} -> N end || Worker <- Workers])}.

%% A supervisor that starts five children.
supervisor_test_() ->
    said("supervisor", fun(Name) ->
        {module, _} = code:ensure_loaded(seqaudit_test_server),
        ok = seqaudit_trace:start(#{name => Name}),
        as(owner, fun() ->
            {ok, _} = seqaudit_trace:with_trace(boot, fun() ->
                supervisor:start_link({local, tree}, ?MODULE, [])
            end)
        end),
        stopped()
    end, [["audit"], ["why", "owner#2"]]).

init([]) ->
    {ok, {#{}, [#{id => N,
                  start => {gen_server, start_link, [seqaudit_test_server, fun(X) -> X end, []]}}
                || N <- lists:seq(1, 5)]}}.

%% One flag alone, on five processes that write to each other.
flags_test_() ->
    [said(atom_to_list(Flag) ++ "_alone", fun(Name) ->
         ok = seqaudit_trace:start(#{name => Name}),
         five([Flag]),
         stopped()
     end, [["audit"], ["chart", "--label", "work"]]) || Flag <- ?ALL].

%% Each of the five has a list of what it does, in one order that can be kept.
five(Flags) ->
    Names = [ann, ben, cat, dan, eve],
    Steps = steps(Names, 20),
    Self = self(),
    Players = [stays(fun() ->
                         play(Name, [Step || {Who, Step} <- Steps, Who =:= Name]),
                         seq_trace:set_token([]),
                         Self ! {played, Name}
                     end) || Name <- Names],
    [true = register(Name, Player) || {Name, Player} <- lists:zip(Names, Players)],
    ann ! {begin_with, Flags},
    [receive {played, Name} -> ok after 60_000 -> error({timeout, Name}) end || Name <- Names],
    ok.

%% A token goes round once, so that all have it; then messages cross.
steps(Names, Count) ->
    Round = lists:append([[{From, {send, To, {hello, To}}}, {To, {wait, {hello, To}}}]
                          || {From, To} <- lists:zip(lists:droplast(Names), tl(Names))]),
    Round ++ crossing(Count, 17, Names, []).

crossing(0, _Seed, _Names, Open) ->
    [{To, {wait, Message}} || {To, Message} <- Open];
crossing(Count, Seed, Names, Open) ->
    Next = (Seed * 75 + 74) rem 65_537,
    From = lists:nth(1 + Next rem 5, Names),
    To = lists:nth(1 + (Next + 1 + Next div 5 rem 4) rem 5, Names),
    Sent = [{From, {send, To, {note, Count}}} | [{From, {print, {wrote, Count}}}
                                                 || Count rem 5 =:= 0]],
    {Taken, Left} = case {Next div 20 rem 3, Open ++ [{To, {note, Count}}]} of
                        {0, All} -> {[], All};
                        {_, [Oldest | Rest]} -> {[Oldest], Rest}
                    end,
    Sent ++ [{One, {wait, Message}} || {One, Message} <- Taken]
        ++ crossing(Count - 1, Next, Names, Left).

play(ann, Steps) ->
    receive
        {begin_with, Flags} ->
            seqaudit_trace:with_trace(work, Flags, fun() -> [step(Step) || Step <- Steps] end)
    end;
play(_, Steps) ->
    [step(Step) || Step <- Steps].

step({send, To, Message}) -> To ! Message;
step({wait, Message}) -> receive Message -> ok end;
step({print, What}) -> seq_trace:print(What).

%% Two customers, one after the other, with a reset between.
reset_test_() ->
    said("reset", fun(Name) ->
        ok = seqaudit_trace:start(#{name => Name}),
        with_shop(fun() ->
            as(ann, fun() -> seqaudit_trace:with_trace(first, fun() -> order(apple, 1) end) end),
            settled(),
            seq_trace:reset_trace(),
            as(ben, fun() -> seqaudit_trace:with_trace(second, fun() -> order(apple, 2) end) end)
        end),
        stopped()
    end, [["audit"], ["chart", "--label", "second"], ["why", "shop#9"]]).

%% A trace that is stopped after a second question was sent, and before it was received.
early_stop_test_() ->
    said("early_stop", fun(Name) ->
        Late = stays(fun() -> receive {From, 1} -> From ! {answer, 1} end end),
        true = register(late, Late),
        ok = seqaudit_trace:start(#{name => Name}),
        as(customer, fun() ->
            seqaudit_trace:with_trace(ask, fun() ->
                late ! {self(), 1},
                receive {answer, 1} -> ok end,
                late ! {self(), 2}
            end)
        end),
        {messages, [{_, 2}]} = process_info(Late, messages),
        stopped()
    end, [["audit"], ["chart", "--label", "ask"]]).

%% A node that is lost in the middle: what it had reported is on its disk, which is lost too or
%% isn't.
lost_node_test_() ->
    [said(Case, fun(Name) ->
         seqaudit_test_nodes:with_second(Case, fun(There) -> lost_node(There, Name, SharedDisk) end)
     end, [["audit"], ["chart", "--label", "ask"]])
     || {Case, SharedDisk} <- [{"lost_node", true}, {"lost_disk", false}]].

%% The customer gets one reply. Then the node goes, and nobody gets the second question.
lost_node(There, Name, SharedDisk) ->
    {_, Binary, File} = code:get_object_code(?MODULE),
    {module, _} = erpc:call(There, code, load_binary, [?MODULE, File, Binary]),
    Echo = spawn(There, ?MODULE, echo, []),
    ok = seqaudit_trace:start(#{name => Name, nodes => [node(), There]}),
    [_, {There, Folder}] = seqaudit_trace:folders(),
    _ = spawn_link(fun() ->
                       seqaudit_test_nodes:on_disk(Folder, 2),
                       ok = erpc:cast(There, erlang, halt, [])
                   end),
    as(customer, fun() ->
        seqaudit_trace:with_trace(ask, fun() ->
            Echo ! {self(), 1},
            receive {echo, 1} -> ok end,
            seqaudit_test_nodes:until(fun() -> not lists:member(There, nodes()) end),
            Echo ! {self(), 2}
        end)
    end),
    ok = application:set_env(seqaudit, shared_disk, SharedDisk),
    try stopped() after application:unset_env(seqaudit, shared_disk) end,
    [ok = seqaudit_spool:remove(Folder) || filelib:is_dir(Folder)].

echo() ->
    receive {From, N} -> From ! {echo, N} end,
    echo().

%% Helpers

with_shop(Do) ->
    Source = filename:join([filename:dirname(code:which(?MODULE)), "..", "..", "demo", "shop.erl"]),
    {ok, shop, Binary} = compile:file(Source, [binary]),
    {module, shop} = code:load_binary(shop, Source, Binary),
    ok = erlang:apply(shop, start, []),
    put(servers, [shop, stock, post]),
    Do(),
    settled().

order(Thing, Count) -> erlang:apply(shop, order, [Thing, Count]).

%% The post has had all that it was told, without a token.
settled() ->
    _ = sys:get_state(post),
    ok.

%% Does it in a process of this name.
as(Name, Do) ->
    Self = self(),
    Pid = stays(fun() -> true = register(Name, self()), Do(), Self ! {done, self()} end),
    receive {done, Pid} -> ok after 60_000 -> error({timeout, Name}) end.

%% A process that stays until the trace is stopped, so that the collector learns its name.
stays(Do) ->
    Pid = spawn_link(fun() -> Do(), receive leave -> ok end end),
    put(staying, [Pid | staying()]),
    Pid.

staying() ->
    case get(staying) of
        undefined -> [];
        Pids -> Pids
    end.

stopped() ->
    {ok, _} = seqaudit_trace:stop(),
    Monitors = [begin Pid ! leave, monitor(process, Pid) end || Pid <- staying()],
    [receive {'DOWN', Monitor, process, _, _} -> ok end || Monitor <- Monitors],
    erase(staying),
    [gen_server:stop(Server)
     || Server <- case erase(servers) of undefined -> []; Servers -> Servers end],
    ok.

said(Case, Trace, Commands) ->
    {Case, {timeout, 180, fun() ->
        Name = seqaudit_audits:file(Case),
        [file:delete(File) || File <- filelib:wildcard(Name ++ ".*")],
        Traced = Trace(Name),
        Traced =:= skipped orelse seqaudit_audits:with_gemshowal(Case, fun(_) ->
            Said = [[$$, $\s,
                     lists:join(" ",
                                ["gemshowal", hd(Words),
                                 Case | [quoted(Word) || Word <- tl(Words)]]),
                     $\n, command(Words, Name)] || Words <- Commands],
            compare(Case, normal(unicode:characters_to_binary(Said)))
        end)
    end}}.

quoted(Word) ->
    case re:run(Word, "[{#]") of
        nomatch -> Word;
        _ -> ["'", Word, "'"]
    end.

command([Command | Words], Name) ->
    {Status, Said} = seqaudit_audits:gemshowal([Command, Name | Words]),
    <<Said/binary, "(status ", (integer_to_binary(Status))/binary, ")\n">>.

%% Pids and references are numbered, nodes named, spaces that align set to two.
normal(Text) ->
    Numbered = lists:foldl(fun({Pattern, Word}, Done) -> number(Pattern, Word, Done) end, Text,
                           [{"<[0-9]+\\.[0-9]+\\.[0-9]+>", "<~b>"}, {"#Ref<[0-9.]+>", "#Ref<~b>"},
                            {"seqaudit_[ab]_[0-9]+@localhost", "node~b"},
                            {"/\\S*/seqaudit_[0-9a-f]+", "FOLDER~b"}]),
    lists:foldl(fun({Pattern, With}, Done) -> re:replace(Done, Pattern, With,
                                                         [global, multiline, {return, binary}]) end,
                Numbered, [{"[a-z_]+:[a-z_]+/[0-9]+ (?=<[0-9])", ""}, {"(?<=\\S)  +", "  "},
                           {"^ {3,}(?=\\S)", "  "},
                           {"/\\S*/test/out/", ""},
                           %% Where a term is cut short depends on the pids in it.
                           {"\\S*\\.\\.\\.", "..."}, {"#Fun<[^>\\n]*>", "#Fun<>"}]).

number(Pattern, Word, Text) ->
    case re:run(Text, Pattern, [global, {capture, first, binary}]) of
        nomatch ->
            Text;
        {match, Found} ->
            Different = lists:foldl(fun([One], Seen) ->
                                            case lists:member(One, Seen) of
                                                true -> Seen;
                                                false -> Seen ++ [One]
                                            end
                                    end, [], Found),
            lists:foldl(fun({N, One}, Done) ->
                                Numbered = unicode:characters_to_binary(io_lib:format(Word, [N])),
                                binary:replace(Done, One, Numbered, [global])
                        end, Text, lists:enumerate(Different))
    end.

compare(Case, Said) ->
    Kept = filename:join([filename:dirname(filename:dirname(seqaudit_audits:file("x"))), "expected",
                          Case ++ ".txt"]),
    case os:getenv("EXPECT") of
        false ->
            {ok, Expected} = file:read_file(Kept),
            case Said of
                Expected -> ok;
                _ -> error({said, Case, different(binary:split(Said, <<"\n">>, [global]),
                                                  binary:split(Expected, <<"\n">>, [global]))})
            end;
        Folder ->
            ok = file:write_file(filename:join(Folder, Case ++ ".txt"), Said)
    end.

different([Line | Said], [Line | Expected]) -> different(Said, Expected);
different(Said, Expected) -> {lists:sublist(Said, 3), in_place_of, lists:sublist(Expected, 3)}.
