%% The quotations in docs/ERLANG.md and docs/ERLANG-REFERENCE.md are what the commands print of the
%% traces that the first tells how to collect.
-module(seqaudit_guide_tests).

-export([guide_test_/0]).

guide_test_() ->
    {timeout, 240, fun() -> seqaudit_audits:with_gemshowal("the guide", fun guide/1) end}.

guide(Gemshowal) ->
    Folder = seqaudit_audits:file("guide"),
    _ = file:del_dir_r(Folder),
    ok = file:make_dir(Folder),
    collect(fun(Name) -> filename:join(Folder, Name) end),
    Docs = filename:join([seqaudit_audits:home(), "..", "docs"]),
    Quoted = lists:append([begin
                               {ok, Page} = file:read_file(filename:join(Docs, Name)),
                               quoted(binary:split(Page, <<"\n">>, [global]))
                           end || Name <- ["ERLANG.md", "ERLANG-REFERENCE.md"]]),
    %% Each of the four traces is audited, and the order is cut.
    [true = lists:any(fun({Command, _}) ->
        string:find(Command, "gemshowal audit " ++ Name) =/= nomatch end, Quoted)
     || Name <- ["order", "second", "flag", "reset", "order --process"]],
    [same(Command, Said, Folder, Gemshowal) || {Command, Said} <- Quoted].

%% The traces, as the guide makes them: by a process that has no name, and then by three others.
collect(File) ->
    Self = self(),
    Shell = spawn_link(fun() ->
                           receive {shop, Go} -> Go() end,
                           Self ! {self(), collected},
                           receive stop -> ok end
                       end),
    Source = filename:join([seqaudit_audits:home(), "demo", "shop.erl"]),
    {ok, shop, Binary} = compile:file(Source, [binary]),
    {module, shop} = code:load_binary(shop, Source, Binary),
    ok = erlang:apply(shop, start, []),
    Shell ! {shop, fun() ->
        traced(File("order"), fun() -> order({order, 7}, 3) end),
        traced(File("second"), fun() -> order({order, 8}, 1) end),
        traced(File("flag"), fun() -> [three(N) || N <- [11, 12, 13]] end),
        traced(File("reset"), fun() ->
            order({order, 20}, 1),
            settled(),
            seq_trace:reset_trace(),
            order({order, 21}, 1)
        end)
    end},
    receive {Shell, collected} -> ok after 60_000 -> error(timeout) end,
    Shell ! stop,
    [gen_server:stop(Server) || Server <- [shop, stock, post]].

traced(Name, Do) ->
    ok = seqaudit_trace:start(#{name => Name}),
    _ = Do(),
    settled(),
    {ok, _} = seqaudit_trace:stop().

order(Label, Count) ->
    seqaudit_trace:with_trace(Label, fun() -> erlang:apply(shop, order, [apple, Count]) end).

%% The shop takes one order after the other, so it is the same if they come so.
three(N) ->
    {_, Ordered} = spawn_monitor(fun() ->
        seqaudit_trace:with_trace({order, N}, [send, print],
                                  fun() -> erlang:apply(shop, order, [apple, 1]) end)
    end),
    receive {'DOWN', Ordered, process, _, normal} -> settled() end.

settled() ->
    _ = sys:get_state(post),
    ok.

%% Each command of a page that is one of ours, and the lines below it that are indented as it is.
quoted([<<"    $ ", Command/binary>> | Lines]) ->
    {Said, Rest} = lists:splitwith(fun is_said/1, Lines),
    case re:run(Command, "^(gemshowal|cp|grep) ") of
        {match, _} ->
            [{binary_to_list(Command), [Line || <<"    ", Line/binary>> <- Said]} | quoted(Rest)];
        nomatch -> quoted(Rest)
    end;
quoted([_ | Lines]) ->
    quoted(Lines);
quoted([]) ->
    [].

is_said(<<"    $ ", _/binary>>) -> false;
is_said(<<"    ", _/binary>>) -> true;
is_said(_) -> false.

same(Command, Quoted, Folder, Gemshowal) ->
    Ours = ["gemshowal() { \"$GEMSHOWAL\" \"$@\"; }; cd ", Folder, " && "],
    {_, Said} = seqaudit_test_shell:run([Ours, Command], [{"GEMSHOWAL", Gemshowal}]),
    Lines = binary:split(normal(Said), <<"\n">>, [global, trim]),
    {Command, ok} = {Command, compared([normal(Line) || Line <- Quoted], Lines)}.

%% Two dots replace what isn't quoted: the rest of a line, or lines.
compared([], _Said) ->
    ok;
compared([Dots | Quoted], Said) when Dots =:= <<"..">>; Dots =:= <<" ..">> ->
    compared(Quoted,
             lists:dropwhile(fun(Line) -> Quoted =/= [] andalso not fits(hd(Quoted), Line) end,
                             Said));
compared([Quote | Quoted], [Line | Said]) ->
    case fits(Quote, Line) of
        true -> compared(Quoted, Said);
        false -> {said, Line, in_place_of, Quote}
    end;
compared(Quoted, []) ->
    {nothing, in_place_of, Quoted}.

fits(Line, Line) -> true;
fits(Quote, Line) ->
    case string:split(Quote, " ..", trailing) of
        [Begin, <<>>] -> string:prefix(Line, Begin) =/= nomatch;
        _ -> false
    end.

%% Pids differ from run to run, and with them how names are aligned.
normal(Text) ->
    lists:foldl(fun({Pattern, With}, Done) ->
        re:replace(Done, Pattern, With, [global, {return, binary}]) end,
                iolist_to_binary(Text), [{"<[0-9]+\\.[0-9]+\\.[0-9]+>", "<>"}, {" +", " "}]).
