%% The application as rebar3 packages it, where there is a rebar3 (Debian has one).
-module(seqaudit_package_tests).

-export([rebar3_test_/0, metadata_test/0, release_test/0, xref_test_/0, documented_test/0,
         unload_test_/0]).

%% rebar3 compiles, runs the quick tests, makes the pages of the modules and the escript, with
%% nothing from the network and nothing of the repository around the application.
%% The escript collects and converts from another folder, as the command does.
rebar3_test_() ->
    {timeout, 600, fun() ->
        case {os:find_executable("rebar3"), code:which(crypto)} of
            {false, _} -> io:format(user, "rebar3: skipped, it isn't here~n", []);
            {_, non_existing} ->
                io:format(user, "rebar3: skipped, it needs crypto (erlang-crypto)~n", []);
            {Rebar, _} -> packaged(Rebar, seqaudit_audits:file("package"))
        end
    end}.

packaged(Rebar, Folder) ->
    _ = file:del_dir_r(Folder),
    ok = file:make_dir(Folder),
    {0, _} = seqaudit_test_shell:run(["cd ", seqaudit_audits:home(),
                                      " && tar -c --exclude=test/out "
                                      "--exclude=test/ebin rebar.config seqaudit-node src test | "
                                      "tar -x -C ",
                                      Folder]),
    [{0, _} = seqaudit_test_shell:run(["cd ", Folder, " && HOME=", Folder, " ", Rebar, " ", Words])
     || Words <- ["compile", "xref"] ++ ["eunit" || code:which(eunit) =/= non_existing]
            ++ ["edoc", "as escript escriptize"]],
    true = filelib:is_regular(filename:join([Folder, "doc", "index.html"])),
    Command = filename:join([Folder, "_build", "escript", "bin", "seqaudit-node"]),
    {0, <<"usage: seqaudit-node COMMAND", _/binary>>} =
        seqaudit_test_shell:run(["cd / && ", Command, " --help"]),
    seqaudit_test_nodes:with_second("the escript's collect",
                                    fun(There) -> collected(There, Command, Folder) end).

collected(There, Command, Folder) ->
    Name = filename:join(Folder, "collected"),
    Collect = ["env -C / ", Command, " collect --node ", atom_to_list(There), " -o ", Name],
    Print = fun() -> seqaudit_test_nodes:print_when_traced(There) end,
    {0, Said} = seqaudit_test_shell:terminated_when(Collect, Name, Print),
    {_, _} = binary:match(Said, <<"1 event of 1 process">>),
    ok = file:delete(Name ++ ".seqtrace"),
    {0, _} = seqaudit_test_shell:run(["cd / && ", Command, " convert ", Name, ".events -o ", Name]),
    seqaudit_audits:fits(Name).

%% The data that a registry of packages needs are there, alike for rebar3 and mix.
metadata_test() ->
    Home = seqaudit_audits:home(),
    {ok, [{application, seqaudit, About}]} =
        file:consult(filename:join([Home, "src", "seqaudit.app.src"])),
    {ok, Mix} = file:read_file(filename:join(Home, "mix.exs")),
    [#{description := [_ | _] = Description, vsn := [_ | _] = Version, licenses := [License],
       links := [{Title, "https://" ++ _ = Link}], files := Files}] = [maps:from_list(About)],
    [{_, _} = binary:match(Mix, iolist_to_binary([$", Text, $"]))
     || Text <- [Description, Version, License, Title, Link | Files]],
    [] = [File || File <- Files, not filelib:is_file(filename:join(Home, File))].

%% An Erlang that is too old is named, here and on a node.
release_test() ->
    "this Erlang is OTP 24, and collecting needs OTP 25 or later" =
        seqaudit_trace:format_error({otp, "24"}),
    "node a@h is OTP 24, and collecting needs OTP 25 or later" =
        seqaudit_trace:format_error({node, 'a@h', {otp, "24"}}).

%% Each function that is called is there, and each one that isn't exported is called. What OTP has
%% from 27 on is called there alone.
xref_test_() ->
    {timeout, 120, fun() ->
        case code:which(xref) of
            non_existing -> io:format(user, "xref: skipped, it needs tools (erlang-tools)~n", []);
            _ ->
                {ok, Server} = xref:start([]),
                ok = xref:set_default(Server, [{warnings, false}]),
                ok = xref:set_library_path(Server, code:get_path()),
                {ok, _} = xref:add_directory(Server, filename:dirname(code:which(seqaudit_trace))),
                {ok, Undefined} = xref:analyze(Server, undefined_function_calls),
                [] = [Call || {_, {Module, _, _}} = Call <- Undefined, Module =/= trace],
                [{What, {ok, []}} = {What, xref:analyze(Server, What)}
                 || What <- [locals_not_used, deprecated_function_calls]],
                xref:stop(Server)
        end
    end}.

%% Each function that another module may call says what it does, or that it is private.
documented_test() ->
    Sources = filelib:wildcard(filename:join([seqaudit_audits:home(), "src", "*", "*.erl"])),
    true = length(Sources) > 30,
    case code:which(epp_dodger) of
        non_existing ->
            io:format(user, "documented: skipped, it needs syntax_tools (erlang-syntax-tools)~n",
                      []);
        _ -> [] = [{filename:basename(Source), Function} || Source <- Sources,
                   Function <- undocumented(Source)]
    end.

undocumented(Source) ->
    {ok, Forms} = epp_dodger:parse_file(Source),
    Exported = [atom_to_list(Name) || Form <- Forms, erl_syntax:type(Form) =:= attribute,
                                      {export, Names} <- [exports(Form)], {Name, _} <- Names],
    {ok, Text} = file:read_file(Source),
    [Name || Name <- lists:usort(Exported),
             re:run(Text,
                    ["%% @(doc|private|equiv)[^\n]*\n(%%[^\n]*\n)*-spec ", Name,
                     "\\("]) =:= nomatch].

exports(Form) ->
    try erl_syntax_lib:analyze_attribute(Form)
    catch _:_ -> none
    end.

%% The command says which modules a node keeps, and takes them off if it is asked to.
unload_test_() ->
    {timeout, 120, fun() ->
        seqaudit_test_nodes:with_second("unload", fun(There) ->
            Collect = [seqaudit_test_shell:node_command(), " collect --node ", atom_to_list(There),
                       " --seconds 1 -o ",
                       seqaudit_audits:file("unload")],
            {0, Kept} = seqaudit_test_shell:run(Collect, seqaudit_test_shell:cookie()),
            {_, _} = binary:match(Kept, iolist_to_binary(["  ", atom_to_list(There),
                                                          " keeps the modules seqaudit_asker, "
                                                          "seqaudit_collector, "])),
            [_ | _] = ours(There),
            {0, Gone} =
                seqaudit_test_shell:run([Collect, " --unload"], seqaudit_test_shell:cookie()),
            nomatch = binary:match(Gone, <<"modules">>),
            [] = ours(There)
        end)
    end}.

ours(There) ->
    [Module || Module <- erpc:call(There, erlang, loaded, []), Module =/= seqaudit_test_server,
               string:prefix(atom_to_list(Module), "seqaudit_") =/= nomatch].
