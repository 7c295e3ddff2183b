%% Commands and nodes of all releases of OTP that are here, in all pairs: each collects, sets tokens
%% by calls, and watches. `make -C erlang releases' fetches those of Debian; SEQAUDIT_OTPS may name
%% the folders of others' programs.
-module(seqaudit_releases_tests).

-export([pairs_test_/0, without_compiler_test/0]).

-define(COOKIE, "releases").
%% A node and a command of another release may take a while to begin on a busy machine.
-define(BEGUN_S, 60).

pairs_test_() ->
    case releases() of
        [_] ->
            fun() -> io:format(user, "pairs of releases: skipped, no other release is here (make "
                                     "-C erlang releases)~n",
                               [])
            end;
        Releases ->
            {timeout, 900, fun() ->
                Applications = [{Release, application(Release)} || Release <- Releases],
                Nodes = [node(Release, Application) || {Release, Application} <- Applications],
                try
                    [pair(Command, Application, Node)
                     || {Command, Application} <- Applications, Node <- Nodes]
                after
                    [stop(Port) || {_, Port} <- Nodes]
                end
            end}
    end.

%% The release that runs this, by the folder of its `erl', and those of Debian that were fetched.
releases() ->
    Fetched = filelib:wildcard(filename:join(seqaudit_audits:tests_of_node(),
                                             "otp/*/root/usr/lib/erlang/bin")),
    Named = string:lexemes(os:getenv("SEQAUDIT_OTPS", ""), ":"),
    [filename:dirname(os:find_executable("erl")) | case Named of [] -> Fetched; _ -> Named end].

%% The application as this release compiles it, and its folder.
application(Release) ->
    Home = seqaudit_audits:file("releases/" ++ integer_to_list(erlang:phash2(Release))),
    ok = filelib:ensure_dir(Home ++ "/"),
    Parts = [[filename:join(seqaudit_audits:home(), Part), $\s]
             || Part <- ["src", "demo", "Makefile", "seqaudit-node"]],
    {0, _} = shell(Release, ["cp -r ", Parts, Home, " && make -s -C ", Home, " all && erlc -o ",
                             Home, "/ebin ", Home, "/demo/shop.erl"]),
    Home.

%% A node whose shop gets an order under a token ten times a second.
node(Release, Application) ->
    Name = "seqaudit_r" ++ os:getpid() ++ "_" ++ filename:basename(Application) ++ "@localhost",
    Order = "fun Order() -> seq_trace:set_token(label, {order, 1}), "
            "[seq_trace:set_token(Flag, true) || Flag <- [send, receive, print, timestamp]], "
            "shop:order(apple, 1), seq_trace:set_token([]), shop:order(apple, 1), "
            "timer:sleep(100), Order() end",
    Port = open_port({spawn_executable, filename:join(Release, "erl")},
                     [{args, ["-noinput", "-sname", Name, "-setcookie", ?COOKIE, "-pa",
                              filename:join(Application, "ebin"),
                              "-eval", lists:flatten(["shop:start(), (",
                                                      string:replace(Order, "receive", "'receive'"),
                                                      ")()."])]},
                      stderr_to_stdout, exit_status]),
    {Name, Port}.

%% A node doesn't end with its port.
stop(Port) ->
    {os_pid, Pid} = erlang:port_info(Port, os_pid),
    [] = os:cmd("kill " ++ integer_to_list(Pid)).

pair(Command, Application, {Node, _}) ->
    Name = filename:join(Application, "pair"),
    Run = fun(Words) ->
                  shell(Command, ["timeout ", integer_to_list(?BEGUN_S), $\s, Application,
                                  "/seqaudit-node ", Words,
                                  " --node ", Node, " -o ", Name, " --unload"])
          end,
    begun(Run, 5),
    {0, Collected} = Run("collect --seconds 1"),
    {Events, _} = events(Collected),
    true = Events >= 11,
    nomatch = binary:match(Collected, <<"convert left out">>),
    {0, Triggered} = Run("collect --trigger shop:order/2 --label call --seconds 1"),
    true = element(1, events(Triggered)) >= 11,
    {0, Watched} = watched(Command, [Application, "/seqaudit-node watch --every 1 --node ", Node,
                                     " -o ", Name, ".watch --unload"], Name ++ ".said"),
    [{_, _} = binary:match(Watched, Word)
     || Word <- [<<"period 1: ">>, <<"period 2: ">>, <<" events">>]],
    nomatch = binary:match(Watched, <<"no events came">>).

%% Waits until the command has told of its second period, for which a busy machine needs a while.
%% Removes first what the command of another pair said.
watched(Command, Watch, Said) ->
    shell(Command, ["rm -f ", Said, "; ", Watch, " >", Said, " 2>&1 & command=$!; seconds=0; "
                    "until grep -qs 'period 2: ' ", Said, " || [ $seconds = ",
                    integer_to_list(?BEGUN_S), " ]; do sleep 1; seconds=$((seconds + 1)); done; "
                    "kill $command; wait $command; cat ", Said]).

%% The node may not be there yet.
begun(Run, Times) ->
    case Run("collect --seconds 1") of
        {0, _} -> ok;
        {_, _} when Times > 1 -> receive after 1_000 -> begun(Run, Times - 1) end;
        Failed -> error(Failed)
    end.

events(Said) ->
    {match, [Events, Processes]} = re:run(Said, "([0-9,]+) events of ([0-9,]+) process",
                                          [{capture, all_but_first, binary}]),
    {binary_to_integer(Events), binary_to_integer(Processes)}.

shell(Release, Words) ->
    seqaudit_test_shell:run(Words, [{"PATH", Release ++ ":" ++ os:getenv("PATH")},
                                    {"SEQAUDIT_COOKIE", ?COOKIE}]).

%% A node of another release that has no compiler gets the modules as they are, and the command says
%% so if it can't load them.
without_compiler_test() ->
    Said = seqaudit_trace:format_error({node, a@h, {load_elsewhere, seqaudit_collector, badfile}}),
    true = string:find(Said, "no compiler; run the command with that node's release") =/= nomatch.
