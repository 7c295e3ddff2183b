%% The trace of a random program is what happened: nothing else, and all of it that was to be
%% reported. What gemshowal says of it is true under the premises that it names.
%%
%% The variable TRUTH says which programs are run in place of the first 300: 301-700, or those up to
%% a number.
-module(seqaudit_truth_tests).

-export([truth_test_/0, service_test_/0]).

-define(PROGRAMS, "1-300").

truth_test_() ->
    {timeout, 3_600, fun() ->
        case seqaudit_test_nodes:with_second("truth", fun(There) -> all([node(), There]) end) of
            skipped -> all([node()]);
            ok -> ok
        end
    end}.

all(Nodes) ->
    [ok = seqaudit_truth:load(Node) || Node <- tl(Nodes)],
    [From, To] = case string:lexemes(os:getenv("TRUTH", ?PROGRAMS), "-") of
                     [Last] -> [1, list_to_integer(Last)];
                     Range -> lists:map(fun list_to_integer/1, Range)
                 end,
    lists:foreach(fun(Seed) ->
        {Seed, {[], [], []}} = {Seed, seqaudit_truth:run(Seed, how(Seed, Nodes), name(Seed))}
    end, lists:seq(From, To)),
    why_is_true([name(Seed) || Seed <- lists:seq(max(From, To - 19), To)]).

%% A service that spawns a process for each request: counters wrap after 15.
service_test_() ->
    [{timeout, 300, {Requests, fun() -> service(Requests) end}} || Requests <- [20, 300]].

service(Requests) ->
    Name = seqaudit_audits:file("truth_service"),
    ok = seqaudit_truth:service(Requests, Name),
    why_is_true([Name]).

%% Asks gemshowal about each event, if it is built and there is Python.
why_is_true(Names) ->
    seqaudit_audits:with_gemshowal("truth", fun(Gemshowal) ->
        Judge = filename:join(seqaudit_audits:tests(), "why_truth.py"),
        case os:find_executable("python3") of
            false -> io:format(user, "truth: skipped, there is no python3~n", []);
            Python ->
                {0, _} = seqaudit_test_shell:execute(Python, [Judge, Gemshowal | Names], []),
                ok
        end
    end).

%% Half of them with all flags, the others with one off, a tracer that comes on late or one message
%% to two aliases; half of them on two nodes.
how(Seed, Nodes) ->
    Some = case Seed rem 4 of
               0 -> Nodes;
               1 -> Nodes;
               _ -> [hd(Nodes)]
           end,
    Rows = lists:duplicate(5, "all")
        ++ ["published", "no_send", "no_receive", "no_print", "late"],
    (seqaudit_truth_rows:how(lists:nth(1 + Seed rem 10, Rows)))#{nodes => Some}.

%% The files of the last ones stay.
name(Seed) -> seqaudit_audits:file("truth_" ++ integer_to_list(Seed rem 20)).
