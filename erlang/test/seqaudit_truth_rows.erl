%% Makes the traces of a row of the table in tests/README.md, each with its truth (seqaudit_truth):
%% ROW, the first and the last program, and a folder. Of a service the program is its number of
%% requests. `truth_rows' runs it for all rows.
-module(seqaudit_truth_rows).

-export([main/1, how/1]).

-define(ALL, [send, 'receive', print]).

main([Row, From, To, Folder]) ->
    ok = filelib:ensure_dir(filename:join(Folder, "x")),
    Name = fun(Number) -> filename:join(Folder, integer_to_list(Number)) end,
    Run = fun(Nodes) ->
              [program(Row, Number, Nodes, Name(Number))
               || Number <- lists:seq(list_to_integer(From), list_to_integer(To))]
          end,
    case Row of
        "two_nodes" ++ _ -> seqaudit_test_nodes:with_second("truth", fun(There) ->
                           seqaudit_truth:load(There),
                           Run([node(), There])
                       end);
        _ -> Run([node()])
    end,
    halt(0).

program("service", Requests, _, Name) ->
    ok = seqaudit_truth:service(Requests, Name);
program(Row, Seed, Nodes, Name) ->
    {[], [], []} = seqaudit_truth:run(Seed, (how(Row))#{nodes => Nodes}, Name).

how("all") -> #{flags => ?ALL, late => false};
how("two_nodes") -> how("all");
how("two_nodes_" ++ Row) -> how(Row);
how("no_send") -> #{flags => ?ALL -- [send], late => false};
how("no_receive") -> #{flags => ?ALL -- ['receive'], late => false};
how("no_print") -> #{flags => ?ALL -- [print], late => false};
how("late") -> #{flags => ?ALL, late => true};
how("handed_over") -> (how("all"))#{tokens => handed_over};
how("published") -> (how("all"))#{tokens => published};
how("none_put_back") -> (how("all"))#{tokens => none};
how("none_put_back_" ++ Row) -> (how(Row))#{tokens => none}.
