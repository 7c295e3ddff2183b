%% A task of Elixir is named after the process that it works for, however short it lives, and a
%% server by what it is.
-module(seqaudit_tasks_tests).

-export([tasks_test_/0, requests_are_whole_test_/0]).

tasks_test_() ->
    {timeout, 120,
     fun() -> with_elixir("tasks", fun(Run) -> tasks(Run, seqaudit_audits:file("tasks")) end) end}.

with_elixir(What, Test) ->
    case os:find_executable("elixir") of
        false -> io:format(user, "~ts: skipped, there is no Elixir (elixir)~n", [What]);
        Elixir ->
            Test(fun(Words) ->
                     seqaudit_test_shell:run(["LC_ALL=C.UTF-8 ", Elixir, " -pa ",
                                              filename:join(seqaudit_audits:home(), "ebin"), $\s,
                                              Words])
                 end)
    end.

%% A service with a process and a task for each request: there are as many events of each.
requests_are_whole_test_() ->
    [{timeout, 300, {Requests, fun() ->
          with_elixir("requests", fun(Run) -> requests_are_whole(Run, Requests, Port) end)
      end}} || Requests <- [20, 300, 3_000], Port <- [true, false]].

requests_are_whole(Run, Requests, Port) ->
    Name = seqaudit_audits:file("elixir_requests"),
    ok = file:write_file(Name ++ ".exs", service()),
    {0, Said} = Run([Name, ".exs ", Name, $\s, integer_to_list(Requests), $\s, atom_to_list(Port)]),
    {_, _} = binary:match(Said, <<" events, 0 dropped">>),
    %% A machine that is busy may not keep up with 3,000: then the collector says so, and nothing
    %% else is lost.
    case seqaudit_test_traces:losses(Name) of
        [] ->
            Terms = seqaudit_test_traces:terms(Name),
            Calls = [Value || #{value := Value} <- seqaudit_test_traces:events(Name),
                              not is_exit(maps:get({value, Value}, Terms))],
            {each, 0} = {each, length(Calls) rem Requests},
            true = length(Calls) >= 20 * Requests;
        Losses ->
            [{_, _} = binary:match(Loss, <<"events came faster than they could be written">>)
             || Loss <- Losses]
    end.

%% A task tells nobody of its end if whom it works for has ended before.
is_exit(Message) -> binary:match(Message, <<"{'EXIT',">>) =:= {0, 8}.

service() ->
    "defmodule Shop.Stock do\n  use GenServer\n"
    "  def init(state), do: {:ok, state}\n"
    "  def handle_call(request, _, state), do: {:reply, {:ok, request}, state}\nend\n"
    "defmodule Shop.Request do\n  def run(number) do\n"
    "    :seqaudit_trace.with_trace({:request, number}, fn ->\n"
    "      :seq_trace.print({:begin, number})\n"
    "      {:ok, _} = GenServer.call(Shop.Stock, {:user, number})\n"
    "      {:ok, row} = Task.await(Task.async(fn -> GenServer.call(Shop.Stock, {:row, number}) "
    "end))\n"
    "      GenServer.call(Shop.Stock, {:done, row})\n    end)\n  end\nend\n"
    "[name, requests, port] = System.argv()\n"
    "{:ok, _} = GenServer.start(Shop.Stock, nil, name: Shop.Stock)\n"
    "{:ok, _} = Task.Supervisor.start_link(name: Shop.Tasks)\n"
    ":ok = :seqaudit_trace.start(%{name: String.to_charlist(name), port: port == \"true\"})\n"
    "for number <- 1..String.to_integer(requests) do\n"
    "  Task.await(Task.Supervisor.async(Shop.Tasks, fn -> Shop.Request.run(number) end), "
    ":infinity)\nend\n"
    "{:ok, summary} = :seqaudit_trace.stop()\n"
    "IO.puts(\"#{summary.events} events, #{summary.dropped} dropped\")\n".

tasks(Run, Name) ->
    ok = file:write_file(Name ++ ".exs", shop(Name)),
    {0, _} = Run([Name, ".exs"]),
    {ok, Terms} = file:read_file(Name ++ ".terms"),
    Named = [{Called, What} || Line <- binary:split(Terms, <<"\n">>, [global]),
                               [<<"process">>, _, Called, What]
                                   <- [binary:split(Line, <<"\t">>, [global])]],
    [What] = [What || {<<"'Elixir.Shop'">>, What} <- Named],
    {_, _} = binary:match(What, <<", started by 'Elixir.Shop.Server':init/1">>),
    [_] = [Called || {<<"task of 'Elixir.Shop' <", _/binary>> = Called, _} <- Named],
    [Customer] = [Called || {<<"task of <", _/binary>> = Called, _} <- Named],
    [<<"task">>, <<"of">>, Caller, _] = binary:split(Customer, <<" ">>, [global]),
    [_] = [Called || {Called, _} <- Named, Called =:= Caller],
    {_, _} = binary:match(Terms,
                          <<"#{'__struct__' => 'Elixir.Shop.Order',item => <<\"apple\">>}">>).

%% One call that a task answers, and one that a task makes.
shop(Name) ->
    ["defmodule Shop.Order do\n  defstruct [:item]\nend\n"
     "defmodule Shop.Server do\n  use GenServer\n"
     "  def init(state), do: {:ok, state}\n"
     "  def handle_call(order, _, state) do\n"
     "    {:reply, Task.await(Task.async(fn -> {:ok, order} end)), state}\n  end\nend\n"
     "{:ok, _} = GenServer.start(Shop.Server, nil, name: Shop)\n"
     "order = struct(Shop.Order, item: \"apple\")\n"
     "{:ok, supervisor} = Task.Supervisor.start_link()\n"
     ":ok = :seqaudit_trace.start(%{name: ~c\"", Name, "\"})\n"
     ":seqaudit_trace.with_trace({Shop, 7}, fn ->\n"
     "  {:ok, ^order} = GenServer.call(Shop, order)\n"
     "  Task.await(Task.Supervisor.async(supervisor, fn -> send(Shop, :sold) end))\nend)\n"
     "{:ok, _} = :seqaudit_trace.stop()\n"].
