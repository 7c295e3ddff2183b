%% Mix takes the application as a dependency, and gemshowal writes terms as Elixir does.
-module(seqaudit_elixir_tests).

-export([mix_test_/0, inspect_test_/0]).

%% A program of Elixir that has the application as a dependency by path traces itself, mix converts
%% what came, and gemshowal shows it as Elixir writes terms.
mix_test_() ->
    {timeout, 600, fun() ->
        case os:find_executable("mix") of
            false -> io:format(user, "mix: skipped, it isn't here (elixir)~n", []);
            Mix -> mix(Mix, seqaudit_audits:file("mix"))
        end
    end}.

mix(Mix, Folder) ->
    _ = file:del_dir_r(Folder),
    ok = filelib:ensure_dir(filename:join([Folder, "lib", "x"])),
    [ok = file:write_file(filename:join(Folder, File), Text) || {File, Text} <- shop()],
    Run = fun(Words) ->
                  seqaudit_test_shell:run(["cd ", Folder, " && LC_ALL=C.UTF-8 MIX_ENV=dev ", Mix,
                                           $\s, Words])
          end,
    {0, Built} = Run("run trace.exs 2>&1"),
    nomatch = binary:match(Built, <<"warning">>),
    Name = filename:join(Folder, "traced"),
    ok = file:delete(Name ++ ".seqtrace"),
    {0, Converted} = Run("seqaudit convert traced.events -o traced"),
    {_, _} = binary:match(Converted, <<"4 events of 2 processes: traced.seqtrace">>),
    {Status, _} = Run("seqaudit convert nothing -o traced"),
    true = Status =/= 0,
    seqaudit_audits:with_gemshowal("mix: the chart", fun(_) ->
        {0, Chart} = seqaudit_audits:gemshowal(["chart", Name, "--label", "{Shop,7}"]),
        {match, _} = re:run(Chart, "lane [12] Shop\n"),
        {_, _} = binary:match(Chart, <<" call %Shop.Order{item: \"apple\", n: 3}  "
                                       "it begins this chain (1, 2)\n">>),
        {_, _} = binary:match(Chart, <<" reply {:ok, 3, \"sold\", nil}  "
                                       "it follows Shop#0 (1, 2, 3)\n">>)
    end).

%% Each of 200 terms is listed as Elixir's own `inspect' writes it.
inspect_test_() ->
    {timeout, 300, fun() ->
        case os:find_executable("elixir") of
            false -> io:format(user, "inspect: skipped, there is no Elixir (elixir)~n", []);
            Elixir -> inspected(Elixir, seqaudit_audits:file("inspected"))
        end
    end}.

inspected(Elixir, Name) ->
    Home = seqaudit_audits:home(),
    {0, _} = seqaudit_test_shell:run(["LC_ALL=C.UTF-8 ", Elixir, " -pa ", Home, "/ebin ", Home,
                                      "/test/terms.exs ", Name]),
    {ok, Text} = file:read_file(Name ++ ".inspected"),
    Inspected = lines(Text),
    true = length(Inspected) >= 200,
    seqaudit_audits:with_gemshowal("inspect", fun(_) ->
        {0, Listed} = seqaudit_audits:gemshowal(["list", Name]),
        [] = [{Line, Term} || {Line, Term} <- lists:zip(lines(Listed), Inspected),
                              not ends(Line, <<$\s, Term/binary>>)]
    end).

lines(Text) -> binary:split(Text, <<"\n">>, [global, trim]).

ends(Line, End) -> binary:longest_common_suffix([Line, End]) =:= byte_size(End).

shop() ->
    [{"mix.exs", ["defmodule Shop.MixProject do\n  use Mix.Project\n"
                  "  def project, do: [app: :shop, version: \"0.1.0\", deps: [{:seqaudit, path: \"",
                  seqaudit_audits:home(), "\"}]]\n"
                  "  def application, do: [extra_applications: []]\nend\n"]},
     {"lib/shop.ex", "defmodule Shop.Order do\n  defstruct [:item, :n]\nend\n\n"
                     "defmodule Shop do\n  use GenServer\n"
                     "  def start, do: GenServer.start(__MODULE__, %{}, name: __MODULE__)\n"
                      "  def init(state), do: {:ok, state}\n"
                     "  def handle_call(%Shop.Order{} = order, _, state), do: {:reply, {:ok, "
                     "order.n, \"sold\", nil}, "
                      "state}\nend\n"},
     {"trace.exs", "{:ok, _} = Shop.start()\n:ok = :seqaudit_trace.start(%{name: ~c\"traced\"})\n"
                   ":seqaudit_trace.with_trace({Shop, 7}, fn -> GenServer.call(Shop, "
                   "%Shop.Order{item: \"apple\", "
                    "n: 3}) end)\n"
                   "{:ok, _} = :seqaudit_trace.stop()\n"}].
