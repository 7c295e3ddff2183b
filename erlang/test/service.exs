# A service of Elixir for `service_long`: service.exs REQUEST RATE makes RATE requests a second, each
# in a task and under a label of its own. A request asks a server; one that spawns also waits for a
# task and for a worker of a dynamic supervisor, which ask it too.
Code.require_file("shop.exs", __DIR__)

defmodule Shop.Requests do
  # A request that comes late, as on a busy machine, doesn't delay those after it.
  def serve(request, rate, began, number) do
    {:ok, _} = Task.Supervisor.start_child(Shop.Tasks, fn -> traced(request, number) end)
    next = began + div((number + 1) * 1_000, rate)
    Process.sleep(max(0, next - System.monotonic_time(:millisecond)))
    serve(request, rate, began, number + 1)
  end

  defp traced(request, number) do
    :seqaudit_trace.with_trace({:request, number}, fn -> run(request, number) end)
  end

  defp run("calls", number) do
    {:ok, ^number} = GenServer.call(Shop.Stock, number)
  end

  defp run("spawns", number) do
    run("calls", number)
    Shop.spawns(number)
  end
end

Shop.start()
[request, rate] = System.argv()
Shop.Requests.serve(request, String.to_integer(rate), System.monotonic_time(:millisecond), 0)
