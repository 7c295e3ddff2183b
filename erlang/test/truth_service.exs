# A service of Elixir whose trace is written to the files of this name: truth_service.exs NAME
# REQUESTS. Each request runs in a task, under a label of its own. It asks a server, and waits for a
# task that asks it too, and for a worker of a dynamic supervisor. No token is put back, and a label
# is set only where a `begin` is printed (tests/why_truth.py).
Code.require_file("shop.exs", __DIR__)

defmodule Shop.Requests do
  def begins(label) do
    :seq_trace.set_token(:label, label)
    for flag <- [:send, :receive, :print], do: :seq_trace.set_token(flag, true)
    :seq_trace.print({:begin, label})
  end

  def run(number) do
    begins(number)
    {:ok, _} = GenServer.call(Shop.Stock, {:request, number})
    Shop.spawns(number)
  end
end

[name, requests] = System.argv()
Shop.start()
:ok = :seqaudit_trace.start(%{name: String.to_charlist(name)})
Shop.Requests.begins(:client)

for number <- 1..String.to_integer(requests) do
  Task.await(Task.Supervisor.async(Shop.Tasks, fn -> Shop.Requests.run(number) end), :infinity)
end

:seq_trace.set_token([])
{:ok, _} = :seqaudit_trace.stop()
File.write!(name <> ".truth", "")
