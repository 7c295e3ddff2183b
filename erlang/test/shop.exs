# The shop of both services of Elixir: a server, and what a request spawns that asks the server too, a
# task and a worker of a dynamic supervisor.
defmodule Shop.Stock do
  use GenServer
  def init(state), do: {:ok, state}
  def handle_call(order, _, state), do: {:reply, {:ok, order}, state}
end

defmodule Shop.Worker do
  use GenServer, restart: :temporary
  def start_link(number), do: GenServer.start_link(__MODULE__, number)
  def init(number), do: {:ok, number}

  def handle_call(:order, _, number) do
    {:stop, :normal, GenServer.call(Shop.Stock, {:worker, number}), number}
  end
end

defmodule Shop do
  def start do
    {:ok, _} = GenServer.start_link(Shop.Stock, nil, name: Shop.Stock)
    {:ok, _} = Task.Supervisor.start_link(name: Shop.Tasks)
    {:ok, _} = DynamicSupervisor.start_link(name: Shop.Workers, strategy: :one_for_one)
  end

  # Waits for the task and for the worker of a request.
  def spawns(number) do
    {:ok, _} = Task.await(Task.async(fn -> GenServer.call(Shop.Stock, {:task, number}) end))
    {:ok, worker} = DynamicSupervisor.start_child(Shop.Workers, {Shop.Worker, number})
    {:ok, _} = GenServer.call(worker, :order)
  end
end
