defmodule Mix.Tasks.Seqaudit do
  @shortdoc "Traces nodes, for gemshowal to audit and draw"

  @moduledoc """
  The command `seqaudit-node` by mix: `mix seqaudit COMMAND ..`, as `mix seqaudit --help` says.
  """

  use Mix.Task

  @impl true
  def run(words) do
    status = words |> Enum.map(&String.to_charlist/1) |> :seqaudit_node.run()
    if status != 0, do: exit({:shutdown, status})
  end
end
