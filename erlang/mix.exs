defmodule Seqaudit.MixProject do
  use Mix.Project

  # For people who use mix: {:seqaudit, path: "../gemshowal/erlang"} among the dependencies, and
  # `mix seqaudit --help'.
  def project do
    [app: :seqaudit, version: "1.1.0", erlc_paths: ["src"], elixirc_paths: ["lib"],
     description: "Traces running nodes by seq_trace, for gemshowal to audit and draw",
     package: [licenses: ["Apache-2.0"],
               files: ["src", "rebar.config", "seqaudit-node", "mix.exs", "lib", "CHANGELOG.md"],
               links: %{"Erlang's seq_trace" => "https://www.erlang.org/doc/man/seq_trace.html"}],
     elixirc_options: [no_warn_undefined: [Mix.Task]], deps: []]
  end

  def application do
    [registered: [:seqaudit_trace, :seqaudit_collector], extra_applications: []]
  end
end
