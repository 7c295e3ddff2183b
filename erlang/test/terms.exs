# Terms of all kinds, for `seqaudit_elixir_tests`: `elixir terms.exs NAME` prints each of them under a
# token into the trace NAME, and writes into NAME.inspected what `inspect` makes of them, a line each.
defmodule Shop.Order do
  defstruct [:item, :n]
end

defmodule Shop.Lacking do
  defexception [:item, :message]
end

defmodule Shop.Terms do
  def atoms do
    [:ok, nil, true, false, Foo, Foo.Bar, Foo.Bar_1, Elixir, :Foo, :foo?, :foo!, :foo@bar, :_x, :_] ++
      [:größe, :日本, :"", :"two words", :"1a", :"Elixir.foo", :"Elixir.Foo.bar", :"foo?bar"] ++
      [:"foo.bar", :"a-b", :"a\"b", :"a\\b", :"a\nb", :"a\#{b", :"a'b", :"::", :"=>", :",", :";"] ++
      [:in, :do, :end, :fn, :and, :or, :not, :when, :after, :receive, :catch, :maybe, :else] ++
      [:+, :-, :*, :/, :==, :!=, :===, :=~, :<=, :>=, :<, :>, :<>, :++, :--, :&&, :||, :!, :&] ++
      [:^, :@, :., :.., :..., :{}, :%{}, :%, :<<>>, :|, :|>, :<-, :->, :=, :"()", :"[]", :"a b?"]
  end

  def numbers do
    [0, -1, 42, 1_000_000, 2 ** 64, -(2 ** 70), 10 ** 100, 1.0, -0.5, 0.1, 1.0e10, 1.5e-7] ++
      [1.0e100, 123_456_789.125, 1.0e15, 1.0e16, 3.0e-5, 1.7976931348623157e308]
  end

  def binaries do
    ["", "apple", "größe", "日本語", "🎉", "a\nb\t\"c\"\\", "a\e\d\a\b\f\v\r", "it's", "\#{x}", "#x"] ++
      ["/utf8", "a,b", <<0>>, <<255>>, <<1, 2, 3>>, <<195>>, <<233>>] ++
      [<<103, 114, 246, 223, 101>>, <<"abc", 0>>, <<7>>, <<127>>, <<65, 7>>, <<1::1>>] ++
      [<<1, 2::3>>, <<"abc", 1::2>>, <<5::7>>, "\uFFFE", String.duplicate("x", 400)]
  end

  def lists do
    [[], [1, 2, 3], [1.5], [300, 400], [1 | 2], [1, 2 | :a], [:a | "b"], [{:a, 1} | :b], [[]]] ++
      [[[[1]]], [a: 1], [a: 1, b: [c: 2]], [{:a, 1}, :b], [{:a, 1, 2}], [{"a", 1}], [{Foo, 1}]] ++
      [["a b": 1], [nil: 1], [true: 2], [+: 1], [foo?: 1], [Foo: 1], [größe: 1], [{:a, 1} | [b: 2]]] ++
      [[nil, true], Enum.to_list(1000..1200), [-1, 0]]
  end

  def tuples do
    [{}, {1}, {:ok, 3}, {:a, {:b, {}}}, {nil}, {"a", :b, 1.5}, {[], %{}}, {[a: 1]}, {Foo, Bar}] ++
      [{:error, {:badmatch, "x"}}, Enum.reduce(1..30, :x, fn _, inner -> {inner} end)]
  end

  def maps do
    [%{}, %{a: 1}, %{a: 1, b: 2}, %{"a" => 1}, %{1 => :a}, %{1 => 2, a: 3}, %{Foo => 1}, %{nil: 1}] ++
      [%{"two words": 1}, %{{1, 2} => []}, %{a: %{b: %{}}}, %{[] => {}}, %{1.5 => 1}, %{a: [b: 1]}] ++
      [%{%{} => %{}}, %{"x" => <<1>>}, Map.new(1..30, &{&1, &1 * &1}), %{+: 1}, %{foo?: true}]
  end

  def structs do
    [%Shop.Order{}, %Shop.Order{item: "apple", n: 3}, %Shop.Order{item: %Shop.Order{n: {}}}] ++
      [%Shop.Lacking{item: :pear, message: "none"}, [%Shop.Order{n: 1}], {:ok, %Shop.Order{n: [n: 1]}}]
  end

  def others do
    [self(), {:pid, self()}, [self()], %{pid: self()}, [pid: self()], make_ref()] ++
      [{:ref, make_ref()}, hd(Port.list()), &Enum.map/2, &:lists.map/2, &Kernel.+/2] ++
      [:erlang.make_fun(Foo, :"a b", 1), :erlang.make_fun(:"a b", :c?, 0)]
  end

  # Elixir 1.14 writes lists of characters between other quotes, and escapes no invisible one.
  def characters do
    [~c"list", ~c"a\"b", ~c"a\\b\n\t", ~c"it's", ~c"\#{x}", [7], [97, 7], [27, 97], {~c"a", [~c"b"]}] ++
      [%{name: ~c"x"}, [a: ~c"b"], [~c"a" | ~c"b"], [256, 97], [246, 223], [127], [0]] ++
      ["a\u00A0b", "\u200B"]
  end

  def all do
    terms = atoms() ++ numbers() ++ binaries() ++ lists() ++ tuples() ++ maps() ++ structs() ++ others()
    if Version.match?(System.version(), ">= 1.15.0"), do: terms ++ characters(), else: terms
  end
end

[name] = System.argv()
terms = Shop.Terms.all()
options = [limit: :infinity, printable_limit: :infinity, width: :infinity]
options = [{:custom_options, [sort_maps: true]} | options]
File.write!(name <> ".inspected", Enum.map(terms, &[inspect(&1, options), "\n"]))
:ok = :seqaudit_trace.start(%{name: String.to_charlist(name)})
:seqaudit_trace.with_trace(:terms, fn -> Enum.each(terms, &:seq_trace.print/1) end)
{:ok, _} = :seqaudit_trace.stop()
