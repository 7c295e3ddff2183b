%% @doc Numbers for labels, and the text of terms.
%%
%% Terms are compared whole and printed cut: whatever a program sends, its text is made in time that
%% grows no faster than the term, and isn't longer than a person reads. A message that is cut there
%% is printed whole too, for the page. A text is made of a term's bytes ({@link seqaudit_external}),
%% so that a term of a file is printed and never made.
-module(seqaudit_terms).

-export([label_numbers/1, encoded/2, append/3, whole/2, atom/1, plain/1, call/1, short/2]).

-define(GREATEST_LABEL, 4_294_967_295).
%% Labels that aren't numbers from 0 to the greatest are numbered from here.
-define(FIRST_LABEL, 1_000_000).

%% Parts of a term that are printed, how deep, the bytes of a binary and digits of a number, and the
%% characters of it all. A reader takes in no more at once, and some terms take long to print.
-define(PARTS, 1_000).
-define(DEPTH, 40).
-define(BYTES, 500).
-define(CHARACTERS, 2_000).
%% Maps of this size are printed in the order of their keys.
-define(ORDERED, 32).

%% A whole text has all parts, bytes and characters, but goes no deeper than this: each part within
%% a part takes memory while it is printed, and a file of some bytes can have millions.
-define(WHOLE_DEPTH, 10_000).
-define(ALL, 1_000_000_000_000).
-define(QUOTED, 1_000).

%% The characters with which an atom without quotes begins, and which it may have behind that.
-define(IS_SMALL_ASCII(C), C >= $a, C =< $z).
-define(IS_SMALL(C),
        (C >= $a andalso C =< $z orelse C >= 16#DF andalso C =< 16#FF andalso C =/= 16#F7)).
-define(IS_IN_ATOM(C), (C >= $A andalso C =< $Z orelse C >= $0 andalso C =< $9 orelse C =:= $_
                        orelse C =:= $@ orelse C >= 16#C0 andalso C =< 16#DE andalso C =/= 16#D7)).

-type numbers() :: seqaudit_processes:numbers().

%% How a term is printed: the numbers of its processes, how many bytes of a binary and characters of
%% a text are shown, and from which depth on (it counts down) maps stay in the order of the bytes.
-record(style, {numbers :: numbers(), bytes = ?BYTES :: pos_integer(),
                unordered = 0 :: non_neg_integer()}).

%% @doc A number for each label: its own if it is a whole number in range, else one that no label
%% has.
-spec label_numbers([seqaudit_external:encoded()]) ->
          #{seqaudit_external:encoded() => 0..?GREATEST_LABEL}.
label_numbers(Labels) ->
    {Own, Others} = lists:partition(fun is_own/1, Labels),
    Kept = maps:from_list([{Label, seqaudit_external:number(Label)} || Label <- Own]),
    Taken = maps:from_keys(maps:values(Kept), taken),
    {Numbers, _, _} = lists:foldl(fun number_label/2, {Kept, ?FIRST_LABEL, Taken}, Others),
    Numbers.

is_own(Label) ->
    Number = seqaudit_external:number(Label),
    is_integer(Number) andalso Number >= 0 andalso Number =< ?GREATEST_LABEL.

number_label(Label, {Numbers, Next, Taken}) when is_map_key(Next, Taken) ->
    number_label(Label, {Numbers, Next + 1, Taken});
number_label(Label, {Numbers, Next, Taken}) -> {Numbers#{Label => Next}, Next + 1, Taken}.

%% @doc The term of these bytes as Erlang prints it, on one line, cut if it is large. A process with
%% a number in the bundle is spelled by it: how Erlang prints one of another node differs from node
%% to node.
-spec encoded(seqaudit_external:encoded(), numbers()) -> string().
encoded(Term, Numbers) ->
    unicode:characters_to_list(append(Term, Numbers, <<>>)).

%% @doc The text of a term in UTF-8 behind other text. Of a million terms it is made in one binary.
-spec append(seqaudit_external:encoded(), numbers(), binary()) -> binary().
append(Term, Numbers, Before) ->
    {Text, _, _} = print(Term, ?DEPTH, ?PARTS, #style{numbers = Numbers}, Before),
    Size = byte_size(Before),
    case byte_size(Text) - Size =< ?CHARACTERS of
        true ->
            Text;
        false ->
            <<_:Size/binary, Long/binary>> = Text,
            Short = short(unicode:characters_to_list(Long), ?CHARACTERS),
            <<Before/binary, (unicode:characters_to_binary(Short))/binary>>
    end.

%% @doc The text of a term in UTF-8, not cut. Dots replace only what is more than 10,000 parts deep
%% and for a number of more than 500 bytes.
-spec whole(seqaudit_external:encoded(), numbers()) -> binary().
whole(Term, Numbers) ->
    Style = #style{numbers = Numbers, bytes = ?ALL, unordered = ?WHOLE_DEPTH - ?DEPTH},
    {Text, _, _} = print(Term, ?WHOLE_DEPTH, ?ALL, Style, <<>>),
    Text.

%% @doc The text, or its first characters and three dots.
-spec short(string(), pos_integer()) -> string().
short(Text, Length) ->
    case length(Text) =< Length of
        true -> Text;
        false -> lists:sublist(Text, Length - 3) ++ "..."
    end.

%% Puts the text of the first term of the bytes behind the text before; returns it with how many
%% parts are left for what follows, and the bytes behind the term. If no parts are left, nothing is
%% read any more; dots replace what is left out.
print(_Bytes, _Depth, 0, _, Before) -> {<<Before/binary, "...">>, 0, unread};
print(Bytes, 0, Parts, _, Before) ->
    {_, Rest} = seqaudit_external:first(Bytes),
    {<<Before/binary, "...">>, Parts, Rest};
print(Bytes, Depth, Parts, Style, Before) ->
    case seqaudit_external:part(Bytes) of
        {tuple, Arity, Rest} ->
            {Text, Left, After} =
                print_parts(Arity, Rest, Depth - 1, Parts - 1, Style, <<Before/binary, ${>>),
            {<<Text/binary, $}>>, Left, After};
        {list, Length, Rest} ->
            print_list(Length, Rest, Bytes, Depth, Parts, Style, Before);
        {string, String, Rest} ->
            {print_string(String, Parts - 1, Style, Before), max(0, Parts - 1), Rest};
        {map, Pairs, Rest} ->
            {Text, Left, After} =
                print_map(Pairs, Rest, Depth - 1, Parts - 1, Style, <<Before/binary, "#{">>),
            {<<Text/binary, $}>>, Left, After};
        {record, Module, Name, Fields, Rest} ->
            Begun = <<Before/binary, $#, (atom_text(Module))/binary, $:, (atom_text(Name))/binary,
                      ${>>,
            {Text, Left, After} = print_fields(Fields, Rest, Depth - 1, Parts - 1, Style, Begun),
            {<<Text/binary, $}>>, Left, After};
        {leaf, Leaf, Rest} ->
            {leaf(Leaf, Style, Before), Parts - 1, Rest};
        {newer, Tag} ->
            {<<Before/binary, "#Newer<", (integer_to_binary(Tag))/binary, $>>>, 0, unread};
        unread ->
            {<<Before/binary, "...">>, 0, unread}
    end.

print_fields([], Rest, _Depth, Parts, _, Before) -> {Before, Parts, Rest};
print_fields(_, _Rest, _Depth, 0, _, Before) -> {<<Before/binary, "...">>, 0, unread};
print_fields([Name | Names], Bytes, Depth, Parts, Style, Before) ->
    {Text, Left, Rest} =
        print(Bytes, Depth, Parts, Style, <<Before/binary, (atom_text(Name))/binary, " = ">>),
    print_fields(Names, Rest, Depth, Left, Style, separated(length(Names) + 1, Text)).

print_parts(0, Rest, _Depth, Parts, _, Before) -> {Before, Parts, Rest};
print_parts(_, _Rest, _Depth, 0, _, Before) -> {<<Before/binary, "...">>, 0, unread};
print_parts(Left, Bytes, Depth, Parts, Style, Before) ->
    {Text, PartsLeft, Rest} = print(Bytes, Depth, Parts, Style, Before),
    print_parts(Left - 1, Rest, Depth, PartsLeft, Style, separated(Left, Text)).

separated(1, Text) -> Text;
separated(_, Text) -> <<Text/binary, $,>>.

%% A list of characters is a text, of which the first are shown.
print_list(Length, Elements, Bytes, Depth, Parts, #style{bytes = Most} = Style, Before) ->
    case text(Length, Elements, Most + 1, <<>>) of
        {ok, Text} ->
            {_, Rest} = seqaudit_external:first(Bytes),
            {append_quoted(Text, Most, Before), Parts - 1, Rest};
        other ->
            {Text, Left, Tail} =
                print_parts(Length, Elements, Depth - 1, Parts - 1, Style, <<Before/binary, $[>>),
            print_tail(Text, Tail, Depth - 1, Left, Style)
    end.

%% The characters of a list up to this number, if all of them are printable.
text(_, _, 0, Text) ->
    {ok, Text};
text(0, Bytes, _Most, Text) ->
    case seqaudit_external:part(Bytes) of
        {leaf, nil, _} -> {ok, Text};
        _ -> other
    end;
text(Left, Bytes, Most, Text) ->
    case seqaudit_external:part(Bytes) of
        {leaf, {integer, C}, Rest} ->
            case io_lib:printable_unicode_list([C]) of
                true -> text(Left - 1, Rest, Most - 1, <<Text/binary, C/utf8>>);
                false -> other
            end;
        _ ->
            other
    end.

print_tail(Text, unread, _Depth, 0, _Style) -> {<<Text/binary, $]>>, 0, unread};
print_tail(Text, Bytes, Depth, Parts, Style) ->
    case seqaudit_external:part(Bytes) of
        {leaf, nil, Rest} ->
            {<<Text/binary, $]>>, Parts, Rest};
        _ ->
            {Tail, Left, Rest} = print(Bytes, Depth, Parts, Style, <<Text/binary, $|>>),
            {<<Tail/binary, $]>>, Left, Rest}
    end.

%% Bytes that are no characters are a list of numbers.
print_string(String, Parts, #style{bytes = Most}, Before) ->
    Begin = binary_to_list(binary:part(String, 0, min(byte_size(String), Most + 1))),
    case {io_lib:printable_unicode_list(Begin), byte_size(String) =< Parts} of
        {true, _} -> append_quoted(unicode:characters_to_binary(Begin), Most, Before);
        {false, true} -> <<(append_bytes(String, <<Before/binary, $[>>))/binary, $]>>;
        {false, false} when Parts =:= 0 -> <<Before/binary, "[...]">>;
        {false, false} ->
            Shown = append_bytes(binary:part(String, 0, Parts), <<Before/binary, $[>>),
            <<Shown/binary, ",...]">>
    end.

append_bytes(<<Byte>>, Before) -> <<Before/binary, (integer_to_binary(Byte))/binary>>;
append_bytes(<<Byte, Rest/bitstring>>, Before) ->
    append_bytes(Rest, <<Before/binary, (integer_to_binary(Byte))/binary, $,>>);
append_bytes(<<>>, Before) -> Before;
append_bytes(Bits, Before) ->
    Size = bit_size(Bits),
    <<Number:Size>> = Bits,
    <<Before/binary, (integer_to_binary(Number))/binary, $:, (integer_to_binary(Size))/binary>>.

%% A text of no more bytes has no more characters.
append_quoted(Text, Most, Before) when byte_size(Text) > Most ->
    Short = unicode:characters_to_binary(short(unicode:characters_to_list(Text), Most)),
    append_quoted(Short, byte_size(Short), Before);
append_quoted(Text, _Most, Before) ->
    <<(append_text(Text, <<Before/binary, $">>))/binary, $">>.

escaped(Characters) ->
    Quoted = quoted(Characters, $"),
    binary:part(Quoted, 1, byte_size(Quoted) - 2).

print_map(Pairs, Bytes, Depth, Parts, Style, Before)
  when Pairs > 1, Pairs =< ?ORDERED, Depth >= Style#style.unordered ->
    case pairs(Pairs, Bytes, []) of
        {Keyed, Rest} ->
            Sorted = iolist_to_binary([[Key, Value] || {_, Key, Value} <- lists:sort(Keyed)]),
            {Text, Left, _} = print_pairs(Pairs, Sorted, Depth, Parts, Style, Before),
            {Text, Left, Rest};
        unread ->
            print_pairs(Pairs, Bytes, Depth, Parts, Style, Before)
    end;
print_map(Pairs, Bytes, Depth, Parts, Style, Before) ->
    print_pairs(Pairs, Bytes, Depth, Parts, Style, Before).

%% Behind a part that can't be read nothing is shown, so what comes before it stays in front.
pairs(0, Rest, Done) -> {Done, Rest};
pairs(Left, Bytes, Done) ->
    {Key, Rest0} = seqaudit_external:first(Bytes),
    {Value, Rest} = seqaudit_external:first(Rest0),
    case seqaudit_external:is_whole(Key) andalso seqaudit_external:is_whole(Value) of
        true -> pairs(Left - 1, Rest, [{order(Key), Key, Value} | Done]);
        false -> unread
    end.

%% Numbers come before atoms, and these before all else, as Erlang orders them.
order(Key) ->
    case {seqaudit_external:number(Key), seqaudit_external:view(Key)} of
        {Number, _} when is_integer(Number) -> {0, Number};
        {_, {atom, Name}} -> {1, Name};
        _ -> {2, Key}
    end.

print_pairs(0, Rest, _Depth, Parts, _, Before) -> {Before, Parts, Rest};
print_pairs(_, _Rest, _Depth, 0, _, Before) -> {<<Before/binary, "...">>, 0, unread};
print_pairs(Left, Bytes, Depth, Parts, Style, Before) ->
    {Key, Left0, Rest0} = print(Bytes, Depth, Parts, Style, Before),
    {Text, Left1, Rest} = print(Rest0, Depth, Left0, Style, <<Key/binary, " => ">>),
    print_pairs(Left - 1, Rest, Depth, Left1, Style, separated(Left, Text)).

leaf(nil, _, Before) -> <<Before/binary, "[]">>;
leaf({atom, Name}, _, Before) -> <<Before/binary, (atom_text(Name))/binary>>;
leaf({integer, Number}, _, Before) -> <<Before/binary, (integer_to_binary(Number))/binary>>;
leaf({process, Process}, #style{numbers = Numbers}, Before) ->
    case Numbers of
        #{Process := {Node, Number}} ->
            <<Before/binary, $<, (integer_to_binary(Node))/binary, $.,
              (integer_to_binary(Number))/binary, ".0>">>;
        #{} ->
            <<Before/binary, (process(Process, Numbers))/binary>>
    end;
leaf({reference, Ids}, _, Before) ->
    Dotted = << <<$., (integer_to_binary(Id))/binary>> || Id <- Ids >>,
    <<Before/binary, "#Ref<0", Dotted/binary, $>>>;
leaf({bits, Bits}, #style{bytes = Most}, Before)
  when bit_size(Bits) > 8 * ?BYTES, bit_size(Bits) =< 8 * Most ->
    append_bits(Bits, Before);
leaf(Leaf, _, Before) -> <<Before/binary, (iolist_to_binary(seldom(Leaf)))/binary>>.

%% A large binary as Erlang prints a small one: as text if all of it is printable, else as numbers.
append_bits(Bits, Before) ->
    case spelling(Bits) of
        numbers -> <<(append_bytes(Bits, <<Before/binary, "<<">>))/binary, ">>">>;
        utf8 -> <<(append_text(Bits, <<Before/binary, "<<\"">>))/binary, "\"/utf8>>">>;
        ascii -> <<(append_text(Bits, <<Before/binary, "<<\"">>))/binary, "\">>">>;
        latin1 ->
            Text = unicode:characters_to_binary(Bits, latin1),
            <<(append_text(Text, <<Before/binary, "<<\"">>))/binary, "\">>">>
    end.

%% In what characters a binary is written: in those of UTF-8 if it is UTF-8, else in those of
%% Latin-1.
spelling(Bits) when not is_binary(Bits) -> numbers;
spelling(Bits) ->
    case utf8(Bits, ascii) of
        none -> latin1(Bits);
        Spelling -> Spelling
    end.

utf8(<<C, Rest/binary>>, Spelling) when C >= $\s, C < 127 -> utf8(Rest, Spelling);
utf8(<<C/utf8, Rest/binary>>, Spelling) ->
    case io_lib:printable_list([C]) of
        true when C < 128; Spelling =:= numbers -> utf8(Rest, Spelling);
        true -> utf8(Rest, utf8);
        false -> utf8(Rest, numbers)
    end;
utf8(<<>>, Spelling) -> Spelling;
utf8(_, _Spelling) -> none.

latin1(<<C, Rest/binary>>) ->
    case io_lib:printable_latin1_list([C]) of
        true -> latin1(Rest);
        false -> numbers
    end;
latin1(<<>>) -> latin1.

%% A long text in UTF-8 is escaped some at a time, as a list takes many times its size.
append_text(<<>>, Before) -> Before;
append_text(Text, Before) ->
    Most = min(byte_size(Text), ?QUOTED),
    {Characters, Size} = case unicode:characters_to_list(binary:part(Text, 0, Most)) of
                             {incomplete, Whole, Begun} -> {Whole, Most - byte_size(Begun)};
                             Whole -> {Whole, Most}
                         end,
    <<_:Size/binary, Later/binary>> = Text,
    append_text(Later, <<Before/binary, (escaped(Characters))/binary>>).

seldom({large_integer, Size}) -> ["{...,{number_of_bytes,", integer_to_binary(Size), "}}"];
seldom({float, Float}) -> formatted("~0tp", [Float]);
seldom({bits, Bits}) when bit_size(Bits) > 8 * ?BYTES ->
    <<Begin:?BYTES/binary, _/bitstring>> = Bits,
    formatted("{~0tp,...,{bytes,~b}}", [Begin, byte_size(Bits)]);
seldom({bits, Bits}) -> formatted("~0tp", [Bits]);
seldom({port, Number}) -> ["#Port<0.", integer_to_binary(Number), $>];
seldom({function, Module, Index, Unique}) ->
    ["#Fun<", atom_text(Module), $., integer_to_list(Index), $., integer_to_list(Unique), $>];
seldom({export, Call}) -> ["fun ", unicode:characters_to_binary(call(Call))];
seldom(other) -> "#Unknown<>".

process(Process, Numbers) ->
    {process, Node, Number, Serial} = seqaudit_external:view(Process),
    Home = case map_size(Numbers) of
               0 -> "0";
               _ -> plain(Node)
           end,
    formatted("<~ts.~b.~b>", [Home, Number, Serial]).

%% @doc Returns the call that a process was started with, as `module:function/3'.
-spec call(seqaudit_external:encoded()) -> string().
call(Call) ->
    case seqaudit_external:call(Call) of
        {Module, Function, Arity} ->
            lists:flatten([atom(Module), $:, atom(Function), $/, integer_to_list(Arity)]);
        other -> encoded(Call, #{})
    end.

%% @doc An atom's text, in quotes if Erlang needs them. The atom isn't made.
-spec atom(binary()) -> string().
atom(Name) ->
    unicode:characters_to_list(atom_text(Name)).

atom_text(Name) ->
    case is_plain(Name) andalso not is_reserved(Name) of
        true -> Name;
        false -> quoted_atom(Name)
    end.

%% Most names in quotes have nothing that needs more than the quotes.
quoted_atom(Name) ->
    case needs_quotes_alone(Name) of
        true -> <<$', Name/binary, $'>>;
        false -> quoted(unicode:characters_to_list(Name), $')
    end.

needs_quotes_alone(<<C, Rest/binary>>)
  when C >= $\s, C < 127, C =/= $', C =/= $\\ -> needs_quotes_alone(Rest);
needs_quotes_alone(Rest) -> Rest =:= <<>>.

is_reserved(Name) ->
    lists:member(Name, [<<"after">>, <<"and">>, <<"andalso">>, <<"band">>, <<"begin">>, <<"bnot">>,
                        <<"bor">>, <<"bsl">>, <<"bsr">>, <<"bxor">>, <<"case">>, <<"catch">>,
                        <<"cond">>, <<"div">>, <<"else">>, <<"end">>, <<"fun">>, <<"if">>,
                        <<"let">>, <<"maybe">>, <<"not">>, <<"of">>, <<"or">>, <<"orelse">>,
                        <<"receive">>, <<"rem">>, <<"try">>, <<"when">>, <<"xor">>]).

quoted(Characters, Quote) -> unicode:characters_to_binary(io_lib:write_string(Characters, Quote)).

formatted(Format, Values) -> unicode:characters_to_binary(io_lib:format(Format, Values)).

is_plain(<<C, Rest/binary>>) when ?IS_SMALL_ASCII(C) -> is_in_atom(Rest);
is_plain(<<First/utf8, Rest/binary>>) -> ?IS_SMALL(First) andalso is_in_atom(Rest);
is_plain(<<>>) -> false.

is_in_atom(<<C, Rest/binary>>) when ?IS_SMALL_ASCII(C) -> is_in_atom(Rest);
is_in_atom(<<C/utf8, Rest/binary>>) when ?IS_SMALL(C); ?IS_IN_ATOM(C) -> is_in_atom(Rest);
is_in_atom(Rest) -> Rest =:= <<>>.

%% @doc A name as it is, with an escape for each character that could begin a line, or that no
%% reader sees.
-spec plain(binary()) -> string().
plain(Name) ->
    lists:flatten([case io_lib:printable_unicode_list([C]) andalso C >= 32 of
                       true -> C;
                       false -> io_lib:format("\\x{~.16b}", [C])
                   end || C <- unicode:characters_to_list(Name)]).
