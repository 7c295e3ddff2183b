%% @doc Reads events from text, as `io:format("~p~n", [Event])' printed them, one term after the
%% other, each ended by a newline or a full stop.
%%
%% Passes over words of a log in front of `{seq_trace,' on its line, and over lines that have no
%% event, which it counts. An event that can't be read is a fault, unless the text ends in it. A
%% comment says where the events after it were collected, and which node the first number of a pid
%% means there:
%% ```
%% %% node a@host
%% %% channel 8576 b@host
%% '''
%% Without them the node is `nonode@nohost', and a channel is a node of the name `channel_8576'.
-module(seqaudit_text).

-export([fold/3]).

-import(seqaudit_errors, [text/2]).

-define(NOWHERE, <<"nonode@nohost">>).
%% How deep a term may be; what is printed for people isn't.
-define(DEPTH, 10_000).
%% The numbers of a pid or reference have 32 bits, that of a port 64.
-define(GREATEST, 16#FFFF_FFFF).
-define(GREATEST_PORT, 16#FFFF_FFFF_FFFF_FFFF).
%% Digits of a whole number that is read: it takes the square of their number.
-define(DIGITS, 20_000).
-define(ATOM_CHARACTERS, 255).
%% Bytes that a pid or a fun may have between its angles.
-define(INNER, 2_000).

-define(SHOWN, 30).

%% Terms that are handed on with their line if they are no events.
-define(STRAYS, 3).

-record(place, {node = ?NOWHERE :: binary(), channels = #{} :: #{binary() => binary()}}).

%% The state of a text up to where it is read: whether there was an event yet, the first line that
%% is no term, how many lines were passed over, and how many terms are no events. `torn' counts the
%% bytes of a character that isn't whole, after the text.
-record(scan, {text :: binary(), torn :: non_neg_integer(), place = #place{} :: #place{},
               found = false :: boolean(),
               fault = none :: none | {pos_integer(), string()}, passed = 0 :: non_neg_integer(),
               strays = 0 :: non_neg_integer()}).

-type item() :: collection | {facts, #{node := binary()}} | {event, binary()}
          | {stray, pos_integer(), binary()}
              | {left, Bytes :: pos_integer(), Line :: pos_integer()}
              | {passed, Lines :: pos_integer(), First :: pos_integer()}.
%% As {@link seqaudit_events:item()} has them, with the number of a line in place of where it is.

%% @doc Goes through the events, and the collections and nodes that they are of.
-spec fold(binary(), fun((item(), Acc) -> Acc), Acc) ->
          {ok, Acc} | {error, {pos_integer(), string()}}.
fold(Text, Do, Acc) ->
    case unicode:characters_to_binary(Text) of
        {error, _, _} ->
            {error, {1, "this isn't UTF-8 text"}};
        {incomplete, Whole, Torn} ->
            scan(Whole, #scan{text = Whole, torn = byte_size(Torn)}, Do, {new, Acc});
        Whole ->
            scan(Whole, #scan{text = Whole, torn = 0}, Do, {new, Acc})
    end.

%% `Last' is the node of the collection that is open.
scan(Bytes, #scan{place = Place, fault = Fault} = Scan, Do, State) ->
    case blanks(Bytes) of
        <<>> ->
            scanned(Scan, Do, State);
        <<".", Rest/binary>> ->
            scan(Rest, Scan, Do, State);
        <<"%", Rest/binary>> ->
            {Comment, After} = line(Rest),
            scan(After, Scan#scan{place = comment(words(Comment), Place)}, Do, State);
        Begin when Fault =/= none ->
            {Line, _} = line(Begin),
            case binary:match(Line, <<"{seq_trace,">>) of
                {0, _} -> scan_term(Begin, Scan, Do, State);
                _ -> prefixed(Begin, "", Scan, Do, State)
            end;
        Begin ->
            scan_term(Begin, Scan, Do, State)
    end.

%% A text without an event is none of a trace.
scanned(#scan{found = false, fault = {Line, Reason}}, _Do, _State) ->
    {error, {Line, Reason}};
scanned(#scan{passed = Lines, fault = {First, _}}, Do, {_Last, Acc}) when Lines > 0 ->
    {ok, Do({passed, Lines, First}, Acc)};
scanned(#scan{}, _Do, {_Last, Acc}) ->
    {ok, Acc}.

scan_term(Begin, #scan{place = Place} = Scan, Do, State) ->
    try ended_term(Begin, Place) of
        {Term, Rest} -> taken(Term, Begin, Rest, Scan, Do, State)
    catch
        throw:{fault, Reason} -> prefixed(Begin, Reason, Scan, Do, State)
    end.

taken(Term, Begin, Rest, #scan{text = Text, place = #place{node = Node}, strays = Strays} = Scan,
      Do, {Last, Acc}) ->
    Opened = opened(Node, Last, Do, Acc),
    case seqaudit_external:event(Term) of
        {ok, _} ->
            scan(Rest, Scan#scan{found = true}, Do, {Node, Do({event, Term}, Opened)});
        _ when Strays < ?STRAYS ->
            Stray = {stray, line_number(Text, Begin), Term},
            scan(Rest, Scan#scan{strays = Strays + 1}, Do, {Node, Do(Stray, Opened)});
        _ ->
            scan(Rest, Scan, Do, {Node, Do({event, Term}, Opened)})
    end.

opened(Node, Node, _Do, Acc) -> Acc;
opened(Node, _Last, Do, Acc) -> Do({facts, #{node => Node}}, Do(collection, Acc)).

%% A line that is no term may have an event behind what a log wrote in front.
prefixed(Begin, Reason, #scan{place = Place, passed = Passed} = Scan, Do, State) ->
    {Line, After} = line(Begin),
    case binary:match(Line, <<"{seq_trace,">>) of
        {0, _} ->
            broken(Begin, Begin, Reason, Scan, Do, State);
        {Start, _} ->
            <<_:Start/binary, Event/binary>> = Begin,
            try term(Event, Place, 0) of
                {Term, Rest} -> taken(Term, Begin, element(2, line(Rest)), Scan, Do, State)
            catch
                throw:{fault, Inner} -> broken(Begin, Event, Inner, Scan, Do, State)
            end;
        nomatch ->
            scan(After, (first_fault(Begin, Reason, Scan))#scan{passed = Passed + 1}, Do, State)
    end.

first_fault(Begin, Reason, #scan{text = Text, fault = none} = Scan) ->
    Scan#scan{fault = {line_number(Text, Begin), Reason}};
first_fault(_Begin, _Reason, Scan) ->
    Scan.

%% An event that can't be read. If it is the last one and isn't closed, the text was cut there.
broken(Begin, Event, Reason, #scan{text = Text, torn = Torn, found = Found} = Scan, Do,
       {Last, Acc}) ->
    Line = line_number(Text, Begin),
    case Found andalso is_last(Event) andalso is_open(Event, 0) of
        true -> scanned(Scan, Do, {Last, Do({left, byte_size(Event) + Torn, Line}, Acc)});
        false -> {error, {Line, Reason}}
    end.

is_last(<<"{", Rest/binary>>) -> binary:match(Rest, <<"{seq_trace,">>) =:= nomatch.

%% Whether brackets or a quote that are open stay so to the end.
is_open(<<>>, Depth) -> Depth > 0;
is_open(<<Quote, Rest/binary>>, Depth)
  when Quote =:= $"; Quote =:= $' -> is_open_quote(Rest, Quote, Depth);
is_open(<<Open, Rest/binary>>, Depth) when Open =:= ${; Open =:= $[ -> is_open(Rest, Depth + 1);
is_open(<<Close, _/binary>>, 1) when Close =:= $}; Close =:= $] -> false;
is_open(<<Close, Rest/binary>>, Depth) when Close =:= $}; Close =:= $] -> is_open(Rest, Depth - 1);
is_open(<<_, Rest/binary>>, Depth) -> is_open(Rest, Depth).

is_open_quote(<<"\\", _, Rest/binary>>, Quote, Depth) -> is_open_quote(Rest, Quote, Depth);
is_open_quote(<<Quote, Rest/binary>>, Quote, Depth) -> is_open(Rest, Depth);
is_open_quote(<<_, Rest/binary>>, Quote, Depth) -> is_open_quote(Rest, Quote, Depth);
is_open_quote(<<>>, _Quote, _Depth) -> true.

line_number(Text, Begin) ->
    Before = byte_size(Text) - byte_size(Begin),
    length(binary:matches(binary:part(Text, 0, Before), <<"\n">>)) + 1.

line(Text) ->
    case binary:split(Text, <<"\n">>) of
        [Line, Rest] -> {Line, Rest};
        [Line] -> {Line, <<>>}
    end.

words(Comment) ->
    [Word || Word <- binary:split(Comment, [<<"%">>, <<" ">>, <<"\t">>, <<"\r">>], [global]),
             Word =/= <<>>].

comment(Words, #place{channels = Channels} = Place) ->
    case {Words, Words =/= [] andalso is_name(lists:last(Words))} of
        {[<<"node">>, Node], true} -> #place{node = Node};
        {[<<"channel">>, Number, Node], true} -> Place#place{channels = Channels#{Number => Node}};
        _ -> Place
    end.

is_name(Name) ->
    byte_size(Name) =< 4 * ?ATOM_CHARACTERS
        andalso length(unicode:characters_to_list(Name)) =< ?ATOM_CHARACTERS.

ended_term(Begin, Place) ->
    {Term, Rest} = term(Begin, Place, 0),
    {Term, ended(Rest)}.

%% Behind a term comes the end of its line, or a full stop.
ended(Rest) ->
    case line_blanks(Rest) of
        <<"\n", After/binary>> -> After;
        <<".", After/binary>> -> After;
        <<"%", _/binary>> = Comment -> Comment;
        <<>> -> <<>>;
        Other -> syntax(Other)
    end.

line_blanks(<<C, Rest/binary>>) when C =:= $\s; C =:= $\t; C =:= $\r -> line_blanks(Rest);
line_blanks(Rest) -> Rest.

blanks(<<C, Rest/binary>>) when C =< $\s -> blanks(Rest);
blanks(Rest) -> Rest.

-spec fault(string()) -> no_return().
fault(Reason) -> throw({fault, Reason}).

-spec syntax(binary()) -> no_return().
syntax(<<>>) -> fault("this isn't an Erlang term: it isn't closed");
syntax(Bytes) ->
    {Before, _} = line(Bytes),
    fault("this isn't an Erlang term: syntax error before: " ++ shown(Before)).

shown(Bytes) ->
    Begin = case unicode:characters_to_list(binary:part(Bytes, 0,
                                                        min(byte_size(Bytes), 4 * ?SHOWN))) of
                {incomplete, Characters, _} -> Characters;
                Characters -> Characters
            end,
    lists:flatten(io_lib:write_string(seqaudit_terms:short(Begin, ?SHOWN))).

%% The bytes of the first term of a text, and what comes behind it.
term(_Bytes, _Place, ?DEPTH) ->
    fault("this term is more than 10000 deep");
term(Bytes, Place, Depth) ->
    case blanks(Bytes) of
        <<"{", Rest/binary>> ->
            {Count, Parts, After} = parts(Rest, $}, fun(Part) -> term(Part, Place, Depth + 1) end),
            {tuple(Count, Parts), After};
        <<"[", Rest/binary>> ->
            list(Rest, Place, Depth + 1);
        <<"#{", Rest/binary>> ->
            map(Rest, Place, Depth + 1);
        <<"<<", Rest/binary>> ->
            binary(blanks(Rest), <<>>);
        <<"<", C, _/binary>> = Begin when C >= $0, C =< $9 ->
            %% A part of the text; to put the digit in front again would copy the whole rest.
            <<_, Rest/binary>> = Begin,
            opaque(pid, Rest, Place);
        <<"#Ref<", Rest/binary>> -> opaque(reference, Rest, Place);
        <<"#Port<", Rest/binary>> -> opaque(port, Rest, Place);
        <<"#Fun<", Rest/binary>> -> function(Rest);
        <<"\"", Rest/binary>> -> strings(Rest, <<>>);
        <<C, _/binary>> = Begin when C >= $0, C =< $9; C =:= $- -> number(Begin);
        <<"fun ", Rest/binary>> -> export(Rest);
        Begin ->
            {Name, Rest} = name(Begin),
            {atom(Name), Rest}
    end.

%% Reads parts with commas between them by this function, up to what closes them.
parts(Bytes, Close, Read) ->
    case blanks(Bytes) of
        <<Close, Rest/binary>> -> {0, <<>>, Rest};
        Begin -> parts(Begin, Close, Read, 0, <<>>)
    end.

parts(Bytes, Close, Read, Count, Done) ->
    {Part, Rest0} = Read(Bytes),
    Parts = <<Done/binary, Part/binary>>,
    case blanks(Rest0) of
        <<",", Rest/binary>> -> parts(Rest, Close, Read, Count + 1, Parts);
        <<Close, Rest/binary>> -> {Count + 1, Parts, Rest};
        <<"|", _/binary>> = Rest when Close =:= $] -> {Count + 1, Parts, Rest};
        Other -> syntax(Other)
    end.

tuple(Count, Parts) when Count < 256 -> <<104, Count, Parts/binary>>;
tuple(Count, Parts) -> <<105, Count:32, Parts/binary>>.

list(Bytes, Place, Depth) ->
    case parts(Bytes, $], fun(Part) -> term(Part, Place, Depth) end) of
        {0, _, Rest} -> {<<106>>, Rest};
        {Count, Parts, <<"|", Rest0/binary>>} ->
            {Tail, Rest1} = term(Rest0, Place, Depth),
            {joined(Count, Parts, Tail), behind(<<"]">>, blanks(Rest1))};
        {Count, Parts, Rest} ->
            {bytes(Count, Parts), Rest}
    end.

joined(Count, Parts, <<108, More:32, Rest/binary>>) ->
    <<108, (Count + More):32, Parts/binary, Rest/binary>>;
joined(Count, Parts, <<106>>) -> bytes(Count, Parts);
joined(Count, Parts, <<107, Size:16, Bytes:Size/binary>>) ->
    Numbers = << <<97, Byte>> || <<Byte>> <= Bytes >>,
    bytes(Count + Size, <<Parts/binary, Numbers/binary>>);
joined(Count, Parts, Tail) -> <<108, Count:32, Parts/binary, Tail/binary>>.

%% Erlang writes a list of bytes in a form of its own.
bytes(Count, Parts) when Count =< 65_535, byte_size(Parts) =:= 2 * Count ->
    case << <<Byte>> || <<97, Byte>> <= Parts >> of
        Bytes when byte_size(Bytes) =:= Count -> <<107, Count:16, Bytes/binary>>;
        _ -> <<108, Count:32, Parts/binary, 106>>
    end;
bytes(Count, Parts) ->
    <<108, Count:32, Parts/binary, 106>>.

%% The pairs are put in order as those of other files are.
map(Bytes, Place, Depth) ->
    {Count, Pairs, Rest} = parts(Bytes, $}, fun(Pair) -> pair(Pair, Place, Depth) end),
    case seqaudit_external:take(<<116, Count:32, Pairs/binary>>) of
        {ok, Map, <<>>} -> {Map, Rest};
        _ -> fault("this isn't an Erlang term: a map isn't one")
    end.

pair(Bytes, Place, Depth) ->
    {Key, Rest0} = term(Bytes, Place, Depth),
    {Value, Rest} = term(behind(<<"=>">>, blanks(Rest0)), Place, Depth),
    {<<Key/binary, Value/binary>>, Rest}.

behind(Mark, Bytes) ->
    case string:prefix(Bytes, Mark) of
        nomatch -> syntax(Bytes);
        Rest -> Rest
    end.

%% The segments of a binary: texts, and numbers with a size in bits.
binary(<<">>", Rest/binary>>, Done) ->
    {seqaudit_external:from_term(Done), Rest};
binary(<<"\"", Text/binary>>, Done) ->
    {Characters, Rest0} = quoted(Text, $", <<>>),
    {Bits, Rest} = case blanks(Rest0) of
                       <<"/utf8", After/binary>> -> {Characters, After};
                       After -> {latin1(Characters), After}
                   end,
    next_segment(Rest, <<Done/bitstring, Bits/bitstring>>);
binary(Bytes, Done) ->
    {Number, Rest0} = integer(Bytes),
    {Size, Rest} = case blanks(Rest0) of
                       <<":", After/binary>> -> integer(blanks(After));
                       After -> {8, After}
                   end,
    Size =< 1_000_000 orelse fault("this isn't an Erlang term: a segment is too large"),
    next_segment(Rest, <<Done/bitstring, Number:Size>>).

next_segment(Bytes, Done) ->
    case blanks(Bytes) of
        <<",", Rest/binary>> -> binary(blanks(Rest), Done);
        <<">>", _/binary>> = Rest -> binary(Rest, Done);
        Other -> syntax(Other)
    end.

latin1(Characters) ->
    case unicode:characters_to_binary(Characters, utf8, latin1) of
        Bytes when is_binary(Bytes) -> Bytes;
        _ -> Characters
    end.

%% Takes what is between the angles: numbers and dots of a pid, port or reference.
opaque(Kind, Bytes, Place) ->
    {Inner, Rest} = angles(Bytes, "<"),
    {opaque_term(Kind, numbers(Inner), Place), Rest}.

angles(Bytes, Begin) ->
    case binary:match(Bytes, <<">">>, [{scope, {0, min(byte_size(Bytes), ?INNER)}}]) of
        {Size, 1} ->
            <<Inner:Size/binary, ">", Rest/binary>> = Bytes,
            {Inner, Rest};
        nomatch ->
            fault(text("this isn't an Erlang term: a ~ts isn't closed", [Begin]))
    end.

%% The numbers between dots; a word with more digits than any of them has is none.
numbers(Inner) ->
    Words = binary:split(Inner, <<".">>, [global]),
    try [binary_to_integer(Word) || Word <- Words, byte_size(Word) =< 20 orelse error(badarg)]
    catch error:badarg -> fault("a number is missing or out of range in <" ++ shown(Inner) ++ ">")
    end.

opaque_term(pid, [Channel, Number, Serial], Place) ->
    ok = in_range([Number, Serial], ?GREATEST),
    <<88, (home(Channel, Place))/binary, Number:32, Serial:32, 0:32>>;
opaque_term(port, [Channel, Number], Place) ->
    ok = in_range([Number], ?GREATEST_PORT),
    <<120, (home(Channel, Place))/binary, Number:64, 0:32>>;
opaque_term(reference, [Channel | Words], Place) when length(Words) >= 1, length(Words) =< 5 ->
    ok = in_range(Words, ?GREATEST),
    Ids = << <<Word:32>> || Word <- lists:reverse(Words) >>,
    <<90, (length(Words)):16, (home(Channel, Place))/binary, 0:32, Ids/binary>>;
opaque_term(Kind, Numbers, _Place) ->
    fault(text("a ~ts hasn't ~b numbers", [Kind, length(Numbers)])).

in_range(Numbers, Greatest) ->
    case [Number || Number <- Numbers, Number < 0 orelse Number > Greatest] of
        [] -> ok;
        [Number | _] -> fault(text("the number ~b is out of range", [Number]))
    end.

home(0, #place{node = Node}) ->
    seqaudit_external:atom(Node);
home(Channel, #place{channels = Channels}) ->
    Word = integer_to_binary(Channel),
    seqaudit_external:atom(maps:get(Word, Channels, <<"channel_", Word/binary>>)).

%% A fun that isn't known becomes a tuple with what was printed of it.
function(Bytes) ->
    {Inner, Rest} = angles(Bytes, "#Fun<"),
    {tuple(2, <<(seqaudit_external:atom(<<"fun">>))/binary, (characters(Inner))/binary>>), Rest}.

export(Bytes) ->
    {Module, Rest0} = name(blanks(Bytes)),
    {Function, Rest1} = name(behind(<<":">>, Rest0)),
    {Arity, Rest} = integer(behind(<<"/">>, Rest1)),
    {<<113, (atom(Module))/binary, (atom(Function))/binary, 97, Arity>>, Rest}.

name(<<"'", Rest/binary>>) -> quoted(Rest, $', <<>>);
name(Bytes) -> bare(Bytes).

%% Strings one behind the other are one.
strings(Bytes, Before) ->
    {Text, Rest} = quoted(Bytes, $", Before),
    case blanks(Rest) of
        <<"\"", More/binary>> -> strings(More, Text);
        _ -> {characters(Text), Rest}
    end.

characters(Text) ->
    seqaudit_external:from_term(unicode:characters_to_list(Text)).

quoted(<<>>, _Quote, _Done) -> fault("a quote isn't closed");
quoted(<<Quote, Rest/binary>>, Quote, Done) -> {Done, Rest};
quoted(<<"\\", Rest0/binary>>, Quote, Done) ->
    {Character, Rest} = escaped(Rest0),
    quoted(Rest, Quote, <<Done/binary, Character/utf8>>);
quoted(<<C/utf8, Rest/binary>>, Quote, Done) -> quoted(Rest, Quote, <<Done/binary, C/utf8>>).

escaped(<<"x{", Rest/binary>>) ->
    case binary:split(Rest, <<"}">>) of
        [Digits, After] when byte_size(Digits) =< 6 -> {unicode(Digits, 16), After};
        _ -> fault("this isn't an Erlang term: an escape isn't closed")
    end;
escaped(<<A, B, C, Rest/binary>>) when A >= $0, A =< $7, B >= $0, B =< $7, C >= $0, C =< $7 ->
    {unicode(<<A, B, C>>, 8), Rest};
escaped(<<C/utf8, Rest/binary>>) ->
    {case C of
         $b -> $\b; $d -> $\d; $e -> $\e; $f -> $\f; $n -> $\n; $r -> $\r; $s -> $\s; $t -> $\t;
         $v -> $\v; _ -> C
     end, Rest};
escaped(<<>>) -> fault("a quote isn't closed").

unicode(Digits, Base) ->
    try <<(binary_to_integer(Digits, Base))/utf8>> of
        <<C/utf8>> -> C
    catch
        error:badarg -> fault("this isn't an Erlang term: an escape isn't a character")
    end.

number(Bytes) ->
    case re:run(Bytes, "^-?[0-9]+(\\.[0-9]+([eE][-+]?[0-9]+)?)?") of
        {match, [{0, Size} | Fraction]} ->
            <<Number:Size/binary, Rest/binary>> = Bytes,
            {seqaudit_external:from_term(case Fraction of
                                             [] -> whole(Number);
                                             _ -> float_of(Number)
                                         end), Rest};
        nomatch ->
            syntax(Bytes)
    end.

whole(Digits) when byte_size(Digits) > ?DIGITS ->
    fault("this number has more than 20000 digits");
whole(Digits) ->
    binary_to_integer(Digits).

float_of(Number) ->
    try binary_to_float(Number)
    catch error:badarg -> fault("this isn't an Erlang term: a number isn't a float")
    end.

integer(<<C, _/binary>> = Bytes) when C >= $0, C =< $9 ->
    {Digits, Rest} = digits(Bytes, <<>>),
    {whole(Digits), Rest};
integer(Bytes) -> syntax(Bytes).

digits(<<C, Rest/binary>>, Done) when C >= $0, C =< $9 -> digits(Rest, <<Done/binary, C>>);
digits(Rest, Done) -> {Done, Rest}.

bare(<<C/utf8, _/binary>> = Bytes) when C >= $a, C =< $z; C >= 16#DF, C =< 16#FF, C =/= 16#F7 ->
    name_characters(Bytes, <<>>);
bare(Bytes) ->
    syntax(Bytes).

name_characters(<<C/utf8, Rest/binary>>, Done)
  when C >= $a, C =< $z; C >= $A, C =< $Z; C >= $0, C =< $9; C =:= $_; C =:= $@;
       C >= 16#C0, C =< 16#FF, C =/= 16#D7, C =/= 16#F7 ->
    name_characters(Rest, <<Done/binary, C/utf8>>);
name_characters(Rest, Done) ->
    {Done, Rest}.

atom(Name) ->
    case is_name(Name) of
        true -> seqaudit_external:atom(Name);
        false -> fault("this isn't an Erlang term: a name is longer than 255 characters")
    end.
