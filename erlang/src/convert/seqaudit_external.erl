%% @doc Terms of a file as bytes of the external term format, which are never made into terms.
%%
%% A file of events may be damaged, or written by an enemy. `binary_to_term/1' would make atoms of
%% what it says, and of a small file terms that fill the memory. So a term stays the bytes that it
%% is, without the version byte in front. They are walked once, with a counter and no stack, and put
%% into one form: equal terms have equal bytes, whichever release of OTP wrote them. The only
%% exceptions are maps in 1,000 others or more, those of more than 1,000,000 pairs, and maps of a
%% message that can't be read to its end: they keep the order in which their node wrote the pairs.
%%
%% Each term in its one form is whole, so whatever reads parts of one meets no damage. A message
%% with a tag of a newer release of OTP is made whole: nobody knows where such a part ends, so it
%% has all bytes that are left, and an empty part replaces each one that should follow it.
-module(seqaudit_external).

-export([read/1, take/1, from_term/1, to_term/1, atom/1, name/2, view/1, event/1, readable/1,
         tuple/1, pairs/1, map/1, list/1, number/1, call/1, call/3, first/1, is_whole/1, part/1,
         request/1]).
-export_type([encoded/0, view/0, event/0]).

-define(VERSION, 131).
-define(RECORD, 67).
-define(NEW_FLOAT, 70).
-define(BIT_BINARY, 77).
-define(NEW_PID, 88).
-define(NEW_PORT, 89).
-define(NEWER_REFERENCE, 90).
-define(SMALL_INTEGER, 97).
-define(INTEGER, 98).
-define(ATOM, 100).
-define(SMALL_TUPLE, 104).
-define(LARGE_TUPLE, 105).
-define(NIL, 106).
-define(STRING, 107).
-define(LIST, 108).
-define(BINARY, 109).
-define(SMALL_BIG, 110).
-define(LARGE_BIG, 111).
-define(NEW_FUN, 112).
-define(EXPORT, 113).
-define(MAP, 116).
-define(ATOM_UTF8, 118).
-define(SMALL_ATOM_UTF8, 119).
-define(V4_PORT, 120).
%% The tag of a part that can't be read, before its size and bytes. No release writes it, so in a
%% file it is the tag of a newer one.
-define(UNREAD, 0).
%% A tag that no release has that was tried is that of a newer one.
-define(IS_KNOWN(Tag), Tag =:= ?RECORD; Tag =:= ?NEW_FLOAT; Tag =:= ?BIT_BINARY; Tag >= ?NEW_PID,
        Tag =< ?NEWER_REFERENCE;
        Tag >= ?SMALL_INTEGER, Tag =< ?MAP; Tag >= ?ATOM_UTF8, Tag =< ?V4_PORT).

%% Pairs of a map that are sorted: in a list, they take far more memory than their bytes.
-define(SORTED_PAIRS, 1_000_000).
%% How deep within other maps the pairs of one are sorted still. Each copies what is in it, and a
%% file could have millions, one in another.
-define(SORTED_DEPTH, 1_000).
%% The size of a fun in its one form, at which Erlang doesn't look, and its process.
-define(NO_SIZE, 0).
-define(NO_PROCESS, ?NEW_PID, ?ATOM, 0:16, 0:96).
%% An atom has at most this many characters.
-define(ATOM_CHARACTERS, 255).
%% Whole numbers of more bytes are printed as their size.
-define(PRINTED_BIG, 500).
-type encoded() :: binary().
%% A whole term in its one form.

-type view() :: {process, Node :: binary(), Number :: non_neg_integer(),
                 Serial :: non_neg_integer()}
              | {port, Node :: binary(), Number :: non_neg_integer()}
              | {reference, Node :: binary(), [non_neg_integer()]}
              | {name, Name :: binary(), Node :: binary()}
              | {atom, Name :: binary()}
              | {first, encoded(), encoded()}
              | other.
%% The kinds of what stands for a process: one of these, or `ttb''s triple of it (`first': the
%% process, and what `ttb' knows of it).

-type event() :: {send | 'receive' | print, Label :: encoded(),
                  {Prev :: integer(), This :: integer()},
                  From :: encoded(), To :: encoded(), Message :: encoded(),
                  Time :: encoded() | none}.

%% @doc The term that these bytes are, with the version byte in front and nothing behind.
-spec read(binary()) -> {ok, encoded()} | error.
read(<<?VERSION, Bytes/binary>>) ->
    case take(Bytes) of
        {ok, Term, <<>>} -> {ok, Term};
        _ -> error
    end;
read(_) ->
    error.

%% @doc The first term of these bytes, and what follows it.
-spec take(binary()) -> {ok, encoded(), binary()} | error.
take(Bytes) ->
    try one(Bytes) of
        {Term, Rest} -> {ok, Term, Rest}
    catch
        throw:damaged -> error;
        throw:{newer, _, _, _} -> error
    end.

%% @doc The bytes of a term of this Erlang.
-spec from_term(term()) -> encoded().
from_term(Term) ->
    {ok, Encoded} = read(term_to_binary(Term)),
    Encoded.

%% @doc The term, if this Erlang has all of its atoms; no atom is made.
-spec to_term(encoded()) -> term() | other.
to_term(Encoded) ->
    try binary_to_term(<<?VERSION, Encoded/binary>>, [safe])
    catch error:badarg -> other
    end.

%% @doc The bytes of an atom of this name, which is UTF-8 of at most 255 characters.
-spec atom(binary()) -> encoded().
atom(Name) ->
    case is_ascii(Name) of
        true -> <<?ATOM, (byte_size(Name)):16, Name/binary>>;
        false -> <<?ATOM_UTF8, (byte_size(Name)):16, Name/binary>>
    end.

%% @doc The bytes of a registered name of a node.
-spec name(binary(), binary()) -> encoded().
name(Name, Node) ->
    <<?SMALL_TUPLE, 2, (atom(Name))/binary, (atom(Node))/binary>>.

%% A term in its one form already, as OTP 25 writes nearly all, is a part of the bytes that are
%% there.
one(Bytes) ->
    case skip(Bytes, 1) of
        {Size, 0} -> split_binary(Bytes, byte_size(Bytes) - Size);
        _ -> walk(Bytes, 1, 0, <<>>)
    end.

%% Skips this number of terms, up to one that isn't in its one form, or that takes a longer look.
%% Returns how many bytes and how many terms are left. The terms that are still to come are counted,
%% so that a deep term needs no stack. What a length says is taken from the bytes that are there,
%% and nothing is made for it in advance.
skip(<<Rest/binary>>, 0) -> {byte_size(Rest), 0};
skip(<<?SMALL_INTEGER, _, Rest/binary>>, Left) -> skip(Rest, Left - 1);
skip(<<?INTEGER, _:32, Rest/binary>>, Left) -> skip(Rest, Left - 1);
skip(<<?ATOM, Size:16, Rest/binary>>, Left) -> skip_ascii(Rest, Size, 0, Left, 3 + Size);
skip(<<?SMALL_TUPLE, Arity, Rest/binary>>, Left) -> skip(Rest, Left - 1 + Arity);
skip(<<?NIL, Rest/binary>>, Left) -> skip(Rest, Left - 1);
skip(<<?STRING, Size:16, _:Size/binary, Rest/binary>>, Left) -> skip(Rest, Left - 1);
skip(<<?LIST, Length:32, Rest/binary>>, Left) -> skip(Rest, Left + Length);
skip(<<?BINARY, Size:32, _:Size/binary, Rest/binary>>, Left) -> skip(Rest, Left - 1);
skip(<<?NEW_PID, ?ATOM, Size:16, Rest/binary>>, Left) ->
    skip_ascii(Rest, Size, 12, Left, 4 + Size);
skip(<<?NEWER_REFERENCE, Words:16, ?ATOM, Size:16, Rest/binary>>, Left) when Words =< 5 ->
    skip_ascii(Rest, Size, 4 + 4 * Words, Left, 6 + Size);
skip(<<?SMALL_BIG, Size, _, _:Size/binary, Rest/binary>>, Left) -> skip(Rest, Left - 1);
skip(<<?NEW_FLOAT, _:64, Rest/binary>>, Left) -> skip(Rest, Left - 1);
skip(<<?MAP, Pairs:32, Rest/binary>>, Left) when Pairs < 2 -> skip(Rest, Left - 1 + 2 * Pairs);
skip(<<Bytes/binary>>, Left) -> {byte_size(Bytes), Left}.

%% Skips a name of `Size' bytes and `More' bytes behind it, in a term that has `Term' bytes up to
%% there. Erlang reads four bytes at once fastest.
skip_ascii(<<Four:32, Rest/binary>>, Size, More, Left, Term)
  when Size >= 4, Four band 16#80808080 =:= 0 ->
    skip_ascii(Rest, Size - 4, More, Left, Term);
skip_ascii(<<Two:16, Rest/binary>>, Size, More, Left, Term)
  when Size >= 2, Two band 16#8080 =:= 0 ->
    skip_ascii(Rest, Size - 2, More, Left, Term);
skip_ascii(<<C, Rest/binary>>, Size, More, Left, Term) when Size > 0, C < 128 ->
    skip_ascii(Rest, Size - 1, More, Left, Term);
skip_ascii(<<Rest/binary>>, 0, More, Left, _Term) ->
    skip_bytes(Rest, More, Left);
skip_ascii(<<Rest/binary>>, Size, _More, Left, Term) ->
    {byte_size(Rest) + Term - Size, Left}.

%% The first three lengths are those of an atom, a process and a reference.
skip_bytes(<<Rest/binary>>, 0, Left) -> skip(Rest, Left - 1);
skip_bytes(<<_:12/binary, Rest/binary>>, 12, Left) -> skip(Rest, Left - 1);
skip_bytes(<<_:16/binary, Rest/binary>>, 16, Left) -> skip(Rest, Left - 1);
skip_bytes(<<_:4/binary, Rest/binary>>, More, Left)
  when More >= 4 -> skip_bytes(Rest, More - 4, Left);
skip_bytes(<<_/binary>>, _More, _Left) -> throw(damaged).

%% Puts this number of terms in their one form behind what is done. Later releases than OTP 25 write
%% atoms otherwise, so all of their terms come here, and the frequent ones first.
walk(<<Rest/binary>>, 0, _Depth, Done) ->
    {Done, Rest};
walk(<<?SMALL_INTEGER, N, Rest/binary>>, Left, Depth, Done) ->
    walk(Rest, Left - 1, Depth, <<Done/binary, ?SMALL_INTEGER, N>>);
walk(<<?ATOM, Size:16, Name:Size/binary, Rest/binary>>, Left, Depth, Done) ->
    Atom = latin1_atom(Name),
    walk(Rest, Left - 1, Depth, <<Done/binary, Atom/binary>>);
walk(<<?SMALL_ATOM_UTF8, Size, Name:Size/binary, Rest/binary>>, Left, Depth, Done) ->
    Atom = utf8_atom(Name),
    walk(Rest, Left - 1, Depth, <<Done/binary, Atom/binary>>);
walk(<<?SMALL_TUPLE, Arity, Rest/binary>>, Left, Depth, Done) ->
    walk(Rest, Left - 1 + Arity, Depth, <<Done/binary, ?SMALL_TUPLE, Arity>>);
walk(<<?NIL, Rest/binary>>, Left, Depth, Done) ->
    walk(Rest, Left - 1, Depth, <<Done/binary, ?NIL>>);
walk(<<?LIST, Length:32, Rest/binary>>, Left, Depth, Done) ->
    walk(Rest, Left + Length, Depth, <<Done/binary, ?LIST, Length:32>>);
walk(<<?INTEGER, N:32, Rest/binary>>, Left, Depth, Done) ->
    walk(Rest, Left - 1, Depth, <<Done/binary, ?INTEGER, N:32>>);
walk(<<?BINARY, Size:32, Bytes:Size/binary, Rest/binary>>, Left, Depth, Done) ->
    walk(Rest, Left - 1, Depth, <<Done/binary, ?BINARY, Size:32, Bytes/binary>>);
walk(<<?STRING, Size:16, Bytes:Size/binary, Rest/binary>>, Left, Depth, Done) ->
    walk(Rest, Left - 1, Depth, <<Done/binary, ?STRING, Size:16, Bytes/binary>>);
walk(<<?SMALL_BIG, Size, Bytes:(Size + 1)/binary, Rest/binary>>, Left, Depth, Done) ->
    walk(Rest, Left - 1, Depth, <<Done/binary, ?SMALL_BIG, Size, Bytes/binary>>);
walk(<<?NEW_FLOAT, Bytes:8/binary, Rest/binary>>, Left, Depth, Done) ->
    walk(Rest, Left - 1, Depth, <<Done/binary, ?NEW_FLOAT, Bytes/binary>>);
walk(<<Bytes/binary>>, Left, Depth, Done) ->
    walk_other(Bytes, Left, Depth, Done).

%% Goes on if the first term is a map, a large tuple, a fun, or one that has its node's name in it.
walk_other(<<?MAP, Pairs:32, Rest/binary>>, Left, Depth, Done)
  when Pairs > 1, Pairs =< ?SORTED_PAIRS, Depth < ?SORTED_DEPTH ->
    {Sorted, After} = sorted_pairs(Pairs, Rest, Depth + 1, []),
    walk(After, Left - 1, Depth, <<Done/binary, ?MAP, Pairs:32, Sorted/binary>>);
walk_other(<<?MAP, Pairs:32, Rest/binary>>, Left, Depth, Done) ->
    walk(Rest, Left - 1 + 2 * Pairs, Depth, <<Done/binary, ?MAP, Pairs:32>>);
walk_other(<<?LARGE_TUPLE, Arity:32, Rest/binary>>, Left, Depth, Done) ->
    walk(Rest, Left - 1 + Arity, Depth, <<Done/binary, ?LARGE_TUPLE, Arity:32>>);
%% A native record of OTP 29: its module and name, the names of its fields, and their values.
walk_other(<<?RECORD, Fields:32, Flag, Rest0/binary>>, Left, Depth, Done) ->
    {Names, Rest} = take_atoms(2 + Fields, Rest0, <<>>),
    walk(Rest, Left - 1 + Fields, Depth,
         <<Done/binary, ?RECORD, Fields:32, Flag, Names/binary>>);
walk_other(<<?EXPORT, Rest/binary>>, Left, Depth, Done) ->
    walk(Rest, Left + 2, Depth, <<Done/binary, ?EXPORT>>);
walk_other(<<?NEW_FUN, _Size:32, Fixed:21/binary, Free:32, Rest0/binary>>, Left, Depth, Done) ->
    {Module, Rest1} = take_atom(Rest0),
    {Index, Rest2} = take_integer(Rest1),
    {Unique, Rest3} = take_integer(Rest2),
    Rest = behind_process(Rest3),
    walk(Rest, Left - 1 + Free, Depth,
         <<Done/binary, ?NEW_FUN, ?NO_SIZE:32, Fixed/binary, Free:32, Module/binary, Index/binary,
           Unique/binary,
           ?NO_PROCESS>>);
walk_other(<<Bytes/binary>>, Left, Depth, Done) ->
    case without_parts(Bytes) of
        {Term, Rest} -> walk(Rest, Left - 1, Depth, <<Done/binary, Term/binary>>);
        newer -> throw({newer, Done, Left, Bytes})
    end.

without_parts(<<?NEW_PID, Rest/binary>>) ->
    with_node(<<?NEW_PID>>, Rest, <<>>, 12);
without_parts(<<?NEWER_REFERENCE, Words:16, Rest/binary>>) when Words =< 5 ->
    with_node(<<?NEWER_REFERENCE, Words:16>>, Rest, <<>>, 4 + 4 * Words);
without_parts(<<?V4_PORT, Rest/binary>>) ->
    with_node(<<?V4_PORT>>, Rest, <<>>, 12);
without_parts(<<?NEW_PORT, Rest/binary>>) ->
    with_node(<<?V4_PORT>>, Rest, <<0:32>>, 8);
without_parts(<<?LARGE_BIG, Size:32, Bytes:(Size + 1)/binary, Rest/binary>>) ->
    {<<?LARGE_BIG, Size:32, Bytes/binary>>, Rest};
without_parts(<<?BIT_BINARY, Size:32, Bits, Bytes:Size/binary, Rest/binary>>)
  when Bits >= 1, Bits =< 8 ->
    {<<?BIT_BINARY, Size:32, Bits, Bytes/binary>>, Rest};
without_parts(<<Tag, _/binary>> = Bytes) when ?IS_KNOWN(Tag) ->
    take_atom(Bytes);
without_parts(<<_, _/binary>>) ->
    newer;
without_parts(<<>>) ->
    throw(damaged).

%% Takes the name of a node and numbers of this size, with something between.
with_node(Before, Bytes, Between, Size) ->
    {Node, Rest0} = take_atom(Bytes),
    case Rest0 of
        <<Numbers:Size/binary, Rest/binary>> ->
            {<<Before/binary, Node/binary, Between/binary, Numbers/binary>>, Rest};
        _ -> throw(damaged)
    end.

take_atom(<<?ATOM, Size:16, Name:Size/binary, Rest/binary>>) -> {latin1_atom(Name), Rest};
take_atom(<<?SMALL_ATOM_UTF8, Size, Name:Size/binary, Rest/binary>>) -> {utf8_atom(Name), Rest};
take_atom(<<?ATOM_UTF8, Size:16, Name:Size/binary, Rest/binary>>) -> {utf8_atom(Name), Rest};
take_atom(_) -> throw(damaged).

take_atoms(0, Rest, Atoms) ->
    {Atoms, Rest};
take_atoms(Left, Bytes, Atoms) ->
    {Atom, Rest} = take_atom(Bytes),
    take_atoms(Left - 1, Rest, <<Atoms/binary, Atom/binary>>).

take_integer(<<?SMALL_INTEGER, N, Rest/binary>>) -> {<<?SMALL_INTEGER, N>>, Rest};
take_integer(<<?INTEGER, N:32, Rest/binary>>) -> {<<?INTEGER, N:32>>, Rest};
take_integer(_) -> throw(damaged).

behind_process(<<?NEW_PID, Bytes/binary>>) ->
    element(2, with_node(<<>>, Bytes, <<>>, 12));
behind_process(_) ->
    throw(damaged).

latin1_atom(Name) when byte_size(Name) > ?ATOM_CHARACTERS -> throw(damaged);
latin1_atom(Name) ->
    case is_ascii(Name) of
        true -> atom(Name);
        false -> atom(unicode:characters_to_binary(Name, latin1))
    end.

utf8_atom(Name) ->
    case is_ascii(Name) orelse is_utf8(Name, ?ATOM_CHARACTERS) of
        true -> atom(Name);
        false -> throw(damaged)
    end.

is_ascii(<<Four:32, Rest/binary>>) when Four band 16#80808080 =:= 0 -> is_ascii(Rest);
is_ascii(<<C, Rest/binary>>) when C < 128 -> is_ascii(Rest);
is_ascii(Rest) -> Rest =:= <<>>.

is_utf8(<<>>, _Left) -> true;
is_utf8(<<_/utf8, Rest/binary>>, Left) when Left > 0 -> is_utf8(Rest, Left - 1);
is_utf8(_, _) -> false.

sorted_pairs(0, Rest, _Depth, Pairs) ->
    {iolist_to_binary([[Key, Value] || {Key, Value} <- lists:sort(Pairs)]), Rest};
sorted_pairs(Left, Bytes, Depth, Pairs) ->
    {Key, Rest0} = part(Bytes, Depth),
    {Value, Rest} = part(Rest0, Depth),
    sorted_pairs(Left - 1, Rest, Depth, [{Key, Value} | Pairs]).

part(Bytes, Depth) ->
    case skip(Bytes, 1) of
        {Size, 0} ->
            split_binary(Bytes, byte_size(Bytes) - Size);
        _ ->
            {Term, Rest} = walk(Bytes, 1, Depth, <<>>),
            {binary:copy(Term), Rest}
    end.

%% Returns the first term of these bytes and what follows it: `unread' if a part of the term is.
one_readable(Bytes) ->
    try one(Bytes)
    catch
        throw:{newer, _, _, _} -> {as_far_as_known(Bytes), unread}
    end.

%% Keeps what comes before a tag of a newer release. This walk sorts no maps, so it is within none
%% when it fails, and has all of that. Each part that should follow takes a byte at least: if fewer
%% are left, the term is damaged.
as_far_as_known(Bytes) ->
    try walk(Bytes, 1, ?SORTED_DEPTH, <<>>) of
        {Term, _} -> Term
    catch
        throw:{newer, Before, Left, Unread} when Left =< byte_size(Unread) ->
            Missing = binary:copy(<<?UNREAD, 0:32>>, Left - 1),
            <<Before/binary, ?UNREAD, (byte_size(Unread)):32, Unread/binary, Missing/binary>>;
        throw:{newer, _, _, _} ->
            throw(damaged)
    end.

%% @doc The first of terms in their one form, and the others.
-spec first(binary()) -> {encoded(), binary()}.
first(Bytes) ->
    split_binary(Bytes, byte_size(Bytes) - left(Bytes, 1)).

%% Returns how many bytes are left after this number of terms in their one form.
left(Bytes, Count) ->
    case skip(Bytes, Count) of
        {Size, 0} ->
            Size;
        {Size, Left} ->
            {Parts, Rest} = begun(binary:part(Bytes, byte_size(Bytes), -Size)),
            left(Rest, Left - 1 + Parts)
    end.

%% @doc Whether nothing in a term is unread.
-spec is_whole(encoded()) -> boolean().
is_whole(Term) ->
    is_whole(Term, 1).

is_whole(Bytes, Count) ->
    {Size, Left} = skip(Bytes, Count),
    case binary:part(Bytes, byte_size(Bytes), -Size) of
        <<?UNREAD, _/binary>> when Left > 0 ->
            false;
        Seldom when Left > 0 ->
            {Parts, Rest} = begun(Seldom),
            is_whole(Rest, Left - 1 + Parts);
        _ ->
            true
    end.

%% Returns how many terms are in one that `skip' doesn't pass, and the bytes where they begin. Those
%% of a fun are its module, index, unique number and process, and what it has from outside.
begun(<<?MAP, Pairs:32, Rest/binary>>) -> {2 * Pairs, Rest};
begun(<<?LARGE_TUPLE, Arity:32, Rest/binary>>) -> {Arity, Rest};
begun(<<?RECORD, Fields:32, _Flag, Rest/binary>>) -> {2 + 2 * Fields, Rest};
begun(<<?EXPORT, Rest/binary>>) -> {3, Rest};
begun(<<?NEW_FUN, _:32, _Fixed:21/binary, Free:32, Rest/binary>>) -> {4 + Free, Rest};
begun(<<?ATOM_UTF8, Size:16, _:Size/binary, Rest/binary>>) -> {0, Rest};
begun(<<?NEW_PID, Rest/binary>>) -> behind_name(atom_name(Rest), 12);
begun(<<?V4_PORT, Rest/binary>>) -> behind_name(atom_name(Rest), 12);
begun(<<?NEWER_REFERENCE, Words:16, Rest/binary>>) -> behind_name(atom_name(Rest), 4 + 4 * Words);
begun(<<?LARGE_BIG, Size:32, _Sign, _:Size/binary, Rest/binary>>) -> {0, Rest};
begun(<<?BIT_BINARY, Size:32, _Bits, _:Size/binary, Rest/binary>>) -> {0, Rest};
begun(<<?UNREAD, Size:32, _:Size/binary, Rest/binary>>) -> {0, Rest}.

behind_name({_Node, Bytes}, Size) ->
    <<_:Size/binary, Rest/binary>> = Bytes,
    {0, Rest}.

%% @doc Returns what stands for a process.
-spec view(encoded()) -> view().
view(<<?NEW_PID, Rest0/binary>>) ->
    {Node, <<Number:32, Serial:32, _Creation:32>>} = atom_name(Rest0),
    {process, Node, Number, Serial};
view(<<?V4_PORT, Rest0/binary>>) ->
    {Node, <<Number:64, _Creation:32>>} = atom_name(Rest0),
    {port, Node, Number};
view(<<?NEWER_REFERENCE, _:16, Rest0/binary>>) ->
    {Node, <<_Creation:32, Ids/binary>>} = atom_name(Rest0),
    {reference, Node, ids(Ids)};
view(<<?SMALL_TUPLE, 2, Rest0/binary>>) ->
    case atom_name(Rest0) of
        {Name, Rest} ->
            case atom_name(Rest) of
                {Node, <<>>} -> {name, Name, Node};
                _ -> other
            end;
        none -> other
    end;
view(<<?SMALL_TUPLE, 3, Rest/binary>>) ->
    {First, After} = first(Rest),
    {Info, _Node} = first(After),
    {first, First, Info};
view(Bytes) ->
    case atom_name(Bytes) of
        {Name, <<>>} -> {atom, Name};
        _ -> other
    end.

atom_name(<<?ATOM, Size:16, Name:Size/binary, Rest/binary>>) -> {Name, Rest};
atom_name(<<?ATOM_UTF8, Size:16, Name:Size/binary, Rest/binary>>) -> {Name, Rest};
atom_name(_) -> none.

%% @doc The event that the bytes of a term are; `other' if they are another term, and `newer' if a
%% tag in them is of a release of OTP that is newer than this application.
-spec event(binary()) -> {ok, event()} | other | newer | damaged.
event(Bytes) ->
    try event_of(Bytes)
    catch
        throw:damaged -> damaged;
        throw:{newer, _, _, _} -> newer
    end.

%% @doc The term of an entry that `event/1' says is an event or another term.
-spec readable(binary()) -> encoded().
readable(Bytes) ->
    {Term, _} = one_readable(Bytes),
    Term.

%% OTP 25 and later releases write short atoms with different tags.
event_of(<<?SMALL_TUPLE, Arity, ?ATOM, 9:16, "seq_trace", Rest/binary>> = Bytes)
  when Arity =:= 3; Arity =:= 4 ->
    event_of(Rest, Arity, Bytes);
event_of(<<?SMALL_TUPLE, Arity, ?SMALL_ATOM_UTF8, 9, "seq_trace", Rest/binary>> = Bytes)
  when Arity =:= 3; Arity =:= 4 ->
    event_of(Rest, Arity, Bytes);
event_of(Bytes) ->
    other(Bytes).

event_of(Rest0, Arity, Bytes) ->
    {Label, Rest1} = one(Rest0),
    case Rest1 of
        <<?SMALL_TUPLE, 5, ?ATOM, Size:16, Kind:Size/binary, Rest/binary>> ->
            event_body(event_kind(Kind), Rest, Arity, Label, Bytes);
        <<?SMALL_TUPLE, 5, ?SMALL_ATOM_UTF8, Size, Kind:Size/binary, Rest/binary>> ->
            event_body(event_kind(Kind), Rest, Arity, Label, Bytes);
        _ ->
            other(Bytes)
    end.

event_kind(<<"send">>) -> send;
event_kind(<<"receive">>) -> 'receive';
event_kind(<<"print">>) -> print;
event_kind(_) -> none.

event_body(Kind, <<?SMALL_TUPLE, 2, Rest0/binary>>, Arity, Label, Bytes) when Kind =/= none ->
    {Prev, Rest1} = count(Rest0),
    {This, Rest2} = count(Rest1),
    {From, Rest3} = one(Rest2),
    {To, Rest4} = one(Rest3),
    {Message, Time} = message(Arity, Rest4),
    case Prev =:= other orelse This =:= other of
        true -> other(Bytes);
        false -> {ok, {Kind, Label, {Prev, This}, From, To, Message, Time}}
    end;
event_body(_Kind, _, _Arity, _Label, Bytes) ->
    other(Bytes).

message(Arity, Bytes) ->
    case one_readable(Bytes) of
        {Message, unread} -> {Message, none};
        {Message, Rest} -> {Message, time(Arity, Rest)}
    end.

%% A number of a serial: a node shows the lowest 60 bits of its counters with their sign.
count(Bytes) ->
    {Count, Rest} = one(Bytes),
    {number(Count), Rest}.

other(Bytes) ->
    case one(Bytes) of
        {_, <<>>} -> other;
        _ -> damaged
    end.

time(3, <<>>) -> none;
time(4, Bytes) ->
    case one(Bytes) of
        {Time, <<>>} -> Time;
        _ -> throw(damaged)
    end;
time(_, _) -> throw(damaged).

%% @doc The whole number of at most 64 bits that this is.
-spec number(encoded()) -> integer() | other.
number(<<?SMALL_INTEGER, N>>) -> N;
number(<<?INTEGER, N:32/signed>>) -> N;
number(<<?SMALL_BIG, Size, 0, N:Size/little-unit:8>>) when Size =< 8 -> N;
number(<<?SMALL_BIG, Size, 1, N:Size/little-unit:8>>) when Size =< 8 -> -N;
number(_) -> other.

%% @doc The function that a triple of its module, name and arity means.
-spec call(encoded()) -> {Module :: binary(), Function :: binary(), Arity :: integer()} | other.
call(Term) ->
    case tuple(Term) of
        [First, Second, Third] ->
            case {view(First), view(Second), number(Third)} of
                {{atom, Module}, {atom, Function}, Arity}
                  when is_integer(Arity) -> {Module, Function, Arity};
                _ -> other
            end;
        _ -> other
    end.

-spec call(Module :: encoded(), Function :: encoded(), Arity :: byte()) -> encoded().
call(Module, Function, Arity) ->
    <<?SMALL_TUPLE, 3, Module/binary, Function/binary, ?SMALL_INTEGER, Arity>>.

-spec tuple(encoded()) -> [encoded()] | other.
tuple(<<?SMALL_TUPLE, Arity, Rest/binary>>) -> elements(Arity, Rest);
tuple(<<?LARGE_TUPLE, Arity:32, Rest/binary>>) -> elements(Arity, Rest);
tuple(_) -> other.

elements(0, <<>>) -> [];
elements(Left, Bytes) ->
    {Element, Rest} = first(Bytes),
    [Element | elements(Left - 1, Rest)].

%% @doc The keys of a map, which are atoms, with their values. A pair with another key isn't among
%% them.
-spec pairs(encoded()) -> #{binary() => encoded()} | other.
pairs(<<?MAP, _/binary>> = Map) ->
    maps:from_list([{Name, Value} || {Key, Value} <- map(Map), {Name, <<>>} <- [atom_name(Key)]]);
pairs(_) -> other.

-spec map(encoded()) -> [{encoded(), encoded()}].
map(<<?MAP, Pairs:32, Rest/binary>>) -> in_pairs(elements(2 * Pairs, Rest));
map(_) -> [].

in_pairs([Key, Value | Others]) -> [{Key, Value} | in_pairs(Others)];
in_pairs([]) -> [].

-spec list(encoded()) -> [encoded()].
list(<<?LIST, Length:32, Rest/binary>>) -> lists:droplast(elements(Length + 1, Rest));
list(_) -> [].

%% @doc The outermost part of the first term of these bytes: what its elements are read from, or the
%% whole leaf. `newer' is one with this tag of a newer release, and `unread' what should follow it.
-spec part(encoded()) -> {tuple | list | map, non_neg_integer(), binary()}
                       | {record, Module :: binary(), Name :: binary(), Fields :: [binary()],
                          binary()}
                       | {string, binary(), binary()} | {leaf, term(), binary()}
                       | {newer, Tag :: byte()} | unread.
part(<<?SMALL_TUPLE, Arity, Rest/binary>>) -> {tuple, Arity, Rest};
part(<<?LARGE_TUPLE, Arity:32, Rest/binary>>) -> {tuple, Arity, Rest};
part(<<?LIST, Length:32, Rest/binary>>) -> {list, Length, Rest};
part(<<?STRING, Size:16, Bytes:Size/binary, Rest/binary>>) -> {string, Bytes, Rest};
part(<<?MAP, Pairs:32, Rest/binary>>) -> {map, Pairs, Rest};
part(<<?RECORD, Count:32, _Flag, Rest0/binary>>) ->
    {[Module, Name | Fields], Rest} = atom_names(2 + Count, Rest0, []),
    {record, Module, Name, Fields, Rest};
part(<<?NIL, Rest/binary>>) -> {leaf, nil, Rest};
part(<<?SMALL_INTEGER, N, Rest/binary>>) -> {leaf, {integer, N}, Rest};
part(<<?INTEGER, N:32/signed, Rest/binary>>) -> {leaf, {integer, N}, Rest};
part(<<?ATOM, Size:16, Name:Size/binary, Rest/binary>>) -> {leaf, {atom, Name}, Rest};
part(<<?NEW_PID, ?ATOM, Size:16, _:Size/binary, _:12/binary, Rest/binary>> = Bytes) ->
    {leaf, {process, binary:part(Bytes, 0, byte_size(Bytes) - byte_size(Rest))}, Rest};
part(<<?NEWER_REFERENCE, Words:16, ?ATOM, Size:16, _:Size/binary, _Creation:32,
       Ids:(4 * Words)/binary, Rest/binary>>) ->
    {leaf, {reference, ids(Ids)}, Rest};
part(<<?EXPORT, Bytes/binary>>) ->
    {Module, Rest0} = first(Bytes),
    {Function, Rest1} = first(Rest0),
    {Arity, Rest} = first(Rest1),
    {leaf, {export, <<?SMALL_TUPLE, 3, Module/binary, Function/binary, Arity/binary>>}, Rest};
part(<<?UNREAD, 0:32, _/binary>>) -> unread;
part(<<?UNREAD, _:32, Tag, _/binary>>) -> {newer, Tag};
part(Bytes) ->
    {Leaf, Rest} = first(Bytes),
    {leaf, leaf(Leaf), Rest}.

atom_names(0, Rest, Names) ->
    {lists:reverse(Names), Rest};
atom_names(Left, Bytes, Names) ->
    {Name, Rest} = atom_name(Bytes),
    atom_names(Left - 1, Rest, [Name | Names]).

%% The numbers of a reference, last first, as Erlang prints them.
ids(Ids) -> lists:reverse([Id || <<Id:32>> <= Ids]).

leaf(<<?SMALL_BIG, Size, Sign, N:Size/little-unit:8>>) -> {integer, signed(Sign, N)};
leaf(<<?LARGE_BIG, Size:32, Sign, N:Size/little-unit:8>>) when Size =< ?PRINTED_BIG ->
    {integer, signed(Sign, N)};
leaf(<<?LARGE_BIG, Size:32, _/binary>>) -> {large_integer, Size};
leaf(<<?NEW_FLOAT, Float/float>>) -> {float, Float};
leaf(<<?BINARY, _:32, Bytes/binary>>) -> {bits, Bytes};
leaf(<<?BIT_BINARY, Size:32, Bits, Bytes/binary>>) when Size > 0 ->
    Whole = 8 * (Size - 1) + Bits,
    <<Bitstring:Whole/bitstring, _/bitstring>> = Bytes,
    {bits, Bitstring};
leaf(<<?NEW_FUN, _:32, _Arity, _:16/binary, Index:32, _Free:32, Rest0/binary>>) ->
    {Module, Rest1} = atom_name(Rest0),
    {_OldIndex, Rest2} = first(Rest1),
    {Unique, _} = first(Rest2),
    {function, Module, Index, number(Unique)};
leaf(Bytes) ->
    case view(Bytes) of
        {atom, Name} -> {atom, Name};
        {process, _, _, _} -> {process, Bytes};
        {port, _, Number} -> {port, Number};
        {reference, _, Ids} -> {reference, Ids};
        _ -> other
    end.

signed(0, N) -> N;
signed(_, N) -> -N.

%% @doc The process and the alias of a request of `gen_server' and its kin, which the reply goes to.
-spec request(encoded()) -> {Owner :: encoded(), Alias :: encoded()} | none.
request(<<?SMALL_TUPLE, 3, ?ATOM, 9:16, "$gen_call", ?SMALL_TUPLE, 2, Rest/binary>>) ->
    {Owner, Tag} = first(Rest),
    case Tag of
        <<?LIST, 1:32, ?ATOM, 5:16, "alias", Alias/binary>> -> {Owner, element(1, first(Alias))};
        <<?LIST, _:32, ?LIST, 1:32, ?ATOM, 5:16, "alias", Alias/binary>> ->
            {Owner, element(1, first(Alias))};
        _ -> none
    end;
request(_) ->
    none.
