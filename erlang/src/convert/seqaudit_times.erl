%% @doc `NAME.times': when each event happened, if the token had a flag for timestamps.
%%
%% Below the line `seqaudit times 1' come `begin NANOSECONDS' (since 1970, of the first event),
%% `event PID I NANOSECONDS' (how much later event I of the process happened) and `message PID I PID
%% J NANOSECONDS' (from send I to its receive J). Events without a time have no line, and nor have
%% messages that are alike. A message between two nodes may seem to take less than no time.
-module(seqaudit_times).

-include("seqaudit_packed.hrl").

-export([write/3]).

-define(HEADER, <<"seqaudit times 1">>).

%% @doc Hands the text of the file on, piece by piece.
-spec write([{Pid :: binary(), Places :: binary()}], seqaudit_build:packed(),
            fun((iodata()) -> ok)) -> ok.
write(Streams, Packed, Out) ->
    First = first(Packed, infinity),
    ok = Out([?HEADER, <<"\nbegin ">>, integer_to_binary(First), $\n]),
    Sends = ets:new(sends, [set, private]),
    try
        Each = fun(Do) ->
                       lists:foreach(fun(Stream) -> each(Stream, Packed, Do, Out) end, Streams)
               end,
        Each(fun(Event, Record) -> event(Event, Record, First, Sends) end),
        Each(fun(_Event, Record) -> count(Record, Sends) end),
        Each(fun(Event, Record) -> message(Event, Record, Sends) end)
    after
        ets:delete(Sends)
    end.

first(<<?PACKED(_K, _L, _P, _T, _F, _O, _V, Time), Rest/binary>>, First) when Time =/= ?NO_TIME ->
    first(Rest, min(Time, First));
first(<<_:?PACKED_SIZE/binary, Rest/binary>>, First) -> first(Rest, First);
first(<<>>, First) -> First.

%% The lines of a process are handed on together.
each({Pid, Places}, Packed, Do, Out) ->
    ok = Out([Do({Pid, I}, binary:part(Packed, Place * ?PACKED_SIZE, ?PACKED_SIZE))
              || {I, Place} <- lists:enumerate(0, [Place || <<Place:32>> <= Places])]).

event(_Event, <<?PACKED(_K, _L, _P, _T, _F, _O, _V, ?NO_TIME)>>, _First, _Sends) ->
    [];
event({Spelled, I}, <<?PACKED(Kind, Label, Prev, This, From, _To, Value, Time)>>, First, Sends) ->
    Kind =:= ?SEND andalso sent({Label, Prev, This, From, Value}, {Spelled, I, Time}, Sends),
    [<<"event ">>, Spelled, $\s, integer_to_binary(I), $\s, integer_to_binary(Time - First), $\n].

%% Nothing tells messages apart that are alike, as after a token was put back.
sent(Message, Send, Sends) ->
    ets:insert_new(Sends, {Message, Send, 0})
        orelse ets:update_element(Sends, Message, {2, several}).

count(<<?PACKED(?RECEIVE, Label, Prev, This, From, _To, Value, _Time)>>, Sends) ->
    Message = {Label, Prev, This, From, Value},
    _ = ets:member(Sends, Message) andalso ets:update_counter(Sends, Message, {3, 1}),
    [];
count(_Record, _Sends) ->
    [].

message(_Event, <<?PACKED(_K, _L, _P, _T, _F, _O, _V, ?NO_TIME)>>, _Sends) ->
    [];
message({Spelled, J}, <<?PACKED(?RECEIVE, Label, Prev, This, From, _To, Value, Time)>>, Sends) ->
    case ets:lookup(Sends, {Label, Prev, This, From, Value}) of
        [{_, {Sender, I, Sent}, 1}] ->
            [<<"message ">>, Sender, $\s, integer_to_binary(I), $\s, Spelled, $\s,
             integer_to_binary(J), $\s, integer_to_binary(Time - Sent), $\n];
        _ ->
            []
    end;
message(_Event, _Record, _Sends) ->
    [].
