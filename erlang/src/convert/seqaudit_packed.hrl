%% The record of an event: its kind, numbers for its label and message, its serial, its parties, and
%% its time in nanoseconds.
-define(PACKED(Kind, Label, Prev, This, From, To, Value, Time),
        Kind:8, From:32, Label:32, Prev:72/signed, This:72/signed, Value:32, To:32, Time:64/signed).
-define(PACKED_SIZE, 43).
%% The record with a key for what a send and its receive have in common.
-define(KEYED(Kind, Key, To, Time), Kind:8, Key:30/binary, To:32, Time:8/binary).

%% The record with the number of its message by itself.
-define(WITH_VALUE(Kind, Key, Value, Rest), Kind:8, Key:26/binary, Value:32, Rest:12/binary).

-define(SEND, 0).
-define(RECEIVE, 1).
-define(PRINT, 2).

%% A party that is no process and no port has this bit set; a print has nobody for its `to'.
-define(OTHER, 16#80000000).
-define(NOBODY, 16#FFFFFFFF).
-define(IS_OTHER(Party), Party >= ?OTHER, Party =/= ?NOBODY).

-define(NO_TIME, -16#7FFFFFFFFFFFFFFF).

-record(build, {packed = <<>> :: binary(),
                actors :: seqaudit_numbers:table(),   % processes and ports
                others :: seqaudit_numbers:table(),   % aliases and names
                labels :: seqaudit_numbers:table(),
                values :: seqaudit_numbers:table(),
                collections = [] :: [seqaudit_build:collected()],   % last first
                known = #{} :: #{seqaudit_external:encoded() => seqaudit_events:about()},
                counts = #{} :: #{atom() => non_neg_integer()},
                %% The first entries that are no events, by kind, last first.
                samples = #{} :: #{atom() => [string()]},
                %% The collection whose events come now: its node, process and clock.
                home = unknown :: binary() | unknown,
                own = none :: seqaudit_external:encoded() | none,
                clock = {0, 1_000_000_000} :: {integer(), pos_integer()}}).
