%% @doc The help of `seqaudit-node' and of each command.
-module(seqaudit_help).

-export([all/0, version/0, usage/1, of_command/1]).

-spec all() -> string().
all() ->
    "usage: seqaudit-node COMMAND ..\n"
    "Traces running Erlang nodes. `gemshowal' audits, explains and draws the traces.\n\n"
    "  collect   traces nodes, and writes what they report to files\n"
    "  watch     traces nodes, and has gemshowal audit what came, period by period\n"
    "  convert   makes a trace from files of events\n\n"
    "`seqaudit-node COMMAND --help' has the options of each, and `seqaudit-node --version'\n"
    "says which version this is.\n" ++ statuses().

-spec version() -> string().
version() ->
    _ = application:load(seqaudit),
    {ok, Version} = application:get_key(seqaudit, vsn),
    Version.

-spec usage(string()) -> string().
usage(Command) ->
    {Usage, _} = text(Command),
    lists:append(["usage: seqaudit-node ", Usage, "\n`seqaudit-node ", Command,
                  " --help' has the options.\n"]).

-spec of_command(string()) -> string().
of_command(Command) ->
    {Usage, About} = text(Command),
    lists:append(["usage: seqaudit-node ", Usage, "\n", About, statuses()]).

statuses() ->
    "\nStatus: 0 all is done, or all periods fit\n"
    "        1 a period doesn't fit, or wasn't audited\n"
    "        2 a file can't be understood, or has no events\n"
    "        3 the command line can't be understood\n"
    "        4 a file, a node or a program is missing or fails\n".

text("collect") ->
    {"collect --node NAME@HOST .. -o NAME [OPTION ..]",
     "Traces nodes until Ctrl-C, or for some seconds, and writes NAME.events and what\n"
     "convert makes of it.\n\n"
     "  --node NAME@HOST    a node to trace; several times for several nodes\n"
     "  -o NAME             the name of the files, without extension\n"
     "  --seconds SECONDS   end after this time, if Ctrl-C doesn't come before\n\n"
     "  --trigger MODULE:FUNCTION/ARITY --label TERM\n"
     "                      whoever calls this function gets a token with this label, until\n"
     "                      the end; else the program sets tokens, or you do on the node:\n"
     "                      seqaudit_trace:with_trace(TERM, fun() -> .. end)\n"
     "  --trigger 'MODULE:FUNCTION(A, B) when A > B'\n"
     "                      only if the arguments are so; several times for several functions\n"
     "  --label _           a label for each call, its number; or one of its arguments, as by\n"
     "                      --trigger 'shop:order(_, Id)' --label Id\n"
     "  --calls CALLS       only this number of calls, the first ones; or as 10/s the first\n"
     "                      ten in each second. Then the trace of a process that calls again\n"
     "                      ends there\n"
     "  --times             give that token a flag for timestamps\n"
     "  --reset             take all tokens off first, so that all counters begin at 0\n\n"
     "  --bytes BYTES       the most that each node's files may have, 268435456 if this isn't\n"
     "                      given; then new events replace the oldest ones\n"
     "  --folder FOLDER     each node makes the folder of its files in this one, or in that\n"
     "                      for temporary files if this isn't given\n"
     "  --unload            at the end take the modules off the nodes that were loaded there\n\n"
     "  --cookie-file FILE  read the cookie from a file; else it comes from the variable\n"
     "                      SEQAUDIT_COOKIE, or as for erl from ERL_FLAGS or\n"
     "                      ~/.erlang.cookie\n"
     "  --cookie COOKIE     the cookie, but all users of this machine can see it here\n\n"
     "The variable ERL_FLAGS has options of erl, as for TLS: -proto_dist inet_tls\n"
     "-ssl_dist_optfile FILE\n"};
text("watch") ->
    {"watch --node NAME@HOST .. --every SECONDS -o NAME [OPTION ..]",
     "Traces nodes until Ctrl-C, and has gemshowal audit what came, period by period, a\n"
     "line for each. A period that fits is thrown away; one that doesn't, or wasn't\n"
     "audited, is kept as NAME.NUMBER, and so are the ones before and after it. The period\n"
     "that runs at the end isn't audited. Status 0 if all fitted.\n\n"
     "  --every SECONDS     the length of a period; each is cut at its last moment without a\n"
     "                      message under way, if there is one in its second half\n"
     "  --keep PERIODS      how many periods stay, 100 if this isn't given; then the oldest\n"
     "                      are removed\n\n"
     "The other options are those of collect, except --seconds. The variable GEMSHOWAL says\n"
     "which gemshowal is asked.\n"};
text("convert") ->
    {"convert FILE .. -o NAME",
     "Makes a trace from files of events: NAME.seqtrace; NAME.terms, what its numbers mean;\n"
     "NAME.messages, the whole texts of long messages; NAME.notes and NAME.facts, what was\n"
     "decided or left out; and NAME.times, if the events have timestamps.\n\n"
     "  FILE                a NAME.events, the folder of a collector, term_to_binary of a\n"
     "                      list of events, a trace file of dbg or ttb, or events as text,\n"
     "                      as io:format(\"~p~n\", [Event]) prints them, at the beginning of\n"
     "                      a line or after what a log puts in front; other lines of a log\n"
     "                      are counted and passed over. There must be an event of seq_trace\n"
     "                      in it, if no collector wrote it\n"
     "  -o NAME             the name of the trace\n"}.
