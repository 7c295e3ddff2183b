%% @doc A folder of a traced node to which its events go as they come.
%%
%% It has wrapped files of a trace port (`events0.trace' and so on: `&lt;&lt;0, Size:32, Term>>' is
%% an event, `&lt;&lt;1, Count:32>>' events that the port dropped) and a file of facts, a term each.
%% The folder's name is long and random, and only its owner may enter. Whoever sees that name sees
%% the folder: so a collection is read from the disk if that is shared, also when the node is gone.
-module(seqaudit_spool).

-export([create/1, base/1, note/2, files/1, read/3, remove/1, about/1, entry/1]).
-export_type([facts/0, about/0]).

-define(SUFFIX, ".trace").
-define(FACTS, "facts").
%% An entry of facts in a file of events; events and drops are as a trace port writes them.
-define(FACTS_ENTRY, 3).

-type facts() :: #{node => node(), collector => pid(), since => calendar:datetime(),
                   clock => {TimeOffset :: integer(), PerSecond :: pos_integer()},
                   by => port | process, bytes => pos_integer(),
                   processes => #{pid() => about()}, written => non_neg_integer(),
                   dropped => non_neg_integer(), own => non_neg_integer(),
                   strays => non_neg_integer(), tracer => put_back | taken | gone,
                   pauses => seqaudit_watch:pauses(), ended => {term(), calendar:datetime()},
                   atom() => term()}.
%% The facts of a collection. Later ones replace earlier ones, but those of `processes' are added.

-type about() :: #{name => atom(), call => mfa(), caller => pid()}.
%% The name of a process, its initial call, and for whom a task of Elixir works.

%% @doc Makes the folder, in the one that is named or the system's for temporary files.
-spec create(file:filename() | default) -> {ok, file:filename()} | {error, term()}.
create(default) ->
    create(os:getenv("TMPDIR", "/tmp"));
create(Parent) ->
    Random = [io_lib:format("~2.16.0b", [Byte]) || <<Byte>> <= crypto_bytes()],
    Folder = filename:absname(filename:join(Parent, lists:flatten(["seqaudit_", Random]))),
    try
        ok = file:make_dir(Folder),
        ok = file:change_mode(Folder, 8#700),
        {ok, Folder}
    catch
        error:{badmatch, {error, Reason}} -> {error, {file, Folder, Reason}}
    end.

%% A node may lack the application crypto.
crypto_bytes() ->
    {Bytes, _} = rand:bytes_s(8, rand:seed_s(exsss)),
    erlang:md5([Bytes, term_to_binary({node(), self(), make_ref(), os:system_time(),
                                       os:getpid()})]).

%% @doc Returns how the names of the files of events begin and end.
-spec base(file:filename()) -> {file:filename(), string()}.
base(Folder) ->
    {filename:join(Folder, "events"), ?SUFFIX}.

%% @doc Adds facts. The caller alone waits for the disk, and not the node's file server, which
%% others need.
-spec note(file:filename(), facts()) -> ok | {error, term()}.
note(Folder, Facts) ->
    file:write_file(filename:join(Folder, ?FACTS), entry(Facts), [append, raw]).

-spec entry(facts()) -> iolist().
entry(Facts) ->
    Term = term_to_binary(Facts),
    [<<?FACTS_ENTRY, (byte_size(Term)):32>>, Term].

%% @doc The files of the folder: facts first, then the events in the order in which they came. The
%% port writes the files in a circle of numbers, one of which is always free; the oldest file is the
%% one behind the free number.
-spec files(file:filename()) -> {ok, [{file:filename(), non_neg_integer()}]} | {error, term()}.
files(Folder) ->
    case file:list_dir(Folder) of
        {ok, Names} ->
            Numbers = lists:sort([Number || Name <- Names, Number <- number(Name)]),
            {Base, Suffix} = base(Folder),
            Events = [Base ++ integer_to_list(Number) ++ Suffix || Number <- from_oldest(Numbers)],
            {ok, [{File, filelib:file_size(File)}
                  || File <- [filename:join(Folder, ?FACTS) | Events], filelib:is_regular(File)]};
        {error, Reason} ->
            {error, {file, Folder, Reason}}
    end.

number("events" ++ Rest) ->
    case string:to_integer(Rest) of
        {Number, ?SUFFIX} when is_integer(Number), Number >= 0 -> [Number];
        _ -> []
    end;
number(_) ->
    [].

from_oldest(Numbers) ->
    {Newer, Older} = lists:splitwith(fun({Place, Number}) -> Place =:= Number end,
                                     lists:enumerate(0, Numbers)),
    [Number || {_, Number} <- Older ++ Newer].

-spec read(file:filename(), non_neg_integer(), pos_integer()) ->
          {ok, binary()} | eof | {error, term()}.
read(File, Offset, Size) ->
    case file:open(File, [read, raw, binary]) of
        {ok, Device} ->
            try file:pread(Device, Offset, Size)
            after file:close(Device)
            end;
        {error, Reason} ->
            {error, {file, File, Reason}}
    end.

%% @doc Removes the folder with all that this module and the port put there.
-spec remove(file:filename()) -> ok | {error, term()}.
remove(Folder) ->
    case files(Folder) of
        {ok, Files} ->
            lists:foreach(fun({File, _}) -> file:delete(File) end, Files),
            file:del_dir(Folder);
        {error, Reason} ->
            {error, Reason}
    end.

%% @doc Returns what a process of this node is called. One that was made by `proc_lib' has in its
%% dictionary what was really called.
-spec about(pid()) -> about().
about(Pid) ->
    case process_info(Pid, [registered_name, initial_call]) of
        [{registered_name, Name}, {initial_call, Call}] ->
            maps:merge(maps:from_list([{name, Name} || Name =/= []]), called(Call, Pid));
        undefined ->
            #{}
    end.

called({proc_lib, init_p, _}, Pid) ->
    case process_info(Pid, dictionary) of
        {dictionary, Dictionary} ->
            maps:from_list([{call, Call} || {'$initial_call', Call} <- Dictionary]
                           ++ [{caller, Caller} || {'$callers', [Caller | _]} <- Dictionary,
                                                   is_pid(Caller)]);
        undefined ->
            #{}
    end;
called(Call, _Pid) ->
    #{call => Call}.
