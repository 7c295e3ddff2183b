%% The one or two nodes that the scripts run on: this one, and a second one on this machine.
-module(conformance_nodes).

-export([start/0, title/0]).

%% The nodes, by rising number. The second one ends with this one.
start() ->
    %% A node that is to be found by others needs the name server.
    _ = os:cmd("epmd -daemon"),
    case net_kernel:start(name("conformance_a_", "@localhost"), #{name_domain => shortnames}) of
        {ok, _} -> [node() | second()];
        {error, _} -> [node()]
    end.

second() ->
    Options = #{name => name("conformance_b_", ""), host => "localhost", connection => standard_io,
                args => ["-setcookie", atom_to_list(erlang:get_cookie()),
                         "-kernel", "inet_dist_use_interface", "{127,0,0,1}",
                         "-pa", filename:dirname(code:which(?MODULE))]},
    case peer:start_link(Options) of
        {ok, _, Node} -> true = net_kernel:connect_node(Node), [Node];
        {error, _} -> []
    end.

name(Word, Host) ->
    list_to_atom(Word ++ os:getpid() ++ Host).

%% Says in words what ran.
title() ->
    Release = erlang:system_info(otp_release),
    File = filename:join([code:root_dir(), "releases", Release, "OTP_VERSION"]),
    Version = case file:read_file(File) of
                  {ok, Text} -> string:trim(Text);
                  {error, _} -> Release
              end,
    io_lib:format("OTP ~ts (erts ~ts)", [Version, erlang:system_info(version)]).
