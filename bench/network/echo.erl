%% An echo server at the port of its argument, with one scheduler: it serves three connections, one after the other.
-module(echo).
-export([main/1]).

main([Port]) ->
    {ok, Listener} = gen_tcp:listen(list_to_integer(Port), [binary, {active, false}, {packet, raw}, {nodelay, true}, {reuseaddr, true}, {ip, {127, 0, 0, 1}}]),
    serve(Listener, 3).

serve(_, 0) -> halt();
serve(Listener, Left) ->
    {ok, Stream} = gen_tcp:accept(Listener),
    echo(Stream),
    serve(Listener, Left - 1).

echo(Stream) ->
    case gen_tcp:recv(Stream, 0) of
        {ok, Bytes} ->
            ok = gen_tcp:send(Stream, Bytes),
            echo(Stream);
        {error, closed} ->
            gen_tcp:close(Stream)
    end.
