%% The same work in Erlang: a process that sends itself 100,000 messages of 16 bytes and receives each by its tag.
-module(messages).
-export([main/0]).

main() ->
    <<Rounds:64/little, _:64>> = rounds(0, 100000, <<0:128>>),
    io:format("~p~n", [Rounds]),
    halt().

rounds(Rounds, Rounds, Bytes) -> Bytes;
rounds(Round, Rounds, Bytes) ->
    self() ! {Round, Bytes},
    receive
        {Round, <<Count:64/little, Rest:64>>} -> rounds(Round + 1, Rounds, <<(Count + 1):64/little, Rest:64>>)
    end.
