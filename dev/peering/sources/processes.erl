% The peers' tasks with Erlang processes: `processes:main([Task, Count])`, which prints `name value` lines.
-module(processes).
-export([main/1]).

memory(Name) ->
    {ok, Text} = file:read_file("/proc/self/statm"),
    [_, Pages | _] = string:lexemes(binary_to_list(Text), " "),
    io:format("~s ~b~n", [Name, list_to_integer(Pages) * 4096]).

seconds(Name, Began) ->
    Taken = erlang:convert_time_unit(erlang:monotonic_time() - Began, native, microsecond),
    io:format("~s ~.6f~n", [Name, Taken / 1000000]).

% A channel hands each message to the process that has waited longest for one.
channel(Waiting, Messages) ->
    case {queue:is_empty(Waiting), Messages} of
        {false, N} when N > 0 ->
            queue:get(Waiting) ! message,
            channel(queue:drop(Waiting), N - 1);
        _ ->
            receive
                {wait, From} -> channel(queue:in(From, Waiting), Messages);
                send -> channel(Waiting, Messages + 1)
            end
    end.

waiter(Channel, Main) ->
    Channel ! {wait, self()},
    Main ! started,
    receive message -> Main ! ended end.

collect(_, 0) -> ok;
collect(What, Number) -> receive What -> collect(What, Number - 1) end.

waiters(Number, Within) ->
    Main = self(),
    Channels = list_to_tuple([spawn(fun() -> channel(queue:new(), 0) end) || _ <- lists:seq(1, 64)]),
    memory("before"),
    Began = erlang:monotonic_time(),
    [spawn(fun() -> waiter(element(I rem 64 + 1, Channels), Main) end) || I <- lists:seq(1, Number)],
    collect(started, Number),
    seconds("start", Began),
    memory("after"),
    Within(),
    Woken = erlang:monotonic_time(),
    [element(I rem 64 + 1, Channels) ! send || I <- lists:seq(1, Number)],
    collect(ended, Number),
    seconds("wake", Woken).

hander(0, Main) -> Main ! ended;
hander(Left, Main) ->
    receive {Value, From} -> From ! {Value + 1, self()} end,
    hander(Left - 1, Main).

handing(Number) ->
    Main = self(),
    Began = erlang:monotonic_time(),
    One = spawn(fun() -> hander(Number, Main) end),
    Other = spawn(fun() -> hander(Number, Main) end),
    One ! {0, Other},
    collect(ended, 2),
    seconds("seconds", Began).

worker(Main, Sum) ->
    Main ! {ready, self()},
    receive
        done -> Main ! {sum, Sum};
        Value -> worker(Main, Sum + Value * Value)
    end.

pool(Number) ->
    Main = self(),
    Began = erlang:monotonic_time(),
    Workers = [spawn(fun() -> worker(Main, 0) end) || _ <- lists:seq(1, 16)],
    hand_out(0, Number),
    collect_ready(16),
    [Worker ! done || Worker <- Workers],
    Sum = lists:sum([receive {sum, Part} -> Part end || _ <- Workers]),
    seconds("seconds", Began),
    io:format("sum ~b~n", [Sum]).

hand_out(Number, Number) -> ok;
hand_out(I, Number) ->
    receive {ready, Worker} -> Worker ! I rem 100 end,
    hand_out(I + 1, Number).

collect_ready(0) -> ok;
collect_ready(Left) -> receive {ready, _} -> collect_ready(Left - 1) end.

depth(N) when N < 1 -> 0;
depth(N) -> depth(N - 1) + 1.

recurse() ->
    Main = self(),
    spawn(fun() -> Main ! {depth, depth(10000)} end),
    receive {depth, Depth} -> io:format("depth ~b~n", [Depth]) end,
    memory("deep").

main([Task, Count]) ->
    Number = list_to_integer(Count),
    case Task of
        "waiters" -> waiters(Number, fun() -> ok end);
        "handing" -> handing(Number);
        "pool" -> pool(Number);
        "deep" -> waiters(Number, fun recurse/0)
    end,
    halt(0).
