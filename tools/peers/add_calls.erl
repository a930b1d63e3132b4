%% Callers and counters, each a process: add_calls CALLERS COUNTERS CALLS wait|future own|both TURNS.
%% A caller calls one counter, or all in turns. Prints the microseconds of each turn, from the callers' start to their end.
-module(add_calls).
-export([main/1]).

%% Each {add, Number, From, Ref} is answered with the new total.
counter(Total) ->
    receive
        {add, Number, From, Ref} ->
            New = Total + Number,
            From ! {Ref, New},
            counter(New);
        {get, From} ->
            From ! {total, Total}
    end.

add_one(Counter) ->
    Ref = make_ref(),
    Counter ! {add, 1, self(), Ref},
    Ref.

%% One call. The reference is made here, so that the runtime looks for the answer only among what comes after it.
add_and_wait(Counter) ->
    Ref = make_ref(),
    Counter ! {add, 1, self(), Ref},
    receive {Ref, _} -> ok end.

%% Calls the counters in turns. The second list has those that come before the first one's turn again.
wait_for_each(_, _, 0) -> ok;
wait_for_each([], Called, Calls) -> wait_for_each(lists:reverse(Called), [], Calls);
wait_for_each([Counter | Next], Called, Calls) ->
    add_and_wait(Counter),
    wait_for_each(Next, [Counter | Called], Calls - 1).

send_all(_, _, 0) -> ok;
send_all([], Called, Calls) -> send_all(lists:reverse(Called), [], Calls);
send_all([Counter | Next], Called, Calls) ->
    add_one(Counter),
    send_all(Next, [Counter | Called], Calls - 1).

send_pair(_, _, 0, Refs, Others) -> {lists:reverse(Refs), lists:reverse(Others)};
send_pair(Counter, Next, Calls, Refs, Others) -> send_pair(Next, Counter, Calls - 1, Others, [add_one(Counter) | Refs]).

%% A counter answers in order, so the next answer of each is at hand: none is sought behind others, and no map is needed.
gather([], []) -> ok;
gather([Ref | Refs], []) -> receive {Ref, _} -> gather(Refs, []) end;
gather([], Refs) -> gather(Refs, []);
gather([Ref | Refs] = All, [Other | Others] = AllOthers) ->
    receive
        {Ref, _} -> gather(Refs, AllOthers);
        {Other, _} -> gather(All, Others)
    end.

%% Answers of more counters are taken as they come. Which call each is of isn't told, which costs Erlang nothing.
gather_any(0) -> ok;
gather_any(Calls) -> receive {_, _} -> gather_any(Calls - 1) end.

call(Counters, Calls, wait) -> wait_for_each(Counters, [], Calls);
call([Counter], Calls, future) ->
    gather([add_one(Counter) || _ <- lists:seq(1, Calls)], []);
call([Counter, Next], Calls, future) ->
    {Refs, Others} = send_pair(Counter, Next, Calls, [], []),
    gather(Refs, Others);
call(Counters, Calls, future) ->
    send_all(Counters, [], Calls),
    gather_any(Calls).

total(Counter) ->
    Counter ! {get, self()},
    receive {total, Total} -> Total end.

called_by(Caller, own, Counters) -> [lists:nth(Caller rem length(Counters) + 1, Counters)];
called_by(_, both, Counters) -> Counters.

turn(Crew, Calls, Style, Reach) ->
    {CallerCount, CounterCount} = Crew,
    Counters = [spawn(fun() -> counter(0) end) || _ <- lists:seq(1, CounterCount)],
    Self = self(),
    Begin = erlang:monotonic_time(microsecond),
    Callers = [spawn(fun() -> call(called_by(Caller, Reach, Counters), Calls, Style), Self ! done end)
               || Caller <- lists:seq(0, CallerCount - 1)],
    [receive done -> ok end || _ <- Callers],
    Took = erlang:monotonic_time(microsecond) - Begin,
    Total = CallerCount * Calls,
    Total = lists:sum([total(Counter) || Counter <- Counters]),
    io:format("~b us~n", [Took]).

main([CallerCount, CounterCount, Calls, Style, Reach, Turns]) ->
    Crew = {list_to_integer(CallerCount), list_to_integer(CounterCount)},
    [turn(Crew, list_to_integer(Calls), list_to_atom(Style), list_to_atom(Reach)) || _ <- lists:seq(1, list_to_integer(Turns))].
