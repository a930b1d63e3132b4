%% Callers and counters, each a process, that leave a history for ./check:
%% call_history CALLERS COUNTERS CALLS SEED correct|two_senders|run_twice.
%%
%% Each caller makes so many random calls, add or get, and waits for some answers, which it adds to a counter. A caller
%% writes down what it submits and waits for, and a counter what it runs.
%%
%% One caller may have a fault, at two calls in a row to one counter. With two_senders each is sent by a process of its
%% own, and the first one sends once the second has its answer. With run_twice the first call is sent again, as by a
%% retry after a lost answer.
-module(call_history).
-export([main/1]).

%% Ran has what the counter ran, the last first. Each call is answered, to the process From.
counter(Total, Ran) ->
    receive
        {call, From, Tag, Name, Method} ->
            New = case Method of {add, Number} -> Total + Number; get -> Total end,
            From ! {answer, Tag, New},
            counter(New, [{Name, Method} | Ran]);
        {leave, From} ->
            From ! {left, self(), Total, lists:reverse(Ran)}
    end.

%% A caller: its number, the counters, the calls that it made, the last first, as {place of the counter, tag}, its
%% steps, the last first, and by tag the answers that it took.
-record(caller, {me, counters, calls = [], steps = [], answers = #{}}).

count(#caller{calls = Calls}) -> length(Calls).

tag_of(Number, #caller{calls = Calls}) ->
    {_, Tag} = lists:nth(length(Calls) - Number, Calls),
    Tag.

%% Writes a call down. It gives the message, which isn't sent yet, and to whom it goes.
submit(Place, Method, Words, Caller = #caller{me = Me, calls = Calls, steps = Steps}) ->
    Tag = make_ref(),
    Step = io_lib:format("submit c~b a~b ~s", [Me, Place, Words]),
    Message = {call, self(), Tag, {Me, length(Calls)}, Method},
    {lists:nth(Place, Caller#caller.counters), Message,
     Caller#caller{calls = [{Place, Tag} | Calls], steps = [Step | Steps]}}.

%% The answer of a call, once it is there, and the caller that has taken it.
wait(Number, Caller = #caller{answers = Answers}) ->
    Tag = tag_of(Number, Caller),
    case Answers of
        #{Tag := Total} -> {Total, Caller};
        _ -> receive {answer, Tag, Total} -> {Total, Caller#caller{answers = Answers#{Tag => Total}}} end
    end.

await(Number, Caller = #caller{me = Me, steps = Steps}) ->
    wait(Number, Caller#caller{steps = [io_lib:format("await c~b ~b", [Me, Number]) | Steps]}).

random_place(#caller{counters = Counters}) -> rand:uniform(length(Counters)).

random_call(Caller) ->
    {Method, Words, Waited} =
        case {rand:uniform(10), count(Caller)} of
            {Sort, Made} when Sort =< 2, Made > 0 ->
                Number = rand:uniform(Made) - 1,
                {Total, After} = await(Number, Caller),
                {{add, Total}, io_lib:format("add @~b", [Number]), After};
            {Sort, _} when Sort =< 4 -> {get, "get", Caller};
            _ -> plain_add(rand:uniform(9), Caller)
        end,
    {Counter, Message, After2} = submit(random_place(Caller), Method, Words, Waited),
    Counter ! Message,
    After2.

plain_add(Number, Caller) -> {{add, Number}, io_lib:format("add ~b", [Number]), Caller}.

%% Two calls in a row to one counter, the second of which comes first, or the first of which is sent again.
faulty_calls(Fault, Caller = #caller{me = Me}) ->
    Place = random_place(Caller),
    {Counter, First, After} = submit(Place, {add, 1}, "add 1", Caller),
    {Counter, Second, After2} = submit(Place, {add, 2}, "add 2", After),
    Number = count(Caller),
    case Fault of
        two_senders ->
            io:format("# planted: c~b.~b is sent after c~b.~b~n", [Me, Number, Me, Number + 1]),
            spawn_link(fun() -> send_by_two(Counter, First, Second) end);
        run_twice ->
            io:format("# planted: c~b.~b is sent twice~n", [Me, Number]),
            [Counter ! Message || Message <- [First, First, Second]]
    end,
    After2.

%% The second call goes first, from a process that waits for its answer and passes that on.
send_by_two(Counter, First, {call, Caller, Tag, Name, Method}) ->
    Self = self(),
    spawn_link(fun() ->
        Counter ! {call, self(), Tag, Name, Method},
        receive {answer, Tag, Total} -> Caller ! {answer, Tag, Total} end,
        Self ! passed_on
    end),
    receive passed_on -> Counter ! First end.

call_all(Calls, Planted, Fault, Caller) ->
    case count(Caller) of
        Calls -> Caller;
        Planted when Fault =/= correct -> call_all(Calls, Planted, Fault, faulty_calls(Fault, Caller));
        _ -> call_all(Calls, Planted, Fault, random_call(Caller))
    end.

%% Makes all calls, and gives the steps, and of each call the place of its counter and its answer.
caller(Me, Counters, Calls, Seed, Fault) ->
    rand:seed(exsss, {Seed, Me, 7}),
    Caller = call_all(Calls, rand:uniform(Calls - 1) - 1, Fault, #caller{me = Me, counters = Counters}),
    Numbers = lists:seq(0, Calls - 1),
    {Totals, Last} = lists:mapfoldl(fun wait/2, Caller, Numbers),
    % The second answer of a call that ran twice is waited for, too, so that the counter is through with it.
    [receive {answer, _, _} -> ok end || Fault =:= run_twice],
    Places = [Place || {Place, _} <- lists:reverse(Last#caller.calls)],
    {lists:reverse(Last#caller.steps), lists:zip3(Numbers, Places, Totals)}.

words_of({add, Number}) -> io_lib:format("add ~b", [Number]);
words_of(get) -> "get".

tell(Did, Left) ->
    Names = [io_lib:format(" c~b", [Me]) || {Me, _, _} <- Did],
    [io:format("actor a~b counter~s~n", [Place, Names]) || {Place, _, _} <- Left],
    [io:format("~s~n", [Step]) || {_, Steps, _} <- Did, Step <- Steps],
    [io:format("c~b.~b a~b = ~b~n", [Me, Number, Place, Total])
     || {Me, _, Calls} <- Did, {Number, Place, Total} <- Calls],
    lists:foreach(fun tell_counter/1, Left).

tell_counter({Place, Total, Ran}) ->
    io:format("a~b live counter ~b~n", [Place, Total]),
    [io:format("a~b.~b c~b.~b ~s~n", [Place, Item, Me, Number, words_of(Method)])
     || {Item, {{Me, Number}, Method}} <- lists:zip(lists:seq(0, length(Ran) - 1), Ran)].

main(Words) ->
    [Callers, Places, Calls, Seed] = [list_to_integer(Word) || Word <- lists:droplast(Words)],
    Fault = list_to_atom(lists:last(Words)),
    Counters = [spawn_link(fun() -> counter(0, []) end) || _ <- lists:seq(1, Places)],
    Self = self(),
    Faulty = 1 + Seed rem Callers,
    OwnFault = fun(Me) -> case Me of Faulty -> Fault; _ -> correct end end,
    [spawn_link(fun() -> Self ! {did, Me, caller(Me, Counters, Calls, Seed, OwnFault(Me))} end)
     || Me <- lists:seq(1, Callers)],
    Did = [receive {did, Me, {Steps, Made}} -> {Me, Steps, Made} end || Me <- lists:seq(1, Callers)],
    [Counter ! {leave, Self} || Counter <- Counters],
    Left = [receive {left, Counter, Total, Ran} -> {Place, Total, Ran} end
            || {Place, Counter} <- lists:zip(lists:seq(1, Places), Counters)],
    tell(Did, Left).
