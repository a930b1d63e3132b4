"""Small plans for threads, each with everything that its plays can leave, by trying each event after each other one.

A module of tools/threads.py, which holds the judge of reports to it. What may be done is said here once more, and
plainly: a state is what was done so far, and the next event is any that the rules and the plans let come next. Nothing
is done as early as it can be, and nothing is left out because something like it was tried.
"""
import itertools

import reading_of_rules as reading


class Plans:
    """Random plans of two or three callers and one or two lists, with few calls. Callers like to change the actor, and
    to wait for what they called: so many a run list leads into a circle."""

    def __init__(self, chance):
        self.chance = chance
        self.callers = range(1, chance.choice([2, 2, 2, 3]) + 1)
        self.actors = range(1, chance.choice([1, 2, 2, 2]) + 1)
        self.limits = {actor: chance.choice([None, 1]) for actor in self.actors}
        self.kills = chance.choice([0, 0, 0.3])
        self.ends = chance.choice([0, 0, 0.1])
        self.steps = {caller: list(self.plan()) for caller in self.callers}

    def plan(self):
        calls, before = 0, None
        for _ in range(self.chance.randint(2, 4) if len(self.callers) == 2 else self.chance.randint(1, 2)):
            actor, draw = self.chance.choice(self.actors), self.chance.random()
            if draw < self.kills:
                yield "kill", actor
            elif calls and draw < self.kills + 0.2:
                yield "await", self.chance.randrange(calls)
            else:
                before = self.chance.choice([each for each in self.actors if each != before] or [actor])
                yield "submit", before, *self.call(calls)
                calls += 1

    def call(self, calls):
        """A method, and its argument: a value, or a future."""
        if self.chance.random() < self.ends:
            return reading.END, None
        return "push", reading.Future(self.chance.randrange(calls)) if calls and self.chance.random() < 0.4 else 5

    def script(self):
        limits = {actor: f" max {limit}" if limit else "" for actor, limit in self.limits.items()}
        names = "".join(f" c{caller}" for caller in self.callers)
        lines = [f"actor a{actor} list{limits[actor]}{names}" for actor in self.actors]
        for caller, steps in self.steps.items():
            lines += [line_of(caller, *step) for step in steps]
        return "".join(f"{line}\n" for line in lines).encode()

    def calls(self, caller):
        return [step[1:] for step in self.steps[caller] if step[0] == "submit"]

    def calls_to(self, caller, actor):
        """The futures of the caller's calls to the actor."""
        return [future for future, call in enumerate(self.calls(caller)) if call[0] == actor]


def line_of(caller, verb, of, method=None, argument=None):
    if verb == "await":
        return f"await c{caller} {of}"
    words = [] if method is None else [method]
    words += [] if argument is None else [f"@{argument.number}" if isinstance(argument, reading.Future) else str(argument)]
    return " ".join([verb, f"c{caller}", f"a{of}", *words])


# What can be left: run lists, and which actors are dead. A call is a caller and a future.


def report(plans, runs, dead):
    """The report of such an end. A call that ran is answered by its run, any other by a death."""
    ran = {call for items in runs.values() for call in items}
    answers, items = {}, []
    for caller, future in sorted((caller, future) for caller in plans.callers for future in range(len(plans.calls(caller)))):
        _, method, argument = plans.calls(caller)[future]
        value = answers[caller, argument.number] if isinstance(argument, reading.Future) else argument
        if (caller, future) not in ran:
            answers[caller, future] = "ActorDied"
        elif method == reading.END:
            answers[caller, future] = "unit"
        elif isinstance(value, int):
            answers[caller, future] = 0  # or what the length of the list comes to
        else:
            answers[caller, future] = "BadArgs" if value == "unit" else f"Dependency({argument.number})"
    for actor, calls in runs.items():
        lengths = itertools.accumulate(int(isinstance(answers[call], int)) for call in calls)
        answers |= {call: length for call, length in zip(calls, lengths) if answers[call] == 0}
    for actor, calls in runs.items():
        told = [(call, item_of(plans, call, answers)) for call in calls]
        state = "".join(f" {word}" for call, word in told if isinstance(answers[call], int))
        items.append(f"a{actor} dead" if actor in dead else f"a{actor} retired list{state}")
        items += [f"a{actor}.{place} c{c}.{k} {method_of(plans, (c, k), word)}" for place, ((c, k), word) in enumerate(told)]
    futures = [f"c{c}.{k} a{plans.calls(c)[k][0]} = {answer}" for (c, k), answer in sorted(answers.items())]
    return "".join(f"{line}\n" for line in futures + items).encode()


def item_of(plans, call, answers):
    """The argument with which a call ran, as it is written."""
    argument = plans.calls(call[0])[call[1]][2]
    if not isinstance(argument, reading.Future):
        return "" if argument is None else str(argument)
    answer = answers[call[0], argument.number]
    return str(answer) if isinstance(answer, int) or answer == "unit" else f"!{argument.number}"


def method_of(plans, call, word):
    return " ".join(filter(None, [plans.calls(call[0])[call[1]][1], word]))


def merged(lists):
    """All ways to put the lists into one, each of them in its order."""
    lists = [each for each in lists if each]
    if not lists:
        yield ()
    for place, (first, *rest) in enumerate(lists):
        yield from ((first, *more) for more in merged([*lists[:place], rest, *lists[place + 1 :]]))


def runs_of(plans, actor):
    """All run lists of an actor, and whether it is dead: each caller's first calls, in order."""
    calls = [[(caller, future) for future in plans.calls_to(caller, actor)] for caller in plans.callers]
    for fronts in itertools.product(*([each[:length] for length in range(len(each) + 1)] for each in calls)):
        for items in merged(list(fronts)):
            yield items, True
            if list(fronts) == calls:
                yield items, False


def all_reports(plans):
    """Reports of all run lists with all ends, whether a play leaves them or not."""
    for ends in itertools.product(*(runs_of(plans, actor) for actor in plans.actors)):
        runs = {actor: items for actor, (items, _) in zip(plans.actors, ends)}
        yield report(plans, runs, {actor for actor, (_, is_dead) in zip(plans.actors, ends) if is_dead})


# What plays of the plans leave.


def put(values, place, value):
    return (*values[:place], value, *values[place + 1 :])


class Plays:
    """All plays of plans. A state has how many steps each caller did, the run lists, how many replies each caller
    collected of each actor, and sets: of deaths that were collected, and of actors: those that are dead, those of which
    a kill was asked, and those that looked for a kill after their last run and found none, or of which none is asked."""

    def __init__(self, plans):
        self.plans = plans
        self.callers, self.actors = list(plans.callers), list(plans.actors)
        self.calls = {caller: plans.calls(caller) for caller in self.callers}
        self.calls_to = {(caller, actor): plans.calls_to(caller, actor) for caller in self.callers for actor in self.actors}
        self.pairs = [pair for pair, calls in self.calls_to.items() if calls]
        self.killed = {step[1] for steps in plans.steps.values() for step in steps if step[0] == "kill"}
        counts = {caller: [step[0] == "submit" for step in steps] for caller, steps in plans.steps.items()}
        self.submitted = {caller: [0, *itertools.accumulate(map(int, each))] for caller, each in counts.items()}

    def start(self):
        nothing, looked = frozenset(), frozenset(self.actors) - self.killed
        return (0,) * len(self.callers), ((),) * len(self.actors), (0,) * len(self.pairs), nothing, nothing, nothing, looked

    def has(self, state, caller, future):
        """Whether the caller submitted so many calls that this is one of its futures."""
        return future < self.submitted[caller][state[0][caller - 1]]

    def replies(self, state, caller, actor):
        """How many of the caller's calls the actor ran."""
        return sum(c == caller for c, _ in state[1][actor - 1])

    def is_kept(self, state, caller, future):
        pair = caller, self.calls[caller][future][0]
        collected = state[2][self.pairs.index(pair)]
        return self.has(state, caller, future) and (future in self.calls_to[pair][:collected] or pair in state[3])

    def next_states(self, state):
        for caller in self.callers:
            yield from self.steps(state, caller)
        for actor in self.actors:
            if actor not in state[4]:
                yield from self.of_actor(state, actor)
        for place, pair in enumerate(self.pairs):
            yield from self.collections(state, place, *pair)

    def steps(self, state, caller):
        done, runs, told, deaths, dead, asked, looked = state
        place = done[caller - 1]
        if place == len(self.plans.steps[caller]):
            return
        verb, of, *_ = self.plans.steps[caller][place]
        if verb == "await" and not self.is_kept(state, caller, of) or verb == "submit" and self.is_full(state, caller, of):
            return
        yield put(done, caller - 1, place + 1), runs, told, deaths, dead, asked | {of} if verb == "kill" else asked, looked

    def is_full(self, state, caller, actor):
        """Whether a limit refuses the caller's next call to the actor."""
        limit = self.plans.limits[actor]
        if limit is None or (caller, actor) in state[3]:
            return False
        calls = [future for future in self.calls_to[caller, actor] if self.has(state, caller, future)]
        return sum(not self.is_kept(state, caller, future) for future in calls) >= limit

    def of_actor(self, state, actor):
        """A run; a look for a kill, or its taking."""
        done, runs, told, deaths, dead, asked, looked = state
        for caller in self.callers:
            left = self.calls_to[caller, actor][self.replies(state, caller, actor) :]
            if left and self.can_run(state, caller, left[0]):
                ran = put(runs, actor - 1, (*runs[actor - 1], (caller, left[0])))
                ends = self.calls[caller][left[0]][1] == reading.END
                yield done, ran, told, deaths, dead | {actor} if ends else dead, asked, looked - ({actor} & self.killed)
        if actor in asked:
            yield done, runs, told, deaths, dead | {actor}, asked, looked
        else:
            yield done, runs, told, deaths, dead, asked, looked | {actor}

    def can_run(self, state, caller, future):
        """It was submitted, and can be sent and delivered."""
        argument = self.calls[caller][future][2]
        is_known = not isinstance(argument, reading.Future) or self.is_kept(state, caller, argument.number)
        return self.has(state, caller, future) and is_known

    def collections(self, state, place, caller, actor):
        """The next reply; or the death, once all replies are collected."""
        done, runs, told, deaths, dead, asked, looked = state
        if told[place] < self.replies(state, caller, actor):
            yield done, runs, put(told, place, told[place] + 1), deaths, dead, asked, looked
        elif actor in dead:
            yield done, runs, told, deaths | {(caller, actor)}, dead, asked, looked

    def is_end(self, state):
        """All steps are done, each call has an answer, and each actor is dead, or ran all and may retire."""
        if any(count < len(self.plans.steps[caller]) for caller, count in zip(self.callers, state[0])):
            return False
        if any(not self.is_kept(state, caller, future) for caller in self.callers for future in range(len(self.calls[caller]))):
            return False
        due = {actor: sum(len(self.calls_to[caller, actor]) for caller in self.callers) for actor in self.actors}
        return all(a in state[4] or a in state[6] and len(state[1][a - 1]) == due[a] for a in self.actors)

    def reports(self, most):
        """What all plays leave; or nothing, where there are more states than so many."""
        seen, ends = {self.start()}, set()
        left = list(seen)
        while left and len(seen) <= most:
            state = left.pop()
            if self.is_end(state):
                ends.add(report(self.plans, dict(zip(self.actors, state[1])), state[4]))
            new = set(self.next_states(state)) - seen
            seen |= new
            left += new
        return None if left else ends
