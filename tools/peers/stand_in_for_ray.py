"""A stand-in for Ray, of threads, with the part of its interface that tools/ray_history.py needs.

An actor is a thread with a queue. Calls of one thread to one actor are queued in the order of their submission, each
once its arguments have their answers. A call with a failed argument fails with it, and isn't run. A kill is taken
between two calls.

`remote` of a class takes three faults, for tests: with `in_order=False` a call is queued as soon as its own arguments
are there; with `twice=N` each Nth call is queued a second time; with `threads=2` two calls run at the same time.
"""
import collections
import functools
import inspect
import queue
import threading
from concurrent import futures
from types import SimpleNamespace


class RayError(Exception):
    pass


class RayTaskError(RayError):
    """A method raised, or an argument failed."""

    def __init__(self, cause):
        super().__init__(str(cause))
        self.cause = cause


class RayActorError(RayError):
    pass


class ActorDiedError(RayActorError):
    pass


exceptions = SimpleNamespace(
    RayError=RayError, RayTaskError=RayTaskError, RayActorError=RayActorError, ActorDiedError=ActorDiedError
)
ObjectRef = futures.Future
END = object()


class Call:
    """A call on its way: its reference, its method, and its arguments, of which some may be references."""

    def __init__(self, method, args, named):
        self.ref, self.method, self.args, self.named = ObjectRef(), method, args, named
        self.needs = [arg for arg in (*args, *named.values()) if isinstance(arg, ObjectRef)]

    def is_ready(self):
        return all(ref.done() for ref in self.needs)

    def run(self, actor):
        failed = [ref.exception() for ref in self.needs if ref.exception()]
        if failed:
            return self.fail(RayTaskError(getattr(failed[0], "cause", failed[0])))
        args = [settled(arg) for arg in self.args]
        named = {name: settled(arg) for name, arg in self.named.items()}
        try:
            value = getattr(actor, self.method)(*args, **named)
        except Exception as cause:
            return self.fail(RayTaskError(cause))
        if not self.ref.done():
            self.ref.set_result(value)

    def fail(self, error):
        if not self.ref.done():
            self.ref.set_exception(error)


def settled(arg):
    return arg.result() if isinstance(arg, ObjectRef) else arg


class Lane:
    """The calls of one thread to one actor that aren't queued yet."""

    def __init__(self, inbox, in_order):
        self.inbox, self.in_order = inbox, in_order
        self.waiting, self.lock = collections.deque(), threading.RLock()

    def add(self, call):
        with self.lock:
            self.waiting.append(call)
        for ref in call.needs:
            ref.add_done_callback(lambda _: self.pass_on())
        self.pass_on()

    def pass_on(self):
        with self.lock:
            kept = collections.deque()
            while self.waiting:
                call = self.waiting.popleft()
                if not call.is_ready() or (kept and self.in_order):
                    kept.append(call)
                else:
                    self.inbox(call)
            self.waiting = kept


class Handle:
    """An actor: its object, its queue and its threads."""

    def __init__(self, actor, in_order, twice, threads):
        self._queue, self._lanes, self._count = queue.Queue(), {}, 0
        self._in_order, self._twice, self._lock = in_order, twice, threading.Lock()
        self._killed, self._doubled = threading.Event(), []  # the references of calls that were queued twice
        self._threads = [threading.Thread(target=self._serve, args=[actor], daemon=True) for _ in range(threads)]
        for thread in self._threads:
            thread.start()

    def __getattr__(self, method):
        if method.startswith("_"):
            raise AttributeError(method)
        return SimpleNamespace(remote=functools.partial(self._submit, method))

    def _submit(self, method, *args, **named):
        call = Call(method, args, named)
        with self._lock:
            lane = self._lanes.setdefault(threading.get_ident(), Lane(self._take_in, self._in_order))
        lane.add(call)
        return call.ref

    def _take_in(self, call):
        with self._lock:
            self._count += 1
            is_twice = self._twice and self._count % self._twice == 0
        if is_twice:
            self._doubled.append(call.ref)
            self._queue.put(call)
        self._queue.put(call)

    def _serve(self, actor):
        while (call := self._queue.get()) is not END:
            if self._killed.is_set():
                call.fail(ActorDiedError("the actor is dead"))
            else:
                call.run(actor)


def remote(cls=None, *, in_order=True, twice=0, threads=1):
    """The class of an actor, whose `.remote(..)` starts one."""
    if cls is None:
        return functools.partial(remote, in_order=in_order, twice=twice, threads=threads)
    assert inspect.isclass(cls)
    return SimpleNamespace(remote=lambda *args, **named: Handle(cls(*args, **named), in_order, twice, threads))


def init(**_):
    pass


def get(ref):
    return [each.result() for each in ref] if isinstance(ref, list) else ref.result()


def kill(handle):
    handle._killed.set()


def join(handle):
    """Ends the actor's threads once they ran what is queued, and waits for them."""
    for _ in handle._threads:
        handle._queue.put(END)
    for thread in handle._threads:
        thread.join()
