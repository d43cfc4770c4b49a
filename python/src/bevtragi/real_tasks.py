"""Calls of a user's own tasks. Celery isn't imported: a task of Celery is known by its `apply`."""

from __future__ import annotations

import contextlib
import sys
import traceback
import types
from typing import Any, Callable, Dict, Iterator, List, NamedTuple

from .binding import is_called_in_place
from .errors import CanvasError, hidden
from .placeholders import copied

__all__ = ["OWN", "Outcome", "RealTask", "Sent", "is_error", "recorded_sends", "replaced",
           "serializer_of"]

__tracebackhide__ = hidden

#: The settings of an application during a rehearsal. Otherwise delay() calls the task, and a retry
#: raises its exception.
SETTINGS = {"task_always_eager": False, "task_eager_propagates": False}

#: The stand-in of a task that has none.
OWN = object()

#: The calls of a task after which its retries have no end.
ENDLESS = 100


class Outcome(NamedTuple):
    """How a call ends: with an answer, or with an exception that was raised and its traceback. The
    request is that of the last try, or None if there was no try."""
    answer: Any
    raised: BaseException | None
    trace: str | None
    request: Any

    @property
    def retries(self) -> int:
        return int(getattr(self.request, "retries", 0) or 0)


class Sent(NamedTuple):
    """What a task sent by itself, as by delay(): the number of that task; the name and the
    arguments of the task that it sent."""
    by: int
    name: str
    args: List[Any]
    kwargs: Dict[str, Any]


class Unfollowed(BaseException):
    """What a rehearsal doesn't follow. It is no Exception, so that a task can't catch it as one."""


class RealTask:
    """A task of an application, or None, and its stand-in:

    - OWN for none
    - an exception, which each try raises
    - a list of exceptions, which the first tries raise
    - a function, or any other value that the task answers"""

    def __init__(self, name: str, task: Any, stand_in: Any = OWN) -> None:
        self.name, self.task, self.stand_in = name, task, stand_in
        self.is_celerys = hasattr(task, "apply")
        errors = isinstance(stand_in, list) and stand_in and all(map(is_error, stand_in))
        self.first_errors: List[Any] = stand_in if errors else []

    @property
    def is_missing(self) -> bool:
        """Whether there is nothing to call."""
        return self.task is None and self.stand_in is OWN

    def is_called_in_place(self) -> bool:
        """Whether Celery calls it, as an error callback, with request, exception and traceback."""
        if self.is_celerys:
            return is_called_in_place(self.task)
        return isinstance(self.stand_in, types.FunctionType) and is_called_in_place(
            types.SimpleNamespace(__header__=self.stand_in))

    def request(self, identifier: str, args: Any = (), kwargs: Any = {}) -> Any:
        """A request of the task, as an error callback gets it."""
        told = {"id": identifier, "task": self.name, "args": args, "kwargs": kwargs,
                "delivery_info": {}, "retries": 0}
        if self.is_celerys:
            return sys.modules["celery.app.task"].Context(told)
        return types.SimpleNamespace(**told)

    def call(self, identifier: str, args: List[Any], kwargs: Dict[str, Any],
             in_place: bool = False) -> Outcome:
        """Calls the task, as a worker does. Celery's own code binds it, retries it and calls its
        handlers. Raises CanvasError for what a rehearsal doesn't follow."""
        tries: List[Any] = []
        try:
            answer, raised, trace = self._ended(tries, identifier, args, kwargs, in_place)
        except Unfollowed as stop:
            raise CanvasError(f"{self.name} {stop}, and a rehearsal doesn't follow that: name a"
                              " function for it") from None
        except Exception as error:
            answer, raised, trace = None, error, traceback.format_exc()
        if isinstance(raised, RecursionError) and len(tries) > ENDLESS:
            raise CanvasError(f"{self.name} retries without end: give it max_retries")
        return Outcome(answer, raised, trace, tries[-1] if tries else None)

    def _ended(self, tries: List[Any], identifier: str, args: List[Any], kwargs: Dict[str, Any],
               in_place: bool) -> Any:
        if not self.is_celerys:
            tries.append(self.request(identifier, args, kwargs))
            return self._answer(len(tries), None, args, kwargs), None, None
        task = self.task
        # autoretry_for puts its own `run` around this one
        name = "_orig_run" if hasattr(task, "_orig_run") else "run"
        own = getattr(task, name)

        def function(*args: Any, **kwargs: Any) -> Any:
            tries.append(task.request)
            return self._answer(len(tries), own, args, kwargs)
        with replaced(task, {name: function, "replace": _refused("replaces itself"),
                             "add_to_chord": _refused("adds to its chord")}):
            if in_place:
                return task(*args, **kwargs), None, None
            end = task.apply(args, kwargs, task_id=identifier, throw=False)
        if end.state == "FAILURE":
            return None, end.result, end.traceback
        if end.state != "SUCCESS":
            raise Unfollowed(f"ends as {end.state}")
        return end.result, None, None

    def _answer(self, tried: int, own: Any, args: Any, kwargs: Any) -> Any:
        """What one try answers. Raises what it raises."""
        it = self.stand_in
        if tried <= len(self.first_errors):
            raise _fresh(self.first_errors[tried - 1])
        if it is OWN or self.first_errors:
            return own(*args, **kwargs)
        if callable(it) and not is_error(it):
            return it(*args, **kwargs)
        header = getattr(self.task, "__header__", None)
        if header is not None:  # an answer doesn't hide a call that the task wouldn't take
            header(*args, **kwargs)
        if is_error(it):
            raise _fresh(it)
        return it


def is_error(it: Any) -> bool:
    """Whether something can be raised."""
    return issubclass(it if isinstance(it, type) else type(it), BaseException)


def _fresh(error: Any) -> Any:
    """An exception without the places where it was raised before."""
    if isinstance(error, BaseException):
        error.__traceback__ = error.__context__ = None
    return error


def _refused(what: str) -> Callable[..., Any]:
    def refuse(*_args: Any, **_kwargs: Any) -> Any:
        raise Unfollowed(what)
    return refuse


@contextlib.contextmanager
def replaced(it: Any, names: Dict[str, Any]) -> Iterator[None]:
    """Has an object have other attributes, and afterwards those that it had."""
    had = {name: vars(it)[name] for name in names if name in vars(it)}
    vars(it).update(names)
    try:
        yield
    finally:
        for name in names:
            vars(it).pop(name, None)
        vars(it).update(had)


@contextlib.contextmanager
def recorded_sends(app: Any, send: Callable[..., None]) -> Iterator[None]:
    """Has an application tell what is sent instead of sending it, also if it is always eager."""
    def send_task(name: str, args: Any = None, kwargs: Any = None, task_id: Any = None,
                  **_options: Any) -> Any:
        send(name, list(args or ()), dict(kwargs or {}))
        return sys.modules["celery.result"].EagerResult(task_id or "sent", None, "PENDING")
    if app is None:
        yield
        return
    had = {key: app.conf[key] for key, value in SETTINGS.items() if app.conf[key] != value}
    with replaced(app, {"send_task": send_task}):
        app.conf.update({key: SETTINGS[key] for key in had})
        try:
            yield
        finally:
            app.conf.update(had)


def serializer_of(app: Any) -> Callable[[Any], Any]:
    """What becomes of a value on its way to a worker; without an application it is copied."""
    kombu: Any = sys.modules.get("kombu.serialization")
    if app is None or kombu is None:
        return copied

    def through(value: Any) -> Any:
        kind, coding, text = kombu.dumps(value, app.conf.task_serializer)
        return kombu.loads(text, kind, coding, accept={kind})
    return through
