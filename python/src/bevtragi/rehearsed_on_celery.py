"""What the installed Celery would have called otherwise than a rehearsal, with the same tasks."""

from __future__ import annotations

import contextlib
import inspect
import re
import types
from collections import Counter
from typing import Any, Callable, Dict, List, Optional, Tuple

from .celery_run import Judge, celery_version, said
from .comparing import of_calls
from .errors import hidden
from .real_tasks import RealTask, recorded_sends
from .rehearsal import Rehearsal
from .rehearsed_program import identifier_of, number_of
from .rehearsing import Rehearsable, StandIns, World, one_at_a_time
from .texts import Canvas

__all__ = ["rehearse_differences"]

__tracebackhide__ = hidden

#: A task's identifier on Celery.
UUID = re.compile("[0-9a-f]{8}-[0-9a-f]{4}-[0-9a-f]{4}-[0-9a-f]{4}-[0-9a-f]{12}")

#: Whether tasks that fail end before or after the others; the first is enough if none fails.
ORDERS = ("first", "last")

#: The name of a task and what it was called with.
Noted = Tuple[str, Any, Dict[str, Any]]
NameOf = Callable[[str], Optional[str]]


def rehearse_differences(flow: Canvas, stand_ins: StandIns = {}, app: Any = None,
                         world: World = None, answers: Any = None) -> list[str]:
    """Sentences that say what the installed Celery would have called otherwise than rehearse(), or
    with other arguments, with the same tasks and stand-ins. The list is empty if it calls the same:
    `assert not rehearse_differences(flow, {"shop.ship": OSError}, world=world)`.

    Celery's code runs over a dictionary instead of Redis, as of on_celery(): twice if a task fails,
    since what it does may depend on which task ends last. Each of the two, and the rehearsal, has a
    world of its own. Raises CanvasError if Celery isn't installed, and as rehearse()."""
    version = celery_version()
    tasks = Rehearsable(flow, stand_ins, app, None, answers)
    report = tasks.rehearse(world=world)
    wanted = Counter(_shown(it.name, it.args, it.kwargs, lambda it: tasks.program.names.get(
        number_of(it))) for it in report.calls)
    runs = [[*of_calls(wanted, calls)]
            for calls in (_called(tasks, flow, world, report, failures)
                          for failures in (ORDERS if report.errors else ORDERS[:1]))]
    first, last = runs[0], runs[-1]
    parts = [*(it + ("" if it in last else " unless the failure comes last") for it in first),
             *(f"{it} if the failure comes last" for it in last if it not in first)]
    return [f"Celery {version} {it}" for it in parts]


def _called(tasks: Rehearsable, flow: Canvas, world: World, report: Rehearsal,
            failures: str | None) -> Counter[str]:
    """The calls that Celery makes, each as a text."""
    noted: List[Noted] = []
    functions = {number: _function(number, task, number in report.errors, noted)
                 for number, task in tasks.flow.tasks.items()}
    judge = Judge(flow, _known(tasks), type(flow))
    with one_at_a_time, world() if world else contextlib.nullcontext():
        with recorded_sends(tasks.app, lambda *_: None):
            run = judge.run(functions, failures)
    names = run.identified()
    found = Counter(_shown(*it, names.get) for it in noted)
    if run.raised is not None:
        found[f"apply_async(), which raises {said(run.raised)}"] += 1
    return found


def _function(number: int, task: RealTask, fails: bool, noted: List[Noted]) -> Any:
    """The function that Celery calls for a task, which calls it as a rehearsal does."""
    def function(*args: Any, **kwargs: Any) -> Any:
        noted.append((task.name, args, kwargs))
        is_in_place = len(args) > 2 and isinstance(args[1], BaseException)
        outcome = task.call(identifier_of(number), [*args], kwargs, is_in_place)
        if outcome.raised is not None:
            raise outcome.raised
        return outcome.answer
    setattr(function, "fails", fails)
    return function


def _known(tasks: Rehearsable) -> Any:
    """The application for Celery, in which stand-ins of other tasks are tasks, too."""
    if tasks.app is None:
        return None
    others = {it.name: _stand_in(it.stand_in) for it in tasks.flow.tasks.values()
              if it.task is None}
    known = {name: tasks.app.tasks[name] for name in tasks.app.tasks}
    return _Application(tasks.app.conf, {**others, **known}) if others else tasks.app


class _Application:
    """As much of an application as Celery is asked with."""

    def __init__(self, conf: Any, tasks: Dict[str, Any]) -> None:
        self.conf, self.tasks = conf, tasks


def _stand_in(it: Any) -> Any:
    """As much of a task as tells which parameters it has."""
    if not isinstance(it, types.FunctionType):
        return types.SimpleNamespace(run=lambda *args, **kwargs: None)
    parameters = inspect.signature(it)

    def header(*args: Any, **kwargs: Any) -> None:
        parameters.bind(*args, **kwargs)
    setattr(header, "__signature__", parameters)
    return types.SimpleNamespace(run=it, __header__=header)


def _shown(name: str, args: Any, kwargs: Any, name_of: NameOf) -> str:
    """A call as a text. Requests and identifiers are the names of their tasks, of exceptions their
    classes are told, and of tracebacks nothing, as these differ from run to run."""
    given = [*(_argument(it, name_of) for it in args),
             *(f"{key}={_argument(it, name_of)}" for key, it in sorted(kwargs.items()))]
    return f"{name}({', '.join(given)})"


def _argument(it: Any, name_of: NameOf) -> str:
    if hasattr(it, "delivery_info"):
        return f"the request of {name_of(it.id)}"
    if isinstance(it, BaseException):
        return type(it).__name__
    if isinstance(it, str) and UUID.fullmatch(it) and name_of(it):
        return f"the identifier of {name_of(it)}"
    if isinstance(it, str) and it.startswith("Traceback"):
        return "its traceback"
    return repr(it)
