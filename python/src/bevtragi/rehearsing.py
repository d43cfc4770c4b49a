"""Rehearsals: a canvas with your own tasks, called in this process, without broker or workers.

The program decides which task is called, with what, who is skipped and why, and what a chord's body
gets. Each rehearsal is held against the program's messages and its run with the same answers.
"""

from __future__ import annotations

import contextlib
import random
import re
import threading
from typing import Any, Callable, ContextManager, Dict, List, Mapping, Sequence, Tuple, Union

from .errors import BadCall, CanvasError, hidden
from .marking import app_of
from .outcomes import Failure
from .placeholders import Placeholders
from .real_tasks import OWN, RealTask, Sent, recorded_sends, serializer_of
from .recorded import recorded_answers
from .rehearsal import Rehearsal
from .rehearsed_calls import Calls, Choice, Flow, root_of
from .rehearsed_program import RehearsedProgram
from .reports import Row
from .texts import Canvas, check_names, named, tree_of

__all__ = ["Order", "Rehearsable", "StandIns", "Through", "World", "one_at_a_time", "rehearse"]

__tracebackhide__ = hidden

StandIns = Mapping[Any, Any]
Order = Union[None, int, Sequence[int]]
World = Union[None, Callable[[], ContextManager[Any]]]
Through = Union[None, Callable[[Any], Any]]

#: One canvas is rehearsed at a time in a process, since its tasks are changed meanwhile.
one_at_a_time = threading.RLock()

#: When a message is delivered again.
AGAIN = ("early", "late", "lost", "whole")
#: The names of exceptions that the program takes.
KIND = re.compile("(?!(Retry|Ignore|Reject)$)[A-Za-z0-9_]+")
#: The numbers that the program takes lie between this and its negative.
MOST = 2 ** 60


class Rehearsable:
    """A canvas with the tasks that are called for it: what all its rehearsals have in common."""

    def __init__(self, flow: Canvas, stand_ins: StandIns = {}, app: Any = None,
                 through: Through = None, answers: Any = None) -> None:
        arguments = Placeholders(tree_of(flow))
        self.program = RehearsedProgram(arguments.tree)
        app = app if app is not None else app_of(flow) or getattr(flow, "app", None)
        self.app = getattr(app, "_get_current_object", lambda: app)()
        through = through or serializer_of(self.app)
        _check_arguments(arguments, through)
        names = self.program.names
        stand_ins = named(stand_ins, "what takes the place of tasks")
        check_names(stand_ins, [*names.values()])
        recorded = recorded_answers(answers, names)
        tasks = {number: self._task_of(number, stand_ins, recorded) for number in names}
        missing = sorted({it.name for it in tasks.values() if it.is_missing})
        if missing:
            raise BadCall(f"there is no task {', '.join(missing)}: register it, or name a function"
                          " for it")
        self.flow = Flow(self.program, arguments, tasks, through, self.app)

    def _task_of(self, number: int, stand_ins: StandIns, recorded: Mapping[int, Any]) -> RealTask:
        name = self.program.names[number]
        task = self.app.tasks.get(name) if self.app is not None else None
        for key in (number, name):
            if key in stand_ins:
                return RealTask(name, task, stand_ins[key])
        if number in recorded:
            return RealTask(name, None, recorded[number])
        return RealTask(name, task, stand_ins.get("*", OWN) if task is None else OWN)

    def rehearse(self, order: Order = None, again: Any = False, world: World = None) -> Rehearsal:
        """The Rehearsal in an order, with messages that are delivered again, in a world."""
        if world is not None and not callable(world):
            raise BadCall(f"world is called for a context manager, and {world!r:.60} can't be")
        with one_at_a_time:
            return self._rehearse(order, again, world)

    def _rehearse(self, order: Order, again: Any, world: World) -> Rehearsal:
        calls = Calls(self.flow, _choice(order), self._points(again))
        sent: List[Sent] = []

        def send(name: str, args: List[Any], kwargs: Dict[str, Any]) -> None:
            sent.append(Sent(calls.now, name, args, kwargs))
        with world() if world else contextlib.nullcontext() as shown:
            with recorded_sends(self.app, send):
                calls.make()
            state = shown() if callable(shown) else shown
        report = self._report(calls)
        report.sent, report.state = sent, state
        return report

    def _points(self, again: Any) -> List[Tuple[int, str]]:
        """The messages that are delivered again, by number, and when."""
        names = self.program.names
        if isinstance(again, bool):
            return [(number, at) for number in names for at in ("early", "late") if again]
        again = named(again, "what is delivered again")
        check_names(again, [*names.values()])
        found = []
        for number, name in names.items():
            for key in (number, name, "*"):
                at = again.get(key, ())
                found += [(number, it) for it in ([at] if isinstance(at, str) else at)]
        for number, at in found:
            if at not in AGAIN:
                raise BadCall(f"#{number} {names[number]} is delivered again \"early\", \"late\","
                              f" \"lost\" or \"whole\", not {at!r}")
        return found

    def _report(self, calls: Calls) -> Rehearsal:
        """The report of calls, which is that of the program's run with the same answers."""
        points = tuple(it for it in calls.points if it[1] in ("early", "late"))
        told = self.program.rows(frozenset(calls.errors), points)
        ran = {row.number for row in told.rows if row.ran}
        if ran != calls.made.keys() or told.stored_again != sum(it[0] in ran for it in points):
            raise CanvasError("the calls aren't those of the report with these answers")
        rows = [self._row(row, told.rows, calls) for row in told.rows]
        report = Rehearsal(rows, self.program.ends(), told.stored_again)
        report._asked = (["--adapt", *self._words(calls)], self.program.text)
        report.calls, report.errors, report.changed = calls.calls, calls.errors, calls.changed
        report.after = {number: it.after for number, it in calls.made.items()}
        report.in_place = frozenset(calls.in_place)
        return report

    def _row(self, row: Row, rows: List[Row], calls: Calls) -> Row:
        """A row with the name and the result of the task itself."""
        name, result = self.program.names[row.number], row.result
        if not isinstance(result, Failure):
            return row._replace(name=name, result=calls.values.get(row.number))
        root = root_of(rows, result.task or row.number)
        kind = type(calls.errors[root]).__name__ if root else "ChordError"
        return row._replace(name=name, result=result._replace(raised=kind) if result.task
                            else Failure(kind))

    def _words(self, calls: Calls) -> List[str]:
        """The answers in the program's words, as far as it has any."""
        found = []
        for number in self.program.names:
            kind, value = type(calls.errors.get(number)).__name__, calls.values.get(number)
            word = str(value) if type(value) is int and -MOST <= value <= MOST else "0"
            if number in calls.errors:
                word = f"raise:{kind if KIND.fullmatch(kind) else 'Exception'}"
            found.append(f"--task=#{number}={word}")
        return found


def _check_arguments(arguments: Placeholders, through: Callable[[Any], Any]) -> None:
    for it in arguments.values:
        try:
            through(it)
        except Exception as error:
            raise BadCall(f"the argument {it!r:.60} can't be sent: {error}") from error


def _choice(order: Order) -> Choice:
    """Which of the messages that may be taken is the next one."""
    if order is None:
        return lambda numbers: 0
    if isinstance(order, int):
        dice = random.Random(order)
        return lambda numbers: dice.randrange(len(numbers))
    if isinstance(order, str) or not all(isinstance(it, int) for it in order):
        raise BadCall(f"order is a number or a list of tasks' numbers, not {order!r:.60}")
    places = {number: place for place, number in enumerate(order)}
    return lambda numbers: min(range(len(numbers)),
                               key=lambda it: places.get(numbers[it], len(places)))


def rehearse(flow: Canvas, stand_ins: StandIns = {}, app: Any = None, order: Order = None,
             again: Any = False, world: World = None, through: Through = None, answers: Any = None
             ) -> Rehearsal:
    """The Rehearsal of a canvas: its own tasks are called, each when a worker may call it.

    stand_ins  what takes the place of a task, by its name, its number or the task itself: a
               function; an answer; an exception, which each try raises; or a list of exceptions,
               which the first tries raise. "*" is for all tasks that the application doesn't have
    app        the application with the tasks, if the canvas is JSON. A signature has its own
    order      which call comes next. A number draws it from those that may; a list of numbers of
               tasks has its first ones first; else it is that of one worker
    again      what is delivered again, as {"shop.ship": "lost"}: "early" or "late", and the first
               answer counts; "lost", since its worker is lost after the call, and the second answer
               counts; or "whole": its task has ended, and all that follows is called again, too.
               True is "early" and "late" for each
    world      gives a context manager, which is entered for the calls, as one that rolls a database
               back. What it gives, or what that returns if it can be called, is the `state`
    through    what becomes of an argument or answer that is sent: else the application's serializer
    answers    a report, or results that were stored: they are taken instead of a call of the task

    Raises BadCall, also for a task that isn't there; Refused; and CanvasError for a task that
    replaces itself, adds to its chord, or ends as ignored or rejected."""
    return Rehearsable(flow, stand_ins, app, through, answers).rehearse(order, again, world)
