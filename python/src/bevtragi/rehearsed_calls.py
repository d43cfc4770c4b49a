"""The calls of one rehearsal, one after the other, each when a worker may make it.

The program lists the messages of the run with the failures so far, each with the tasks that it comes
after. It may be taken once these have ended, and after each failure the list is asked for again.
So the last list is that of the run with these answers, and the calls are held against it. This module chooses
the order of the calls and makes them. It decides nothing else.
"""

from __future__ import annotations

import sys
import traceback
from typing import Any, Callable, Dict, List, NamedTuple, Sequence, Set, Tuple

from .errors import CanvasError, hidden
from .outcomes import Failure
from .placeholders import Placeholders, differ
from .real_tasks import Outcome, RealTask
from .rehearsal import Call
from .rehearsed_program import Message, RehearsedProgram, identifier_of, number_of
from .reports import Row

__all__ = ["Calls", "Choice", "Flow", "root_of"]

__tracebackhide__ = hidden

#: Which of the messages with these numbers is taken next, by its place.
Choice = Callable[[Sequence[int]], int]


class Flow(NamedTuple):
    """What is the same in each rehearsal of a canvas."""
    program: RehearsedProgram
    arguments: Placeholders
    tasks: Dict[int, RealTask]
    through: Callable[[Any], Any]
    app: Any


class Calls:
    """The calls of a rehearsal, and what they ended with. The points are the messages that are
    delivered again, by number, with the word that says when."""

    def __init__(self, flow: Flow, choose: Choice, points: Sequence[Tuple[int, str]] = ()) -> None:
        self.flow, self.points, self._choose = flow, points, choose
        self.calls: List[Call] = []
        self.made: Dict[int, Message] = {}
        self.values: Dict[int, Any] = {}
        self.errors: Dict[int, BaseException] = {}
        self.changed: Dict[int, Any] = {}
        #: Request, exception and traceback of each task that failed.
        self.ends: Dict[int, Tuple[Any, BaseException, Any]] = {}
        self.in_place: Set[int] = set()
        #: The number of the task that was called last.
        self.now = 0
        self._ended: Set[int] = set()
        #: The first message of a second round, or 0.
        self._start = 0
        self._results = _Results(flow.app)
        self._first = self

    def make(self) -> None:
        """Makes all calls of the canvas. Raises CanvasError if they aren't those of its run."""
        try:
            self._make()
            if self._listed != self.made:
                raise CanvasError("the calls aren't those of the run with these answers")
            for number, at in self.points:
                if at == "whole" and number in self.made:
                    self._make_again(number)
        finally:
            self._results.forget()

    def _make_again(self, number: int) -> None:
        """Takes a message once more, and all that follows it, as Celery's workers do with a message
        that is delivered again after its task has ended. A chord's body follows if the chord is
        started again: not if a task of its header is called again, as Redis has forgotten its size.
        """
        again, taken = Calls(self.flow, self._choose), _round_of(number, self.made)
        again._first, again._results, again._start = self, self._results, number
        again._ended, again.values = {*self.made[number].after}, dict(self.values)
        again.errors = {it: error for it, error in self.errors.items() if it not in taken}
        again.ends = {it: self.ends[it] for it in again.errors}
        again._make()
        if any(again._listed.get(it) != message for it, message in again.made.items()):
            raise CanvasError("the calls made again aren't those of the run with these answers")
        self.calls += [it._replace(again=True) for it in again.calls]

    def _make(self) -> None:
        self._ask()
        self._seen: Set[int] = set()
        queue = [(it, False) for it in self._ready()]
        in_place: List[Tuple[Message, bool]] = []
        while queue or in_place:
            if in_place:
                message, is_again = in_place.pop(0)
            else:
                message, is_again = queue.pop(self._choose([it.number for it, _ in queue]))
            self._take(message, is_again)
            if not is_again:
                found = [(it, False) for it in self._ready()]
                # Celery calls these before its worker takes another message.
                in_place += [it for it in found if it[0].number in self.in_place]
                queue += [*self._copies(message, "early"),
                          *(it for it in found if it[0].number not in self.in_place),
                          *self._copies(message, "late")]

    def _ask(self) -> None:
        self._listed = self.flow.program.messages(frozenset(self.errors))
        self._round = _round_of(self._start, self._listed) if self._start else {*self._listed}

    def _ready(self) -> List[Message]:
        """The messages that may be taken from now on."""
        found = [it for it in self._listed.values() if it.number not in self._seen
                 and it.after <= self._ended and it.number in self._round]
        self._seen.update(it.number for it in found)
        self.in_place.update(it.number for it in found if self._is_called_in_place(it))
        return found

    def _copies(self, message: Message, at: str) -> List[Tuple[Message, bool]]:
        return [(message, True)] * self.points.count((message.number, at))

    def _is_called_in_place(self, message: Message) -> bool:
        return bool(_failed_of(message)) and self.flow.tasks[message.number].is_called_in_place()

    def _take(self, message: Message, is_again: bool) -> None:
        """Calls the task of a message; once more if its worker is lost after the call."""
        lost = 0 if is_again else self.points.count((message.number, "lost"))
        for _ in range(lost):
            self._call(message, is_again)
            is_again = True
        outcome = self._call(message, is_again)
        if message.number not in self.made:
            self._end(message, outcome)

    def _call(self, message: Message, is_again: bool) -> Outcome:
        number, task = message.number, self.flow.tasks[message.number]
        args, kwargs = self._object(message.args), self._object(message.kwargs)
        failed = _failed_of(message)
        is_in_place = self._is_called_in_place(message)
        if failed:
            end = self._end_of(failed)
            args = [*end, *args[1:]] if is_in_place else args
        self._first.now = number
        try:
            outcome = task.call(identifier_of(number), args, kwargs, is_in_place)
        except CanvasError as error:
            raise CanvasError(f"#{number} {error}") from None
        sent = None
        if outcome.raised is None:
            try:
                sent = self.flow.through(outcome.answer)
            except Exception as error:
                outcome = Outcome(None, error, traceback.format_exc(), outcome.request)
        if number not in self.made and differ(outcome.answer, sent):
            self.changed[number] = outcome.answer, sent
        outcome = outcome._replace(answer=sent)
        self.calls.append(Call(number, task.name, args, kwargs, sent, outcome.raised,
                               outcome.retries, is_again))
        return outcome

    def _end(self, message: Message, outcome: Outcome) -> None:
        """Takes note of how the task of a message ended."""
        number = message.number
        self.made[number] = message
        self._ended.add(number)
        if outcome.raised is None:
            self.values[number] = outcome.answer
        else:
            self.errors[number] = outcome.raised
            self.ends[number] = outcome.request, outcome.raised, outcome.trace
            self._ask()
        self._results.store(number, outcome.answer, outcome.raised, outcome.trace)

    def _object(self, word: Any) -> Any:
        """The result or argument that a word of a message is, as the worker gets it."""
        if isinstance(word, list):
            return [self._object(it) for it in word]
        if isinstance(word, dict):
            return {key: self._object(it) for key, it in word.items()}
        if isinstance(word, int):
            if word not in self.values:
                raise CanvasError(f"a task is called with the result of #{word}, which has none")
            return self.flow.through(self.values[word])
        if number_of(word):
            return word
        return self.flow.through(self.flow.arguments.argument(word))

    def _end_of(self, number: int) -> Tuple[Any, BaseException, Any]:
        """Request, exception and traceback of a task that failed. A body that wasn't called, since
        its header failed, has a ChordError."""
        if number not in self.ends:
            rows = self.flow.program.rows(frozenset(self.errors)).rows
            failure = rows[number - 1].result
            raised = self.errors.get(root_of(rows, failure.task), Exception("a failed header"))
            text = f"Dependency {identifier_of(failure.task)} raised {raised!r}"
            error = _chord_error()(text)
            request = self.flow.tasks[number].request(identifier_of(number))
            self.ends[number] = request, error, None
            self._results.store(number, None, error, None)
        return self.ends[number]


def _round_of(start: int, messages: Dict[int, Message]) -> Set[int]:
    """The messages that come after a message, and itself: a body's if its chord does, too."""
    found = {start}
    for number, it in sorted(messages.items()):
        if found & it.after and (it.header_after is None or found & it.header_after):
            found.add(number)
    return found


def root_of(rows: List[Row], number: int) -> int:
    """The task that was called whose exception another one shows; 0 if that is a ChordError."""
    row = rows[number - 1]
    if row.ran:
        return number
    return 0 if isinstance(row.result, Failure) and row.result.task else row.due_to or 0


def _failed_of(message: Message) -> int:
    """The failed task of which the message of an error callback tells, or 0."""
    return number_of(message.args[0]) if message.args else 0


def _chord_error() -> Any:
    celery: Any = sys.modules.get("celery.exceptions")
    return celery.ChordError if celery else type("ChordError", (Exception,), {})


class _Results:
    """The stored results, for tasks that look them up by their identifiers. They are stored only if
    the application keeps results in this process."""

    def __init__(self, app: Any) -> None:
        is_here = app is not None and str(app.conf.result_backend).startswith("cache+memory")
        self._backend: Any = app.backend if is_here else None
        self._stored: Set[str] = set()

    def store(self, number: int, answer: Any, raised: BaseException | None, trace: Any) -> None:
        """Stores how a task ended."""
        if self._backend is not None:
            self._stored.add(identifier_of(number))
            self._backend.store_result(
                identifier_of(number), answer if raised is None else raised,
                "SUCCESS" if raised is None else "FAILURE", trace)

    def forget(self) -> None:
        """Removes what was stored, since the next rehearsal has the same identifiers."""
        for identifier in self._stored:
            self._backend.forget(identifier)
