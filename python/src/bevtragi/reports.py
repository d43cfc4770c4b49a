"""What is answered: reports with their rows and failures."""

from __future__ import annotations

import functools
from itertools import zip_longest
from typing import TYPE_CHECKING, Any, Dict, Iterator, NamedTuple

from .calling import ask
from .errors import CanvasError, NotKnown, hidden
from .outcomes import Failure, Warning, shown
from .pictures import Picture

if TYPE_CHECKING:
    from .celery_run import CeleryRun
    from .comparing import Question

__all__ = ["Failures", "Report", "Row", "pytest_assertrepr_compare", "row_of"]

__tracebackhide__ = hidden


class Row(NamedTuple):
    """A task. Its result is a value, a Failure, an Unreadable, or None while it is pending. `ran`:
    whether it was called; `due_to`: which one made it fail without a call. Celery's workers tell
    neither."""
    number: int
    name: str
    status: str
    result: Any
    ran: bool | None = None
    due_to: int | None = None

    @property
    def raised(self) -> str | None:
        """The name of the exception that the task failed with, or that the failed task of its
        chord raised; None if it didn't fail."""
        if not isinstance(self.result, Failure):
            return None
        return self.result.raised or self.result.kind

    def __str__(self) -> str:
        why = "not called" if self.status == "FAILURE" else "will not run"
        why = f"not called, due to #{self.due_to}" if self.due_to else why
        said = f"#{self.number} {self.name} {self.status} {shown(self.result)}"
        return f"{said} ({why})" if self.ran is False else said


def row_of(number: int, told: dict[str, Any]) -> Row:
    """The row of a task that the program tells. The result of one that failed is a Failure; one
    that succeeded may have a value that looks like that."""
    failed = told["status"] == "FAILURE"
    return Row(number, told["name"], told["status"],
               Failure.of(told["result"]) if failed else told["result"], told.get("ran"),
               int(told["due_to"][-8:], 16) if told.get("due_to") else None)


def _result(end: dict[str, Any], rows: list[dict[str, Any]]) -> Any:
    """The result of a canvas: of its last task, or a list of those of its last group."""
    result = end["result"]
    if end["status"] != "FAILURE":
        return result
    if not isinstance(result, list):
        return Failure.of(result)
    failures = [it["result"] for it in rows if it["status"] == "FAILURE"]
    return [Failure.of(it) if it in failures else it for it in result]


class Report:
    """The rows of the tasks in the order of the file, and the status and result of the canvas: of
    its last task, or a list where it ends in a group. The other lists name tasks: those of each
    status, those that are called (`ran`) and the others; `again` is how often a result was stored
    once more. Reports are equal where each task and the canvas end the same.

    Of what_if(), and if Celery is installed, a last line says what it does otherwise."""
    question: Question | None = None
    _asked: tuple[list[str], bytes] | None = None

    def __init__(self, rows: list[dict[str, Any]], end: dict[str, Any],
                 asked: tuple[list[str], bytes] | None = None, again: int = 0) -> None:
        self._asked, self._told = asked, rows
        self._fill([row_of(number, it) for number, it in enumerate(rows, 1)],
                   end["status"], _result(end, rows), again)

    def with_rows(self, told: dict[int, dict[str, Any]], end: dict[str, Any], words: list[str]
                  ) -> Report:
        """The report of a run with these words, which differs in these rows, by number. The others
        are the same objects."""
        text = self._asked[1] if self._asked else b""
        found = Report([], {**end, "result": None}, (words, text))
        found._told = [told.get(number, it) for number, it in enumerate(self._told, 1)]
        found._fill([row_of(row.number, told[row.number]) if row.number in told else row
                     for row in self.rows], end["status"], _result(end, found._told), 0)
        return found

    def _fill(self, rows: list[Row], status: str, result: Any, again: int) -> None:
        self.rows, self.status, self.result, self.again = rows, status, result, again
        self.succeeded, self.failed, self.pending, self.unreadable = (
            [row.name for row in self.rows if row.status == status]
            for status in ("SUCCESS", "FAILURE", "PENDING", "UNREADABLE"))

    @property
    def ran(self) -> list[str]:
        """The names of the tasks that are called."""
        return self._named_by(True)

    @property
    def never_run(self) -> list[str]:
        """The names of the tasks that are not called."""
        return self._named_by(False)

    def _named_by(self, ran: bool) -> list[str]:
        if self._asked is None:
            raise NotKnown("that isn't known of a run on Celery's workers: ask what_if()")
        return [row.name for row in self.rows if row.ran is ran]

    def asked_of(self, question: Question) -> Report:
        """The report, with its question to Celery."""
        self.question = question
        return self

    @functools.cached_property
    def on_celery(self) -> CeleryRun:
        """What the code of the installed Celery does with the canvas and these answers, with the
        tasks in their turn. CanvasError if there is no Celery, or of reports of other calls."""
        if self.question is None:
            raise NotKnown("that is known of what_if() and every_failure() only")
        try:
            return self.question.run()
        except CanvasError as error:
            raise NotKnown(str(error)) from error

    @functools.cached_property
    def note(self) -> str:
        """What the installed Celery does otherwise, in a line; empty if nothing is known of it."""
        return self.question.note(self) if self.question else ""

    @functools.cached_property
    def misfits(self) -> list[Warning]:
        """Those of the warnings that only the application knows, if what_if() was given one."""
        return self.question.judge.misfits() if self.question else []

    @functools.cached_property
    def warnings(self) -> list[Warning]:
        """What may surprise in the canvas, as of check(). Empty of other reports than what_if()'s.
        """
        return self.question.judge.warnings() if self.question else []

    def graph(self) -> Picture:
        """The picture of this run. CanvasError, as of `ran`, of one on Celery's workers."""
        if self._asked is None:
            raise NotKnown("that isn't known of a run on Celery's workers: ask what_if()")
        words, text = self._asked
        return Picture(ask(["graph", "-", "--run", *words], text)[0])

    def named(self, name: str) -> list[Row]:
        """The rows of the tasks of a name."""
        return [row for row in self.rows if row.name == name]

    def shown(self, result: Any) -> str:
        """A result as it is printed."""
        return shown(result)

    def __iter__(self) -> Iterator[Row]:
        return iter(self.rows)

    def __contains__(self, key: Any) -> bool:
        """Whether the canvas has a task of a number or name, or a row."""
        name = getattr(key, "name", key)
        return key in self.rows or any(name in (row.number, row.name) for row in self.rows)

    def __getitem__(self, key: Any) -> Row:
        """The row of a number, or of a name that only one task has; else KeyError."""
        name = getattr(key, "name", key)
        found = [row for row in self.rows if name in (row.number, row.name)]
        if len(found) != 1:
            numbers = ", ".join(f"#{row.number}" for row in found) or "no task"
            raise KeyError(f"{name} is the name of {numbers}: take a number, or named()")
        return found[0]

    def differences(self, other: Report) -> list[str]:
        """The rows and results that differ: this report's after `-`, the other's after `+`."""
        pairs: list[tuple[Any, Any]] = [it for it in zip_longest(self.rows, other.rows)
                                        if None in it or it[0][:4] != it[1][:4]]
        if (self.status, self.result) != (other.status, other.result):
            pairs.append((f"result {shown(self.result)}", f"result {shown(other.result)}"))
        return [f"{sign} {it}" for pair in pairs for sign, it in zip("-+", pair) if it is not None]

    def __eq__(self, other: object) -> bool:
        if not isinstance(other, Report):
            return NotImplemented
        return not self.differences(other)

    def __repr__(self) -> str:
        return "\n".join(filter(None, [self.text(), *map(str, self.misfits), self.note]))

    def text(self) -> str:
        """The rows and the result, as the program prints them."""
        return "\n".join([*map(str, self.rows), f"result {shown(self.result)}"])


def pytest_assertrepr_compare(op: str, left: Any, right: Any) -> list[str] | None:
    """What pytest shows where a comparison of two reports fails: the rows that differ."""
    if op != "==" or not (isinstance(left, Report) and isinstance(right, Report)):
        return None
    return ["two reports, which differ in these rows:", *left.differences(right)]


class Failures(Dict[int, Report]):
    """By each task's number the Report of the run in which only it fails, shown in a line: the
    result, what is called that isn't where all goes `well`, and what isn't any more; and where
    Celery is installed, what it does otherwise."""
    well: Report

    def __repr__(self) -> str:
        noted = [f"{self._line(*it)}; {it[1].note}" if it[1].note else self._line(*it)
                 for it in self.items()]
        return "\n".join([*noted, *map(str, self.well.misfits)])

    def text(self) -> str:
        """The lines, without what the installed Celery does otherwise."""
        return "\n".join(self._line(*it) for it in self.items())

    def _line(self, number: int, report: Report) -> str:
        said = f"#{number} {report[number].name} fails: result {report.shown(report.result)}"
        for word, ran in (("also called", True), ("not called", False)):
            found = [f"#{row.number} {row.name}" for row, well in zip(report.rows, self.well.rows)
                     if (row.ran, well.ran) == (ran, not ran)]
            said += f"; {word}: {', '.join(found)}" if found else ""
        return said
