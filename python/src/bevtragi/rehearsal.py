"""The report of a rehearsal: what each task was called with, and how it ended."""

from __future__ import annotations

from itertools import zip_longest
from typing import Any, Dict, FrozenSet, List, NamedTuple, Sequence

from .errors import hidden
from .outcomes import Failure
from .placeholders import differ
from .real_tasks import Sent
from .reports import Report, Row

__all__ = ["Call", "Rehearsal"]

__tracebackhide__ = hidden


class Call(NamedTuple):
    """A call of a task: its arguments, its answer or the exception that it raised, and how often it
    was retried. `again` is true if its message was delivered again."""
    number: int
    name: str
    args: List[Any]
    kwargs: Dict[str, Any]
    answer: Any
    raised: BaseException | None
    retries: int
    again: bool

    def __str__(self) -> str:
        given = [*map(repr, self.args), *(f"{key}={it!r}" for key, it in self.kwargs.items())]
        return f"#{self.number} {self.name}({', '.join(given)}): {self.end()}"

    def end(self) -> str:
        """How it ended."""
        return repr(self.answer) if self.raised is None else f"raised {self.raised!r}"


class Rehearsal(Report):
    """A Report with the results of your own tasks.

    calls    the calls in their order
    errors   the exceptions by the numbers of the tasks that raised them
    changed  by the number of a task: what it answered, and what that is once it was sent
    sent     what tasks sent by themselves, as by delay(). It isn't run
    state    what the world shows at the end

    Two are equal if each task, the canvas and the world end the same."""
    calls: List[Call]
    errors: Dict[int, BaseException]
    changed: Dict[int, Any]
    sent: List[Sent]
    state: Any = None
    #: By the number of a message those that have to end before it; and those called in place.
    after: Dict[int, FrozenSet[int]]
    in_place: FrozenSet[int]

    def __init__(self, rows: List[Row], ends: int | Sequence[int], again: int = 0) -> None:
        last = [rows[it - 1] for it in ([ends] if isinstance(ends, int) else ends)]
        failed = any(it.status == "FAILURE" for it in last)
        results = [it.result for it in last]
        self._fill(rows, "FAILURE" if failed else "SUCCESS",
                   results[0] if isinstance(ends, int) else results, again)

    def of(self, key: Any) -> List[Call]:
        """The calls of a task, by its number or name."""
        name = getattr(key, "name", key)
        return [it for it in self.calls if name in (it.number, it.name)]

    def shown(self, result: Any) -> str:
        if isinstance(result, list):
            return "[" + ", ".join(map(self.shown, result)) + "]"
        return str(result) if isinstance(result, Failure) else repr(result)

    def _lines(self) -> List[str]:
        lines = [self._line(row) for row in self.rows]
        return [*lines, f"result {self.shown(self.result)}"]

    def _line(self, row: Row) -> str:
        if row.status == "SUCCESS":
            return f"#{row.number} {row.name} SUCCESS {row.result!r}"
        message = " ".join(str(self.errors.get(row.number, "")).split())
        return f"{row}: {message}" if message else str(row)

    def text(self) -> str:
        return "\n".join(self._lines())

    def differences(self, other: Report) -> List[str]:
        """The lines that differ: this one's with `-`, the other's with `+`; also of the state."""
        ends = [[*it._lines(), f"state {it.state!r}"] if isinstance(it, Rehearsal)
                else it.text().split("\n") for it in (self, other)]
        return [f"{sign} {it}" for pair in zip_longest(*ends) if pair[0] != pair[1]
                for sign, it in zip("-+", pair) if it is not None]

    def __eq__(self, other: object) -> bool:
        if not isinstance(other, Rehearsal):
            return NotImplemented
        mine, others = self.rows, other.rows
        return ([row[:3] for row in mine] == [row[:3] for row in others]
                and not any(differ(one.result, two.result) for one, two in zip(mine, others))
                and not differ(self.state, other.state))
