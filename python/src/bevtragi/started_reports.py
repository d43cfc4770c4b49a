"""The report of a canvas that was started on Celery's workers, as far as it is."""

from __future__ import annotations

from typing import Any, Dict, List, Mapping

from .calling import ask
from .errors import CanvasError, NotKnown, hidden
from .outcomes import Failure
from .pictures import Picture
from .rehearsing import KIND, MOST
from .reports import Report, Row

__all__ = ["NotEnded", "StartedReport"]

__tracebackhide__ = hidden

#: The tasks that a sentence names at most.
MOST_DUE = 20


class StartedReport(Report):
    """A Report of tasks on Celery's workers. A row's `ran` is None as long as it isn't known.

    waits_for  the tasks that still come, by number: those that a worker may take, with their states
               and what they wait for, as "PENDING, countdown=600"
    silent     the tasks that the canvas calls, and of which no result comes, by number: why"""
    waits_for: Dict[int, str]
    silent: Dict[int, str]

    def __init__(self, rows: List[Dict[str, Any]], end: Dict[str, Any], text: bytes,
                 waits_for: Mapping[int, str], silent: Mapping[int, str]) -> None:
        super().__init__(rows, end)
        self.waits_for, self.silent, self._canvas = dict(waits_for), dict(silent), text

    @property
    def ended(self) -> bool:
        """Whether no task comes any more."""
        return not self.waits_for

    def _named_by(self, ran: bool) -> List[str]:
        return [row.name for row in self.rows if row.ran is ran]

    def due(self) -> List[str]:
        """The tasks that a worker may take now, as they are printed."""
        shown = {number: state.removeprefix("PENDING").removeprefix(", ")
                 for number, state in self.waits_for.items()}
        return [f"#{number} {self[number].name}" + (f" ({state})" if state else "")
                for number, state in shown.items()]

    def due_in_words(self) -> str:
        """The first ones of these tasks, and how many more there are."""
        names = self.due()
        more = f" and {len(names) - MOST_DUE} more" if len(names) > MOST_DUE else ""
        return ", ".join(names[:MOST_DUE]) + more

    def text(self) -> str:
        notes = [f"#{number} {self[number].name}: {why}" for number, why in self.silent.items()]
        waits = [f"waits for {self.due_in_words()}"] if self.waits_for else []
        return "\n".join([super().text(), *notes, *waits])

    def graph(self) -> Picture:
        """The picture of this run. CanvasError as long as tasks come."""
        if not self.ended:
            raise NotKnown("this run hasn't ended: wait() first")
        words = [f"--task=#{row.number}={_word(row)}" for row in self.rows]
        return Picture(ask(["graph", "-", "--run", "--adapt", *words], self._canvas)[0])


def _word(row: Row) -> str:
    """How a task ended, in the program's words."""
    if isinstance(row.result, Failure):
        return f"raise:{row.raised if KIND.fullmatch(str(row.raised)) else 'Exception'}"
    is_number = type(row.result) is int and abs(row.result) <= MOST
    return str(row.result) if is_number else "0"


class NotEnded(CanvasError, TimeoutError):
    """Tasks of a run still come. `report` is the StartedReport so far."""

    def __init__(self, said: str, report: StartedReport) -> None:
        super().__init__(said)
        self.report = report
