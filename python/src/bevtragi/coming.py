"""Which tasks of a started canvas still come, once some have ended.

The program says which tasks are called if those without a result succeed. Some of these come on no
worker, or leave no result there: the error callbacks that Celery calls in place or not at all, what
follows these, and tasks whose results are ignored (docs/CELERY.md).
"""

from __future__ import annotations

import functools
from typing import Any, Dict, FrozenSet, List, Set, Tuple, Union

from .binding import IN_PLACE as IN_PLACE_GIVEN, is_called_in_place, refusal
from .errors import CanvasError, hidden
from .lines import Dropped, Lines
from .marking import callbacks_of
from .options import date_of
from .placed import Placed
from .reports import Row, row_of
from .texts import values_once, words_of

__all__ = ["Coming", "IN_PLACE"]

__tracebackhide__ = hidden

#: What a task raises to the program that failed with any exception.
RAISES = "raise:NotRegistered"
#: Why a task that is called has no result.
IN_PLACE, IGNORED = "Celery calls it in place, without a result", "its results are ignored"

Ends = Union[int, List[int]]


class Coming:
    """What is to come of a canvas. The program is asked once for each set of tasks that failed."""

    def __init__(self, canvas: Placed, app: Any) -> None:
        self._text, self.lines, self.app = canvas.text, Lines(canvas.tree), app
        self._options = canvas.options
        #: The error callbacks that Celery calls in place, with their tasks.
        self.in_place = {number: owner for number, owner in self.lines.owners.items()
                         if is_called_in_place(self._task(number))}
        #: The first one of each task that takes such a call: if one raises, others aren't called.
        firsts = {owner: number for number, owner in sorted(self.in_place.items(), reverse=True)}
        self.surely = frozenset(number for number in firsts.values() if self._takes(number))
        self._runs: Dict[FrozenSet[int], Tuple[List[Row], Ends]] = {}

    def _task(self, number: int) -> Any:
        """The application's task."""
        name = self.lines.names[number - 1]
        return None if self.app is None else self.app.tasks.get(name)

    def _takes(self, number: int) -> bool:
        """Whether an error callback takes the call in place."""
        sig = self.lines.signatures[number]
        return not refusal(sig, 0 if sig.get("immutable") else IN_PLACE_GIVEN, self.app)

    def never(self) -> List[str]:
        """Links that Celery never calls, since it calls their tasks in place, as they are told."""
        return [f"Celery calls #{number} {self.lines.names[number - 1]} in place, and not its link"
                f" {it['task']}" for number in sorted(self.in_place)
                for it in callbacks_of(self.lines.signatures[number], "link")]

    def rows(self, failed: FrozenSet[int]) -> List[Row]:
        """The rows of the run in which these fail, and all others succeed."""
        return self._run(failed)[0]

    @functools.cached_property
    def ends(self) -> Ends:
        """The number of the task whose result is the canvas's, or the list of these numbers."""
        return self._run(frozenset())[1]

    def _run(self, failed: FrozenSet[int]) -> Tuple[List[Row], Ends]:
        if failed not in self._runs:
            words = words_of(dict.fromkeys(sorted(failed), RAISES), True)
            *told, end = values_once(["run", "-", *words], self._text)
            rows = [row_of(number, it) for number, it in enumerate(told, 1)]
            if [it.name for it in rows] != self.lines.names:
                raise CanvasError("the tasks of this canvas aren't numbered as the program does")
            ends = [int(it[-8:], 16) for it in end["ends"]]
            self._runs[failed] = rows, ends if isinstance(end["result"], list) else ends[0]
        return self._runs[failed]

    def silent(self, failed: FrozenSet[int], dropped: Dropped) -> Dict[int, str]:
        """Why a task that is called in that run leaves no result on Celery's workers."""
        rows = self.rows(failed)
        told = self.lines.told(rows, dropped)
        found: Dict[int, str] = {}
        for row in rows:
            if row.ran:
                why = self._why(row.number, rows, told, dropped)
                if not why and any(found.get(it, IGNORED) != IGNORED
                                   for it in self.lines.before[row.number]):
                    why = "it follows a task of which Celery makes no message"
                found.update({row.number: why} if why else {})
        return found

    def _why(self, number: int, rows: List[Row], told: Set[int], dropped: Dropped) -> str:
        owner = self.lines.owners.get(number, 0)
        if owner and owner in dropped:
            return "Celery calls no error callback of a task that no worker called"
        if owner and not rows[owner - 1].ran and owner not in told:
            return "Celery isn't told that the header failed"
        if number in self.in_place:
            return IN_PLACE
        is_ignored = getattr(self._task(number), "ignore_result", False) or \
            self._options.get(number, {}).get("ignore_result")
        return IGNORED if is_ignored else ""

    def state(self, number: int, stored: str) -> str:
        """The state of a task that a worker may take: the stored one, and what it waits for."""
        options = self._options.get(number, {})
        if options.get("countdown"):
            return f"{stored}, countdown={options['countdown']}"
        return f"{stored}, eta={date_of(options['eta'])}" if "eta" in options else stored

    def passed(self, begun: Set[int], called: Set[int]) -> Set[int]:
        """The tasks before those that have begun: they have ended, even if nothing is stored of them."""
        found: Set[int] = set()
        for number in sorted(called, reverse=True):
            if number in begun or number in found:
                found |= self.lines.before[number]
        return found

    def due(self, waiting: Set[int]) -> List[int]:
        """Those that wait and come after none of them, so that a worker may take them."""
        blocked: Set[int] = set()
        for number in sorted(self.lines.before):
            if self.lines.before[number] & (waiting | blocked):
                blocked.add(number)
        return sorted(waiting - blocked)
