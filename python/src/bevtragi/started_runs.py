"""A canvas on Celery's workers: its report so far, the end of it, and what Celery stores of it."""

from __future__ import annotations

import datetime
import functools
import json
import time
from typing import Any, Dict, FrozenSet, List, NamedTuple, Set, Union

from .coming import IN_PLACE, Coming
from .errors import BadCall, CanvasError, hidden
from .exchange import by_client, collected, keys_of, results
from .heard import ENDS, Heard
from .pages import Page, page
from .placed import Placed
from .places_of_apps import Place
from .rehearsed_program import identifier_of
from .started_reports import NotEnded, StartedReport
from .stored import Stored

__all__ = ["Run"]

__tracebackhide__ = hidden

#: The pauses between two looks at the results, in seconds.
FIRST_PAUSE, LONGEST_PAUSE = 0.01, 0.5
#: How long a result may come after that of a task that was called later: a worker sends what follows
#: before it stores a result.
PATIENCE = 5.0
#: Why a task is revoked that no worker calls, as Celery stores it. Others were terminated.
UNCALLED = (["expired"], ["revoked"])
#: Why the result of a task that was called isn't known.
PASSED = "its result isn't stored, and a task after it was called"

Found = Union[str, bytes, None]


class Told(NamedTuple):
    """What is stored of a task: the whole text, its state, whether Celery drops its callbacks since
    it takes it for one that no worker called, and whether it was revoked before it was called."""
    text: Found
    state: str
    dropped: bool
    is_uncalled: bool = False


class Seen(NamedTuple):
    """What is stored of each task, which of them failed, and who is to come: the tasks of which no
    result comes, and why; and with their states those that a worker may take, and those that have
    ended, since one after them was called, though that isn't stored yet."""
    told: List[Told]
    failed: FrozenSet[int]
    passed: Set[int]
    silent: Dict[int, str]
    due: Dict[int, str]
    late: Dict[int, str]


class Run:
    """A canvas that was started by start(). It has a connection to Redis until its wait() has ended
    or nobody has it.

    number   the 22 digits of the run
    keys     the keys of its tasks' results on Redis, in the order of the tasks
    ignored  the options of signatures that this start doesn't heed, as "countdown of 1 signature"
    adapted  what was adapted before the start, as "1 map, which is a group of calls now"
    """

    def __init__(self, number: str, placed: Placed, place: Place, coming: Coming,
                 ignored: List[str]) -> None:
        self.number, self.ignored, self.adapted = number, ignored, placed.adapted
        self._placed, self._place, self._coming = placed, place, coming
        self.keys: List[str] = keys_of(placed.text, number, place.prefix)
        self._heard = Heard(place.client, self.keys)
        self._given_up: Set[int] = set()

    def __repr__(self) -> str:
        return f"<Run {self.number} of {len(self.keys)} tasks>"

    def report(self) -> StartedReport:
        """The report so far, which waits for nothing. Tasks that a failure reaches fail by the rule
        of the program, also where Celery leaves them pending."""
        return self._report_of(self._seen(self._found()))

    def wait(self, timeout: float | None = None) -> StartedReport:
        """The report, once all tasks have ended that will ever be called. Raises NotEnded, which
        names the tasks that it waits for, after `timeout` seconds. None is no end."""
        if timeout is not None and not isinstance(timeout, (int, float)):
            raise BadCall(f"timeout is a number of seconds, not {timeout!r:.60}")
        until = None if timeout is None else time.monotonic() + timeout
        pause, last, seen, since = FIRST_PAUSE, None, None, 0.0  # type: float, Any, Any, float
        while True:
            found = self._found()
            if seen is None or found != last:
                pause, last, seen, since = FIRST_PAUSE, found, self._seen(found), time.monotonic()
            if not seen.due and seen.late and time.monotonic() - since >= PATIENCE:
                self._given_up.update(seen.late)
                seen = self._seen(found)
            if not seen.due and not seen.late:
                self._heard.close()
                return self._report_of(seen)
            left = LONGEST_PAUSE if until is None else until - time.monotonic()
            if left <= 0:
                raise self._not_ended(seen, f"after {timeout} seconds ", "does a worker take them,"
                                      f" from the queue {self._place.queue} or that of their route?")
            time.sleep(min(pause, left))
            pause = min(2 * pause, LONGEST_PAUSE)

    def _not_ended(self, seen: Seen, before: str, after: str) -> NotEnded:
        report = self._report_of(seen)
        return NotEnded(f"{before}run {self.number} waits for {report.due_in_words()}: {after}",
                        report)

    @functools.cached_property
    def result(self) -> Any:
        """Celery's AsyncResult of the canvas's end, or its GroupResult if that is a group. Its
        `get()` may need settle() if a task failed."""
        app, ends = self._coming.app, self._coming.ends
        if app is None:
            raise CanvasError("a result of Celery needs your application: start(flow, app)")
        found = [app.AsyncResult(self._identifier(it))
                 for it in (ends if isinstance(ends, list) else [ends])]
        return app.GroupResult(self.number, found) if isinstance(ends, list) else found[0]

    def page(self) -> Page:
        """The page of the canvas with what has happened so far. Raises as bevtragi.page()."""
        return page(self._placed.shown, title=f"run {self.number}", app=self._coming.app,
                    results=self.report())

    def settle(self) -> List[str]:
        """Stores for Celery the failure of each task that a failure reaches and Celery leaves
        pending, so that its `get()` ends, too. What is stored is never changed. It gives the names
        of these tasks. Raises NotEnded if a task still comes."""
        seen = self._seen(self._found())
        if seen.due or seen.late:
            raise self._not_ended(seen, "", "wait() first")
        return [row.name for row, told in zip(self._report_of(seen), seen.told)
                if row.status == "FAILURE" and told.state == "PENDING"
                and self._store(row.number, self._failure_of(row, seen.told))]

    def _failure_of(self, row: Any, found: List[Told]) -> Dict[str, Any]:
        """The failure of a task as Celery stores it: that of the task that it is due to, or a
        ChordError."""
        if row.due_to and not row.result.task:
            told = found[row.due_to - 1].text
            if told is not None:
                return dict(json.loads(told)["result"])
        kind, message = row.result.kind, ""
        if row.result.task:
            message = (f"Dependency {self._identifier(row.result.task)} raised"
                       f" {row.result.raised}")
        return {"exc_type": kind, "exc_message": [message], "exc_module": "celery.exceptions"}

    def _store(self, number: int, failure: Dict[str, Any]) -> bool:
        """Stores a failure where nothing is stored, and tells those who wait for it."""
        key, kept = self.keys[number - 1], self._place.expires
        text = json.dumps({
            "status": "FAILURE", "result": failure, "traceback": None, "children": [],
            "date_done": datetime.datetime.now(datetime.timezone.utc).isoformat(),
            "task_id": self._identifier(number)})
        words = ["SET", key, text, "NX", *(["EX", kept] if kept else [])]
        if not by_client(self._place.client, "execute_command", *words):
            return False
        by_client(self._place.client, "execute_command", "PUBLISH", key, text)
        return True

    def _identifier(self, number: int) -> str:
        return self.keys[number - 1][-36:]

    def _found(self) -> List[Found]:
        """What is stored of each task, at one moment; or its end, if that was told and another
        state was stored afterwards."""
        found, ends = results(self._place.client, self.keys), self._heard.ends()
        return [ends[key] if key in ends and _told(it).state not in ENDS else it
                for key, it in zip(self.keys, found)]

    def _seen(self, found: List[Found]) -> Seen:
        """What is to come, if this is stored."""
        told = [_told(it) for it in found]
        states = {number: it.state for number, it in enumerate(told, 1)}
        failed = frozenset(number for number, state in states.items()
                           if state in ("FAILURE", "REVOKED"))
        dropped = {number: it.state for number, it in enumerate(told, 1) if it.dropped}
        called = {row.number for row in self._coming.rows(failed) if row.ran}
        begun = {number for number, state in states.items() if state != "PENDING"}
        left = {number for number in called if states[number] not in ENDS}
        passed = self._coming.passed(begun, called) & left
        silent = {number: why for number, why in self._coming.silent(failed, dropped).items()
                  if number in left}
        silent.update(dict.fromkeys(sorted(passed & self._given_up - silent.keys()), PASSED))
        late = passed - silent.keys()
        due = self._coming.due(left - silent.keys() - late)
        return Seen(told, failed, passed, silent,
                    {number: self._coming.state(number, states[number]) for number in due},
                    {number: states[number] for number in sorted(late)})

    def _report_of(self, seen: Seen) -> StartedReport:
        """The report of what is stored."""
        stored = Stored(self.keys, [_readable(it) for it in seen.told])
        *rows, end = collected(self._placed.text, self.number, stored, True)
        for number, row in enumerate(rows, 1):
            known = self._coming.rows(seen.failed)[number - 1]
            if self._is_known(number, row["status"] == "FAILURE" and not known.ran, seen):
                row["ran"] = known.ran and not seen.told[number - 1].is_uncalled
                row["due_to"] = identifier_of(known.due_to) if known.due_to else None
        waits_for = dict(sorted({**seen.due, **seen.late}.items()))
        return StartedReport(rows, end, self._placed.shown, waits_for, seen.silent)

    def _is_known(self, number: int, is_skipped: bool, seen: Seen) -> bool:
        """Whether it is known if a task was called."""
        is_over = not seen.due and not seen.late
        if number in seen.silent and number not in seen.passed:
            return is_over and seen.silent[number] == IN_PLACE and number in self._coming.surely
        return is_skipped or is_over or number in seen.passed or \
            seen.told[number - 1].state in ENDS


def _told(text: Found) -> Told:
    """What a text says that is stored of a task."""
    try:
        found = json.loads(text) if text else {}
        state = str(found.get("status", "PENDING"))
        failure = found.get("result") if state in ("FAILURE", "REVOKED") else None
        is_unknown = state == "FAILURE" and not found.get("traceback") and \
            (failure or {}).get("exc_type") == "NotRegistered"
        is_uncalled = state == "REVOKED" and (failure or {}).get("exc_message") in UNCALLED
        return Told(text or None, state, is_unknown or state == "REVOKED", is_uncalled)
    except (ValueError, AttributeError, TypeError):
        return Told(text, "SUCCESS", False)


def _readable(told: Told) -> Found:
    """What the program gets: one that is revoked failed, and a state of the user's own is that
    of a task that still runs."""
    if told.state == "REVOKED":
        return json.dumps({**json.loads(told.text or ""), "status": "FAILURE"})
    is_known = told.state in (*ENDS, "PENDING", "RECEIVED", "RETRY", "STARTED")
    return told.text if is_known else None
