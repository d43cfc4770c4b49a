"""What the installed Celery does with a canvas and with each failure, as the page shows it."""

from __future__ import annotations

from collections import Counter
from typing import Any, Dict, List, Optional

from .celery_run import CeleryRun, Judge, said
from .errors import hidden
from .reports import Failures, Report

__all__ = ["CeleryPart", "celery_part"]

__tracebackhide__ = hidden

#: The tasks that a canvas may have, so that Celery is asked about it: twice for each task. The time
#: grows with the square of their number, and 60 in a chain take some seconds. It is no limit of
#: seconds, so that a page is the same each time.
MOST_TASKS = 40

#: What becomes of a task on Celery, by the places of page.js: it is called and succeeds, or fails;
#: it isn't called and is marked as failed, or nothing is stored of it; or that isn't known.
SUCCEEDED, FAILED, SKIPPED, UNCALLED, UNKNOWN = range(5)

#: The characters of a result or an exception that are shown.
MOST_SHOWN = 160

CeleryPart = Dict[str, Any]


def celery_part(failures: Failures, judge: Judge) -> Optional[CeleryPart]:
    """What Celery does with the canvas, and then with each failure; None if Celery isn't installed.

    version  Celery's
    cases    for each case its `note`, as Report.note, and its `runs`: if the failing tasks end
             first, and if they end last, or one if that is the same. None if there are many tasks
    why      why there are no cases"""
    if not judge.can_be_asked:
        return None
    version = judge.version
    if len(failures) > MOST_TASKS:
        return {"version": version, "cases": None,
                "why": f"Celery wasn't asked: the canvas has more than {MOST_TASKS} tasks."}
    try:
        cases = [_case(it, judge) for it in (failures.well, *failures.values())]
    except Exception as error:  # the page can be shown without it
        return {"version": version, "cases": None, "why": f"Celery can't be asked: {said(error)}."}
    return {"version": version, "cases": cases, "why": ""}


def _case(report: Report, judge: Judge) -> Dict[str, Any]:
    question = report.question
    assert question is not None
    runs = question.runs()
    shown = [_run(it, judge) for it in runs]
    return {"note": question.note_of(report, runs),
            "runs": shown[:1] if shown[0] == shown[-1] else shown}


def _run(run: CeleryRun, judge: Judge) -> Dict[str, Any]:
    """How it ends for the caller, what becomes of each task, a digit each, and for tasks that are
    written alike, some of which are called, how many calls and how many tasks there are."""
    alike, calls, states = Counter(judge.places), Counter(run.marks), run.marked_states()
    digits: List[str] = []
    shared: Dict[int, List[int]] = {}
    for number, mark in enumerate(judge.places, 1):
        digit = UNKNOWN if mark in judge.marked.in_maps else \
            _state(calls[mark], alike[mark], states.get(mark, []))
        if digit == UNKNOWN and mark not in judge.marked.in_maps:
            shared[number] = [calls[mark], alike[mark]]
        digits.append(str(digit))
    end = run.end or "there is nothing to get()"
    return {"end": end if len(end) <= MOST_SHOWN else end[:MOST_SHOWN - 2] + "..",
            "states": "".join(digits), "shared": shared}


def _state(calls: int, alike: int, states: List[str]) -> int:
    """What becomes of a task that shares its mark with a number of tasks."""
    failed = states.count("FAILURE")
    if calls == 0:
        return SKIPPED if failed else UNCALLED
    if calls < alike or 0 < failed < alike:
        return UNKNOWN
    return FAILED if failed else SUCCEEDED
