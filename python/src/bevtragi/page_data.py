"""The data of a page: what the program answered, as JSON that the page's script reads."""

from __future__ import annotations

import json
from typing import Any, Dict, Iterable, List, Mapping, Sequence

from .drawing import Drawn
from .errors import BadCall, hidden
from .outcomes import Warning, shown
from .reports import Failures, Report, Row

__all__ = ["Shown", "as_block", "happened", "notes"]

__tracebackhide__ = hidden

#: A row's state, by the places of failures.js; those of happened.js come last.
STATES = {("SUCCESS", True): 0, ("FAILURE", True): 1, ("FAILURE", False): 2, ("PENDING", False): 3}
SUCCEEDED, FAILED, SKIPPED, WAITING, QUEUED, WORKING, UNKNOWN = range(7)

#: The items of a list that are shown, and the characters of a result.
MOST_ITEMS, MOST_SHOWN = 8, 300

#: Warnings that the page shows otherwise, or that say nothing where each task answers.
NOT_NOTED = ("NotRegistered", "ignored-options")


class Shown:
    """The rows of a canvas and of its failures as the page has them, and the texts of their values.
    A task that nobody gave an answer has no value if it succeeds."""

    def __init__(self, failures: Failures, answered: Iterable[int]) -> None:
        self._failures, self._answered = failures, frozenset(answered)
        self._places: Dict[str, int] = {}
        self._is_told = all(row.number in self._answered for row in failures.well.rows if row.ran)

    @property
    def values(self) -> List[str]:
        """The texts, to whose places rows refer."""
        return [*self._places]

    def well(self) -> Dict[str, Any]:
        """The end of the canvas as it is, and a row for each task: its state, the place of its
        value or -1, and to whom it is due or 0."""
        return {"end": self._end(self._failures.well),
                "rows": [self._row(row) for row in self._failures.well.rows]}

    def failures(self) -> List[Dict[str, Any]]:
        """For each task that fails the end of the canvas, and the rows that differ."""
        return [{"end": self._end(report), "changes": self._changes(report)}
                for report in self._failures.values()]

    def _changes(self, report: Report) -> List[List[int]]:
        """The rows that differ. Those that are alike and follow each other are one, with the first
        and the last number before it."""
        found: List[List[int]] = []
        for row, before in zip(report.rows, self._failures.well.rows):
            if row is before or row == before:
                continue
            cells = self._row(row)
            if found and found[-1][1] == row.number - 1 and found[-1][2:] == cells:
                found[-1][1] = row.number
            else:
                found.append([row.number, row.number, *cells])
        return found

    def _row(self, row: Row) -> List[int]:
        is_told = row.number in self._answered
        return [STATES[row.status, bool(row.ran)], self._place(row.status, row.result, is_told),
                row.due_to or 0]

    def _end(self, report: Report) -> List[Any]:
        return [report.status, self._place(report.status, report.result, self._is_told)]

    def _place(self, status: str, result: Any, is_told: bool) -> int:
        if status == "PENDING" or (status == "SUCCESS" and not is_told):
            return -1
        return self._places.setdefault(text_of(result), len(self._places))


def text_of(result: Any) -> str:
    """A result as the page shows it: a long list in short."""
    if not isinstance(result, list):
        text = shown(result)
    else:
        parts = [text_of(it) for it in result]
        if len(parts) > 1 and len({*parts}) == 1:
            text = f"{len(parts)} times {parts[0]}"
        else:
            more = ", .." if len(parts) > MOST_ITEMS else ""
            text = f"[{', '.join(parts[:MOST_ITEMS])}{more}]"
    return text if len(text) <= MOST_SHOWN else text[:MOST_SHOWN - 2] + ".."


def notes(warnings: Iterable[Warning]) -> List[List[Any]]:
    """What may surprise: kind, task, note, and how often it is there."""
    counts: Dict[Any, int] = {}
    for it in warnings:
        if it.kind not in NOT_NOTED:
            key = it.kind, it.task or "", it.note
            counts[key] = counts.get(key, 0) + it.count
    return [[*key, count] for key, count in counts.items()]


def happened(results: Any, drawn: Drawn) -> Dict[str, Any]:
    """What workers stored in a run of this canvas: a state and a text for each task, and what is
    told of the whole. Raises BadCall if the results are of another canvas."""
    if not isinstance(results, Report):
        raise BadCall(f"results are a report of collect() or of a run, not {results!r:.60}")
    if [row.name for row in results.rows] != [name for name, _ in drawn.tasks]:
        raise BadCall("these results are of another canvas: its tasks have other names")
    comes: Mapping[int, str] = getattr(results, "waits_for", {})
    silent: Mapping[int, str] = getattr(results, "silent", {})
    names = [name for name, _ in drawn.tasks]
    said = [f"#{number} {names[number - 1]}: {why}." for number, why in silent.items()]
    return {"rows": [_stored(row, comes) for row in results.rows], "end": _end_of(results),
            "notes": said}


def _stored(row: Row, comes: Mapping[int, str]) -> List[Any]:
    state = comes.get(row.number, row.status)
    if state == "SUCCESS":
        return [SUCCEEDED, text_of(row.result)]
    if state == "FAILURE":
        due = f"due to #{row.due_to}" if row.due_to else text_of(row.result)
        return [SKIPPED if row.ran is False else FAILED, due]
    if state == "UNREADABLE":
        return [UNKNOWN, text_of(row.result)]
    if state == "PENDING":
        return [QUEUED, "a worker may take it"] if row.number in comes else [WAITING, ""]
    return [WORKING, state]


def _end_of(results: Report) -> str:
    if results.status == "SUCCESS":
        return f"The canvas succeeded with {text_of(results.result)}."
    if results.status == "FAILURE":
        return f"The canvas failed: {text_of(results.result)}."
    return "The canvas has no result yet."


def as_block(data: Mapping[str, Any]) -> str:
    """Data as JSON that ends no element of a page, for all texts in them: `<`, `>`, `&` and what
    isn't ASCII is written by its number."""
    text = json.dumps(data, separators=(",", ":"), ensure_ascii=True)
    return text.translate({ord(it): f"\\u{ord(it):04x}" for it in "<>&"})
