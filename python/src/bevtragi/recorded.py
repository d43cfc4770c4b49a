"""Results of a run that is over, as answers of its tasks."""

from __future__ import annotations

import builtins
import contextlib
import json
import os
from pathlib import Path
from typing import Any, Dict, Iterator, List, Mapping, Tuple

from .errors import BadCall, hidden
from .outcomes import Failure, Unreadable
from .reports import Report
from .texts import check_names, named

__all__ = ["recorded_answers"]

__tracebackhide__ = hidden


def recorded_answers(answers: Any, names: Mapping[int, str]) -> dict[int, Any]:
    """The answers by the numbers of the tasks: a value, or an exception. They are those of

    - a report: of collect(), what_if() or rehearse()
    - the pathlib.Path of a file with stored results, a line for each, as Celery stores them for a
      start by export()
    - a dictionary by names, numbers or tasks

    A task without a result has no answer, nor has one that wasn't called. Raises BadCall."""
    if answers is None:
        return {}
    if isinstance(answers, Report):
        found = _of_report(answers, names)
    elif isinstance(answers, os.PathLike):
        found = _of_file(Path(answers), names)
    else:
        given = named(answers, "what tasks answered")
        check_names(given, [*names.values()])
        return {number: given.get(number, given.get(name)) for number, name in names.items()
                if number in given or name in given}
    return found


def _of_report(report: Report, names: Mapping[int, str]) -> dict[int, Any]:
    if [row.name for row in report.rows] != [*names.values()]:
        raise BadCall("these answers are of another canvas: its tasks have other names")
    found: Dict[int, Any] = {}
    for row in report.rows:
        failure = row.result if isinstance(row.result, Failure) else None
        # a chord's body that wasn't called has the failure of its header
        if row.ran is False or failure is not None and failure.task:
            continue
        if row.ran is None and row.raised == "ChordError":
            continue
        if isinstance(row.result, Unreadable):
            raise BadCall(f"the result of #{row.number} {row.name} can't be read: {row.result}")
        errors: Mapping[int, BaseException] = getattr(report, "errors", {})
        if failure is not None:
            found[row.number] = errors.get(row.number) or _exception(failure.kind)
        elif row.status == "SUCCESS":
            found[row.number] = row.result
    return found


def _of_file(path: Path, names: Mapping[int, str]) -> dict[int, Any]:
    try:
        lines = path.read_text().splitlines()
    except (OSError, ValueError) as error:
        raise BadCall(f"{path} can't be read: {error}") from error
    found: Dict[int, Any] = {}
    for number, status, result in _stored(path, lines):
        if number not in names:
            raise BadCall(f"{path} has a result of task #{number}, and the canvas has"
                          f" {len(names)} tasks")
        if status == "SUCCESS":
            found[number] = result
        elif status == "FAILURE" and result["exc_type"] != "ChordError":
            found[number] = _exception(result["exc_type"], result["exc_message"])
    return found


def _stored(path: Path, lines: List[str]) -> Iterator[Tuple[int, str, Any]]:
    """The number, state and result of each stored result."""
    for place, line in enumerate(lines, 1):
        if line.strip() in ("", "(nil)"):
            continue
        try:
            told = json.loads(line)
            status, result = told["status"], told["result"]
            if status == "FAILURE":
                result = {"exc_type": str(result["exc_type"]),
                          "exc_message": result["exc_message"]}
            yield int(told["task_id"][-8:], 16), status, result
        except (ValueError, LookupError, TypeError) as error:
            raise BadCall(f"{path} has no stored result in line {place}: {error}") from error


def _exception(kind: str, message: Any = ()) -> Any:
    """An exception of a name: Python's own, or a new one."""
    found: Any = getattr(builtins, kind, None)
    words = message if isinstance(message, (list, tuple)) else [message]
    if isinstance(found, type) and issubclass(found, Exception):
        with contextlib.suppress(TypeError):  # UnicodeDecodeError wants more
            return found(*words)
    return type(kind, (Exception,), {})(*words)
