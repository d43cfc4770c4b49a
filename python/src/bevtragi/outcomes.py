"""How a task ends, a value or a failure; and what may surprise."""

from __future__ import annotations

import json
import re
from typing import Any, NamedTuple

__all__ = ["Failure", "Unreadable", "Warning", "is_exception", "shown"]


class Failure(NamedTuple):
    """The name of an exception; and of a ChordError which task failed, and with what."""
    kind: str
    task: int | None = None
    raised: str | None = None

    def __str__(self) -> str:
        return self.kind + (f": Dependency #{self.task} raised {self.raised}" if self.task else "")

    @staticmethod
    def of(value: Any) -> Any:
        """The failure that the result of a failed task means, or the result as it is."""
        if not isinstance(value, dict) or value.keys() != {"exc_message", "exc_type"}:
            return value
        message = value["exc_message"]
        said = _CHORD_ERROR.match(" ".join(map(str, message)) if isinstance(message, list) else "")
        if value["exc_type"] == "ChordError" and said:
            return Failure("ChordError", int(said[1], 16), said[2])
        return Failure(str(value["exc_type"]))


#: The message of a chord's error: the last digits of a task's identifier are its number.
_CHORD_ERROR = re.compile(r"Dependency \S*([0-9a-fA-F]{8}) raised (.*)", re.S)


class Unreadable(NamedTuple):
    """A stored result that can't be read, and the program's name for the reason, as "NotJson"."""
    why: str

    def __str__(self) -> str:
        return self.why


class Warning(NamedTuple):
    """What may surprise: its kind, as "failure-before-group"; the task and the JSON pointer of the
    first signature that has it, and how many have it."""
    kind: str
    task: str
    pointer: str
    note: str
    count: int = 1  # type: ignore[assignment]

    def __str__(self) -> str:
        more = f", the first of {self.count}" if self.count > 1 else ""
        return f"{self.task} at {self.pointer or 'the top'}{more}: {self.note} ({self.kind})"


def shown(result: Any) -> str:
    """A result as the program prints it."""
    if isinstance(result, list):
        return "[" + ", ".join(map(shown, result)) + "]"
    if isinstance(result, (Failure, Unreadable)):
        return str(result)
    return "-" if result is None else json.dumps(result, separators=(",", ":"))


def is_exception(answer: Any) -> bool:
    """Whether an answer is an exception, or a class of them."""
    return issubclass(answer if isinstance(answer, type) else type(answer), Exception)
