"""Results that workers stored, as lines that the program reads.

The program reads strict JSON. Celery's workers also store what only Python reads: NaN, infinities
and texts with lone surrogates. In a line such a value is another text.
"""

from __future__ import annotations

import json
import math
import os
import re
from typing import Any, Dict, List, Set, Union

from .errors import BadCall
from .outcomes import Unreadable

__all__ = ["Stored"]

#: The states that the program knows.
STATES = ("FAILURE", "PENDING", "RECEIVED", "RETRY", "STARTED", "SUCCESS")

#: What the program says of one result that it can't read. The result of another task is an error.
_SAID = re.compile(r"(NotJson|UnknownState|UnknownException): in the result of task (\d+)")


class Stored:
    """The stored results of a canvas's tasks, in the order of their keys."""

    def __init__(self, keys: List[str], found: List[Union[str, bytes, None]]) -> None:
        self._numbers = [key[-36:] for key in keys]
        self._texts = [it.encode(errors="surrogatepass") if isinstance(it, str) else it or b""
                       for it in found]
        self._mark = os.urandom(16).hex()
        self._values: Dict[str, Any] = {}
        self._aside: Set[int] = set()
        self._lines = [*self._texts]
        for place, text in enumerate(self._texts):
            fault = _fault(text)
            if fault:
                self._set_aside(place, fault)

    def lines(self) -> bytes:
        """A line for each result."""
        return b"".join(it.replace(b"\n", b" ") + b"\n" for it in self._lines)

    def set_aside(self, error: BadCall) -> bool:
        """Whether the program refused one of the results, which from now on has another line."""
        said = _SAID.fullmatch(str(error))
        if said is not None:
            self._set_aside(int(said[2]) - 1, said[1])
        return said is not None

    def _set_aside(self, place: int, fault: str) -> None:
        mark = f"{self._mark} {place}"
        is_first = fault == "NotJson" and place not in self._aside
        told = _read(self._texts[place]) if is_first else None
        if told is None:
            told = {"status": "SUCCESS", "task_id": self._numbers[place],
                    "result": Unreadable(fault)}
        if told["status"] == "SUCCESS":
            self._values[mark] = told["result"]
            told = {**told, "result": mark}
        self._aside.add(place)
        self._lines[place] = json.dumps(told).encode()

    def value(self, result: Any) -> Any:
        """A result that the program tells, or what it means."""
        if isinstance(result, list):
            return [self.value(it) for it in result]
        return self._values.get(result, result) if isinstance(result, str) else result

    def told(self, row: dict[str, Any]) -> dict[str, Any]:
        """What the program tells of a task or of the canvas, with the values that were stored."""
        result, status = self.value(row["result"]), row["status"]
        found = result if isinstance(result, list) else [result]
        if status == "SUCCESS" and any(isinstance(it, Unreadable) for it in found):
            status = "UNREADABLE"
        return {**row, "result": result, "status": status}


def _fault(text: bytes) -> str:
    """Why the program won't read a result, as far as Python can tell; empty if it will."""
    if not text:
        return ""
    try:
        told = json.loads(text.decode())
        if _plain(told) != told:
            return "NotJson"
        return "UnknownState" if told["status"] not in STATES else ""
    except (ValueError, RecursionError):
        return "NotJson"
    except (LookupError, TypeError):
        return ""


def _read(text: bytes) -> dict[str, Any] | None:
    """What Python reads of a result. The program reads its identifier, and a failure, too."""
    try:
        told = json.loads(text)
        found = _plain({key: told[key] for key in ("status", "task_id")})
        is_well = found["status"] == "SUCCESS"
        return {**found, "result": told["result"] if is_well else _plain(told["result"])}
    except (ValueError, LookupError, TypeError, RecursionError):
        return None


def _plain(value: Any) -> Any:
    """A copy of dictionaries and lists in which texts replace what JSON doesn't have."""
    if isinstance(value, dict):
        return {_plain(key): _plain(it) for key, it in value.items()}
    if isinstance(value, list):
        return [_plain(it) for it in value]
    if isinstance(value, float) and not math.isfinite(value):
        return str(value)
    return value.encode(errors="replace").decode() if isinstance(value, str) else value
