"""The normal line of a canvas with the numbers of its tasks, as the page draws it."""

from __future__ import annotations

import json
from typing import Any, Dict, List, NamedTuple, Optional

from .errors import CanvasError, hidden
from .texts import values

__all__ = ["Drawn", "Line", "drawn", "number_of"]

__tracebackhide__ = hidden

#: The characters of a task's arguments that are kept. The picture shows some dozens of them.
MOST_ARGUMENTS = 300

Line = Dict[str, Any]


class Drawn(NamedTuple):
    """A line, and the name and arguments of each task. A line is a dictionary:

    tasks    for each task its number, and the lists of its callbacks, which are tasks
    group    the number of the group or chord that it ends in, if it does
    members  the lines of that group's or header's members
    body     the line of the chord's body"""
    line: Line
    tasks: List[List[str]]


def drawn(text: bytes) -> Drawn:
    """The line of a canvas, which is adapted first. Raises Refused."""
    (signature,) = values(["normal", "-", "--numbers", "--adapt"], text)
    tasks: Dict[int, List[str]] = {}
    try:
        line = _line(signature, tasks)
    except (LookupError, TypeError, ValueError) as error:
        raise CanvasError(f"`canvas normal` answered what can't be drawn: {error}") from error
    return Drawn(line, [tasks[number] for number in sorted(tasks)])


def number_of(identifier: Optional[str]) -> int:
    """The number that an identifier of the program ends in; 0 if there is none."""
    return int(identifier[-8:], 16) if identifier else 0


def _line(signature: Dict[str, Any], tasks: Dict[int, List[str]]) -> Line:
    line: Line = {"tasks": []}
    is_chain = signature["subtask_type"] == "chain"
    for it in signature["kwargs"]["tasks"] if is_chain else [signature]:
        if it["subtask_type"] is None:
            line["tasks"].append(_task(it, tasks))
            continue
        inner = it["kwargs"]
        members = inner["header"] if "body" in inner else inner["tasks"]
        line["group"] = number_of(it["options"]["group_id"])
        line["members"] = [_line(member, tasks) for member in members]
        if "body" in inner:
            line["body"] = _line(inner["body"], tasks)
    return line


def _task(it: Dict[str, Any], tasks: Dict[int, List[str]]) -> List[Any]:
    number, options = number_of(it["options"]["task_id"]), it["options"]
    tasks[number] = [it["task"], _arguments(it)]
    return [number, *([_task(one, tasks) for one in options.get(key) or ()]
                      for key in ("link", "link_error"))]


def _arguments(it: Dict[str, Any]) -> str:
    parts = [json.dumps(value, ensure_ascii=False) for value in it["args"]]
    parts += [f"{name}={json.dumps(value, ensure_ascii=False)}"
              for name, value in it["kwargs"].items()]
    text = ", ".join(parts)
    return text if len(text) <= MOST_ARGUMENTS else text[:MOST_ARGUMENTS - 2] + ".."
