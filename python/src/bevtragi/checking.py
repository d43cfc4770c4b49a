"""The figures of a canvas, and what may surprise in it."""

from __future__ import annotations

from typing import Any, Dict

from .binding import misfits
from .errors import hidden
from .outcomes import Warning
from .texts import Answers, tree_of, values, words_of

__all__ = ["Figures", "figures", "warnings_of"]

__tracebackhide__ = hidden


class Figures(Dict[str, int]):
    """The figures of a canvas by name, as tasks, nesting and messages; and its `warnings`."""
    warnings: list[Warning]


def figures(text: bytes, tasks: Answers = {}, app: Any = None) -> Figures:
    """The figures and warnings of a canvas, which is adapted first. Raises Refused.

    With `app`, the names are looked for there, and not among the program's tasks."""
    words = words_of({"*": 0, **tasks} if app is not None else tasks)
    said, *warned = values(["check", "-", "--adapt", *words], text)
    found = Figures((name.replace("_", " "), count) for name, count in said.items())
    found.warnings = [Warning(it.pop("name"), **it) for it in warned]
    if app is not None:
        found.warnings += misfits(tree_of(text), app)
    return found


def warnings_of(text: bytes, app: Any = None) -> list[Warning]:
    """The warnings of a canvas whose tasks all answer."""
    return figures(text, {"*": 0}, app).warnings
