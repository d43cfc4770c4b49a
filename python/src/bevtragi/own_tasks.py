"""The program's own tasks, by their words."""

from __future__ import annotations

import operator
from typing import Any, Callable, Dict

__all__ = ["BEHAVIOURS", "OWN", "WORDS"]

#: What each does if Celery's code runs it.
BEHAVIOURS: Dict[str, Callable[..., Any]] = {
    "add": operator.add, "div": operator.floordiv, "ident": lambda value: value,
    "log_error": lambda uuid: 0, "mul": operator.mul, "xsum": sum}

#: Their names.
OWN = tuple(f"tasks.{it}" for it in BEHAVIOURS)

#: Their words, as an error names them.
WORDS = ", ".join(f'"{it}"' for it in BEHAVIOURS)
