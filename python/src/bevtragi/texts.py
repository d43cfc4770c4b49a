"""Canvases and answers in the program's words, and its answers as values."""

from __future__ import annotations

import difflib
import json
import os
from pathlib import Path
from typing import Any, Dict, Iterable, Mapping, Union

from .calling import ask, ask_once
from .errors import BadCall, CanvasError, hidden
from .own_tasks import OWN, WORDS

__all__ = ["Answers", "Canvas", "check_names", "is_huge", "lines_of", "named", "text_of", "tree_of",
           "values", "values_once", "words_in", "words_of"]

__tracebackhide__ = hidden

Canvas = Union[Dict[str, Any], str, bytes, "os.PathLike[str]"]
#: By a name, a number or a task: a whole number, a text, an exception or a class of exceptions.
Answers = Mapping[Any, Any]


def text_of(canvas: Canvas) -> bytes:
    """A canvas as JSON. What JSON doesn't know, as a date, becomes its text."""
    try:
        if isinstance(canvas, os.PathLike):
            return Path(canvas).read_bytes()
        if isinstance(canvas, dict):
            return json.dumps(canvas, default=str, allow_nan=False).encode()
    except OSError as error:
        raise BadCall(f"{str(canvas)} can't be read: {error.strerror}") from error
    except (TypeError, ValueError, RecursionError) as error:
        raise BadCall(f"this canvas can't be written as JSON: {error}") from error
    if isinstance(canvas, str) and canvas.lstrip()[:1] == "{":
        try:
            return canvas.encode()
        except UnicodeEncodeError as error:
            raise BadCall(f"this canvas isn't UTF-8: {error.reason}") from error
    if not isinstance(canvas, bytes):
        raise BadCall(f"{canvas!r:.60} is no canvas: that is a signature of Celery, its JSON, or"
                      " the pathlib.Path of a file with it")
    return canvas


def tree_of(canvas: Canvas) -> dict[str, Any]:
    """A canvas as a dictionary: a signature itself, or what its JSON says."""
    if isinstance(canvas, dict):
        return canvas
    try:
        tree = json.loads(text_of(canvas))
    except (ValueError, RecursionError) as error:
        raise BadCall(f"this canvas isn't valid JSON: {error}") from error
    if not isinstance(tree, dict):
        raise BadCall("this canvas isn't a signature of Celery: its JSON is no object")
    return tree


def named(tasks: Any, what: str = "what tasks answer") -> dict[Any, Any]:
    """A dictionary by names and numbers, whose keys may have been tasks of Celery."""
    if not isinstance(tasks, Mapping):
        raise BadCall(f"{tasks!r:.60} is no dictionary of {what}")
    return {it if isinstance(it, (str, int)) else getattr(it, "name", it): tasks[it]
            for it in tasks}


def words_of(tasks: Answers, is_whole: bool = False) -> list[str]:
    """What tasks answer, in the program's words; and of all others, in a canvas that is adapted."""
    return ["--adapt"] * is_whole + words_in(lines_of(tasks, is_whole))


def words_in(lines: Iterable[str]) -> list[str]:
    """What tasks answer by these lines, in the program's words."""
    return [word for line in lines for word in ("--task", line)]


def lines_of(tasks: Answers, is_whole: bool = False) -> list[str]:
    """What tasks answer, and with `is_whole` all others, a line each."""
    tasks, lines = named(tasks), []
    others: Dict[Any, Any] = dict.fromkeys(("*", *OWN), tasks.get("*", 0)) if is_whole else {}
    for key, answer in {**others, **tasks}.items():
        kind = answer if isinstance(answer, type) else type(answer)
        if issubclass(kind, Exception):
            answer = "raise:" + kind.__name__
        elif not isinstance(answer, (int, str)) or kind is bool or is_huge(answer):
            what = "so large a number" if is_huge(answer) else repr(answer)
            raise BadCall(f"a task can't answer {what}: that is a whole number, an exception,"
                          f" or a built-in task's word: {WORDS}")
        lines.append(f"{'#' * isinstance(key, int)}{key}={answer}")
    return lines


def is_huge(value: Any) -> bool:
    """Whether a number is one that Python doesn't write as a text."""
    return isinstance(value, int) and value.bit_length() > 10_000


def check_names(keys: Iterable[str | int], names: list[str]) -> None:
    """Raises BadCall for a name or number that no task has, where there are tasks."""
    for key in (it for it in keys if names and it not in ("*", *names, *range(1, len(names) + 1))):
        close = difflib.get_close_matches(str(key), names, 1) or sorted({*names})[:20]
        raise BadCall(f"{key!r} is no task of the canvas: did you mean {', '.join(close)}?")


def values(words: list[str], given: bytes) -> list[Any]:
    """The answer of ask() where that is a JSON value a line."""
    return _values(words[0], ask(words, given)[0])


def values_once(words: list[str], given: bytes) -> list[Any]:
    """The answer of ask_once() if that is a JSON value a line."""
    return _values(words[0], ask_once(words, given)[0])


def _values(word: str, out: str) -> list[Any]:
    try:
        return [json.loads(it) for it in out.split("\n")[:-1]]
    except (ValueError, LookupError) as error:
        raise CanvasError(f"`canvas {word}` answered what can't be read: {error}") from error
