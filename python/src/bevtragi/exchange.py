"""The start of a canvas on Celery's workers, and the report of it, by a client of Redis."""

from __future__ import annotations

import contextlib
import os
import tempfile
from typing import Any, Iterator

from .calling import ask
from .errors import BadCall, CanvasError, hidden
from .reports import Report
from .stored import Stored
from .texts import Canvas, is_huge, text_of, values

__all__ = ["by_client", "collect", "collected", "commands_of", "export", "keys_of", "on_file",
           "results"]

__tracebackhide__ = hidden


def export(canvas: Canvas, client: Any, **options: Any) -> str:
    """Starts a canvas on Celery's workers by a client of Redis, all of it or nothing, and gives the
    run's number. The options are those of `canvas export` that have a value, as queue="orders".
    Raises Refused, BadCall for another option, and CanvasError if Redis refuses the start."""
    number = os.urandom(11).hex()
    if any(map(is_huge, options.values())):
        raise BadCall("an option of a start can't be so large a number")
    words = [f"--{name.replace('_', '-')}={value}" for name, value in options.items()]
    said = ask(["export", "-", f"--run={number}", *words], text_of(canvas))[0]
    for command in commands_of(said.encode()):  # one; none of a canvas without tasks
        by_client(client, "execute_command", *command)
    return number


def commands_of(text: bytes) -> list[list[bytes]]:
    """The words of each command in the protocol of Redis (RESP), whose lengths say where each
    ends. Raises CanvasError for another text."""
    found, at = [], 0

    def length(sign: bytes) -> int:
        nonlocal at
        end = text.index(b"\r\n", at)
        if text[at:at + 1] != sign:
            raise ValueError(f"{sign!r} is wanted at byte {at}")
        count, at = int(text[at + 1:end]), end + 2
        return count

    def word() -> bytes:
        nonlocal at
        start, count = at, length(b"$")
        start, at = at, at + count + 2
        if text[at - 2:at] != b"\r\n":
            raise ValueError(f"no word of {count} bytes begins at byte {start}")
        return text[start:at - 2]

    try:
        while at < len(text):
            found.append([word() for _ in range(length(b"*"))])
    except ValueError as error:
        raise CanvasError(f"`canvas export` answered what can't be read: {error}") from error
    return found


def by_client(client: Any, command: str, *words: Any) -> Any:
    """What a client answers. Whatever it raises is a CanvasError."""
    try:
        return getattr(client, command)(*words)
    except Exception as error:
        raise CanvasError(f"Redis: {type(error).__name__}: {error}") from error


def results(client: Any, keys: list[str]) -> list[str | bytes | None]:
    """What is stored under each key."""
    found = by_client(client, "mget", keys) if keys else []
    if not isinstance(found, (list, tuple)) or len(found) != len(keys) or \
            not all(it is None or isinstance(it, (str, bytes)) for it in found):
        raise CanvasError(f"Redis: mget of {len(keys)} keys answers otherwise: {found!r:.60}")
    return [*found]


def collect(canvas: Canvas, client: Any, run: str, complete: bool = False,
            prefix: str = "") -> Report:
    """The Report so far of such a run, by a client of the result backend, whose global_keyprefix is
    `prefix`. With `complete` tasks that a failure reaches have their state, as in what_if(), where
    Celery leaves them pending. A stored result that can't be read is an Unreadable. Raises
    CanvasError for the result of another task, and for what the client raises."""
    text = text_of(canvas)
    keys = keys_of(text, run, prefix)
    *rows, end = collected(text, run, Stored(keys, results(client, keys)), complete)
    return Report(rows, end)


def keys_of(text: bytes, run: str, prefix: str) -> list[str]:
    """The key of each task's result."""
    return ask(["keys", "-", f"--run={run}", f"--prefix={prefix}"], text)[0].split("\n")[:-1]


@contextlib.contextmanager
def on_file(text: bytes) -> Iterator[str]:
    """The path of a temporary file with a text."""
    try:
        with tempfile.NamedTemporaryFile(suffix=".json") as file:
            file.write(text)
            file.flush()
            yield file.name
    except OSError as error:
        raise CanvasError(f"there is no place for a temporary file: {error}") from error


def collected(text: bytes, run: str, stored: Stored, complete: bool) -> list[dict[str, Any]]:
    """What the program tells of a run's stored results: of each task, and of the canvas."""
    with on_file(text) as path:
        return _collected(["collect", path, f"--run={run}"] + ["--complete"] * complete, stored)


def _collected(words: list[str], stored: Stored) -> list[dict[str, Any]]:
    """What the program tells of stored results, whichever of them can't be read."""
    while True:
        try:
            return [stored.told(it) for it in values(words, stored.lines())]
        except BadCall as error:
            if not stored.set_aside(error):
                raise
