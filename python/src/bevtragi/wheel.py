"""The wheel's own program, beside this file, and the record of what it was built of."""

from __future__ import annotations

import functools
import hashlib
import json
import os
from pathlib import Path
from typing import Dict, Optional, Tuple

from .errors import CanvasError, hidden

__all__ = ["Mark", "compare", "mark_of", "own_program", "record_of"]

__tracebackhide__ = hidden

Mark = Tuple[int, int, int, int]

HERE = Path(__file__).resolve().parent


def own_program() -> Path:
    """Where the wheel has its program. There is no such file without a wheel."""
    return HERE / "canvas"


def record_of(path: str) -> Tuple[str, Dict[str, str]]:
    """The SHA-256 of a program, and the record that the wheel has of it, empty if it isn't the
    wheel's. Raises CanvasError if the wheel was given another program."""
    record = HERE / "program.json"
    try:
        digest = hashlib.sha256(Path(path).read_bytes()).hexdigest()
        if not _is_own(path) or not record.exists():
            return digest, {}
        told = json.loads(record.read_text())
        if told.pop("digest") != digest:
            raise CanvasError(f"{path} isn't the program that was put into this package")
        return digest, {**told}
    except (OSError, ValueError, TypeError, LookupError) as error:
        raise CanvasError(f"{path} can't be compared with its record: {error}") from error


def compare(path: str) -> None:
    """Raises CanvasError if a program is the wheel's, and isn't the one that was put into it. The
    file is read once in a process, and again if it was changed."""
    if _is_own(path):
        mark = mark_of(path)
        if mark is not None:
            _compared(path, mark)


def mark_of(path: str) -> Optional[Mark]:
    """What tells a file from another at the same path. None where there is none."""
    try:
        found = os.stat(path)
    except OSError:
        return None
    return found.st_mtime_ns, found.st_size, found.st_ino, found.st_dev


@functools.lru_cache(maxsize=None)
def _is_own(path: str) -> bool:
    """Whether a program is the wheel's, which may be a link that was put there."""
    return path in (str(own_program()), os.path.realpath(own_program()))


@functools.lru_cache(maxsize=16)
def _compared(path: str, _mark: Mark) -> None:
    record_of(path)
