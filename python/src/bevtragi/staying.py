"""A process of the program that stays, so that a run of tests starts it once.

It answers canvas after canvas, each as it comes. Threads ask it in turn. If it was killed, takes too
long or isn't the program any more, it is started anew, once for a question. A fork of this process
starts its own.
"""

from __future__ import annotations

import atexit
import json
import os
import select
import subprocess
import tempfile
import threading
import time
from typing import Any, Dict, List, Optional, Sequence, Tuple

from . import calling
from .errors import CanvasError, hidden
from .wheel import mark_of

__all__ = ["end", "item_of", "told"]

__tracebackhide__ = hidden

WORDS = ("run", "-", "--each", "--null", "--with-tasks", "--adapt", "--json")

#: The bytes at most of a canvas, and of the lines that say what its tasks answer.
MOST_BYTES = 1_048_576

#: The bytes that are read at once: as many as a pipe holds. Room for more takes time to get.
MOST_READ = 65_536

#: The seconds that a process has to end once it gets no more canvases.
GRACE = 1


def item_of(answers: Sequence[str], text: bytes) -> Optional[bytes]:
    """A canvas with what its tasks answer, as the process takes both. None if it can't: then a call
    of its own can, or says why nothing does."""
    lines = "".join(f"{it}\n" for it in answers)
    if "\0" in lines or "\r" in lines or lines.count("\n") != len(answers):
        return None
    if any(it.startswith("-") for it in answers):
        return None
    try:
        item = lines.encode() + b"\n" + text
    except UnicodeEncodeError:
        return None
    fits = len(item) - len(text) <= MOST_BYTES and len(text) <= MOST_BYTES
    return item if fits and b"\0" not in text else None


def told(items: Sequence[bytes]) -> List[Dict[str, Any]]:
    """What the program prints of each item. Raises CanvasError."""
    with _one.lock:
        return _one.told(items)


def end() -> None:
    """Ends the process. The next question starts another."""
    with _one.lock:
        _one.end()


class _Process:
    """A process of the program at a path."""

    def __init__(self, path: str) -> None:
        self.path, self._mark = path, mark_of(path)
        self._errors = tempfile.TemporaryFile()
        try:
            self._popen = subprocess.Popen([path, *WORDS], bufsize=0, stdin=subprocess.PIPE,
                                           stdout=subprocess.PIPE, stderr=self._errors)
        except (OSError, ValueError) as error:
            self._errors.close()
            raise CanvasError(f"{path} can't be called: {error}") from error
        assert self._popen.stdin is not None and self._popen.stdout is not None
        self._stdin, self._stdout = self._popen.stdin, self._popen.stdout
        for it in (self._stdin, self._stdout):
            os.set_blocking(it.fileno(), False)

    def is_there(self) -> bool:
        """Whether it hasn't ended, and is of the file that is at its path."""
        return self._popen.poll() is None and mark_of(self.path) == self._mark

    def told(self, items: Sequence[bytes]) -> List[Dict[str, Any]]:
        """What it prints of each item. Where that isn't all of it, it has ended."""
        try:
            lines = self._lines(items)
            found = [json.loads(it) for it in lines]
        except ValueError as error:
            raise self._unreadable(error) from error
        except BaseException:
            self.end(0)
            raise
        if len(found) != len(items) or not all(map(_is_answer, found)):
            raise self._unreadable("there is another number of lines, or what is no report")
        return found

    def _unreadable(self, why: object) -> CanvasError:
        """The error of what it has printed, or the one that it ends with."""
        status, said = self.end()
        return calling.failure("run", status, said) if status else CanvasError(
            f"`canvas run` answered what can't be read: {why}")

    def _lines(self, items: Sequence[bytes]) -> List[bytes]:
        """The lines that it prints of some items, each of which may take a number of seconds."""
        left = self._after_writing(memoryview(b"".join(it + b"\0" for it in items)))
        said, count = bytearray(), 0
        until = time.monotonic() + calling.SECONDS
        ready = select.poll()
        ready.register(self._stdout, select.POLLIN)
        if left:
            ready.register(self._stdin, select.POLLOUT)
        while count < len(items):
            wait = until - time.monotonic()
            if wait <= 0 or not ready.poll(wait * 1000):
                self.end(0)
                raise CanvasError(f"{self.path} took more than {calling.SECONDS} seconds")
            if left:
                left = self._after_writing(left)
                if not left:
                    ready.unregister(self._stdin)
            part = self._stdout.read(MOST_READ)
            if part == b"":
                raise calling.failure("run", *self.end())
            if part and b"\n" in part:
                count += part.count(b"\n")
                until = time.monotonic() + calling.SECONDS
            said += part or b""
        return bytes(said).split(b"\n")[:-1] if said.endswith(b"\n") else []

    def _after_writing(self, left: memoryview) -> memoryview:
        """Writes what can be written, and gives what is left. If the process reads no more, nothing
        is left: its output says why."""
        try:
            return left[self._stdin.write(left) or 0:]
        except BrokenPipeError:
            return left[:0]

    def end(self, grace: float = GRACE) -> Tuple[int, str]:
        """Ends it, and gives its status and what standard error says."""
        self._stdin.close()
        try:
            if not grace:
                self._popen.kill()
            status = self._popen.wait(grace or None)
        except subprocess.TimeoutExpired:
            self._popen.kill()
            status = self._popen.wait()
        self._stdout.close()
        if self._errors.closed:
            return status, ""
        self._errors.seek(0)
        said = self._errors.read().decode(errors="replace")
        self._errors.close()
        return status, said

    def leave(self) -> None:
        """Leaves it to the process that this one is a fork of."""
        for it in (self._stdin, self._stdout, self._errors):
            it.close()
        self._popen.returncode = 0


def _is_answer(it: Any) -> bool:
    """Whether it says a report or a refusal."""
    return isinstance(it, dict) and ("name" in it or {"canvas", "rows"} <= it.keys())


class _One:
    """The process, if there is one."""

    def __init__(self) -> None:
        self.lock = threading.Lock()
        self._kept: Optional[_Process] = None

    def told(self, items: Sequence[bytes]) -> List[Dict[str, Any]]:
        """What the process prints of each item, or another if that one can't."""
        kept, self._kept = self._there(), None
        if kept is not None:
            try:
                found = kept.told(items)
                self._kept = kept
                return found
            except CanvasError:
                pass
        fresh = _Process(calling.path_of_program())
        found = fresh.told(items)
        self._kept = fresh
        return found

    def _there(self) -> Optional[_Process]:
        """The process, if it is there and is the program that is to be called. Where it isn't any
        more the program is looked for anew, and asked for its version."""
        kept = self._kept
        if kept is None:
            return None
        if calling.path_of_program() == kept.path:
            if kept.is_there():
                return kept
            calling.forget_path()
        self.end()
        return None

    def end(self) -> None:
        """Ends the process."""
        if self._kept is not None:
            self._kept.end()
            self._kept = None

    def leave(self) -> None:
        """In a fork: that has a lock of its own, which no thread has taken, and no process."""
        self.lock = threading.Lock()
        if self._kept is not None:
            self._kept.leave()
            self._kept = None

    def end_at_exit(self) -> None:
        """Ends the process, also where a thread still waits for it."""
        if self.lock.acquire(timeout=GRACE):
            self.end()
            self.lock.release()


_one = _One()
atexit.register(_one.end_at_exit)
os.register_at_fork(after_in_child=_one.leave)
