"""What is raised: CanvasError, and its kinds."""

from __future__ import annotations

from operator import methodcaller

__all__ = ["BadCall", "CanvasError", "NotKnown", "Refused", "hidden"]


class CanvasError(Exception):
    """There is no answer: no program, another one, or one that was killed or took too long."""


class BadCall(CanvasError, ValueError):
    """What was handed in is no canvas, no task of it, no answer, or nothing that a run takes."""


class NotKnown(CanvasError, AttributeError):
    """This report doesn't have what was asked for. `hasattr` is false of it."""


class Refused(CanvasError, ValueError):
    """The canvas is outside the profile: the code and name of the refusal; the JSON pointer of the
    first signature that has it and the task named there, or None; what is there and is wanted."""
    def __init__(self, code: int, name: str, pointer: str | None = None, task: str | None = None,
                 note: str = "", line: int = 0, column: int = 0) -> None:
        super().__init__(code, name, pointer, task, note, line, column)
        self.code, self.name, self.pointer, self.task = code, name, pointer, task
        self.note = f"invalid JSON at line {line} column {column}: {note}" if line else note

    def __str__(self) -> str:
        task = f" in {self.task}" if self.task else ""
        place = "" if self.pointer is None else f" at {self.pointer or 'the top'}"
        return f"{self.code} {self.name}{task}{place}" + (f": {self.note}" if self.note else "")


#: What a module calls `__tracebackhide__`: pytest then leaves its functions out of the traceback of
#: a CanvasError, which ends at the line of the test.
hidden = methodcaller("errisinstance", CanvasError)
__tracebackhide__ = hidden
