"""Where production does otherwise than a canvas means."""

from __future__ import annotations

from typing import Any, Iterator

from .failing import every_failure
from .celery_run import celery_version
from .errors import hidden
from .reports import Failures
from .texts import Canvas

__all__ = ["differences"]

__tracebackhide__ = hidden


def differences(flow: Canvas, app: Any = None) -> list[str]:
    """Sentences that say where the installed Celery does otherwise than the canvas means: what it
    calls, and how the caller's `get()` ends, if all goes well and if one task fails. The list is
    empty if Celery does the same, so that a test may say `assert not differences(flow)`.

    app  your application: tasks that it doesn't know, and calls that its tasks don't take, are
         named first

    The calls of a map are one message on Celery, so they aren't compared. Raises CanvasError if
    Celery isn't installed, and Refused as what_if() does."""
    celery_version()
    failures = every_failure(flow, app=app)
    return [*map(str, failures.well.misfits), *_sentences(failures)]


def _sentences(failures: Failures) -> Iterator[str]:
    if failures.well.note:
        yield f"If all goes well, {failures.well.note}"
    for number, report in failures.items():
        if report.note:
            yield f"If #{number} {report[number].name} fails, {report.note}"
