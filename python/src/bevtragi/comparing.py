"""What the installed Celery does otherwise than a report says."""

from __future__ import annotations

from collections import Counter
from typing import Any, Iterable, Iterator

from .celery_run import CeleryRun, Judge, celery_answers, said

__all__ = ["Question", "of_calls"]


class Question:
    """A report's question, to be put to Celery as well: it is asked once, when that is wanted."""

    def __init__(self, judge: Judge, tasks: Any) -> None:
        self.judge, self.answers = judge, celery_answers(tasks)

    def run(self) -> CeleryRun:
        """What Celery does. Raises CanvasError if there is none."""
        return self.judge.run(self.answers)

    def runs(self) -> list[CeleryRun]:
        """What Celery does if tasks that fail end first, and if they end last."""
        return [*self.judge.both(self.answers)]

    def note(self, report: Any) -> str:
        """A line that says what Celery does otherwise; empty if it does the same or isn't there."""
        try:
            return self.note_of(report, self.runs()) if self.judge.can_be_asked else ""
        except Exception as error:  # a report can be shown without its note
            return f"Celery can't be asked: {said(error)}"

    def note_of(self, report: Any, runs: list[CeleryRun]) -> str:
        """The note, if Celery does this."""
        found = self._parts(report, runs)
        if not found:
            return ""
        is_call = found[0].startswith(("also ", "calls ", "never "))
        return f"Celery {self.judge.version}{'' if is_call else ':'} {'; '.join(found)}"

    def _parts(self, report: Any, runs: list[CeleryRun]) -> list[str]:
        """What is done otherwise, and if that depends on which task ends last, when."""
        first, last = ([*self._differences(report, run)] for run in (runs[0], runs[-1]))
        return [*(it + ("" if it in last else " unless the failure comes last") for it in first),
                *(f"{it} if the failure comes last" for it in last if it not in first)]

    def _differences(self, report: Any, run: CeleryRun) -> Iterator[str]:
        if run.raised is not None:
            yield f"apply_async() raises {said(run.raised)}"
            return
        yield from of_calls(self._names(it for it, row in zip(self.judge.places, report.rows)
                                         if row.ran), self._names(run.marks))
        if run.waits:
            yield "get() waits forever"
        elif report.status == "FAILURE" and run.status == "SUCCESS":
            yield "get() raises nothing"
        elif run.status == "FAILURE" and _name_of(run.result) not in _kinds(report):
            yield f"get() raises {_name_of(run.result)}"

    def _names(self, marks: Iterable[str]) -> Counter[str]:
        """How often each name is called, but for maps, whose calls are one message on Celery."""
        marked = self.judge.marked
        return Counter(marked.names[it] for it in marks if it not in marked.in_maps)


def of_calls(here: Counter[str], there: Counter[str]) -> Iterator[str]:
    """What is called otherwise there than here, each a sentence without its subject."""
    for name in dict.fromkeys([*there, *here]):
        if here[name] == 0:
            yield f"also calls {name}" + (f" {there[name]} times" if there[name] > 1 else "")
        elif there[name] == 0:
            yield f"never calls {name}"
        elif here[name] != there[name]:
            yield f"calls {name} {_times(there[name])} instead of {_times(here[name])}"


def _name_of(error: Any) -> str:
    """The name of an exception, also of one that Celery wraps since it can't be pickled."""
    return str(getattr(error, "exc_cls_name", type(error).__name__))


def _times(count: int) -> str:
    return "once" if count == 1 else f"{count} times"


def _kinds(report: Any) -> set[str]:
    """The exceptions that `get()` may raise by the report: those of its tasks, and a chord's."""
    results = [row.result for row in report.rows if row.status == "FAILURE"]
    found = {kind for it in results for kind in (it.kind, it.raised) if kind}
    return found | {"ChordError"} if found else set()
