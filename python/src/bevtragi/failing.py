"""What becomes of a canvas if one of its tasks fails."""

from __future__ import annotations

from typing import Any, Iterator, Mapping

from .asking import answered, judge_of, runs_of
from .celery_run import Judge
from .comparing import Question
from .errors import hidden
from .reports import Failures, Report
from .texts import Answers, Canvas, lines_of, named, values, words_of

__all__ = ["every_failure", "failures_of"]

__tracebackhide__ = hidden

#: The most tasks for which the process that stays is asked for each failure: none is started then.
FEW = 60


def every_failure(canvas: Canvas, tasks: Answers = {}, error: Any = Exception, app: Any = None
                  ) -> Failures:
    """The what_if() of each task failing, by its number; print() it. If Celery is installed,
    each line also says where its code does otherwise. Raises as what_if()."""
    return failures_of(judge_of(canvas, app), named(tasks), error)


def failures_of(judge: Judge, tasks: dict[Any, Any], error: Any) -> Failures:
    """every_failure() of a canvas that Celery can be asked about, too."""
    well = answered(judge, tasks)
    several = {row.number: {**tasks, row.number: error} for row in well.rows}
    word = lines_of({"*": error})[0].partition("=")[2]
    if len(several) > FEW and word.startswith("raise:"):
        reports = _by_one_call(judge.text, well, tasks, word, several)
    else:
        reports = runs_of(judge.text, [*several.values()])
    found = Failures((number, report.asked_of(Question(judge, several[number])))
                     for number, report in zip(several, reports))
    found.well = well
    return found


def _by_one_call(text: bytes, well: Report, tasks: Answers, word: str,
                 several: Mapping[int, Answers]) -> Iterator[Report]:
    """The Report of each task failing. The program tells the rows that differ from those of the
    canvas as it is."""
    _well, *told = values(["run", "-", f"--failures={word}", *words_of(tasks, True)], text)
    for it, its in zip(told, several.values()):
        rows = {int(row["task_id"][-8:], 16): row for row in it["rows"]}
        yield well.with_rows(rows, it["canvas"], words_of(its, True))
