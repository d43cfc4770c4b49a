"""Asking the program what becomes of a canvas."""

from __future__ import annotations

import json
from typing import Any, Iterable, Iterator, Mapping, Sequence, Union

from .calling import ask, refusal_of
from .celery_run import Judge
from .checking import Figures, figures
from .comparing import Question
from .errors import BadCall, CanvasError, Refused, hidden
from .outcomes import is_exception
from .pictures import Picture
from .recorded import recorded_answers
from .reports import Report
from .staying import item_of, told
from .texts import (Answers, Canvas, check_names, is_huge, lines_of, named, text_of, values,
                    words_in, words_of)

__all__ = ["adapt", "answered", "check", "graph", "judge_of", "messages", "run", "runs_of",
           "what_if", "what_if_each"]

__tracebackhide__ = hidden

#: The canvases of a call at most, and the bytes of each.
MOST, MOST_BYTES = 60, 1_048_577

#: The numbers that a task may answer lie between this and its negative.
MOST_NUMBER = 2 ** 60

Again = Union[bool, Mapping[Any, Union[str, Sequence[str]]]]


def run(canvas: Canvas, tasks: Answers = {}, workers: int = 1, turns: Sequence[int] | None = None,
        again: Again = False) -> Report:
    """The Report of a canvas's run, in which a task without an answer fails with NotRegistered.

    workers  how many there are, from 1 to 16: on threads, or taking turns with turns or again
    turns    which worker goes on at each turn, as [2, 1, 1]
    again    what is delivered again, as {"shop.ship": "late"}: "early", before its result is
             stored, or "late", before it is acknowledged. True is everything, both ways

    Raises BadCall; and Refused, also for arguments of kinds of which adapt() makes texts."""
    return _run(text_of(canvas), named(tasks), words_of(tasks), workers, turns, again)


def what_if(canvas: Canvas, tasks: Answers = {}, workers: int = 1,
            turns: Sequence[int] | None = None, again: Again = False, app: Any = None,
            answers: Any = None) -> Report:
    """run() of a canvas that is adapted first, so that arguments may be anything, where each task
    answers 0 that `tasks` doesn't name. Raises BadCall and Refused.

    app      your Celery application: the report's `warnings` then name tasks that it doesn't know,
             and calls that its tasks don't take; and `on_celery` has tasks with its parameters
    answers  a run that is over: a report of collect(), or the pathlib.Path of a file with stored
             results. Its tasks answer and fail as they did, unless `tasks` names them. A result
             that isn't a whole number counts as 0; rehearse() takes any

    Each task after a failure fails, too. Celery leaves some of these PENDING forever: a group or
    chord after a failed task, with what waits for it, and what waits for a failed chord in a
    header. docs/CELERY.md lists all that differs. If Celery is installed, print() of the report
    says where its code does otherwise."""
    judge = judge_of(canvas, app)
    return answered(judge, _with_recorded(judge.text, named(tasks), answers), workers, turns, again)


def _with_recorded(text: bytes, tasks: dict[Any, Any], answers: Any) -> dict[Any, Any]:
    """What tasks answer, and what those that aren't named answered in a run that is over."""
    if answers is None:
        return tasks
    names = dict(enumerate(_names(_run(text, {}, words_of({}, True))), 1))
    recorded = {number: it if is_exception(it) or _is_number(it) else 0
                for number, it in recorded_answers(answers, names).items()
                if names[number] not in tasks}
    return {**recorded, **tasks}


def _is_number(it: Any) -> bool:
    return isinstance(it, int) and not isinstance(it, bool) and abs(it) <= MOST_NUMBER


def judge_of(canvas: Canvas, app: Any = None) -> Judge:
    """The judge of a canvas as it is now."""
    return Judge(text_of(canvas), app, type(canvas))


def answered(judge: Judge, tasks: Answers = {}, workers: int = 1,
             turns: Sequence[int] | None = None, again: Again = False) -> Report:
    """what_if() of a canvas that Celery can be asked about, too."""
    tasks = named(tasks)
    if type(workers) is int and workers == 1 and turns is None and again is False:
        (report,) = runs_of(judge.text, [tasks])
    else:
        report = _run(judge.text, tasks, words_of(tasks, True), workers, turns, again)
    return report.asked_of(Question(judge, tasks))


def runs_of(text: bytes, several: Sequence[Answers]) -> Iterator[Report]:
    """The Report of a canvas's run by one worker with each of these answers, which the program that
    stays is asked for; where it can't be, by a call for each."""
    for some in (several[start:start + MOST] for start in range(0, len(several), MOST)):
        lines = [lines_of(it, True) for it in some]
        items = [it for it in (item_of(it, text) for it in lines) if it is not None]
        if len(items) == len(some):
            for said, asked, tasks in zip(told(items), lines, some):
                yield _told(said, text, ["--adapt", *words_in(asked)], tasks)
        else:
            for tasks in some:
                yield _run(text, tasks, words_of(tasks, True))


def _told(said: dict[str, Any], text: bytes, asked: list[str], tasks: Answers) -> Report:
    """The Report that an object of the program says. Raises what it says of a refusal."""
    if "rows" not in said:
        raise refusal_of(said)
    report = Report(said["rows"], said["canvas"], (asked, text))
    check_names(tasks, _names(report))
    return report


def _run(text: bytes, tasks: Answers, asked: list[str], workers: int = 1,
         turns: Sequence[int] | None = None, again: Again = False) -> Report:
    listed = turns if isinstance(turns, Sequence) else () if turns is None else (None,)
    if not all(isinstance(it, int) and not is_huge(it) for it in (workers, *listed)):
        raise BadCall("workers is a whole number, and turns are whole numbers")
    words = ["run", "-", f"--workers={workers}", *asked]
    again = named(again) if isinstance(again, Mapping) else again
    points = _points(again)
    if isinstance(again, Mapping):
        check_names(again, _names(_run(text, {}, asked)))
    if turns is not None or again:
        words[0] = "turns"
        words += [f"--turns={','.join(map(str, listed))}", f"--again={','.join(points)}"]
    *rows, end = values(words, text)
    report = Report(rows, end, (asked, text), end.get("again", 0))
    check_names(tasks, _names(report))
    return report


def _points(again: Again) -> list[str]:
    """What is delivered again, in the program's words."""
    if isinstance(again, bool):
        return ["all"] * again
    if not isinstance(again, Mapping):
        raise BadCall(f"again is True, False, or what is delivered again by name, not {again!r}")
    found = [(key, it) for key, at in again.items()
             for it in (at if isinstance(at, (list, tuple)) else [at])]
    for key, at in found:
        if at not in ("early", "late"):
            raise BadCall(f"BadAgain: {key} is delivered again \"early\" or \"late\", not {at!r}")
    return [f"{key}:{at}" for key, at in found]


def _names(*reports: Report) -> list[str]:
    return [row.name for report in reports for row in report.rows]


def what_if_each(canvases: Iterable[Canvas], tasks: Answers = {}) -> list[Report | CanvasError]:
    """what_if() of each canvas, in order, by few calls of the program; or the Refused or BadCall of
    one. Raises BadCall for what is no answer, and for a name that no canvas has."""
    tasks = named(tasks)
    texts, asked = [_text_or_error(it) for it in canvases], words_of(tasks, True)
    whole = [it for it in texts if isinstance(it, bytes)]
    said: list[Any] = []
    for some in (whole[start:start + MOST] for start in range(0, len(whole), MOST)):
        lines = values(["run", "-", "--each", "--null", *asked],
                       b"".join(text + b"\0" for text in some))
        if len(lines) != len(some):
            raise CanvasError(f"`canvas run` gave {len(lines)} lines for {len(some)} canvases")
        said += lines
    left = iter(said)
    found: list[Report | CanvasError] = [
        _each(next(left), asked, it, tasks) if isinstance(it, bytes) else it for it in texts]
    check_names(tasks, _names(*(it for it in found if isinstance(it, Report))))
    return found


def _text_or_error(canvas: Canvas) -> bytes | BadCall:
    """A canvas as JSON, as long as a canvas may be, or why there is none. A zero byte ends a canvas
    among several; another byte that JSON doesn't have either takes its place."""
    try:
        return text_of(canvas)[:MOST_BYTES].replace(b"\0", b"\1")
    except BadCall as error:
        return error


def _each(said: Any, asked: list[str], text: bytes, tasks: Answers) -> Report | Refused:
    if "code" in said:
        return Refused(**said)
    judge = Judge(text)
    report = Report(said["rows"], said["canvas"], (asked, text))
    return report.asked_of(Question(judge, tasks))


def adapt(canvas: Canvas) -> dict[str, Any]:
    """A canvas that can be run, made of any that Celery writes. Raises Refused where none can."""
    said = ask(["adapt", "-"], text_of(canvas))[0]
    try:
        return dict(json.loads(said))
    except (TypeError, ValueError) as error:
        raise CanvasError(f"`canvas adapt` answered what can't be read: {error}") from error


def check(canvas: Canvas, tasks: Answers = {}, app: Any = None) -> Figures:
    """The Figures of a canvas, adapted first; with `app` its warnings are also of names that your
    application doesn't know, and of calls that its tasks don't take. Raises Refused."""
    return figures(text_of(canvas), tasks, app)


def graph(canvas: Canvas) -> Picture:
    """The Picture of a canvas, adapted first; Report.graph() is that of a run. Raises Refused."""
    return Picture(ask(["graph", "-", "--adapt"], text_of(canvas))[0])


def messages(canvas: Canvas, tasks: Answers = {}) -> list[dict[str, Any]]:
    """The headers, properties and body of each message that a run publishes. Raises Refused."""
    said = values(["messages", "-", *words_of(tasks)], text_of(canvas))
    return [{name: json.loads(text) for name, text in it.items()} for it in said]
