"""A page that shows a canvas: what becomes of it if a task fails, and its runs, step by step.

All that the page shows is what the program and the installed Celery answered.
"""

from __future__ import annotations

import html
import os
import tempfile
import webbrowser
from pathlib import Path
from typing import Any, Dict, List, Mapping, Sequence

from .asking import judge_of
from .calling import program
from .drawing import Drawn, drawn
from .errors import BadCall, CanvasError, hidden
from .failing import failures_of
from .layout import framed
from .own_tasks import OWN
from .page_celery import CeleryPart, celery_part
from .page_data import Shown, as_block, happened, notes
from .playing import check_workers, plays
from .reports import Report
from .texts import Answers, Canvas, lines_of, named

__all__ = ["Page", "page"]

__tracebackhide__ = hidden


class Page(str):
    """The HTML of a page. It needs no other file and contacts nothing. A notebook shows it."""

    def save(self, path: str | os.PathLike[str]) -> Path:
        """Writes the page into a file, and gives the file's path. Raises BadCall."""
        try:
            Path(path).write_text(self, encoding="utf-8")
            return Path(path).resolve()
        except (OSError, TypeError, ValueError) as error:
            why = getattr(error, "strerror", None) or error
            raise BadCall(f"{str(path)} can't be written: {why}") from error

    def show(self, path: str | os.PathLike[str] | None = None) -> Path:
        """Writes the page into a file, or into a new one for temporary files, and opens it in the
        browser. It gives the file's path. Raises BadCall, and CanvasError if no browser opens it.
        """
        if path is None:
            path = Path(tempfile.mkdtemp(prefix="bevtragi-"), "canvas.html")
        saved = self.save(path)
        if not webbrowser.open(saved.as_uri()):
            raise CanvasError(f"no browser opens {saved}")
        return saved

    def _repr_html_(self) -> str:
        """A frame with the page, whose script may do nothing to the notebook around it."""
        return ('<iframe sandbox="allow-scripts" width="100%" height="640" style="border:0"'
                f' srcdoc="{html.escape(self)}"></iframe>')

    def __repr__(self) -> str:
        return f"<Page of {len(self)} characters>"


def page(canvas: Canvas, tasks: Answers = {}, error: Any = Exception, title: str | None = None,
         workers: Sequence[int] = (1, 2, 3, 4), app: Any = None, results: Report | None = None
         ) -> Page:
    """The Page of a canvas, which is adapted first. The program's own tasks answer as they do, and
    others that `tasks` doesn't name succeed. For each task the page shows what becomes of the
    canvas if it fails; and if Celery is installed, what its code does otherwise.

    error    what a task fails with
    workers  the numbers of workers whose runs can be played step by step; none if it is empty
    app      your Celery application, as of what_if()
    results  what happened in a run: a report of collect(), or of a Run

    Raises Refused and BadCall."""
    check_workers(workers)
    judge = judge_of(canvas, app)
    line = drawn(judge.text)
    names = [name for name, _ in line.tasks]
    given = named(tasks)
    answers = {**_own(names), **given}
    failures = failures_of(judge, answers, error)
    rows = Shown(failures, _answered(names, answers))
    failing = [number for number, report in failures.items() if failures.well[number].ran]
    celery = celery_part(failures, judge)
    word = lines_of({"*": error})[0].partition("=")[2]
    stored = None if results is None else happened(results, line)
    head, tail = framed("data.js")
    return Page(head + as_block({
        "title": title if title is not None else _title_of(canvas), "tasks": line.tasks,
        "line": line.line, "groups": _groups(line.line), "well": rows.well(),
        "failures": rows.failures(), "values": rows.values,
        "plays": plays(judge.text, answers, error, workers, failing),
        "notes": notes(failures.well.warnings), "celery": celery, "happened": stored,
        "foot": _foot(word, celery, stored is not None)}) + tail)


def _own(names: Sequence[str]) -> Dict[Any, Any]:
    """What the program's own tasks answer that a canvas has."""
    return {name: name.partition(".")[2] for name in OWN if name in names}


def _answered(names: Sequence[str], answers: Mapping[Any, Any]) -> List[int]:
    """The numbers of the tasks whose answers somebody gave."""
    return [number for number, name in enumerate(names, 1)
            if number in answers or name in answers or "*" in answers]


def _groups(line: Dict[str, Any]) -> int:
    """The number of the groups and chords of a line."""
    inner = [*line.get("members", ()), *([line["body"]] if "body" in line else [])]
    return ("group" in line) + sum(map(_groups, inner))


def _title_of(canvas: Canvas) -> str:
    return Path(canvas).stem if isinstance(canvas, os.PathLike) else "canvas"


def _foot(word: str, celery: CeleryPart | None, has_happened: bool) -> List[str]:
    """What the page is made of, in sentences."""
    told = program()
    kind = word.partition(":")[2] or word
    said = [f"What it means is what canvas {told.version} ({told.digest[:12]}) answered; a task"
            f" fails with {kind}."]
    if celery is not None:
        said.append(celery["why"] or f"What Celery does is asked of Celery {celery['version']}'s"
                    " own code.")
    if has_happened:
        said.append("What happened is what workers stored.")
    return [*said, "No task was called for this page, and it contacts nothing."]
