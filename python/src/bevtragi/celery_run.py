"""The code of the installed Celery as a second judge of a canvas. Nothing of it is proved.

Celery is imported when the first canvas is judged, and not by `import bevtragi`.
"""

from __future__ import annotations

import functools
import threading
from typing import Any, Dict, Iterator, List, Mapping, Union

from .binding import misfits
from .celery_store import NothingComes
from .checking import warnings_of
from .errors import BadCall, CanvasError, hidden
from .marking import Marked, identified
from .outcomes import Warning, is_exception
from .own_tasks import BEHAVIOURS
from .texts import Answers, Canvas, check_names, named, text_of, tree_of, values, words_of

__all__ = ["CeleryRun", "Judge", "celery_answers", "celery_version", "on_celery", "said"]

__tracebackhide__ = hidden

CeleryAnswers = Mapping[Any, Any]

#: One canvas is judged at a time, whichever thread asks: Celery's signals and logs are shared.
_lock = threading.RLock()


class CeleryRun:
    """What the installed Celery does with a canvas.

    called   the names of the tasks that are called, in their order
    states   the states of the tasks, by name: SUCCESS, FAILURE or PENDING
    status   how the caller's `get()` ends: SUCCESS or FAILURE; PENDING if it waits forever; None if
             there is nothing to get, since `apply_async()` raised or started no task
    result   the value that `get()` gives, or the exception that it raises
    raised   the exception that `apply_async()` raised, or None
    errors   the exceptions inside of Celery, outside of any task's function
    version  Celery's version"""

    def __init__(self, session: Any, status: str | None = None, result: Any = None,
                 raised: Exception | None = None) -> None:
        self.version: str = celery_version()
        self.status, self.result, self.raised = status, result, raised
        self.marks: List[str] = session.called
        self.called: List[str] = [session.names[it] for it in self.marks]
        self.errors: List[BaseException] = session.errors
        self._session = session

    @property
    def waits(self) -> bool:
        """Whether `get()` waits forever."""
        return self.status == "PENDING"

    @functools.cached_property
    def states(self) -> Dict[str, List[str]]:
        found: Dict[str, List[str]] = {}
        for mark, states in self.marked_states().items():
            found.setdefault(self._session.names[mark], []).extend(states)
        return found

    def marked_states(self) -> Dict[str, List[str]]:
        """The states of the tasks, by mark."""
        found: Dict[str, List[str]] = {}
        for number, mark in self._marked().items():
            found.setdefault(mark, []).append(self._session.state_of(number))
        return found

    def identified(self) -> Dict[str, str]:
        """The names of the tasks by their identifiers."""
        return {number: self._session.names[mark] for number, mark in self._marked().items()}

    def _marked(self) -> Dict[str, str]:
        marks: Dict[str, str] = {}
        for message in self._session.messages:
            marks.setdefault(message.headers["id"], message.headers["task"])
            for number, mark in identified(message.payload[2]):
                marks.setdefault(number, mark)
        return {number: mark for number, mark in marks.items() if mark in self._session.names}

    @property
    def end(self) -> str:
        """How the canvas ends for the caller, in words; empty if there is nothing to get."""
        if self.raised is not None:
            return f"apply_async() raises {said(self.raised)}"
        if self.waits:
            return "get() waits forever"
        if self.status is None:
            return ""
        return f"get() gives {self.result!r}" if self.status == "SUCCESS" else \
            f"get() raises {said(self.result)}"

    def __repr__(self) -> str:
        end = f"; {self.end}" if self.end else ""
        return f"Celery {self.version} calls {', '.join(self.called) or 'nothing'}{end}"


class Judge:
    """A canvas that Celery is asked about, once or several times. `kind` is the class of signature
    that it was before it became a text, since Celery starts some classes their own way."""

    def __init__(self, flow: Canvas, app: Any = None, kind: type | None = None) -> None:
        self.flow, self.kind = flow, kind or type(flow)
        self.app = getattr(app, "_get_current_object", lambda: app)()

    @functools.cached_property
    def marked(self) -> Marked:
        """The canvas, with marks."""
        return Marked(tree_of(self.flow))

    @property
    def text(self) -> bytes:
        """The canvas as JSON."""
        return text_of(self.flow)

    def warnings(self) -> list[Warning]:
        """What may surprise in the canvas. Raises Refused."""
        return warnings_of(self.text, self.app)

    def misfits(self) -> list[Warning]:
        """Names that the application doesn't know, and calls that its tasks don't take."""
        return [] if self.app is None else misfits(tree_of(self.flow), self.app)

    @functools.cached_property
    def version(self) -> str:
        """Celery's version. Raises CanvasError if there is none."""
        return celery_version()

    @property
    def can_be_asked(self) -> bool:
        """Whether Celery is installed."""
        try:
            return bool(self.version)
        except CanvasError:
            return False

    @functools.cached_property
    def places(self) -> list[str]:
        """The mark of each row of what_if(). Raises Refused where what_if() does."""
        *rows, _end = values(["run", "-", *words_of({}, True)], text_of(self.marked.tree))
        return [row["name"] for row in rows]

    def both(self, answers: CeleryAnswers) -> Iterator[CeleryRun]:
        """What Celery does if tasks that fail end first, and if they end last."""
        if any(is_exception(it) for it in answers.values()):
            yield self.run(answers, "first")
        yield self.run(answers, "last")

    def run(self, answers: CeleryAnswers, failures: str | None = None) -> CeleryRun:
        """What Celery does where tasks answer so."""
        if failures not in (None, "first", "last"):
            raise BadCall(f"failures are first, last or, by None, in their turn: not {failures!r}")
        answers = named(answers)
        numbered = {key for key in answers if isinstance(key, int)}
        names = self.marked.names
        marks = self.places if numbered else [*names]
        check_names(answers, [names[it] for it in marks])
        by_mark = {marks[number - 1]: answers[number] for number in numbered}

        def answer_of(mark: str) -> Any:
            return by_mark.get(mark, answers.get(names[mark], answers.get("*", 0)))
        version = celery_version()
        try:
            from .celery_app import app_for
            from .celery_session import Session
        except ImportError as error:
            raise CanvasError(f"Celery {version} isn't as it is known here: {error}") from error
        with _lock:
            session = Session(app_for(self.app), names, answer_of, failures)
            return _judged(session, self.marked.copy(), self.kind)


def _judged(session: Any, tree: Any, kind: type) -> CeleryRun:
    """The run of a canvas from its start to the caller's `get()`."""
    with session.as_current():
        try:
            started = session.started(tree, kind)
        except Exception as error:
            session.work()
            return CeleryRun(session, raised=error)
        session.work()
        if started is None:
            return CeleryRun(session)
        try:
            return CeleryRun(session, "SUCCESS", started.get(disable_sync_subtasks=False))
        except NothingComes:
            return CeleryRun(session, "PENDING")
        except Exception as error:
            return CeleryRun(session, "FAILURE", error)


def on_celery(flow: Canvas, answers: CeleryAnswers | None = None, app: Any = None,
              failures: str | None = None) -> CeleryRun:
    """What the code of the installed Celery does with a canvas: no broker, no worker, and none of
    your tasks is called.

    answers  what tasks answer, by name, by number or for "*", as of what_if(): any value; an
             exception or its class; or a function, which is called with the task's arguments.
             Tasks without an answer answer 0
    app      your application. Tasks then have the parameters of yours: wrong calls fail, error
             callbacks are called as their parameters say, and only its tasks are registered
    failures "first" or "last": of the tasks in the queue, those that fail are done before or after
             the others; else messages are taken first in, first out. Workers may do each

    None of your signals is sent, and neither the canvas nor the current application is changed.
    Several threads may ask; one is answered at a time. Countdowns are ignored, and so is `replace`,
    since no task is called. Raises CanvasError if Celery isn't installed, and BadCall for a name
    that no task has."""
    return Judge(flow, app).run(answers or {}, failures)


def celery_answers(tasks: Answers) -> dict[Any, Any]:
    """The answers of what_if(), for Celery."""
    found: Dict[Any, Any] = {}
    for key, answer in tasks.items():
        word = answer if isinstance(answer, str) else ""
        found[key] = type(word[6:], (Exception,), {}) if word.startswith("raise:") else \
            BEHAVIOURS.get(word, answer)
    return found


def celery_version() -> str:
    """The version of the installed Celery. Raises CanvasError if there is none."""
    try:
        import celery
    except ImportError as error:
        raise CanvasError("Celery isn't installed here, so its code can't be asked") from error
    return str(celery.__version__)


def said(error: BaseException) -> str:
    """An exception in a line."""
    text = " ".join(str(error).split())
    return type(error).__name__ + (f": {text if len(text) < 100 else text[:97] + '...'}" if text
                                   else "")
