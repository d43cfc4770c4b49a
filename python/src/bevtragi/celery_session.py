"""One run of a canvas by Celery's code, in memory. It imports Celery."""

from __future__ import annotations

import logging
import threading
import warnings
from collections import deque
from contextlib import contextmanager
from typing import Any, Callable, Deque, Iterator, List

from billiard.einfo import ExceptionInfo
from celery import _state, signals
from celery.app.trace import fast_trace_task
from celery.canvas import Signature
from celery.exceptions import NotRegistered
from celery.utils.dispatch.signal import NO_RECEIVERS
from celery.worker.request import Context, Request
from kombu.message import Message

from .celery_app import HOST, App, Backend
from .celery_store import Store
from .outcomes import is_exception

__all__ = ["Session"]

#: What the code that runs here sends with a task as the sender, and where it logs.
SIGNALS = (signals.task_prerun, signals.task_postrun, signals.task_success, signals.task_failure,
           signals.task_retry, signals.task_internal_error, signals.task_rejected)
LOGGERS = ("celery.app.amqp", "celery.app.base", "celery.app.trace", "celery.backends.base",
           "celery.backends.redis", "celery.canvas", "celery.result", "celery.worker.request")


class Session:
    """One run by an application: the calls, the messages, and the errors inside of Celery."""

    def __init__(self, app: App, names: dict[str, str], answer_of: Callable[[str], Any],
                 failures: str | None) -> None:
        self.app, self.names, self.answer_of = app, names, answer_of
        self.failures = failures
        self.called: List[str] = []
        self.errors: List[BaseException] = []
        self.messages: List[Message] = []
        self.queue: Deque[Message] = deque()
        self.store = Store()
        # The caller and the workers are processes of their own, each with its client.
        self.caller, self.worker = (Backend(app, self) for _ in range(2))
        self.backend = self.caller
        self.outside: Any = None

    @contextmanager
    def as_current(self) -> Iterator[None]:
        """Has this thread's code of Celery use the application, with the tasks of this run."""
        before, self.app.session = getattr(self.app, "session", None), self
        try:
            self.app.take(self.names)
            tasks = [*self.app._tasks.values()]
            with _muted(), _unsignalled(tasks), _alone(), _current(self.app) as self.outside:
                yield
        finally:
            self.app.session = before

    def started(self, tree: Any, kind: Any) -> Any:
        """What `apply_async()` of a canvas gives, which is of that class of signatures, if it is
        one. Raises what it raises."""
        if not issubclass(kind, Signature):
            kind = Signature
        return kind.from_dict(tree, app=self.app).apply_async()

    def answer(self, mark: str, args: Any, kwargs: Any) -> Any:
        """What a task answers that is called."""
        self.called.append(mark)
        found = self.answer_of(mark)
        if is_exception(found):
            raise _instance(found)
        if not callable(found):
            return found
        with _current(self.outside):
            return found(*args, **kwargs)

    def state_of(self, number: str) -> str:
        """The stored state of the task with an identifier, or PENDING."""
        stored = self.store.get(self.worker.get_key_for_task(number))
        return str(self.worker.decode_result(stored)["status"]) if stored else "PENDING"

    def work(self) -> None:
        """Does what a worker does with each message."""
        self.backend = self.worker
        while self.queue:
            message = self._next()
            if message.headers["task"] in self.app._tasks:
                self._perform(message)
            else:
                self._refuse(message)
        self.backend = self.caller

    def _next(self) -> Message:
        """The message that came first, or one of a task that fails, or of one that doesn't."""
        message = self.queue[0]
        if self.failures == "first":
            message = next(filter(self._fails, self.queue), message)
        elif self.failures == "last":
            message = next((it for it in self.queue if not self._fails(it)), self.queue[-1])
        self.queue.remove(message)
        return message

    def _fails(self, message: Message) -> bool:
        mark = message.headers["task"]
        if mark not in self.names:
            return False
        answer = self.answer_of(mark)
        return is_exception(answer) or getattr(answer, "fails", False)

    def _perform(self, message: Message) -> None:
        name = message.headers["task"]
        try:
            request = Request(message, app=self.app, hostname=HOST, task=self.app._tasks[name])
        except Exception as error:  # a worker drops a message that it can't read
            self.errors.append(error)
            return
        try:
            fast_trace_task(name, request.id, request.request_dict, message.body,
                            message.content_type, message.content_encoding,
                            _loc=(self.app._tasks, message.accept, HOST))
        except Exception as error:  # what leaves the child process is stored by its parent
            self.errors.append(error)
            try:
                request.on_failure(ExceptionInfo())
            except Exception as another:
                self.errors.append(another)

    def _refuse(self, message: Message) -> None:
        """As `Consumer.on_unknown_task` does, which leaves out the callbacks and the chord."""
        name, number = message.headers["task"], message.headers["id"]
        error = NotRegistered(self.names.get(name, name))
        self.errors.append(error)
        request = Context(name=name, chord=None, errbacks=None, chain=None,
                          root_id=message.headers.get("root_id"))
        self.backend.mark_as_failure(number, error, request=request)


def _instance(error: Any) -> Exception:
    """An exception to raise, also of a class that can't be called without arguments."""
    try:
        return error() if isinstance(error, type) else error
    except TypeError:
        return error.__new__(error)


class _Filter(logging.Filter):
    """Drops what one thread logs."""

    def __init__(self) -> None:
        super().__init__()
        self.thread = threading.get_ident()

    def filter(self, record: logging.LogRecord) -> bool:
        return threading.get_ident() != self.thread


@contextmanager
def _muted() -> Iterator[None]:
    """Drops what Celery logs and warns of in this thread."""
    filtered, loggers = _Filter(), [logging.getLogger(name) for name in LOGGERS]
    for logger in loggers:
        logger.addFilter(filtered)
    try:
        with warnings.catch_warnings():
            warnings.filterwarnings("ignore", module=r"(billiard|celery|kombu|vine)\.")
            yield
    finally:
        for logger in loggers:
            logger.removeFilter(filtered)


@contextmanager
def _unsignalled(tasks: list[Any]) -> Iterator[None]:
    """Has each signal know that nobody listens to these tasks."""
    told = [(signal.sender_receivers_cache, task) for signal in SIGNALS for task in tasks
            if task not in signal.sender_receivers_cache]
    try:
        for known, task in told:
            known[task] = NO_RECEIVERS
        yield
    finally:
        for known, task in told:
            known.pop(task, None)


@contextmanager
def _alone() -> Iterator[None]:
    """Has Celery see no task that this thread is in already."""
    tasks = []
    while _state._task_stack.top is not None:
        tasks.append(_state._task_stack.pop())
    try:
        yield
    finally:
        for task in reversed(tasks):
            _state._task_stack.push(task)


@contextmanager
def _current(app: Any) -> Iterator[Any]:
    """Has this thread's current application be another; it gives the one that was."""
    before = _state._tls.current_app
    _state._set_current_app(app)
    try:
        yield before
    finally:
        _state._set_current_app(before)
