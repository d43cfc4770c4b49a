"""An application of Celery whose broker and result backend are in memory. It imports Celery.

Everything that decides is Celery's own code: canvases, messages, requests, traces, the Redis
backend and `get()`. What it talks to is replaced: Redis by a Store, the queue by a list of its
messages, and the function of each task by an answer.
"""

from __future__ import annotations

import functools
import inspect
from contextlib import nullcontext
from typing import Any, Callable

from celery import Celery, _state
from celery.app.amqp import AMQP
from celery.app.trace import build_tracer
from celery.backends.asynchronous import drainers
from celery.backends.redis import RedisBackend, ResultConsumer
from kombu.message import Message
from kombu.serialization import dumps, prepare_accept_content
from kombu.utils import json

__all__ = ["App", "Backend", "HOST", "app_for"]

#: The settings of the user's application that the outcome depends on.
SETTINGS = ("accept_content", "result_accept_content", "result_backend_transport_options",
            "result_serializer", "task_allow_error_cb_on_chord_header", "task_ignore_result",
            "task_serializer", "task_store_errors_even_if_ignored")
#: The options of a user's task that it depends on.
OPTIONS = ("ignore_result", "serializer", "store_errors_even_if_ignored", "typing")
#: The tasks that an application keeps at most, and the applications that are kept.
MOST, MOST_APPS = 4096, 8
HOST = "bevtragi"


class Consumer(ResultConsumer):
    """Celery's own, which waits in this thread though gevent or eventlet be there."""

    _pubsub: Any

    def __init__(self, *args: Any, **kwargs: Any) -> None:
        super().__init__(*args, **kwargs)
        self.drainer = drainers["default"](self)

    def drain_events(self, timeout: float | None = None) -> None:
        """Waits for a message of those that came, and doesn't sleep where it subscribes none."""
        self._pubsub = self._pubsub or self.backend.client.pubsub()
        super().drain_events(timeout)


class Backend(RedisBackend):
    """Celery's own, with a Store as its client."""

    ResultConsumer = Consumer
    client = None
    redis = RedisBackend.redis or object()

    def __init__(self, app: App, session: Any) -> None:
        super().__init__(app=app)
        self.client, self.session = session.store, session

    def on_task_call(self, producer: Any, task_id: str) -> None:
        if self is self.session.caller:  # a worker's process doesn't listen to what it sends
            super().on_task_call(producer, task_id)

    def get_many(self, task_ids: Any, *args: Any, **kwargs: Any) -> Any:
        """Doesn't sleep between two looks, as nothing happens meanwhile."""
        return super().get_many(task_ids, *args, **{**kwargs, "interval": 0})

    def prepare_exception(self, exc: BaseException, serializer: str | None = None) -> Any:
        """Notes an exception outside of a task's function: only for these it is "pickle"."""
        if serializer == "pickle":
            self.session.errors.append(exc)
        return super().prepare_exception(exc, serializer)

    def chord_error_from_stack(self, callback: Any, exc: BaseException | None = None) -> Any:
        """Notes an exception of the body's start."""
        if str(exc).startswith(("Callback error", "Join error")) and exc:
            self.session.errors.append(exc)
        return super().chord_error_from_stack(callback, exc)


class Messages(AMQP):
    """Celery's own, which puts messages on the list and sends no signal."""

    def send_task_message(self, producer: Any, name: str, message: Any, headers: Any = None,
                          serializer: str | None = None, **options: Any) -> None:
        own, properties, body, _event = message
        own = json.loads(json.dumps({**own, **(headers or {})}))
        sort, encoding, data = dumps(body, serializer or self.app.conf.task_serializer)
        sent = Message(data, content_type=sort, content_encoding=encoding, headers=own,
                       properties=properties, delivery_info={},
                       accept=prepare_accept_content(self.app.conf.accept_content))
        self.app.session.queue.append(sent)
        self.app.session.messages.append(sent)


class Connection:
    """As much of a connection as the start of a task asks for."""

    def _reraise_as_library_errors(self) -> Any:
        return nullcontext()


class Producer:
    """As much of a producer."""

    connection = Connection()
    serializer = None


class App(Celery):
    """An application with the builtin tasks, and tasks that answer as the session says.

    `user` is the application whose tasks have the parameters; without one a task takes any."""

    session: Any  # a celery_session.Session
    finalized: bool

    def __init__(self, user: Any = None) -> None:
        super().__init__(HOST, amqp=Messages, loader="celery.loaders.app:AppLoader",
                         broker="memory://", set_as_current=False, fixups=(),
                         strict_typing=False)
        _state._deregister_app(self)  # so that no task shared between applications is put here
        self.user = user
        if user is not None:
            self.conf.update({key: user.conf.get(key) for key in SETTINGS})
        self.own: dict[str, Any] = {}

    @property
    def backend(self) -> Backend:
        return self.session.backend

    def producer_or_acquire(self, producer: Any = None) -> Any:
        return nullcontext(producer or Producer())

    def finalize(self, auto: bool = False) -> None:
        """Takes Celery's own tasks, and none that other applications share."""
        if not self.finalized:
            self.finalized = True
            for add in [*_state._on_app_finalizers]:
                if add.__module__ == "celery.app.builtins":
                    add(self)
            for task in [*self._tasks.values()]:
                self._make_ready(task)

    def _make_ready(self, task: Any) -> None:
        """As a worker does at its start."""
        task.bind(self)
        task.__trace__ = build_tracer(task.name, task, self.loader, HOST, app=self)

    def take(self, names: dict[str, str]) -> None:
        """Registers the tasks, but for those that the user's application doesn't know."""
        if len(self._tasks) > MOST:
            for mark in self.own:
                dict.pop(self._tasks, mark, None)
            self.own = {}
        known = self.user.tasks if self.user is not None else None
        for mark, name in names.items():
            task = None if known is None else dict.get(known, name)
            if mark not in self._tasks or self.own[mark] is not task:
                dict.pop(self._tasks, mark, None)
                if task is not None or known is None:
                    self._register(mark, task)

    def _register(self, mark: str, own: Any) -> None:
        check = _check_of(own)

        def run(task: Any, *args: Any, **kwargs: Any) -> Any:
            check(*args, **kwargs)
            return self.session.answer(task.name, args, kwargs)
        options = {key: getattr(own, key, None) for key in OPTIONS if own is not None}
        self.task(run, name=mark, bind=True, shared=False, lazy=False, **options)
        task = self._tasks[mark]
        if own is None:
            type(task).__header__ = staticmethod(_of_one_parameter)
        elif hasattr(own, "__header__"):
            type(task).__header__ = staticmethod(own.__header__)
        else:
            del type(task).__header__
        self.own[mark] = own
        self._make_ready(task)


@functools.lru_cache(maxsize=MOST_APPS)
def _kept(user: Any, _settings: str) -> App:
    return App(user)


def app_for(user: Any) -> App:
    """An application that is kept: for one of the user, with its settings; or for none."""
    settings = {} if user is None else {key: user.conf.get(key) for key in SETTINGS}
    return _kept(user, repr(settings))


def _of_one_parameter(uuid: str) -> None:
    """The parameters of an error callback that Celery starts by a message."""


def _check_of(own: Any) -> Callable[..., Any]:
    """What raises the TypeError of a call that a user's task doesn't take."""
    if own is None:
        return lambda *args, **kwargs: None
    return getattr(own, "__header__", None) or inspect.signature(own.run).bind
