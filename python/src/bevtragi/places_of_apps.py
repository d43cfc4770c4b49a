"""Where an application's canvases are started: its Redis, its queue, and the keys of results.

Celery isn't imported. All of it is asked of the application, whose own connections are used, as
with TLS, passwords and prefixes.
"""

from __future__ import annotations

import contextlib
from bisect import bisect
from typing import Any, Iterator, NamedTuple, Tuple, Union

from .errors import BadCall, CanvasError, hidden
from .marking import app_of, walked

__all__ = ["Place", "application", "asked", "place_of"]

__tracebackhide__ = hidden

#: What Celery puts before an identifier.
RESULT = "celery-task-meta-"
#: How long the program keeps a chord's size at most, in seconds.
LONGEST = 10 ** 9
#: What makes two clients of one server, by their connections.
SERVER = ("host", "port", "path")
#: The priorities of which kombu has a list each, and what it puts before one in the name of a list.
STEPS, SEPARATOR, MOST_PRIORITY = (0, 3, 6, 9), "\x06\x16", 9
NEEDED = "a start needs Redis as broker and as result backend"

Databases = Union[None, Tuple[int, int]]


class Place(NamedTuple):
    """Where canvases are started.

    client     a client of the Redis with the results
    queue      the queue of tasks that no route names
    before     what the broker puts before the key of a queue; not into the messages, as kombu puts
               it there itself if it redelivers one
    prefix     what the result backend puts before its keys
    expires    how many seconds results are kept, or None
    databases  of the queue and of the results, or None if both are the client's own
    steps      the priorities of which the broker has a list each
    separator  what it puts before one in the name of a list"""
    client: Any
    queue: str = "celery"
    before: str = ""
    prefix: str = ""
    expires: Union[None, int] = 86_400
    databases: Databases = None
    steps: Tuple[int, ...] = STEPS
    separator: str = SEPARATOR

    def key_of(self, queue: str, priority: int) -> str:
        """The key of the list of a queue with the messages of a priority, as kombu names it."""
        step = self.steps[bisect(self.steps, min(max(priority, 0), MOST_PRIORITY)) - 1]
        return f"{self.before}{queue}" + (f"{self.separator}{step}" if step else "")

    def words(self) -> list[str]:
        """The options of `canvas export`, but for the queue."""
        kept = min(self.expires or LONGEST, LONGEST)
        found = [f"--prefix={self.prefix}", f"--expires={kept}"]
        if self.databases is not None:
            found += [f"--broker-db={self.databases[0]}", f"--backend-db={self.databases[1]}"]
        return found


def application(flow: Any, app: Any) -> Any:
    """The application that is given, or else that of the signature; None if there is none."""
    if app is None:
        with walked():
            app = app_of(flow) or getattr(flow, "app", None)
    return getattr(app, "_get_current_object", lambda: app)()


def place_of(app: Any, client: Any) -> Place:
    """Where an application's canvases are started. Raises CanvasError if that can't be.

    With a client of the user's no connection of the application is made."""
    if app is None:
        if client is None:
            raise BadCall("a start needs your Celery application as `app`, or a client of Redis")
        return Place(client)
    _check_settings(app)
    with asked("the result backend"):
        backend = app.backend
        kinds = [it.__name__ for it in type(backend).__mro__]
    if "RedisBackend" not in kinds:
        raise CanvasError(f"{NEEDED}, and the result backend is a {kinds[0]}: set result_backend to"
                          " the URL of a Redis")
    place = Place(client, app.conf.task_default_queue, "", _prefix(backend), backend.expires)
    transport = app.conf.broker_transport_options or {}
    place = place._replace(steps=tuple(transport.get("priority_steps") or STEPS),
                           separator=transport.get("sep") or SEPARATOR)
    if client is not None:
        return place._replace(before=transport.get("global_keyprefix") or "")
    with asked("the result backend"):
        place = place._replace(client=backend.client)
    with _broker(app) as channel, asked("the broker"):
        before = getattr(channel, "global_keyprefix", "") or ""
        databases = _databases(channel.client, place.client)
    return place._replace(before=before, databases=databases)


def _check_settings(app: Any) -> None:
    """Raises CanvasError for settings with which workers don't read what is started."""
    for name in ("task_serializer", "result_serializer"):
        if app.conf[name] != "json":
            raise CanvasError(f"{name} is {app.conf[name]!r}, and a start sends and reads JSON: set"
                              " it to \"json\"")
    if not {"json", "application/json"} & {*app.conf.accept_content}:
        raise CanvasError("accept_content has no \"json\", so no worker would read what is started")
    if app.conf.task_ignore_result:
        raise CanvasError("task_ignore_result is set, so nobody would see how a run ends")
    if app.conf.task_always_eager:
        raise CanvasError("task_always_eager is set, and a start is for workers: rehearse() calls"
                          " the tasks in this process")


@contextlib.contextmanager
def asked(what: str) -> Iterator[None]:
    try:
        yield
    except CanvasError:
        raise
    except Exception as error:
        raise CanvasError(f"{what} can't be used: {type(error).__name__}: {error}") from error


@contextlib.contextmanager
def _broker(app: Any) -> Iterator[Any]:
    """A channel of the application's broker, of its pool of connections."""
    with asked("the broker"), app.connection_or_acquire() as connection:
        kind = connection.transport.driver_type
        if kind != "redis":
            raise CanvasError(f"{NEEDED}, and the broker is {kind}: set broker_url to the URL of a"
                              " Redis")
        connection.ensure_connection(max_retries=1)  # a channel would be waited for without an end
        yield connection.default_channel


def _prefix(backend: Any) -> str:
    """The prefix of the keys of the backend."""
    key = backend.task_keyprefix
    key = key.decode() if isinstance(key, bytes) else key
    if not key.endswith(RESULT):
        raise CanvasError(f"the keys of results begin with {key!r}, and a start knows {RESULT!r}")
    return str(key[:-len(RESULT)])


def _databases(broker: Any, backend: Any) -> Databases:
    """The databases of two clients of one server; None if it is one database."""
    one, two = (it.connection_pool.connection_kwargs for it in (broker, backend))
    addresses = [[it.get(name) for name in SERVER] for it in (one, two)]
    is_one = addresses[0] == addresses[1] and any(addresses[0])  # Sentinel's have none
    if not is_one and broker.info("server")["run_id"] != backend.info("server")["run_id"]:
        raise CanvasError("the broker and the result backend are two servers, and a start is one"
                          " script on one: let both be databases of one Redis")
    found = int(one.get("db") or 0), int(two.get("db") or 0)
    return None if found[0] == found[1] else found
