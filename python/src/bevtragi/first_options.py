"""The options by which Celery's `apply_async()` sends the first tasks of a canvas: those of their
signatures, of their tasks' classes, and of their routes."""

from __future__ import annotations

import json
from typing import Any, Dict, List, Mapping

from .errors import BadCall, hidden
from .lines import Lines
from .marking import Tree
from .options import Options
from .places_of_apps import Place, asked

__all__ = ["first_options"]

__tracebackhide__ = hidden

#: Options that the class of a task may have, if the signature has none of its own.
OF_CLASSES = ("expires", "ignore_result", "priority", "queue", "soft_time_limit", "time_limit")
#: Options that a route is asked with, and may have.
OF_ROUTES = ("headers", "priority", "queue")


def first_options(app: Any, lines: Lines, options: Mapping[int, Options], place: Place,
                  values: bytes, wanted: Any) -> Dict[int, Options]:
    """The options of each first task, by number: its queue, and others. `wanted` is the queue of
    all of them, if there is one. Raises BadCall for another one, and CanvasError if the application
    has no such queue."""
    if wanted is not None and (not isinstance(wanted, str) or not wanted):
        raise BadCall(f"queue is the name of a queue, not {wanted!r:.60}")
    found, arguments = {}, json.loads(values)
    for number in lines.firsts():
        own = {**options.get(number, {}), **({"queue": wanted} if wanted is not None else {})}
        found[number] = {"queue": place.queue, **own} if app is None else \
            _by_celery(app, lines.signatures[number], own, arguments)
    return found


def _by_celery(app: Any, sig: Tree, own: Options, arguments: List[Any]) -> Options:
    """With the options of the task's class and of its route."""
    name = sig["task"]
    task = app.tasks.get(name)
    found = {it: getattr(task, it, None) for it in OF_CLASSES}
    found.update(own)
    found = {key: it for key, it in found.items() if it is not None and it is not False}
    args = [_argument(it, arguments) for it in sig.get("args") or ()]
    kwargs = {key: _argument(it, arguments) for key, it in (sig.get("kwargs") or {}).items()}
    with asked("the route of a task"):
        routed = app.amqp.router.route({key: found[key] for key in OF_ROUTES if key in found}, name,
                                       args, kwargs, task)
    found.update((key, routed[key]) for key in OF_ROUTES if routed.get(key) is not None)
    queue = found.get("queue")
    found["queue"] = str(getattr(queue, "name", queue) or app.conf.task_default_queue)
    return found


def _argument(text: Any, arguments: List[Any]) -> Any:
    """The argument at a place."""
    is_place = isinstance(text, str) and text[:1] == "~" and text[1:].isdigit()
    return arguments[int(text[1:])] if is_place else text
