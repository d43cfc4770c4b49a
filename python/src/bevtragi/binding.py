"""Whether the tasks of a canvas are those of an application, and take what they are called with."""

from __future__ import annotations

import functools
import inspect
from typing import Any, Iterator

from .errors import hidden
from .marking import Tree, callbacks_of, kind_of
from .outcomes import Warning

__all__ = ["IN_PLACE", "is_called_in_place", "misfits", "refusal"]

__tracebackhide__ = hidden

#: The arguments of an error callback of more than one parameter, which Celery calls in place.
IN_PLACE = 3


def misfits(canvas: Tree, app: Any) -> list[Warning]:
    """A warning for each task that the application doesn't know, or that is called with arguments
    it doesn't take."""
    return [*_of(canvas, "", 0, app)]


def _of(sig: Tree, at: str, given: int, app: Any) -> Iterator[Warning]:
    """Those of a signature that is called with `given` arguments before its own."""
    kind, inner = kind_of(sig), sig.get("kwargs") or {}
    if kind is None:
        yield from _of_task(sig, at, 0 if sig.get("immutable") else given, app)
    elif kind == "map":
        yield from _of_name(inner.get("task"), f"{at}/kwargs/task", app)
    else:
        given += len(sig.get("args") or ())
        for key in ("header",) if kind == "chord" else ("tasks",):
            yield from _of_members(inner.get(key), f"{at}/kwargs/{key}", kind, given, app)
        if isinstance(inner.get("body"), dict):
            yield from _of(inner["body"], f"{at}/kwargs/body", 1, app)
    for place, it in enumerate(callbacks_of(sig, "link")):
        yield from _of(it, f"{at}/options/link/{place}", 1, app)
    for place, it in enumerate(callbacks_of(sig, "link_error")):
        yield from _of_callback(it, f"{at}/options/link_error/{place}", app)


def _of_members(members: Any, at: str, kind: str, given: int, app: Any) -> Iterator[Warning]:
    if isinstance(members, dict):
        yield from _of(members, at, given, app)
        return
    for place, it in enumerate(members or ()):
        if isinstance(it, dict):
            yield from _of(it, f"{at}/{place}", 1 if kind == "chain" and place else given, app)


def _of_name(sig: Any, at: str, app: Any) -> Iterator[Warning]:
    name = sig.get("task") if isinstance(sig, dict) else None
    if name not in app.tasks:
        yield Warning("NotRegistered", str(name), at, "the application has no task of this name")


def _of_task(sig: Tree, at: str, given: int, app: Any) -> Iterator[Warning]:
    yield from _of_name(sig, at, app)
    error = refusal(sig, given, app)
    if error:
        yield Warning("WrongCall", sig["task"], at, f"its parameters don't take the call: {error}")


def _of_callback(sig: Tree, at: str, app: Any) -> Iterator[Warning]:
    if kind_of(sig) is not None or sig.get("task") not in app.tasks:
        yield from _of(sig, at, 1, app)
        return
    in_place = is_called_in_place(app.tasks[sig["task"]])
    given = 0 if sig.get("immutable") else IN_PLACE if in_place else 1
    error = refusal(sig, given, app)
    if error:
        how = "in place with request, exception and traceback" if in_place else "with an identifier"
        yield Warning("ErrorCallback", sig["task"], at, f"Celery calls it {how}: {error}")


def refusal(sig: Tree, given: int, app: Any) -> str:
    """Why a task doesn't take its arguments after `given` others; empty if it takes them."""
    if sig.get("task") not in app.tasks:
        return ""
    task = app.tasks[sig["task"]]
    try:
        parameters = _parameters(getattr(task, "__header__", None) or task.run)
        parameters.bind(*[None] * given, *(sig.get("args") or ()), **(sig.get("kwargs") or {}))
    except TypeError as error:
        return str(error)
    except ValueError:  # the parameters of some functions of C aren't known
        return ""
    return ""


@functools.lru_cache(maxsize=1024)
def _parameters(function: Any) -> inspect.Signature:
    return inspect.signature(function)


def is_called_in_place(task: Any) -> bool:
    """By Celery's rule for error callbacks: a function that isn't bound, of several parameters."""
    header = getattr(task, "__header__", None)
    if header is None or isinstance(header, functools.partial):
        return False
    found = inspect.getfullargspec(header)
    return bool(found.varargs) or len(found.args) > 1
