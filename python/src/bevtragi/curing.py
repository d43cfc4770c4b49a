"""The canvas to start on Celery's workers, so that they do what it means where that can be had."""

from __future__ import annotations

import json
import uuid
from typing import Any

from .celery_run import celery_version
from .errors import hidden
from .marking import Tree, app_of, callbacks_of, complete, kind_of, members_of, plain, walked
from .texts import Canvas, tree_of

__all__ = ["cured"]

__tracebackhide__ = hidden


def cured(flow: Canvas) -> Any:
    """The signature to start instead of a canvas: `cured(flow).apply_async()`. It has identifiers,
    so it is for one start; the canvas itself isn't changed.

    - Celery stores the failure of a chord's header under the identifier of the body. If the body is
      a chain it has none, so a member of the header fails instead, and its error callbacks run. In
      this signature each such chain has an identifier.
    - Celery calls the error callbacks of the body itself if a member of the header fails, and not
      those of the tasks in it. Error callbacks that each task of the chain has are also the
      chain's here.

    What is left is what `differences(cured(flow))` names: as a `get()` that waits forever, or an
    error callback that only the first task of a body has. A start by `export()` has none of these.
    Raises CanvasError if Celery isn't installed, and BadCall for what is no signature."""
    celery_version()
    from celery.canvas import Signature
    tree = plain(tree_of(flow))
    kind = type(flow) if isinstance(flow, Signature) else Signature
    with walked():
        if not isinstance(tree["task"], str):
            raise TypeError("it has no name of a task")
        _cure(tree)
        if kind_of(tree) == "chord" and kind_of(tree["kwargs"]["body"]) == "chain":
            # Since 5.3 the start of a chord gives its own identifier, or none, to the chain.
            tree["options"].setdefault("task_id", str(uuid.uuid4()))
        return kind.from_dict(tree, app=app_of(flow))


def _cure(sig: Tree) -> None:
    complete(sig)
    for it in [*members_of(sig), *callbacks_of(sig, "link"), *callbacks_of(sig, "link_error")]:
        _cure(it)
    body = sig["kwargs"].get("body") if kind_of(sig) == "chord" else None
    if isinstance(body, dict) and kind_of(body) == "chain":
        body["options"].setdefault("task_id", str(uuid.uuid4()))
        _move_callbacks(body)


def _move_callbacks(chain: Tree) -> None:
    """Gives a chain the error callbacks that each of its elements has, if these are tasks."""
    elements = members_of(chain)
    if not elements or any(kind_of(it) is not None for it in elements):
        return
    written = [{_text(it) for it in callbacks_of(element, "link_error")} for element in elements]
    shared = set.intersection(*written)
    own = callbacks_of(chain, "link_error")
    known = {_text(it) for it in own}
    more = [it for it in callbacks_of(elements[0], "link_error")
            if _text(it) in shared and _text(it) not in known]
    if more:
        chain["options"]["link_error"] = [*own, *more]


def _text(sig: Tree) -> str:
    return json.dumps(sig, sort_keys=True, default=str)
