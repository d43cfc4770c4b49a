"""Names that tell the tasks of a canvas apart, though several have one name.

A task is marked by another name, which has a number. Celery and the program carry the name wherever
the task goes: into messages, chains, chords and callbacks.
"""

from __future__ import annotations

import json
from contextlib import contextmanager
from typing import Any, Dict, Iterator, Set

from .errors import BadCall, hidden

__all__ = ["Marked", "app_of", "callbacks_of", "complete", "identified", "kind_of", "members_of",
           "plain", "walked"]

__tracebackhide__ = hidden

CANVASES = ("chain", "group", "chord")
MAPS = ("celery.map", "celery.starmap", "celery.chunks")

Tree = Dict[str, Any]


def kind_of(sig: Tree) -> str | None:
    """Which canvas a signature is: "chain", "group", "chord" or "map"; or None for a task."""
    kind = sig.get("subtask_type")
    return kind if kind in CANVASES else "map" if sig.get("task") in MAPS else None


def members_of(sig: Tree) -> list[Tree]:
    """The signatures right below a canvas, in the order of the file. A task has none."""
    inner = sig.get("kwargs") or {}
    return [it for key in _keys_of(kind_of(sig)) for it in _listed(inner.get(key))]


def _keys_of(kind: str | None) -> tuple[str, ...]:
    """The arguments of a canvas that are signatures."""
    return {"chord": ("header", "body"), "map": ("task",), None: ()}.get(kind, ("tasks",))


def callbacks_of(sig: Tree, key: str) -> list[Tree]:
    """The callbacks of a signature, of `key` "link" or "link_error"."""
    return _listed((sig.get("options") or {}).get(key))


def _listed(found: Any) -> list[Tree]:
    return [it for it in ([found] if isinstance(found, dict) else found or ())
            if isinstance(it, dict)]


def app_of(sig: Any) -> Any:
    """The application of the first signature that has one."""
    if not isinstance(sig, dict):
        return None
    found = getattr(sig, "_app", None) or getattr(getattr(sig, "_type", None), "app", None)
    return found or next(filter(None, map(app_of, members_of(sig))), None)


@contextmanager
def walked() -> Iterator[None]:
    """Raises BadCall if what is walked isn't made as signatures are."""
    try:
        yield
    except (AttributeError, LookupError, TypeError, RecursionError) as error:
        raise BadCall(f"this canvas isn't a signature of Celery: {error}") from error


def plain(value: Any) -> Any:
    """A copy of dictionaries and lists, with the same other values in it."""
    if isinstance(value, dict):
        return {key: plain(it) for key, it in value.items()}
    return [plain(it) for it in value] if isinstance(value, (list, tuple)) else value


def complete(sig: Tree) -> None:
    """Gives a signature the members that Celery looks for, if its JSON leaves them out."""
    for key, kind in (("args", list), ("kwargs", dict), ("options", dict)):
        if not sig.get(key):
            sig[key] = kind()
    sig.setdefault("subtask_type", None)
    sig.setdefault("immutable", False)


class Marked:
    """A copy of a canvas in which each task has a mark. `names` are by mark, and `in_maps` are the
    marks of the tasks that a map, starmap or chunks calls, and of its callbacks.

    Celery doesn't add an error callback that a task has already, written alike. So a callback that
    a canvas around the task has, too, gets the same mark."""

    def __init__(self, canvas: Tree) -> None:
        self.names: Dict[str, str] = {}
        self.in_maps: Set[str] = set()
        with walked():
            self.tree = self._copy(canvas, {})

    def copy(self) -> Any:
        """The canvas, for Celery to change."""
        return plain(self.tree)

    def _mark(self, name: Any) -> Any:
        if not isinstance(name, str) or name.startswith("celery."):
            return name
        mark = f"{name[:100]}#{len(self.names) + 1}"
        self.names[mark] = name
        return mark

    def _copy(self, sig: Any, around: dict[str, Tree]) -> Any:
        if not isinstance(sig, dict):
            return plain(sig)
        kind, copy, inner = kind_of(sig), plain(sig), dict(around)
        complete(copy)
        if kind is None:
            copy["task"] = self._mark(sig.get("task"))
        for key in ("link", "link_error"):
            found = callbacks_of(sig, key)
            if found:
                copy["options"][key] = [self._callback(it, around, inner) for it in found]
                if kind == "map":
                    self.in_maps.update(it.get("task") for it in copy["options"][key])
        # after the callbacks, which the members may have too
        self._copy_members(kind, sig.get("kwargs") or {}, copy["kwargs"], inner)
        return copy

    def _copy_members(self, kind: str | None, old: Tree, new: Tree, around: dict[str, Tree]
                      ) -> None:
        for key in _keys_of(kind):
            if isinstance(old.get(key), dict):
                new[key] = self._copy(old[key], around)
            elif old.get(key):
                new[key] = [self._copy(it, around) for it in old[key]]
        if kind == "map" and isinstance(old.get("task"), dict):
            self.in_maps.add(new["task"].get("task"))

    def _callback(self, sig: Tree, around: dict[str, Tree], inner: dict[str, Tree]) -> Tree:
        text = json.dumps(sig, sort_keys=True, default=str)
        if text in around:
            return dict(plain(around[text]))
        inner[text] = self._copy(sig, around)
        return inner[text]


def identified(value: Any) -> Iterator[tuple[str, str]]:
    """The identifiers and names of the tasks in a part of a message."""
    if isinstance(value, dict):
        number = (value.get("options") or {}).get("task_id") if "task" in value else None
        if number and not value.get("subtask_type"):
            yield number, value["task"]
    inner = value.values() if isinstance(value, dict) else value if isinstance(value, list) else ()
    for it in inner:
        yield from identified(it)
