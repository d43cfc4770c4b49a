"""Texts that take the place of a canvas's arguments, which may be of any kind."""

from __future__ import annotations

import json
from typing import Any, Dict, List

from .errors import hidden
from .marking import Tree, kind_of, walked

__all__ = ["Placeholders", "copied", "differ"]

__tracebackhide__ = hidden

#: Where a signature has others.
CALLBACKS, MEMBERS = ("link", "link_error"), ("tasks", "header", "body", "task")

#: The maps whose items are lists of arguments.
STARRED = ("celery.starmap", "celery.chunks")


class Placeholders:
    """A copy of a canvas in which a text takes the place of each argument: `~0`, `~1`. Arguments
    that are equal have the same text, since Celery drops an error callback that a task has already.
    """

    def __init__(self, canvas: Tree) -> None:
        self.values: List[Any] = []
        self._places: Dict[Any, List[int]] = {}
        with walked():
            self.tree: Tree = self._copy(canvas)

    def argument(self, text: str) -> Any:
        """The argument of a text."""
        return self.values[int(text[1:])]

    def _copy(self, sig: Tree) -> Tree:
        kind, options = kind_of(sig), dict(sig.get("options") or {})
        args, kwargs = [*(sig.get("args") or ())], dict(sig.get("kwargs") or {})
        options.update((key, self._copies(options[key])) for key in CALLBACKS if key in options)
        if kind is None:
            kwargs = {key: self._text_of(it) for key, it in kwargs.items()}
        else:
            kwargs.update((key, self._copies(kwargs[key])) for key in MEMBERS if key in kwargs)
        if kind == "map" and "it" in kwargs:
            is_starred = sig["task"] in STARRED
            kwargs["it"] = [[self._text_of(one) for one in it] if is_starred else self._text_of(it)
                            for it in kwargs["it"]]
        return {**sig, "args": [self._text_of(it) for it in args], "kwargs": kwargs,
                "options": options}

    def _copies(self, found: Any) -> Any:
        """The copy of a signature, or of a list of signatures."""
        if isinstance(found, (list, tuple)):
            return [self._copies(it) for it in found]
        return self._copy(found) if isinstance(found, dict) else found

    def _text_of(self, value: Any) -> str:
        try:
            key: Any = json.dumps(value, sort_keys=True)
        except (TypeError, ValueError, RecursionError):
            key = id(value)
        places = self._places.setdefault(key, [])
        for place in places:
            if self.values[place] is value or not differ(self.values[place], value):
                return f"~{place}"
        places.append(len(self.values))
        self.values.append(value)
        return f"~{places[-1]}"


def differ(one: Any, other: Any) -> bool:
    """Whether two values differ. Values that can't be compared don't."""
    try:
        return bool(one != other)
    except Exception:
        return False


def copied(value: Any) -> Any:
    """A copy of lists, tuples and dictionaries, with the same other values in it."""
    if type(value) in (list, tuple):
        return type(value)(copied(it) for it in value)
    if type(value) is dict:
        return {key: copied(it) for key, it in value.items()}
    return value
