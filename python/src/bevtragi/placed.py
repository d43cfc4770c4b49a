"""Canvases whose arguments are places, and the values that are put there.

The program knows whole numbers, texts and lists of numbers. So each argument of a canvas becomes a
text, `~0`, `~1`, and its JSON is in a list beside it, as Celery's serializer writes it. The
program puts the values into the messages.
"""

from __future__ import annotations

import json
from typing import Any, Dict, NamedTuple

from .calling import ask_once
from .errors import BadCall, hidden
from .lines import Lines
from .marking import Tree, plain
from .options import Options, taken
from .placeholders import Placeholders
from .texts import Canvas, tree_of

__all__ = ["Placed", "placed"]

__tracebackhide__ = hidden


class Placed(NamedTuple):
    """A canvas that the program runs, whose arguments are places, without the options that a start
    heeds; the values of the places, as a list in JSON; the canvas with its arguments, for pictures;
    what was adapted, in the program's words; and the options, by the tasks' numbers."""
    text: bytes
    values: bytes
    shown: bytes
    adapted: list[str]
    options: Dict[int, Options]

    @property
    def tree(self) -> Tree:
        """The canvas as a dictionary."""
        return dict(json.loads(self.text))


def placed(flow: Canvas) -> Placed:
    """A canvas with places. Raises Refused, and BadCall for arguments that JSON doesn't have, and
    for options that are of another kind than Celery's."""
    tree = _sent(tree_of(flow))
    found = Placeholders(tree)
    text, said = ask_once(["adapt", "-"], json.dumps(found.tree).encode())
    bare = dict(json.loads(text))
    options = taken(Lines(bare))
    return Placed(json.dumps(bare).encode() if options else text.encode(),
                  json.dumps(found.values).encode(), json.dumps(tree).encode(),
                  lines_after(said, "adapted "), options)


def lines_after(said: str, word: str) -> list[str]:
    """What the program says on standard error in the lines that begin with a word."""
    start = f"canvas: {word}"
    return [it[len(start):] for it in said.splitlines() if it.startswith(start)]


def _sent(tree: Tree) -> Tree:
    """A canvas as Celery's serializer sends it: its JSON, read again."""
    try:
        try:
            from kombu.serialization import dumps
        except ImportError:
            text = json.dumps(plain(tree))
        else:
            text = dumps(plain(tree), serializer="json")[2]
        return dict(json.loads(text, parse_constant=_refuse))
    except Exception as error:
        raise BadCall(f"an argument of this canvas can't be sent as JSON: {error}") from error


def _refuse(name: str) -> Any:
    raise ValueError(f"JSON has no {name}")
