"""What the program says of a rehearsal: the tasks, the messages and the rows of a run.

To the program each task answers its number, so that a number in a message is the result of that
task; a text `~0` is an argument. A task that failed raises NotRegistered there, by any exception.
Tasks that haven't been called yet count as a success, so the program is asked again after a failure
only: at most 2 + failures times for a rehearsal, and once more if `adapt` makes another number of
tasks.
"""

from __future__ import annotations

import json
import re
from typing import Any, Dict, FrozenSet, Iterable, List, NamedTuple, Tuple, Union

from .errors import BadCall, CanvasError, hidden
from .marking import Tree, callbacks_of, kind_of, members_of, walked
from .reports import Row, row_of
from .texts import values

__all__ = ["Message", "RehearsedProgram", "Rows", "identifier_of", "number_of"]

__tracebackhide__ = hidden

#: The first digits of a task's identifier. The last eight are its number.
HEAD = "00000000-0000-8000-8000-0000"
IDENTIFIER = re.compile(HEAD + "([0-9a-f]{8})")
RAISES = "raise:NotRegistered"

Failed = FrozenSet[int]
Points = Tuple[Tuple[int, str], ...]


def identifier_of(number: int) -> str:
    """The identifier of a task."""
    return f"{HEAD}{number:08x}"


def number_of(identifier: Any) -> int:
    """The number of the task with an identifier, or 0 for anything else."""
    found = IDENTIFIER.fullmatch(identifier) if isinstance(identifier, str) else None
    return int(found[1], 16) if found else 0


class Message(NamedTuple):
    """The message that starts a task. A result in its arguments is the number of its task. It is
    published once all tasks of `after` have ended. If the completion of a chord's header publishes
    it, the chord itself was started once those of `header_after` had; else that is None."""
    number: int
    args: List[Any]
    kwargs: Dict[str, Any]
    after: FrozenSet[int]
    header_after: Union[None, FrozenSet[int]]


class Rows(NamedTuple):
    """The rows of a run, and how many results were stored again."""
    rows: List[Row]
    stored_again: int


class RehearsedProgram:
    """The program, asked about one canvas. It is asked once for each set of failed tasks."""

    def __init__(self, canvas: Tree) -> None:
        self.text = json.dumps(canvas, default=str).encode()
        self._messages: Dict[Failed, Dict[int, Message]] = {}
        self._rows: Dict[Tuple[Failed, Points], Rows] = {}
        self._ends: Union[None, int, List[int]] = None
        #: The names of the tasks by their numbers, in the order of the file.
        self.names: Dict[int, str] = {}
        with walked():
            count = _count(canvas)
        try:
            told = self._calls(frozenset(), range(1, count + 1))
        except BadCall:
            told = self._calls(frozenset(), ())
        self.names = dict(enumerate(told[-1]["names"], 1))
        if len(self.names) == count:
            self._messages[frozenset()] = _messages_of(told)

    def messages(self, failed: Failed) -> Dict[int, Message]:
        """The messages of the run in which these tasks fail, in the order of one worker."""
        if failed not in self._messages:
            self._messages[failed] = _messages_of(self._calls(failed, self.names))
        return self._messages[failed]

    def rows(self, failed: Failed, points: Points = ()) -> Rows:
        """The rows of that run, with messages delivered again at these points."""
        if (failed, points) not in self._rows:
            again = ",".join(f"{number}:{at}" for number, at in points)
            words = ["turns", "-", f"--again={again}"] if points else ["run", "-"]
            *told, end = self._values([*words, *_answers(failed, self.names)])
            rows = [row_of(number, it) for number, it in enumerate(told, 1)]
            if [it.name for it in rows] != [*self.names.values()]:
                raise CanvasError("`canvas run` has other tasks than `canvas messages`")
            ends = [number_of(it) for it in end["ends"]]
            self._ends = ends if isinstance(end["result"], list) else ends[0]
            self._rows[failed, points] = Rows(rows, end.get("again", 0))
        return self._rows[failed, points]

    def ends(self) -> int | list[int]:
        """The number of the task whose result is the canvas's, or the list of these numbers."""
        if self._ends is None:
            self.rows(frozenset())
        assert self._ends is not None
        return self._ends

    def _calls(self, failed: Failed, numbers: Iterable[int]) -> list[Any]:
        return self._values(["messages", "-", "--calls", "--task=*=0", *_answers(failed, numbers)])

    def _values(self, words: list[str]) -> list[Any]:
        return values([*words, "--adapt"], self.text)


def _count(sig: Tree) -> int:
    """How many tasks a canvas has, where `adapt` makes neither more nor fewer."""
    inner = [*members_of(sig), *callbacks_of(sig, "link"), *callbacks_of(sig, "link_error")]
    return (kind_of(sig) is None) + sum(map(_count, inner))


def _answers(failed: Failed, numbers: Iterable[int]) -> list[str]:
    """What the tasks with these numbers answer."""
    return [f"--task=#{it}={RAISES if it in failed else it}" for it in numbers]


def _messages_of(told: List[Dict[str, Any]]) -> Dict[int, Message]:
    """The messages by their numbers."""
    found = {}
    for it in told[:-1]:
        number, header = number_of(it["task_id"]), it["header_after"]
        found[number] = Message(number, it["args"], it["kwargs"], _numbers(it["after"]),
                                None if header is None else _numbers(header))
    return found


def _numbers(identifiers: Iterable[str]) -> FrozenSet[int]:
    return frozenset(map(number_of, identifiers))
