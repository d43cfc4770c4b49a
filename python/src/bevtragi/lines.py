"""The lines of a canvas (docs/SEMANTICS.md): some tasks, and then at most one group or chord.

Here it is read off them after whom a task comes, and of which bodies Celery's workers are told that
the header failed. The canvas is one that the program runs: callbacks are tasks, and of tasks.
"""

from __future__ import annotations

from typing import Any, Dict, FrozenSet, Iterator, List, Mapping, NamedTuple, Sequence, Set, Union

from .errors import hidden
from .marking import Tree, callbacks_of, kind_of
from .reports import Row

__all__ = ["Dropped", "Lines"]

__tracebackhide__ = hidden


class Step(NamedTuple):
    """A task of a line."""
    number: int


class Fork(NamedTuple):
    """The group or chord that ends a line. A group has no body."""
    members: List[List[Any]]
    body: Union[None, List[Any]]


Line = List[Any]
Numbers = FrozenSet[int]
#: The tasks that failed without a call: REVOKED, or FAILURE if no worker has a task of the name.
Dropped = Mapping[int, str]


class Lines:
    """The lines of a canvas, with the tasks' numbers.

    names       of the tasks, in the order of their numbers
    before      the tasks right before each, which end before it is called
    owners      the task of each error callback
    signatures  what is written of each task"""

    def __init__(self, canvas: Tree) -> None:
        self.names: List[str] = []
        self.before: Dict[int, Numbers] = {}
        self.owners: Dict[int, int] = {}
        self.signatures: Dict[int, Tree] = {}
        self._forks: List[Fork] = []
        self._top = self._line([canvas], frozenset())

    def _line(self, elements: List[Tree], before: Numbers) -> Line:
        found: Line = []
        for place, sig in enumerate(elements):
            kind, inner, more = kind_of(sig), sig.get("kwargs") or {}, elements[place + 1:]
            if kind is None:
                found.append(Step(self._task(sig, before)))
                before = frozenset(found[-1])
            elif kind == "chain":
                return found + self._line([*inner.get("tasks", ()), *more], before)
            else:
                return [*found, self._fork(kind, inner, more, before)]
        return found

    def _fork(self, kind: str, inner: Tree, more: List[Tree], before: Numbers) -> Fork:
        members = inner.get("tasks" if kind == "group" else "header") or []
        if isinstance(members, dict):
            members = (members.get("kwargs") or {}).get("tasks") or []
        lines = [self._line([it], before) for it in members]
        ends = frozenset(it for line in lines for it in _ends(line)) if lines else before
        body = [inner["body"], *more] if kind == "chord" else more
        self._forks.append(Fork(lines, self._line(body, ends) if body else None))
        return self._forks[-1]

    def _task(self, sig: Tree, before: Numbers) -> int:
        self.names.append(sig["task"])
        number = len(self.names)
        self.before[number], self.signatures[number] = before, sig
        for it in callbacks_of(sig, "link"):
            self._task(it, frozenset([number]))
        for it in callbacks_of(sig, "link_error"):
            self.owners[self._task(it, frozenset([number]))] = number
        return number

    def firsts(self) -> List[int]:
        """The numbers of the tasks that are called first."""
        return [*_firsts(self._top)]

    def without_priority(self) -> Set[int]:
        """The tasks whose own priority Celery's workers forget: the body of a chord that is started
        after a task, or with such a chord, if it begins with a task."""
        return {*_bodies(self._top, False)}

    def told(self, rows: Sequence[Row], dropped: Dropped) -> Set[int]:
        """The bodies of failed headers of which Celery's workers are told: such a header has to be
        started, and each member has to return its part."""
        return {it.body[0].number for it in self._forks
                if it.body and isinstance(it.body[0], Step) and _fails(it.members, rows)
                and any(_begins(line, rows) for line in it.members)
                and all(_returns(line, rows, dropped) for line in it.members)}


def _fails(members: List[Line], rows: Sequence[Row]) -> bool:
    return any(rows[it - 1].status == "FAILURE" for line in members for it in _ends(line))


def _begins(line: Line, rows: Sequence[Row]) -> bool:
    """Whether a task is called that begins a line."""
    return any(rows[it - 1].ran for it in _firsts(line))


def _firsts(line: Line) -> Iterator[int]:
    """The tasks that begin a line. An empty header begins its body."""
    for it in line[:1]:
        if isinstance(it, Step):
            yield it.number
        else:
            for inner in it.members or [it.body or []]:
                yield from _firsts(inner)


def _bodies(line: Line, is_after: bool) -> Iterator[int]:
    """The tasks that begin the bodies of the chords that come after a task."""
    for place, it in enumerate(line):
        if isinstance(it, Fork):
            is_late = is_after or place > 0
            if is_late and it.body and isinstance(it.body[0], Step):
                yield it.body[0].number
            for inner in it.members:
                yield from _bodies(inner, is_late)
            yield from _bodies(it.body or [], False)


def _ends(line: Line) -> Iterator[int]:
    """The tasks that end a line."""
    last = line[-1] if line else None
    if isinstance(last, Step):
        yield last.number
    elif last is not None:
        for inner in [last.body] if last.body else last.members:
            yield from _ends(inner)


def _returns(line: Line, rows: Sequence[Row], dropped: Dropped) -> bool:
    """Whether Celery returns the part of a member of a header. If a task fails, it does so for the
    tasks after it, and not for groups and chords; and never after a chord whose header fails. It
    does not for a task that isn't registered, and of those that are revoked for the last one."""
    for place, it in enumerate(line):
        if isinstance(it, Fork):
            return not _fails(it.members, rows) and _returns(it.body or [], rows, dropped)
        if rows[it.number - 1].status == "FAILURE":
            more = line[place + 1:]
            return all(isinstance(one, Step) for one in more) if it.number not in dropped else \
                dropped[it.number] == "REVOKED" and not more
    return True
