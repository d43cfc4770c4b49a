"""Many rehearsals of one canvas: with each task failing, with each message delivered again, and
with the calls in other orders."""

from __future__ import annotations

from typing import Any, Callable, Dict, FrozenSet, Iterator, List, NamedTuple, Sequence, Set, Tuple

from .errors import CanvasError, hidden
from .rehearsal import Rehearsal
from .rehearsing import Rehearsable, StandIns, Through, World
from .reports import Failures
from .texts import Canvas, named

__all__ = ["Orders", "OtherOrder", "Redeliveries", "Redelivery", "rehearse_failures",
           "rehearse_orders", "rehearse_redeliveries"]

__tracebackhide__ = hidden

#: The orders of which all are tried; and how many are drawn if there are more.
MOST_ORDERS, DRAWN = 120, 20
#: The ways in which a message is delivered again.
WAYS = ("early", "late", "lost", "whole")


def rehearse_failures(flow: Canvas, stand_ins: StandIns = {}, error: Any = Exception,
                      app: Any = None, world: World = None, through: Through = None,
                      answers: Any = None) -> Failures:
    """The rehearse() of each task failing, by its number, for the tasks that are called if all goes
    well. print() it as every_failure(). Raises as rehearse()."""
    stand_ins = named(stand_ins)
    well = Rehearsable(flow, stand_ins, app, through, answers).rehearse(world=world)
    found = Failures((row.number, Rehearsable(flow, {**stand_ins, row.number: error}, app, through,
                                              answers).rehearse(world=world))
                     for row in well.rows if row.ran)
    found.well = well
    return found


class Redelivery(NamedTuple):
    """A task whose message is delivered again, when ("lost"), and what ends otherwise then."""
    number: int
    name: str
    at: Tuple[str, ...]
    differences: Tuple[str, ...]
    report: Rehearsal

    def __str__(self) -> str:
        return (f"#{self.number} {self.name} delivered again ({', '.join(self.at)}): "
                + "; ".join(self.differences))


class Redeliveries(List[Redelivery]):
    """The redeliveries after which something ends otherwise than if all goes `well`, each a line.
    The list is empty if there are none. `tried` is how many there were."""
    well: Rehearsal
    tried = 0

    def __repr__(self) -> str:
        return "\n".join(map(str, self)) or f"{self.tried} redeliveries end the same"


def rehearse_redeliveries(flow: Canvas, stand_ins: StandIns = {}, at: str | Sequence[str] = WAYS,
                          app: Any = None, world: World = None, through: Through = None,
                          answers: Any = None) -> Redeliveries:
    """The rehearse() of each message that is delivered again, in each way that `at` names; print()
    it. A way of which nothing ends otherwise isn't in the list, so that a test may say
    `assert not rehearse_redeliveries(flow, world=world)`.

    Raises CanvasError if it ends otherwise each time, and as rehearse()."""
    ways = [at] if isinstance(at, str) else [*at]
    rehearsable = Rehearsable(flow, stand_ins, app, through, answers)
    found = Redeliveries()
    found.well = _usual(rehearsable, world)
    for row in found.well.rows:
        if row.ran:
            reports = [(way, rehearsable.rehearse(again={row.number: way}, world=world))
                       for way in ways]
            found += _redelivered(found.well, row.number, reports)
            found.tried += len(ways)
    return found


def _usual(rehearsable: Rehearsable, world: World) -> Rehearsal:
    """The rehearsal as with one worker. Raises CanvasError if a second one ends otherwise."""
    usual, second = (rehearsable.rehearse(world=world) for _ in range(2))
    if usual != second:
        raise CanvasError("it ends otherwise each time, also in the same order: "
                          + "; ".join(usual.differences(second)))
    return usual


def _redelivered(well: Rehearsal, number: int, reports: List[Tuple[str, Rehearsal]]
                 ) -> Iterator[Redelivery]:
    """What ends otherwise, with the ways that end alike as one."""
    alike: Dict[Tuple[str, ...], List[Tuple[str, Rehearsal]]] = {}
    for way, report in reports:
        alike.setdefault(tuple(_changes(well, report)), []).append((way, report))
    for changes, several in alike.items():
        if changes:
            report = several[0][1]
            yield Redelivery(number, report[number].name, tuple(way for way, _ in several), changes,
                             report)


def _changes(well: Rehearsal, report: Rehearsal) -> Iterator[str]:
    """The tasks that answer otherwise when they are called again, and what ends otherwise."""
    first: Dict[int, str] = {}
    for call in report.calls:
        end = first.setdefault(call.number, call.end())
        if end != call.end():
            yield f"#{call.number} {call.name}: {end}, then {call.end()}"
    if well != report:
        yield from well.differences(report)


class OtherOrder(NamedTuple):
    """Two tasks whose order matters, and the rehearsals that show it. In `usual` the first one is
    called before the second; in `other` they have changed places."""
    first: int
    second: int
    usual: Rehearsal
    other: Rehearsal

    def __str__(self) -> str:
        one, two = (f"#{it} {self.other[it].name}" for it in (self.first, self.second))
        return f"{two} before {one}: " + "; ".join(self.usual.differences(self.other))


class Orders(List[OtherOrder]):
    """The pairs of tasks whose order matters, each a line. The list is empty if it ends the same in
    all orders. `tried` is how many there were, and `all` is true if there are no others."""
    tried = 0
    all = False

    def __repr__(self) -> str:
        some = "all " if self.all else ""
        orders = "order" if self.tried == 1 else "orders"
        return "\n".join(map(str, self)) or f"{some}{self.tried} {orders} end the same"


def rehearse_orders(flow: Canvas, stand_ins: StandIns = {}, orders: int = DRAWN, app: Any = None,
                    world: World = None, through: Through = None, answers: Any = None) -> Orders:
    """The rehearse() of the calls in other orders; print() it. All orders are tried if there are at
    most 120, and else as many as `orders` says, which are drawn. If one ends otherwise, two calls
    are named that make it so by changing places: `assert not rehearse_orders(flow, world=world)`.

    Raises CanvasError if it ends otherwise each time, also in one order, and as rehearse()."""
    rehearsable = Rehearsable(flow, stand_ins, app, through, answers)

    def rehearsed(order: Any) -> Rehearsal:
        return rehearsable.rehearse(order, world=world)
    usual = _usual(rehearsable, world)
    every = _orders_of(usual)
    found, seen = Orders(), {tuple(_order_of(usual))}
    pairs: Dict[Tuple[int, int], OtherOrder] = {}
    for order in range(orders) if every is None else every:
        other = rehearsed(order)
        seen.add(tuple(_order_of(other)))
        if other != usual:
            pair = _pair(rehearsed, usual, other)
            pairs.setdefault((pair.first, pair.second), pair)
    found += pairs.values()
    found.tried, found.all = len(seen), every is not None
    return found


def _pair(rehearsed: Callable[[Any], Rehearsal], usual: Rehearsal, other: Rehearsal) -> OtherOrder:
    """Two neighbours that end otherwise by changing places, on the way between two orders."""
    steps = _swaps(_order_of(usual), _order_of(other))
    good, bad = 0, len(steps) - 1
    while bad - good > 1:
        middle = (good + bad) // 2
        if rehearsed(steps[middle]) == usual:
            good = middle
        else:
            bad = middle
    first, second = next(it for it in zip(steps[good], steps[bad]) if it[0] != it[1])
    return OtherOrder(first, second, rehearsed(steps[good]), rehearsed(steps[bad]))


def _order_of(report: Rehearsal) -> List[int]:
    return list(dict.fromkeys(it.number for it in report.calls))


def _swaps(one: List[int], two: List[int]) -> List[List[int]]:
    """The lists from one to the other; in each two neighbours have changed places."""
    places, steps = {it: at for at, it in enumerate(two)}, [one]
    for end in range(len(one), 0, -1):
        for at in range(end - 1):
            now = list(steps[-1])
            if places.get(now[at], -1) > places.get(now[at + 1], -1):
                now[at], now[at + 1] = now[at + 1], now[at]
                steps.append(now)
    return steps


def _orders_of(report: Rehearsal) -> List[List[int]] | None:
    """All orders of the calls of a rehearsal but its own, or None if they are too many."""
    found: List[List[int]] = []
    for order in _extensions(report.after, report.in_place, [], set()):
        found.append(order)
        if len(found) > MOST_ORDERS:
            return None
    own = _order_of(report)
    return [it for it in found if it != own]


def _extensions(after: Dict[int, FrozenSet[int]], in_place: FrozenSet[int], order: List[int],
                ended: Set[int]) -> Iterator[List[int]]:
    """The orders in which each number comes after those that it has to; and in which what is called
    in place comes at once."""
    ready = [it for it, before in after.items() if it not in ended and before <= ended]
    if not ready:
        yield order
    for it in [it for it in ready if it in in_place][:1] or ready:
        yield from _extensions(after, in_place, [*order, it], ended | {it})
