"""Rehearses canvases from chance, with functions that do what the program's own tasks do.

    python3 chance_rehearsals.py COUNT    with the program that $CANVAS names

The canvases are those of tests/program/chance. Each is rehearsed in the order of one worker and in
two that are drawn, with a message delivered again. The report has to be that of run(); the order of
one worker, that of the program's messages; and no message of a run by turns of up to eight workers
may come before one that it has to come after. The status is 1 if something isn't so.
"""

import functools
import json
import random
import sys
from importlib.machinery import SourceFileLoader
from importlib.util import module_from_spec, spec_from_loader
from pathlib import Path
from uuid import UUID

# No compiled modules are left in the tree.
sys.dont_write_bytecode = True

TOP = Path(__file__).resolve().parent.parent.parent
sys.path[:0] = [str(TOP / "tests/program"), str(TOP / "python" / "src")]

import rules
from bevtragi import Refused, rehearse, run
from bevtragi.calling import ask
from bevtragi.rehearsed_program import number_of
from bevtragi.texts import text_of


class NotRegistered(Exception):
    """What the program raises for a task that it doesn't have."""


def checked(*numbers):
    if any(type(it) is not int for it in numbers):
        raise TypeError("a whole number is wanted")


def whole(number):
    if abs(number) > rules.GREATEST:
        raise OverflowError(number)
    return number


def add(x, y):
    checked(x, y)
    return whole(x + y)


def mul(x, y):
    checked(x, y)
    return whole(x * y)


def div(x, y):
    checked(x, y)
    return whole(x // y)


def ident(x):
    checked(x)
    return x


def xsum(numbers):
    if type(numbers) is not list:
        raise TypeError("a list is wanted")
    checked(*numbers)
    return whole(sum(numbers))


def log_error(uuid):
    try:
        number = number_of(str(UUID(uuid)))
    except (AttributeError, ValueError):
        number = 0
    if number == 0:
        raise TypeError("an identifier is wanted")
    return number


TASKS = {f"tasks.{it.__name__}": it for it in (add, mul, div, ident, xsum, log_error)}


@functools.lru_cache(maxsize=None)
def module_of(name):
    """A script of tests/program, as a module."""
    loader = SourceFileLoader(name, str(TOP / "tests/program" / name))
    module = module_from_spec(spec_from_loader(name, loader))
    loader.exec_module(module)
    return module


def grown(seed):
    """A canvas from chance."""
    return module_of("chance").grown(random.Random(seed))


def turns_of(dice):
    """The words for a run by turns of some workers."""
    workers = 1 + dice.randrange(8)
    turns = ",".join(str(1 + dice.randrange(workers)) for _ in range(dice.randrange(200)))
    return [f"--workers={workers}", f"--turns={turns}"]


def numbers(canvas, *words):
    """The numbers of the program's messages in their order."""
    said = ask(["messages", "-", *words], text_of(canvas))[0]
    return [number_of(json.loads(json.loads(it)["headers"])["id"])
            for it in said.split("\n")[:-1]]


def faults(seed):
    """What isn't as it has to be for the canvas of a seed; None if the program refuses it."""
    dice, canvas = random.Random(seed), grown(seed)
    try:
        wanted = run(canvas)
    except Refused:
        return None
    names = {row.name for row in wanted.rows}
    tasks = {name: TASKS.get(name, NotRegistered) for name in names}
    found = []
    for order in (None, seed, seed + 1):
        again = {} if order is None or not names else {
            1 + dice.randrange(len(wanted.rows)): dice.choice(["early", "late"])}
        report = rehearse(canvas, tasks, order=order, again=again)
        if [*report] != [*wanted] or report.result != wanted.result:
            found.append(f"order {order}: {report}\nwanted: {wanted}")
        if order is None and [it.number for it in report.calls] != numbers(canvas):
            found.append(f"the order of one worker: {report.calls}")
    for _ in range(4):
        taken = numbers(canvas, *turns_of(dice))
        places = {number: place for place, number in enumerate(taken)}
        if {*taken} != report.after.keys() or any(
                places[it] > places[number] for number, before in report.after.items()
                for it in before):
            found.append(f"the order of some workers: {taken}")
    return found


def main():
    ends = [(seed, faults(seed)) for seed in range(int(sys.argv[1]))]
    wrong = [(seed, it) for seed, it in ends if it]
    for seed, it in wrong[:5]:
        print(seed, *it, sep="\n", file=sys.stderr)
    refused = sum(it is None for _, it in ends)
    print(f"{len(ends) - refused - len(wrong)} canvases are rehearsed as they run, {len(wrong)}"
          f" aren't, and {refused} are refused")
    return 1 if wrong else 0


if __name__ == "__main__":
    sys.exit(main())
