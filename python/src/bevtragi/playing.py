"""Runs of a canvas by turns, step by step, as the page plays them."""

from __future__ import annotations

from typing import Any, Dict, Iterator, List, Sequence

from .drawing import number_of
from .errors import BadCall, hidden
from .texts import Answers, values, words_of

__all__ = ["check_workers", "plays"]

__tracebackhide__ = hidden

#: The characters of all runs in which a task fails: a run for each task has to fit in.
MOST = 600_000

#: The letter of a step in a play, by what the worker asked. A store that found a result is `S`.
LETTERS = {"publish": "p", "take": "t", "store": "s", "part": "c", "read": "r", "ack": "a",
           "redeliver": "d"}
WORKERS = "0123456789abcdefg"

Play = Dict[str, Any]


def check_workers(workers: Any) -> None:
    """Raises BadCall unless these are numbers of workers that a run may have."""
    is_listed = isinstance(workers, Sequence) and not isinstance(workers, (str, bytes))
    if not is_listed or not all(type(it) is int and 1 <= it <= 16 for it in workers):
        raise BadCall("workers is a list of numbers of workers, each from 1 to 16")


def plays(text: bytes, tasks: Answers, error: Any, workers: Sequence[int], failing: Sequence[int]
          ) -> List[Play]:
    """The runs by these numbers of workers, each also with all messages delivered again; and if
    they are short, by two workers the run in which each of these tasks fails."""
    if not workers:
        return []
    found = [_play(text, tasks, count, again) for count in workers for again in (False, True)]
    count = 2 if 2 in workers else min(workers)
    longest = max(len(it["steps"]) for it in found if it["workers"] == count and not it["again"])
    if longest * len(failing) <= MOST:
        found += [_play(text, {**tasks, number: error}, count, failing=number)
                  for number in failing]
    return found


def _play(text: bytes, tasks: Answers, workers: int, again: bool = False, failing: int = 0) -> Play:
    words = ["turns", "-", "--steps", f"--workers={workers}", *["--again=all"] * again]
    steps = _steps(values([*words, *words_of(tasks, True)], text))
    return {"workers": workers, "again": again, "failing": failing, "steps": " ".join(steps)}


def _steps(told: Sequence[Dict[str, Any]]) -> Iterator[str]:
    """The steps that do something, each in a word: worker, letter and the task's number; of a part
    also the chord's number, and how many parts there were before."""
    for it in told:
        task = number_of(it.get("task_id"))
        if not task:
            continue
        letter = "S" if it.get("stored") == "Again" else LETTERS[it["ask"]]
        part = f":{number_of(it['group_id'])}:{it['before']}" if letter == "c" else ""
        yield f"{WORKERS[it['worker']]}{letter}{task}{part}"
