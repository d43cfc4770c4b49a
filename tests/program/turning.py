#!/usr/bin/env python3
"""The steps of a run by turns, by the rules of rules.py and of docs/SEMANTICS.md: workers that take
turns over one queue and one table of results.

    python3 turning.py    checks the rows at the end of this file; the status is 1 if one is wrong
"""
import json
import sys
from itertools import chain, cycle

# No compiled modules are left in the tree.
sys.dont_write_bytecode = True

import rules
from cases import identified
from rules import STATES, Walk, ends_in_group, identifier
from views import group_identifier, result_of, written


# ---- what follows an event of a walk


def skipped_by(walk, event):
    """The tasks that fail by an event and aren't called, in the order of their numbers."""
    return [task for task, row in enumerate(walk.rows, 1)
            if not row.ran and isinstance(row.state, str) and row.event == event]


def started_by(walk, event):
    return [task for task, row in enumerate(walk.rows, 1) if row.ran and row.event == event]


def walk_of(canvas, stubs):
    """The walk over a canvas, whose headers are those of its chords: a group that nothing follows
    takes no parts."""
    walk = Walk(canvas, stubs)
    if walk.ends and ends_in_group(canvas):
        walk.headers.pop(walk.group_of[walk.ends[0]], None)
    return walk


def returned_by(walk, event):
    """The header to which an event returns a part, with the member's last task."""
    for group, ends in walk.headers.items():
        for end in ends:
            if walk.rows[end - 1].end(end) == event:
                return group, end
    return None


def follow(walk, event):
    """What a worker does after an event: it asks, and is answered."""
    for task in skipped_by(walk, event):
        yield "store", task
    for task in started_by(walk, event):
        yield "publish", task
    part = returned_by(walk, event)
    if part:
        group, end = part
        before = yield "part", group, end
        if before + 1 == len(walk.headers[group]):
            for member in walk.headers[group]:
                yield "read", member
            yield from follow(walk, ("header", group))


def worker(walk):
    """The asks of a worker, from its first take to its end."""
    while True:
        task = yield ("take",)
        if task is None:
            if not (yield ("rest",)):
                return
            continue
        if (yield "own", task) == "First":
            yield from follow(walk, ("end", task))
        yield "ack", task


# ---- the workers, the queue and the table


class Stage:
    """Workers with what they share. A line is added for each step."""

    def __init__(self, walk, workers, entries=()):
        self.walk, self.entries = walk, list(entries)
        self.queue, self.stored, self.returned, self.lines = [], set(), {}, []
        self.workers = [worker(walk) for _ in range(workers)]
        self.asks = [next(it) for it in self.workers]
        self.inside = [False] * workers
        for task in started_by(walk, ("start",)):
            self.queue.append(task)
            self.say(0, "publish", task_id=identifier(task))

    def say(self, number, ask, **members):
        self.lines.append(written(dict(members, ask=ask, worker=number)))

    def turn(self, number):
        """A turn of a worker: one ask of it is answered, unless it has ended."""
        ask = self.asks[number - 1]
        if ask is None:
            return False
        self.redeliver(number, ask)
        answer = getattr(self, ask[0])(number, *ask[1:])
        try:
            self.asks[number - 1] = self.workers[number - 1].send(answer)
        except StopIteration:
            self.asks[number - 1] = None
        return True

    def redeliver(self, number, ask):
        """Delivers the message again if an entry for the point to which a worker came is unspent."""
        point = (ask[-1], {"own": "early", "ack": "late"}.get(ask[0]))
        if point in self.entries:
            self.entries.remove(point)
            self.queue.append(ask[-1])
            self.say(number, "redeliver", task_id=identifier(ask[-1]))

    def take(self, number):
        task = self.queue.pop(0) if self.queue else None
        self.inside[number - 1] = task is not None
        self.say(number, "take", task_id=task and identifier(task))
        return task

    def own(self, number, task):
        return self.store(number, task)

    def store(self, number, task):
        state = self.walk.rows[task - 1].state
        answer = "Again" if task in self.stored else "First"
        self.stored.add(task)
        self.say(number, "store", result=result_of(state), status=STATES[type(state)],
                 stored=answer, task_id=identifier(task))
        return answer

    def publish(self, number, task):
        self.queue.append(task)
        self.say(number, "publish", task_id=identifier(task))

    def part(self, number, group, task):
        before = self.returned.get(group, 0)
        self.returned[group] = before + 1
        self.say(number, "part", before=before, group_id=group_identifier(group),
                 of=len(self.walk.headers[group]), task_id=identifier(task))
        return before

    def read(self, number, task):
        self.say(number, "read", task_id=identifier(task))

    def ack(self, number, task):
        self.inside[number - 1] = False
        self.say(number, "ack", task_id=identifier(task))

    def rest(self, number):
        more = bool(self.queue) or any(self.inside)
        self.say(number, "rest", more=more)
        return more


def steps(canvas, workers, turns, entries=(), stubs=None):
    """The lines that `canvas turns --steps` prints: by the turns of a list, and then in rotation."""
    stage = Stage(walk_of(canvas, stubs), workers, entries)
    rounds = cycle(range(1, workers + 1))
    for number in chain(turns, rounds):
        stage.turn(number)
        if stage.asks == [None] * workers:
            break
    return "".join(line + "\n" for line in stage.lines)


def by_words(canvas, turns, entries, stubs):
    """Like `steps`, but with the turns as words: `--workers 2 --turns=1,2`, and
    the entries as `--again=1:early`."""
    workers = int(turns[turns.index("--workers") + 1])
    listed = [word.partition("=")[2] for word in [turns[-1], entries[0]]]
    numbers = [int(it) for it in listed[0].split(",") if it]
    points = [it.split(":") for it in listed[1].split(",") if it]
    return steps(canvas, workers, numbers, [(int(task), when) for task, when in points], stubs)


# ---- a row that is worked out by hand

CHORD = """\
{"ask":"publish","task_id":"#1","worker":0}
{"ask":"publish","task_id":"#2","worker":0}
{"ask":"take","task_id":"#1","worker":1}
{"ask":"take","task_id":"#2","worker":2}
{"ask":"store","result":2,"status":"SUCCESS","stored":"First","task_id":"#1","worker":1}
{"ask":"part","before":0,"group_id":"00000000-0000-8000-9000-000000000001","of":2,"task_id":"#1",\
"worker":1}
{"ask":"ack","task_id":"#1","worker":1}
{"ask":"redeliver","task_id":"#2","worker":2}
{"ask":"store","result":4,"status":"SUCCESS","stored":"First","task_id":"#2","worker":2}
{"ask":"part","before":1,"group_id":"00000000-0000-8000-9000-000000000001","of":2,"task_id":"#2",\
"worker":2}
{"ask":"read","task_id":"#1","worker":2}
{"ask":"read","task_id":"#2","worker":2}
{"ask":"publish","task_id":"#3","worker":2}
{"ask":"ack","task_id":"#2","worker":2}
{"ask":"take","task_id":"#2","worker":1}
{"ask":"take","task_id":"#3","worker":2}
{"ask":"store","result":4,"status":"SUCCESS","stored":"Again","task_id":"#2","worker":1}
{"ask":"store","result":6,"status":"SUCCESS","stored":"First","task_id":"#3","worker":2}
{"ask":"ack","task_id":"#2","worker":1}
{"ask":"ack","task_id":"#3","worker":2}
{"ask":"take","task_id":null,"worker":1}
{"ask":"take","task_id":null,"worker":2}
{"ask":"rest","more":false,"worker":1}
{"ask":"rest","more":false,"worker":2}
"""


def checks():
    add = {"task": "tasks.add", "args": [1, 1]}
    canvas = {"task": "c", "subtask_type": "chord", "kwargs": {
        "header": [add, dict(add, args=[2, 2])], "body": {"task": "tasks.xsum"}}}
    found = steps(canvas, 2, [1, 2, 1, 1, 1, 2, 2, 2, 2, 2, 2], [(2, "early"), (9, "late")])
    yield found == identified(CHORD)


def main():
    wrong = [number for number, right in enumerate(checks(), 1) if not right]
    print("turning: %d wrong" % len(wrong))
    return 1 if wrong else 0


if __name__ == "__main__":
    sys.exit(main())
