#!/usr/bin/env python3
"""What `canvas check` warns of: names that no task has, calls that are a TypeError whatever comes
in, options that are ignored, and where Celery 5 does otherwise.

docs/CELERY.md has the rows that some warnings name.

    python3 foreseen.py    checks the rows at the end of this file; the status is 1 if one is wrong
"""
import json
import sys
from typing import NamedTuple

# No compiled modules are left in the tree.
sys.dont_write_bytecode = True

import rules
import views
from rules import kind_of, parts

NOTES = {
    "NotRegistered": "no task has this name",
    "unregistered-alarm":
        "Celery calls none of its error callbacks, and leaves what waits for it pending",
    "failure-before-group": "Celery leaves it pending where the task before it fails",
    "failed-nested-chord": "Celery leaves the outer chord's body pending where a member of it fails",
    "group-of-one": "Celery puts its one member in its place",
    "body-without-id": "Celery leaves it pending where a member of the header fails, and may call "
                       "error callbacks of another task",
    "pending-body": "Celery leaves it pending where a member of the header fails",
    "lost-alarm": "Celery doesn't call its error callbacks where a member of the header fails",
    "chord-keywords": "Celery doesn't start a chord with other keyword arguments",
}

#: What is said of all names that no task has, where no answers are given.
UNANSWERED = "no task has this name; give answers by --task"

#: What is told once for all that have a name.
OF_NAMES = ("NotRegistered", "unregistered-alarm")

# What may come into a call: how a note says it, and a value of the kind.
COMES = {
    "nothing": ("", []),
    "number": (" behind the number that comes in", [0]),
    "numbers": (" behind the list that comes in", [[]]),
    "identifier": (" behind the identifier that comes in", [rules.identifier(1)]),
}

#: Callbacks, and what Celery writes into a signature for its own books.
HEEDED = ("link", "link_error", "chord", "chord_size", "group_id", "group_index", "parent_id",
          "root_id", "reply_to")


class Stand(NamedTuple):
    """What comes into a signature, whether a task stands right before it in its line, whether
    something follows it there, and whether it is in a header, however deep; whether it begins a
    chord's body as a signature of its own, and whether as a part of one."""
    comes: str = "nothing"
    behind_task: bool = False
    followed: bool = False
    in_header: bool = False
    body: bool = False
    body_part: bool = False


def of_call(sig, stand, stubs):
    """What is warned of a task's call: its name and the note."""
    name, comes = sig["task"], stand.comes
    alarms = rules.callbacks(sig, "link_error")
    if rules.stubbed(stubs, name, [], {}) == "NotRegistered":
        yield "NotRegistered", NOTES["NotRegistered"] if stubs else UNANSWERED
        if stubs and (alarms or stand.followed or stand.in_header):
            yield "unregistered-alarm", NOTES["unregistered-alarm"]
    elif stubs.get(name, stubs.get("*") if name not in rules.TASKS else None) != "raise:TypeError":
        said, front = COMES["nothing" if sig.get("immutable") else comes]
        args, kwargs = sig.get("args") or [], sig.get("kwargs") or {}
        if rules.stubbed(stubs, name, front + args, kwargs) == "TypeError":
            wrong = rules.blamed(rules.answers_as(stubs, name), front + args, kwargs)
            by = ": %s %s" % (views.name_shown(wrong[0]), wrong[1]) if wrong else ""
            yield "TypeError", "its call is a TypeError" + said + by
    if stand.body and stand.followed:
        yield "body-without-id", NOTES["body-without-id"]
    if stand.body_part and alarms:
        yield "lost-alarm", NOTES["lost-alarm"]


def of_group(sig, stand):
    """Where Celery does otherwise than here at a group or chord."""
    count, is_chord = len(parts(sig)), kind_of(sig) == "chord"
    if not is_chord and count == 1 and stand.behind_task and stand.followed:
        names = ["group-of-one"]
    else:
        names = ["failure-before-group"] * (stand.behind_task and (is_chord or count > 1))
        names += ["failed-nested-chord"] * (
            stand.in_header and count > 0 and (is_chord or stand.followed))
        names += ["pending-body"] * (stand.body and count > 0)
    if is_chord and "kwargs" not in sig["kwargs"] and sig["kwargs"].keys() - {"header", "body"}:
        names.append("chord-keywords")
    return [(name, NOTES[name]) for name in names]


def places(sig, stubs, at="", stand=Stand()):
    """Each signature in file order, with its pointer and what is warned of it besides its options.
    It returns what comes out."""
    kind, steps = kind_of(sig), list(views.steps(sig))
    begins = stand.body or stand.body_part
    if kind is None:
        yield at, sig, list(of_call(sig, stand, stubs))
        for more, part, *_ in steps:
            comes = "identifier" if more.startswith("/options/link_error") else "number"
            yield from places(part, stubs, at + more, Stand(comes))
        return "number"
    if kind == "chain":
        yield at, sig, [("body-without-id", NOTES["body-without-id"])] * stand.body
        stand = stand._replace(body=False, body_part=begins)
        for index, (more, part, *_) in enumerate(steps, 1):
            followed = stand.followed or index < len(steps)
            comes = yield from places(part, stubs, at + more, stand._replace(followed=followed))
            stand = stand._replace(comes=comes, behind_task=comes == "number",
                                   body=comes == "numbers", body_part=False)
        return stand.comes
    yield at, sig, of_group(sig, stand)
    member = Stand(stand.comes, False, False,
                   stand.in_header or kind == "chord" or stand.followed, False, begins)
    body = steps.pop() if kind == "chord" else None
    if kind == "chord" and isinstance(sig["kwargs"]["header"], dict):
        more, header, *_ = steps.pop()
        yield at + more, header, []
        steps = [(more + behind, part) for behind, part, *_ in views.steps(header)]
    for more, part, *_ in steps:
        yield from places(part, stubs, at + more, member)
    if body is None:
        return "numbers"
    stand = stand._replace(comes="numbers", behind_task=False, body=bool(steps) or stand.body,
                           body_part=begins and not steps)
    return (yield from places(body[1], stubs, at + body[0], stand))


def ignored(sig):
    options = sig.get("options") or {}
    for name in sorted(options, key=lambda it: it.encode()):
        if options[name] is not None and name not in HEEDED:
            yield "ignored-options", "options.%s is ignored" % views.name_shown(name)


def warnings(canvas, stubs=None):
    """What is warned of, as the program's JSON has it. A name that no task has and an option that is
    ignored are told once, and all such names once where no answers are given."""
    found, once = [], {}
    for at, sig, told in places(canvas, stubs or {}):
        for name, note in told + list(ignored(sig)):
            key = (note, sig["task"] if name in OF_NAMES and note != UNANSWERED else None)
            if name in (*OF_NAMES, "ignored-options") and key in once:
                once[key]["count"] += 1
                continue
            once[key] = {"count": 1, "name": name, "note": note, "pointer": at, "task": sig["task"]}
            found.append(once[key])
    return found


def line(warning):
    of = ", the first of %d" % warning["count"] if warning["count"] > 1 else ""
    return "warning at %s (%s)%s: %s (%s)\n" % (
        warning["pointer"] or "the top", warning["task"], of, warning["note"], warning["name"])


def checked(canvas, stubs=None):
    """What `canvas check` prints of a canvas, without how many bytes its messages have, in lines and
    as JSON; and the status with `--strict`."""
    found, figures = warnings(canvas, stubs), views.figures(canvas, stubs)
    names = [it.rpartition(" ") for it in figures.splitlines()]
    as_json = {name.replace(" ", "_"): int(it) if it else None for name, _, it in names}
    return ("".join([figures + "\n", *map(line, found)]),
            "".join(views.written(it) + "\n" for it in [as_json, *found]), 3 if found else 0)


# ---- rows that are worked out by hand: what is warned of, by pointers without `/kwargs`

ROWS = [
    ("C(.,.)", "add:4,4 mul:8", ""),
    ("C(.,.)", "add:4,4 nope:8", "/tasks/1 NotRegistered"),
    ("C(.,.)", "add:4,4 mul:8,8", "/tasks/1 TypeError"),
    ("C(.,!)", "add:4 mul:8", " /tasks/0 TypeError /tasks/1 TypeError"),
    ("C(G(.,.),.)", "add:1,1 add:2,2 mul:3", "/tasks/1 TypeError"),
    ("?.>", "div:1,0 add:1", "/options/link_error/0 TypeError"),
    ("C(.,G(.),.)", "add:1,1 mul:2 xsum:", "/tasks/1 group-of-one"),
    ("C(.,G(.))", "add:1,1 mul:2", ""),
    ("C(G(.),.)", "add:1,1 xsum:", ""),
    ("C(.,.,G(.,.))", "div:1,0 mul:2 add:1 add:2", "/tasks/2 failure-before-group"),
    ("C(.,H[.|.])", "add:1,1 mul:2 xsum:", "/tasks/1 failure-before-group"),
    ("C(.,H[|.])", "add:1,1 xsum:", "/tasks/1 failure-before-group"),
    ("H[H[.|.],.|.]", "div:1,0 xsum: add:1,1 xsum:", "/header/0 failed-nested-chord"),
    ("C(G(H[.|.],.),.)", "div:1,0 xsum: add:1,1 xsum:", "/tasks/0/tasks/0 failed-nested-chord"),
    ("G(H[.|.],.)", "div:1,0 xsum: add:1,1", ""),
    ("H[C(.,G(.,.),.)|.]", "add:1,1 mul:2 mul:3 xsum: xsum:",
     "/header/0/tasks/1 failure-before-group /header/0/tasks/1 failed-nested-chord"),
    ("H[.|C(.,G(.,.))]", "add:1,1 xsum: mul:2 mul:3",
     "/body body-without-id /body/tasks/1 failure-before-group"),
    ("H[.|.]", "add:1,1 xsum:", ""),
    ("H[.|?.>]", "add:1,1 xsum: log_error:", ""),
    ("H[.|C(?.>,?.>)]", "add:1,1 xsum: log_error: mul:2 log_error:",
     "/body body-without-id /body/tasks/0 lost-alarm"),
    ("H[|C(?.>,.)]", "xsum: log_error: mul:2", ""),
    ("C(H[.|.],.)", "add:1,1 xsum: mul:2", "/tasks/0/body body-without-id"),
    ("C(G(.,.),.)", "add:1,1 add:2,2 xsum:", ""),
    ("C(G(.,.),?.>,.)", "add:1,1 add:2,2 xsum: log_error: mul:2", "/tasks/1 body-without-id"),
    ("C(G(.,.),C(?.>,.))", "add:1,1 add:2,2 xsum: log_error: mul:2",
     "/tasks/1 body-without-id /tasks/1/tasks/0 lost-alarm"),
    ("H[.|G(?.>,.)]", "add:1,1 xsum: log_error: xsum:", "/body pending-body /body/tasks/0 lost-alarm"),
    ("H[.|G()]", "add:1,1", ""),
    ("H[.|H[?.>|?.>]]", "add:1,1 xsum: log_error: xsum: log_error:",
     "/body pending-body /body/header/0 lost-alarm"),
    ("H[.|H[|?.>]]", "add:1,1 xsum: log_error:", "/body/body lost-alarm"),
    ("H[.|C(H[|?.>],?.>)]", "add:1,1 xsum: log_error: mul:2 log_error:",
     "/body body-without-id /body/tasks/0/body lost-alarm"),
    ("H[.|C(G(C(?.>,.)),?.>)]", "add:1,1 xsum: log_error: mul:2 xsum: log_error:",
     "/body body-without-id /body/tasks/0/tasks/0/tasks/0 lost-alarm"),
]

# With an answer of another name: what is warned of names that no task has.
NAMES = [
    (".", "nope:", " NotRegistered"),
    ("G(.,.)", "nope: nope:", "/tasks/0 NotRegistered"),
    ("C(.,.)", "add:1,1 nope:", "/tasks/1 NotRegistered"),
    ("C(.,.)", "nope: nope:", "/tasks/0 NotRegistered /tasks/0 unregistered-alarm"),
    ("H[.|.]", "nope: xsum:", "/header/0 NotRegistered /header/0 unregistered-alarm"),
    ("H[.|.]", "add:1,1 nope:", "/body NotRegistered"),
    ("?.>", "nope: log_error:", " NotRegistered  unregistered-alarm"),
    ("?.>", "add:1,1 nope:", "/options/link_error/0 NotRegistered"),
    ("H[+.>|.]", "add:1,1 nope: xsum:", "/header/0/options/link/0 NotRegistered"),
]

# A chord's other keyword arguments, and what is warned of it.
KEYWORDS = [
    ({"kwargs": {}}, []),
    ({"z": None}, ["chord-keywords"]),
    ({"z": 1, "kwargs": {}}, []),
]

OPTIONS = {"task": "a", "options": {"queue": "b", "eta": None, "link": [
    {"task": "a", "options": {"queue": "c", "priority": 0}}]}}

OPTIONS_SAID = """\
warning at the top (a), the first of 2: no task has this name; give answers by --task (NotRegistered)
warning at the top (a), the first of 2: options.queue is ignored (ignored-options)
warning at /options/link/0 (a): options.priority is ignored (ignored-options)
"""


def checks():
    """What is found and what is wanted, of each row."""
    for frame, calls, wanted, stubs in [
            *((*row, {}) for row in ROWS), *((*row, {"tasks.ident": "ident"}) for row in NAMES)]:
        found = warnings(rules.canvas_of(frame, calls), stubs)
        told = " ".join("%s %s" % (it["pointer"].replace("/kwargs", ""), it["name"]) for it in found)
        yield told.split(), wanted.split()
    yield "".join(map(line, warnings(OPTIONS))), OPTIONS_SAID
    yield warnings(rules.canvas_of("C(.,.)", "nope: mul:1,2"), {"*": "0"})[0]["name"], "TypeError"
    yield warnings(rules.canvas_of(".", "nope:"), {"*": "raise:TypeError"}), []
    given = json.loads(views.written(warnings(OPTIONS)[0]))
    for more, wanted in KEYWORDS:
        chord = rules.canvas_of("H[.|.]", "add:1,1 xsum:")
        chord["kwargs"].update(more)
        yield [it["name"] for it in warnings(chord)], wanted
    yield sorted(given), ["count", "name", "note", "pointer", "task"]


if __name__ == "__main__":
    sys.exit(rules.told("foreseen", list(checks())))
