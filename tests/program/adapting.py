#!/usr/bin/env python3
"""What `canvas adapt` makes of a canvas that Celery writes, over JSON signatures alone.

The rules are those of crates/canvas_adapt/specs/Adapted, told as Celery's own methods do it: a callback
is linked to what stands directly in a signature, which hands it on in its turn.

    python3 adapting.py    checks the rows at the end of this file; the status is 1 if one is wrong
"""
import copy
import json
import sys
from collections import Counter

# No compiled modules are left in the tree.
sys.dont_write_bytecode = True

import faults
import rules

SHOWN = 32


def compact(value):
    return json.dumps(value, sort_keys=True, ensure_ascii=False, separators=(",", ":"))


# ---- arguments


def fits(value):
    """Whether a canvas of the profile may have the argument."""
    if isinstance(value, list):
        return all(faults.is_whole(it) for it in value)
    return isinstance(value, str) or faults.is_whole(value)


def told(value):
    """The text that stands for another argument."""
    text = compact(value).encode()
    if len(text) > SHOWN:
        text = text[:SHOWN - 2].decode("utf-8", "ignore").encode() + b".."
    return text.decode()


def tell(sig, count):
    """Makes texts of a task's arguments, and of its callbacks'."""
    def one(value):
        count["argument"] += not fits(value)
        return value if fits(value) else told(value)

    if isinstance(sig.get("args"), list):
        sig["args"] = [*map(one, sig["args"])]
    if isinstance(sig.get("kwargs"), dict):
        sig["kwargs"] = {name: one(it) for name, it in sig["kwargs"].items()}
    for name in ("link", "link_error"):
        found = rules.callbacks(sig, name)
        if found:
            sig["options"][name] = found
        for callback in found:
            if form(callback) == "task":
                tell(callback, count)


# ---- what a signature is


def form(sig):
    """`chain`, `group`, `chord`, `calls` of a map, or `task`; None of what stays as it is."""
    kind = rules.kind_of(sig)
    if kind or sig["task"] not in faults.MAPS or not isinstance(called(sig), dict):
        return kind or "task"
    it, n = sig["kwargs"].get("it"), sig["kwargs"].get("n") if sig["task"] == "celery.chunks" else 1
    is_map = sig["task"] == "celery.map"
    are_good = isinstance(it, list) and (is_map or all(isinstance(one, list) for one in it))
    is_free = not rules.callbacks(sig, "link") and (sig.get("options") or {}).get("chord") is None
    is_size = type(n) is int and n >= 1
    return "calls" if are_good and is_free and is_size else None


def called(sig):
    return (sig.get("kwargs") or {}).get("task")


# ---- callbacks


def options(sig):
    """A signature's options, which it is lent where it has none."""
    if not sig.get("options"):
        if form(sig) != "task":
            sig.setdefault("lent", {it: sig[it] for it in ["options"] if it in sig})
        sig["options"] = {}
    return sig["options"]


def once(callbacks):
    """The first of callbacks that are written alike: 1, 1.0 and true differ."""
    found = {}
    for callback in callbacks:
        found.setdefault(compact(callback), callback)
    return [*found.values()]


def link_errors(sig, errbacks):
    """Adds those that the signature hasn't."""
    own = rules.callbacks(sig, "link_error")
    known = {*map(compact, own)}
    added = [it for it in once(errbacks) if compact(it) not in known]
    if added:
        options(sig)["link_error"] = own + added


def link(sig, callback):
    options(sig)["link"] = rules.callbacks(sig, "link") + [callback]


def own_callbacks(sig):
    """The links of a signature and its error callbacks, of those alike the first."""
    return rules.callbacks(sig, "link"), once(rules.callbacks(sig, "link_error"))


def take_callbacks(sig):
    found = own_callbacks(sig)
    for name in ("link", "link_error"):
        if isinstance(sig.get("options"), dict):
            sig["options"].pop(name, None)
    if "lent" in sig:
        del sig["options"]
        sig.update(sig.pop("lent"))
    return found


def give(sig, links, errbacks, is_followed=False):
    """A group that something follows is a header, which gets nothing of what stands around it."""
    if form(sig) and not (form(sig) == "group" and is_followed):
        for callback in links:
            link(sig, callback)
        link_errors(sig, errbacks)


def hand_on(sig, is_followed=False):
    """Hands on the callbacks of chains, groups and chords to the tasks in them."""
    if form(sig) in ("task", None):
        return
    links, errbacks = take_callbacks(sig)
    if form(sig) == "chain":
        elements = rules.parts(sig)
        for behind, element in zip(range(len(elements) - 1, -1, -1), elements):
            goes_on = is_followed or behind > 0
            give(element, [] if behind else links, errbacks, goes_on)
            hand_on(element, goes_on)
    elif form(sig) == "chord":
        for member in header_of(sig):
            hand_on(member)
        give(sig["kwargs"]["body"], links, errbacks, is_followed)
        hand_on(sig["kwargs"]["body"], is_followed)
    else:
        for member in rules.parts(sig):
            give(member, links, errbacks)
            hand_on(member)


# ---- signatures that were frozen

BOOKS = {"chord", "chord_size", "group_id", "group_index", "parent_id", "reply_to", "root_id"}


def has_identifier(sig):
    return isinstance((sig.get("options") or {}).get("task_id"), str)


def is_frozen(sig):
    """Whether Celery wrote its books into a signature, besides an identifier."""
    return has_identifier(sig) and bool(BOOKS & {*sig["options"]})


def thaw(sig, count):
    """Takes out what Celery wrote into a signature, and into those in it, when it was started."""
    for callback in rules.callbacks(sig, "link") + rules.callbacks(sig, "link_error"):
        thaw(callback, count)
    before, kind = count["frozen"], rules.kind_of(sig)
    header = sig["kwargs"]["header"] if kind == "chord" else []
    had_list = isinstance(header, dict) and is_frozen(header)
    body = [sig["kwargs"]["body"]] if kind == "chord" else []
    for part in [*(header_of(sig) if kind == "chord" else rules.parts(sig) if kind else []), *body]:
        thaw(part, count)
    if had_list and not header["options"]:
        sig["kwargs"]["header"] = header["kwargs"]["tasks"]
    if is_frozen(sig) or has_identifier(sig) and count["frozen"] > before:
        count["frozen"] += 1
        sig["options"] = {name: it for name, it in sig["options"].items()
                          if name not in BOOKS | {"task_id"}}


# ---- callbacks that are chains and groups

MOST_LINKS = 8


def starts(sig, links, errbacks, depth, is_followed):
    """The tasks that a callback starts, with what comes behind them, and how many follow each
    other then; None where tasks with callbacks can't say it."""
    if form(sig) == "task":
        sig = copy.deepcopy(sig)
        give(sig, links, errbacks)
        return ([sig], depth + 1) if depth < MOST_LINKS else None
    if form(sig) not in ("chain", "group") or sig.get("args") or sig.get("immutable") or (
            sig.get("options") or {}).get("chord") is not None:
        return None
    links = rules.callbacks(sig, "link") + links
    errbacks = rules.callbacks(sig, "link_error") + errbacks
    if form(sig) == "group":
        found = [starts(it, links, errbacks, depth, False) for it in rules.parts(sig)]
        if is_followed or None in found:
            return None
        return sum((it for it, _ in found), []), max([depth] + [it for _, it in found])
    found = (links, depth) if rules.parts(sig) else None
    for element in reversed(rules.parts(sig)):
        found = found and starts(element, found[0], errbacks, found[1], is_followed)
        is_followed = True
    return found


def as_tasks(name, callback, count):
    """The tasks that stand for a callback. Of a chain that is called for a failure Celery calls
    none that takes input."""
    found = None if form(callback) == "task" else starts(callback, [], [], 0, False)
    if found is None or name == "link_error" and form(callback) == "chain" and not all(
            it.get("immutable") for it in found[0]):
        return [callback]
    count["compound"] += 1
    return found[0]


def split(sig, count):
    """Makes tasks of the callbacks that are chains and groups, in a signature and in those in it."""
    for name in ("link", "link_error"):
        callbacks = rules.callbacks(sig, name)
        for callback in callbacks:
            split(callback, count)
        if callbacks:
            sig["options"][name] = sum((as_tasks(name, it, count) for it in callbacks), [])
    if rules.kind_of(sig):
        body = [sig["kwargs"]["body"]] if rules.kind_of(sig) == "chord" else []
        for part in (header_of(sig) if body else rules.parts(sig)) + body:
            split(part, count)


# ---- maps and groups


def header_of(chord):
    """The members of a header, or its one signature."""
    header = chord["kwargs"]["header"]
    return [header] if isinstance(header, dict) else header


def nodes(sig):
    """A signature and those in it that are no callbacks."""
    yield sig
    if rules.kind_of(sig) and form(sig):
        body = [sig["kwargs"]["body"]] if form(sig) == "chord" else []
        for part in (header_of(sig) if form(sig) == "chord" else rules.parts(sig)) + body:
            yield from nodes(part)


def make_group(sig):
    """Makes of a map the group of its calls, with its error callbacks."""
    name, is_map = called(sig)["task"], sig["task"] == "celery.map"
    calls = [{"task": name, "args": [it] if is_map else it, "immutable": True}
             for it in sig["kwargs"]["it"]]
    errbacks = own_callbacks(sig)[1]
    sig.clear()
    sig.update(task="celery.group", subtask_type="group", kwargs={"tasks": calls}, was_map=True,
               options={"link_error": errbacks})


def inner_members(sig):
    """The members that a member of a group gives to the group; None where it is one itself."""
    if form(sig) not in ("group", "chain") or sig.get("args") or sig.get("immutable") or (
            sig.get("options") or {}).get("chord"):
        return None
    found = rules.parts(sig)
    if form(sig) == "group":
        return found
    return inner_members(found[0]) if len(found) == 1 else None


def unrolled(members, is_frozen, count):
    for member in members:
        unroll(member, False, count)
        inner, was_map = inner_members(member), member.get("was_map")
        count["group"] += inner is not None and not was_map
        if inner is None:
            yield member
        elif is_frozen and form(member) == "group" and not was_map:
            yield from reversed(inner)
        else:
            yield from inner


def unroll(sig, is_frozen, count):
    """Unrolls the groups in groups. Where Celery freezes a group before it starts, those in it are
    turned round."""
    if form(sig) == "chain":
        for element in rules.parts(sig):
            unroll(element, True, count)
    elif form(sig) == "group":
        sig["kwargs"]["tasks"] = [*unrolled(rules.parts(sig), is_frozen, count)]
    elif form(sig) == "chord":
        header = sig["kwargs"]["header"]
        if isinstance(header, dict):
            unroll(header, True, count)
        else:
            sig["kwargs"]["header"] = [*unrolled(header, True, count)]
        unroll(sig["kwargs"]["body"], True, count)


# ---- canvases

LINES = {
    "argument": ("argument, which is a text now", "arguments, which are texts now"),
    "callback": ("callback of a chain, group or chord, which its tasks have now",
                 "callbacks of chains, groups or chords, which their tasks have now"),
    "group": ("group in a group, whose members stand in the outer one now",
              "groups in groups, whose members stand in the outer ones now"),
    "map": ("map, which is a group of calls now", "maps, which are groups of calls now"),
    "frozen": ("frozen signature, which has no identifiers now",
               "frozen signatures, which have no identifiers now"),
    "compound": ("chain or group as a callback, whose tasks are callbacks now",
                 "chains and groups as callbacks, whose tasks are callbacks now"),
}


def said(count):
    """What standard error says of the changes."""
    return "".join("canvas: adapted %d %s\n" % (count[it], words[count[it] > 1])
                   for it, words in LINES.items() if count[it])


def count_told(sig, count):
    if form(sig) == "task":
        tell(copy.deepcopy(sig), count)


def adapted(canvas):
    """The canvas that is made of one, and how many changes of each kind."""
    canvas, count = copy.deepcopy(canvas), Counter()
    thaw(canvas, count)
    split(canvas, count)
    for sig in [*nodes(canvas)]:
        if form(sig) == "calls":
            make_group(sig)
            count["map"] += 1
    for sig in nodes(canvas):
        count_told(sig, count)
        if rules.kind_of(sig) and form(sig):
            for callback in sum(own_callbacks(sig), []):
                count["callback"] += 1
                count_told(callback, count)
    hand_on(canvas)
    for sig in nodes(canvas):
        if form(sig) == "task":
            tell(sig, Counter())
    unroll(canvas, False, count)
    for sig in nodes(canvas):
        if sig.pop("was_map", None):
            del sig["options"]
    return canvas, count


# ---- rows that are worked out by hand


def task(name, *args, **members):
    return dict({"task": name, "args": list(args)}, **members)


def primitive(kind, errbacks=(), **kwargs):
    options_of = {"options": {"link_error": list(errbacks)}} if errbacks else {}
    return dict({"task": "celery." + kind, "subtask_type": kind, "kwargs": kwargs}, **options_of)


def chain(*tasks, errbacks=()):
    return primitive("chain", errbacks, tasks=list(tasks))


def group(*tasks, errbacks=()):
    return primitive("group", errbacks, tasks=list(tasks))


A, B, C, D = (task(it) for it in "abcd")

ALARM = task("alarm")


FROZEN = {"task_id": "i", "reply_to": "r", "chord": {"task": "b"}}


def alarmed(sig):
    return dict(sig, options={**sig.get("options", {}), "link_error": [ALARM]})


def linked(sig, *links):
    return dict(sig, options={"link": list(links)})


ROWS = [
    (task("a", 1.5, {"x": None}), task("a", "1.5", '{"x":null}'), 2),
    (task("a", [2 ** 60 + 1], "x"), task("a", "[1152921504606846977]", "x"), 1),
    (task("a", {"k": 12 * "\u00e9"}), task("a", '{"k":"' + 12 * "\u00e9" + '"}'), 1),
    (task("a", {"k": 13 * "\u00e9"}), task("a", '{"k":"' + 12 * "\u00e9" + ".."), 1),
    (task("a", {"ke": 13 * "\u00e9"}), task("a", '{"ke":"' + 11 * "\u00e9" + ".."), 1),
    (chain(A, B, errbacks=[ALARM]), dict(chain(alarmed(A), alarmed(B)), options={}), 1),
    (chain(A, group(B, C), errbacks=[ALARM]),
     dict(chain(alarmed(A), dict(group(alarmed(B), alarmed(C)))), options={}), 1),
    (chain(group(A, B), C, errbacks=[ALARM]), dict(chain(group(A, B), alarmed(C)), options={}), 1),
    (chain(primitive("chord", header=[A], body=B), errbacks=[ALARM]),
     dict(chain(primitive("chord", header=[A], body=alarmed(B))), options={}), 1),
    (chain(alarmed(A), errbacks=[ALARM, ALARM]), dict(chain(alarmed(A)), options={}), 1),
    (chain(A, errbacks=[task("a", True), task("a", 1)]), dict(chain(
        dict(A, options={"link_error": [task("a", "true"), task("a", 1)]})), options={}), 3),
    (group(A, group(B, C), D), group(A, B, C, D), 1),
    (chain(A, group(A, group(B, C), D)), chain(A, group(A, C, B, D)), 1),
    (chain(A, group(group(A, group(B, C)), D)), chain(A, group(C, B, A, D)), 2),
    (task("celery.map", kwargs={"task": A, "it": [1, None]}),
     group(dict(task("a", 1), immutable=True), dict(task("a", "null"), immutable=True)), 2),
    (task("a", options=FROZEN), task("a", options={}), 1),
    (task("a", options={"task_id": "i"}), task("a", options={"task_id": "i"}), 0),
    (dict(group(task("a", options=FROZEN)), options={"task_id": "i"}),
     dict(group(task("a", options={})), options={}), 2),
    (linked(A, chain(B, C)), linked(A, linked(B, C)), 1),
    (linked(A, group(chain(B, C), D)), linked(A, linked(B, C), D), 1),
    (linked(A, chain(B, group(C, D))), linked(A, linked(B, C, D)), 1),
    (linked(A, chain(group(B, C), D)), linked(A, chain(group(B, C), D)), 0),
    (linked(A, chain(B, C, errbacks=[ALARM])), linked(A, alarmed(linked(B, alarmed(C)))), 1),
    (dict(A, options={"link_error": [chain(ALARM, B)]}),
     dict(A, options={"link_error": [chain(ALARM, B)]}), 0),
    (dict(A, options={"link_error": [group(chain(ALARM, B))]}),
     dict(A, options={"link_error": [linked(ALARM, B)]}), 1),
]


def checks():
    """What is found and what is wanted, of each row."""
    for canvas, wanted, changes in ROWS:
        found, count = adapted(canvas)
        yield found, wanted
        yield sum(count.values()), changes
    yield said(Counter(argument=1, group=2)), (
        "canvas: adapted 1 argument, which is a text now\n"
        "canvas: adapted 2 groups in groups, whose members stand in the outer ones now\n")


if __name__ == "__main__":
    sys.exit(rules.told("adapting", list(checks())))
