#!/usr/bin/env python3
"""What adapting does, as `crates/canvas_adapt/specs/Adapted.antt` defines it, word for word.

`adapting.py` tells the same of JSON in another way, as Celery's methods do it. `chance` compares
the two on every canvas that it adapts, and `adapting.py` with the program.

A signature is a tuple: ("task", written, links, errbacks), ("chain", elements, links, errbacks),
("group", members, links, errbacks), ("chord", header, body, links, errbacks) or ("calls", name,
items, errbacks).

    python3 defined.py    checks the rows of adapting.py; the status is 1 if one is wrong
"""
import json
import sys
from collections import namedtuple

# No compiled modules are left in the tree.
sys.dont_write_bytecode = True

import adapting
import faults
import rules

Written = namedtuple("Written", "name args kwargs immutable json")
Around = namedtuple("Around", "links errbacks is_followed is_frozen")


# ---- signatures that were started


def thawed(inside, options):
    """The options without Celery's books, where the signature was started."""
    is_started = isinstance(options.get("task_id"), str) and (
        inside or any(name in adapting.BOOKS for name in options))
    if not is_started:
        return options, False
    return {name: it for name, it in options.items()
            if name not in adapting.BOOKS and name != "task_id"}, True


def read_all(values):
    found = [read(it) for it in values]
    return [sig for sig, _ in found], any(flag for _, flag in found)


def read(sig):
    """The signature that JSON spells, thawed, and whether something of it was started."""
    links, of_links = read_all(rules.callbacks(sig, "link"))
    errbacks, of_errbacks = read_all(rules.callbacks(sig, "link_error"))
    kind, inside = rules.kind_of(sig), False
    if kind == "chord":
        header, body = sig["kwargs"]["header"], sig["kwargs"]["body"]
        if isinstance(header, list):
            members, inside = read_all(header)
            header = ("group", members, [], [])
        else:
            header, inside = read(header)
        body, of_body = read(body)
        inside = inside or of_body
    elif kind:
        parts, inside = read_all(rules.parts(sig))
    options, own = thawed(inside, sig.get("options") or {})
    started = own or inside or of_links or of_errbacks
    if kind == "chord":
        return ("chord", header, body, links, errbacks), started
    if kind:
        return (kind, parts, links, errbacks), started
    if adapting.form(dict(sig, options=options)) == "calls":
        is_map = sig["task"] == "celery.map"
        items = [[it] if is_map else it for it in sig["kwargs"]["it"]]
        return ("calls", adapting.called(sig)["task"], items, errbacks), started
    return ("task", written(sig, options), links, errbacks), started


def without_callbacks(name, value):
    """An option with null for each callback."""
    if name in ("link", "link_error"):
        return [None] * len(value) if isinstance(value, list) else None
    return value


def written(sig, options):
    bare = {name: without_callbacks(name, it) for name, it in options.items()}
    whole = dict(sig, options=bare) if sig.get("options") else sig
    return Written(sig["task"], sig.get("args") or [], sig.get("kwargs") or {},
                   bool(sig.get("immutable")), adapting.compact(whole))


# ---- arguments


def is_whole(value):
    return faults.is_whole(value)


def stays(value):
    return isinstance(value, str) or is_whole(value) or isinstance(value, list) and all(
        map(is_whole, value))


def cut(most, text):
    while most and text[most:most + 1] and 128 <= text[most] < 192:
        most -= 1
    return text[:most]


def shown(text):
    return cut(30, text) + b".." if len(text) > 32 else text


def argument(value):
    return value if stays(value) else shown(adapting.compact(value).encode()).decode()


def called(it):
    return it._replace(args=[*map(argument, it.args)],
                       kwargs={name: argument(value) for name, value in it.kwargs.items()})


# ---- callbacks that are chains or groups


def same(one, other):
    return one[0] == other[0] == "task" and one[1].json == other[1].json and all_same(
        one[2], other[2]) and all_same(one[3], other[3])


def all_same(some, others):
    return len(some) == len(others) and all(map(same, some, others))


def has(sigs, sig):
    return any(same(it, sig) for it in sigs)


def and_new(own, others):
    for sig in others:
        own = own if has(own, sig) else own + [sig]
    return own


def started(alarms, is_followed, sig, behind):
    """The tasks that are started, and how many follow each other; None where there is no telling."""
    if sig[0] == "task":
        if behind[1] >= 8:
            return None
        made = ("task", sig[1], sig[2] + behind[0], and_new(sig[3], alarms))
        return [made], behind[1] + 1
    if sig[0] not in ("chain", "group"):
        return None
    _, parts, links, errbacks = sig
    alarms, behind = errbacks + alarms, (links + behind[0], behind[1])
    if sig[0] == "chain":
        return in_turn_started(alarms, is_followed, parts, behind) if parts else None
    if is_followed:
        return None
    found = [started(alarms, False, it, behind) for it in parts]
    if None in found:
        return None
    return sum((tasks for tasks, _ in found), []), max([behind[1]] + [depth for _, depth in found])


def in_turn_started(alarms, is_followed, parts, behind):
    for at in range(len(parts) - 1, -1, -1):
        behind = started(alarms, is_followed or at < len(parts) - 1, parts[at], behind)
        if behind is None:
            return None
    return behind


def are_immutable(sigs):
    return all(it[0] == "task" and it[1].immutable for it in sigs)


def as_tasks(is_alarm, sig):
    if sig[0] == "task":
        return [sig]
    found = started([], False, sig, ([], 0))
    if found is None or is_alarm and sig[0] == "chain" and not are_immutable(found[0]):
        return [sig]
    return found[0]


def callbacks(is_alarm, sigs):
    return sum((as_tasks(is_alarm, split(it)) for it in sigs), [])


def split(sig):
    if sig[0] == "calls":
        return (*sig[:3], callbacks(True, sig[3]))
    links, errbacks = callbacks(False, sig[-2]), callbacks(True, sig[-1])
    if sig[0] == "task":
        return ("task", sig[1], links, errbacks)
    if sig[0] == "chord":
        return ("chord", split(sig[1]), split(sig[2]), links, errbacks)
    return (sig[0], [*map(split, sig[1])], links, errbacks)


# ---- where callbacks of chains, groups and chords go


def but(others, given):
    return [it for it in given if not has(others, it[0])]


def once(sigs, made):
    found = []
    for sig, adapted_sig in zip(sigs, made):
        if not has([it for it, _ in found], sig):
            found.append((sig, adapted_sig))
    return found


def alone(is_frozen):
    return Around([], [], False, is_frozen)


def with_own(links, errbacks, around):
    return around._replace(
        links=[*zip(links, each_callback(links))] + around.links,
        errbacks=once(errbacks, each_callback(errbacks)) + but(errbacks, around.errbacks))


def for_element(is_last, around):
    return Around(around.links if is_last else [], around.errbacks,
                  around.is_followed or not is_last, True)


def for_group(around):
    return alone(around.is_frozen) if around.is_followed else around


# ---- groups in groups


def inner(sig):
    """The members that a member of a group gives it; None where it is one itself."""
    if sig[0] == "group":
        return sig[1]
    return inner(sig[1][0]) if sig[0] == "chain" and len(sig[1]) == 1 else None


def unrolled(is_frozen, members, made):
    found = []
    for sig, adapted_sig in zip(members, made):
        given = inner(adapted_sig)
        is_turned = is_frozen and sig[0] == "group"
        found += [adapted_sig] if given is None else given[::-1] if is_turned else given
    return found


# ---- canvases


def given_task(it, links, errbacks, around):
    return ("task", called(it), each_callback(links) + [made for _, made in around.links],
            each_callback(errbacks) + [made for _, made in but(errbacks, around.errbacks)])


def each_callback(sigs):
    return [("task", called(it[1]), each_callback(it[2]), each_callback(it[3]))
            if it[0] == "task" else it for it in sigs]


def adapt(around, sig):
    if sig[0] == "task":
        return given_task(*sig[1:], around)
    if sig[0] == "calls":
        _, name, items, errbacks = sig
        around = with_own([], errbacks, for_group(around))
        return ("group", [given_task(Written(name, it, {}, True, ""), [], [], around)
                          for it in items], [], [])
    links, errbacks = sig[-2:]
    if sig[0] == "chain":
        around = with_own(links, errbacks, around)
        return ("chain", [adapt(for_element(at == len(sig[1]) - 1, around), it)
                          for at, it in enumerate(sig[1])], [], [])
    if sig[0] == "group":
        around = with_own(links, errbacks, for_group(around))
        made = [adapt(around._replace(is_frozen=False), it) for it in sig[1]]
        return ("group", unrolled(around.is_frozen, sig[1], made), [], [])
    body = with_own(links, errbacks, around)._replace(is_frozen=True)
    return ("chord", adapt(alone(True), sig[1]), adapt(body, sig[2]), [], [])


def plain(sig):
    """The signature without the JSON by which tasks are told apart."""
    if sig[0] == "task":
        return ("task", sig[1]._replace(json=""), [*map(plain, sig[2])], [*map(plain, sig[3])])
    if sig[0] == "chord":
        return ("chord", plain(sig[1]), plain(sig[2]))
    return sig if sig[0] == "calls" else (sig[0], [*map(plain, sig[1])])


def adapted(canvas):
    return plain(adapt(alone(False), split(read(canvas)[0])))


def is_as_defined(canvas, made):
    """Whether what was made of a canvas is what the definition says."""
    return adapted(canvas) == plain(read(made)[0])


def main():
    wrong = [canvas for canvas in (json.loads(json.dumps(row[0])) for row in adapting.ROWS)
             if not faults.first_fault(adapting.adapted(canvas)[0])
             and not is_as_defined(canvas, adapting.adapted(canvas)[0])]
    for canvas in wrong:
        print("defined.py: of %s" % adapting.compact(canvas), file=sys.stderr)
    return bool(wrong)


if __name__ == "__main__":
    sys.exit(main())
