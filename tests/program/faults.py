#!/usr/bin/env python3
"""The refusals 3 to 9, of single signatures, over JSON alone: which of a canvas is the first, where
it stands, and what `canvas check` says of it.

docs/FORMATS.md has the refusals and their order. What is said has texts cut behind 40
characters.

    python3 faults.py    checks the rows at the end of this file; the status is 1 if one is wrong
"""
import json
import re
import sys

# No compiled modules are left in the tree.
sys.dont_write_bytecode = True

import rules
import views

KINDS = ("chain", "group", "chord")

MAPS = ("celery.map", "celery.starmap", "celery.chunks")


def is_number(value):
    return type(value) in (int, float)


def is_whole(value):
    return type(value) is int and abs(value) <= rules.GREATEST


def is_name(value):
    return isinstance(value, str) and re.fullmatch("[!-~]{1,128}", value) is not None


def is_list(value):
    return isinstance(value, list)


def is_group(value):
    return isinstance(value, dict) and value.get("subtask_type") == "group"


def shown(value):
    if isinstance(value, str):
        return views.text_shown(value)
    if is_list(value):
        return "a list of %d" % len(value)
    return "an object" if isinstance(value, dict) else json.dumps(value)


def found(at, members, name, wanted):
    """The note on a member, which may be missing."""
    what = shown(members[name]) if name in members else "nothing"
    return "found %s %s, wanted %s" % (at + name, what, wanted)


# ---- arguments


def arguments(sig):
    """The arguments and where they stand; those by name in the order of their names."""
    kwargs = sorted((sig.get("kwargs") or {}).items(), key=lambda it: it[0].encode())
    yield from (("args[%d]" % at, it) for at, it in enumerate(sig.get("args") or []))
    yield from (("kwargs[%s]" % views.text_shown(name), it) for name, it in kwargs)


def first_bad(sig, is_good, wanted, wanted_item):
    """The note on the first argument, or item of one, that isn't good."""
    for at, value in arguments(sig):
        for index, item in enumerate(value if is_list(value) else []):
            if not is_good(item, True):
                return "found %s[%d] %s, wanted %s" % (at, index, shown(item), wanted_item)
        if not is_good(value, False):
            return "found %s %s, wanted %s" % (at, shown(value), wanted)
    return None


def bad_kind(sig):
    def is_good(value, is_item):
        return is_number(value) or not is_item and (is_list(value) or isinstance(value, str))

    note = first_bad(sig, is_good, "a whole number, a text or a list of whole numbers",
                     "a whole number, as all of a list are")
    if note and sig["task"] in MAPS and isinstance((sig.get("kwargs") or {}).get("task"), dict):
        return ('found %s, which applies kwargs["task"] to a list, '
                "wanted a task, chain, group or chord" % sig["task"])
    return note


def bad_number(sig):
    wanted = "a whole number from -2^60 to 2^60"
    return first_bad(sig, lambda it, _: is_whole(it) or not is_number(it), wanted, wanted)


# ---- a signature: each says what is wrong, or None


def not_signature(sig):
    if not isinstance(sig, dict):
        return "found %s, wanted a signature: an object that names a task" % shown(sig)
    if not is_name(sig.get("task")):
        return found("", sig, "task", "a name of 1 to 128 bytes from ! to ~")
    if type(sig.get("immutable")) not in (bool, type(None)):
        return found("", sig, "immutable", "true, false or null")
    return None


def bad_members(sig, kind):
    kwargs = sig.get("kwargs") or {}
    if kind is None:
        return bad_kind(sig)
    if kind != "chord":
        return None if is_list(kwargs.get("tasks")) else found(
            "kwargs.", kwargs, "tasks", "a list of signatures")
    if not is_list(kwargs.get("header")) and not is_group(kwargs.get("header")):
        return found("kwargs.", kwargs, "header", "a list of signatures, or a group")
    return found("kwargs.", kwargs, "body", "a signature") if kwargs.get("body") is None else None


def bad_args(sig, kind):
    for name, form, wanted in [("args", list, "a list"), ("kwargs", dict, "an object"),
                               ("options", dict, "an object")]:
        if not isinstance(sig.get(name), (form, type(None))):
            return found("", sig, name, wanted)
    options = sig.get("options") or {}
    for name in ("link", "link_error"):
        if not isinstance(options.get(name), (list, dict, type(None))):
            return found("options.", options, name, "a signature, or a list of some")
    return bad_members(sig, kind)


def on_canvas(sig, kind, is_linked):
    if is_linked:
        return "found a %s as a link or error callback, wanted a task" % kind
    options = sig.get("options") or {}
    for name, value in [("args", sig.get("args")), ("immutable", sig.get("immutable")),
                        ("options.link", options.get("link")),
                        ("options.link_error", options.get("link_error"))]:
        if value not in (None, False, []):
            return "found %s on a %s, wanted it on tasks alone" % (name, kind)
    return None


def fault_of(sig, is_linked):
    """The refusal of a signature and the note on it; None where it has none of its own."""
    note = not_signature(sig)
    if note:
        return "3 NotSignature", note
    kind, options = sig.get("subtask_type"), sig.get("options")
    if kind is not None and kind not in KINDS:
        return "4 UnknownPrimitive", found(
            "", sig, "subtask_type", 'null, "chain", "group" or "chord"')
    note = bad_args(sig, kind)
    if note:
        return "5 BadArgs", note
    notes = [("6 BadNumber", kind is None and bad_number(sig)),
             ("7 OnCanvas", kind and on_canvas(sig, kind, is_linked)),
             ("8 Frozen", (options or {}).get("chord") is not None
              and found("options.", options, "chord", "null")),
             ("9 EmptyChain", kind == "chain" and sig["kwargs"]["tasks"] == []
              and "found a chain of no tasks, wanted one at least")]
    return next(((refusal, note) for refusal, note in notes if note), None)


def first_fault(sig, at="", is_linked=False):
    """The first in file order: its refusal, the note on it, the pointer to the signature and the
    name there, where it is one."""
    fault = fault_of(sig, is_linked)
    if fault:
        name = sig.get("task") if isinstance(sig, dict) else None
        return (*fault, at, name if is_name(name) else None)
    for step, part, *_ in views.steps(sig):
        fault = first_fault(part, at + step, step.startswith("/options/"))
        if fault:
            return fault
    return None


# ---- rows that are worked out by hand

ROWS = [
    ('{"task":"a","args":[1,"b",[2]]}', None, ""),
    ('[1]', "3 NotSignature", "found a list of 1, wanted a signature: an object that names a task"),
    ('{"task":"a","subtask_type":["chain"]}', "4 UnknownPrimitive",
     'found subtask_type a list of 1, wanted null, "chain", "group" or "chord"'),
    ('{"task":"a","subtask_type":"chord","kwargs":{"header":{"task":"g","subtask_type":"group"}}}',
     "5 BadArgs", "found kwargs.body nothing, wanted a signature"),
    ('{"task":"a","kwargs":{"c":{},"b":[1,null]}}', "5 BadArgs",
     'found kwargs["b"][1] null, wanted a whole number, as all of a list are'),
    ('{"task":"a","args":[[1,1.5]]}', "6 BadNumber",
     "found args[0][1] 1.5, wanted a whole number from -2^60 to 2^60"),
    ('{"task":"a","subtask_type":"group","args":[0],"kwargs":{"tasks":[]},"options":{"link":[]}}',
     "7 OnCanvas", "found args on a group, wanted it on tasks alone"),
    ('{"task":"a","options":{"chord":0}}', "8 Frozen", "found options.chord 0, wanted null"),
    ('{"task":"a","subtask_type":"chain","kwargs":{"tasks":[]}}', "9 EmptyChain",
     "found a chain of no tasks, wanted one at least"),
]

INNER = ('{"task":"a","options":{"link_error":[7],"link":[{"task":"b"},{"task":" "}]}}',
         ("3 NotSignature", 'found task " ", wanted a name of 1 to 128 bytes from ! to ~',
          "/options/link/1", None))


def checks():
    """What is found and what is wanted, of each row."""
    for text, refusal, note in ROWS:
        yield fault_of(json.loads(text), False), refusal and (refusal, note)
    yield first_fault(json.loads(INNER[0])), INNER[1]


if __name__ == "__main__":
    sys.exit(rules.told("faults", list(checks())))
