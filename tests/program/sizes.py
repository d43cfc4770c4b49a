"""Large canvases from chance: a hundred to a thousand tasks, items of a map, members of groups in
groups, error callbacks in one place, lines of `run --each`, tasks in a file, and long texts."""
import json

import faults
import rules
import views
from ends import End, Run, as_one_object, checked_as_json
from signatures import call, chain, chord, group, primitive, summed, whole

# How long a line of tasks is at most: each message carries those that follow.
LONGEST_LINE = 200

WORDS = ["add", "mul", "ident", "0", "7", "-12", "raise:TypeError", "raise:ZeroDivisionError"]


def size(dice):
    return 100 + dice.randrange(901)


def simple(dice):
    """A call that mostly gives a number, in any place."""
    return dice.choices([whole("tasks.add", dice.randrange(9), 1), whole("tasks.mul", 2, 3),
                         whole("tasks.div", 1, 0), call("name%d" % dice.randrange(1000), 1)],
                        [20, 20, 1, 3])[0]


def cut(dice, found):
    """The calls in lists of two to nine."""
    while found:
        count = 2 + dice.randrange(8)
        yield found[:count]
        found = found[count:]


def many_tasks(dice):
    """A canvas with this number of tasks."""
    found = [simple(dice) for _ in range(size(dice))]
    way = dice.randrange(5)
    if way == 0:
        return group(*found)
    if way == 1:
        return chord(found, whole("tasks.add", 1, 1))
    if way == 2:
        return chain(*found[:1 + dice.randrange(LONGEST_LINE)])
    if way == 3:
        return chain(found[0], group(*[chain(*it) for it in cut(dice, found[1:])]), summed())
    return chord([chord(it[:-1], it[-1]) for it in cut(dice, found)], summed())


# ---- canvases that are adapted


def items(dice):
    """A map with this number of items."""
    which = dice.choice(faults.MAPS)
    found = [dice.choice([it, -it, 1.5, "x", None]) for it in range(size(dice))]
    it = found if which == "celery.map" else [[it] for it in found]
    kwargs = {"task": call("tasks.ident"), "it": it}
    return whole(which, **(dict(kwargs, n=1 + dice.randrange(99)) if "chunks" in which else kwargs))


def members(dice):
    """A group of many in another, which Celery turns round where it freezes it."""
    found = [call("name", it) for it in range(65 + dice.randrange(400))]
    outer = group(call("first"), group(*found), call("last"))
    return dice.choice([outer, chain(call("before"), outer), chord(outer, summed()),
                        chord([group(*found), call("last")], summed())])


def alarms(dice):
    """A chain, group or chord with many callbacks, some of which are alike."""
    parts = [call("part%d" % it) for it in range(1 + dice.randrange(3))]
    found = [call("alarm%d" % dice.randrange(500), dice.randrange(2))
             for _ in range(17 + dice.randrange(240))]
    outer = dice.choice([chain(*parts), group(*parts), chord(group(*parts), summed())])
    return dict(outer, options={dice.choice(["link", "link_error"]): found})


def long_text(dice):
    """A canvas of more bytes than most, up to what is read."""
    text = dice.choice(["x", "\u00e9", "\""]) * (135_000 + dice.randrange(35_000))
    return chain(call("a", None, text), call("b", 1.5, dice.randrange(9)))


ADAPTED = [items, members, alarms, long_text]

# ---- tasks in a file


def file_of_tasks(dice):
    """A file with this number of answers and some lines that are ignored, and the answers by name."""
    stubs, lines = {}, []
    for number in range(size(dice)):
        lines += dice.choices([[], [""], ["# n%d=1" % number]], [18, 1, 1])[0]
        stubs["n%d" % number] = dice.choice(WORDS)
        lines.append("n%d=%s" % (number, stubs["n%d" % number]))
    return "\n".join(lines) + dice.choice(["", "\n"]), stubs


def run_by_a_file(place, dice):
    """Runs of tasks of which some are the last ones of a file, and some aren't there."""
    text, stubs = file_of_tasks(dice)
    names = ["n%d" % (len(stubs) - dice.randrange(20)) for _ in range(6)]
    names += dice.choices([*stubs], k=12)
    canvas = group(*[call(name, dice.randrange(9)) for name in names])
    given, files = json.dumps(canvas), {"tasks": text}
    yield Run(place, ["run", "-", "--tasks", "tasks"], given,
              End(0, rules.report(canvas, stubs), ""), files=files)
    yield Run(place, ["check", "-", "--json", "--strict", "--tasks", "tasks"], given,
              *checked_as_json(canvas, stubs), files=files)


# ---- lines


def a_line(dice):
    """A small canvas, which may be refused."""
    parts = [simple(dice) for _ in range(1 + dice.randrange(3))]
    return dice.choices([parts[0], chain(*parts), group(*parts), chord(parts, summed()),
                         chain(), group(group(*parts)), call("")], [6, 6, 4, 2, 1, 1, 1])[0]


def line_of(canvas):
    """What `run --each` prints of a canvas, and whether its result is a failure."""
    fault, refusal = faults.first_fault(canvas), None
    if fault:
        return views.said(*fault)[1], False
    refusal = rules.refusal(canvas)
    if refusal:
        return views.refused(canvas, refusal)[1], False
    end, _ = as_one_object(canvas)
    return end.out, end.status != 0


def run_of_lines(place, dice):
    """A run of this number of canvases."""
    canvases = [a_line(dice) for _ in range(65 + dice.randrange(200))]
    with_null = dice.randrange(2)
    texts = [json.dumps(it, indent=with_null or None) for it in canvases]
    lines = [line_of(it) for it in canvases]
    fails = dice.randrange(2)
    words = ["run", "-", "--each"] + ["--null"] * with_null + ["--fail"] * fails
    status = 3 if fails and any(failed for _, failed in lines) else 0
    given = "".join(it + "\n\0"[with_null] for it in texts)
    yield Run(place, words, given, End(status, "".join(text for text, _ in lines), ""))


# ---- warnings


def run_of_names(place, dice):
    """A check of tasks that aren't there, a warning for each name."""
    names = ["name%d" % dice.randrange(1000) for _ in range(size(dice))]
    canvas = group(*[call(name) for name in names])
    yield Run(place, ["check", "-", "--json", "--strict", "--task", "tasks.add=add"],
              json.dumps(canvas), *checked_as_json(canvas, {"tasks.add": "add"}))
