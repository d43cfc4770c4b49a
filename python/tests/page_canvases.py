"""Canvases that pages are tested with: hostile ones, and random ones."""

import random

from plain_canvases import chain, chord, group, s

#: Names that a canvas may have, and that would do something if they were HTML, a script or a key.
NAMES = ["<script>pwned=1</script>", "</script><img/src=x/onerror=pwned=1>", "</style>", "]]>",
         "<!--<script>", "'\"`${pwned=1}", "&lt;b&gt;&#39;", "\\u003cb\\u003e", "-->", "..",
         "javascript:pwned=1", "{{data}}", "{{style}}", "__proto__", "constructor", ".",
         "a..b.", "%3Cscript%3E", "x" * 128, "#1", "*", "toString", "</title><svg/onload=pwned=1>"]

#: Arguments, with characters that turn text round, end a line, or can't be seen.
TEXTS = ["</script><script>pwned=1</script>", "\u202egnp.exe", "\u2028pwned=1//", "\\", "\"", "'",
         "\x00\x07\x1b[31m\x7f", "\u00e9\U0001f600", "<img src=x onerror=pwned=1>", "\U000e0041",
         "{{hash of style}}"]


def hostile():
    """A canvas with all these names, and with these texts as arguments and as their names."""
    def task(at):
        made = s(NAMES[at % len(NAMES)], TEXTS[at % len(TEXTS)])
        made["kwargs"] = {f"</script>{at}": TEXTS[(at + 3) % len(TEXTS)]}
        return made
    last = len(NAMES) - 1
    body = task(last)
    body["options"] = {"link": [task(1)], "link_error": [task(0)]}
    return chain(task(1), chord([task(at) for at in range(10)], task(10)),
                 group(*(task(at) for at in range(11, last)), body))


def some_task(dice, deep=0):
    names = ("shop.a", "shop.b", "c", "tasks.add", "tasks.xsum", "tasks.div")
    made = s(dice.choice(names), *dice.choices(range(-2, 9), k=dice.choice((0, 1, 1, 2))),
             immutable=dice.random() < 0.2)
    for key in ("link", "link_error"):
        if deep < 2 and dice.random() < 0.2:
            made["options"][key] = [some_task(dice, deep + 1)
                                    for _ in range(dice.choice((1, 1, 2)))]
    return made


def some_canvas(dice, deep=0, closed=False):
    """A random canvas; a `closed` one ends in a task, as a member of a header has to."""
    kind = dice.random()
    if deep > 2 or kind < 0.3:
        return some_task(dice)
    if kind < 0.6:
        first = [some_canvas(dice, deep + 1) for _ in range(dice.choice((1, 2, 3)))]
        return chain(*first, some_task(dice) if closed else some_canvas(dice, deep + 1, closed))
    members = [some_canvas(dice, deep + 1, True) for _ in range(dice.choice((0, 1, 2, 3, 3, 4)))]
    if kind < 0.8 and not closed:
        return group(*members)
    return chord(members, some_canvas(dice, deep + 1, closed))


def random_canvases(count):
    """So many canvases, the same each time."""
    return [(f"random {seed}", some_canvas(random.Random(seed))) for seed in range(1, count + 1)]
