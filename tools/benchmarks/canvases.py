"""The canvases that are timed, as texts of JSON, each with its name. They are the same each time."""
import json
import random

LENGTH = 1 << 20  # the most bytes that a canvas may have


def call(name, *args, **options):
    """A call of a task: `link` and `link_error` are lists of signatures, `immutable` a bool."""
    immutable = options.pop("immutable", False)
    callbacks = {name: signatures for name, signatures in options.items() if signatures}
    return {
        "task": f"tasks.{name}",
        "args": list(args),
        "kwargs": {},
        "options": callbacks,
        "subtask_type": None,
        "immutable": immutable,
    }


def primitive(kind, **kwargs):
    return {
        "task": f"celery.{kind}",
        "args": [],
        "kwargs": kwargs,
        "options": {},
        "subtask_type": kind,
        "immutable": False,
    }


def chain(tasks):
    return primitive("chain", tasks=list(tasks))


def group(tasks):
    return primitive("group", tasks=list(tasks))


def chord(header, body):
    return primitive("chord", header=list(header), body=body)


def sums(count):
    return [call("add", number, number) for number in range(count)]


def line(count):
    return chain([call("add", 1, 1), *(call("add", 1) for _ in range(count - 1))])


def towers(depth):
    """A chord whose first member is such a chord, and so on."""
    if depth == 0:
        return call("add", 1, 1)
    return chord([towers(depth - 1), *sums(2)], call("xsum"))


def numbers(first, count):
    return list(range(first, first + count))


def heavy_line(length, count):
    """A chain of sums over so many numbers each. What follows a task travels in its message."""
    return chain([call("xsum", numbers(1_000 + i, count), immutable=True) for i in range(length)])


def failing(count):
    """Members of which every second fails, all with callbacks, and a body that is skipped."""
    header = [
        call("div", i, i % 2, link=[call("ident")], link_error=[call("log_error")])
        for i in range(count)
    ]
    return chord(header, chain([call("xsum", link_error=[call("log_error")]), *sums(200)]))


def stages(count, width):
    """Groups and sums in turn, each task with callbacks."""
    tasks = []
    for stage in range(count):
        first = [1] if stage == 0 else []
        tasks.append(
            group(
                call("add", *first, i, link=[call("ident")], link_error=[call("log_error")])
                for i in range(width)
            )
        )
        tasks.append(call("xsum"))
    return chain(tasks)


def linked(length, links):
    """A chain of tasks with so many links each."""
    return chain(
        call("add", *([1, 1] if i == 0 else [1]), link=[call("add", k) for k in range(links)])
        for i in range(length)
    )


def bodied(count, length):
    """A chord whose body is a sum and then a chain, with callbacks."""
    links = [call("log_error")]
    body = chain([call("xsum"), *(call("add", 1, link_error=links) for _ in range(length))])
    return chord(sums(count), body)


def after_one(count):
    """A group behind a task."""
    return chain([call("add", 1, 1), group(call("add", i) for i in range(count))])


def carrying(count, length):
    """Members that carry a body of so many numbers."""
    return chord(sums(count), call("xsum", numbers(0, length), immutable=True))


# What a user's canvases are of, at the sizes where a run's cost shows.
KINDS = {
    "one task": lambda: call("add", 2, 2),
    "a chain of 200 tasks": lambda: line(200),
    "a chain of 1,000": lambda: line(1_000),
    "a group of 1,000": lambda: group(sums(1_000)),
    "a task, then a group of 1,000": lambda: after_one(1_000),
    "a chord of 1,000 into a sum": lambda: chord(sums(1_000), call("xsum")),
    "300 chains of three into a sum": lambda: chord(
        [line(3) for _ in range(300)], call("xsum")
    ),
    "a chord whose body is a chain": lambda: bodied(300, 300),
    "40 towers of six chords": lambda: chord([towers(6) for _ in range(40)], call("xsum")),
    "a chain of 20, 50 links each": lambda: linked(20, 50),
    "ten groups of one, each summed": lambda: stages(10, 1),
    "250 members, half of them failing": lambda: failing(250),
    "ten stages of 33 with callbacks": lambda: stages(10, 33),
    "16 chains of 60 tasks": lambda: group(line(60) for _ in range(16)),
    "16 chains of 60 heavy tasks": lambda: group(heavy_line(60, 190) for _ in range(16)),
    "a chain of 400 heavy tasks": lambda: heavy_line(400, 450),
    "200 members that carry 600 KB": lambda: carrying(200, 99_000),
}


def chosen(seed):
    """A canvas of each kind but the first, whose size is from chance between a half of what it has
    there and the whole: of a seed the same each time."""

    def size(most):
        return chance.randint((most + 1) // 2, most)

    chance = random.Random(seed)
    made = [
        line(size(200)),
        line(size(1_000)),
        group(sums(size(1_000))),
        after_one(size(1_000)),
        chord(sums(size(1_000)), call("xsum")),
        chord([line(3) for _ in range(size(300))], call("xsum")),
        bodied(size(300), size(300)),
        chord([towers(6) for _ in range(size(40))], call("xsum")),
        linked(size(20), size(50)),
        stages(size(10), 1),
        failing(size(250)),
        stages(size(10), size(33)),
        group(line(60) for _ in range(size(16))),
        group(heavy_line(60, 190) for _ in range(size(16))),
        heavy_line(size(400), 450),
        carrying(size(200), size(99_000)),
    ]
    return {f"smaller: {name}": lambda it=it: it for name, it in zip(list(KINDS)[1:], made)}


def numbered(text, count):
    """A group of calls, each with such a text of its own."""
    return group(call("ident", f"{text} {i}") for i in range(count))


def shuffled(count):
    """A number of named arguments, in random order."""
    names = [f"{number:x}" for number in range(count)]
    random.Random(1).shuffle(names)
    return dict.fromkeys(names, 1)


# Canvases of other shapes, most of them flat: their messages share next to no text. They have what
# the kinds don't: signs, names, lists, escapes, long texts.
OTHERS = {
    "a group of 600 with negative numbers": lambda: group(call("add", i, -i) for i in range(600)),
    "a group of 600 with large numbers": lambda: group(
        call("add", 10**17 + i, -(10**17)) for i in range(600)
    ),
    "a group of 600 with named arguments": lambda: group(
        {**call("add", i), "kwargs": {"y": i}} for i in range(600)
    ),
    "a group of 600 with lists": lambda: group(
        call("xsum", [-i, i, 5, -7]) for i in range(600)
    ),
    "a group of 600 with texts": lambda: numbered("a text of a line", 600),
    "a group of 600 with escapes": lambda: numbered('two "lines"\nof a text', 600),
    "a group of 600 with other letters": lambda: numbered("Gr\u00fc\u00dfe, \u0130stanbul", 600),
    "one escape, then 600 calls": lambda: group([call("ident", "a\nb"), *sums(600)]),
    "300 texts of 300 letters": lambda: numbered("x" * 300, 300),
    "a chord of 600 negative numbers": lambda: chord(
        (call("add", i, -i) for i in range(600)), call("xsum")
    ),
    "a chain of 400 negative numbers": lambda: chain(
        [call("add", -1, -1), *(call("add", -1) for _ in range(399))]
    ),
    "a chord of 30 chords of 20": lambda: chord(
        (chord(sums(20), call("xsum")) for _ in range(30)), call("xsum")
    ),
    "a group of 400 with links": lambda: group(
        call("add", i, i, link=[call("ident")]) for i in range(400)
    ),
    "a call with 90,000 named arguments": lambda: {**call("add"), "kwargs": shuffled(90_000)},
}

# Canvases of one kind with ever more tasks.
GROWING = {
    "a chain": line,
    "a group": lambda count: group(sums(count)),
    "a chord": lambda count: chord(sums(count), call("xsum")),
}


def text_of(canvas):
    return json.dumps(canvas, separators=(",", ":"))


def filled(part, depth=0, opening="", closing=""):
    """A canvas of nearly the greatest length, a member of which holds equal parts."""
    one = opening * depth + part + closing * depth
    before, behind = '{"task":"tasks.add","args":[1,1],"x":[', "]}"
    room = LENGTH - len(before) - len(behind) + 1
    return before + ",".join([one] * (room // (len(one) + 1))) + behind


def many_members():
    members = ",".join(f'"{number:x}":0' for number in range(100_000))
    return '{"task":"tasks.add","args":[1,1],"x":{' + members + "}}"


# Texts of 1 MiB that nobody of ours wrote.
HOSTILE = {
    "objects of one member, 118 deep": lambda: filled("0", 118, '{"a":', "}"),
    "lists of one item, 118 deep": lambda: filled("0", 118, "[", "]"),
    "empty lists": lambda: filled("[]"),
    "empty objects": lambda: filled("{}"),
    "numbers of one digit": lambda: filled("7"),
    "numbers of 18 digits": lambda: filled("123456789012345678"),
    "texts of escapes": lambda: filled('"' + "".join(f"\\u00{c:x}" for c in range(65, 73)) + '"'),
    "100,000 members": many_members,
}
