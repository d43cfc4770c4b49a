#!/usr/bin/env python3
"""What the program shows of a canvas besides its report, by the rules of rules.py: pictures, JSON
lines, figures, the places of refusals, and which messages a run publishes.

docs/FORMATS.md says how each is written.

    python3 views.py    checks the rows at the end of this file; the status is 1 if one is wrong
"""
import json
import re
import sys

# No compiled modules are left in the tree.
sys.dont_write_bytecode = True

import rules
from cases import drawn, identified
from rules import STATES, Walk, callbacks, ends_in_group, identifier, kind_of, parts


def written(value):
    """A value as a line of JSON, which is printable ASCII."""
    return json.dumps(value, sort_keys=True, separators=(",", ":")).replace("\x7f", "\\u007f")


# ---- texts in lines for a person


def text_shown(text):
    known = {'"': '\\"', "\\": "\\\\"}
    cut = "".join(known.get(it, it if " " <= it <= "~" else "\\u{%x}" % ord(it))
                  for it in text[:40])
    return '"%s%s"' % (cut, ".." * (len(text) > 40))


def name_shown(name):
    """The name of an option or parameter, which is in quotes unless it is plain."""
    return name if re.fullmatch(r'[!#-\[\]-~]{1,40}', name) else text_shown(name)


# ---- JSON lines


def result_of(state):
    """A state as Celery's result backends store it."""
    if not isinstance(state, str):
        return state
    kind, _, said = state.partition(": ")
    return {"exc_message": [said] if said else [], "exc_type": kind}


OTHER = re.compile("ZeroDivisionError|NotRegistered")


def other(state):
    """A state of tasks some of which return objects and raise exceptions of other names."""
    if isinstance(state, str):
        return OTHER.sub(r"Own\g<0>", state)
    return {"of\u009b\u202e\n": [state, 0.5, "\x7f\U0001f600"]} if state and state % 2 else state


def same(state):
    return state


def status_of(states):
    """The status of a canvas's result: a failure before what is pending."""
    return next((STATES[it] for it in (str, type(None)) if it in map(type, states)), "SUCCESS")


def at_fault(row, stubs, number):
    """The member of a row that says which parameter makes its call a TypeError, null where none
    does; nothing of any other task."""
    task = rules.answers_as(stubs, row.name, number)
    if not row.ran or row.state != "TypeError" or task is None:
        return {}
    return {"parameter": (rules.blamed(task, *row.call) or [None])[0]}


def json_report(canvas, tells=True, made=same, stubs=None):
    """The text that `canvas run --json` prints, and the status with `--fail`. That of `collect`
    doesn't tell which tasks were called, and may be of tasks of any kind."""
    walk = Walk(canvas, stubs)
    lines = [{"name": row.name, "result": result_of(made(row.state)),
              "status": STATES[type(row.state)], "task_id": identifier(task)}
             for task, row in enumerate(walk.rows, 1)]
    for task, row in enumerate(walk.rows if tells else [], 1):
        lines[task - 1].update(ran=row.ran, due_to=row.due and identifier(row.due))
        lines[task - 1].update(at_fault(row, walk.stubs, task))
    states = [walk.rows[end - 1].state for end in walk.ends]
    results = [result_of(made(it)) for it in states]
    status = status_of(states)
    lines.append({"ends": [identifier(end) for end in walk.ends],
                  "result": results if ends_in_group(canvas) else results[0], "status": status})
    return "".join(written(it) + "\n" for it in lines), 3 if status == "FAILURE" else 0


def case(canvas, stubs):
    """The rows of a canvas, and its result, as JSON lines."""
    *rows, last = json_report(canvas, stubs=stubs)[0].splitlines()
    return rows, last


def failures(canvas, word, stubs=None):
    """The text that `canvas run --failures` prints: the canvas as it stands, and then what differs
    if each task fails alone."""
    stubs = stubs or {}
    rows, last = case(canvas, stubs)
    lines = ['{"canvas":%s,"fails":null,"rows":[%s]}' % (last, ",".join(rows))]
    for task in range(1, len(rows) + 1):
        found, end = case(canvas, {**stubs, "#%d" % task: word})
        changed = [row for row, before in zip(found, rows) if row != before]
        lines.append('{"canvas":%s,"fails":"%s","rows":[%s]}' % (
            end, identifier(task), ",".join(changed)))
    return "".join(it + "\n" for it in lines)


def named(sig, counts):
    """A signature of a normal line that names its tasks, groups and chords."""
    kind = kind_of(sig)
    if kind == "chain":
        return dict(sig, kwargs={"tasks": [named(it, counts) for it in parts(sig)]})
    counts[kind is None] += 1
    if kind is None:
        own = {"task_id": identifier(counts[True])}
        called = {name: [named(it, counts) for it in callbacks(sig, name)]
                  for name in ("link", "link_error") if callbacks(sig, name)}
        return dict(sig, options={**called, **own})
    options = {"group_id": group_identifier(counts[False])}
    kwargs = {name: [named(it, counts) for it in sig["kwargs"][name]]
              for name in ("tasks", "header") if name in sig["kwargs"]}
    if kind == "chord":
        kwargs["body"] = named(sig["kwargs"]["body"], counts)
    return dict(sig, kwargs=kwargs, options=options)


def numbered_line(canvas):
    """The text that `canvas normal --numbers` prints."""
    line = named(rules.line([canvas]), {True: 0, False: 0})
    compact = {"sort_keys": True, "ensure_ascii": False, "separators": (",", ":")}
    return json.dumps(line, **compact) + "\n"


def numbered(state):
    """A state, in which tasks go by their numbers."""
    if state is None:
        return "-"
    head, named, behind = str(state).partition("Dependency ")
    if not named:
        return head
    task, _, why = behind.partition(" ")
    return "%s%s#%d %s" % (head, named, rules.task_named(task), why)


def reason(row):
    """Why a task wasn't called."""
    if row.due:
        return " (not called, due to #%d)" % row.due
    return "" if row.ran else " (will not run)"


def explained(canvas, stubs=None):
    """The text that `canvas run --explain` prints."""
    walk = Walk(canvas, stubs)
    values = [numbered(row.state) for row in walk.rows]
    lines = ["#%d %s %s %s%s\n" % (task, row.name, STATES[type(row.state)], value, reason(row))
             for task, (row, value) in enumerate(zip(walk.rows, values), 1)]
    result = ", ".join(values[end - 1] for end in walk.ends)
    return "".join(lines) + "result %s\n" % ("[%s]" % result if ends_in_group(canvas) else result)


# A run on Celery's workers, and an identifier of it.
RUN = "0123456789abcdef012345"

IN_RUN = "01234567-89ab-8cde-8f01-2345%08x"


def stored(canvas, made=same):
    """The results that Celery's workers store of the tasks that run, a line each."""
    lines = []
    for task, row in enumerate(Walk(canvas).rows, 1):
        found = {"result": result_of(made(row.state)), "status": STATES[type(row.state)],
                 "task_id": IN_RUN % task}
        lines.append(written(found) + "\n" if row.ran else "\n")
    return "".join(lines)


# ---- pictures

LOOKS = {
    type(None): 'shape=box, style="dashed,filled", fillcolor="#eeeeee"',
    int: 'shape=box, style="rounded,filled", fillcolor="#d8f0d8"',
    str: 'shape=octagon, style=filled, fillcolor="#f7d4d4", penwidth=2',
}

SKIPPED = 'shape=hexagon, style="dashed,filled", fillcolor="#fbeeee"'

HEAD = """\
digraph canvas {
  rankdir=LR;
  node [fontname="Helvetica"];
  edge [fontname="Helvetica"];
  fontname="Helvetica";
"""


def in_quotes(text):
    known = {'"': '\\"', "\\": "\\\\", "\n": "\\n", "&": "&amp;"}
    return '"%s"' % "".join(
        known.get(it, it if " " <= it <= "~" else "\\\\u{%x}" % ord(it)) for it in text)


def shown_argument(value):
    """An argument, with no more than 24 characters or numbers of it."""
    if isinstance(value, str):
        return "'%s'" % (value[:24] + ".." * (len(value) > 24))
    if isinstance(value, list):
        return "[%s]" % ", ".join([str(it) for it in value[:24]] + [".."] * (len(value) > 24))
    return str(value)


def shown_call(task, sig):
    shown = [shown_argument(it) for it in sig.get("args") or []]
    kwargs = sorted((sig.get("kwargs") or {}).items(), key=lambda it: it[0].encode())
    shown += ["%s=%s" % (name, shown_argument(it)) for name, it in kwargs]
    behind = "\ntakes no input" if sig.get("immutable") else ""
    return "%d %s(%s)%s" % (task, sig["task"], ", ".join(shown), behind)


def shown_state(state):
    if isinstance(state, str):
        kind, _, said = state.partition(": ")
        if said:
            _, named, _, why = said.split(" ")
            kind = "ChordError:\n%d raised %s" % (rules.task_named(named), why)
        return "\nFAILURE " + kind
    return "\nPENDING" if state is None else "\nSUCCESS %d" % state


class Picture:
    """A canvas in the language of Graphviz, with the rows of a run, if there was one. Its line is
    drawn, in which a group that something follows is a chord."""

    def __init__(self, canvas, rows=None):
        self.rows, self.tasks, self.groups = rows, 0, 0
        self.nodes, self.edges = [], []
        self.element(rules.line([canvas]))

    def text(self):
        return HEAD + "".join("  %s\n" % it for it in self.nodes + self.edges) + "}\n"

    def join(self, before, behind, looks=""):
        self.edges += ["%s -> %s%s;" % (one, other, looks) for one in before for other in behind]

    def element(self, sig):
        """Draws a signature. The nodes at which it begins, and those at which it ends."""
        kind = kind_of(sig)
        if kind is None:
            return self.task(sig)
        if kind == "chain":
            return self.in_a_row([self.element(it) for it in parts(sig)])
        if kind == "group":
            return self.frame(sig, kind)
        return self.chord(sig)

    def in_a_row(self, drawn):
        for (_, ends), (starts, _) in zip(drawn, drawn[1:]):
            self.join(ends, starts)
        return drawn[0][0], drawn[-1][1]

    def chord(self, sig):
        """A header and a body, with a point between them if both have several nodes there."""
        joint = "j%d" % (self.groups + 1)
        starts, header_ends = self.frame(sig, "chord")
        place = len(self.nodes)
        body_starts, ends = self.element(body_of(sig))
        if len(header_ends) > 1 and len(body_starts) > 1:
            self.nodes.insert(place, "%s [shape=point];" % joint)
            self.join(header_ends, [joint])
            header_ends = [joint]
        self.join(header_ends, body_starts)
        return starts, ends

    def task(self, sig):
        self.tasks += 1
        task, node = self.tasks, "t%d" % self.tasks
        label, looks = shown_call(task, sig), "shape=box, style=rounded"
        if self.rows is not None:
            state, due = self.rows[task - 1].state, self.rows[task - 1].due
            label, looks = label + shown_state(state), LOOKS[type(state)]
            if due:
                label, looks = label + "\nnot called, due to %d" % due, SKIPPED
        self.nodes.append("%s [%s, label=%s];" % (node, looks, in_quotes(label)))
        for name, said in [("link", "success"), ("link_error", "failure")]:
            for callback in callbacks(sig, name):
                self.join([node], self.task(callback)[0], ' [style=dashed, label="on %s"]' % said)
        return [node], [node]

    def frame(self, sig, kind):
        """The members of a group or header, in a frame."""
        self.groups += 1
        group, point = self.groups, "g%d" % self.groups
        self.nodes += ["subgraph cluster_%d {" % group, 'label="%s %d";' % (kind, group)]
        members = [self.element(it) for it in parts(sig)]
        if not members:
            self.nodes.append("%s [shape=point];" % point)
            members = [([point], [point])]
        self.nodes.append("}")
        return tuple([node for member in members for node in member[side]] for side in (0, 1))


def body_of(sig):
    return sig["kwargs"]["body"]


def picture(canvas, ran=False, stubs=None):
    """The text that `canvas graph` prints, with `--run` where the canvas ran."""
    return Picture(canvas, Walk(canvas, stubs).rows if ran else None).text()


def in_any_order(text):
    """A picture with its edges sorted, whose order says nothing."""
    lines = text.split("\n")
    return "\n".join([it for it in lines if " -> " not in it]
                     + sorted(it for it in lines if " -> " in it))


# ---- figures, and where a canvas is refused


def figures(canvas, stubs=None):
    """What `canvas check` prints of a canvas first, up to the bytes of its messages."""
    kinds = [kind_of(it) for it in rules.signatures(canvas)]
    groups = kinds.count("group") + kinds.count("chord")
    return ("tasks %d\ngroups and chords %d\nnesting %d\nreach %d\nmessages %d\n"
            "bytes of messages " % (kinds.count(None), groups, rules.nesting(canvas),
                                    rules.reach(rules.line([canvas])), len(rules.ran(canvas, stubs))))


def in_list(at, found):
    return [("%s/%d" % (at, index), it) for index, it in enumerate(found)]


def steps(sig):
    """The signatures in one, each with the pointer to it from there, whether it stands deeper, and
    whether it is a member. A header that is a group is a signature of its own."""
    kwargs, kind, options = sig.get("kwargs") or {}, kind_of(sig), sig.get("options") or {}
    if kind in ("chain", "group"):
        for at, part in in_list("/kwargs/tasks", kwargs["tasks"]):
            yield at, part, 1, kind == "group"
    elif kind == "chord":
        header = kwargs["header"]
        if isinstance(header, dict):
            yield "/kwargs/header", header, 0, False
        else:
            yield from ((at, it, 1, True) for at, it in in_list("/kwargs/header", header))
        yield "/kwargs/body", kwargs["body"], 1, False
    for name in ("link", "link_error"):
        found, at = options.get(name), "/options/" + name
        for at, callback in [(at, found)] if isinstance(found, dict) else in_list(at, found or []):
            yield at, callback, 1, False


def places(sig, at="", depth=1, is_member=False):
    """All signatures in file order, each with its pointer, its depth, and whether it is a
    member."""
    yield at, sig, depth, is_member
    for more, part, deeper, is_member in steps(sig):
        yield from places(part, at + more, depth + deeper, is_member)


def place_of(canvas, refusal):
    """The pointer to the signature that is refused, its name, and the note on it."""
    if refusal == "10 NestedGroup":
        note = "found a member that ends in a group, wanted one that ends in a task"
        found = (it for it in places(canvas) if it[3] and ends_in_group(it[1]))
    else:
        note = "found a signature more than 8 deep in others, wanted at most 8"
        found = (it for it in places(canvas) if it[2] > 8)
    at, sig, *_ = next(found, ("", canvas))
    if not at:
        note = ("found signatures more than 32 deep in each other in a message of the run, "
                "wanted at most 32")
    return at, sig["task"], note


def said(refusal, note, at, name):
    """What `canvas check` says of a refusal at a signature, and `canvas run --json`."""
    code, kind = refusal.split(" ")
    as_json = {"code": int(code), "name": kind, "note": note, "pointer": at, "task": name}
    behind = " (%s)" % name if name else ""
    return ("at %s%s\n%s\ncanvas: refused %s\n" % (at or "the top", behind, note, refusal),
            written(as_json) + "\n")


def refused(canvas, refusal):
    """The same of a canvas that is nested or too deep."""
    at, name, note = place_of(canvas, refusal)
    return said(refusal, note, at, name)


# ---- messages


def published(walk):
    """The tasks that run, in the order in which one worker publishes their messages."""
    queue, happened = [], set()

    def happens(event):
        happened.add(event)
        queue.extend(task for task, row in enumerate(walk.rows, 1)
                     if row.ran and row.event == event)
        for group, ends in walk.headers.items():
            ended = {walk.rows[end - 1].end(end) for end in ends}
            if ended <= happened and ("header", group) not in happened:
                happens(("header", group))

    happens(("start",))
    for task in queue:
        happens(("end", task))
    return queue


def group_identifier(group):
    return group and identifier(group).replace("-8000-0000", "-9000-0000")


def message(walk, task):
    """What a message says of its task, without what goes with the call."""
    row = walk.rows[task - 1]
    headers = {"group": group_identifier(walk.group_of.get(task)), "id": identifier(task),
               "lang": "rs", "parent_id": row.parent and identifier(row.parent),
               "root_id": identifier(1), "task": row.name}
    properties = {"content_encoding": "utf-8", "content_type": "application/json",
                  "correlation_id": identifier(task)}
    return {"body": list(row.call), "headers": headers, "properties": properties}


def messages(canvas):
    """The messages that one worker publishes, a line each."""
    walk = Walk(canvas)
    return "".join(written(message(walk, task)) + "\n" for task in published(walk))


def behind(walk, event):
    """The tasks whose ends bring an event about: of a header those that end its members."""
    if event[0] != "header":
        return [*event[1:]]
    ends = [walk.rows[end - 1].end(end) for end in walk.headers[event[1]]]
    return [task for end in ends for task in behind(walk, end)]


def identifiers(tasks):
    return [identifier(task) for task in tasks]


def call_of(walk, task):
    """The call that the message of a task asks for."""
    row = walk.rows[task - 1]
    begun = walk.begun[row.event[1]] if row.event[0] == "header" else None
    return {"after": identifiers(behind(walk, row.event)), "args": row.call[0],
            "header_after": begun and identifiers(behind(walk, begun)), "kwargs": row.call[1],
            "name": row.name, "parent_id": row.parent and identifier(row.parent),
            "task_id": identifier(task)}


def calls(canvas, stubs=None):
    """The calls that one worker publishes, a line each, and then the names of all tasks."""
    walk = Walk(canvas, stubs)
    lines = [*(call_of(walk, task) for task in published(walk)),
             {"names": [row.name for row in walk.rows]}]
    return "".join(written(it) + "\n" for it in lines)


def read_messages(text):
    """What `canvas messages` prints, without what goes with the calls."""
    found = [{name: json.loads(it) for name, it in json.loads(line).items()}
             for line in text.splitlines()]
    return "".join(written(dict(it, body=it["body"][:2])) + "\n" for it in found)


def in_order_of_tasks(text):
    """Messages as `read_messages` has them, by tasks, as several workers publish them."""
    lines = sorted(text.splitlines(), key=lambda it: json.loads(it)["headers"]["id"])
    return "".join(it + "\n" for it in lines)


# ---- rows that are worked out by hand

FAILED_JSON = """\
{"due_to":null,"name":"tasks.add","ran":true,"result":8,"status":"SUCCESS","task_id":"#1"}
{"due_to":null,"name":"tasks.div","ran":true,"result":{"exc_message":[],"exc_type":"ZeroDivisionError"},"status":"FAILURE","task_id":"#2"}
{"due_to":null,"name":"tasks.add","ran":true,"result":16,"status":"SUCCESS","task_id":"#3"}
{"due_to":"#2","name":"tasks.xsum","ran":false,"result":{"exc_message":["Dependency #2 raised ZeroDivisionError"],"exc_type":"ChordError"},"status":"FAILURE","task_id":"#4"}
{"due_to":null,"name":"tasks.log_error","ran":true,"result":4,"status":"SUCCESS","task_id":"#5"}
{"ends":["#4"],"result":{"exc_message":["Dependency #2 raised ZeroDivisionError"],"exc_type":"ChordError"},"status":"FAILURE"}
"""

FAILED_PICTURE = HEAD + r"""
  subgraph cluster_1 {
  label="chord 1";
  t1 [S, label="1 tasks.add(4, 4)\nSUCCESS 8"];
  t2 [F, label="2 tasks.div(1, 0)\nFAILURE ZeroDivisionError"];
  t3 [S, label="3 tasks.add(8, 8)\nSUCCESS 16"];
  }
  t4 [K, label="4 tasks.xsum()\nFAILURE ChordError:\n2 raised ZeroDivisionError\nnot called, due to 2"];
  t5 [S, label="5 tasks.log_error()\nSUCCESS 4"];
  t1 -> t4;
  t2 -> t4;
  t3 -> t4;
  t4 -> t5 [style=dashed, label="on failure"];
}
"""[1:].replace("[S", "[" + LOOKS[int]).replace("[F", "[" + LOOKS[str]).replace("[K", "[" + SKIPPED)

# Worked by hand: canvases, and of each task that it ran, +, that it won't, -, or to whom it is due.
FATES = [
    ("C(.,.,.)", "add:1,1 div:0 div:0", "+ + 2"),
    ("+.>", "div:1,0 mul:3", "+ -"),
    ("C(.,?.>)", "div:1,0 add:1 log_error:", "+ 1 -"),
    ("H[.,.,.|?.>]", "add:1,1 div:1,0 div:2,0 xsum: log_error:", "+ + + 2 +"),
    ("C(H[C(.,.),.|.],.)", "div:1,0 add:1 add:1,1 xsum: mul:2", "+ 1 + 2 2"),
    ("C(.,H[|.])", "div:1,0 xsum:", "+ 1"),
    ("H[H[.|.],.|.]", "div:1,0 xsum: add:1,1 xsum:", "+ 1 + 2"),
    ("C(H[.|H[?.>,.|.]])", "div:1,0 add:1 log_error: add:2 xsum:", "+ 1 + 1 2"),
    ("H[.|H[|?.>]]", "div:1,0 xsum: log_error:", "+ 1 +"),
    ("C(G(.,.),G(.,.))", "add:1,1 div:1,0 add:1 add:2", "+ + 2 2"),
]

# A canvas, and the tasks whose messages one worker publishes, in this order.
ORDERS = [
    (*rules.FAILED_HEADER, [1, 2, 3, 5]),
    ("G(C(+.,.>,.),C(.,.))", "add:1,1 mul:2 mul:3 mul:4 add:2,2 mul:5", [1, 5, 2, 3, 4, 6]),
    ("C(?.>,.)", "div:1,0 log_error: mul:2", [1, 2]),
    ("C(.,H[|.],G(.,.))", "add:1,1 xsum: mul:1 mul:2", [1, 2, 3, 4]),
    ("H[H[.|.],.|?.>]", "div:1,0 xsum: add:1,1 xsum: log_error:", [1, 3, 5]),
]

A_MESSAGE = """\
{"body":[[2,3],{}],"headers":{"group":"00000000-0000-8000-9000-000000000001","id":"#3",\
"lang":"rs","parent_id":"#1","root_id":"#1","task":"tasks.mul"},"properties":\
{"content_encoding":"utf-8","content_type":"application/json","correlation_id":"#3"}}"""

PLACES = [
    ("G(a,G(b))", "10 NestedGroup", "/kwargs/tasks/1"),
    ("H[H[a|G(b)],c|d]", "10 NestedGroup", "/kwargs/header/0"),
    ("C(a,C(C(C(C(C(C(C(b,c))))))))", "11 TooDeep", "/kwargs/tasks/1" + 7 * "/kwargs/tasks/0"),
    ("C(%s,G(a),a)" % rules.PAIRS, "11 TooDeep", ""),
]


def checks():
    """What is found and what is wanted, of each row."""
    failed = rules.canvas_of(*rules.FAILED_HEADER)
    yield json_report(failed), (identified(FAILED_JSON), 3)
    for frame, calls, wanted in FATES:
        rows = Walk(rules.canvas_of(frame, calls)).rows
        yield " ".join("+" if row.ran else str(row.due or "-") for row in rows), wanted
    yield json_report(rules.canvas_of("+.>", "add:1,1 div:0"))[1], 0
    yield in_any_order(picture(failed, True)), in_any_order(FAILED_PICTURE)
    yield figures(failed), ("tasks 5\ngroups and chords 1\nnesting 3\nreach 4\nmessages 4\n"
                            "bytes of messages ")
    for frame, calls, wanted in ORDERS:
        yield published(Walk(rules.canvas_of(frame, calls))), wanted
    walk = Walk(rules.canvas_of("C(.,G(.,.))", "add:1,1 ident: mul:3"))
    yield written(message(walk, 3)), identified(A_MESSAGE)
    for notation, refused, wanted in PLACES:
        canvas = json.loads(drawn(notation))
        yield (rules.refusal(canvas), place_of(canvas, refused)[0]), (refused, wanted)


if __name__ == "__main__":
    sys.exit(rules.told("views", list(checks())))
