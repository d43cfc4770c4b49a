"""Cases of the program: words, an input, and what has to come of them, as files tell them.

A case begins with a line `== NAME`. The first sign of each other line says what it is:

    $ WORDS     the words behind `canvas`, by the rules of a shell; several such lines are several runs
    $- WORDS    the same, with escapes
    $~ WORDS    the same, in which `{3:x}` stands for `x,x,x`
    < LINE      a line of the input (the last one has no line feed)
    <+ TEXT     goes on with the line before
    <- TEXT     the same, with escapes
    <* N TEXT   goes on with N times the text
    <@ FRAME CALLS   a canvas in the short notation of `spelled`, below
    <~ NOTATION      a canvas in the shorter one of `drawn`, below
    <! folder   the input can't be read: it is a folder
    | TEXT      an input of its own; several such lines are as many runs
    |- TEXT     the same, with escapes
    |~ NOTATION      the same, in the shorter notation
    @ NAME      the lines of input behind it are those of a file of that name, until `@ -`
    @! NAME     the file of that name may not be read
    > LINE      a line of the output
    ># LINE     the same, in which #7 stands for the identifier of task 7
    >- TEXT     a piece of the output with no line feed, with escapes
    >*          any output may stand here
    >! full     the output takes nothing
    ! LINE      a line of standard error
    !! full     standard error takes nothing
    ? N         the status, where it isn't 0
    = N         each run has N MiB of memory
    * N         each run has N threads at least
    % LINE      each shorter input has to end in status 1 with this line of standard error

Escapes are those of JSON's texts, and \\xff for a byte. A line that begins with # is a comment, and
an empty one says nothing.
"""
import json
import re
import shlex
from dataclasses import dataclass, field

PIECES = {
    "C": '{"task":"x","subtask_type":"chain","kwargs":{"tasks":',
    "G": '{"task":"x","subtask_type":"group","kwargs":{"tasks":',
    "H": '{"task":"x","subtask_type":"chord","kwargs":{"header":',
    "(": "[",
    "[": "[",
    ")": "]}}",
    "|": '],"body":',
    "]": "}}",
    ",": ",",
    "7": "7",
    "*": '{"task":"x","options":{"link":{"task":"y"},"link_error":{"task":"z"}}}',
}

BEHIND_CALLS = {
    ".": "}",
    "!": ',"immutable":true}',
    "+": ',"options":{"link":[',
    "?": ',"options":{"link_error":[',
}


class BadCase(Exception):
    """A file that can't be read as cases, with the place."""


def drawn(notation):
    """A canvas of tasks without arguments: a small letter is a task of that name, `*` one with a
    link and an error callback, `C(..)` a chain, `G(..)` a group and `H[..|..]` a chord."""
    return "".join('{"task":"%s"}' % it if it.islower() else PIECES[it] for it in notation)


def spelled(frame, calls):
    """A canvas of calls: `.` is the next call and `!` the same made immutable, `+..>` the next call
    with links, `?..>` with error callbacks. A call is written `add:1,2`."""
    calls, text = iter(calls), []
    for sign in frame:
        if sign in BEHIND_CALLS:
            name, _, numbers = next(calls).partition(":")
            text.append('{"task":"tasks.%s","args":[%s]%s' % (name, numbers, BEHIND_CALLS[sign]))
        else:
            text.append("]}}" if sign == ">" else PIECES[sign])
    return "".join(text)


def repeated(text):
    """The text, in which `{3:x}` stands for `x,x,x`; inner ones first."""
    inner = re.compile(r"\{(\d+):([^{}]*)\}")
    while inner.search(text):
        text = inner.sub(lambda it: ",".join([it[2]] * int(it[1])), text)
    return text


def repeated_calls(calls):
    """The calls, of which `3*add:i,i` stands for `add:0,0 add:1,1 add:2,2`."""
    for call in calls:
        number, star, one = call.partition("*")
        yield from [one.replace("i,i", f"{i},{i}") for i in range(int(number))] if star else [call]


def identified(text):
    """The text with the identifiers of the tasks that it names by #7."""
    return re.sub(r"#(\d+)", lambda it: "00000000-0000-8000-8000-%012x" % int(it[1]), text)


def unescaped(text):
    r"""The text that the escapes tell. A byte is what Python makes of one that is no UTF-8."""
    text = re.sub(r"\\x(..)", lambda it: r"\udc" + it[1], text)
    return json.loads('"%s"' % text.replace('"', r"\""))


@dataclass
class Case:
    """What `place` and `name` say is only told; the output is what stands between any others."""

    place: str
    name: str
    runs: list = field(default_factory=list)
    texts: dict = field(default_factory=dict)
    others: list = field(default_factory=list)
    file: str = "-"
    out: list = field(default_factory=lambda: [""])
    err: str = ""
    status: int = 0
    prefixes: str = None
    room: int = None
    seconds: float = 120
    threads: int = None
    forbidden: list = field(default_factory=list)
    is_folder: bool = False
    is_full: bool = False
    is_mute: bool = False

    @property
    def inputs(self):
        return self.others or [self.texts.get("-", "")]

    def add_line(self, text):
        before = self.texts.get(self.file)
        self.texts[self.file] = text if before is None else before + "\n" + text

    def add(self, text):
        self.texts[self.file] = self.texts.get(self.file, "") + text

    def take(self, sign, text):
        {
            "$": lambda: self.runs.append(shlex.split(text)),
            "$-": lambda: self.runs.append([unescaped(word) for word in shlex.split(text)]),
            "$~": lambda: self.runs.append(shlex.split(repeated(text))),
            "<": lambda: self.add_line(text),
            "<+": lambda: self.add(text),
            "<-": lambda: self.add(unescaped(text)),
            "<*": lambda: self.add(text.partition(" ")[2] * int(text.partition(" ")[0])),
            "<@": lambda: self.add_line(short_canvas(text)),
            "<~": lambda: self.add_line(drawn(repeated(text))),
            "<!": lambda: setattr(self, "is_folder", True),
            "|": lambda: self.others.append(text),
            "|-": lambda: self.others.append(unescaped(text)),
            "|~": lambda: self.others.append(drawn(repeated(text))),
            "@": lambda: setattr(self, "file", text),
            "@!": lambda: self.forbidden.append(text),
            ">": lambda: self.wants(text + "\n"),
            ">#": lambda: self.wants(identified(text) + "\n"),
            ">-": lambda: self.wants(unescaped(text)),
            ">*": lambda: self.out.append(""),
            ">!": lambda: setattr(self, "is_full", True),
            "!": lambda: setattr(self, "err", self.err + text + "\n"),
            "!!": lambda: setattr(self, "is_mute", True),
            "?": lambda: setattr(self, "status", int(text)),
            "=": lambda: setattr(self, "room", int(text) << 20),
            "*": lambda: setattr(self, "threads", int(text)),
            "%": lambda: setattr(self, "prefixes", text + "\n"),
        }[sign]()

    def wants(self, text):
        self.out[-1] += text

    def is_output(self, found):
        """Whether an output is the pieces in their order, with anything between each two."""
        *others, last = [piece.encode() for piece in self.out]
        at = 0
        for number, piece in enumerate(others):
            start = found.find(piece, at)
            if start < 0 or number == 0 and start > 0:
                return False
            at = start + len(piece)
        return found[at:].endswith(last) if others else found == last


def short_canvas(text):
    frame, *calls = text.split(" ")
    return spelled(repeated(frame), repeated_calls(calls))


def cases_of(path):
    """The cases of a file, in their order."""
    found = []
    for number, line in enumerate(path.read_text(encoding="utf-8").split("\n"), 1):
        place = f"{path.name}:{number}"
        sign, _, text = line.partition(" ")
        if not line or sign.startswith("#"):
            continue
        if sign == "==":
            found.append(Case(place, text))
            continue
        try:
            found[-1].take(sign, text)
        except (LookupError, ValueError, StopIteration, RuntimeError) as error:
            raise BadCase(f"{place}: no line of a case: {line[:60]} ({error!r})") from None
    for case in found:
        if not case.runs:
            raise BadCase(f"{case.place}: a case has no words")
    return found
