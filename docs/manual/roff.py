"""Plain text as roff, for a page of the manual.

A paragraph ends at an empty line. A line that is indented by four spaces is an example. One that is
indented by two or three is an entry of a list: a name, two spaces at least, and a text, which
lines that are indented further go on with. What is between backquotes is bold, and so is an option
and a page of the manual, as `redis-cli(1)`.
"""
import re
import textwrap
from typing import Iterator

from program_help import ENTRY, Entry, entries_of

WIDTH = 80
#: The columns that an example may take, so that the page fits a terminal of 80.
EXAMPLE = 68
SIGNS = {"\\": "\\e", "-": "\\-", "'": "\\(aq", "`": "\\(ga", "^": "\\(ha", "~": "\\(ti"}
BOLD = re.compile(r"(`[^`]+`|(?<![\w-])--[a-z][a-z-]*|[a-z-]+(?=\(\d\)))")


def escaped(text: str) -> str:
    """A text in which roff finds no command, and which a reader can copy."""
    return "".join(SIGNS.get(it, it) for it in text)


def bold(text: str) -> str:
    return f"\\fB{escaped(text)}\\fR"


def slanted(text: str) -> str:
    return f"\\fI{escaped(text)}\\fR"


def marked(text: str) -> str:
    """A text in which each second piece is bold."""
    pieces = BOLD.split(text)
    return "".join(bold(it.strip("`")) if at % 2 else escaped(it) for at, it in enumerate(pieces))


def guarded(line: str) -> str:
    """Protects a line that begins like a request. A quote is escaped already."""
    return f"\\&{line}" if line.startswith(".") else line


def in_lines(text: str) -> list[str]:
    """Text as lines of the page's source."""
    return [guarded(it) for it in textwrap.wrap(text, WIDTH, break_long_words=False,
                                                break_on_hyphens=False)]


def example(lines: list[str]) -> Iterator[str]:
    """Lines that are shown as they are. A long one is broken after a pipe, as a shell lets it."""
    yield from (".PP", ".RS 4", ".nf")
    for line in lines:
        while len(line) > EXAMPLE and " | " in line[:EXAMPLE]:
            at = line.rindex(" | ", 0, EXAMPLE) + 2
            yield guarded(escaped(line[:at]))
            line = f"    {line[at:].strip()}"
        yield guarded(escaped(line))
    yield from (".fi", ".RE")


def listed(entries: list[Entry]) -> Iterator[str]:
    """A list, without space between its entries, with its texts below each other."""
    yield from (".PP", ".PD 0")
    for it in entries:
        yield from (f".TP {2 + max(len(it.name) for it in entries)}", bold(it.name))
        yield from in_lines(marked(it.says))
    yield ".PD"


def kind_of(line: str, before: str) -> str:
    """What a line is, after a line of another kind."""
    if ENTRY.fullmatch(line) or (before == "list" and line.startswith("     ")):
        return "list"
    return "example" if line.startswith("    ") else "text" if line else ""


def parts_of(text: str) -> list[tuple[str, list[str]]]:
    """The paragraphs, examples and lists of a text."""
    found: list[tuple[str, list[str]]] = []
    kind = ""
    for line in text.split("\n"):
        last, kind = kind, kind_of(line, kind)
        if kind and kind == last:
            found[-1][1].append(line)
        elif kind:
            found.append((kind, [line]))
    return found


def roff_of(text: str, inside: bool = False) -> Iterator[str]:
    """A text as lines of roff. Inside an entry its first paragraph needs no request."""
    for number, (kind, lines) in enumerate(parts_of(text)):
        if kind == "example":
            yield from example([it[4:] for it in lines])
        elif kind == "list":
            yield from listed(entries_of(lines, "the text"))
        else:
            if number or not inside:
                yield ".IP" if inside else ".PP"
            yield from in_lines(marked(" ".join(it.strip() for it in lines)))
