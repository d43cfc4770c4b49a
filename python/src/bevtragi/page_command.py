"""The command `python -m bevtragi page`: its words, and what it says."""

from __future__ import annotations

import argparse
import re
import sys
from pathlib import Path
from typing import Any, Dict, List, NoReturn, Optional, Sequence

from .errors import BadCall, CanvasError, Refused
from .exchange import collected, keys_of
from .pages import page
from .reports import Report
from .stored import Stored

__all__ = ["page_command"]

DESCRIPTION = """\
Makes one HTML page that shows a canvas: what becomes of it if a task fails, and if Celery is
installed, what its code does otherwise. The page needs no other file and contacts nothing."""


class _Parser(argparse.ArgumentParser):
    """A parser that ends as the program does: a line on standard error, and the status 1."""

    def error(self, message: str) -> NoReturn:
        raise BadCall(f"{message}: `python -m bevtragi page --help` has the words")


def page_command(words: Sequence[str]) -> int:
    """Makes the page that these words ask for, and gives the status: 0 if it is written, 1 if
    something is refused or can't be read or written, and 126 if there is no program to ask."""
    try:
        given = _parser().parse_args(words)
        text = sys.stdin.buffer.read() if given.file == "-" else _read(given.file)
        made = page(text, _answers(given), _exception(given.error), _title(given), given.workers,
                    results=_results(given, text))
        _print(made if given.output is None else _escaped(str(made.save(given.output))) + "\n")
        return 0
    except Refused as error:
        return _ended(f"refused {error}", 1)
    except BadCall as error:
        return _ended(str(error), 1)
    except CanvasError as error:
        return _ended(str(error), 126)
    except OSError as error:
        return _ended(f"cannot write: {error.strerror}", 1)


def _print(text: str) -> None:
    with open(sys.stdout.fileno(), "wb", closefd=False) as out:
        out.write(text.encode())


def _ended(said: str, status: int) -> int:
    print(_escaped(f"canvas: {said}"), file=sys.stderr)
    return status


def _escaped(text: str) -> str:
    """A text in a line of printable ASCII, in which other characters are escaped."""
    return "".join(it if " " <= it <= "~" else f"\\u{ord(it):04x}" for it in text)


def _parser() -> argparse.ArgumentParser:
    parser = _Parser(prog="python -m bevtragi page", description=DESCRIPTION, allow_abbrev=False)
    add = parser.add_argument
    add("file", metavar="FILE", help="the canvas as JSON; `-` is standard input")
    add("-o", "--output", metavar="OUT",
        help="the file that is written, which may be there already; else it is printed")
    add("--task", action="append", default=[], metavar="NAME=WORD",
        help="a task's answer, as `canvas run` takes it: may be given several times")
    add("--tasks", metavar="FILE", help="a file with such answers, one a line")
    add("--error", default="Exception", metavar="CLASS",
        help="the exception that a task fails with")
    add("--title", metavar="TEXT", help="the page's title; else it is the name of FILE")
    add("--workers", type=_workers, default=(1, 2, 3, 4), metavar="LIST",
        help="the numbers of workers whose runs can be played, as 1,2,4; none leaves the runs out")
    add("--results", metavar="FILE", help="results that Celery's workers stored, one a line")
    add("--of", metavar="HEX22", help="the number of the run whose results they are")
    add("--prefix", default="", metavar="TEXT", help="the prefix of the results' keys")
    return parser


def _workers(text: str) -> List[int]:
    if not re.fullmatch("none|[0-9]{1,9}(,[0-9]{1,9})*", text):
        raise argparse.ArgumentTypeError("a list of numbers is wanted, as 1,2,4, or none")
    return [] if text == "none" else [int(it) for it in text.split(",")]


def _read(name: str) -> bytes:
    try:
        return Path(name).read_bytes()
    except (OSError, ValueError) as error:
        raise BadCall(f"cannot read {name}") from error


def _title(given: Any) -> str:
    if given.title is not None:
        return str(given.title)
    return "canvas" if given.file == "-" else Path(given.file).stem


def _answers(given: Any) -> Dict[Any, Any]:
    """The answers by name or number. As for `canvas run`, what a word says comes before a line of
    the file, and a line that is empty or begins with # says nothing."""
    found: Dict[Any, Any] = {}
    lines = [] if given.tasks is None else _lines(given.tasks)
    for it in [*(it for it in lines if it and it[0] != "#"), *given.task]:
        name, is_there, word = it.partition("=")
        if not is_there:
            raise BadCall(f"refused BadTask {it}: an answer is NAME=WORD")
        key = int(name[1:]) if re.fullmatch("#[0-9]{1,9}", name) else name
        found[key] = int(word) if re.fullmatch("[+-]?[0-9]{1,30}", word) else word
    return found


def _lines(name: str) -> List[str]:
    try:
        return _read(name).decode("utf-8-sig").split("\n")
    except UnicodeDecodeError as error:
        raise BadCall(f"cannot read {name}") from error


def _exception(name: str) -> Any:
    """A class of exceptions with a name."""
    if not re.fullmatch("[A-Za-z_][A-Za-z0-9_]*", name):
        raise BadCall(f"--error is the name of a class of exceptions, and not {name}")
    return type(name, (Exception,), {})


def _results(given: Any, text: bytes) -> Optional[Report]:
    """The report of the results that workers stored."""
    if given.results is None and given.of is None:
        return None
    if given.results is None or given.of is None:
        raise BadCall("--results and --of go together")
    lines = _read(given.results).split(b"\n")
    if lines[-1] == b"":
        lines.pop()
    found: List[Any] = [None if it.strip() in (b"", b"(nil)") else it for it in lines]
    keys = keys_of(text, given.of, given.prefix)
    if len(found) != len(keys):
        raise BadCall(f"refused BadCount in {given.results}: {len(found)} results of"
                      f" {len(keys)} tasks")
    *rows, end = collected(text, given.of, Stored(keys, found), False)
    return Report(rows, end)
