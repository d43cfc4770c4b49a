"""Runs of the program, and how each has to end by the rules."""
import re
from typing import Callable, NamedTuple

import foreseen
import rules
import views


class End(NamedTuple):
    status: int
    out: str
    err: str


class Run(NamedTuple):
    """A run of a program on a canvas from some place, and its end by the rules. The output is
    compared as it is read. Where results are given, the canvas is in a file. Other files have
    their names. A run that takes longer than the seconds is ended."""
    place: str
    words: list
    given: str
    wanted: End
    read: Callable = str
    results: str = None
    files: dict = {}
    seconds: float = 60


def run_on(place, words, canvas, given, out, err=""):
    refusal = rules.refusal(canvas)
    end = End(1, "", "canvas: refused %s\n" % refusal) if refusal else End(0, out, err)
    return Run(place, words, given, end)


def without_bytes(figures):
    """Figures without how many bytes the messages have, which no rule says."""
    figures = re.sub("(bytes of messages )[0-9]+", r"\1", figures)
    return re.sub('("bytes_of_messages":)[0-9]+', r"\1null", figures)


def checked_as_json(canvas, stubs=None):
    _, found, status = foreseen.checked(canvas, stubs)
    return End(status, found, ""), without_bytes


def as_one_object(canvas):
    """What `run --each` prints of a canvas."""
    out, status = views.json_report(canvas, True)
    *rows, last = out.splitlines()
    return End(status, '{"canvas":%s,"rows":[%s]}\n' % (last, ",".join(rows)), ""), str
