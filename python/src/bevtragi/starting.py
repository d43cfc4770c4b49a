"""Starting a canvas on Celery's workers, so that they do what it means."""

from __future__ import annotations

import os
import re
import warnings
from typing import Any, Dict, List

from .binding import misfits
from .calling import ask
from .coming import Coming
from .errors import BadCall, CanvasError, hidden
from .exchange import by_client, commands_of, on_file
from .first_options import first_options
from .options import Options
from .placed import Placed, lines_after, placed
from .places_of_apps import Place, application, place_of
from .start_commands import command_with
from .started_runs import Run
from .texts import Canvas

__all__ = ["NotHeeded", "StartedBefore", "run_of", "start"]

__tracebackhide__ = hidden

#: A run's number, in bytes and digits; and how long the digests of hashlib are.
BYTES = 11
DIGESTS = (16, 20, 28, 32, 48, 64)
DIGITS = re.compile("[0-9a-f]+")


class StartedBefore(CanvasError):
    """A run of this number was started before. run_of() takes it up."""


class NotHeeded(UserWarning):
    """What a start doesn't do that the canvas asks for."""


def start(flow: Canvas, app: Any = None, client: Any = None, *, number: Any = None,
          queue: str | None = None) -> Run:
    """Starts a canvas on Celery's workers in the place of `flow.apply_async()`, all of it or
    nothing, and gives its Run. Arguments may be anything that Celery sends as JSON. The workers
    then call what the canvas means; docs/CELERY.md says what is left.

    app     your Celery application, if the canvas is JSON. A signature has its own. Its broker and
            its result backend have to be one Redis
    client  a client of that Redis, to use instead of the application's connections: its database is
            that of the queue and of the results
    number  the number of the run: 22 digits as `os.urandom(11).hex()`, or a digest of hashlib, as
            of an order's number. The second start with a number raises StartedBefore
    queue   the queue of the first tasks. By default each has that of its signature or its route

    Options of tasks are heeded as by `apply_async()`. Warns by NotHeeded of those that aren't, and
    of calls that the tasks of the application don't take. Raises Refused, BadCall, StartedBefore,
    and CanvasError if a start isn't possible or Redis refuses it."""
    app, digits, canvas = application(flow, app), _digits(number), placed(flow)
    coming, place = Coming(canvas, app), place_of(app, client)
    firsts = first_options(app, coming.lines, canvas.options, place, canvas.values, queue)
    commands, said = _commands(canvas, place, digits, firsts)
    queues = dict.fromkeys(it["queue"] for it in firsts.values())
    run = Run(digits, canvas, place._replace(queue=", ".join(queues) or place.queue), coming,
              lines_after(said, "ignored "))
    _warn([*(f"this start doesn't heed {it}" for it in run.ignored), *coming.never(),
           *(map(str, misfits(canvas.tree, app)) if app is not None else ())])
    for command in commands:  # one; none of a canvas without tasks
        _send(place, command, digits, is_new=number is None)
    return run


def run_of(number: Any, flow: Canvas, app: Any = None, client: Any = None) -> Run:
    """The Run of a canvas that was started before by start() with this number, in this process or
    in another one. Raises CanvasError if there is none."""
    if number is None:
        raise BadCall("run_of() needs the number of the run")
    app, digits, canvas = application(flow, app), _digits(number), placed(flow)
    place = place_of(app, client)
    run = Run(digits, canvas, place, Coming(canvas, app), [])
    marker = f"{place.prefix}canvas-run-{digits}"
    if run.keys and not by_client(place.client, "exists", marker):
        raise CanvasError(f"no run {digits} was started on this Redis")
    return run


def _digits(number: Any) -> str:
    """The 22 digits of a run: new ones, or those that are given or begin a digest."""
    if number is None:
        return os.urandom(BYTES).hex()
    text = number.hex() if isinstance(number, bytes) else number
    if not isinstance(text, str) or not DIGITS.fullmatch(text) or \
            len(text) not in (2 * it for it in (BYTES, *DIGESTS)):
        raise BadCall("number is 22 lower-case hexadecimal digits, or a digest of hashlib, as"
                      f" sha256(b\"order 4711\").hexdigest(), not {number!r:.60}")
    return text[:2 * BYTES]


def _commands(canvas: Placed, place: Place, digits: str, firsts: Dict[int, Options]
              ) -> tuple[List[List[bytes]], str]:
    """The commands for Redis, and what the program says of them."""
    queue = next((it["queue"] for it in firsts.values()), place.queue)
    later = {number: it for number, it in canvas.options.items() if number not in firsts}
    with on_file(canvas.values) as path:
        words = ["export", "-", f"--run={digits}", f"--values={path}", f"--queue={queue}",
                 *place.words()]
        try:
            text, said = ask(words, canvas.text)
        except BadCall as error:
            name, _, why = str(error).partition(f": {path}: ")
            if name != "BadValue":
                raise
            raise BadCall(f"the arguments of this canvas can't be sent: {why}") from error
    commands = commands_of(text.encode())
    return [command_with(it, place, queue, firsts, later) for it in commands], said


def _send(place: Place, command: List[bytes], digits: str, is_new: bool) -> None:
    try:
        by_client(place.client, "execute_command", *command)
    except CanvasError as error:
        if not str(error.__cause__).startswith("STARTED"):
            raise
        # A client may send a command again whose answer it lost. Nobody else has a new number.
        if not is_new:
            raise StartedBefore(f"run {digits} was started before, so nothing was started:"
                                " run_of() takes it up") from error


def _warn(sentences: List[str]) -> None:
    """Warns the caller of start()."""
    for it in sentences:
        warnings.warn(it, NotHeeded, stacklevel=3)
