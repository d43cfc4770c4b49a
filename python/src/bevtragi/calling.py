"""Finding and calling the program."""

from __future__ import annotations

import functools
import json
import os
import shutil
import subprocess
from pathlib import Path
from typing import Any, NamedTuple

from . import VERSION
from .errors import BadCall, CanvasError, Refused, hidden
from .wheel import compare, own_program, record_of

__all__ = ["Program", "ask", "ask_once", "failure", "forget_path", "path_of_program",
           "program", "refusal_of"]

__tracebackhide__ = hidden

#: The seconds that a call may take.
SECONDS = 60


class Program(NamedTuple):
    """A program, with the SHA-256 of its file; of a wheel's also what it was built of and with, the
    SHA-256 of the program as it was proved, and the C library that was linked into it since."""
    path: str
    version: str
    digest: str
    commit: str | None = None
    toolchain: str | None = None
    proved: str | None = None
    library: str | None = None


def program() -> Program:
    """The program that is called: of $CANVAS, the wheel, the build in this checkout, or the PATH.
    Raises CanvasError where it isn't there, or isn't the right one."""
    path = path_of_program()
    digest, record = record_of(path)
    try:
        return Program(path, VERSION, digest, **record)
    except TypeError as error:
        raise CanvasError(f"{path} can't be compared with its record: {error}") from error


def path_of_program() -> str:
    """The path of the program, which is looked for once. If it is the wheel's, it is compared with
    the wheel's record once, and again if it was changed. Raises CanvasError."""
    path = _path_of_program(os.environ.get("CANVAS"), os.environ.get("PATH"))
    compare(path)
    return path


def forget_path() -> None:
    """Has the program looked for anew: what was found at a path has changed."""
    _path_of_program.cache_clear()
    _ask_once.cache_clear()


@functools.lru_cache(maxsize=None)
def _path_of_program(named: str | None, _path: str | None) -> str:
    """The path of the program, which is of the right version, with these in the environment."""
    top = Path(__file__).resolve().parent.parent.parent.parent
    own = [own_program()] + [top / "canvas"] * (top / "crates.txt").exists()
    there = next((str(it) for it in own if it.is_file()), None)
    found = named or there or shutil.which("canvas")
    if not found:
        raise CanvasError("there is no program `canvas`: install the wheel, which has it; or name"
                          " it in $CANVAS; or build it, by `./canvas run FILE` in a checkout")
    path = Path(found).resolve()
    compare(str(path))
    top = path.parent
    if (top / "crates.txt").exists():
        words = ["check", str(top / "examples" / "chord.json")]
        if _ended(str(path), words, env={**os.environ, "CANVAS_NO_BUILD": "1"}).returncode != 0:
            raise CanvasError(f"there is no build of the sources in {top}: run `./canvas` there")
        path = top / "crates" / "canvas_cli" / "out" / "canvas_cli"
    said = _ended(str(path), ["--version"]).stdout.decode(errors="replace").strip()
    if said != f"canvas {VERSION}":
        raise CanvasError(f"{path} is another program: it says {said[:60] or 'nothing'}, and this"
                          f" package calls {VERSION}")
    return str(path)


def _ended(path: str, words: list[str], given: bytes = b"",
          env: dict[str, str] | None = None) -> subprocess.CompletedProcess[bytes]:
    try:
        return subprocess.run([path, *words], input=given, capture_output=True, env=env,
                              timeout=SECONDS, check=False)
    except (OSError, ValueError) as error:
        raise CanvasError(f"{path} can't be called: {error}") from error
    except subprocess.TimeoutExpired as error:
        raise CanvasError(f"{path} took more than {SECONDS} seconds") from error


def ask(words: list[str], given: bytes) -> tuple[str, str]:
    """What the program prints, and says on standard error. Raises Refused, BadCall, CanvasError."""
    call = _ended(path_of_program(), [*words, "--json"], given)
    out, said = (it.decode(errors="replace") for it in (call.stdout, call.stderr))
    if call.returncode == 0 and (out or words[0] in ("export", "keys", "messages")):
        return out, said
    raise failure(words[0], call.returncode, said)


def ask_once(words: list[str], given: bytes) -> tuple[str, str]:
    """Like `ask`, but the last answers are remembered: the same question has the same answer."""
    return _ask_once(path_of_program(), tuple(words), given)


@functools.lru_cache(maxsize=64)
def _ask_once(_path: str, words: tuple[str, ...], given: bytes) -> tuple[str, str]:
    return ask([*words], given)


def failure(word: str, status: int, said: str) -> CanvasError:
    """The error of a call that ended with this status, and what it said on standard error."""
    line = said.partition("\n")[0]
    if status == 1 and line.startswith("{"):
        return refusal_of(json.loads(line))
    how = f"was killed by signal {-status}" if status < 0 else \
        f"ended with status {status}: {line or 'it said nothing'}"
    return CanvasError(f"`canvas {word}` {how}")


def refusal_of(told: dict[str, Any]) -> CanvasError:
    """The error that the program tells as an object: of the canvas, or of something else."""
    return Refused(**told) if "code" in told else BadCall(f"{told['name']}: {told['note']}")
