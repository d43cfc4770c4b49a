"""What a check of a crate says of its functions."""
import re
from typing import Dict, List, NamedTuple

from edits import Function


class Said(NamedTuple):
    """What a check says of a function: whether something in itself is refused, whether only names
    that its proof files use are gone, and the first reason."""
    is_refused: bool
    names_only: bool
    why: str


class Verdict:
    """What a check of a crate printed.

    A function may also be unproved because it calls one that isn't. That says nothing of itself."""

    def __init__(self, crate: str, status: int, printed: str) -> None:
        self._crate = crate
        lines = printed.split("\n")
        ends = [it for it in lines if it.startswith("logic=")]
        self.reached_prover = bool(ends)
        self.is_proved = status == 0 and bool(ends) and ends[-1].startswith("logic=proved")
        self._errors = [it for it in lines if _ERROR.match(it)]
        self._told: Dict[str, str] = {}
        for line in lines:
            found = _FUNCTION.match(line)
            if found:
                self._told[found[1]] = found[2]
        self.first = next(iter(self._errors), lines[0] if lines else "")

    def of(self, function: Function) -> Said:
        """What it says of a function, with its closures."""
        paths = [it for it in self._told if self._is_of(it, function)]
        told = [self._told[it] for it in paths]
        own = [it for it in self._errors_of(function, paths) if not _NOT_ADMITTED.search(it)]
        unfound = [it for it in told if _is_unfound_in(function, it)]
        reasons = own + unfound
        names_only = bool(own) and not unfound and all(_NAMES.match(it) for it in own)
        return Said(bool(reasons), names_only, _shortened(reasons[0]) if reasons else "")

    def _is_of(self, path: str, function: Function) -> bool:
        """Whether a path is a function's, or a closure's in it. A method is in its type's module,
        which may be another than its impl's."""
        if function.owner:
            inside = f"::{function.owner}::{function.name}"
            return path.endswith(inside) or f"::fn{inside}::" in path
        module = f"{self._crate}::{function.module}::" if function.module else f"{self._crate}::"
        return path == module + function.name or path.startswith(f"{module}fn::{function.name}::")

    def _errors_of(self, function: Function, paths: List[str]) -> List[str]:
        """The errors in the function's lines, and in its own proof files."""
        source = f"src/{function.module.replace('::', '/') or '(?:lib|main)'}.rt"
        folders = [f"proofs/{it.partition('::')[2].replace('::', '/')}/" for it in paths]
        found = []
        for line in self._errors:
            at = re.match(rf"(?:\./)?{source}:(\d+):", line)
            if at and function.first <= int(at[1]) <= function.last:
                found.append(line)
            elif any(line.startswith((it, f"./{it}")) for it in folders):
                found.append(line)
        return found

    def any_reason(self) -> Said:
        """What it says of the whole crate."""
        unfound = [it for it in self._told.values() if "did not prove" in it]
        own = [it for it in self._errors if not _NOT_ADMITTED.search(it)]
        reasons = own + unfound
        names_only = bool(own) and not unfound and all(_NAMES.match(it) for it in own)
        return Said(self.reached_prover and not self.is_proved, names_only,
                    _shortened((reasons or [self.first])[0]))


def _is_unfound_in(function: Function, told: str) -> bool:
    """Whether a proof of the function itself isn't found. In a cycle of calls each function has the
    goals of all, which begin with the name of theirs, and proofs in one folder `+NAME`."""
    if "did not prove" not in told:
        return False
    return "/+" not in told.split(";")[0] or bool(re.search(rf"`{function.name}-", told))


_FUNCTION = re.compile(r"fn (\S+): (.*)")
_ERROR = re.compile(r"\S+:\d+:\d+: error")
_NOT_ADMITTED = re.compile(r"was not admitted")
_NAMES = re.compile(r"(\./)?proofs/.*(has no field|is not in scope|has no `|was not admitted)")


def _shortened(reason: str) -> str:
    return re.sub(r"^no proof: expected answers in \S+; ", "", reason)[:160]
