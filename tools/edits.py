"""Wrong bodies as edits of a crate's files, and the functions that they change."""
import re
from pathlib import Path
from typing import Dict, Iterator, List, NamedTuple, Optional, Tuple


class BadEdit(Exception):
    """Why an edit can't be tried."""


class Pair(NamedTuple):
    """A text of a file, and the text that replaces it."""
    file: str
    old: str
    new: str


class Edit(NamedTuple):
    name: str
    pairs: List[Pair]


class Function(NamedTuple):
    """A function of a source: its module, the type or impl that has it (the names of the type, of
    the trait and of the trait's arguments, as `AddFaultFromNotAdded`), its name, and its lines."""
    module: str
    owner: str
    name: str
    first: int
    last: int

    @property
    def path(self) -> str:
        """The path below its crate, as the prover names it."""
        return "::".join(it for it in (self.module, self.owner, self.name) if it)


def read_edit(path: Path) -> Edit:
    """An edit of a file with lines `file:`, and pairs of lines `old:` and `new:`. It has none if a
    pair isn't whole."""
    pairs: List[Pair] = []
    file, old = "", None
    for line in path.read_text(encoding="utf-8").splitlines():
        word, _, said = line.partition(":")
        text = said[1:] if said.startswith(" ") else said
        if word == "file":
            file = text.strip()
        elif word == "old":
            old = text
        elif word == "new" and old is not None:
            pairs.append(Pair(file, old, text))
            old = None
    return Edit(path.stem, pairs if old is None else [])


class Sources:
    """The files of a crate, with some edits."""

    def __init__(self, folder: Path) -> None:
        self._folder = folder
        self.changed: Dict[str, str] = {}

    def text(self, file: str) -> str:
        if file in self.changed:
            return self.changed[file]
        try:
            return (self._folder / file).read_text(encoding="utf-8")
        except OSError:
            raise BadEdit(f"there is no file {file}") from None

    def apply(self, edit: Edit) -> List[Optional[Function]]:
        """Makes an edit, and returns the functions that it changes: None for a text outside of
        each. Raises BadEdit if an old text isn't in its file once; then nothing is changed."""
        before, functions = dict(self.changed), []
        try:
            if not edit.pairs:
                raise BadEdit("it has no lines 'old:' and 'new:'")
            for file, old, new in edit.pairs:
                text = self.text(file)
                if text.count(old) != 1:
                    raise BadEdit(f"an 'old:' text is in {file} {text.count(old)} times")
                functions.append(function_at(file, text, text.index(old.lstrip(), text.index(old))))
                self.changed[file] = text.replace(old, new)
        except BadEdit:
            self.changed = before
            raise
        return functions

    def now_of(self, function: Function) -> Function:
        """A function as it is now: edits in front of it may have moved its lines."""
        file = f"src/{function.module.replace('::', '/') or 'lib'}.rt"
        if not (self._folder / file).exists():
            file = "src/main.rt"
        return next((it for it in functions_of(file, self.text(file))
                     if it.path == function.path), function)


def function_at(file: str, text: str, place: int) -> Optional[Function]:
    """The function of a source in whose lines a place of its text is."""
    line = text.count("\n", 0, place) + 1
    inside = [it for it in functions_of(file, text) if it.first <= line <= it.last]
    return inside[-1] if inside else None


def functions_of(file: str, text: str) -> Iterator[Function]:
    """The functions of a source in the layout of `rt fmt`, each up to the line that closes it."""
    if not file.startswith("src/") or not file.endswith(".rt"):
        return
    lines = text.split("\n")
    module = "::".join(it for it in file[4:-3].split("/") if it not in ("lib", "main", "mod"))
    owner, owner_ends = "", 0
    for first, line in enumerate(lines, 1):
        found = _OWNER.match(line)
        if found and first > owner_ends:
            header = " ".join(lines[first - 1:_end_of_header(lines, first)])
            owner, owner_ends = _name_of(header), _end_of(lines, first, "")
        found = _FUNCTION.match(line)
        if found:
            last = _end_of(lines, first, found[1])
            yield Function(module, owner if first < owner_ends else "", found[2], first, last)


_FUNCTION = re.compile(r"^( *)(?:pub(?:\([a-z]+\))? )?(?:const )?(?:unsafe )?fn (\w+)")
_OWNER = re.compile(r"^(?:unsafe )?(?:pub(?:\([a-z]+\))? )?(?:impl|trait)\b")


def _end_of_header(lines: List[str], first: int) -> int:
    return next((at for at, line in enumerate(lines[first - 1:], first)
                 if line.rstrip().endswith(("{", "}"))), len(lines))


def _end_of(lines: List[str], first: int, indent: str) -> int:
    """The line that closes an item: a brace that is indented as its first line is."""
    for at, line in enumerate(lines[first - 1:], first):
        if line.startswith(indent + "}") or at == first and line.rstrip().endswith(("}", ";")):
            return at
    return len(lines)


def _name_of(header: str) -> str:
    """The name that the prover gives to an impl or trait."""
    head = re.split(r"\bwhere\b|\{", header, 1)[0]
    head = re.sub(r"^(?:unsafe |pub(?:\([a-z]+\))? )*", "", head.strip())
    if head.startswith("trait"):
        return re.match(r"trait (\w+)", head)[1]
    what, _, of = _without_parameters(head[len("impl"):]).partition(" for ")
    if not of:
        return _base(what)
    bounds = re.search(r"<(.*)>", what)
    arguments = "".join(_base(it) for it in bounds[1].split(",")) if bounds else ""
    return _base(of) + _base(what) + arguments


def _without_parameters(head: str) -> str:
    """A header without the parameters in front, as `<T: Tasks>`."""
    if not head.startswith("<"):
        return head
    depth = 0
    for at, sign in enumerate(head):
        depth += (sign == "<") - (sign == ">" and head[at - 1] != "-")
        if depth == 0:
            return head[at + 1:]
    return head


def _base(name: str) -> str:
    """The name of a type or trait without its path, arguments and reference."""
    plain = re.sub(r"<.*", "", name.strip().lstrip("&").strip())
    return plain.rpartition("::")[2].strip()


def layers_of(edits: List[Tuple[Edit, List[Function]]]) -> List[List[Edit]]:
    """Some edits in layers, none of which has two edits of a function."""
    layers: List[Tuple[List[Edit], set]] = []
    for edit, functions in edits:
        changed = {it.path for it in functions}
        layer = next((it for it in layers if not changed & it[1]), None)
        if layer is None:
            layers.append(([edit], changed))
        else:
            layer[0].append(edit)
            layer[1].update(changed)
    return [it for it, _changed in layers]
