"""What bash, zsh and fish offer on a command line, asked of the shells themselves.

Each shell starts with no configuration but the completions of `canvas`. bash and zsh read a
terminal, and insert all that they offer by the shell's own editor; fish is asked by `complete -C`.
"""
import os
import pty
import select
import shlex
import shutil
import signal
import subprocess
import time
from pathlib import Path
from typing import Mapping, Sequence

#: The seconds that a shell may take for its start, or for a line.
SECONDS = 30
#: What is typed after a line: all that is offered is inserted, and the line is noted.
KEYS = b"\x18a\x18n"

BASHRC = r"""
source {file}
PS1='$ '
note_line() {{ printf '%s\n' "$READLINE_LINE" >>{noted}; READLINE_LINE=; READLINE_POINT=0; }}
bind 'set enable-bracketed-paste off'
bind '"\C-xa": insert-completions'
bind -x '"\C-xn": note_line'
echo >>{noted}
"""
ZSHRC = r"""
PS1='$ '
fpath=({folder} $fpath)
autoload -Uz compinit
compinit -u -D
insert_all() {{ compstate[insert]=all }}
offer() {{ comppostfuncs=(insert_all); zle complete-word }}
note_line() {{ print -r -- "$BUFFER" >>{noted}; BUFFER= }}
zle -N offer
zle -N note_line
bindkey -e
bindkey '^Xa' offer
bindkey '^Xn' note_line
echo >>{noted}
"""


class NoAnswer(Exception):
    """Why a shell says nothing."""


def noted_in(noted: Path, count: int, terminal: int, shell: str) -> list[str]:
    """The lines of a file, once there are `count`. What the terminal gets is read meanwhile."""
    end, shown = time.monotonic() + SECONDS, b""
    while time.monotonic() < end:
        if select.select([terminal], [], [], 0.005)[0]:
            try:
                shown += os.read(terminal, 65536)
            except OSError:
                break
        text = noted.read_text(encoding="utf-8")
        if text.count("\n") >= count:
            return text.splitlines()
    said = shown.decode(errors="replace").strip().splitlines() or ["it said nothing"]
    raise NoAnswer(f"{shell} doesn't answer: {said[-1]}")


def typed(words: Sequence[str], lines: Sequence[str], env: Mapping[str, str], room: Path,
          noted: Path) -> list[str]:
    """What a shell makes of lines that are typed on its terminal, each before KEYS."""
    noted.write_text("")
    child, terminal = pty.fork()
    if child == 0:
        os.chdir(room / "here")
        os.execvpe(words[0], [*words], {**env})
    try:
        for count, line in enumerate(lines, 1):
            noted_in(noted, count, terminal, words[0])
            os.write(terminal, line.encode() + KEYS)
        return noted_in(noted, 1 + len(lines), terminal, words[0])[1:]
    finally:
        os.kill(child, signal.SIGKILL)
        os.waitpid(child, 0)
        os.close(terminal)


def inserted(line: str, after: str) -> set[str]:
    """What was inserted into a line in the place of its last word."""
    if after == line:
        return set()
    before = line[:line.rindex(" ") + 1]
    if not after.startswith(before):
        raise NoAnswer(f"{line!r} became {after!r}")
    return {it.rstrip("=") for it in shlex.split(after[len(before):])}


def of_bash(files: Path, lines: Sequence[str], env: Mapping[str, str],
            room: Path) -> list[set[str]]:
    noted, start = room / "noted-by-bash", room / "bashrc"
    start.write_text(BASHRC.format(file=shlex.quote(str(files / "canvas.bash")),
                                   noted=shlex.quote(str(noted))))
    after = typed(["bash", "--noprofile", "--rcfile", str(start), "-i"], lines, env, room, noted)
    return [inserted(*it) for it in zip(lines, after)]


def of_zsh(files: Path, lines: Sequence[str], env: Mapping[str, str],
           room: Path) -> list[set[str]]:
    noted, own = room / "noted-by-zsh", room / "site-functions"
    own.mkdir()
    shutil.copy(files / "_canvas", own)
    (room / ".zshrc").write_text(ZSHRC.format(folder=shlex.quote(str(own)),
                                              noted=shlex.quote(str(noted))))
    after = typed(["zsh", "-d", "-i"], lines, {**env, "ZDOTDIR": str(room)}, room, noted)
    return [inserted(*it) for it in zip(lines, after)]


def of_fish(files: Path, lines: Sequence[str], env: Mapping[str, str],
            room: Path) -> list[set[str]]:
    """fish loads the file by its name, from a folder of vendors, as installed."""
    own = room / "share" / "fish" / "vendor_completions.d"
    own.mkdir(parents=True)
    shutil.copy(files / "canvas.fish", own)
    asked = "; ".join(f"complete -C {shlex.quote(it)}; echo //" for it in lines)
    env = {**env, "XDG_DATA_DIRS": f"{room / 'share'}:/usr/local/share:/usr/share"}
    try:
        ran = subprocess.run(["fish", "-c", asked], env=env, cwd=room / "here", text=True,
                             check=False, stdin=subprocess.DEVNULL, capture_output=True,
                             timeout=4 * SECONDS)
    except subprocess.TimeoutExpired as error:
        raise NoAnswer(f"fish doesn't answer in {4 * SECONDS} seconds") from error
    found: list[set[str]] = [set()]
    for it in ran.stdout.splitlines():
        if it == "//":
            found.append(set())
        else:
            found[-1].add(it.partition("\t")[0])
    if ran.returncode != 0 or ran.stderr or len(found) != len(lines) + 1:
        raise NoAnswer(f"fish: {ran.stderr.strip() or 'it gives another number of answers'}")
    return found[:-1]


ASKS = {"bash": of_bash, "zsh": of_zsh, "fish": of_fish}
