"""What the program says by `--help` and by `help TOPIC`, read for the manual and the completions.

Help that has another form is refused, and nothing of it is guessed.
"""
import re
import subprocess
from typing import NamedTuple

TOPICS = "explains a topic:"
ENTRY = re.compile(r" {2,3}(\S+(?: \S+)?) {2,}(\S.*)")


class CannotRead(Exception):
    """Why the help of a program isn't understood."""


class Option(NamedTuple):
    name: str
    value: str
    says: str
    short: str


class Command(NamedTuple):
    name: str
    says: str
    #: The sentence on FILE; a command without it, as `help` is, has no options either.
    file: str
    options: list[Option]
    #: The options that have to be given.
    required: list[str]


class Entry(NamedTuple):
    """A line of a list: what it is about, and what it says."""
    name: str
    says: str


def said_by(program: str, *words: str) -> str:
    """What the program prints."""
    try:
        return subprocess.run([program, *words], check=True, text=True, encoding="utf-8",
                              stdout=subprocess.PIPE, stderr=subprocess.PIPE).stdout
    except (OSError, UnicodeError, subprocess.CalledProcessError) as error:
        raise CannotRead(f"{' '.join([program, *words])}: {error}") from None


def lines_below(text: str, heading: str) -> list[str]:
    """The lines below the line that ends in a heading, until an empty one."""
    lines = text.splitlines()
    at = next((at for at, line in enumerate(lines) if line.endswith(heading)), len(lines))
    found = lines[at + 1:]
    return found[:found.index("")] if "" in found else found


def entries_of(lines: list[str], said_in: str) -> list[Entry]:
    """The entries of a list. A line that is indented further goes on with the one above it."""
    found: list[Entry] = []
    for line in lines:
        entry = ENTRY.fullmatch(line)
        if entry:
            found.append(Entry(entry[1], entry[2]))
        elif found and line.startswith("     "):
            found[-1] = Entry(found[-1].name, f"{found[-1].says} {line.strip()}")
        else:
            raise CannotRead(f"{said_in} has a line that is no entry of a list: {line}")
    return found


def options_in(lines: list[str], said_in: str) -> list[Option]:
    """The options of a help. Each line has to be one of them."""
    found = []
    for line in lines:
        option = re.fullmatch(r" {2,6}(?:(-\w), )?(--[\w-]+)(?: <(\S+)>)? +(\S.*)", line)
        if not option:
            raise CannotRead(f"{said_in} has a line that is no option: {line}")
        found.append(Option(option[2], option[3] or "", option[4], option[1] or ""))
    if not found:
        raise CannotRead(f"{said_in} names no option")
    return found


def command_of(program: str, name: str, says: str) -> Command:
    """A command with what its own help says. All of the help below `Options:` is options."""
    if name == "help":
        return Command(name, says, "", [], [])
    said_in = f"{program} {name} --help"
    text = said_by(program, name, "--help")
    options = options_in(text.partition("\nOptions:\n")[2].splitlines(), said_in)
    files = re.findall(r"^  <FILE> +(\S.*)$", text, re.M)
    usage = re.findall(r"^Usage: (.*)$", text, re.M)
    if len(files) != 1 or len(usage) != 1:
        raise CannotRead(f"{said_in} has no line of <FILE>, or none of its usage")
    return Command(name, says, files[0], options, re.findall(r"--[\w-]+", usage[0]))


def commands_of(program: str) -> list[Command]:
    """The commands in the order of the help, each with its options."""
    said_in = f"{program} --help"
    found = entries_of(lines_below(said_by(program, "--help"), "Commands:"), said_in)
    if not found:
        raise CannotRead(f"{said_in} names no command")
    return [command_of(program, it.name, it.says) for it in found]


def list_of(program: str, heading: str) -> list[Entry]:
    """A list of the program's own help, such as the topics, which has to be there."""
    said_in = f"{program} --help"
    found = entries_of(lines_below(said_by(program, "--help"), heading), said_in)
    if not found:
        raise CannotRead(f"{said_in} has no list below: {heading}")
    return found


def options_of_program(program: str) -> list[Option]:
    """The options that come before a command."""
    return options_in(lines_below(said_by(program, "--help"), "Options:"), f"{program} --help")


def topics_of(program: str) -> list[Entry]:
    """The topics of `help TOPIC`."""
    return list_of(program, TOPICS)


def text_of_topic(program: str, topic: str, commands: list[Command]) -> str:
    """The text on a topic, which is below a command's help if one has its name."""
    text = said_by(program, "help", topic)
    if any(it.name == topic for it in commands):
        above = said_by(program, topic, "--help")
        if not text.startswith(above):
            raise CannotRead(f"{program} help {topic} doesn't begin with the command's own help")
        text = text[len(above):]
    if not text.strip():
        raise CannotRead(f"{program} help {topic} has no text on the topic")
    return text.strip("\n")
