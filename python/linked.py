"""Links the object file of the proved program once more, with the C library in it.

The toolchain links a program that needs glibc 2.34 or later on the machine where it runs. The same
object file, linked with the C library's static files, needs no file of the system. The object file
is made from the crates' libraries, as the gate leaves them, and is the right one if the toolchain
links it to the very bytes of the proved program.
"""
import re
import shutil
import subprocess
import tempfile
from pathlib import Path
from typing import NamedTuple

import contained

TARGET = "x86_64-unknown-linux-gnu"
#: What the C compiler finds: the start of a program, and the libraries that call each other.
STARTS, ENDS = ["crt1.o", "crti.o"], ["crtn.o"]
LIBRARIES = ["libc.a", "libm.a", "libgcc.a", "libgcc_eh.a"]
#: The toolchain's own libraries, and where they are in its folder.
OWN = ["c/libos_c.a", "c/liblibc_c.a"]
GLIBC = re.compile(rb"GNU C Library \(([^)]+)\) \w+ release version ([0-9.]+[0-9])")


class CannotLink(Exception):
    """Why no static program is made."""


class Static(NamedTuple):
    """A static program, the build and the version of the C library in it, and the object files
    that it is linked of, by their names."""
    program: bytes
    build: str
    version: str
    objects: dict


def ran(words, folder):
    """Runs a command, which has to end well."""
    try:
        subprocess.run(words, cwd=folder, check=True, stdin=subprocess.DEVNULL,
                       stdout=subprocess.PIPE, stderr=subprocess.STDOUT)
    except (OSError, subprocess.CalledProcessError) as error:
        told = getattr(error, "stdout", None) or b""
        last = told.decode(errors="replace").strip().rpartition("\n")[2]
        raise CannotLink(f"{words[0]}: {last or error}") from None


def linked(kit, made, folder):
    """The program that the toolchain links an object file to."""
    program = Path(folder, "program")
    ran([str(kit / "bin" / "rattle-link"), "--target", TARGET, "--toolchain",
         str(kit / "toolchain"), "-o", str(program), str(made),
         *(str(kit / it) for it in OWN)], folder)
    return program.read_bytes()


def compiled(top, kit, folder):
    """The object file, from the libraries of the crates, which have to be there."""
    crate = top / "crates" / "canvas_cli"
    own, _ = contained.crates_of(top)
    libraries = {it: top / "crates" / it / "out" / "rlib" / f"{it}.rlib"
                 for it in own if it != crate.name}
    lacking = [name for name, it in libraries.items() if not (it / "format").is_file()]
    if lacking:
        raise CannotLink(f"the library of {lacking[0]} isn't built here: ./test proves and builds"
                         " it")
    made = Path(folder, "canvas_cli.o")
    used = {"std", *contained.uses_of(top)[crate.name]}
    words = ["--crate-name", crate.name, "src/main.rt"]
    words += [it for name in sorted(used)
              for it in ("--extern", f"{name}={libraries.get(name, f'{kit}/rlibs/{name}.rlib')}")]
    words += [it for name, path in sorted(libraries.items())
              for it in ("-L", f"dependency={path.parent}")]
    words += ["-L", f"dependency={kit}/rlibs", "--antt-project",
              f"{kit}/rattle/logic/antt-project.json", "--logic-built", f"{kit}/logic_built",
              "--toolchain", f"{kit}/toolchain"]
    ran([str(kit / "bin" / "rattle"), "build", *words, "-o", str(made)], crate)
    return made


def object_of(top, kit, program, kept, folder):
    """The object file of a proved program, which is kept beside it."""
    if not (kept.is_file() and linked(kit, kept, folder) == program):
        made = compiled(top, kit, folder)
        if linked(kit, made, folder) != program:
            raise CannotLink("the libraries here aren't those of the proved program: ./test proves"
                             " and builds both")
        shutil.copyfile(made, kept)
    return kept


def found(name):
    """The path of a file of the C library or the C compiler."""
    try:
        path = subprocess.run(["cc", f"-print-file-name={name}"], check=True, text=True,
                              stdout=subprocess.PIPE, stderr=subprocess.DEVNULL).stdout.strip()
    except (OSError, subprocess.CalledProcessError):
        raise CannotLink("there is no C compiler, whose libraries a static program needs") from None
    if not Path(path).is_absolute():
        raise CannotLink(f"{name} is missing, which Debian has in libc6-dev and gcc")
    return path


def static_program(top, kit, program, kept):
    """The program with the C library in it. Raises CannotLink.

    top      the folder of the sources
    kit      the toolchain's
    program  the bytes of the proved program
    kept     where its object file is kept
    """
    paths = {it: found(it) for it in (*STARTS, *LIBRARIES, *ENDS)}
    told = GLIBC.search(Path(paths["libc.a"]).read_bytes())
    if not told:
        raise CannotLink("libc.a isn't glibc's")
    with tempfile.TemporaryDirectory(prefix="canvas-static-") as folder:
        made = object_of(top, kit, program, kept, folder)
        static = Path(folder, "static")
        ran([str(kit / "toolchain" / "bin" / "ld.lld"), "-static", "-o", str(static),
             *(paths[it] for it in STARTS), str(made), *(str(kit / it) for it in OWN),
             "--start-group", *(paths[it] for it in LIBRARIES), "--end-group",
             *(paths[it] for it in ENDS)], folder)
        data = static.read_bytes()
        objects = {it.name: it.read_bytes() for it in (made, *(kit / it for it in OWN))}
    if b"ld-linux" in data[:4096]:
        raise CannotLink("the program that was linked still needs libraries of the system")
    return Static(data, *(it.decode() for it in told.groups()), objects)
