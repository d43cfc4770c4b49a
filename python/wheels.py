"""Makes a wheel of the package `bevtragi` with the program in it, from a proved build and no other.

`python/build-wheel` and `tools/release` call it, and so does pip, whose build backend it is
(pyproject.toml): `build_wheel` is what pip calls.
"""
import base64
import hashlib
import io
import json
import os
import re
import subprocess
import sys
import zipfile
from datetime import datetime, timezone
from pathlib import Path
from typing import NamedTuple

HERE = Path(__file__).resolve().parent
TOP = HERE.parent
# No compiled modules are left in the tree.
sys.dont_write_bytecode = True
sys.path[:0] = [str(HERE), str(TOP / "tools")]

import contained  # noqa: E402
import linked  # noqa: E402

PACKAGE = HERE / "src" / "bevtragi"
PROGRAM = TOP / "crates" / "canvas_cli" / "out" / "canvas_cli"
OBJECT = PROGRAM.with_name("canvas_cli.o")
#: Where a program runs that needs the C library of the system, and one that needs none.
SHARED = ["manylinux_2_34_x86_64"]
STATIC = ["manylinux2014_x86_64", "musllinux_1_1_x86_64"]

METADATA = """\
Metadata-Version: 2.4
Name: bevtragi
Version: {version}
Summary: Celery canvases in unit tests, without broker or workers, by a proved engine
Author: Bevtragi maintainers
Author-email: Bevtragi maintainers <maintainers@users.noreply.bevtragi.example>
Keywords: celery,canvas,chord,pytest
License-Expression: MIT OR Apache-2.0
License-File: LICENSE-APACHE
License-File: LICENSE-MIT
License-File: THIRD-PARTY
Classifier: Development Status :: 4 - Beta
Classifier: Framework :: Pytest
Classifier: Intended Audience :: Developers
Classifier: Operating System :: POSIX :: Linux
Classifier: Programming Language :: Python :: 3
Classifier: Topic :: Software Development :: Testing
Classifier: Typing :: Typed
Requires-Python: >=3.9
Description-Content-Type: text/markdown

"""

WHEEL = "Wheel-Version: 1.0\nGenerator: build-wheel\nRoot-Is-Purelib: false\n"

ENTRY_POINTS = """\
[console_scripts]
canvas = bevtragi.__main__:main

[pytest11]
bevtragi.pytest = bevtragi.pytest
"""


class CannotBuild(Exception):
    """Why no wheel is made."""


class Shipped(NamedTuple):
    """A program as it is shipped: its bytes, the platforms that it runs on, what it was built of
    and with, and the C library in it; or why there is none in it."""
    program: bytes
    platforms: list
    record: dict
    library: "linked.Static | None" = None
    lacks: str = ""


def said(*words, **how):
    """What a command prints. It has to end well."""
    try:
        return subprocess.run(words, cwd=TOP, check=True, text=True, stdout=subprocess.PIPE,
                              stderr=subprocess.DEVNULL, **how).stdout.strip()
    except (OSError, subprocess.CalledProcessError) as error:
        raise CannotBuild(f"{' '.join(words)}: {error}") from None


def built_of():
    """The lines of what `./canvas` noted of its build: the sum of the sources, the program's
    digest, the toolchain, the crates, and the files at a glance."""
    return PROGRAM.with_name("built-of").read_text().splitlines()


def proved_program():
    """The program, which `./canvas` says to be built of these sources."""
    try:
        said("./canvas", "check", "examples/chord.json",
             env={**os.environ, "CANVAS_NO_BUILD": "1"})
    except CannotBuild:
        raise CannotBuild("there is no build of these sources: `./canvas run FILE` proves and"
                          " builds them") from None
    program = PROGRAM.read_bytes()
    if hashlib.sha256(program).hexdigest() != built_of()[1]:
        raise CannotBuild("the program isn't the one that crates/canvas_cli/out/built-of names")
    if program[:4] != b"\x7fELF" or program[18:20] != b"\x3e\0":
        raise CannotBuild("the program isn't one for x86_64")
    newest = max((int(it) for it in re.findall(rb"GLIBC_2\.(\d+)", program)), default=0)
    if newest > 34:
        raise CannotBuild(f"the program needs GLIBC 2.{newest}, and {SHARED[0]} has 2.34")
    return program


def commit():
    """The commit that the sources are of."""
    if said("git", "status", "--porcelain", "--", "crates", "crates.txt", "HANDLES", "python"):
        raise CannotBuild("the sources aren't those of a commit: `git status` says what differs")
    return said("git", "rev-parse", "HEAD")


def package_version():
    found = re.search(r'^VERSION = .*"(.*)"', (PACKAGE / "__init__.py").read_text(), re.M)
    if not found:
        raise CannotBuild("python/src/bevtragi/__init__.py names no version")
    return found[1]


def sum_of(data):
    return hashlib.sha256(data).hexdigest()


def shipped_program():
    """The proved program with the C library in it, or as it is if it can't be linked so."""
    program = proved_program()
    record = {"commit": commit(), "digest": sum_of(program), "proved": sum_of(program),
              "toolchain": said("rt", "version").splitlines()[0]}
    try:
        static = linked.static_program(TOP, kit_folder(), program, OBJECT)
    except linked.CannotLink as error:
        return Shipped(program, SHARED, record, lacks=str(error))
    record.update(digest=sum_of(static.program), library=f"glibc {static.version}")
    return Shipped(static.program, STATIC, record, static)


def date_of(record):
    """When the commit was made."""
    seconds = int(said("git", "log", "-1", "--format=%ct", record["commit"]))
    return datetime.fromtimestamp(seconds, timezone.utc)


def kit_folder():
    """The folder of the toolchain, whose first page `rt doc` names."""
    return Path(said("rt", "doc")).parent


def told_of(version, shipped):
    """The bill of materials of a program that is shipped, and the notices that go with it."""
    crates, named = contained.crates_of(TOP)
    parts = contained.kit_parts(kit_folder(), named)
    libraries = []
    if shipped.library:
        libraries = contained.c_libraries(shipped.library.build, shipped.library.version)
    date = date_of(shipped.record).strftime("%Y-%m-%dT%H:%M:%SZ")
    bill = contained.bill(version, {**shipped.record, "date": date}, crates, parts, libraries)
    return bill, contained.notices(parts, libraries)


def package_files():
    """The name and bytes of each file of the package: its modules, and the template of its page."""
    return {f"bevtragi/{it.relative_to(PACKAGE)}": it.read_bytes()
            for it in (*PACKAGE.glob("*.py"), *PACKAGE.glob("template/*.*"))}


def contents(shipped):
    """The name and bytes of each file of the wheel but its list."""
    version = package_version()
    bill, notices = told_of(version, shipped)
    files = package_files()
    info = f"bevtragi-{version}.dist-info"
    tags = "".join(f"Tag: py3-none-{it}\n" for it in shipped.platforms)
    record = json.dumps(shipped.record, sort_keys=True, indent=1).encode() + b"\n"
    files.update({
        "bevtragi/py.typed": b"",
        "bevtragi/canvas": shipped.program,
        "bevtragi/program.json": record,
        f"{info}/METADATA": (METADATA.format(version=version).encode()
                             + (HERE / "README.md").read_bytes()),
        f"{info}/WHEEL": (WHEEL + tags).encode(),
        f"{info}/entry_points.txt": ENTRY_POINTS.encode(),
        f"{info}/licenses/THIRD-PARTY": notices,
        f"{info}/sboms/canvas.cdx.json": bill,
    })
    files.update({f"{info}/licenses/{it}": (TOP / it).read_bytes()
                  for it in ("LICENSE-APACHE", "LICENSE-MIT")})
    return version, info, files


def digest(data):
    return base64.urlsafe_b64encode(hashlib.sha256(data).digest()).rstrip(b"=").decode()


def packed(info, files):
    """The bytes of a wheel of these files."""
    lines = [f"{name},sha256={digest(data)},{len(data)}\n" for name, data in sorted(files.items())]
    listed = {**files, f"{info}/RECORD": "".join([*lines, f"{info}/RECORD,,\n"]).encode()}
    room = io.BytesIO()
    with zipfile.ZipFile(room, "w", zipfile.ZIP_DEFLATED) as wheel:
        for name, data in sorted(listed.items()):
            entry = zipfile.ZipInfo(name)
            entry.compress_type = zipfile.ZIP_DEFLATED
            entry.external_attr = (0o100755 if name == "bevtragi/canvas" else 0o100644) << 16
            wheel.writestr(entry, data)
    return room.getvalue()


def wheel(shipped=None):
    """The name of the wheel's file, and its bytes. Raises CannotBuild."""
    shipped = shipped or shipped_program()
    version, info, files = contents(shipped)
    platforms = ".".join(shipped.platforms)
    return f"bevtragi-{version}-py3-none-{platforms}.whl", packed(info, files)


def build_wheel(wheel_directory, config_settings=None, metadata_directory=None):
    """Makes the wheel for pip (PEP 517). If there is none, pip shows the reason that this prints."""
    del config_settings, metadata_directory
    try:
        name, data = wheel()
        Path(wheel_directory, name).write_bytes(data)
    except (CannotBuild, OSError) as error:
        raise SystemExit(f"bevtragi: no wheel is built: {error}") from None
    return name
