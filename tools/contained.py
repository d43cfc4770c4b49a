"""What the program is built of: the crates here, the toolchain's crates below them and the system's
libraries with their versions and licences, the bill of materials (CycloneDX) and the notices that
the licences ask for.
"""
import json
import re
from pathlib import Path
from typing import NamedTuple

LICENCE = "MIT OR Apache-2.0"


class Part(NamedTuple):
    """A crate of the toolchain: what it ports, its build, and the texts of its licences by name."""
    ported: str
    version: str
    build: str
    texts: dict


class Library(NamedTuple):
    """A library of the system: its version, its build, and the texts of its licences by name."""
    name: str
    version: str
    build: str
    texts: dict


def uses_of(top):
    """What each crate here uses, by its name."""
    uses = {}
    for line in Path(top, "crates.txt").read_text().splitlines():
        name, _, used = line.split("#")[0].partition(":")
        if name.strip():
            uses[name.split()[0]] = used.split()
    return uses


def crates_of(top):
    """The names of the crates here that the program is built of, and of the toolchain's that these
    use."""
    uses, found, left = uses_of(top), set(), ["canvas_cli"]
    while left:
        name = left.pop()
        if name not in found:
            found.add(name)
            left += uses.get(name, [])
    return sorted(found & set(uses)), sorted(found - set(uses))


def kit_parts(kit, named):
    """The toolchain's crates that are below these."""
    found, left = {}, [*named, "core", "std"]
    while left:
        name = left.pop()
        if name in found:
            continue
        lines = _text(kit / "rlibs" / f"{name}.rlib" / "format").splitlines()
        folder = kit / "rattle" / name
        port = re.search(r"`([\w-]+)` v?(\d+\.\d+\.\d+)", _text(folder / "README.md"))
        texts = {it.name: _text(it) for it in sorted(folder.glob("*"))
                 if re.match("LICEN[CS]E|NOTICE|COPYING", it.name)}
        build = next((it.split()[1] for it in lines if it.startswith("rattle-build ")), "")
        found[name] = Part(port[1] if port else "", port[2] if port else "", build, texts)
        left += [it.split()[1] for it in lines if it.startswith("dep ")]
    return dict(sorted(found.items()))


def c_libraries(build, version):
    """The C library and the compiler's own, which a static program has, with Debian's notices."""
    found = [("glibc", version, build, "libc6-dev"), ("libgcc", "", "", "libgcc-*-dev")]
    return [Library(name, number, told, {
        it.name: _text(it) for it in sorted(Path("/usr/share/doc").glob(f"{where}/copyright"))})
        for name, number, told, where in found]


def _text(path):
    return path.read_text(errors="replace") if path.is_file() else ""


def notices(parts, libraries):
    """The licences of the toolchain's crates and of the system's libraries, each text once with
    those that have it."""
    holders = {}
    for name, it in parts.items():
        for file, text in it.texts.items():
            title = f"{name} ({file}{f', {it.ported} {it.version}' if it.version else ''})"
            holders.setdefault(text.strip(), []).append(title)
    for it in libraries:
        for text in it.texts.values():
            holders.setdefault(text.strip(), []).append(" ".join(filter(None, it[:2])))
    lacking = [name for name, it in parts.items() if not it.texts]
    lacking += [it.name for it in libraries if not it.texts]
    out = ["The program `canvas` has, besides its own code (LICENSE-MIT, LICENSE-APACHE), code of"
           " these crates of its toolchain.", "",
           f"Without a licence file of their own: {', '.join(lacking) or 'none'}.", ""]
    if libraries:
        out += ["The C library is linked into it: to link it with another one, take the archive of"
                " object files of the same release.", ""]
    line = "=" * 79
    for text, names in sorted(holders.items(), key=lambda it: it[1]):
        out += [line, *names, line, "", text, ""]
    return "\n".join(out).encode()


def _component(name, version, licence):
    it = {"type": "library", "bom-ref": name, "name": name.rpartition("/")[2]}
    if version:
        it["version"] = version
    if licence:
        it["licenses"] = [licence]
    return it


def _licence(name, part):
    """What the bill says of a part's licence."""
    if {"LICENSE-MIT", "LICENSE-APACHE"} <= set(part.texts):
        return {"expression": LICENCE}
    return {"license": {"name": f"see THIRD-PARTY, {name}"}} if part.texts else None


def _kit_component(name, part):
    it = _component(f"toolchain/{name}", part.version, _licence(name, part))
    if part.build:
        it["properties"] = [{"name": "toolchain:build", "value": part.build}]
    if part.version:
        it["pedigree"] = {"ancestors": [
            {"type": "library", "name": part.ported, "version": part.version,
             "purl": f"pkg:cargo/{part.ported}@{part.version}"}]}
    return it


def _library_component(it):
    component = _component(f"system/{it.name}", it.version,
                           {"license": {"name": f"see THIRD-PARTY, {it.name}"}} if it.texts else None)
    if it.build:
        component["properties"] = [{"name": "system:build", "value": it.build}]
    return component


def bill(version, built, crates, parts, libraries):
    """The bill of materials of a program, where `built` has its commit, its digest, the toolchain
    and the commit's date."""
    program = {"type": "application", "bom-ref": "canvas", "name": "canvas", "version": version,
               "licenses": [{"expression": LICENCE}],
               "hashes": [{"alg": "SHA-256", "content": built["digest"]}]}
    components = [_component(f"crates/{it}", version, {"expression": LICENCE}) for it in crates]
    components += [_kit_component(name, it) for name, it in parts.items()]
    components += [_library_component(it) for it in libraries]
    told = {"bomFormat": "CycloneDX", "specVersion": "1.5", "version": 1,
            "metadata": {"timestamp": built["date"], "component": program,
                         "tools": {"components": [{"type": "application",
                                                   "name": built["toolchain"]}]},
                         "properties": [{"name": "git:commit", "value": built["commit"]}]},
            "components": components,
            "dependencies": [{"ref": "canvas", "dependsOn": [it["bom-ref"] for it in components]}]}
    return json.dumps(told, indent=1, sort_keys=True).encode() + b"\n"
