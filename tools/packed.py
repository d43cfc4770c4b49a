"""Archives that are the same bytes each time: members in order, with one time and one owner."""
import gzip
import hashlib
import io
import tarfile
from typing import NamedTuple


class File(NamedTuple):
    """What a file holds, and whether it can be run."""
    data: bytes
    runs: bool = False


def zipped(data):
    return gzip.compress(data, 9, mtime=0)


def folders_of(names):
    """All folders of these files, the outer ones first."""
    found = set()
    for name in names:
        parts = name.split("/")
        found.update("/".join(parts[:count]) for count in range(1, len(parts)))
    return sorted(found)


def tarred(files, when):
    """A tar of these files by name, with their folders."""
    room = io.BytesIO()
    with tarfile.open(fileobj=room, mode="w", format=tarfile.USTAR_FORMAT) as archive:
        for name in folders_of(files):
            folder = tarfile.TarInfo(name)
            folder.type, folder.mode, folder.mtime = tarfile.DIRTYPE, 0o755, when
            archive.addfile(folder)
        for name, it in sorted(files.items()):
            member = tarfile.TarInfo(name)
            member.size, member.mtime = len(it.data), when
            member.mode = 0o755 if it.runs else 0o644
            archive.addfile(member, io.BytesIO(it.data))
    return room.getvalue()


def members_of(archive):
    """The files of a tar, by name."""
    with tarfile.open(fileobj=io.BytesIO(archive)) as opened:
        return {it.name: File(opened.extractfile(it).read(), bool(it.mode & 0o100))
                for it in opened if it.isfile()}


def _ar(members, when):
    """An archive of the kind that a Debian package is."""
    out = b"!<arch>\n"
    for name, data in members:
        out += f"{name:<16}{when:<12}{0:<6}{0:<6}{100644:<8}{len(data):<10}`\n".encode()
        out += data + b"\n" * (len(data) % 2)
    return out


def debian(control, files, when):
    """A Debian package of these files, by their names below `/`, with this control file."""
    size = sum((len(it.data) + 1023) // 1024 for it in files.values())
    sums = "".join(f"{hashlib.md5(it.data).hexdigest()}  {name}\n"
                   for name, it in sorted(files.items()))
    told = {"./control": File(f"{control}Installed-Size: {size}\n".encode()),
            "./md5sums": File(sums.encode())}
    held = {f"./{name}": it for name, it in files.items()}
    return _ar([("debian-binary", b"2.0\n"), ("control.tar.gz", zipped(tarred(told, when))),
                ("data.tar.gz", zipped(tarred(held, when)))], when)
