"""Writes a tree as a Debian package and as a tar, of which two of one commit are the same to the byte."""

from __future__ import annotations

import hashlib
import io
import os
import re
import shutil
import subprocess
import tarfile
import time
from pathlib import Path
from tempfile import TemporaryDirectory

from pieces.program import digest
from releasing.tree import DOC, RUN, Entry, Tree, packed
from tables.ending import NOT_BUILT, Refused

LIBC = re.compile(rb"GLIBC_(\d+)\.(\d+)\b")

# The oldest C library for programs of 64 bits of this kind.
OLDEST = (2, 17)


def debian(root: Path, tree: Tree, facts: dict[str, str], program: bytes, seconds: int) -> bytes:
    """The package of a tree, which `dpkg-deb` writes of a folder. All of it has the time of the commit."""
    if not shutil.which("dpkg-deb"):
        raise Refused(NOT_BUILT, "no 'dpkg-deb' on the path")
    date = time.strftime("%a, %d %b %Y %H:%M:%S +0000", time.gmtime(seconds))
    log = filled(root, "changelog", {**facts, "date": date})
    tree = {**tree, f"{DOC}/changelog.Debian.gz": Entry(packed(log.encode()))}
    libc = "{}.{}".format(*max([OLDEST, *((int(major), int(minor)) for major, minor in LIBC.findall(program))]))
    size = sum(1 + len(it.data) // 1024 for it in tree.values())
    sums = "".join(f"{hashlib.md5(it.data).hexdigest()}  {place}\n" for place, it in sorted(tree.items()) if not it.link)
    control = {
        "DEBIAN/control": Entry(filled(root, "control", {**facts, "libc": libc, "size": str(size)}).encode()),
        "DEBIAN/md5sums": Entry(sums.encode()),
    }
    with TemporaryDirectory() as folder:
        top = Path(folder, "cardhouse")
        stage(top, {**tree, **control}, seconds)
        into = Path(folder, "cardhouse.deb")
        words = ["dpkg-deb", "--root-owner-group", "-Zgzip", "-z9", "--build", top, into]
        ran = subprocess.run(words, capture_output=True, text=True, env={**os.environ, "SOURCE_DATE_EPOCH": str(seconds)})
        if ran.returncode:
            raise Refused(NOT_BUILT, f"dpkg-deb ended with {ran.returncode}: {ran.stderr.strip()}")
        return into.read_bytes()


def filled(root: Path, name: str, facts: dict[str, str]) -> str:
    """A file of the folder for packages, with these words put in."""
    return (root / "packaging" / name).read_text("utf-8").format(**facts)


def stage(top: Path, tree: Tree, seconds: int) -> None:
    """Writes a tree into a folder, with the modes and times that it is to have whoever writes it."""
    for place, entry in sorted(tree.items()):
        file = top / place
        file.parent.mkdir(parents=True, exist_ok=True)
        if entry.link:
            file.symlink_to(entry.link)
        else:
            file.write_bytes(entry.data)
            file.chmod(entry.mode)
    for folder, _, names in os.walk(top, topdown=False):
        for name in names:
            os.utime(Path(folder, name), (seconds, seconds), follow_symlinks=False)
        os.chmod(folder, RUN)
        os.utime(folder, (seconds, seconds))


def tarred(tree: Tree, top: str, seconds: int) -> bytes:
    """The same tree below a folder as a tar that is packed."""
    into = io.BytesIO()
    folders = sorted({str(folder) for place in tree for folder in Path(top, place).parents} - {"."})
    with tarfile.open(fileobj=into, mode="w", format=tarfile.USTAR_FORMAT) as archive:
        for folder in folders:
            archive.addfile(member(folder, tarfile.DIRTYPE, RUN, seconds))
        for place, entry in sorted(tree.items()):
            info = member(f"{top}/{place}", tarfile.SYMTYPE if entry.link else tarfile.REGTYPE, entry.mode, seconds)
            info.linkname, info.size = entry.link, len(entry.data)
            archive.addfile(info, io.BytesIO(entry.data))
    return packed(into.getvalue())


def member(name: str, kind: bytes, mode: int, seconds: int) -> tarfile.TarInfo:
    """What a tar says of a file, whose owner is root."""
    info = tarfile.TarInfo(name)
    info.type, info.mode, info.mtime = kind, 0o777 if kind == tarfile.SYMTYPE else mode, seconds
    info.uname = info.gname = "root"
    return info


def summed(files: dict[str, bytes]) -> bytes:
    """The lines that `sha256sum --check` reads."""
    return "".join(f"{digest(data)}  {name}\n" for name, data in sorted(files.items())).encode()
