"""What stands where in a release: the files below the root of the system on which it is installed."""

from __future__ import annotations

import gzip
import io
from dataclasses import dataclass
from pathlib import Path

from checkout import FACTS, RELEASED
from releasing.completions import bash, fish, zsh
from releasing.imports import needed

LIB, SHARE, DOC = "usr/lib/cardhouse", "usr/share/cardhouse", "usr/share/doc/cardhouse"
MANUAL = "usr/share/man/man1/cardhouse.1.gz"
COMPLETIONS = {
    "usr/share/bash-completion/completions/cardhouse": bash,
    "usr/share/zsh/vendor-completions/_cardhouse": zsh,
    "usr/share/fish/vendor_completions.d/cardhouse.fish": fish,
}
VIM = "usr/share/vim/vimfiles"

# The tools that need a checkout, and what the others read that isn't imported.
OF_CHECKOUT = {"build", "changed", "picture", "release", "try"}
READ = ("web", "usage.txt")

# What a reader of a release gets of the checkout, and what in it is for the gate.
PAGES = ("README.md", "CHANGELOG.md", "CONTRIBUTING.md", "docs", "editors", "examples", "cases/README.md")
OF_GATE = {"examples/check", "docs/times.txt"}

PLAIN, RUN = 0o644, 0o755


@dataclass(frozen=True)
class Entry:
    """A file with its mode, or a link to another place."""

    data: bytes = b""
    mode: int = PLAIN
    link: str = ""


Tree = dict[str, Entry]


def tree_of(root: Path, program: bytes, facts: dict[str, str]) -> Tree:
    """The tree of a release: of a checkout's files, a program and what that was made of."""
    lines = "".join(f"{word} {said}\n" for word, said in facts.items())
    tree = {
        "usr/bin/cardhouse": Entry(link="../lib/cardhouse/cardhouse"),
        f"{LIB}/cardhouse": Entry((root / "cardhouse").read_bytes(), RUN),
        f"{LIB}/{RELEASED}": Entry(program, RUN),
        f"{LIB}/{FACTS}": Entry(lines.encode()),
        f"{LIB}/VERSION": Entry((root / "VERSION").read_bytes()),
        MANUAL: Entry(packed((root / "docs/cardhouse.1").read_bytes())),
        f"{DOC}/changelog.gz": Entry(packed((root / "CHANGELOG.md").read_bytes())),
        f"{DOC}/copyright": Entry((root / "packaging/copyright").read_bytes()),
        "usr/share/lintian/overrides/cardhouse": Entry((root / "packaging/lintian-overrides").read_bytes()),
        **{f"{DOC}/{it}": Entry(link=f"../../cardhouse/{it}") for it in ("README.md", "docs", "examples")},
        **{place: Entry(written().encode()) for place, written in COMPLETIONS.items()},
    }
    tree.update({f"{LIB}/{name(root, it)}": entry_of(it) for it in tools_of(root / "tools")})
    tree.update({f"{SHARE}/{name(root, it)}": Entry(it.read_bytes()) for it in pages_of(root)})
    vim = root / "editors/vim"
    tree.update({f"{VIM}/{name(vim, it)}": Entry(it.read_bytes()) for it in files_in(vim)})
    return tree


def name(root: Path, file: Path) -> str:
    return file.relative_to(root).as_posix()


def entry_of(file: Path) -> Entry:
    """A file of the tools, which can be run where it is a script."""
    data = file.read_bytes()
    return Entry(data, RUN if data.startswith(b"#!") else PLAIN)


def files_in(folder: Path) -> list[Path]:
    return sorted(it for it in folder.glob("**/*") if it.is_file() and "__pycache__" not in it.parts)


def tools_of(tools: Path) -> list[Path]:
    """The tools that need no checkout, with all that they need."""
    scripts = [it.name for it in tools.iterdir() if it.is_file() and not it.suffix and it.name not in OF_CHECKOUT]
    read = [file for it in READ for file in ([tools / it] if (tools / it).is_file() else files_in(tools / it))]
    return sorted({*needed(tools, scripts), *read})


def pages_of(root: Path) -> list[Path]:
    """The pages, the files for editors and the examples."""
    files = [file for it in PAGES for file in ([root / it] if (root / it).is_file() else files_in(root / it))]
    return [it for it in files if name(root, it) not in OF_GATE]


def packed(data: bytes) -> bytes:
    """What gzip makes of this, without a name and a time."""
    into = io.BytesIO()
    with gzip.GzipFile("", "wb", 9, into, mtime=0) as file:
        file.write(data)
    return into.getvalue()
