#!/usr/bin/env python3
"""Finds lemmas that state the same, whatever their names, the names of their variables and the order of their arguments.

usage: tools/statements.py    lists the statements that stand in more than one place
"""

from __future__ import annotations

import re
import sys
from collections.abc import Iterable, Iterator
from dataclasses import dataclass, field
from pathlib import Path

from crates import COMMENT, listed

ROOT = Path(__file__).resolve().parent.parent
KIT = frozenset("std core alloc".split())

USE = re.compile(r"^ *(pub )?use Rattle\.([^\s{]+?)\.\{([^}]*)\}", re.MULTILINE)
HEAD = re.compile(r"(?:(?:pub|abbrev|unfoldable|private) )*([^\s(){}:,;]+) : (.+)", re.DOTALL)
TELESCOPE = re.compile(r"(?:pub )?module _ ?(.*) where", re.DOTALL)
TOKEN = re.compile(r"λ|[(){};,]|\.(?=\s)|(?:\.(?=\S)|[^\s(){};,.λ])+")
VARIABLE = re.compile(r"[^\W\d][\w'₀-₉-]*")
RELATIONS = frozenset("≡ ≢ ≤ < ≥ > ⊎ ⊥ ↔".split())


@dataclass(frozen=True)
class Lemma:
    """Where a statement is proved."""

    crate: str
    file: str
    line: int
    name: str

    def __str__(self) -> str:
        return f"crates/{self.crate}/{self.file}:{self.line} {self.name}"


@dataclass
class Names:
    """What a file's names stand for, by the files that they come from."""

    known: dict[str, str] = field(default_factory=dict)

    def of(self, word: str) -> str:
        head, dot, rest = word.partition(".")
        return self.known.get(head, head) + dot + rest


# THE LINES OF A FILE


@dataclass
class Declaration:
    """A line and those that stand deeper behind it."""

    line: int
    indent: int
    text: str


def declarations(text: str) -> Iterator[tuple[Declaration, str]]:
    """The declarations of a file, each with the parameters of the modules that it stands in."""
    modules: list[tuple[int, str]] = []
    for it in blocks(text):
        while modules and it.indent <= modules[-1][0]:
            modules.pop()
        opened = TELESCOPE.match(it.text)
        if opened:
            modules.append((it.indent, opened[1]))
        else:
            yield it, " ".join(parameters for _, parameters in modules)


def blocks(text: str) -> Iterator[Declaration]:
    """The text cut at lines that go on with none before. What stands in records and data is passed over."""
    now: Declaration | None = None
    inner, passed = 0, None
    for number, line in enumerate(COMMENT[".antt"].sub("", text).splitlines(), 1):
        words = line.strip()
        if not words:
            continue
        indent = len(line) - len(line.lstrip())
        if passed is not None and indent > passed:
            continue
        passed = None
        if now and indent > now.indent and not opens(now.text):
            now.text += f" {words}"
            continue
        if now:
            yield now
        now = Declaration(number, indent, words)
        if re.match(r"(?:pub |abbrev )*(?:data|record)\b", words) and not HEAD.match(words):
            now, passed = None, indent
    if now:
        yield now


def opens(text: str) -> bool:
    """Whether declarations stand inside of what this begins."""
    return bool(TELESCOPE.fullmatch(text) or re.fullmatch(r"(?:abbrev )?mutual", text))


# A STATEMENT


def tokens_of(text: str) -> list[str]:
    return TOKEN.findall(text)


def closing(tokens: list[str], at: int) -> int:
    """Where the bracket closes that opens at a place."""
    depth = 0
    for place in range(at, len(tokens)):
        depth += (tokens[place] in "({") - (tokens[place] in ")}")
        if depth == 0:
            return place
    return len(tokens) - 1


def binder(tokens: list[str], at: int) -> tuple[list[str], list[str], int] | None:
    """The variables and the type of a binder at a place, and where it ends."""
    if at >= len(tokens) or tokens[at] not in "({":
        return None
    end = closing(tokens, at)
    inside = tokens[at + 1 : end]
    if ":" not in inside:
        return None
    colon = inside.index(":")
    names = inside[:colon]
    return (names, inside[colon + 1 :], end + 1) if names and all(map(VARIABLE.fullmatch, names)) else None


@dataclass
class Argument:
    """A variable with its type, or a premise, which has no name that is used."""

    name: str
    type: list[str]


def arguments_of(tokens: list[str]) -> tuple[list[Argument], list[str]]:
    """The arguments of a type and what it ends in."""
    arguments: list[Argument] = []
    at = 0
    while True:
        bound = binder(tokens, at)
        if bound and (bound[2] < len(tokens) and (tokens[bound[2]] == "→" or binder(tokens, bound[2]))):
            arguments += [Argument(name, bound[1]) for name in bound[0]]
            at = bound[2] + (tokens[bound[2]] == "→")
            continue
        arrow = arrow_behind(tokens, at)
        if arrow is None:
            return arguments, tokens[at:]
        arguments.append(Argument("", tokens[at:arrow]))
        at = arrow + 1


def arrow_behind(tokens: list[str], at: int) -> int | None:
    """The next arrow outside of brackets; a binder with more behind it, as in pairs, has its arrow for itself."""
    depth = 0
    for place in range(at, len(tokens)):
        depth += (tokens[place] in "({") - (tokens[place] in ")}")
        if depth == 0 and tokens[place] == "λ":
            return None
        if depth == 0 and tokens[place] == "→":
            return place
    return None


def parameters_of(text: str) -> list[Argument]:
    """The parameters of modules."""
    tokens, at, found = tokens_of(text), 0, []
    while at < len(tokens):
        bound = binder(tokens, at)
        if not bound:
            return found
        found += [Argument(name, bound[1]) for name in bound[0]]
        at = bound[2]
    return found


def renamed(tokens: list[str], names: Names, variables: dict[str, str]) -> str:
    """Tokens with their variables replaced, those that they bind numbered, and other names by where they come from."""
    said: list[str] = []
    scopes: list[dict[str, str]] = [variables]
    count, at = 0, 0

    def bind(words: Iterable[str]) -> None:
        nonlocal count
        fresh = dict(scopes[-1])
        for word in words:
            fresh[word] = f"%{count}"
            count += 1
        scopes[-1] = fresh

    while at < len(tokens):
        word = tokens[at]
        bound = binder(tokens, at)
        if bound:
            said += ["(", renamed(bound[1], names, scopes[-1]), ")"]
            bind(bound[0])
            at = bound[2]
            continue
        if word == "λ" and "." in tokens[at:]:
            end = tokens.index(".", at)
            said.append("λ")
            bind(w for w in tokens[at + 1 : end] if VARIABLE.fullmatch(w) and w not in names.known)
            said += [one_word(w, names, scopes[-1]) for w in tokens[at + 1 : end]]
            at = end
            continue
        if word in "({":
            scopes.append(scopes[-1])
        elif word in ")}" and len(scopes) > 1:
            scopes.pop()
        is_field = at + 1 < len(tokens) and tokens[at + 1] == "=" and tokens[at - 1] in "{;"
        said.append(word if is_field else one_word(word, names, scopes[-1]))
        at += 1
    return " ".join(said)


def one_word(word: str, names: Names, variables: dict[str, str]) -> str:
    head, dot, rest = word.partition(".")
    return variables[head] + dot + rest if head in variables else names.of(word)


def says(text: str, parameters: str, names: Names) -> str | None:
    """What a signature states, in one form for all that state the same; nothing where it is that of a definition."""
    arguments, end = arguments_of(tokens_of(text))
    arguments = parameters_of(parameters) + arguments
    words = {word.partition(".")[0] for word in end}
    if end[:1] == ["Type"] or not (words & RELATIONS or words & {it.name for it in arguments if it.name}):
        return None
    return in_one_form(arguments, end, names)


def in_one_form(arguments: list[Argument], end: list[str], names: Names) -> str:
    """The statement with its variables numbered as they come up in its end, then in its premises, and the premises in order."""
    used = {word.partition(".")[0] for it in arguments for word in it.type} | {word.partition(".")[0] for word in end}
    arguments, later = list(arguments), []
    for it in reversed(arguments):  # one that a later one of its name hides is no longer to be seen
        later.append(Argument(it.name if it.name in used and it.name not in {o.name for o in later} else "", it.type))
    arguments = later[::-1]
    variables: dict[str, str] = {}

    def number(tokens: list[str]) -> None:
        for word in tokens:
            head = word.partition(".")[0]
            if head not in variables and any(head == it.name for it in arguments):
                variables[head] = f"${len(variables)}"

    number(end)
    left = list(arguments)
    while left:
        unknown = {it.name: "$" for it in arguments if it.name and it.name not in variables}
        left.sort(key=lambda it: renamed(it.type, names, variables | unknown))
        known = [it for it in left if not it.name or it.name in variables]
        first = (known or left)[0]
        number([first.name] if first.name else [])
        number(first.type)
        left.remove(first)
    rows = (f"{variables.get(it.name, '')}: {renamed(it.type, names, variables)}" for it in arguments)
    return " → ".join([*sorted(rows), renamed(end, names, variables)])


# THE FILES OF A CRATE


def path_of(crate: str, file: Path) -> str:
    """What imports call a file."""
    return ".".join([crate, *file.with_suffix("").parts])


def names_of(text: str, path: str, homes: dict[str, str]) -> Names:
    """What the names of a file stand for, where some are handed on by the files that they are imported from."""
    names = Names()
    for it, _ in declarations(text):
        head = HEAD.match(it.text)
        if head:
            names.known[head[1]] = f"{path}.{head[1]}"
    for name in re.findall(r"^ *(?:pub |abbrev )*(?:data|record) ([^\s(){}:]+)", text, re.MULTILINE):
        names.known[name] = f"{path}.{name}"
    for _, origin, words in USE.findall(text):
        for word in filter(None, map(str.strip, words.split(","))):
            name, _, other = word.partition(" as ")
            full = f"kit.{name}" if origin.split(".")[0] in KIT else f"{origin}.{name}"
            names.known[other or name] = homes.get(full, full)
    return names


def files_of(root: Path, crate: str) -> Iterator[tuple[Path, str]]:
    """The definitions and proofs of a crate."""
    folder = root / "crates" / crate
    for part in ("specs", "proofs"):
        for file in sorted(folder.glob(f"{part}/**/*.antt")):
            yield file.relative_to(folder), file.read_text("utf-8")


def handed_on(root: Path) -> dict[str, str]:
    """Where names come from that files hand on."""
    homes: dict[str, str] = {}
    for crate in listed(root):
        for file, text in files_of(root, crate):
            for public, origin, words in USE.findall(text):
                for word in filter(None, map(str.strip, words.split(","))):
                    name, _, other = word.partition(" as ")
                    if public:
                        full = f"kit.{name}" if origin.split(".")[0] in KIT else f"{origin}.{name}"
                        homes[f"{path_of(crate, file)}.{other or name}"] = homes.get(full, full)
    return homes


def lemmas_of(root: Path) -> dict[str, list[Lemma]]:
    """The lemmas by what they state, in the order of crates.txt."""
    found: dict[str, list[Lemma]] = {}
    homes = handed_on(root)
    for crate in listed(root):
        for file, text in files_of(root, crate):
            names = names_of(text, path_of(crate, file), homes)
            for it, parameters in declarations(text):
                head = HEAD.match(it.text)
                if not head or it.text.startswith(("use ", "pub use ", "abbrev ", "unfoldable ")):
                    continue
                said = says(head[2], parameters, names)
                if said:
                    found.setdefault(said, []).append(Lemma(crate, file.as_posix(), it.line, head[1]))
    return found


def said_again(root: Path) -> list[list[Lemma]]:
    """The lemmas that state the same, in the order of crates.txt."""
    return [lemmas for lemmas in lemmas_of(root).values() if len(lemmas) > 1]


def main() -> int:
    for lemmas in said_again(ROOT):
        print(*lemmas, sep="\n    ")
    return 0


if __name__ == "__main__":
    sys.exit(main())
