"""Tests that the files of the repository and the parts of its code which its pages name are there.

A name with a `_` or a `::` is to be declared in code, definitions or proofs: as a function, a type, a field, a clause, a lemma and the
like, or be a file or a library. Of `rc_a::f` the crate is to declare the name, and of `A::f` a crate is to declare both. Every word of
the page on what is proved is to be such a name, and every type of the pages on code, if it is none of std.
"""

import re
import unittest
from collections.abc import Iterator
from functools import cache
from pathlib import Path

from crates import listed

ROOT = Path(__file__).resolve().parent.parent
PAGES = sorted([*ROOT.glob("*.md"), *ROOT.glob("*/*.md")])

# The pages that name types of the code by a single word, and those on which every word names a part of it, but these.
ON_CODE = {"ARCHITECTURE.md", "CONTRIBUTING.md", "DECISIONS.md", "GLOSSARY.md", "PLANTED.md", "PROVED.md"}
ON_CODE_ALONE = {"PLANTED.md", "PROVED.md"}
OTHERS = {"_by", "crates", "measure", "migrate", "planted", "rival", "tools", "watch"}

# A path in code that begins with a folder of the repository, without signs that stand for several files.
NAMED = re.compile(r"(?:bench|cases|crates|docs|editors|examples|planted|tools|\.ci)/[\w./-]+")

# What is made by a proof and isn't in a checkout.
MADE = re.compile(r"crates/\w+/out")

# A path in a crate, from the crate's folder or from one inside, and a file alone.
IN_CRATE = re.compile(r"rc_\w+/[\w./-]+|[\w./-]+\.(?:antt|rt)")

# Names of functions, crates and modules, which have a `_` or a `::`, those of types, and all.
NAME = re.compile(r"(?:\w+::)+\w+|[A-Za-z]\w*_\w+")
TYPE = re.compile(r"[A-Z][a-z]\w+")
ANY = re.compile(r"(?:\w+::)*[A-Za-z_]\w*")

COMMENT = {".rt": re.compile(r"//.*"), ".antt": re.compile(r"--.*")}
DECLARED = {
    ".rt": [
        re.compile(r"\b(?:fn|struct|enum|trait|type|const|static|mod|macro_rules!)\s+(\w+)"),
        re.compile(r"^\s*(?:ensures|requires|ghost)\s+(\w+)", re.MULTILINE),
        re.compile(r"^\s*(?:pub(?:\(\w+\))?\s+)?(\w+):\s", re.MULTILINE),
        re.compile(r"^\s*([A-Z]\w*)(?:\(|,| \{)", re.MULTILINE),
    ],
    ".antt": [
        re.compile(r"^\s*(?:(?:abbrev|pub|data|record|mutual|syntax)\s+)*([\w']+)(?:\s.*)?\s:(?:\s|$)", re.MULTILINE),
        re.compile(r"^\s*pub\s+(?:data|record|ruleset)\s+([\w']+)", re.MULTILINE),
    ],
}
HANDED_ON = re.compile(r"\bpub use ([^;]*);")
OF_STD = re.compile(r"\buse (?:std|arrayvec|lru)::([^;]*);")
ALWAYS_THERE = {"Box", "Vec"}


def quoted(page: Path) -> set[str]:
    """What a page has between backquotes."""
    text = re.sub(r"^```.*?^```", "", page.read_text("utf-8"), flags=re.MULTILINE | re.DOTALL)
    return set(re.findall(r"`([^`\n]+)`", text))


def sources(crate: str = "*") -> Iterator[Path]:
    """The files of code, definitions and proofs."""
    for folder in ("src", "specs", "proofs"):
        for suffix in ("rt", "antt"):
            yield from ROOT.glob(f"crates/{crate}/{folder}/**/*.{suffix}")


def declared_in(file: Path) -> Iterator[str]:
    """The names that a file declares or hands on, and its own."""
    text = COMMENT[file.suffix].sub("", file.read_text("utf-8"))
    for pattern in DECLARED[file.suffix]:
        yield from pattern.findall(text)
    for used in HANDED_ON.findall(text):
        yield from re.findall(r"\w+", used)
    yield file.stem


@cache
def declared() -> dict[str, set[str]]:
    """The names that each crate declares."""
    return {crate: {name for file in sources(crate) for name in declared_in(file)} for crate in listed(ROOT)}


def is_declared(name: str) -> bool:
    """Whether a crate declares this name, or a type and what is in it, or hands it on."""
    crates, parts = declared(), name.split("::")
    if parts[0] in crates:
        return {*parts[1:]} <= crates[parts[0]]
    return any({*parts} <= names for names in crates.values())


def named(pattern: re.Pattern[str], pages: list[Path] = PAGES) -> set[tuple[str, str]]:
    """What pages have between backquotes that is written so, each with its page."""
    return {(page.name, name) for page in pages for name in quoted(page) if pattern.fullmatch(name)}


class Named(unittest.TestCase):
    def check(self, names: set[tuple[str, str]], known: set[str]) -> None:
        """Each of these is known, or declared."""
        self.assertEqual(sorted(f"{page}: {name}" for page, name in names if name not in known and not is_declared(name)), [])

    def test_files(self) -> None:
        for page, name in sorted(named(NAMED)):
            with self.subTest(page=page, name=name):
                self.assertTrue((ROOT / name).exists() or MADE.fullmatch(name))

    def test_each_example_is_named(self) -> None:
        examples = {sheet.stem for sheet in (ROOT / "examples").glob("*.sheet")}
        self.assertEqual(examples - quoted(ROOT / "docs/LANGUAGE.md"), set())

    def test_each_idiom_is_quoted(self) -> None:
        sheets = {str(sheet.relative_to(ROOT)) for sheet in (ROOT / "examples/cookbook").glob("*.sheet")}
        page = (ROOT / "docs/COOKBOOK.md").read_text("utf-8")
        self.assertEqual(sheets, set(re.findall(r"^<!-- from (\S+\.sheet) -->$", page, re.MULTILINE)))

    def test_files_of_crates(self) -> None:
        paths = [str(file.relative_to(ROOT / "crates")) for file in sources()]
        ends = {"/".join(parts[at:]) for parts in (path.split("/") for path in paths) for at in range(len(parts))}
        for page, name in sorted(named(IN_CRATE)):
            with self.subTest(page=page, name=name):
                self.assertTrue(name in ends or (ROOT / "crates" / name).is_dir())

    def test_names_of_code(self) -> None:
        libraries = {library for of_crate in listed(ROOT).values() for library in of_crate}
        self.check(named(NAME), libraries)

    def test_types(self) -> None:
        texts = [file.read_text("utf-8") for file in sources()]
        of_std = {name for text in texts for used in OF_STD.findall(text) for name in re.findall(r"\w+", used)}
        self.check(named(TYPE, [page for page in PAGES if page.name in ON_CODE]), of_std | ALWAYS_THERE)

    def test_words_of_the_pages_on_code_alone(self) -> None:
        libraries = {library for of_crate in listed(ROOT).values() for library in of_crate}
        of_std = {"Wait"}
        self.check(named(ANY, [page for page in PAGES if page.name in ON_CODE_ALONE]), libraries | of_std | OTHERS)

    def test_what_is_declared(self) -> None:
        for name in ("run", "rc_house::run", "Book::look", "rc_ast::Word", "every_play_ends", "is_legal", "rc_match"):
            with self.subTest(name):
                self.assertTrue(is_declared(name))
        for name in ("rc_match::run", "Book::no_such_call", "no_such_law", "rc_gone"):
            with self.subTest(name):
                self.assertFalse(is_declared(name))


if __name__ == "__main__":
    unittest.main()
