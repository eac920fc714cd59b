"""Tests of packages: unpacked into a folder they do all that they are for without a kit, two of one commit are the same to the byte, and
none is made of what the gate didn't pass. The program is that of this checkout, or the one that the environment has in CARDHOUSE."""

from __future__ import annotations

import ast
import io
import os
import re
import resource
import shutil
import signal
import subprocess
import sys
import tarfile
import tempfile
import unittest
from collections.abc import Iterator
from contextlib import redirect_stdout
from pathlib import Path

import pages
import passed
from built import ROOT, name_program
from checkout import BUILT, sources
from pieces.program import Program, digest
from releasing import completions
from releasing.running import SUMS, commit_of, files_of, release, write
from releasing.tree import LIB, SHARE, tools_of
from releasing.words import COMMANDS, FIRST
from started import run
from tables.ending import Refused
from versions import version_of

SECONDS, OLDEST = 1_796_066_905, (3, 9)
COMMIT, KIT = "1234" * 10, "kit of a test"

# All that the script and the tools call.
CALLED = ("sh", "dirname", "readlink", "grep", "cat", "env", "tr", "make", "seq", "python3")

# Words of each command, with names of files of the examples, and what it writes begins so or is this file.
USES = (
    ("play first.sheet first.plan", "=first.transcript"),
    ("--proved play --format 2 first.sheet first.plan", "=first.named"),
    ("check first.sheet first.plan first.transcript", "legal"),
    ("sheet first.sheet", "=first.printed"),
    ("bench 1", "bench 1\nmatches 1\n"),
    ("migrate first.sheet first.plan first.transcript", "=first.named"),
    ("watch first.sheet first.plan 0 0", "=first.log"),
    ("measure first.sheet first.plan first.transcript", "=first.measures"),
    ("rival 0 4 1 5 first.sheet first.plan", "=first.rival"),
    ("lint first.sheet", ""),
    ("fmt first.sheet", "(game\n"),
    ("table first.transcript", "1 match"),
    ("show first.sheet first.plan", "<!doctype html>"),
    ("report first.sheet first.plan", "<!doctype html>"),
    ("series split whole tutorial/step5.sheet tutorial/even.plan", ""),
    ("series make whole -s", "piece 0"),
    ("series table whole", "300 matches"),
    ("--help", "usage: ./cardhouse"),
)


def tool(name: str) -> bool:
    """Whether a command is there. Where it isn't, this is said."""
    if not shutil.which(name):
        print(f"\na test of packages is skipped: no '{name}' on the path", file=sys.stderr)
    return bool(shutil.which(name))


def setUpModule() -> None:
    name_program()


class Released(unittest.TestCase):
    """The files of a release, made once."""

    @classmethod
    def setUpClass(cls) -> None:
        if not tool("dpkg-deb"):
            raise unittest.SkipTest("no 'dpkg-deb'")
        cls.program = Program().file.read_bytes()
        cls.files = files_of(ROOT, cls.program, COMMIT, KIT, SECONDS)
        cls.folder = Path(tempfile.mkdtemp())
        cls.addClassCleanup(shutil.rmtree, cls.folder)
        with redirect_stdout(io.StringIO()) as told:
            write(cls.folder / "out", cls.files)
        assert told.getvalue().split() == [str(cls.folder / "out" / it) for it in cls.files]
        cls.deb, cls.tar = (next(cls.folder.glob(f"out/*.{kind}")) for kind in ("deb", "tar.gz"))


class Writing(Released):
    def test_no_link_is_followed(self) -> None:
        folder, kept = self.folder / "links", self.folder / "kept"
        folder.mkdir()
        kept.write_bytes(b"kept")
        (folder / SUMS).symlink_to(kept)
        with redirect_stdout(io.StringIO()):
            write(folder, {SUMS: self.files[SUMS]})
        self.assertEqual((kept.read_bytes(), (folder / SUMS).read_bytes()), (b"kept", self.files[SUMS]))

    def test_names_of_folders_are_told_as_a_terminal_only_shows_them(self) -> None:
        for name, said in ((b"\x1b[31m", "\\x1b[31m"), (b"\xff", "\\xff"), (b"a\nb", "a\\x0ab")):
            with redirect_stdout(io.StringIO()) as told:
                write(self.folder / os.fsdecode(name), {SUMS: b""})
            self.assertEqual(told.getvalue(), f"{self.folder}/{said}/{SUMS}\n")

    def test_what_cant_be_written_leaves_nothing(self) -> None:
        folder = self.folder / "full"
        limit = resource.getrlimit(resource.RLIMIT_FSIZE)
        before = signal.signal(signal.SIGXFSZ, signal.SIG_IGN)
        self.addCleanup(signal.signal, signal.SIGXFSZ, before)
        self.addCleanup(resource.setrlimit, resource.RLIMIT_FSIZE, limit)
        resource.setrlimit(resource.RLIMIT_FSIZE, (1000, limit[1]))
        with self.assertRaises(Refused) as refused:
            write(folder, {SUMS: b"x" * 2000})
        self.assertEqual((refused.exception.status, str(refused.exception)), (7, f"{folder}: File too large"))
        self.assertEqual(list(folder.iterdir()), [])


class Packages(Released):
    @classmethod
    def setUpClass(cls) -> None:
        super().setUpClass()
        cls.root = cls.folder / "root"
        subprocess.run(["dpkg-deb", "-x", cls.deb, cls.root], check=True)
        shutil.copytree(cls.root / SHARE / "examples", cls.folder / "examples")
        cls.path = cls.folder / "path"
        cls.path.mkdir()
        for name in CALLED:
            if shutil.which(name):
                (cls.path / name).symlink_to(shutil.which(name) or "")
        (cls.path / "python3").unlink()
        (cls.path / "python3").symlink_to(sys.executable)

    def ran(self, *words: str, script: Path | None = None) -> subprocess.CompletedProcess[str]:
        """Runs what is installed, in an environment that has only a path without a kit."""
        command = [script or self.root / "usr/bin/cardhouse", *words]
        return run(command, "", 120, cwd=self.folder / "examples", env={"PATH": str(self.path)}, text=True)

    def test_each_command_works_without_a_kit(self) -> None:
        self.assertFalse((self.path / "rt").exists())
        for words, wanted in USES:
            if "make" in words and not tool("make"):
                continue
            with self.subTest(words):
                ran = self.ran(*words.split())
                self.assertEqual((ran.returncode, "Traceback" in ran.stderr), (0, False), ran.stderr)
                self.assertTrue(ran.stdout.startswith(wanted.removeprefix("=")) or wanted.startswith("="), ran.stdout[:200])
                if wanted.startswith("="):
                    self.assertEqual(ran.stdout, (ROOT / "examples" / wanted[1:]).read_text())
        used = {word for words, _ in USES for word in words.split()}
        self.assertEqual({it.name for it in COMMANDS} - used, {"build", "release"})

    def test_refusals_are_explained(self) -> None:
        ran = self.ran("--explain", "sheet", "first.plan")
        self.assertEqual((ran.returncode, "first.plan:1:1: " in ran.stderr), (1, True), ran.stderr)

    def test_what_needs_the_sources_says_so(self) -> None:
        for words in (["--try", "play"], ["build"], ["release", "out"]):
            ran = self.ran(*words)
            self.assertEqual((ran.returncode, ran.stdout, ran.stderr.count("\n")), (127, "", 1))
            self.assertIn(f"'{words[0]}' needs the sources in a checkout and the Rattle kit", ran.stderr)

    def test_it_tells_what_it_is(self) -> None:
        told = f"cardhouse {version_of(ROOT)}\ncommit {COMMIT}\nkit {KIT}\nprogram {digest(self.program)}\n"
        ran = self.ran("--version")
        self.assertEqual((ran.returncode, ran.stdout, ran.stderr), (0, told, ""))
        split = self.ran("series", "split", "told", "tutorial/step5.sheet", "tutorial/even.plan")
        self.assertEqual(split.returncode, 0, split.stderr)
        kept = (self.folder / "examples/told/series.json").read_text()
        self.assertTrue(all(it in kept for it in (COMMIT, KIT, digest(self.program))), kept)

    def test_another_program_in_its_place_is_told(self) -> None:
        other = self.folder / "other"
        shutil.copytree(self.root, other, symlinks=True)
        with (other / LIB / "program").open("ab") as file:
            file.write(b"\0")
        ran = self.ran("--version", script=other / "usr/bin/cardhouse")
        self.assertEqual((ran.returncode, ran.stderr), (4, "this isn't the program of the release\n"))

    def test_nothing_is_left_beside_the_tools(self) -> None:
        self.ran("lint", "first.sheet")
        self.assertEqual(list((self.root / LIB).glob("**/__pycache__")), [])

    def test_the_tar_has_the_same_tree(self) -> None:
        into = self.folder / "tar"
        with tarfile.open(self.tar) as archive:
            members = archive.getmembers()
            archive.extractall(into)
        self.assertEqual({(it.uid, it.gid, it.mtime) for it in members}, {(0, 0, SECONDS)})
        self.assertEqual([it.name for it in members if not it.isdir()], sorted(it.name for it in members if not it.isdir()))
        top = into / f"cardhouse-{version_of(ROOT)}"
        inside = {str(it.relative_to(top)) for it in top.glob("**/*")}
        installed = {str(it.relative_to(self.root)) for it in self.root.glob("**/*")}
        self.assertEqual(installed - inside, {"usr/share/doc/cardhouse/changelog.Debian.gz"})
        self.assertEqual(inside - installed, set())
        ran = self.ran("play", "first.sheet", "first.plan", script=top / "usr/bin/cardhouse")
        self.assertEqual((ran.returncode, ran.stdout), (0, (ROOT / "examples/first.transcript").read_text()))

    def test_links_of_its_pages_lead_somewhere(self) -> None:
        top = self.root / SHARE
        for page in sorted([*top.glob("*.md"), *top.glob("*/*.md")]):
            with self.subTest(page.name):
                self.assertEqual(list(pages.link_faults(page)), [])

    def test_what_the_system_is_told(self) -> None:
        ran = subprocess.run(["dpkg-deb", "-f", self.deb], capture_output=True, text=True, check=True)
        told = dict(re.findall(r"^(\S+): (.*)$", ran.stdout, re.MULTILINE))
        self.assertEqual((told["Package"], told["Version"]), ("cardhouse", f"{version_of(ROOT)}-1"))
        self.assertRegex(told["Depends"], r"^libc6 \(>= 2\.\d+\), python3:any \(>= 3\.9\)$")

    def test_lintian(self) -> None:
        if not tool("lintian"):
            self.skipTest("no 'lintian'")
        ran = subprocess.run(["lintian", "--allow-root", "--fail-on", "error,warning", self.deb], capture_output=True, text=True)
        self.assertEqual((ran.returncode, ran.stdout), (0, ""))


class Same(Released):
    def test_two_of_one_commit_are_the_same(self) -> None:
        """Also of another checkout, with other times and modes, and made under another mask."""
        again = self.folder / "again"
        for part in ("cardhouse", "VERSION", "README.md", "CONTRIBUTING.md", "CHANGELOG.md", "docs", "editors", "examples", "packaging", "tools", "cases"):
            copy = shutil.copytree if (ROOT / part).is_dir() else shutil.copyfile
            again.mkdir(exist_ok=True)
            copy(ROOT / part, again / part)
        for file in again.glob("**/*"):
            if file.suffix in (".md", ".sheet"):
                file.chmod(0o600)
                os.utime(file, (1, 1))
        before = os.umask(0o077)
        self.addCleanup(os.umask, before)
        self.assertEqual(files_of(again, self.program, COMMIT, KIT, SECONDS), self.files)

    def test_their_digests(self) -> None:
        lines = self.files[SUMS].decode().splitlines()
        self.assertEqual(lines, [f"{digest(self.files[it])}  {it}" for it in sorted(self.files) if it != SUMS])
        if tool("sha256sum"):
            subprocess.run(["sha256sum", "--check", "--quiet", SUMS], cwd=self.folder / "out", check=True)


class Gate(unittest.TestCase):
    """What the gate passed, and of what a release is made."""

    def setUp(self) -> None:
        folder = tempfile.TemporaryDirectory()
        self.addCleanup(folder.cleanup)
        self.root = Path(folder.name)
        for name, text in (("crates.txt", "rc_main:\n"), ("HANDLES", ""), ("crates/rc_main/src/main.rt", "fn main() {}\n"), (".gitignore", "out/\n")):
            self.write(name, text)
        self.git("init", "-q")
        self.git("add", "-A")
        who = ("-c", "user.name=a", "-c", "user.email=a@example.org")
        self.git(*who, "commit", "-q", "-m", "first")
        self.write(BUILT, "the program")

    def write(self, name: str, text: str) -> None:
        file = self.root / name
        file.parent.mkdir(parents=True, exist_ok=True)
        file.write_text(text)

    def git(self, *words: str) -> None:
        subprocess.run(["git", "-C", self.root, *words], check=True, capture_output=True)

    def refused(self, status: int, said: str) -> None:
        out = self.root / "out"
        with self.assertRaises(Refused) as caught:
            release(self.root, out)
        self.assertEqual((caught.exception.status, said in str(caught.exception)), (status, True), caught.exception)
        self.assertFalse(out.exists())

    def test_what_the_gate_passed(self) -> None:
        passed.note(self.root, passed.digest_of(self.root))
        self.assertEqual(passed.passed(self.root)["program"], digest(b"the program"))

    def test_the_gate_has_not_passed(self) -> None:
        self.refused(127, "the gate hasn't passed here: .ci/run")

    def test_other_sources(self) -> None:
        passed.note(self.root, passed.digest_of(self.root))
        self.write("crates/rc_main/src/main.rt", "fn main() { }\n")
        self.git("-c", "user.name=a", "-c", "user.email=a@example.org", "commit", "-qam", "second")
        # The time of the program says nothing of this.
        os.utime(self.root / BUILT, (4e9, 4e9))
        self.refused(127, "the gate passed on other sources")

    def test_another_program(self) -> None:
        passed.note(self.root, passed.digest_of(self.root))
        self.write(BUILT, "another program")
        self.refused(127, "the program isn't the one that the gate proved")

    def test_sources_that_change_while_the_gate_runs(self) -> None:
        before = passed.digest_of(self.root)
        self.write("crates/rc_main/specs/Lib.antt", "x\n")
        with self.assertRaises(Refused):
            passed.note(self.root, before)
        self.assertFalse((self.root / passed.NOTE).exists())

    def test_tests_are_none_of_the_sources(self) -> None:
        before = passed.digest_of(self.root)
        self.write("crates/rc_house_tests/src/lib.rt", "")
        self.assertEqual(passed.digest_of(self.root), before)
        self.assertEqual([it.name for it in sources(self.root)], ["main.rt"])

    def test_files_that_differ_from_the_commit(self) -> None:
        self.assertEqual(len(commit_of(self.root)[0]), 40)
        passed.note(self.root, passed.digest_of(self.root))
        self.write("README.md", "new\n")
        self.refused(4, "files differ from the commit")


def annotations(tree: ast.AST) -> Iterator[ast.expr]:
    for node in ast.walk(tree):
        if isinstance(node, (ast.FunctionDef, ast.AsyncFunctionDef)):
            of_words = [*node.args.posonlyargs, *node.args.args, *node.args.kwonlyargs, node.args.vararg, node.args.kwarg]
            yield from (it.annotation for it in of_words if it and it.annotation)
            yield from [node.returns] if node.returns else []
        elif isinstance(node, ast.AnnAssign):
            yield node.annotation


class Tools(unittest.TestCase):
    """The tools of a release need Python 3.9, and nothing else."""

    def test_they_are_of_the_oldest_python(self) -> None:
        for file in tools_of(ROOT / "tools"):
            text = file.read_text("utf-8") if file.suffix in ("", ".py") else ""
            if file.suffix != ".py" and "python3" not in text.partition("\n")[0]:
                continue
            with self.subTest(file.name):
                tree = ast.parse(text, feature_version=OLDEST)
                self.assertEqual([it.lineno for it in ast.walk(tree) if isinstance(it, getattr(ast, "Match", ()))], [])
                if "from __future__ import annotations" not in text:
                    unions = [it for told in annotations(tree) for it in ast.walk(told) if isinstance(it, ast.BitOr)]
                    self.assertEqual(unions, [])
                self.assertNotRegex(text, r"\b(pairwise|bit_count|kw_only|slots)\b|\bzip\(.*\bstrict=|\.total\(\)")

    def test_they_import_nothing_but_python_and_one_another(self) -> None:
        if not hasattr(sys, "stdlib_module_names"):
            self.skipTest("this Python doesn't tell its modules")
        files = tools_of(ROOT / "tools")
        own = {it.relative_to(ROOT / "tools").parts[0].removesuffix(".py") for it in files}
        for file in files:
            if file.suffix != ".py":
                continue
            for node in ast.walk(ast.parse(file.read_text("utf-8"))):
                names = [it.name for it in node.names] if isinstance(node, ast.Import) else []
                names += [node.module or ""] if isinstance(node, ast.ImportFrom) else []
                for name in names:
                    self.assertIn(name.partition(".")[0], own | sys.stdlib_module_names, file)

    def test_no_tool_of_the_gate_is_among_them(self) -> None:
        names = {it.name for it in tools_of(ROOT / "tools")}
        self.assertLess({"explain", "files", "lint", "fmt", "table", "show", "report", "series", "version", "Makefile", "page.js"}, names)
        self.assertEqual({it for it in names if it.startswith("test_")} | names & {"built.py", "crates.py", "trying.py", "build", "try"}, set())


def commands() -> list[str]:
    """The commands that the script takes."""
    body = (ROOT / "cardhouse").read_text().partition("is_command() {")[2].partition("*)")[0]
    return [word for row in re.findall(r"^ +([a-z |]+)\) ;;$", body, re.MULTILINE) for word in row.split(" | ")]


class Words(unittest.TestCase):
    """Completions know all words."""

    def test_they_are_those_of_the_script(self) -> None:
        self.assertEqual([it.name for it in COMMANDS], commands())
        said = (ROOT / "cardhouse").read_text()
        for option in FIRST:
            self.assertIn(f" {option.name}", said)

    def test_options_are_those_of_the_tools(self) -> None:
        for command in COMMANDS:
            if not any(it.name == "--help" for it in command.options):
                continue
            for words, known in [([command.name], command), *(([command.name, it.name], it) for it in command.parts)]:
                told = run([ROOT / "cardhouse", *words, "--help"], seconds=60, text=True).stdout
                options = set(re.findall(r"(?<![\w-])(--?[a-z]+)\b", told.partition("positional arguments")[0].partition("\n\n")[0]))
                own = {it.name for it in known.options} - {"--help"}
                self.assertEqual(options - {"-h", "--help"}, own, words)

    def test_options_are_those_of_the_program(self) -> None:
        said = (ROOT / "tools/usage.txt").read_text()
        for command in COMMANDS[:8]:
            row = re.search(rf"^  {command.name} .*$", said, re.MULTILINE)
            assert row
            self.assertEqual(set(re.findall(r"--\w+", row[0])), {it.name for it in command.options})

    def test_bash(self) -> None:
        if not tool("bash"):
            self.skipTest("no 'bash'")
        for typed, wanted in (
            ("", {it.name for it in COMMANDS} | {it.name for it in FIRST}),
            ("--explain me", {"measure"}),
            ("play --w", {"--workers"}),
            ("play ", set()),
            ("series ", {"split", "make", "run", "again", "table", "measure", "merge", "compare", "--help"}),
            ("series split --s", {"--size", "--seconds"}),
        ):
            with self.subTest(typed):
                words = f"cardhouse {typed}".split(" ")
                script = f'{completions.bash()}COMP_WORDS=("$@") COMP_CWORD=$(($# - 1)); _cardhouse; echo "${{COMPREPLY[@]}}"'
                ran = run(["bash", "-euc", script, "bash", *words], seconds=60, text=True)
                self.assertEqual((ran.returncode, set(ran.stdout.split())), (0, wanted), ran.stderr)

    def test_other_shells_can_read_them(self) -> None:
        for shell, text in (("zsh", completions.zsh()), ("fish", completions.fish())):
            for name in [it.name for command in COMMANDS for it in (command, *command.parts, *command.options)] + [it.name for it in FIRST]:
                self.assertIn(name if shell == "zsh" else name.lstrip("-"), text)
            if tool(shell):
                with tempfile.NamedTemporaryFile("w", suffix=f".{shell}") as file:
                    file.write(text)
                    file.flush()
                    ran = run([shell, "-n", file.name], seconds=60, text=True)
                self.assertEqual((ran.returncode, ran.stderr), (0, ""))


class Versions(unittest.TestCase):
    def test_the_changelog_begins_with_this_version(self) -> None:
        heads = re.findall(r"^## \[([^\]]+)\]( - \d{4}-\d\d-\d\d)?$", (ROOT / "CHANGELOG.md").read_text("utf-8"), re.MULTILINE)
        self.assertEqual([it for it in heads if it[0] != "Unreleased"][0][0], version_of(ROOT))
        self.assertTrue(all(date for name, date in heads if name != "Unreleased"))

    def test_a_checkout_tells_what_it_is(self) -> None:
        ran = run([ROOT / "cardhouse", "--version"], seconds=60, text=True)
        words = [line.partition(" ")[0] for line in ran.stdout.splitlines()]
        self.assertEqual((ran.returncode, words), (0, ["cardhouse", "commit", "kit", "program"]))


if __name__ == "__main__":
    unittest.main()
