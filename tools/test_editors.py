"""Tests of the files for editors: their words are those of the grammars, a sample is coloured as it should be, what ships stays as it is
indented, faults are found, and snippets are of the language."""

import json
import os
import re
import shutil
import tempfile
import unittest
from pathlib import Path
from typing import Any

from built import PROGRAM, ROOT, skip_unless_built
from linting.running import findings
from linting.trees import placed, read_lists, read_sheet
from started import run
from tables.grammar import FACE_LINE, NAMED_LINES

VIM = ROOT / "editors/vim"
VSCODE = ROOT / "editors/vscode"

SHEETS = sorted([*(ROOT / "examples").glob("**/*.sheet"), *(ROOT / "bench").glob("*.sheet")])

# What a sheet has that is written with indentation.
INDENTED = re.compile(r"^\(game\n  \(setup", re.MULTILINE)

SHEET = """(game ; a comment (game
(setup (create players 2)(put points max ((A 7UP -7))))
(all (filter ('P iloc HAND-7) 'C (!= 1 x'y)) 'D) 12,34
(peek (known (game hloc PEEK)) 'P)
"""
PLAN = "(plan (seats (rollout 20 7) (script)) ;7\n(matches (from 1 x1 2)))\n"

TEXT = """house 2
face 0 RANK 7 end p0
face 31 SUIT match
match 4095 deal 7 seats 70
choose 0 1 2 3 p7 c511 g0
end done 9
score 0 -10 2
standing 1 strategy 0 points 2
c0 7choose
"""

# What is coloured as what, in order: an atom or a comment, and the class.
SHEET_COLOURS = [
    ("game", "Word"), ("; a comment (game", "Comment"),
    ("setup", "Word"), ("create", "Word"), ("players", "Word"), ("2", "Number"), ("put", "Word"), ("points", "Word"),
    ("max", "Word"), ("-7", "Number"),
    ("all", "Word"), ("filter", "Word"), ("'P", "Variable"), ("iloc", "Kind"), ("'C", "Variable"), ("!=", "Sign"), ("1", "Number"),
    ("'D", "Variable"), ("12", "Number"), ("34", "Number"),
    ("peek", "Word"), ("known", "Word"), ("game", "Word"), ("hloc", "Kind"), ("'P", "Variable"),
]  # fmt: skip
PLAN_COLOURS = [
    ("plan", "Word"), ("seats", "Word"), ("rollout", "Strategy"), ("20", "Number"), ("7", "Number"), ("script", "Strategy"),
    (";7", "Comment"), ("matches", "Word"), ("from", "Word"), ("1", "Number"), ("2", "Number"),
]  # fmt: skip

TEXT_COLOURS = [
    ("house", "Word"), ("2", "Number"), ("face 0 RANK 7 end p0", "Face"), ("face 31 SUIT match", "Face"),
    ("match", "Word"), ("4095", "Number"), ("deal", "Part"), ("7", "Number"), ("seats", "Part"), ("70", "Number"),
    ("choose", "Word"), ("0", "Number"), ("1", "Number"), ("2", "Number"), ("3", "Number"),
    ("p7", "Mark"), ("c511", "Mark"), ("g0", "Mark"), ("end", "Word"), ("done", "Part"), ("9", "Number"),
    ("score", "Word"), ("0", "Number"), ("-10", "Number"), ("2", "Number"),
    ("standing", "Word"), ("1", "Number"), ("strategy", "Part"), ("0", "Number"), ("points", "Part"), ("2", "Number"),
]  # fmt: skip

SCOPES = {
    "comment.line.semicolon": "Comment",
    "variable.other": "Variable",
    "constant.numeric": "Number",
    "keyword.control": "Word",
    "storage.type": "Kind",
    "keyword.operator": "Sign",
    "support.function": "Strategy",
}

# Those of transcripts that are called otherwise.
TEXT_SCOPES = {"string.unquoted": "Face", "variable.other": "Mark", "support.function": "Part"}


def sheet_words() -> list[str]:
    """The fixed words of the table of the grammar."""
    text = (ROOT / "crates/rc_check/specs/Keyword.antt").read_text("utf-8")
    return sorted(re.findall(r'^text_of keyword\.\w+ = codes "(.+)"$', text, re.MULTILINE))


def plan_words() -> list[str]:
    """The fixed words of the faults of plans."""
    text = (ROOT / "crates/rc_play_spec/specs/Faults.antt").read_text("utf-8")
    return sorted(set(re.findall(r'codes "(\w+)"', text)))


def vim_words(name: str) -> list[str]:
    text = (VIM / f"syntax/{name}.vim").read_text("ascii")
    return sorted(word for row in re.findall(r"^syntax keyword \w+ (.+)$", text, re.MULTILINE) for word in row.split())


def grammar(name: str) -> list[dict[str, str]]:
    patterns: list[dict[str, str]] = json.loads((VSCODE / f"syntaxes/{name}.tmLanguage.json").read_text("ascii"))["patterns"]
    return patterns


def vscode_words(name: str) -> list[str]:
    rows = [re.fullmatch(r".*\)\(\?:(.+)\)\(\?!.*", pattern["match"]) for pattern in grammar(name)]
    return sorted(re.sub(r"\\(.)", r"\1", word) for row in rows if row for word in row[1].split("|"))


class Words(unittest.TestCase):
    def test_of_sheets(self) -> None:
        self.assertEqual(len(sheet_words()), 62)
        self.assertEqual(vim_words("cardsheet"), sheet_words())
        self.assertEqual(vscode_words("cardsheet"), sheet_words())

    def test_of_transcripts(self) -> None:
        lines = [*NAMED_LINES.values(), FACE_LINE]
        words = {word for line in lines for word in re.findall(r"[a-z]+", line)} | {"done", "limit"}
        vim, vscode = (
            (VIM / "syntax/cardtranscript.vim").read_text("ascii"), (VSCODE / "syntaxes/cardtranscript.tmLanguage.json").read_text("ascii"),
        )  # fmt: skip
        for text, begins in ((vim, r"%\("), (vscode, r"\(\?:")):
            rows = re.findall(rf"{begins}([a-z|]{{9,}})\)", text)
            self.assertEqual({word for row in rows for word in row.split("|")} | {"face"}, words)

    def test_of_plans(self) -> None:
        self.assertEqual(plan_words(), ["from", "matches", "plan", "random", "rollout", "script", "seats", "turns"])
        self.assertEqual(vim_words("cardplan"), plan_words())
        self.assertEqual(vscode_words("cardplan"), plan_words())


class InFolder(unittest.TestCase):
    def setUp(self) -> None:
        self.folder = Path(tempfile.mkdtemp())
        self.addCleanup(shutil.rmtree, self.folder)

    def vim(self, *commands: str) -> None:
        """Runs commands in Vim, with the files of this folder and no others."""
        script = [f"set nocompatible runtimepath^={VIM}", "filetype plugin on", "syntax on", *commands, "qall!", ""]
        (self.folder / "script.vim").write_text("\n".join(script))
        command = ["vim", "-u", "NONE", "-es", "-S", self.folder / "script.vim"]
        run(command, seconds=300, cwd=self.folder)


class Colours(InFolder):
    def vim_colours(self, file: str, text: str) -> list[tuple[str, str]]:
        """The runs of characters of one class, as Vim colours them."""
        (self.folder / file).write_text(text)
        self.vim(
            f"edit {file}",
            "let rows = []",
            "for row in range(1, line('$'))",
            "for column in range(1, col([row, '$']) - 1)",
            "call add(rows, row . ' ' . column . ' ' . synIDattr(synID(row, column, 1), 'name'))",
            "endfor",
            "endfor",
            "call writefile(rows, 'rows')",
        )
        lines = text.split("\n")
        runs: list[tuple[str, str]] = []
        last = ("", 0, 0)
        for told in (self.folder / "rows").read_text().splitlines():
            row, column, name = told.split(" ")
            if not name:
                continue
            character = lines[int(row) - 1][int(column) - 1]
            if last == (name, int(row), int(column) - 1):
                runs[-1] = (runs[-1][0] + character, runs[-1][1])
            else:
                runs.append((character, re.sub("card(sheet|plan|transcript)", "", name)))
            last = (name, int(row), int(column))
        return runs

    def node_colours(self, name: str, text: str) -> list[tuple[str, str]]:
        """The runs that the patterns match, the first that begins earliest, as an editor takes them."""
        script = """
        const [patterns, text] = JSON.parse(require('fs').readFileSync(0, 'utf8'));
        const found = [];
        for (const line of text.split('\\n')) {
          let at = 0;
          for (;;) {
            let best = null;
            for (const {name, match} of patterns) {
              const sought = new RegExp(match, 'g');
              sought.lastIndex = at;
              const here = sought.exec(line);
              if (here && (!best || here.index < best.index)) best = {name, index: here.index, text: here[0]};
            }
            if (!best) break;
            found.push([best.text, best.name]);
            at = best.index + best.text.length;
          }
        }
        console.log(JSON.stringify(found));
        """
        given = json.dumps([grammar(name), text])
        ran = run(["node", "-e", script], given, seconds=60, text=True)
        ran.check_returncode()
        scopes = SCOPES | (TEXT_SCOPES if name == "cardtranscript" else {})
        return [(run, scopes[scope.rpartition(".")[0]]) for run, scope in json.loads(ran.stdout)]

    @unittest.skipUnless(shutil.which("vim"), "no Vim on the path")
    def test_vim(self) -> None:
        self.assertEqual(self.vim_colours("a.sheet", SHEET), SHEET_COLOURS)
        self.assertEqual(self.vim_colours("a.plan", PLAN), PLAN_COLOURS)
        self.assertEqual(self.vim_colours("a.transcript", TEXT), TEXT_COLOURS)

    @unittest.skipUnless(shutil.which("node"), "no Node.js on the path")
    def test_vscode(self) -> None:
        self.assertEqual(self.node_colours("cardsheet", SHEET), SHEET_COLOURS)
        self.assertEqual(self.node_colours("cardplan", PLAN), PLAN_COLOURS)
        self.assertEqual(self.node_colours("cardtranscript", TEXT), TEXT_COLOURS)


@unittest.skipUnless(shutil.which("vim"), "no Vim on the path")
class Indenting(InFolder):
    def indented(self, *texts: str) -> list[str]:
        """The texts as Vim indents them."""
        files = [self.folder / f"{number}.sheet" for number in range(len(texts))]
        for file, text in zip(files, texts):
            file.write_text(text)
        self.vim(*(command for file in files for command in (f"edit {file.name}", "normal gg=G", "write")))
        return [file.read_text() for file in files]

    def test_sheets_that_ship_stay_as_they_are(self) -> None:
        sheets = [file for file in SHEETS if INDENTED.search(file.read_text("ascii"))]
        self.assertGreaterEqual(len(sheets), 15)
        texts = [file.read_text("ascii") for file in sheets]
        flat = [re.sub("^ +", "", text, flags=re.MULTILINE) for text in texts]
        for file, text, kept, made in zip(sheets, texts, self.indented(*texts), self.indented(*flat)):
            with self.subTest(file.relative_to(ROOT)):
                self.assertEqual(kept, text)
                self.assertEqual(made, text)

    def test_comments_count_for_nothing(self) -> None:
        text = "(game ; (((\n  (setup\n    (put points A ; ((\n      ; (\n      ((B (1) 2)\n       (B (2) 3)))))\n"
        self.assertEqual(self.indented(text), [text])


@unittest.skipUnless(shutil.which("vim"), "no Vim on the path")
class Making(InFolder):
    def made(self, program: str, name: str = "program", sheet: str = "a b.sheet", *before: str, text: str = "") -> list[str]:
        """What `:make` tells by this program, and where it jumps to."""
        for file in (name, sheet):
            (self.folder / file).parent.mkdir(parents=True, exist_ok=True)
        (self.folder / sheet).write_text(text or "(game\n  (stage player\n    (end (= 1 2))\n")
        (self.folder / name).write_text(f"#!/bin/sh\n{program}\n")
        (self.folder / name).chmod(0o755)
        self.vim(
            *(before or ["let g:cardhouse = './program'"]),
            f"edit {sheet.replace(' ', chr(92) + ' ')}",
            "call cursor(1, 1)",
            "silent make",
            "let rows = []",
            "for it in filter(getqflist(), 'v:val.valid')",
            "call add(rows, bufname(it.bufnr) . ' ' . it.lnum . ' ' . it.col . ' ' . it.text)",
            "endfor",
            "call add(rows, line('.') . ' ' . col('.'))",
            "call writefile(rows, 'rows')",
        )
        return (self.folder / "rows").read_text().splitlines()

    def test_it_jumps_to_a_fault(self) -> None:
        program = """
        [ "$1 $2" = "--explain sheet" ] || exit 2
        echo "sheet Shape 26" >&2
        echo >&2
        echo "$3:3:5: No such list." >&2
        exit 1
        """
        self.assertEqual(self.made(program), ["a b.sheet 3 5 No such list.", "3 5"])

    def test_where_there_is_none_it_tells_findings(self) -> None:
        program = """
        [ "$1" = lint ] || { echo "(game (written:1:1: (canonically)))"; exit 0; }
        echo "$2:2:3: One."
        echo "$2:3:10: Another."
        exit 1
        """
        self.assertEqual(self.made(program), ["a b.sheet 2 3 One.", "a b.sheet 3 10 Another.", "2 3"])

    def test_the_program_is_found_from_any_folder(self) -> None:
        program = 'echo "$3:3:5: No such list." >&2; exit 1'
        told = ["x, y/deep/a b.sheet 3 5 No such list.", "3 5"]
        self.assertEqual(self.made(program, "cardhouse", "x, y/deep/a b.sheet", "set nobackup"), told)
        (self.folder / "cardhouse").rename(self.folder / "elsewhere")
        self.assertEqual(self.made(program, "x, y/cardhouse", "x, y/deep/a b.sheet", "set nobackup"), told)
        (self.folder / "x, y/cardhouse").unlink()
        copied = self.folder / "plugin"
        shutil.copytree(VIM, copied)
        on_path = f"let $PATH = '{self.folder}/bin:' .. $PATH"
        words = (f"set runtimepath-={VIM} runtimepath^={copied}", on_path)
        self.assertEqual(self.made(program, "bin/cardhouse", "x, y/deep/a b.sheet", *words), told)

    def test_a_parenthesis_comes_first(self) -> None:
        text = "(game\n  (setup\n    (create players 2)\n    (create deck (game hloc S)\n      (deck (R (A))))\n  (do\n    (cycle reverse))\n  (scoring max 0))\n"
        explain = f'exec {ROOT}/tools/explain "$0".told sheet "$3"'
        (self.folder / "program.told").write_text("#!/bin/sh\ncat >/dev/null\necho 'sheet Unclosed 0' >&2\nexit 1\n")
        (self.folder / "program.told").chmod(0o755)
        said = self.made(explain, text=text)
        self.assertTrue(said[0].startswith("a b.sheet 5 22 By the indentation a `)` is likely missing"), said)
        self.assertTrue(said[1].startswith("a b.sheet 1 1 This list is still open"), said)
        self.assertEqual(said[2], "5 21")

    def test_where_there_is_nothing_it_stays(self) -> None:
        self.assertEqual(self.made("exit 0"), ["1 1"])


def contributed() -> dict[str, Any]:
    """What the extension adds to the editor."""
    told: dict[str, Any] = json.loads((VSCODE / "package.json").read_text("ascii"))["contributes"]
    return told


class Extension(unittest.TestCase):
    def test_its_files_are_there(self) -> None:
        for entry in contributed()["languages"]:
            self.assertTrue("configuration" not in entry or (VSCODE / entry["configuration"]).is_file())
        for entry in contributed()["grammars"]:
            told = json.loads((VSCODE / entry["path"]).read_text("ascii"))
            self.assertEqual(told["scopeName"], entry["scopeName"])
        for entry in contributed()["snippets"]:
            self.assertTrue((VSCODE / entry["path"]).is_file())

    def test_the_task_uses_the_matcher(self) -> None:
        (task,) = json.loads((VSCODE / "tasks.json").read_text("ascii"))["tasks"]
        (matcher,) = contributed()["problemMatchers"]
        self.assertEqual(task["problemMatcher"], f"${matcher['name']}")

    def test_the_task_runs_the_program_of_the_folder_or_of_the_path(self) -> None:
        (task,) = json.loads((VSCODE / "tasks.json").read_text("ascii"))["tasks"]
        with tempfile.TemporaryDirectory() as folder:
            for name, said in (("bin/cardhouse", "of the path"), ("cardhouse", "of the folder")):
                program = Path(folder, name)
                program.parent.mkdir(exist_ok=True)
                program.write_text(f'#!/bin/sh\n[ "$1" != lint ] || echo "{said}: $*"\n')
                program.chmod(0o755)
                names = {**os.environ, "PATH": f"{folder}/bin:{os.environ['PATH']}"}
                ran = run(["sh", "-c", task["command"].replace("${file}", "a b")], seconds=60, text=True, cwd=folder, env=names)
                self.assertEqual((ran.returncode, ran.stdout), (0, f"{said}: lint a b\n"))

    def test_the_matcher_finds_places(self) -> None:
        pattern = contributed()["problemMatchers"][0]["pattern"]
        for line, groups in (
            ("/a b/c.sheet:31:5: No such list: 7:7: here.", ("/a b/c.sheet", "31", "5", "No such list: 7:7: here.")),
            ("sheet Shape 26", None),
            ("    (if (= 1 2)", None),
        ):
            found = re.search(pattern["regexp"], line)
            told = [pattern[it] for it in ("file", "line", "column", "message")]
            self.assertEqual(found and tuple(found[it] for it in told), groups)


class Rules(unittest.TestCase):
    """How VS Code indents the line behind a line. That a list is open is counted here, and not matched."""

    def setUp(self) -> None:
        told = json.loads((VSCODE / "language-configuration.json").read_text("ascii"))
        self.increase = re.compile(told["indentationRules"]["increaseIndentPattern"])
        (rule,) = told["onEnterRules"]
        self.outdent = re.compile(rule["beforeText"])
        self.lines = [line for file in SHEETS for line in file.read_text("ascii").splitlines()]

    def test_a_line_that_leaves_a_list_open_is_followed_by_what_is_in_it(self) -> None:
        for line in [*self.lines, "(do ; (", "(do) ; (", "; (do", "(a (b (c (d (e)))))", ")) (do"]:
            with self.subTest(line):
                self.assertEqual(bool(self.increase.search(line)), left(line)[1] > 0)

    def test_a_line_that_ends_lists_is_followed_by_what_is_outside(self) -> None:
        for line in [*self.lines, "(do))", "(do) ; )", "))", ""]:
            closed, opened = left(line)
            with self.subTest(line):
                self.assertEqual(bool(self.outdent.search(line)), closed > 0 and opened == 0)


def left(line: str) -> tuple[int, int]:
    """How many lists that began before a line end in it, and how many that begin in it are open behind it."""
    closed = opened = 0
    for character in line.partition(";")[0]:
        if character == "(":
            opened += 1
        elif character == ")" and opened:
            opened -= 1
        elif character == ")":
            closed += 1
    return closed, opened


class Snippets(unittest.TestCase):
    # What each snippet is.
    PLACES = {"game": "SHEET", "deal": "ITEM", "stage": "ITEM", "play": "ALT", "points": "LINE", "plan": "PLAN"}

    def setUp(self) -> None:
        files = [json.loads((VSCODE / entry["path"]).read_text("ascii")) for entry in contributed()["snippets"]]
        self.texts = {entry["prefix"]: filled(entry["body"]) for file in files for entry in file.values()}

    def test_each_is_a_list_of_its_place(self) -> None:
        self.assertEqual(self.texts.keys(), self.PLACES.keys())
        for prefix, place in self.PLACES.items():
            (written,) = read_lists(self.texts[prefix].encode())
            with self.subTest(prefix):
                self.assertEqual([it.at for it in placed(written, place).within() if it.is_list and not it.form], [])

    def test_nothing_is_told_of_the_game(self) -> None:
        self.assertEqual(findings(read_sheet(self.texts["game"].encode())), [])

    def test_the_game_is_played_by_the_plan(self) -> None:
        skip_unless_built()
        source = self.texts["game"] + self.texts["plan"].replace("(from 1 1 10)", "(from 1 1 2)")
        ran = run([PROGRAM, "play"], source, seconds=600, text=True)
        self.assertEqual((ran.returncode, ran.stdout.count("\nend done ")), (0, 2))


def filled(body: list[str]) -> str:
    """A snippet with what stands at first where it is to be filled in."""
    return re.sub(r"\$\d", "", re.sub(r"\$\{\d:([^{}]*)\}", r"\1", "\n".join(body)))


if __name__ == "__main__":
    unittest.main()
