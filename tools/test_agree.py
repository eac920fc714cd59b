"""Tests of bench/agree: of the cases that it makes, and that it sees where runs disagree."""

import re
import tempfile
import unittest
from dataclasses import dataclass, field, replace
from pathlib import Path

from agreeing.cases import Case, case_of, chance_of, likeness, with_a_slip
from agreeing.chance import Chance
from agreeing.comparing import Comparing, Kind, Played, Result, first_difference, others_of, rolls_out
from agreeing.decks import Group, cards_of, deck_of
from agreeing.forms import in_lines, plain, strewn
from agreeing.others import on_log, on_measures, rival_words, stops_in, watch_words
from agreeing.program import PROGRAM, End, Program
from agreeing.reading import reading_of, search_of
from agreeing.running import Tally, keep
from agreeing.transcripts import OTHERS, OUTSIDE, count, looks_of, mangled, spoiled, spoiled_legend, spoiled_marks, unnamed
from built import Built
from faults.tokens import end_of, gap_end, tokens
from second.commands import command_of
from second.running import ended

CASES = 60
DEEPEST, LONGEST = 64, 64
ROOT = Path(__file__).resolve().parent.parent
FIRST = ROOT / "examples/first.sheet"

# The third match is the first once more.
SEATS = b"(plan (seats (rollout 2 1) (script 1)) (matches (0 7) (0 7) (0 7)) (turns 100))\n"

SHEET = b"(game ..)\n"
PLAN = b"(plan (seats (rollout 2 1) ; (random 3)\n(script 1)) (matches (from 5 7 2)) (turns 9))\n"
TEXT = b"""\
house 1
match 0 deal 5 seats 7
choose 0 0 0 2
choose 1 0 1 256
end done 4
score 0 -3 2
score 1 -5 0
match 1 deal 6 seats 8
choose 0 0 0 1
choose 0 0 0 1
choose 1 0 0 1
shuffles 3
end limit 8
score 0 1 0
score 1 4 2
standing 1 strategy 0 points 4
standing 2 strategy 1 points 0
"""

# The same in format 2.
NAMED = b"house 2\nface 0 RANK 1\nface 2 RANK 2\n" + TEXT.removeprefix(b"house 1\n")
for line, marks in ((b"0 0 0 2", b" p1 c0"), (b"0 0 0 1", b" g2"), (b"1 0 0 1", b" c2")):
    NAMED = NAMED.replace(b"choose " + line, b"choose " + line + marks)

# The commands that read a plan.
READERS = ("play",), ("check",), ("migrate",), ("watch", "0", "0"), ("measure",), ("rival", "0", "1", "1", "0")

Ends = dict[tuple[str, ...], End]


@dataclass
class Told:
    """A program that ends as it is told, by its words. Without that it ends as the second reading does."""

    ends: Ends = field(default_factory=dict)

    def run(self, words: tuple[str, ...], source: bytes, _: int = 0) -> End:
        if words in self.ends:
            return self.ends[words]
        command = command_of(list(words))
        assert command
        end = ended(command, source)
        return End(end.status, end.text.encode(), end.note.encode())


class Forms(unittest.TestCase):
    form = ("a", ("b", 7, ()), "007", (-3, 0))

    def test_texts(self) -> None:
        self.assertEqual(plain(self.form), "(a (b 7 ()) 007 (-3 0))")
        self.assertEqual(in_lines(self.form), "(a\n(b 7 ())007\n(-3 0))")

    def test_strewn_texts_say_the_same(self) -> None:
        for seed in range(200):
            text = strewn(self.form, Chance(seed)).encode("latin-1")
            said = [token.text for token in tokens(text)]
            numbers = [said.pop(index) for index in (11, 10, 4)]
            self.assertEqual(said, ["(", "a", "(", "b", "(", ")", ")", "007", "(", ")", ")"])
            self.assertEqual([int(it) for it in numbers], [0, -3, 7])

    def test_a_plan_has_no_signs(self) -> None:
        self.assertNotIn("-", "".join(strewn((0, 0), Chance(seed), signs=False) for seed in range(200)))


class Decks(unittest.TestCase):
    def test_cards(self) -> None:
        inner = (Group("S", (("x", ()), ("y", ()))),)
        groups = (Group("A", (("1", ()), ("2", inner))), Group("B", (("1", ()), ("2", ()))))
        self.assertEqual(cards_of(groups), 6)
        self.assertEqual(groups[0].form(), ("A", ("1", ("2", ("S", ("x", "y"))))))

    def test_no_card_has_an_attribute_twice(self) -> None:
        def faces(groups: tuple[Group, ...]) -> list[list[str]]:
            if not groups:
                return [[]]
            first = [[groups[0].attribute, *face] for _, inner in groups[0].branches for face in faces(inner)]
            return [one + other for one in first for other in faces(groups[1:])]

        for seed in range(100):
            for face in faces(deck_of(Chance(seed), 40)):
                self.assertEqual(len(face), len({*face}))


class Cases(unittest.TestCase):
    def test_a_case_hangs_on_its_seed_and_number(self) -> None:
        self.assertEqual(case_of(3, 4), case_of(3, 4))
        self.assertEqual(len({case_of(seed, number).source() for seed in range(3) for number in range(10)}), 30)

    def test_a_text_is_one_list_of_allowed_bytes(self) -> None:
        for number in range(CASES):
            case = case_of(1, number)
            for text in (case.sheet, case.plan):
                self.assertTrue(text.endswith(b"\n"))
                self.assertFalse(re.search(rb"[^\t\n\r -~]", re.sub(rb";[^\n]*", b"", text)))

    def test_most_texts_are_one_list(self) -> None:
        cases = [case_of(1, number) for number in range(CASES)]
        lists = sum(gap_end(text, end_of(text, 1)) == len(text) for case in cases for text in (case.sheet, case.plan))
        self.assertGreater(lists, 2 * CASES * 0.9)

    def test_slips(self) -> None:
        slips = {with_a_slip(b"(a (b))", Chance(seed)) for seed in range(600)}
        self.assertLessEqual({b"( a a  (b))", b"(a (  ))", b"(a ( b b ))", b"(a ( a ))", b"( b  (b))"}, slips)
        self.assertEqual([likeness(it) for it in ("'", "07", "RANK", "=", "deck", ")")], ["'", "number", "name", "name", "word", "("])

    def test_lists_and_atoms_stay_within_bounds(self) -> None:
        for number in range(CASES):
            depth = 0
            for token in tokens(case_of(1, number).source()):
                depth += {"(": 1, ")": -1}.get(token.text, 0)
                self.assertTrue(depth <= DEEPEST and len(token.text) <= LONGEST)

    def test_cards_are_peeked_at_and_known(self) -> None:
        words = [{token.text for token in tokens(case_of(1, number).sheet)} for number in range(CASES)]
        self.assertGreater(sum({"peek", "known"} <= its for its in words), CASES / 2)

    def test_there_is_a_strategy_for_each_player(self) -> None:
        agreeing = 0
        for number in range(CASES):
            case = case_of(1, number)
            said = [token.text for token in tokens(case.sheet)]
            players = [said[at + 1] for at, text in enumerate(said) if text == "players" and said[at - 1] == "create"]
            agreeing += [int(it) for it in players if it.isdigit()] == [len(rolls_out(case))]
        self.assertGreater(agreeing, CASES * 0.9)


class Transcripts(unittest.TestCase):
    def test_looks(self) -> None:
        self.assertEqual(looks_of(TEXT, [True, False]), 2)
        self.assertEqual(looks_of(TEXT, [False, True]), 3)
        self.assertEqual((count(TEXT, b"choose"), count(TEXT, b"match"), count(TEXT, b"shuffles")), (5, 2, 1))

    def test_spoiled_lines(self) -> None:
        found = {}
        for seed in range(300):
            if told := spoiled(TEXT, Chance(seed)):
                line = first_difference(told[0], TEXT)
                found[told[1].decode()] = told[0].splitlines()[line - 1].decode()
                self.assertIn(f"illegal {line} ", told[1].decode())
        self.assertEqual(found["illegal 2 Match\n"], "match 0 deal 5 seats 8")
        self.assertEqual(found["illegal 3 Menu\n"], "choose 0 0 0 3")
        self.assertEqual(found["illegal 3 Item\n"], "choose 0 0 2 2")
        self.assertEqual(found["illegal 5 End\n"], "end done 5")
        self.assertEqual(found["illegal 6 Score\n"], "score 0 -3 3")
        self.assertEqual(found["illegal 12 Shuffle\n"], "shuffles 4")
        self.assertEqual(found["illegal 16 Standing\n"], "standing 1 strategy 0 points 5")
        self.assertNotIn("illegal 4 Item\n", found)

    def test_without_names(self) -> None:
        self.assertEqual(unnamed(NAMED), TEXT)

    def test_spoiled_lines_of_format_2(self) -> None:
        for seed in range(200):
            if told := spoiled(NAMED, Chance(seed)):
                self.assertIn(f" {first_difference(told[0], NAMED)} ", told[1].decode())

    def test_spoiled_marks(self) -> None:
        found: dict[bytes, set[bytes]] = {}
        for seed in range(600):
            if told := spoiled_marks(NAMED, Chance(seed)):
                line = first_difference(told[0], NAMED)
                self.assertIn(told[1], (b"illegal %d Named\n" % line, b"text %d\n" % line))
                found.setdefault(told[1], set()).add(told[0].split(b"\n")[line - 1])
        self.assertLessEqual({b"choose 0 0 0 2 c0 p1", b"choose 0 0 0 2 p1", b"choose 0 0 0 2 c0"}, found[b"illegal 5 Named\n"])
        self.assertTrue(any(line.startswith(b"choose 1 0 1 256 ") for line in found[b"illegal 6 Named\n"]))
        self.assertLessEqual({b"choose 0 0 0 2 p1 c512", b"choose 0 0 0 2 k0 c0"}, found[b"text 5\n"])
        self.assertTrue(any(line.count(b" ") == 9 for line in found[b"text 5\n"]))
        self.assertIsNone(spoiled_marks(b"house 2\nface 0 RANK 1\n", Chance(1)))

    def test_marks_that_differ_are_in_the_grammar_or_outside(self) -> None:
        mark = rb"p[0-7]|[cg](?:\d|[1-9]\d|[1-4]\d\d|50\d|51[01])"
        for seed in range(200):
            for spoil in OTHERS:
                others = spoil([b"p7", b"c511", b"g30"], Chance(seed)) or []
                self.assertTrue(len(others) < 5 and all(re.fullmatch(mark, it) for it in others), others)
            for spoil in OUTSIDE:
                others = spoil([b"p7", b"c511"], Chance(seed)) or []
                self.assertFalse(len(others) < 5 and all(re.fullmatch(mark, it) for it in others), others)

    def test_spoiled_legends(self) -> None:
        found = {told: text for text, told in (spoiled_legend(NAMED, Chance(seed)) for seed in range(100))}
        self.assertEqual({*found}, {b"text 2\n", b"text 3\n", b"text 4\n"})
        for told, text in found.items():
            if not text.startswith(b"house 1"):
                self.assertEqual(told, b"text %d\n" % first_difference(text, NAMED))

    def test_mangled_texts(self) -> None:
        texts = {mangled(NAMED, Chance(seed)) for seed in range(300)}
        self.assertGreater(len(texts), 200)
        self.assertLess(len([text for text in texts if text.startswith(b"house 2\n")]), len(texts))

    def test_the_first_line_that_differs(self) -> None:
        self.assertEqual([first_difference(b"a\nb\n", it) for it in (b"x\nb\n", b"a\nc\n", b"a\n", b"a\nb\nc\n")], [1, 2, 2, 3])


class Runs(unittest.TestCase):
    case = Case(1, 2, FIRST.read_bytes(), SEATS)

    def result(self, ends: Ends, other: Ends | None = None) -> Result:
        return Comparing(Told(ends), None if other is None else Told(other)).result(self.case)  # type: ignore[arg-type]

    def said(self, ends: Ends, other: Ends | None = None) -> list[str]:
        result = self.result(ends, other)
        self.assertIs(result.kind, Kind.ACCEPTED)
        return [text.split(" ended")[0] for text in result.disagreements]

    def end(self, *words: str) -> End:
        return Told().run(words, self.case.source())

    def test_runs_that_agree(self) -> None:
        result = self.result({}, {})
        self.assertEqual(result.disagreements, [])
        self.assertEqual((result.matches, result.choices, result.shuffles, result.looks, result.hits), (3, 12, 0, 6, 2))

    def test_another_text(self) -> None:
        for words in (("play", "--cache", "1"), ("play", "--cache", "65536")):
            end = self.end(*words)
            (said,) = self.result({words: replace(end, text=end.text + b"standing\n")}).disagreements
            self.assertIn(f"play with room for {words[2]} ended", said)
            self.assertIn(f"they differ from line {end.text.count(10) + 1} on", said)

    def test_other_looks_and_hits(self) -> None:
        end = self.end("play")
        said = self.result({("play",): replace(end, note=b"cache looks 7 hits 2\n")}).disagreements
        self.assertIn("play notes b'cache looks 7 hits 2\\n' of 6 decisions of seats that roll out", said)
        (said,) = self.result({("play", "--cache", "1"): replace(end, note=b"cache looks 6 hits 3\n")}).disagreements
        self.assertIn("with more room there are fewer hits, or looks differ", said)
        (said,) = self.result({("play",): replace(end, note=b"cache looks\n")}).disagreements
        self.assertIn("play ended with", said)

    def test_the_judge(self) -> None:
        said = self.said({("check",): End(0, b"legal\n", b"")})
        self.assertTrue(said and all(it.startswith("check of a transcript that is spoiled") for it in said))
        said = self.said({("check",): End(4, b"", b"illegal 3 Menu\n")})
        self.assertEqual(said[:2], ["check of the transcript"] * 2)

    def test_format_2(self) -> None:
        words = ("play", "--format", "2")
        named, what = self.end(*words), "play in format 2, without its names,"
        other = named.text.replace(b"choose 0 0 0 2 c3", b"choose 0 0 0 2 c2")
        self.assertIn("migrate of format 1", self.said({words: replace(named, text=other)}))
        self.assertIn(what, self.said({words: replace(named, text=named.text.replace(b"end done 8", b"end done 9"))}))
        self.assertEqual(self.said({words: End(2, b"", b"usage: ..\n")}), ["play in format 2"])
        (said,) = self.result({words: replace(named, note=b"cache looks 6 hits 1\n")}).disagreements
        self.assertIn("play in format 2 notes", said)

    def test_migrated_texts(self) -> None:
        said = self.said({("migrate",): End(0, self.end("play").text, b"")})
        self.assertEqual(said[:2], ["migrate of format 1", "migrate of format 2"])
        self.assertTrue(all(it.startswith("migrate of a transcript that is spoiled") for it in said[2:]))
        said = self.result({("migrate",): End(0, self.end("play", "--format", "2").text, b"x\n")}).disagreements
        self.assertIn("migrate of format 2 notes b'x\\n'", said)

    def test_logs(self) -> None:
        text = self.end("play").text
        words = watch_words(text, chance_of(1, 2, "watched"))
        log = self.end(*words)
        self.assertEqual(list(on_log(words, log, text)), [])
        for other in (b"log 2", b"seat 7", b"stops 5"):
            end = replace(log, text=re.sub(rb"\b%s \d\b" % other.split()[0], other, log.text))
            self.assertEqual([it.split(" ended")[0] for it in self.result({words: end}).disagreements], [" ".join(words)], other)
        self.assertEqual(len(list(on_log(("watch", "2", "0"), log, text))), 1)
        self.assertEqual(list(on_log(("watch", "2", "0"), End(10, b"", b"absent\n"), text)), [])

    def test_measures(self) -> None:
        text = self.end("play").text
        end = Told().run(("measure",), self.case.source() + text)
        self.assertEqual(list(on_measures(end, text)), [])
        self.assertEqual(len(list(on_measures(replace(end, text=end.text.replace(b"choices 12/", b"choices 11/")), text))), 1)
        self.assertEqual(len(list(on_measures(replace(end, note=b"cache looks 0 hits 0\n"), text))), 1)
        said = self.said({("measure",): end})
        self.assertTrue(said and all(it.startswith("measure of a transcript that is spoiled") for it in said))

    def test_searches(self) -> None:
        words = rival_words(self.end("play").text, chance_of(1, 2, "searched"))
        end = self.end(*words)
        for other in (replace(end, note=b"cache looks 0 hits 0\n"), replace(end, text=end.text[:-1]), End(10, b"", b"absent\n")):
            (said,) = self.result({words: other}).disagreements
            self.assertIn(f"{' '.join(words)} ended with", said)
        self.assertEqual(self.result({words: End(5, b"", b"no memory\n")}).disagreements, [])
        self.assertEqual({len(rival_words(TEXT, Chance(seed))) for seed in range(20)}, {5})
        self.assertEqual({rival_words(TEXT, Chance(seed))[2] for seed in range(100)}, {*"1234"})

    def test_a_search_that_the_second_reading_plays_otherwise(self) -> None:
        words = rival_words(self.end("play").text, chance_of(1, 2, "searched"))
        other = replace(self.end("play"), note=b"")
        self.assertNotEqual(other, self.end(*words))
        comparing = Comparing(Told({words: other}), reads=True)  # type: ignore[arg-type]
        self.assertEqual([it.split(" ended")[0] for it in comparing.result(self.case).disagreements], [" ".join(words)])
        self.assertIsNone(search_of(self.case, ("rival", "0", "4", "100", "5"), 0.02))

    def test_stops_of_matches(self) -> None:
        self.assertEqual((stops_in(TEXT), stops_in(NAMED)), ([2, 3], [2, 3]))
        seen = {watch_words(TEXT, Chance(seed)) for seed in range(200)}
        self.assertEqual(seen, {("watch", seat, match) for seat in "012" for match in "01"})

    def test_words_name_seats_that_a_command_takes(self) -> None:
        eight = b"match 0 deal 0 seats 0\n" + b"standing 1 strategy 0 points 0\n" * 8
        words = [make(eight, Chance(seed)) for seed in range(200) for make in (watch_words, rival_words)]
        self.assertEqual({it[1] for it in words}, set("01234567"))

    def test_a_sheet_that_is_printed_badly(self) -> None:
        self.assertEqual(len(self.said({("sheet",): End(1, b"", b"sheet Shape 0\n")})), 2)

    def test_another_program(self) -> None:
        said = self.said({}, {("play",): End(0, b"house 1\n", b""), ("sheet",): End(0, b"(game)\n", b"")})
        self.assertEqual(said, ["play of the other program", "sheet of the other program"])
        words = ("play", "--format", "2")
        self.assertEqual(self.said({}, {words: End(0, b"house 2\n", b"")}), ["play of the other program in format 2"])
        self.assertEqual(self.said({}, {words: End(2, b"", b"usage: cardhouse play, check, sheet or bench\n")}), [])
        refused = End(1, b"", b"sheet Unseen 7\n")
        ends = dict.fromkeys(READERS, refused)
        self.assertEqual(len(self.result(ends, {}).disagreements), 1)

    def test_refusals(self) -> None:
        def result(end: End) -> tuple[Kind, str, int]:
            got = self.result(dict.fromkeys(READERS, end), {("play",): end})
            return got.kind, got.why, len(got.disagreements)

        self.assertEqual(result(End(1, b"", b"sheet Unseen 7\n")), (Kind.REFUSED, "Unseen", 0))
        self.assertEqual(result(End(3, b"", b"plan Turns 9\n")), (Kind.REFUSED, "Turns", 0))
        self.assertEqual(result(End(1, b"x", b"sheet Unseen 7\n")), (Kind.REFUSED, "Unseen", 1))
        self.assertEqual(result(End(1, b"", b"sheet Unseen 7\nsheet Unseen 7\n")), (Kind.REFUSED, "", 1))
        self.assertEqual(result(End(-11, b"", b"")), (Kind.REFUSED, "", 1))
        self.assertEqual(result(End(1, b"", b"sheet Unseen 9999\n")), (Kind.REFUSED, "Unseen", 1))
        self.assertEqual(len(self.result({("play",): End(3, b"", b"plan Turns 9\n")}).disagreements), 5)
        self.assertEqual(len(self.result({("play",): End(3, b"", b"plan Rest 9\n")}).disagreements), 2)
        self.assertEqual(result(End(5, b"", b"no memory\n")), (Kind.DROPPED, "", 0))

    def test_what_is_told_and_kept(self) -> None:
        result = self.result({("check",): End(0, b"legal\n", b"")})
        tally = Tally()
        tally.add(result)
        self.assertIn("1 cases: 1 accepted, 0 refused, 0 dropped; 0 without a choice", str(tally))
        self.assertIn("1 cases in which runs disagree", str(tally))
        with tempfile.TemporaryDirectory() as folder:
            keep(Path(folder) / "kept", self.case, result)
            kept = {file.name: file.read_bytes() for file in (Path(folder) / "kept").iterdir()}
        self.assertEqual(sorted(kept), ["1-2.plan", "1-2.said", "1-2.sheet"])
        self.assertEqual((kept["1-2.sheet"], kept["1-2.plan"]), (self.case.sheet, self.case.plan))


class Read(unittest.TestCase):
    """The second reading beside what the program wrote of an example, in which two matches are alike."""

    case = Case(1, 2, (ROOT / "examples/first.sheet").read_bytes(), (ROOT / "examples/first.plan").read_bytes())
    text = (ROOT / "examples/first.transcript").read_bytes()
    printed = (ROOT / "examples/first.printed").read_bytes()

    def said(self, text: bytes, printed: bytes, hits: int, named: bytes | None = None) -> list[str]:
        program = Told({("sheet",): End(0, printed, b"")})
        right = program.run(("play", "--format", "2"), self.case.source())
        played = Played(self.case, End(0, text, b""), 0, hits, right if named is None else replace(right, text=named))
        texts = [text, played.named.text]
        reading = reading_of(self.case, texts, others_of(played), 60)
        assert reading
        comparing = Comparing(program, reads=True)  # type: ignore[arg-type]
        return list(comparing.of_reading(played, {1024: hits}, reading, texts))

    def test_an_example(self) -> None:
        self.assertEqual(self.said(self.text, self.printed, 0), [])

    def test_texts_that_are_refused(self) -> None:
        def said(note: bytes, status: int, plan: bytes) -> int:
            end = End(status, b"", note)
            ends = dict.fromkeys(READERS, end)
            comparing = Comparing(Told(ends), reads=True)  # type: ignore[arg-type]
            players = b"9" if status == 1 else b"2"
            result = comparing.result(Case(1, 2, self.case.sheet.replace(b"players 2", b"players " + players), plan))
            self.assertIs(result.kind, Kind.REFUSED)
            return len(result.disagreements)

        at = self.case.sheet.index(b"players 2") + 8
        self.assertEqual(said(b"sheet Number %d\n" % at, 1, SEATS), 0)
        self.assertEqual(said(b"sheet Shape %d\n" % at, 1, SEATS), 1)
        length = len(self.case.sheet)
        self.assertEqual(said(b"plan Seats %d\n" % (length + 6), 3, SEATS.replace(b"(script 1)", b"")), 0)
        self.assertEqual(said(b"plan Turns %d\n" % (length + 6), 3, SEATS.replace(b"(script 1)", b"")), 1)
        self.assertEqual(said(b"plan Shape %d\n" % length, 3, b"(plan (seats))"), 0)

    def test_what_differs(self) -> None:
        other = self.text.replace(b"end done 8", b"end done 9")
        self.assertEqual(len(self.said(other, self.printed, 0)), 1)
        self.assertEqual(len(self.said(self.text, self.printed[1:], 0)), 1)
        self.assertEqual(len(self.said(self.text, self.printed, 1)), 1)
        self.assertEqual(len(self.said(self.text, self.printed, 0, b"house 2\n")), 1)

    def test_what_is_migrated(self) -> None:
        program = Told({("migrate",): End(0, self.text, b""), ("check",): End(4, b"", b"text 1\n")})
        named = Told().run(("play", "--format", "2"), self.case.source())
        played = Played(self.case, End(0, self.text, b""), 0, 0, named)
        reading = reading_of(self.case, [self.text], others_of(played), 60)
        assert reading
        said = list(Comparing(program, reads=True).of_reading(played, {1024: 0}, reading, [self.text]))  # type: ignore[arg-type]
        self.assertEqual([it.split(" ended")[0] for it in said], ["migrate", "check"])

    def test_what_takes_too_long(self) -> None:
        plan = b"(plan (seats (rollout 1000 1) (rollout 1000 1)) (matches (from 1 1 4096)) (turns 9))"
        self.assertIsNone(reading_of(Case(1, 2, self.case.sheet, plan), [], [], 0.2))


class OfProgram(Built):
    def test_most_cases_are_accepted_and_none_disagrees(self) -> None:
        tally = Tally()
        comparing = Comparing(Program(PROGRAM), reads=True)
        for number in range(12):
            result = comparing.result(case_of(1, number))
            self.assertEqual(result.disagreements, [], f"case {number}")
            tally.add(result)
        self.assertGreater(tally.kinds["accepted"], 6, str(tally))


if __name__ == "__main__":
    unittest.main()
