"""Sources of any size, each of one kind: a text that is repeated between two others."""

from dataclasses import dataclass

SETUP = "(game(setup(create players 2)(create deck(game hloc STOCK)(deck(R(1 2 3))))(put points W((R(1) 1))))"
STAGE = f"{SETUP}(stage player(end(= 0 0))"
MAP = "(game(setup(create players 2)(create deck(game hloc STOCK)(deck(R(1))))(put points W("
SHUFFLE = "(do(shuffle(game hloc STOCK)))"
SCORING = "(scoring max 0))"
REVERSE = "(cycle reverse)"
BEHIND = f"){SCORING}"
PLAN = "(plan(seats(script)(script))(matches(0 0))(turns 1))"
SMALL = f"{SETUP}{SHUFFLE}{SCORING}"

# The text of format 2 tells the faces of the deck.
LEGEND = "face 0 R 1\nface 1 R 2\nface 2 R 3\n"
OPENING = "match 0 deal 0 seats 0\n"
CLOSING = "end done 0\nscore 0 0 0\n"


@dataclass(frozen=True)
class Kind:
    """A kind of source: a text, with or without `%x` in the place of the copy's number, that is repeated between two others, and what the
    whole stands between."""

    name: str
    copy: str
    before: str
    behind: str = ""
    lead: str = ""
    trail: str = ""

    def source(self, size: int) -> bytes:
        """One of so many bytes at most, the whole counted."""
        room = size - len(self.lead) - len(self.before) - len(self.behind) - len(self.trail)
        return f"{self.lead}{self.before}{self.copies(room)}{self.behind}{self.trail}".encode()

    def copies(self, room: int) -> str:
        if "%x" not in self.copy:
            return self.copy * (room // len(self.copy))
        return "".join(self.copy % number for number in range(room // len(self.copy % (1 << 16))))

    def between(self, lead: str, trail: str) -> "Kind":
        return Kind(self.name, self.copy, self.before, self.behind, lead, trail)


def nest(front: str, core: str, back: str, depth: int = 50) -> str:
    """As many lists inside one another."""
    return front * depth + core + back * depth


def tree(front: str, leaf: str, depth: int = 5) -> str:
    """A tree of lists of two."""
    return f"({front}{tree(front, leaf, depth - 1)}{tree(front, leaf, depth - 1)})" if depth else leaf


def effect(name: str, copy: str) -> Kind:
    """A kind of effects in one item of a stage."""
    return Kind(name, copy, f"{STAGE}(do", f"){BEHIND}")


def test(name: str, copy: str) -> Kind:
    """A kind of tests of one effect."""
    return Kind(name, copy, f"{STAGE}(do(if(or", f"){REVERSE})){BEHIND}")


def item(name: str, copy: str) -> Kind:
    """A kind of items of a stage."""
    return Kind(name, copy, STAGE, BEHIND)


NO_SHEETS = (
    Kind("empty lists", "()", "(", ")"),
    Kind("atoms", "a ", "(", ")"),
    Kind("lists of an atom", "(a)", "(", ")"),
    Kind("lists of three, nested", nest("(a", "()", "a)"), "(", ")"),
)

SHEETS = (
    Kind("comments", ";\n", "", SMALL),
    Kind("long names", f"(do(set(game sto {'N' * 64})0))", SETUP, SCORING),
    item("items of an effect", f"(do{REVERSE})"),
    item(
        "items as games have them",
        "(do(all player 'P(if(and(is(top('P vloc PILE))R 1)(>(size('P iloc HAND))3))(move(top('P iloc HAND))(top('P vloc PILE)))"
        "(inc('P sto N)(points(top('P vloc PILE))using W)))))",
    ),
    Kind("entries of points", "(R(1)7)", MAP, f"))){SHUFFLE}{SCORING}"),
    Kind("values of an entry", "1 ", f"{MAP}(R(", f")1)))){SHUFFLE}{SCORING}"),
    effect("effects", REVERSE),
    effect("effects of a variable", f"(all player 'V{REVERSE})"),
    effect("effects of a variable each", f"(all player '%x{REVERSE})"),
    effect("conditions, nested", nest("(if(= 0 0)", REVERSE, ")")),
    effect("sums, nested", f"(inc(game sto N){nest('(+ ', '0', ' 0)')})"),
    effect("sums of sums", f"(inc(game sto N){tree('+', ' 0')})"),
    effect("filters, nested", f"(move all{nest('(filter', '(game vloc P)', chr(39) + 'C(= 0 0))')}(top(game vloc P)))"),
    effect("unions, nested", f"(move all{nest('(union(game vloc P)', '(game vloc P)', ')')}(top(game vloc P)))"),
    test("tests", "(= 0 0)"),
    test("tests of cards", "(is(top(game hloc STOCK))R 1)"),
    test("tests of a variable each", "(any player '%x(= 0 0))"),
    test("`or`, nested", nest("(or", "(= 0 0)", ")")),
    test("`and`, nested", nest("(and", "(= 0 0)", ")")),
    test("`not`, nested", nest("(not", "(= 0 0)", ")")),
    Kind("alternatives", f"(do{REVERSE})", f"{STAGE}(choice", f"){BEHIND}"),
    Kind("alternatives of a variable", f"(any player 'P(do{REVERSE}))", f"{STAGE}(choice", f"){BEHIND}"),
    Kind("unions", "(game vloc C)", f"{STAGE}(choice(any(partition(union", f")R)'G(do{REVERSE}))){BEHIND}"),
)

PLANS = (Kind("script of a plan", "0 ", f"{SMALL}(plan(seats(script ", ")(script))(matches(0 0))(turns 1))"),)

TEXTS = (
    Kind("choices", "choose 0 0 0 1\n", f"house 1\n{OPENING}", CLOSING),
    Kind("matches", f"{OPENING}{CLOSING}", "house 1\n"),
    Kind("scores", "score 0 0 0\n", f"house 1\n{OPENING}{CLOSING}"),
    Kind("standings", "standing 1 strategy 0 points 0\n", f"house 1\n{OPENING}{CLOSING}"),
    Kind("choices that bind nothing, in format 2", "choose 0 0 0 1\n", f"house 2\n{LEGEND}{OPENING}", CLOSING),
    Kind("choices that bind four, in format 2", "choose 0 0 0 1 p0 p0 p0 p0\n", f"house 2\n{LEGEND}{OPENING}", CLOSING),
)
