"""A sentence on each kind of fault, with what would mend it."""

from __future__ import annotations

from faults.causes import cause_of
from faults.parts import Part

# Faults of a text or of a sheet.
SHEET = {
    "BadByte": (
        "This byte may stand in comments only, where a `;` goes before it; outside of them write the letters, digits and "
        "signs of a plain English keyboard."
    ),
    "Stray": (
        "Nothing stands between the lists of a source but white space and comments: take this out, or look for a `)` too "
        "many before it."
    ),
    "TooDeep": "64 lists are open around this one, and more can't be: nest less deeply.",
    "AtomLong": "A word has 64 characters at most: take a shorter one.",
    "Unclosed": "This list is still open where the source ends: a `)` is missing, here or further on.",
    "Shape": (
        "This isn't written as its place asks: look at its first word, at the number of its parts, and at whether a list, "
        "a word or a 'name is to stand here."
    ),
    "Number": (
        "A whole number in the range of its place is to stand here, of at most eighteen digits: 1 to 8 players, a team's "
        "members from 0 to 7, and else -1000000000 to 1000000000."
    ),
    "Twice": "This stands before already and may stand once: take one of the two out, or give it another name.",
    "Unknown": "Nothing is known by this here: mend the name, make what it names, or put this where it belongs.",
    "WrongKind": "This is of another kind than its place takes: put something of the right kind here, or another name.",
    "TooMany": "With this a limit of sheets is passed: make do with fewer.",
    "NoCards": (
        "No line of the setup makes a deck: add one, such as `(create deck (game hloc STOCK) (deck (RANK (1 2 3))))`."
    ),
    "Unseen": (
        "What a choice offers may not depend on cards that its player doesn't see: read a `vloc`, a `mem`, or an `iloc` of "
        "`(current player)` or `(team of (current player))`; only how many cards lie there may always be asked, by `(size "
        "LOC)`, and what he was shown of them, by `(known LOC)`."
    ),
}

PLAN = {
    "Shape": (
        "This isn't written as its place in a plan asks: look at its first word, at the number of its parts, and at "
        "whether a list or a number is to stand here."
    ),
    "Number": (
        "A number of a plan has one to eighteen digits and no sign; a number of a script goes up to 65535, and the rounds "
        "of a rollout go from 1 to 1000."
    ),
    "Seats": "There are to be as many strategies as the sheet has players: add some here, or take some out.",
    "Matches": (
        "A `from` counts 1 to 4096 matches, and neither DEAL nor SEATS beyond 999999999999999999: take a smaller COUNT, or "
        "smaller seeds."
    ),
    "Turns": "The turn limit of a match is 1 to 100000: take a number in this range.",
    "TooLarge": (
        "There are more than 4096 matches, or more than 262144 turns in all, which is the number of matches times the turn "
        "limit: ask for fewer of either."
    ),
    "Rest": "Nothing stands behind the plan but white space and comments: take out what begins here.",
}

# A line of a transcript that no text has at that place. Of some more exact sentences are known.
GRAMMAR = (
    "No transcript has this line here: its words, numbers and single blanks are to be just as `play` writes them, and "
    "every line ends with a line feed."
)
FIRST_LINE = "A transcript begins with the line `house 1`, or with `house 2` where it tells which cards were taken, and nothing beside it."
MARKS_IN_PLAIN = "Marks of what an item takes belong to format 2: its first line is `house 2`, and the legend stands behind it."
FACE_IN_PLAIN = "A legend belongs to format 2, whose first line is `house 2`."
MARKS = (
    "Behind the size stand at most four marks of what the item takes, each after one blank: `p` with a player, 0 to 7; `c` for a "
    "card or `g` for a group of cards, with the number of a face, 0 to 511, without a zero before it."
)
LEGEND = "Behind `house 2` the legend tells the face of each card once, in the order of the deck: here belongs `{}`."
FACE_TOO_MANY = "The legend stands behind `house 2` alone, and has a line for each face of the sheet, which are {} in all."

ILLEGAL = {
    "Match": (
        "The matches are to be those of the plan, in order, with the number, the DEAL and the SEATS that it gives each."
    ),
    "Shuffle": "The line `shuffles` is to tell how often this match shuffled, and is to be missing where it never did.",
    "Seat": "Another seat, or another choice of the sheet, is to decide here.",
    "Menu": "Another number of items is offered here: the last number of the line is to be the size of the menu.",
    "Item": "There is no such item in the menu: items are counted from 0, so the item has to be below the size.",
    "Named": (
        "The marks are to tell what this item takes, from the outermost variable on: `p` with a player; `c` with the face of a card; "
        "`g` with the face of the first card of a group."
    ),
    "End": (
        "The match stands elsewhere here: a decision is to come before this line, or none may come, or the word or the "
        "turn count of the line `end` is another."
    ),
    "Score": (
        "The scores are to be one line for each player in order, with the score that the sheet counts and the rank points."
    ),
    "Standing": (
        "The standings are to be one line for each strategy, with the most points first, as the scores above add up."
    ),
}

# Lines that point nowhere.
WHOLE = {
    "too long": (
        "The source is too long: `play`, `sheet`, `watch` and `rival` take 1048576 bytes at most, and `check`, `migrate` and "
        "`measure` take 33554432; take out comments, or list fewer matches."
    ),
    "no memory": (
        "There was not enough memory, and nothing was written: end other programs, or play fewer matches at a time."
    ),
    "read fault": "Standard input couldn't be read: hand over a file or the output of another program.",
    "write fault": (
        "Not all could be written: look whether the disk is full, or whether the program that reads the output ended."
    ),
    "usage": (
        "These words are no command: write `play`, `check`, `sheet`, `migrate` or `measure`, `bench N` with N from 1 to 1000, "
        "`watch SEAT MATCH` with numbers from 0 on, up to 7 and 4095, or `rival K DEPTH ROUNDS KEY` with K from 0 to 7, DEPTH from "
        "1 to 4, ROUNDS from 1 to 100 and a KEY of up to 18 digits; `play` and `bench` take `--workers N` (1 to 64) and "
        "`--cache N` (1 to 65536) behind that, and `play` takes `--format N` (1 or 2). The other commands are `lint`, `fmt`, "
        "`table`, `show`, `report` and `series`, and in a checkout `build` and `release`: `./cardhouse --help` tells of all."
    ),
}

ATTRIBUTES = "There are more than 256 different attributes: make do with fewer."
VALUES = "There are more than 256 different values: make do with fewer."
BOUND = "The variable that is bound here is bound around it already: take another name."
FOUR_BOUND = "Four variables are bound around this place, and more can't be: bind one less."

# More exact sentences, for kinds that come in many places: how the list that stands there is written or the one that the part
# is in, what belongs there, or how the part begins decides.
EXACT = {
    ("Shape", "(setup LINE+)"): (
        "The setup stands once, right behind `game`, and one of its lines begins with `create players`: add what is "
        "missing."
    ),
    ("Number", "in (create players N)"): "How many players there are is a number from 1 to 8.",
    ("Number", "in (N+)"): "A player in a team is a number from 0 to 7.",
    ("Number", "SIDE"): (
        "A word beside `=` or `!=` is a variable or a number from -1000000000 to 1000000000; whether a card has a value is "
        "asked by `(is CARD ATTR VALUE)`."
    ),
    ("Number", "INT"): (
        "An amount is to stand here: a number from -1000000000 to 1000000000, a stored one as `(game sto N)`, or what makes one, as "
        "the sum `(+ INT INT)` or `(size COLL)`."
    ),
    ("Number", "'"): (
        "A variable stands for a player, a card or a group, and is no number: write a number from -1000000000 to 1000000000, "
        "or what makes one, such as `(points 'C using WORTH)`."
    ),
    ("Twice", "GROUP"): (
        "The cards of this group have this attribute already, by a group around it or before it: take another attribute."
    ),
    ("Twice", "N"): "This player is in a team already: write each player once.",
    ("Twice", "(create"): "This line stands in the setup already, and only once: take one of the two out.",
    ("Twice", "(put"): "There is a point map of this name already: take another name, or put all entries into one map.",
    ("Twice", "(any"): BOUND,
    ("Twice", "(all"): BOUND,
    ("Twice", "(filter"): BOUND,
    ("Unknown", "ATTR"): "No deck and no points have this attribute: mend its name, or give it to the cards in the setup.",
    ("Unknown", "VALUE"): "No deck and no points have this value: mend its name, or give it to the cards in the setup.",
    ("Unknown", "MAP"): "No point map has this name: mend it, or add `(put points MAP (ENTRY+))` to the setup.",
    ("Unknown", "N"): (
        "There is no player of this number: players are counted from 0, so the last one is the number of players less one."
    ),
    ("Unknown", "'"): (
        "Nothing binds this variable here: bind it by `any`, `all` or `filter` around this place, behind the list that it "
        "goes over, or mend its name; `'SELF` stands in `scoring` alone."
    ),
    ("Unknown", "(current"): (
        "There is no current one here: this may stand inside a `(stage player ..)` or `(stage team ..)` of its own kind "
        "alone."
    ),
    ("Unknown", "(known"): "What is known is what the current player of a `(stage player ..)` knows: put it inside one.",
    ("Unknown", "(choice"): "A choice is to stand inside a `(stage player ..)`, whose current player decides.",
    ("Unknown", "(cycle"): (
        "No stage of the owner's kind is around this: put it inside a `(stage player ..)` or a `(stage team ..)`."
    ),
    ("Unknown", "(create"): "The teams leave a player out: write each player from 0 on in one of them.",
    ("TooMany", "(HOLDER KIND NAME)"): (
        "There are more than 256 locations, each counted once for each owner: make do with fewer."
    ),
    ("TooMany", "(HOLDER sto NAME)"): (
        "There are more than 256 stored numbers, each counted once for each owner: make do with fewer."
    ),
    ("TooMany", "GROUP"): ATTRIBUTES,
    ("TooMany", "ENTRY"): ATTRIBUTES,
    ("TooMany", "BRANCH"): VALUES,
    ("TooMany", "VALUE"): VALUES,
    ("TooMany", "(create"): "The decks have more than 512 cards: make fewer.",
    ("TooMany", "(put"): "There are more than 256 point maps: make fewer.",
    ("TooMany", "(stage"): "There are more than 256 stages: make do with fewer.",
    ("TooMany", "(choice"): "There are more than 64 choices: make do with fewer, or join them as alternatives of one.",
    ("TooMany", "(repeat"): "Two repeats stand around this one, and more can't be: take one out.",
    ("TooMany", "(any"): FOUR_BOUND,
    ("TooMany", "(all"): FOUR_BOUND,
    ("TooMany", "(filter"): FOUR_BOUND,
}

# What stands at the end of a source, where a list is missing.
MISSING = {
    "sheet": "No sheet stands here: name one, as in `./cardhouse sheet examples/first.sheet`.",
    "plan": (
        "No plan stands behind the sheet: name both, as in `./cardhouse play examples/first.sheet examples/first.plan`."
    ),
}


def looks(part: Part) -> list[str]:
    """What tells the sentence on a part, from the most exact to the least."""
    around = [f"in {form}" for it in part.around[-1:] for form in it.forms]
    begins = f"({part.head}" if part.word == "(" else part.word[:1]
    # A variable is no amount whatever its name.
    meant = [it for it in part.meant if (it, begins) != ("INT", "'")]
    return [*part.forms, *around, *meant, begins]


def sentence_on(kind: str, part: Part) -> str | None:
    """The sentence on a fault of this kind, if it is known."""
    if kind == "Shape" and not part.word:
        return MISSING[part.what]
    cause = cause_of(kind, part)
    if part.what == "plan":
        return cause or PLAN.get(kind)
    sentences = (EXACT.get((kind, look)) for look in looks(part))
    rule = next((sentence for sentence in sentences if sentence), SHEET.get(kind))
    return f"{cause} {rule}" if cause and kind == "Unseen" else cause or rule
