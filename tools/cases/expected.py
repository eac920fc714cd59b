"""The words by which files of cases say what is expected."""

FORM_KINDS = {"BadByte", "Stray", "TooDeep", "AtomLong", "Unclosed"}
SHAPE_KINDS = {"Shape", "Number"}
MEANING_KINDS = {"NoCards", "Twice", "Unknown", "WrongKind", "TooMany"}
SIGHT_KINDS = {"Unseen"}
KINDS = FORM_KINDS | SHAPE_KINDS | MEANING_KINDS | SIGHT_KINDS
PLAN_KINDS = {"Shape", "Number", "Seats", "Matches", "Turns", "TooLarge", "Rest"}

# What is expected where no fault is, and the kinds of faults that may be found all the same.
LATER_KINDS: dict[str, set[str]] = {
    "no fault of shape": MEANING_KINDS | SIGHT_KINDS,
    "no fault of meaning": SIGHT_KINDS,
    "no fault": set(),
}
NO_FAULT_OF_PLAN = "no fault of plan"

# What `play` and `check` are expected to tell of a source with a plan: a fault of the plan, or one of the sheet that `sheet`
# needn't tell.
PLAN_FAULTS = {f"plan {kind}" for kind in PLAN_KINDS}
PLAY_FAULTS = {f"play {kind}" for kind in KINDS}
TOLD = KINDS | PLAN_FAULTS | PLAY_FAULTS

# The lines of other refusals, with their statuses.
REFUSALS = {"too long": 8, "absent": 10}

# What may be expected of a play but lines.
REFUSED = TOLD | REFUSALS.keys()
