"""Patterns of decimal numbers in a range, without leading zeros."""


def up_to(most: int, least: int = 0) -> str:
    """A pattern of the numbers from the least, which is 0 or 1, to the most."""
    digits = str(most)
    parts = [digits] if least else ["0", digits]
    if len(digits) > 1:
        parts.append(rf"[1-9]\d{{0,{len(digits) - 2}}}")
    parts += [f"{digits[:at]}{below}" for at in range(len(digits)) if (below := lower(digits, at))]
    return f"(?:{'|'.join(parts)})"


def lower(digits: str, at: int) -> str:
    """A pattern of the digits from a place on, where the one at that place is lower than it stands there; nothing if none is."""
    first, last = (0 if at else 1), int(digits[at]) - 1
    return rf"[{first}-{last}]\d{{{len(digits) - at - 1}}}" if first <= last else ""
