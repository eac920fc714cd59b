"""A bounded list of keys, of which the one that wasn't asked for longest leaves first.

The program remembers what came of playouts in such a list. How many looks find their key there is worked out here from the order of
the looks alone.
"""

from collections.abc import Hashable, Iterable

Key = tuple[Hashable, ...]


def hits(looks: Iterable[Hashable], capacity: int) -> int:
    """How many of these looks, in order, find their key in a list that is empty at first and has room for so many. Whether it is
    found or not, a key then stands in front, once; where that makes the list too long, its last key goes."""
    keys: list[Hashable] = []
    found = 0
    for key in looks:
        if key in keys:
            keys.remove(key)
            found += 1
        keys.insert(0, key)
        del keys[capacity:]
    return found
