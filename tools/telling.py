"""What is told of names and texts that strangers wrote."""


def printable(text: str) -> str:
    """A text as one line that a terminal only shows: what isn't printable in it, as a line feed or ESC, stands there by its bytes."""
    return "".join(it if it.isprintable() else escaped(it) for it in text)


def escaped(character: str) -> str:
    """The bytes of a character. A byte of a file's name that is no UTF-8 is a character of its own."""
    is_byte = "\udc80" <= character <= "\udcff"
    return "".join(f"\\x{byte:02x}" for byte in character.encode("utf-8", "surrogateescape" if is_byte else "surrogatepass"))
