"""A source as the program reads it, and the files that it is put together from."""

from dataclasses import dataclass, replace

from faults.places import Place, place_of


@dataclass(frozen=True)
class File:
    """A file that is named, and where its text begins in the source."""

    name: str
    begin: int


@dataclass(frozen=True)
class Source:
    """The bytes that the program reads. Where no files are named, they are one text without a name."""

    text: bytes
    files: tuple[File, ...] = ()

    def bounds(self, at: int) -> tuple[int, int]:
        """Where the text begins and ends in which a byte stands."""
        begins = [0, *(file.begin for file in self.files)]
        begin = max(it for it in begins if it <= at)
        return begin, min((it for it in begins if it > begin), default=len(self.text))

    def name(self, at: int) -> str:
        """The file in which a byte stands."""
        return next((file.name for file in reversed(self.files) if file.begin <= at), "")

    def place(self, at: int) -> Place:
        """The place of a byte, in the lines of its own file."""
        at = min(at, len(self.text))
        begin, end = self.bounds(at)
        return replace(place_of(self.text[begin:end], at - begin), file=self.name(at))
