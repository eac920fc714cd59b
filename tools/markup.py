"""What is wrong with the markup of a page, as far as that is told without a browser."""

from __future__ import annotations

import html.parser
import re

VOID = {"meta", "input", "br", "img", "link", "hr"}


class Nesting(html.parser.HTMLParser):
    """Asks that each element is closed in its place, and that ids are different."""

    def __init__(self) -> None:
        super().__init__()
        self.open: list[str] = []
        self.faults: list[str] = []
        self.ids: set[str | None] = set()

    def handle_starttag(self, tag: str, attributes: list[tuple[str, str | None]]) -> None:
        identity = dict(attributes).get("id")
        if identity in self.ids:
            self.faults.append(f"id {identity} stands twice")
        self.ids |= {identity} - {None}
        if tag not in VOID:
            self.open.append(tag)

    def handle_startendtag(self, tag: str, attributes: list[tuple[str, str | None]]) -> None:
        pass

    def handle_endtag(self, tag: str) -> None:
        if not self.open or self.open.pop() != tag:
            self.faults.append(f"</{tag}> closes nothing")


def faults_of(page: str) -> list[str]:
    """What is wrong with a page: elements that aren't closed, and what would be loaded."""
    reader = Nesting()
    reader.feed(page)
    loads = re.findall(r"""(?:src|href)=["'](?!#)[^"']*|url\(|@import|\bfetch\(|XMLHttpRequest""", page)
    return reader.faults + reader.open + [it for it in loads if not re.fullmatch(r"href=.[\w.-]+\.html", it)]
