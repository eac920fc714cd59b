"""Has a browser draw pages, each in a frame of its own, and tells what came of it. Nothing is loaded, and no port is opened."""

from __future__ import annotations

import json
import re
import shutil
import subprocess
import tempfile
from collections.abc import Iterator
from concurrent.futures import Future, ThreadPoolExecutor
from contextlib import contextmanager
from dataclasses import dataclass
from html import escape, unescape
from pathlib import Path

NAMES = ("chromium", "chromium-browser", "chromium-headless-shell", "google-chrome")

# Without its sandbox it runs for root too, as gates do: it draws nothing but the pages of tests.
WORDS = ("--headless=new", "--no-sandbox", "--disable-gpu", "--hide-scrollbars", "--enable-logging=stderr")
SECONDS = 600

# How Chromium is told which colours the reader prefers.
SCHEMES = {"light": "--blink-settings=preferredColorScheme=1", "dark": "--blink-settings=preferredColorScheme=0"}

# At how many decisions of each page its own check looks, but at two for each seat's view at least.
MOST = 3

# What a script of a page says goes to the log with this word.
OF_PAGE = "CONSOLE"

FRAMES = """<!doctype html><meta charset="utf-8"><body>{frames}<script>
const placeBehindKeys = (inside) => {{
  for (const key of ["Home", "ArrowRight"]) {{
    inside.document.body.dispatchEvent(new inside.KeyboardEvent("keydown", {{ key, bubbles: true }}));
  }}
  return inside.document.getElementById("place")?.textContent || "";
}};
const look = ({{ contentWindow: inside }}) => {{
  inside.check?.({most});
  const {{ body, documentElement }} = inside.document;
  return {{
    checked: body.dataset.checked || "",
    fault: body.dataset.fault || "",
    text: body.innerText,
    images: body.querySelectorAll("img").length,
    is_dark: inside.matchMedia("(prefers-color-scheme: dark)").matches,
    is_wide: documentElement.scrollWidth > inside.innerWidth,
    place: placeBehindKeys(inside),
  }};
}};
addEventListener("load", () => {{
  document.body.dataset.found = JSON.stringify([...document.querySelectorAll("iframe")].map(look));
}});
</script>"""


def browser() -> str | None:
    """The browser that is installed; None where there is none."""
    return next(filter(None, map(shutil.which, NAMES)), None)


@dataclass(frozen=True)
class Drawn:
    """A page as it was drawn: what its own check says, the fault of its script, its text, how many images it has, whether it was
    drawn in dark colours, whether it is wider than its window, and where it stands once the keys Home and → were pressed."""

    checked: str
    fault: str
    text: str
    images: int
    is_dark: bool
    is_wide: bool
    place: str


def drawn(pages: list[tuple[str, int]], scheme: str) -> tuple[list[Drawn], list[str]]:
    """Draws pages, each in a window of its width, and gives them with the lines that went to the browser's log."""
    frames = "".join(f'<iframe srcdoc="{escape(page)}" width="{width}" height="900"></iframe>' for page, width in pages)
    with tempfile.TemporaryDirectory(ignore_cleanup_errors=True) as folder:
        file = Path(folder, "frames.html")
        file.write_text(FRAMES.format(frames=frames, most=MOST), "utf-8")
        ended = run(folder, SCHEMES[scheme], "--dump-dom", file.as_uri())
    found = re.search(r'<body data-found="([^"]*)"', ended.stdout)
    if not found:
        raise AssertionError(f"the pages weren't drawn: {ended.stderr[-500:]}")
    said = [line for line in ended.stderr.splitlines() if OF_PAGE in line]
    return [Drawn(**it) for it in json.loads(unescape(found[1]))], said


@contextmanager
def drawing(pages: list[tuple[list[tuple[str, int]], str]]) -> Iterator[list[Future[tuple[list[Drawn], list[str]]]]]:
    """Has several lists of pages drawn, each by a browser of its own, while the block goes on."""
    with ThreadPoolExecutor(max(1, len(pages))) as pool:
        yield [pool.submit(drawn, of_scheme, scheme) for of_scheme, scheme in pages]


def picture(page: Path, address: str, out: Path, width: int, height: int) -> None:
    """Draws a page at an address of its own, `#..`, to a PNG."""
    with tempfile.TemporaryDirectory(ignore_cleanup_errors=True) as folder:
        run(folder, SCHEMES["light"], f"--window-size={width},{height}", f"--screenshot={out}", page.as_uri() + address)


def run(folder: str, *words: str) -> subprocess.CompletedProcess[str]:
    name = browser()
    assert name
    command = [name, *WORDS, f"--user-data-dir={folder}/profile", *words]
    return subprocess.run(command, capture_output=True, text=True, timeout=SECONDS)
