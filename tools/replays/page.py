"""The page of a match: one file that holds its styles, its script and what it tells."""

from __future__ import annotations

import json
from base64 import b64encode
from hashlib import sha256
from html import escape
from pathlib import Path
from typing import Any

WEB = Path(__file__).resolve().parent.parent / "web"

STYLES = ["base.css", "show.css"]

# The parts of the script, which share their names, in order.
SCRIPTS = [f"{it}.js" for it in ("state", "words", "moves", "cards", "places", "table", "beside", "scores", "page", "check")]

ICONS = {
    "first": ("First decision", "M3 3h2.500v14H3zM17 3v14L6.500 10z"),
    "back": ("Decision before", "M14.500 3v14L5 10z"),
    "next": ("Next decision", "M5.500 3v14l9.500-7z"),
    "last": ("The end", "M3 3v14l10.500-7zM14.500 3H17v14h-2.500z"),
}

FRAME = """<!doctype html>
<html lang="en">
<head>
<meta charset="utf-8">
<meta name="viewport" content="width=device-width, initial-scale=1, viewport-fit=cover">
<meta http-equiv="Content-Security-Policy" content="{policy}">
<title>{title}</title>
<style>
{style}</style>
</head>
<body>
{body}
<script type="application/json" id="data">{data}</script>
<script>{script}</script>
</body>
</html>
"""

BODY = """<header class="top">
<div class="title"><h1>{title}</h1><p class="soft">{told}</p></div>
<fieldset class="views"><legend>See as</legend>{views}</fieldset>
<label class="check"><input type="checkbox" id="sort" checked> Sort hands</label>
</header>
<main>
<div class="stage">
<div id="table" role="region" aria-label="The table"></div>
<p class="key"><span><i></i> just came</span><span><i class="pick"></i> is taken now</span>
<span>keys: ← → Home End, space plays, 0 to 7 and e see as</span></p>
</div>
<aside>
<section class="box" id="now" aria-live="polite" aria-label="The decision"></section>
<section class="box" id="since" aria-label="Since the decision before">
<h2>Since the decision before</h2><ul class="moves" id="moves"></ul>
</section>
<section class="box" id="scores" aria-label="Scores"></section>
<section class="box" id="decisions" aria-label="All decisions"><h2>All decisions</h2><ol id="list"></ol></section>
</aside>
</main>
<nav class="transport" aria-label="Replay">
{first}{back}<button type="button" class="play" id="play" aria-label="Play"></button>{next}{last}
<input type="range" id="range" min="0" value="0" step="1" aria-label="Decision">
<output id="place"></output>
<select id="speed" aria-label="Speed">
<option value="0.5">slow</option><option value="1" selected>normal</option><option value="3">fast</option>
</select>
</nav>
<noscript><p>This page needs JavaScript to move through the match. Nothing is loaded from anywhere.</p></noscript>
"""


def framed(title: str, styles: list[str], body: str, data: object, scripts: list[str]) -> str:
    """A whole page. What it tells can't close the element in which it stands, and no script runs but its own."""
    told = json.dumps(data, separators=(",", ":"), ensure_ascii=False).replace("<", "\\u003c")
    code = "\n" + joined(scripts)
    digest = b64encode(sha256(code.encode()).digest()).decode()
    policy = f"default-src 'none'; style-src 'unsafe-inline'; script-src 'sha256-{digest}'"
    return FRAME.format(title=escape(title), policy=policy, style=joined(styles), body=body, data=told, script=code)


def joined(files: list[str]) -> str:
    return "\n".join((WEB / it).read_text("utf-8") for it in files)


def replay_page(data: dict[str, Any]) -> str:
    title, number = str(data["title"]), data["number"]
    seeds = f"deal {data['deal']} · seats {data['seats']}" if "deal" in data else f"as player {data['views'][0]} sees it"
    told = f"match {number} · {seeds}"
    buttons = {name: button(name, *it) for name, it in ICONS.items()}
    body = BODY.format(title=escape(title), told=told, views=views_of(data), **buttons)
    return framed(f"{title}, match {number}", STYLES, body, data, SCRIPTS)


def views_of(data: dict[str, Any]) -> str:
    """The choice of who looks on: everybody, where all seats are told, or one of them."""
    views, players = data["views"], data["players"]
    told = [("all", "everybody", "everybody")] if len(views) == players else []
    long = '<span class="long">player </span>' if players < 4 else ""
    told += [(str(seat), f"player {seat}", f"{long}{seat}") for seat in views]
    return "".join(
        f'<label><input type="radio" name="as" value="{value}" aria-label="{name}"><span class="name">{text}</span></label>'
        for value, name, text in told
    )


def button(name: str, label: str, path: str) -> str:
    return (
        f'<button type="button" id="{name}" aria-label="{label}" title="{label}">'
        f'<svg viewBox="0 0 20 20" aria-hidden="true"><path d="{path}"/></svg></button>'
    )
