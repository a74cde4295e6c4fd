"""What a page holds beside its answer: how it looks, and the scripts by which one explores it. All stand in the page,
which says their hashes, so that a browser takes nothing else for a style or a script."""
from __future__ import annotations

import os

FOLDER = os.path.join(os.path.dirname(os.path.realpath(__file__)), "script")
SCRIPTS = ("rows", "search", "table", "one", "picture", "start")  # each uses those before it


def part(name: str) -> str:
    """Returns the text of a file that pages hold."""
    with open(os.path.join(FOLDER, name), encoding="utf-8") as file:
        return file.read()


def style() -> str:
    return f"\n{part('page.css')}"


def script() -> str:
    """Returns all scripts as one, which leaves no name to others."""
    return "\n".join(["", '"use strict";', "(function () {", *(part(f"{name}.js") for name in SCRIPTS), "}());", ""])


PAGE = """<!DOCTYPE html>
<html lang="en">
<head>
<meta charset="utf-8">
<meta http-equiv="Content-Security-Policy" content="default-src 'none'; {policy}; base-uri 'none'; form-action 'none'">
<meta name="viewport" content="width=device-width, initial-scale=1">
<meta name="referrer" content="no-referrer">
<title>{title}</title>
<style>{style}</style>
</head>
<body>
<header>
<h1>{title}</h1>
<p class="soft">{about}</p>
<nav aria-label="Parts of this page">
{links}
</nav>
</header>
<main>
{sections}
</main>
{panel}
<footer>
<p class="soft">{made}</p>
</footer>
<script type="application/json" id="data">{data}</script>
<script>{script}</script>
</body>
</html>
"""
PANEL = """<aside id="one" aria-labelledby="onename" hidden>
<h2 id="onename" tabindex="-1"></h2>
<p><span id="oneways"></span> <button type="button" id="oneclose">Close (Esc)</button></p>
<dl id="oneparts"></dl>
</aside>"""
FILTER = """<form id="filter" hidden>
<label>These words <input id="text" type="search" autocomplete="off" aria-describedby="shown"></label>
<label>Answer <select id="answer">{answers}</select></label>
<label>Root <select id="root"><option value="">all</option></select></label>
<label>Site <select id="site"><option value="">all</option></select></label>
<label>Waits at <select id="place"><option value="">all</option></select></label>
<label>Since then <select id="change"><option value="">all</option></select></label>
<label class="check"><input type="checkbox" id="fold"> Fold those that are alike</label>
<button type="button" id="ofbox" hidden></button>
<output id="shown" for="text answer root site place change fold"></output>
</form>"""
VIEW = """<figure>
<div id="stall" hidden>
<button type="button" id="closer" aria-label="Closer">+</button>
<button type="button" id="farther" aria-label="Farther">−</button>
<button type="button" id="whole">Whole</button>
<span id="stops" hidden><button type="button" id="before" aria-label="The root before">‹</button>
<output id="stop"></output>
<button type="button" id="after" aria-label="The next root">›</button></span>
</div>
<div id="view" role="region" aria-labelledby="picture" tabindex="0">
{picture}<div id="mapframe" hidden aria-hidden="true"><svg id="map"></svg></div>
</div>
<figcaption>Who waits for whom. Processes that are alike, or at one line of source, share a box.
<span class="live">A box leads to its row. Keys: Enter, arrows, + − 0; Ctrl with the wheel.</span></figcaption>
</figure>"""
