"""Looks at pages in a browser without a window, where one is installed and works here."""

import os
import shutil
import subprocess
import tempfile
import urllib.parse

import conditions
import transcript
from beside import page, read
from pages import Page
from terminal import visible

BROWSERS = ("chromium", "chromium-browser", "google-chrome")
# Transcripts, with the values that are chosen.
CHOSEN = [
    ("examples/suppliers.out", {"?sender": "'Smith'"}),
    ("tests/assertions.out", {"?x": "2", "?y": "3", "?z": "@0"}),
    ("tests/texts.out", {"?z": "-7", "?y": "1"}),
]
WORDS = {True: "always", None: "sometimes", False: "never"}


def dumped(browser, path, world):
    """Returns what a browser makes of a page where a world is chosen, or None where it does not come to it."""
    with tempfile.TemporaryDirectory() as room:
        words = ["--headless=new", "--no-sandbox", "--disable-gpu", f"--user-data-dir={room}", "--dump-dom"]
        try:
            ran = subprocess.run(
                [browser, *words, f"file://{path}#{urllib.parse.urlencode(world)}"],
                capture_output=True,
                timeout=60,
                check=False,
            )
        except (OSError, subprocess.TimeoutExpired):
            return None
    text = ran.stdout.decode("utf-8", "replace")
    return Page(text) if '<html lang="en"' in text else None


def due(reply, world):
    """Returns how the rows of an answer are to be marked, with their first cells."""
    truth = conditions.truths(reply.nodes, conditions.in_world(world))
    found = []
    for row in reply.rows:
        cell = row.cells[0]
        value = visible(world.get(cell, cell))
        shown = ("another value, " + value if value[0] == "@" else value) + (f" {cell}" if cell in world else "")
        found.append((WORDS[row.place is None or truth[row.place]], shown))
    return found


def compare(browser, path, world):
    """Returns what is wrong with a page in a browser, nothing, or None where it was not run."""
    found = transcript.read(read(path))
    with tempfile.TemporaryDirectory() as room:
        name = os.path.join(room, "page.html")
        with open(name, "w", encoding="utf-8") as file:
            file.write(page.Maker(found, [], path).page())
        shown = dumped(browser, name, world)
    if shown is None:
        return None
    replies = [reply for one in found.sessions for reply in one.replies if reply.kind is not None]
    for number, reply in enumerate(replies):
        said = [(word, cells[1][1]) for word, cells in shown.rows[f"answer-{number}"]]
        if reply.kind == "rows" and said != due(reply, world):
            return f"{path}, reply {reply.number}: in {browser} the rows are {said}"
    return "" if " admit" in shown.text() else f"{path}: in {browser} nothing is said of the assertions"


def tried():
    """Returns the browser that was run, or None, and the faults."""
    browser = next(filter(shutil.which, BROWSERS), None)
    if browser is None:
        return None, []
    found = [compare(browser, path, world) for path, world in CHOSEN]
    return (None, []) if None in found else (browser, [fault for fault in found if fault])
