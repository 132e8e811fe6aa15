"""Reads pages that tools/page makes, and runs their script."""

import html.parser
import json
import os
import shutil
import subprocess
import tempfile

# Elements that have no end.
EMPTY = ("meta", "br")
# Calls the script of a page without a page, for each task: the data of a page, and worlds with the number of their answer.
HARNESS = """
const fs = require("fs");
const vm = require("vm");
const [script, tasks] = process.argv.slice(2).map((name) => fs.readFileSync(name, "utf8"));
vm.runInThisContext(script);
const said = JSON.parse(tasks).map(({ data, worlds }) => worlds.map(([answer, world]) =>
  ({ ...judge(data.answers[answer], world), all: admits(data.asserted, world) })));
console.log(JSON.stringify(said));
"""


class Page(html.parser.HTMLParser):
    """A page: its scripts by their kind, the rows of each answer by its name, what is shown of cells, and its elements."""

    def __init__(self, text):
        super().__init__()
        self.scripts = {}
        self.rows = {}
        self.shown = []
        self.elements = set()
        self.open = []
        self.answer = None
        self.feed(text)
        self.close()
        if self.open:
            raise ValueError(f"elements without end: {self.open}")
        self.data = json.loads(self.scripts["application/json"])

    def handle_starttag(self, tag, attributes):
        given = dict(attributes)
        self.elements.add(tag)
        if tag not in EMPTY:
            self.open.append(tag)
        if tag == "script":
            self.kind = given.get("type", "")
            if self.kind in self.scripts:
                raise ValueError("a script twice")
            self.scripts[self.kind] = ""
        if tag == "tbody":
            self.answer = self.rows.setdefault(given["id"], [])
        elif tag == "tr" and self.answer is not None:
            self.answer.append([given["class"], []])
        elif tag == "td":
            number = given.get("data-null")
            self.answer[-1][1].append([None if number is None else int(number), ""])
        for name in given:
            if name.startswith("on") or name in ("src", "href"):
                raise ValueError(f"an attribute {name}")

    def handle_endtag(self, tag):
        if self.open.pop() != tag:
            raise ValueError(f"an element {tag} that ends elsewhere")
        if tag == "tbody":
            self.answer = None

    def handle_data(self, data):
        if self.open and self.open[-1] == "script":
            self.scripts[self.kind] += data
            return
        self.shown.append(data)
        if "td" in self.open and self.open[-1] != "button":
            self.answer[-1][1][-1][1] += data

    def text(self):
        """Returns all text that is shown."""
        return "".join(self.shown)


def judged(script, tasks):
    """Returns what the script of the pages says of each world, or None where there is no node to run it."""
    if not shutil.which("node"):
        return None
    with tempfile.TemporaryDirectory() as room:
        paths = [os.path.join(room, name) for name in ("harness.js", "page.js", "tasks.json")]
        for path, text in zip(paths, (HARNESS, script, json.dumps(tasks))):
            with open(path, "w", encoding="utf-8") as file:
                file.write(text)
        ran = subprocess.run(["node", *paths], capture_output=True, check=False)
    if ran.returncode:
        raise ValueError("node: " + ran.stderr.decode("utf-8", "replace"))
    return json.loads(ran.stdout)
