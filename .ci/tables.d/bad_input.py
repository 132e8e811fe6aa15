"""Tries what is shown: of a few transcripts all of it, and of bad input that it is shown at all, and nothing of it obeyed."""

import os
import random
import subprocess

import conditions
import terminal
import transcript
from beside import ROOT, page, read, table, wrong_partial
from pages import Page

HERE = os.path.join(ROOT, ".ci", "tables.d")

# What is shown of these transcripts is in these files.
SHOWN = {
    "suppliers.txt": ["--statements", "examples/suppliers.sql", "examples/suppliers.out"],
    "known.txt": ["--known", "--no-history", "tests/assertions_merged.out"],
    "narrow.txt": ["--width", "60", "--no-history", "tests/rows_shared_condition.out"],
    "several.txt": ["examples/van.out"],
}

# Texts as a script may have them.
TEXTS = [
    "</script><script>alert(1)</script>",
    "<!-- <script> ]]> --><img src=x onerror=alert(1)>",
    "&amp; &lt; \" ` {data} {script}",
    "it's '' quoted",
    "\u05e9\u05dc\u05d5\u05dd \u0645\u0631\u062d\u0628\u0627",
    "\u202eturned\u202c \u2066alone",
    "two\nlines\r\n3 rows (a) at 1\nend",
    "tab\there, bell\x07, escape\x1b[31m, delete\x7f, next\x85",
    "\u65e5\u672c \u30ab\u30bf",
    "e\u0301 \u00e9 \u200bnothing\ufeff",
    "",
    "\U0001f469\u200d\U0001f692 \U0010fffd",
    "@0 ?x [1] if and or (1)",
]

# How many columns of a terminal these take.
WIDTHS = {"abc": 3, "\u65e5\u672c": 4, "e\u0301": 1, "\u05e9\u05dc\u05d5\u05dd": 4, "\u200d": 0, "\u240a": 1, "": 0}


def quoted(text):
    """Returns a text as it is printed."""
    return "'" + text.replace("'", "''") + "'"


def answer(rows, columns="a, b", head="worlds where ?x <> 'none'"):
    """Returns a transcript of one answer."""
    lines = [f"  {head}\n"] * bool(head) + [f"  {row}\n" for row in rows]
    return f"session 1\n1 committed 1\n2 rows ({columns}) at 1\n{''.join(lines)}history\n1 by 1\n  create table t (a)\nend\n"


class Given:
    """What the words of tools/table ask for."""

    def __init__(self, known=False, history=True, width=None):
        self.known = known
        self.history = history
        self.width = width


def lines(found, **given):
    """Returns what tools/table shows of a transcript."""
    return table.all_lines(found, [], Given(**given))


def made(found, scripts=()):
    """Returns the page of a transcript."""
    return Page(page.Maker(found, list(scripts), "a </title> & \" name").page())


def wrong_lines(shown):
    """Returns what is wrong with the lines of one answer: columns that do not line up, or something to obey."""
    if any(not one.isprintable() and one not in terminal.JOINERS for line in shown for one in line):
        return "a character that a terminal obeys"
    marks = [i for i, line in enumerate(shown) if line.startswith("  --")]
    for mark in marks:
        place = shown[mark].index("+")
        ends = [line for line in shown[mark + 1 :] if " | " in line]
        if any(terminal.width(line[: line.index(" | ") + 1]) != place for line in ends):
            return "columns that do not line up"
    return None


def hostile():
    """Texts that look like parts of a page or of a transcript, or that a terminal obeys."""
    texts = list(map(quoted, TEXTS))
    rows = [f"({k}, {text}) if ?x = {text}" for k, text in enumerate(texts)]
    found = transcript.read(answer(rows))
    if not found.is_whole() or [row.cells[1] for row in found.sessions[0].replies[1].rows] != texts:
        return "hostile texts: read otherwise"
    # The texts of this answer have no bar.
    if wrong := wrong_lines(lines(found)):
        return f"hostile texts: {wrong}"
    it = made(found, [["create table t (a)", TEXTS[0] + TEXTS[6]]])
    if not it.elements <= ELEMENTS:
        return f"hostile texts: the page has elements {it.elements - ELEMENTS}"
    if [row[1][2][1] for row in it.rows["answer-0"]] != list(map(terminal.visible, texts)):
        return "hostile texts: the page shows others"
    values = [value for value, _ in it.data["nulls"][0]["values"]]
    return None if set(texts) <= set(values) else "hostile texts: they cannot be chosen"


ELEMENTS = set(
    "html head meta title style body header h1 p code noscript section button div details summary main h2 h3 ol li br pre "
    "article table thead tr th tbody td bdi span script".split()
)


def many():
    """10,000 rows, each with a null of its own."""
    rows = [f"({k}, ?1#{k}) if ?1#{k} = {k % 7} or ?x = {k}" for k in range(1, 10_001)]
    found = transcript.read(answer(rows))
    shown = lines(found, known=True)
    if not found.is_whole() or len(shown) != 10_000 + 12:
        return f"10,000 rows: {len(shown)} lines"
    if "10000 under a condition (?x in 10000, ?1#1 in 1, ?1#10 in 1)" not in shown[-5]:
        return f"10,000 rows: {shown[-5]}"
    return None if len(made(found).rows["answer-0"]) == 10_000 else "10,000 rows: others in the page"


def deep():
    """A condition that nests 20,000 deep."""
    text = "?x = 0"
    pieces = [f" {('or', 'and')[k % 2]} ?x = {k})" for k in range(20_000)]
    text = "(" * 20_000 + text + "".join(pieces) + " or ?y = 1"
    found = transcript.read(answer([f"(1, 2) if {text}"]))
    reply = found.sessions[0].replies[1]
    shown = table.Shown(reply)
    if not found.is_whole() or shown.text(reply.rows[0].place, {}) != text:
        return "a deep condition: written otherwise"
    return None if made(found).rows else "a deep condition: no page"


def long():
    """A text of 1 MiB with very many line ends, and a name that is as long."""
    text = quoted("\n''" * 300_000)
    found = transcript.read(answer([f"(?{'x' * 100_000}, {text})"]))
    shown = lines(found, width=80)
    if not found.is_whole() or max(map(terminal.width, shown)) > 80:
        return "a long text: not cut as is asked"
    return None


# Rows that have the same cells once ?x = 1 is put in, and what is then shown of them.
MERGED = ["(?x) if ?y = 1", "(1) if ?z = 2", "(2) if ?y = 1", "(?x, 1)", "(2)", "(3) if ?x = 1 and ?z = 2"]
MERGED_SHOWN = """   a | if
  ---+------------------
   1 | ?y = 1 or ?z = 2
   2 |
   3 | ?z = 2
  1 row always, 2 under a condition (?z in 2, ?y in 1); 2 rows the same as another
  not read:   (?x, 1)"""


def merged():
    """Rows that have the same cells once nulls are known, and a row that has too many."""
    found = transcript.read(answer(MERGED, "a", "worlds where ?w = 1 and (?w = 2 or ?x = ?w)"))
    shown = "\n".join(lines(found, known=True))
    if "  known: ?w = 1, ?x = 1\n" + MERGED_SHOWN not in shown:
        return f"rows that are the same: {shown}"
    return None


def cut(path):
    """A transcript that is cut at any place: what stands before is shown, and that it is cut."""
    text = read(path)
    whole = transcript.read(text)
    for at in range(0, len(text) - 1, 1 + len(text) // 50):
        found = transcript.read(text[:at])
        replies = [reply for one in found.sessions for reply in one.replies]
        due = [reply for one in whole.sessions for reply in one.replies]
        for reply, one in zip(replies[:-1], due):
            if [row.cells for row in reply.rows] != [row.cells for row in one.rows] or reply.head != one.head:
                return f"{path}, cut at {at}: reply {reply.number} is shown otherwise"
        shown = lines(found)
        if found.is_whole() or not shown[-1].startswith("cut: "):
            return f"{path}, cut at {at}: this is not said"
        if found.rest and f"  not read: {terminal.visible(found.rest)}" not in shown:
            return f"{path}, cut at {at}: its last piece is not shown"
        if "This is no whole transcript" not in made(found).text():
            return f"{path}, cut at {at}: the page does not say so"
    return None


def damaged(path):
    """Transcripts with a line lost, or with a part of one: all other lines are shown, or it is said that they were not read."""
    chance = random.Random(path)
    given = transcript.lines_of(read(path))[0]
    for _ in range(30):
        k = chance.randrange(len(given))
        piece = given[k][: chance.randrange(len(given[k]) + 1)].replace("'", "")
        text = "\n".join(given[:k] + [piece] * chance.randrange(2) + given[k + 1 :]) + "\n"
        found = transcript.read(text)
        if found.is_whole() != (sum(line.startswith(("  not read: ", "cut: ")) for line in lines(found)) == 0):
            return f"{path}, line {k}: {piece} instead of it, and this is not shown"
        if found.is_whole() == ("This is no whole transcript" in made(found).text()):
            return f"{path}, line {k}: {piece} instead of it, and the page does not say so"
    return None


def partial(path):
    """What is said where only some nulls have a value."""
    chance = random.Random(path)
    for session in transcript.read(read(path)).sessions:
        for reply in session.replies:
            parts = [term for node in reply.nodes for term in node[1:] if isinstance(term, str)]
            nulls = sorted(set(filter(conditions.is_null, parts)))
            values = sorted(set(parts) - set(nulls)) + ["@0", "@1"]
            worlds = [{null: chance.choice(values) for null in nulls} for _ in range(5)]
            if wrong := wrong_partial(reply.nodes, worlds):
                return f"{path}, reply {reply.number}: {wrong}"
    return None


def widths():
    """How many columns texts take, and where they are cut."""
    for text, due in WIDTHS.items():
        if terminal.width(text) != due:
            return f"{text!r} takes {terminal.width(text)} columns"
    cuts = [("abc", 3, "abc"), ("abcd", 3, "ab\u2026"), ("\u65e5\u672c", 3, "\u65e5\u2026"), ("\u65e5\u672c", 2, "\u2026")]
    for text, most, due in cuts:
        if terminal.cut(text, most) != due:
            return f"{text!r} is cut to {terminal.cut(text, most)!r}"
    return None


def call(tool, words, given=b"", **more):
    """Calls a tool. Returns its status and its outputs."""
    ran = subprocess.run(
        [os.path.join(ROOT, "tools", tool), *words],
        cwd=ROOT,
        input=given,
        check=False,
        **{"stdout": subprocess.PIPE, "stderr": subprocess.PIPE, **more},
    )
    return ran.returncode, ran.stdout, ran.stderr


def shown(name):
    """What is shown of a transcript is that of the file."""
    said = call("table", SHOWN[name])[1].decode("utf-8")
    return None if said == read(f".ci/tables.d/{name}") else f"{name}: other lines are shown"


def write():
    """Writes the files of what is shown."""
    for name, words in SHOWN.items():
        with open(os.path.join(HERE, name), "wb") as file:
            file.write(call("table", words)[1])


# Words and a text for standard input, with the status that is due.
CALLS = [
    ("table", ["examples/first.out"], b"", 0),
    ("table", [], b"", 1),
    ("table", [], b"session 1\n1 rows (a) at 2\n  (1)\n  (", 1),
    ("table", [], b"fill 3\nsession 1: 9 statements\n", 1),
    ("table", [], b"session 1\n1 refused \xff\xfe\nhistory\nend\n", 1),
    ("table", ["--statements", "examples/refused.sql", "examples/first.out"], b"", 0),
    ("table", ["missing"], b"", 3),
    ("table", ["tests"], b"", 3),
    ("table", ["--statements", "missing", "examples/first.out"], b"", 3),
    ("table", ["--statements", "/dev/null", "examples/first.out"], b"", 0),
    ("table", ["--width", "19", "examples/first.out"], b"", 2),
    ("table", ["--width", "100000", "examples/first.out"], b"", 2),
    ("table", ["--nothing"], b"", 2),
    ("table", ["examples/first.out", "examples/first.out"], b"", 2),
    ("page", ["examples/first.out"], b"", 0),
    ("page", ["-"], b"session 1\n1 rows (a) at 2\n  (1)\n  (", 1),
    ("page", ["-"], b"", 1),
    ("page", ["missing"], b"", 3),
    ("page", [], b"", 2),
]


def statuses():
    """The exit statuses, and that a Python of another encoding shows the same."""
    for tool, words, given, due in CALLS:
        status, _, errors = call(tool, words, given)
        if status != due or b"Traceback" in errors:
            return f"{tool} {words}: ended with {status}: {errors}"
    for tool in ("table", "page"):
        with open("/dev/full", "wb") as full:
            status, _, errors = call(tool, ["examples/first.out"], stdout=full)
        if status != 4 or errors.count(b"\n") != 1:
            return f"{tool}: an output that is full: {status}: {errors}"
        told = {**os.environ, "LC_ALL": "C", "PYTHONUTF8": "0", "PYTHONIOENCODING": "ascii"}
        if call(tool, ["tests/texts.out"], env=told) != call(tool, ["tests/texts.out"]):
            return f"{tool}: other encodings change what is shown"
    return None


CUT = ["examples/suppliers.out", "tests/texts.out", "tests/assertions_merged.out", "tests/transactions.out"]


def tried():
    """Tries everything. Returns how many trials there are, and the faults."""
    found = [one() for one in (hostile, many, deep, long, merged, widths, statuses)]
    found += [one(path) for one in (cut, damaged, partial) for path in CUT]
    found += list(map(shown, SHOWN))
    return len(found), [fault for fault in found if fault]
