"""Reads transcripts: the replies of each session, and the history."""

import re

from reading import PRINTED, Reader, Refused, tokens


def lines_of(text):
    """Returns the lines of a transcript. A text may have line ends, so a line ends where its quotes are paired."""
    found, line = [], ""
    for piece in text.split("\n"):
        line += piece
        if line.count("'") % 2:
            line += "\n"
            continue
        found.append(line)
        line = ""
    return found


def parts(text):
    """Returns for each session the lines of each reply, by its number, and the lines of the history."""
    lines = lines_of(text)
    if lines[0] != "session 1" or lines[-2:] != ["end", ""] or "history" not in lines:
        raise ValueError("no transcript")
    middle, sessions, reply = lines.index("history"), [], None
    for line in lines[:middle]:
        if line == f"session {len(sessions) + 1}":
            sessions.append({})
            reply = None
            continue
        if head := re.match(r"(\d+) ", line):
            reply = sessions[-1].setdefault(int(head[1]), [])
        if reply is None:
            raise ValueError(f"a line before the first reply: {line!r}")
        reply.append(line)
    return sessions, lines[middle + 1 : -2]


def reader_of(line):
    if not line.startswith("  "):
        raise ValueError(f"a line without its blanks: {line!r}")
    return Reader(tokens(line, PRINTED))


def ended(reader):
    """Refuses what stands behind the end of a line."""
    if reader.rest:
        raise Refused("NotAStatement")


def names_of(lines):
    """Returns the conditions with names at the head of an answer or a commit, and the other lines. Names are numbered from
    1, and each condition names only those before it."""
    named, rest = {}, list(lines)
    while rest and (found := re.match(r"  (\[\d+\]) is ", rest[0])):
        if found[1] != f"[{len(named) + 1}]":
            raise ValueError(f"the name {found[1]} out of order")
        reader = reader_of("  " + rest.pop(0)[found.end() :])
        named[found[1]] = reader.condition()
        ended(reader)
    return named, rest


def cells(reader):
    return tuple(reader.listed(lambda: reader.next("number", "text", "null", "other")))


def conditional(reader):
    """Reads a row: its cells, and its condition."""
    row = cells(reader)
    return row, reader.condition() if reader.take("if") else ("true",)


def answer(lines):
    """Reads the lines under the head of an answer: the conditions with names, the global condition, and the rows with their
    conditions."""
    named, rest = names_of(lines)
    allowed, rows = ("true",), []
    if rest and rest[0].startswith("  worlds where "):
        reader = reader_of("  " + rest.pop(0).removeprefix("  worlds where "))
        allowed = reader.condition()
        ended(reader)
    for line in rest:
        reader = reader_of(line)
        rows.append(conditional(reader))
        ended(reader)
    return named, allowed, rows


def world(reader):
    """Reads a world, as a list of nulls with their values."""
    if reader.rest[:1] == [("word", "default")]:
        reader.rest.pop(0)
        return []

    def pair():
        null = reader.next("null")
        reader.need("=")
        return null[1], reader.next("number", "text", "other")

    return reader.run(pair, ",")


def possible(line):
    """Reads a possible row: its cells, and its world."""
    reader = reader_of(line)
    row = cells(reader)
    reader.need("in")
    found = world(reader)
    ended(reader)
    return row, found


def certain(line):
    """Reads a certain row."""
    reader = reader_of(line)
    row = cells(reader)
    reader.need("absence", "refuted")
    ended(reader)
    return row


def insertion(reader):
    """Reads a printed insertion behind its first word."""
    reader.need("into")
    name = reader.name()
    if reader.take("nothing"):
        return ("insert rows", name, [])
    return ("insert rows", name, reader.run(lambda: conditional(reader), ";"))


def change(line):
    """Reads a printed change."""
    reader = reader_of(line)
    found = insertion(reader) if reader.take("insert") else reader.statement()
    ended(reader)
    return found


def history(lines):
    """Reads the commits: each as its session and its changes, which come with the conditions that the commit names."""
    heads = [i for i, line in enumerate(lines) if re.fullmatch(r"\d+ by \d+", line)] + [len(lines)]
    if heads[0]:
        raise ValueError("a history that begins with no commit")
    found = []
    for number, (begin, end) in enumerate(zip(heads, heads[1:]), 1):
        place, _, session = lines[begin].partition(" by ")
        if place != str(number):
            raise ValueError(f"{lines[begin]} is not commit {number}")
        named, rest = names_of(lines[begin + 1 : end])
        found.append((int(session), [(change(line), named) for line in rest]))
    return found
