"""Lays what tools/table and tools/page say of rows beside the meaning of the script, as .ci/worlds finds it."""

import importlib.machinery
import importlib.util
import os
import random

import conditions
import printed
import transcript
from meaning import database_of, holds, leaves, relevant, rows, tables_of, tuple_at
from pages import Page
from reading import PRINTED, Reader, statement, statements, tokens
from session import Session
from terminal import visible

ROOT = os.path.dirname(os.path.dirname(os.path.dirname(os.path.realpath(__file__))))

# What a null may be worth besides the constants.
FURTHER = [("other", 0), ("other", 1), ("other", 2)]
# So many worlds are tried of an answer, where so many of so many that are drawn are admitted.
WORLDS = 3
DRAWN = 30


def tool(name):
    """Returns a tool as a module."""
    loader = importlib.machinery.SourceFileLoader("tool_" + name, os.path.join(ROOT, "tools", name))
    module = importlib.util.module_from_spec(importlib.util.spec_from_loader(loader.name, loader))
    loader.exec_module(module)
    return module


table, page = tool("table"), tool("page")


def term(value):
    """Returns how a value is printed."""
    kind, it = value
    if kind == "text":
        return "'" + it.replace("'", "''") + "'"
    return f"@{it}" if kind == "other" else str(it)


def read(path):
    """Returns the text of a file of the repository."""
    with open(os.path.join(ROOT, path), newline="", encoding="utf-8") as file:
        return file.read()


class Question:
    """A query of a script, with its reply as the tools read it and as .ci/worlds does, and what it is asked of."""

    def __init__(self, query, changes, reply, lines):
        self.query = query
        self.changes = relevant(changes, tables_of(query))
        self.reply = reply
        self.named, self.allowed, self.rows = printed.answer(lines[1:])

    def worlds(self, chance):
        """Gives a few worlds, each with the database of the script in it, or None where it is not admitted."""
        trees = [self.changes, self.query, self.named, self.allowed, self.rows]
        nulls = sorted(name for _, name in leaves(trees, ("null",)))
        values = sorted(leaves(trees, ("number", "text")), key=repr) + FURTHER
        drawn = [{null: chance.choice(values) for null in nulls} for _ in range(DRAWN)]
        found = sorted(((world, database_of(self.changes, world)) for world in drawn), key=lambda one: one[1] is None)
        return found[:WORLDS] + (found[-1:] if found[-1][1] is None else [])


def followed(path):
    """Returns the queries of a script that have an answer with conditions, with what they see, and the assertions of all its
    commits."""
    session, script, text = Session(), read(path), read(path.removesuffix(".sql") + ".out")
    (lines,), _ = printed.parts(text)
    replies = transcript.read(text).sessions[0].replies
    found = []
    for number, (one, reply) in enumerate(zip(statements(script), replies), 1):
        if reply.is_refusal():
            continue
        tree = statement(one)
        session.due(tree)
        if reply.kind == "rows":
            found.append(Question(tree[1], session.changes(), reply, lines[number]))
    return found, relevant(sum(session.commits, []), [])


def condition(text):
    """Reads a condition by the reader of .ci/worlds."""
    reader = Reader(tokens(text, PRINTED))
    found = reader.condition()
    printed.ended(reader)
    return found


def cells(terms):
    """Reads cells by the reader of .ci/worlds."""
    reader = Reader(tokens("(" + ", ".join(terms) + ")", PRINTED))
    return printed.cells(reader)


class Known:
    """What --known shows of an answer."""

    def __init__(self, question, reply):
        shown = table.Shown(reply)
        shown.fill_in(reply)
        texts = [(row, shown.condition(place, reply.names)) for row, place in shown.rows]
        self.named = question.named
        self.rows = [(cells(row), condition(text) if text else ("true",)) for row, text in texts]
        self.known = shown.known
        self.question = question

    def wrong(self, world, database):
        """Returns what is wrong with it in an admitted world, or None."""
        for null, value in self.known.items():
            if term(world[null]) != value:
                return f"{null} is not {value}"
        there = [tuple_at(row, world) for row, one in self.rows if holds(one, world, None, self.named)]
        if set(there) != rows(self.question.query, database, world):
            return "--known shows other rows"
        return "--known shows a row twice" if len(set(row for row, _ in self.rows)) != len(self.rows) else None


def wrong_text(reply):
    """Returns where the conditions of an answer, read and written again, are others than those that are printed."""
    shown = table.Shown(reply)
    names = [f"{name} is {shown.text(place, reply.names)}" for place, name in reply.names.items()]
    if names != reply.definitions:
        return f"{reply.definitions} are written as {names}"
    for row in reply.rows:
        if shown.condition(row.place, reply.names) != row.text:
            return f"{row.text} is written as {shown.condition(row.place, reply.names)}"
    if reply.allowed is not None and reply.allowed not in reply.names:
        if shown.text(reply.allowed, reply.names) != reply.allowed_text:
            return f"{reply.allowed_text} is written in another way"
    return None


def wrong_rows(question, world, database, said, shown, nulls):
    """Returns what is wrong with what a page says of an answer in a world: of its rows, as the printed text has them, and of
    what the rows are that are there, filled in, by the query on the database."""
    if said["admitted"] != (database is not None):
        return "the page says otherwise whether the world is admitted"
    if said["rows"] != [holds(one, world, None, question.named) for _, one in question.rows]:
        return "the page says otherwise which rows are there"
    if database is None:
        return None
    size = len(question.reply.columns)
    there = set()
    for (_, row), is_there in zip(shown, said["rows"]):
        if is_there:
            filled = (text if null is None else visible(term(world[nulls[null]])) for null, text in row[1 : size + 1])
            there.add(tuple(filled))
    due = {tuple(visible(term(value)) for value in one) for one in rows(question.query, database, world)}
    return None if there == due else "the rows that are there, filled in, are not the query's"


class Compared:
    """What is compared of a script: its questions with their worlds, and the page of its transcript."""

    def __init__(self, path):
        self.path = path
        self.faults = []
        found = transcript.read(read(path.removesuffix(".sql") + ".out"))
        maker = page.Maker(found, [], path)
        self.page = Page(maker.page())
        self.nulls = [one["name"] for one in self.page.data["nulls"]]
        kinds = [answer["kind"] for answer in self.page.data["answers"]]
        self.answers = [i for i, kind in enumerate(kinds) if kind == "rows"]
        chance = random.Random(path)
        self.cases = []
        questions, self.asserted = followed(path)
        if len(questions) != len(self.answers):
            self.faults.append(f"{path}: {len(self.answers)} answers, and {len(questions)} questions")
        for answer, question in zip(self.answers, questions):
            worlds = question.worlds(chance)
            self.compare_table(question, worlds)
            self.cases += [(answer, question, world, database) for world, database in worlds]

    def fault(self, said, reply):
        """Takes note of a fault."""
        self.faults.append(f"{self.path}, reply {reply.number}: {said}")

    def compare_table(self, question, worlds):
        """Compares what tools/table shows of an answer."""
        if wrong := wrong_text(question.reply):
            self.fault(wrong, question.reply)
        known = Known(question, question.reply)
        for world, database in worlds:
            if database is not None and (wrong := known.wrong(world, database)):
                self.fault(f"{wrong} at {world}", question.reply)

    def task(self):
        """Returns what the page's script is asked."""
        worlds = []
        for answer, _, world, _ in self.cases:
            values = {null: term(value) for null, value in world.items()}
            worlds.append([answer, [values.get(null, "@0") for null in self.nulls]])
        return {"data": self.page.data, "worlds": worlds}

    def compare_page(self, said):
        """Compares what the page's script said."""
        for (answer, question, world, database), one in zip(self.cases, said):
            shown = self.page.rows[f"answer-{answer}"]
            if wrong := wrong_rows(question, world, database, one, shown, self.nulls):
                self.fault(f"{wrong} at {world}", question.reply)
            # A null that the question does not name is worth @0.
            if one["all"] != (database_of(self.asserted, world) is not None):
                self.fault(f"the page says otherwise whether the history admits {world}", question.reply)


def wrong_statements(path):
    """Returns what is wrong with how the statements of a script are cut."""
    script = read(path)
    due = [text.strip("\t\n\r ") for text in statements(script)]
    return None if transcript.statements(script) == due else f"{path}: other statements"


def wrong_partial(nodes, worlds):
    """Returns what is wrong with what is said of conditions where only some nulls have a value: what is said to hold, or not
    to, does so in each of these worlds."""
    for world in worlds:
        some = dict(list(world.items())[::2])
        truth = conditions.truths(nodes, conditions.in_world(some))
        whole = conditions.truths(nodes, conditions.in_world(world))
        if any(part not in (None, one) for part, one in zip(truth, whole)):
            return "what is decided early is decided otherwise"
    return None
