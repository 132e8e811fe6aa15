"""What tables in CSV say in each world, by the evaluation of .ci/worlds."""

import re

from meaning import database_of, leaves, shown, valuations
from printed import history, parts
from reading import Reader, Refused, statement, statements, tokens
from session import Session

FRESH = re.compile(r"\?(\d+)#(\d+)")


def changes_of(script):
    """Returns the changes that a script makes, as one session."""
    session = Session()
    for text in statements(script):
        try:
            session.due(statement(text))
        except Refused as refusal:
            # No values are left.
            if str(refusal) != "Inconsistent":
                raise
    return session.changes()


def changes_printed(transcript):
    """Returns the changes of the printed history of a run of one session."""
    _, lines = parts(transcript)
    return [change for _, changes in history(lines) for change in changes]


def condition_of(field):
    """Returns the condition that a last field is."""
    return Reader(tokens(field)).condition() if field else ("true",)


def rows_of(records):
    """Returns the rows of a file's records, each with its cells and its condition."""
    return [(tuple(tokens(field)[0] for field in cells), condition_of(last)) for *cells, last in records[1:]]


def names_in(tree):
    return {name for _, name in leaves(tree, ("null",))}


def constants_in(tree):
    return leaves(tree, ("number", "text"))


def renaming(changes):
    """Returns the names that the nulls of changes have in a file, by their own ones."""
    names = names_in([changes])
    named = {name for name in names if not FRESH.fullmatch(name)}
    count = next(j for j in range(1, 10) if not any(name.startswith("?n" + "_" * j) for name in named))
    return {name: FRESH.sub(rf"?n{'_' * count}\1_\2", name) for name in names}


class Said:
    """What the script of a table t says, and what a file of it, an import of that and a second file say."""

    def __init__(self, script, file, transcript, again):
        self.changes = changes_of(script)
        self.file = rows_of(file)
        self.imported = changes_printed(transcript)
        self.again = rows_of(again)
        self.renamed = renaming(self.changes)

    def wrong_terms(self):
        """Returns what is wrong with the terms, or None."""
        allowed, constants = set(self.renamed.values()), constants_in([self.changes])
        for what, tree in (("file", self.file), ("import", self.imported), ("second file", self.again)):
            if more := names_in(tree) - allowed:
                return f"the {what} has nulls of its own: {more}"
            if constants_in(tree) - constants:
                return f"the {what} has constants of its own"
        inserted = [cells for change, _ in self.imported[1:] for cells, _ in change[2]]
        return None if inserted == [cells for cells, _ in self.file] else "the import has not the file's cells, in order"

    def wrong_in(self, world):
        """Returns what is said otherwise in a world, or None."""
        database = database_of(self.changes, world)
        of_file = {self.renamed[name]: value for name, value in world.items()}
        rows = shown(self.file, of_file, None)
        if database is not None and database["t"][1] != rows:
            return "the file says other rows than the script"
        if database_of(self.imported, of_file)["t"][1] != rows:
            return "the import has other rows than the file"
        return None if shown(self.again, of_file, None) == rows else "the second file says other rows than the first"

    def worlds(self):
        return valuations([self.changes])

    def wrong(self):
        """Returns what is said otherwise, or None."""
        if wrong := self.wrong_terms():
            return wrong
        return next((f"{wrong} at {world}" for world in self.worlds() if (wrong := self.wrong_in(world))), None)

    def is_told(self):
        """Tells whether the file without its conditions would be told from this one, where it has some."""
        self.file = [(cells, ("true",)) for cells, _ in self.file]
        return self.wrong() is not None
