"""Makes by chance scripts of tables, plain files, and files at fault."""

import csv
import io

from scripts import Maker

# Names of nulls, most of them like those that a file has for new ones.
NAMES = ("n", "n_1", "n__1_1", "n___", "x")
COLUMNS = ("a", "b", "c", "d")
# The ranges of the characters of texts, for which UTF-8 has one to four bytes.
RANGES = ((0, 0x7F), (0x80, 0x7FF), (0x800, 0xD7FF), (0xE000, 0xFFFF), (0x10000, 0x10FFFF))
# What means something in a file or a statement.
MARKS = "'\",\r\n;-?()= "
# Fields of plain files besides texts.
LEAST, GREATEST = -(2**63), 2**63 - 1
FIELDS = ("", "", "0", "-0", "007", "12", "-5", str(GREATEST), str(GREATEST + 1), "1.5", " 1", "NULL", "?x", "if")
# What is put into files.
PIECES = [*map(str.encode, "'\",\r\n-?()=1a; "), *b"-- or <> not null true '' \"\" \xff \xc3".split()]


def quoted(text):
    """Returns a text as a statement has it."""
    return "'" + text.replace("'", "''") + "'"


class TableMaker(Maker):
    """Makes the script of a table t, by a number: insertions, some of them from a query, deletions and assertions. All named
    nulls and a text stand in the last row, which is always there."""

    def __init__(self, number):
        super().__init__(f"table {number}")
        self.nulls = [f"?{name}" for name in self.chance.sample(NAMES, self.pick(1, 2, 2, 3))]
        self.fresh = self.pick(0, 1, 1, 2) if len(self.nulls) < 3 else self.pick(0, 1)
        # With enough tables each character of one byte stands in a text.
        self.constants = [quoted(self.text() + chr(number % 128)), self.pick(self.number(), quoted(self.text()))]
        self.terms = [*self.constants, *self.nulls]

    def number(self):
        return str(self.pick(0, 1, -1, LEAST, GREATEST, self.chance.randrange(10**6)))

    def text(self):
        return "".join(self.character() for _ in range(self.pick(0, 2, 4, 8, 12)))

    def character(self):
        return self.pick(*MARKS) if self.chance.random() < 0.2 else chr(self.chance.randint(*self.pick(*RANGES)))

    def condition(self, columns, depth=2):
        """Returns a condition over these columns that is mostly so deep."""
        form = self.chance.random()
        if depth == 0 or form < 0.1:
            left = self.pick(*self.nulls, *columns)
            return f"{left} {self.pick('=', '<>')} {self.pick(*(term for term in (*self.terms, *columns) if term != left))}"
        if form < 0.25:
            return f"not ({self.condition(columns, depth - 1)})"
        return f"({self.condition(columns, depth - 1)} {self.pick('and', 'or')} {self.condition(columns, depth - 1)})"

    def cell(self):
        if self.fresh and self.chance.random() < 0.3:
            self.fresh -= 1
            return "NULL"
        return self.pick(*self.terms)

    def values(self):
        rows = ", ".join(f"({', '.join(self.cell() for _ in COLUMNS)})" for _ in range(self.pick(1, 1, 2)))
        return f"insert into t values {rows}" + (f" if {self.condition((), 3)}" if self.chance.random() < 0.8 else "")

    def other(self):
        """Returns a statement that is no insertion of rows."""
        kinds = [
            f"delete from t where {self.condition(COLUMNS, 1)}",
            f"update t set b = {self.pick(*self.terms, *COLUMNS)}, d = c where {self.condition(COLUMNS, 1)}",
            f"insert into t select b, c, d, a from t where {self.condition(COLUMNS, 1)}",
            f"assert {self.condition((), 1)}",
        ]
        return self.pick(*kinds)

    def script(self):
        found = [f"create table t ({', '.join(COLUMNS)})"]
        for _ in range(self.pick(2, 3, 4)):
            found += [self.values(), *([self.other()] if self.chance.random() < 0.3 else [])]
        last = (self.nulls + self.constants + self.nulls)[: len(COLUMNS)]
        return ";\n".join([*found, f"insert into t values ({', '.join(last)})"]) + ";\n"

    def plain(self):
        """Returns the records of a plain file, and its bytes."""
        fields = [*FIELDS, *(self.text() for _ in range(6))]
        found = [list(COLUMNS)] + [[self.pick(*fields) for _ in COLUMNS] for _ in range(self.pick(0, 1, 4, 8))]
        out = io.StringIO(newline="")
        # With the line end \n alone Python would not quote a field with \r.
        style = self.pick({"lineterminator": "\n", "quoting": csv.QUOTE_ALL}, {"lineterminator": "\r\n"})
        csv.writer(out, **style).writerows(found)
        return found, out.getvalue().encode("utf-8")


def broken(data, chance):
    """Returns a file with one to three edits."""
    for _ in range(chance.choice((1, 1, 2, 3))):
        at = chance.randrange(len(data) + 1)
        end = chance.choice((at, at, at + 1, at + chance.randrange(4)))
        data = data[:at] + chance.choice((b"", chance.choice(PIECES), chance.choice(PIECES))) + data[end:]
    return data
