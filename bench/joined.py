"""Makes scripts by chance, the same in each run: four tables, and one query of two to four of them.

The tables have nulls, some in common, and rows under conditions. A query has one to six conjuncts: equalities of columns of two
tables, of one, with a constant or a null, without columns, NOTs and ORs of these. Some are POSSIBLE or CERTAIN, and some stand
on one side of a set operator.
"""

import random

SEED = 1
TABLES = {"t": "ab", "u": "ab", "v": "abc", "w": "a"}
CONSTANTS = ["1", "2", "3", "'1'", "'x'"]
NULLS = ["?x", "?y", "?z"]


class Maker:
    """Makes the script of a number of chance. NULL stands in it at most so often, where that is said."""

    def __init__(self, number, constants=CONSTANTS, nulls=NULLS, fresh=None):
        self.draw = random.Random(SEED * 1_000_003 + number)
        self.constants = constants
        self.nulls = nulls
        self.fresh = fresh

    def is_one_of(self, many):
        return self.draw.randrange(many) == 0

    def value(self):
        if self.is_one_of(4):
            return "NULL" if self.is_one_of(4) and self.may_draw() else self.draw.choice(self.nulls)
        return self.draw.choice(self.constants)

    def may_draw(self):
        """Tells whether there may be one NULL more, and counts it."""
        if self.fresh is None:
            return True
        self.fresh -= 1
        return self.fresh >= 0

    def table(self, name):
        """Returns the statements that make a table."""
        columns = TABLES[name]
        said = f"create table {name} ({', '.join(columns)});\n"
        for _ in range(self.draw.randint(0 if self.is_one_of(12) else 1, 4)):
            row = ", ".join(self.value() for _ in columns)
            condition = f" if {self.draw.choice(self.nulls)} = {self.draw.choice(self.constants)}" if self.is_one_of(4) else ""
            said += f"insert into {name} values ({row}){condition};\n"
        return said

    def column(self, seen):
        alias, name = self.draw.choice(seen)
        return f"{alias}.{self.draw.choice(TABLES[name])}"

    def comparison(self, seen):
        """Returns an equality or its contrary, of one of the kinds."""
        sign = "<>" if self.is_one_of(5) else "="
        kind = self.draw.randrange(8)
        if kind < 4:
            sides = [self.column(seen), self.column(seen)]
        elif kind < 6:
            sides = [self.column(seen), self.draw.choice(self.constants)]
        elif kind == 6:
            sides = [self.column(seen), self.draw.choice(self.nulls)]
        else:
            sides = [self.draw.choice(self.nulls), self.draw.choice(self.constants + self.nulls)]
        self.draw.shuffle(sides)
        return f"{sides[0]} {sign} {sides[1]}"

    def conjunct(self, seen):
        kind = self.draw.randrange(12)
        if kind == 0:
            return f"not ({self.comparison(seen)} and {self.comparison(seen)})"
        if kind == 1:
            return f"({self.comparison(seen)} or {self.comparison(seen)})"
        if kind == 2:
            return f"({self.comparison(seen)} and {self.comparison(seen)})"
        if kind == 3:
            return self.draw.choice(["true", "1 = 1", "?x = ?x", "false", "not 1 = 2"])
        return self.comparison(seen)

    def selection(self, width):
        """Returns a SELECT with so many columns; with none, of as many as it has or of some."""
        seen = [(f"p{i}", self.draw.choice(list(TABLES))) for i in range(self.draw.randint(2, 4))]
        picked = [self.column(seen) for _ in range(width or self.draw.randint(1, 3))]
        items = "*" if not width and self.is_one_of(4) else ", ".join(picked)
        named = ", ".join(f"{name} {alias}" for alias, name in seen)
        conjuncts = " and ".join(self.conjunct(seen) for _ in range(self.draw.randint(1, 6)))
        return f"select {items} from {named} where {conjuncts}"

    def query(self):
        asked = self.draw.choice(["possible ", "certain "]) if self.is_one_of(6) else ""
        if self.is_one_of(6):
            operator = self.draw.choice(["union", "except", "intersect"])
            return f"{asked}{self.selection(2)} {operator} {self.selection(2)}"
        return asked + self.selection(None)

    def script(self):
        """Returns the statements that make the tables, and the query."""
        return "".join(self.table(name) for name in TABLES), self.query() + ";\n"
