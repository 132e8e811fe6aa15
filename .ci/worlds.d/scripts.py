"""Makes scripts by chance: changes, assertions, transactions and questions over three small tables and three nulls."""

import random

TABLES = {"t": ("a", "b"), "u": ("a",), "v": ("a",)}
CONSTANTS = ("1", "2", "'a'")
NULLS = ("?x", "?y", "?z")


class Maker:
    """Makes the parts of one script. A number of chance stands for one script, which may have so many NULLs."""

    def __init__(self, number, constants=CONSTANTS, nulls=NULLS, fresh=2):
        self.chance = random.Random(number)
        self.terms = constants + nulls
        self.nulls = nulls
        self.fresh = fresh

    def pick(self, *given):
        return self.chance.choice(given)

    def term(self, columns):
        return self.pick(*self.terms, *columns, *columns, *columns)

    def condition(self, columns, depth=2):
        """Returns a condition over these columns."""
        form = self.chance.random()
        if depth == 0 or form < 0.6:
            return f"{self.pick(*self.nulls, *columns)} {self.pick('=', '=', '<>')} {self.term(columns)}"
        if form < 0.7:
            return f"not ({self.condition(columns, depth - 1)})"
        if form < 0.72:
            return self.pick("true", "false")
        word = self.pick("and", "or")
        return f"({self.condition(columns, depth - 1)} {word} {self.condition(columns, depth - 1)})"

    def cell(self):
        if self.fresh and self.chance.random() < 0.05:
            self.fresh -= 1
            return "NULL"
        return self.pick(*self.terms)

    def row(self, table):
        return "(" + ", ".join(self.cell() for _ in TABLES[table]) + ")"

    def select(self, count):
        """Returns a SELECT of so many columns."""
        tables = [self.pick("t", "u", "v"), *([self.pick("t", "u")] if self.chance.random() < 0.2 else [])]
        seen = [f"{name} p{i}" for i, name in enumerate(tables)]
        columns = [f"p{i}.{column}" for i, name in enumerate(tables) for column in TABLES[name]]
        items = ", ".join(self.chance.choices(columns, k=count))
        where = f" where {self.condition(columns)}" if self.chance.random() < 0.6 else ""
        return f"select {items} from {', '.join(seen)}{where}"

    def query(self, count):
        left = self.select(count)
        if self.chance.random() < 0.6:
            return left
        return f"{left} {self.pick('union', 'except', 'intersect')} {self.select(count)}"

    def insertion(self):
        table = self.pick(*TABLES)
        if self.chance.random() < 0.35:
            return f"insert into {table} {self.query(len(TABLES[table]))}"
        rows = ", ".join(self.row(table) for _ in range(self.pick(1, 1, 2, 3)))
        condition = f" if {self.condition(())}" if self.chance.random() < 0.5 else ""
        return f"insert into {table} values {rows}{condition}"

    def deletion(self):
        table = self.pick(*TABLES)
        return f"delete from {table}" + (f" where {self.condition(TABLES[table])}" if self.chance.random() < 0.97 else "")

    def update(self):
        table = self.pick(*TABLES)
        columns = TABLES[table]
        chosen = self.chance.sample(columns, self.pick(1, len(columns)))
        sets = ", ".join(f"{column} = {self.term(columns)}" for column in chosen)
        where = f" where {self.condition(columns)}" if self.chance.random() < 0.9 else ""
        return f"update {table} set {sets}{where}"

    def question(self):
        return self.pick("", "", "possible ", "certain ") + self.query(self.pick(1, 1, 2))

    def key(self):
        table = self.pick(*TABLES)
        columns = self.chance.sample(TABLES[table], self.pick(1, len(TABLES[table])))
        return f"assert key {table} ({', '.join(columns)})"

    def assertion(self):
        form = self.chance.random()
        if form < 0.4:
            return f"assert {self.condition(())}"
        return self.key() if form < 0.7 else f"assert {self.pick('', 'not ')}exists ({self.query(self.pick(1, 1, 2))})"

    def moment(self):
        """Returns the beginning or the end of a transaction, wherever it stands."""
        return self.pick("begin", "begin", "commit", "rollback")

    def statement(self):
        changes = [self.insertion] * 6 + [self.deletion] * 2 + [self.update] * 2 + [self.assertion] * 2
        return self.pick(*changes, *[self.question] * 5, *[self.moment] * 4)()

    def script(self):
        tables = [f"create table {name} ({', '.join(columns)})" for name, columns in TABLES.items()]
        filled = [f"insert into {name} values {self.row(name)}, {self.row(name)}" for name in TABLES]
        return ";\n".join(tables + filled + [self.statement() for _ in range(20)]) + ";\n"
