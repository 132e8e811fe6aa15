"""Reads scripts: statements, tokens, and trees.

A term is a pair: ("number", 1), ("text", "x"), ("other", 0) for @0, ("null", "?x"), ("fresh", None) for NULL,
("column", (table or None, name)), or ("place", k) for the column $k of a printed deletion or update. A condition is
("true",), ("false",), ("same", s, t), ("not", c), ("and", [..]), ("or", [..]), or ("name", "[k]") in a printed one. A query is
("select", items, tables, conditions) or (operator, left, right). The sets of an update are pairs of a column and a term.
"""

import re

BLANKS = "\t\n\r "
KEYWORDS = set(
    "and as assert begin certain commit create delete distinct except exists false from if inner insert intersect into "
    "join not null on or possible rollback select set table true union update values where worlds".split()
)
OPERATORS = ("union", "except", "intersect")
FORMS = {
    "text": "'(?:[^']|'')*'",
    "null": r"\?[A-Za-z_][A-Za-z0-9_]*",
    "number": "-?[0-9]+",
    "word": "[A-Za-z_][A-Za-z0-9_]*",
    "symbol": "<>|!=|[(),.*=]",
}
# What a transcript has besides.
PRINTED_FORMS = {
    "null": FORMS["null"] + r"|\?\d+#\d+",
    "symbol": FORMS["symbol"] + "|;",
    "other": r"@\d+",
    "place": r"\$\d+",
    "name": r"\[\d+\]",
}


def pattern_of(forms):
    """Returns the pattern of one token of these forms."""
    return re.compile("|".join(f"(?P<{kind}>{form})" for kind, form in forms.items()))


TOKEN = pattern_of(FORMS)
PRINTED = pattern_of({**FORMS, **PRINTED_FORMS})


class Refused(Exception):
    """A refusal, by its name."""


def statements(script):
    """Returns the texts of a script's statements: cut at each ; outside texts and comments."""
    pieces, piece, says = [], "", False
    for part in re.findall(r"'[^']*(?:'|$)|--[^\n]*|;|.", script, re.DOTALL):
        if part == ";":
            pieces.append((piece, says))
            piece, says = "", False
        else:
            piece += part
            says = says or not (part in BLANKS or part.startswith("--"))
    return [text for text, says in pieces + [(piece, says)] if says]


def token(match):
    """Returns the token of a match, as (kind, value)."""
    kind = match.lastgroup
    value = match[kind]
    if kind == "text":
        value = value[1:-1].replace("''", "'")
    elif kind in ("number", "other", "place"):
        value = int(value.lstrip("@$"))
    elif kind in ("word", "null"):
        value = value.lower()
    elif value == "!=":
        value = "<>"
    if kind == "number" and not -(2**63) <= value < 2**63:
        raise Refused("NumberRange")
    return kind, value


def tokens(text, forms=TOKEN):
    """Returns the tokens of a text. The leftmost fault is told."""
    found, at = [], 0
    skipped = re.compile(r"(?:[\t\n\r ]|--[^\n]*)*")
    while (at := skipped.match(text, at).end()) < len(text):
        match = forms.match(text, at)
        if not match:
            raise Refused("NotAStatement")
        found.append(token(match))
        at = match.end()
    return found


def nest(found):
    """Returns how deep parentheses and NOTs nest in these tokens."""
    levels, greatest = [0], 0
    for kind, value in found:
        if (kind, value) == ("symbol", "("):
            levels.append(0)
        elif (kind, value) == ("symbol", ")") and len(levels) > 1:
            levels.pop()
        elif (kind, value) == ("word", "not"):
            levels[-1] += 1
        elif (kind, value) in (("word", "and"), ("word", "or")):
            levels[-1] = 0
        greatest = max(greatest, sum(levels) + len(levels) - 1)
    return greatest


class Reader:
    """Reads tokens from the left. What does not fit the grammar is refused with NotAStatement."""

    def __init__(self, found):
        self.rest = list(found)

    def peek(self):
        return self.rest[0][1] if self.rest and self.rest[0][0] in ("word", "symbol") else None

    def begins(self, *wanted):
        """Tells whether these words come next."""
        return self.rest[: len(wanted)] == [("word", one) for one in wanted]

    def take(self, *wanted):
        """Takes the next word or symbol where it is one of these."""
        return self.rest.pop(0)[1] if self.peek() in wanted else None

    def need(self, *wanted):
        for one in wanted:
            if self.take(one) is None:
                raise Refused("NotAStatement")

    def next(self, *kinds):
        """Takes the next token, which has one of these kinds."""
        if not self.rest or self.rest[0][0] not in kinds:
            raise Refused("NotAStatement")
        return self.rest.pop(0)

    def run(self, item, *between):
        items = [item()]
        while self.take(*between):
            items.append(item())
        return items

    def listed(self, item):
        """Reads items in parentheses, with commas between them."""
        self.need("(")
        items = self.run(item, ",")
        self.need(")")
        return items

    def name(self):
        if self.peek() in KEYWORDS:
            raise Refused("NotAStatement")
        return self.next("word")[1]

    def column(self):
        first = self.name()
        return ("column", (first, self.name()) if self.take(".") else (None, first))

    def term(self):
        if self.rest and self.rest[0][0] == "word":
            return self.column()
        return self.next("number", "text", "null", "other", "place")

    def factor(self):
        if self.take("not"):
            return ("not", self.factor())
        if self.take("("):
            inner = self.condition()
            self.need(")")
            return inner
        if self.peek() in ("true", "false"):
            return (self.take("true", "false"),)
        if self.rest and self.rest[0][0] == "name":
            return self.rest.pop(0)
        left = self.term()
        sign = self.take("=", "<>")
        if sign is None:
            raise Refused("NotAStatement")
        same = ("same", left, self.term())
        return same if sign == "=" else ("not", same)

    def condition(self):
        return ("or", self.run(lambda: ("and", self.run(self.factor, "and")), "or"))

    def item(self):
        column = self.column()
        return column, (self.name() if self.take("as") else column[1][1])

    def table(self):
        """Reads a table of a FROM: its name, and the name under which it is seen."""
        name = self.name()
        if self.take("as"):
            return name, self.name()
        alias = self.rest and self.rest[0][0] == "word" and self.peek() not in KEYWORDS
        return name, (self.name() if alias else name)

    def joined(self):
        """Reads the tables of a FROM, and the conditions behind ON."""
        tables, conditions = [self.table()], []
        while self.peek() in (",", "inner", "join"):
            if self.take(","):
                tables.append(self.table())
                continue
            self.take("inner")
            self.need("join")
            tables.append(self.table())
            self.need("on")
            conditions.append(self.condition())
        if len(tables) > 16:
            raise Refused("NotAStatement")
        return tables, conditions

    def select(self):
        self.need("select")
        self.take("distinct")
        items = None if self.take("*") else self.run(self.item, ",")
        self.need("from")
        tables, conditions = self.joined()
        if self.take("where"):
            conditions.append(self.condition())
        return ("select", items, tables, conditions)

    def primary(self):
        if self.take("("):
            inner = self.query()
            self.need(")")
            return inner
        return self.select()

    def chain(self, item, *operators):
        left = item()
        while operator := self.take(*operators):
            left = (operator, left, item())
        return left

    def query(self):
        return self.chain(lambda: self.chain(self.primary, "intersect"), "union", "except")

    def cell(self):
        if self.take("null"):
            return ("fresh", None)
        return self.next("number", "text", "null")

    def insertion(self):
        self.need("into")
        name = self.name()
        if not self.take("values"):
            return ("insert query", name, self.query())
        rows = self.run(lambda: tuple(self.listed(self.cell)), ",")
        return ("insert", name, rows, self.condition() if self.take("if") else ("true",))

    def deletion(self):
        self.need("from")
        return ("delete", self.name(), self.condition() if self.take("where") else ("true",))

    def assignment(self):
        """Reads the column that an update sets, and its term."""
        is_place = self.rest and self.rest[0][0] == "place"
        column = self.next("place") if is_place else ("column", (None, self.name()))
        self.need("=")
        return column, self.term()

    def update(self):
        name = self.name()
        self.need("set")
        sets = self.run(self.assignment, ",")
        return ("update", name, sets, self.condition() if self.take("where") else ("true",))

    def assertion(self):
        if self.begins("exists") or self.begins("not", "exists"):
            wanted = not self.take("not")
            self.need("exists", "(")
            query = self.query()
            self.need(")")
            return ("assert query", wanted, query)
        # The word key is no keyword: it is one here where a name stands behind it.
        if self.begins("key") and self.rest[1:] and self.rest[1][0] == "word" and self.rest[1][1] not in KEYWORDS:
            self.need("key")
            return ("assert key", self.name(), self.listed(self.name))
        return ("assert", self.condition())

    def creation(self):
        self.need("table")
        return ("create", self.name(), self.listed(self.name))

    def statement(self):
        changes = {
            "create": self.creation,
            "insert": self.insertion,
            "delete": self.deletion,
            "update": self.update,
            "assert": self.assertion,
        }
        kind = self.take(*changes, "begin", "commit", "rollback", "possible", "certain")
        if kind in ("begin", "commit", "rollback"):
            return (kind,)
        return changes[kind]() if kind in changes else (kind or "rows", self.query())


def statement(text):
    """Returns the tree of a statement, or is refused for its text."""
    found = tokens(text)
    if nest(found) > 64 or sum(one in OPERATORS for kind, one in found if kind == "word") > 64:
        raise Refused("TooDeep")
    reader = Reader(found)
    tree = reader.statement()
    if reader.rest:
        raise Refused("NotAStatement")
    return tree
