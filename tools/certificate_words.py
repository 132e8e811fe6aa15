"""What the words of a certificate say: their text, and the truth of conditions for values of nulls.

Nothing here knows of literals, clauses or steps. The words have to be well formed, and are given as numbers. They may nest
deep, so no function here calls itself.
"""

import functools
import itertools
import operator

MOST_SHOWN = 2_000
MOST_NULLS = 6
# So many pairs of a world and a condition are tried of one root, and so many worlds at a time.
MOST_TRIED = 1 << 36
AT_A_TIME = 1 << 16

CHARACTER, NUMBER, TEXT, NAMED, FRESH, OTHER, COLUMN = 2, 4, 5, 6, 7, 8, 9
TRUE, FALSE, EQUAL, NOT, AND, OR = 10, 11, 12, 13, 14, 15
CONSTANTS, NULLS = (NUMBER, TEXT, OTHER), (NAMED, FRESH)
CELL, ROW, ROWS, NAMES, CHANGES, COMMIT, SET, SETS = 17, 18, 20, 22, 28, 29, 30, 32
LISTS = (CHARACTER, CELL, ROWS, NAMES, CHANGES, SETS)
# How many fields of these conditions are places below them.
BRANCHES = {EQUAL: 2, NOT: 1, AND: 2, OR: 2}
# How the words of a kind are written: A and B are the words of their fields.
FORMS = {
    TRUE: ["true"],
    FALSE: ["false"],
    EQUAL: ["A", " = ", "B"],
    NOT: ["not (", "A", ")"],
    AND: ["(", "A", " and ", "B", ")"],
    OR: ["(", "A", " or ", "B", ")"],
    ROW: ["(", "A", ") if ", "B"],
    23: ["create table ", "A", " (", "B", ")"],
    24: ["insert into ", "A", " ", "B"],
    25: ["delete from ", "A", " where ", "B"],
    26: ["assert ", "A"],
    33: ["A", " where ", "B"],
    34: ["update ", "A", " set ", "B"],
}


def fields(word):
    """Returns the kind of a word, and its fields a and b."""
    return word >> 56, word >> 28 & 0xFFFFFFF, word & 0xFFFFFFF


def items(words, place):
    """Returns the items of a list, in their order. Those of a text are the numbers of its characters."""
    found = []
    while words[place] >> 56 in LISTS:
        _, place, item = fields(words[place])
        found.append(item)
    return found[::-1]


def text_of(words, place):
    """Returns a text."""
    return "".join(map(chr, items(words, place)))


def term(words, place):
    """Returns how a term is written."""
    kind, a, b = fields(words[place])
    if kind == NUMBER:
        number = (words[a] << 8 | b) & (1 << 64) - 1
        return str(number - (number >> 63 << 64))
    if kind == TEXT:
        return "'" + text_of(words, a).replace("'", "''") + "'"
    if kind == NAMED:
        return "?" + text_of(words, a)
    return {FRESH: f"?{a}#{b}", OTHER: f"@{a}", COLUMN: f"${a + 1}"}[kind]


def parts(words, place):
    """Returns what a word is written as: texts, and the places of words whose texts stand there."""
    kind, a, b = fields(words[place])
    if kind <= CHARACTER:
        return [text_of(words, place)]
    if kind <= COLUMN:
        return [term(words, place)]
    if kind == NOT and words[a] >> 56 == EQUAL:
        _, a, b = fields(words[a])
        return [a, " <> ", b]
    if kind == NOT and words[a] >> 56 in (AND, OR):
        return ["not ", a]
    if kind == SET:
        return [f"${a + 1} = ", b]
    if kind == ROW and words[b] >> 56 == TRUE:
        return ["(", a, ")"]
    if kind in FORMS:
        return [{"A": a, "B": b}.get(part, part) for part in FORMS[kind]]
    between = "; " if kind == ROWS else ", "
    listed = [part for item in items(words, place) for part in (between, item)][1:]
    return listed or ["nothing"]


def visible(text):
    """Returns a text without characters that a terminal would obey, or would not show."""
    return text if text.isprintable() else "".join(c if c.isprintable() else f"<U+{ord(c):04X}>" for c in text)


def written(words, place):
    """Returns the text of a word, cut where it is long. What comes twice in it is written twice."""
    found, length, stack = [], 0, [place]
    while stack and length <= MOST_SHOWN:
        part = stack.pop()
        if isinstance(part, int):
            stack += reversed(parts(words, part))
        else:
            found.append(visible(part))
            length += len(found[-1])
    text = "".join(found)
    return text if length <= MOST_SHOWN else text[:MOST_SHOWN] + ".."


def commits(words):
    """Gives the lines of all commits."""
    for kind, a, changes in map(fields, words):
        if kind == COMMIT:
            yield f"session {a >> 18}, commit {a & (1 << 18) - 1}"
            yield from ("  " + written(words, change) for change in items(words, changes))


def below(words, root):
    """Returns the places of a condition, and of all conditions and terms below it, in their order."""
    found, stack = set(), [root]
    while stack:
        place = stack.pop()
        if place not in found:
            found.add(place)
            kind, *places = fields(words[place])
            stack += places[: BRANCHES.get(kind, 0)]
    return sorted(found)


def repeated(bits, size, total):
    """Returns so many bits in all, made of the first ones again and again."""
    while size < total:
        bits |= bits << size
        size *= 2
    return bits & (1 << total) - 1


class Worlds:
    """All the ways to give each null below a root one of the values: the constants there, what a column is worth where one is
    there, and as many others as there are nulls. A value is the word of a constant.

    So many worlds are tried at once that a number has a bit for each: the first nulls have all values, and the last ones have
    one value each. Then each term has for each value the worlds in which that is its value."""

    def __init__(self, words, root):
        self.words, self.root, self.places = words, root, below(words, root)
        self.nulls = [place for place in self.places if words[place] >> 56 in NULLS]
        there = {words[place] for place in self.places if words[place] >> 56 in CONSTANTS}
        there |= {OTHER << 56 for place in self.places if words[place] >> 56 == COLUMN}
        others = (OTHER << 56 | k << 28 for k in itertools.count())
        self.values = sorted(there) + list(itertools.islice((it for it in others if it not in there), len(self.nulls)))
        self.count = len(self.values) ** len(self.nulls)
        self.are_few = len(self.nulls) <= MOST_NULLS and self.count * len(self.places) <= MOST_TRIED

    def spread(self, first):
        """Returns for each null among so many first ones, and for each value, the worlds in which it has that."""
        base, total = len(self.values), len(self.values) ** first
        return [
            {
                value: repeated((1 << base**i) - 1 << digit * base**i, base ** (i + 1), total)
                for digit, value in enumerate(self.values)
            }
            for i in range(first)
        ]

    def truth(self, valued, all_worlds):
        """Returns the worlds in which the root holds, where the terms are valued so."""
        found = {}
        for place in self.places:
            kind, a, b = fields(self.words[place])
            if kind == EQUAL:
                s, t = valued[a], valued[b]
                found[place] = functools.reduce(operator.or_, (s[value] & t[value] for value in s.keys() & t.keys()), 0)
            elif kind == NOT:
                found[place] = all_worlds ^ found[a]
            elif kind in (AND, OR):
                found[place] = found[a] & found[b] if kind == AND else found[a] | found[b]
            elif kind in (TRUE, FALSE):
                found[place] = all_worlds if kind == TRUE else 0
        return found[self.root]

    def one(self):
        """Returns a world in which the root holds, as the values of the nulls, or None where there is none."""
        first, base = len(self.nulls), len(self.values)
        while base**first > AT_A_TIME:
            first -= 1
        all_worlds = (1 << base**first) - 1
        fixed = {p: {self.words[p]: all_worlds} for p in self.places if self.words[p] >> 56 in CONSTANTS}
        fixed |= {p: {OTHER << 56: all_worlds} for p in self.places if self.words[p] >> 56 == COLUMN}
        fixed |= zip(self.nulls, self.spread(first))
        for chosen in itertools.product(self.values, repeat=len(self.nulls) - first):
            last = {null: {value: all_worlds} for null, value in zip(self.nulls[first:], chosen)}
            if true := self.truth(fixed | last, all_worlds):
                number = (true & -true).bit_length() - 1
                return [self.values[number // base**i % base] for i in range(first)] + list(chosen)
        return None

    def line(self):
        """Returns what is said of the root."""
        counts = f"(nulls: {len(self.nulls)}, values: {len(self.values)})"
        world = self.one() if self.are_few else None
        if world is None:
            return f"holds in none of {self.count} worlds {counts}" if self.are_few else f"not tried {counts}"
        texts = {self.words[place]: term(self.words, place) for place in self.places if self.words[place] >> 56 in CONSTANTS}
        pairs = [f"{term(self.words, null)} = {texts.get(v, f'@{fields(v)[1]}')}" for null, v in zip(self.nulls, world)]
        return visible("HOLDS where " + (", ".join(pairs) or "there are no nulls"))


def lines(words, roots, is_shown, is_tried):
    """Gives the commits, and for each root its text, or what is said of it in all worlds, or both."""
    if is_shown:
        yield from commits(words)
    for number, root in enumerate(roots, 1):
        is_condition = root < len(words) and TRUE <= words[root] >> 56 <= OR
        if is_shown:
            yield f"proof {number}: " + (written(words, root) if is_condition else "no condition")
        if is_tried and is_condition:
            yield f"proof {number}: " + Worlds(words, root).line()
