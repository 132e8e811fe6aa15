"""Makes certificates from nothing, by chance: words of all kinds, conditions that hold nowhere with derivations, and words and
steps that are right or wrong. A step is (literals, reason, places), a literal a text like `+n10`, and hints are places, too."""

import itertools
import random

CONSTANTS = (4, 5, 8)
EQUAL, NOT, AND, OR = 12, 13, 14, 15
CLASSES = {
    "Text": (1, 2),
    "High": (3,),
    "Term": range(4, 10),
    "Cond": range(10, 16),
    "Row": (16, 17),
    "CondRow": (18,),
    "RowList": (19, 20),
    "NameList": (21, 22),
    "Change": (*range(23, 27), 34),
    "ChangeList": (27, 28),
    "Commit": (29,),
    "Set": (30,),
    "SetList": (31, 32),
    "UpdateBody": (33,),
}
# The fields of each kind of word: a class, or the least and the greatest number.
NOTHING, ANY = (0, 0), (0, (1 << 28) - 1)
FIELDS = {
    1: (NOTHING, NOTHING),
    2: ("Text", (0, 55295)),
    3: (ANY, ANY),
    4: ("High", (0, 255)),
    5: ("Text", NOTHING),
    6: ("Text", NOTHING),
    7: ((1, 1023), (1, (1 << 28) - 1)),
    8: (ANY, NOTHING),
    9: (ANY, NOTHING),
    10: (NOTHING, NOTHING),
    11: (NOTHING, NOTHING),
    12: ("Term", "Term"),
    13: ("Cond", NOTHING),
    14: ("Cond", "Cond"),
    15: ("Cond", "Cond"),
    16: (NOTHING, NOTHING),
    17: ("Row", "Term"),
    18: ("Row", "Cond"),
    19: (NOTHING, NOTHING),
    20: ("RowList", "CondRow"),
    21: (NOTHING, NOTHING),
    22: ("NameList", "Text"),
    23: ("Text", "NameList"),
    24: ("Text", "RowList"),
    25: ("Text", "Cond"),
    26: ("Cond", NOTHING),
    27: (NOTHING, NOTHING),
    28: ("ChangeList", "Change"),
    29: (ANY, "ChangeList"),
    30: (ANY, "Term"),
    31: (NOTHING, NOTHING),
    32: ("SetList", "Set"),
    33: ("SetList", "Cond"),
    34: ("Text", "UpdateBody"),
}
# Numbers at the limits of what fields may be.
EDGES = (0, 1, 2, 255, 256, 1023, 1024, 55295, 55296, 57343, 57344, 1114111, 1114112, (1 << 28) - 1)


def text(words, proofs):
    """Returns the bytes of a certificate, whose proofs are pairs of a root and steps."""
    lines = ["ct-certificate 1", f"words {len(words)}", *(f"{word:016x}" for word in words), f"proofs {len(proofs)}"]
    for root, steps in proofs:
        lines.append(f"proof {root} {len(steps)}")
        lines += [" ".join([*literals, ":", reason, *map(str, places)]) for literals, reason, places in steps]
    return "".join(line + "\n" for line in [*lines, "end"]).encode()


def opposite(literal):
    return ("-" if literal[0] == "+" else "+") + literal[1:]


def same(s, t):
    return f"s{min(s, t)},{max(s, t)}"


class Words:
    """Words that are made one by one."""

    def __init__(self, number):
        self.chance = random.Random(number)
        self.words = []
        self.places = {}

    def word(self, kind, a=0, b=0):
        """Returns the place of a word, which is put there where it is not."""
        word = kind << 56 | a << 28 | b
        if word not in self.places:
            self.places[word] = len(self.words)
            self.words.append(word)
        return self.places[word]

    def fields(self, place):
        word = self.words[place]
        return word >> 56, word >> 28 & 0xFFFFFFF, word & 0xFFFFFFF

    def of_class(self, name):
        return [place for place, word in enumerate(self.words) if word >> 56 in CLASSES[name]]

    def text(self, characters):
        place = self.word(1)
        for character in characters:
            place = self.word(2, place, ord(character))
        return place

    def number(self, number):
        return self.word(4, self.word(3, number >> 36 & 0xFFFFFFF, number >> 8 & 0xFFFFFFF), number & 255)

    def term(self):
        """Returns a term: one of few nulls, of few constants, or a column."""
        kind = self.chance.choice((4, 4, 5, 6, 6, 6, 7, 7, 8, 9))
        pick = self.chance.randrange(2)
        if kind == 4:
            return self.number((1, -2)[pick])
        if kind in (5, 6):
            return self.word(kind, self.text(("x", "yz")[pick]))
        return self.word(kind, *((1, pick + 1) if kind == 7 else (pick,)))

    def pair(self, kind, a, b):
        return self.word(kind, min(a, b), max(a, b))

    def condition(self, terms, depth):
        """Returns a condition over terms."""
        form = self.chance.random()
        if depth == 0 or form < 0.2:
            if self.chance.random() < 0.05:
                return self.word(self.chance.choice((10, 11)))
            return self.pair(EQUAL, *self.chance.sample(terms, 2))
        a = self.condition(terms, depth - 1)
        if form < 0.4:
            return self.word(NOT, a)
        b = self.condition(terms, depth - 1)
        return a if a == b else self.pair(self.chance.choice((AND, AND, OR, OR, OR)), a, b)

    def field(self, wanted):
        """Returns a field of a class or between two numbers, mostly a small one, or None where no word has the class."""
        if isinstance(wanted, str):
            places = self.of_class(wanted)
            return self.chance.choice(places) if places else None
        least, most = wanted
        small = min(most, least + 3)
        return self.chance.choice((least, most, self.chance.randint(least, most), self.chance.randint(least, small)))

    def any_word(self):
        """Puts a word of any kind there, or none where a field is not to be had."""
        kind = self.chance.choice(list(FIELDS))
        a, b = map(self.field, FIELDS[kind])
        if a is None or b is None or (kind in (EQUAL, AND, OR) and b <= a):
            return
        self.word(kind, a, b)

    def below(self, root):
        """Returns the conditions and the terms below a root, and it."""
        conditions, terms, stack = set(), set(), [root]
        while stack:
            place = stack.pop()
            kind, a, b = self.fields(place)
            conditions.add(place)
            if kind == EQUAL:
                terms |= {a, b}
            else:
                stack += [a, b][: {NOT: 1, AND: 2, OR: 2}.get(kind, 0)]
        return sorted(conditions), sorted(terms)

    def definitions(self, place):
        """Returns the steps by `def` of a word."""
        kind, a, b = self.fields(place)
        own = f"n{place}"
        clauses = {
            10: [["+" + own]],
            11: [["-" + own]],
            EQUAL: [["-" + own, "+" + same(a, b)], ["+" + own, "-" + same(a, b)]],
            NOT: [[f"-{own}", f"-n{a}"], [f"+{own}", f"+n{a}"]],
            AND: [[f"-{own}", f"+n{a}"], [f"-{own}", f"+n{b}"], [f"+{own}", f"-n{a}", f"-n{b}"]],
            OR: [[f"-{own}", f"+n{a}", f"+n{b}"], [f"+{own}", f"-n{a}"], [f"+{own}", f"-n{b}"]],
        }
        return [(clause, "def", [place, number]) for number, clause in enumerate(clauses.get(kind, []))]

    def path(self, places):
        """Returns the step by `path` of places."""
        clause = ["-" + same(s, t) for s, t in zip(places, places[1:])]
        if not {self.words[places[0]] >> 56, self.words[places[-1]] >> 56} <= set(CONSTANTS):
            clause.append("+" + same(places[0], places[-1]))
        return list(dict.fromkeys(clause)), "path", list(places)


class Found(Exception):
    """The atoms can have truths by which all clauses are true."""


class Prover:
    """Derives the empty clause from the clauses below a root, by trying both truths of one atom after another."""

    def __init__(self, words, root):
        self.chance = words.chance
        conditions, terms = words.below(root)
        paths = [pair for pair in itertools.combinations(terms, 2) if len(words.path(pair)[0]) == 1]
        paths += [(s, middle, t) for s, t in itertools.combinations(terms, 2) for middle in terms if middle not in (s, t)]
        if len(terms) > 3:
            paths += [tuple(self.chance.sample(terms, 4)) for _ in range(4)]
        given = [step for place in conditions for step in words.definitions(place)]
        given += [words.path(places[:: self.chance.choice((1, -1))]) for places in paths]
        self.chance.shuffle(given)
        self.steps = [([f"+n{root}"], "root", []), *given]
        self.given = [[(literal, opposite(literal)) for literal in literals] for literals, _, _ in self.steps]

    def derive(self, literals, hints):
        self.steps.append((literals, "rup", hints))
        return len(self.steps) - 1

    def follow(self, decided):
        """Returns the hints by which literals follow from those that are decided, and whether the last one is false; else also
        the shortest clause that is not true, as its open literals."""
        true, hints, before = set(decided), [], -1
        while len(hints) > before:
            before, shortest = len(hints), None
            for number, pairs in enumerate(self.given):
                rest = [literal for literal, other in pairs if other not in true]
                if not rest:
                    return [*hints, number], True, None
                if any(literal in true for literal in rest):
                    continue
                if len(rest) == 1:
                    true.add(rest[0])
                    hints.append(number)
                elif shortest is None or len(rest) < len(shortest):
                    shortest = rest
        return hints, False, shortest

    def refute(self, decided=()):
        """Returns the number of a step that says that not all of the decided literals are so."""
        hints, is_false, shortest = self.follow(decided)
        clause = [opposite(literal) for literal in decided]
        if is_false:
            return self.derive(clause, hints)
        if shortest is None:
            raise Found
        atom = self.chance.choice(shortest)[1:]
        return self.derive(clause, [self.refute((*decided, "+" + atom)), self.refute((*decided, "-" + atom))])

    def proof(self):
        """Returns the steps that the last one needs, or None where there is no proof."""
        try:
            last = self.refute()
        except Found:
            return None
        needed, stack = set(), [last]
        while stack:
            number = stack.pop()
            if number not in needed:
                needed.add(number)
                stack += self.steps[number][2] if self.steps[number][1] == "rup" else []
        order = sorted(needed)
        return renumbered([self.steps[number] for number in order], {number: at for at, number in enumerate(order)})


def renumbered(steps, numbers):
    """Returns steps with other hints, where a step has another number."""
    return [(c, r, [numbers.get(place, place) for place in places] if r == "rup" else places) for c, r, places in steps]


def refuted(number):
    """Returns words that are made by a number, a root among them that holds nowhere, and its proof."""
    words = Words(number)
    for _ in range(words.chance.randrange(12)):
        words.any_word()
    terms = sorted({words.term() for _ in range(words.chance.randint(3, 7))})
    while len(terms) < 2:
        terms = sorted({*terms, words.term()})
    root = words.condition(terms, 2)
    while (proof := Prover(words, root).proof()) is None:
        condition = words.condition(terms, 2)
        root = root if condition == root else words.pair(AND, root, condition)
    for _ in range(words.chance.randrange(12)):
        words.any_word()
    return words, root, proof


def right_step(words, root, steps):
    """Returns a step that follows from the others, as it may be spelled."""
    chance = words.chance
    kind = chance.choice(("root", "def", "path", "rup", "rup"))
    if kind == "root":
        step = [f"+n{root}"], "root", []
    elif kind == "def":
        step = chance.choice(words.definitions(chance.choice(words.of_class("Cond"))))
    elif kind == "path":
        places = [chance.choice(words.of_class("Term")) for _ in range(chance.randint(2, 5))]
        if places[0] == places[-1] or any(s == t for s, t in zip(places, places[1:])):
            return right_step(words, root, steps)
        step = words.path(places)
    else:
        # A clause that has all literals of an earlier one follows from that.
        hint = chance.randrange(len(steps))
        more = f"{chance.choice('+-')}n{chance.choice(words.of_class('Cond'))}"
        step = [*steps[hint][0], *([more] if chance.random() < 0.5 else [])], "rup", [hint]
    literals, reason, places = step
    literals = [*literals, *chance.choices(literals, k=chance.randrange(2))] if literals else []
    chance.shuffle(literals)
    return literals, reason, places


def wrong_step(words, root, steps):
    """Returns a step that does not follow by its reason."""
    chance = words.chance
    conditions, terms = words.of_class("Cond"), words.of_class("Term")
    other = chance.choice([place for place in range(len(words.words) + 2) if place not in terms])
    place, number = chance.choice(conditions), len(steps)
    s, t = chance.sample(terms, 2)
    definition = chance.choice(words.definitions(place))
    literals, _, (_, k) = definition
    return chance.choice(
        (
            ([f"-n{root}"], "root", []),
            ([], "root", []),
            ([f"+n{root}", f"-n{place}"], "root", []),
            ([f"+n{root}"] * 2 + [f"-n{root}"], "root", []),
            ([*map(opposite, literals)], "def", [place, k]),
            (literals[1:], "def", [place, k]),
            ([*literals, f"+n{place}", f"-n{place}"], "def", [place, k]),
            (literals, "def", [place, chance.choice((3, 4, 254, 255))]),
            (literals, "def", [place, k + 1]),
            (literals, "def", [len(words.words), k]),
            (literals, "def", [s, k]),
            ([], "def", [s, 0]),
            ([], "path", []),
            ([], "path", [s]),
            ([], "path", [s, s]),
            (["-" + same(s, t)], "path", [s, t, s]),
            (["-" + same(s, t), "+" + same(s, t)], "path", [s, s, t]),
            (["-" + same(s, t), "+" + same(s, t)], "path", [s, t, t]),
            (["-" + same(s, other), "+" + same(s, other)], "path", [s, other]),
            (words.path([s, t])[0][:-1], "path", [s, t]),
            ([*words.path([s, t])[0], f"+n{root}"], "path", [s, t]),
            ([f"-s{max(s, t)},{min(s, t)}", f"+s{max(s, t)},{min(s, t)}"], "path", [max(s, t), min(s, t)]),
            ([f"-s{s},{s}"], "rup", [0]),
            ([f"-n{s}", *steps[0][0]], "rup", [0]),
            ([f"-n{len(words.words)}", *steps[0][0]], "rup", [0]),
            ([f"+s{min(s, t)},{len(words.words)}", *steps[0][0]], "rup", [0]),
            (steps[0][0], "rup", []),
            (steps[0][0], "rup", [0, number]),
            (steps[0][0], "rup", [0, number + 1]),
            (steps[0][0], "rup", [0, (1 << 32) - 1]),
            ([f"-n{root}", f"-n{other}"], "rup", [0]),
            ([], "rup", [number]),
            ([], "rup", [0]),
            ([], "rup", [0, 0]),
        )
    )


def with_step(steps, at, step):
    """Returns steps with one more at a place."""
    numbers = {number: number + 1 for number in range(at, len(steps))}
    return [*steps[:at], step, *renumbered(steps[at:], numbers)]


def right_proof(number):
    """Returns a certificate of one proof or of two, with steps that are of no use."""
    words, root, steps = refuted(number)
    for _ in range(words.chance.randrange(4)):
        at = words.chance.randint(1, len(steps) - 1)
        steps = with_step(steps, at, right_step(words, root, steps[:at]))
    proofs = [(root, steps)] * words.chance.choice((1, 1, 2))
    return text(words.words, proofs), f"accepted {len(proofs)}\n"


def wrong_proof(number):
    """Returns a certificate with a step that does not follow."""
    words, root, steps = refuted(number)
    at = words.chance.randint(1, len(steps) - 1)
    wrong = with_step(steps, at, wrong_step(words, root, steps[:at]))
    before = words.chance.randrange(2)
    return text(words.words, [(root, steps)] * before + [(root, wrong)]), f"rejected proof {before + 1}\n"


def turned_proof(number):
    """Returns a certificate with a step by `rup` behind one that has it as a hint, or with none of the steps that it needs
    behind it, so that the last clause has literals."""
    words, root, steps = refuted(number)
    used = [(hint, user) for user, step in enumerate(steps) if step[1] == "rup" for hint in step[2]]
    hint, user = words.chance.choice(used)
    order = [*range(hint), *range(hint + 1, user + 1), hint, *range(user + 1, len(steps))]
    if hint + 1 < user and words.chance.random() < 0.3:
        order = list(range(user)) if steps[user - 1][0] else order
    numbers = {old: new for new, old in enumerate(order)}
    return text(words.words, [(root, renumbered([steps[old] for old in order], numbers))]), "rejected proof 1\n"


def right_words(number):
    """Returns a certificate of words without proofs."""
    words = Words(number)
    for _ in range(words.chance.randrange(200)):
        words.any_word()
    return text(words.words, []), "accepted 0\n"


def near_words(number):
    """Returns a certificate with a word that is right but for one field, or its kind, which are at some limit, and of which is
    not said whether that is one too many. It may also be the same as an earlier one."""
    words = Words(number)
    while len(words.words) < 20:
        words.any_word()
    chance, size = words.chance, len(words.words)
    while len(words.words) == size:
        words.any_word()
    kind, a, b = words.fields(size)
    edges = (*EDGES, a, b, size - 1, size, size + 1, chance.randrange(size), chance.randrange(size))
    kind, a, b = chance.choice(
        (
            (kind, chance.choice(edges), b),
            (kind, a, chance.choice(edges)),
            (chance.choice((0, 35, 36, 255, kind + 1, chance.randint(1, 34))), a, b),
            words.fields(chance.randrange(size)),
        )
    )
    return text([*words.words[:size], kind << 56 | a << 28 | b], []), None


def one_of_each():
    """Returns a word of each kind, in the order of the kinds."""
    words = Words(0)
    for kind in FIELDS:
        # Of two terms or conditions the second one has to be the later one.
        fields = [[wanted[0]] if wanted not in CLASSES else words.of_class(wanted) for wanted in FIELDS[kind]]
        words.word(kind, fields[0][0], fields[1][-1])
    return words


def is_right(words, kind, a, b):
    """Whether a word may follow words."""
    if kind not in FIELDS or kind << 56 | a << 28 | b in words.places:
        return False
    for wanted, field in zip(FIELDS[kind], (a, b)):
        if not (field in words.of_class(wanted) if wanted in CLASSES else wanted[0] <= field <= wanted[1]):
            return False
    # Of the numbers from 55296 on some are those of no characters.
    return not (kind in (EQUAL, AND, OR) and b <= a)


def edge_words():
    """Gives certificates of one word of each kind, and one more: with each kind, and in each field the least and the greatest
    number, those beside them, and a place of each class, its own place and the next one."""
    words = one_of_each()
    size = len(words.words)
    places = [words.of_class(name)[0] for name in CLASSES] + [size, size + 1]
    for kind in (0, *FIELDS, 35, 36, 128, 255):
        for at, wanted in enumerate(FIELDS.get(kind, ())):
            edges = places if wanted in CLASSES else {max(wanted[0] - 1, 0), *wanted, min(wanted[1] + 1, ANY[1])}
            for edge in sorted(edges if kind != 2 or at == 0 else EDGES):
                fields = list(words.fields(kind - 1)[1:])
                fields[at] = edge
                right = is_right(words, kind, *fields) or (kind == 2 and at == 1 and 57344 <= edge <= 1114111)
                line = "accepted 0\n" if right else f"rejected words at {size}\n"
                yield f"edge_words {kind} {at} {edge}", text([*words.words, kind << 56 | fields[0] << 28 | fields[1]], []), line
        if kind not in FIELDS:
            yield f"edge_words {kind}", text([*words.words, kind << 56], []), f"rejected words at {size}\n"


# How many of each are made, with the numbers from 1 on.
MADE = ((right_proof, 200), (wrong_proof, 250), (turned_proof, 100), (right_words, 50), (near_words, 150))


def made():
    """Gives all certificates, each with its name and the line that has to be judged, or None where that is not known."""
    yield from edge_words()
    for maker, count in MADE:
        for number in range(1, count + 1):
            yield f"{maker.__name__} {number}", *maker(number)
