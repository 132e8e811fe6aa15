#!/usr/bin/env python3
"""Judges a certificate as `./ctdb check` does. This was written from docs/CERTIFICATES.md alone, and stands alone.

usage: tools/check_certificate.py [--why] [--show] [--try] [--lrat NAME] FILE

The first line that is written is the one of `./ctdb check FILE`. Behind it come, where they are asked for:
--why   the word or the step at fault, and the clause that the reason of the step gives
--show  the commits of the words, and the condition at the root of each proof; what is longer is cut at 2,000 characters
--try   whether a root holds for some values of the nulls below it, six at most: the constants below it, and as many other
        values as there are nulls
--lrat  files NAME.J.cnf and NAME.J.lrat for each proof J, where all are accepted: what `rup` starts from, and its steps
For --show and --try the file certificate_words.py is needed, which knows nothing of steps.

Exit status: 0 accepted; 1 rejected; 2 the words are not understood; 3 the file could not be read; 4 an output could not be
written; 6 the file is too long, or not a certificate: standard error says why, and nothing else is written.
"""

import argparse
import collections
import os
import re
import sys

sys.dont_write_bytecode = True

MOST_BYTES = 67_108_864
MOST_SHOWN = 2_000

# The class of each kind of word, by the first kind of the line, and what its fields a and b are.
KINDS = {
    first + i: tuple(kind.split(" "))
    for first, *kinds in (
        (1, "Text 0 0", "Text Text scalar", "High any any"),
        (4, "Term High byte", "Term Text 0", "Term Text 0", "Term session positive", "Term any 0", "Term any 0"),
        (10, "Cond 0 0", "Cond 0 0", "Cond Term Term", "Cond Cond 0", "Cond Cond Cond", "Cond Cond Cond"),
        (16, "Row 0 0", "Row Row Term", "CondRow Row Cond", "RowList 0 0", "RowList RowList CondRow"),
        (21, "NameList 0 0", "NameList NameList Text"),
        (23, "Change Text NameList", "Change Text RowList", "Change Text Cond", "Change Cond 0"),
        (27, "ChangeList 0 0", "ChangeList ChangeList Change", "Commit any ChangeList"),
        (30, "Set any Term", "SetList 0 0", "SetList SetList Set", "UpdateBody SetList Cond", "Change Text UpdateBody"),
    )
    for i, kind in enumerate(kinds)
}
CONSTANTS, TRUE, FALSE, EQUAL, NOT, AND, OR = (4, 5, 8), 10, 11, 12, 13, 14, 15
# What a field may be that is the place of no word.
FIELDS = {
    "0": lambda value: value == 0,
    "any": lambda value: True,
    "byte": lambda value: value < 256,
    "positive": lambda value: value >= 1,
    "scalar": lambda value: value < 55296 or 57344 <= value <= 1114111,
    "session": lambda value: 1 <= value <= 1023,
}
# The clauses of `def P K` for K = 0, 1, 2: P, A and B are the places of the word and of its fields, E the equality of these.
DEFINITIONS = {
    TRUE: ("+P",),
    FALSE: ("-P",),
    EQUAL: ("-P +E", "+P -E"),
    NOT: ("-P -A", "+P +A"),
    AND: ("-P +A", "-P +B", "+P -A -B"),
    OR: ("-P +A +B", "+P -A", "+P -B"),
}
# A number of more digits is that of no place, and no file has so many lines.
N = "(?:0|[1-9][0-9]{0,9})"
STEP = re.compile(f"((?:[+-](?:n{N}|s{N},{N}) )*): (root|def {N} {N}|path(?: {N})*|rup(?: {N})*)")
WORD = re.compile("[0-9a-f]{16}")
DIGITS = re.compile("[0-9]+")

# Each literal is its text, which no other one has.
Step = collections.namedtuple("Step", "literals reason places")
Judgement = collections.namedtuple("Judgement", "status line why words proofs")


class NotACertificate(Exception):
    """Which line is spelled as none of a certificate."""


class Reader:
    """Reads the lines of a certificate."""

    def __init__(self, data):
        *self.lines, self.rest = data.decode("latin-1").split("\n")
        self.at = 0

    def need(self, found, wanted):
        if not found:
            raise NotACertificate(f"line {self.at} is not {wanted}")
        return found

    def line(self, pattern, wanted):
        """Returns the match of the next line."""
        self.at += 1
        return self.need(self.at <= len(self.lines) and re.fullmatch(pattern, self.lines[self.at - 1]), wanted)

    def numbers(self, text):
        found = [int(number) for number in DIGITS.findall(text)]
        self.need(all(number < 1 << 32 for number in found), "of numbers below 2^32")
        return found

    def step(self):
        match = self.line(STEP, "a step")
        self.numbers(match[1])
        reason, places = match[2].split(" ")[0], self.numbers(match[2])
        self.need(reason != "def" or places[1] < 256, "of a clause below 256")
        # A clause is a set. A literal that is kept once is looked at once, however often it stands there.
        return Step(tuple(dict.fromkeys(map(sys.intern, match[1].split()))), reason, places)

    def proof(self):
        root, count = self.numbers(self.line(f"proof {N} {N}", "proof PLACE NUMBER")[0])
        return root, [self.step() for _ in range(count)]

    def certificate(self):
        """Returns the words, and of each proof its root and its steps."""
        self.line("ct-certificate 1", "ct-certificate 1")
        (count,) = self.numbers(self.line(f"words {N}", "words NUMBER")[0])
        words = [int(self.line(WORD, "a word")[0], 16) for _ in range(count)]
        (count,) = self.numbers(self.line(f"proofs {N}", "proofs NUMBER")[0])
        proofs = [self.proof() for _ in range(count)]
        self.line("end", "end")
        self.at += 1
        self.need(self.at > len(self.lines) and not self.rest, "the end of the file")
        return words, proofs


def fields(word):
    """Returns the kind of a word, and its fields a and b."""
    return word >> 56, word >> 28 & 0xFFFFFFF, word & 0xFFFFFFF


def opposite(literal):
    """Returns the same atom with the other sign."""
    return ("-" if literal[0] == "+" else "+") + literal[1:]


def same(s, t):
    """Returns the atom that two terms have the same value."""
    return f"s{min(s, t)},{max(s, t)}"


def text_of(literals):
    """Returns the text of a clause."""
    return " ".join(sorted(literals, key=lambda literal: literal[1:])) or "no literals"


class Words:
    """Words, the class of each before the first that is wrong, and what is wrong with that one, or None."""

    def __init__(self, words):
        self.words, self.classes, self.why, seen = words, [], None, set()
        for word in words:
            self.why = "it stands at an earlier place" if word in seen else self.word_fault(*fields(word))
            if self.why:
                break
            seen.add(word)
            self.classes.append(KINDS[word >> 56][0])

    def is_a(self, name, place):
        return place < len(self.classes) and self.classes[place] == name

    def word_fault(self, kind, a, b):
        """Returns what is wrong with a word behind the others, or None."""
        if kind not in KINDS:
            return "it has no kind"
        for name, value in zip(KINDS[kind][1:], (a, b)):
            if not (FIELDS[name](value) if name in FIELDS else self.is_a(name, value)):
                return f"a field is {value}, where {name} is wanted"
        return "its field b is not above a" if kind in (EQUAL, AND, OR) and b <= a else None

    def is_literal(self, literal):
        """Whether the places of a literal have the right class and order."""
        places = [int(place) for place in literal[2:].split(",")]
        if literal[1] == "n":
            return self.is_a("Cond", places[0])
        return places[0] < places[1] and self.is_a("Term", places[0]) and self.is_a("Term", places[1])

    def definition(self, place, number):
        """Returns the clause of a definition, or None where there is none."""
        kind, a, b = fields(self.words[place]) if place < len(self.words) else (0, 0, 0)
        if number >= len(DEFINITIONS.get(kind, ())):
            return None
        atoms = {"P": f"n{place}", "A": f"n{a}", "B": f"n{b}", "E": same(a, b)}
        return {sign + atoms[name] for sign, name in DEFINITIONS[kind][number].split(" ")}

    def path(self, places):
        """Returns the clause of a path, or None where there is none."""
        pairs = list(zip(places, places[1:]))
        if not pairs or places[0] == places[-1] or any(s == t for s, t in pairs):
            return None
        if not all(self.is_a("Term", place) for place in places):
            return None
        are_constants = all(self.words[place] >> 56 in CONSTANTS for place in (places[0], places[-1]))
        return {"-" + same(s, t) for s, t in pairs} | (set() if are_constants else {"+" + same(places[0], places[-1])})

    def given(self, root, step):
        """Returns the clause that a reason other than `rup` gives, or None where it gives none."""
        if step.reason == "root":
            return {f"+n{root}"}
        return self.path(step.places) if step.reason == "path" else self.definition(*step.places)

    def step_fault(self, root, steps, number):
        """Returns what is wrong with a step, or None."""
        step = steps[number]
        if wrong := [literal for literal in step.literals if not self.is_literal(literal)]:
            return f"{wrong[0]} is no literal over these words"
        if step.reason == "rup":
            return rup(steps, number)[1]
        wanted = self.given(root, step)
        if wanted is None:
            return "its reason gives no clause"
        return None if set(step.literals) == wanted else f"its clause should have been: {text_of(wanted)}"

    def proof_fault(self, root, steps):
        """Returns what is wrong with a proof, or None."""
        if not self.is_a("Cond", root):
            return f"its root, {root}, is no condition"
        for number, step in enumerate(steps):
            if why := self.step_fault(root, steps, number):
                line = " ".join([*step.literals, ":", step.reason, *map(str, step.places)])
                return f"step {number}, {line:.{MOST_SHOWN}}: {why:.{MOST_SHOWN}}"
        if not steps or steps[-1].literals:
            return "its last step has literals" if steps else "it has no step"
        return None


def rup(steps, number):
    """Returns how many hints of a step were looked at, and why the test of `rup` failed, or None."""
    hints, false = steps[number].places, set(steps[number].literals)
    if late := [hint for hint in hints if hint >= number]:
        return 0, f"hint {late[0]} is no earlier step"
    for looked, hint in enumerate(hints, 1):
        open_literals = {literal for literal in steps[hint].literals if literal not in false}
        if any(opposite(literal) in false for literal in open_literals):
            return looked, f"hint {hint} has a true literal: {text_of(steps[hint].literals)}"
        if len(open_literals) > 1:
            return looked, f"hint {hint} has open literals: {text_of(open_literals)}"
        if not open_literals:
            return looked, None
        false.add(opposite(open_literals.pop()))
    return len(hints), "the hints are at an end, and no clause was false"


def judge(data):
    """Judges the bytes of a file. Words are returned only where they are well formed."""
    try:
        if len(data) > MOST_BYTES:
            raise NotACertificate(f"more than {MOST_BYTES} bytes")
        words, proofs = Reader(data).certificate()
    except NotACertificate as fault:
        return Judgement(6, "", f"not a certificate: {fault}", None, [])
    checked = Words(words)
    if checked.why:
        at = len(checked.classes)
        return Judgement(1, f"rejected words at {at}\n", f"word {at}, {words[at]:016x}: {checked.why}", None, [])
    for number, proof in enumerate(proofs, 1):
        if why := checked.proof_fault(*proof):
            return Judgement(1, f"rejected proof {number}\n", f"proof {number}: {why}", words, proofs)
    return Judgement(0, f"accepted {len(proofs)}\n", "", words, proofs)


def further(found, given):
    """Gives the lines that are asked for besides the judgement, and writes the files."""
    if given.why and found.why:
        yield found.why
    if (given.show or given.tried) and found.words is not None:
        import certificate_words
        yield from certificate_words.lines(found.words, [root for root, _ in found.proofs], given.show, given.tried)
    if given.lrat and found.status == 0:
        import certificate_lrat
        certificate_lrat.write(given.lrat, [steps for _, steps in found.proofs])


def main():
    """Judges a file, and returns the exit status."""
    parser = argparse.ArgumentParser(prog="check_certificate.py", description="Judges a certificate.")
    parser.add_argument("--why", action="store_true", help="name the step at fault, and what its clause should have been")
    parser.add_argument("--show", action="store_true", help="print the commits, and the conditions that are refuted")
    parser.add_argument("--try", action="store_true", dest="tried", help="value the nulls below each root")
    parser.add_argument("--lrat", metavar="NAME", help="write NAME.J.cnf and NAME.J.lrat for each proof J")
    parser.add_argument("file", metavar="FILE", help="the certificate")
    given = parser.parse_args()
    try:
        with open(given.file, "rb") as file:
            found = judge(file.read(MOST_BYTES + 1))
    except OSError as fault:
        found = Judgement(3, "", fault.strerror, None, [])
    if not found.line:
        print(f"check_certificate.py: {given.file}: {found.why}", file=sys.stderr)
        return found.status
    try:
        text = found.line + "".join(line + "\n" for line in further(found, given))
        sys.stdout.buffer.write(text.encode("utf-8", "replace"))
        sys.stdout.buffer.flush()
    except (OSError, AttributeError) as fault:
        print(f"check_certificate.py: an output could not be written: {fault}", file=sys.stderr)
        os.dup2(os.open(os.devnull, os.O_WRONLY), 1)
        return 4
    return found.status


if __name__ == "__main__":
    sys.exit(main())
