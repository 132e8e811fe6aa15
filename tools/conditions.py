"""Conditions of a transcript, and what they say of nulls.

The conditions of an answer, or of a commit, are a list of nodes in which children stand before their parents. A node is
("=", s, t) or ("<>", s, t) with two terms, ("and", i, ..) or ("or", i, ..) with places of earlier nodes, ("true",) or
("false",). A term is the text that is printed for it: `?x` is a null, and constants are equal exactly where their texts
are. A column `$1` stands only in a condition that a deletion of the history names, and nothing is asked of those.
Conditions may nest deep, so no function here calls itself.
"""

import collections


def is_null(term):
    """Tells whether a term is a null."""
    return term.startswith("?")


def same_text(s, t):
    """Says of two terms whether they are equal, or None where that depends on a null."""
    if s == t:
        return True
    return None if is_null(s) or is_null(t) else False


def in_world(world):
    """Returns what says whether two terms are equal where nulls have the values of a world. Others stay open."""
    return lambda s, t: same_text(world.get(s, s), world.get(t, t))


def combined(word, given):
    """Returns the truth of an `and` or an `or` by those of its children: True, False, or None where it is open."""
    # One False decides an `and`, and one True an `or`.
    deciding = word == "or"
    if deciding in given:
        return deciding
    return None if None in given else not deciding


def truths(nodes, equal):
    """Returns for each node True, False, or None where it is open. `equal` says so of two terms."""
    found = []
    for word, *parts in nodes:
        if word in ("=", "<>"):
            truth = equal(*parts)
            found.append(truth if truth is None or word == "=" else not truth)
        elif word in ("and", "or"):
            found.append(combined(word, [found[place] for place in parts]))
        else:
            found.append(word == "true")
    return found


class Known:
    """What a condition that holds says of single nulls: which are equal to a constant or to each other, and which terms
    differ. It may say more than is found: of `?x = 1 or ?x = 2` nothing is."""

    def __init__(self):
        self.equals = {}
        self.different = []
        self.pairs = set()

    def worth(self, term):
        """Returns the constant that a term equals, or the null that stands for all that are equal to it."""
        while term in self.equals:
            term = self.equals[term]
        return term

    def equal(self, s, t):
        """Says of two terms whether they are equal, or None where that is not known."""
        s, t = self.worth(s), self.worth(t)
        return False if s != t and (s, t) in self.pairs else same_text(s, t)

    def take(self, word, s, t):
        """Takes note of `s = t` or `s <> t`."""
        if word == "<>":
            self.different.append((s, t))
            return
        s, t = self.worth(s), self.worth(t)
        if s != t and is_null(s):
            self.equals[s] = t
        elif s != t and is_null(t):
            self.equals[t] = s

    def settle(self):
        """Puts the pairs of terms that differ into the form in which they are asked for."""
        pairs = [(self.worth(s), self.worth(t)) for s, t in self.different]
        self.pairs = {*pairs, *((t, s) for s, t in pairs)}

    def constants(self):
        """Returns the nulls that have a constant, with it."""
        found = {null: self.worth(null) for null in self.equals}
        return {null: value for null, value in found.items() if not is_null(value)}


def due(nodes, root, truth):
    """Returns the comparisons that hold, and are open by now, where the node `root` holds."""
    found, left = [], [root]
    while left:
        place = left.pop()
        word, *parts = nodes[place]
        if truth[place] is not None:
            continue
        if word in ("=", "<>"):
            found.append((word, *parts))
        elif word == "and":
            left += parts
        elif len(still := [part for part in parts if truth[part] is None]) == 1:
            left += still
    return found


def known(nodes, root):
    """Returns what is known where the node `root` holds."""
    found = Known()
    while more := due(nodes, root, truths(nodes, found.equal)):
        for comparison in more:
            found.take(*comparison)
        found.settle()
    return found


def written(word, s, t):
    """Returns the text of a comparison, with a null before a constant."""
    return f"{s} {word} {t}" if is_null(s) or not is_null(t) else f"{t} {word} {s}"


def text(nodes, root, truth, names, worth=lambda term: term):
    """Returns the text of an open node: parts that are decided are left out, and each term is put as `worth` has it.
    `names` has places with a name, which is written for them but not for the root itself."""
    pieces, left = [], [(root, False)]
    while left:
        place, is_inner = left.pop()
        if isinstance(place, str):
            pieces.append(place)
            continue
        word, *parts = nodes[place]
        if place in names and place != root:
            pieces.append(names[place])
        elif word in ("=", "<>"):
            pieces.append(written(word, *map(worth, parts)))
        else:
            still = [part for part in parts if truth[part] is None]
            left += reversed(between(still, word, is_inner))
    return "".join(pieces)


def between(parts, word, is_inner):
    """Returns what is to be written for the parts of an `and` or an `or`, one after another."""
    if len(parts) == 1:
        return [(parts[0], is_inner)]
    found = []
    for part in parts:
        found += [(f" {word} ", False), (part, True)]
    return [("(", False), *found[1:], (")", False)] if is_inner else found[1:]


def masks(nodes, truth, worth):
    """Returns the nulls of the open nodes, and for each node a number with one bit for each of these nulls: those that the
    node has. Numbers, since a node has the bits of all nodes below it, and may be deep."""
    bits, found = {}, []
    for (word, *parts), is_true in zip(nodes, truth):
        has = 0
        if is_true is None and word in ("=", "<>"):
            for term in filter(is_null, map(worth, parts)):
                has |= bits.setdefault(term, 1 << len(bits))
        elif is_true is None:
            for place in parts:
                has |= found[place]
        found.append(has)
    return list(bits), found


def hanging(nodes, places, truth, worth=lambda term: term):
    """Returns how many of the conditions at these places each null is in, where that is any."""
    nulls, has = masks(nodes, truth, worth)
    found = collections.Counter()
    for bits, count in collections.Counter(has[place] for place in places).items():
        while bits:
            lowest = bits & -bits
            found[nulls[lowest.bit_length() - 1]] += count
            bits -= lowest
    return found
