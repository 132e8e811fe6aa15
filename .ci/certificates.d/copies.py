"""Wrong copies of tools/check_certificate.py, each by one edit of its text. Each has to be told from a right checker."""

import types

COPIES = {
    "no test of repeats": (' = "it stands at an earlier place" if word in seen else self', " = self"),
    "a kind too many": ('"Change Text UpdateBody")', '"Change Text UpdateBody", "Commit 0 0")'),
    "equal fields let in": ("kind in (EQUAL, AND, OR) and b <= a", "kind in (EQUAL, AND, OR) and b < a"),
    "any character let in": ("value < 55296 or 57344 <= value <= 1114111", "value <= 1114111"),
    "a word that is its own field": (
        "return place < len(self.classes) and",
        "return place == len(self.classes) or place < len(self.classes) and",
    ),
    "literals of any class": ("if wrong := [literal for", "if wrong := [literal for literal in () for"),
    "a clause that may have less": ("if set(step.literals) == wanted", "if set(step.literals) <= wanted"),
    "a clause that may have more": ("if set(step.literals) == wanted", "if set(step.literals) >= wanted"),
    "a path not looked at": ("return self.path(step.places) if", "return set(step.literals) if"),
    "a path that comes back": ("places[0] == places[-1] or ", ""),
    "the ends of a path never constants": ("are_constants = all(", "are_constants = not all("),
    "hints of later steps let in": ("if hint >= number]", "if hint >= len(steps)]"),
    "only the first hint tested": ("for hint in hints if hint >= number]", "for hint in hints[:1] if hint >= number]"),
    "true literals let through": ("if any(opposite(literal) in false for", "if any(opposite(literal) in () for"),
    "two open literals let through": ("if len(open_literals) > 1:", "if len(open_literals) > 2:"),
    "hints that end without a false clause": ('return len(hints), "the hints', 'return len(hints), None and "the hints'),
    "the last clause not looked at": ("if not steps or steps[-1].literals:", "if not steps:"),
    "no step is enough": ("if not steps or steps[-1].literals:", "if steps and steps[-1].literals:"),
}


def copies(text):
    """Returns the copies of a checker's text as modules, by their names."""
    found = {}
    for name, (old, new) in COPIES.items():
        if text.count(old) != 1:
            raise ValueError(f"{name}: {old!r} stands {text.count(old)} times in the checker")
        found[name] = types.ModuleType(name)
        exec(compile(text.replace(old, new), name, "exec"), found[name].__dict__)
    return found


def judged_by(copy, data):
    """Returns how a copy judges bytes, or None where it fails, as one may that looks at a step that is not there."""
    try:
        return tuple(copy.judge(data)[:2])
    except IndexError:
        return None


def alike(text, judged):
    """Returns how many copies there are, and the names of those that judge all of these bytes as they were judged."""
    found = copies(text)
    return len(found), [name for name, copy in found.items() if all(judged_by(copy, data) == said for data, said in judged)]
