"""Tries what tools/check_certificate.py does besides judging: its words and statuses, what its options print, and whether
`--try` finds a world where there is one."""

import itertools
import os
import subprocess
import sys

import cases
import certificate_words
import check_certificate
import made

TOOL = os.path.realpath(check_certificate.__file__)
STEP_6 = "proof 1: step 6, : rup"
# Words of the command line, an edit of the certificate of docs/CERTIFICATES.md, and what has to come of them: the status, and
# the lines of standard output.
COMMANDS = (
    ([], None, 0, "accepted 1\n"),
    (["--why"], None, 0, "accepted 1\n"),
    (
        ["--show", "--try"],
        None,
        0,
        "accepted 1\nproof 1: (?x = 1 and ?x = 2)\nproof 1: holds in none of 3 worlds (nulls: 1, values: 3)\n",
    ),
    ([], ("proof 10 7", "proof 9 7"), 1, "rejected proof 1\n"),
    (
        ["--why", "--show", "--try"],
        ("proof 10 7", "proof 9 7"),
        1,
        "rejected proof 1\nproof 1: step 0, +n10 : root: its clause should have been: +n9\n"
        "proof 1: ?x = 2\nproof 1: HOLDS where ?x = 2\n",
    ),
    (
        ["--why"],
        ("0 1 2 3 4 5", "0 1 2 5 3 4"),
        1,
        f"rejected proof 1\n{STEP_6} 0 1 2 5 3 4: hint 5 has open literals: -s4,6 -s4,7\n",
    ),
    (
        ["--why"],
        ("0 1 2 3 4 5", "0 0 1 2 3 4 5"),
        1,
        f"rejected proof 1\n{STEP_6} 0 0 1 2 3 4 5: hint 0 has a true literal: +n10\n",
    ),
    (
        ["--why", "--show", "--try"],
        ("0600000030000000", "0600000030000001"),
        1,
        "rejected words at 4\nword 4, 0600000030000001: a field is 1, where 0 is wanted\n",
    ),
    (["--why", "--show", "--try"], ("proof 10 7", "proof 10 8"), 6, ""),
    ([], ("end\n", ""), 6, ""),
    (["--no-such-word"], None, 2, ""),
)
LRAT = {
    "cnf": "p cnf 5 6\n1 0\n-1 2 0\n-1 3 0\n-2 4 0\n-3 5 0\n-4 -5 0\n",
    "lrat": "7 0 1 2 3 4 5 6 0\n",
}
# So many conditions are valued, each for so many worlds at a time.
CONDITIONS = 150
AT_A_TIME = (1, 8, certificate_words.AT_A_TIME)


def called(*words):
    """Calls the checker. Returns its status and its standard output."""
    ran = subprocess.run([sys.executable, TOOL, *words], capture_output=True, check=False)
    return ran.returncode, ran.stdout.decode()


def put(path, text):
    """Writes a file."""
    with open(path, "w", encoding="ascii", newline="\n") as file:
        file.write(text)


def wrong_commands(both, page):
    """Gives what is wrong with the command. Without options it does what `check` does."""
    text, path = cases.shown(page), os.path.join(both.room, "shown")
    for words, edit, status, printed in COMMANDS:
        put(path, cases.replaced(text, *edit) if edit else text)
        if (found := called(*words, path)) != (status, printed):
            yield f"check_certificate.py {words}, with {edit}: {found}"
        if not words and (found := both.run("check", path)) != (status, printed.encode()):
            yield f"check, with {edit}: {found}"
    yield from wrong_lrat(text, path)


def wrong_lrat(text, path):
    """Gives what is wrong with the files that `--lrat` writes."""
    put(path, text)
    called("--lrat", path, path)
    for end, wanted in LRAT.items():
        with open(f"{path}.1.{end}", encoding="ascii") as file:
            if (found := file.read()) != wanted:
                yield f"check_certificate.py --lrat: in the file .{end} stands {found!r}"


def wrong_files(both):
    """Gives the files that are no certificates, or none at all, of which one of the two says something else."""
    none, empty, long = (os.path.join(both.room, name) for name in ("none", "empty", "long"))
    for path, length in ((empty, 0), (long, check_certificate.MOST_BYTES + 1)):
        with open(path, "wb") as file:
            file.truncate(length)
    for path, status in ((none, 3), (both.room, 3), (empty, 6), (long, 6)):
        if (found := called(path)) != (status, ""):
            yield f"check_certificate.py on {path}: {found}"
        if (found := both.run("check", path)) != (status, b""):
            yield f"check on {path}: {found}"


def truth(words, place, world):
    """Whether a condition holds, where terms have values."""
    kind, a, b = words.fields(place)
    if kind == made.EQUAL:
        return world[a] == world[b]
    if kind == made.NOT:
        return not truth(words, a, world)
    if kind in (made.AND, made.OR):
        return (all if kind == made.AND else any)(truth(words, part, world) for part in (a, b))
    return kind == 10


def condition(number):
    """Returns words, and a condition over few terms in them."""
    words = made.Words(number)
    terms = sorted({words.term() for _ in range(6)})[-4:]
    root = words.condition(terms, 3)
    for _ in range(number % 3):
        other = words.condition(terms, 3)
        root = root if other == root else words.pair(made.AND, root, other)
    return words, root


def wrong_worlds():
    """Gives the conditions of which `--try` says something else than what comes of valuing all nulls one by one."""
    other = 8 << 56
    for number in range(CONDITIONS):
        words, root = condition(number)
        _, terms = words.below(root)
        nulls = [term for term in terms if words.fields(term)[0] in (6, 7)]
        fixed = {term: other if words.fields(term)[0] == 9 else words.words[term] for term in terms if term not in nulls}
        values = sorted({*fixed.values(), *(other | k << 28 for k in range(90, 90 + len(nulls)))})
        worlds = ({**fixed, **dict(zip(nulls, given))} for given in itertools.product(values, repeat=len(nulls)))
        is_somewhere = any(truth(words, root, world) for world in worlds)
        for certificate_words.AT_A_TIME in AT_A_TIME:
            found = certificate_words.Worlds(words.words, root).one()
            is_right = found is None or truth(words, root, {**fixed, **dict(zip(nulls, found))})
            if (found is not None) != is_somewhere or not is_right:
                yield f"--try on condition {number}: found {found}, and there is one: {is_somewhere}"


def wrongs(both, page):
    """Gives all that is wrong with the checker itself."""
    yield from wrong_commands(both, page)
    yield from wrong_files(both)
    yield from wrong_worlds()
