"""Follows the sessions of a run over the history that its transcript prints, and judges each reply.

A reply that carries a version is judged by that many of the printed commits. A refusal carries none, so it is right where
some version from the last one on has its cause; the session goes on from the first such version, with which all else can
still come.
"""

import re

from judging import JUDGES, is_admitting, wrong_commit
from meaning import ASSERTIONS, TooMany, tables_of
from names import check, headed
from printed import history, parts
from reading import Refused, statement, statements
from session import KINDS_OF_CHANGE, KINDS_WITH_A_QUERY, is_too_large, schema_of, with_nulls

ORDERS = ("begin", "commit", "rollback")


class Wrong(Exception):
    """What is wrong with a reply."""


def wanted(said, due):
    """Raises what is wrong where another line than the one due was said."""
    if said != due:
        raise Wrong(f"{due} is due, and not: {said}")


def reads_of(tree):
    """Returns what a statement reads, each once, in the order of its text."""
    if tree[0] == "create":
        return [tree[1]]
    if tree[0] == "assert":
        return ["worlds"]
    if tree[0] in KINDS_WITH_A_QUERY:
        return list(dict.fromkeys(tables_of(tree[-1]) + ["worlds"]))
    return [tree[1], "worlds"] if tree[0] == "assert key" else []


class History:
    """The printed commits of a run."""

    def __init__(self, written):
        self.sessions = [by for by, _ in written]
        self.commits = [changes for _, changes in written]

    def changes(self, version):
        """Returns the changes of the first commits."""
        return sum(self.commits[:version], [])

    def last(self, version, read):
        """Returns the number of the last of the first commits that writes what is read, or 0."""
        for number in range(version, 0, -1):
            if any(read == ("worlds" if one[0] in ASSERTIONS else one[1]) for one, _ in self.commits[number - 1]):
                return number
        return 0

    def first_written(self, base, version, reads):
        """Returns the first of these reads that a commit after the base writes, up to a version, or None."""
        return next((read for read in reads if self.last(version, read) > base), None)


class Transaction:
    """An open transaction: its base, its changes, and what it read."""

    def __init__(self, base):
        self.base = base
        self.changes = []
        self.reads = []


class Follower:
    """A session: its number, the greatest version of its replies, how many nulls it drew, the numbers of its commits, and
    its open transaction."""

    def __init__(self, number, run):
        self.number = number
        self.run = run
        self.seen = 0
        self.drawn = 0
        self.made = []
        self.open = None
        self.conflicts = 0

    def versions(self):
        """Returns the versions that a statement may see."""
        return [self.open.base] if self.open else range(self.seen, len(self.run.commits) + 1)

    def view(self, version):
        """Returns the changes that a statement sees at a version."""
        return self.run.changes(version) + (self.open.changes if self.open else [])

    def carry(self, version):
        """Takes note of the version of a reply."""
        if version not in self.versions():
            raise Wrong(f"version {version}, after {self.seen} of {len(self.run.commits)}")
        self.seen = max(self.seen, version)

    def checked(self, tree, version):
        """Returns what a statement sees that is not to be refused there for its names and counts."""
        changes = self.view(version)
        try:
            check(tree, schema_of(changes))
        except Refused as refusal:
            raise Wrong(f"refused {refusal} is due at {version}") from refusal
        return changes

    def is_cause(self, name, tree, version):
        """Tells whether a statement is to be refused so at a version, or may be."""
        changes = self.view(version)
        try:
            check(tree, schema_of(changes))
        except Refused as refusal:
            return str(refusal) == name
        if name == "Inconsistent":
            return tree[0] in ASSERTIONS and not is_admitting(changes, tree)
        return name == "TooLarge" and is_too_large(tree, changes)

    def refuse(self, tree, said):
        """Judges a refusal at what a statement sees."""
        name = said.removeprefix("refused ")
        for version in self.versions():
            if self.is_cause(name, tree, version):
                self.carry(version)
                return
        raise Wrong(f"{said} has no cause from version {self.seen} on")

    def is_conflict(self, base, reads, table, was, now, version):
        """Tells whether this is the conflict of a commit from a base with these reads."""
        return (
            self.run.first_written(base, version, reads) == table
            and was == self.run.last(base, table)
            and now == self.run.last(version, table)
        )

    def conflict(self, bases, said):
        """Judges a conflict of a commit from one of these bases, each with its reads."""
        found = re.fullmatch(r"refused Conflict (\w+) was (\d+) now (\d+) at (\d+)", said)
        if not found:
            raise Wrong(f"{said} is no conflict")
        table, (was, now, version) = found[1], map(int, found.groups()[1:])
        if version > len(self.run.commits) or not any(
            self.is_conflict(base, reads, table, was, now, version) for base, reads in bases if base < version
        ):
            raise Wrong(f"{said} has no cause from version {self.seen} on")
        self.open = None
        self.carry(version)
        self.conflicts += 1

    def has_names(self, tree, version):
        """Tells whether a statement is not to be refused at a version for its names and counts."""
        try:
            check(tree, schema_of(self.view(version)))
        except Refused:
            return False
        return True

    def bases(self, tree):
        """Returns the versions from which an action may be committed at once, each with what it reads."""
        return [(base, reads_of(tree)) for base in self.versions() if self.has_names(tree, base)]

    def commit(self, said, base, changes, reads):
        """Judges a commit of changes from a base, with what they read."""
        found = re.fullmatch(r"committed (\d+)", said)
        if not found:
            raise Wrong(f"a commit is due, and not: {said}")
        number = int(found[1])
        if not base < number <= len(self.run.commits):
            raise Wrong(f"commit {number}, from {base} of {len(self.run.commits)}")
        if self.run.sessions[number - 1] != self.number:
            raise Wrong(f"commit {number} is of session {self.run.sessions[number - 1]}")
        if read := self.run.first_written(base, number - 1, reads):
            raise Wrong(f"commit {number} read {read}, which was written after {base}")
        before = self.run.commits[: number - 1]
        if wrong := wrong_commit(before + [changes], self.run.commits[:number]):
            raise Wrong(f"commit {number}: {wrong}")
        self.open = None
        self.made.append(number)
        self.carry(number)

    def begin(self, said):
        if self.open:
            return wanted(said, "refused InTransaction")
        found = re.fullmatch(r"begun at (\d+)", said)
        if not found:
            raise Wrong(f"begun is due, and not: {said}")
        self.carry(int(found[1]))
        self.open = Transaction(self.seen)

    def end(self, kind, said):
        """Judges the reply to COMMIT or ROLLBACK."""
        if not self.open:
            return wanted(said, "refused NoTransaction")
        base, changes, reads = self.open.base, self.open.changes, self.open.reads
        if kind == "rollback" or not changes:
            wanted(said, "rolled back" if kind == "rollback" else f"nothing to commit at {base}")
            self.open = None
        elif said.startswith("refused Conflict"):
            self.conflict([(base, reads)], said)
        else:
            self.commit(said, base, changes, reads)

    def extend(self, change, tree, said):
        """Judges the reply to an action in a transaction, which has the change."""
        changes = self.checked(tree, self.open.base)
        if tree[0] in ASSERTIONS and not is_admitting(changes, tree):
            raise Wrong("refused Inconsistent is due")
        wanted(said, f"pending at {self.open.base} plus {len(self.open.changes) + 1}")
        self.open.changes.append((change, {}))
        self.read(tree)

    def act(self, tree, said):
        """Judges the reply to an action that is not refused at what it sees."""
        change, drawn = with_nulls(tree, self.number, self.drawn)
        if self.open:
            self.extend(change, tree, said)
        elif said.startswith("refused Conflict"):
            return self.conflict(self.bases(tree), said)
        else:
            number = re.fullmatch(r"committed ([1-9]\d*)", said)
            if number and int(number[1]) <= len(self.run.commits):
                self.checked(tree, int(number[1]) - 1)
            self.commit(said, self.seen, [(change, {})], [])
        self.drawn = drawn

    def ask(self, tree, lines):
        """Judges an answer."""
        said = lines[0].partition(" ")[2]
        found = re.search(r" at (\d+)(?: plus \d+)?$", said)
        if not found:
            raise Wrong(f"an answer is due, and not: {said}")
        version = int(found[1])
        self.carry(version)
        changes = self.checked(tree, version)
        columns = ", ".join(headed(tree[1], schema_of(changes)))
        plus = f" plus {len(self.open.changes)}" if self.open and self.open.changes else ""
        wanted(said, f"{tree[0]} ({columns}) at {version}{plus}")
        if wrong := JUDGES[tree[0]](tree[1], changes, lines[1:]):
            raise Wrong(wrong)
        self.read(tree)

    def read(self, tree):
        """Takes note of what a statement of a transaction read."""
        if self.open:
            self.open.reads += [read for read in reads_of(tree) if read not in self.open.reads]

    def judge(self, text, lines):
        """Judges the reply to a statement, and goes on to the state after it."""
        said = lines[0].partition(" ")[2]
        try:
            tree = statement(text)
        except Refused as refusal:
            return wanted(said, f"refused {refusal}")
        is_refusal = said.startswith("refused ") and not said.startswith("refused Conflict")
        if tree[0] == "begin":
            self.begin(said)
        elif tree[0] in ORDERS:
            self.end(tree[0], said)
        elif is_refusal:
            self.refuse(tree, said)
        elif tree[0] in KINDS_OF_CHANGE:
            self.act(tree, said)
        else:
            return self.ask(tree, lines)
        if lines[1:]:
            raise Wrong("more than one line")


def wrong_session(session, script, replies):
    """Gives what is wrong with the replies of a session. Where one is wrong, those after it are not judged."""
    for number, text in enumerate(statements(script), 1):
        where = f"session {session.number}, statement {number}, {' '.join(text.split())}"
        if number not in replies:
            yield f"{where}: no reply"
            return
        try:
            session.judge(text, replies.pop(number))
        except Wrong as wrong:
            yield f"{where}: {wrong}"
            return
        except (Refused, ValueError, KeyError, TooMany) as fault:
            yield f"{where}: {type(fault).__name__}: {fault}"
            return
    for lines in replies.values():
        yield f"session {session.number}: a reply to no statement: {lines[0]}"
    own = [number for number, by in enumerate(session.run.sessions, 1) if by == session.number]
    if own != session.made:
        yield f"session {session.number}: commits {own} are printed, and {session.made} were replied"


def wrong_history(run, count):
    """Gives what is wrong with the history of so many sessions."""
    for number, by in enumerate(run.sessions, 1):
        if not 1 <= by <= count:
            yield f"commit {number} is of session {by}"
    for version in range(len(run.commits) + 1):
        if not is_admitting(run.changes(version), ("assert", ("true",))):
            yield f"no world is left at version {version}"


class Judged:
    """What was found in the transcript of a run: its faults, how many replies and commits it has, how many conflicts there
    were, and whether a session committed between two commits of another one."""

    def __init__(self, scripts, text, follower=Follower):
        self.faults, self.count, self.conflicts, self.took_turns = [], 0, 0, False
        try:
            replies, lines = parts(text)
            run = History(history(lines))
        except (ValueError, Refused) as fault:
            self.faults.append(f"no transcript: {fault}")
            return
        if len(replies) != len(scripts):
            self.faults.append(f"{len(replies)} sessions, and {len(scripts)} scripts")
            return
        self.count = sum(map(len, replies)) + len(run.commits)
        for number, (script, given) in enumerate(zip(scripts, replies), 1):
            session = follower(number, run)
            self.faults += wrong_session(session, script, given)
            self.conflicts += session.conflicts
        self.faults += wrong_history(run, len(scripts))
        changes = sum(a != b for a, b in zip(run.sessions, run.sessions[1:]))
        self.took_turns = changes >= len(set(run.sessions))
