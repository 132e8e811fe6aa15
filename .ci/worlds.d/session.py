"""Follows a script as one session, and judges each reply."""

from judging import JUDGES, is_admitting, wrong_commit
from meaning import ASSERTIONS, TooMany, greatest_part
from names import check, headed
from reading import Refused, statement

KINDS_OF_CHANGE = ("create", "insert", "insert query", "delete", "update", *ASSERTIONS)
KINDS_WITH_A_QUERY = ("rows", "possible", "certain", "insert query", "assert query")
MOST_ROWS = 16_777_216


def schema_of(changes):
    """Returns the columns of each table that changes create."""
    return {change[1]: change[2] for change, _ in changes if change[0] == "create"}


def with_nulls(change, session, drawn):
    """Returns a change with nulls for its NULLs, and how many the session has drawn then; before it, it drew so many."""
    if change[0] != "insert":
        return change, drawn
    rows = []
    for row in change[2]:
        cells = []
        for cell in row:
            drawn += cell[0] == "fresh"
            cells.append(("null", f"?{session}#{drawn}") if cell[0] == "fresh" else cell)
        rows.append(tuple(cells))
    return (*change[:2], rows, change[3]), drawn


def is_too_large(tree, changes):
    """Tells whether a statement may be refused for the size of its query or key, where it sees these changes."""
    return tree[0] in (*KINDS_WITH_A_QUERY, "assert key") and greatest_part(tree, changes) > MOST_ROWS


class Session:
    """The commits so far, the changes of the open transaction if there is one, and how many nulls were drawn."""

    def __init__(self):
        self.commits = []
        self.own = None
        self.drawn = 0

    def changes(self):
        """Returns the changes that a statement sees: those of the commits, and the transaction's own."""
        return sum(self.commits, []) + (self.own or [])

    def schema(self):
        return schema_of(self.changes())

    def place(self):
        """Returns what the head of an answer says of the version."""
        return f"at {len(self.commits)}" + (f" plus {len(self.own)}" if self.own else "")

    def change(self, change):
        """Makes a change. Returns the reply that is due."""
        if change[0] in ASSERTIONS and not is_admitting(self.changes(), change):
            raise Refused("Inconsistent")
        made, self.drawn = with_nulls(change, 1, self.drawn)
        if self.own is None:
            self.commits.append([(made, {})])
            return f"committed {len(self.commits)}"
        self.own.append((made, {}))
        return f"pending at {len(self.commits)} plus {len(self.own)}"

    def begin(self):
        if self.own is not None:
            raise Refused("InTransaction")
        self.own = []
        return f"begun at {len(self.commits)}"

    def end(self, kind):
        """Ends the transaction. Returns the reply that is due."""
        if self.own is None:
            raise Refused("NoTransaction")
        own, self.own = self.own, None
        if kind == "rollback":
            return "rolled back"
        if not own:
            return f"nothing to commit at {len(self.commits)}"
        self.commits.append(own)
        return f"committed {len(self.commits)}"

    def head(self, tree):
        """Returns the head of the answer that is due."""
        return f"{tree[0]} ({', '.join(headed(tree[1], self.schema()))}) {self.place()}"

    def due(self, tree):
        """Returns the first line that is due to a statement, or refuses it. Changes what it changes."""
        if tree[0] == "begin":
            return self.begin()
        if tree[0] in ("commit", "rollback"):
            return self.end(tree[0])
        check(tree, self.schema())
        return self.change(tree) if tree[0] in KINDS_OF_CHANGE else self.head(tree)

    def wrong_limit(self, tree):
        """Returns what is wrong with a refusal for the size of a query, or None."""
        check(tree, self.schema())
        return None if is_too_large(tree, self.changes()) else "TooLarge within the limit"


def wrong_reply(session, text, lines):
    """Returns what is wrong with the reply to a statement, or None."""
    number, _, said = lines[0].partition(" ")
    try:
        tree = statement(text)
        if said == "refused TooLarge":
            return session.wrong_limit(tree)
        due = session.due(tree)
    except Refused as refusal:
        due = f"refused {refusal}"
    if said != due:
        return f"{number} {due} is due, and not: {lines[0]}"
    if due.startswith(("rows ", "possible ", "certain ")):
        return JUDGES[tree[0]](tree[1], session.changes(), lines[1:])
    return "more than one line" if lines[1:] else None


def wrong_statement(session, text, lines):
    """Returns what is wrong with the reply to a statement, also where it can't be read or tried."""
    if not lines:
        return "no reply"
    try:
        return wrong_reply(session, text, lines)
    except Refused:
        return "lines that are not read"
    except (ValueError, KeyError, TooMany) as fault:
        return f"{type(fault).__name__}: {fault}"


def wrong_history(session, written):
    """Returns for each commit of the printed history what is wrong with it."""
    if len(written) != len(session.commits):
        return [f"{len(written)} commits are printed, and {len(session.commits)} were made"]
    found = []
    for m in range(1, len(written) + 1):
        try:
            wrong = wrong_commit(session.commits[:m], written[:m])
        except (KeyError, TooMany) as fault:
            wrong = f"{type(fault).__name__}: {fault}"
        found.append(wrong and f"commit {m}: {wrong}")
    return found
