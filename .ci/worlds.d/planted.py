"""Two lawful transcripts of two sessions each, and unlawful ones that differ from them: what each shows, its edits, and what
has to be said of it."""

SCRIPTS = [
    "create table t (a); insert into t values (1); begin; select a from t; insert into t values (?x); commit;"
    "assert ?x = 1 or ?x = 2; certain select a from t",
    "begin; select a from t; insert into t values (2); commit; insert into t values (3); possible select a from t",
]

TRANSCRIPT = """session 1
1 committed 1
2 committed 2
3 begun at 2
4 rows (a) at 2
  (1)
5 pending at 2 plus 1
6 committed 3
7 committed 5
8 certain (a) at 5
  (1) absence refuted
  (3) absence refuted
session 2
1 begun at 2
2 rows (a) at 2
  (1)
3 pending at 2 plus 1
4 refused Conflict t was 2 now 3 at 3
5 committed 4
6 possible (a) at 5
  (1) in ?x = 1
  (?x) in ?x = 2
  (3) in ?x = 1
history
1 by 1
  create table t (a)
2 by 1
  insert into t (1)
3 by 1
  insert into t (?x)
4 by 2
  insert into t (3)
5 by 1
  assert ?x = 1 or ?x = 2
end
"""

PLANTED = [
    (
        "a dirty read",
        [("2 rows (a) at 2\n  (1)\n3", "2 rows (a) at 2\n  (1)\n  (?x)\n3")],
        "a row that the query does not combine",
    ),
    ("a lost commit", [("5 by 1\n  assert ?x = 1 or ?x = 2\n", "")], "commit 5, from 3 of 4"),
    (
        "a commit that stands twice",
        [("5 by 1\n", "5 by 2\n  insert into t (3)\n6 by 1\n"), ("7 committed 5", "7 committed 6")],
        "commits [4, 5] are printed, and [4] were replied",
    ),
    (
        "swapped replies",
        [("3 begun at 2\n4 rows (a) at 2\n  (1)\n", "3 rows (a) at 2\n  (1)\n4 begun at 2\n")],
        "begun is due",
    ),
    (
        "a version that goes back",
        [("8 certain (a) at 5\n  (1) absence refuted\n  (3) absence refuted\n", "8 certain (a) at 2\n  (1) absence refuted\n")],
        "version 2, after 5 of 5",
    ),
    (
        "a read that changed",
        [("4 refused Conflict t was 2 now 3 at 3\n5 committed 4", "4 committed 4"), ("insert into t (3)", "insert into t (2)")],
        "commit 4 read t, which was written after 2",
    ),
    ("a conflict without a cause", [("Conflict t was 2 now 3 at 3", "Conflict worlds was 0 now 3 at 3")], "has no cause"),
    ("a commit of another session", [("4 by 2", "4 by 1")], "commit 4 is of session 1"),
    ("a commit that does something else", [("insert into t (3)", "insert into t (2)")], "commit 4: "),
    (
        "a certain row that is not",
        [("  (3) absence refuted\n", "  (2) absence refuted\n  (3) absence refuted\n")],
        "not the rows",
    ),
    ("a world that is not admitted", [("(?x) in ?x = 2", "(?x) in ?x = 3")], "a world that is not admitted"),
]

# Changes that read nothing, and assertions that read tables.
ASSERTING_SCRIPTS = [
    "create table t (a, b); insert into t values (1, 2); begin; update t set a = b, b = a; commit; begin;"
    "assert not exists (select a from t where a = ?y); commit; assert key t (a); certain select a from t",
    "begin; select * from t; insert into t values (2, ?x); commit; update t set b = 4 where b = 1; possible select a from t",
]

ASSERTING = """session 1
1 committed 1
2 committed 2
3 begun at 2
4 pending at 2 plus 1
5 committed 4
6 begun at 4
7 pending at 4 plus 1
8 refused Conflict t was 4 now 5 at 5
9 committed 6
10 certain (a) at 6
  (2) absence refuted
session 2
1 begun at 2
2 rows (a, b) at 2
  (1, 2)
3 pending at 2 plus 1
4 committed 3
5 committed 5
6 possible (a) at 6
  (2) in default
  (?x) in ?x = 3
history
1 by 1
  create table t (a, b)
2 by 1
  insert into t (1, 2)
3 by 2
  insert into t (2, ?x)
4 by 1
  update t set $1 = $2, $2 = $1 where true
5 by 2
  update t set $2 = 4 where $2 = 1
6 by 1
  assert ?x <> 2
end
"""

PLANTED_ASSERTING = [
    ("an update in conflict", [("5 committed 4", "5 refused Conflict t was 2 now 3 at 3")], "has no cause"),
    (
        "an assertion over a query whose table was written",
        [("8 refused Conflict t was 4 now 5 at 5", "8 committed 6")],
        "commit 6 read t, which was written after 4",
    ),
    ("a key that takes nulls for names", [("assert ?x <> 2", "assert true")], "commit 6: other worlds"),
    ("an update of new values", [("$1 = $2, $2 = $1", "$1 = $2, $2 = $2")], "commit 4: "),
    ("an update of other rows", [("where $2 = 1", "where $2 = 2")], "commit 5: another database"),
]

# Each lawful transcript with its scripts, and with the edits that make it unlawful.
LAWFUL = [(SCRIPTS, TRANSCRIPT, PLANTED), (ASSERTING_SCRIPTS, ASSERTING, PLANTED_ASSERTING)]


def edited(text, edits):
    """Returns a transcript with edits, each of a text that it has once."""
    for old, new in edits:
        if text.count(old) != 1:
            raise ValueError(f"a text that is not there once: {old!r}")
        text = text.replace(old, new)
    return text
