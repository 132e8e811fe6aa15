"""What `import` and `export` do at the limits of files, scripts, conditions and the log, with words that are no names, and with
files that are missing."""

import os

# The most bytes of a file and of a script, statements of a script, words of the log, and bytes and depth of a condition in a
# file.
BYTES, STATEMENTS, LOG, TEXT, NEST = 1_048_576, 65_535, 262_144, 65_536, 64

CREATE = "create table t (a);\n"
INSERT = "insert into t values (1);\n"
EMPTY = "a,if\n"
MADE = b"session 1\n1 committed 1\nhistory\n1 by 1\n  create table t (a)\nend\n"
TWICE = b"session 1\n1 refused DuplicateName\n2 refused UnknownTable\nhistory\nend\n"


def imports():
    """Gives what is tried, a table and a script, None for one that is missing, the status that is due, and what is to be
    written, None where this is not compared."""
    yield "a table of the most bytes", EMPTY.ljust(BYTES, "\n"), "", 0, MADE
    yield "a table of one byte more", EMPTY.ljust(BYTES + 1, "\n"), "", 6, b""
    yield "the most bytes of both scripts", EMPTY, " " * (BYTES - len(CREATE)), 0, MADE
    yield "one byte more of both scripts", EMPTY, " " * (BYTES - len(CREATE) + 1), 6, b""
    yield "the most statements of both scripts", EMPTY, "x;" * (STATEMENTS - 1), 1, None
    yield "one statement more of both scripts", EMPTY, "x;" * STATEMENTS, 6, b""
    long = EMPTY + "1,\n" * (BYTES // len(INSERT) + 1)
    yield "a table whose script is too long", long, "", 6, b""
    # Too long is the script with that of the file, which is read first.
    yield "a table whose script is too long, and no file", long, None, 3, b""
    yield "a table at fault, and no file", "a\n", None, 6, b""
    yield "no table", None, "", 3, b""
    yield "no table, and no file", None, None, 3, b""
    yield "a table with two columns of one name", "a,a,if\n1,2,\n", "", 1, TWICE


def nested(depth):
    """Returns a condition so deep as it is printed: an AND where the depth is even, else an OR."""
    found = "?x = 0 and ?y = 0"
    for level in range(1, depth + 1):
        found = f"?x_{level} = 0 {'or' if level % 2 else 'and'} ({found})"
    return found


def exports():
    """Gives what is tried, a script, the status that is due, and what is to be written."""
    letters = "y" * (TEXT - len("?x = ''"))
    for more in ("", "y"):
        script = f"{CREATE}insert into t values (1) if ?x = '{letters}{more}'"
        yield "the bytes of a condition", script, *((1, "") if more else (0, f"a,if\n1,?x = '{letters}'\n"))
    # The bytes are those with the gap's old name.
    letters = "y" * (TEXT - len("?1#1 <> ''"))
    for more in ("", "y"):
        script = f"{CREATE}insert into t values (NULL); delete from t where a = '{letters}{more}'"
        yield "the bytes before new names", script, *((1, "") if more else (0, f"a,if\n?n_1_1,?n_1_1 <> '{letters}'\n"))
    script = f"{CREATE}insert into t values (1) if {nested(NEST)};"
    yield "the depth of a condition", script, 0, f"a,if\n1,{nested(NEST)}\n"
    yield "one more in depth", f"{script} insert into t values (1) if ?z = 0", 1, ""
    script = f"{CREATE}insert into t values (3), (1), (2), (1)"
    yield "the order of rows, each once", script, 0, "a,if\n3,\n1,\n2,\n"
    script = f"{CREATE}insert into t values (1) if ?x = 1 and ?x = 2; insert into t values (2)"
    yield "a row that is never there", script, 0, "a,if\n2,\n"
    script = f"{CREATE}insert into t values (1) if ?x = 1 or ?y = 1 or ?x <> 1"
    yield "a row that is always there", script, 0, "a,if\n1,\n"
    # What is left of the log are at most the words of 100 commits, and each of these insertions takes one.
    text = f"create table u (a); insert into u values ('{'y' * (LOG - 100)}');\n"
    yield "a full log", CREATE + INSERT + text + INSERT * 100, 0, "a,if\n1,\n"


FULL = b"\n104 refused Full\n"

# Words for NAME that are names, and others.
NAMES = ("t", "T", "_T1")
NO_NAMES = ("", "select", "Select", "a-b", "1a", "a.b", " t", "t ", "\u00e4")


def tried_names(trials):
    """Tries words for NAME. Returns how many commands there are."""
    table, script = trials.file("name.csv", b"a,if\n"), trials.file("name.sql", CREATE.encode())
    for word in (*NAMES, *NO_NAMES):
        imported, exported = (2, b""), (2, b"")
        if word in NAMES:
            name = word.lower().encode()
            imported = (0, MADE.replace(b"table t", b"table " + name))
            exported = (0, b"a,if\n") if name == b"t" else (1, b"")
        for due, words in ((imported, ("import", word, table, trials.nothing)), (exported, ("export", word, script))):
            if (ended := trials.call(trials.program, *words)) != due:
                trials.fault(f"{words[0]} {word!r}", f"ended so: {ended}")
    return 2 * len((*NAMES, *NO_NAMES))


def path(trials, name, text):
    """Returns the path of a file with this text, or of none where there is no text."""
    return os.path.join(trials.room, "missing") if text is None else trials.file(name, text.encode())


def tried(trials):
    """Tries all of this. Returns how many commands there are."""
    count = tried_names(trials)
    for what, table, script, due, wrote in imports():
        count += 1
        paths = path(trials, f"limit_{count}.csv", table), path(trials, f"limit_{count}.sql", script)
        status, written = trials.call(trials.program, "import", "t", *paths)
        if status != due or wrote not in (None, written):
            trials.fault(f"import, {what}", f"status {status}, and {written[:200]}")
    for what, script, due, wrote in exports():
        count += 1
        status, written = trials.exported(f"limit_{count}", script)
        if (status, written) != (due, wrote.encode()):
            trials.fault(f"export, {what}", f"status {status}, and {written[:200]}")
    # The last export was of a log that is full.
    if FULL not in trials.run("full", script)[1]:
        trials.fault("export, a full log", "the log is not full")
    return count + 1
