"""What the tools share of files, of the command line, and of what they say on standard error."""

import os
import stat
import sys

import transcript
from terminal import visible


def say(tool, text):
    """Writes a line to standard error, where that can be written."""
    try:
        print(f"{tool}: {visible(text)}", file=sys.stderr)
    except (OSError, AttributeError):
        pass


def text_of(name):
    """Returns the text of a file, or of standard input for None. What is not UTF-8 in it is put as U+FFFD."""
    if name is None:
        return sys.stdin.buffer.read().decode("utf-8", "replace") if sys.stdin else ""
    with open(name, "rb") as file:
        return file.read().decode("utf-8", "replace")


def statements_of(name, tool):
    """Returns the statements of a script, or none where it is no plain file, which cannot be read a second time."""
    if not stat.S_ISREG(os.stat(name).st_mode):
        say(tool, f"{name} is no plain file: its statements are not shown")
        return []
    return transcript.statements(text_of(name))


def scripts(names, found, tool):
    """Returns the statements of the scripts of a transcript, and says where their numbers are not those of the replies."""
    texts = [statements_of(name, tool) for name in names]
    if names and len(names) != len(found.sessions):
        say(tool, f"{len(found.sessions)} sessions, and {len(names)} scripts")
    for session, statements, name in zip(found.sessions, texts, names):
        if statements and len(statements) != len(session.replies):
            counts = f"{len(session.replies)} replies, and {name} has {len(statements)} statements"
            say(tool, f"session {session.number} has {counts}")
    return texts[: len(found.sessions)]


def add_statements(parser):
    """Adds the option that names scripts."""
    parser.add_argument(
        "--statements",
        action="append",
        default=[],
        metavar="SCRIPT",
        help="put each statement before its reply; once for each session, in their order",
    )


def write(text, tool):
    """Writes a text to standard output. Tells whether all of it was written."""
    try:
        sys.stdout.buffer.write(text.encode("utf-8", "replace"))
        sys.stdout.buffer.flush()
        return True
    except (OSError, AttributeError):
        say(tool, "the output could not be written")
        # Python would try once more at its end, and complain.
        os.dup2(os.open(os.devnull, os.O_WRONLY), 1)
        return False
