"""Certificates that the program writes: for each reply that carries a proof, of the scripts in the repository, and of scripts
that are made by chance."""

import glob
import os
import re

import certificate_words
import check_certificate
import transcript
from scripts import Maker

# The numbers of the scripts that are made.
MADE = range(1_001, 1_101)


def scripts(root, room):
    """Returns the paths of all scripts, by their names."""
    paths = [path for place in ("tests", "examples") for path in glob.glob(f"{root}/{place}/**/*.sql", recursive=True)]
    found = {os.path.relpath(path, root): path for path in sorted(paths)}
    for number in MADE:
        name = f"the script made by {number}"
        found[name] = os.path.join(room, f"made_{number}.sql")
        with open(found[name], "w", encoding="utf-8") as file:
            file.write(Maker(number).script())
    return found


def proofs_of(reply):
    """Returns how many proofs a reply carries."""
    return len(reply.rows) if reply.kind == "certain" else int(reply.head == "refused Inconsistent")


def begin(line):
    """Returns a line of the history up to the end of a first row. A transcript writes conditions in another way."""
    return re.split(" if |; | where |(?<=^  assert) ", certificate_words.visible(line))[0]


def wrong_history(data, commits):
    """Returns where the commits of the words are not those that a transcript prints, or None."""
    words = check_certificate.judge(data).words
    lines = list(certificate_words.commits(words or []))
    printed = []
    for number, commit in enumerate(commits):
        printed.append(f"session {commit.session}, commit {number}")
        printed += ["  " + line for line in commit.lines if line.strip(" ") not in commit.definitions]
    if len(lines) != len(printed):
        return f"{len(lines)} lines of commits in the words, and {len(printed)} in the transcript"
    for line, other in zip(map(begin, lines), map(begin, printed)):
        # What is long is cut.
        if line != other and not (line.endswith("..") and other.startswith(line[:-2])):
            return f"the words say {line!r}, and the transcript {other!r}"
    return None


def asked(both, paths):
    """Returns what to prove: a script, the number of a reply and of its proofs, and the commits. Each script is also asked for
    one reply without proofs, and for one that it has not."""
    found = []
    answers = both.run_all([["run", path] for path in paths.values()])
    for name, (status, text) in zip(paths, answers):
        run = transcript.read(text.decode("utf-8", "replace"))
        if status not in (0, 1) or len(run.sessions) != 1:
            both.fault(name, text, f"run ended with {status}, and has {len(run.sessions)} sessions")
            continue
        carried = {reply.number: proofs_of(reply) for reply in run.sessions[0].replies}
        without = [number for number, proofs in carried.items() if not proofs][-1:] + [len(carried) + 1]
        found += [(name, number, proofs, run.commits) for number, proofs in carried.items() if proofs]
        found += [(name, number, 0, run.commits) for number in without]
    return found


def certificates(both, root, room):
    """Gives what the program writes, with the line that is wanted. The words of a script are the same for each reply, and have
    the commits that its transcript prints."""
    paths = scripts(root, room)
    to_prove = asked(both, paths)
    words = {}
    answers = both.run_all([["prove", str(number), paths[name]] for name, number, _, _ in to_prove])
    for (name, number, proofs, commits), (status, data) in zip(to_prove, answers):
        name_of_reply = f"{name}, reply {number}"
        if status != (0 if proofs else 1):
            both.fault(name_of_reply, data, f"prove ended with {status}, and there are {proofs} proofs")
            continue
        head = data.partition(b"\nproofs ")[0]
        if name not in words and (wrong := wrong_history(data, commits)):
            both.fault(name_of_reply, data, wrong)
        if words.setdefault(name, head) != head:
            both.fault(name_of_reply, data, "other words than for another reply")
        yield name_of_reply, data, f"accepted {proofs}\n"
