"""Makes transcripts of several sessions comparable, whose versions depend on which session came first.

usage: python3 .ci/versions.py WANTED < TRANSCRIPT

Where a line of the transcript WANTED begins with a number or with #, each word # of it stands for a number: committed #, at #.
What is printed is the transcript with the commits of session 1 first, then those of session 2, and so on, and with the lines
of WANTED for those that they stand for. So a diff of both shows what else differs.
"""

import re
import sys


def is_shown(shown, said):
    """Tells whether a line that is shown stands for one that was said."""
    if not re.match(r"[\d#]", shown):
        return shown == said
    parts = re.split(r"(?<!\S)#(?!\S)", shown)
    return bool(re.fullmatch(r"\d+".join(map(re.escape, parts)), said))


def by_session(lines):
    """Returns the lines of a transcript with the commits in the order of their sessions, those of each in their order."""
    if "history" not in lines or "end" not in lines:
        return lines
    begin, end = lines.index("history") + 1, len(lines) - 1 - lines[::-1].index("end")
    commits = []
    for line in lines[begin:end]:
        if head := re.fullmatch(r"\d+ by (\d+)", line):
            commits.append((int(head[1]), []))
        if not commits:
            return lines
        commits[-1][1].append(line)
    commits.sort(key=lambda commit: commit[0])
    return lines[:begin] + [line for _, commit in commits for line in commit] + lines[end:]


def masked(wanted, lines):
    """Gives one line after another: of those that are wanted the next one that stands for it, if there is one."""
    begin = 0
    for said in lines:
        found = next((k for k in range(begin, len(wanted)) if is_shown(wanted[k], said)), None)
        yield said if found is None else wanted[found]
        begin = begin if found is None else found + 1


def main():
    with open(sys.argv[1], encoding="utf-8", newline="\n") as file:
        wanted = file.read().split("\n")
    lines = by_session(sys.stdin.buffer.read().decode("utf-8", "replace").split("\n"))
    sys.stdout.buffer.write("\n".join(masked(wanted, lines)).encode("utf-8"))


if __name__ == "__main__":
    main()
