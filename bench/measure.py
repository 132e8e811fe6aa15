"""What the measurements share: the program, its runs, and the table that is printed."""

import glob
import os
import re
import shutil
import subprocess
import sys
import tempfile
import time

ROOT = os.path.dirname(os.path.dirname(os.path.realpath(__file__)))
PROGRAM = os.path.join(ROOT, "crates", "ctdb", "out", "ctdb")


def program():
    """Returns the path of the proved program, or of the one that CTDB names."""
    path = os.environ.get("CTDB", PROGRAM)
    if not os.access(path, os.X_OK):
        sys.exit("no program: run rt ci at the top, or rt run in crates/ctdb, or give a path in CTDB")
    return path


def insertions(count):
    """Returns a script that inserts rows with eight nulls into one table, and selects by one of these nulls."""
    rows = [f"insert into t values ({i}, ?x_{i % 8});\n" for i in range(count)]
    return "create table t (a, b);\n" + "".join(rows) + "select * from t where b = ?x_3;\n"


def run(words, script, options=()):
    """Runs words on a file with the script, with options before it. Returns the seconds of processor time, those by the clock,
    the exit status, what it wrote to standard output and what to standard error."""
    with tempfile.TemporaryDirectory() as room:
        path = os.path.join(room, "script.sql")
        with open(path, "w", encoding="utf-8") as it:
            it.write(script)
        began = time.monotonic()
        with open(os.path.join(room, "out"), "w+b") as out, open(os.path.join(room, "err"), "w+b") as err:
            said = [*words, "run", *options, path]
            child = subprocess.Popen(said, stdin=subprocess.DEVNULL, stdout=out, stderr=err, cwd=room)
            _, status, used = os.wait4(child.pid, 0)
            child.returncode = os.waitstatus_to_exitcode(status)
            took = time.monotonic() - began
            out.seek(0)
            err.seek(0)
            return used.ru_utime + used.ru_stime, took, child.returncode, out.read(), err.read()


def fastest(script, times):
    """Returns the least processor time of so many runs, with the clock's time of that run, and status and output."""
    return min((run([program()], script)[:4] for _ in range(times)), key=lambda ran: ran[0])


def greatest(words, room):
    """Returns the exit status of a run of the program on words, in a folder, and its greatest memory in KiB, as GNU time says
    it. What the system tells Python of its own child has Python's memory in it."""
    time_of = shutil.which("time")
    if not time_of:
        sys.exit("no memory without GNU time")
    wanted = {"stdin": subprocess.DEVNULL, "stdout": subprocess.DEVNULL, "stderr": subprocess.PIPE}
    ran = subprocess.run([time_of, "-f", "%M", program(), *words], cwd=room, check=False, **wanted)
    return ran.returncode, int(ran.stderr.split()[-1])


def peak(script, options=()):
    """Returns the greatest memory of a run of the program on the script, with options before it, in KiB."""
    with tempfile.TemporaryDirectory() as room:
        path = os.path.join(room, "script.sql")
        with open(path, "w", encoding="utf-8") as it:
            it.write(script)
        return greatest(["run", *options, path], room)[1]


def instructions(script, options=()):
    """Returns the number of instructions that the program executes on the script, as valgrind counts them."""
    words = ["valgrind", "--tool=callgrind", "--callgrind-out-file=/dev/null", program()]
    said = run(words, script, options)[4].decode("utf-8", "replace")
    found = re.search(r"Collected : (\d+)", said)
    if not found:
        sys.exit(f"valgrind counted nothing:\n{said}")
    return int(found[1])


class Profile:
    """What callgrind counts in one run: how it ended, what was written, all instructions, and for each function its own ones,
    how often it was called, and the instructions of these calls with all that they call."""

    def __init__(self, status, wrote):
        self.status = status
        self.wrote = wrote
        self.total = 0
        self.own = {}
        self.calls = {}
        self.within = {}
        # The same for each caller with the function that it calls.
        self.between = {}

    def read(self, path):
        """Adds what a file of callgrind has."""
        names, caller, callee, is_next = {}, "", "", False
        with open(path, encoding="utf-8", errors="replace") as it:
            for line in it:
                if is_next:
                    count = int(line.split()[1])
                    self.within[callee] = self.within.get(callee, 0) + count
                    self.between[caller, callee] = self.between.get((caller, callee), 0) + count
                    is_next = False
                elif named := re.match(r"c?fn=(\(\d+\))(?: (.*))?", line):
                    names.setdefault(named[1], named[2])
                    callee = names[named[1]]
                    caller = callee if line.startswith("fn=") else caller
                elif line.startswith("calls="):
                    self.calls[callee] = self.calls.get(callee, 0) + int(line[len("calls=") :].split()[0])
                    is_next = True
                elif line.startswith(("summary:", "totals:")):
                    self.total = int(line.split()[1])
                elif counted := re.match(r"[-+*\d]\S* (\d+)$", line):
                    self.own[caller] = self.own.get(caller, 0) + int(counted[1])

    def first(self, counted, functions):
        """Returns the count of the first of these functions that has one, or None. A function that the compiler put into its
        caller has none."""
        return next((counted[function] for function in functions if function in counted), None)


def profile(script, seconds=3600):
    """Runs the program under callgrind. Returns its profile, or None where it did not end in time."""
    with tempfile.TemporaryDirectory() as room:
        path, counts = os.path.join(room, "script.sql"), os.path.join(room, "counts")
        with open(path, "w", encoding="utf-8") as it:
            it.write(script)
        words = ["valgrind", "--tool=callgrind", f"--callgrind-out-file={counts}", program(), "run", path]
        try:
            ran = subprocess.run(
                words, stdin=subprocess.DEVNULL, stdout=subprocess.PIPE, stderr=subprocess.DEVNULL, timeout=seconds, check=False
            )
        except subprocess.TimeoutExpired:
            return None
        found = Profile(ran.returncode, ran.stdout.decode("utf-8", "replace"))
        if os.path.exists(counts):
            found.read(counts)
        return found


def less(counted, without):
    """Returns the counts less those of another run."""
    return {key: count - without.get(key, 0) for key, count in counted.items()}


def heaviest(taken, total):
    """Returns lines of a table for the five greatest counts of functions: in millions, and as a share of the total."""
    found = sorted(taken, key=taken.get, reverse=True)[:5]
    return [[f"`{one}`", f"{taken[one] / 1e6:,.3f}", f"{taken[one] / total:.0%}"] for one in found]


def print_profile(title, script, start):
    """Prints which functions take the instructions of a script that the same script without what is measured does not take.
    Of those that count with all that they call, the ones that do little but call another one are left out."""
    ran, before = profile(script), profile(start)
    total = ran.total - before.total
    within = less(ran.within, before.within)
    within.pop("(below main)", None)
    for (caller, callee), count in less(ran.between, before.between).items():
        if caller != callee and count > 0.9 * within.get(caller, total):
            within[caller] = 0
    print(f"{title}: {total / 1e6:,.3f} million\n")
    table(["function", "its own, millions", "share"], heaviest(less(ran.own, before.own), total))
    print()
    table(["function", "with all that it calls", "share"], heaviest(within, total))
    print()


def called(script, functions):
    """Returns how often the program calls the functions on the script, as callgrind counts the calls. One of them alone is
    there where the compiler puts one into the other."""
    with tempfile.TemporaryDirectory() as room:
        counts = os.path.join(room, "counts")
        said = run(["valgrind", "--tool=callgrind", f"--callgrind-out-file={counts}", program()], script)[4]
        if not os.path.exists(counts):
            sys.exit(f"valgrind counted nothing:\n{said.decode('utf-8', 'replace')}")
        names, callee, found, there = {}, "", dict.fromkeys(functions, 0), set()
        with open(counts, encoding="utf-8", errors="replace") as it:
            for line in it:
                named = re.match(r"c?fn=(\(\d+\))(?: (.*))?", line)
                if named:
                    names.setdefault(named[1], named[2])
                    there.add(names[named[1]])
                    callee = names[named[1]]
                elif line.startswith("calls=") and callee in found:
                    found[callee] += int(line[len("calls=") :].split()[0])
        if not there:
            sys.exit(f"valgrind counted nothing:\n{said.decode('utf-8', 'replace')}")
        return next((found[function] for function in functions if function in there), 0)


def built_tests(crate):
    """Proves and builds the tests of a crate. Returns the path of their program."""
    folder = os.path.join(ROOT, "crates", crate)
    ran = subprocess.run(["rt", "test"], cwd=folder, stdout=subprocess.PIPE, stderr=subprocess.STDOUT, check=False)
    if ran.returncode:
        sys.exit(f"rt test did not pass in {folder}:\n{ran.stdout.decode('utf-8', 'replace')[-2000:]}")
    return os.path.join(folder, "out", f"{crate}_tests")


def calls(program, test, function):
    """Returns the instructions of each call of the function in a test, as module::test, with all that it calls, in order."""
    with tempfile.TemporaryDirectory() as room:
        counts = os.path.join(room, "counts")
        words = ["valgrind", "--tool=callgrind", f"--callgrind-out-file={counts}"]
        words += [f"--toggle-collect={function}", f"--dump-after={function}", program, test]
        ran = subprocess.run(words, cwd=room, stdout=subprocess.PIPE, stderr=subprocess.STDOUT, check=False)
        if ran.returncode:
            sys.exit(f"{test} did not pass under valgrind:\n{ran.stdout.decode('utf-8', 'replace')}")
        found = []
        for k in range(1, len(glob.glob(f"{counts}.*")) + 1):
            with open(f"{counts}.{k}", encoding="utf-8") as it:
                found.append(int(re.search(r"^totals: (\d+)", it.read(), re.MULTILINE)[1]))
        return found


def table(head, rows):
    """Prints a table as the documents have it."""
    print("| " + " | ".join(head) + " |")
    print("|" + "---|" * len(head))
    for row in rows:
        print("| " + " | ".join(row) + " |")
