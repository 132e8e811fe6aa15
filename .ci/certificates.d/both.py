"""Both checkers: what the program and tools/check_certificate.py say of the same bytes."""

import concurrent.futures
import os
import shutil
import subprocess

import certificate_lrat
import certificate_words
import check_certificate
import measure

# So many runs of the program go on together, and none takes longer, in seconds.
AT_ONCE = 4
MOST_SECONDS = 120
# The checkers of LRAT, and what each says of a proof that it accepts.
LRAT_CHECKERS = {"lrat-check": "c VERIFIED", "cake_lpr": "s VERIFIED UNSAT"}


class Both:
    """What was judged, the faults, how many roots were tried in worlds, and how many have too many of these."""

    def __init__(self, room, kept):
        self.program = measure.program()
        self.room = room
        self.kept = kept
        self.judged = []
        self.faults = []
        self.tried = 0
        self.untried = 0
        self.worlds = {}
        self.lrat = 0

    def fault(self, name, data, what):
        """Takes note of a fault, and keeps the bytes where that is asked for."""
        self.faults.append(f"{name}: {what}")
        if self.kept:
            with open(os.path.join(self.kept, f"fault_{len(self.faults)}"), "wb") as file:
                file.write(data)

    def run(self, *words):
        """Runs the program. Returns its exit status and what it printed; without an end the status is None."""
        try:
            quiet = {"stdin": subprocess.DEVNULL, "stdout": subprocess.PIPE, "stderr": subprocess.DEVNULL}
            ran = subprocess.run([self.program, *words], timeout=MOST_SECONDS, check=False, **quiet)
        except subprocess.TimeoutExpired:
            return None, b""
        return ran.returncode, ran.stdout

    def run_all(self, lists):
        """Runs the program on each list of words, and gives what comes of each, in order."""
        with concurrent.futures.ThreadPoolExecutor(AT_ONCE) as pool:
            yield from pool.map(lambda words: self.run(*words), lists)

    def check_all(self, certificates):
        """Has the program check each certificate, and gives what it says, in order."""

        def check(numbered):
            path = os.path.join(self.room, f"certificate_{numbered[0]}")
            with open(path, "wb") as file:
                file.write(numbered[1])
            said = self.run("check", path)
            os.remove(path)
            return said

        with concurrent.futures.ThreadPoolExecutor(AT_ONCE) as pool:
            yield from pool.map(check, enumerate(certificates))

    def judge_all(self, certificates):
        """Judges certificates by both: a name, the bytes, and the line that is wanted, or None where that is not known. Returns
        how many there are."""
        certificates = list(certificates)
        answers = self.check_all([data for _, data, _ in certificates])
        for (name, data, wanted), (status, line) in zip(certificates, answers):
            found = check_certificate.judge(data)
            said = status, line.decode("utf-8", "replace")
            self.judged.append((data, said))
            if said != found[:2]:
                self.fault(name, data, f"check says {said}, and the checker in Python {tuple(found[:2])}, since {found.why!r}")
            elif wanted not in (None, found.line):
                self.fault(name, data, f"both say {found.line!r}, and not {wanted!r}: {found.why}")
            elif found.status == 0:
                self.try_roots(name, data, found)
        return len(certificates)

    def try_roots(self, name, data, found):
        """Tries the roots of a certificate that both accept, each once."""
        for number, (root, _) in enumerate(found.proofs, 1):
            below = tuple((place, found.words[place]) for place in certificate_words.below(found.words, root))
            if below not in self.worlds:
                worlds = certificate_words.Worlds(found.words, root)
                self.worlds[below] = worlds.line()
                self.tried += worlds.are_few
                self.untried += not worlds.are_few
            if "HOLDS" in self.worlds[below]:
                self.fault(name, data, f"both accept it, and the root of proof {number} {self.worlds[below]}")

    def try_lrat(self, name, data):
        """Gives the proofs of an accepted certificate to the checkers of LRAT that are installed."""
        for checker, accepts in LRAT_CHECKERS.items():
            if not shutil.which(checker):
                continue
            path = os.path.join(self.room, "proof")
            proofs = [steps for _, steps in check_certificate.judge(data).proofs]
            certificate_lrat.write(path, proofs)
            for number in range(1, len(proofs) + 1):
                words = [checker, f"{path}.{number}.cnf", f"{path}.{number}.lrat"]
                ran = subprocess.run(words, capture_output=True, timeout=MOST_SECONDS, check=False)
                self.lrat += 1
                if accepts not in ran.stdout.decode("utf-8", "replace"):
                    self.fault(name, data, f"{checker} does not accept proof {number}")
