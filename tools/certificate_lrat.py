"""Writes accepted proofs for checkers that know nothing of words: the given clauses in DIMACS, the derived ones in LRAT."""

from check_certificate import opposite, rup


def texts(steps):
    """Returns the two texts of a proof. Clauses have numbers from 1 on, the given ones before the derived ones."""
    # A clause with a literal and its opposite is of no use but to others of the kind, and not each checker reads it.
    used = [number for number, step in enumerate(steps) if not {*step.literals} & {*map(opposite, step.literals)}]
    used.sort(key=lambda number: steps[number].reason == "rup")
    clauses = {number: clause for clause, number in enumerate(used, 1)}
    atoms, given, derived = {}, [], []
    for number in used:
        literals, reason, hints = steps[number]
        signed = [(literal[0].strip("+"), atoms.setdefault(literal[1:], len(atoms) + 1)) for literal in literals]
        clause = " ".join([*dict.fromkeys(f"{sign}{atom}" for sign, atom in signed), "0"])
        if reason == "rup":
            looked, _ = rup(steps, number)
            hints = " ".join(str(clauses[hint]) for hint in hints[:looked])
            derived.append(f"{clauses[number]} {clause} {hints} 0\n")
        else:
            given.append(clause + "\n")
    return f"p cnf {len(atoms)} {len(given)}\n" + "".join(given), "".join(derived)


def write(name, proofs):
    """Writes two files for each proof, given by its steps."""
    for number, steps in enumerate(proofs, 1):
        for end, text in zip(("cnf", "lrat"), texts(steps)):
            with open(f"{name}.{number}.{end}", "w", encoding="ascii", newline="\n") as file:
                file.write(text)
