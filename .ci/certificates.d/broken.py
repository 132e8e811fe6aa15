"""Breaks certificates, each by one edit. An edit is given a cut certificate and a chance. It changes the certificate, or
returns bytes; it raises Unfit where there is nothing for it to change."""

import copy


class Unfit(Exception):
    """The certificate has no place for the edit."""


class Step:
    """A line of a proof, cut at its blanks."""

    def __init__(self, line):
        head, _, tail = line.partition(": ")
        self.literals = head.split()
        self.reason, *self.places = tail.split()

    def line(self):
        return " ".join([*self.literals, ":", self.reason, *self.places])


class Cut:
    """A certificate that is spelled right, cut into its words and proofs. Each proof is a list of its root and of its steps."""

    def __init__(self, data):
        lines = data.decode().split("\n")
        count = int(lines[1].split()[1])
        self.words, self.proofs = lines[2 : count + 2], []
        for line in lines[count + 3 : -2]:
            if line.startswith("proof "):
                self.proofs.append([line.split()[1], []])
            else:
                self.proofs[-1][1].append(Step(line))

    def bytes(self):
        """Returns the text, with counts that are right."""
        lines = ["ct-certificate 1", f"words {len(self.words)}", *self.words, f"proofs {len(self.proofs)}"]
        for root, steps in self.proofs:
            lines += [f"proof {root} {len(steps)}", *(step.line() for step in steps)]
        return "".join(line + "\n" for line in [*lines, "end"]).encode()

    def conditions(self):
        """Returns the places of all conditions."""
        found = [at for at, word in enumerate(self.words) if "0a" <= word[:2] <= "0f"]
        if not found or not self.proofs:
            raise Unfit
        return found

    def steps(self, chance, is_fit=lambda step: True):
        """Returns the steps of a proof, and the number of one that fits."""
        fit = [(steps, number) for _, steps in self.proofs for number, step in enumerate(steps) if is_fit(step)]
        if not fit:
            raise Unfit
        return chance.choice(fit)

    def step(self, chance, is_fit=lambda step: True):
        steps, number = self.steps(chance, is_fit)
        return steps[number]


def has_literals(step):
    return bool(step.literals)


def has_hints(step):
    return step.reason == "rup" and bool(step.places)


def put_in_order(steps, order, is_renumbered):
    """Puts steps in another order, in which some may be left out, and may let each hint name the step that it named."""
    numbers = {str(old): str(new) for new, old in enumerate(order)}
    steps[:] = [steps[old] for old in order]
    for step in steps:
        if step.reason == "rup" and is_renumbered:
            step.places = [numbers.get(place, place) for place in step.places]


def a_sign(cut, chance):
    step = cut.step(chance, has_literals)
    at = chance.randrange(len(step.literals))
    step.literals[at] = ("-" if step.literals[at][0] == "+" else "+") + step.literals[at][1:]


def a_literal_dropped(cut, chance):
    step = cut.step(chance, has_literals)
    step.literals.pop(chance.randrange(len(step.literals)))


def a_literal_added(cut, chance):
    literal = chance.choice(cut.step(chance, has_literals).literals)
    step = cut.step(chance)
    step.literals.insert(chance.randint(0, len(step.literals)), chance.choice("+-") + literal[1:])


def a_hint_moved(cut, chance):
    places = cut.step(chance, has_hints).places
    hint = places.pop(chance.randrange(len(places)))
    places.insert(chance.randint(0, len(places)), hint)


def a_hint_dropped(cut, chance):
    places = cut.step(chance, has_hints).places
    places.pop(chance.randrange(len(places)))


def a_hint_exchanged(cut, chance):
    steps, number = cut.steps(chance, has_hints)
    places = steps[number].places
    places[chance.randrange(len(places))] = str(chance.randrange(len(steps) + 1))


def a_hint_added(cut, chance):
    steps, number = cut.steps(chance, has_hints)
    places = steps[number].places
    places.insert(chance.randint(0, len(places)), str(chance.randrange(len(steps) + 1)))


def a_place_raised(cut, chance):
    step = cut.step(chance, lambda step: step.places)
    at = chance.randrange(len(step.places))
    step.places[at] = str(int(step.places[at]) + 1)


def a_place_of_a_literal_raised(cut, chance):
    step = cut.step(chance, has_literals)
    at = chance.randrange(len(step.literals))
    form, numbers = step.literals[at][:2], step.literals[at][2:].split(",")
    which = chance.randrange(len(numbers))
    numbers[which] = str(int(numbers[which]) + 1)
    step.literals[at] = form + ",".join(numbers)


def a_middle_left_out(cut, chance):
    places = cut.step(chance, lambda step: step.reason == "path" and len(step.places) > 2).places
    places.pop(chance.randrange(1, len(places) - 1))


def a_reason_exchanged(cut, chance):
    steps, number = cut.steps(chance)
    step, other = steps[number], chance.choice(steps)
    given = other.reason, list(other.places)
    if chance.randrange(2):
        other.reason, other.places = step.reason, step.places
    step.reason, step.places = given


def another_root(cut, chance):
    places = (*cut.conditions(), chance.randrange(len(cut.words) + 1))
    chance.choice(cut.proofs)[0] = str(chance.choice(places))


def another_root_supposed(cut, chance):
    """Another condition as the root, by the steps as well."""
    root = str(chance.choice(cut.conditions()))
    proof = chance.choice(cut.proofs)
    for step in proof[1]:
        if step.reason == "root":
            step.literals = [literal.replace(f"+n{proof[0]}", f"+n{root}") for literal in step.literals]
    proof[0] = root


def a_step_dropped(cut, chance):
    steps, number = cut.steps(chance)
    put_in_order(steps, [other for other in range(len(steps)) if other != number], chance.randrange(2))


def a_step_moved(cut, chance):
    steps, number = cut.steps(chance)
    order = [other for other in range(len(steps)) if other != number]
    order.insert(chance.randrange(len(steps)), number)
    put_in_order(steps, order, chance.randrange(2))


def word_of(cut, chance):
    """Returns the place of a word."""
    if not cut.words:
        raise Unfit
    return chance.randrange(len(cut.words))


def a_digit(cut, chance):
    at, digit = word_of(cut, chance), chance.randrange(16)
    cut.words[at] = cut.words[at][:digit] + chance.choice("0123456789abcdef") + cut.words[at][digit + 1 :]


def two_words_exchanged(cut, chance):
    one = word_of(cut, chance)
    other = chance.choice((max(one - 1, 0), word_of(cut, chance)))
    cut.words[one], cut.words[other] = cut.words[other], cut.words[one]


def a_word_doubled(cut, chance):
    at = word_of(cut, chance)
    cut.words.insert(chance.randint(at + 1, len(cut.words)), cut.words[at])


def a_line_doubled(cut, chance):
    lines = cut.bytes().split(b"\n")
    at = chance.randrange(len(lines))
    return b"\n".join([*lines[: at + 1], *lines[at:]])


def a_count_off(cut, chance):
    lines = cut.bytes().split(b"\n")
    at = chance.choice([at for at, line in enumerate(lines) if line[:1] in (b"w", b"p")])
    *begin, count = lines[at].split(b" ")
    lines[at] = b" ".join([*begin, b"%d" % max(0, int(count) + chance.choice((-1, 1)))])
    return b"\n".join(lines)


def byte_of(data, chance):
    """Returns where a byte is. The words are mostly the longest part: what stands behind them is met as often as they are."""
    behind = data.rindex(b"\nproofs ") + 1
    return chance.choice((chance.randrange(len(data)), chance.randrange(behind, len(data))))


def a_byte_flipped(cut, chance):
    data = bytearray(cut.bytes())
    data[byte_of(data, chance)] ^= 1 << chance.randrange(8)
    return bytes(data)


def a_byte_replaced(cut, chance):
    """A byte that is put in, left out or replaced, by one that certificates have, or nearly."""
    data = cut.bytes()
    at = byte_of(data, chance)
    new = bytes(chance.choices(b"0123456789afAF+-ns,: \n\r\tx", k=chance.randrange(3)))
    return data[:at] + new + data[at + chance.randrange(2) :]


EDITS = (
    a_sign,
    a_literal_dropped,
    a_literal_added,
    a_hint_moved,
    a_hint_dropped,
    a_hint_exchanged,
    a_hint_added,
    a_place_raised,
    a_place_of_a_literal_raised,
    a_middle_left_out,
    a_reason_exchanged,
    another_root,
    another_root_supposed,
    a_step_dropped,
    a_step_moved,
    a_digit,
    two_words_exchanged,
    a_word_doubled,
    a_line_doubled,
    a_count_off,
    a_byte_flipped,
    a_byte_replaced,
)


def broken(certificates, count, chance):
    """Gives so many broken certificates, each with a name, made from certificates that are given with their names, too. All
    edits come equally often, but where they fit no certificate."""
    cuts = [(name, data, Cut(data)) for name, data in certificates]
    for number in range(1, count + 1):
        for _ in range(100):
            edit = EDITS[number % len(EDITS)]
            name, data, cut = chance.choice(cuts)
            cut = copy.deepcopy(cut)
            try:
                found = edit(cut, chance) or cut.bytes()
            except Unfit:
                continue
            # Some edits change nothing, by chance.
            if found != data:
                yield f"broken {number}, {edit.__name__} of {name}", found
                break
        else:
            raise ValueError(f"{edit.__name__} fits no certificate")
