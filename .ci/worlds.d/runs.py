"""Makes the scripts of runs of four sessions by chance, over the tables of `scripts` and two nulls."""

from scripts import TABLES, Maker

# A text that is no statement takes a session a few microseconds and no lock: so many before its first statement, while the
# other threads begin, and so many at most before each of the others.
BEGINNING = 400
PAUSE = 40


class RunMaker(Maker):
    """Makes the script of one session of a run. The first two sessions have transactions."""

    def __init__(self, number, session):
        super().__init__(f"{number} {session}", ("1", "2"), ("?x", "?y"), fresh=number % 5 == 0)
        self.has_transactions = session <= 2

    def pause(self, most=PAUSE):
        return ["x"] * self.chance.randrange(most)

    def single(self):
        """Returns a statement that may stand in a transaction or outside."""
        changes = [self.insertion] * 5 + [self.deletion, self.update, self.update, self.assertion, self.assertion]
        return self.pick(*changes, *[self.question] * 5)()

    def statements(self, count):
        return [text for _ in range(count) for text in [*self.pause(), self.single()]]

    def part(self):
        """Returns a few statements, in the first two sessions mostly as a transaction."""
        inner = self.statements(self.pick(1, 2, 3))
        if not self.has_transactions or self.chance.random() < 0.2:
            return inner
        return ["begin", *inner, *self.pause(), self.pick("commit", "commit", "commit", "rollback")]

    def script(self):
        tables = [f"create table {name} ({', '.join(columns)})" for name, columns in TABLES.items()]
        parts = [text for _ in range(3) for text in self.part()]
        return ";\n".join(["x"] * BEGINNING + tables + parts) + ";\n"


def scripts_of(number):
    """Returns the four scripts of the run that is made by a number."""
    return [RunMaker(number, session).script() for session in (1, 2, 3, 4)]
