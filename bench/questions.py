"""Conditions and scripts that ask much of a decision, as SQL. They are the same each time."""

import random


# A graph of 60 vertices and 138 edges that three colours are not enough for.
SIXTY = (
    "0-5 0-27 0-29 0-39 0-48 1-2 1-3 1-29 1-32 1-33 2-6 2-8 2-12 2-19 2-40 3-13 3-54 3-55 4-17 4-30 4-35 4-47 5-27 "
    "5-31 5-39 5-47 5-55 6-9 6-21 6-22 6-39 6-48 7-11 8-13 8-36 9-10 9-15 9-18 9-29 9-32 9-39 9-52 9-58 10-20 10-21 "
    "10-54 11-15 11-18 12-33 12-43 12-48 12-49 13-21 13-33 13-45 13-53 14-23 14-24 14-41 15-24 15-36 15-49 15-51 "
    "16-22 16-32 16-37 16-52 17-28 17-55 18-32 18-37 18-51 19-29 19-55 19-56 20-42 20-47 20-49 20-55 21-30 21-49 "
    "22-29 22-39 22-44 22-47 22-54 22-55 23-50 23-56 24-28 24-34 24-49 24-58 25-29 25-53 26-41 27-37 27-53 27-54 "
    "28-43 28-46 28-49 28-58 29-48 29-54 29-59 30-37 30-54 31-44 31-45 31-46 31-54 32-47 32-49 32-55 33-35 33-48 "
    "34-45 34-50 35-40 36-51 37-53 38-46 38-55 38-58 39-41 39-59 40-41 40-44 42-43 42-44 43-47 43-56 44-59 47-51 "
    "48-50 51-54 54-56"
)


def null(number):
    """Returns a null with a number."""
    return f"?x{number}"


def joined(word, parts):
    """Returns the parts with AND or OR between them, without blanks around signs, since scripts have a limit."""
    return f" {word} ".join(parts)


def each(word, parts):
    """Returns the same in parentheses."""
    return f"({joined(word, parts)})"


def run(word, count, parts=("?x=1", "?y=2")):
    """Returns the parts in turn, so many, with AND or OR between them."""
    return joined(word, (parts[k % len(parts)] for k in range(count)))


def links(nulls):
    """Returns the equalities of a chain of so many nulls, in an order of chance."""
    order = list(range(nulls))
    random.Random(1).shuffle(order)
    made = [f"{null(s)}={null(t)}" for s, t in zip(order, order[1:])]
    random.Random(2).shuffle(made)
    return made, null(order[0]), null(order[-1])


def chain(nulls):
    """Returns the condition of a chain, and the one that its ends differ."""
    made, first, last = links(nulls)
    return joined("and", made), f"{first}<>{last}"


def diamonds(count):
    """Returns the condition of so many diamonds, one after another, and the one that the ends differ: from each null to
    the next one leads a way by a null of its own, or one by another."""
    made = []
    for k in range(count):
        s, t = null(k), null(k + 1)
        made.append(f"({s}=?a{k} and ?a{k}={t} or {s}=?b{k} and ?b{k}={t})")
    return joined("and", made), f"{null(0)}<>{null(count)}"


def ladder(rungs):
    """Returns the condition of a ladder, and the one that its ends differ: of two nulls a rung each is equal to one of the
    next two."""
    made = []
    for k in range(rungs):
        for side in ("p", "q"):
            made.append(f"(?{side}{k}=?p{k + 1} or ?{side}{k}=?q{k + 1})")
    return joined("and", made), f"?p0<>?p{rungs} and ?p0<>?q{rungs}"


def apart(nulls):
    """Returns that each two of so many nulls differ."""
    return joined("and", (f"{null(s)}<>{null(t)}" for t in range(nulls) for s in range(t)))


def pigeons(count, holes):
    """Returns that so many pigeons are each in one of so many holes, and no two in one."""
    in_holes = (each("or", (f"{null(p)}={h}" for h in range(1, holes + 1))) for p in range(count))
    return joined("and", in_holes) + " and " + apart(count)


def random_edges(vertices, count):
    """Returns so many edges, drawn by chance."""
    drawn, found = random.Random(f"colouring {vertices} {count}"), set()
    while len(found) < count:
        found.add(tuple(sorted(drawn.sample(range(vertices), 2))))
    return sorted(found)


def planted_edges(vertices, count):
    """Returns so many edges, drawn by chance, each between vertices whose numbers divided by 3 leave different rests: so three
    colours are enough."""
    drawn, found = random.Random(f"planted {vertices} {count}"), set()
    while len(found) < count:
        s, t = sorted(drawn.sample(range(vertices), 2))
        if s % 3 != t % 3:
            found.add((s, t))
    return sorted(found)


def colouring(vertices, edges):
    """Returns that each vertex has one of three colours, and the ends of each edge different ones."""
    coloured = [each("or", (f"{null(v)}={c}" for c in (1, 2, 3))) for v in range(vertices)]
    return joined("and", coloured + [f"{null(s)}<>{null(t)}" for s, t in edges])


def sixty():
    """Returns that a graph of 60 vertices has three colours."""
    return colouring(60, [tuple(map(int, edge.split("-"))) for edge in SIXTY.split()])


def keys(count, first=False):
    """Returns that a null is one of three values, and one of so many others, which may come first."""
    few, many = (each("or", (f"{null(0)}={v}" for v in values)) for values in (range(1, 4), range(10, 10 + count)))
    return f"{many} and {few}" if first else f"{few} and {many}"


def table(name, columns, rows):
    """Returns the statements that make a table with these rows, each a tuple of texts."""
    made = f"create table {name} ({columns});\n"
    values = ", ".join(f"({', '.join(row)})" for row in rows)
    return made + (f"insert into {name} values {values};\n" if values else "")


def one():
    """Returns the table of one row that questions without tables are asked of."""
    return table("o", "k", [["1"]])


def names(count, others):
    """Returns a table of so many names, and another one of so many unknown ones."""
    return table("c", "name", [[f"'n{k}'"] for k in range(count)]) + table("u", "name", [[f"?u{k}"] for k in range(others)])


def candidates(count):
    """Returns so many assertions, each of a null of its own that is one of two names."""
    return "".join(f"assert ?n{k}='a{k}' or ?n{k}='b{k}';\n" for k in range(count))
