"""What is wrong with an answer or a commit, on all complete databases. Each function returns it, or None."""

import re

import printed
from meaning import (
    ASSERTIONS,
    DEFAULT,
    database_of,
    holds,
    pattern,
    patterns_of,
    place_of,
    relevant,
    rows,
    shown,
    tables_of,
    tuple_at,
    valuations,
)


def is_part(found, given):
    """Tells whether the first list is got from the second by leaving out items."""
    rest = iter(given)
    return all(row in rest for row in found)


def wrong_cells(found, query, changes):
    """Rows of cells are distinct, and are in order among those that the query combines."""
    if len(set(found)) != len(found):
        return "a row twice"
    if not is_part(found, pattern(query, patterns_of(changes))):
        return "a row that the query does not combine, or rows in another order"
    return None


def worlds(query, changes, printed_trees):
    """Returns the valuations of what a question is about, each with the database that the changes make, or None."""
    wanted = relevant(changes, tables_of(query))
    return [(v, database_of(wanted, v)) for v in valuations([wanted, query, printed_trees])]


def wrong_rows(query, changes, lines):
    """The global condition of an answer holds where the changes admit the valuation, and there the rows are the query's."""
    named, allowed, found = printed.answer(lines)
    if wrong := wrong_cells([cells for cells, _ in found], query, changes):
        return wrong
    for valuation, database in worlds(query, changes, [named, allowed, found]):
        if holds(allowed, valuation, None, named) != (database is not None):
            return f"a global condition that is wrong at {valuation}"
        if database is not None and shown(found, valuation, named) != rows(query, database, valuation):
            return f"other tuples at {valuation}"
    return None


def rank(null):
    """Returns where a null stands among all nulls: the named ones by their names, then the others by session and number."""
    fresh = re.fullmatch(r"\?(\d+)#(\d+)", null)
    return (1, int(fresh[1]), int(fresh[2])) if fresh else (0, null)


def wrong_world(cells, world, query, wanted):
    """The world of a possible row has its nulls in order and none worth @0, is admitted, and has the row."""
    nulls = [null for null, _ in world]
    if sorted(set(nulls), key=rank) != nulls:
        return "a world whose nulls are not in order, or one of them twice"
    if DEFAULT in [value for _, value in world]:
        return "a world with @0"
    valuation = dict(world)
    database = database_of(wanted, valuation)
    if database is None:
        return "a world that is not admitted"
    if tuple_at(cells, valuation) not in rows(query, database, valuation):
        return "a world in which the query does not have the row"
    return None


def wrong_possible(query, changes, lines):
    """Each possible row has its world, and each tuple of an admitted world is the value there of a row of the list."""
    wanted, found = relevant(changes, tables_of(query)), []
    for line in lines:
        cells, world = printed.possible(line)
        if wrong := wrong_world(cells, world, query, wanted):
            return f"{line.strip()}: {wrong}"
        found.append(cells)
    if wrong := wrong_cells(found, query, changes):
        return wrong
    for valuation, database in worlds(query, changes, found):
        missing = database is not None and rows(query, database, valuation) - {tuple_at(one, valuation) for one in found}
        if missing:
            return f"no row for {missing} at {valuation}"
    return None


def wrong_certain(query, changes, lines):
    """The certain rows are, once each, the tuples that the query has in every admitted world."""
    found = [printed.certain(line) for line in lines]
    if len(set(found)) != len(found):
        return "a row twice"
    certain = set.intersection(
        *(rows(query, database, valuation) for valuation, database in worlds(query, changes, found) if database is not None)
    )
    # A tuple with a further value has another one in other worlds.
    certain = {one for one in certain if all(kind != "other" for kind, _ in one)}
    return None if set(found) == certain else f"not the rows {certain}"


JUDGES = {"rows": wrong_rows, "possible": wrong_possible, "certain": wrong_certain}


def is_admitting(changes, assertion):
    """Tells whether some valuation that the changes admit satisfies the assertion after them."""
    wanted = relevant(changes + [(assertion, {})], [])
    return any(database_of(wanted, v) is not None for v in valuations([wanted]))


def placed(sets, columns):
    """Returns the sets of an update with positions for names."""
    def place(term):
        return ("place", place_of(term, columns) + 1) if term[0] in ("column", "place") else term

    return [(place(column), place(term)) for column, term in sets]


def is_of_kind(own, other, patterns):
    """Tells whether a printed change is one of a change of the script, but for its conditions."""
    kind, name = own[0], own[1]
    if kind == "create":
        return own == other
    if kind in ASSERTIONS:
        return other[0] == "assert"
    if kind == "delete":
        return other[:2] == own[:2]
    if kind == "update":
        return other[:3] == (*own[:2], placed(own[2], patterns[name][0]))
    if other[:2] != ("insert rows", name):
        return False
    cells = [row for row, _ in other[2]]
    return cells == own[2] if kind == "insert" else is_part(cells, pattern(own[2], patterns))


def wrong_kinds(own, other, before):
    """A printed commit has the changes of the script's, in order, with their tables and cells."""
    if len(own) != len(other):
        return "another number of changes"
    for i, (change, written) in enumerate(zip(own, other)):
        if not is_of_kind(change[0], written[0], patterns_of(before + own[:i])):
            return f"{written[0]} for {change[0]}"
    return None


def wrong_commit(own, other):
    """After a commit the changes of the script and those of the printed history make the same databases. Both are lists of
    commits, and the last ones are judged."""
    flat, printed_flat = sum(own, []), sum(other, [])
    if wrong := wrong_kinds(own[-1], other[-1], sum(own[:-1], [])):
        return wrong
    tables = {change[1] for change, _ in own[-1] if change[0] not in ASSERTIONS}
    wanted, written = relevant(flat, tables), relevant(printed_flat, tables)
    for valuation in valuations([wanted, written]):
        left, right = database_of(wanted, valuation), database_of(written, valuation)
        if (left is None) != (right is None):
            return f"other worlds: {valuation}"
        if left is not None and any(left[name] != right[name] for name in tables):
            return f"another database at {valuation}"
    return None
