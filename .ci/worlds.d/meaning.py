"""What queries and changes are on one complete database, and which databases changes make.

A database has for each table its columns and a set of tuples of values. A change is as a statement, with the nulls that it
draws put for its NULLs; those of a printed commit are ("insert rows", table, [(cells, condition)]) besides.
"""

import functools
import itertools

from reading import OPERATORS

ASSERTIONS = ("assert", "assert query", "assert key")
# What a null is worth that a valuation does not name.
DEFAULT = ("other", 0)
# The most valuations that one question is tried at, and the most nulls.
MOST = 400_000
MOST_NULLS = 16


class TooMany(Exception):
    """There are more valuations than are tried."""


def worth(term, valuation, row=None):
    """Returns the value of a term. `row` gives the values of columns; a null without a value is worth @0."""
    if term[0] == "null":
        return valuation.get(term[1], DEFAULT)
    return row(term) if term[0] in ("column", "place") else term


def tuple_at(cells, valuation):
    """Returns what cells are worth."""
    return tuple(worth(cell, valuation) for cell in cells)


def holds(condition, valuation, row=None, named=None):
    """Tells whether a condition holds; `named` has the conditions with names."""
    kind = condition[0]
    if kind in ("and", "or"):
        every = all if kind == "and" else any
        return every(holds(part, valuation, row, named) for part in condition[1])
    if kind == "same":
        return worth(condition[1], valuation, row) == worth(condition[2], valuation, row)
    if kind == "not":
        return not holds(condition[1], valuation, row, named)
    if kind == "name":
        return holds(named[condition[1]], valuation, row, named)
    return kind == "true"


def positions(tables, database):
    """Returns where the columns of tables stand, by their table and without."""
    order = [(seen, column) for table, seen in tables for column in database[table][0]]
    found = {key: i for i, key in enumerate(order)}
    for i, (_, column) in enumerate(order):
        found.setdefault((None, column), i)
    return found


def selected(query, database, valuation):
    """Returns the tuples of a SELECT."""
    _, items, tables, conditions = query
    position = positions(tables, database)
    found = set()
    for joined in itertools.product(*(database[table][1] for table, _ in tables)):
        values = tuple(value for part in joined for value in part)
        row = lambda column: values[position[column[1]]]
        if all(holds(condition, valuation, row) for condition in conditions):
            found.add(values if items is None else tuple(row(column) for column, _ in items))
    return found


def rows(query, database, valuation):
    """Returns the set of a query's tuples on a complete database."""
    if query[0] not in OPERATORS:
        return selected(query, database, valuation)
    left, right = (rows(side, database, valuation) for side in query[1:])
    return left | right if query[0] == "union" else left - right if query[0] == "except" else left & right


def shown(given, valuation, named):
    """Returns the tuples of the rows whose conditions hold."""
    return {tuple_at(cells, valuation) for cells, condition in given if holds(condition, valuation, None, named)}


def row_of(values, columns):
    """Returns what gives the values of a table's columns: those of a statement, and those of a printed change."""
    return lambda term: values[place_of(term, columns)]


def place_of(column, columns):
    """Returns the position of a column of a table: of a statement, or of a printed change."""
    return column[1] - 1 if column[0] == "place" else columns.index(column[1][1])


def spared(change, database, valuation, named):
    """Returns the tuples of a table that a deletion leaves."""
    columns, held = database[change[1]]
    return {one for one in held if not holds(change[2], valuation, row_of(one, columns), named)}


def with_sets(row, sets, columns, worth_of):
    """Returns a row of a table with sets made on it, all of them from the old row."""
    new = list(row)
    for column, term in sets:
        new[place_of(column, columns)] = worth_of(term)
    return tuple(new)


def updated(change, database, valuation, named):
    """Returns the tuples of a table after an update: with the sets made on each for which the condition holds."""
    columns, held = database[change[1]]
    found = set()
    for one in held:
        row = row_of(one, columns)
        is_set = holds(change[3], valuation, row, named)
        found.add(with_sets(one, change[2], columns, lambda term: worth(term, valuation, row)) if is_set else one)
    return found


def is_key(columns, table):
    """Tells whether no two different tuples of a table agree at these columns."""
    names, held = table
    return len({tuple(row_of(one, names)(("column", (None, name))) for name in columns) for one in held}) == len(held)


def is_satisfied(assertion, database, valuation, named):
    """Tells whether an assertion holds on a complete database."""
    if assertion[0] == "assert query":
        return bool(rows(assertion[2], database, valuation)) == assertion[1]
    if assertion[0] == "assert key":
        return is_key(assertion[2], database[assertion[1]])
    return holds(assertion[1], valuation, None, named)


def step(database, change, valuation, named=None):
    """Changes a complete database in place. Tells whether it is kept: an assertion may not hold."""
    kind, name = change[0], change[1]
    if kind in ASSERTIONS:
        return is_satisfied(change, database, valuation, named)
    if kind == "create":
        database[name] = (change[2], set())
    elif kind == "delete":
        database[name] = (database[name][0], spared(change, database, valuation, named))
    elif kind == "update":
        database[name] = (database[name][0], updated(change, database, valuation, named))
    else:
        columns, held = database[name]
        if kind == "insert query":
            more = rows(change[2], database, valuation)
        elif kind == "insert rows":
            more = shown(change[2], valuation, named)
        else:
            more = shown([(cells, change[3]) for cells in change[2]], valuation, named)
        database[name] = (columns, held | more)
    return True


def database_of(changes, valuation):
    """Returns the database that changes make, or None where an assertion among them does not hold. Each change comes with
    the conditions that its commit names."""
    database = {}
    for change, named in changes:
        if not step(database, change, valuation, named):
            return None
    return database


def tables_of(query):
    """Returns the names of the tables of a query, with repeats."""
    if query[0] in OPERATORS:
        return tables_of(query[1]) + tables_of(query[2])
    return [name for name, _ in query[2]]


def is_plainly_true(condition):
    """Tells whether a condition is the word true."""
    return condition[0] == "true" or (condition[0] in ("and", "or") and all(map(is_plainly_true, condition[1])))


def seen_by(change):
    """Returns the tables whose tuples a change depends on, besides its own."""
    if change[0] in ("insert query", "assert query"):
        return set(tables_of(change[2]))
    return {change[1]} if change[0] == "assert key" else set()


def relevant(changes, tables):
    """Returns the changes that these tables depend on, and all assertions with what they depend on. What a table had before
    all of its rows were deleted is left out."""
    wanted, emptied, found = set(tables), set(), []
    for change in reversed(changes):
        kind, name = change[0][:2]
        if kind in ASSERTIONS or kind == "create" and name in wanted or name in wanted - emptied:
            found.append(change)
            wanted |= seen_by(change[0])
            emptied -= seen_by(change[0])
            if kind == "delete" and is_plainly_true(change[0][2]):
                emptied.add(name)
    return found[::-1]


def leaves(tree, kinds):
    """Returns the terms of these kinds in a tree."""
    if isinstance(tree, tuple) and len(tree) == 2 and tree[0] in kinds and isinstance(tree[1], (str, int)):
        return {tree}
    if isinstance(tree, dict):
        tree = list(tree.values())
    if isinstance(tree, (tuple, list)):
        return set().union(*(leaves(part, kinds) for part in tree))
    return set()


def choices(count, constants, used=0):
    """Gives the choices of so many values: each a constant, a further value that was chosen before, or the next one."""
    if count == 0:
        yield ()
        return
    further = [("other", k) for k in range(used + 1)]
    for value in constants + further:
        for rest in choices(count - 1, constants, used + (value == further[-1])):
            yield (value, *rest)


@functools.cache
def how_many(count, constants, used=0):
    """Returns how many choices there are, for so many constants."""
    if count == 0:
        return 1
    return (constants + used) * how_many(count - 1, constants, used) + how_many(count - 1, constants, used + 1)


def valuations(trees):
    """Returns every valuation of the nulls of trees by their constants and as many further values as there are nulls. Where
    some differ only in which further values they have, one of them is there: nothing tells them apart."""
    nulls = sorted(value for _, value in leaves(trees, ("null",)))
    constants = sorted(leaves(trees, ("number", "text")), key=repr)
    if len(nulls) > MOST_NULLS or how_many(len(nulls), len(constants)) > MOST:
        raise TooMany(f"{len(nulls)} nulls over {len(constants)} constants")
    return [dict(zip(nulls, chosen)) for chosen in choices(len(nulls), constants)]


def pattern(query, patterns):
    """Gives one after another the rows that a query combines, in order, whatever their conditions: cells of terms.
    `patterns` has for each table its columns and its rows, as `patterns_of` gives them."""
    if query[0] in OPERATORS:
        yield from pattern(query[1], patterns)
        if query[0] == "union":
            yield from pattern(query[2], patterns)
        return
    _, items, tables, _ = query
    position = positions(tables, patterns)
    for parts in itertools.product(*(patterns[table][1] for table, _ in tables)):
        row = sum(parts, ())
        yield row if items is None else tuple(row[position[column[1]]] for column, _ in items)


def with_updated(lists, sets, columns):
    """Returns rows of terms, after each of them the one with the sets of an update."""
    found = []
    for row in lists:
        cell = row_of(row, columns)
        found += [row, with_sets(row, sets, columns, lambda term: cell(term) if term[0] in ("column", "place") else term)]
    return found


def patterns_of(changes):
    """Returns for each table its columns and all rows that were ever inserted into it, or made of those by an update."""
    found = {}
    for change, _ in changes:
        if change[0] == "create":
            found[change[1]] = (change[2], [])
        elif change[0] == "insert":
            found[change[1]][1].extend(change[2])
        elif change[0] == "insert rows":
            found[change[1]][1].extend(row for row, _ in change[2])
        elif change[0] == "insert query":
            found[change[1]][1].extend(list(pattern(change[2], found)))
        elif change[0] == "update":
            columns, lists = found[change[1]]
            found[change[1]] = (columns, with_updated(lists, change[2], columns))
    return found


def size(query, counts):
    """Returns how many rows a query may have, and how many rows or pairs of rows its greatest part goes through."""
    if query[0] in OPERATORS:
        (left, most_left), (right, most_right) = (size(side, counts) for side in query[1:])
        through = left + right if query[0] == "union" else left * right
        return (through if query[0] == "union" else left), max(most_left, most_right, through)
    product, most = 1, 0
    for table, _ in query[2]:
        product *= counts[table]
        most = max(most, counts[table], product)
    return product, most


def greatest_part(tree, changes):
    """Returns how many rows or pairs of rows the greatest part of a statement goes through, by all rows there ever were: of
    its query, or of the table of a key."""
    counts = {name: len(set(found)) for name, (_, found) in patterns_of(changes).items()}
    return counts[tree[1]] ** 2 if tree[0] == "assert key" else size(tree[-1], counts)[1]
