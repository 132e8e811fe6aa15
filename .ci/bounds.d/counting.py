"""The bound on the words of a statement, written from its definition and not from the program: it is told from the text, and
from how many distinct rows there ever were in each table.

Trees of statements are those of `reading`. A count is a function from the name of a table.
"""

from reading import OPERATORS


def items(condition):
    """Returns the parts of a condition."""
    return condition[1] if condition[0] in ("and", "or") else condition[1:] if condition[0] == "not" else []


def operations(condition):
    """Returns how many equalities, NOTs, ANDs and ORs a condition has."""
    if condition[0] == "same":
        return 1
    between = max(len(items(condition)) - 1, 0) if condition[0] in ("and", "or") else 0
    return sum(map(operations, items(condition))) + between + (condition[0] == "not")


def terms_of(condition):
    """Returns the terms of a condition, with repeats."""
    if condition[0] == "same":
        return list(condition[1:])
    return [term for part in items(condition) for term in terms_of(part)]


def literal_words(term):
    kind, value = term
    if kind == "column":
        return 0
    if kind == "number":
        return 2
    if kind == "null":
        return len(value.lstrip("?")) + 2
    return 1 if kind == "fresh" else len(value) + 2


def literals(condition):
    """Returns the words of the literals of a condition."""
    return sum(map(literal_words, terms_of(condition)))


def row_bound(query, count):
    """Returns how many rows a query may have."""
    if query[0] in OPERATORS:
        left, right = (row_bound(side, count) for side in query[1:])
        return left + right if query[0] == "union" else left
    product = 1
    for table, _ in query[2]:
        product *= count(table)
    return product


def select_words(query, count):
    """Returns the words of a SELECT: for each row of a table, and for each of the products from the left."""
    _, _, tables, conditions = query
    condition, product, rows = ("and", conditions), 1, 0
    for table, _ in tables:
        product *= count(table)
        rows += count(table) + product
    return (operations(condition) + 3) * rows + literals(condition)


def operator_words(query, count, width):
    left, right = (row_bound(side, count) for side in query[1:])
    if query[0] == "union":
        return left + right
    if query[0] == "except":
        return left * right * (2 * width + 2) + left
    return left * right * (2 * width + 1) + 2 * left


def query_words(query, count, width):
    """Returns the words of a query with so many columns."""
    if query[0] not in OPERATORS:
        return select_words(query, count)
    return sum(query_words(side, count, width) for side in query[1:]) + operator_words(query, count, width)


def named_columns(terms):
    """Returns how many of these terms are columns."""
    return sum(kind == "column" for kind, _ in terms)


def assertion_words(tree, count, width):
    """Returns the words of an assertion's change, with that of its commit."""
    if tree[0] == "assert query":
        return query_words(tree[2], count, width) + 2 * row_bound(tree[2], count) + 6
    if tree[0] == "assert key":
        return count(tree[1]) ** 2 * (2 * width + 3) + 6
    return literals(tree[1]) + operations(tree[1]) + 6


def change_words(tree, count, width):
    """Returns the words of an action's change, with that of its commit. The width is that of its query, or of its table."""
    kind, name = tree[:2]
    if kind.startswith("assert"):
        return assertion_words(tree, count, width)
    if kind == "create":
        return sum(len(one) + 2 for one in [name, *tree[2]]) + 6
    if kind == "insert":
        cells = sum(literal_words(cell) for row in tree[2] for cell in row)
        rows = sum(len(row) + 2 for row in tree[2])
        return cells + literals(tree[3]) + operations(tree[3]) + rows + len(name) + 8
    if kind == "insert query":
        return query_words(tree[2], count, width) + row_bound(tree[2], count) * (width + 2) + len(name) + 8
    if kind == "delete":
        return literals(tree[2]) + operations(tree[2]) + named_columns(terms_of(tree[2])) + len(name) + 6
    terms = [term for _, term in tree[2]] + terms_of(tree[3])
    return sum(map(literal_words, terms)) + named_columns(terms) + 2 * len(tree[2]) + operations(tree[3]) + len(name) + 8


def applying_words(tree, count):
    """Returns the words of applying an action's change to the tables."""
    kind = tree[0]
    if kind == "create":
        return 0
    if kind == "insert":
        return len(tree[2])
    if kind == "insert query":
        return row_bound(tree[2], count)
    if kind == "delete":
        return count(tree[1]) * (operations(tree[2]) + 2)
    return count(tree[1]) * (operations(tree[3]) + 5) if kind == "update" else 1


def list_words(kind, rows, width):
    """Returns the words of POSSIBLE or CERTAIN, besides those of the query."""
    if kind == "possible":
        return rows
    return rows * (rows * (2 * width + 2) + width + 1) if kind == "certain" else 0


def bound(tree, count, own, width):
    """Returns the bound on the words of a statement. `own` has the actions of the open transaction, or is None; the width is
    that of the statement's query, or of the table of its key, if it has one."""
    kind = tree[0]
    if kind in ("begin", "rollback"):
        return 0
    if kind == "commit":
        return 1 + sum(applying_words(one, count) for one in own) if own else 0
    if kind in ("rows", "possible", "certain"):
        return query_words(tree[1], count, width) + list_words(kind, row_bound(tree[1], count), width)
    times = 2 if own is None else 1
    return change_words(tree, count, width) + times * applying_words(tree, count)
