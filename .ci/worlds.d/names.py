"""Which names a statement is refused for, over a schema: the columns of each table, by its name."""

from reading import OPERATORS, Refused


def known(name, schema):
    """Refuses a name that no table has."""
    if name not in schema:
        raise Refused("UnknownTable")
    return schema[name]


def check_column(column, scope):
    """Refuses a column that no table in scope has, or more than one."""
    table, name = column
    having = [seen for seen, columns in scope for one in columns if one == name and table in (None, seen)]
    if not having:
        raise Refused("UnknownColumn")
    if len(having) > 1:
        raise Refused("AmbiguousColumn")


def columns_of(condition):
    """Returns the columns of a condition, from the left."""
    if condition[0] == "same":
        return [value for kind, value in condition[1:] if kind == "column"]
    parts = condition[1] if condition[0] in ("and", "or") else condition[1:]
    return [column for part in parts for column in columns_of(part)]


def check_condition(condition, scope):
    for column in columns_of(condition):
        check_column(column, scope)


def headed(query, schema):
    """Returns the names of a query's columns, or refuses it."""
    if query[0] in OPERATORS:
        left, right = headed(query[1], schema), headed(query[2], schema)
        if len(left) != len(right):
            raise Refused("ColumnCount")
        return left
    _, items, tables, conditions = query
    scope = [(seen, known(name, schema)) for name, seen in tables]
    if len({seen for seen, _ in scope}) < len(scope):
        raise Refused("DuplicateName")
    for column, _ in items or []:
        check_column(column[1], scope)
    for condition in conditions:
        check_condition(condition, scope)
    if items is None:
        return [column for _, columns in scope for column in columns]
    return [name for _, name in items]


def check_creation(name, columns, schema):
    if name in schema:
        raise Refused("TableExists")
    if len(set(columns)) < len(columns):
        raise Refused("DuplicateName")


def check_update(name, sets, condition, schema):
    scope = [(name, known(name, schema))]
    for column, term in sets:
        check_column(column[1], scope)
        if term[0] == "column":
            check_column(term[1], scope)
    if len({column for column, _ in sets}) < len(sets):
        raise Refused("DuplicateName")
    check_condition(condition, scope)


def check_key(name, columns, schema):
    scope = [(name, known(name, schema))]
    for column in columns:
        check_column((None, column), scope)
    if len(set(columns)) < len(columns):
        raise Refused("DuplicateName")


def check(statement, schema):
    """Refuses a statement for its names and counts."""
    kind = statement[0]
    if kind == "create":
        check_creation(*statement[1:], schema)
    elif kind == "assert":
        check_condition(statement[1], [])
    elif kind == "assert query":
        headed(statement[2], schema)
    elif kind == "assert key":
        check_key(*statement[1:], schema)
    elif kind == "update":
        check_update(*statement[1:], schema)
    elif kind == "delete":
        check_condition(statement[2], [(statement[1], known(statement[1], schema))])
    elif kind == "insert":
        columns = known(statement[1], schema)
        if any(len(row) != len(columns) for row in statement[2]):
            raise Refused("ColumnCount")
        check_condition(statement[3], [])
    elif kind == "insert query":
        columns = known(statement[1], schema)
        if len(headed(statement[2], schema)) != len(columns):
            raise Refused("ColumnCount")
    elif kind in ("rows", "possible", "certain"):
        headed(statement[1], schema)
