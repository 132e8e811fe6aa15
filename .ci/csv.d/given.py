"""Files in CSV, and what docs/CSV.md says of them: the script of each table, or where the first fault of another one stands.
Plain files, with the tables that are made of them."""


def table(lines, columns="a"):
    """Returns the script of the table t with these columns, whose rows are inserted so."""
    return f"create table t ({columns});\n" + "".join(f"insert into t values {line};\n" for line in lines)


def nested(depth):
    """Returns a file with a condition that is so deep."""
    return f"a,if\n1,{'(' * depth}true{')' * depth}\n"


# Tables, with their scripts.
TABLES = [
    ("a,if\n", table([])),
    ("a,if", table([])),
    ("A,if\n1,", table(["(1)"])),
    ("\ufeffa,if\n1,\n", table(["(1)"])),
    ('\n\r\n"a","if"\r\n\r\n"1",""\r', table(["(1)"])),
    ("_1,B2,if\r1,2,\r3,4,", table(["(1, 2)", "(3, 4)"], "_1, b2")),
    ("a,a,if\n", table([], "a, a")),
    ("a,if\n-0,\n007,\n-012,\n", table(["(0)", "(7)", "(-12)"])),
    ("a,if\n9223372036854775807,\n-9223372036854775808,\n", table(["(9223372036854775807)", "(-9223372036854775808)"])),
    ("a,if\n?X,\n?select, \t?y=?X --\n", table(["(?x)", "(?select) if ?y = ?X"])),
    ("a,if\n 1 -- one,\n\"-- 'x'\n\t'y'\",\n", table(["(1)", "('y')"])),
    ("a,if\n'it''s','' = ''\n", table(["('it''s') if '' = ''"])),
    ("a,if\n\"'a,\"\"b\"\";--\r\n'\",\n'x\"y',\n", table(["('a,\"b\";--\r\n')", "('x\"y')"])),
    ("a,if\n'\u00e9\u20ac\U0001f600\ufeff\u2028\x00\x85',\n", table(["('\u00e9\u20ac\U0001f600\ufeff\u2028\x00\x85')"])),
    ("a,if\n1,TRUE\n1,?x!=1 Or(?y='b')--or\n", table(["(1) if TRUE", "(1) if ?x != 1 Or ( ?y = 'b' )"])),
    ("a,if\n1,not(1=-1 and not not false)and ?y<>2", table(["(1) if not ( 1 = -1 and not not false ) and ?y <> 2"])),
    (nested(64), table([f"(1) if {'( ' * 64}true{' )' * 64}"])),
    (f"a,if\n1,{'not ' * 64}true or not true\n", table([f"(1) if {'not ' * 64}true or not true"])),
    # What stands behind a closing quote belongs to the field, and an open quote goes up to the end of the file.
    ('a,if\n"1"2,\n"\'x"y\',""true\n3,"?x = 1\n', table(["(12)", "('xy') if true", "(3) if ?x = 1"])),
]

# Others, with the place of their first fault.
FAULTS = [
    (b"\xff", "line 1 "),
    (b"a,if\n'\xed\xa0\x80',\n", "line 2 "),
    (b"a,if\n1\n", "record 2 "),
    (b"a,if\n1,,\n", "record 2 "),
    (b"if\na,b\n", "record 2 "),
    (b"a,if\nabc,\n1\n", "record 3 "),
    (b"", "record 1, field 1: "),
    (b"\n\r\n", "record 1, field 1: "),
    (b" ", "record 1, field 1: "),
    (b"if", "record 1, field 1: "),
    (b"a", "record 1, field 1: "),
    (b"a,if,b", "record 1, field 3: "),
    (b"a,IF", "record 1, field 2: "),
    (b"a, if", "record 1, field 2: "),
    (b"select,if", "record 1, field 1: "),
    (b"a b,if", "record 1, field 1: "),
    (b" a,if", "record 1, field 1: "),
    (b"a,,if", "record 1, field 2: "),
    (b"a-b,if", "record 1, field 1: "),
    (b"1a,if", "record 1, field 1: "),
    (b"\xc3\xa4,if", "record 1, field 1: "),
    (b"a,if\nabc,\n", "record 2, field 1: "),
    (b"a,if\nnull,\n", "record 2, field 1: "),
    (b"a,if\nNULL,\n", "record 2, field 1: "),
    (b"a,if\n1 2,\n", "record 2, field 1: "),
    (b"a,if\n'open,\n", "record 2, field 1: "),
    (b"a,if\n'open'',\n", "record 2, field 1: "),
    (b"a,if\n?,\n", "record 2, field 1: "),
    (b"a,if\n?1,\n", "record 2, field 1: "),
    (b"a,if\n99999999999999999999,\n", "record 2, field 1: "),
    (b"a,if\n-9223372036854775809,\n", "record 2, field 1: "),
    (b"a,if\n,\n", "record 2, field 1: "),
    (b"a,if\n-- x,\n", "record 2, field 1: "),
    (b"a,if\n=,\n", "record 2, field 1: "),
    (b"a,if\n(1),\n", "record 2, field 1: "),
    (b"a,if\n1.5,\n", "record 2, field 1: "),
    (b"a,if\n1;,\n", "record 2, field 1: "),
    (b"a,if\n1, \n", "record 2, field 2: "),
    (b"a,if\n1,-- x\n", "record 2, field 2: "),
    (b"a,if\n1,a = 1\n", "record 2, field 2: "),
    (b"a,if\n1,t.a = 1\n", "record 2, field 2: "),
    (b"a,if\n1,?x = 1 or\n", "record 2, field 2: "),
    (b"a,if\n1,?x = 1 not\n", "record 2, field 2: "),
    (b"a,if\n1,?x\n", "record 2, field 2: "),
    (b"a,if\n1,1\n", "record 2, field 2: "),
    (b"a,if\n1,1 = 1 = 1\n", "record 2, field 2: "),
    (b"a,if\n1,true = true\n", "record 2, field 2: "),
    (b"a,if\n1,?x = 1 ?y = 1\n", "record 2, field 2: "),
    (b"a,if\n1,(true\n", "record 2, field 2: "),
    (b"a,if\n1,true)\n", "record 2, field 2: "),
    (b"a,if\n1,()\n", "record 2, field 2: "),
    (b"a,if\n1,null = 1\n", "record 2, field 2: "),
    (b"a,if\n1,?x = 99999999999999999999\n", "record 2, field 2: "),
    (b"a,if\n1,?x < 1\n", "record 2, field 2: "),
    (b"a,if\n1,true;\n", "record 2, field 2: "),
    (nested(65).encode(), "record 2, field 2: "),
    (f"a,if\n1,{'not ' * 65}true\n".encode(), "record 2, field 2: "),
    (b"a,b,if\n1,2,\n\n3,x,\n", "record 3, field 2: "),
    (b"a,b,if\nx,y,z\n", "record 2, field 1: "),
    (b"a,b,if\n1,2,\"\n3,4,\n", "record 2, field 3: "),
]

# Plain files, and the tables that are made of them for the name T.
PLAIN = [
    ("A,b\n", "a,b,if\n"),
    ("a\r\n1\r\n-5\r\n007\r\n-0\r\n+1\r\n", "a,if\n1,\n-5,\n'007',\n'-0',\n'+1',\n"),
    ("a\n9223372036854775807\n9223372036854775808\n1.5\n", "a,if\n9223372036854775807,\n'9223372036854775808',\n'1.5',\n"),
    ("a,B\n,\nNULL,?x\n\n'q',\" 1\"\n", "a,b,if\n?t_1_a,?t_1_b,\n'NULL','?x',\n'''q''',' 1',\n"),
    ('a\n"x,""y""\nz"\n', "a,if\n\"'x,\"\"y\"\"\nz'\",\n"),
]
