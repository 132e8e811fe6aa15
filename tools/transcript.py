"""Reads transcripts of ctdb, and the statements of scripts.

A transcript has for each session its replies, then the history of commits, and `end`. Texts are printed raw: a line end
belongs to a text where the number of quotes before it is odd. What is no line of a transcript is kept as it is, and a
transcript that ends too early is read as far as it goes.
"""

import re

HEAD = re.compile("([0-9]+) (.*)", re.DOTALL)
ANSWER = re.compile(r"(rows|possible|certain) \(([a-z0-9_, ]*)\) at ([0-9]+)(?: plus ([0-9]+))?")
OTHER = re.compile(
    "begun at [0-9]+|rolled back|pending at [0-9]+ plus [0-9]+|committed [0-9]+|nothing to commit at [0-9]+"
    "|refused [A-Z][A-Za-z]+(?: [a-z0-9_]+ was [0-9]+ now [0-9]+ at [0-9]+)?"
)
COMMIT = re.compile("([0-9]+) by ([0-9]+)")
TOKEN = re.compile(
    r"(?P<text>'[^']*(?:''[^']*)*')|(?P<null>\?(?:[0-9]+\#[0-9]+|[a-z_][a-z0-9_]*))|(?P<other>@[0-9]+)"
    r"|(?P<column>\$[0-9]+)|(?P<number>-?[0-9]+)|(?P<name>\[[0-9]+\])|(?P<word>[a-z]+)|(?P<symbol><>|[(),=])"
)
# A piece of a script, none of which has a ; outside a text and a comment but the one that is only that.
PIECE = re.compile("('[^']*(?:'|$))|(--[^\n]*)|(;)|([^;'-]+|-)")


class Unread(Exception):
    """A line is none of a transcript."""


def counted(rows):
    """Returns a number of rows in words."""
    return "no row" if rows == 0 else "1 row" if rows == 1 else f"{rows} rows"


class Row:
    """A row of an answer: its cells as they are printed, the place of its condition or None, the text behind `if` or `in`,
    and for a possible row its world, as nulls with their values."""

    def __init__(self, cells, place=None, text="", world=()):
        self.cells = cells
        self.place = place
        self.text = text
        self.world = world


class Reply:
    """A reply: the number of its statement, what its first line says behind that, and the lines that were not read. An
    answer has a kind, `rows`, `possible` or `certain`, its columns, the nodes of its conditions, the names of some of them
    and the lines that say what they are, the place of what stands behind `worlds where`, or None, and its rows."""

    def __init__(self, number, head):
        self.number = number
        self.head = head
        self.odd = []
        self.is_cut = False
        self.nodes, self.names = [], {}
        self.definitions = []
        self.allowed, self.allowed_text = None, ""
        self.rows = []
        found = ANSWER.fullmatch(head)
        self.kind = found[1] if found else None
        self.columns = found[2].split(", ") if found else []

    def summary_of_list(self):
        """Returns the line below an answer with possible rows or with certain rows."""
        if not self.rows:
            return "no rows"
        where = "in some world" if self.kind == "possible" else "in every world"
        return f"{counted(len(self.rows))}, {'each ' * (len(self.rows) > 1)}{where}"

    def is_refusal(self):
        """Tells whether the statement was refused."""
        return self.head.startswith("refused ")


class Commit:
    """A commit of the history: its number, its session, its lines, and the conditions that it asserts."""

    def __init__(self, number, session):
        self.number = number
        self.session = session
        self.lines = []
        self.odd = []
        self.nodes, self.names = [], {}
        self.definitions = []
        self.asserted = []


class Session:
    """A session: its number, its replies, and lines that were not read before the first of them."""

    def __init__(self, number):
        self.number = number
        self.replies = []
        self.odd = []


class Transcript:
    """A transcript: its sessions, its commits, lines that were not read, and where it ends too early what says so, with
    the piece of a line that it ends with."""

    def __init__(self):
        self.sessions = []
        self.commits = []
        self.odd = []
        self.cut = None
        self.rest = ""

    def is_whole(self):
        """Tells whether all of it was there, and was read."""
        parts = [self, *self.sessions, *self.commits, *(reply for one in self.sessions for reply in one.replies)]
        return not self.cut and not any(part.odd for part in parts)


class Reader:
    """Reads the tokens of a line from the left, and puts the nodes of its conditions into a list."""

    def __init__(self, line, nodes, names):
        self.line = line
        self.nodes = nodes
        self.names = {name: place for place, name in names.items()}
        self.tokens, self.starts = tokens(line)
        self.at = 0

    def peek(self):
        """Returns the text of the next token, or nothing at the end."""
        return self.tokens[self.at][1] if self.at < len(self.tokens) else ""

    def take(self, *wanted):
        """Takes the next token where it has one of these texts. Tells whether it did."""
        if self.peek() not in wanted or self.at == len(self.tokens):
            return False
        self.at += 1
        return True

    def need(self, *wanted):
        """Takes a token with each of these texts."""
        for one in wanted:
            if not self.take(one):
                raise Unread(self.line)

    def next(self, *kinds):
        """Takes the next token, which has one of these kinds, and returns its text."""
        if self.at == len(self.tokens) or self.tokens[self.at][0] not in kinds:
            raise Unread(self.line)
        self.at += 1
        return self.tokens[self.at - 1][1]

    def rest(self):
        """Returns the text of the line from the next token on."""
        return self.line[self.starts[self.at] :] if self.at < len(self.tokens) else ""

    def end(self):
        """The line ends here."""
        if self.at < len(self.tokens):
            raise Unread(self.line)

    def add(self, *node):
        """Adds a node, and returns its place."""
        self.nodes.append(node)
        return len(self.nodes) - 1

    def leaf(self):
        """Reads a condition without parts."""
        if self.peek() in ("true", "false"):
            return self.add(self.next("word"))
        if self.peek() in self.names:
            return self.names[self.next("name")]
        left = self.next("null", "number", "text", "other", "column")
        sign = self.next("symbol")
        if sign not in ("=", "<>"):
            raise Unread(self.line)
        return self.add(sign, left, self.next("null", "number", "text", "other", "column"))

    def closed(self, word, parts):
        """Adds the node of a run of parts with one word between them."""
        return parts[0] if word is None else self.add(word, *parts)

    def condition(self):
        """Reads a condition, and returns its place."""
        around, word, parts = [], None, []
        while True:
            while self.take("("):
                around.append((word, parts))
                word, parts = None, []
            parts.append(self.leaf())
            while around and self.take(")"):
                inner = self.closed(word, parts)
                word, parts = around.pop()
                parts.append(inner)
            if not (following := self.take_word(word)):
                break
            word = following
        if around:
            raise Unread(self.line)
        return self.closed(word, parts)

    def take_word(self, word):
        """Takes the `and` or `or` that goes on with a run, whose word is the one given or not yet known."""
        for one in ("and", "or"):
            if word in (None, one) and self.take(one):
                return one
        return None

    def cells(self):
        """Reads the cells of a row."""
        self.need("(")
        found = [self.next("null", "number", "text", "other")]
        while self.take(","):
            found.append(self.next("null", "number", "text", "other"))
        self.need(")")
        return found

    def world(self):
        """Reads the world of a possible row."""
        found = []
        if self.take("default"):
            return found
        while not found or self.take(","):
            null = self.next("null")
            self.need("=")
            found.append((null, self.next("number", "text", "other")))
        return found


def tokens(line):
    """Returns the tokens of a line, each as its kind and its text, and where they begin."""
    found, starts, at = [], [], 0
    while at < len(line):
        if line[at] == " ":
            at += 1
            continue
        match = TOKEN.match(line, at)
        if not match:
            raise Unread(line)
        found.append((match.lastgroup, match[0]))
        starts.append(at)
        at = match.end()
    return found, starts


def lines_of(text):
    """Returns the lines of a transcript, and what stands behind the last line end that is none of a text."""
    found, pieces, is_open = [], [], False
    for piece in text.split("\n"):
        pieces.append(piece)
        is_open ^= piece.count("'") % 2 == 1
        if not is_open:
            found.append("\n".join(pieces))
            pieces = []
    # Behind the last line end there is one piece more, which is empty where nothing was cut off.
    return (found, "\n".join(pieces)) if pieces else (found[:-1], found[-1])


def read_row(reply, line):
    """Reads a row of an answer."""
    reader = Reader(line, reply.nodes, reply.names)
    row = Row(reader.cells())
    if len(row.cells) != len(reply.columns):
        raise Unread(line)
    if reply.kind == "certain":
        reader.need("absence", "refuted")
    elif reply.kind == "possible":
        reader.need("in")
        row.text = reader.rest()
        row.world = reader.world()
    elif reader.take("if"):
        row.text = reader.rest()
        row.place = reader.condition()
    reader.end()
    reply.rows.append(row)


def read_name(part, line):
    """Reads a line `  [k] is ..` of an answer or a commit. Tells whether it is one."""
    found = re.match(r"  (\[[0-9]+\]) is ", line)
    if not found:
        return False
    reader = Reader(line[found.end() :], part.nodes, part.names)
    place = reader.condition()
    reader.end()
    part.names[place] = found[1]
    part.definitions.append(line.strip(" "))
    return True


def read_allowed(reply, line):
    """Reads the line `  worlds where ..` of an answer. Tells whether it is one."""
    if reply.rows or not line.startswith("  worlds where "):
        return False
    reply.allowed_text = line[len("  worlds where ") :]
    reader = Reader(reply.allowed_text, reply.nodes, reply.names)
    reply.allowed = reader.condition()
    reader.end()
    return True


def read_answer_line(reply, line):
    """Reads a line under the head of an answer."""
    try:
        if reply.kind is None or not line.startswith("  "):
            raise Unread(line)
        if reply.kind != "rows" or not (read_name(reply, line) or read_allowed(reply, line)):
            read_row(reply, line)
    except Unread:
        reply.odd.append(line)


def read_commit_line(commit, line):
    """Reads a line under the head of a commit."""
    try:
        if not line.startswith("  "):
            raise Unread(line)
        if not read_name(commit, line) and line.startswith("  assert "):
            reader = Reader(line[len("  assert ") :], commit.nodes, commit.names)
            commit.asserted.append(reader.condition())
            reader.end()
        commit.lines.append(line[2:])
    except Unread:
        commit.odd.append(line)


class Reading:
    """Where the reading of a transcript is."""

    def __init__(self):
        self.found = Transcript()
        self.place = "session"

    def line(self, line):
        """Reads a line."""
        if self.place == "end":
            self.found.odd.append(line)
        elif self.place == "history":
            self.line_of_history(line)
        elif line == "history":
            self.place = "history"
        elif line == f"session {len(self.found.sessions) + 1}":
            self.found.sessions.append(Session(len(self.found.sessions) + 1))
        else:
            self.line_of_session(line)

    def line_of_session(self, line):
        """Reads the head of a reply, or a line below one."""
        head = HEAD.fullmatch(line)
        if not self.found.sessions:
            self.found.odd.append(line)
        elif head and (ANSWER.fullmatch(head[2]) or OTHER.fullmatch(head[2])):
            self.found.sessions[-1].replies.append(Reply(int(head[1]), head[2]))
        elif self.found.sessions[-1].replies:
            read_answer_line(self.found.sessions[-1].replies[-1], line)
        else:
            self.found.sessions[-1].odd.append(line)

    def line_of_history(self, line):
        """Reads the head of a commit, a line below one, or the end."""
        if line == "end":
            self.place = "end"
        elif head := COMMIT.fullmatch(line):
            self.found.commits.append(Commit(int(head[1]), int(head[2])))
        elif self.found.commits:
            read_commit_line(self.found.commits[-1], line)
        else:
            self.found.odd.append(line)

    def end(self, rest):
        """Ends the transcript, with what stands behind its last line."""
        found = self.found
        found.rest = rest
        if self.place == "end" and not rest:
            return found
        replies = found.sessions[-1].replies if found.sessions else []
        if self.place == "end":
            found.cut = "something stands behind its end"
        elif self.place == "history":
            found.cut = f"it ends in the history, at commit {len(found.commits)}"
        elif not found.sessions:
            found.cut = "it has no session"
        elif not replies:
            found.cut = f"it ends in session {len(found.sessions)}, before the first reply"
        else:
            found.cut = f"it ends in session {len(found.sessions)}, at reply {replies[-1].number}"
            replies[-1].is_cut = True
        return found


def read(text):
    """Reads a transcript."""
    lines, rest = lines_of(text)
    reading = Reading()
    for line in lines:
        reading.line(line)
    return reading.end(rest)


def statements(script):
    """Returns the texts of a script's statements: cut at each ; outside texts and comments, without blanks around them."""
    found, pieces, says = [], [], False
    for match in PIECE.finditer(script):
        if match[3]:
            found.append((pieces, says))
            pieces, says = [], False
            continue
        pieces.append(match[0])
        says = says or bool(match[1]) or bool(match[4] and match[4].strip("\t\n\r "))
    return ["".join(pieces).strip("\t\n\r ") for pieces, says in [*found, (pieces, says)] if says]
