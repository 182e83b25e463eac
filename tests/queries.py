"""Queries drawn by a script, and what they are answered, by a reader and an evaluator of another make.

The rules stand in docs/FORMATS.md. `draw(draws)` is the text of a query, mostly a good one. `answer(tables, sealed, height, text)` is what the
command has to print: the text is split into tokens, read by one function a rule, its names are looked up in the order of the text, and then all
choices of rows are made, tested one by one, grouped and sorted. A table has its columns, as (name, kind), its key columns and its rows, as
(values, block, position).
"""
import itertools
import re

WORDS = {"as", "join", "where", "group", "order", "by", "select", "count", "sum", "min", "max", "block", "pos"}
RESERVED = set(
    "table key index int text bool bytes proc let if else get from for in span on to insert update set delete fail true false and or not x now"
    " isolation exact".split()
)
TOKEN = re.compile(
    r'(?P<blank>[ \t\n]+|#[\x00-\x09\x0b-\x7f]*)|(?P<bytes>x"(?:[0-9a-f]{2}){0,255}")|(?P<text>"(?:[^"\\\x00-\x1f\x7f]|\\["\\])*")'
    r"|(?P<word>[a-z][a-z0-9_]*)|(?P<int>[0-9]+)|(?P<sign>!=|<=|>=|\+\+|[(){},;.=<>+*/%-])"
)
RELATIONS = {
    "=": lambda a, b: a == b,
    "!=": lambda a, b: a != b,
    "<": lambda a, b: a < b,
    "<=": lambda a, b: a <= b,
    ">": lambda a, b: a > b,
    ">=": lambda a, b: a >= b,
}
MOST_TUPLES = 1000000


class Refused(Exception):
    pass


def value_of(spelling):
    """The kind and the value of a literal."""
    if spelling in ("true", "false"):
        return "bool", spelling == "true"
    if spelling.startswith('x"'):
        return "bytes", bytes.fromhex(spelling[2:-1])
    if spelling.startswith('"'):
        return "text", re.sub(r"\\(.)", r"\1", spelling[1:-1]).encode()
    return "int", int(spelling)


def spell(kind, value):
    if kind == "bool":
        return "true" if value else "false"
    if kind == "bytes":
        return f'x"{value.hex()}"'
    if kind == "text":
        return '"' + re.sub(r'(["\\])', r"\\\1", value.decode()) + '"'
    return str(value)


# ---- reading


def tokens_of(text):
    """The tokens of a text as (form, spelling), of which the last is the end or what is no token."""
    tokens, place = [], 0
    while place < len(text):
        found = TOKEN.match(text, place)
        if not found:
            return tokens + [("bad", "")]
        form, spelling, place = found.lastgroup, found.group(), found.end()
        if form == "word":
            form = "name" if len(spelling) <= 32 else "bad"
            form = "word" if spelling in RESERVED | WORDS else form
        if form == "int" and (len(spelling) > 1 and spelling[0] == "0" or int(spelling) >= 2**63):
            form = "bad"
        if form == "text" and len(value_of(spelling)[1]) > 255:
            form = "bad"
        if form == "bad":
            return tokens + [("bad", "")]
        if form != "blank":
            tokens.append((form, spelling))
    return tokens + [("end", "")]


class Reader:
    def __init__(self, text):
        self.tokens = tokens_of(text)

    def next(self):
        return self.tokens[0]

    def is_next(self, spelling):
        return self.next()[0] in ("word", "sign") and self.next()[1] == spelling

    def take(self, forms):
        form, spelling = self.next()
        if form not in forms:
            raise Refused("Syntax")
        self.tokens = self.tokens[1:]
        return spelling

    def expect(self, spelling):
        if not self.is_next(spelling):
            raise Refused("Syntax")
        self.tokens = self.tokens[1:]

    def past(self, spelling):
        if self.is_next(spelling):
            self.expect(spelling)
            return True
        return False

    def list(self, element, separator, most):
        items = [element()]
        while self.past(separator):
            if len(items) == most:
                raise Refused("Syntax")
            items.append(element())
        return items

    def source(self):
        table = self.take(["name"])
        self.expect("as")
        return table, self.take(["name"])

    def col(self):
        source = self.take(["name"])
        self.expect(".")
        if self.is_next("block") or self.is_next("pos"):
            return source, (self.take(["word"]),)
        return source, self.take(["name"])

    def side(self):
        form, spelling = self.next()
        if form == "name":
            return "col", self.col()
        if self.past("-"):
            return "value", value_of("-" + self.take(["int"]))
        if spelling in ("true", "false"):
            return "value", value_of(self.take(["word"]))
        return "value", value_of(self.take(["int", "text", "bytes"]))

    def comparison(self):
        left, relation = self.col(), self.take(["sign"])
        if relation not in RELATIONS:
            raise Refused("Syntax")
        return left, relation, self.side()

    def item(self):
        for word in ("count", "sum", "min", "max"):
            if self.past(word):
                return (word, None) if word == "count" else (word, self.col())
        return "plain", self.col()

    def query(self):
        self.expect("from")
        query = {"sources": self.list(self.source, "join", 4), "groups": [], "order": []}
        query["conditions"] = self.list(self.comparison, "and", 16) if self.past("where") else []
        if len(query["sources"]) == 1 and self.past("group"):
            self.expect("by")
            query["groups"] = self.list(self.col, ",", 16)
        self.expect("select")
        one = len(query["sources"]) == 1
        query["items"] = self.list(self.item if one else lambda: ("plain", self.col()), ",", 16)
        if self.past("order"):
            self.expect("by")
            query["order"] = self.list(lambda: int(self.take(["int"])), ",", 16)
        self.expect(";")
        self.take(["end"])
        return query


# ---- names and kinds


class Scope:
    def __init__(self, tables):
        self.tables, self.sources = tables, {}

    def add(self, table, name):
        if table not in self.tables:
            raise Refused("UnknownName")
        if name in self.sources:
            raise Refused("NameTwice")
        self.sources[name] = (len(self.sources), table)

    def col(self, col):
        """The number of the source, the kind, and the values of a row in a column."""
        source, field = col
        if source not in self.sources:
            raise Refused("UnknownName")
        number, table = self.sources[source]
        if isinstance(field, tuple):
            place = 1 if field == ("block",) else 2
            return number, "int", lambda row: row[place]
        names = [name for name, _ in self.tables[table]["columns"]]
        if field not in names:
            raise Refused("UnknownName")
        column = names.index(field)
        return number, self.tables[table]["columns"][column][1], lambda row: row[0][column]


def getter(resolved):
    number, _, read = resolved
    return lambda rows: read(rows[number])


def walk(tables, query):
    """The query with functions in place of names."""
    scope = Scope(tables)
    for table, name in query["sources"]:
        scope.add(table, name)
    tests = []
    for left, relation, (form, right) in query["conditions"]:
        left = scope.col(left)
        kind, read = right[0], lambda rows, value=right[1]: value
        if form == "col":
            right = scope.col(right)
            kind, read = right[1], getter(right)
        if kind != left[1]:
            raise Refused("WrongKind")
        tests.append((RELATIONS[relation], getter(left), read))
    groups = [scope.col(col) for col in query["groups"]]
    grouped = bool(groups) or any(form != "plain" for form, _ in query["items"])
    items = []
    for form, col in query["items"]:
        found = scope.col(col) if col else (0, "int", None)
        if form == "sum" and found[1] != "int" or form == "plain" and grouped and col not in query["groups"]:
            raise Refused("WrongKind")
        items.append((form, found[1], getter(found)))
    if any(not 1 <= number <= len(items) for number in query["order"]):
        raise Refused("WrongKind")
    return tests, grouped, [getter(found) for found in groups], items


# ---- answers


def item_of(item, group):
    form, _, read = item
    if form == "plain":
        return read(group[0])
    if form == "count":
        return len(group)
    values = [read(rows) for rows in group]
    return {"sum": sum, "min": min, "max": max}[form](values)


def rows_of(tables, query):
    tests, grouped, columns, items = walk(tables, query)
    sources = [tables[table]["rows"] for table, _ in query["sources"]]
    tuples = [rows for rows in itertools.product(*sources) if all(test(left(rows), right(rows)) for test, left, right in tests)]
    if len(tuples) > MOST_TUPLES:
        raise Refused("TooMany")
    groups = {}
    for number, rows in enumerate(tuples):
        groups.setdefault(tuple(read(rows) for read in columns) if grouped else number, []).append(rows)
    made = [[item_of(item, groups[key]) for item in items] for key in sorted(groups)]
    if any(form == "sum" and not -(2**63) <= value < 2**63 for row in made for (form, _, _), value in zip(items, row)):
        raise Refused("Overflow")
    made.sort(key=lambda row: [row[number - 1] for number in query["order"]])
    return [[spell(kind, value) for (_, kind, _), value in zip(items, row)] for row in made]


def answer(tables, sealed, height, text):
    """The status and the bytes of the command."""
    try:
        if len(text.encode()) > 4096:
            raise Refused("Syntax")
        query = Reader(text).query()
        walk(tables, query)
        if height > sealed:
            raise Refused("TooHigh")
        lines = ["answer " + " ".join(row) for row in rows_of(tables, query)] + ["done"]
        return 0, "".join(line + "\n" for line in lines).encode()
    except Refused as refused:
        return 9, f"refused query {refused}\n".encode()
