#!/usr/bin/env python3
"""Runs the command `query` on queries that a script draws, and compares every byte with what tests/queries.py answers.

The blocks are drawn too. What the tables were after each block, and who wrote each row, is printed by `provenance`, so that nothing of the
command's own is taken for right. Most queries are good ones; some have a token too few or too many, or one of another query. The last ones stand at
the limits: 1,000,000 tuples and one row more, a sum at either end of the ints and beyond, lists of 16 elements and of 17, 4,096 bytes and 4,097.
At last a text that is no query has to take a small part of the processor time that a query takes, since no block is run for it.
Usage: check_queries.py PROGRAM
"""
import os
import random
import re
import resource
import sys
import tempfile

import queries
from run_cases import Tally, run

APPLICATION = """table acct (id int, owner text, bal int) key (id) index (owner);
table lot (zone text, no int, free bool, tag bytes) key (zone, no) index (free);
proc add(i int, o text, b int) { insert acct (i, o, b); }
proc set_bal(i int, b int) { update acct key (i) set bal = b; }
proc remove(i int) { delete acct key (i); }
proc put(z text, n int, f bool, t bytes) { insert lot (z, n, f, t); }
proc free(z text, n int, f bool) { update lot key (z, n) set free = f; }
"""
TABLES = {
    "acct": [("id", "int"), ("owner", "text"), ("bal", "int")],
    "lot": [("zone", "text"), ("no", "int"), ("free", "bool"), ("tag", "bytes")],
}
KEYS = {"acct": [0], "lot": [0, 1]}
OWNERS = ["", "a", "ann", "bob", 'q"\\', "zoë"]
ZONES = ["n", "north", "s"]
TAGS = ["", "00", "00ff", "ff"]
SEED, BLOCKS, QUERIES = 13, 6, 600
VALUE = re.compile(r'-?[0-9]+|true|false|x"[0-9a-f]*"|"(?:[^"\\]|\\.)*"')


# ---- blocks, and the tables after each


def text(value):
    return queries.spell("text", value.encode())


def call(draws):
    kind = draws.randrange(6)
    if kind < 2:
        return f"add {draws.randrange(-3, 12)} {text(draws.choice(OWNERS))} {draws.randrange(-40, 60)}"
    if kind == 2:
        return f"set_bal {draws.randrange(-3, 12)} {draws.randrange(-40, 60)}"
    if kind == 3:
        return f"remove {draws.randrange(-3, 12)}"
    if kind == 4:
        return f'put {text(draws.choice(ZONES))} {draws.randrange(4)} {draws.choice(["true", "false"])} x"{draws.choice(TAGS)}"'
    return f'free {text(draws.choice(ZONES))} {draws.randrange(4)} {draws.choice(["true", "false"])}'


def draft(blocks):
    lines, number = ["draft 1"], 0
    for block, calls in enumerate(blocks, 1):
        lines.append(f"block {block}")
        for words in calls:
            number += 1
            lines.append(f"tx t{number} {block - 1} {words}")
        lines.append("end")
    return "".join(line + "\n" for line in lines)


def versions(program, folder, table, height):
    """The rows of a table after a block, as `provenance` prints the versions that were visible then."""
    status, stdout = run(program, folder, ["provenance", "--app", "a.app", "--blocks", "b.draft", "--query", f"between {table} {height} {height}"])
    lines = stdout.decode().split("\n")[:-2]
    if status:
        raise SystemExit(f"provenance ended with status {status}: {stdout!r}")
    rows = []
    for line in lines:
        made, row = line.split(" made ", 1)[1], line.split(" row ", 1)[1]
        block, pos = made.split(" ")[:2]
        rows.append(([queries.value_of(word)[1] for word in VALUE.findall(row)], int(block), int(pos)))
    return sorted(rows, key=lambda row: [row[0][column] for column in KEYS[table]])


def tables_at(program, folder, height):
    return {table: {"columns": columns, "rows": versions(program, folder, table, height) if height else []} for table, columns in TABLES.items()}


# ---- queries


def draw_col(draws, sources):
    table, name = draws.choice(sources)
    field = draws.choice([column for column, _ in TABLES[table]] * 3 + ["block", "pos"])
    kind = dict(TABLES[table]).get(field, "int")
    return f"{name} . {field}", kind


def draw_value(draws, kind):
    if kind == "int":
        number = draws.choice([0, 1, 2, 3, 5, 30, 2**63 - 1, draws.randrange(-40, 60)])
        return f"- {-number}" if number < 0 else str(number)
    if kind == "text":
        return text(draws.choice(OWNERS + ZONES))
    return draws.choice(["true", "false"]) if kind == "bool" else f'x"{draws.choice(TAGS)}"'


def draw_comparison(draws, sources):
    left, kind = draw_col(draws, sources)
    relation = draws.choice(["=", "=", "=", "!=", "<", "<=", ">", ">="])
    alike = [col for col in (draw_col(draws, sources) for _ in range(8)) if col[1] == kind]
    right = draws.choice(alike)[0] if alike and draws.random() < 0.4 else draw_value(draws, kind)
    if draws.random() < 0.02:
        right = draw_value(draws, draws.choice(["int", "text", "bool", "bytes"]))
    return f"{left} {relation} {right}"


def draw_items(draws, sources, groups):
    grouped = bool(groups) or draws.random() < 0.3
    items = [col for col in groups if draws.random() < 0.7]
    for _ in range(draws.randrange(1, 4)):
        col, kind = draw_col(draws, sources)
        forms = ["count", f"min {col}", f"max {col}"] + [f"sum {col}"] * (2 if kind == "int" else 0)
        items.append(draws.choice(forms) if grouped else col)
    return items


def draw_query(draws):
    """A query as tokens with a space between each two."""
    tables = [draws.choice(list(TABLES)) for _ in range(draws.choice([1, 1, 1, 2, 2, 3]))]
    sources = [(table, f"s{number}") for number, table in enumerate(tables)]
    words = "from " + " join ".join(f"{table} as {name}" for table, name in sources)
    if draws.random() < 0.8:
        words += " where " + " and ".join(draw_comparison(draws, sources) for _ in range(draws.randrange(1, 4)))
    one = len(sources) == 1
    groups = [draw_col(draws, sources)[0] for _ in range(draws.randrange(1, 3))] if one and draws.random() < 0.4 else []
    words += " group by " + " , ".join(groups) if groups else ""
    items = draw_items(draws, sources, groups) if one else [draw_col(draws, sources)[0] for _ in range(draws.randrange(1, 4))]
    words += " select " + " , ".join(items)
    if draws.random() < 0.5:
        words += " order by " + " , ".join(str(draws.randrange(1, len(items) + 1)) for _ in range(draws.randrange(1, 3)))
    return words + " ;"


def spoil(draws, words):
    """A query with a token too few or too many, or one of another query. No text of the drawn ones has a space."""
    tokens, place = words.split(" "), draws.randrange(len(words.split(" ")))
    other = draws.choice(draw_query(draws).split(" ") + ["acct", "nobody", "select", "0", "99", "s0", "s9", "block", "from", '"', "@"])
    kind = draws.randrange(3)
    tokens[place : place + (kind != 1)] = [] if kind == 0 else [other]
    return " ".join(tokens)


# ---- the runs


def ask(program, folder, tables, sealed, height, words, tally):
    wanted = queries.answer(tables, sealed, height, words)
    found = run(program, folder, ["query", "--app", "a.app", "--blocks", "b.draft", "--height", str(height), "--text", words])
    tally.note(f"height {height}: {words}"[:600], wanted, found)


def write(folder, name, content):
    with open(os.path.join(folder, name), "w", encoding="utf-8") as file:
        file.write(content)


def run_drawn(program, tally):
    draws = random.Random(SEED)
    with tempfile.TemporaryDirectory() as folder:
        write(folder, "a.app", APPLICATION)
        write(folder, "b.draft", draft([[call(draws) for _ in range(14)] for _ in range(BLOCKS)]))
        tables = [tables_at(program, folder, height) for height in range(BLOCKS + 1)]
        for _ in range(QUERIES):
            words, height = draw_query(draws), draws.randrange(BLOCKS + 1)
            if draws.random() < 0.25:
                words = spoil(draws, words)
            if draws.random() < 0.03:
                height += BLOCKS
            ask(program, folder, tables[min(height, BLOCKS)], BLOCKS, height, words, tally)


def run_limit(program, calls, texts, tally):
    """Queries over accounts that one block makes."""
    with tempfile.TemporaryDirectory() as folder:
        write(folder, "a.app", APPLICATION)
        write(folder, "b.draft", draft([calls]))
        tables = tables_at(program, folder, 1)
        for words in texts:
            ask(program, folder, tables, 1, 1, words, tally)


def run_limits(program, tally):
    cube = ["from acct as a join acct as b join acct as c select a.id;", "from acct as a join acct as b join acct as c where a.id = b.id select c.id;"]
    for count in (100, 101):
        run_limit(program, [f'add {number} "o" 1' for number in range(count)], cube, tally)
    most = 2**63 - 1
    sums = ["from acct as a select sum a.bal;", "from acct as a where a.id < 3 select sum a.bal;", "from acct as a group by a.owner select sum a.bal;"]
    for balances in ([most, 1], [most, 0], [most, 1, -1], [-most, -1], [-most, -2], [-most, -2, 1], []):
        run_limit(program, [f'add {number} "o{number % 2}" {balance}' for number, balance in enumerate(balances)], sums, tally)
    lists = []
    for count in (16, 17):
        lists.append("from acct as a where " + " and ".join(["a.id >= 0"] * count) + " select a.id;")
        lists.append("from acct as a group by " + ", ".join(["a.id"] * count) + " select a.id;")
        lists.append("from acct as a select " + ", ".join(["a.id"] * count) + ";")
        lists.append("from acct as a select a.id order by " + ", ".join(["1"] * count) + ";")
        lists.append("from acct as a select " + ", ".join(["min a.id"] * count) + ";")
        lists.append("from acct as a join acct as b select " + ", ".join(["b.id"] * count) + ";")
    for count in (4, 5):
        lists.append("from " + " join ".join(f"acct as s{number}" for number in range(count)) + " select s0.id;")
    for length in (4096, 4097):
        lists.append("from acct as a select a.id;".ljust(length))
    run_limit(program, ['add 1 "o" 1', 'add 2 "o" 1'], lists, tally)


# ---- no block is run for a text that is no query

BUSY = """table t (id int) key (id);
proc add(i int) { insert t (i); }
proc count() { let n = 0; for a in t span on id { for b in t span on id { n = n + 1; } } insert t (n); }
"""


def processor_time(program, folder, words):
    """The answer to some words, and the seconds of a processor that it took."""
    before = resource.getrusage(resource.RUSAGE_CHILDREN).ru_utime
    answer = run(program, folder, words)
    return answer, resource.getrusage(resource.RUSAGE_CHILDREN).ru_utime - before


def run_no_query(program, tally):
    lines = ["draft 1", "block 1", *(f"tx a{number} 0 add {number}" for number in range(100)), "end"]
    lines += ["block 2", *(f"tx c{number} 1 count" for number in range(400)), "end", ""]
    with tempfile.TemporaryDirectory() as folder:
        for name, text in (("app", BUSY), ("blocks", "\n".join(lines))):
            with open(os.path.join(folder, name), "w", encoding="utf-8") as file:
                file.write(text)
        files = ["--app", "app", "--blocks", "blocks"]
        for words, query, none in (
            (["query", *files, "--height", "2", "--text"], "from t as t select t.id;", "from t as t select t.no;"),
            (["provenance", *files, "--query"], "history t 1", "history"),
        ):
            (status, _), answered = processor_time(program, folder, [*words, query])
            (refused, _), parsed = processor_time(program, folder, [*words, none])
            small = "a small part" if 4 * parsed < answered else f"{parsed:.3f} of {answered:.3f} seconds"
            tally.note(f"{words[0]} of a text that is no query", ((0, 9), "a small part"), ((status, refused), small))


def main():
    program, tally = os.path.abspath(sys.argv[1]), Tally()
    run_drawn(program, tally)
    run_limits(program, tally)
    run_no_query(program, tally)
    print(f"{tally.passed} passed, {tally.failed} failed")
    sys.exit(1 if tally.failed or not tally.passed else 0)


if __name__ == "__main__":
    main()
