#!/usr/bin/env python3
"""Times queries of the tables, beside SQLite in memory on the same rows.

There are so many accounts of a hundredth as many owners, drawn, with an index on the owner: a point by key, the rows of one owner, the count and the sum of
each owner, and a join of all accounts with their owners by key. The time is that of the processor. A run of `query` also runs all blocks, so its time is the
least of some rounds, less that of a query that gives nothing; the programs take turns. What is below some hundredths of a second can not be told apart so.
SQLite is Python's `sqlite3`, its statements prepared, and gives the rows as Python's tuples. With --count there are the instructions of each query by
callgrind, less those of the query that gives nothing. Writes the plot that README.md shows where a file is named.
Usage: bench/queries.py PROGRAM [--accounts COUNT] [--rounds COUNT] [--count] [--plot FILE]
"""
import argparse
import os
import random
import re
import resource
import sqlite3
import subprocess
import tempfile
import time

APP = """table owner (id int, name text) key (id);
table account (id int, owner int, balance int) key (id) index (owner);
proc enter(i int, n text) { insert owner (i, n); }
proc open(i int, o int, b int) { insert account (i, o, b); }
"""
MOST, SHARE = 1000, 100
NOTHING = "from owner as o where o.id = -1 select o.id;"
QUERIES = {
    "a point by key": ("from account as a where a.id = 4321 select a.owner, a.balance;", "select owner, balance from account where id = 4321"),
    "the rows of one owner": ("from account as a where a.owner = 7 select a.id, a.balance;", "select id, balance from account where owner = 7 order by id"),
    "count and sum by owner": (
        "from account as a group by a.owner select a.owner, count, sum a.balance;",
        "select owner, count(*), sum(balance) from account group by owner order by owner",
    ),
    "all accounts with their owners": (
        "from account as a join owner as o where o.id = a.owner select a.id, o.name, a.balance;",
        "select a.id, o.name, a.balance from account a join owner o on o.id = a.owner order by a.id",
    ),
}


def rows_of(accounts):
    draw = random.Random(1)
    owners = max(accounts // SHARE, 8)
    return [(owner, f"owner {owner}") for owner in range(owners)], [(account, draw.randrange(owners), draw.randrange(1000)) for account in range(accounts)]


def write_files(folder, owners, accounts):
    """The application, and a draft that makes the rows; answers the number of its blocks."""
    calls = [f'enter {owner} "{name}"' for owner, name in owners] + [f"open {account} {owner} {balance}" for account, owner, balance in accounts]
    blocks = [calls[first : first + MOST] for first in range(0, len(calls), MOST)]
    lines = ["draft 1"]
    for number, block in enumerate(blocks, 1):
        lines += [f"block {number}", *(f"tx c{number}-{at} 0 {call}" for at, call in enumerate(block)), "end"]
    for name, text in (("app", APP), ("draft", "\n".join(lines) + "\n")):
        with open(os.path.join(folder, name), "w", encoding="utf-8") as out:
            out.write(text)
    return len(blocks)


def used():
    spent = resource.getrusage(resource.RUSAGE_CHILDREN)
    return spent.ru_utime + spent.ru_stime


class Asker:
    """The program, over the files of a folder."""

    def __init__(self, program, folder, blocks):
        self.words = [program, "query", "--app", os.path.join(folder, "app"), "--blocks", os.path.join(folder, "draft"), "--height", str(blocks), "--text"]
        self.out = os.path.join(folder, "count")

    def seconds(self, text):
        before = used()
        subprocess.run([*self.words, text], check=True, stdout=subprocess.DEVNULL)
        return used() - before

    def instructions(self, text):
        ran = subprocess.run(["valgrind", "--tool=callgrind", f"--callgrind-out-file={self.out}", *self.words, text], check=True, capture_output=True, text=True)
        return int(re.search(r"Collected : (\d+)", ran.stderr).group(1))


def opened(owners, accounts):
    db = sqlite3.connect(":memory:")
    db.execute("create table owner (id integer primary key, name text)")
    db.execute("create table account (id integer primary key, owner integer, balance integer)")
    db.execute("create index account_owner on account (owner)")
    db.executemany("insert into owner values (?, ?)", owners)
    db.executemany("insert into account values (?, ?, ?)", accounts)
    return db


def asked(db, statement, times):
    """The least seconds of some runs of a statement, and how many rows it gives."""
    least = None
    for _ in range(times):
        before = time.process_time()
        rows = db.execute(statement).fetchall()
        taken = time.process_time() - before
        least = taken if least is None else min(least, taken)
    return least, len(rows)


def count(asker):
    nothing = asker.instructions(NOTHING)
    print("| query | instructions |\n|---|---|")
    for name, (text, _) in QUERIES.items():
        print(f"| {name} | {asker.instructions(text) - nothing:,} |", flush=True)


def measure(asker, db, rounds):
    """Rows of the name, the rows given, the seconds of the program and of SQLite."""
    texts = [NOTHING, *(text for text, _ in QUERIES.values())]
    least = [min(runs) for runs in zip(*([asker.seconds(text) for text in texts] for _ in range(rounds)))]
    rows = []
    for (name, (_, statement)), taken in zip(QUERIES.items(), least[1:]):
        theirs, given = asked(db, statement, rounds if given_many(name) else 1000)
        rows.append((name, given, taken - least[0], theirs))
    return least[0], rows


def given_many(name):
    return name in list(QUERIES)[2:]


def plot(rows, file):
    """Bars of the seconds of the program and of SQLite, for the queries that give many rows."""
    shown = [(name, ours, theirs) for name, _, ours, theirs in rows if given_many(name)]
    most = max(max(ours, theirs) for _, ours, theirs in shown)
    parts = ['<svg xmlns="http://www.w3.org/2000/svg" width="640" height="%d" font-family="sans-serif" font-size="13">' % (40 + 64 * len(shown)),
             '<text x="8" y="20">Milliseconds of a processor, bcdb (dark) and SQLite in memory (light)</text>']
    for at, (name, ours, theirs) in enumerate(shown):
        top = 40 + 64 * at
        parts.append(f'<text x="8" y="{top + 26}">{name}</text>')
        for down, seconds, fill in ((0, ours, "#335"), (22, theirs, "#aac")):
            wide = round(330 * seconds / most)
            parts.append(f'<rect x="230" y="{top + down}" width="{wide}" height="18" fill="{fill}"/>')
            parts.append(f'<text x="{236 + wide}" y="{top + down + 14}">{seconds * 1000:.0f}</text>')
    with open(file, "w", encoding="utf-8") as out:
        out.write("\n".join([*parts, "</svg>"]) + "\n")


def main():
    parser = argparse.ArgumentParser()
    parser.add_argument("program")
    parser.add_argument("--accounts", type=int, default=100_000)
    parser.add_argument("--rounds", type=int, default=9)
    parser.add_argument("--count", action="store_true")
    parser.add_argument("--plot")
    given = parser.parse_args()
    owners, accounts = rows_of(given.accounts)
    with tempfile.TemporaryDirectory() as folder:
        asker = Asker(os.path.abspath(given.program), folder, write_files(folder, owners, accounts))
        if given.count:
            return count(asker)
        nothing, rows = measure(asker, opened(owners, accounts), given.rounds)
    print(f"all blocks, and a query that gives nothing: {nothing:.3f} s")
    print("| query | rows | ms | SQLite | ratio |\n|---|---|---|---|---|")
    for name, given_rows, ours, theirs in rows:
        print(f"| {name} | {given_rows:,} | {ours * 1000:.2f} | {theirs * 1000:.3f} | {theirs / ours if ours > 0 else 0:.2f} |")
    if given.plot:
        plot(rows, given.plot)


if __name__ == "__main__":
    main()
