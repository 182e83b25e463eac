#!/usr/bin/env python3
"""Times kinds of work beside the same calls on SQLite in memory, in one run, in rounds that take turns.

payments: each call reads and updates two accounts; inserts: each call adds a row; sweeps: each call sums the 100 accounts of an owner by an index;
mixed: payments, sweeps, inserts and removals over 10,000 accounts. The product runs them in blocks of --per-block calls with orders and digests:
without executors, by processor time, and with the words that a user gives first, by the clock: sweeps and mixed calls then have two executors, and payments
and inserts none, since a node starts none for calls without a loop. SQLite is driven by
sqlite.c with prepared statements, one transaction a call, by processor time. The time of the accounts alone is taken off all three.
With --sizes the same for 1,000 accounts and twice as many again and again, and for blocks of 10 to 1,000. With --plot FILE the ratios are drawn as SVG.
It needs a C compiler and the headers of SQLite.
Usage: bench/peers.py PROGRAM [--accounts COUNT] [--calls COUNT] [--sweeps COUNT] [--per-block COUNT] [--rounds COUNT] [--sizes] [--plot FILE]
"""
import argparse
import os
import random
import subprocess
import tempfile
import time
from dataclasses import dataclass

from accounts import APP

ROWS_OF_AN_OWNER = 100
MIXED_ACCOUNTS = 10000


def owner(key):
    return f"owner{key // ROWS_OF_AN_OWNER}"


@dataclass
class Work:
    """Calls over accounts: each is the name of a procedure and its arguments."""
    name: str
    accounts: int
    calls: list


def payments(draw, accounts, count):
    return [("pay", *draw.sample(range(accounts), 2), 1) for _ in range(count)]


def inserts(draw, accounts, count):
    return [("add", accounts + n, owner(accounts + n), 1000) for n in range(count)]


def sweeps(draw, accounts, count):
    return [("sweep", f"owner{draw.randrange(accounts // ROWS_OF_AN_OWNER)}") for _ in range(count)]


def mixed(draw, accounts, count):
    """Of ten calls six are payments, one is a sweep, two are inserts and one removes what an insert made long before."""
    calls, made, dropped = [], accounts, accounts
    for n in range(count):
        kind = n % 10
        if kind < 6:
            calls += payments(draw, accounts, 1)
        elif kind == 6:
            calls += sweeps(draw, accounts, 1)
        elif kind < 9 or made - dropped < 2000:
            calls.append(("add", made, owner(made), 1000))
            made += 1
        else:
            calls.append(("drop", dropped))
            dropped += 1
    return calls


def literal(value):
    return f'"{value}"' if isinstance(value, str) else str(value)


def write_draft(path, work, calls, per_block):
    """The accounts in blocks of 1,000, and then the calls, each at the height of the block before its own."""
    rows = [("add", key, owner(key), 1000000) for key in range(work.accounts)]
    pieces = [rows[first:first + 1000] for first in range(0, len(rows), 1000)] + [calls[first:first + per_block] for first in range(0, len(calls), per_block)]
    number = 0
    with open(path, "w") as out:
        out.write("draft 1\n")
        for block, piece in enumerate(pieces, 1):
            out.write(f"block {block}\n")
            for call in piece:
                number += 1
                out.write(f"tx t{number} {block - 1} {call[0]} {' '.join(map(literal, call[1:]))}\n")
            out.write("end\n")


@dataclass
class Took:
    """What a run of the product took: seconds of processors, seconds by the clock, and the most memory in bytes."""
    processor: float
    clock: float
    memory: int


def product_run(program, work, calls, per_block, words):
    with tempfile.TemporaryDirectory() as folder:
        with open(os.path.join(folder, "app"), "w") as out:
            out.write(APP)
        write_draft(os.path.join(folder, "draft"), work, calls, per_block)
        command = [program, "run", "--app", "app", "--blocks", "draft", "--orders", "--digests", *words]
        begin = time.monotonic()
        child = subprocess.Popen(command, cwd=folder, stdout=subprocess.DEVNULL)
        _, status, used = os.wait4(child.pid, 0)
        if status != 0:
            raise SystemExit(f"{work.name}: status {status}")
        return Took(used.ru_utime + used.ru_stime, time.monotonic() - begin, used.ru_maxrss * 1024)


def build_sqlite(folder):
    """The program that makes the calls on SQLite."""
    source = os.path.join(os.path.dirname(os.path.abspath(__file__)), "sqlite.c")
    built = os.path.join(folder, "sqlite")
    subprocess.run(["cc", "-O2", "-o", built, source, "-lsqlite3"], check=True)
    return built


def sqlite_seconds(sqlite, work):
    lines = [str(work.accounts), *(" ".join(map(str, call)) for call in work.calls)]
    return float(subprocess.run([sqlite], input="\n".join(lines), capture_output=True, text=True, check=True).stdout)


@dataclass
class Rates:
    """Calls a second: of the product without executors, of the product as it is called first, and of SQLite; and the product's bytes a version."""
    plain: float
    default: float
    sqlite: float
    version: float


def least(work, alone, whole):
    """The seconds of the calls, from those of the accounts alone and of the whole."""
    took = min(whole) - min(alone)
    if took < min(alone) / 20:
        raise SystemExit(f"{work.name}: the accounts alone took {min(alone):.2f} s of {min(whole):.2f} s, which tells nothing of the calls: the machine is too busy, or they are too few")
    return took


def measure(programs, work, per_block, rounds):
    product, sqlite = programs
    alone, whole, alone_default, whole_default, peer, peak = [], [], [], [], [], 0
    for _ in range(rounds):
        alone.append(product_run(product, work, [], per_block, PLAIN).processor)
        took = product_run(product, work, work.calls, per_block, PLAIN)
        whole.append(took.processor)
        peak = took.memory
        alone_default.append(product_run(product, work, [], per_block, []).clock)
        whole_default.append(product_run(product, work, work.calls, per_block, []).clock)
        peer.append(sqlite_seconds(sqlite, work))
    versions = work.accounts + sum({"pay": 2, "add": 1}.get(call[0], 0) for call in work.calls)
    count = len(work.calls)
    return Rates(count / least(work, alone, whole), count / least(work, alone_default, whole_default), count / min(peer), peak / versions)


def works(given):
    draw = random.Random(13)
    yield Work("payments", given.accounts, payments(draw, given.accounts, given.calls))
    yield Work("inserts", given.accounts, inserts(draw, given.accounts, given.calls))
    yield Work("sweeps", given.accounts, sweeps(draw, given.accounts, given.sweeps))
    yield Work("mixed", MIXED_ACCOUNTS, mixed(draw, MIXED_ACCOUNTS, given.calls))


def compare(programs, given):
    print(f"{'work':>9} {'plain':>10} {'default':>10} {'SQLite':>10} {'plain ratio':>11} {'default ratio':>13} {'bytes a version':>15}")
    ratios = []
    for work in works(given):
        rates = measure(programs, work, given.per_block, given.rounds)
        plain, default = rates.plain / rates.sqlite, rates.default / rates.sqlite
        print(f"{work.name:>9} {rates.plain:>10,.0f} {rates.default:>10,.0f} {rates.sqlite:>10,.0f} {plain:>11.2f} {default:>13.2f} {rates.version:>15,.0f}")
        ratios.append((work.name, plain))
    return ratios


def compare_sizes(programs, given):
    draw = random.Random(13)
    for name, call in ("payments", payments), ("inserts", inserts), ("sweeps", sweeps):
        accounts = 1000
        while accounts <= given.accounts * 10:
            # enough calls that the time of the accounts, which is taken off, does not drown theirs
            count = max(given.sweeps, accounts // 32) if name == "sweeps" else max(given.calls, accounts // 8)
            work = Work(name, accounts, call(draw, accounts, count))
            rates = measure(programs, work, given.per_block, 1)
            print(f"{name:>9} over {accounts:>8} accounts: {rates.plain:>10,.0f} a second, SQLite {rates.sqlite:>10,.0f}")
            accounts *= 2
    work = Work("payments", given.accounts, payments(draw, given.accounts, given.calls))
    for per_block in 10, 20, 40, 80, 160, 320, 640, 1000:
        print(f" payments in blocks of {per_block:>4}: {measure(programs, work, per_block, 1).plain:>10,.0f} a second")


def plot(path, ratios):
    """Bars of the ratios, with a line where the product is as fast as SQLite."""
    scale, left, high = 300 / max(1.2, max(ratio for _, ratio in ratios)), 90, 30
    rows = [f'<svg xmlns="http://www.w3.org/2000/svg" width="460" height="{len(ratios) * 34 + 40}" font-family="sans-serif" font-size="13">']
    for place, (name, ratio) in enumerate(ratios):
        top = 10 + place * 34
        rows.append(f'<text x="{left - 8}" y="{top + 17}" text-anchor="end">{name}</text>')
        rows.append(f'<rect x="{left}" y="{top}" width="{ratio * scale:.0f}" height="{high - 6}" fill="#4477aa"/>')
        rows.append(f'<text x="{left + ratio * scale + 6:.0f}" y="{top + 17}">{ratio:.2f}</text>')
    bottom = 10 + len(ratios) * 34
    rows.append(f'<line x1="{left + scale:.0f}" y1="4" x2="{left + scale:.0f}" y2="{bottom}" stroke="#aa3377" stroke-dasharray="4 3"/>')
    rows.append(f'<text x="{left + scale:.0f}" y="{bottom + 18}" text-anchor="middle">as fast as SQLite in memory</text></svg>')
    with open(path, "w") as out:
        out.write("\n".join(rows) + "\n")


# the words for one node on one thread
PLAIN = ["--executors", "0"]


def main():
    parser = argparse.ArgumentParser()
    parser.add_argument("program")
    parser.add_argument("--accounts", type=int, default=100000)
    parser.add_argument("--calls", type=int, default=50000)
    parser.add_argument("--sweeps", type=int, default=1000)
    parser.add_argument("--per-block", type=int, default=500)
    parser.add_argument("--rounds", type=int, default=3)
    parser.add_argument("--sizes", action="store_true")
    parser.add_argument("--plot")
    given = parser.parse_args()
    with tempfile.TemporaryDirectory() as folder:
        programs = os.path.abspath(given.program), build_sqlite(folder)
        ratios = compare(programs, given)
        if given.plot:
            plot(given.plot, ratios)
        if given.sizes:
            compare_sizes(programs, given)


if __name__ == "__main__":
    main()
