#!/usr/bin/env python3
"""Times sweeps: spans of one value of an indexed column, beside the same in SQLite.

A table of 100,000 accounts (or --accounts) with 1,000 owners (or --owners). A sweep sums the balances of one owner's accounts, at the
height of the block before its own or of one --back blocks before. In each block of 100 transactions stand as many payments as --payments
says; the others are sweeps. The time of the accounts alone is taken off. SQLite runs in memory by Python's sqlite3, with statements that
are prepared once and one transaction a call; it sums by itself, so that no row goes through Python. All times are of processors.
Usage: bench/sweeps.py PROGRAM [options]
"""
import argparse
import os
import random
import resource
import sqlite3
import subprocess
import tempfile
import time

from accounts import APP

PER_BLOCK = 100


def calls_of(options):
    """The calls behind the accounts: an owner to sweep, or a payer and a payee."""
    draw = random.Random(11)
    calls = []
    for n in range(options.calls):
        if n % PER_BLOCK < options.payments:
            calls.append(tuple(draw.sample(range(options.accounts), 2)))
        else:
            calls.append((f"owner{draw.randrange(options.owners)}",))
    return calls


def accounts(options):
    return [(n, f"owner{n % options.owners}", 1000) for n in range(options.accounts)]


def write_draft(path, options, calls):
    with open(path, "w") as out:
        out.write("draft 1\n")
        block = 0
        rows = accounts(options)
        for first in range(0, len(rows), 1000):
            block += 1
            lines = [f'tx a{i} {block - 1} add {i} "{o}" {b}\n' for i, o, b in rows[first : first + 1000]]
            out.write(f"block {block}\n" + "".join(lines) + "end\n")
        for first in range(0, len(calls), PER_BLOCK):
            block += 1
            out.write(f"block {block}\n")
            for n, call in enumerate(calls[first : first + PER_BLOCK], first):
                height = block - 1 - (options.back if len(call) == 1 else 0)
                words = f'sweep "{call[0]}"' if len(call) == 1 else f"pay {call[0]} {call[1]} 1"
                out.write(f"tx c{n} {height} {words}\n")
            out.write("end\n")


def program_seconds(program, options, calls):
    with tempfile.TemporaryDirectory() as folder:
        with open(os.path.join(folder, "a.app"), "w") as out:
            out.write(APP)
        write_draft(os.path.join(folder, "b.draft"), options, calls)
        words = [program, "run", "--app", "a.app", "--blocks", "b.draft", "--executors", "0"]
        before = resource.getrusage(resource.RUSAGE_CHILDREN)
        subprocess.run(words, cwd=folder, stdout=subprocess.DEVNULL, check=True)
        after = resource.getrusage(resource.RUSAGE_CHILDREN)
        return after.ru_utime + after.ru_stime - before.ru_utime - before.ru_stime, after.ru_maxrss


def run_sqlite(store, calls):
    for call in calls:
        store.execute("begin")
        if len(call) == 1:
            store.execute("select sum(bal) from acct where owner = ?", call).fetchone()
        else:
            for key, amount in (call[0], -1), (call[1], 1):
                (balance,) = store.execute("select bal from acct where id = ?", (key,)).fetchone()
                store.execute("update acct set bal = ? where id = ?", (balance + amount, key))
        store.execute("commit")


def sqlite_seconds(options, calls):
    store = sqlite3.connect(":memory:", isolation_level=None, cached_statements=100)
    store.execute("create table acct (id integer primary key, owner text, bal integer)")
    store.execute("create index by_owner on acct (owner)")
    store.executemany("insert into acct values (?, ?, ?)", accounts(options))
    begin = time.process_time()
    run_sqlite(store, calls)
    return time.process_time() - begin


def main():
    parser = argparse.ArgumentParser(description=__doc__.splitlines()[0])
    parser.add_argument("program")
    parser.add_argument("--accounts", type=int, default=100_000)
    parser.add_argument("--owners", type=int, default=1_000)
    parser.add_argument("--calls", type=int, default=2_000)
    parser.add_argument("--payments", type=int, default=0)
    parser.add_argument("--back", type=int, default=0)
    parser.add_argument("--runs", type=int, default=3)
    options = parser.parse_args()
    program = os.path.abspath(options.program)
    calls = calls_of(options)
    alone, with_calls, peer, peak = [], [], [], 0
    for _ in range(options.runs):
        seconds, peak = program_seconds(program, options, [])
        alone.append(seconds)
        with_calls.append(program_seconds(program, options, calls)[0])
        peer.append(sqlite_seconds(options, calls))
    took = min(with_calls) - min(alone)
    print(f"{options.accounts} accounts: {min(alone):.2f} s, at most {peak * 1024 / options.accounts:.0f} bytes an account")
    print(f"{options.calls} calls: {took:.3f} s, {options.calls / took:,.0f} a second")
    print(f"SQLite in memory: {min(peer):.3f} s, {options.calls / min(peer):,.0f} a second")
    print(f"{min(peer) / took:.2f} times as fast as SQLite")


if __name__ == "__main__":
    main()
