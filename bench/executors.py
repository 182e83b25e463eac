#!/usr/bin/env python3
"""Times nodes with executors: payments, sweeps of 100 rows by an indexed owner, and sweeps that compute with 20 assignments for each row. All of
these arrive before their blocks.

Each call names the height LAG blocks below the one before its block's own, so that executors can run the calls of a block while LAG blocks before it are
still decided. For 0, 1, 2 and 4 executors and for 1 and 3 nodes, or those of the options, the table shows calls a second by the clock, beside those of no executor, the processor
time of the whole run with its accounts, and which part of all runs executors brought to their end. From the calls a second the time that the accounts
take without executors is taken off, so that few calls tell little. The reports have to be the same.
Usage: bench/executors.py PROGRAM [--calls COUNT] [--sweeps COUNT] [--computing COUNT] [--lag LAG] [--rounds COUNT] [--executors COUNTS] [--nodes COUNTS]
"""
import argparse
import os
import random
import resource
import subprocess
import tempfile
import time

from accounts import APP

ACCOUNTS = 10000
ROWS_OF_AN_OWNER = 100
PER_BLOCK = 100
STEPS = " ".join(f"sum = (sum * 31 + r.bal * {factor} + r.id) % 1000003;" for factor in range(3, 23))
COMPUTE = f"""proc compute(o text) {{
  let sum = 0;
  for r in acct span on owner from o to o {{ {STEPS} }}
  if sum < 0 {{ fail "debt"; }}
}}
"""


def account_blocks():
    """The blocks that make the accounts, 1,000 in each."""
    return [[f'tx a{key} {first // 1000} add {key} "owner{key // ROWS_OF_AN_OWNER}" 1000000' for key in range(first, first + 1000)]
            for first in range(0, ACCOUNTS, 1000)]


def payment(draw):
    payer, payee = draw.sample(range(ACCOUNTS), 2)
    return f"pay {payer} {payee} 1"


def sweep(draw):
    return f'sweep "owner{draw.randrange(ACCOUNTS // ROWS_OF_AN_OWNER)}"'


def computing(draw):
    return f'compute "owner{draw.randrange(ACCOUNTS // ROWS_OF_AN_OWNER)}"'


def call_blocks(call, count, lag, height):
    """Blocks of calls behind those of a height."""
    draw = random.Random(5)
    blocks = []
    for first in range(0, count, PER_BLOCK):
        number = height + len(blocks) + 1
        reads = max(height, number - 1 - lag)
        blocks.append([f"tx c{n} {reads} {call(draw)}" for n in range(first, min(first + PER_BLOCK, count))])
    return blocks


def write_blocks(path, blocks):
    with open(path, "w") as out:
        out.write("draft 1\n")
        for number, lines in enumerate(blocks, 1):
            out.write(f"block {number}\n" + "".join(line + "\n" for line in lines) + "end\n")


def write_arrivals(front, blocks, nodes):
    text = "arrivals 1\n" + "".join(line + "\n" for lines in blocks for line in lines)
    for node in range(1, nodes + 1):
        with open(f"{front}{node}", "w") as out:
            out.write(text)


def timed(words):
    """The time by the clock, the processor time, and what a command writes."""
    before, begin = resource.getrusage(resource.RUSAGE_CHILDREN), time.monotonic()
    done = subprocess.run(words, stdout=subprocess.PIPE, check=True, text=True)
    clock, after = time.monotonic() - begin, resource.getrusage(resource.RUSAGE_CHILDREN)
    return clock, after.ru_utime + after.ru_stime - before.ru_utime - before.ru_stime, done.stdout


def finished_by_executors(program, files, words):
    """Which part of the runs executors finished, by the journal of the first node."""
    text = timed([program, "run", *files, *words, "--trace"])[2]
    finished = [line for line in text.split("journal ")[1].split("\n") if " finish " in line]
    return sum(1 for line in finished if not line.startswith("0 ")) / len(finished)


def measure(program, kind, call, count, given):
    accounts = account_blocks()
    calls = call_blocks(call, count, given.lag, len(accounts))
    write_blocks("accounts", accounts)
    write_blocks("draft", accounts + calls)
    write_arrivals("arrivals", calls, max(given.nodes))
    rounds = range(given.rounds)
    print(f"{kind}: {count} calls in blocks of {PER_BLOCK}, lag {given.lag}")
    print(f"{'nodes':>5} {'executors':>9} {'a second':>10} {'ratio':>6} {'processors':>10} {'by executors':>12}")
    for nodes in given.nodes:
        setup = min(timed([program, "run", "--app", "app", "--blocks", "accounts", "--nodes", str(nodes), "--executors", "0"])[0] for _ in rounds)
        plain, report = None, None
        for executors in given.executors:
            files = ["--app", "app", "--blocks", "draft", "--arrivals", "arrivals"]
            words = ["--nodes", str(nodes), "--executors", str(executors)]
            runs = [timed([program, "run", *files, *words]) for _ in rounds]
            clock, work = min(run[0] for run in runs) - setup, min(run[1] for run in runs)
            plain, report = plain or clock, report or runs[0][2]
            if any(run[2] != report for run in runs):
                raise SystemExit("the reports differ")
            part = finished_by_executors(program, files, words)
            print(f"{nodes:>5} {executors:>9} {count / clock:>10.0f} {plain / clock:>6.2f} {work:>9.2f}s {part:>12.0%}")


def counts(text):
    """The numbers of a list as `0,1,2`. The first number of executors is what the others are compared with."""
    return [int(part) for part in text.split(",")]


def main():
    parser = argparse.ArgumentParser()
    parser.add_argument("program")
    parser.add_argument("--calls", type=int, default=20000)
    parser.add_argument("--sweeps", type=int, default=2000)
    parser.add_argument("--computing", type=int, default=2000)
    parser.add_argument("--lag", type=int, default=1)
    parser.add_argument("--rounds", type=int, default=3)
    parser.add_argument("--executors", type=counts, default=[0, 1, 2, 4])
    parser.add_argument("--nodes", type=counts, default=[1, 3])
    given = parser.parse_args()
    program = os.path.abspath(given.program)
    with tempfile.TemporaryDirectory() as folder:
        os.chdir(folder)
        with open("app", "w") as out:
            out.write(APP + COMPUTE)
        measure(program, "payments", payment, given.calls, given)
        measure(program, "sweeps", sweep, given.sweeps, given)
        measure(program, "computing sweeps", computing, given.computing, given)


if __name__ == "__main__":
    main()
