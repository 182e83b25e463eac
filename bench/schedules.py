#!/usr/bin/env python3
"""Times payments that a node runs as a schedule says, beside `run` on the same blocks.

The schedule is that of a node with one executor: of each block in work, the job of the first undecided transaction is claimed, makes its reads and is
finished, and the transaction is committed. For each number of payments, twice as many at each step, the table shows the processor time of `run`, that
of `simulate`, and how many times as many transactions a second `simulate` makes. The two reports have to be the same.
Usage: bench/schedules.py PROGRAM [--payments COUNT]
"""
import argparse
import os
import resource
import subprocess
import tempfile

from accounts import APP
from blocks import ACCOUNTS, write_payments

PER_BLOCK = 250
READS_OF_A_PAYMENT = 4


def job(reads):
    """The steps of the next transaction of the block in work."""
    return "claim 1 due\n" + "read 1\n" * reads + "finish 1\ncommit\n"


def write_schedule(path, count):
    with open(path, "w") as out:
        out.write("schedule 1\ndeliver\n" + job(1) * ACCOUNTS + "seal\n")
        for first in range(0, count, PER_BLOCK):
            here = min(PER_BLOCK, count - first)
            out.write("deliver\n" + job(READS_OF_A_PAYMENT) * here + "seal\n")


def timed(words):
    """The processor time of a command, and what it writes."""
    before = resource.getrusage(resource.RUSAGE_CHILDREN).ru_utime
    done = subprocess.run(words, stdout=subprocess.PIPE, check=True)
    return resource.getrusage(resource.RUSAGE_CHILDREN).ru_utime - before, done.stdout


def main():
    parser = argparse.ArgumentParser()
    parser.add_argument("program")
    parser.add_argument("--payments", type=int, default=20000)
    given = parser.parse_args()
    program = os.path.abspath(given.program)
    print(f"{'payments':>10} {'run':>9} {'simulate':>9} {'ratio':>6}")
    with tempfile.TemporaryDirectory() as folder:
        os.chdir(folder)
        with open("app", "w") as out:
            out.write(APP)
        count = given.payments // 8
        while count <= given.payments:
            write_payments("draft", count, PER_BLOCK)
            write_schedule("schedule", count)
            files = ["--app", "app", "--blocks", "draft"]
            plain, report = timed([program, "run", *files, "--executors", "0"])
            driven, same = timed([program, "simulate", *files, "--schedule", "schedule"])
            if report != same:
                raise SystemExit("the reports differ")
            print(f"{count:>10} {plain:>8.2f}s {driven:>8.2f}s {plain / driven:>6.2f}")
            count *= 2


if __name__ == "__main__":
    main()
