#!/usr/bin/env python3
"""Times payments in blocks of several sizes, and the reading and the digests of block files.

Payments: 1,000 accounts, and then 100,000 transactions, each of which reads and updates two of them at the height of the block before its
own. For each number of transactions a block the table shows the time, the transactions per second, how many committed, and, with
valgrind, parts of the instructions that the blocks take.
Files: a chain of 100 MB (or --megabytes) is read and written again by `seal`, and a draft of 10 MB is run with and without `--digests`;
beside them the time of SHA-256 over the same bytes by Python's hashlib, which uses OpenSSL.
Usage: bench/blocks.py PROGRAM [--megabytes COUNT] [--payments COUNT]
"""
import argparse
import hashlib
import os
import random
import re
import shutil
import subprocess
import sys
import tempfile
import time

from accounts import APP

ACCOUNTS = 1000
# The compiler puts the smaller functions into the larger ones, so these are what can be told apart: `decide` itself has the look-up of ids,
# conflicts, edges and dangers, and `run_blocks` itself the serial order, the applied writes and the rest of a block.
# the functions that the parts are named by, each with what it calls
WHOLE = "run_cluster"
PARTS = {"runs": "run_job", "commits": "NodeCore::commit", "seals": "NodeCore::seal", "digests": "digest_of"}


def write_payments(path, count, per_block):
    draw = random.Random(7)
    with open(path, "w") as out:
        out.write("draft 1\nblock 1\n")
        for key in range(ACCOUNTS):
            out.write(f'tx a{key} 0 add {key} "owner{key % 10}" 1000000\n')
        out.write("end\n")
        number = 1
        for first in range(0, count, per_block):
            number += 1
            out.write(f"block {number}\n")
            for n in range(first, min(first + per_block, count)):
                payer, payee = draw.sample(range(ACCOUNTS), 2)
                out.write(f"tx p{n} {number - 1} pay {payer} {payee} 1\n")
            out.write("end\n")


def write_inserts(path, size):
    with open(path, "w") as out:
        written = out.write("draft 1\n")
        number = n = 0
        while written < size:
            number += 1
            lines = [f'tx t{k} 0 add {k} "owner" 1\n' for k in range(n, n + 1000)]
            n += 1000
            written += out.write(f"block {number}\n" + "".join(lines) + "end\n")


def timed(folder, words, output=subprocess.DEVNULL):
    begin = time.monotonic()
    subprocess.run(words, cwd=folder, stdout=output, check=True)
    return time.monotonic() - begin


def counted(folder):
    """The instructions of each function and of what it calls, by callgrind."""
    told = subprocess.run(
        ["callgrind_annotate", "--inclusive=yes", "--threshold=100", "counts"],
        cwd=folder,
        stdout=subprocess.PIPE,
        stderr=subprocess.DEVNULL,
        text=True,
        check=True,
    )
    lines = (re.match(r"\s*([\d,]+) +\([^)]*\) +\S*?:(\S.*) \[", line) for line in told.stdout.splitlines())
    return [(found.group(2), int(found.group(1).replace(",", ""))) for found in lines if found]


def most(counts, name):
    return max((count for function, count in counts if name in function), default=0)


def shares(folder, program, words):
    """The parts of the instructions of a run's blocks."""
    if shutil.which("valgrind") is None:
        return {}
    tool = ["valgrind", "--tool=callgrind", "--callgrind-out-file=counts"]
    subprocess.run([*tool, program, *words], cwd=folder, stdout=subprocess.DEVNULL, stderr=subprocess.DEVNULL, check=True)
    counts = counted(folder)
    whole = most(counts, WHOLE)
    return {part: most(counts, name) / whole for part, name in PARTS.items()} if whole else {}


def payments(program, count):
    print(f"{'a block':>8} {'seconds':>9} {'per second':>11} {'committed':>10}   parts of the instructions of the blocks")
    for per_block in [50, 250, 1000]:
        with tempfile.TemporaryDirectory() as folder:
            with open(os.path.join(folder, "a.app"), "w") as file:
                file.write(APP)
            words = ["run", "--app", "a.app", "--blocks", "b.draft", "--executors", "0"]
            write_payments(os.path.join(folder, "b.draft"), 10 * per_block, per_block)
            parts = shares(folder, program, words)
            write_payments(os.path.join(folder, "b.draft"), count, per_block)
            report = os.path.join(folder, "report")
            with open(report, "wb") as file:
                seconds = timed(folder, [program, *words], file)
            with open(report, "rb") as file:
                committed = sum(line.endswith(b" committed\n") for line in file) - ACCOUNTS
        told = ", ".join(f"{part} {share:.1%}" for part, share in parts.items())
        print(f"{per_block:>8} {seconds:>9.2f} {count / seconds:>11.0f} {committed:>10}   {told}", flush=True)


def files(program, megabytes):
    with tempfile.TemporaryDirectory() as folder:
        write_inserts(os.path.join(folder, "b.draft"), megabytes * 1_000_000)
        with open(os.path.join(folder, "chain"), "wb") as file:
            drafted = timed(folder, [program, "seal", "--blocks", "b.draft"], file)
        chained = timed(folder, [program, "seal", "--blocks", "chain"])
        with open(os.path.join(folder, "chain"), "rb") as file:
            whole = file.read()
        begin = time.monotonic()
        hashlib.sha256(whole).digest()
        plain = time.monotonic() - begin
        print(f"a draft of {megabytes} MB is read, hashed and written as a chain at {megabytes / drafted:.1f} MB a second")
        print(f"that chain is read, checked, hashed and written again at {len(whole) / 1e6 / chained:.1f} MB a second (SHA-256 alone by hashlib: {len(whole) / 1e6 / plain:.0f})")
        with open(os.path.join(folder, "a.app"), "w") as file:
            file.write(APP)
        write_inserts(os.path.join(folder, "b.draft"), 10_000_000)
        words = [program, "run", "--app", "a.app", "--blocks", "b.draft", "--executors", "0"]
        without = min(timed(folder, words) for _ in range(2))
        shown = min(timed(folder, [*words, "--digests", "--orders"]) for _ in range(2))
        print(f"a draft of 10 MB is run at {10 / without:.2f} MB a second, and with --digests --orders at {10 / shown:.2f}")


def main():
    words = argparse.ArgumentParser()
    words.add_argument("program")
    words.add_argument("--megabytes", type=int, default=100)
    words.add_argument("--payments", type=int, default=100_000)
    given = words.parse_args()
    program = os.path.abspath(given.program)
    if not os.access(program, os.X_OK):
        sys.exit(f"{program} is no program")
    payments(program, given.payments)
    files(program, given.megabytes)


if __name__ == "__main__":
    main()
