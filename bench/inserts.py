#!/usr/bin/env python3
"""Times the program on drafts of insert transactions, from 1,000 to 1,000,000 of them.

Each transaction inserts a row of its own. With `--height latest` (the default) it reads the tables after the block before
its own; with `--height first` it names height 0, so that each of its reads is checked against all blocks since. Prints
for each size the time, the transactions per second, the peak memory and the ratio of the time to that of half the size.
Usage: bench/inserts.py PROGRAM [--height latest|first] [--most COUNT] [--block COUNT]
"""
import argparse
import os
import resource
import subprocess
import sys
import tempfile
import time

APP = """table acct (id int, owner text, bal int) key (id) index (owner);
proc add(i int, o text, b int) { insert acct (i, o, b); }
"""


def write_draft(path, count, per_block, height):
    with open(path, "w") as out:
        out.write("draft 1\n")
        number = 0
        for first in range(0, count, per_block):
            number += 1
            out.write(f"block {number}\n")
            seen = number - 1 if height == "latest" else 0
            for n in range(first, min(first + per_block, count)):
                # keys in a scattered order, so that the tables are not built from one end
                key = n * 7919 % 1000003
                out.write(f'tx t{n} {seen} add {key} "owner{n % 100}" {n}\n')
            out.write("end\n")


def run(program, folder):
    begin = time.monotonic()
    child = subprocess.Popen([program, "run", "--app", "a.app", "--blocks", "b.draft", "--executors", "0"], cwd=folder, stdout=subprocess.DEVNULL)
    _, status, usage = os.wait4(child.pid, 0)
    if status != 0:
        sys.exit(f"the program ended with {status}")
    return time.monotonic() - begin, usage.ru_maxrss / 1024


def main():
    words = argparse.ArgumentParser()
    words.add_argument("program")
    words.add_argument("--height", choices=["latest", "first"], default="latest")
    words.add_argument("--most", type=int, default=1000000)
    words.add_argument("--block", type=int, default=1000)
    given = words.parse_args()
    program = os.path.abspath(given.program)
    before = {}
    print(f"{'inserts':>9} {'seconds':>9} {'per second':>11} {'peak MiB':>9} {'to half':>8}")
    for count in [1000, 2000, 10000, 20000, 50000, 100000, 200000, 500000, 1000000]:
        if count > given.most:
            break
        with tempfile.TemporaryDirectory() as folder:
            with open(os.path.join(folder, "a.app"), "w") as file:
                file.write(APP)
            write_draft(os.path.join(folder, "b.draft"), count, given.block, given.height)
            seconds, peak = run(program, folder)
        before[count] = seconds
        ratio = f"{seconds / before[count // 2]:.2f}" if count // 2 in before else "-"
        print(f"{count:>9} {seconds:>9.3f} {count / seconds:>11.0f} {peak:>9.0f} {ratio:>8}", flush=True)


main()
