#!/usr/bin/env python3
"""What becomes of the calls of the workloads of bench/workloads, with plain and with exact isolation, and how many run a second.

For each workload the table shows which share commits, and for each cause which share is refused for it, and the calls a second of processor time on one
thread (`--executors 0`), without the time in which the tables are filled. Blocks have --per-block calls, and a height lies up to --lag blocks
below the newest one. The fastest of some rounds counts. No call that is refused is sent again.
Usage: bench/outcomes.py PROGRAM [--calls COUNT] [--per-block COUNT] [--lag COUNT] [--rounds COUNT] [--seed NUMBER]
"""
import argparse
import collections
import os
import re
import resource
import subprocess
import sys
import tempfile

sys.dont_write_bytecode = True
sys.path.insert(0, os.path.join(os.path.dirname(os.path.abspath(__file__)), "workloads"))

import chains
from contracts import Contracts
from smallbank import SmallBank
from tpcc import Tpcc
from ycsb import MIXES, Ycsb

CAUSES = ("fault", "stale", "phantom", "write-conflict", "danger")


def workloads(calls):
    """A name and what makes a new workload, for each that is run."""
    for hot, balances in ((1000, 1 / 6), (100, 1 / 6), (10, 0.6)):
        yield f"SmallBank, {hot:,} hot of 18,000, {balances:.2f} balances", lambda: SmallBank(18000, hot, balances)
    for mix in sorted(MIXES):
        yield f"YCSB {mix}, 10,000 records", lambda: Ycsb(mix, most=calls)
    for warehouses in (1, 4, 16):
        yield f"TPC-C, warehouses: {warehouses}", lambda: Tpcc(warehouses)
    for restocks in (0.0, 0.1):
        yield f"three contracts, {restocks} restocks", lambda: Contracts("all", restocks)


def used():
    spent = resource.getrusage(resource.RUSAGE_CHILDREN)
    return spent.ru_utime + spent.ru_stime


def run(program, folder, draft):
    """The processor time of a run, and its report."""
    before = used()
    done = subprocess.run([program, "run", "--app", "app", "--blocks", draft, "--executors", "0"], cwd=folder, capture_output=True, check=True)
    return used() - before, done.stdout.decode()


def outcomes_in(report):
    return collections.Counter(re.findall(r"^tx \d+ c\S+ (?:aborted )?(\S+)", report, re.MULTILINE))


def measured(given, make, exact):
    """Processor seconds of the calls, and how often each outcome came."""
    workload = make()
    blocks, opened = chains.blocks_of(workload, given.seed, chains.Shape(given.calls, given.per_block, given.lag))
    with tempfile.TemporaryDirectory() as folder:
        chains.write_files(folder, workload, blocks, exact)
        with open(os.path.join(folder, "opening"), "w", encoding="utf-8") as file:
            file.write(chains.draft_of(workload, blocks[:opened]))
        alone = min(run(given.program, folder, "opening")[0] for _ in range(given.rounds))
        runs = [run(given.program, folder, "draft") for _ in range(given.rounds)]
    return min(seconds for seconds, _ in runs) - alone, outcomes_in(runs[0][1])


def row(given, name, make):
    cells = [name]
    for exact in (False, True):
        seconds, found = measured(given, make, exact)
        shares = " | ".join(f"{found[cause] / given.calls:.3f}" for cause in ("committed", *(("danger",) if exact else CAUSES)))
        cells += [shares, f"{given.calls / seconds:,.0f}"]
    return f"| {' | '.join(cells)} |"


def main():
    parser = argparse.ArgumentParser()
    parser.add_argument("program", type=os.path.abspath)
    parser.add_argument("--calls", type=int, default=20000)
    parser.add_argument("--per-block", type=int, default=100)
    parser.add_argument("--lag", type=int, default=0)
    parser.add_argument("--rounds", type=int, default=2)
    parser.add_argument("--seed", type=int, default=1)
    given = parser.parse_args()
    heads = ["workload", "committed", *CAUSES, "a second", "committed, exact", "danger, exact", "a second, exact"]
    print(f"| {' | '.join(heads)} |\n|{'---|' * len(heads)}")
    for name, make in workloads(given.calls):
        print(row(given, name, make), flush=True)


if __name__ == "__main__":
    main()
