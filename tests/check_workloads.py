#!/usr/bin/env python3
"""Draws small instances of the workloads of bench/workloads, runs them on the built program, and does their calls again in Python.

Each instance has a seed, plain or exact isolation, and heights that lie up to 0, 1 or 7 blocks below the newest. Its report has to be, byte for byte:
- the same with 0, 1 and 4 executors, on one node and on three, with calls that arrive before their blocks;
- that of small_node.py, which runs the calls on dictionaries and decides them by the rules of docs/ABORTS.md, with each cause and order.
After each block the committed calls are done one by one in the order that the report prints, on what those before left, and the tables
have to be those that the program reports of the blocks up to there. Calls that only read put what they saw into a table here, so an order in
which one would have seen something else is found. In all instances of a seed each kind of outcome has to come.
Usage: check_workloads.py PROGRAM [SEED] [ROUNDS]
"""
import os
import random
import re
import sys
import tempfile

ROOT = os.path.dirname(os.path.dirname(os.path.abspath(__file__)))
sys.dont_write_bytecode = True
sys.path.insert(0, os.path.join(ROOT, "bench", "workloads"))

import chains
import patience
from contracts import Contracts
from small_node import Fault, Node, report_lines, table_lines
from smallbank import SmallBank
from tpcc import Tpcc
from workload_calls import PROCEDURES
from ycsb import MIXES, Ycsb

LAGS = (0, 1, 7)
SETTINGS = (["--executors", "1"], ["--executors", "4", "--arrivals", "p"], ["--executors", "1", "--nodes", "3", "--arrivals", "p"])
BLOCKS = 12
# outcomes of which the instances of a seed have dozens at least
KINDS = ("committed", "stale", "phantom", "fault", "write-conflict", "danger")


def workloads():
    """A new workload of each kind, with a name and how many calls a block has."""
    yield "smallbank", SmallBank(customers=40, hot=8, funds=(0, 100), kept=True), 24
    yield "smallbank, mostly balances", SmallBank(customers=12, hot=3, balances=0.6, funds=(0, 60), kept=True), 48
    for mix in MIXES:
        yield f"ycsb {mix}", Ycsb(mix, records=60, field_bytes=4, most=400, kept=True), 24
    yield "contracts", Contracts(restocks=0.3, families=6, parts=3, stocks=2), 20
    yield "tpcc", Tpcc(warehouses=2, customers=6, items=40), 32


class Wrong(Exception):
    pass


def need(is_right, what):
    if not is_right:
        raise Wrong(what)


def first_difference(found, wanted):
    for number, (one, other) in enumerate(zip(found, wanted), 1):
        if one != other:
            return f"line {number}: found {one!r}, wanted {other!r}"
    return f"{len(found)} lines, wanted {len(wanted)}"


def same_lines(found, wanted, what):
    if found != wanted:
        raise Wrong(f"{what}: {first_difference(found, wanted)}")


class Instance:
    """A drawn workload in a folder, with the program."""

    def __init__(self, program, folder, workload, per_block, seed, lag, exact):
        self.program, self.folder, self.workload = program, folder, workload
        self.blocks, _ = chains.blocks_of(workload, seed, chains.Shape(BLOCKS * per_block, per_block, lag))
        self.app = chains.app_text(workload, exact)
        self.node = Node(self.app, PROCEDURES[workload.app], lambda number: chains.time_of(workload, number))
        self.write("app", self.app)
        self.write("draft", chains.draft_of(workload, self.blocks))
        draw = random.Random(seed)
        for number in (1, 2, 3):
            self.write(f"p{number}", self.arrivals(draw))

    def write(self, name, text):
        with open(os.path.join(self.folder, name), "w", encoding="utf-8") as file:
            file.write(text)

    def arrivals(self, draw):
        """Two thirds of the calls, some of them out of their order."""
        lines = [call.line() for block in self.blocks for call in block if draw.random() < 2 / 3]
        for _ in range(len(lines) // 10):
            at = draw.randrange(len(lines))
            lines.insert(draw.randrange(len(lines)), lines.pop(at))
        return "".join(line + "\n" for line in ["arrivals 1", *lines])

    def report(self, blocks, *options):
        words = [self.program, "run", "--app", "app", "--blocks", blocks, "--orders", *options]
        status, stdout = patience.run(words, cwd=self.folder)
        need(status == 0, f"status {status} of {words}")
        lines = stdout.decode().split("\n")
        need(lines[-2:] == ["done", ""], "the report does not end with `done`")
        return lines[:-2]

    def check_settings(self, report):
        """With executors and on three nodes the report is the same, once for each node."""
        for options in SETTINGS:
            nodes = int(options[options.index("--nodes") + 1]) if "--nodes" in options else 1
            wanted = [line for node in range(1, nodes + 1) for line in [f"node {node}", *report]]
            same_lines(self.report("draft", *options), wanted, " ".join(options))

    def tables_after(self, number):
        """The tables that the program reports of the first blocks."""
        self.write("prefix", chains.draft_of(self.workload, self.blocks[:number]))
        lines = self.report("prefix", "--executors", "0")
        first = next(at for at, line in enumerate(lines) if line.startswith("table "))
        return lines[first:-1]

    def check_replays(self, report):
        """In the printed order of each block its committed calls make the tables that the program has after it."""
        opened = next(number for number, block in enumerate(self.blocks) if block[0].id.startswith("c"))
        orders = [list(map(int, line.split(" ")[1:])) for line in report if line == "order" or line.startswith("order ")]
        committed = committed_in(report)
        for number, (calls, order) in enumerate(zip(self.blocks, orders), 1):
            need(sorted(order) == committed[number - 1], f"block {number}: the order is not of the committed calls")
            try:
                rows = self.node.replay(number - 1, calls, order)
            except Fault as fault:
                raise Wrong(f"block {number}: in the printed order {fault}") from fault
            if number >= opened:
                same_lines(table_lines(self.node.declared, rows), self.tables_after(number), f"the tables after block {number}")

    def check(self):
        """The report, which was compared."""
        report = self.report("draft", "--executors", "0")
        need(report[0] == "node 1", "the report does not begin with `node 1`")
        for calls in self.blocks:
            self.node.add_block(calls)
        same_lines(report[1:], report_lines(self.node, self.blocks), "by the rules")
        self.check_settings(report[1:])
        self.check_replays(report)
        return report


def committed_in(report):
    """The positions that committed, for each block."""
    found = []
    for line in report:
        if line.startswith("block "):
            found.append([])
        elif line.startswith("tx ") and line.endswith(" committed"):
            found[-1].append(int(line.split(" ")[1]))
    return found


def kinds_in(report):
    outcomes = re.findall(r"^tx \d+ \S+ (?:aborted )?(\S+)", "\n".join(report), re.MULTILINE)
    return {kind: outcomes.count(kind) for kind in KINDS}


def check_all(program, seed):
    """How many instances are right and how many are not, and how often each kind of outcome came."""
    counts, kinds = [0, 0], dict.fromkeys(KINDS, 0)
    for exact in (False, True):
        for lag in LAGS:
            for name, workload, per_block in workloads():
                with tempfile.TemporaryDirectory() as folder:
                    try:
                        found = kinds_in(Instance(program, folder, workload, per_block, seed, lag, exact).check())
                        kinds = {kind: kinds[kind] + found[kind] for kind in KINDS}
                        counts[0] += 1
                    except Wrong as wrong:
                        counts[1] += 1
                        print(f"{name}, seed {seed}, lag {lag}, exact {exact}: {wrong}")
    return counts, kinds


def main(program, seed, rounds):
    passed = failed = 0
    for round_seed in range(seed, seed + rounds):
        (right, wrong), kinds = check_all(program, round_seed)
        passed, failed = passed + right, failed + wrong
        for kind, count in kinds.items():
            if count == 0:
                failed += 1
                print(f"seed {round_seed}: no call ended as `{kind}`")
    print(", ".join(f"{kind} {count}" for kind, count in kinds.items()))
    print(f"{passed} passed, {failed} failed")
    return 1 if failed else 0


if __name__ == "__main__":
    sys.exit(main(os.path.abspath(sys.argv[1]), int(sys.argv[2]) if len(sys.argv) > 2 else 1, int(sys.argv[3]) if len(sys.argv) > 3 else 1))
