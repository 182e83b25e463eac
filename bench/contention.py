#!/usr/bin/env python3
"""SmallBank, YCSB, TPC-C's writes and three contracts beside PostgreSQL and SQLite: calls a second, the share that commits, and what becomes of the others.

The workloads are those of bench/workloads. The product runs blocks of --per-block calls on one thread (`--executors 0`), each call at the height of the block before its own,
with plain and with exact isolation. PostgreSQL runs the same procedures, in PL/pgSQL and SQL, as SERIALIZABLE transactions of four clients of pgbench with
`synchronous_commit` off; it draws its calls by itself by the same rules. SQLite, in memory, makes the product's calls one after another in a C program with
prepared statements, one transaction a call. The product and SQLite have one thread, and are counted by processor time; PostgreSQL has four clients with a
process each, makes a fifth of the calls, and is counted by the clock, so that nothing else should run. The filling of the tables is taken off. No call that is
refused is sent again. The fastest of some rounds counts.
SmallBank is run with more and more hot customers, which 0.9 of the calls name. With --plot FILE it is run alone, and the committed calls a second are drawn against them
as SVG. Of TPC-C there are a tenth of the calls, since one has some 60 reads and 30 writes.
It needs Debian's packages postgresql and libsqlite3-dev, and a C compiler.
Usage: bench/contention.py PROGRAM [--calls COUNT] [--rounds COUNT] [--per-block COUNT] [--hot COUNTS] [--balances SHARE] [--mixes LETTERS] [--plot FILE]
"""
import argparse
import collections
import math
import os
import re
import subprocess
import sys
import tempfile
from dataclasses import dataclass, field

HERE = os.path.dirname(os.path.abspath(__file__))
WORKLOADS = os.path.join(HERE, "workloads")
sys.dont_write_bytecode = True
sys.path.insert(0, WORKLOADS)

import chains
from contracts import Contracts
from postgres import Server
from smallbank import SmallBank
from tpcc import NAMES, Tpcc, last_name
from ycsb import MIXES, Ycsb

SEED = 1
CUSTOMERS = 18000
FAMILIES, PARTS, STOCKS = 100, 10, 5
RECORDS, THETA = 10000, 0.99
# PostgreSQL makes so many times fewer calls
FEWER = 5
TPCC_CUSTOMERS, TPCC_ITEMS = 300, 1000
WRITERS = {"change": 1, "read_modify_write": 2, "add": 3}
NUMBER_OF_NAME = {last_name(number): number for number in range(NAMES)}
CAUSES = ("refused", "write conflict", "danger", "serialization", "deadlock")
COLOURS = {"plain": "#4477aa", "exact": "#228833", "PostgreSQL": "#aa3377", "SQLite": "#bbbbbb"}


@dataclass
class Found:
    """What a run of so many calls took, how many committed and how many did not, by cause."""
    calls: int
    seconds: float
    committed: int
    causes: dict = field(default_factory=dict)

    def row(self, name, who):
        causes = " | ".join(f"{self.causes.get(cause, 0) / self.calls:.3f}" for cause in CAUSES)
        per_second, kept = self.calls / self.seconds, self.committed / self.seconds
        return f"| {name} | {who} | {per_second:,.0f} | {self.committed / self.calls:.3f} | {kept:,.0f} | {causes} |"


@dataclass
class Kind:
    """A workload: how many calls are made, how PostgreSQL is given it, and how a call is written for SQLite."""
    name: str
    stem: str
    calls: int
    make: object
    line: object
    filling: str
    script: str
    settings: dict


def smallbank(given, hot):
    settings = {"hot": hot, "customers": CUSTOMERS, "balances": round(1000 * given.balances)}
    return Kind(f"SmallBank, {hot:,} hot", "smallbank", given.calls, lambda: SmallBank(CUSTOMERS, hot, given.balances), customer_line, f"fill({CUSTOMERS})",
                "smallbank.pgbench", settings)


def ycsb(given, mix):
    reads, how, writer = MIXES[mix]
    settings = {"records": RECORDS, "reads": round(1000 * reads), "scans": int(how == "scan"), "newest": int(mix == "D"), "writer": WRITERS[writer]}
    return Kind(f"YCSB {mix}", "ycsb", given.calls, lambda: Ycsb(mix, RECORDS, theta=THETA, most=given.calls), record_line, f"fill({RECORDS}, {THETA})",
                "ycsb.pgbench", settings)


def tpcc(given, warehouses):
    sizes = {"warehouses": warehouses, "customers": TPCC_CUSTOMERS, "items": TPCC_ITEMS}
    filling = f"fill({', '.join(map(str, sizes.values()))})"
    return Kind(f"TPC-C, warehouses: {warehouses}", "tpcc", given.calls // 10, lambda: Tpcc(**sizes), order_line, filling, "tpcc.pgbench", sizes)


def contract(given, mix):
    filling = f"fill({FAMILIES}, {PARTS}, {STOCKS})"
    return Kind(f"contract, {mix}", "contracts", given.calls, lambda: Contracts(mix, 0.0, FAMILIES, PARTS, STOCKS), number_line, filling, f"{mix}.pgbench",
                {"families": FAMILIES})


def others(given):
    """The workloads beside SmallBank."""
    kinds = [ycsb(given, mix) for mix in given.mixes]
    kinds += [tpcc(given, warehouses) for warehouses in (1, 4, 16)]
    return kinds + [contract(given, mix) for mix in ("simple", "join", "group")]


def spelled(procedure, numbers):
    return " ".join([procedure, *map(str, map(int, numbers))])


def number_line(call):
    """A call without its texts."""
    return spelled(call.procedure, [argument for argument in call.arguments if not isinstance(argument, str)])


def customer_line(call):
    """A call of SmallBank with the numbers of its customers."""
    numbers = [str(argument).removeprefix("customer ") for argument in call.arguments]
    return spelled(call.procedure, numbers[1:] if call.procedure == "open" else numbers)


def record_line(call):
    """A call of YCSB with the first letter of its text."""
    numbers = [argument for argument in call.arguments if not isinstance(argument, str)]
    letters = [ord(argument[0]) for argument in call.arguments if isinstance(argument, str)]
    return spelled(call.procedure, numbers + letters[:1])


def order_line(call):
    """A call of TPC-C with the numbers of last names. The numbers 1 to 15 are no table there."""
    if call.procedure == "add_place":
        return ""
    given = call.arguments
    if call.procedure == "add_customer":
        return spelled("add_customer", [given[0], given[1], NUMBER_OF_NAME[given[3]], given[6]])
    if call.procedure == "payment_by_name":
        home, name = given[2].split(" ")
        return spelled("payment_by_name", [given[0], given[1], home, NUMBER_OF_NAME[name], given[3]])
    return number_line(call)


def processor_seconds(program, folder, draft):
    """The seconds of a processor that a run takes, with its report in a file."""
    with open(os.path.join(folder, "report"), "wb") as out:
        child = subprocess.Popen([program, "run", "--app", "app", "--blocks", draft, "--executors", "0"], cwd=folder, stdout=out)
        _, status, used = os.wait4(child.pid, 0)
    if status != 0:
        raise SystemExit(f"status {os.waitstatus_to_exitcode(status)}")
    return used.ru_utime + used.ru_stime


def outcomes_in(folder):
    """How many of the calls committed, and how many did not, by cause."""
    names = {"fault": "refused", "write-conflict": "write conflict"}
    with open(os.path.join(folder, "report"), encoding="utf-8") as file:
        kinds = collections.Counter(re.findall(r"^tx \d+ c\S+ (?:aborted )?(\S+)", file.read(), re.MULTILINE))
    return kinds.pop("committed", 0), {names.get(kind, kind): count for kind, count in kinds.items()}


@dataclass
class Drawn:
    """The blocks of a workload, and how many of them fill its tables."""
    kind: Kind
    workload: object
    blocks: list
    opened: int


def drawn(kind, per_block):
    workload = kind.make()
    return Drawn(kind, workload, *chains.blocks_of(workload, SEED, chains.Shape(kind.calls, per_block, 0)))


def product(program, calls, exact, rounds):
    """What the product makes of calls, without the time in which its tables are filled."""
    kind = calls.kind
    with tempfile.TemporaryDirectory() as folder:
        chains.write_files(folder, calls.workload, calls.blocks, exact)
        with open(os.path.join(folder, "opening"), "w", encoding="utf-8") as file:
            file.write(chains.draft_of(calls.workload, calls.blocks[:calls.opened]))
        alone = min(processor_seconds(program, folder, "opening") for _ in range(rounds))
        whole = min(processor_seconds(program, folder, "draft") for _ in range(rounds))
        if whole < alone * 1.05:
            raise SystemExit(f"{kind.name}: filling the tables took {alone:.2f} s of {whole:.2f} s, which tells nothing of the calls")
        committed, causes = outcomes_in(folder)
    return Found(kind.calls, whole - alone, committed, causes)


def sqlite(built, calls):
    kind, parts = calls.kind, (calls.blocks[:calls.opened], calls.blocks[calls.opened:])
    lines = [[kind.line(call) for block in part for call in block] for part in parts]
    done = subprocess.run([built[kind.stem]], input="\n".join([*lines[0], "begin", *lines[1]]), capture_output=True, text=True, check=True)
    seconds, refused = done.stdout.split()
    return Found(kind.calls, float(seconds), kind.calls - int(refused), {"refused": int(refused)})


def postgres(server, kind):
    server.fresh(os.path.join(WORKLOADS, f"{kind.stem}.sql"), kind.filling)
    told = server.pgbench(os.path.join(WORKLOADS, kind.script), kind.calls // FEWER, kind.settings)
    refused = server.refused()
    causes = {"refused": refused, "serialization": told.serialization, "deadlock": told.deadlock}
    return Found(told.done + told.serialization + told.deadlock, told.seconds, told.done - refused, causes)


def fastest(rounds, run):
    return min((run() for _ in range(rounds)), key=lambda one: one.seconds / one.calls)


def measured(peers, kind, given):
    """For each of those that run a workload what it makes of it."""
    program, built, server = peers
    calls = drawn(kind, given.per_block)
    return {
        "plain": product(program, calls, False, given.rounds),
        "exact": product(program, calls, True, given.rounds),
        "PostgreSQL": fastest(given.rounds, lambda: postgres(server, kind)),
        "SQLite": fastest(given.rounds, lambda: sqlite(built, calls)),
    }


def build_sqlite(folder):
    """The programs that make the calls on SQLite, by their workloads."""
    built = {stem: os.path.join(folder, stem) for stem in ("smallbank", "ycsb", "tpcc", "contracts")}
    for stem, path in built.items():
        subprocess.run(["cc", "-O2", "-o", path, os.path.join(WORKLOADS, f"{stem}.c"), "-lsqlite3"], check=True)
    return built


def place(hot, kept, most, span):
    """Where a point of the picture stands."""
    low, high = span
    across = (math.log(hot) - math.log(low)) / (math.log(high) - math.log(low))
    return 80 + 440 * across, 300 - 270 * kept / most


def curve(who, points, most, span):
    at = [place(hot, found[who].committed / found[who].seconds, most, span) for hot, found in points]
    path = " ".join(f"{x:.0f},{y:.0f}" for x, y in at)
    left = 300 + 85 * list(COLOURS).index(who)
    return [
        f'<polyline points="{path}" fill="none" stroke="{COLOURS[who]}" stroke-width="2"/>',
        f'<text x="{left}" y="20" fill="{COLOURS[who]}">{who}</text>',
    ]


def plot(path, points):
    """Committed calls a second against the hot customers, a curve for each of those that ran."""
    span = points[0][0], points[-1][0]
    most = max(one.committed / one.seconds for _, found in points for one in found.values())
    lines = ['<svg xmlns="http://www.w3.org/2000/svg" width="640" height="360" font-family="sans-serif" font-size="12">']
    lines.append('<polyline points="80,30 80,300 520,300" fill="none" stroke="#555555"/>')
    for step in range(5):
        kept = most * step / 4
        y = place(span[0], kept, most, span)[1]
        lines.append(f'<text x="72" y="{y + 4:.0f}" text-anchor="end">{kept:,.0f}</text><line x1="76" y1="{y:.0f}" x2="80" y2="{y:.0f}" stroke="#555555"/>')
    for hot, _ in points:
        x = place(hot, 0, most, span)[0]
        lines.append(f'<text x="{x:.0f}" y="318" text-anchor="middle">{hot:,}</text><line x1="{x:.0f}" y1="300" x2="{x:.0f}" y2="304" stroke="#555555"/>')
    for who in COLOURS:
        lines += curve(who, points, most, span)
    lines.append('<text x="300" y="342" text-anchor="middle">hot customers, which 0.9 of the calls name</text>')
    lines.append('<text x="80" y="20">committed calls of SmallBank a second</text></svg>')
    with open(path, "w", encoding="utf-8") as out:
        out.write("\n".join(lines) + "\n")


def table(peers, kinds, given):
    """Prints the rows of some workloads, and gives what was found of each."""
    all_found = []
    for kind in kinds:
        found = measured(peers, kind, given)
        all_found.append(found)
        for who, one in found.items():
            print(one.row(kind.name, who), flush=True)
    return all_found


def main():
    parser = argparse.ArgumentParser()
    parser.add_argument("program", type=os.path.abspath)
    parser.add_argument("--calls", type=int, default=200000)
    parser.add_argument("--rounds", type=int, default=3)
    parser.add_argument("--per-block", type=int, default=100)
    parser.add_argument("--hot", default="10,30,100,300,1000,3000,10000")
    parser.add_argument("--balances", type=float, default=1 / 6)
    parser.add_argument("--mixes", default="ABDEF", help="of YCSB")
    parser.add_argument("--plot")
    given = parser.parse_args()
    hots = [int(hot) for hot in given.hot.split(",")]
    with tempfile.TemporaryDirectory() as folder, Server() as server:
        peers = given.program, build_sqlite(folder), server
        print(server.version())
        print(f"| workload | by | calls a second | committed | committed a second | {' | '.join(CAUSES)} |\n|{'---|' * (5 + len(CAUSES))}")
        found = table(peers, [smallbank(given, hot) for hot in hots], given)
        if not given.plot:
            table(peers, others(given), given)
    if given.plot:
        plot(given.plot, list(zip(hots, found)))


if __name__ == "__main__":
    main()
