#!/usr/bin/env python3
"""Checks dangers, cycles and orders of blocks against a slow search, with exact isolation and without.

Each block is a graph: its k-th call writes the k-th row, and reads the rows of those to which it has an edge. There is a block for each of
the 4,096 graphs of four positions, and drawn ones of up to ten. What becomes of each call, and the serial order of each block, is worked
out here from the edges alone: with exact isolation by trying all lists of different earlier committed calls, shorter ones first and those
of one length by position; without it by the two forms of edges in a row. Each chain is run by one node alone and by one with jobs and executors. Usage: check_isolation.py PROGRAM
[COUNT] [SEED]
"""
import itertools
import os
import random
import sys
import tempfile

import patience
from run_cases import split_journals

MOST = 10
READS = range(1, MOST)
PROCEDURES = (
    "table spot (id int, at int) key (id);\n"
    "proc add(i int) { insert spot (i, 0); }\n"
    "proc look(own int, " + ", ".join(f"k{n} int" for n in READS) + ") {\n"
    + "".join(f"  get r{n} from spot key (k{n}) {{ }} else {{ }}\n" for n in READS)
    + "  update spot key (own) set at = own;\n}\n"
)


def graphs_of_four():
    """For each graph over four positions the positions to which each has an edge."""
    pairs = [(one, other) for one in range(1, 5) for other in range(1, 5) if one != other]
    for chosen in itertools.product([False, True], repeat=len(pairs)):
        out = {position: set() for position in range(1, 5)}
        for (one, other), has in zip(pairs, chosen):
            if has:
                out[one].add(other)
        yield out


def drawn_graph(draw):
    size = draw.randint(1, MOST)
    share = draw.choice([0.1, 0.2, 0.3, 0.5])
    return {one: {other for other in range(1, size + 1) if other != one and draw.random() < share} for one in range(1, size + 1)}


def draft_of(graphs):
    lines = ["draft 1", "block 1"]
    lines += [f"tx a{row} 0 add {row}" for row in range(1, MOST + 1)]
    lines.append("end")
    for number, out in enumerate(graphs, 2):
        lines.append(f"block {number}")
        for own in sorted(out):
            rows = sorted(out[own])
            rows += [0] * (len(READS) - len(rows))
            lines.append(f"tx t{number}-{own} {number - 1} look {own} " + " ".join(str(row) for row in rows))
        lines.append("end")
    return "".join(line + "\n" for line in lines)


def is_path(out, last, path):
    steps = [last, *path, last]
    return all(other in out[one] for one, other in zip(steps, steps[1:]))


def least_path(out, committed, last):
    for length in range(1, len(committed) + 1):
        for path in itertools.permutations(committed, length):
            if is_path(out, last, path):
                return path
    return None


def two_in_a_row(out, committed, last):
    for z in committed:
        for x in committed:
            if z in out[last] and last in out[x] and z <= x:
                return f"one {z} {x}"
    for y in committed:
        for z in committed:
            if y in out[last] and z in out[y] and z < y:
                return f"two {y} {z}"
    return None


def outcome_of(exact, out, committed, last):
    if not exact:
        found = two_in_a_row(out, committed, last)
        return f"aborted danger {found}" if found else "committed"
    path = least_path(out, committed, last)
    return "aborted danger cycle " + " ".join(str(position) for position in path) if path else "committed"


def order_of(out, committed):
    left = list(committed)
    order = []
    while left:
        free = [one for one in left if not any(one in out[other] for other in left if other != one)]
        order.append(free[0])
        left.remove(free[0])
    return order


def lines_of(exact, number, out):
    committed = []
    lines = [f"block {number}"]
    for own in sorted(out):
        outcome = outcome_of(exact, out, committed, own)
        lines.append(f"tx {own} t{number}-{own} {outcome}")
        if outcome == "committed":
            committed.append(own)
    lines.append("order" + "".join(f" {position}" for position in order_of(out, committed)))
    return lines


def report_of(program, exact, draft, more):
    with tempfile.TemporaryDirectory() as folder:
        os.chmod(folder, 0o755)
        with open(os.path.join(folder, "a.app"), "w", encoding="utf-8") as file:
            file.write(("isolation exact;\n" if exact else "") + PROCEDURES)
        with open(os.path.join(folder, "b.draft"), "w", encoding="utf-8") as file:
            file.write(draft)
        words = ["run", "--app", "a.app", "--blocks", "b.draft", "--orders", *more]
        status, stdout = patience.run([program, *words], cwd=folder)
    if status != 0:
        raise SystemExit(f"status {status}: {stdout[:400]!r}")
    report, journals = split_journals(stdout)
    if journals != len(more):
        raise SystemExit(f"{journals} journals and not {len(more)}")
    return report.decode().split("\n")


def check(lines, exact, graphs, all_wanted):
    """How many blocks are reported as they are worked out, and how many are not."""
    at = lines.index("block 2")
    counts = [0, 0]
    for number, (out, wanted) in enumerate(zip(graphs, all_wanted), 2):
        found = lines[at:at + len(wanted)]
        at += len(wanted)
        counts[found != wanted] += 1
        if found != wanted and counts[1] < 5:
            print(f"block {number}, exact {exact}, edges {out}\n  wanted {wanted}\n  found  {found}")
    return counts


def check_all(program, exact, graphs):
    """The counts of a node that runs by itself, and of one with jobs, whose journal is written."""
    all_wanted, draft = [lines_of(exact, number, out) for number, out in enumerate(graphs, 2)], draft_of(graphs)
    for more in [], ["--trace"]:
        yield check(report_of(program, exact, draft, more), exact, graphs, all_wanted)


def main(program, count, seed):
    draw = random.Random(seed)
    graphs = list(graphs_of_four()) + [drawn_graph(draw) for _ in range(count)]
    passed, failed = (sum(column) for column in zip(*(counts for exact in (True, False) for counts in check_all(program, exact, graphs))))
    print(f"{passed} passed, {failed} failed")
    return 1 if failed else 0


if __name__ == "__main__":
    sys.exit(main(os.path.abspath(sys.argv[1]), int(sys.argv[2]) if len(sys.argv) > 2 else 400, int(sys.argv[3]) if len(sys.argv) > 3 else 1))
