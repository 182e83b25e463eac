#!/usr/bin/env python3
"""Draws schedules for `bcdb simulate` and compares each report with that of `bcdb run` on the same files, byte for byte.

A schedule is made of steps in any order, most of which change nothing where they stand, and of a tail that seals what is left. The arrivals
are transactions of the blocks, some of them with another argument, another height or another id. Usage: draw_schedules.py PROGRAM [COUNT] [SEED]
"""
import concurrent.futures
import os
import random
import sys
import tempfile

import patience

HERE = os.path.dirname(os.path.abspath(__file__))
# cases with contention, each an application and a file of blocks without a fault
CASES = ["first-hit-wins", "chain-of-three", "chain-of-three-middle-last", "write-skew", "stale-pay", "phantom-sweep", "sweep-untouched", "early-outcomes",
         "lots", "same-key-in-block", "late-insert", "duplicate-key", "stale-after-reinsert", "interest-by-time",
         "exact-write-skew", "exact-chain-of-three", "exact-ring-of-three", "exact-shorter-cycle-first", "exact-least-positions"]
ACTORS = range(1, 17)
READS = 12
FILES = ["--app", "a.app", "--blocks", "b.draft"]
LOOKS = ["--orders", "--digests"]


def read(path):
    with open(path) as file:
        return file.read()


def blocks_of(draft):
    """The lists of transaction lines of the blocks."""
    blocks = []
    for line in draft.split("\n"):
        if line.startswith("block "):
            blocks.append([])
        elif line.startswith("tx "):
            blocks[-1].append(line)
    return blocks


def changed(draw, line):
    """A transaction line with another id, height or last argument."""
    fields = line.split(" ")
    which = draw.randrange(3)
    if which == 0:
        fields[1] = fields[1] + draw.choice("xyz")
    elif which == 1:
        fields[2] = str(draw.randrange(4))
    elif len(fields) > 4 and fields[-1].isdigit():
        fields[-1] = str(draw.randrange(1, 99))
    return " ".join(fields)


def arrivals_of(draw, blocks):
    lines = [line for block in blocks for line in block if draw.random() < 0.7]
    lines += [changed(draw, line) for block in blocks for line in block if draw.random() < 0.4]
    draw.shuffle(lines)
    return lines


def any_step(draw, arrivals):
    actor = draw.randrange(1, 5)
    return draw.choice([
        f"arrive {draw.randrange(1, arrivals + 2)}",
        f"claim {actor} {draw.randrange(4)}",
        f"claim {actor} due",
        f"read {actor}",
        f"read {actor}",
        f"read {actor}",
        f"finish {actor}",
        f"release {actor}",
        "deliver",
        "commit",
        "seal",
    ])


def tail(blocks):
    """Steps that seal each block, whatever came before them."""
    steps = [f"release {actor}" for actor in ACTORS]
    for block in blocks:
        steps.append("deliver")
        for _ in block:
            steps += ["claim 1 due"] + ["read 1"] * READS + ["finish 1", "commit"]
        steps += ["commit", "seal"]
    return steps


def run(program, folder, words):
    return patience.run([program, *words], cwd=folder)


def write(folder, name, lines):
    with open(os.path.join(folder, name), "w") as file:
        file.write("\n".join(lines) + "\n")


class Draw:
    """A schedule that was drawn for a case, with what arrives."""

    def __init__(self, number, draw):
        self.number, self.case = number, CASES[number % len(CASES)]
        blocks = blocks_of(read(os.path.join(HERE, "cases", self.case, "b.draft")))
        self.arrivals = arrivals_of(draw, blocks)
        self.steps = [any_step(draw, len(self.arrivals)) for _ in range(draw.randrange(120))] + tail(blocks)

    def report(self, program):
        """The status and the report of a simulation by the schedule."""
        with tempfile.TemporaryDirectory() as folder:
            copy_case(self.case, folder)
            write(folder, "p1", ["arrivals 1", *self.arrivals])
            write(folder, "s", ["schedule 1", *self.steps])
            return run(program, folder, ["simulate", *FILES, "--schedule", "s", "--arrivals", "p", *LOOKS])


def copy_case(case, folder):
    for name in ("a.app", "b.draft"):
        write(folder, name, [read(os.path.join(HERE, "cases", case, name)).rstrip("\n")])


def wanted_of(program, case):
    """The status and the report of a run of a case."""
    with tempfile.TemporaryDirectory() as folder:
        copy_case(case, folder)
        return run(program, folder, ["run", *FILES, *LOOKS])


def main():
    program = os.path.abspath(sys.argv[1])
    count = int(sys.argv[2]) if len(sys.argv) > 2 else 60
    seed = int(sys.argv[3]) if len(sys.argv) > 3 else 1
    draw = random.Random(seed)
    draws = [Draw(number, draw) for number in range(count)]
    wanted = {case: wanted_of(program, case) for case in CASES}
    failed = 0
    with concurrent.futures.ThreadPoolExecutor(os.cpu_count()) as pool:
        for drawn, found in zip(draws, pool.map(lambda drawn: drawn.report(program), draws)):
            if found != wanted[drawn.case]:
                failed += 1
                print(f"draw {drawn.number} of seed {seed}, case {drawn.case}: wanted {wanted[drawn.case][0]}, found {found[0]}\n{found[1][:400]!r}")
    print(f"{count - failed} passed, {failed} failed")
    sys.exit(1 if failed or not count else 0)


if __name__ == "__main__":
    main()
