#!/usr/bin/env python3
"""Runs each case of `run` in tests/cases again with 0, 1 and 4 executors on 1 and 3 nodes, and compares every byte.

The report of a node has to stand there once for each node, before the last line, and a refusal as it is. Each of these runs writes its journals, so that it is
one of nodes with jobs, of whatever calls: one for each node stands after a report, and they are left out of the comparison. One run more writes none, with one
node and no executors, which takes the blocks piece by piece as they are read. Cases whose words name nodes, executors, journals or JSON are left out, since
they say what those print; a case with arrivals is run on one node, whose file it has. Usage: check_crews.py PROGRAM
"""
import os
import sys

from run_cases import CASES, Tally, read, run, split_journals

OWN = {"--nodes", "--executors", "--trace", "--json"}
CREWS = [(nodes, executors) for nodes in (1, 3) for executors in (0, 1, 4)]


def wanted(stdout, nodes):
    """What so many nodes print, where one prints this, and how many journals stand after it."""
    if not stdout.startswith(b"node 1\n"):
        return stdout, 0
    lines = stdout.split(b"\n")
    body, last = lines[1:-2], lines[-2]
    numbered = [[b"node %d" % (node + 1), *body] for node in range(nodes)]
    return b"\n".join([line for node in numbered for line in node] + [last, b""]), nodes


def run_case(program, name, tally):
    folder = os.path.join(CASES, name)
    words = read(os.path.join(folder, "words")).decode().split("\n")[:-1]
    status, stdout = int(read(os.path.join(folder, "status"))), read(os.path.join(folder, "stdout"))
    if words[:1] != ["run"] or OWN & set(words) or status == 2:
        return
    for nodes, executors in CREWS:
        if nodes == 1 or "--arrivals" not in words:
            crew = ["--nodes", str(nodes), "--executors", str(executors), "--trace"]
            ended, told = run(program, folder, words + crew)
            tally.note(f"{name} {' '.join(crew)}", (status, wanted(stdout, nodes)), (ended, split_journals(told)))
    tally.note(f"{name} without executors", (status, stdout), run(program, folder, [*words, "--executors", "0"]))


def main():
    program, tally = os.path.abspath(sys.argv[1]), Tally()
    for name in sorted(os.listdir(CASES)):
        if os.path.exists(os.path.join(CASES, name, "words")):
            run_case(program, name, tally)
    print(f"{tally.passed} passed, {tally.failed} failed")
    sys.exit(1 if tally.failed or not tally.passed else 0)


if __name__ == "__main__":
    main()
