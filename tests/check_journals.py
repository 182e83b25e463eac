#!/usr/bin/env python3
"""Draws runs of several nodes with executors on the built program, and checks what they tell.

The report of each run has to be that of one node without executors, byte for byte, once for each node; and each journal has to be one that the rule of
the node's steps allows, here written anew from docs/CLAIM.md: a job is made by an arrival or a delivery, claimed once its height is sealed, read and
finished or released by its holder, and a transaction is committed at its turn once its job is done. Which rows a read gives is not looked at.
Where few calls arrive at a node, one alone in most runs, and each of them is new and may be called, one of them is seen there before its block in one of five
runs, of which the last ones are long, and where there are executors its job is claimed by then.
In all runs together, an arrival and an entry of an executor have to be seen at each number that a node may have. Where the drawn runs, which are short,
show one of these nowhere, long runs follow until it is seen, at most 60 of them: of 2,000 calls that arrive and 1,000 blocks, in which each thread gets its
share of a processor. At last 16 executors share a node with its processor and these calls, in a few runs of some 20,000 entries. What their journals happen
to show is printed and not judged: how many of the 18 actors make an entry, and whether one gives up its job, is left to the machine. Both are
shown in orders that a gate holds, by the tests of node_tests.
Usage: check_journals.py PROGRAM [COUNT] [SEED]
"""
import collections
import os
import random
import re
import sys
import tempfile

import patience
from draw_schedules import CASES, HERE, arrivals_of, blocks_of, changed, read

EARLY = ("aborted duplicate-id", "aborted future-height", "aborted unknown-procedure", "aborted bad-arguments")
MOST_READS = 100000
MOST_NODES = 3
CROWD, CROWD_RUNS, CROWD_BLOCKS, CROWD_CALLS = 16, 3, 1000, 2000
FEW_RUNS, FEW_BLOCKS = 10, [200, 800, 3200, 12800, 25600]
LONG_RUNS, LONG_EXECUTORS = 60, 4
LATE = [f'tx z{number} 0 add {number + 100} "ann" 1' for number in range(50)]


KINDS = {"int": re.compile(r"-?[0-9]+"), "text": re.compile(r'"(?:[^"\\]|\\.)*"'), "bool": re.compile("true|false"), "bytes": re.compile(r'x"(?:[0-9a-f]{2})*"')}
ARGUMENT = re.compile(r'x?"(?:[^"\\]|\\.)*"|[^ ]+')


class Illegal(Exception):
    """An entry that no step makes."""


def need(holds, why):
    if not holds:
        raise Illegal(why)


class Procedures:
    """The procedures of an application: the kinds of what each takes."""

    def __init__(self, app):
        text = re.sub("#[^\n]*", "", app)
        self.kinds = {name: [parameter.split()[-1] for parameter in parameters.split(",") if parameter.strip()]
                      for name, parameters in re.findall(r"\bproc\s+(\w+)\s*\(([^)]*)\)", text)}

    def takes(self, line):
        """Whether a transaction line calls one of them with such arguments."""
        name, *arguments = ARGUMENT.findall(line)[3:]
        kinds = self.kinds.get(name)
        return kinds is not None and len(kinds) == len(arguments) and all(KINDS[kind].fullmatch(given) for kind, given in zip(kinds, arguments))


class Job:
    """A job: the whole transaction, and how far it is."""

    def __init__(self, line):
        self.line = line
        self.id = line.split(" ")[1]
        self.height = int(line.split(" ")[2])
        self.state = "waiting"
        self.holder = None
        self.reads = 0


class Node:
    """The state that the entries of a journal come to."""

    def __init__(self, blocks, outcomes, arrivals, feeder):
        self.blocks, self.outcomes, self.feeder = blocks, outcomes, feeder
        self.arrivals = iter(arrivals)
        self.jobs = []
        self.sealed = 0
        self.decided = None
        self.settled = set()

    def is_known(self, line):
        id = line.split(" ")[1]
        in_work = self.decided is not None and any(other.split(" ")[1] == id for other in self.blocks[self.sealed])
        return id in self.settled or in_work or self.find(line) is not None

    def find(self, line):
        for job in self.jobs:
            if job.state != "dropped" and job.line == line:
                return job
        return None

    def job(self, number):
        need(1 <= number <= len(self.jobs), "no such job")
        return self.jobs[number - 1]

    def held(self, actor, number):
        job = self.job(number)
        need(job.state == "held" and job.holder == actor, "not held by this actor")
        return job

    def arrive(self, actor, number, id):
        need(actor == self.feeder, "not the feeder")
        need(number == len(self.jobs) + 1, "not the next job")
        # those before it in the file made no entry: they were known then, or before
        for line in self.arrivals:
            if line.split(" ")[1] == id and not self.is_known(line):
                self.jobs.append(Job(line))
                return
        raise Illegal("arrives from nowhere")

    def claim(self, actor, number):
        job = self.job(number)
        need(not any(other.state == "held" and other.holder == actor for other in self.jobs), "holds another job")
        need(job.state == "waiting", "does not wait")
        need(job.height <= self.sealed, "its height is not sealed")
        job.state, job.holder, job.reads = "held", actor, 0

    def read(self, actor, number):
        job = self.held(actor, number)
        need(job.id not in self.settled, "reads though its id is settled")
        job.reads += 1
        need(job.reads <= MOST_READS, "reads too often")

    def finish(self, actor, number):
        job = self.held(actor, number)
        job.state = "dropped" if job.id in self.settled else "done"

    def release(self, actor, number):
        job = self.held(actor, number)
        job.state = "dropped" if job.id in self.settled else "waiting"

    def deliver(self, actor, number):
        need(actor == 0, "not the processor")
        need(self.decided is None, "a block is in work")
        need(number == self.sealed + 1 and number <= len(self.blocks), "not the next block")
        self.decided = 0
        for line, outcome in zip(self.blocks[number - 1], self.outcomes[number - 1]):
            if outcome not in EARLY and self.find(line) is None:
                self.jobs.append(Job(line))

    def commit(self, actor, pos):
        need(actor == 0, "not the processor")
        need(self.decided is not None, "no block is in work")
        need(pos == self.decided + 1 and pos <= len(self.blocks[self.sealed]), "not the first undecided")
        line, outcome = self.blocks[self.sealed][pos - 1], self.outcomes[self.sealed][pos - 1]
        if outcome not in EARLY:
            job = self.find(line)
            need(job is not None and job.state == "done", "its job is not done")
        self.decided = pos

    def seal(self, actor, number):
        need(actor == 0, "not the processor")
        need(self.decided == len(self.blocks[self.sealed]), "not all are decided")
        need(number == self.sealed + 1, "not the block in work")
        self.settled |= {line.split(" ")[1] for line in self.blocks[self.sealed]}
        for job in self.jobs:
            if job.state in ("waiting", "done") and job.id in self.settled:
                job.state = "dropped"
        self.sealed, self.decided = number, None

    def step(self, line):
        actor, event, *rest = line.split(" ")
        if event == "arrive":
            self.arrive(int(actor), int(rest[0]), rest[1])
        else:
            getattr(self, event)(int(actor), int(rest[0]))


def outcomes_of(report):
    """The outcomes of each block of a report of one node."""
    blocks = []
    for line in report.split("\n"):
        if line.startswith("block "):
            blocks.append([])
        elif line.startswith("tx "):
            blocks[-1].append(line.split(" ", 3)[3])
    return blocks


def check_journal(lines, blocks, outcomes, arrivals, executors):
    """A journal of a node that seals all blocks, with the arrivals that are calls of the application."""
    node = Node(blocks, outcomes, arrivals, executors + 1)
    for place, line in enumerate(lines):
        try:
            node.step(line)
        except Illegal as fault:
            raise Illegal(f"entry {place + 1}, `{line}`: {fault}")
        need(int(line.split(" ")[0]) <= executors + 1, "no such actor")
    need(node.sealed == len(blocks) and node.decided is None, "not all blocks are sealed")


def split_trace(text, nodes):
    """The report, and the lines of each journal."""
    report, *journals = text.split("journal ")
    need(len(journals) == nodes, "not one journal for each node")
    for place, journal in enumerate(journals):
        need(journal.startswith(f"{place + 1}\n"), "journals in another order")
    return report, [journal.split("\n")[1:-1] for journal in journals]


def expected(plain, nodes):
    """The report of so many nodes, by that of one."""
    body, done = plain[len("node 1\n"):-len("done\n")], "done\n"
    return "".join(f"node {place + 1}\n{body}" for place in range(nodes)) + done


def output(program, words):
    status, stdout = patience.run([program, *words])
    need(status == 0, f"status {status}: {stdout[:80]!r}")
    return stdout.decode()


def write(path, header, lines):
    with open(path, "w") as out:
        out.write("".join(line + "\n" for line in [header, *lines]))


def late_or_never(draw, blocks):
    """Lists of arrivals, some of them with many changed lines, some empty."""
    lines = arrivals_of(draw, blocks) if draw.random() < 0.8 else []
    if draw.random() < 0.3:
        lines += [changed(draw, line) for block in blocks for line in block]
    return lines


def note_actors(seen, place, lines, executors):
    """Counts the entries of a node's executors, and of the one that makes its arrivals."""
    for line in lines:
        actor = int(line.split(" ")[0])
        if actor > 0:
            seen[place + 1, "arrival" if actor > executors else "entry of an executor"] += 1


def missing(seen):
    """What was seen in no run, at a number that a node may have."""
    wanted = [(place + 1, what) for place in range(MOST_NODES) for what in ("arrival", "entry of an executor")]
    return [f"no {what} was seen at node {node}" for node, what in wanted if not seen[node, what]]


def draw_run(program, draw, folder, case, seen):
    app, draft = os.path.join(HERE, "cases", case, "a.app"), os.path.join(HERE, "cases", case, "b.draft")
    blocks = blocks_of(read(draft))
    nodes, executors = draw.randrange(1, MOST_NODES + 1), draw.choice([0, 1, 2, 4, 16])
    arrivals = [late_or_never(draw, blocks) for _ in range(nodes)]
    for place, lines in enumerate(check_run(program, folder, app, draft, arrivals, executors)):
        note_actors(seen, place, lines, executors)


def check_run(program, folder, app, draft, arrivals, executors):
    """The journals of as many nodes as lists of arrivals, once they and the report are found right."""
    procedures, blocks, nodes = Procedures(read(app)), blocks_of(read(draft)), len(arrivals)
    for place, lines in enumerate(arrivals):
        write(os.path.join(folder, f"arrivals{place + 1}"), "arrivals 1", lines)
    files = ["--app", app, "--blocks", draft]
    plain = output(program, ["run", *files, "--executors", "0"])
    words = ["--nodes", str(nodes), "--executors", str(executors), "--arrivals", os.path.join(folder, "arrivals"), "--trace"]
    report, journals = split_trace(output(program, ["run", *files, *words]), nodes)
    need(report == expected(plain, nodes), "another report")
    for lines, arrived in zip(journals, arrivals):
        check_journal(lines, blocks, outcomes_of(plain), filter(procedures.takes, arrived), executors)
    return journals


def payments(blocks):
    """The lines of so many blocks of payments between two accounts."""
    lines = ["block 1", 'tx a1 0 add 1 "ann" 50', 'tx a2 0 add 2 "bob" 20', "end"]
    for number in range(1, blocks + 1):
        pays = [f"tx p{number} {number} pay 1 2 {number % 3}", f"tx q{number} {number} pay 2 1 {number % 5}"]
        lines += [f"block {number + 1}", *pays, "end"]
    return lines


def crowded():
    """Blocks of payments, and calls that arrive: half of them stand in no block, and the ids of the others do."""
    adds = [f'tx x{number} 0 add {number + 3} "ann" 1' for number in range(CROWD_CALLS // 2)]
    others = [f"tx q{number} {number} pay 1 2 {number}" for number in range(1, CROWD_CALLS // 2 + 1)]
    return payments(CROWD_BLOCKS), [call for pair in zip(others, adds) for call in pair]


def few_arrivals(draw):
    """From one to three calls at height 0, whose ids stand in the last block or in none, so that each of them is new when it comes in time."""
    never = [f'tx x{number} 0 add {number + 1000} "ann" 1' for number in range(50)]
    return draw.sample(LATE + never, draw.choice([1, 1, 1, 2, 3]))


def is_ahead(journal, last, executors):
    """Whether a journal shows a call that arrived before the last block was delivered, and where there are executors, that one of them was claimed by then."""
    entries = [line.split(" ") for line in journal[:journal.index(f"0 deliver {last}")]]
    arrived, claimed = ({entry[2] for entry in entries if entry[1] == event} for event in ("arrive", "claim"))
    return bool(arrived & claimed if executors else arrived)


def nodes_ahead(program, draw, folder, blocks, nodes, executors):
    """The numbers of the nodes that are ahead by one of their arrivals, which are few, in a run of so many blocks of payments and one more."""
    app, draft, last = os.path.join(HERE, "cases", "stale-pay", "a.app"), os.path.join(folder, "few"), blocks + 2
    write(draft, "draft 1", [*payments(blocks), f"block {last}", *LATE, "end"])
    for node in range(1, nodes + 1):
        write(os.path.join(folder, f"arrivals{node}"), "arrivals 1", few_arrivals(draw))
    files = ["--app", app, "--blocks", draft]
    words = ["--nodes", str(nodes), "--executors", str(executors), "--arrivals", os.path.join(folder, "arrivals"), "--trace"]
    report, journals = split_trace(output(program, ["run", *files, *words]), nodes)
    need(report == expected(output(program, ["run", *files, "--executors", "0"]), nodes), "another report")
    return {node for node, journal in enumerate(journals, 1) if is_ahead(journal, last, executors)}


def run_few(program, draw, folder):
    """Nodes at which few calls arrive, each of them new and one that the application takes: in one of five runs each node shows one before its block. The first
    runs are short, and mostly one of them does; on a busy machine the threads that make arrivals and run them may come to their turns only in a longer one."""
    nodes, executors = draw.randint(1, MOST_NODES), draw.choice([0, 1, 2, 4])
    behind = set(range(1, nodes + 1))
    for blocks in FEW_BLOCKS:
        behind -= nodes_ahead(program, draw, folder, blocks, nodes, executors)
        if not behind:
            return
    raise Illegal(f"of new calls none ran before its block in {len(FEW_BLOCKS)} runs at {sorted(behind)} of {nodes} nodes of {executors} executors")


def run_crowded(program, folder, nodes, executors):
    """The journals of nodes, of which each has many calls that arrive."""
    app, draft = os.path.join(HERE, "cases", "stale-pay", "a.app"), os.path.join(folder, "crowd")
    lines, arrivals = crowded()
    write(draft, "draft 1", lines)
    return check_run(program, folder, app, draft, [arrivals] * nodes, executors)


def run_crowds(program, folder):
    """Many executors at one node. What their journals show is printed."""
    actors, events = set(), collections.Counter()
    for _ in range(CROWD_RUNS):
        (journal,) = run_crowded(program, folder, 1, CROWD)
        actors |= {line.split(" ")[0] for line in journal}
        events += collections.Counter(line.split(" ")[1] for line in journal)
    kinds = ", ".join(f"{kind} {count}" for kind, count in sorted(events.items()))
    print(f"of {CROWD + 2} actors {len(actors)} made entries in {CROWD_RUNS} runs: {kinds}")


def run_until_seen(program, folder, seen):
    """Long runs, until nothing is missing of what has to be seen."""
    for _ in range(LONG_RUNS):
        if not missing(seen):
            return
        for place, lines in enumerate(run_crowded(program, folder, MOST_NODES, LONG_EXECUTORS)):
            note_actors(seen, place, lines, LONG_EXECUTORS)


def runs_of(program, draw, folder, count, seen):
    """The name of each run, and what makes it."""
    for number in range(count):
        case = draw.choice(CASES)
        yield f"run {number}, {case}", lambda: draw_run(program, draw, folder, case, seen)
    for number in range(FEW_RUNS):
        yield f"few arrivals {number}", lambda: run_few(program, draw, folder)
    yield "long runs", lambda: run_until_seen(program, folder, seen)
    yield "a crowd", lambda: run_crowds(program, folder)


def main():
    program = os.path.abspath(sys.argv[1])
    count = int(sys.argv[2]) if len(sys.argv) > 2 else 300
    seed = int(sys.argv[3]) if len(sys.argv) > 3 else 1
    draw, failed, seen = random.Random(seed), 0, collections.Counter()
    with tempfile.TemporaryDirectory() as folder:
        for name, make_run in runs_of(program, draw, folder, count, seen):
            try:
                make_run()
            except Illegal as fault:
                failed += 1
                print(f"seed {seed}, {name}: {fault}")
            except patience.Hangs as fault:
                # each run more may take as long
                sys.exit(f"seed {seed}, {name}: {fault}")
    for fault in missing(seen):
        failed += 1
        print(f"seed {seed}: {fault}")
    print(f"{count + FEW_RUNS + 2 * MOST_NODES + 1 - failed} passed, {failed} failed")
    sys.exit(1 if failed else 0)


if __name__ == "__main__":
    main()
