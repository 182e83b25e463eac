#!/usr/bin/env python3
"""Refuses each growth of memory, each read, each write and each start of a thread of the built program once, and checks how the run ends.

A library that is loaded before the C library refuses the call of one number, for each number until a run meets none. Where a growth was refused, the run
ends with its own status or with 8, or, where a file was to be opened or the output to be written with it, as where that failed; where a read was refused,
with its own status or 3; where a write was, with its own or 7; where a start was, with its own. At 3 it writes so, at 7 and 8 a front of what the run
writes, and at its own status all of it. Nothing crashes, hangs or is written twice. Reads and writes that move one byte change nothing, and where one of
these writes is refused, exactly the bytes before it were written. Where no start is refused, a run starts exactly a thread for each of its actors, and none
where one node runs by itself. A run reads each piece of its files once and looks once for the end of each, and of what arrives, a schedule or blocks nothing
after the piece that has a fault.
Of runs with many growths some are chosen, evenly, unless all are asked for. Usage: check_refusals.py PROGRAM [--all]
"""
import concurrent.futures
import os
import struct
import subprocess
import sys
import tempfile
import threading

HERE = os.path.dirname(os.path.abspath(__file__))
sys.path.insert(0, os.path.join(os.path.dirname(HERE), "bench"))

import patience
from accounts import APP

MOST_CHOSEN = 120
# how a run may end in which a call of a kind was refused
ENDS = {"growth": (8, 3, 7), "read": (3,), "write": (7,), "start": ()}
# How many threads a run starts, beside the first one: where one node may gain by executors, as by calls with a loop, two of these, and where something arrives,
# be it one call alone, one more; of two nodes two at each, and one of the nodes; of an order its two clients; of a load three nodes, of which one runs on the first thread, and at
# each of them four executors and one that makes the arrivals. One node runs by itself where nothing arrives and no call has a loop. All others start none.
STARTS = {"one-insert": 0, "nine-own-writes": 2, "phantom-sweep": 2, "two-nodes": 1 + 2 * 2, "side-by-side": 2 + 1, "one-arrival": 2 + 1,
          "order-one-of-two": 2, "load": 2 + 3 * (4 + 1)}
# how many bytes a read asks for at most, and the options that name files
PIECE = 65536
FILES = ("--app", "--blocks", "--arrivals", "--schedule", "--clients", "--files", "--proof")
STOPPED = ("bad-line", "bad-step", "bad-arrival")
PAYMENTS = ["tx p1 1 pay 1 2 5", "tx p2 1 pay 3 4 5"]


class Run:
    """A run of the program: its words, in a folder, and how it ends when nothing is refused."""

    def __init__(self, name, folder, words):
        self.name, self.folder, self.words = name, folder, words
        self.status, self.stdout = None, None


def case(name):
    folder = os.path.join(HERE, "cases", name)
    with open(os.path.join(folder, "words")) as words:
        return folder, words.read().split("\n")[:-1]


def side_by_side(folder, name, arrived):
    """Two payments between different accounts, of which so many arrive before their block at a node with two executors."""
    folder = os.path.join(folder, name)
    os.mkdir(folder)
    adds = [f'tx a{n} 0 add {n} "ann" 50' for n in range(1, 5)]
    blocks = "".join(f"block {number}\n" + "".join(line + "\n" for line in lines) + "end\n" for number, lines in enumerate((adds, PAYMENTS), 1))
    arrivals = "arrivals 1\n" + "".join(line + "\n" for line in PAYMENTS[:arrived])
    for file_name, text in (("a.app", APP), ("b.draft", "draft 1\n" + blocks), ("arrivals1", arrivals)):
        with open(os.path.join(folder, file_name), "w") as out:
            out.write(text)
    return Run(name, folder, ["run", "--app", "a.app", "--blocks", "b.draft", "--arrivals", "arrivals", "--executors", "2"])


def two_nodes():
    """A block that one node would run by itself."""
    folder, words = case("one-insert")
    return folder, [*words, "--nodes", "2"]


def stopped(folder, name, texts, words):
    """A command on these files, of which the last that it reads has a bad second line and two million bytes after it."""
    folder = os.path.join(folder, name)
    os.mkdir(folder)
    for file_name, text in texts.items():
        with open(os.path.join(folder, file_name), "w") as out:
            out.write(text)
    return folder, [*words, "--app", "a.app", "--blocks", "b.draft"]


def all_stopped(folder):
    """The application is read in two calls, and one piece of what arrives, of the schedule or of the blocks. No blocks are read where another file stops."""
    bad, files = "\nnope\n" + "x" * 2097152, {"a.app": APP, "b.draft": "draft 1\n"}
    yield Run("bad-line", *stopped(folder, "bad-line", files | {"b.draft": "draft 1" + bad}, ["run"]))
    yield Run("bad-step", *stopped(folder, "bad-step", files | {"s": "schedule 1" + bad}, ["simulate", "--schedule", "s"]))
    yield Run("bad-arrival", *stopped(folder, "bad-arrival", files | {"p1": "arrivals 1" + bad}, ["run", "--arrivals", "p"]))


def sizes(run):
    """The sizes of the files that a run names. A name of several files has a number after it."""
    named = [value for option, value in zip(run.words, run.words[1:]) if option in FILES]
    paths = [os.path.join(run.folder, value + end) for value in named for end in ("", *map(str, range(1, 9)))]
    return [os.path.getsize(path) for path in paths if os.path.isfile(path)]


def runs(folder):
    names = ["one-insert", "nine-own-writes", "phantom-sweep", "first-hit-wins", "provenance-of-pay", "first-hit-wins-claimed-early", "guide-bank-seal",
             "json-of-one-insert", "guide-bank-changed", "order-one-of-two", "order-bad-client", "guide-heads", "guide-compare", "compare-an-empty-file",
             "guide-prove", "guide-verify", "verify-33-steps"]
    made = [Run("two-nodes", *two_nodes()), side_by_side(folder, "side-by-side", 2), side_by_side(folder, "one-arrival", 1), *all_stopped(folder),
            Run("load", folder, ["load", "--number", "1"])]
    return [Run(name, *case(name)) for name in names] + made


class Refuser:
    """The library, the program, and the folder of the files in which the calls are counted, one for each thread."""

    def __init__(self, folder, program):
        self.program, self.folder, self.library = program, folder, os.path.join(folder, "refuse.so")
        subprocess.run(["cc", "-shared", "-fPIC", "-O1", "-o", self.library, os.path.join(HERE, "refuse.c"), "-ldl"], check=True)

    def run(self, run, kind, number, most=None):
        """The status and the bytes of a run in which the call of a number is refused, and how many of that kind it made."""
        told = os.path.join(self.folder, f"told-{threading.get_ident()}")
        with open(told, "wb") as out:
            out.write(bytes(8))
        given = {"LD_PRELOAD": self.library, "REFUSE_KIND": kind, "REFUSE_AT": str(number), "REFUSE_TOLD": told}
        if most is not None:
            given["REFUSE_MOST"] = str(most)
        status, stdout = patience.run([self.program, *run.words], cwd=run.folder, env=given)
        with open(told, "rb") as count:
            return status, stdout, struct.unpack("q", count.read(8))[0]


def fault_of(run, kind, status, stdout):
    """What is wrong with how a run has ended, if anything is."""
    if status == run.status:
        return None if stdout == run.stdout else "other bytes at its own status"
    if status not in ENDS[kind]:
        return f"status {status}"
    if status == 3:
        return None if stdout == b"refused read\n" else "other bytes at status 3"
    return None if run.stdout.startswith(stdout) else "no front of what it writes"


class Tried:
    """One run with a refusal: what was refused, whether it was met, and what is wrong with how the run has ended, if anything is."""

    def __init__(self, what, met, fault):
        self.what, self.met, self.fault = what, met, fault


class Tally:
    def __init__(self):
        self.passed, self.failed, self.refused = 0, 0, {kind: 0 for kind in ENDS}

    def note(self, run, what, fault):
        self.passed, self.failed = self.passed + (fault is None), self.failed + (fault is not None)
        if fault is not None:
            print(f"{run.name}, {what}: {fault}")

    def note_all(self, run, kind, tries):
        for tried in tries:
            self.refused[kind] += tried.met
            self.note(run, tried.what, tried.fault)


def try_one(refuser, run, kind, number):
    what = f"{kind} {number} refused"
    try:
        status, stdout, count = refuser.run(run, kind, number)
    except patience.Hangs as fault:
        return Tried(what, False, str(fault))
    return Tried(what, count >= number, fault_of(run, kind, status, stdout))


def try_front(refuser, run, number):
    """Refuses one write where each moves one byte: a run that writes its answer at once has no other front than none or all of it."""
    what = f"write {number} of one byte refused"
    try:
        status, stdout, count = refuser.run(run, "write", number, most=1)
    except patience.Hangs as fault:
        return Tried(what, False, str(fault))
    fault = fault_of(run, "write", status, stdout)
    if fault is None and status == 7 and stdout != run.stdout[:number - 1]:
        fault = f"{len(stdout)} bytes at status 7"
    return Tried(what, count >= number, fault)


def numbers_of(count, takes_all):
    """The numbers of so many calls, or some of them, and those of the first and the last ones."""
    step = 1 if takes_all else max(1, count // MOST_CHOSEN)
    return sorted({*range(1, count + 3, step), *range(1, min(count, 10) + 1), *range(max(1, count - 10), count + 3)})


def check_starts(refuser, run, tally):
    _, _, count = refuser.run(run, "start", 0)
    wanted = STARTS.get(run.name, 0)
    tally.note(run, "no start refused", f"{count} threads and not {wanted}" if count != wanted else None)


def check_reads(refuser, run, tally):
    """The reads of a run: one for each piece of its files and one for the end of each, or fewer where a file is refused."""
    status, _, count = refuser.run(run, "read", 0)
    stops = run.name in STOPPED
    most = 3 if stops else sum(-(-size // PIECE) + 1 for size in sizes(run))
    wrong = count != most if status == 0 or stops else count > most
    tally.note(run, "no read refused", f"{count} reads and not {most}" if wrong else None)


def check_run(refuser, run, takes_all, tally, pool):
    for kind in ENDS:
        run.status, run.stdout, count = refuser.run(run, kind, 0)
        tally.note_all(run, kind, pool.map(lambda number: try_one(refuser, run, kind, number), numbers_of(count, takes_all)))
    check_starts(refuser, run, tally)
    check_reads(refuser, run, tally)
    tally.note_all(run, "write", pool.map(lambda number: try_front(refuser, run, number), numbers_of(len(run.stdout), takes_all)))
    status, stdout, _ = refuser.run(run, "none", 0, most=1)
    tally.note(run, "one byte at a time", None if (status, stdout) == (run.status, run.stdout) else f"status {status}")


def main():
    takes_all, tally = "--all" in sys.argv, Tally()
    with tempfile.TemporaryDirectory() as folder, concurrent.futures.ThreadPoolExecutor(os.cpu_count()) as pool:
        refuser = Refuser(folder, os.path.abspath(sys.argv[1]))
        for run in runs(folder):
            check_run(refuser, run, takes_all, tally, pool)
    print(", ".join(f"{count} {kind}s refused" for kind, count in tally.refused.items()))
    print(f"{tally.passed} passed, {tally.failed} failed")
    sys.exit(1 if tally.failed or not all(tally.refused.values()) else 0)


if __name__ == "__main__":
    main()
