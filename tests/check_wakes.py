#!/usr/bin/env python3
"""Runs nodes with many executors, of which many sleep at once, and checks that each of them wakes.

A library that is loaded before the C library lets a thread rest now and then where it takes memory. A thread that rests in its turn has all others of its node
wait for the lock, and most of them fall asleep there; executors that have nothing to do sleep at the bell of their node. In some runs no thread lets others
run before it falls asleep, since on a busy machine what it waits for mostly comes meanwhile. The library counts who sleeps where: a word of which one sleeper
is woken at a time is that of a lock, and one of which all are is that of a bell. In all runs together, at least three have to sleep at one lock at once, and
at least three at one bell: where the runs that are asked for show less, others follow in which threads rest longer and longer, until it is seen, up to ten
times as many. A run that hangs (patience.py) has lost a wake, of whoever sleeps then. That such a run is found is seen first, by runs whose wakes the library
loses: those of locks, and those of bells.
Each report is that of one node without executors, byte for byte, once for each node. Usage: check_wakes.py PROGRAM [COUNT] [SEED]
"""
import os
import random
import struct
import subprocess
import sys
import tempfile

import patience
from check_journals import HERE, Illegal, expected, need, output, payments, write

WORDS = 256
# nodes and executors; which of them gets how many processors is left to the system
CREWS = [(1, 16), (1, 5), (2, 8), (3, 16), (8, 4)]
BLOCKS = 150
SLEEPERS = 3
MOST_TIMES = 10
# for runs that are to hang, which are given up sooner
SOON = patience.Patience(asleep=10)


class Library:
    """The library, and the file in which it counts."""

    def __init__(self, folder):
        self.path, self.told = os.path.join(folder, "sleepers.so"), os.path.join(folder, "told")
        subprocess.run(["cc", "-shared", "-fPIC", "-O1", "-o", self.path, os.path.join(HERE, "sleepers.c"), "-ldl"], check=True)

    def environment(self, every, micros, is_hasty, lost):
        with open(self.told, "wb") as out:
            out.write(bytes(WORDS * 32))
        given = {"LD_PRELOAD": self.path, "PAUSE_EVERY": str(every), "PAUSE_MICROS": str(micros), "PAUSE_LOST": lost, "PAUSE_TOLD": self.told}
        return given | ({"PAUSE_HASTY": ""} if is_hasty else {})

    def words(self):
        """Of each word how many sleep there, how many did at the most, and how often one and how often all were woken."""
        with open(self.told, "rb") as file:
            return [record for record in struct.iter_unpack("4q", file.read()) if any(record)]


def most_asleep(words):
    """How many slept at one lock at once, and how many at one bell."""
    locks = [most for _, most, ones, alls in words if ones and not alls]
    bells = [most for _, most, ones, alls in words if alls and not ones]
    return max(locks, default=0), max(bells, default=0)


class Crews:
    """Runs of the program with crews that are drawn, over the files of a folder."""

    def __init__(self, program, draw, folder):
        self.program, self.draw, self.library = program, draw, Library(folder)
        app, draft = os.path.join(HERE, "cases", "stale-pay", "a.app"), os.path.join(folder, "draft")
        self.words, self.arrivals = ["run", "--app", app, "--blocks", draft], os.path.join(folder, "arrivals")
        lines = payments(BLOCKS)
        write(draft, "draft 1", lines)
        for node in range(1, 9):
            write(self.arrivals + str(node), "arrivals 1", [line for line in lines if line.startswith("tx ") and draw.random() < 0.7])
        self.plain = output(program, [*self.words, "--executors", "0"])

    def run(self, nodes, executors, is_hasty, longer=0, lost="", **limits):
        """The status and the output of a run whose rests are longer by so many doublings, and in which wakes of a kind are lost."""
        environment = self.library.environment(self.draw.randint(20, 200), self.draw.randint(200, 1000) << longer, is_hasty, lost)
        words = [*self.words, "--nodes", str(nodes), "--executors", str(executors), "--arrivals", self.arrivals]
        return patience.run([self.program, *words], env=environment, **limits)

    def asleep(self, longer):
        """How many slept at one lock at once, and how many at one bell, in a run that is right."""
        (nodes, executors), is_hasty = self.draw.choice(CREWS), self.draw.random() < 0.5
        try:
            status, stdout = self.run(nodes, executors, is_hasty or longer > 0, longer)
        except patience.Hangs as fault:
            asleep = [now for now, *_ in self.library.words() if now]
            raise Illegal(f"a run of {nodes} nodes of {executors} executors {fault}, and so many sleep at a word: {asleep}") from fault
        need(status == 0, f"status {status}")
        need(stdout.decode() == expected(self.plain, nodes), "another report")
        return most_asleep(self.library.words())

    def is_found_to_hang(self, lost):
        """Whether a run in which wakes of a kind are lost is found to hang. It may end where nobody sleeps."""
        try:
            self.run(*CREWS[0], is_hasty=True, lost=lost, patience=SOON)
        except patience.Hangs:
            return True
        return False


def most_of(crews, count):
    """The most that slept at one lock at once and at one bell, in so many runs and those that follow."""
    locks, bells = 0, 0
    for number in range(MOST_TIMES * count):
        if number >= count and min(locks, bells) >= SLEEPERS:
            break
        at_lock, at_bell = crews.asleep(number // count)
        locks, bells = max(locks, at_lock), max(bells, at_bell)
    return locks, bells


def check(crews, count):
    for lost, what in (("one", "locks"), ("all", "bells")):
        need(any(crews.is_found_to_hang(lost) for _ in range(MOST_TIMES)), f"where wakes of {what} are lost, no run of {MOST_TIMES} was found to hang")
    locks, bells = most_of(crews, count)
    print(f"up to {locks} slept at one lock and up to {bells} at one bell")
    need(locks >= SLEEPERS, "so many have to sleep at a lock")
    need(bells >= SLEEPERS, "so many have to sleep at a bell")


def main():
    count = int(sys.argv[2]) if len(sys.argv) > 2 else 12
    draw = random.Random(int(sys.argv[3]) if len(sys.argv) > 3 else 1)
    with tempfile.TemporaryDirectory() as folder:
        try:
            # after the first fault nothing more is tried, since each run more might take as long to be given up
            check(Crews(os.path.abspath(sys.argv[1]), draw, folder), count)
        except Illegal as fault:
            sys.exit(f"1 failed: {fault}")
    print(f"{count + 2} passed, 0 failed")


if __name__ == "__main__":
    main()
