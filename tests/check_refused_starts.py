#!/usr/bin/env python3
"""Runs nodes with executors where the system refuses to start threads, and checks what they tell.

The program runs as a user of its own that may have so many threads, its first one among them. The threads that can't be started are absent: the report
has to be that of one node without executors, byte for byte, once for each node, and each journal one that the rule of the node's steps allows. With one
thread in all, the processor makes every entry. Where this script is not run by root, the user is its own, who may have no further thread at all.
Usage: check_refused_starts.py PROGRAM
"""
import functools
import os
import resource
import shutil
import socket
import sys
import tempfile

import patience
from check_journals import Illegal, Procedures, check_journal, expected, need, outcomes_of, split_trace
from draw_schedules import CASES, HERE, blocks_of, read

IS_ROOT = os.geteuid() == 0
THREADS = [1, 2, 3, 6] if IS_ROOT else [1]
CREWS = [(1, 1), (1, 4), (3, 2)]
# numbers that the system gives to nobody
USERS = range(60706, 61184)
HELD = []


@functools.cache
def own_user():
    """The number of a user that no other script of tests has at this time, since a limit counts all threads of a user. The name that says so is held until this
    script ends."""
    for number in USERS:
        name = socket.socket(socket.AF_UNIX, socket.SOCK_DGRAM)
        try:
            name.bind(f"\0bcdb-tests-user-{number}")
        except OSError:
            name.close()
            continue
        HELD.append(name)
        return number
    raise SystemExit("other scripts have all users")


def limited(threads):
    """What a child does first: it becomes the user, and takes the limit. Set in this order, since a user over the limit could start no program."""
    user, most = (own_user(), threads) if IS_ROOT else (None, 0)

    def begin():
        if user is not None:
            os.setgroups([])
            os.setgid(user)
            os.setuid(user)
        resource.setrlimit(resource.RLIMIT_NPROC, (most, most))
    return begin


def output(program, folder, words, begin=None):
    status, stdout = patience.run([program, *words], cwd=folder, preexec_fn=begin)
    need(status == 0, f"status {status}: {stdout[:80]!r}")
    return stdout.decode()


def check_run(program, folder, plain, threads, nodes, executors):
    procedures, blocks = Procedures(read(os.path.join(folder, "app"))), blocks_of(read(os.path.join(folder, "draft")))
    arrived = [line for block in blocks for line in block]
    words = ["--nodes", str(nodes), "--executors", str(executors), "--arrivals", "arrivals", "--trace"]
    text = output(program, folder, ["run", "--app", "app", "--blocks", "draft", *words], limited(threads))
    report, journals = split_trace(text, nodes)
    need(report == expected(plain, nodes), "another report")
    for journal in journals:
        check_journal(journal, blocks, outcomes_of(plain), filter(procedures.takes, arrived), executors)
        others = {line.split(" ")[0] for line in journal} - {"0"}
        need(nodes > 1 or len(others) < threads, "more actors than threads")
        need(threads > 1 or not others, "an actor without a thread")


def fill(folder, case):
    """The files of a run, which another user may read."""
    shutil.copyfile(os.path.join(HERE, "cases", case, "a.app"), os.path.join(folder, "app"))
    shutil.copyfile(os.path.join(HERE, "cases", case, "b.draft"), os.path.join(folder, "draft"))
    lines = [line for block in blocks_of(read(os.path.join(folder, "draft"))) for line in block]
    for node in range(1, 4):
        with open(os.path.join(folder, f"arrivals{node}"), "w") as out:
            out.write("arrivals 1\n" + "".join(line + "\n" for line in lines))


def main():
    passed, failed = 0, 0
    with tempfile.TemporaryDirectory() as folder:
        os.chmod(folder, 0o755)
        program = os.path.join(folder, "bcdb")
        shutil.copyfile(sys.argv[1], program)
        os.chmod(program, 0o755)
        for case in CASES:
            fill(folder, case)
            plain = output(program, folder, ["run", "--app", "app", "--blocks", "draft", "--executors", "0"])
            for threads, (nodes, executors) in ((threads, crew) for threads in THREADS for crew in CREWS):
                try:
                    check_run(program, folder, plain, threads, nodes, executors)
                    passed += 1
                except (Illegal, patience.Hangs) as fault:
                    failed += 1
                    print(f"{case}, {threads} threads, {nodes} nodes, {executors} executors: {fault}")
    print(f"{passed} passed, {failed} failed")
    sys.exit(1 if failed else 0)


if __name__ == "__main__":
    main()
