#!/usr/bin/env python3
"""Runs the built program under load, at limits of its formats and with little memory, and checks how each run ends.

Many blocks of one transaction each have the report that their calls make; a long file with a fault behind its last block is read to that fault, in
memory that grows with what is kept and no faster; lines of the greatest length stand wherever lines do; and eight nodes with 16 executors each, in ever less address space, end with the report of a run
without executors, or with 8 and a front of it. Nothing crashes or hangs. With --all the numbers are those of the largest files: 1,000,000 blocks, and
2 GB. Usage: check_load.py PROGRAM [--all]
"""
import os
import resource
import subprocess
import sys
import tempfile

sys.path.insert(0, os.path.join(os.path.dirname(os.path.dirname(os.path.abspath(__file__))), "bench"))

import patience
from accounts import APP

# the longest line has an id, the name of a procedure that nobody declared, and texts of 255 bytes
TEXTS = b' "%s"' % (b"a" * 255) * 15
# what a byte of such a file may take, and what the program may take beside
BYTES_OF_A_BYTE, BYTES_BESIDE = 2, 64 * 1024 * 1024
MIB = 1024 * 1024
SPACES = (4096, 1024, 512, 128, 64, 32)
# for the largest files, each of which takes minutes
LARGEST = patience.Patience(processor=900)


class Wrong(Exception):
    """What a run showed that it should not have."""


def need(is_so, message):
    if not is_so:
        raise Wrong(message)


def run(program, folder, words, space=None):
    """The status, the output and the most memory that was taken, with at most so many bytes of address space."""

    def begin():
        if space is not None:
            resource.setrlimit(resource.RLIMIT_AS, (space, space))

    with open(os.path.join(folder, "out"), "w+b") as out:
        child = subprocess.Popen([program, *words], cwd=folder, stdin=subprocess.DEVNULL, stdout=out, stderr=subprocess.DEVNULL, preexec_fn=begin)
        status, used = patience.wait(child, LARGEST)
        out.seek(0)
        return status, out.read(), used.ru_maxrss * 1024


def write_app(folder):
    with open(os.path.join(folder, "app"), "w") as out:
        out.write(APP)


def plain_words(*more):
    return ["run", "--app", "app", "--blocks", "draft", *more]


def check_many_blocks(program, folder, count):
    """One insert in each block: each commits, in a block of its own."""
    with open(os.path.join(folder, "draft"), "w") as out:
        out.write("draft 1\n")
        for number in range(1, count + 1):
            out.write(f'block {number}\ntx t{number} {number - 1} add {number} "ann" 1\nend\n')
    status, told, _ = run(program, folder, plain_words("--executors", "0"))
    need(status == 0, f"status {status}")
    lines = told.split(b"\n")
    need(lines.count(b"table acct") == 1, "another number of nodes")
    need(sum(line.endswith(b" committed") for line in lines) == count, "not all committed")
    need(told.endswith(b"\nheight %d\ndone\n" % count), "another height")


def check_long_file(program, folder, size):
    """Calls of an unknown procedure with long texts, and behind the last block a line that is none."""
    count = size // (len(TEXTS) + 25)
    with open(os.path.join(folder, "draft"), "wb") as out:
        out.write(b"draft 1\n")
        for number in range(1, count // 1000 + 1):
            out.write(b"block %d\n" % number)
            for place in range(1000):
                out.write(b"tx t%d 0 nobody%s\n" % (1000 * (number - 1) + place, TEXTS))
            out.write(b"end\n")
        out.write(b"behind\n")
    length, blocks = os.path.getsize(os.path.join(folder, "draft")), count // 1000
    fault = b"stopped %d BadLine\n" % (1002 * blocks + 2)
    for words in plain_words("--executors", "0"), ["seal", "--blocks", "draft"]:
        status, told, most = run(program, folder, words)
        need(status == 5, f"{words[0]}: status {status}")
        need(told.endswith(fault), f"{words[0]}: {told[-80:]!r}")
        need(most <= BYTES_OF_A_BYTE * length + BYTES_BESIDE, f"{words[0]}: {most} bytes for a file of {length}")


def check_little_space(program, folder):
    """Eight nodes with sixteen executors each, in less and less address space."""
    with open(os.path.join(folder, "draft"), "w") as out:
        out.write("draft 1\nblock 1\n")
        out.writelines(f'tx a{number} 0 add {number} "ann" 100\n' for number in range(500))
        out.write("end\n")
        for number in range(2, 12):
            out.write(f"block {number}\n")
            out.writelines(f"tx p{number}-{place} {number - 1} pay {place * 2} {place * 2 + 1} 1\n" for place in range(250))
            out.write("end\n")
    status, plain, _ = run(program, folder, plain_words("--nodes", "8", "--executors", "0"))
    need(status == 0, f"status {status}")
    ended = set()
    for space in SPACES:
        status, told, _ = run(program, folder, plain_words("--nodes", "8", "--executors", "16"), space * MIB)
        need(status in (0, 8), f"status {status} in {space} MiB")
        need(plain.startswith(told) if status == 8 else told == plain, f"another report in {space} MiB")
        ended.add(status)
    need(0 in ended, "no run had memory enough")


def long_line(length):
    """A transaction's line of a length, with texts of at most 255 bytes."""
    line = b"tx a1 0 add" + TEXTS
    line += b' "%s"' % (b"a" * (length - len(line) - 3))
    need(len(line) == length, f"a line of {len(line)} bytes")
    return line + b"\n"


def check_long_lines(program, folder):
    """A line of 4,096 bytes stands where transactions do, in a chain too, and nowhere else; one of 4,097 nowhere."""
    simulate = ["simulate", "--app", "app", "--blocks", "draft", "--schedule", "steps"]

    def write(name, text):
        with open(os.path.join(folder, name), "wb") as out:
            out.write(text)

    def ends(words, status, told):
        found = run(program, folder, words)
        need(found[0] == status and found[1].endswith(told), f"{words}: {found[0]} {found[1][-80:]!r}")
        return found[1]

    for length, is_kept in (4096, True), (4097, False):
        line = long_line(length)
        write("draft", b"draft 1\nblock 1\n" + line + b"end\n")
        ends(plain_words(), *((0, b"\ndone\n") if is_kept else (5, b"stopped 3 LineTooLong\n")))
        chain = ends(["seal", "--blocks", "draft"], *((0, b"\n") if is_kept else (5, b"stopped 3 LineTooLong\n")))
        if is_kept:
            write("draft", chain)
            need(ends(["seal", "--blocks", "draft"], 0, b"\n") == chain, "a chain that seals to another")
            write("draft", b"draft 1\nblock 1\n" + line + b"end\n")
        else:
            write("draft", b"draft 1\n")
        write("arrivals1", b"arrivals 1\n" + line)
        ends(plain_words("--arrivals", "arrivals"), *((0, b"\ndone\n") if is_kept else (6, b"refused arrivals 1 2\n")))
        for steps, bad in (b"a" * length + b"\n", 1), (b"schedule 1\n" + b"a" * length + b"\n", 2):
            write("steps", steps)
            ends(simulate, 10, b"refused schedule line %d\n" % bad)


def main():
    program, whole = os.path.abspath(sys.argv[1]), "--all" in sys.argv[2:]
    checks = [
        ("many blocks", lambda folder: check_many_blocks(program, folder, 1_000_000 if whole else 20_000)),
        ("a long file", lambda folder: check_long_file(program, folder, 2 * 1024 * MIB if whole else 64 * MIB)),
        ("long lines", lambda folder: check_long_lines(program, folder)),
        ("little space", lambda folder: check_little_space(program, folder)),
    ]
    failed = 0
    for name, check in checks:
        with tempfile.TemporaryDirectory() as folder:
            write_app(folder)
            try:
                check(folder)
            except (Wrong, patience.Hangs) as wrong:
                failed += 1
                print(f"{name}: {wrong}")
    print(f"load: {len(checks) - failed} passed, {failed} failed")
    sys.exit(1 if failed else 0)


if __name__ == "__main__":
    main()
