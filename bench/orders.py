#!/usr/bin/env python3
"""Times `order`: payments of eight clients, and as many of one, beside `seal` of a draft of the same calls and `cat` of the client files.

Each row has the calls a second by the clock, the middle one of the rounds, their least and greatest, and the processor time of the middle round. The programs
take turns. Output goes to /dev/null; the files were read once before, so that they stand in memory.
Usage: bench/orders.py PROGRAM [--calls COUNT] [--most MOST] [--rounds COUNT]
"""
import argparse
import os
import random
import subprocess
import tempfile
import time

CLIENTS = 8
ACCOUNTS = 10000


def calls_of(count):
    draw = random.Random(5)
    for number in range(count):
        payer, payee = draw.sample(range(ACCOUNTS), 2)
        yield f"tx c{number} 10 pay {payer} {payee} 1\n"


def write(path, lines):
    with open(path, "w", encoding="utf-8") as out:
        out.writelines(lines)


def write_files(folder, count, most):
    """The files of eight clients and of one, and the draft of the same calls."""
    calls = list(calls_of(count))
    for client in range(CLIENTS):
        write(os.path.join(folder, f"eight{client + 1}"), ["arrivals 1\n", *calls[client::CLIENTS]])
    write(os.path.join(folder, "one1"), ["arrivals 1\n", *calls])
    blocks = [calls[first : first + most] for first in range(0, count, most)]
    write(os.path.join(folder, "draft"), ["draft 1\n", *(line for number, block in enumerate(blocks, 1) for line in [f"block {number}\n", *block, "end\n"])])


def timed(words, folder):
    """The seconds of a run by the clock, and of its processors."""
    before = time.perf_counter()
    child = subprocess.Popen(words, cwd=folder, stdout=subprocess.DEVNULL)
    _, status, used = os.wait4(child.pid, 0)
    if status != 0:
        raise SystemExit(f"{words} ended with {status}")
    return time.perf_counter() - before, used.ru_utime + used.ru_stime


def rows_of(program, most):
    order = [program, "order", "--most", str(most)]
    return {
        "order, eight clients": [*order, "--count", str(CLIENTS), "--clients", "eight"],
        "order, one client": [*order, "--count", "1", "--clients", "one"],
        "seal of a draft": [program, "seal", "--blocks", "draft"],
        "cat of the client files": ["cat", *(f"eight{client + 1}" for client in range(CLIENTS))],
    }


def main():
    parser = argparse.ArgumentParser()
    parser.add_argument("program", type=os.path.abspath)
    parser.add_argument("--calls", type=int, default=1000000)
    parser.add_argument("--most", type=int, default=100)
    parser.add_argument("--rounds", type=int, default=7)
    given = parser.parse_args()
    with tempfile.TemporaryDirectory() as folder:
        write_files(folder, given.calls, given.most)
        rows = rows_of(given.program, given.most)
        taken = {name: [] for name in rows}
        for _ in range(given.rounds):
            for name, words in rows.items():
                taken[name].append(timed(words, folder))
    print("| | calls a second | least to greatest | processor seconds |\n|---|---|---|---|")
    for name, times in taken.items():
        times.sort()
        clock, processor = times[len(times) // 2]
        print(f"| {name} | {given.calls / clock:,.0f} | {given.calls / times[-1][0]:,.0f} to {given.calls / times[0][0]:,.0f} | {processor:.2f} |")


if __name__ == "__main__":
    main()
