#!/usr/bin/env python3
"""Times `checkpoint`, `checkpoint --heads`, `verify` and `compare`.

The first table has calls a second of payments: `run --digests` on the node of one thread, `checkpoint` and `checkpoint --heads`. The second has `verify` of a
proof from a block of 1,024 calls with 16 writes each, beside the start of the program (a `seal` of no blocks). The third has `compare` of eight files of
digests that agree, beside `sha256sum` of the same files and `cmp` of the first with each other one. Rows of a table take turns; a row has the middle one of the
rounds by the clock, the least and the greatest, and the processor time of the middle round. Output goes to a file that is thrown away.
Usage: bench/checkpoints.py PROGRAM [--calls COUNT] [--digests COUNT] [--rounds COUNT]
"""
import argparse
import hashlib
import os
import subprocess
import tempfile

from orders import calls_of, timed, write

APP = """table acct (id int, owner text, bal int) key (id);
proc add(i int, o text, b int) { insert acct (i, o, b); }
proc pay(f int, t int, n int) {
  get a from acct key (f) {
    get b from acct key (t) {
      update acct key (f) set bal = a.bal - n;
      update acct key (t) set bal = b.bal + n;
    } else { }
  } else { }
}
proc many(i int) {
  insert acct (i, "o", 0); insert acct (i + 1, "o", 0); insert acct (i + 2, "o", 0); insert acct (i + 3, "o", 0);
  insert acct (i + 4, "o", 0); insert acct (i + 5, "o", 0); insert acct (i + 6, "o", 0); insert acct (i + 7, "o", 0);
  insert acct (i + 8, "o", 0); insert acct (i + 9, "o", 0); insert acct (i + 10, "o", 0); insert acct (i + 11, "o", 0);
  insert acct (i + 12, "o", 0); insert acct (i + 13, "o", 0); insert acct (i + 14, "o", 0); insert acct (i + 15, "o", 0);
}
"""
ACCOUNTS, MOST, PEERS = 10000, 100, 8


def block(number, lines):
    return [f"block {number}\n", *lines, "end\n"]


def write_payments(folder, count):
    """Ten blocks that open accounts, and payments in blocks of a hundred."""
    lines = ["draft 1\n"]
    for number in range(1, 11):
        opened = range((number - 1) * ACCOUNTS // 10, number * ACCOUNTS // 10)
        lines += block(number, [f'tx a{account} 0 add {account} "ann" 1000000\n' for account in opened])
    calls = list(calls_of(count))
    for first in range(0, count, MOST):
        number = 11 + first // MOST
        lines += block(number, [call.replace(" 10 pay", f" {number - 1} pay") for call in calls[first : first + MOST]])
    write(os.path.join(folder, "payments"), lines)


def write_files(folder, program, calls, digests):
    write(os.path.join(folder, "app"), [APP])
    write_payments(folder, calls)
    write(os.path.join(folder, "empty"), ["draft 1\n"])
    write(os.path.join(folder, "wide"), ["draft 1\n", *block(1, [f"tx m{index} 0 many {index * 16}\n" for index in range(1024)])])
    for peer in range(1, PEERS + 1):
        write(os.path.join(folder, f"d{peer}"), ["digests 1\n", *(f"{height} {hashlib.sha256(b'%d' % height).hexdigest()}\n" for height in range(1, digests + 1))])
    over_wide = ["--app", "app", "--blocks", "wide"]
    proof = subprocess.run([program, "prove", *over_wide, "--block", "1", "--write", "9999"], cwd=folder, capture_output=True, text=True, check=True).stdout
    write(os.path.join(folder, "proof"), [proof])
    heads = subprocess.run([program, "checkpoint", *over_wide, "--heads"], cwd=folder, capture_output=True, text=True, check=True).stdout
    return heads.split()[-1]


def tables_of(program, top):
    over = ["--app", "app", "--blocks", "payments"]
    peers = [f"d{peer}" for peer in range(1, PEERS + 1)]
    others = " && ".join(f"cmp d1 {peer}" for peer in peers[1:])
    return [
        {
            "run --digests": [program, "run", *over, "--executors", "0", "--digests"],
            "checkpoint": [program, "checkpoint", *over],
            "checkpoint --heads": [program, "checkpoint", *over, "--heads"],
        },
        {
            "verify": [program, "verify", "--proof", "proof", "--head", top],
            "start of a process": [program, "seal", "--blocks", "empty"],
        },
        {
            "compare": [program, "compare", "--files", "d", "--count", str(PEERS)],
            "sha256sum": ["sha256sum", *peers],
            "cmp": ["sh", "-c", others],
        },
    ]


def main():
    parser = argparse.ArgumentParser()
    parser.add_argument("program", type=os.path.abspath)
    parser.add_argument("--calls", type=int, default=1000000)
    parser.add_argument("--digests", type=int, default=1000000)
    parser.add_argument("--rounds", type=int, default=7)
    given = parser.parse_args()
    with tempfile.TemporaryDirectory() as folder:
        top = write_files(folder, given.program, given.calls, given.digests)
        for rows in tables_of(given.program, top):
            taken = {name: [] for name in rows}
            for _ in range(given.rounds):
                for name, words in rows.items():
                    taken[name].append(timed(words, folder))
            print("| | seconds | least to greatest | processor seconds |\n|---|---|---|---|")
            for name, times in taken.items():
                times.sort()
                clock, processor = times[len(times) // 2]
                print(f"| {name} | {clock:.4f} | {times[0][0]:.4f} to {times[-1][0]:.4f} | {processor:.4f} |")


if __name__ == "__main__":
    main()
