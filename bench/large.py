#!/usr/bin/env python3
"""Makes chains of many megabytes, runs them, and shows what grows with their size.

A chain has 100,000 accounts and then payments between two of them that are drawn, in blocks of 1,000, each at the height of the block before its own. A
line has 100 bytes, since each payment has a note, which is kept in the chain alone. With --sweeps SHARE that share of the calls sums up the ten
accounts of an owner instead, which is a loop: only then a node has executors with the words that a user gives first. Each size is
run with `--executors 0` and with these words, and its report goes nowhere. The table shows seconds by the clock and of processors, the most memory
that was held, bytes of it a call, and all beside the size before. A chain of 1,000 MB takes some gigabytes of memory and as much of the disk as it is large.
Usage: bench/large.py PROGRAM [--megabytes SIZES] [--sweeps SHARE] [--only plain|default] [--folder FOLDER]
"""
import argparse
import hashlib
import os
import random
import subprocess
import tempfile
import time
from dataclasses import dataclass

APP = """table account (nr int, owner text, balance int) key (nr) index (owner);
proc open(nr int, owner text) { insert account (nr, owner, 1000000); }
proc pay(payer int, payee int, amount int, note text) {
  get a from account key (payer) {
    get b from account key (payee) {
      if a.balance < amount { fail "not covered"; }
      update account key (payer) set balance = a.balance - amount;
      update account key (payee) set balance = b.balance + amount;
    } else { fail "no payee"; }
  } else { fail "no payer"; }
}
proc sweep(owner text, note text) {
  let sum = 0;
  for a in account span on owner from owner to owner { sum = sum + a.balance; }
}
"""
ACCOUNTS, OF_AN_OWNER, PER_BLOCK, LINE = 100_000, 10, 1000, 100
WORDS = {"plain": ["--executors", "0"], "default": []}


@dataclass
class Took:
    """What a run took: seconds by the clock and of processors, and the most bytes of memory."""
    clock: float
    processor: float
    memory: int


def opening_lines(number):
    first = (number - 1) * PER_BLOCK
    return [f'tx o{key} {number - 1} open {key} "owner {key // OF_AN_OWNER}"' for key in range(first, first + PER_BLOCK)]


def call_line(draw, number, at, sweeps):
    begin = f"tx c{number}-{at} {number - 1} "
    if sweeps and draw.random() < sweeps:
        begin += f'sweep "owner {int(draw.random() * ACCOUNTS / OF_AN_OWNER)}" "'
    else:
        payer = int(draw.random() * ACCOUNTS)
        payee = (payer + 1 + int(draw.random() * (ACCOUNTS - 1))) % ACCOUNTS
        begin += f'pay {payer} {payee} 1 "'
    return begin + "n" * (LINE - 2 - len(begin)) + '"'


def block_lines(draw, number, sweeps):
    if number <= ACCOUNTS // PER_BLOCK:
        return opening_lines(number)
    return [call_line(draw, number, at, sweeps) for at in range(PER_BLOCK)]


def write_chain(path, megabytes, sweeps):
    """How many calls a chain has that is written until it is so large."""
    draw = random.Random(3)
    named, number, written = "0" * 64, 0, 0
    with open(path, "wb") as out:
        written += out.write(b"chain 1\n")
        while written < megabytes * 1_000_000:
            number += 1
            lines = [f"block {number} {named}", *block_lines(draw, number, sweeps), "end"]
            block = "".join(line + "\n" for line in lines).encode()
            named = hashlib.sha256(block).hexdigest()
            written += out.write(block)
    return number * PER_BLOCK


def run(program, folder, words):
    begin = time.monotonic()
    child = subprocess.Popen([program, "run", "--app", "app", "--blocks", "chain", *words], cwd=folder, stdout=subprocess.DEVNULL)
    _, status, used = os.wait4(child.pid, 0)
    if status != 0:
        raise SystemExit(f"status {os.waitstatus_to_exitcode(status)}")
    return Took(time.monotonic() - begin, used.ru_utime + used.ru_stime, used.ru_maxrss * 1024)


def row(megabytes, calls, who, took, before):
    grown = ""
    if before:
        grown = f"{took.processor / before.processor:.2f}, {took.memory / before.memory:.2f}"
    sizes = f"{took.memory / 2**20:,.0f} | {took.memory / calls:,.0f}"
    return f"| {megabytes:,} | {calls:,} | {who} | {took.clock:,.1f} | {took.processor:,.1f} | {calls / took.processor:,.0f} | {sizes} | {grown} |"


def main():
    parser = argparse.ArgumentParser()
    parser.add_argument("program", type=os.path.abspath)
    parser.add_argument("--megabytes", default="500,1000")
    parser.add_argument("--sweeps", type=float, default=0.0)
    parser.add_argument("--only", choices=sorted(WORDS))
    parser.add_argument("--folder", default=tempfile.gettempdir())
    given = parser.parse_args()
    print("| MB | calls | words | seconds | of processors | calls a second of these | MiB at most | bytes a call | processor time and memory beside the size before |")
    print("|---|---|---|---|---|---|---|---|---|")
    before = {}
    for megabytes in map(int, given.megabytes.split(",")):
        with tempfile.TemporaryDirectory(dir=given.folder) as folder:
            with open(os.path.join(folder, "app"), "w", encoding="utf-8") as file:
                file.write(APP)
            calls = write_chain(os.path.join(folder, "chain"), megabytes, given.sweeps)
            for who in [given.only] if given.only else WORDS:
                took = run(given.program, folder, WORDS[who])
                print(row(megabytes, calls, who, took, before.get(who)), flush=True)
                before[who] = took


if __name__ == "__main__":
    main()
