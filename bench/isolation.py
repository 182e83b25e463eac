#!/usr/bin/env python3
"""How many calls commit, and how many a second, with exact isolation and without, where calls of a block contend.

Payments read and write two accounts that are drawn from so many; withdrawals read two accounts and write the first where both together
have enough; chains are three calls of which each reads the account that the one before it writes. Each call names the height of the block
before its own, so that none is late. A call that is refused is not sent again. The time is that of the processor, with one thread, the
least of some rounds in which the two modes take turns; the accounts are opened in blocks of their own, whose time is in it. With --count
there are the instructions a call by callgrind, of which the accounts' own are taken off. Writes the plot that README.md shows where a file
is named. Usage: bench/isolation.py PROGRAM [--calls COUNT] [--rounds COUNT] [--count] [--plot FILE]
"""
import argparse
import os
import random
import re
import resource
import subprocess
import tempfile

APP = """table account (id int, balance int) key (id);
proc open(i int) { insert account (i, 1000000); }
proc pay(f int, t int) {
  get a from account key (f) {
    get b from account key (t) {
      update account key (f) set balance = a.balance - 1;
      update account key (t) set balance = b.balance + 1;
    } else { }
  } else { }
}
proc withdraw(a int, b int) {
  get v from account key (a) {
    get w from account key (b) {
      if v.balance + w.balance >= 1 { update account key (a) set balance = v.balance - 1; }
    } else { }
  } else { }
}
"""
OPENED = 1000


def pairs(draw, accounts):
    return " ".join(str(account) for account in draw.sample(range(accounts), 2))


def payments(draw, size, accounts):
    return [f"pay {pairs(draw, accounts)}" for _ in range(size)]


def withdrawals(draw, size, accounts):
    return [f"withdraw {pairs(draw, accounts)}" for _ in range(size)]


def chains(draw, size, accounts):
    """Of each three calls the first reads what nobody writes, the second what the first writes, and the third what the second does."""
    calls = []
    for first in range(0, size - 2, 3):
        four = [(4 * (first // 3) + step) % accounts for step in range(4)]
        calls += [f"withdraw {four[2]} {four[3]}", f"withdraw {four[1]} {four[2]}", f"withdraw {four[0]} {four[1]}"]
    return calls


def draft_of(kind, calls, size, accounts):
    draw = random.Random(7)
    blocks = [[f"open {account}" for account in range(first, min(first + OPENED, accounts))] for first in range(0, accounts, OPENED)]
    opening = len(blocks)
    blocks += [kind(draw, size, accounts) for _ in range(calls // size)]
    lines = ["draft 1"]
    for number, block in enumerate(blocks, 1):
        lines.append(f"block {number}")
        lines += [f"tx c{number}-{at} {0 if number <= opening else number - 1} {call}" for at, call in enumerate(block)]
        lines.append("end")
    return "".join(line + "\n" for line in lines), sum(len(block) for block in blocks[:opening])


def used():
    spent = resource.getrusage(resource.RUSAGE_CHILDREN)
    return spent.ru_utime + spent.ru_stime


def words_of(program, app, blocks):
    return [program, "run", "--app", app, "--blocks", blocks, "--executors", "0"]


def committed_of(program, folder, app):
    done = subprocess.run(words_of(program, app, "b.draft"), cwd=folder, stdin=subprocess.DEVNULL, capture_output=True, check=True)
    return done.stdout.count(b" committed\n")


def timed(program, folder, app):
    """The processor time of a run."""
    before = used()
    committed_of(program, folder, app)
    return used() - before


def counted(program, folder, app):
    """The instructions of a run, without those of the accounts."""
    return instructions(program, folder, app, "b.draft") - instructions(program, folder, app, "opening.draft")


def instructions(program, folder, app, blocks):
    words = ["valgrind", "--tool=callgrind", "--callgrind-out-file=/dev/null", *words_of(program, app, blocks)]
    done = subprocess.run(words, cwd=folder, stdin=subprocess.DEVNULL, capture_output=True, check=True)
    return int(re.search(rb"Collected : (\d+)", done.stderr).group(1))


def measured(given, kind, size, accounts):
    """How many calls there are, and for each mode how many commit and what a call takes."""
    with tempfile.TemporaryDirectory() as folder:
        draft, opened = draft_of(kind, given.calls, size, accounts)
        first = (accounts + OPENED - 1) // OPENED + 1
        opening = draft[:draft.index(f"block {first}\n")]
        for name, text in [("plain.app", APP), ("exact.app", "isolation exact;\n" + APP), ("b.draft", draft), ("opening.draft", opening)]:
            with open(os.path.join(folder, name), "w", encoding="utf-8") as out:
                out.write(text)
        calls = draft.count("\ntx ") - opened
        modes = []
        taken = {app: [] for app in ("plain.app", "exact.app")}
        for _ in range(1 if given.count else given.rounds):
            for app, found in taken.items():
                found.append((counted if given.count else timed)(given.program, folder, app))
        for app, found in taken.items():
            modes.append((committed_of(given.program, folder, app) - opened, min(found) / calls))
        return calls, modes


def rows():
    yield "payments, little contention", payments, 100, 10000
    for size in (100, 1000):
        for share in (1, 2, 10):
            yield f"payments, {size // share} accounts", payments, size, size // share
            yield f"withdrawals, {size // share} accounts", withdrawals, size, size // share
        yield "chains of three", chains, size, 4000


def plot(path, found):
    """For each row a bar of the share of calls that commit without exact isolation, and one with it."""
    left, scale = 250, 300
    lines = [f'<svg xmlns="http://www.w3.org/2000/svg" width="{left + scale + 70}" height="{len(found) * 40 + 40}" font-family="sans-serif" font-size="13">']
    for row, (name, size, calls, modes) in enumerate(found):
        at = row * 40 + 10
        lines.append(f'<text x="{left - 8}" y="{at + 19}" text-anchor="end">{name}, blocks of {size}</text>')
        for (count, _), shift, colour in zip(modes, (0, 14), ("#9fb3c4", "#2f6690")):
            wide = scale * count / calls
            lines.append(f'<rect x="{left}" y="{at + shift}" width="{wide:.0f}" height="12" fill="{colour}"/>')
            lines.append(f'<text x="{left + wide + 5:.0f}" y="{at + shift + 11}" font-size="11">{count / calls:.2f}</text>')
    bottom = len(found) * 40 + 26
    lines.append(f'<text x="{left}" y="{bottom}">share of calls that commit: above without, below with exact isolation</text></svg>')
    with open(path, "w", encoding="utf-8") as out:
        out.write("\n".join(lines) + "\n")


def main():
    parser = argparse.ArgumentParser()
    parser.add_argument("program", type=os.path.abspath)
    parser.add_argument("--calls", type=int, default=30000)
    parser.add_argument("--rounds", type=int, default=3)
    parser.add_argument("--count", action="store_true")
    parser.add_argument("--plot")
    given = parser.parse_args()
    found = []
    unit, scale = ("instructions a call", 1) if given.count else ("microseconds a call", 1e6)
    print(f"| calls | block | commit | commit, exact | {unit} | exact | ratio of calls |\n|---|---|---|---|---|---|---|")
    for name, kind, size, accounts in rows():
        calls, modes = measured(given, kind, size, accounts)
        (plain, one), (exact, other) = modes
        found.append((name, size, calls, modes))
        shares = f"{plain / calls:.3f} | {exact / calls:.3f}"
        print(f"| {name} | {size} | {shares} | {one * scale:,.0f} | {other * scale:,.0f} | {one / other:.2f} |", flush=True)
    if given.plot:
        plot(given.plot, found)


if __name__ == "__main__":
    main()
