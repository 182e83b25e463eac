#!/usr/bin/env python3
"""Draws client files, orders them on the built program, and checks what it writes.

A draft has to be a merge of what the clients have: the transactions of each client, each of them once and in its order, in blocks with the numbers from 1,
of which each but the last is full and the last is not empty. In some runs not all threads can be started, as in check_refused_starts.py. One run in eight
has a client file with a fault, which is refused by its client and its line. One in eight goes on from the draft: three nodes at which the client files
arrive report it as one node does without them. Then each growth of memory of an order is refused in turn, as in check_refusals.py, after which the run ends
with a merge, or with a status for it and nothing written. At the end 1,000,001 transactions are refused for blocks of one and written in blocks of two.
Usage: check_orders.py PROGRAM [COUNT] [SEED]
"""
import os
import random
import shutil
import sys
import tempfile

import patience
from check_journals import Illegal, expected, need
from check_refusals import APP, Refuser, Run, numbers_of
from check_refused_starts import IS_ROOT, limited

CALLS = ["p", 'add {n} "ann" 50', "pay 1 2 {n}", 'note "a\\"b" x"00ff" true -{n}']
BANKING = ['add {n} "ann" 50', "pay 1 {n} 5", 'sweep "ann"', "nope"]
FAULTS = ["tx {id} 01 p", "tx {id} 0  p", "tx {id} 0 p ", "tx {id}", "", "block 1", 'tx {id} 0 p "' + "a" * 4090 + '"']
SIZES = [0, 0, 1, 2, 3, 20, 100, 400]
MOSTS = [1, 2, 3, 7, 64, 1000, 1024]
MOST_BLOCKS = 1000000


def drawn_client(draw, client, calls, size):
    """The transaction lines of a client. Its number is in each id, so that each line shows whose it is."""
    return [f"tx c{client}-{index} {draw.randrange(9)} " + draw.choice(calls).format(n=index + 1) for index in range(size)]


def drawn_clients(draw, calls=CALLS, count=None):
    return [drawn_client(draw, number, calls, draw.choice(SIZES)) for number in range(1, (count or draw.randint(1, 8)) + 1)]


def write_clients(folder, clients):
    for number, lines in enumerate(clients, 1):
        path = os.path.join(folder, f"clients{number}")
        with open(path, "w", encoding="utf-8") as file:
            file.write("".join(line + "\n" for line in ["arrivals 1", *lines]))
        os.chmod(path, 0o644)


def words_of(clients, most):
    return ["order", "--clients", "clients", "--count", str(len(clients)), "--most", str(most)]


def output(program, folder, words, begin=None):
    status, stdout = patience.run([program, *words], cwd=folder, preexec_fn=begin)
    return status, stdout.decode()


def blocks_of(draft):
    """The transaction lines of each block of a draft, whose other lines have to be as they must."""
    lines = draft.split("\n")
    need(lines[0] == "draft 1" and lines[-1] == "", "no header, or no last newline")
    blocks, begun = [], None
    for line in lines[1:-1]:
        if begun is None:
            need(line == f"block {len(blocks) + 1}", f"{line[:40]} in place of block {len(blocks) + 1}")
            begun = []
        elif line == "end":
            blocks.append(begun)
            begun = None
        else:
            begun.append(line)
    need(begun is None, "a block without an end")
    return blocks


def check_draft(draft, clients, most):
    blocks = blocks_of(draft)
    need(all(len(block) == most for block in blocks[:-1]), "a block before the last is not full")
    need(all(1 <= len(block) <= most for block in blocks[-1:]), "the last block is empty or too large")
    merged = {f"tx c{number}": [] for number in range(1, len(clients) + 1)}
    for line in (line for block in blocks for line in block):
        merged.get(line.partition("-")[0], []).append(line)
    for number, lines in enumerate(clients, 1):
        need(merged[f"tx c{number}"] == lines, f"client {number} is not as it was")
    need(sum(len(block) for block in blocks) == sum(len(lines) for lines in clients), "a transaction of nobody")


def order(program, folder, clients, most, begin=None):
    """The draft of drawn clients, once it was checked."""
    write_clients(folder, clients)
    status, draft = output(program, folder, words_of(clients, most), begin)
    need(status == 0, f"status {status}: {draft[:80]}")
    check_draft(draft, clients, most)
    return draft


def check_merge(program, folder, draw):
    clients = drawn_clients(draw)
    threads = draw.choice([None, None, draw.randint(1, len(clients)) if IS_ROOT else 1])
    order(program, folder, clients, draw.choice(MOSTS), threads and limited(threads))


def check_fault(program, folder, draw):
    clients = drawn_clients(draw)
    bad = draw.randint(1, len(clients))
    at = draw.randint(0, len(clients[bad - 1]))
    clients[bad - 1].insert(at, draw.choice(FAULTS).format(id=f"c{bad}-{at}"))
    for lines in clients[bad:]:
        lines.extend(["also bad"] * draw.randint(0, 1))
    write_clients(folder, clients)
    wanted = 6, f"refused arrivals {bad} {at + 2}\n"
    found = output(program, folder, words_of(clients, 10))
    need(found == wanted, f"{found[0]} {found[1][:80]!r} in place of {wanted}")


def check_flow(program, folder, draw):
    """Three clients, their order, and a run of three nodes at which the calls of the clients arrive."""
    draft = order(program, folder, drawn_clients(draw, BANKING, 3), draw.choice(MOSTS))
    for name, text in (("bank.app", APP), ("bank.draft", draft)):
        with open(os.path.join(folder, name), "w", encoding="utf-8") as file:
            file.write(text)
    words = ["run", "--app", "bank.app", "--blocks", "bank.draft", "--digests", "--orders"]
    plain = output(program, folder, [*words, "--executors", "0"])
    nodes = output(program, folder, [*words, "--nodes", "3", "--arrivals", "clients"])
    need(plain[0] == 0 and nodes == (0, expected(plain[1], 3)), "the nodes do not agree")


def check_refused_growth(refuser, run, clients, most, number):
    status, stdout, _ = refuser.run(run, "growth", number)
    if status == 0:
        check_draft(stdout.decode(), clients, most)
    else:
        need((status, stdout) in ((8, b""), (3, b"refused read\n"), (7, b"")), f"growth {number} refused: status {status}, {stdout[:80]!r}")


def check_growths(program, folder, draw):
    clients, most = [drawn_client(draw, number, CALLS, 100) for number in range(1, 5)], 7
    write_clients(folder, clients)
    refuser, run = Refuser(folder, program), Run("order", folder, words_of(clients, most))
    status, stdout, count = refuser.run(run, "growth", 0)
    need(status == 0 and count > 0, f"status {status} where nothing is refused")
    check_draft(stdout.decode(), clients, most)
    for number in numbers_of(count, False):
        check_refused_growth(refuser, run, clients, most, number)


def check_many(program, folder, _draw):
    clients = [[f"tx c1-{index} 0 p" for index in range(MOST_BLOCKS)], ["tx c2-0 0 p"]]
    write_clients(folder, clients)
    wanted = 11, f"refused order {MOST_BLOCKS + 1}\n"
    found = output(program, folder, words_of(clients, 1))
    need(found == wanted, f"{found[0]} {found[1][:80]!r} in place of {wanted}")
    order(program, folder, clients, 2)


def checks_of(count):
    drawn = [check_fault if number % 8 == 7 else check_flow if number % 8 == 3 else check_merge for number in range(count)]
    return enumerate([*drawn, check_growths, check_many])


def main():
    count = int(sys.argv[2]) if len(sys.argv) > 2 else 400
    seed = int(sys.argv[3]) if len(sys.argv) > 3 else 1
    passed = failed = 0
    with tempfile.TemporaryDirectory() as folder:
        os.chmod(folder, 0o755)
        program = os.path.join(folder, "bcdb")
        shutil.copyfile(sys.argv[1], program)
        os.chmod(program, 0o755)
        for number, check in checks_of(count):
            try:
                check(program, folder, random.Random(f"{seed} {number}"))
                passed += 1
            except (Illegal, patience.Hangs) as why:
                failed += 1
                print(f"order {number} of seed {seed}: {why}")
    print(f"{passed} passed, {failed} failed")
    sys.exit(1 if failed or not passed else 0)


if __name__ == "__main__":
    main()
