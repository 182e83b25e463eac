#!/usr/bin/env python3
"""Draws blocks and checks their digests, heads and proofs, and comparisons, against a tree and a majority of its own (by hashlib).

In each drawn run the digests of `checkpoint` are those of `run --digests`, the heads of `checkpoint --heads` are those of the writes that are worked out
here, `prove` writes the proof file of each write that is tried, and `verify` says yes to it by its head alone.
Of one proof file each byte is changed in turn: what comes is `no` or a refusal, and never `yes`. Digest files of drawn peers are compared. At the end stand
the limits: files of one byte too many, and steps and digests up to the last that may stand.
Usage: check_proofs.py PROGRAM [COUNT] [SEED]
"""
import hashlib
import os
import random
import re
import sys
import tempfile

import patience

APP = """table acct (id int, owner text, bal int) key (id);
proc add(i int, o text, b int) { insert acct (i, o, b); }
proc give(i int, b int) { update acct key (i) set bal = b; }
proc remove(i int) { delete acct key (i); }
"""
SIZES = [0, 1, 2, 3, 4, 5, 7, 8, 9, 16, 17, 33]
LONGEST_DIGESTS, LONGEST_PROOF = 73000010, 262144


class Wrong(Exception):
    pass


def need(is_right, what):
    if not is_right:
        raise Wrong(what)


def sha256(data):
    return hashlib.sha256(data).digest()


def left_of(count):
    """The greatest power of two below a number."""
    return 1 << ((count - 1).bit_length() - 1)


def tree(codes):
    if len(codes) < 2:
        return sha256(b"\0" + codes[0]) if codes else bytes(32)
    half = left_of(len(codes))
    return sha256(b"\1" + tree(codes[:half]) + tree(codes[half:]))


def head(codes):
    return sha256(b"\2" + len(codes).to_bytes(4, "big") + tree(codes))


def path(codes, index):
    if len(codes) == 1:
        return []
    half = left_of(len(codes))
    if index < half:
        return path(codes[:half], index) + [tree(codes[half:])]
    return path(codes[half:], index - half) + [tree(codes[:half])]


def proof_file(codes, index):
    steps = "".join(f"step {step.hex()}\n" for step in path(codes, index))
    return f"proof 1\ncount {len(codes)}\nindex {index + 1}\nwrite {codes[index].hex()}\n{steps}end\n"


def number_code(number):
    return b"\1" + (number % (1 << 64)).to_bytes(8, "big")


def row_code(row):
    number, owner, balance = row
    return b"\3" + number_code(number) + bytes([2, len(owner)]) + owner.encode() + number_code(balance)


def write_code(position, number, before, after):
    kind = bytes([1 if before is None else 3 if after is None else 2])
    rows = b"".join(row_code(row) for row in (before, after) if row)
    return position.to_bytes(4, "big") + bytes(4) + b"\1" + number_code(number) + kind + rows


def drawn_block(draw, number, rows):
    """The lines of a block of calls on accounts of their own, which all commit, and the codes of their writes."""
    lines, codes = [], []
    numbers = draw.sample(range(1, 60), draw.choice(SIZES))
    for position, account in enumerate(numbers, 1):
        before, balance = rows.get(account), draw.randrange(-(1 << 63), 1 << 63)
        call, after = f'add {account} "o{account}" {balance}', (account, f"o{account}", balance)
        if before and draw.random() < 0.5:
            call, after = f"give {account} {balance}", (account, before[1], balance)
        elif before:
            call, after = f"remove {account}", None
        lines.append(f"tx t{number}-{position} {number - 1} {call}")
        codes.append(write_code(position, account, before, after))
        rows[account] = after
    return lines, codes


def drawn_chain(draw):
    rows, text, blocks = {}, ["draft 1"], []
    for number in range(1, draw.randint(1, 6) + 1):
        lines, codes = drawn_block(draw, number, rows)
        text += [f"block {number}", *lines, "end"]
        blocks.append(codes)
    return "".join(line + "\n" for line in text), blocks


class Folder:
    def __init__(self, program, path):
        self.program, self.path = program, path

    def write(self, name, content):
        with open(os.path.join(self.path, name), "wb") as file:
            file.write(content if isinstance(content, bytes) else content.encode())

    def run(self, *words):
        status, stdout = patience.run([self.program, *words], cwd=self.path)
        return status, stdout.decode()

    def over_blocks(self, *words):
        return self.run(words[0], "--app", "a.app", "--blocks", "b.draft", *words[1:])

    def verify(self, content, top):
        self.write("proof", content)
        return self.run("verify", "--proof", "proof", "--head", top.hex())


def numbered(kind, hashes):
    return f"{kind} 1\n" + "".join(f"{height} {one}\n" for height, one in enumerate(hashes, 1))


def check_chain(folder, draw):
    draft, blocks = drawn_chain(draw)
    folder.write("b.draft", draft)
    digests = re.findall("^digest (.*)$", folder.over_blocks("run", "--digests")[1], re.M)
    need(folder.over_blocks("checkpoint") == (0, numbered("digests", digests)), "digests")
    heads = [head(codes).hex() for codes in blocks]
    need(folder.over_blocks("checkpoint", "--heads") == (0, numbered("heads", heads)), "heads")
    for number, codes in enumerate(blocks, 1):
        for index in draw.sample(range(len(codes)), min(3, len(codes))):
            check_proof(folder, number, codes, index)
        above = folder.over_blocks("prove", "--block", str(number), "--write", str(len(codes) + 1))
        need(above == (9, "refused query BadRange\n"), "a write above the last")


def check_proof(folder, number, codes, index):
    wanted = proof_file(codes, index)
    need(folder.over_blocks("prove", "--block", str(number), "--write", str(index + 1)) == (0, wanted), f"proof {number} {index}")
    need(folder.verify(wanted, head(codes)) == (0, "yes\n"), f"verified {number} {index}")
    need(folder.verify(wanted, head([*codes, codes[0]])) == (0, "no\n"), "another head")


def check_changes(folder, draw):
    codes = []
    while len(codes) < 3:
        _, codes = drawn_block(draw, 1, {})
    whole = proof_file(codes, 1)
    for at, byte in enumerate(whole):
        changed = whole[:at] + ("1" if byte != "1" else "2") + whole[at + 1 :]
        status, out = folder.verify(changed, head(codes))
        need((status, out) == (0, "no\n") or (status == 13 and out.startswith("refused proof ")), f"byte {at}")


def most_of(peers, height):
    """The digest that more than half of all peers have at a height."""
    held = [peer[height] for peer in peers if len(peer) > height]
    return next((one for one in held if 2 * held.count(one) > len(peers)), None)


def compared(peers):
    lines = []
    heights = range(max(map(len, peers)))
    for number, peer in enumerate(peers, 1):
        differs = [height + 1 for height in range(len(peer)) if most_of(peers, height) not in (None, peer[height])]
        lines.append(f"peer {number} length {len(peer)} differs {differs[0] if differs else 'never'}")
    apart = [height for height in heights if len({peer[height] for peer in peers if len(peer) > height}) > 1]
    lines.append(f"first {apart[0] + 1} majority {most_of(peers, apart[0]) or 'none'}" if apart else "first never")
    return "".join(line + "\n" for line in [*lines, "done"])


def check_peers(folder, draw):
    peers = [[draw.choice("ab" if draw.random() < 0.2 else "a") * 64 for _ in range(draw.randrange(6))] for _ in range(draw.randint(1, 8))]
    for number, peer in enumerate(peers, 1):
        folder.write(f"d{number}", numbered("digests", peer))
    need(folder.run("compare", "--files", "d", "--count", str(len(peers))) == (0, compared(peers)), f"peers {peers}")


def check_limits(folder):
    million = numbered("digests", ["a" * 64] * 1000000)
    folder.write("d1", million)
    need(folder.run("compare", "--files", "d", "--count", "1") == (0, "peer 1 length 1000000 differs never\nfirst never\ndone\n"), "1,000,000 digests")
    folder.write("d1", million + "1000001 " + "a" * 64 + "\n")
    need(folder.run("compare", "--files", "d", "--count", "1") == (12, "refused digests 1 1000002\n"), "1,000,001 digests")
    for size, line in ((LONGEST_DIGESTS, 1), (LONGEST_DIGESTS + 1, 0)):
        folder.write("d1", b"\n" * size)
        need(folder.run("compare", "--files", "d", "--count", "1") == (12, f"refused digests 1 {line}\n"), f"{size} bytes of digests")
    for size, line in ((LONGEST_PROOF, 1), (LONGEST_PROOF + 1, 0)):
        need(folder.verify(b"\n" * size, bytes(32)) == (13, f"refused proof {line}\n"), f"{size} bytes of a proof")


def main():
    program = os.path.abspath(sys.argv[1])
    count = int(sys.argv[2]) if len(sys.argv) > 2 else 60
    draw = random.Random(int(sys.argv[3]) if len(sys.argv) > 3 else 1)
    failed = 0
    with tempfile.TemporaryDirectory() as path:
        folder = Folder(program, path)
        folder.write("a.app", APP)
        checks = [check_chain] * count + [check_peers] * count + [check_changes, lambda folder, draw: check_limits(folder)]
        for number, check in enumerate(checks):
            try:
                check(folder, draw)
            except Wrong as wrong:
                failed += 1
                print(f"check {number}: {wrong}")
    print(f"{len(checks) - failed} passed, {failed} failed")
    return 1 if failed else 0


if __name__ == "__main__":
    sys.exit(main())
