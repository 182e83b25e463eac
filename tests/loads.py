"""The load of a number, drawn by another program, and the summary of a report of it.

The rules stand in docs/CODES.md. `draft(number)` is the load as a block file, and `summary(number, report)` says of the report of a run with
`--digests` what `load` has to print. So the numbers of a summary come from the lines of a report and not from what counts them.
"""

KINDS = (
    "committed",
    "duplicate-id",
    "future-height",
    "unknown-procedure",
    "bad-arguments",
    "stale",
    "phantom",
    "fault",
    "write-conflict",
    "danger",
)
NUMBERS = (0, 1, 7, 2**64 - 1)
FIRST_DRAWS = {0: 335903614, 1: 1817669548}


class Draws:
    def __init__(self, number):
        self.state = number

    def next(self):
        self.state = (6364136223846793005 * self.state + 1442695040888963407) % 2**64
        return self.state >> 32

    def below(self, count):
        return self.next() % count


def owner(number):
    return f'"o{number}"'


def call(draws):
    """A procedure and its arguments, drawn from left to right."""
    kind = draws.below(10)
    if kind <= 5:
        return "pay", [draws.below(64) + 1, draws.below(64) + 1, draws.below(40)]
    if kind == 6:
        return "both", [draws.below(64) + 1, draws.below(64) + 1, draws.below(150)]
    if kind == 7:
        return "sweep", [owner(draws.below(8)), draws.below(64) + 1]
    if kind == 8:
        return "add", [draws.below(128) + 1, owner(draws.below(8)), 100]
    return "remove", [draws.below(64) + 1]


def tx_line(number, height, procedure, arguments):
    return " ".join(map(str, ["tx", f"l{number}", height, procedure, *arguments]))


def block_lines(number, txs):
    return [f"block {number}", *txs, "end"]


def draft(number):
    draws = Draws(number)
    opening = [tx_line(k, 0, "add", [k, owner(k % 8), 100]) for k in range(1, 65)]
    lines = ["draft 1", *block_lines(1, opening)]
    for block in range(2, 42):
        txs = []
        for k in range(50):
            procedure, arguments = call(draws)
            height = max(1, block - 1 - draws.below(3))
            txs.append(tx_line(65 + 50 * (block - 2) + k, height, procedure, arguments))
        lines += block_lines(block, txs)
    return "".join(line + "\n" for line in lines).encode()


def kind_of(line):
    words = line.split(" ")
    return words[4] if words[3] == "aborted" else words[3]


def summary(number, report):
    lines = report.decode().split("\n")
    kinds = [kind_of(line) for line in lines if line.startswith("tx ")]
    digests = [line for line in lines if line.startswith("digest ")]
    counts = [f"{kind} {kinds.count(kind)}" for kind in KINDS]
    told = [f"load {number}", f"blocks {len(digests)}", *counts, digests[-1], "done"]
    return "".join(line + "\n" for line in told).encode()


assert all(Draws(number).next() == first for number, first in FIRST_DRAWS.items())
