"""What the workloads share: calls, the blocks and heights that they get, how keys are drawn, and the words of a generator.

A workload is an object with `app` (the name of its application file), `has_times`, `opening(draw)`, which gives the calls that fill the tables, and
`call(draw, block, height)`, which draws a call for a block, by a client that has seen the tables after the block of that height. A call is a tuple: the
name of a procedure and its arguments. All that is drawn comes from one seed.
"""
import argparse
import bisect
import itertools
import os
import random
from dataclasses import dataclass

HERE = os.path.dirname(os.path.abspath(__file__))
OPENED = 1000
SECONDS_A_BLOCK = 10
# the 64-bit FNV-1a hash, by which YCSB scatters its popular keys
FNV_BASIS, FNV_PRIME = 0xCBF29CE484222325, 0x100000001B3


@dataclass
class Shape:
    """How calls become blocks: how many there are, how many stand in a block, and how many blocks at most a height lies below the newest one."""
    calls: int
    per_block: int
    lag: int


@dataclass
class Placed:
    """A call in a block: its id, the height whose tables it reads, the procedure and its arguments."""
    id: str
    height: int
    procedure: str
    arguments: tuple

    def line(self):
        return " ".join(["tx", self.id, str(self.height), self.procedure, *map(literal, self.arguments)])


class Zipf:
    """Draws places from 0, where the k-th of them has the weight 1 / k ** theta."""

    def __init__(self, most, theta):
        self.sums = list(itertools.accumulate(1 / k ** theta for k in range(1, most + 1)))

    def draw(self, draw, count):
        """A place below a count, which is at most that of the weights."""
        return bisect.bisect_left(self.sums, draw.random() * self.sums[count - 1], 0, count - 1)


def scattered(place, count):
    """The key of a place, so that the popular ones do not stand side by side."""
    found = FNV_BASIS
    for octet in place.to_bytes(8, "little"):
        found = (found ^ octet) * FNV_PRIME % 2**64
    return found % count


def literal(value):
    if isinstance(value, bool):
        return "true" if value else "false"
    return f'"{value}"' if isinstance(value, str) else str(value)


def pieces(items, size):
    return [items[first:first + size] for first in range(0, len(items), size)]


def opening_blocks(workload, draw):
    """The blocks that fill the tables. Their calls read the height before."""
    return [[Placed(f"o{number}-{at}", number - 1, *named(call)) for at, call in enumerate(calls, 1)]
            for number, calls in enumerate(pieces(workload.opening(draw), OPENED), 1)]


def named(call):
    return call[0], tuple(call[1:])


def drawn_block(workload, draw, shape, opened, number, size):
    """A block of calls, none of which reads tables that are not filled."""
    block = []
    for at in range(1, size + 1):
        height = max(opened, number - 1 - draw.randint(0, shape.lag))
        block.append(Placed(f"c{number}-{at}", height, *named(workload.call(draw, number, height))))
    return block


def blocks_of(workload, seed, shape):
    """All blocks, and how many of them fill the tables."""
    draw = random.Random(seed)
    blocks = opening_blocks(workload, draw)
    opened = len(blocks)
    for first in range(0, shape.calls, shape.per_block):
        size = min(shape.per_block, shape.calls - first)
        blocks.append(drawn_block(workload, draw, shape, opened, len(blocks) + 1, size))
    return blocks, opened


def time_of(workload, number):
    return SECONDS_A_BLOCK * number if workload.has_times else 0


def draft_of(workload, blocks):
    lines = ["draft 2" if workload.has_times else "draft 1"]
    for number, block in enumerate(blocks, 1):
        lines.append(f"block {number} {time_of(workload, number)}" if workload.has_times else f"block {number}")
        lines += [call.line() for call in block]
        lines.append("end")
    return "".join(line + "\n" for line in lines)


def app_text(workload, exact):
    with open(os.path.join(HERE, workload.app), encoding="utf-8") as file:
        return ("isolation exact;\n" if exact else "") + file.read()


def write_files(folder, workload, blocks, exact):
    for name, text in (("app", app_text(workload, exact)), ("draft", draft_of(workload, blocks))):
        with open(os.path.join(folder, name), "w", encoding="utf-8") as file:
            file.write(text)


def words(about):
    """The words that all generators take."""
    parser = argparse.ArgumentParser(description=about)
    parser.add_argument("folder", help="where the files `app` and `draft` are written")
    parser.add_argument("--seed", type=int, default=1)
    parser.add_argument("--calls", type=int, default=20000)
    parser.add_argument("--per-block", type=int, default=100)
    parser.add_argument("--lag", type=int, default=0, help="how many blocks at most a height lies below the block before the call's own")
    parser.add_argument("--exact", action="store_true", help="with exact isolation")
    return parser


def generate(workload, given):
    blocks, _ = blocks_of(workload, given.seed, Shape(given.calls, given.per_block, given.lag))
    write_files(given.folder, workload, blocks, given.exact)
