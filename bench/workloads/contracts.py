#!/usr/bin/env python3
"""Draws the three contracts of Nathan, Govindarajan, Saraf, Sethi and Jayachandran ("Blockchain Meets Database", PVLDB 12(11), 2019).

The simple contract inserts a row. The complex join joins two tables, sums up and writes the sum into a third. The complex group finds of all
groups the one with the greatest sum and writes it. As in the paper each runs alone (`--mix simple`, `join` or `group`); `--mix all` takes each as often as
each other one. With `--restocks SHARE` that share of the calls changes a row that both complex contracts read, which the paper does not have: without it no
call waits for another one. The sizes of the tables are the options'.
Usage: bench/workloads/contracts.py FOLDER [--mix KIND] [--restocks SHARE] [--families COUNT] [--parts COUNT] [--stocks COUNT] and the words of chains.py
"""
import chains

KINDS = ("simple", "join", "group")


class Contracts:
    app, has_times = "contracts.app", False

    def __init__(self, mix="all", restocks=0.0, families=100, parts=10, stocks=5):
        self.kinds = KINDS if mix == "all" else (mix,)
        self.restocks, self.families, self.parts, self.stocks = restocks, families, parts, stocks
        self.made = 0

    def opening(self, draw):
        parts = self.families * self.parts
        calls = [("add_part", part, part // self.parts, draw.randint(1, 1000)) for part in range(parts)]
        return calls + [("add_stock", stock, stock // self.stocks, draw.randint(0, 100)) for stock in range(parts * self.stocks)]

    def call(self, draw, block, height):
        if draw.random() < self.restocks:
            return "restock", draw.randrange(self.families * self.parts * self.stocks), draw.randint(0, 100)
        self.made += 1
        kind = draw.choice(self.kinds)
        if kind == "simple":
            return kind, self.made, draw.randrange(10), draw.randint(1, 1000), f"note {self.made}"
        return f"complex_{kind}", self.made, draw.randrange(self.families)


def main():
    parser = chains.words(__doc__)
    parser.add_argument("--mix", choices=("all", *KINDS), default="all")
    parser.add_argument("--restocks", type=float, default=0.0)
    parser.add_argument("--families", type=int, default=100)
    parser.add_argument("--parts", type=int, default=10)
    parser.add_argument("--stocks", type=int, default=5)
    given = parser.parse_args()
    chains.generate(Contracts(given.mix, given.restocks, given.families, given.parts, given.stocks), given)


if __name__ == "__main__":
    main()
