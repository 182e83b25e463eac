#!/usr/bin/env python3
"""Draws YCSB's core workloads A to F (Cooper, Silberstein, Tam, Ramakrishnan and Sears, "Benchmarking Cloud Serving Systems with YCSB", SoCC 2010).

    A  half reads, half changes of a field        D  0.95 reads of the newest records, 0.05 inserts
    B  0.95 reads, 0.05 changes                   E  0.95 scans of 1 to 100 records, 0.05 inserts
    C  reads                                      F  half reads, half reads that change a field of what they read

Records have ten fields of 100 bytes. Keys are drawn by a zipfian distribution with the constant 0.99, and scattered by FNV-1a so that popular ones do not
stand side by side; in D the popular ones are the newest. A client asks for no record that the tables of its height do not have yet. What differs: keys are
numbers in their order, so that a scan of N records is a span of N keys, since a span has no limit of rows.
Usage: bench/workloads/ycsb.py FOLDER [--mix A..F] [--records COUNT] [--field-bytes COUNT] [--theta NUMBER] and the words of chains.py
"""
import bisect
import string

import chains

FIELDS = 10
LONGEST_SCAN = 100
# of each mix the share of the calls that only read, how they read, what the others do
MIXES = {
    "A": (0.5, "read", "change"),
    "B": (0.95, "read", "change"),
    "C": (1.0, "read", "change"),
    "D": (0.95, "read", "add"),
    "E": (0.95, "scan", "add"),
    "F": (0.5, "read", "read_modify_write"),
}


class Ycsb:
    app, has_times = "ycsb.app", False

    def __init__(self, mix="A", records=10000, field_bytes=100, theta=0.99, most=100000, kept=False):
        self.mix, self.records, self.field_bytes, self.kept = mix, records, field_bytes, kept
        self.zipf = chains.Zipf(records + most, theta)
        self.added = []
        self.asked = 0

    def value(self, draw):
        return "".join(draw.choices(string.ascii_letters, k=self.field_bytes))

    def record(self, draw, number):
        return "add", number, *(self.value(draw) for _ in range(FIELDS))

    def opening(self, draw):
        return [self.record(draw, number) for number in range(self.records)]

    def known(self, height):
        """How many records a client knows that has seen the tables of a height."""
        return self.records + bisect.bisect_right(self.added, height)

    def key(self, draw, height):
        known = self.known(height)
        place = self.zipf.draw(draw, known)
        return known - 1 - place if self.mix == "D" else chains.scattered(place, known)

    def reading(self, draw, how, height):
        number = self.key(draw, height)
        arguments = (number, draw.randint(1, LONGEST_SCAN)) if how == "scan" else (number,)
        if not self.kept:
            return how, *arguments
        self.asked += 1
        return f"{how}_kept", *arguments, self.asked

    def call(self, draw, block, height):
        share, how, writing = MIXES[self.mix]
        if draw.random() < share:
            return self.reading(draw, how, height)
        if writing != "add":
            return writing, self.key(draw, height), draw.randrange(FIELDS), self.value(draw)
        self.added.append(block)
        return self.record(draw, self.records + len(self.added) - 1)


def main():
    parser = chains.words(__doc__)
    parser.add_argument("--mix", choices=sorted(MIXES), default="A")
    parser.add_argument("--records", type=int, default=10000)
    parser.add_argument("--field-bytes", type=int, default=100)
    parser.add_argument("--theta", type=float, default=0.99)
    given = parser.parse_args()
    chains.generate(Ycsb(given.mix, given.records, given.field_bytes, given.theta, given.calls), given)


if __name__ == "__main__":
    main()
