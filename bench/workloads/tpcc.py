#!/usr/bin/env python3
"""Draws TPC-C's NewOrder, Payment and Delivery (TPC Benchmark C, revision 5.11), 45, 43 and 4 of 92 calls.

Drawn by its rules: customers, items and last names by NURand; 5 to 15 lines of 1 to 10 pieces; one line of a hundred from another warehouse; one order of
a hundred with an item that is not there, which undoes it; 0.15 of the payments by customers of another warehouse; 0.6 of them by last name. What differs:
- a call has at most 16 arguments, so two lines of an order stand in one number;
- a span is on one column, so districts, customers and orders each have one number that has the warehouse in it;
- of the customers of one last name the one in the middle is taken by numbers, and not by first names;
- the oldest order that is not delivered has its number in a row, since a span gives no least row alone;
- no texts of districts in stock and order lines, no notes of customers with bad credit, no addresses; orders of the past are not filled in;
- fewer items and customers, 1,000 and 300 a district unless other numbers are given (of 100,000 and 3,000), with NURand's numbers as much smaller.
Usage: bench/workloads/tpcc.py FOLDER [--warehouses COUNT] [--customers COUNT] [--items COUNT] and the words of chains.py
"""
import chains

DISTRICTS = 10
OWN = 10_000_000
SYLLABLES = ("BAR", "OUGHT", "ABLE", "PRI", "PRES", "ESE", "ANTI", "CALLY", "ATION", "EING")
FULL_CUSTOMERS, FULL_ITEMS, NAMES = 3000, 100_000, 1000
MOST_LINES = 15


def last_name(number):
    return "".join(SYLLABLES[int(digit)] for digit in f"{number:03}")


def packed(lines):
    """Eight numbers with two lines each, of which each is an item, a warehouse and a quantity."""
    codes = [item * 16384 + supplier * 16 + quantity for item, supplier, quantity in lines]
    codes += [0] * (MOST_LINES + 1 - len(codes))
    return tuple(codes[at] + codes[at + 1] * 2**31 for at in range(0, MOST_LINES + 1, 2))


class Tpcc:
    app, has_times = "tpcc.app", True

    def __init__(self, warehouses=1, customers=300, items=1000):
        self.warehouses, self.customers, self.items = warehouses, customers, items
        self.names = max(1, NAMES * customers // FULL_CUSTOMERS)

    def opening(self, draw):
        self.shift = {full: draw.randint(0, full) for full in (255, 1023, 8191)}
        calls = [("add_place", nr) for nr in range(1, MOST_LINES + 1)]
        calls += [("add_item", item, f"item {item}", draw.randint(100, 10000)) for item in range(1, self.items + 1)]
        for warehouse in range(1, self.warehouses + 1):
            calls.append(("add_warehouse", warehouse, f"warehouse {warehouse}", draw.randint(0, 2000)))
            calls += [("add_stock", warehouse, item, draw.randint(10, 100)) for item in range(1, self.items + 1)]
            for own in range(DISTRICTS):
                calls += self.filled_district(draw, warehouse, warehouse * DISTRICTS + own)
        return calls

    def filled_district(self, draw, warehouse, district):
        calls = [("add_district", district, warehouse, f"district {district}", draw.randint(0, 2000))]
        for own in range(1, self.customers + 1):
            name = last_name(own - 1 if own <= self.names else self.nurand(draw, 255, 0, self.names - 1, NAMES))
            credit = "BC" if draw.random() < 0.1 else "GC"
            calls.append(("add_customer", district * OWN + own, district, f"first {own}", name, f"{district} {name}", credit, draw.randint(0, 5000)))
        return calls

    def nurand(self, draw, full, low, high, full_range):
        """NURand of the benchmark, with its number cut as the range is."""
        span = high - low + 1
        cut = (1 << max(0, ((full + 1) * span // full_range).bit_length() - 1)) - 1 if span < full_range else full
        return ((draw.randint(0, cut) | draw.randint(low, high)) + self.shift[full]) % span + low

    def customer(self, draw, district):
        return district * OWN + self.nurand(draw, 1023, 1, self.customers, FULL_CUSTOMERS)

    def other(self, draw, warehouse):
        """Another warehouse, or the same one where there is no other."""
        others = [number for number in range(1, self.warehouses + 1) if number != warehouse]
        return draw.choice(others or [warehouse])

    def line(self, draw, warehouse):
        supplier = self.other(draw, warehouse) if draw.random() < 0.01 else warehouse
        return self.nurand(draw, 8191, 1, self.items, FULL_ITEMS), supplier, draw.randint(1, 10)

    def new_order(self, draw, warehouse, district):
        lines = [self.line(draw, warehouse) for _ in range(draw.randint(5, MOST_LINES))]
        if draw.random() < 0.01:
            lines[-1] = (self.items + 1, warehouse, 1)
        is_local = all(supplier == warehouse for _, supplier, _ in lines)
        return "new_order", warehouse, district, self.customer(draw, district), len(lines), is_local, *packed(lines)

    def payment(self, draw, warehouse, district):
        home = district
        if draw.random() < 0.15:
            home = self.other(draw, warehouse) * DISTRICTS + draw.randrange(DISTRICTS)
        amount = draw.randint(100, 500000)
        if draw.random() < 0.6:
            name = last_name(self.nurand(draw, 255, 0, self.names - 1, NAMES))
            return "payment_by_name", warehouse, district, f"{home} {name}", amount
        return "payment", warehouse, district, self.customer(draw, home), amount

    def call(self, draw, block, height):
        warehouse = draw.randint(1, self.warehouses)
        district = warehouse * DISTRICTS + draw.randrange(DISTRICTS)
        kind = draw.randrange(92)
        if kind < 45:
            return self.new_order(draw, warehouse, district)
        if kind < 88:
            return self.payment(draw, warehouse, district)
        return "delivery", warehouse, draw.randint(1, 10)


def main():
    parser = chains.words(__doc__)
    parser.add_argument("--warehouses", type=int, default=4)
    parser.add_argument("--customers", type=int, default=300)
    parser.add_argument("--items", type=int, default=1000)
    given = parser.parse_args()
    chains.generate(Tpcc(given.warehouses, given.customers, given.items), given)


if __name__ == "__main__":
    main()
