#!/usr/bin/env python3
"""Draws SmallBank: customers with savings and a checking account (Alomari, Cahill, Fekete and Roehm, "The Cost of Serializability on Platforms That
Use Snapshot Isolation", ICDE 2008).

Drawn by the rules of the paper: each procedure as often as each other one, and 0.9 of the customers from the first few (1,000 of 18,000). With
`--balances 0.6` that share is `balance`, as in the paper's runs with 10 hot customers. The sixth procedure, send_payment, is that of OLTP-Bench, as are the
first balances, from 10,000 to 50,000. Amounts are drawn from 1 to 100, and for savings from -100 to 100; the paper does not say how.
Usage: bench/workloads/smallbank.py FOLDER [--customers COUNT] [--hot COUNT] [--balances SHARE] and the words of chains.py
"""
import chains

WRITERS = ("deposit_checking", "transact_saving", "amalgamate", "write_check", "send_payment")


class SmallBank:
    app, has_times = "smallbank.app", False

    def __init__(self, customers=18000, hot=1000, balances=1 / 6, funds=(10000, 50000), kept=False):
        self.customers, self.hot, self.balances, self.funds, self.kept = customers, hot, balances, funds, kept
        self.asked = 0

    def opening(self, draw):
        return [("open", self.name(k), k, draw.randint(*self.funds), draw.randint(*self.funds)) for k in range(self.customers)]

    @staticmethod
    def name(customer):
        return f"customer {customer}"

    def customer(self, draw):
        is_hot = draw.random() < 0.9 or self.hot == self.customers
        return draw.randrange(self.hot) if is_hot else draw.randrange(self.hot, self.customers)

    def two(self, draw):
        first, second = self.customer(draw), self.customer(draw)
        while second == first:
            second = self.customer(draw)
        return self.name(first), self.name(second)

    def balance(self, name):
        if not self.kept:
            return "balance", name
        self.asked += 1
        return "balance_kept", name, self.asked

    def call(self, draw, block, height):
        if draw.random() < self.balances:
            return self.balance(self.name(self.customer(draw)))
        procedure = draw.choice(WRITERS)
        if procedure == "amalgamate":
            return procedure, *self.two(draw)
        if procedure == "send_payment":
            return procedure, *self.two(draw), draw.randint(1, 100)
        amount = draw.randint(-100 if procedure == "transact_saving" else 1, 100)
        return procedure, self.name(self.customer(draw)), amount


def main():
    parser = chains.words(__doc__)
    parser.add_argument("--customers", type=int, default=18000)
    parser.add_argument("--hot", type=int, default=1000)
    parser.add_argument("--balances", type=float, default=1 / 6)
    given = parser.parse_args()
    chains.generate(SmallBank(given.customers, given.hot, given.balances), given)


if __name__ == "__main__":
    main()
