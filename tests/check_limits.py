#!/usr/bin/env python3
"""Runs the built program at the full size of what it takes, and compares every byte with what is worked out here.

Whoever promises an answer only where memory is enough may refuse all that is large, so these cases are as large as the formats allow, or much larger than
the others: a block of 1,024 calls whose last would close a cycle of all of them, with its digest; a block of 1,024 calls of five writes each, with its head and
proofs of its writes; 2,000 blocks, their digests and what peers say of them; sums and groups of 5,000 rows; an order of 1,000,000 blocks; times that fall after
a block that two pieces of the file cut; a client file with the first line of another; and 100,000 inserts in little processor time, which the square of
their number would exceed many times. Usage: check_limits.py PROGRAM [SEED]
"""
import itertools
import os
import random
import resource
import sys
import tempfile

import patience
from check_journals import Illegal
from check_orders import check_draft
from check_proofs import compared, head, number_code, numbered, proof_file, sha256

CALLS, PATH = 1024, 1023
BLOCKS = 2000
ROWS = 5000
MOST_BLOCKS = 1000000
INSERTS = 100000
# a run of so many inserts takes a tenth of this, and one whose cost grows as their square more than ten times as much
SECONDS_OF_INSERTS = 6
SECONDS = 60
PIECE = 65536
FILLER = 128
LEAST, MOST = -(1 << 63), (1 << 63) - 1


class Wrong(Exception):
    """What a run showed that it should not have."""


def need(is_so, message):
    if not is_so:
        raise Wrong(message)


def lines(*parts):
    return "".join(line + "\n" for line in itertools.chain(*parts))


def block(number, calls, *fields):
    return [" ".join(map(str, ["block", number, *fields])), *calls, "end"]


def small(number, width=4):
    return number.to_bytes(width, "big")


def row_code(values):
    return bytes([len(values)]) + b"".join(map(number_code, values))


def write_code(position, table, before, after):
    """The code of a write of a row of ints, of which the first is the key."""
    key = (before or after)[0]
    kind = 1 if before is None else 3 if after is None else 2
    rows = b"".join(row_code(row) for row in (before, after) if row)
    return small(position) + small(table) + b"\1" + number_code(key) + bytes([kind]) + rows


def block_code(number, outcomes, order, writes):
    """The code of a block's result by the ids with the codes of their outcomes, the order, and the codes of the writes."""
    parts = [[bytes([len(name)]) + name.encode() + outcome for name, outcome in outcomes], [small(position) for position in order], writes]
    return small(number, 8) + bytes(8) + b"".join(small(len(part)) + b"".join(part) for part in parts)


def digests_of(codes):
    """The digests of blocks, each over that of the block before."""
    return [digest.hex() for digest in itertools.accumulate(codes, lambda before, code: sha256(before + code), initial=bytes(32))][1:]


class Folder:
    """A folder with the files of a case, in which the program runs."""

    def __init__(self, program, path):
        self.program, self.path = program, path

    def write(self, name, text):
        with open(os.path.join(self.path, name), "w", encoding="utf-8") as file:
            file.write(text)

    def run(self, *words, seconds=SECONDS):
        """The status and the output. A run that takes more processor time is ended."""
        def begin():
            resource.setrlimit(resource.RLIMIT_CPU, (seconds, seconds))

        status, stdout = patience.run([self.program, *words], cwd=self.path, preexec_fn=begin)
        return status, stdout.decode()

    def over_blocks(self, command, *words, **limits):
        return self.run(command, "--app", "a.app", "--blocks", "b.draft", *words, **limits)

    def expect(self, what, wanted, found):
        if wanted == found:
            return
        at = next((place for place, (one, other) in enumerate(zip(wanted[1], found[1])) if one != other), min(len(wanted[1]), len(found[1])))
        raise Wrong(f"{what}: status {found[0]} and not {wanted[0]}; from byte {at} {found[1][at:at + 60]!r} and not {wanted[1][at:at + 60]!r}")


RING = """isolation exact;
table spot (id int, at int) key (id);
proc add(i int) { insert spot (i, 0); }
proc look(own int, other int) { get r from spot key (other) { } else { } update spot key (own) set at = own; }
"""


def check_longest_cycle(folder, draw):
    """Each call reads the row that the next on a drawn path writes, and the last of the block reads that of the first, and writes that which the last on the
    path reads. So it is refused with all others, which commit in the order of the path."""
    path = draw.sample(range(1, PATH + 1), PATH)
    reads = dict(zip([*path, CALLS], [*path[1:], CALLS, path[0]]))
    adds = [f"tx a{n} 0 add {n}" for n in range(1, CALLS + 1)]
    looks = [f"tx t{n} 1 look {n} {reads[n]}" for n in range(1, CALLS + 1)]
    folder.write("a.app", RING)
    folder.write("b.draft", lines(["draft 1"], block(1, adds), block(2, looks)))
    opened = range(1, CALLS + 1)
    added = block_code(1, [(f"a{n}", b"\0") for n in opened], opened, [write_code(n, 0, None, (n, 0)) for n in opened])
    cycle = b"\x09\x03" + small(PATH) + b"".join(map(small, path))
    committed = range(1, PATH + 1)
    looked = block_code(2, [*((f"t{n}", b"\0") for n in committed), (f"t{CALLS}", cycle)], path, [write_code(n, 0, (n, 0), (n, n)) for n in committed])
    digests = digests_of([added, looked])
    first = ["block 1", *(f"tx {n} a{n} committed" for n in opened), "order " + " ".join(map(str, opened)), f"digest {digests[0]}"]
    refused = f"tx {CALLS} t{CALLS} aborted danger cycle " + " ".join(map(str, path))
    second = ["block 2", *(f"tx {n} t{n} committed" for n in committed), refused, "order " + " ".join(map(str, path)), f"digest {digests[1]}"]
    rows = ["table spot", *(f"row {n} {n}" for n in committed), f"row {CALLS} 0"]
    wanted = 0, lines(["node 1"], first, second, rows, ["height 2", "done"])
    folder.expect("the report", wanted, folder.over_blocks("run", "--orders", "--digests"))
    folder.expect("the digests", (0, numbered("digests", digests)), folder.over_blocks("checkpoint"))


SPREAD = "".join(f"table t{n} (id int, at int) key (id);\n" for n in range(4)) + """proc open(i int) { insert t2 (i, 0); insert t3 (i, 7); }
proc spread(i int, j int, n int) {
  insert t0 (i, n);
  insert t0 (j, n);
  insert t1 (i, n);
  update t2 key (i) set at = n;
  delete t3 key (i);
}
"""


def check_many_writes(folder, draw):
    """A block of 1,024 calls of five writes each: its head, and proofs of some of them."""
    numbers = draw.sample(range(1, 10 * CALLS), CALLS)
    values = [draw.randint(LEAST, MOST) for _ in numbers]
    calls = list(enumerate(zip(numbers, values), 1))
    opens = [f"tx o{position} 0 open {i}" for position, (i, _) in calls]
    spreads = [f"tx s{position} 1 spread {i} {-i} {n}" for position, (i, n) in calls]
    folder.write("a.app", SPREAD)
    folder.write("b.draft", lines(["draft 1"], block(1, opens), block(2, spreads)))
    opened = [write_code(position, table, None, (i, 7 * (table - 2))) for position, (i, _) in calls for table in (2, 3)]
    made = [[(0, None, (-i, n)), (0, None, (i, n)), (1, None, (i, n)), (2, (i, 0), (i, n)), (3, (i, 7), None)] for _, (i, n) in calls]
    codes = [write_code(position, *write) for position, writes in enumerate(made, 1) for write in writes]
    heads = [head(opened).hex(), head(codes).hex()]
    folder.expect("the heads", (0, numbered("heads", heads)), folder.over_blocks("checkpoint", "--heads"))
    for index in (0, 1, 4095, 4096, len(codes) - 1, draw.randrange(len(codes))):
        proof = proof_file(codes, index)
        folder.expect(f"the proof of write {index + 1}", (0, proof), folder.over_blocks("prove", "--block", "2", "--write", str(index + 1)))
        folder.write("proof", proof)
        for top, said in zip(heads, ("no\n", "yes\n")):
            folder.expect(f"write {index + 1} by {top}", (0, said), folder.run("verify", "--proof", "proof", "--head", top))
    above = folder.over_blocks("prove", "--block", "2", "--write", str(len(codes) + 1))
    folder.expect("a write above the last", (9, "refused query BadRange\n"), above)


ONE = """table t (id int, at int) key (id);
proc put(i int, n int) { insert t (i, n); }
"""


def check_many_blocks(folder, draw):
    """A chain of 2,000 blocks of an insert each, its digests, and three peers of which one parts from the others in the last block."""
    values = [draw.randint(LEAST, MOST) for _ in range(BLOCKS)]
    folder.write("a.app", ONE)
    folder.write("b.draft", lines(["draft 1"], *(block(n, [f"tx p{n} {n - 1} put {n} {value}"]) for n, value in enumerate(values, 1))))
    codes = [block_code(n, [(f"p{n}", b"\0")], [1], [write_code(1, 0, None, (n, value))]) for n, value in enumerate(values, 1)]
    digests = digests_of(codes)
    folder.expect("the digests", (0, numbered("digests", digests)), folder.over_blocks("checkpoint"))
    peers = [digests, digests, [*digests[:-1], digests[0]]]
    for number, peer in enumerate(peers, 1):
        folder.write(f"d{number}", numbered("digests", peer))
    folder.expect("the peers", (0, compared(peers)), folder.run("compare", "--files", "d", "--count", "3"))


ACCOUNTS = """table acct (id int, owner text, bal int) key (id) index (owner);
proc add(i int, o text, b int) { insert acct (i, o, b); }
"""


def balances(draw):
    """Balances of which many sums on the way are no int, and the sum of all is one."""
    drawn = [draw.randint(LEAST, MOST) for _ in range(ROWS - 200)]
    while len(drawn) < ROWS:
        rest = -sum(drawn)
        drawn.append(max(LEAST, min(MOST, rest)) if len(drawn) < ROWS - 1 else max(LEAST, min(MOST, rest + 5)))
    need(LEAST <= sum(drawn) <= MOST, "a sum that is no int")
    return drawn


def check_sums(folder, draw):
    """Of 5,000 rows a sum, the sums of two groups, and a group for each row."""
    bals, size = balances(draw), CALLS
    owners = ["ann" if n % 2 else "bob" for n in range(ROWS)]
    adds = [f'tx a{n} 0 add {n} "{owner}" {bal}' for n, (owner, bal) in enumerate(zip(owners, bals), 1)]
    blocks = [adds[at:at + size] for at in range(0, ROWS, size)]
    folder.write("a.app", ACCOUNTS)
    folder.write("b.draft", lines(["draft 1"], *(block(n, calls) for n, calls in enumerate(blocks, 1))))

    def ask(text, answers):
        found = folder.over_blocks("query", "--height", str(len(blocks)), "--text", text)
        folder.expect(text, (0, lines([f"answer {answer}" for answer in answers], ["done"])), found)

    ask("from acct as a select count, sum a.bal, min a.bal, max a.bal;", [f"{ROWS} {sum(bals)} {min(bals)} {max(bals)}"])
    ask("from acct as a group by a.owner select a.owner, count, sum a.id;",
        [f'"{owner}" {owners.count(owner)} {sum(n for n, own in enumerate(owners, 1) if own == owner)}' for owner in ("ann", "bob")])
    ask("from acct as a where a.id > 0 group by a.block select a.block, count, sum a.pos;",
        [f"{n} {len(calls)} {len(calls) * (len(calls) + 1) // 2}" for n, calls in enumerate(blocks, 1)])
    ask("from acct as a group by a.id select a.id, sum a.bal, count;", [f"{n} {bal} 1" for n, bal in enumerate(bals, 1)])
    ranked = sorted(enumerate(bals, 1), key=lambda pair: (pair[1], pair[0]))
    ask("from acct as a select a.bal, a.id order by 1;", [f"{bal} {n}" for n, bal in ranked])


def check_most_blocks(folder, draw):
    """An order of exactly as many blocks as there may be, of two clients."""
    first = draw.randint(1, MOST_BLOCKS - 1)
    clients = [[f"tx c{number}-{index} 0 p" for index in range(size)] for number, size in ((1, first), (2, MOST_BLOCKS - first))]
    for number, calls in enumerate(clients, 1):
        folder.write(f"clients{number}", lines(["arrivals 1"], calls))
    status, draft = folder.run("order", "--clients", "clients", "--count", "2", "--most", "1")
    need(status == 0, f"status {status}: {draft[:60]!r}")
    try:
        check_draft(draft, clients, 1)
    except Illegal as fault:
        raise Wrong(str(fault)) from fault


def filler(number, length):
    """A call of nobody whose line has so many bytes, its newline among them."""
    begin = f'tx a{number} 0 nobody "'
    return begin + "a" * (length - len(begin) - 2) + '"'


def cut_draft(cut, calls, time):
    """A draft of three blocks, and the line of the last one. The first piece of the file ends so many bytes after the second block begins, and the third block
    is a second before it."""
    room = PIECE - cut - len(lines(["draft 2"], block(1, [], 5)))
    count = room // FILLER
    lengths = [FILLER] * (count - 1) + [room - FILLER * (count - 1)]
    fillers = [filler(number, length) for number, length in enumerate(lengths)]
    front = lines(["draft 2"], block(1, fillers, 5))
    need(len(front) == PIECE - cut, "another place")
    before = front + lines(block(2, calls, time))
    return before + lines(block(3, [], time - 1)), before.count("\n") + 1


def check_falling_times(folder, draw):
    """Wherever the first piece ends within a block, the block after it may have no lesser time."""
    calls, time = [f"tx b{n} 0 put {n} {draw.randint(0, 9)}" for n in range(6)], draw.randint(10**6, 10**9)
    folder.write("a.app", ONE)
    for cut in range(1, len(lines(block(2, calls, time)))):
        draft, line = cut_draft(cut, calls, time)
        folder.write("b.draft", draft)
        stopped = f"stopped {line} WrongTime\n"
        folder.expect(f"seal, cut at {cut}", (5, stopped), folder.run("seal", "--blocks", "b.draft"))
        status, out = folder.over_blocks("run", "--executors", "0")
        need(status == 5 and out.endswith("\nheight 2\n" + stopped), f"run, cut at {cut}: status {status}, {out[-80:]!r}")


def check_other_header(folder, _draw):
    """Of two client files the second one has another first line than those of arrivals."""
    calls = ["tx a1 0 p", "tx a2 0 p"]
    folder.write("clients1", lines(["arrivals 1"], calls))
    for header in ("arrivals 2", "draft 1", "arrivals 1 ", "arrivals", "", "tx a3 0 p"):
        folder.write("clients2", lines([header], calls))
        found = folder.run("order", "--clients", "clients", "--count", "2", "--most", "2")
        folder.expect(repr(header), (6, "refused arrivals 2 1\n"), found)


def check_many_inserts(folder, draw):
    """100,000 inserts of keys in a drawn order, in 100 blocks: each way to run them takes little processor time."""
    size = 1000
    keys = draw.sample(range(10 * INSERTS), INSERTS)
    calls = [f"tx p{n} 0 put {key} {n}" for n, key in enumerate(keys)]
    blocks = [calls[at:at + size] for at in range(0, INSERTS, size)]
    folder.write("a.app", ONE)
    folder.write("b.draft", lines(["draft 1"], *(block(n, some) for n, some in enumerate(blocks, 1))))
    told = [[f"block {n}", *(f"tx {position} {call.split()[1]} committed" for position, call in enumerate(some, 1))] for n, some in enumerate(blocks, 1)]
    rows = [f"row {key} {n}" for key, n in sorted(zip(keys, range(INSERTS)))]
    node = lines(*told, ["table t"], rows, [f"height {len(blocks)}"])
    for nodes, words in (1, ["--executors", "0"]), (2, ["--nodes", "2", "--executors", "0"]):
        wanted = "".join(f"node {number}\n{node}" for number in range(1, nodes + 1)) + "done\n"
        folder.expect(f"{nodes} nodes", (0, wanted), folder.over_blocks("run", *words, seconds=SECONDS_OF_INSERTS * nodes))


CHECKS = [check_longest_cycle, check_many_writes, check_many_blocks, check_sums, check_most_blocks, check_falling_times, check_other_header, check_many_inserts]


def main():
    program = os.path.abspath(sys.argv[1])
    seed = sys.argv[2] if len(sys.argv) > 2 else "1"
    failed = 0
    for check in CHECKS:
        with tempfile.TemporaryDirectory() as path:
            try:
                check(Folder(program, path), random.Random(f"{seed} {check.__name__}"))
            except (Wrong, patience.Hangs) as fault:
                failed += 1
                print(f"{check.__name__} of seed {seed}: {fault}")
    print(f"{len(CHECKS) - failed} passed, {failed} failed")
    sys.exit(1 if failed else 0)


if __name__ == "__main__":
    main()
