"""A node in Python on dictionaries: what calls read and write, which of them commit by the rules of docs/ABORTS.md, and in which order.

It is small and slow, and shares nothing with the program. A procedure is a function of a `Run` and the arguments of a call; a committed call's
writes are put into tables, which are a dictionary for each table, from key to row.
"""
import collections
import re
from dataclasses import dataclass, field


class Fault(Exception):
    """The end of a run that writes nothing; its text is as in a report."""


def needed(row, why):
    if row is None:
        raise Fault(f'failed "{why}"')
    return row


class Table:
    """A declared table: its columns, which a row has by name, and which of them are its key."""

    def __init__(self, number, name, columns, key):
        self.number, self.name = number, name
        self.row = collections.namedtuple(name, columns)
        self.key = [columns.index(column) for column in key]

    def key_of(self, row):
        return tuple(row[place] for place in self.key)


def tables_of(app):
    """The tables that the text of an application declares, by name and in their order."""
    text = re.sub("#[^\n]*", "", app)
    found = re.findall(r"\btable\s+(\w+)\s*\(([^)]*)\)\s*key\s*\(([^)]*)\)", text)
    return {name: Table(number, name, [column.split()[0] for column in columns.split(",")], [column.strip() for column in key.split(",")])
            for number, (name, columns, key) in enumerate(found)}


@dataclass(frozen=True)
class Read:
    """A read of the row of a key, or of the rows whose value in a column lies in a span."""
    table: Table
    key: tuple = None
    column: str = None
    low: object = None
    high: object = None

    def covers(self, row):
        if row is None:
            return False
        if self.key is not None:
            return self.table.key_of(row) == self.key
        return self.low <= getattr(row, self.column) <= self.high


@dataclass(frozen=True)
class Write:
    """What a committed call made of the row of a key."""
    block: int
    position: int
    table: Table
    key: tuple
    before: tuple
    after: tuple

    def is_hit_by(self, read):
        return read.table is self.table and (read.covers(self.before) or read.covers(self.after))

    def named(self):
        return f"{self.position} {self.table.name} {' '.join(map(literal, self.key))}"


def literal(value):
    if isinstance(value, bool):
        return "true" if value else "false"
    return f'"{value}"' if isinstance(value, str) else str(value)


class Run:
    """One call on tables: it sees them under its own writes, and keeps what it reads."""

    def __init__(self, declared, rows, now):
        self.declared, self.rows, self.now = declared, rows, now
        self.reads, self.own = [], {}

    def seen(self, name, key):
        return self.own.get((name, key), self.rows[name].get(key))

    def get(self, name, *key):
        self.reads.append(Read(self.declared[name], key))
        return self.seen(name, key)

    def span(self, name, column, low, high):
        read = Read(self.declared[name], None, column, low, high)
        self.reads.append(read)
        keys = set(self.rows[name]) | {key for table, key in self.own if table == name}
        rows = [self.seen(name, key) for key in sorted(keys)]
        return [row for row in rows if read.covers(row)]

    def insert(self, name, *values):
        table = self.declared[name]
        row = table.row(*values)
        if self.get(name, *table.key_of(row)) is not None:
            raise Fault("duplicate-key")
        self.own[name, table.key_of(row)] = row

    def update(self, name, *key, **changes):
        row = self.get(name, *key)
        if row is None:
            raise Fault("no-row")
        self.own[name, key] = row._replace(**changes)

    def delete(self, name, *key):
        if self.get(name, *key) is None:
            raise Fault("no-row")
        self.own[name, key] = None

    def fail(self, why):
        raise Fault(f'failed "{why}"')

    def writes(self, block, position):
        """The net writes by table and key; a key that has a row neither before nor after has none."""
        changed = [(self.declared[name], key, self.rows[name].get(key), row) for (name, key), row in self.own.items()]
        kept = [(table, key, before, after) for table, key, before, after in changed if before is not None or after is not None]
        return [Write(block, position, *write) for write in sorted(kept, key=lambda write: (write[0].number, write[1]))]


@dataclass
class Member:
    """A committed call of the block in work: its position, reads and writes."""
    position: int
    reads: list
    writes: list

    def leads_to(self, other):
        """Whether it read what the other one wrote, and so has to stand before it."""
        return any(write.is_hit_by(read) for write in other.writes for read in self.reads)


@dataclass
class Block:
    """What became of a block: the outcome of each call, the order of the committed ones and their writes."""
    outcomes: list = field(default_factory=list)
    order: list = field(default_factory=list)
    writes: list = field(default_factory=list)


class Edges:
    """Which of the committed calls of a block has to stand before which, by their positions."""

    def __init__(self):
        self.members, self.out = [], {}

    def of(self, member):
        """The edges as they would be with one more member."""
        out = {position: set(others) for position, others in self.out.items()}
        out[member.position] = {other.position for other in self.members if member.leads_to(other)}
        for other in self.members:
            if other.leads_to(member):
                out[other.position].add(member.position)
        return out

    def add(self, member, out):
        self.members.append(member)
        self.out = out

    def order(self):
        left, order = sorted(self.out), []
        while left:
            order.append(next(one for one in left if not any(one in self.out[other] for other in left if other != one)))
            left.remove(order[-1])
        return order


def two_in_a_row(out, last):
    """The least of the two forms of two edges in a row, where a call at the last position has one."""
    committed = sorted(set(out) - {last})
    ones = [(z, x) for z in sorted(out[last]) for x in committed if last in out[x] and z <= x]
    twos = [(y, z) for y in sorted(out[last]) for z in sorted(out[y]) if z != last and z < y]
    if ones:
        return "one {} {}".format(*min(ones))
    return "two {} {}".format(*min(twos)) if twos else None


def distances(out, last):
    """From each position that leads to the last one, how many edges it takes at least."""
    found, edge, steps = {}, {last}, 0
    while edge:
        steps += 1
        edge = {one for one in out if one not in found and one != last and out[one] & edge}
        found.update((one, steps) for one in edge)
    return found


def least_cycle(out, last):
    """Of the shortest ways from the last position back to it the one that is least by positions."""
    far = distances(out, last)
    path, at = [], last
    while not path or at != last:
        nexts = [one for one in out[at] if one in far]
        if path and last in out[at]:
            break
        if not nexts:
            return None
        least = min(far[one] for one in nexts)
        at = min(one for one in nexts if far[one] == least)
        path.append(at)
    return "cycle " + " ".join(map(str, path))


class Node:
    """The tables after each block, by the rules."""

    def __init__(self, app, procedures, time_of):
        self.declared, self.procedures, self.time_of = tables_of(app), procedures, time_of
        self.is_exact = app.startswith("isolation exact;")
        self.states = [{name: {} for name in self.declared}]
        self.blocks = []

    def run(self, call, rows):
        """The run of a call on rows, and its fault, if it has one."""
        run = Run(self.declared, rows, self.time_of(call.height) if call.height else 0)
        try:
            self.procedures[call.procedure](run, *call.arguments)
        except Fault as fault:
            return run, str(fault)
        return run, None

    def late(self, call, run):
        """The outcome of the first read that a write since the call's height hits, with the least such write."""
        for number, read in enumerate(run.reads, 1):
            for height, block in enumerate(self.blocks[call.height:], call.height + 1):
                hits = [write for write in block.writes if write.is_hit_by(read)]
                if hits:
                    kind = "stale" if read.covers(hits[0].before) else "phantom"
                    return f"{kind} {number} by {height} {hits[0].named()}"
        return None

    def conflict(self, member, edges):
        keys = {(write.table, write.key) for write in member.writes}
        for other in edges.members:
            for write in other.writes:
                if (write.table, write.key) in keys:
                    return f"write-conflict with {write.named()}"
        return None

    def decide(self, call, position, edges):
        run, fault = self.run(call, self.states[call.height])
        late = self.late(call, run)
        if late or fault:
            return f"aborted {late}" if late else f"aborted fault {fault}"
        member = Member(position, run.reads, run.writes(len(self.states), position))
        conflict = self.conflict(member, edges)
        if conflict:
            return f"aborted {conflict}"
        out = edges.of(member)
        danger = (least_cycle if self.is_exact else two_in_a_row)(out, position)
        if danger:
            return f"aborted danger {danger}"
        edges.add(member, out)
        return "committed"

    def add_block(self, calls):
        edges = Edges()
        outcomes = [self.decide(call, position, edges) for position, call in enumerate(calls, 1)]
        writes = [write for member in edges.members for write in member.writes]
        self.blocks.append(Block(outcomes, edges.order(), writes))
        self.states.append(with_writes(self.states[-1], writes))

    def replay(self, height, calls, order):
        """The tables after calls that run one after another, each on what those before it left. None of them may fail."""
        rows = self.states[height]
        for position in order:
            run, fault = self.run(calls[position - 1], rows)
            if fault:
                raise Fault(f"{calls[position - 1].id}: {fault}")
            rows = with_writes(rows, run.writes(height + 1, position))
        return rows


def with_writes(rows, writes):
    """Tables with some writes; those that have none of them are shared."""
    changed = {write.table.name for write in writes}
    found = {name: dict(table) if name in changed else table for name, table in rows.items()}
    for write in writes:
        if write.after is None:
            del found[write.table.name][write.key]
        else:
            found[write.table.name][write.key] = write.after
    return found


def table_lines(declared, rows):
    lines = []
    for name in declared:
        lines.append(f"table {name}")
        lines += ["row " + " ".join(map(literal, rows[name][key])) for key in sorted(rows[name])]
    return lines


def report_lines(node, blocks):
    """The report of the blocks of one node with orders, without its `node` line."""
    lines = []
    for number, (calls, block) in enumerate(zip(blocks, node.blocks), 1):
        lines.append(f"block {number}")
        lines += [f"tx {position} {call.id} {outcome}" for position, (call, outcome) in enumerate(zip(calls, block.outcomes), 1)]
        lines.append(" ".join(["order", *map(str, block.order)]))
    return lines + table_lines(node.declared, node.states[-1]) + [f"height {len(blocks)}"]
