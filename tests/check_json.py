#!/usr/bin/env python3
"""Checks the JSON reports of the built program against its reports as text, over the runs of tests/cases and at the limits.

Each case whose words begin with `run` or `simulate` is run as it stands and with `--json` behind its words; a case that answers a report is run so with
`--orders` and `--digests` turned round too. The lines of text are read into the value that they mean. The line of JSON has to be the one
compact spelling of that value, byte for byte: keys in byte order, no space, escapes for `"`, `\\` and control characters alone. Journals
stand behind both as the same lines. The status is the same, and so is all that is written where there is no report. But for the cases at the limits, a run is
compared once more as one of nodes with jobs.
Usage: check_json.py PROGRAM
"""
import concurrent.futures
import contextlib
import itertools
import json
import os
import re
import sys
import tempfile

import limits
import patience
from run_cases import split_journals

HERE = os.path.dirname(os.path.abspath(__file__))
CASES = os.path.join(HERE, "cases")
FLAGS = ["--orders", "--digests"]
REPORTED = (0, 5)
VALUE = re.compile(r' (-?[0-9]+|true|false|x?"(?:[^"\\]|\\["\\])*")')


class Lines:
    """The lines of a report as text, taken from the front."""

    def __init__(self, text):
        if text and not text.endswith("\n"):
            raise ValueError("the last line has no newline")
        self.lines = text.split("\n")[:-1]
        self.at = 0

    def rest(self):
        return "".join(line + "\n" for line in self.lines[self.at :])

    def begins(self, word):
        return self.at < len(self.lines) and self.lines[self.at].split(" ", 1)[0] == word

    def take(self, word):
        """What stands behind the word that begins the next line, with its space."""
        if not self.begins(word):
            raise ValueError(f"line {self.at + 1} does not begin with {word}")
        self.at += 1
        return self.lines[self.at - 1][len(word) :]


def value_of(spelling):
    if spelling in ("true", "false"):
        return spelling == "true"
    if spelling.startswith('"'):
        return re.sub(r"\\(.)", r"\1", spelling[1:-1])
    if spelling.startswith("x"):
        return spelling
    return int(spelling)


def row_of(values):
    spellings = VALUE.findall(values)
    if "".join(" " + spelling for spelling in spellings) != values:
        raise ValueError(f"no values: {values}")
    return [value_of(spelling) for spelling in spellings]


def number_of(text):
    if not re.fullmatch(r" (0|[1-9][0-9]*)", text):
        raise ValueError(f"no number: {text}")
    return int(text)


def transactions_of(lines):
    found = []
    while lines.begins("tx"):
        _, position, name, outcome = lines.take("tx").split(" ", 3)
        found.append({"id": name, "outcome": outcome})
        if int(position) != len(found):
            raise ValueError(f"position {position} stands at {len(found)}")
    return found


def block_of(lines):
    block = {"number": number_of(lines.take("block")), "txs": transactions_of(lines)}
    if lines.begins("order"):
        block["order"] = [int(position) for position in lines.take("order").split()]
    if lines.begins("digest"):
        block["digest"] = lines.take("digest")[1:]
    return block


def table_of(lines):
    table = {"name": lines.take("table")[1:], "rows": []}
    while lines.begins("row"):
        table["rows"].append(row_of(lines.take("row")))
    return table


def node_of(lines):
    node = {"node": number_of(lines.take("node")), "blocks": [], "tables": []}
    while lines.begins("block"):
        node["blocks"].append(block_of(lines))
    while lines.begins("table"):
        node["tables"].append(table_of(lines))
    node["height"] = number_of(lines.take("height"))
    return node


def report_of(lines):
    """The value that the lines mean, up to the journals."""
    report = {"nodes": []}
    while lines.begins("node"):
        report["nodes"].append(node_of(lines))
    if lines.begins("stopped"):
        line, kind = lines.take("stopped")[1:].split(" ")
        report["stopped"] = {"kind": kind, "line": int(line)}
    elif lines.take("done") == "":
        report["done"] = True
    return report


def json_wanted(text):
    """The bytes of the report as JSON, by its bytes as text."""
    lines = Lines(text.decode())
    report = report_of(lines)
    if lines.rest() and not lines.begins("journal"):
        raise ValueError(f"line {lines.at + 1} is behind the end")
    spelled = json.dumps(report, sort_keys=True, separators=(",", ":"), ensure_ascii=False)
    return (spelled + "\n" + lines.rest()).encode()


def run(program, folder, words):
    return patience.run([program, *words], cwd=folder)


class Tally:
    def __init__(self):
        self.passed = 0
        self.failed = 0

    def note(self, name, wanted, found):
        if wanted == found:
            self.passed += 1
            return
        self.failed += 1
        print(f"case {name}: wanted status {wanted[0]}, found {found[0]}\n  wanted {wanted[1][:400]!r}\n  found  {found[1][:400]!r}")


def nodes_of(words):
    return int(words[words.index("--nodes") + 1]) if "--nodes" in words else 1


def compare(program, name, folder, words, tally, with_jobs=True):
    """Compares the words with `--json` with what they mean without it, and answers whether that is a report. A run without journals is compared once more with
    them, so that nodes with jobs make it, and these are left out."""
    status, text = run(program, folder, words)
    found = run(program, folder, [*words, "--json"])
    if status not in REPORTED:
        tally.note(name, (status, text), found)
        return False
    try:
        wanted = json_wanted(text)
    except ValueError as fault:
        wanted = f"the text is no report: {fault}".encode()
    tally.note(name, (status, wanted), found)
    if words[0] == "run" and with_jobs and "--trace" not in words:
        ended, told = run(program, folder, [*words, "--json", "--trace"])
        tally.note(f"{name}, with jobs", (status, (wanted, nodes_of(words))), (ended, split_journals(told)))
    return True


def check_case(program, name, folder, words, tally):
    if compare(program, name, folder, words, tally):
        other = [word for word in words if word not in FLAGS] + [flag for flag in FLAGS if flag not in words]
        compare(program, f"{name}, {' '.join(other[1:])}", folder, other, tally)


@contextlib.contextmanager
def scratch_with(files):
    with tempfile.TemporaryDirectory() as scratch:
        for name, content in files.items():
            with open(os.path.join(scratch, name), "wb") as file:
                file.write(content)
        yield scratch


def read(path):
    with open(path, "rb") as file:
        return file.read()


def check_prefix(program, name, length, tally):
    folder = os.path.join(CASES, name)
    files = {"a.app": read(os.path.join(folder, "a.app")), "b.draft": read(os.path.join(folder, "b.draft"))[:length]}
    with scratch_with(files) as scratch:
        compare(program, f"{name} at {length}", scratch, ["run", "--app", "a.app", "--blocks", "b.draft"], tally)


def check_folder(program, name, tally):
    folder = os.path.join(CASES, name)
    words = read(os.path.join(folder, "words")).decode().split("\n")[:-1]
    if words[:1] in (["run"], ["simulate"]) and "--json" not in words:
        check_case(program, name, folder, words, tally)


def check_limit(program, number, tally):
    name, files, _, _ = next(itertools.islice(limits.cases(), number, None))
    with scratch_with(files) as scratch:
        compare(program, name, scratch, ["run", "--app", "a.app", "--blocks", "b.draft"], tally, with_jobs=False)


def checks():
    """What is checked, as a function and what it takes behind the program; those at the limits come first, since two of them are long."""
    for number in reversed(range(len([*limits.cases()]))):
        yield check_limit, number
    for name in sorted(os.listdir(CASES)):
        if name == "prefixes-of-a-draft":
            yield from ((check_prefix, name, length) for length in range(os.path.getsize(os.path.join(CASES, name, "b.draft")) + 1))
        elif os.path.exists(os.path.join(CASES, name, "words")):
            yield check_folder, name


def counted(program, check, *arguments):
    """How many comparisons of a check passed and how many failed."""
    tally = Tally()
    check(program, *arguments, tally)
    return tally.passed, tally.failed


def main():
    program = os.path.abspath(sys.argv[1])
    with concurrent.futures.ProcessPoolExecutor() as pool:
        counts = [it.result() for it in [pool.submit(counted, program, *check) for check in checks()]]
    passed, failed = (sum(column) for column in zip(*counts))
    print(f"{passed} passed, {failed} failed")
    sys.exit(1 if failed or not passed else 0)


if __name__ == "__main__":
    main()
