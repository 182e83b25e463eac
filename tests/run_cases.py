#!/usr/bin/env python3
"""Runs the built program on the cases of tests/cases and compares every byte.

A case is a folder: `words` (one word a line), the files that the words name, `stdout` (the bytes wanted) and `status`.
The folder `prefixes-of-a-draft` has one draft, of which each prefix is a case of its own: a prefix that ends with the
first line or with an `end` line is a whole draft; of every other one the report is that of the whole draft at its front,
and ends with the line in which the next byte would stand. A folder `calls-on-..` has a draft of one block and `calls`, in which each
call has below it what becomes of it in a block of its own behind that one, and the rows that go (-) and come (+) by it, worked out by
hand. A folder `asks-on-..` has a draft and `asks`: heights, each with a query in which `$` ends a line, and below it the values of each row
of the answer, or the name by which it is refused, worked out by hand too. The folder `proofs-of-known-writes` has drafts whose last block has
one, two, three and five writes, with the head and the proof files of these as another program made them. The folders `faults-of-applications` and `faults-of-queries` have
lists of texts, one to a line, worked out by hand from the grammars. `@` stands before the first token that has no place; a text without it is
in the grammar, `$` ends a line, and a backquote is a tab. An application is given with that token on a line of its own, which the report
has to name. The faults of queries have the kind by which their file goes, and a query without a mark is answered. Cases at the limits are made by
tests/limits.py, since their files are large and regular. Loads are drawn by tests/loads.py, and `load` has to
count what `run` reports of them. Usage: run_cases.py PROGRAM
"""
import os
import re
import shutil
import sys
import tempfile

import limits
import loads
import patience

HERE = os.path.dirname(os.path.abspath(__file__))
CASES = os.path.join(HERE, "cases")


def run(program, folder, words):
    return patience.run([program, *words], cwd=folder)


def read(path):
    with open(path, "rb") as file:
        return file.read()


def split_journals(stdout):
    """A report, and how many journals follow it. A run that writes journals is one of nodes with jobs, also where nothing is gained by executors."""
    report, *journals = stdout.split(b"\njournal ")
    return (report + b"\n" if journals else report), len(journals)


class Tally:
    def __init__(self):
        self.passed = 0
        self.failed = 0

    def note(self, name, wanted, found):
        if wanted == found:
            self.passed += 1
            return
        self.failed += 1
        print(f"case {name}: wanted status {wanted[0]}, found {found[0]}")
        if wanted[1] != found[1]:
            print(f"  wanted {repr(wanted[1])[:400]}\n  found  {repr(found[1])[:400]}")


def run_folder(program, name, tally):
    folder = os.path.join(CASES, name)
    words = read(os.path.join(folder, "words")).decode().split("\n")[:-1]
    wanted = int(read(os.path.join(folder, "status"))), read(os.path.join(folder, "stdout"))
    tally.note(name, wanted, run(program, folder, words))


def front_of(prefix):
    """The whole draft at the front of a prefix, up to its last `end` line; before the first line ends, the draft without blocks."""
    ended = prefix.rfind(b"\nend\n")
    return b"draft 1\n" if ended < 0 else prefix[: ended + len(b"\nend\n")]


def run_draft(program, scratch, draft):
    with open(os.path.join(scratch, "b.draft"), "wb") as file:
        file.write(draft)
    return run(program, scratch, ["run", "--app", "a.app", "--blocks", "b.draft"])


def run_prefixes(program, name, tally):
    folder = os.path.join(CASES, name)
    whole = read(os.path.join(folder, "b.draft"))
    with tempfile.TemporaryDirectory() as scratch:
        shutil.copy(os.path.join(folder, "a.app"), scratch)
        for length in range(len(whole) + 1):
            prefix = whole[:length]
            front = front_of(prefix)
            status, done = run_draft(program, scratch, front)
            tally.note(f"{name}, the front at {length}", (0, True), (status, done.endswith(b"\ndone\n")))
            if prefix == front:
                continue
            stopped = b"stopped %d Truncated\n" % (prefix.count(b"\n") + 1)
            wanted = done[: -len(b"done\n")] + stopped
            tally.note(f"{name} at {length}", (5, wanted), run_draft(program, scratch, prefix))


def heads_in(text):
    """The lines of a file that stand at its edge, each with those below it that are indented."""
    heads = []
    for line in text.splitlines():
        if not line.startswith("  "):
            heads.append((line, []))
        else:
            heads[-1][1].append(line[2:])
    return heads


def calls_in(text):
    """The calls of a file, each with its outcome and the rows that go and come by it."""
    return [(call, said[0], sorted(said[1:])) for call, said in heads_in(text)]


def rows_of(report):
    return {line for line in report.decode().splitlines() if line.startswith("row ")}


def run_calls(program, name, tally):
    folder = os.path.join(CASES, name)
    draft = read(os.path.join(folder, "b.draft"))
    with tempfile.TemporaryDirectory() as scratch:
        shutil.copy(os.path.join(folder, "a.app"), scratch)
        before = rows_of(run_draft(program, scratch, draft)[1])
        for call, outcome, changes in calls_in(read(os.path.join(folder, "calls")).decode()):
            status, report = run_draft(program, scratch, draft + f"block 2\ntx x 1 {call}\nend\n".encode())
            after = rows_of(report)
            outcomes = [line[len("tx 1 x ") :] for line in report.decode().splitlines() if line.startswith("tx 1 x ")]
            found = sorted([f"- {row}" for row in before - after] + [f"+ {row}" for row in after - before])
            tally.note(f"{name}: {call}", (0, ([outcome], changes)), (status, (outcomes, found)))


def answer_of(said):
    """The status and the bytes of the answer that the lines below a query say."""
    if said and said[0].isalpha() and said[0] not in ("true", "false"):
        return 9, f"refused query {said[0]}\n".encode()
    return 0, "".join(f"{line}\n" for line in [f"answer {values}" for values in said] + ["done"]).encode()


def run_asks(program, name, tally):
    folder = os.path.join(CASES, name)
    files = ["--app", "a.app", "--blocks", "b.draft"]
    for ask, said in heads_in(read(os.path.join(folder, "asks")).decode()):
        height, text = ask.split(" ", 1)
        words = ["query", *files, "--height", height, "--text", text.replace("$", "\n")]
        tally.note(f"{name}: {ask}", answer_of(said), run(program, folder, words))


def lines_of(name):
    """The texts of a folder, each with the name of its file."""
    folder = os.path.join(CASES, name)
    for file_name in sorted(file for file in os.listdir(folder) if "." not in file):
        for line in read(os.path.join(folder, file_name)).decode().split("\n")[:-1]:
            yield file_name, line.replace("$", "\n").replace("`", "\t")


TOKEN = re.compile(r'x?"[^"\n]*"|[a-z][a-z0-9_]*|[0-9]+|!=|<=|>=|\+\+|[^\n]|')


def apart(text):
    """A text whose mark is gone and whose marked token stands on a line of its own, and the number of that line, or 0."""
    front, mark, rest = text.partition("@")
    if not mark:
        return text, 0
    token = TOKEN.match(rest).group()
    ended = f"{token}\n" if token else ""
    return f"{front}\n{ended}{rest[len(token):]}", front.count("\n") + 2


def run_faulty_applications(program, name, tally):
    with tempfile.TemporaryDirectory() as scratch:
        with open(os.path.join(scratch, "b.draft"), "wb") as file:
            file.write(b"draft 1\n")
        for file_name, line in lines_of(name):
            text, number = apart(line)
            with open(os.path.join(scratch, "a.app"), "wb") as file:
                file.write(text.encode())
            status, report = run(program, scratch, ["run", "--app", "a.app", "--blocks", "b.draft"])
            if number:
                tally.note(f"{name}, {file_name}: {line}", (4, b"refused application %d Syntax\n" % number), (status, report))
            else:
                tally.note(f"{name}, {file_name}: {line}", (True, False), (status in (0, 4), report.endswith(b" Syntax\n")))


def run_faulty_queries(program, name, tally):
    folder = os.path.join(CASES, name)
    files = ["--app", "a.app", "--blocks", "b.draft"]
    for kind, line in lines_of(name):
        wanted = (9, b"refused query %s\n" % kind.encode()) if "@" in line else (0, b"done\n")
        words = ["query", *files, "--height", "0", "--text", line.replace("@", "")]
        tally.note(f"{name}, {kind}: {line}", wanted, run(program, folder, words))


def run_known_writes(program, name, tally):
    folder = os.path.join(CASES, name)
    for count in (1, 2, 3, 5):
        files = ["--app", "a.app", "--blocks", f"{count}.draft"]
        head = read(os.path.join(folder, f"{count}.head")).decode().strip()
        status, heads = run(program, folder, ["checkpoint", *files, "--heads"])
        tally.note(f"{name}: head of {count}", (0, [b"heads 1", b"2 " + head.encode()]), (status, heads.splitlines()[::2]))
        for index in range(1, count + 1):
            file = f"{count}-{index}.proof"
            proved = run(program, folder, ["prove", *files, "--block", "2", "--write", str(index)])
            tally.note(f"{name}: {file}", (0, read(os.path.join(folder, file))), proved)
            for top, said in ((head, b"yes\n"), (64 * "0", b"no\n")):
                tally.note(f"{name}: {file} by {top}", (0, said), run(program, folder, ["verify", "--proof", file, "--head", top]))


def run_limits(program, tally):
    for name, files, wanted_status, is_wanted in limits.cases():
        with tempfile.TemporaryDirectory() as scratch:
            for file_name, content in files.items():
                with open(os.path.join(scratch, file_name), "wb") as file:
                    file.write(content)
            command = ["simulate", "--schedule", "s"] if "s" in files else ["run"]
            status, out = run(program, scratch, [*command, "--app", "a.app", "--blocks", "b.draft"])
            tally.note(name, (wanted_status, True), (status, is_wanted(out)))


def run_loads(program, tally):
    app = read(os.path.join(CASES, "stale-pay", "a.app"))
    for number in loads.NUMBERS:
        with tempfile.TemporaryDirectory() as scratch:
            for file_name, content in (("a.app", app), ("b.draft", loads.draft(number))):
                with open(os.path.join(scratch, file_name), "wb") as file:
                    file.write(content)
            status, report = run(program, scratch, ["run", "--app", "a.app", "--blocks", "b.draft", "--digests"])
            wanted = status, loads.summary(number, report)
            tally.note(f"load {number}", wanted, run(program, scratch, ["load", "--number", str(number)]))


def main():
    program = os.path.abspath(sys.argv[1])
    tally = Tally()
    for name in sorted(os.listdir(CASES)):
        if name == "prefixes-of-a-draft":
            run_prefixes(program, name, tally)
        elif name.startswith("calls-on-"):
            run_calls(program, name, tally)
        elif name.startswith("asks-on-"):
            run_asks(program, name, tally)
        elif name == "faults-of-applications":
            run_faulty_applications(program, name, tally)
        elif name == "faults-of-queries":
            run_faulty_queries(program, name, tally)
        elif name == "proofs-of-known-writes":
            run_known_writes(program, name, tally)
        else:
            run_folder(program, name, tally)
    run_limits(program, tally)
    run_loads(program, tally)
    print(f"{tally.passed} passed, {tally.failed} failed")
    sys.exit(1 if tally.failed or not tally.passed else 0)


if __name__ == "__main__":
    main()
