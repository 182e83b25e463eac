#!/usr/bin/env python3
"""Writes the table of crates in docs/PROVED.md: of each crate, in the order of crates.txt, what the head of its lib.rt (or main.rt) says.

A head is the comment with which the file begins. It has one to four sentences, what the crate is for and what it promises, and after an empty line
maybe what is only tested.
Usage: docs/proved_crates.py [--check]   (--check compares the page that is stored, and writes nothing)
"""
import os
import re
import sys

sys.dont_write_bytecode = True

import draw_crates

ROOT = os.path.dirname(os.path.dirname(os.path.abspath(__file__)))
PAGE = os.path.join(ROOT, "docs", "PROVED.md")
HEADING = "\n## Crate by crate\n"
COLUMNS = "| crate | what it is for, and what it promises | only tested |\n|---|---|---|\n"
TESTED = "Only tested: "


def head_of(crate):
    """What the head of a crate says, and what it says is only tested."""
    folder = os.path.join(ROOT, "crates", crate, "src")
    path = next(path for name in ("lib.rt", "main.rt") if os.path.isfile(path := os.path.join(folder, name)))
    with open(path, encoding="utf-8") as file:
        comment = re.match(r"(?://!.*\n)*", file.read()).group()
    parts = [" ".join(part.split()) for part in comment.replace("//!", "").split("\n\n")]
    tested = [part.removeprefix(TESTED) for part in parts if part.startswith(TESTED)]
    return " ".join(part for part in parts if not part.startswith(TESTED)), " ".join(tested)


def row_of(crate):
    said, tested = head_of(crate)
    return f"| `{crate}` | {said} | {tested} |\n".replace("|  |", "| |")


def page():
    """The page with its table of crates as the heads have it."""
    with open(PAGE, encoding="utf-8") as file:
        before, heading, after = file.read().partition(HEADING)
    words, _, table = after.partition("\n\n|")
    rest = table.partition("\n\n")[2]
    return f"{before}{heading}{words}\n\n{COLUMNS}{''.join(map(row_of, draw_crates.read_crates()))}\n{rest}"


def main():
    made = page()
    if "--check" in sys.argv[1:]:
        with open(PAGE, encoding="utf-8") as file:
            sys.exit(0 if file.read() == made else "docs/PROVED.md is not what docs/proved_crates.py writes")
    with open(PAGE, "w", encoding="utf-8") as file:
        file.write(made)


if __name__ == "__main__":
    main()
