#!/usr/bin/env python3
"""Checks that the pages say what is there. It needs no built program and takes about a second.

Examples: in README.md, docs/GUIDE.md, docs/ABORTS.md, docs/FORMATS.md and docs/CODES.md each fenced example has a comment before it for each
file of tests/cases that it is, `<!-- case: NAME FILE -->`, or `<!-- case: NAME FILE 5-9 -->` for some lines of one, and is those bytes. Where
FILE is `words`, the example is the command line, `bcdb` and the words. A fence of the language `sh` without a comment is a command and no
example. The code of a result in docs/CODES.md has the digest that a case shows.
Outcomes: each row of the table of docs/ABORTS.md has the report's words, what to do now, a case whose report has the words, and a definition,
a function and a clause that stand in the files to which they are linked.
Crates: crates.txt has each crate under the comment of its level, docs/DESIGN.md has a row for each crate in the order of levels,
docs/crates.svg is what docs/draw_crates.py draws, and docs/PROVED.md has the table that docs/proved_crates.py writes: the head of each crate's
lib.rt, which has one to four sentences beside what it says is only tested.
Edits: each edit that docs/PLANTED.md names as a wrong body stands in the must-fail/ of its crate, and no other one does; a crate has at most eight in
refused/, and one without edits is named in docs/OPEN.md.
Names: each name in code in a row of docs/PROVED.md stands in that row's crate, and in the argument of that page in some crate. In
docs/DECISIONS.md each one stands in some crate, or is a file, a case or a command of the kit.
Let through: the table of docs/PROVED.md names exactly the functions that answer something and have no clause, crate by crate.
Links: each file that a page links to is there, and each heading.
Statuses: the table of docs/FORMATS.md has the numbers of crates/bcdb/src/status.rt and specs/Numbers.antt, and no more.
The claim: docs/CLAIM.md is what docs/claim_page.py writes, and README.md has the sizes that it counts.
Form: lines have at most 120 columns and sentences at most 40 words (tests/prose.py), and words that are not used any more stand nowhere.
Usage: tests/check_docs.py
"""
import difflib
import functools
import hashlib
import os
import re
import shlex
import sys

ROOT = os.path.dirname(os.path.dirname(os.path.abspath(__file__)))
CASES = os.path.join(ROOT, "tests", "cases")
sys.dont_write_bytecode = True
sys.path.insert(0, os.path.join(ROOT, "docs"))

import claim_page
import draw_crates
import proved_crates
import prose

WITH_EXAMPLES = ["README.md", "docs/GUIDE.md", "docs/ABORTS.md", "docs/FORMATS.md", "docs/CODES.md"]
FENCE = "`" * 3
UNUSED = ["want of memory"]
NAMED = re.compile(r"<!-- case: (\S+) (\S+)(?: (\d+)-(\d+))? -->")


class Tally:
    def __init__(self):
        self.passed = 0
        self.failed = 0

    def note(self, is_right, what):
        if is_right:
            self.passed += 1
        else:
            self.failed += 1
            print(what)


def read(name):
    with open(os.path.join(ROOT, name), encoding="utf-8") as file:
        return file.read()


def examples_of(page):
    """The line of each fence of a page, its language, the cases that are named before it and its text."""
    lines = read(page).split("\n")
    named, start = [], None
    for number, line in enumerate(lines, 1):
        if start is not None:
            if line == FENCE:
                yield start, lines[start - 1][len(FENCE) :], named, "".join(text + "\n" for text in lines[start : number - 1])
                named, start = [], None
        elif line.startswith(FENCE):
            start = number
        elif NAMED.fullmatch(line):
            named.append(NAMED.fullmatch(line).groups())
        elif line.strip():
            named = []


def text_of_case(name, file, first, last):
    """The bytes of a file of a case, or the lines of it from the first to the last, or the command line of its words."""
    path = os.path.join(CASES, name, file)
    if not os.path.isfile(path):
        return f"(no file {name}/{file} in tests/cases)"
    text = read(path)
    if file == "words":
        return "bcdb " + shlex.join(text.split("\n")[:-1]) + "\n"
    if first is None:
        return text
    return "".join(line + "\n" for line in text.split("\n")[int(first) - 1 : int(last)])


def difference(text, wanted):
    lines = difflib.unified_diff(text.split("\n"), wanted.split("\n"), "the page", "the case", lineterm="", n=1)
    return "\n".join(list(lines)[:20])


def check_examples(tally):
    for page in WITH_EXAMPLES:
        for line, language, named, text in examples_of(page):
            if not named:
                tally.note(language == "sh", f"{page}:{line}: this example names no case")
            for name, file, first, last in named:
                wanted = text_of_case(name, file, first, last)
                tally.note(text == wanted, f"{page}:{line}: the example is not {name}/{file}:\n{difference(text, wanted)}")


def check_code(tally):
    """The code of a block's result that CODES.md shows has the digest that the page and a case tell."""
    page = read("docs/CODES.md")
    lines = page.partition("has the code of 79 bytes\n\n")[2].split("\n\n")[0]
    code = bytes.fromhex("".join(lines.split()))
    digest = hashlib.sha256(bytes(32) + code).hexdigest()
    tally.note(len(code) == 79 and f"    {digest}\n" in page, "docs/CODES.md: the code of 79 bytes has another digest than the page says")
    tally.note(f"digest {digest}\n" in text_of_case("digest-of-one-insert", "stdout", None, None), "docs/CODES.md: the case has another digest")


def section_of(page, heading):
    return read(page).partition(f"\n{heading}\n")[2].split("\n## ")[0]


def rows_of(page, heading):
    """The cells of each row of the tables below a heading."""
    rows = [line for line in section_of(page, heading).split("\n") if line.startswith("|")]
    return [[cell.strip() for cell in re.split(r"(?<!\\)\|", row)[1:-1]] for row in rows[2:]]


def linked(cell):
    """The name and the path of each link of a cell whose text is code."""
    return [(name, os.path.normpath(os.path.join("docs", path))) for name, path in re.findall(r"\[`([^`]+)`\]\(([^)#]+)\)", cell)]


def has_words(words, report):
    """Whether a report has a line with these words, where each word in capitals stands for what a run fills in."""
    parts = [r".+" if word in ("KEY", "POSITIONS", '"TEXT"') else r"\S+" if word.isupper() else re.escape(word) for word in words.split(" ")]
    return re.search("^tx .* " + " ".join(parts) + "$", report, re.MULTILINE) is not None


def stands_in(path, *patterns):
    if not os.path.isfile(os.path.join(ROOT, path)):
        return False
    text = read(path)
    return all(re.search(pattern, text, re.MULTILINE) for pattern in patterns)


def clause_stands(path, function, clause):
    """Whether a clause stands between the head of a function and its body; a clause without a name is written `ensures`."""
    text = read(path) if os.path.isfile(os.path.join(ROOT, path)) else ""
    head = re.search(rf"\bfn {function}\b.*?\n\s*{{\n", text, re.DOTALL)
    wanted = r"ensures \{" if clause == "ensures" else rf"ensures {clause} \{{"
    return head is not None and re.search(wanted, head.group()) is not None


def check_outcomes(tally):
    rows = rows_of("docs/ABORTS.md", "## The outcomes")
    tally.note(len(rows) > 0, "docs/ABORTS.md: no table of outcomes")
    for words, _, advice, example, definition, function, clause in rows:
        words = words.strip("`")
        for name, path in linked(example):
            report = os.path.join(path, "stdout")
            tally.note(stands_in(report) and has_words(words, read(report)), f"docs/ABORTS.md: {name} has no `{words}`")
        for name, path in linked(definition):
            tally.note(stands_in(path, rf"^\s*abbrev pub {name} :"), f"docs/ABORTS.md: no {name} in {path}")
        for name, path in linked(function):
            is_there = clause_stands(path, name, clause.strip("`"))
            tally.note(is_there, f"docs/ABORTS.md: no {name} in {path} with the clause {clause}")
        full = advice and linked(example) and linked(definition) and linked(function)
        tally.note(full, f"docs/ABORTS.md: `{words}` has no advice, example, definition or function")


def levels_by_comment():
    """The level of each crate by the comment that it stands under in crates.txt."""
    level, levels = 0, {}
    for line in read("crates.txt").split("\n"):
        if line.startswith("# level "):
            level = int(line.split()[2].strip(":,."))
        elif ":" in line and not line.startswith("#"):
            levels[line.split(":")[0].split()[0]] = level
    return levels


def check_crates(tally):
    crates = draw_crates.read_crates()
    levels = draw_crates.levels_of(crates)
    commented = levels_by_comment()
    for name in crates:
        tally.note(commented[name] == levels[name], f"crates.txt: {name} is of level {levels[name]}, and stands under level {commented[name]}")
    rows = [(name.strip("`"), int(level)) for level, name, *_ in rows_of("docs/DESIGN.md", "## The crates and their layers")]
    listed = dict(rows)
    for name in crates:
        tally.note(listed.get(name) == levels[name], f"docs/DESIGN.md: {name} is of level {levels[name]}, and its row has {listed.get(name)}")
    in_order = all(before <= after for (_, before), (_, after) in zip(rows, rows[1:]))
    tally.note(in_order and len(rows) == len(crates), "docs/DESIGN.md: the table of crates is not in the order of levels, or has other rows")
    tally.note(read("docs/crates.svg") == draw_crates.picture(crates), "docs/crates.svg is not what docs/draw_crates.py draws")
    tally.note(read("docs/PROVED.md") == proved_crates.page(), "docs/PROVED.md is not what docs/proved_crates.py writes")
    for name in crates:
        said = proved_crates.head_of(name)[0]
        sentences = len(prose.END.split(said)) if said else 0
        tally.note(1 <= sentences <= 4, f"crates/{name}: the head of its lib.rt has {sentences} sentences, where one to four are wanted")


def heads_of(text):
    """Of each function of a file what it stands in, the line before it, its name and its head: all before its body, with its clauses."""
    lines, home = text.split("\n"), ""
    for number, line in enumerate(lines):
        if re.match(r"(pub )?(unsafe )?(impl|trait)\b", line):
            home = line
        elif line == "}":
            home = ""
        found = re.match(r"(\s*)(?:pub(?:\(\w+\))? )?(?:const )?(?:unsafe )?fn (\w+)", line)
        if found:
            ends = (at for at in range(number, len(lines)) if ends_head(lines[at], found.group(1)))
            yield home, lines[number - 1].strip(), found.group(2), "\n".join(lines[number : next(ends) + 1])


def ends_head(line, indent):
    return line in (indent + "{", indent + "{}") or line.endswith(";") or line.endswith(("{", "{}")) and not re.match(r"\s*(ensures|requires)\b", line)


def full_name(home, name):
    """The name of a function, after that of the type or the trait that it stands in."""
    owner = re.match(r"(?:pub )?(?:unsafe )?(?:impl|trait)(?:<[^>]*>)?\s*(\w+)", home)
    return f"{owner.group(1)}::{name}" if owner else name


def unsaid_in(crate):
    """The functions of a crate that answer something of which no clause says anything. What a trait asks of a body is said at the trait."""
    found = set()
    for folder, _, files in os.walk(os.path.join(ROOT, "crates", crate, "src")):
        for file in (name for name in files if name.endswith(".rt")):
            for home, mark, name, head in heads_of(read(os.path.join(folder, file))):
                if "->" in head and "ensures" not in head and " for " not in home and mark != "#[test]":
                    found.add(full_name(home, name))
    return found


def check_unsaid(tally):
    """The table of what is let through names exactly the functions that answer something without a clause, crate by crate."""
    page, crates = "docs/PROVED.md", [crate for crate in draw_crates.read_crates() if not crate.endswith("_tests")]
    rows = {re.findall(r"`(\w+)`", cells[0])[0]: cells for cells in rows_of(page, "## What is let through")}
    for crate in crates:
        named = set(re.findall(r"`([\w:]+)`", rows[crate][1])) if crate in rows else set()
        unsaid = unsaid_in(crate)
        for name in sorted(named ^ unsaid):
            tally.note(False, f"{page}: {name} of {crate} {'has a clause or is not there' if name in named else 'answers without a clause and is not named'}")
        tally.note(named == unsaid, f"{page}: what is let through in {crate} is another list")
        for name in re.findall(r"`([^`]+)`", rows[crate][2]) if crate in rows else []:
            is_there = os.path.exists(os.path.join(ROOT, name)) or (words_of(crate) | set(crates)).issuperset(re.findall(r"\w+", name))
            tally.note(is_there, f"{page}: {name} does not stand in {crate}")
    for crate in rows:
        tally.note(crate in crates, f"{page}: what is let through in {crate}, which is no crate")


@functools.lru_cache(None)
def words_of(crate):
    """All words of the files of a crate, and the names of these files."""
    found = set()
    for folder, inner, files in os.walk(os.path.join(ROOT, "crates", crate)):
        inner[:] = [name for name in inner if name != "out"]
        for file in files:
            found.update(re.findall(r"\w+", file + " " + read(os.path.join(folder, file))))
    return found


def check_names(tally):
    crates = set(draw_crates.read_crates())
    for cells in rows_of("docs/PROVED.md", "## Crate by crate"):
        known = crates.union(*(words_of(crate) for crate in re.findall(r"`(\w+)`", cells[0])))
        for name in re.findall(r"`([^`]+)`", " ".join(cells[1:])):
            is_there = os.path.exists(os.path.join(ROOT, name)) or known.issuperset(re.findall(r"\w+", name))
            tally.note(is_there, f"docs/PROVED.md: {name} does not stand in {cells[0]}")
    known = crates.union(*(words_of(crate) for crate in crates))
    for name in re.findall(r"`([^`]+)`", section_of("docs/PROVED.md", "## How the claim reaches real files")):
        tally.note(known.issuperset(re.findall(r"\w+", name)), f"docs/PROVED.md: {name} stands in no crate")
    for name in re.findall(r"`([^`]+)`", read("docs/DECISIONS.md")):
        is_there = os.path.exists(os.path.join(ROOT, name)) or os.path.isdir(os.path.join(CASES, name)) or name.startswith("rt ")
        tally.note(is_there or known.issuperset(re.findall(r"\w+", name)), f"docs/DECISIONS.md: {name} stands in no crate")


def pages():
    folders = [folder for folder in ("docs", "bench", "tests") if os.path.isdir(os.path.join(ROOT, folder))]
    return ["README.md"] + [f"{folder}/{name}" for folder in folders for name in sorted(os.listdir(os.path.join(ROOT, folder))) if name.endswith(".md")]


@functools.lru_cache(None)
def anchors(page):
    """The names by which the headings of a page are linked to."""
    heads = [line.lstrip("#") for _, line, kind in prose.kinds_of_lines(read(page)) if kind == "head"]
    return {re.sub(r"[^\w\- ]", "", head.strip().lower()).replace(" ", "-") for head in heads}


def edits_in(crate, kind):
    folder = os.path.join(ROOT, "crates", crate, kind)
    return {f"{crate}/{name.removesuffix('.edit')}" for name in os.listdir(folder)} if os.path.isdir(folder) else set()


def check_edits(tally):
    crates = draw_crates.read_crates()
    named = {name for row in rows_of("docs/PLANTED.md", "## Wrong bodies that the gate tries") for name in re.findall(r"^`(\w+/\w+)`$", row[1])}
    stand = set().union(*(edits_in(crate, "must-fail") for crate in crates))
    for name in sorted(named ^ stand):
        tally.note(False, f"{name} is a wrong body of docs/PLANTED.md and not in must-fail/, or the other way round")
    without = re.search(r"\n- \*\*((?:`\w+`(?:,| and)\s+)+`\w+`) have no edit that must be\s+refused", read("docs/OPEN.md"))
    excused = set(re.findall(r"`(\w+)`", without.group(1))) if without else set()
    for crate in crates:
        refused = edits_in(crate, "refused")
        tally.note(len(refused) <= 8, f"{crate} has {len(refused)} edits in refused/")
        has_some = bool(refused or edits_in(crate, "must-fail"))
        tally.note(has_some != (crate in excused), f"{crate} has no edit, or docs/OPEN.md says that it has none and it has")


def check_links(tally):
    for page in pages():
        for target, heading in re.findall(r"\]\(([^)#\s]*)#?([^)\s]*)\)", read(page)):
            if "://" not in target:
                path = os.path.normpath(os.path.join(os.path.dirname(page), target)) if target else page
                is_there = os.path.exists(os.path.join(ROOT, path))
                tally.note(is_there, f"{page}: a link to {target}, which is not there")
                if is_there and heading and path.endswith(".md"):
                    tally.note(heading in anchors(path), f"{page}: a link to {target}#{heading}, which is no heading there")


def check_statuses(tally):
    code = set(re.findall(r"^    (\w+) = (\d+),$", read("crates/bcdb/src/status.rt"), re.MULTILINE))
    defined = set(re.findall(r"^number_of_status (\w+) = (\d+)$", read("crates/bcdb/specs/Numbers.antt"), re.MULTILINE))
    tally.note(code == defined and code, "crates/bcdb: status.rt and Numbers.antt have other numbers")
    numbers = sorted(int(number) for _, number in code)
    shown = [int(row[0]) for row in rows_of("docs/FORMATS.md", "## Statuses (`bcdb`)") if row[0].isdigit()]
    tally.note(shown == numbers, f"docs/FORMATS.md: the table of statuses has {shown}, and there are {numbers}")


def check_claim(tally):
    try:
        tally.note(read("docs/CLAIM.md") == claim_page.page(), "docs/CLAIM.md is not what docs/claim_page.py writes")
    except claim_page.NotRead as error:
        tally.note(False, f"docs/claim_page.py: {error}")
        return
    page = " ".join(read("README.md").split())
    for definitions, lines in claim_page.sizes():
        is_there = f"{definitions:,} definitions with {lines:,} lines" in page
        tally.note(is_there, f"README.md: there are {definitions:,} definitions with {lines:,} lines")


def check_form(tally):
    for page in pages():
        text = read(page)
        for number in prose.wide_lines(text):
            tally.note(False, f"{page}:{number}: the line has more than {prose.WIDEST} columns")
        for number, sentence in prose.long_sentences(text):
            tally.note(False, f"{page}:{number}: a sentence has more than {prose.LONGEST} words: {sentence[:100]}")
        for words in UNUSED:
            tally.note(words not in " ".join(text.lower().split()), f"{page}: `{words}` is not used any more")


def main():
    tally = Tally()
    check_examples(tally)
    check_code(tally)
    check_outcomes(tally)
    check_crates(tally)
    check_edits(tally)
    check_names(tally)
    check_unsaid(tally)
    check_links(tally)
    check_statuses(tally)
    check_claim(tally)
    check_form(tally)
    print(f"{tally.passed} passed, {tally.failed} failed")
    sys.exit(1 if tally.failed or not tally.passed else 0)


if __name__ == "__main__":
    main()
