#!/usr/bin/env python3
"""Writes docs/CLAIM.md: each definition that the contract of the top call needs, once, in layers and in the order of use. It also puts the
sizes that it counts into README.md, and prints them by part, with the longest definitions.

The page begins with the names of the contract (crates/bcdb/src/top.rt) and has what these need, and what that needs, up to names of the
kit, which it lists. A name that leads nowhere, a root that is not there, and a name of the kit without its line are errors.
Usage: docs/claim_page.py [--check]   (--check compares the page that is stored, and writes nothing)
"""
import os
import re
import sys
import textwrap

sys.dont_write_bytecode = True
sys.setrecursionlimit(10000)

from claim_text import AFTER, COMMANDS, HEAD, KIT, LAYERS
from definitions import ROOT, CodeType, Definition, Kit, NotRead, file_of, member, uses_of

PAGE = os.path.join(ROOT, "docs", "CLAIM.md")
TOP = "crates/bcdb/src/top.rt"


def contract():
    """The clauses of the top call as they stand, and the definitions that they name, by the name of the clause."""
    with open(os.path.join(ROOT, TOP), encoding="utf-8") as file:
        text = file.read()
    imported = {}
    for module, names in re.findall(r"^ghost use ([\w.]+)\.\{([^}]*)\};", text, re.MULTILINE):
        imported.update((name.strip(), module) for name in names.split(","))
    clauses = re.search(r"^pub fn bcdb<.*?^\{\n", text, re.MULTILINE | re.DOTALL).group()
    named = {}
    for label, body in re.findall(r"^    (?:requires|ensures) (\w+) \{(.*?)\}$", clauses, re.MULTILINE | re.DOTALL):
        found = [member(imported[name], name) for name in re.findall(r"[\w◌]+", body) if name in imported]
        named[label] = [meant for meant in found if isinstance(meant, Definition)]
    return clauses.rstrip("{\n"), named


class Walk:
    """Goes over what definitions use, each after all that it uses, and keeps what belongs to other commands for later."""

    def __init__(self):
        self.placed, self.users, self.later = {}, {}, {}

    def command_of(self, pattern):
        """The other command of which an equation speaks that has these constructors in its pattern."""
        return next((COMMANDS[kind][name] for kind, name in pattern if name in COMMANDS.get(kind, {})), None)

    def go_from(self, roots, part, command=None):
        for each in roots:
            self.go(each, part, command)

    def go(self, meant, part, command):
        if isinstance(meant, Kit) or meant in self.placed:
            return
        self.placed[meant] = part
        for other, pattern in uses_of(meant):
            self.users.setdefault(other, {})[meant] = True
            asking = self.command_of(pattern)
            if asking in (None, command):
                self.go(other, part, command)
            else:
                self.later.setdefault(asking, []).append(other)


class Part:
    """A part of a layer: its title, and the definitions and types that stand in it."""

    def __init__(self, title, roots):
        self.title, self.roots, self.definitions, self.types = title, roots, [], []


def root(name):
    crate, module, definition = name.split(".")
    found = file_of(crate, module).definitions.get(definition)
    if found is None:
        raise NotRead(f"claim_text.py: there is no {name}")
    return found


def parts_of_page():
    """The contract, the layers with their parts, in which each definition and type has its place, and the walk that found them."""
    clauses, named = contract()
    walk = Walk()
    layers = [(title, text, [Part(name, [root(each) for each in roots]) for name, roots in groups]) for title, text, groups in LAYERS]
    last = layers[-1][2][-1]
    last.roots += [each for label, found in named.items() if label not in COMMANDS["clauses"] for each in found]
    for part in [part for _, _, parts in layers for part in parts]:
        walk.go_from(part.roots, part)
    layers.append(("Other commands", AFTER, other_commands(walk, named)))
    for each, part in walk.placed.items():
        (part.types if isinstance(each, CodeType) else part.definitions).append(each)
    check_whole(walk)
    return clauses, layers, walk


def other_commands(walk, named):
    """A part for each other command, in which what its equations and clauses need has its place."""
    parts = []
    for command in dict.fromkeys(COMMANDS["Settings"].values()):
        part = Part(command.capitalize(), walk.later.pop(command, []))
        part.roots += [each for label, found in named.items() if COMMANDS["clauses"].get(label) == command for each in found]
        walk.go_from(part.roots, part, command)
        parts.append(part)
    return parts


def check_whole(walk):
    """Each name that stands on the page is explained there."""
    for each in walk.placed:
        for other, _ in uses_of(each):
            if isinstance(other, Kit) and other.name not in KIT:
                raise NotRead(f"claim_text.py: {other.name} of {other.module}, which {each.key()} uses, has no line in KIT")
            if not isinstance(other, Kit) and other not in walk.placed:
                raise NotRead(f"{other.key()}, which {each.key()} uses, is not on the page")


def files_in_order(part, walk):
    """The files of a part, each after those that it uses, in the order of use."""
    order, seen = [], set()
    within = set(part.definitions)

    def visit(file):
        if file in seen:
            return
        seen.add(file)
        for definition in file.definitions.values():
            for other, _ in uses_of(definition) if definition in within else []:
                if other in within:
                    visit(other.file)
        order.append(file)

    for definition in part.definitions:
        visit(definition.file)
    return order


def helpers_of(part, walk):
    """The definitions of a part that one definition of their file alone uses, by that one."""
    helpers = {}
    for each in part.definitions:
        user, *others = [*walk.users.get(each, {}), None]
        if others == [None] and is_helper(each, user, part, walk):
            helpers.setdefault(user, []).append(each)
    return helpers


def is_helper(each, user, part, walk):
    is_near = isinstance(user, Definition) and user.file is each.file and user.block is each.block and walk.placed[user] is part
    return is_near and not (each.block and each.block.is_mutual)


def text_of(definition, helpers, depth):
    """The lines of a definition, and indented under it those of its helpers, in the order in which it uses them."""
    lines = ["  " * depth + line for line in definition.lines()]
    order = [other for other, _ in uses_of(definition)]
    for each in sorted(helpers.get(definition, []), key=order.index):
        lines += [""] + text_of(each, helpers, depth + 1)
    return lines


def add_homes(part, homes):
    """Notes where the names that a part defines or uses stand, by the name."""
    for each in part.definitions + part.types:
        for other in [each] + [other for other, _ in uses_of(each)]:
            if not (isinstance(other, CodeType) and other.seen_as):
                homes.setdefault(other.name, set()).add(home(other))


def home(meant):
    """Where the reader finds a name: a file of definitions, a file of code, or the kit."""
    if isinstance(meant, Kit):
        return "the kit"
    return short(meant.file) if isinstance(meant, Definition) else meant.path.removeprefix("crates/")


def short(file):
    return f"{file.key[0]}/{file.key[1].replace('.', '/')}"


def which(definitions, file, homes):
    """A sentence on the names that a section uses and that had several meanings on the page so far: where they stand."""
    places = {}
    for definition in definitions:
        for other, _ in uses_of(definition):
            if len(homes.get(other.name, ())) > 1 and home(other) != short(file):
                places.setdefault(home(other), {})[f"`{other.name.strip('◌')}`"] = True
    parts = [f"{place} ({', '.join(names)})" for place, names in places.items()]
    return textwrap.wrap(f"Of names with several meanings these are meant here: {'; '.join(parts)}.", 120) if parts else []


def section(file, part, helpers, homes):
    """The definitions of a part that stand in one file, under what the head of the file says."""
    below = {each for found in helpers.values() for each in found}
    lines, block = [], None
    for definition in file.definitions.values():
        if definition in part.members and definition not in below:
            if definition.block is not block and definition.block:
                lines += [""] + definition.block.comment + [definition.block.line]
            block = definition.block
            lines += [""] + text_of(definition, helpers, 0)
    shown = [each for each in file.definitions.values() if each in part.members]
    head = textwrap.wrap(" ".join(file.head), 120, break_long_words=False, break_on_hyphens=False)
    note = which(shown, file, homes)
    return [f"#### [{short(file)}](../{file.path})", ""] + head + [""] + (note + [""] if note else []) + ["```agda"] + lines[1:] + ["```", ""]


def types_section(types):
    """The declarations of types of the program, by file."""
    shown = [each for each in types if each.seen_as is None]
    lines, path = [], None
    for each in shown:
        if each.path != path:
            lines += ([""] if lines else []) + [f"// {each.path.removeprefix('crates/')}"]
            path = each.path
        lines += each.lines
    return ["Types of the program:", "", "```rust"] + lines + ["```", ""] if shown else []


def size(parts):
    """How many definitions and lines some parts have, and how many types and lines of types."""
    definitions = [each for part in parts for each in part.definitions]
    types = [each for part in parts for each in part.types if each.seen_as is None]
    return len(definitions), sum(len(each.lines()) for each in definitions), len(types), sum(len(each.lines) for each in types)


def sizes():
    """The definitions and lines of layer 1, of a run's whole contract and of all that stands on the page."""
    _, layers, _ = parts_of_page()
    return [size([part for _, _, parts in layers[:upto] for part in parts])[:2] for upto in (1, len(layers) - 1, len(layers))]


def layers_table(layers):
    rows, before = [], []
    for title, _, parts in layers:
        before += parts
        count, lines, types, type_lines = size(parts)
        rows.append(f"| {title} | {count} | {lines:,} | {types} with {type_lines} lines |")
    count, lines, types, type_lines = size(before)
    return "\n".join(rows + [f"| all | {count:,} | {lines:,} | {types} with {type_lines:,} lines |"])


def seen_table(walk):
    """The types that contracts see as something else, by what they see."""
    seen = {}
    for each in walk.placed:
        if isinstance(each, CodeType) and each.seen_as:
            seen[each.name] = f"`{each.seen_as}`"
    return "\n".join(f"| `{name}` | {seen[name]} |" for name in sorted(seen))


def kit_table(walk):
    used = {other.name for each in walk.placed for other, _ in uses_of(each) if isinstance(other, Kit)}
    unused = sorted(set(KIT) - used)
    if unused:
        raise NotRead(f"claim_text.py: no definition uses {', '.join(unused)} of KIT")
    return "\n".join(f"| `{name.strip('◌').replace('|', chr(92) + '|')}` | {meaning} |" for name, meaning in KIT.items())


def page():
    clauses, layers, walk = parts_of_page()
    text = HEAD.format(top=TOP, contract=clauses, layers=layers_table(layers), seen=seen_table(walk), kit=kit_table(walk))
    lines, homes = text.rstrip().split("\n") + [""], {}
    for title, words, parts in layers:
        lines += [f"## {title}", ""] + textwrap.wrap(words, 120) + [""]
        for part in parts:
            add_homes(part, homes)
            part.members = set(part.definitions)
            count, length, *_ = size([part])
            lines += [f"### {part.title}", ""]
            lines += [f"{count} definitions, {length} lines." if count else "Nothing more.", ""]
            lines += types_section(part.types)
            helpers = helpers_of(part, walk)
            for file in files_in_order(part, walk):
                lines += section(file, part, helpers, homes)
    return "\n".join(lines).rstrip() + "\n"


def mend_readme():
    """Puts the sizes of the definitions into README.md, where it tells them, in their order."""
    path = os.path.join(ROOT, "README.md")
    with open(path, encoding="utf-8") as file:
        text = file.read()
    left = sizes()

    def mended(found):
        definitions, lines = left.pop(0)
        return f"{definitions:,}{found[1]}{lines:,}{found[2]}"

    with open(path, "w", encoding="utf-8") as file:
        file.write(re.sub(r"[\d,]+(\s+definitions\s+with\s+)[\d,]+(\s+lines)", mended, text))


def print_counts():
    _, layers, walk = parts_of_page()
    for title, _, parts in layers:
        count, lines, types, type_lines = size(parts)
        print(f"{count:5} definitions {lines:6,} lines, {types:3} types {type_lines:4} lines  {title}")
        for part in parts:
            print(f"{size([part])[0]:5} {'':11} {size([part])[1]:6,} {'':28} {part.title}")
    for what, (count, lines) in zip(("layer 1", "a run's contract", "all"), sizes()):
        print(f"{what}: {count:,} definitions with {lines:,} lines")
    longest = sorted((each for each in walk.placed if isinstance(each, Definition)), key=lambda each: -len(each.lines()))[:12]
    print("longest:", ", ".join(f"{each.name} {len(each.lines())}" for each in longest))


def main():
    text = page()
    if "--check" in sys.argv:
        with open(PAGE, encoding="utf-8") as file:
            same = file.read() == text
        print("docs/CLAIM.md is what docs/claim_page.py writes" if same else "docs/CLAIM.md is another: run docs/claim_page.py")
        sys.exit(0 if same else 1)
    with open(PAGE, "w", encoding="utf-8") as file:
        file.write(text)
    mend_readme()
    print_counts()


if __name__ == "__main__":
    try:
        main()
    except NotRead as error:
        sys.exit(f"docs/claim_page.py: {error}")
