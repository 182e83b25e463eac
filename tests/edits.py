"""Edits: wrong bodies of functions, as files of crates/NAME/refused, and which of them can stand in one copy of their crate.

A file NAME.edit has the line `function: PATH`, which is the function that has to be refused, as a check prints it after `fn CRATE::`. Then come a line
`file: src/PATH` and pairs of lines `old: TEXT` and `new: TEXT`, as in the edits of must-fail/: each text of `old:` stands in the file exactly once, and
pairs apply in order. Of an edit within the body of its function no other proof can see anything, but for those of its cycle of calls. One that changes
what stands elsewhere, such as a constant, stands alone in its copy.
"""
import dataclasses
import os
import re

HEAD = re.compile(r"^( *)(?:pub(?:\([a-z: ]+\))? )?(?:const |unsafe )*fn (\w+)", re.MULTILINE)
CYCLE = re.compile(r"#\[cycle\((\w+)\)\]")


class Unfit(Exception):
    """Why an edit is none, or does not fit its crate."""


@dataclasses.dataclass(frozen=True)
class Change:
    file: str
    old: str
    new: str


@dataclasses.dataclass(frozen=True)
class Edit:
    name: str
    function: str
    changes: tuple
    text: str


def change_of(file, old, new):
    if file is None or not file.startswith("src/") or os.path.normpath(file) != file:
        raise Unfit("its `file:` line names no file of src/")
    if not old:
        raise Unfit("a `new:` line has no `old:` line before it")
    if old == new:
        raise Unfit("an `old:` and a `new:` text are the same")
    return Change(file, old, new)


def parse_edit(name, text):
    """The edit that a text says."""
    first, *lines = text.rstrip("\n").split("\n")
    if not re.fullmatch(r"function: [\w:+]+", first):
        raise Unfit("its first line is not `function: PATH`")
    file, old, changes = None, None, []
    for line in lines:
        word, _, rest = line.partition(":")
        rest = rest.removeprefix(" ")
        if word == "file":
            file = rest
        elif word == "old":
            old = rest
        elif word == "new":
            changes.append(change_of(file, old, rest))
            old = None
        else:
            raise Unfit(f"it has the line `{line}`, which says nothing")
    if not changes or old is not None:
        raise Unfit("it has no whole pair of `old:` and `new:`")
    return Edit(name, first.removeprefix("function: "), tuple(changes), text)


def put(texts, edit):
    """The texts by file with an edit, of which it has to change each place exactly once."""
    made = dict(texts)
    for change in edit.changes:
        found = made.get(change.file, "").count(change.old)
        if found != 1:
            raise Unfit(f"its text `{change.old.strip()}` stands in {change.file} {found} times, and not once")
        made[change.file] = made[change.file].replace(change.old, change.new)
    return made


def body_of(text, head):
    """Where the body begins and ends of the function with this head, whose braces stand at its own depth."""
    indent = head.group(1)
    opening = re.compile(rf"^{indent}{{$|^{indent}\S.* {{$", re.MULTILINE).search(text, head.start())
    ending = re.compile(rf"^{indent}}}$", re.MULTILINE).search(text, head.end())
    if opening is None or ending is None or ending.start() < opening.end():
        return None
    return opening.end(), ending.start()


def cycle_of(text, head):
    """The cycle of calls that the function with this head names in the lines right above it."""
    above = text[: head.start()].split("\n\n")[-1].rpartition("}\n")[2]
    named = CYCLE.search(above)
    return None if named is None else named.group(1)


def enclosing_name(function):
    """The name of a function, or of the one around a closure."""
    parts = function.split("::")
    return parts[parts.index("fn") + 1] if "fn" in parts[:-1] else parts[-1]


def owned_by(texts, edit):
    """What an edit may not share with another one of its copy: its function, and the body that it changes or the cycle of calls of that one. It is None
    where the edit changes anything but the body of its function."""
    owned = {edit.function}
    for change in edit.changes:
        text = texts[change.file]
        place = text.index(change.old)
        heads = [head for head in HEAD.finditer(text) if head.start() < place]
        body = body_of(text, heads[-1]) if heads else None
        if body is None or place < body[0] or body[1] < place + len(change.old):
            return None
        if enclosing_name(edit.function) != heads[-1].group(2):
            return None
        owned.add(("cycle", cycle_of(text, heads[-1])) if cycle_of(text, heads[-1]) else (change.file, heads[-1].start()))
        texts = put(texts, dataclasses.replace(edit, changes=(change,)))
    return owned if len(owned) == 2 else None


def together(texts, edits):
    """As many edits as can stand in one copy, and the other ones."""
    chosen, left, taken, made = [], [], set(), texts
    for edit in edits:
        owned = owned_by(texts, edit)
        is_free = not chosen or owned is not None and taken is not None and not owned & taken
        try:
            made = put(made, edit) if is_free else made
        except Unfit:
            is_free = False
        if is_free:
            chosen.append(edit)
            taken = None if owned is None else taken | owned
        else:
            left.append(edit)
    return chosen, left
