"""Reads the definition files of the crates (crates/*/specs), and finds what each definition uses, exactly.

A name that a definition uses is bound in it, defined in its file, imported or a word of the logic; any other is an error. An imported name
leads to a definition, to a type of the code, whose declaration is read from src/, or to a name of the kit.
"""
import functools
import os
import re

ROOT = os.path.dirname(os.path.dirname(os.path.abspath(__file__)))
TOKEN = re.compile(r'"(?:[^"\\]|\\.)*"|--[^\n]*|[(){}\[\],;]|[^\s(){}\[\],;"]+')
IMPORT = re.compile(r"(pub )?use ([^\s{}]+?)(?:\.\{([^}]*)\}| as (\S+))?$")
CLOSING = {"(": ")", "{": "}", "[": "]"}
WORDS = {"→", "×", "=", ":", "∥", "Type", "Unit", "tt", "⊥", "absurd", "_", "record", "where", "pub", "in", "."}
CONSTRUCTORS = {"zero", "suc", "true", "false", "[]", "∷", "pos", "negsuc"}


class NotRead(Exception):
    """A file has a form that is not read here, or uses a name that is defined nowhere."""


class Group:
    """Brackets, and what stands in them."""

    def __init__(self, bracket, items):
        self.bracket, self.items = bracket, items


def tree(text):
    """The words of a text, with what stands in brackets as groups."""
    stack = [Group("", [])]
    for token in TOKEN.findall(text):
        if token in CLOSING:
            stack.append(Group(token, []))
        elif token in CLOSING.values():
            group = stack.pop()
            stack[-1].items.append("[]" if group.bracket == "[" and not group.items else group)
        elif not token.startswith("--"):
            stack[-1].items.append(token)
    if len(stack) != 1:
        raise NotRead(f"brackets that are not closed: {text[:80]}")
    return stack[0].items


def bound_names(group):
    """The names that `(x y : T)` or `{x y : T}` binds, and T; no names where a group binds none."""
    items = group.items if isinstance(group, Group) else []
    at = items.index(":") if ":" in items else 0
    names = items[:at]
    is_binder = all(isinstance(name, str) and "." not in name for name in names)
    return (names, items[at + 1 :]) if is_binder and group.bracket != "[" else ([], items)


class Block:
    """Definitions with parameters in common (`module _ (..) where`), or that use each other (`abbrev mutual`)."""

    def __init__(self, line, comment):
        self.line, self.comment = line, comment
        self.is_mutual = line == "abbrev mutual"


class Definition:
    """A definition: its file, name, kind (abbrev, record, data or law), the block that it stands in, and its lines after its comment."""

    def __init__(self, file, name, kind, block, comment, line):
        self.file, self.name, self.kind, self.block, self.comment = file, name, kind, block, comment
        self.indent = len(line) - len(line.lstrip())
        self.parts, self.constructors = [[line]], []

    def key(self):
        return self.file.key, self.name

    def add(self, line):
        """A line of its text: one more part of it, or a line that goes on with the last part."""
        if len(line) - len(line.lstrip()) > self.indent or line.strip()[:1] in "})":
            self.parts[-1].append(line)
            found = re.match(r"\s+(\S+) :", line)
            if self.kind == "data" and found:
                self.constructors.append(found.group(1))
        else:
            self.parts.append([line])

    def lines(self):
        """Its comment and its text; of a law its statement alone, since no definition says what its proof does."""
        shown = self.parts[:1] if self.kind == "law" else self.parts
        return [line.rstrip() for line in self.comment + [line for part in shown for line in part]]


def is_signature(line):
    """Whether a line begins a definition, and is no equation of one."""
    if line.lstrip().startswith(("abbrev ", "unfoldable ", "pub ", "record ", "data ")):
        return True
    depth = 0
    for token in TOKEN.findall(line)[1:]:
        depth += (token in CLOSING) - (token in CLOSING.values())
        if depth == 0 and token not in CLOSING.values():
            return token == ":"
    return False


class File:
    """A definition file: what its head says, its definitions in order, and what the names that it imports lead to."""

    def __init__(self, crate, module):
        self.key = (crate, module)
        self.path = f"crates/{crate}/specs/{module.replace('.', '/')}.antt"
        self.head, self.definitions, self.constructors = [], {}, {}
        self.imports, self.modules = {}, {}
        self.block, self.comment, self.current = None, [], None
        with open(os.path.join(ROOT, self.path), encoding="utf-8") as file:
            lines = file.read().split("\n")
        while lines[0].startswith("--"):
            self.head.append(lines.pop(0)[2:].strip())
        for line in lines:
            self.add(line)
        for definition in self.definitions.values():
            self.constructors.update((name, definition) for name in definition.constructors)

    def add(self, line):
        text, indent = line.strip(), len(line) - len(line.lstrip())
        within = self.current is not None and indent > self.current.indent
        if text and indent == 0:
            self.block = None
        if not text or text.startswith("-- ----"):
            self.comment, self.current = [], None
        elif text.startswith(("use ", "pub use ")):
            self.add_import(text)
        elif within:
            self.current.add(line)
        elif text.startswith(("--", "infix")):
            self.comment, self.current = self.comment + [line], None
        elif text.startswith("module _") or text == "abbrev mutual":
            self.block, self.comment = Block(text, self.comment), []
        else:
            self.add_text(line)

    def add_text(self, line):
        if not is_signature(line):
            if self.current is None:
                raise NotRead(f"{self.path}: this stands in no definition: {line}")
            self.current.add(line)
            return
        words = line.replace("(", " (").replace("{", " {").split()
        kind = next((word for word in words[:3] if word in ("record", "data")), "law")
        if self.block and self.block.is_mutual or words[0] in ("abbrev", "unfoldable"):
            kind = "abbrev"
        name = next(word for word in words if word not in ("abbrev", "unfoldable", "pub", "record", "data"))
        self.current = Definition(self, name, kind, self.block, self.comment, line)
        self.definitions[name], self.comment = self.current, []

    def add_import(self, text):
        _, module, names, alias = IMPORT.match(text).groups()
        if names is None:
            self.modules[alias or module.split(".")[-1]] = module
        else:
            for name in names.split(","):
                first, _, other = name.strip().partition(" as ")
                self.imports[other or first] = (module, first)

    def meaning(self, name):
        """What a name that stands by itself leads to in this file, or nothing."""
        for known, meant in ((self.definitions, lambda d: d), (self.constructors, lambda d: d), (self.imports, lambda pair: member(*pair))):
            if name in known:
                return meant(known[name])
            for whole in known:
                if "◌" in whole and name in whole.split("◌"):
                    return meant(known[whole])
        return None

    def is_constructor(self, name):
        """Whether a name in a pattern is a constructor, and no variable."""
        if name in self.constructors:
            return True
        found = self.imports.get(name) or self.imports.get(f"◌{name}◌")
        return found is not None and (found[1][0].isupper() or name in CONSTRUCTORS)


@functools.lru_cache(None)
def file_of(crate, module):
    return File(crate, module)


class Kit:
    """A name of the kit."""

    def __init__(self, module, name):
        self.module, self.name = module, name

    def key(self):
        return self.module, self.name


class CodeType:
    """A type of the code, which definitions speak of: its declaration with its comments, or what contracts see of it."""

    def __init__(self, path, name):
        self.path, self.name, self.seen_as = path, name, None
        with open(os.path.join(ROOT, path), encoding="utf-8") as file:
            text = file.read()
        found = re.search(rf"^((?:///[^\n]*\n|#\[[^\n]*\]\n)*)(?:pub )?(struct|enum|trait) {name}\b(<[^\n]*?>)?[^;{{(]*", text, re.MULTILINE)
        if not found:
            raise NotRead(f"{path}: no type {name}")
        comment = [line for line in found.group(1).split("\n") if line.startswith("///")]
        self.lines = comment + self.declaration(text[found.start(2) :])
        model = re.search(rf"^impl(?:<[^\n]*>)? Model for {name}\b.*?^}}", text, re.MULTILINE | re.DOTALL)
        if model:
            self.seen_as = re.search(r"ghost Value = \{ (.*?) \};", model.group()).group(1)
            for name, alias in re.findall(r"\{(\w+) as (\w+)\}", model.group()):
                self.seen_as = re.sub(rf"\b{alias}\b", name, self.seen_as)

    def key(self):
        return self.path, self.name

    def declaration(self, text):
        depth = 0
        for at, char in enumerate(text):
            depth += (char in "({") - (char in ")}")
            if depth == 0 and (char == "}" or char == ";"):
                return text[: at + 1].split("\n")
        raise NotRead(f"{self.path}: the declaration of {self.name} has no end")

    def uses(self):
        """The types that its fields have, and what its invariants say."""
        if self.seen_as:
            return []
        text = "\n".join(line for line in self.lines if not line.strip().startswith("//"))
        names = re.findall(r"\b[A-Z]\w*", text.split("{", 1)[-1] if "{" in text else text.split("(", 1)[-1])
        found = [code_type_named(self.path, name) for name in names if name != self.name]
        return [kind for kind in found if kind] + self.invariants(text)

    def invariants(self, text):
        """The definitions that the ghost fields of a declaration name."""
        imported, found = {}, []
        for module, names in re.findall(r"^ghost use (Rattle[\w.]+)\.\{([^}]*)\};", code(self.path), re.MULTILINE):
            imported.update((name.strip(), module) for name in names.split(","))
        for clause in re.findall(r"^ +ghost \w+: \{(.*)\},", text, re.MULTILINE):
            for word in TOKEN.findall(clause):
                name = word if word in imported else f"◌{word}◌"
                found += [member(imported[name], name)] if name in imported else []
        return found


@functools.lru_cache(None)
def code_type(path, name):
    return CodeType(path, name)


@functools.lru_cache(None)
def code(path):
    with open(os.path.join(ROOT, path), encoding="utf-8") as file:
        return file.read()


def code_type_named(path, name):
    """The type that a name stands for in a file of code; none where it is one of the kit's or no type."""
    text = code(path)
    if re.search(rf"^(?:pub )?(struct|enum|trait) {name}\b", text, re.MULTILINE):
        return code_type(path, name)
    crate = path.split("/")[1]
    for module, names in re.findall(r"^use ([\w:]+?)::(?:\{([^}]*)\}|\w+);", text, re.MULTILINE):
        whole = re.search(rf"^use {module}::(\w+);", text, re.MULTILINE)
        listed = [part.strip() for part in names.split(",")] if names else [whole.group(1)] if whole else []
        if name in listed:
            return code_type_in(crate, module.split("::"), name)
    return None


def code_type_in(crate, module, name):
    if module[0] == "crate":
        return code_type_named(f"crates/{crate}/src/{module[1]}.rt", name)
    if not os.path.isdir(os.path.join(ROOT, "crates", module[0])):
        return None
    for part, names in re.findall(r"^pub use (\w+)::(?:\{([^}]*)\}|\w+);", code(f"crates/{module[0]}/src/lib.rt"), re.MULTILINE):
        listed = [item.strip() for item in names.split(",")] or [name]
        path = f"crates/{module[0]}/src/{part}.rt"
        if (name in listed or not names) and re.search(rf"^pub (struct|enum) {name}\b", code(path), re.MULTILINE):
            return code_type(path, name)
    return None


def is_ours(module):
    parts = module.split(".")
    return parts[0] == "Rattle" and len(parts) > 2 and os.path.isdir(os.path.join(ROOT, "crates", parts[1]))


@functools.lru_cache(None)
def member(module, name):
    """What a name of a module is: a definition, a type of the code or a name of the kit."""
    if not is_ours(module):
        return Kit(module, name)
    _, crate, _, *parts = module.split(".")
    if parts[0] in ("declared", "contracts"):
        return code_type(f"crates/{crate}/src/{parts[1]}.rt", parts[2] if len(parts) > 2 else name)
    kept = len(parts)
    while kept and not os.path.isfile(os.path.join(ROOT, "crates", crate, "specs", *parts[:kept]) + ".antt"):
        kept -= 1
    if not kept:
        raise NotRead(f"no file of {module}")
    file = file_of(crate, ".".join(parts[:kept]))
    found = file.meaning(parts[kept] if kept < len(parts) else name)
    if found is None:
        raise NotRead(f"{module} has no {name}")
    return found


class Uses:
    """What a definition uses, each with the constructors in the pattern of the equation that uses it."""

    def __init__(self, definition):
        self.definition, self.file = definition, definition.file
        self.found, self.pattern = [], ()
        self.read()

    def read(self):
        scope = set()
        if self.definition.block and not self.definition.block.is_mutual:
            for item in tree(self.definition.block.line)[2:-1]:
                names, kind = bound_names(item)
                self.term(kind, scope)
                scope |= set(names)
        first, *equations = ["\n".join(part) for part in self.definition.parts]
        scope |= self.signature(tree(first), scope)
        for equation in [] if self.definition.kind == "law" else equations:
            if not equation.strip().startswith("unfolding "):
                self.equation(tree(equation), scope)

    def signature(self, items, scope):
        """Reads the words after the name, and gives the names that it binds for the equations."""
        own = items.index(self.definition.name)
        rest = items[own + 1 :]
        if self.definition.kind == "record":
            return self.fields(rest, scope)
        if self.definition.kind == "data":
            rest = [item for item in rest if item not in self.definition.constructors]
        bound = set()
        for item in rest:
            names = bound_names(item)[0] if isinstance(item, Group) else []
            bound |= set(names) if isinstance(item, Group) and item.bracket == "{" else set()
        self.term(rest, scope, keeps=True)
        return bound

    def fields(self, items, scope):
        """A record: its parameters, and its fields, each of which those after it may name."""
        scope, part = set(scope), []
        for at, item in enumerate(items):
            if item == "pub" and at + 2 < len(items) and items[at + 2] == ":":
                self.term(part, scope)
                part, name = [], items[at + 1]
                scope.add(name)
            elif isinstance(item, Group) and item.bracket in "({" and "where" not in items[:at]:
                names, kind = bound_names(item)
                self.term(kind, scope)
                scope |= set(names)
            elif not (at > 0 and items[at - 1] == "pub"):
                part.append(item)
        self.term(part, scope)
        return set()

    def equation(self, items, scope):
        at = items.index("=")
        self.pattern, variables = (), set()
        self.patterns(items[:at], variables, self.definition.name.split("◌"))
        self.term(items[at + 1 :], scope | variables)
        self.pattern = ()

    def patterns(self, items, variables, own):
        for at, item in enumerate(items):
            if isinstance(item, Group):
                named = item.bracket == "{" and "=" in item.items
                self.patterns(item.items[2:] if named else item.items, variables, own)
            elif item in own or item in (",", "_") or item.isdigit():
                continue
            elif "." in item or self.file.is_constructor(item):
                self.pattern += ((self.name(item, set()).key()[1], item.split(".")[-1]),)
            else:
                variables.add(item)

    def term(self, items, scope, keeps=False):
        """Reads a term, in whose names from the left on each may bind some for those after it."""
        base, scope, at = set(scope), set(scope), 0
        while at < len(items):
            item = items[at]
            if isinstance(item, Group):
                self.group(item, items[:at], scope)
            elif item == "λ":
                at = self.binders(items, at + 1, scope)
            elif item == "let":
                at += 1
                scope.add(items[at])
            elif item in ("do", "←", "elim", "as"):
                pass
            elif items[at + 1 : at + 2] == ["←"]:
                scope.add(item)
            elif item in (",", ";"):
                scope = set(base)
            else:
                self.name(item, scope)
            at += 1

    def cases(self, items, scope):
        """The cases of an `elim`: patterns, each with a term after it."""
        case = []
        for item in items + ["|"]:
            if item == "|" and case:
                at, variables = case.index("↦"), set()
                self.patterns(case[:at], variables, [])
                self.term(case[at + 1 :], scope | variables)
            case = [] if item == "|" else case + [item]

    def group(self, group, before, scope):
        names, kind = bound_names(group)
        if group.bracket == "[":
            return self.cases(group.items, scope)
        is_record = "record" in before[-2:] and group.bracket == "{"
        if names and not is_record:
            self.term(kind, scope)
            scope |= set(names)
        elif is_record:
            part = []
            for item in group.items + [";"]:
                if item == ";":
                    self.term(part[2:], scope)
                    part = []
                else:
                    part.append(item)
        elif group.bracket == "{" and len(group.items) > 1 and group.items[1] == "=":
            self.term(group.items[2:], scope)
        else:
            self.term(group.items, scope)

    def binders(self, items, at, scope):
        """The names that a λ binds, up to the point after them."""
        while True:
            item = items[at]
            if isinstance(item, Group):
                names, kind = bound_names(item)
                self.term(kind if names else [], scope)
                scope |= set(names or item.items)
            else:
                scope.add(item.rstrip("."))
                if item.endswith("."):
                    return at
            at += 1

    def name(self, word, scope):
        head, *fields = word.split(".") if word.strip(".") else [word]
        if head in scope or head == "" or word in WORDS or head in WORDS or head.isdigit() or word.startswith('"'):
            return None
        if head in self.file.modules and fields:
            meant = member(self.file.modules[head], fields[0])
        else:
            meant = self.file.meaning(head)
        if meant is None:
            raise NotRead(f"{self.file.path}: {self.definition.name} uses {word}, which is defined nowhere")
        if meant is not self.definition:
            self.found.append((meant, self.pattern))
        return meant


@functools.lru_cache(None)
def uses_of(definition):
    """What a definition or a type of the code uses: pairs of that and the constructors of the equation that uses it."""
    if isinstance(definition, Definition):
        return Uses(definition).found
    return [(meant, ()) for meant in definition.uses()] if isinstance(definition, CodeType) else []
