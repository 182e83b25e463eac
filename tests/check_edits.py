#!/usr/bin/env python3
"""Tries the edits of crates/NAME/refused: wrong bodies, each of which the contract of the function that it names has to refuse (tests/edits.py).

All edits of a crate that change different functions are put into one copy of it. A check proves these functions alone, over the libraries that `rt ci` left
in the checkout, and says of each function what became of it. An edit passes only where its own function is refused: one of its own goals is not proved. That
the function calls one that is not proved says nothing, so such an edit is tried again without those that were refused. An edit that does not compile,
or a name that is no function, hides what becomes of the others, which are tried by halves. Each of these fails the edit. So does a function that stays
proved, or is refused only since its proof names what the edit took away, a limit that the prover meets, and a text that does not stand in its file exactly
once.
What was refused is kept on this machine, under a sum of all that the check read, and is not tried again; `--anew` tries all.
Where no crates are named, the checker itself is tried first, on a crate of three functions. The last line is `edits: N refused, M not`, and M has to be 0.
Usage: check_edits.py [--anew] [--jobs N] [CRATE..]
"""
import argparse
import concurrent.futures
import functools
import hashlib
import os
import re
import shutil
import signal
import subprocess
import sys
import tempfile

sys.dont_write_bytecode = True

import edits as edits_of
import lanes
from edits import Unfit

ROOT = os.path.dirname(os.path.dirname(os.path.abspath(__file__)))
KIT = os.path.dirname(os.path.dirname(os.path.realpath(shutil.which("rattle") or "/opt/rattle/bin/rattle")))
RATTLE = os.path.join(KIT, "bin", "rattle")
PARTS = ("src", "specs", "proofs")
REFUSED, HIDDEN, KILLED = "refused", "what it calls is refused, and not the function itself", "its check was killed"


# What the prover says of a name that it does not find, and of a declaration that it leaves unchecked since that names a refused one. That a variable is not
# in scope at a hole is said beside goals, and takes no name away.
NAMES = re.compile(r"has no ([a-z]+ )*`|no [a-z, ]+ `[^`]+` is in scope|is not in scope(?! at this hole)|is no name|was (not admitted|rejected)")


class Crate:
    """A crate of a checkout: what it is checked from and over."""

    def __init__(self, root, name, uses):
        self.name, self.uses = name, uses
        self.folder = os.path.join(root, "crates", name)

    def below(self, crates):
        """The names of the checkout's libraries that it stands on, in order."""
        found = set()
        for name in self.uses:
            if name in crates:
                found |= {name, *crates[name].below(crates)}
        return sorted(found)

    def rlib(self):
        return os.path.join(self.folder, "out", "rlib", self.name + ".rlib")

    def files(self):
        """The bytes of its files, by their path in it."""
        found = {}
        for part in PARTS:
            for folder, _, names in os.walk(os.path.join(self.folder, part)):
                for name in names:
                    path = os.path.join(folder, name)
                    with open(path, "rb") as file:
                        found[os.path.relpath(path, self.folder)] = file.read()
        return found

    def words(self, crates, functions):
        """The command that proves these functions of the crate in the current folder."""
        root = "src/main.rt" if os.path.isfile(os.path.join(self.folder, "src", "main.rt")) else "src/lib.rt"
        words = [RATTLE, "check", "--crate-name", self.name, root]
        for name in ["std", *self.uses]:
            rlib = crates[name].rlib() if name in crates else os.path.join(KIT, "rlibs", name + ".rlib")
            words += ["--extern", f"{name}={rlib}"]
        for folder in [os.path.join(KIT, "rlibs"), *(os.path.dirname(crates[name].rlib()) for name in self.below(crates))]:
            words += ["-L", f"dependency={folder}"]
        words += ["--antt-project", os.path.join(KIT, "rattle", "logic", "antt-project.json")]
        words += ["--logic-built", os.path.join(KIT, "logic_built"), "--links", self.name + "=", "--jobs", "1"]
        return words + [word for function in functions for word in ("--only", function)]


def crates_of(root):
    """The crates of a checkout by name, from its crates.txt."""
    crates = {}
    with open(os.path.join(root, "crates.txt"), encoding="utf-8") as file:
        for line in file:
            head, colon, uses = line.partition("#")[0].partition(":")
            if colon:
                name = head.split()[0]
                crates[name] = Crate(root, name, uses.split())
    return crates


class Said:
    """What a check printed."""

    def __init__(self, crate, status, text):
        self.crate, self.status = crate, status
        self.lines = text.split("\n")
        self.ended = any(re.fullmatch(r"only=\d+ proved=\d+.*", line) for line in self.lines)

    def fault(self):
        """Why the check came to no verdict on any function."""
        told = [line for line in self.lines if "error" in line] or self.lines
        return told[0][:200]

    def verdict(self, edit):
        """Whether the edit is refused, and why not."""
        name = f"{self.crate}::{edit.function}"
        verdicts = [line.removeprefix(f"fn {name}: ") for line in self.lines if line.startswith(f"fn {name}: ")]
        if len(verdicts) != 1:
            return f"the check says nothing of {edit.function}"
        (verdict,) = verdicts
        if re.match("proved(,|$)", verdict):
            return f"{edit.function} is still proved"
        if "it calls" in verdict:
            return f"{HIDDEN}: {verdict}"
        if re.match("not proved(,|$)", verdict):
            return self.own_error(edit.function)
        return REFUSED if re.match("no proof: expected answers in .*; `search` did not prove", verdict) else verdict

    def errors(self):
        """The errors in proofs, each on one line with the lines that follow it, which are indented."""
        told = re.split(r"\n(?! )", "\n".join(self.lines))
        joined = [re.sub(r"\n +", " ", message).removeprefix("./") for message in told]
        return [message for message in joined if re.match(r"proofs/\S*: error: ", message)]

    def own_error(self, function):
        """Whether a goal of the function itself fails, as an error in its own proof says that speaks of more than names."""
        folder = "proofs/" + function.replace("::", "/") + "/"
        own = [error for error in self.errors() if error.startswith(folder) or "/+" in error.partition(":")[0]]
        if not own:
            return f"nothing says which goal of {function} fails"
        return REFUSED if any(not NAMES.search(error) for error in own) else f"its proof only names what the edit took away: {own[0][:200]}"


class Trial:
    """The edits of a crate, the processor time of their checks, and what became of each."""

    def __init__(self, crates, crate, told):
        self.crates, self.crate, self.told = crates, crate, told
        self.files = crate.files()
        self.texts = {path: text.decode() for path, text in self.files.items() if path.startswith("src/")}
        self.verdicts, self.checks, self.seconds = {}, 0, 0.0

    def check(self, texts, functions):
        """What a check says of these functions in a copy of the crate with these texts."""
        self.checks += 1
        with tempfile.TemporaryDirectory(prefix="edits-") as room:
            for path, content in {**self.files, **{path: text.encode() for path, text in texts.items()}}.items():
                os.makedirs(os.path.dirname(os.path.join(room, path)), exist_ok=True)
                with open(os.path.join(room, path), "wb") as file:
                    file.write(content)
            with tempfile.TemporaryFile() as out:
                words = self.crate.words(self.crates, functions)
                child = subprocess.Popen(words, cwd=room, stdin=subprocess.DEVNULL, stdout=out, stderr=subprocess.STDOUT)
                _, status, used = os.wait4(child.pid, 0)
                child.returncode = os.waitstatus_to_exitcode(status)
                self.seconds += used.ru_utime + used.ru_stime
                out.seek(0)
                text = out.read().decode(errors="replace")
        if self.told:
            with open(os.path.join(self.told, f"{self.crate.name}.{self.checks}"), "w", encoding="utf-8") as file:
                file.write(text)
        return Said(self.crate.name, child.returncode, text)

    def settle(self, edits):
        """Tries edits that stand in one copy, and again in parts where they hide each other."""
        texts = functools.reduce(edits_of.put, edits, self.texts)
        said = self.check(texts, sorted({edit.function for edit in edits}))
        if said.status == -signal.SIGKILL:
            self.verdicts.update((edit, KILLED) for edit in edits)
        elif not said.ended and len(edits) > 1:
            self.settle(edits[: len(edits) // 2])
            self.settle(edits[len(edits) // 2 :])
        elif not said.ended:
            self.verdicts[edits[0]] = f"no verdict: {said.fault()}"
        else:
            self.verdicts.update((edit, said.verdict(edit)) for edit in edits)
            hidden = [edit for edit in edits if self.verdicts[edit].startswith(HIDDEN)]
            if hidden and len(hidden) < len(edits):
                self.settle(hidden)

    def settle_all(self, edits):
        while edits:
            chosen, edits = edits_of.together(self.texts, edits)
            self.settle(chosen)


class Kept:
    """The sums of what was refused on this machine, as empty files of a folder."""

    def __init__(self, crates, is_anew):
        self.crates, self.is_anew, self.folder = crates, is_anew, None
        beside = os.path.join(os.path.dirname(KIT), "rattle-kept")
        cache = os.environ.get("XDG_CACHE_HOME") or os.path.expanduser("~/.cache")
        place = os.path.join(beside if os.access(beside, os.W_OK) else cache, "refused-edits")
        try:
            os.makedirs(place, 0o700, exist_ok=True)
            self.folder = place if os.stat(place).st_uid == os.geteuid() else None
        except OSError:
            pass

    def sum_of(self, crate):
        """The sum of all that a check of the crate reads but its edit."""
        total = hashlib.sha256(kit_sum().encode())
        for path, content in sorted(crate.files().items()):
            total.update(repr((path, content)).encode())
        for name in crate.below(self.crates):
            total.update(f"{name} {library_sum(self.crates[name].rlib())}\n".encode())
        total.update(repr((crate.name, crate.uses)).encode())
        return total.hexdigest()

    def place(self, total, edit):
        return os.path.join(self.folder, hashlib.sha256(repr((total, edit.name, edit.text)).encode()).hexdigest())

    def has(self, total, edit):
        return self.folder is not None and not self.is_anew and os.path.exists(self.place(total, edit))

    def keep(self, crate, total, refused):
        """Keeps what was refused, unless a file changed meanwhile."""
        library_sum.cache_clear()
        if self.folder is not None and self.sum_of(crate) == total:
            for edit in refused:
                with open(self.place(total, edit), "w", encoding="utf-8"):
                    pass


@functools.lru_cache(None)
def kit_sum():
    """A sum that names the prover and this checker."""
    total = hashlib.sha256()
    for path in (os.path.join(KIT, "KIT-ID"), os.path.join(KIT, "WHAT"), edits_of.__file__, os.path.abspath(__file__)):
        with open(path, "rb") as file:
            total.update(file.read())
    prover = os.stat(RATTLE)
    total.update(f"{prover.st_size} {prover.st_mtime_ns}".encode())
    return total.hexdigest()


@functools.lru_cache(None)
def library_sum(folder):
    """A sum of the files of a built library."""
    total = hashlib.sha256()
    for inner, folders, names in os.walk(folder):
        folders.sort()
        for name in sorted(names):
            path = os.path.join(inner, name)
            with open(path, "rb") as file:
                total.update(f"{os.path.relpath(path, folder)} {hashlib.sha256(file.read()).hexdigest()}\n".encode())
    return total.hexdigest()


def read_edits(crate, texts):
    """The edits of a crate, and what is wrong with the files that are none, by name."""
    edits, faults = [], {}
    folder = os.path.join(crate.folder, "refused")
    for name in sorted(os.listdir(folder)) if os.path.isdir(folder) else []:
        try:
            if not name.endswith(".edit"):
                raise Unfit("its name does not end with .edit")
            with open(os.path.join(folder, name), encoding="utf-8") as file:
                edit = edits_of.parse_edit(name.removesuffix(".edit"), file.read())
            edits_of.put(texts, edit)
            edits.append(edit)
        except Unfit as fault:
            faults[name.removesuffix(".edit")] = str(fault)
    return edits, faults


def lacking(crates, crate):
    """The libraries below a crate that the checkout has not built."""
    return [name for name in crate.below(crates) if not os.path.isdir(crates[name].rlib())]


class Outcome:
    """What became of the edits of a crate: those that were refused, before or now, and why each other one is not."""

    def __init__(self, trial, kept):
        self.trial, self.kept = trial, kept
        crate, lacks = trial.crate, lacking(trial.crates, trial.crate)
        edits, self.faults = read_edits(crate, trial.texts)
        if lacks:
            self.faults.update((edit.name, f"there is no library of {', '.join(lacks)}: run rt ci first") for edit in edits)
            edits = []
        self.total = kept.sum_of(crate) if edits else ""
        self.edits = edits
        self.left = [edit for edit in edits if not kept.has(self.total, edit)]

    def go_on(self):
        """Tries what is left, and keeps what is refused."""
        self.trial.settle_all(self.left)
        refused = [edit for edit in self.left if self.trial.verdicts[edit] == REFUSED]
        if refused:
            self.kept.keep(self.trial.crate, self.total, refused)
        self.left = [edit for edit in self.left if self.trial.verdicts[edit] == KILLED]

    def not_refused(self):
        """Why each edit that is not refused is not, by name."""
        tried = {edit.name: verdict for edit, verdict in self.trial.verdicts.items() if verdict != REFUSED}
        return {**self.faults, **tried}

    def counts(self):
        """How many edits are refused, and how many are not."""
        faults = len(self.not_refused())
        return len(self.edits) + len(self.faults) - faults, faults

    def tell(self):
        trial, (refused, _) = self.trial, self.counts()
        print(f"{trial.crate.name}: {refused} refused, {len(trial.verdicts)} tried in {trial.checks} checks, {trial.seconds:.0f} s of a processor")
        for name, why in sorted(self.not_refused().items()):
            print(f"  {trial.crate.name}/{name} IS NOT REFUSED: {why}")
        sys.stdout.flush()


def try_all(crates, names, kept, jobs, told=None):
    """Tries the edits of these crates, as many checks at once as there are jobs, and gives of each crate how many are refused and how many are not."""
    names = sorted(names, key=lambda name: -len(crates[name].below(crates)))
    with concurrent.futures.ThreadPoolExecutor(jobs) as pool:
        libraries = {below for name in names for below in crates[name].below(crates)}
        list(pool.map(library_sum, [crates[name].rlib() for name in sorted(libraries)]))
        outcomes = [Outcome(Trial(crates, crates[name], told), kept) for name in names]
        for outcome, _ in zip(outcomes, pool.map(Outcome.go_on, outcomes)):
            if not outcome.left:
                outcome.tell()
    for outcome in outcomes:
        # a check that was killed, most likely for memory, runs again alone
        if outcome.left:
            outcome.go_on()
            outcome.tell()
    return [outcome.counts() for outcome in outcomes]


TINY = """#![tactic(auto)]

ghost use Rattle.std.specs.Prelude.{◌≡◌};

pub fn first(left: usize, _right: usize) -> usize
    ensures { result ≡ left }
{
    let taken = left;
    taken
}

pub fn through(left: usize, right: usize) -> usize
    ensures { result ≡ left }
{
    first(left, right)
}

pub fn proved(left: usize, _right: usize) -> usize
    ensures { result ≡ left }
{
    first(left, left)
}
"""
PROOF = """use Rattle.tiny.proofs.proved.Goals as goal

by_first : goal.returns
by_first c = c.first.ensures

pub returns : goal.returns
returns = by_first
"""
BROKEN = ("first", "    let taken = left;", "    let taken = _right;")
PLANTED = {
    "refused": (*BROKEN, REFUSED),
    "changes_nothing": ("through", "    first(left, right)", "    (first(left, right))", "through is still proved"),
    "does_not_compile": ("through", "    first(left, right)", "    first(left, wrong)", "no verdict: "),
    "names_no_function": ("third", BROKEN[1], BROKEN[2], "no verdict: "),
    "names_the_caller": ("through", BROKEN[1], BROKEN[2], HIDDEN),
    "stands_twice": ("first", "left", "_right", "its text "),
    "names_nothing": ("", BROKEN[1], BROKEN[2], "its first line "),
    "refused_by_its_proof": ("proved", "    first(left, left)", "    first(_right, left)", REFUSED),
    "takes_a_name_of_its_proof": ("proved", "    first(left, left)", "    left", "its proof only names "),
}


def plant(root):
    """A checkout of one crate, with the planted edits."""
    folder = os.path.join(root, "crates", "tiny")
    proof = os.path.join(folder, "proofs", "proved")
    for made in (os.path.join(folder, "src"), os.path.join(folder, "refused"), proof):
        os.makedirs(made)
    files = {os.path.join(root, "crates.txt"): "tiny:\n", os.path.join(folder, "src", "lib.rt"): TINY, os.path.join(proof, "Answers.antt"): PROOF}
    for name, (function, old, new, _) in PLANTED.items():
        files[os.path.join(folder, "refused", name + ".edit")] = f"function: {function}\nfile: src/lib.rt\nold: {old}\nnew: {new}\n"
    for path, text in files.items():
        with open(path, "w", encoding="utf-8") as file:
            file.write(text)


def try_checker():
    """What this checker says wrong of edits of which it is known what becomes of each."""
    with tempfile.TemporaryDirectory(prefix="edits-") as root:
        plant(root)
        crates = crates_of(root)
        trial = Trial(crates, crates["tiny"], None)
        edits, verdicts = read_edits(crates["tiny"], trial.texts)
        trial.settle_all(edits)
    verdicts.update((edit.name, verdict) for edit, verdict in trial.verdicts.items())
    wrong = {name: verdicts.get(name, "nothing") for name, planted in PLANTED.items() if not verdicts.get(name, "nothing").startswith(planted[-1])}
    print(f"the checker: {len(PLANTED) - len(wrong)} of {len(PLANTED)} planted edits came to what they have to, in {trial.seconds:.0f} s of a processor", flush=True)
    for name, verdict in wrong.items():
        print(f"  {name}: {verdict}, and not {PLANTED[name][-1]}")
    return len(wrong)


def main():
    parser = argparse.ArgumentParser()
    parser.add_argument("--anew", action="store_true")
    parser.add_argument("--jobs", type=int, default=lanes.lanes())
    parser.add_argument("--told", help="a folder to which what each check prints is written")
    parser.add_argument("crates", nargs="*")
    asked = parser.parse_args()
    crates = crates_of(ROOT)
    names = asked.crates or [name for name, crate in crates.items() if os.path.isdir(os.path.join(crate.folder, "refused"))]
    wrong = 0 if asked.crates else try_checker()
    counts = try_all(crates, names, Kept(crates, asked.anew), max(asked.jobs, 1), asked.told)
    refused, faults = sum(count for count, _ in counts), sum(count for _, count in counts) + wrong
    print(f"edits: {refused} refused, {faults} not")
    sys.exit(0 if refused > 0 and faults == 0 else 1)


if __name__ == "__main__":
    main()
