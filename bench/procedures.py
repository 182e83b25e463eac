#!/usr/bin/env python3
"""Times the reading of a large application, and the steps of a procedure.

The application is close to 1,048,576 bytes of assignments; it is read and checked over a draft without blocks. The procedure is four
nested loops over the rows of a table, 100,000 steps in all; runs of one call and of many give the time of a step. Prints megabytes and
steps per second, and those of a plain parser and interpreter in Rust (bench/plain.rs) where rustc is there. Usage: bench/procedures.py PROGRAM
"""
import os
import shutil
import subprocess
import sys
import tempfile
import time

HEAD = "table acct (id int, owner text, bal int) key (id) index (owner);\n"
SPIN = """proc add(i int, o text, b int) { insert acct (i, o, b); }
proc spin(a int, b int, c int, d int) {
  for p in acct span on id from 1 to a {
    for q in acct span on id from 1 to b {
      for r in acct span on id from 1 to c {
        for s in acct span on id from 1 to d { }
      }
    }
  }
}
"""
STEPS = 100_000
CALLS = 20


def large_application():
    text = HEAD + "proc p() {\n  let a = 1;\n"
    line = "  a = a + 1 - 1;\n"
    return text + line * ((1_048_576 - len(text) - 2) // len(line)) + "}\n"


def spins(calls):
    rows = "".join(f'tx a{n} 0 add {n} "ann" {n}\n' for n in range(1, 36))
    runs = "".join(f"tx s{n} 1 spin 9 23 13 35\n" for n in range(calls))
    return f"draft 1\nblock 1\n{rows}end\nblock 2\n{runs}end\n"


def seconds(program, app, draft):
    with tempfile.TemporaryDirectory() as folder:
        for name, text in ("a.app", app), ("b.draft", draft):
            with open(os.path.join(folder, name), "w") as out:
                out.write(text)
        words = [program, "run", "--app", "a.app", "--blocks", "b.draft", "--executors", "0"]
        begin = time.monotonic()
        subprocess.run(words, cwd=folder, stdout=subprocess.DEVNULL, check=True)
        return time.monotonic() - begin


def plain(folder, *words):
    """The seconds that the plain program says it took, the best of three."""
    made = os.path.join(folder, "plain")
    if not os.path.exists(made):
        source = os.path.join(os.path.dirname(os.path.abspath(__file__)), "plain.rs")
        subprocess.run(["rustc", "-O", "-o", made, source], check=True)
    runs = [subprocess.run([made, *words], capture_output=True, text=True, check=True) for _ in range(3)]
    return min(float(run.stdout) for run in runs)


def compare(app, parse_rate, step_rate):
    with tempfile.TemporaryDirectory() as folder:
        path = os.path.join(folder, "a.app")
        with open(path, "w") as out:
            out.write(app)
        parsed = len(app) / plain(folder, "parse", path)
        stepped = CALLS * STEPS / plain(folder, "spin")
    print(f"plain parser in Rust: {parsed / 1e6:.1f} MB a second, {parsed / parse_rate:.1f} times the rate")
    print(f"plain interpreter in Rust: {stepped:,.0f} steps a second, {stepped / step_rate:.1f} times the rate")


def main():
    program = os.path.abspath(sys.argv[1])
    app = large_application()
    took = min(seconds(program, app, "draft 1\n") for _ in range(5))
    print(f"application of {len(app)} bytes: {took:.3f} s, {len(app) / took / 1e6:.1f} MB a second")
    none = min(seconds(program, HEAD + SPIN, spins(0)) for _ in range(3))
    many = min(seconds(program, HEAD + SPIN, spins(CALLS)) for _ in range(3))
    print(f"{CALLS} calls of {STEPS} steps: {many - none:.3f} s, {CALLS * STEPS / (many - none):,.0f} steps a second")
    if shutil.which("rustc"):
        compare(app, len(app) / took, CALLS * STEPS / (many - none))


if __name__ == "__main__":
    main()
