#!/usr/bin/env python3
"""Makes a clone of the repository that has two programs more, which time turns of locks: those of bench/turns.patch.

`turn_lock_bench N` prints the rates of N turns a thread with one, two and four threads, beside those of the kit's mutex round the same value. Without N it
prints `done` where each thread made its calls in order. `node_bench N` prints the rates of a shared node with one, two, four and eight threads: of looks at its
height, and of arrivals of a transaction that it knows. The gate neither proves nor builds them. In the clone `rt run -- N` in the folder of one proves it with all
crates below it, and runs it; `rt try` only runs it.
Usage: bench/turns.py FOLDER   (FOLDER is made)
"""
import os
import subprocess
import sys

ROOT = os.path.dirname(os.path.dirname(os.path.abspath(__file__)))
CRATES = """
turn_lock_bench may_wait=11: rel_base turn_lock
node_bench may_wait=4: cluster_run node_shared node_core turn_lock version_index node_model proc_check proc_parse proc_syntax row_sets rel_base
"""


def main():
    folder = os.path.abspath(sys.argv[1])
    subprocess.run(["git", "clone", "--quiet", ROOT, folder], check=True)
    subprocess.run(["git", "apply", os.path.join(ROOT, "bench", "turns.patch")], cwd=folder, check=True)
    with open(os.path.join(folder, "crates.txt"), "a", encoding="utf-8") as file:
        file.write(CRATES)
    for name in ("turn_lock_bench", "node_bench"):
        print(os.path.join(folder, "crates", name))


if __name__ == "__main__":
    main()
