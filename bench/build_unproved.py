#!/usr/bin/env python3
"""Builds the program without proving it, and keeps it: in two to three minutes, where a proof takes an hour and more.

`rt try` compiles the program with tests in place of proofs (of indices, of sums, of memory), runs it once and removes it. Here it is run on a
pipe in place of an application, at which it waits until somebody opens the other end; meanwhile it is copied. Nothing is proved of it, and it is
slower than the proved program.
Usage: bench/build_unproved.py PROGRAM
"""
import os
import shutil
import subprocess
import sys
import tempfile
import threading
import time

CRATE = os.path.join(os.path.dirname(os.path.dirname(os.path.abspath(__file__))), "crates", "bcdb")


def program_below(folder):
    """The program that stands somewhere below a folder."""
    found = [os.path.join(place, "program") for place, _, files in os.walk(folder) if "program" in files]
    return next((path for path in found if os.access(path, os.X_OK)), None)


def copy_waiting(pipe, folder, program):
    """Waits until the program stands there, copies it, and opens the pipe, so that it goes on. It can not read from a pipe, and ends there."""
    while program_below(folder) is None:
        time.sleep(0.2)
    shutil.copy(program_below(folder), program)
    with open(pipe, "wb"):
        pass


def main():
    program = os.path.abspath(sys.argv[1])
    if os.path.exists(program):
        os.remove(program)
    with tempfile.TemporaryDirectory() as folder:
        pipe = os.path.join(folder, "pipe")
        os.mkfifo(pipe)
        threading.Thread(target=copy_waiting, args=(pipe, folder, program), daemon=True).start()
        words = ["rt", "try", "--", "run", "--app", pipe, "--blocks", pipe]
        tried = subprocess.run(words, cwd=CRATE, env={**os.environ, "TMPDIR": folder}, stdout=subprocess.PIPE, stderr=subprocess.STDOUT, text=True)
    if not os.access(program, os.X_OK):
        sys.exit(f"no program was built:\n{tried.stdout[-2000:]}")
    print(f"{program} is built, and nothing of it is proved")


if __name__ == "__main__":
    main()
