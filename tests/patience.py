"""Runs of the program that are ended where they hang, and that have all the time of the clock that a busy machine takes for them.

A run takes some seconds of a processor at most. One that hangs either uses processors for ever, or has only threads that sleep: while one of its threads runs,
waits for a processor or for the disk, it is the machine that is slow. So a run is looked at once a second, and hangs where it used a processor for too long, or
where too many of these looks found each of its threads asleep. How long it takes by the clock is not judged.
"""
import dataclasses
import os
import select
import subprocess
import tempfile

TICKS = os.sysconf("SC_CLK_TCK")
# the states of a thread that runs or wants to, and of one that waits for the disk
AT_WORK = {"R", "D"}


@dataclasses.dataclass(frozen=True)
class Patience:
    """How many seconds of a processor a run may use, in how many looks it may be asleep, and how many seconds there are from one look to the next."""
    processor: float = 300
    asleep: int = 120
    between: float = 1


PATIENCE = Patience()


class Hangs(Exception):
    """Why a run is taken for one that never ends."""


def fields(path):
    """The fields of a `stat` file from the state on; the name before it may have spaces."""
    with open(path, encoding="utf-8", errors="replace") as file:
        return file.read().rpartition(")")[2].split()


def states(pid):
    """The states of the threads of a process that was not waited for yet. One that ends meanwhile has none."""
    for thread in os.listdir(f"/proc/{pid}/task"):
        try:
            yield fields(f"/proc/{pid}/task/{thread}/stat")[0]
        except (FileNotFoundError, ProcessLookupError):
            pass


def processor_seconds(pid):
    """What a process used of processors, with its threads that have ended."""
    user, system = fields(f"/proc/{pid}/stat")[11:13]
    return (int(user) + int(system)) / TICKS


def watch(pid, patience):
    """Returns once a child has ended, which is not waited for yet."""
    asleep, ended = 0, os.pidfd_open(pid)
    try:
        while not select.select([ended], [], [], patience.between)[0]:
            used, asleep = processor_seconds(pid), asleep + AT_WORK.isdisjoint(states(pid))
            if used > patience.processor:
                raise Hangs(f"does not end: it used {used:.0f} seconds of a processor")
            if asleep > patience.asleep:
                raise Hangs(f"does not end: in {asleep} looks all of its threads were asleep, and it used {used:.0f} seconds of a processor")
    finally:
        os.close(ended)


def wait(child, patience=PATIENCE):
    """Waits until a child has ended, and gives its status and what it used. One that hangs is ended first."""
    try:
        watch(child.pid, patience)
    except BaseException:
        child.kill()
        child.wait()
        raise
    _, status, used = os.wait4(child.pid, 0)
    child.returncode = os.waitstatus_to_exitcode(status)
    return child.returncode, used


def run(words, patience=PATIENCE, **options):
    """The status of a run, and the bytes of its output."""
    with tempfile.TemporaryFile() as out:
        child = subprocess.Popen(words, stdin=subprocess.DEVNULL, stdout=out, stderr=subprocess.DEVNULL, **options)
        status, _ = wait(child, patience)
        out.seek(0)
        return status, out.read()
