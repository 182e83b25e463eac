"""PostgreSQL from Debian's packages for a while: a server in a folder of its own that is reached by a socket there alone, and ended with it.

Each transaction is SERIALIZABLE, and `synchronous_commit` is off. The server can't run as root, so then it runs as the user `postgres` that the
package makes.
"""
import glob
import os
import re
import shutil
import signal
import subprocess
import sys
import tempfile
from dataclasses import dataclass

CONFIGURATION = """listen_addresses = ''
unix_socket_directories = '{folder}'
default_transaction_isolation = 'serializable'
synchronous_commit = off
shared_buffers = 512MB
max_wal_size = 4GB
"""
USER = "postgres"
CLIENTS = 4


@dataclass
class Pgbench:
    """What pgbench found: seconds, transactions that ended, and those that failed by their cause."""
    seconds: float
    done: int
    serialization: int
    deadlock: int


class Server:
    """A server that runs while it is entered, and ends with this program also where that is told to stop."""

    def __init__(self):
        self.bin = max(glob.glob("/usr/lib/postgresql/*/bin"), key=lambda path: int(path.split("/")[-2]), default=None)
        if self.bin is None:
            raise SystemExit("PostgreSQL is not there: apt-get install postgresql")
        self.owner = {"user": USER, "group": USER, "extra_groups": []} if os.geteuid() == 0 else {}

    def __enter__(self):
        signal.signal(signal.SIGTERM, lambda *_: sys.exit("stopped"))
        self.folder = tempfile.mkdtemp()
        if self.owner:
            shutil.chown(self.folder, USER, USER)
        self.data = os.path.join(self.folder, "data")
        self.tool("initdb", "-D", self.data, "-A", "trust", "-U", USER, "-E", "UTF8", "--no-locale")
        with open(os.path.join(self.data, "postgresql.conf"), "a", encoding="utf-8") as file:
            file.write(CONFIGURATION.format(folder=self.folder))
        self.tool("pg_ctl", "-D", self.data, "-l", os.path.join(self.folder, "log"), "-w", "start")
        return self

    def __exit__(self, *ended):
        self.tool("pg_ctl", "-D", self.data, "-m", "fast", "-w", "stop")
        shutil.rmtree(self.folder)

    def tool(self, name, *words, text=None):
        command = [os.path.join(self.bin, name), *words]
        # the server keeps its own output, and must not keep ours open
        output = subprocess.DEVNULL if name == "pg_ctl" else subprocess.PIPE
        done = subprocess.run(command, cwd=self.folder, input=text, text=True, stdout=output, stderr=subprocess.STDOUT, **self.owner)
        if done.returncode != 0:
            raise SystemExit(f"{name}: {done.stdout}")
        return done.stdout

    def version(self):
        return self.tool("postgres", "--version").strip()

    def ask(self, text, database="postgres"):
        return self.tool("psql", "-h", self.folder, "-U", USER, "-qAt", "-v", "ON_ERROR_STOP=1", "-d", database, text=text).strip()

    def fresh(self, schema, filling):
        """A new database with the tables of a file, which are filled."""
        self.ask("drop database if exists bench;")
        self.ask("create database bench;")
        with open(schema, encoding="utf-8") as file:
            self.ask(file.read(), "bench")
        self.ask(f"select {filling};", "bench")
        self.ask("vacuum analyze;", "bench")
        self.ask("checkpoint;", "bench")

    def pgbench(self, script, count, settings):
        """Runs a script so often, by four clients."""
        with open(script, encoding="utf-8") as file:
            copy = os.path.join(self.folder, os.path.basename(script))
            with open(copy, "w", encoding="utf-8") as out:
                out.write(file.read())
        os.chmod(copy, 0o644)
        given = [word for name, value in settings.items() for word in ("-D", f"{name}={value}")]
        many = ["-c", str(CLIENTS), "-j", str(CLIENTS), "-t", str(count // CLIENTS), "--random-seed=1"]
        told = self.tool("pgbench", "-h", self.folder, "-U", USER, "-n", "-M", "prepared", *many, "--failures-detailed", *given, "-f", copy, "bench")
        done = number(told, r"actually processed: (\d+)")
        return Pgbench(done / float(re.search(r"tps = ([\d.]+)", told).group(1)), int(done), number(told, r"serialization failures: (\d+)"),
                       number(told, r"deadlock failures: (\d+)"))

    def refused(self):
        """How many calls their procedure refused."""
        return int(self.ask("select case when is_called then last_value else 0 end from refused;", "bench"))


def number(told, pattern):
    found = re.search(pattern, told)
    return int(found.group(1)) if found else 0
