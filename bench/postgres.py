"""A PostgreSQL server of its own on the disk that is timed, as `initdb` makes it: one row a commit, each synced, by many clients."""

import contextlib
import glob
import os
import re
import shutil
import subprocess
import tempfile

USER = "postgres"  # PostgreSQL doesn't run as root
TABLE = "CREATE TABLE entries (number bigserial PRIMARY KEY, text bytea)"


def folder_of_programs():
    """The folder of the newest version's programs that Debian's package has put there, or None."""
    found = sorted(glob.glob("/usr/lib/postgresql/*/bin/pgbench"), key=lambda it: int(it.split("/")[4]))
    return os.path.dirname(found[-1]) if found and shutil.which("runuser") else None


def inserts(folder, clients, seconds, size):
    """Rows of `size` bytes inserted a second, one a commit; None where PostgreSQL isn't there, or this isn't root."""
    programs = folder_of_programs()
    if not programs or os.geteuid():
        return None

    def run(name, *words):
        command = ["runuser", "-u", USER, "--", f"{programs}/{name}", *words]
        return subprocess.run(command, cwd="/", check=True, capture_output=True, text=True).stdout

    with tempfile.TemporaryDirectory(dir=folder) as room:
        # The folders above are the benchmark's own, which let no other user through.
        os.chmod(folder, 0o755)
        shutil.chown(room, USER)
        os.chmod(room, 0o755)
        data, script, log = f"{room}/data", f"{room}/insert.sql", f"{room}/log"
        with open(script, "w", encoding="ascii") as text:
            text.write(f"INSERT INTO entries (text) VALUES (decode(repeat('78', {size}), 'hex'));\n")
        run("initdb", "-D", data, "-A", "trust")
        where = ["-h", room, "-p", "5432"]
        run("pg_ctl", "-D", data, "-w", "-l", log, "-o", f"-k {room} -c listen_addresses=''", "start")
        with contextlib.ExitStack() as stack:
            stack.callback(run, "pg_ctl", "-D", data, "-w", "-m", "immediate", "stop")
            run("psql", *where, "-c", TABLE, "postgres")
            words = ["-n", "-M", "prepared", "-c", str(clients), "-j", "2", "-T", str(seconds), "-f", script, "postgres"]
            told = run("pgbench", *where, *words)
    return float(re.search(r"^tps = ([\d.]+)", told, re.M)[1])
