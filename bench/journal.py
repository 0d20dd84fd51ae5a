"""Times ruffletuff, which keeps what it serves, over loopback: beside mds_serve, which doesn't, and beside SQLite and PostgreSQL on the
same disk.

    journal.py [--program FILE] [--without FILE] [--folder FOLDER] [--rounds N] [--seconds N] [--slower N]

Reports over HTTP by wrk, on 32 and on 256 connections, by turns of both servers in each round; rows of SQLite (bench/commits.c: a
write-ahead log, synchronous FULL, one row a commit, of as many bytes as a report's record), and of PostgreSQL by 32 clients
(postgres.py); the 99th percentile of a short list, idle and while 32 connections report; the bytes of the journal for a report; and how
long a start takes with 200,000 vehicles, thinned. The folder is on the disk that is timed; without one a temporary one is taken. Each
figure is the median of the rounds, with the least and the greatest. Beside single reports stand bodies of many, over as many connections.
With --slower each sync of all of them takes N microseconds longer, as on another disk (slow_sync.c). It needs Debian's wrk; gcc with
libsqlite3-dev for SQLite, and as root Debian's postgresql, which else are left out.
"""

import argparse
import contextlib
import os
import re
import shutil
import subprocess
import sys
import tempfile
import time

import generate

HERE = os.path.dirname(os.path.abspath(__file__))
sys.path.append(os.path.join(HERE, "..", "tests"))

# This folder's http.py, not the library's package of that name.
from http import REPORTS, SMALL, Load, districts, line, policies, send, send_many, spread  # noqa: E402

from kept import City, slowed  # noqa: E402
from postgres import inserts  # noqa: E402
from thinning import thin  # noqa: E402
from wire import Server  # noqa: E402

PROGRAM, WITHOUT = (os.path.join(HERE, "..", "crates", it, "out", it) for it in ("ruffletuff", "mds_serve"))
CONNECTIONS = (32, 256)
ROUNDS, SECONDS = 3, 5
REPORTING, READING = generate.token(1), generate.token(0)
EVENTS, LIST, MANY = "/fleet/events", "/policies", "/app/fleet/events"
IN_A_BODY = 2000
ROW = 250  # bytes, as of a report's record


def commits(folder, seconds, size):
    """Commits a second of SQLite, and the bytes of its files for each; None where it can't be built."""
    program = os.path.join(folder, "commits")
    words = ["gcc", "-O2", "-o", program, os.path.join(HERE, "commits.c"), "-lsqlite3"]
    if not os.path.exists(program) and (not shutil.which("gcc") or subprocess.run(words, capture_output=True, check=False).returncode):
        return None
    with tempfile.TemporaryDirectory(dir=folder) as room:
        ran = subprocess.run([program, os.path.join(room, "rows"), str(seconds), str(size)], capture_output=True, text=True, check=True)
    return [float(it) for it in re.findall(r"[\d.]+", ran.stdout)]


# Bodies of many reports, a line each; every report is later than the one before of its vehicle.
BODIES = """
local threads, turn = 0, 0
local first = %d + 10000000 * tonumber(os.getenv("LOAD"))
function setup(thread)
    thread:set("number", threads)
    threads = threads + 1
end
function request()
    local lines, reports = {}, %d
    for report = 1, reports do
        lines[report] = string.format(
            '{"device_id":"00000000-0000-4000-8000-0004%%08x","vehicle_type":"scooter","propulsion_types":["electric"],'
            .. '"vehicle_state":"available","event_types":["trip_end"],"timestamp":%%d,"location":{"lat":39.8,"lng":-86.1}}',
            number * 20000 + (turn * reports + report) %% 20000, first + turn)
    end
    turn = turn + 1
    return wrk.format("POST", "/app/fleet/events", nil, table.concat(lines, "\\n"))
end
"""


class Rounds:
    """What was measured, by rounds."""

    def __init__(self):
        self.found = {}

    def add(self, name, value):
        self.found.setdefault(name, []).append(value)
        print(f"{name}: {value:.6g}", file=sys.stderr)

    def tell(self, label, name, scale=1, unit="", against=None, must="", aim=""):
        """A row: a measure, and its ratio to another by rounds."""
        if name not in self.found:
            return
        ratio = ""
        if against in self.found:
            ratio = spread([one / other for one, other in zip(self.found[name], self.found[against])], 1, "")
        line([label, spread(self.found[name], scale, unit), ratio, must, aim])


def loads(city, without, folder, scripts, rounds, seconds):
    """Reports to both servers, bodies of many to one, a short list idle and beside reports, and rows of SQLite."""
    random = generate.Xorshift(generate.SEED)
    script, bodies = scripts
    lines = districts(random) + policies(random, SMALL)
    with city.serve("--thin-at", "0") as keeping, Server(without, (generate.config() + "\n").encode()) as plain:
        for server in (keeping, plain):
            with server.link() as link:
                for it in lines:
                    send(link, it)
        for connections in CONNECTIONS:
            for name, server in (("kept", keeping), ("plain", plain)):
                before = len(city.bytes())
                load = Load(server.process.pid, server.port, EVENTS, connections, seconds, REPORTING, script)
                rounds.add(f"{name} {connections}", load.rate)
                rounds.add(f"{name} {connections} worst", load.worst)
                if server is keeping:
                    rounds.add(f"bytes {connections}", (len(city.bytes()) - before) / max(1, load.rate * seconds))
        load = Load(keeping.process.pid, keeping.port, MANY, CONNECTIONS[0], seconds, REPORTING, bodies)
        rounds.add("many", load.rate * IN_A_BODY)
        rounds.add("idle", Load(keeping.process.pid, keeping.port, LIST, 32, seconds, READING).worst)
        rounds.add("busy", beside_reports(keeping, script, seconds))
    if found := commits(folder, seconds, ROW):
        rounds.add("commits", found[0])
        rounds.add("bytes of a row", found[1])
    if found := inserts(folder, CONNECTIONS[0], seconds, ROW):
        rounds.add("inserts", found)


def beside_reports(server, script, seconds):
    """The 99th percentile of a short list while 32 connections report."""
    reporting = ["wrk", "-t1", "-c32", f"-d{seconds + 2}s", "-H", f"authorization: Bearer {REPORTING}", "-s", script]
    Load.taken += 1
    environment = os.environ | {"LOAD": str(Load.taken)}
    address = f"http://127.0.0.1:{server.port}{EVENTS}"
    with subprocess.Popen([*reporting, address], stdout=subprocess.DEVNULL, env=environment) as other:
        time.sleep(1)
        worst = Load(server.process.pid, server.port, LIST, 32, seconds, READING).worst
        other.wait()
    return worst


def large_start(city, rounds, count):
    """The seconds of a start with the largest fleet, thinned, `count` times, and the bytes of its journal for a vehicle."""
    with city.serve("--thin-at", "0") as server, server.link() as link:
        send_many(link, generate.fleet(generate.Xorshift(generate.SEED), generate.MOST_VEHICLES))
        server.end()
    begun = time.perf_counter()
    status, _, said = thin(city)
    if status:
        raise ValueError(f"thin ends with {status}: {said[:200]!r}")
    rounds.add("thinning", time.perf_counter() - begun)
    for _ in range(count):
        begun = time.perf_counter()
        with city.serve():
            rounds.add("start", time.perf_counter() - begun)
    rounds.add("bytes of a vehicle", len(city.bytes()) / generate.MOST_VEHICLES)


def tell(rounds, count):
    print(f"\nMedians of {count} rounds, with the least and the greatest.\n")
    line(["Measure", "seen", "ratio", "must", "aim"])
    print("|---|---|---|---|---|")
    for connections in CONNECTIONS:
        label, kept = f"reports a second, {connections} connections", f"kept {connections}"
        rounds.tell(f"{label}, mds_serve", f"plain {connections}")
        rounds.tell(f"{label}, ruffletuff, against mds_serve", kept, against=f"plain {connections}", must="0.3", aim="0.6")
        rounds.tell(f"{label}, ruffletuff, against SQLite's commits", kept, against="commits", must="5", aim="20")
        rounds.tell(f"{label}, ruffletuff, against PostgreSQL's commits", kept, against="inserts", must="1", aim="3")
        rounds.tell(f"99th percentile of a report, {connections} connections", f"{kept} worst", 1e3, " ms", f"plain {connections} worst")
        name = f"bytes of the journal for a report, {connections} connections"
        rounds.tell(name, f"bytes {connections}", against="bytes of a row", must="400", aim="250")
    rounds.tell(f"reports a second, {IN_A_BODY} in a body, 32 connections, against single ones", "many", against="kept 32", must="5")
    rounds.tell("commits of SQLite a second, one writer", "commits")
    rounds.tell("commits of PostgreSQL a second, 32 clients", "inserts")
    rounds.tell("bytes of SQLite's files for a row of 250 bytes", "bytes of a row")
    rounds.tell("99th percentile of GET of a short list, 32 connections, idle", "idle", 1e3, " ms")
    rounds.tell("the same while 32 connections report, against idle", "busy", 1e3, " ms", "idle", "3", "1.5")
    rounds.tell("a start with 200,000 vehicles, thinned", "start", 1, " s", must="2 s", aim="0.7 s")
    rounds.tell("bytes of the journal for a vehicle, thinned", "bytes of a vehicle", must="800", aim="500")
    rounds.tell("thinning it", "thinning", 1, " s")


def slow_down(folder, microseconds):
    """From now on each sync of a program that is started takes so much longer."""
    # Another user's programs read it too.
    os.chmod(folder, 0o755)
    os.environ.update(slowed(folder, microseconds))


def written(folder, name, text):
    """A script of wrk's in the folder."""
    path = os.path.join(folder, f"{name}.lua")
    with open(path, "w", encoding="ascii") as script:
        script.write(text)
    return path


def main():
    parser = argparse.ArgumentParser(description=__doc__, formatter_class=argparse.RawDescriptionHelpFormatter)
    parser.add_argument("--program", default=PROGRAM, help="the built ruffletuff")
    parser.add_argument("--without", default=WITHOUT, help="the built mds_serve")
    parser.add_argument("--folder", help="a folder on the disk that is timed")
    parser.add_argument("--rounds", type=int, default=ROUNDS)
    parser.add_argument("--seconds", type=int, default=SECONDS, help="how long each measure takes")
    parser.add_argument("--slower", type=int, default=0, help="microseconds that each sync takes longer")
    options = parser.parse_args()
    if not shutil.which("wrk"):
        sys.exit("the benchmark needs wrk")
    program, without, rounds = os.path.abspath(options.program), os.path.abspath(options.without), Rounds()
    given = generate.config().encode()
    with tempfile.TemporaryDirectory(dir=options.folder) as folder:
        if options.slower:
            slow_down(folder, options.slower)
        script = written(folder, "reports", REPORTS % generate.START)
        bodies = written(folder, "bodies", BODIES % (generate.START, IN_A_BODY))
        for number in range(options.rounds):
            with tempfile.TemporaryDirectory(dir=folder) as room:
                loads(City(program, room, given), without, folder, (script, bodies), rounds, options.seconds)
            print("load of the machine after round %d: %.2f" % (number + 1, os.getloadavg()[0]), file=sys.stderr)
        with tempfile.TemporaryDirectory(dir=folder) as room, contextlib.suppress(OSError):
            large_start(City(program, room, given), rounds, options.rounds)
    tell(rounds, options.rounds)


if __name__ == "__main__":
    main()
