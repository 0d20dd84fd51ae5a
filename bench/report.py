#!/usr/bin/env python3
"""Times `ruffletuff report` over a large journal, and how much memory it takes beside a server of the same journal.

    report.py [--program FILE] [--folder FOLDER] [--entries N] [--vehicles N] [--rounds N]

A city of ten operators, each of 5,000 vehicles, with 20 rules in force for all: 5 policies of 4 rules, over 20 places of 100 edges. Its
journal, of 1,500,000 entries, is of one day: vehicles report by chance, all operators alike. The report is of that day, sampled each 5
minutes. In each round it is made on all processors and on one, whose files have to be the same, and a server is started on the journal.
Seconds, processor time and the most memory of each, in medians with the least and the greatest. At most 30 s on four processors, and
twice the server's memory once it is ready.
"""

import argparse
import contextlib
import hashlib
import os
import re
import subprocess
import sys
import tempfile
import time

import generate

HERE = os.path.dirname(os.path.abspath(__file__))
sys.path.append(os.path.join(HERE, "..", "tests"))

# This folder's http.py, not the library's package of that name.
from http import kept_to, line, resident, spread  # noqa: E402

import records  # noqa: E402
from kept import City  # noqa: E402

PROGRAM = os.path.join(HERE, "..", "crates", "ruffletuff", "out", "ruffletuff")
ENTRIES, OPERATORS, VEHICLES, ROUNDS = 1_500_000, 10, 5_000, 3
POLICIES, RULES, PLACES, EDGES, RADIUS = 5, 4, 20, 100, 0.2
DAY, MINUTES = 86_400_000, 5
GROUP = 32  # records that are synced at once
MOST_SECONDS, MOST_TIMES = 30, 2
FILES = ("verdicts.csv", "summary.csv", "report.html")
# When a page was made is another moment each time.
MADE = re.compile(rb"<tr><th>Made</th><td>[^<]*</td></tr>\n")


def operator(number):
    return generate.identifier(9, number)


def configuration(vehicles):
    operators = [{"id": operator(it), "limit": vehicles, "token": generate.token(it)} for it in range(OPERATORS)]
    return {"author": "city", "operators": operators, "zone": "Z"}


def of_author(random):
    """What the author asks for at the day's begin: places, policies, and to publish them."""
    rings = generate.districts(random, PLACES, EDGES, RADIUS)
    for number, ring in enumerate(rings):
        yield "PUT", f"/drafts/geographies/{generate.geography_id(number)}", generate.geography(number, ring)
    for number in range(POLICIES):
        places = [(RULES * number + it) % PLACES for it in range(RULES)]
        yield "PUT", f"/drafts/policies/{generate.policy_id(number)}", generate.policy(random, number, RULES, places, maximum=20)
    lists = (generate.words(map(name, range(count))) for name, count in ((generate.geography_id, PLACES), (generate.policy_id, POLICIES)))
    yield "POST", "/publish", '{"geographies":%s,"policies":%s}' % tuple(lists)


def one_of(random, words):
    return words[random.below(len(words))]


def fleet(random, vehicles):
    """Of each operator the beginnings of its vehicles' reports, which stay."""
    for _ in range(OPERATORS):
        yield [
            '{"device_id":"%s","vehicle_type":"%s","propulsion_types":%s'
            % (generate.device(random), one_of(random, generate.VEHICLE_TYPES), generate.words(random.some(generate.PROPULSION, 2)))
            for _ in range(vehicles)
        ]


def report(random, front, at):
    """A vehicle's report of a moment: it is in some state somewhere in the city."""
    lng, lat = (middle - generate.HALF_BOX + random.below(2 * generate.HALF_BOX + 1) for middle in generate.CENTRE)
    state, event = one_of(random, generate.STATES), one_of(random, generate.EVENTS)
    place = '{"lat":%s,"lng":%s}' % (generate.degrees(lat), generate.degrees(lng))
    return '%s,"vehicle_state":"%s","event_types":["%s"],"timestamp":%d,"location":%s}' % (front, state, event, at, place)


def texts(given, entries, vehicles):
    """The payloads of the journal."""
    random = generate.Xorshift(generate.SEED)
    yield records.head([(it["id"], it["limit"]) for it in given["operators"]])
    asked = list(of_author(random))
    for method, target, body in asked:
        yield records.entry(generate.START, method, None, target.encode(), body.encode())
    fleets, ids = list(fleet(random, vehicles)), [operator(it) for it in range(OPERATORS)]
    left = entries - len(asked)
    for number in range(left):
        at, whose = generate.START + 1 + number * DAY // left, number % OPERATORS
        body = report(random, fleets[whose][random.below(vehicles)], at)
        yield records.entry(at, "POST", ids[whose], b"/fleet/events", body.encode())


def write_journal(path, all_):
    """Writes the journal, in groups as a busy server does, and gives its bytes."""
    with open(path, "wb") as file:
        sum_, position, group = 0, 0, []
        for text in all_:
            group.append(text)
            if len(group) == GROUP:
                bytes_, sum_ = records.group(sum_, position, position, group)
                file.write(bytes_)
                position, group = position + len(bytes_), []
        bytes_, _ = records.group(sum_, position, position, group)
        file.write(bytes_)
        return position + len(bytes_)


def with_quick_sums():
    """Starts this script again so that Python's own hash of bytes is the journal's checksum, SipHash-1-3 with keys 0, where it is."""
    if os.environ.get("PYTHONHASHSEED") != "0":
        os.execve(sys.executable, [sys.executable, "-B", *sys.argv], os.environ | {"PYTHONHASHSEED": "0"})
    tried = bytes(range(100))
    if hash(tried) & records.MASK == records.siphash(tried):
        records.siphash = lambda data: hash(data) & records.MASK
    else:
        print("this Python's hash isn't the journal's checksum: writing the journal takes minutes", file=sys.stderr)


class Ran:
    """A run of `ruffletuff report`: its seconds, its processor time, its most memory, and its files' sums."""

    def __init__(self, city, out):
        words = ["report", city.folder, "--config", city.file, "--from", str(generate.START), "--to", str(generate.START + DAY)]
        begun = time.perf_counter()
        with subprocess.Popen([city.program, *words, "--every", str(MINUTES), "--out", out], stdout=subprocess.DEVNULL) as process:
            _, status, used = os.wait4(process.pid, 0)
            self.seconds = time.perf_counter() - begun
            process.returncode = os.waitstatus_to_exitcode(status)
        if process.returncode:
            raise SystemExit(f"report ends with {process.returncode}")
        self.processor, self.memory = used.ru_utime + used.ru_stime, 1024 * used.ru_maxrss
        self.sums = []
        for name in FILES:
            with open(os.path.join(out, name), "rb") as file:
                self.sums.append(hashlib.sha256(MADE.sub(b"", file.read())).hexdigest())
            os.remove(os.path.join(out, name))


def served(city):
    """The seconds of a server's start, and its memory once it is ready."""
    begun = time.perf_counter()
    with city.serve("--thin-at", "0") as server:
        seconds = time.perf_counter() - begun
        memory = resident(server.process.pid)
        server.end()
    return seconds, memory


def row(label, values, scale, unit, must="", most=None):
    """A row: a measure by rounds, what it must be, and whether it is at most so much in each."""
    line([label, spread(values, scale, unit), must, "" if most is None else "yes" if max(values) <= most else "no"])


def tell(all_, one, servers):
    memory = max(it[1] for it in servers)
    line(["Measure", "seen", "must", "is"])
    print("|---|---|---|---|")
    processors = len(os.sched_getaffinity(0))
    row(f"the report on {processors} processors", [it.seconds for it in all_], 1, " s", f"{MOST_SECONDS} s on four", MOST_SECONDS)
    row("its processor time", [it.processor for it in all_], 1, " s")
    row("its most memory", [it.memory for it in all_], 1e-6, " MB", f"{MOST_TIMES} times the server's", MOST_TIMES * memory)
    row("the report on one processor", [it.seconds for it in one], 1, " s")
    row("its most memory", [it.memory for it in one], 1e-6, " MB")
    row("a server's start", [it[0] for it in servers], 1, " s")
    row("its memory once it is ready", [it[1] for it in servers], 1e-6, " MB")


def main():
    with_quick_sums()
    parser = argparse.ArgumentParser(description=__doc__, formatter_class=argparse.RawDescriptionHelpFormatter)
    parser.add_argument("--program", default=PROGRAM, help="the built ruffletuff")
    parser.add_argument("--folder", help="a folder on a disk with room for the journal")
    parser.add_argument("--entries", type=int, default=ENTRIES)
    parser.add_argument("--vehicles", type=int, default=VEHICLES, help="how many each operator has")
    parser.add_argument("--rounds", type=int, default=ROUNDS)
    options = parser.parse_args()
    with contextlib.ExitStack() as stack:
        room = stack.enter_context(tempfile.TemporaryDirectory(prefix="report-", dir=options.folder))
        city = City(os.path.abspath(options.program), room, given := configuration(options.vehicles))
        os.mkdir(city.folder)
        os.mkdir(out := os.path.join(room, "out"))
        size = write_journal(city.journal, texts(given, options.entries, options.vehicles))
        print(f"{options.entries} entries of {OPERATORS} operators of {options.vehicles} vehicles, {size / 1e6:.0f} MB", flush=True)
        all_, one, servers = [], [], []
        for _ in range(options.rounds):
            all_.append(Ran(city, out))
            with kept_to({min(os.sched_getaffinity(0))}):
                one.append(Ran(city, out))
            servers.append(served(city))
            print(f"load of the machine: {os.getloadavg()[0]:.2f}", file=sys.stderr)
        if any(it.sums != all_[0].sums for it in all_ + one):
            raise SystemExit("not every report has the same files")
    tell(all_, one, servers)


if __name__ == "__main__":
    main()
