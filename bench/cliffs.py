#!/usr/bin/env python3
"""Times what grows with a city on the built servers, over loopback: a whole fleet as one reply, a publication beside long questions, and
a long journal, which is started from, and thinned while the city is served.

    cliffs.py [--program FILE] [--keeping FILE] [--folder FOLDER] [--rounds N] [--scale N] [--part NAME]..

- fleet: mds_serve with 200,000 vehicles of one operator, and 20 readers that ask for all of them and take nothing: its most memory
  meanwhile over that before, when nobody had asked. Then its processor time for one such reply that is taken whole.
- publication: how long a publication of one place takes while nothing else is asked, and beside four operators that ask all the time, each
  in a process of its own, about 100 policies over its 200,000 vehicles.
- start: how many records a second ruffletuff starts from, of a journal of 1,280,000 entries of ten operators, each of 8,000 vehicles, as
  bench/report.py writes it; and its memory once it is ready.
- thinning: the longest wait of an operator that asks all the time while the first one reports, in seconds without thinning, and from
  before such a journal is due to be thinned until a second after the shorter one took its place.

Replies have to have as many vehicles and policies as the input. Medians of the rounds, with the least and the greatest; of longest waits
the greatest counts. `--folder` is on the disk that is timed; `--scale 0.01` tries the script on fleets and journals of a hundredth.
"""

import argparse
import collections
import contextlib
import json
import os
import shutil
import socket
import statistics
import sys
import tempfile
import time

import generate

HERE = os.path.dirname(os.path.abspath(__file__))
sys.path.append(os.path.join(HERE, "..", "tests"))

# This folder's http.py and report.py, not others of these names.
from http import processor_seconds, resident, send, send_many, serve  # noqa: E402

from beside import FORK, Background  # noqa: E402
from kept import City  # noqa: E402
from measure import Shape, documents_of, line, spread, told  # noqa: E402
from report import configuration, served, texts, with_quick_sums, write_journal  # noqa: E402
from wire import PATIENCE, Link, request  # noqa: E402

PROGRAM, KEEPING = (os.path.join(HERE, "..", "crates", it, "out", it) for it in ("mds_serve", "ruffletuff"))
ROUNDS = 3
PARTS = ("fleet", "publication", "start", "thinning")
Sizes = collections.namedtuple("Sizes", "fleet entries vehicles")
WHOLE = Sizes(generate.MOST_VEHICLES, 1_280_000, 8_000)
REPLIES, READERS, READING_SECONDS = 10, 20, 5
ASKERS, SHAPE, PUBLICATIONS, PAUSE = 4, Shape(100, 8, 64, 0, False), 50, 0.05
# How much a journal grows before it is thinned: in its first half nothing is thinned.
MARGIN, REPORTING_PAUSE = 200_000, 0.01
THINNED = b"ruffletuff: the journal is thinned\n"
FLEET, COMPLIANCE, POLICIES = "/fleet/vehicles", "/compliance", "/policies"
MOST_SECONDS = 120 * PATIENCE  # for one answer, however badly it goes, and for thinning


class Rows:
    """What was measured, by rounds."""

    def __init__(self):
        self.found = {}

    def add(self, name, value):
        self.found.setdefault(name, []).append(value)
        print(f"{name}: {value:.6g}", file=sys.stderr, flush=True)

    def tell(self, name, label, unit, bounds=None, judged=statistics.median, more=False):
        """A row: a measure, what it must and should be, and whether it is."""
        if values := self.found.get(name):
            scale, word = unit
            _, *limits = told(scale * judged(values), bounds, more)
            line([label, spread(values, scale, word), *limits])


def asks_on(port, token, targets, pause, over, told_by):
    """Asks for each of these in turn until it is over; tells the seconds that each answer took, and the last body."""
    times, body = [], b""
    with Link(port) as link:
        link.socket.settimeout(MOST_SECONDS)
        while not over.is_set():
            begun = time.perf_counter()
            body = send(link, generate.request("GET", targets[len(times) % len(targets)], who=token))
            times.append(time.perf_counter() - begun)
            time.sleep(pause)
    told_by.put((times, body))


def whole_reply(link, target, token):
    """The body of a success, however long it is: it is read without copying what was read before."""
    link.send(request("GET", target, token))
    with link.socket.makefile("rb") as file:
        head = [it.strip().lower() for it in iter(file.readline, b"\r\n")]
        if b" 200 " not in head[0]:
            sys.exit(f"{target} is answered {head[0]!r}")
        lengths = [int(it.partition(b":")[2]) for it in head if it.startswith(b"content-length:")]
        if lengths:
            return file.read(lengths[0])
        parts = []
        while size := int(file.readline(), 16):
            parts.append(file.read(size))
            file.readline()
        file.readline()
        return b"".join(parts)


def has_vehicles(body, devices):
    """Whether a reply tells of these devices, ascending."""
    return [it["device_id"] for it in json.loads(body)["vehicles"]] == sorted(devices)


def most_memory(pid):
    """The most memory of a process since it was forgotten, in bytes."""
    with open(f"/proc/{pid}/status", encoding="ascii") as text:
        return 1024 * next(int(it.split()[1]) for it in text if it.startswith("VmHWM:"))


def forget_most_memory(pid):
    """From now on the most memory is that of what comes."""
    with open(f"/proc/{pid}/clear_refs", "w", encoding="ascii") as out:
        out.write("5")


def fleet_part(options, sizes, rows):
    """Readers that take nothing of a long reply, and what one costs that is taken."""
    token = generate.token(0)
    reports = generate.fleet(generate.Xorshift(generate.SEED), sizes.fleet)
    devices = [generate.DEVICE.search(it)[1] for it in reports]
    for _ in range(options.rounds):
        with contextlib.ExitStack() as stack:
            server = serve(stack, options.program, [])
            pid = server.process.pid
            with server.link() as link:
                send_many(link, reports)
            before = resident(pid)
            forget_most_memory(pid)
            untaken(server, token)
            rows.add("readers", most_memory(pid) - before)
            with server.link() as link:
                link.socket.settimeout(MOST_SECONDS)
                spent = processor_seconds(pid)
                for _ in range(REPLIES):
                    body = whole_reply(link, FLEET, token)
                rows.add("reply", (processor_seconds(pid) - spent) / REPLIES)
            if not has_vehicles(body, devices):
                sys.exit("the fleet isn't told as it was reported")
            rows.add("bytes", len(body))


def untaken(server, token):
    """Asks for a fleet on several connections, and takes nothing for a while once each answer has begun."""
    with contextlib.ExitStack() as stack:
        readers = [stack.enter_context(server.link(receive=4096)) for _ in range(READERS)]
        for link in readers:
            link.socket.settimeout(MOST_SECONDS)
            link.send(request("GET", FLEET, token))
        for link in readers:
            if not link.socket.recv(13, socket.MSG_PEEK | socket.MSG_WAITALL).endswith(b" 200 "):
                sys.exit("a reader isn't answered with a fleet")
        time.sleep(READING_SECONDS)


def fill(port, number, count):
    """Reports the fleet of an operator."""
    with Link(port) as link:
        send_many(link, generate.fleet(generate.Xorshift(generate.SEED + number), count, number))


def publications(link, random, first):
    """The seconds that so many publications take, of a place each that was put before."""
    seconds = []
    for number, ring in enumerate(generate.districts(random, PUBLICATIONS, 20, 0.1), first):
        send(link, generate.put_geography(number, generate.geography(number, ring)))
        begun = time.perf_counter()
        send(link, generate.publish([number]))
        seconds.append(time.perf_counter() - begun)
        time.sleep(PAUSE)
    return seconds


def publication_part(options, sizes, rows):
    """Publications alone, and beside operators that ask long questions."""
    random = generate.Xorshift(generate.SEED)
    with contextlib.ExitStack() as stack:
        server = serve(stack, options.program, documents_of(random, SHAPE))
        filling = [FORK.Process(target=fill, args=(server.port, number, sizes.fleet)) for number in range(ASKERS)]
        for process in filling:
            process.start()
        for process in filling:
            process.join()
        if any(process.exitcode for process in filling):
            sys.exit("not every fleet is reported")
        author = stack.enter_context(server.link())
        author.socket.settimeout(MOST_SECONDS)
        for turn in range(options.rounds):
            first = SHAPE.places + 2 * turn * PUBLICATIONS
            rows.add("publication, alone", statistics.median(publications(author, random, first)))
            with contextlib.ExitStack() as others:
                operators = (Background(asks_on, server.port, generate.token(it), [COMPLIANCE], 0) for it in range(ASKERS))
                asking = [others.enter_context(it) for it in operators]
                time.sleep(1)
                seconds = publications(author, random, first + PUBLICATIONS)
                answers = [it.end(MOST_SECONDS) for it in asking]
            rows.add("publication", statistics.median(seconds))
            rows.add("longest publication", max(seconds))
            rows.add("question", statistics.median(it for times, _ in answers for it in times))
            if any(len(json.loads(body)["policies"]) != SHAPE.policies for _, body in answers):
                sys.exit("a question isn't answered for every policy")


@contextlib.contextmanager
def city_with_journal(options, sizes):
    """A city whose folder has the journal, and the journal's place beside it."""
    with tempfile.TemporaryDirectory(prefix="cliffs-", dir=options.folder) as room:
        city = City(options.keeping, room, given := configuration(sizes.vehicles))
        os.mkdir(city.folder)
        written = os.path.join(room, "written")
        size = write_journal(written, texts(given, sizes.entries, sizes.vehicles))
        print(f"a journal of {sizes.entries} entries, {size / 1e6:.0f} MB", file=sys.stderr, flush=True)
        yield city, written


def fresh(city, written):
    """Puts the journal in its place, with nothing beside it."""
    shutil.rmtree(city.folder)
    os.mkdir(city.folder, 0o700)
    shutil.copyfile(written, city.journal)
    os.sync()


def start_part(options, sizes, rows, city, written):
    """Starts over the journal."""
    fresh(city, written)
    for _ in range(options.rounds):
        seconds, memory = served(city)
        rows.add("start", sizes.entries / seconds)
        rows.add("memory", memory)
    with city.serve("--thin-at", "0") as server, server.link() as link:
        for number in range(len(configuration(1)["operators"])):
            found = json.loads(whole_reply(link, FLEET, generate.token(number)))["vehicles"]
            if len(found) != sizes.vehicles:
                sys.exit(f"operator {number} has {len(found)} vehicles after a start")
        server.end()


def longest_wait(server, random, is_over):
    """The longest wait of an operator while another one reports, until it is over."""
    with server.link() as link, Background(asks_on, server.port, generate.token(1), [POLICIES, COMPLIANCE], 0.001) as asking:
        device = json.loads(whole_reply(link, FLEET, generate.token(0)))["vehicles"][0]["device_id"]
        until = time.monotonic() + MOST_SECONDS
        while not is_over():
            if time.monotonic() > until:
                sys.exit("the journal isn't thinned")
            at = time.time_ns() // 1_000_000
            send(link, generate.report(random, 0, device, at))
            time.sleep(REPORTING_PAUSE)
        return max(asking.end(MOST_SECONDS)[0])


def thinning_part(options, sizes, rows, city, written):
    """An operator's longest wait, without thinning and while the journal is thinned."""
    random = generate.Xorshift(generate.SEED)
    for _ in range(options.rounds):
        fresh(city, written)
        full, thinned = os.path.getsize(city.journal), []

        def is_thinned_for_a_second():
            if not thinned and os.path.getsize(city.journal) < full:
                thinned.append(time.monotonic())
            return thinned and time.monotonic() > thinned[0] + 1

        with city.serve("--thin-at", str(full + MARGIN)) as server:
            rows.add("longest wait, alone", longest_wait(server, random, lambda: os.path.getsize(city.journal) > full + MARGIN // 2))
            rows.add("longest wait", longest_wait(server, random, is_thinned_for_a_second))
            status, _, said = server.end()
        if status or said != THINNED:
            sys.exit(f"it ends with {status}, {said[:200]!r}")


def tell(rows, sizes, count):
    """The table."""
    processors, seconds, milliseconds, megabytes = len(os.sched_getaffinity(0)), (1, "s"), (1e3, "ms"), (1e-6, "MB")
    print(f"\nMedians of {count} rounds, with the least and the greatest, on {processors} processors.\n")
    line(["Measure", "seen", "must", "aim", "kept"])
    print("|---|---|---|---|---|")
    fleet = f"GET of {sizes.fleet} vehicles"
    questions = f"{ASKERS} operators' questions about {SHAPE.policies} policies, {sizes.fleet} vehicles each"
    rows.tell("bytes", f"{fleet}, its reply", megabytes)
    rows.tell("reply", f"{fleet}, processor seconds of the server", seconds, (0.2, 0.13))
    rows.tell("readers", f"memory above idle while {READERS} readers ask for them and take nothing", megabytes, (60, 20))
    rows.tell("publication, alone", "a publication of a place, nothing else asked", milliseconds)
    rows.tell("publication", f"the same beside {questions}", milliseconds, (5, 0.5))
    rows.tell("longest publication", f"the longest of {PUBLICATIONS} of these", milliseconds)
    rows.tell("question", "such a question meanwhile", milliseconds)
    started = f"records a second of a start over {sizes.entries}"
    rows.tell("start", started, (1e-3, "thousand"), (600, 1_000), more=True)
    rows.tell("memory", "memory once it is ready", megabytes)
    rows.tell("longest wait, alone", "an operator's longest GET while another reports", milliseconds)
    rows.tell("longest wait", f"the same while a journal of {sizes.entries} is thinned", milliseconds, (50, 20), max)


def main():
    with_quick_sums()
    parser = argparse.ArgumentParser(description=__doc__, formatter_class=argparse.RawDescriptionHelpFormatter)
    parser.add_argument("--program", default=PROGRAM, type=os.path.abspath, help="the built mds_serve")
    parser.add_argument("--keeping", default=KEEPING, type=os.path.abspath, help="the built ruffletuff")
    parser.add_argument("--folder", help="a folder on the disk that is timed")
    parser.add_argument("--rounds", type=int, default=ROUNDS)
    parser.add_argument("--scale", type=float, default=1, help="fleets and journals so many times as large, to try the script")
    parser.add_argument("--part", action="append", choices=PARTS, help="this alone; may be given more than once")
    options = parser.parse_args()
    sizes, rows, parts = Sizes(*(round(options.scale * it) for it in WHOLE)), Rows(), options.part or PARTS
    if "fleet" in parts:
        fleet_part(options, sizes, rows)
    if "publication" in parts:
        publication_part(options, sizes, rows)
    if "start" in parts or "thinning" in parts:
        with city_with_journal(options, sizes) as (city, written):
            if "start" in parts:
                start_part(options, sizes, rows, city, written)
            if "thinning" in parts:
                thinning_part(options, sizes, rows, city, written)
    print(f"load of the machine: {os.getloadavg()[0]:.2f}", file=sys.stderr)
    tell(rows, sizes, options.rounds)


if __name__ == "__main__":
    main()
