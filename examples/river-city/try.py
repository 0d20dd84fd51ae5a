#!/usr/bin/env python3
"""River City to look at: starts ruffletuff with a city that is a week old, and prints the address of its page and the access tokens.

    try.py PROGRAM [--port N] [--vehicles N]

PROGRAM is a built ruffletuff, which serves the page itself: at 127.0.0.1:8090, or at port N (0: one that is free). Policies, places and
fleets are those of publish.py, in the journal that ruffletuff would have had of them; `scoot` has N vehicles more. Before a vehicle came to
where it stands it made some trips: in the week's first days many of these ended downtown, so that other rules were broken then than now,
which the page shows at a moment that is over. Ends at Ctrl-C, and what was kept goes with it.
"""

import argparse
import contextlib
import os
import random
import signal
import socket
import subprocess
import sys
import tempfile
import time

import publish
import week

HERE = os.path.dirname(os.path.abspath(__file__))
MINUTE, HOUR, DAY = 60_000, 3_600_000, 24 * 3_600_000
AGE, CROWDED = 7 * DAY, 3 * DAY
# How long a vehicle stands before it is ridden again, at least and at most, in hours.
STANDS = (18, 66)
# Where trips end in the first days, and later, with the weight of each place.
AT_FIRST, LATER = (70, 4, 4, 22), (30, 2, 14, 54)
CHANCE = random.Random(7)


def free_port():
    """A port that nobody listens on."""
    with socket.socket() as it:
        it.bind(("127.0.0.1", 0))
        return it.getsockname()[1]


def stands(vehicle, at, begun):
    """A vehicle's report of having been parked at a moment, at a place of which there are many then."""
    where = CHANCE.choices(week.PLACES, AT_FIRST if at < begun + CROWDED else LATER)[0]
    event = publish.EVENTS["available"]
    location = publish.somewhere(CHANCE, where, ())
    return {**vehicle, "timestamp": at, "vehicle_state": "available", "event_types": [event], "location": location}


def rides(vehicle, at):
    """A vehicle's report of a trip that begins where it stands."""
    return {**vehicle, "timestamp": at, "vehicle_state": "on_trip", "event_types": [publish.EVENTS["on_trip"]]}


def past_of(vehicle, begun):
    """What is reported of a vehicle until it stands as it does: where it was at first, and its trips since. What stood so before the week
    is reported once."""
    last = vehicle["timestamp"]
    if last <= begun:
        return [vehicle]
    found, at = [stands(vehicle, begun - CHANCE.randrange(HOUR, 12 * HOUR), begun)], begun
    while True:
        at += CHANCE.randrange(STANDS[0] * HOUR, STANDS[1] * HOUR)
        if at + HOUR >= last:
            break
        found += [rides(found[-1], at), stands(vehicle, at + CHANCE.randrange(3, 20) * MINUTE, begun)]
    # A trip leads to where it stands; one that is ridden or broken begins there.
    return [*found, rides(found[-1], last - 2 * MINUTE), vehicle] if vehicle["vehicle_state"] != "on_trip" else [*found, vehicle]


def of_operators(operators, begun, now, more):
    """What operators report in the week, in the order of the moments: each with its moment and operator."""
    found = []
    for operator, (token, _, groups, seed) in zip(operators, publish.FLEETS, strict=True):
        assert operator["token"] == token, "the fleets are those of the configuration's operators"
        groups = groups + publish.more_of(more) if token == publish.FLEETS[0][0] else groups
        for vehicle in publish.fleet(groups, seed, now):
            found += [(max(begun, it["timestamp"] + 1), operator["id"], it) for it in past_of(vehicle, begun)]
    return sorted(found, key=lambda it: it[0])


def fill(state, more):
    """Writes the city's folder: its journal, and that none of it was ever compacted. Answers how many vehicles each operator has."""
    now, configuration = int(time.time() * 1000), publish.document("city.json")
    begun, operators = now - AGE, configuration["operators"]
    reports = of_operators(operators, begun, now, more)
    asked = week.of_author(lambda it: publish.to_come(it, now))
    bytes_, _ = week.journal(configuration, begun, asked, reports)
    for name, data in (("journal", bytes_), ("compactions", b"")):
        with open(os.path.join(state, name), "wb") as file:
            file.write(data)
    return {it["token"]: len({report["device_id"] for _, who, report in reports if who == it["id"]}) for it in operators}


@contextlib.contextmanager
def city(program, port, more):
    """A server of the configuration of this folder, once it is ready: its state folder, and how many vehicles each operator has."""
    with tempfile.TemporaryDirectory(prefix="river-city-") as state:
        counts = fill(state, more)
        words = ["serve", "--config", f"{HERE}/city.json", "--state", state, "--listen", f"127.0.0.1:{port}"]
        process = subprocess.Popen([program, *words], stdin=subprocess.DEVNULL, stdout=subprocess.PIPE)
        try:
            if process.stdout.readline() != b"ready\n":
                raise SystemExit(f"try: {program} didn't start")
            yield state, counts
        finally:
            process.terminate()
            process.wait()


def tell_report(program, state):
    """Prints the command for a report on the first operator of this city, over the week until now."""
    configuration = publish.document("city.json")
    os.environ["TZ"] = configuration["zone"]
    time.tzset()
    begun, ended = (time.strftime("%Y-%m-%dT%H:%M", time.localtime(it)) for it in (time.time() - AGE // 1000, time.time()))
    path = os.path.relpath(os.path.join(HERE, "city.json"))
    command = [program, "report", state, "--config", path, "--from", begun, "--to", ended]
    monday = time.time() - 86_400 * time.localtime().tm_wday
    days = (time.strftime("%Y-%m-%d", time.localtime(it)) for it in (monday - 7 * 86_400, monday))
    print("The city is kept in a folder that goes when this ends. What follows reports who broke which rule in its week until now, and since when.")
    print("Its moments are those of the city's clock; with --from {} --to {} in their place it is last week, Monday to Sunday.".format(*days))
    if "unproved" in program:
        print("With this program, which was built before its proof, that takes several minutes.")
    week.tell_alone(command, configuration["operators"][0], os.path.join("out", "river-city", configuration["operators"][0]["token"]))


def main():
    parser = argparse.ArgumentParser(description=__doc__, formatter_class=argparse.RawDescriptionHelpFormatter)
    parser.add_argument("program")
    parser.add_argument("--port", type=int, default=8090)
    parser.add_argument("--vehicles", type=int, default=0)
    options = parser.parse_args()
    signal.signal(signal.SIGTERM, signal.default_int_handler)
    port = options.port or free_port()
    with city(options.program, port, options.vehicles) as (state, counts), contextlib.suppress(KeyboardInterrupt):
        told = {token: f"{who}, with {counts[token]} vehicles" for token, who, _, _ in publish.FLEETS}
        publish.tell(f"http://127.0.0.1:{port}", publish.document("city.json")["author"], told)
        print("The city is a week old: choose an earlier moment below the map to see how operators stood then.")
        tell_report(options.program, state)
        print("make report makes another, made-up week of River City, in March 2026: not the one that this page shows.")
        print("Ctrl-C ends it.", flush=True)
        signal.pause()
    return 0


if __name__ == "__main__":
    sys.exit(main())
