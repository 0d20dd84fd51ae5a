#!/usr/bin/env python3
"""A week of River City: writes the journal that ruffletuff would have had of it, and the report on how its operators stood.

    week.py PROGRAM DIR [--every MINUTES]

PROGRAM is a built ruffletuff. DIR gets the city's folder `city` and the report, with report.html, in the place of an earlier one. The week
is the one from Monday, 2 March 2026 on, with the night in which clocks are set forward. Places, policies and fleets are those of
publish.py; the festival is in this week. Vehicles go downtown by day and back at night, and many to the waterfront at the weekend; those
that are broken, or have stood too long by then, stay. Prints who breaks which rule at the week's end, since when, and how often each
rule was broken in it; last the command for a report on the first operator alone, into a folder that has none yet. It isn't the week that
try.py shows.
"""

import argparse
import contextlib
import csv
import json
import os
import random
import shlex
import subprocess
import sys

import publish

HERE = os.path.dirname(os.path.abspath(__file__))
sys.path.insert(0, os.path.join(HERE, "..", "..", "tests"))
import records  # noqa: E402 (it stands in another folder)

# 2 March 2026 at midnight in the city, in milliseconds since the Unix epoch.
MONDAY, HOURS = 1_772_438_400_000, 7 * 24 - 1
MINUTE, HOUR, WEEK = 60_000, 3_600_000, 7 * 24 * 3_600_000
SEED = 7
# Where a vehicle's trip ends: by day, at night, and in a night of the weekend, with the weight of each place.
PLACES = ("downtown", "waterfront", "east", "city")
BY_DAY, AT_NIGHT, AT_THE_WEEKEND = (55, 5, 8, 32), (15, 1, 24, 60), (20, 30, 8, 42)
# Of all vehicles so many report in an hour by day, and at night.
BUSY, QUIET = 0.25, 0.05
FILES = ("verdicts.csv", "summary.csv", "report.html")


def in_the_week(policy):
    """A policy moved by whole weeks until it begins in the week."""
    weeks = (policy["start_date"] - MONDAY) // WEEK
    return {**policy, "start_date": policy["start_date"] - weeks * WEEK, "end_date": policy["end_date"] - weeks * WEEK}


def of_author(moved):
    """What the author asks for at first: the earlier cap with the places, then the policies, with the festival moved."""
    places, (earlier, *policies) = publish.named("geography"), publish.named("policy")
    policies[-1] = moved(policies[-1])
    for it in places:
        yield "PUT", f"/drafts/geographies/{it['geography_id']}", it
    for it in (earlier, *policies):
        yield "PUT", f"/drafts/policies/{it['policy_id']}", it
    yield "POST", "/publish", {"geographies": [it["geography_id"] for it in places], "policies": [earlier["policy_id"]]}
    yield "POST", "/publish", {"policies": [it["policy_id"] for it in policies]}


def weights(hour):
    """Where trips end in an hour of the week, and how many vehicles report in it."""
    day, of_day = divmod(hour, 24)
    if day in (4, 5) and of_day >= 19 or day in (5, 6) and of_day < 3:
        return AT_THE_WEEKEND, BUSY
    return (BY_DAY, BUSY) if 7 <= of_day < 19 else (AT_NIGHT, QUIET)


def reported(vehicle, at, state, place=None):
    """A vehicle's report at a moment, from where it was or from another place."""
    location = vehicle["location"] if place is None else publish.somewhere(CHANCE, place, ())
    return {**vehicle, "timestamp": at, "vehicle_state": state, "event_types": [publish.EVENTS[state]], "location": location}


def is_left(vehicle):
    """Whether a vehicle stays where it stood at the week's begin: it is broken, or has stood for more than 72 hours."""
    return vehicle["vehicle_state"] == "non_operational" or vehicle["timestamp"] < MONDAY - 72 * HOUR


def of_operators(ids):
    """What operators report: their vehicles at the week's begin, and then trips, hour by hour. Each with its moment and operator."""
    fleets = {it: list(publish.fleet(groups, SEED, MONDAY)) for it, groups in zip(ids, (publish.SCOOT, publish.WHEELS), strict=True)}
    for operator, vehicles in fleets.items():
        yield from ((MONDAY, operator, it) for it in vehicles)
    for hour in range(HOURS):
        found, (where, busy) = [], weights(hour)
        for operator, vehicles in fleets.items():
            for number, vehicle in enumerate(vehicles):
                if is_left(vehicle) or CHANCE.random() >= busy:
                    continue
                begun = MONDAY + hour * HOUR + CHANCE.randrange(40) * MINUTE
                trip = reported(vehicle, begun, "on_trip")
                stands = reported(trip, begun + CHANCE.randrange(3, 20) * MINUTE, "available", CHANCE.choices(PLACES, where)[0])
                found += [(it["timestamp"] + 1, operator, it) for it in (trip, stands)]
                vehicles[number] = stands
        yield from sorted(found, key=lambda it: it[0])


def texts(configuration, begun, asked, reports):
    """The payloads of a journal: what the author asks for when it begins, and what operators report then and later."""
    yield records.head([(it["id"], it["limit"]) for it in configuration["operators"]])
    for method, target, body in asked:
        yield records.entry(begun, method, None, target.encode(), json.dumps(body).encode())
    for at, operator, body in reports:
        yield records.entry(at, "POST", operator, b"/fleet/events", json.dumps(body, separators=(",", ":")).encode())


def journal(*given):
    """The bytes of the journal of these, and how many records it has."""
    parts, sum_, position = [], 0, 0
    for text in texts(*given):
        part, sum_ = records.group(sum_, position, position, [text])
        parts.append(part)
        position += len(part)
    return b"".join(parts), len(parts)


class Rule:
    """What a report says of a rule: its last row, since which one it is violated, and in how many rows, of those in which it is open."""

    def __init__(self):
        self.last, self.since, self.violated, self.open = None, None, 0, 0

    def take(self, row):
        """Takes the next row. A rule that isn't open at a moment leaves open since when it is violated."""
        self.last = row
        self.open += row["status"] in ("ok", "violated")
        self.violated += row["status"] == "violated"
        if row["status"] == "ok":
            self.since = None
        elif row["status"] == "violated":
            self.since = self.since or row


def standing(folder):
    """The rules of each operator, and the first moment of the report."""
    found, first = {}, None
    with open(os.path.join(folder, "verdicts.csv"), encoding="utf-8", newline="") as file:
        for row in csv.DictReader(file):
            first = first or row["moment"]
            found.setdefault((row["operator_id"], row["policy_id"], row["rule_number"]), Rule()).take(row)
    return list(found.values()), first


def tell(folder, command, operator):
    """Prints who breaks which rule at the last moment of a report, who broke which in it, and the command for an operator alone."""
    rules, first = standing(folder)
    last = max((it.last for it in rules), key=lambda row: row["moment"])
    print(f"at the report's last moment, {last['local']}:")
    for it in rules:
        if it.last["moment"] == last["moment"] and it.last["status"] == "violated":
            before = " or before" if it.since["moment"] == first else ""
            told = f"{it.last['operator_name']} breaks \"{it.last['rule_name']}\": {it.last['measure']} vehicles"
            print(f"  {told}, whenever it was open since {it.since['local']}{before}")
    print("in the report, violated in so many samples of those in which the rule was open:")
    for it in rules:
        if it.violated:
            print(f"  {it.last['operator_name']}, \"{it.last['rule_name']}\": {it.violated} of {it.open}")
    print(f"with each day: {os.path.join(folder, 'report.html')}")
    tell_alone(command, operator, os.path.join(folder, operator["token"]))


def tell_alone(command, operator, folder):
    """Prints the command for a report on an operator alone, into a folder that has no report yet, and which file to open then."""
    alone, number = folder, 1
    while any(os.path.exists(os.path.join(alone, it)) for it in FILES):
        number += 1
        alone = f"{folder}-{number}"
    print(f"To make the report on {operator['name']} alone, paste into a terminal in this folder (docs/REPORT.md says what the words mean):")
    print(f"  mkdir -p {shlex.quote(alone)}")
    print(f"  {shlex.join([*command, '--operator', operator['id'], '--out', alone])}")
    print(f"then open {os.path.join(alone, 'report.html')}")


def clear(folder):
    """Removes an earlier report."""
    for it in FILES:
        with contextlib.suppress(FileNotFoundError):
            os.remove(os.path.join(folder, it))


CHANCE = random.Random(SEED)


def main():
    parser = argparse.ArgumentParser(description=__doc__, formatter_class=argparse.RawDescriptionHelpFormatter)
    parser.add_argument("program")
    parser.add_argument("folder")
    parser.add_argument("--every", default="30")
    options = parser.parse_args()
    os.makedirs(city := os.path.join(options.folder, "city"), exist_ok=True)
    configuration = publish.document("city.json")
    first = configuration["operators"][0]
    clear(options.folder)
    reports = of_operators([it["id"] for it in configuration["operators"]])
    bytes_, count = journal(configuration, MONDAY, of_author(in_the_week), reports)
    with open(os.path.join(city, "journal"), "wb") as file:
        file.write(bytes_)
    print(f"a week of {count} records, {len(bytes_)} bytes, in {city}", flush=True)
    times = ("--from", "2026-03-02", "--to", "2026-03-09", "--every", options.every)
    command = [options.program, "report", city, "--config", os.path.relpath(os.path.join(HERE, "city.json")), *times]
    status = subprocess.run([*command, "--out", options.folder], check=False).returncode
    if not status:
        tell(options.folder, command, first)
    return status


if __name__ == "__main__":
    sys.exit(main())
