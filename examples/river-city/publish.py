#!/usr/bin/env python3
"""Fills River City over HTTP: publishes its places and policies, and reports two fleets.

    publish.py URL [--vehicles N | --policies-only]

URL is a server for the configuration city.json that has just begun, as http://127.0.0.1:8080. A cap of an earlier year is published
first, which the cap in force supersedes; the festival is moved by whole weeks until it is still to come. The operator `scoot` has 419
vehicles and breaks two to four rules, depending on the time of day, `wheels` has 112 and keeps all of them; with N, `scoot` reports as many more that
break none; with --policies-only nobody reports any. Prints the URL and the access tokens. Ends with 1 where a request isn't answered 200.
"""

import argparse
import glob
import http.client
import json
import os
import random
import sys
import threading
import time
import uuid
from concurrent.futures import ThreadPoolExecutor
from urllib.parse import urlsplit

HERE = os.path.dirname(os.path.abspath(__file__))
CONNECTIONS = 16
HOUR, WEEK = 3_600_000, 7 * 24 * 3_600_000
EVENTS = {"available": "trip_end", "on_trip": "trip_start", "reserved": "reservation_start", "non_operational": "maintenance"}
SCOOTER, BICYCLE = "scooter_standing", "bicycle"

# How many vehicles, of which type and state, in which place and in none of which, and for how many hours they have stood.
SCOOT = [
    (141, SCOOTER, "available", "downtown", ("waterfront",), 0.2, 60),
    (38, BICYCLE, "available", "downtown", ("waterfront",), 0.2, 60),
    (3, BICYCLE, "available", "waterfront", (), 1, 20),
    (33, SCOOTER, "available", "east", (), 0.2, 60),
    (120, SCOOTER, "available", "city", ("downtown", "east"), 0.2, 60),
    (30, BICYCLE, "available", "city", ("downtown", "east"), 0.2, 60),
    (25, SCOOTER, "on_trip", "city", (), 0.02, 0.5),
    (9, SCOOTER, "reserved", "city", ("downtown",), 0.02, 0.3),
    (6, SCOOTER, "non_operational", "city", ("downtown",), 2, 20),
    (5, SCOOTER, "non_operational", "city", ("downtown",), 30, 90),
    (9, SCOOTER, "available", "city", ("downtown", "east"), 76, 200),
]
WHEELS = [
    (22, BICYCLE, "available", "downtown", ("waterfront", "festival"), 0.2, 48),
    (48, BICYCLE, "available", "east", (), 0.2, 48),
    (32, BICYCLE, "available", "city", ("downtown", "east"), 0.2, 48),
    (10, BICYCLE, "on_trip", "city", (), 0.02, 0.5),
]
# The operators' tokens, what is to be said of each, and its fleet with the seed of its positions.
FLEETS = (
    ("scoot", "an operator that breaks two to four rules, depending on the time of day", SCOOT, 7),
    ("wheels", "an operator that keeps all rules now", WHEELS, 8),
)


def document(name):
    """A document of this folder."""
    with open(f"{HERE}/{name}", encoding="utf-8") as text:
        return json.load(text)


def named(kind):
    """The documents of a kind, in the order of their names."""
    return [document(os.path.basename(it)) for it in sorted(glob.glob(f"{HERE}/{kind}-*.json"))]


class City:
    """Connections to the server, one for each thread."""

    def __init__(self, url):
        self.where, self.local = urlsplit(url), threading.local()

    def link(self):
        """This thread's connection."""
        if not hasattr(self.local, "link"):
            self.local.link = http.client.HTTPConnection(self.where.hostname, self.where.port, timeout=120)
        return self.local.link

    def ask(self, token, method, target, body=None):
        """The document of an answer that is 200."""
        sent, link = None if body is None else json.dumps(body, separators=(",", ":")), self.link()
        link.request(method, target, sent, {"authorization": f"Bearer {token}"})
        answer = link.getresponse()
        told = answer.read()
        if answer.status != 200:
            raise SystemExit(f"publish: {method} {target}: {answer.status} {told.decode(errors='replace')}")
        return json.loads(told)


def to_come(policy, now):
    """A policy moved by whole weeks until it begins a week or more from now."""
    weeks = max(0, -((policy["start_date"] - now - WEEK) // WEEK))
    return {**policy, "start_date": policy["start_date"] + weeks * WEEK, "end_date": policy["end_date"] + weeks * WEEK}


def publish(city, author, now):
    """Publishes the earlier cap with the places, then the five policies."""
    places, (earlier, *policies) = named("geography"), named("policy")
    policies[-1] = to_come(policies[-1], now)
    for it in places:
        city.ask(author, "PUT", f"/drafts/geographies/{it['geography_id']}", it)
    for it in (earlier, *policies):
        city.ask(author, "PUT", f"/drafts/policies/{it['policy_id']}", it)
    city.ask(author, "POST", "/publish", {"geographies": [it["geography_id"] for it in places], "policies": [earlier["policy_id"]]})
    city.ask(author, "POST", "/publish", {"policies": [it["policy_id"] for it in policies]})


def polygons(place):
    """The polygons of a document, each its rings."""
    for feature in document(f"geography-{place}.json")["geography_json"]["features"]:
        shape = feature["geometry"]
        yield from shape["coordinates"] if shape["type"] == "MultiPolygon" else [shape["coordinates"]]


def is_in(place, lng, lat):
    """Whether a position is enclosed by a polygon of a place, which has no position of a fleet on an edge."""

    def crossings(rings):
        edges = [edge for ring in rings for edge in zip(ring, ring[1:])]
        return sum((ay > lat) != (by > lat) and lng < (bx - ax) * (lat - ay) / (by - ay) + ax for (ax, ay), (bx, by) in edges)

    return any(crossings(rings) % 2 for rings in PLACES[place])


def somewhere(chance, place, others):
    """A position in a place and in none of the others."""
    xs, ys = zip(*(it for rings in PLACES[place] for it in rings[0]))
    while True:
        lng, lat = round(chance.uniform(min(xs), max(xs)), 6), round(chance.uniform(min(ys), max(ys)), 6)
        if is_in(place, lng, lat) and not any(is_in(it, lng, lat) for it in others):
            return {"lat": lat, "lng": lng}


def fleet(groups, seed, now):
    """The reports of a fleet, the same for the same seed but for their timestamps."""
    chance = random.Random(seed)
    for count, kind, state, place, others, least, most in groups:
        for _ in range(count):
            yield {
                "device_id": str(uuid.UUID(int=chance.getrandbits(128), version=4)),
                "vehicle_type": kind,
                "propulsion_types": ["electric"] if kind == SCOOTER else ["electric_assist"],
                "vehicle_state": state,
                "event_types": [EVENTS[state]],
                "timestamp": now - int(chance.uniform(least, most) * HOUR),
                "location": somewhere(chance, place, others),
            }


def more_of(vehicles):
    """The group of so many vehicles that break no rule."""
    return [(vehicles, SCOOTER, "available", "city", ("downtown", "east"), 0.2, 60)]


def tell(url, author, told):
    """Prints the address of the page, and the access tokens with what is to be said of each."""
    print(f"{url}/ with one of these access tokens:")
    for token, who in {author: "the city's author, who sees who breaks which rule", **told}.items():
        print(f"  {token:8}{who}")


PLACES = {name: list(polygons(name)) for name in ("city", "downtown", "east", "festival", "waterfront")}


def main():
    parser = argparse.ArgumentParser(description=__doc__, formatter_class=argparse.RawDescriptionHelpFormatter)
    parser.add_argument("url")
    parser.add_argument("--vehicles", type=int, default=0, metavar="N")
    parser.add_argument("--policies-only", action="store_true")
    options = parser.parse_args()
    city, configuration, now = City(options.url), document("city.json"), int(time.time() * 1000)
    publish(city, configuration["author"], now)
    told = {token: who for token, who, _, _ in FLEETS}
    with ThreadPoolExecutor(CONNECTIONS) as pool:
        for token, _, groups, seed in () if options.policies_only else FLEETS:
            groups = groups + more_of(options.vehicles) if token == FLEETS[0][0] else groups
            asked = [pool.submit(city.ask, token, "POST", "/fleet/events", report) for report in fleet(groups, seed, now)]
            told[token] += f", with {sum(it.result()['result'] == 'new' for it in asked)} vehicles"
    tell(options.url, configuration["author"], told)
    return 0


if __name__ == "__main__":
    sys.exit(main())
