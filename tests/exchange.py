#!/usr/bin/env python3
"""Files and a running server: starts ruffletuff, and has it import documents of MDS 2.0 and GeoJSON and vehicles of feeds, and export what
is published.

    exchange.py PROGRAM

Expects that geographies and predecessors are sent first, whatever their order in the files; that a rule that isn't judged is kept and
told, and a number of it that isn't whole goes as a text; that a bound with a fraction is refused by its name; that a feature of GeoJSON
becomes a geography with an identifier that its name alone gives; that a dry run sends nothing; that files that are broken, deep, long, of
other types or cut within a character, and identifiers that stand twice, are told by file and place and stop nothing else; that vehicles of
MDS and of GBFS become the reports that are worked out here, many in one request, and those that are away are taken away; that what is
exported and imported again is exported as the same; that no byte of a file reaches standard output or standard error that could move a
cursor; that a reply counts only where it is whole by its head (RFC 9112, section 6.3); that an access token is read from a file and shown
nowhere; that a FIFO, a socket, a device and a folder are refused at once; and the exit statuses of docs/OPERATIONS.md. Prints what is
otherwise, and last 'N passed, M failed'; ends with 1 where one failed.
"""

import contextlib
import json
import os
import socket
import subprocess
import sys
import tempfile
import threading
import time
import uuid

from kept import END_SECONDS, Alone, ended, tried
from wire import AUTHOR, FIRST, SECONDS, SLOWNESS, free_port

LONG = 10_000_000  # bytes of a long file
MANY = 5_000 if SLOWNESS == 1 else 200  # vehicles of a feed, in more than one request
NAMES = ("Altstadt", "Nördlicher Hafen")  # of places in GeoJSON
NO_LENGTH = "the server answers with a content-length that is none"
NO_LENGTHS = (  # fields of a head, each of which says it of a body
    b"content-length: 99999999999999999999\r\n",
    b"content-length: 2\r\ncontent-length: 3\r\n",
    b"content-length: +5\r\n",
    b"content-length: -5\r\n",
    b"content-length: 0x2\r\n",
    b"content-length: \r\n",
)
RATE = {"rule_id": "7ea0d16e-ad15-4337-9722-9924e3af9147", "name": "fee", "rule_type": "rate", "geographies": [], "rate_amount": 0.15}


def expect(is_so, what):
    """Tells a fault, where something isn't so."""
    if not is_so:
        raise ValueError(what)


def number(kind, count):
    """An identifier."""
    return f"{kind:08x}-0000-4000-8000-{count:012x}"


def square(east, north, side=0.01):
    """A polygon of GeoJSON."""
    corners = [(0, 0), (side, 0), (side, side), (0, side), (0, 0)]
    return {"type": "Polygon", "coordinates": [[[round(east + x, 7), round(north + y, 7)] for x, y in corners]]}


def place(count):
    """A geography of MDS 2.0."""
    return {"geography_id": number(1, count), "name": f"Place {count}", "geography_type": "zone", "geography_json": square(5 + count, 5.5)}


def policy(count, before=(), rules=None):
    """A policy of MDS 2.0."""
    rule = {"rule_id": number(3, count), "name": "cap", "rule_type": "count", "geographies": [number(1, 1)], "maximum": 10}
    return {
        "policy_id": number(2, count),
        "name": f"Policy {count}",
        "start_date": 1000,
        "end_date": None,
        "published_date": 999,
        "prev_policies": list(before) or None,
        "rules": rules if rules is not None else [rule],
    }


class Room:
    """A folder with files."""

    def __init__(self, program):
        self.program, self.folder = program, None

    def __enter__(self):
        self.stack = contextlib.ExitStack()
        self.folder = self.stack.enter_context(tempfile.TemporaryDirectory(prefix="exchange-"))
        return self

    def __exit__(self, *fault):
        self.stack.close()

    def file(self, name, holds):
        """A file's path; what it holds are bytes, or a value that is JSON."""
        path = os.path.join(self.folder, name)
        with open(path, "wb") as text:
            text.write(holds if isinstance(holds, bytes) else json.dumps(holds).encode())
        return path

    def run(self, *words):
        """Status, standard output and standard error, all of whose bytes are printable ASCII or line feeds."""
        status, out, err = ended(self.program, *words)
        for text in (out, err):
            expect(all(b == 10 or 32 <= b <= 126 for b in text), f"{words}: bytes that a terminal acts on: {text[:300]!r}")
        return status, out.decode(), err.decode()

    def policies(self, server, *files, token=AUTHOR, more=()):
        """An import of documents."""
        return self.run("import", "policies", *files, "--to", f"127.0.0.1:{server.port}", "--token", token, *more)


def drafts(server, kind, count):
    """The draft of a document, or None."""
    answer = server.ask("GET", f"/drafts/{kind}/{number({'geographies': 1, 'policies': 2}[kind], count)}", AUTHOR)
    return json.loads(answer.body)["draft"] if answer.status == 200 else None


def in_order(program):
    """Geographies and predecessors go first, from files in any order; the drafts are as they were written."""
    with Room(program) as room, Alone(program) as server:
        chain = [policy(3, [number(2, 2)]), policy(2, [number(2, 1)]), policy(1)]
        first = room.file("a.json", {"version": "2.0.0", "data": {"policies": chain}})
        second = room.file("b.json", {"version": "2.0.0", "data": {"geographies": [place(1), place(2)]}})
        status, out, err = room.run("import", "policies", first, second, "--dry-run")
        wanted = [("geographies", 1, 1), ("geographies", 1, 2), ("policies", 2, 1), ("policies", 2, 2), ("policies", 2, 3)]
        lines = [f"PUT /drafts/{kind}/{number(group, count)}" for kind, group, count in wanted]
        lines.append("5 documents would be sent, 0 refused")
        expect((status, err) == (0, "") and out.splitlines() == lines, f"dry: {status} {out} {err}")
        expect(drafts(server, "policies", 1) is None, "a dry run sent something")
        status, out, err = room.policies(server, first, second)
        expect((status, out, err) == (0, "5 documents sent, 0 refused\n", ""), f"sent: {status} {out} {err}")
        found = drafts(server, "policies", 3)
        expect({**found, "published_date": 999} == policy(3, [number(2, 2)]), f"another draft: {found}")
        expect(drafts(server, "geographies", 2)["name"] == "Place 2", "another place")
        status, out, err = room.policies(server, first, second, more=("--dry-run",))
        expect(status == 0 and out.endswith("5 documents would be sent, 0 refused\n"), f"dry with a server: {status} {out} {err}")
        for _ in range(2):  # each batch supersedes the one before
            status, out, _ = room.policies(server, first, second)
            expect((status, out) == (0, "5 documents sent, 0 refused\n"), f"again: {status} {out}")
    yield from ()


def kept_and_refused(program):
    """What isn't judged is kept and told; a fraction is refused by its name, and all else is sent."""
    with Room(program) as room, Alone(program) as server:
        fraction = policy(2)
        fraction["rules"][0]["maximum"] = 7.5
        unread = policy(3)
        unread["start_date"] = "soon"
        rated = policy(1, rules=[RATE, *policy(1)["rules"]])
        name = room.file("rates.json", {"policies": [rated, fraction, unread, {"policy_id": "x"}, 7]})
        status, out, err = room.policies(server, name)
        lines = [
            f"{name}: document 1: rule {RATE['rule_id']}: it is kept and not judged",
            f"{name}: document 1: rate_amount: a number that isn't whole is kept as a text",
            f"{name}: document 2: maximum: a bound of a rule that is judged has to be a whole number",
            f"{name}: document 4: policy_id: it is missing, or isn't as it has to be",
            f"{name}: document 5: policy_id: it is missing, or isn't as it has to be",
            f"{name}: document 3: 400 bad_field",
            f"ruffletuff: something was refused: 127.0.0.1:{server.port}",
        ]
        expect((status, out) == (9, "1 documents sent, 4 refused\n") and err.splitlines() == lines, f"{status} {out} {err}")
        expect(drafts(server, "policies", 1)["rules"][0]["rate_amount"] == "0.15", "the rate isn't kept")
    yield from ()


def features(program):
    """Features with names become geographies, whose identifiers the names alone give."""
    with Room(program) as room, Alone(program) as server:
        own = number(1, 7)
        made = [{"type": "Feature", "properties": {"name": it}, "geometry": square(5, 5 + n)} for n, it in enumerate(NAMES)]
        made.append({"type": "Feature", "id": own, "properties": {"name": "Own", "area": 1.25}, "geometry": square(6, 6)})
        made.append({"type": "Feature", "properties": None, "geometry": square(7, 7)})
        made.append({"type": "Feature", "properties": {"name": "Nowhere"}, "geometry": None})
        name = room.file("places.geojson", {"type": "FeatureCollection", "features": made})
        status, out, err = room.policies(server, name)
        lines = [f"{name}: document {n}: {it}: it is missing, or isn't as it has to be" for n, it in ((4, "name"), (5, "geometry"))]
        expect((status, out) == (9, "3 documents sent, 2 refused\n") and err.splitlines()[:2] == lines, f"{status} {out} {err}")
        for it, wanted in [*((it, str(uuid.uuid5(uuid.NAMESPACE_URL, it))) for it in NAMES), ("Own", own)]:
            answer = server.ask("GET", f"/drafts/geographies/{wanted}", AUTHOR)
            expect(answer.status == 200 and json.loads(answer.body)["draft"]["name"] == it, f"{it}: {answer}")
    yield from ()


def hostile(program):
    """Files that are no documents are told by their names, and stop nothing else."""
    with Room(program) as room, Alone(program) as server:
        good = room.file("good.json", place(1))
        many = [{"geography_id": number(9, n), "name": "x" * 200} for n in range(LONG // 270)]
        bad = {
            "deep.json": b"[" * 200_000 + b"]" * 200_000,
            "cut.json": json.dumps({"name": "ü"}, ensure_ascii=False).encode()[:-3],
            "bytes.json": b"\xff\xfe\x00\x1b[31m",
            "empty.json": b"",
            "half.json": b'{"policies":[',
        }
        files = [room.file(name, holds) for name, holds in bad.items()]
        files += [os.path.join(room.folder, "absent\x1b[31m.json"), room.folder]
        status, out, err = room.policies(server, *files, good)
        expect((status, out) == (9, "1 documents sent, 7 refused\n"), f"{status} {out} {err}")
        words = [*["it isn't JSON in UTF-8 of at most 127 levels"] * 5, "it can't be read", "it isn't a regular file"]
        shown = [it.replace("\x1b", "\\x1b") for it in files]
        expect(err.splitlines()[:7] == [f"{it}: {why}" for it, why in zip(shown, words)], err)
        types = room.file("types.json", {"policies": {"a": 1}, "geographies": [[], None, {"geography_id": 5}]})
        status, out, err = room.policies(server, types)
        expect((status, out) == (9, "0 documents sent, 3 refused\n"), f"types: {status} {out} {err}")
        status, out, err = room.policies(server, room.file("twice.json", [place(2), place(2), place(3)]))
        twice = "document 2: one of its kind and identifier stands before it"
        expect((status, out) == (9, "2 documents sent, 1 refused\n") and twice in err, err)
        sly = {"policy_id": "x\x1b[2J\x9b", "ev\x1bil": 1, "rules": [{"rule_id": "a\nb\u009b", "rule_type": "rate"}]}
        status, out, err = room.policies(server, room.file("sly.json", [sly, {**policy(5), "rules": sly["rules"]}]))
        expect(status == 9 and "rule a\\x0ab\\xc2\\x9b: it is kept and not judged" in err, f"sly: {status} {out} {err}")
        wide = {**place(4), "description": "x" * 1_100_000}
        status, out, err = room.policies(server, room.file("wide.json", wide))
        expect((status, out) == (9, "0 documents sent, 1 refused\n"), f"wide: {status} {out} {err}")
        expect("it has more than 1048576 bytes" in err, err)
        if SLOWNESS == 1:
            status, out, err = room.policies(server, room.file("long.json", {"geographies": many}))
            expect(status == 9 and "1024 documents stand before it" in err, f"long: {status} {out} {err[:300]}")
    yield from ()


def places_and_tokens(program):
    """Whom nobody answers, and who may not, are told with their own statuses; so are words that ask for nothing."""
    with Room(program) as room, Alone(program) as server:
        name = room.file("place.json", place(1))
        for token, code in ((FIRST, "403 role"), ("nobody", "401 token")):
            status, out, err = room.policies(server, name, token=token)
            expect((status, out) == (10, "0 documents sent, 0 refused\n"), f"{token}: {status} {out} {err}")
            expect(err.startswith(f"{name}: document 1: {code}\n"), f"{token}: {err}")
        status, out, err = room.policies(server, name, token="a\r\nx: y")
        expect(status == 2, f"a token with a line end: {status} {out} {err}")
        status, _, err = room.run("import", "policies", name, "--to", f"127.0.0.1:{free_port()}", "--token", AUTHOR)
        expect(status == 1 and "no server answers: 127.0.0.1:" in err, f"no server: {status} {err}")
        to = ["--to", "x"]
        for words in (["policies"], ["policies", name], ["policies", name, *to], ["policies", "--dry-run"], ["other", name, "--dry-run"],
                      ["policies", name, *to, "--dry-run"], ["policies", name, *to, "--token", "y", "--what", "z"]):
            status, _, err = room.run("import", *words)
            expect(status == 2 and "usage: " in err, f"{words}: {status} {err}")
    yield from ()


def fleet(server):
    """What the first operator's fleet is."""
    answer = server.ask("GET", "/fleet/vehicles")
    return json.loads(answer.body)["vehicles"]


def doing(count, state="available", moment=2000, **more):
    """A vehicle's status of MDS 2.0."""
    location = {"lat": 45.5123456, "lng": -122.25}
    event = {"vehicle_state": state, "event_types": ["trip_end"], "timestamp": moment, "location": location, **more}
    return {"device_id": number(4, count), "provider_id": number(5, 1), "last_event": event}


def what(count, kind="scooter_standing"):
    """A vehicle of MDS 2.0."""
    return {"device_id": number(4, count), "vehicle_type": kind, "propulsion_types": ["electric"]}


def vehicles_of_mds(program):
    """Statuses with their vehicles become reports; those that are away are taken away; what is missing or refused is told."""
    with Room(program) as room, Alone(program, limit=MANY) as server:
        kinds = room.file("vehicles.json", {"version": "2.0.0", "vehicles": [what(n) for n in range(MANY + 1)]})
        status = [doing(n) for n in range(MANY)]
        first = room.file("status.json", {"version": "2.0.0", "data": {"vehicles_status": status}})
        to = ("--to", f"127.0.0.1:{server.port}", "--token", FIRST)
        code, out, err = room.run("import", "status", first, kinds, "--dry-run")
        expect((code, err) == (0, ""), f"dry: {code} {err[:200]}")
        expect(out.endswith(f"\n{MANY} reports would be sent, 0 refused\n"), f"dry: {out[-200:]}")
        deed = {"vehicle_state": "available", "event_types": ["trip_end"], "timestamp": 2000}
        whole = {**what(0), **deed, "location": {"lat": 45.5123456, "lng": -122.25}}
        line = out.partition("\n")[0]
        expect(line.startswith("POST /fleet/events ") and json.loads(line[len("POST /fleet/events "):]) == whole, f"dry: {line}")
        expect(fleet(server) == [], "a dry run sent something")
        code, out, err = room.run("import", "status", first, kinds, *to)
        expect((code, out) == (0, f"{MANY} reports sent, 0 refused\n"), f"{code} {out} {err[:300]}")
        found = fleet(server)
        expect(len(found) == MANY, f"{len(found)} vehicles")
        expect(found[0] == {**whole, "since": 2000}, f"another vehicle: {found[0]}")
        away = [doing(n, state, 3000) for n, state in enumerate(("removed", "missing", "elsewhere", "on_trip"))]
        odd = [doing(4, moment=1000), doing(5, location=None), {"device_id": "x"}, doing(6, moment=None), doing(MANY + 2), 7, doing(MANY)]
        name = room.file("later.json", {"vehicles_status": [*away, *odd]})
        code, out, err = room.run("import", "status", name, kinds, *to)
        words = ("409 stale", "location", "device_id", "timestamp", "vehicle_type", "device_id")
        lines = {f"document {n}: {it}" for n, it in enumerate(words, 5)}
        expect((code, out) == (9, "5 reports sent, 6 refused\n") and all(it in err for it in lines), f"{code} {out} {err}")
        found = {it["device_id"]: it["vehicle_state"] for it in fleet(server)}
        expect(len(found) == MANY - 2 and number(4, 0) not in found and found[number(4, 3)] == "on_trip", f"{len(found)} vehicles")
        none = room.file("none.json", {"data": {"bikes": []}})
        code, out, err = room.run("import", "status", none, "--dry-run")
        expect((code, out) == (9, "0 reports would be sent, 1 refused\n"), f"no list: {code} {out} {err}")
        expect(err.startswith(f"{none}: it has no list of vehicles or of their types\n"), err)
        code, out, err = room.run("import", "status", name, kinds, "--to", f"127.0.0.1:{server.port}", "--token", AUTHOR)
        expect(code == 10 and "403 role" in err, f"the author: {code} {out} {err}")
    yield from ()


def vehicles_of_gbfs(program):
    """A vehicle's state is that of its marks, its moment one of RFC 3339, and its device the identifier that its name gives."""
    with Room(program) as room, Alone(program, limit=9) as server:
        seen = {"lat": 45.5, "lon": -122.6, "vehicle_type_id": "s", "is_reserved": False, "is_disabled": False}
        seen["last_reported"] = "2023-07-17T13:34:13+02:00"
        others = ({}, {"is_reserved": True}, {"is_disabled": True}, {"lat": None}, {"vehicle_type_id": "t"}, {"last_reported": "yesterday"})
        made = [{**seen, "vehicle_id": name, **more} for name, more in zip("abcdef", others)]
        name = room.file("vehicle_status.json", {"version": "3.0", "last_updated": "2023-07-17T13:34:13Z", "data": {"vehicles": made}})
        kind = {"vehicle_type_id": "s", "form_factor": "bicycle", "propulsion_type": "human"}
        kinds = room.file("vehicle_types.json", {"data": {"vehicle_types": [kind]}})
        code, out, err = room.run("import", "status", name, kinds, "--to", f"127.0.0.1:{server.port}", "--token", FIRST)
        expect((code, out) == (9, "3 reports sent, 3 refused\n"), f"{code} {out} {err}")
        expect(all(it in err for it in ("document 4: lat", "document 5: vehicle_type", "document 6: timestamp")), err)
        found = {it["device_id"]: it for it in fleet(server)}
        for it, state in (("a", "available"), ("b", "reserved"), ("c", "non_operational")):
            vehicle = found[str(uuid.uuid5(uuid.NAMESPACE_URL, it))]
            names = ("vehicle_state", "vehicle_type", "propulsion_types", "timestamp")
            expect([vehicle[name] for name in names] == [state, "bicycle", ["human"], 1689593653000], f"{it}: {vehicle}")
    yield from ()


def from_addresses(program):
    """A feed at an address is read; one that isn't there, that isn't HTTP, that breaks off, that hangs or of whose length nothing can be
    relied on is told."""
    head = b"HTTP/1.1 200 OK\r\n"
    text = json.dumps({"vehicles_status": [{**doing(1), **what(1)}]}).encode()
    told = [
        (head + b"\r\n" + text, None),
        (head + b"content-length: %d\r\n\r\n" % len(text) + text, None),
        (b"", "the server answers what isn't HTTP"),
        (head + b"content-length: 9999\r\n\r\n" + text, "the server broke off"),
        *((head + length + b"\r\n" + text, NO_LENGTH) for length in NO_LENGTHS),
        (head + b"transfer-encoding: chunked\r\n\r\n0\r\n\r\n", "the server answers in a transfer-encoding that isn't read"),
        (b"HTTP/1.1 404 no\r\n\r\n\x1b[31m", "the server doesn't give it"),
        (None, "the server doesn't answer"),
    ]
    with Room(program) as room, socket.create_server(("127.0.0.1", 0)) as listener:
        held = []

        def serve():
            for it, _ in told:
                link, _ = listener.accept()
                held.append(link)
                link.recv(65536)
                if it is not None:
                    link.sendall(it)
                    link.close()

        threading.Thread(target=serve, daemon=True).start()
        address = f"http://127.0.0.1:{listener.getsockname()[1]}/feed"
        for it, words in told:
            status, out, err = room.run("import", "status", address, "--dry-run")
            wanted = (9, f"{address}: {words}\n") if words else (0, "")
            expect((status, err.replace("ruffletuff: something was refused\n", "")) == wanted, f"{it}: {status} {out} {err}")
        for link in held:
            link.close()
        status, _, err = room.run("import", "status", f"http://127.0.0.1:{free_port()}/feed", "--dry-run")
        expect(status == 9 and "the server doesn't answer" in err, f"nobody there: {status} {err}")
    yield from ()


def published(room, server, name):
    """The three files of an export."""
    folder = os.path.join(room.folder, name)
    code, out, err = room.run("export", folder, "--from", f"127.0.0.1:{server.port}", "--token", AUTHOR)
    expect((code, out, err) == (0, "2 policies, 2 geographies\n", ""), f"export: {code} {out} {err}")
    files = []
    for it in ("policies.json", "geographies.json", "geographies.geojson"):
        with open(os.path.join(folder, it), "rb") as text:
            files.append(json.loads(text.read()))
    return files


def is_ring(ring):
    """RFC 7946, sections 3.1.1 and 3.1.6: four or more positions, longitude first, the last one the first, counterclockwise."""
    turns = sum((b[0] - a[0]) * (b[1] + a[1]) for a, b in zip(ring, ring[1:]))
    return len(ring) >= 4 and ring[0] == ring[-1] and turns < 0 and all(abs(it[0]) <= 180 and abs(it[1]) <= 90 for it in ring)


def is_collection(file):
    """RFC 7946, sections 3.2 and 3.3: features, each with its three members, of polygons whose rings are numbers."""
    expect(set(file) == {"type", "features"} and file["type"] == "FeatureCollection", f"no collection: {file}")
    for it in file["features"]:
        expect(set(it) == {"type", "id", "properties", "geometry"} and it["type"] == "Feature", f"no feature: {it}")
        expect(set(it["properties"]) == {"geography_id", "name", "description"}, f"no properties: {it}")
        expect(set(it["geometry"]) == {"type", "coordinates"} and it["geometry"]["type"] == "MultiPolygon", f"no geometry: {it}")
        expect(all(is_ring(polygon[0]) for polygon in it["geometry"]["coordinates"]), f"no ring: {it}")


def undated(file, name):
    """The documents of a file without the moments of their publications."""
    return [{**it, "published_date": None} for it in file["data"][name]]


def there_and_back(program):
    """What is published, exported, imported at another server and published there is exported as the same."""
    with Room(program) as room:
        policies = [policy(2, [number(2, 1)]), policy(1, rules=[RATE])]
        name = room.file("all.json", {"data": {"policies": policies, "geographies": [place(1), place(2)]}})
        told = []
        for count in (1, 2):
            with Alone(program) as server:
                files = [name] if count == 1 else [os.path.join(room.folder, "1", it) for it in ("policies.json", "geographies.json")]
                code, out, _ = room.policies(server, *files)
                expect((code, out) == (0, "4 documents sent, 0 refused\n"), f"import {count}: {code} {out}")
                for body in ({"policies": [number(2, 1)], "geographies": [number(1, 1), number(1, 2)]}, {"policies": [number(2, 2)]}):
                    answer = server.ask("POST", "/publish", AUTHOR, json.dumps(body).encode())
                    expect(answer.status == 200, f"publish: {answer}")
                told.append(published(room, server, str(count)))
        for (policies, geographies, features) in told:
            expect(undated(policies, "policies") == undated(told[0][0], "policies"), "other policies")
            expect(undated(geographies, "geographies") == undated(told[0][1], "geographies"), "other geographies")
            expect(features == told[0][2], "other features")
        is_collection(told[0][2])
        shape = told[0][2]["features"][0]
        expect(shape["geometry"] == {"type": "MultiPolygon", "coordinates": [place(1)["geography_json"]["coordinates"]]}, f"{shape}")
        expect(shape["properties"]["name"] == "Place 1" and shape["id"] == number(1, 1), f"{shape}")
        with Alone(program) as server:
            code, out, _ = room.policies(server, os.path.join(room.folder, "1", "geographies.geojson"))
            expect((code, out) == (0, "2 documents sent, 0 refused\n"), f"features: {code} {out}")
            shape = drafts(server, "geographies", 2)["geography_json"]["features"][0]["geometry"]
            expect(shape == told[0][2]["features"][1]["geometry"], f"another shape: {shape}")
    yield from ()


def answers_that_are_none(program):
    """A server that answers what isn't HTTP, or closes, has no reply; nothing of it reaches the terminal as it is."""
    with Room(program) as room, socket.create_server(("127.0.0.1", 0)) as listener:
        name = room.file("place.json", place(1))
        said = [b"\x1b[2Jnothing\r\n\r\n", b"", b"HTTP/1.1 418 x\r\ncontent-length: 8\r\n\r\n\x1b[31mred"]

        def serve():
            for it in said[:2] * 5 + said[2:]:
                with contextlib.suppress(OSError):
                    link, _ = listener.accept()
                    with link:
                        link.recv(65536)
                        link.sendall(it)

        threading.Thread(target=serve, daemon=True).start()
        address = f"127.0.0.1:{listener.getsockname()[1]}"
        for words in ("the server answers what isn't HTTP", "the server broke off"):  # as the last of five tries ended
            status, _, err = room.run("import", "policies", name, "--to", address, "--token", AUTHOR)
            expect((status, err) == (1, f"ruffletuff: {words}: {address}\n"), f"{words}: {status} {err}")
        status, out, err = room.run("import", "policies", name, "--to", address, "--token", AUTHOR)
        expect(status == 9 and "418 \\x1b[31mred" in err, f"{status} {out} {err}")
    yield from ()


@contextlib.contextmanager
def telling(said):
    """A server that says the same over each connection and closes it: its address, and what each connection asked for."""
    with socket.create_server(("127.0.0.1", 0)) as listener:
        asked = []

        def serve():
            with contextlib.suppress(OSError):
                while True:
                    link, _ = listener.accept()
                    with link:
                        asked.append(link.recv(65536))
                        link.sendall(said)

        thread = threading.Thread(target=serve, daemon=True)
        thread.start()
        try:
            yield f"127.0.0.1:{listener.getsockname()[1]}", asked
        finally:
            with contextlib.suppress(OSError):
                listener.shutdown(socket.SHUT_RDWR)
            thread.join(SECONDS)


# Replies that aren't whole, or of which that can't be seen: the fields of the head with the body, what is said, and how often is asked.
UNWHOLE = (
    *((fields + b"\r\n{}", NO_LENGTH, 1) for fields in NO_LENGTHS),
    (b"content-length: 3\r\n\r\n{}", "the server broke off", 5),
    (b"content-length: 9999999999\r\n\r\n{}", "the server answers with more than is read", 1),
    (b"\r\n{}", "the server answers without a content-length", 1),
    (b"content-length: 2\r\ntransfer-encoding: chunked\r\n\r\n0\r\n\r\n",
     "the server answers with both a content-length and a transfer-encoding", 1),
    (b"transfer-encoding: gzip\r\n\r\n{}", "the server answers in a transfer-encoding that isn't read", 1),
    (b"transfer-encoding: chunked\r\n\r\n2\r\n{}\r\n", "the server broke off", 5),
    (b"transfer-encoding: chunked\r\n\r\n-2\r\n{}\r\n0\r\n\r\n", "the server answers with a chunk that is none", 1),
)


def replies_that_are_not_whole(program):
    """A reply is whole by its head, or it is none; one in chunks, and one behind an interim one, are read."""
    head = b"HTTP/1.1 200 OK\r\n"
    with Room(program) as room:
        name = room.file("place.json", place(1))
        for text, words, tries in UNWHOLE:
            with telling(head + text) as (address, asked):
                status, out, err = room.run("import", "policies", name, "--to", address, "--token", AUTHOR)
                wanted = (1, "0 documents sent, 0 refused\n", f"ruffletuff: {words}: {address}\n")
                expect((status, out, err) == wanted, f"{text}: {status} {out} {err}")
                expect(len(asked) == tries, f"{text}: asked {len(asked)} times")
                status, out, err = room.run("export", os.path.join(room.folder, "told"), "--from", address, "--token", AUTHOR)
                expect((status, out, err) == (1, "", wanted[2]), f"export, {text}: {status} {out} {err}")
        chunks = b"Transfer-Encoding: Chunked\r\n\r\n1;a=b\r\n{\r\n01\r\n}\r\n0\r\nx: y\r\n\r\n"
        interim = b"HTTP/1.1 102 Processing\r\n\r\n"
        for said in (head + chunks, interim + head + b"content-length: 2\r\n\r\n{}", head + b"content-length: 2\r\n\r\n{}behind"):
            with telling(said) as (address, asked):
                status, out, err = room.run("import", "policies", name, "--to", address, "--token", AUTHOR)
                expect((status, out, err) == (0, "1 documents sent, 0 refused\n", ""), f"{said}: {status} {out} {err}")
                expect(len(asked) == 1, f"{said}: asked {len(asked)} times")
    yield from ()


def tokens_in_files(program):
    """An access token is read from a file, without one line end behind it; a file that has none is told by its path."""
    with Room(program) as room, Alone(program) as server:
        name, address = room.file("place.json", place(1)), f"127.0.0.1:{server.port}"
        for end in ("", "\n", "\r\n"):
            path = room.file("token", f"{AUTHOR}{end}".encode())
            found = room.run("import", "policies", name, "--to", address, "--token-file", path)
            expect(found == (0, "1 documents sent, 0 refused\n", ""), f"a token with {end!r} behind it: {found}")
        found = room.run("export", os.path.join(room.folder, "told"), "--token-file", path, "--from", address)
        expect(found == (0, "0 policies, 0 geographies\n", ""), f"export: {found}")
        piped = subprocess.run([program, "import", "policies", name, "--to", address, "--token-file", "/dev/stdin"],
                               input=AUTHOR.encode(), capture_output=True, timeout=END_SECONDS, check=False)
        expect((piped.returncode, piped.stderr) == (0, b""), f"a token of standard input: {piped}")
        fifo = os.path.join(room.folder, "fifo")
        os.mkfifo(fifo)
        faults = {
            os.path.join(room.folder, "absent"): "the access token's file can't be read",
            room.folder: "the access token's file isn't a regular file",
            fifo: "the access token's file isn't a regular file",
            room.file("empty", b""): "the access token's file is empty",
            room.file("line", b"\n"): "the access token's file is empty",
            room.file("long", b"x" * 65): "the access token's file has more than 64 bytes",
            room.file("longer", b"x" * 64 + b"\r\n" + b"x" * LONG): "the access token's file has more than 64 bytes",
        }
        for path, words in faults.items():
            for errand in (("import", "policies", name, "--to"), ("import", "status", name, "--to"), ("export", room.folder, "--from")):
                found = room.run(*errand, address, "--token-file", path)
                expect(found == (2, "", f"ruffletuff: {words}: {path}\n"), f"{errand}: {found}")
        for holds in (f"{AUTHOR}\n\n", f"{AUTHOR}\nx: y", f"{AUTHOR} ", f"{AUTHOR}\r"):
            status, _, err = room.run("import", "policies", name, "--to", address, "--token-file", room.file("lines", holds.encode()))
            expect((status, err) == (2, f"ruffletuff: the address or the access token is none: {address}\n"), f"{holds!r}: {status} {err}")
        whole = room.file("whole", b"x" * 64 + b"\r\n")
        status, _, err = room.run("import", "policies", name, "--to", address, "--token-file", whole)
        expect(status == 10 and "401 token" in err, f"a token of 64 bytes: {status} {err}")
        status, _, err = room.run("import", "policies", name, "--to", address, "--token", AUTHOR, "--token-file", path)
        expect(status == 2 and "usage: " in err, f"a token twice: {status} {err}")
    yield from ()


def tokens_that_are_not_shown(program):
    """While an errand runs, neither its command line nor its environment has the access token of a file."""
    with Room(program) as room, socket.create_server(("127.0.0.1", 0)) as listener:
        listener.settimeout(SECONDS)
        name, path = room.file("place.json", place(1)), room.file("token", b"a-secret\n")
        words = ["import", "policies", name, "--to", f"127.0.0.1:{listener.getsockname()[1]}", "--token-file", path]
        streams = {"stdin": subprocess.DEVNULL, "stdout": subprocess.PIPE, "stderr": subprocess.PIPE}
        with subprocess.Popen([program, *words], **streams) as process:
            try:
                link, _ = listener.accept()
                with link:
                    link.settimeout(SECONDS)
                    asked = link.recv(65536)
                    shown = b""
                    for it in ("cmdline", "environ"):
                        with open(f"/proc/{process.pid}/{it}", "rb") as text:
                            shown += text.read()
                    link.sendall(b"HTTP/1.1 200 OK\r\ncontent-length: 2\r\n\r\n{}")
                    found = (*process.communicate(timeout=END_SECONDS), process.returncode)
            finally:
                process.kill()
        expect(b"\r\nauthorization: Bearer a-secret\r\n" in asked, f"it asks otherwise: {asked[:300]}")
        expect(path.encode() in shown and b"a-secret" not in shown, f"it shows {shown}")
        expect(found == (b"1 documents sent, 0 refused\n", b"", 0), f"{found}")
    yield from ()


def files_that_never_end(program):
    """A FIFO, a socket, a device and a folder are refused before they are opened; what is piped in is read."""
    with Room(program) as room, socket.socket(socket.AF_UNIX) as bound:
        fifo, link = (os.path.join(room.folder, it) for it in ("fifo", "link"))
        os.mkfifo(fifo)
        os.symlink(fifo, link)
        bound.bind(os.path.join(room.folder, "socket"))
        for path in (fifo, link, bound.getsockname(), "/dev/zero", room.folder):
            for kind, what_is_sent in (("policies", "documents"), ("status", "reports")):
                since = time.monotonic()
                found = room.run("import", kind, path, "--dry-run")
                said = f"{path}: it isn't a regular file\nruffletuff: something was refused\n"
                expect(found == (9, f"0 {what_is_sent} would be sent, 1 refused\n", said), f"{kind}, {path}: {found}")
                expect(time.monotonic() - since < 10 * SLOWNESS, f"{kind}, {path}: it waited")
        piped = subprocess.run([program, "import", "policies", "/dev/stdin", "--dry-run"], input=json.dumps(place(1)).encode(),
                               capture_output=True, timeout=END_SECONDS, check=False)
        wanted = f"PUT /drafts/geographies/{number(1, 1)}\n1 documents would be sent, 0 refused\n".encode()
        expect((piped.returncode, piped.stdout, piped.stderr) == (0, wanted, b""), f"piped in: {piped}")
    yield from ()


if __name__ == "__main__":
    documents = (in_order, kept_and_refused, features, hostile, places_and_tokens, answers_that_are_none, replies_that_are_not_whole)
    tokens = (tokens_in_files, tokens_that_are_not_shown, files_that_never_end)
    sys.exit(tried(__doc__, (*documents, *tokens, vehicles_of_mds, vehicles_of_gbfs, from_addresses, there_and_back)))
