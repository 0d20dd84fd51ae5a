#!/usr/bin/env python3
"""What people are told beside the protocol's calls: starts ruffletuff, and asks for /app/whoami, /app/withdrawals and /app/drafts.

    app.py PROGRAM

Expects the bodies that docs/HTTP.md gives, byte for byte, worked out by hand: of the author, of operators with a name, with none and
with one that is no name, and of nobody, by configurations of each oversight and of none; the withdrawn policies before and after
withdrawals, for the author, for an operator that a policy is meant for and for one that it isn't; the drafts in their order; the refusals
of other methods and roles; that each answer of the city may be stored by no cache; that none of it makes an entry in the journal; and the
same answers after SIGKILL and another start. Prints what is otherwise, and last 'N passed, M failed'; ends with 1 where one failed.
"""

import json
import sys
import tempfile

from kept import Alone, City, tried
from wire import AUTHOR, FIRST, SECOND, identifier

THIRD = "charlie"
ZONE = "PST8PDT,M3.2.0,M11.1.0"
ALFA, BRAVO, CHARLIE = (identifier(0, n) for n in (0xA1, 0xB1, 0xC1))
NAME = 'Alfa "Räder" & Söhne'
PATHS = ("/app/whoami", "/app/withdrawals", "/app/drafts")


def configured(**more):
    """A city of three operators: one with a name, one with a name of 257 bytes, which is none, and one with a number in its place."""
    operators = [
        {"id": ALFA, "limit": 5, "token": FIRST, "name": NAME},
        {"id": BRAVO, "limit": 5, "token": SECOND, "name": "b" * 257},
        {"id": CHARLIE, "limit": 5, "token": THIRD, "name": 3},
    ]
    return json.dumps({"author": AUTHOR, "operators": operators, "zone": ZONE, **more}).encode()


def expect(is_so, what):
    """Tells a fault, where something isn't so."""
    if not is_so:
        raise ValueError(what)


def is_unstored(answer, what):
    """No cache may keep the answer."""
    expect(answer.fields.get("cache-control") == ["no-store"], f"{what}: cache-control {answer.fields.get('cache-control')}")


def told(server, path, token, wanted):
    """What is told at a path, byte for byte."""
    answer = server.ask("GET", path, token)
    body = json.dumps(wanted, separators=(",", ":"), ensure_ascii=False).encode()
    expect(answer.is_by_the_server(200, body), f"{path} for {token}: {answer.status} {answer.body!r} in the place of {body!r}")
    is_unstored(answer, path)


def refused(server, method, path, token, status, code):
    """A refusal."""
    answer = server.ask(method, path, token)
    expect(answer.is_by_the_server(status, b'{"error":"%s"}' % code.encode()), f"{method} {path} for {token}: {answer}")
    is_unstored(answer, f"{method} {path} for {token}")


def done(server, method, path, body=None):
    """A change of the author's, which is carried out; its answer."""
    answer = server.ask(method, path, AUTHOR, json.dumps(body).encode() if body is not None else b"")
    expect(answer.status == 200, f"{method} {path}: {answer}")
    is_unstored(answer, f"{method} {path}")
    return json.loads(answer.body)


def policy(number, *operators):
    """A policy that is meant for these operators, or for all."""
    document = {"policy_id": identifier(1, number), "name": f"policy {number}", "description": "", "start_date": 0, "rules": []}
    return document | ({"provider_ids": list(operators)} if operators else {})


def geography(number):
    """A square."""
    ring = [[0, 0], [1, 0], [1, 1], [0, 1], [0, 0]]
    feature = {"type": "Feature", "properties": {}, "geometry": {"type": "Polygon", "coordinates": [ring]}}
    return {"geography_id": identifier(2, number), "name": f"place {number}",
            "geography_json": {"type": "FeatureCollection", "features": [feature]}}


def put(server, kind, document, number):
    """Puts a draft."""
    done(server, "PUT", f"/drafts/{kind}/{identifier(1 if kind == 'policies' else 2, number)}", document)


def withdrawal(number, moment):
    """What is told of a withdrawn policy."""
    return {"policy_id": identifier(1, number), "withdrawn": moment}


def drafts(*listed):
    """What is told of drafts: of each a kind and a number."""
    return {"drafts": [{"id": identifier(1 if kind == "policy" else 2, number), "kind": kind} for kind, number in listed]}


def who(program):
    """Each is told who it is; the author is told who the operators are, by the names that are names."""
    with Alone(program, configured()) as server:
        operators = [{"id": ALFA, "name": NAME}, {"id": BRAVO}, {"id": CHARLIE}]
        told(server, "/app/whoami", AUTHOR, {"operators": operators, "oversight": "none", "role": "author", "zone": ZONE})
        told(server, "/app/whoami", FIRST, {"id": ALFA, "name": NAME, "oversight": "none", "role": "operator", "zone": ZONE})
        told(server, "/app/whoami?x=1", SECOND, {"id": BRAVO, "oversight": "none", "role": "operator", "zone": ZONE})
        told(server, "/app/whoami", THIRD, {"id": CHARLIE, "oversight": "none", "role": "operator", "zone": ZONE})
    with Alone(program, json.dumps({"author": AUTHOR, "operators": [], "zone": "Z"}).encode()) as server:
        told(server, "/app/whoami", AUTHOR, {"operators": [], "oversight": "none", "role": "author", "zone": "Z"})
    yield from ()


def watched(program):
    """The author and each operator are told how far the author sees: by the last of equal names, and not at all where it is null."""
    for given, wanted in (("none", "none"), ("verdicts", "verdicts"), ("vehicles", "vehicles"), (None, "none")):
        with Alone(program, configured(oversight=given)) as server:
            answer = json.loads(server.ask("GET", "/app/whoami", AUTHOR).body)
            expect(answer["oversight"] == wanted, f"{given}: the author is told {answer}")
            told(server, "/app/whoami", FIRST, {"id": ALFA, "name": NAME, "oversight": wanted, "role": "operator", "zone": ZONE})
            told(server, "/app/whoami", THIRD, {"id": CHARLIE, "oversight": wanted, "role": "operator", "zone": ZONE})
    twice = configured(oversight="vehicles").replace(b'"oversight": "vehicles"', b'"oversight": "vehicles", "oversight": "verdicts"')
    with Alone(program, twice) as server:
        told(server, "/app/whoami", SECOND, {"id": BRAVO, "oversight": "verdicts", "role": "operator", "zone": ZONE})
    yield from ()


def refusals(program):
    """Nobody, other methods, drafts for an operator, and paths beside these."""
    with Alone(program, configured()) as server:
        for path in PATHS:
            for token in ("nobody", ""):
                refused(server, "GET", path, token, 401, "token")
            for method in ("POST", "PUT", "DELETE", "PATCH"):
                refused(server, method, path, AUTHOR, 405, "method")
                refused(server, method, path, FIRST, 405, "method")
                refused(server, method, path, "nobody", 401, "token")
            for other in (path + "/", path + "/x", path.upper(), path[:-1]):
                refused(server, "GET", other, AUTHOR, 404, "no_route")
                refused(server, "GET", other, FIRST, 404, "no_route")
        for token in (FIRST, SECOND, THIRD):
            refused(server, "GET", "/app/drafts", token, 403, "role")
        refused(server, "GET", "/app/fleet/events", FIRST, 405, "method")
        refused(server, "POST", "/app/fleet/events", AUTHOR, 403, "role")
        for path in ("/policies", "/compliance", "/fleet/vehicles", "/policies/x"):
            is_unstored(server.ask("GET", path, FIRST), path)
        is_unstored(server.ask("POST", "/app/fleet/events", FIRST, b"{}"), "many reports")
    yield from ()


def listing(program):
    """Drafts are listed by kind, and within it in the order of the identifiers, until they are dropped or published."""
    with Alone(program, configured()) as server:
        told(server, "/app/drafts", AUTHOR, drafts())
        for number in (7, 2, 9):
            put(server, "policies", policy(number), number)
        put(server, "geographies", geography(5), 5)
        put(server, "geographies", geography(1), 1)
        put(server, "policies", policy(2, ALFA), 2)
        everything = [("policy", 2), ("policy", 7), ("policy", 9), ("geography", 1), ("geography", 5)]
        told(server, "/app/drafts", AUTHOR, drafts(*everything))
        done(server, "DELETE", f"/drafts/policies/{identifier(1, 7)}")
        done(server, "POST", "/publish", {"geographies": [identifier(2, 5)], "policies": [identifier(1, 2)]})
        told(server, "/app/drafts", AUTHOR, drafts(("policy", 9), ("geography", 1)))
    yield from ()


def publish_and_withdraw(server):
    """Publishes a policy for all, one for the first operator and one for the second, and withdraws the first two. Gives what is told."""
    for number, *operators in ((3,), (1, ALFA), (2, BRAVO)):
        put(server, "policies", policy(number, *operators), number)
    done(server, "POST", "/publish", {"policies": [identifier(1, 3), identifier(1, 1), identifier(1, 2)]})
    for token in (AUTHOR, FIRST, SECOND, THIRD):
        told(server, "/app/withdrawals", token, {"withdrawals": []})
    own = done(server, "POST", "/publish", {"withdraw": [identifier(1, 1)]})["published_date"]
    of_first = [withdrawal(1, own)]
    for token, wanted in ((AUTHOR, of_first), (FIRST, of_first), (SECOND, []), (THIRD, [])):
        told(server, "/app/withdrawals", token, {"withdrawals": wanted})
    general = done(server, "POST", "/publish", {"withdraw": [identifier(1, 3), identifier(1, 1)]})["published_date"]
    return withdrawal(3, general), withdrawal(1, own)


def all_told(server, general, own):
    """What is told after that: the policies in the order of their publication, each with its first withdrawal."""
    for token, wanted in ((AUTHOR, [general, own]), (FIRST, [general, own]), (SECOND, [general]), (THIRD, [general])):
        told(server, "/app/withdrawals", token, {"withdrawals": wanted})


def withdrawals(program):
    """A withdrawal is told to the author and to those that the policy is meant for, with its first moment; and again after SIGKILL."""
    with tempfile.TemporaryDirectory(prefix="app-") as room:
        city = City(program, room, configured())
        with city.serve() as server:
            general, own = publish_and_withdraw(server)
            all_told(server, general, own)
            put(server, "policies", policy(8), 8)
            server.stop()
        _, before = city.audit()
        with city.serve() as server:
            all_told(server, general, own)
            told(server, "/app/drafts", AUTHOR, drafts(("policy", 8)))
            told(server, "/app/whoami", SECOND, {"id": BRAVO, "oversight": "none", "role": "operator", "zone": ZONE})
            server.stop()
        _, after = city.audit()
        expect(before == after, "what was asked made an entry in the journal")
        expect(len(after) == 7, f"{len(after)} entries")
    yield from ()


if __name__ == "__main__":
    sys.exit(tried(__doc__, (who, watched, refusals, listing, withdrawals)))
