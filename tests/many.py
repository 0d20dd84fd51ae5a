#!/usr/bin/env python3
"""Many reports in one request, over HTTP: starts ruffletuff, and asks POST /app/fleet/events and single requests of it.

    many.py PROGRAM

Expects the answers that docs/HTTP.md gives for each line, worked out by hand, and those that single requests have at a second city
that was asked the same before; that an answer of many lines has one line for each that isn't empty, in order; that a body over the limit,
the author, another method, an anonymous client and more lines than may wait are refused and change nothing; that after SIGKILL behind the answer
all that was taken is there again, and that the journal has an entry for each report that was taken, in the order of the lines; and that a
full disk refuses all of the lines or none; where no small disk may be mounted that is left out (packages.py). Prints what is otherwise, and
last 'N passed, M failed'; ends with 1 where one failed.
"""

import json
import sys
import tempfile

from journals import small_disk
from kept import Alone, City, split, tried
from wire import AUTHOR, FIRST, SECOND, SLOWNESS, Link, configuration, report, request

PATH = "/app/fleet/events"
ONE = "/fleet/events"
MOST_BODY = 1_048_576
MOST_LINES = 16_384
MANY = 4000 if SLOWNESS == 1 else 400  # a program that isn't proved is slow
FULL = 393_216  # bytes of a disk that has room for a journal and for few reports
NEW, SAME, CHANGED = b'{"result":"new"}', b'{"result":"same"}', b'{"result":"changed"}'


def refusal(code):
    """The body of a refusal."""
    return b'{"error":"%s"}' % code.encode()


def line_of(status, body):
    """The line that tells an answer."""
    return b'{"body":%s,"status":%d}\n' % (body, status)


def expect(is_so, what):
    """Tells a fault, where something isn't so."""
    if not is_so:
        raise ValueError(what)


def lines_are(answer, wanted, what):
    """An answer has these lines, as a sequence of JSON texts."""
    expect(answer.status == 200, f"{what}: {answer}")
    expect(answer.fields.get("content-type") == ["application/x-ndjson"], f"{what}: {answer.fields.get('content-type')}")
    expect(answer.body == b"".join(wanted), f"{what}: {answer.body[:300]} in the place of {b''.join(wanted)[:300]}")


def refused(answer, status, code, what):
    """An answer is this refusal."""
    expect(answer.is_by_the_server(status, refusal(code)), f"{what}: {answer} in the place of {status} {code}")


def vehicles(server, token=FIRST):
    """What an operator's fleet is."""
    answer = server.ask("GET", "/fleet/vehicles", token)
    expect(answer.status == 200, f"vehicles: {answer}")
    return json.loads(answer.body)["vehicles"]


def each_line(program):
    """Lines of each kind have the answers of the protocol, in their order; a query changes nothing."""
    future = report(3, 4102444799999)
    lines = [
        (report(1), 200, NEW),
        (b'{"device_id":', 400, refusal("bad_json")),
        (report(2, 2001), 200, NEW),
        (report(1), 200, SAME),
        (report(1, 2005), 200, CHANGED),
        (report(1, 2004), 409, refusal("stale")),
        (b"\xff\xfe", 400, refusal("bad_json")),
        (b"[1]", 400, refusal("bad_field")),
        (future, 409, refusal("future")),
        (report(9), 200, NEW),
        (report(4), 409, refusal("fleet_full")),
        (b" ", 400, refusal("bad_json")),
    ]
    with Alone(program, limit=3) as server:
        body = b"\n".join(text for text, _, _ in lines)
        lines_are(server.ask("POST", PATH + "?x=1", FIRST, body), [line_of(*it[1:]) for it in lines], "each line")
        expect(len(vehicles(server)) == 3, f"{len(vehicles(server))} vehicles")
        expect(vehicles(server, SECOND) == [], "another operator has vehicles")
        lines_are(server.ask("POST", PATH, SECOND, report(1)), [line_of(200, NEW)], "another operator")
    yield from ()


def ends_of_lines(program):
    """A line ends at a line feed, and one carriage return before that is dropped; the last line needs none; empty ones are none."""
    with Alone(program, limit=9) as server:
        for body, count in ((b"", 0), (b"\n", 0), (b"\r\n\n\r\n", 0), (report(1) + b"\n", 1), (report(1), 1),
                            (b"\n\n" + report(1) + b"\r\n\r\n" + report(1), 2), (report(1) + b"\r", 1)):
            answer = server.ask("POST", PATH, FIRST, body)
            expect(answer.status == 200 and answer.body.count(b"\n") == count, f"{body[:80]}: {answer}")
        bad = line_of(400, refusal("bad_json"))
        lines_are(server.ask("POST", PATH, FIRST, b"\r\r\n\r"), [bad, bad], "carriage returns alone")
    yield from ()


def as_single_requests(program):
    """The answers, and the fleet afterwards, are those of single requests at a city that was asked the same before."""
    texts = [report(n % 40, 2000 + n % 7) if n % 11 else b"{}" for n in range(600)]
    with Alone(program, limit=30) as one, Alone(program, limit=30) as other:
        for server in (one, other):
            expect(server.ask("POST", ONE, FIRST, report(5, 2003)).body == NEW, "the first report")
        with Link(one.port) as link:
            wanted = []
            for text in texts:
                link.send(request("POST", ONE, FIRST, text))
                answer = link.answer("POST")
                wanted.append(line_of(answer.status, answer.body))
        lines_are(other.ask("POST", PATH, FIRST, b"\n".join(texts)), wanted, "many reports")
        expect(vehicles(one) == vehicles(other), "other vehicles")
    yield from ()


def refusals(program):
    """What is refused as a whole changes nothing."""
    with Alone(program, limit=9) as server:
        refused(server.ask("POST", PATH, AUTHOR, report(1)), 403, "role", "the author")
        refused(server.ask("POST", PATH, "nobody", report(1)), 401, "token", "an anonymous client")
        for method in ("GET", "PUT", "DELETE", "PATCH"):
            refused(server.ask(method, PATH, FIRST), 405, "method", method)
        for path in (PATH + "/", "/app", "/app/fleet/events/x", "/App/fleet/events"):
            refused(server.ask("POST", path, FIRST, report(1)), 404, "no_route", path)
        text = report(1) + b"\n"
        long = text + b"\n" * (MOST_BODY + 1 - len(text))
        with server.link() as link:
            link.send(request("POST", PATH, FIRST, long))
            refused(link.answer("POST"), 413, "too_large", "a body over its limit")
        refused(server.ask("POST", PATH, FIRST, text + b"1\n" * MOST_LINES), 413, "too_large", "more lines than a body may have")
        expect(vehicles(server) == [], "a refused report was taken")
        lines_are(server.ask("POST", PATH, FIRST, long[:MOST_BODY]), [line_of(200, NEW)], "a body at its limit")
        answer = server.ask("POST", PATH, FIRST, b"1\n" * MOST_LINES)
        lines_are(answer, [line_of(400, refusal("bad_field"))] * MOST_LINES, "as many lines as a body may have")
        lines_are(server.ask("POST", PATH, FIRST, report(2)), [line_of(200, NEW)], "one behind them")
    yield from ()


def kept(program):
    """All of many reports, of which some are refused, are there after SIGKILL, and their entries are in the order of the lines."""
    texts = [report(n // 2, 2000 + n % 2) if n % 100 else b"{" for n in range(MANY)]
    good = [text.decode() for n, text in enumerate(texts) if n % 100]
    with tempfile.TemporaryDirectory(prefix="many-") as room:
        city = City(program, room, configuration(5000))
        with city.serve() as server:
            answer = server.ask("POST", PATH, FIRST, b"\n".join(texts))
            expect(answer.status == 200 and answer.body.count(b"\n") == MANY, f"{MANY} reports: {answer}")
            statuses = [json.loads(line)["status"] for line in answer.body.splitlines()]
            expect([n for n, it in enumerate(statuses) if it != 200] == list(range(0, MANY, 100)), "other lines are refused")
            before = vehicles(server)
            server.stop()
        _, lines = city.audit()
        wanted = [f"{FIRST} POST {ONE} {text}" for text in good]
        expect([split(line)[1] for line in lines] == wanted, f"the journal has {len(lines)} entries, or others")
        expect(len({split(line)[0] for line in lines}) == 1, "the reports of one request have several moments")
        with city.serve() as server:
            expect(vehicles(server) == before, "other vehicles after a restart")
    yield from ()


def many_on_a_full_disk(program):
    """On a full disk all of the lines are refused or none; what is refused isn't there, and the server goes on."""
    with tempfile.TemporaryDirectory(prefix="many-") as room, small_disk(room, FULL) as disk:
        with City(program, disk, configuration(9000)).serve() as server:
            taken = 0
            for number in range(40):
                texts = [report(100 * number + n) for n in range(100)]
                answer = server.ask("POST", PATH, FIRST, b"\n".join(texts))
                if answer.status == 503:
                    refused(answer, 503, "no_room", "a full disk")
                    break
                lines_are(answer, [line_of(200, NEW)] * 100, "room for all")
                taken += 100
            expect(taken < 4000, "the disk was never full")
            expect(len(vehicles(server)) == taken, f"{len(vehicles(server))} vehicles of {taken}")
            expect(server.ask("GET", "/policies").status == 200, "a question")
    yield from ()


if __name__ == "__main__":
    sys.exit(tried(__doc__, (each_line, ends_of_lines, as_single_requests, refusals, kept, many_on_a_full_disk)))
