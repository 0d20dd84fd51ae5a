#!/usr/bin/env python3
"""What everyone is told, in the words of MDS 2.0: starts a program that tells it, as ruffletuff, publishes, and asks without a token.

    public.py PROGRAM

The configuration has `"public": true`. Expects the policies that are meant for everyone, and the geographies that these name, by the
schemas in tests/mds (Debian's python3-jsonschema), which are written from the text of MDS 2.0 Policy and Geography, and by those of
docs/openapi-mds.yaml (Debian's python3-yaml); nothing of a policy of one operator; a policy's document as the author wrote it; the moment
of a withdrawal as its `end_date`; `start_date` and `end_date` as queries of the list; fronts of the publications, none earlier than one
before, to many who ask at once; the same after a restart; the version in the type, 406 for another one, 405 with `allow`, 404 and 400 with
an error by the standard; a page of any origin may read it; the same without a body for HEAD; that documents are made once a
publication, however often they are asked for; and that all of it is refused as to a anonymous where the configuration doesn't turn it on.
Prints what is otherwise, and last 'N passed, M failed'; ends with 1 where one failed.
"""

import json
import math
import os
import sys
import tempfile
import threading

import packages

packages.need_modules("what everyone is told", "yaml", "jsonschema")

HERE = os.path.dirname(os.path.abspath(__file__))
# tests/http.py isn't the library's http, which jsonschema asks for.
sys.path = [it for it in sys.path if os.path.abspath(it) != HERE]

import jsonschema
import yaml

sys.path.insert(0, HERE)

from kept import Alone, City, Tried
from wire import AUTHOR, FIRST, SECOND, Closed, Link, configuration, identifier

TOP = os.path.dirname(HERE)
TYPE = "application/vnd.mds+json;version=2.0"
ALFA, BRAVO = identifier(0, 0xA1), identifier(0, 0xB1)
SQUARE, OWN_SQUARE, UNNAMED = (identifier(1, n) for n in (1, 2, 3))
CAP, OWN_CAP, WITHDRAWN, LATE, ENDED, NAMING_NOBODY, TWO_OPERATORS = (identifier(2, n) for n in range(1, 8))
# Moments at which the documents of these tests hold, long before and behind any test.
EARLY, MIDDLE, END = 1_000_000_000_000, 1_100_000_000_000, 4_000_000_000_000
# Places whose documents take long to make: how many, and of how many corners each.
PLACES, CORNERS = 16, 2_000
# How often short documents are asked for. Where there are long ones beside them that takes at most so many times the processor's time, and
# so many seconds more: to make the long ones takes some fifty times that of an answer.
ROUNDS, ASKED, TIMES, MORE = 4, 100, 4, 0.1
# What an error is named by its status.
DENIED = {400: "bad_param", 404: "not_found", 405: "method", 406: "not_acceptable"}


def open_to_all(given, says=True):
    """A configuration that tells everyone, or says something else of it."""
    text = json.loads(given)
    text["public"] = says
    return json.dumps(text).encode() + b"\n"


def schema(name):
    """A schema of tests/mds."""
    with open(f"{TOP}/tests/mds/{name}.json", encoding="utf-8") as text:
        return json.load(text)


def geography(number, name):
    """A square as its author drafts it."""
    ring = [[0, 0], [10, 0], [10, 10], [0, 10], [0, 0]]
    area = {"type": "Feature", "properties": {}, "geometry": {"type": "Polygon", "coordinates": [ring]}}
    told = {"geography_id": number, "name": name, "description": f"where {name} is"}
    return told | {"geography_json": {"type": "FeatureCollection", "features": [area]}}


def policy(number, places, start, end=None, providers=None):
    """A policy as its author drafts it."""
    rule = {"rule_id": identifier(3, int(number[-4:], 16)), "name": "a cap", "rule_type": "count", "rule_units": "devices",
            "geographies": places, "states": {"available": []}, "vehicle_types": ["scooter"], "maximum": 10}
    told = {"policy_id": number, "name": f"cap {number[-1]}", "description": "how many stand there", "start_date": start, "rules": [rule]}
    return told | ({"end_date": end} if end else {}) | ({"provider_ids": providers} if providers else {})


def expect(is_so, what):
    """Tells a fault, where something isn't so."""
    if not is_so:
        raise ValueError(what)


def described(name):
    """A validator of what docs/openapi-mds.yaml has by that name."""
    with open(f"{TOP}/docs/openapi-mds.yaml", encoding="utf-8") as text:
        root = yaml.safe_load(text)
    form = root["components"]["responses"][name.capitalize()]["content"][TYPE]["schema"]
    return jsonschema.Draft202012Validator({**form, "components": root["components"]})


def fits(given, name, what):
    """That a document is by the schema of that name, and as it is described."""
    try:
        jsonschema.validate(given, schema(name))
        described(name).validate(given)
    except jsonschema.ValidationError as fault:
        raise ValueError(f"{what}: {fault.message}") from fault


def ask(city, method, target, token=None, body=None, accept=None):
    """The status, the fields and the body of an answer."""
    body = b"" if body is None else json.dumps(body).encode()
    lines = [f"{method} {target} HTTP/1.1", "host: x", f"content-length: {len(body)}"]
    lines += [f"authorization: Bearer {token}"] if token else []
    lines += [f"accept: {it}" for it in accept or ()]
    with Link(city.port) as link:
        link.send("\r\n".join([*lines, "", ""]).encode() + body)
        answer = link.answer(method)
        expect(not link.kept, f"more than the answer: {link.kept[:80]}")
    return answer.status, {name: ", ".join(texts) for name, texts in answer.fields.items()}, answer.body


def done(city, method, target, body=None, token=AUTHOR):
    """Asks as the author, or an operator, and has it done."""
    status, _, told = ask(city, method, target, token, body)
    expect(status == 200, f"{method} {target}: {status} {told[:200]}")
    return json.loads(told)


def publish(city, geographies=(), policies=(), withdrawn=()):
    """Drafts and publishes documents, and gives the moment."""
    for it in geographies:
        done(city, "PUT", f"/drafts/geographies/{it['geography_id']}", it)
    for it in policies:
        done(city, "PUT", f"/drafts/policies/{it['policy_id']}", it)
    batch = {"geographies": [it["geography_id"] for it in geographies], "policies": [it["policy_id"] for it in policies]}
    batch["withdraw"] = list(withdrawn)
    return done(city, "POST", "/publish", {name: ids for name, ids in batch.items() if ids})["published_date"]


def told(city, target, name):
    """What everyone is told there, by the schema of that name."""
    status, fields, body = ask(city, "GET", target)
    expect(status == 200, f"GET {target}: {status} {body[:200]}")
    common(fields, f"GET {target}")
    given = json.loads(body)
    fits(given, name, f"GET {target}")
    expect(given["version"] == "2.0.0", f"GET {target}: version {given['version']}")
    return given


def common(fields, what):
    """The fields of every response."""
    wanted = {"content-type": TYPE, "cache-control": "no-cache", "access-control-allow-origin": "*"}
    for name, text in wanted.items():
        expect(fields.get(name) == text, f"{what}: {name} is {fields.get(name)}, not {text}")


def denied(city, status, method, target, accept=None):
    """That something isn't told, with an error by the standard."""
    got, fields, body = ask(city, method, target, accept=accept)
    expect(got == status, f"{method} {target}, accept {accept}: {got}, not {status}")
    common(fields, f"{method} {target}")
    expect(fields.get("allow") == ("GET, HEAD" if status == 405 else None), f"{method} {target}: allow {fields.get('allow')}")
    if method == "HEAD":
        expect(body == b"", f"HEAD {target}: a body")
        return
    given = json.loads(body)
    fits(given, "error", f"{method} {target}")
    expect((given["error"], given["error_details"]) == (DENIED[status], []), f"{method} {target}: {given}")


def ids(given, name, key):
    """The identifiers of a list, in its order."""
    return [it[key] for it in given["data"][name]]


def nothing_yet(city):
    """Before any publication both lists are empty, and the program said at its start that everyone is told."""
    expect(city.tells_everyone, "the program didn't say that everyone is told")
    for name in ("policies", "geographies"):
        given = told(city, f"/mds/2.0/{name}", name)
        expect((given["data"][name], given["last_updated"]) == ([], 0), f"{name}: {given}")
    yield from ()


def published(city, moments):
    """Publishes: a cap for everyone, one of one operator in a place of its own, one that ends, and a place that nobody names."""
    places = [geography(SQUARE, "square"), geography(OWN_SQUARE, "own square"), geography(UNNAMED, "unnamed")]
    moments.append(publish(city, places, [policy(CAP, [SQUARE], EARLY), policy(OWN_CAP, [OWN_SQUARE], EARLY, providers=[ALFA])]))
    moments.append(publish(city, (), [policy(WITHDRAWN, [SQUARE], MIDDLE), policy(LATE, [SQUARE], END, END + 1)]))
    yield from ()


def as_told(area, moment):
    """A square as everyone is told it: one MultiPolygon in a FeatureCollection, and when it was published."""
    ring = area["geography_json"]["features"][0]["geometry"]["coordinates"][0]
    told_as = {"type": "Feature", "properties": None, "geometry": {"type": "MultiPolygon", "coordinates": [[ring]]}}
    return area | {"published_date": moment, "geography_json": {"type": "FeatureCollection", "features": [told_as]}}


def lists_are_told(city, moments):
    """The policies that are meant for everyone as the author is told them, and the geographies that these name."""
    given = told(city, "/mds/2.0/policies", "policies")
    expect(ids(given, "policies", "policy_id") == [CAP, WITHDRAWN, LATE], f"policies: {given}")
    wanted = [
        policy(CAP, [SQUARE], EARLY) | {"published_date": moments[0]},
        policy(WITHDRAWN, [SQUARE], MIDDLE) | {"published_date": moments[1]},
        policy(LATE, [SQUARE], END, END + 1) | {"published_date": moments[1]},
    ]
    expect(given["data"]["policies"] == wanted, f"other documents: {given['data']}")
    expect(given["last_updated"] == moments[1], f"last_updated {given['last_updated']}, not {moments[1]}")
    given = told(city, "/mds/2.0/geographies", "geographies")
    wanted = [as_told(geography(SQUARE, "square"), moments[0])]
    expect(given["data"]["geographies"] == wanted, f"geographies: {given}")
    yield from ()


def one_is_told(city):
    """One document, in each spelling of its identifier; nothing of one operator's."""
    for name, key, known, others in (
        ("policies", "policy_id", (CAP, WITHDRAWN, LATE), (OWN_CAP, SQUARE, identifier(2, 9))),
        ("geographies", "geography_id", (SQUARE,), (OWN_SQUARE, UNNAMED, CAP)),
    ):
        whole = told(city, f"/mds/2.0/{name}", name)
        for it in known:
            for spelled in (it, it.upper(), it.replace("-", ""), f"urn:uuid:{it}", f"{it}?start_date=x"):
                given = told(city, f"/mds/2.0/{name}/{spelled}", name)
                expect(ids(given, name, key) == [it], f"{name}/{spelled}: {given}")
                expect(given["data"][name][0] in whole["data"][name], f"{name}/{spelled}: another document")
        for it in (*others, "", "x", f"{known[0]}/", f"{known[0]}x", "%20", known[0][:-1]):
            denied(city, 404, "GET", f"/mds/2.0/{name}/{it}")
    yield from ()


def periods_are_asked_for(city):
    """The policies that haven't ended by the beginning of a period, and have begun by its end."""
    for query, wanted in (
        ("start_date=0", [CAP, WITHDRAWN, LATE]),
        (f"end_date={EARLY - 1}", []),
        (f"end_date={EARLY}", [CAP]),
        (f"start_date={EARLY}&end_date={MIDDLE}", [CAP, WITHDRAWN]),
        (f"end_date={END}&start_date={END}", [CAP, WITHDRAWN, LATE]),
        (f"start_date={END}&end_date={MIDDLE}", [CAP, WITHDRAWN]),
        (f"start_date={END + 1}", [CAP, WITHDRAWN]),
        (f"start_date={'9' * 18}", [CAP, WITHDRAWN]),
        (f"end_date={EARLY}&end_date=x", [CAP]),
        ("policy_id=x&&=&start=1", [CAP, WITHDRAWN, LATE]),
        ("", [CAP, WITHDRAWN, LATE]),
    ):
        given = told(city, f"/mds/2.0/policies?{query}", "policies")
        expect(ids(given, "policies", "policy_id") == wanted, f"{query}: {ids(given, 'policies', 'policy_id')}")
    for query in ("start_date=", "end_date=x", "start_date=-1", "start_date=1.5", f"end_date={'1' * 19}", "end_date=1&start_date=%31"):
        denied(city, 400, "GET", f"/mds/2.0/policies?{query}")
    told(city, "/mds/2.0/geographies?start_date=x", "geographies")
    yield from ()


def versions_are_taken(city):
    """The version that is asked for is served, and another isn't."""
    for accept in (
        *(["*/*"], ["application/json"], ["application/*"], [TYPE], ["application/vnd.mds+json"], ["text/html", "*/*;q=0.1"]),
        *(["Application/VND.mds+JSON ; Version=2.0"], ["application/vnd.mds+json;q=1;version=2.0"]),
        ["application/vnd.mds+json;version=1.2, application/vnd.mds+json;version=2.0"],
    ):
        status, fields, _ = ask(city, "GET", "/mds/2.0/policies", accept=accept)
        expect(status == 200, f"accept {accept}: {status}")
        common(fields, f"accept {accept}")
    for accept in (
        *(["application/vnd.mds+json;version=1.2"], ["application/vnd.mds+json;version=2.1"], ["application/vnd.mds+json;version=2"]),
        *(["text/html"], ["application/vnd.mds+json; version=0.4", "text/*"], ["application/vnd.mds+json;version=2.00"]),
        ["application/vnd.mds.provider+json;version=2.0"],
    ):
        denied(city, 406, "GET", "/mds/2.0/geographies", accept)
    denied(city, 406, "HEAD", "/mds/2.0/geographies", ["text/html"])
    # A method is refused first, and then a version.
    denied(city, 405, "POST", "/mds/2.0/policies", ["text/html"])
    for target in ("policies/x", "policies?start_date=x", f"geographies/{UNNAMED}"):
        denied(city, 406, "GET", f"/mds/2.0/{target}", ["text/html"])
    yield from ()


def methods_are_refused(city):
    """It is only to be read; HEAD tells the same without a body."""
    for target in ("/mds/2.0/policies", f"/mds/2.0/geographies/{SQUARE}"):
        for method in ("POST", "PUT", "DELETE", "PATCH", "OPTIONS"):
            denied(city, 405, method, target)
        whole = ask(city, "GET", target)
        status, fields, body = ask(city, "HEAD", target)
        expect((status, body) == (200, b""), f"HEAD {target}: {status} {body[:80]}")
        common(fields, f"HEAD {target}")
        expect(fields.get("content-length") == str(len(whole[2])), f"HEAD {target}: {fields}")
    yield from ()


def tokens_are_no_matter(city):
    """Whoever asks is told the same, and what stands beside these paths is refused as ever."""
    whole = ask(city, "GET", "/mds/2.0/policies")[2]
    for token in (AUTHOR, FIRST, SECOND, "nobody"):
        expect(ask(city, "GET", "/mds/2.0/policies", token)[2] == whole, f"{token} is told something else")
    for target in ("/mds/2.0", "/mds/2.0/", "/mds/2.0/policy", "/mds/2.0/Policies", "/mds/2.0/policiesx", "/mds/2.1/policies", "/policies"):
        status, fields, body = ask(city, "GET", target)
        expect((status, body) == (401, b'{"error":"token"}'), f"GET {target}: {status} {body[:80]}")
        expect("access-control-allow-origin" not in fields, f"GET {target}: any origin may read it")
    expect(ask(city, "GET", "/mds/2.0/policy", AUTHOR)[0] == 404, "a path of nothing is found")
    yield from ()


def a_withdrawal_is_an_end(city, moments):
    """A policy that is withdrawn ends then; one whose own end is before keeps it; and one operator's changes nothing."""
    before = ask(city, "GET", "/mds/2.0/policies")[2]
    publish(city, withdrawn=[OWN_CAP])
    expect(ask(city, "GET", "/mds/2.0/policies")[2] == before, "one operator's policy was withdrawn, and everyone is told so")
    moments.append(publish(city, withdrawn=[WITHDRAWN]))
    given = told(city, "/mds/2.0/policies", "policies")
    ends = {it["policy_id"]: it.get("end_date") for it in given["data"]["policies"]}
    expect(ends == {CAP: None, WITHDRAWN: moments[-1], LATE: END + 1}, f"ends: {ends}")
    expect(given["last_updated"] == moments[-1], f"last_updated {given['last_updated']}")
    for query, wanted in ((f"start_date={moments[-1]}", [CAP, LATE]), (f"start_date={moments[-1] - 1}", [CAP, WITHDRAWN, LATE])):
        given = told(city, f"/mds/2.0/policies?{query}", "policies")
        expect(ids(given, "policies", "policy_id") == wanted, f"{query}: {ids(given, 'policies', 'policy_id')}")
    publish(city, withdrawn=[LATE])
    ended = told(city, f"/mds/2.0/policies/{LATE}", "policies")["data"]["policies"][0]
    expect(ended["end_date"] < END, f"a policy that was withdrawn before its end: {ended}")
    wanted = policy(LATE, [SQUARE], END, ended["end_date"]) | {"published_date": moments[1]}
    expect(ended == wanted, f"another document: {ended}")
    publish(city, (), [policy(ENDED, [SQUARE], EARLY, MIDDLE)])
    publish(city, withdrawn=[ENDED])
    ended = told(city, f"/mds/2.0/policies/{ENDED}", "policies")["data"]["policies"][0]
    expect(ended["end_date"] == MIDDLE, f"a policy that ended before it was withdrawn: {ended}")
    yield from ()


def whom_a_policy_names(city):
    """A policy that lists no operator is everyone's; one that lists two is not."""
    publish(city, (), [policy(NAMING_NOBODY, [SQUARE], EARLY) | {"provider_ids": []}])
    told(city, f"/mds/2.0/policies/{NAMING_NOBODY}", "policies")
    publish(city, (), [policy(TWO_OPERATORS, [SQUARE], EARLY, providers=[ALFA, BRAVO])])
    denied(city, 404, "GET", f"/mds/2.0/policies/{TWO_OPERATORS}")
    yield from ()


def a_restart_tells_the_same(program):
    """What was published before a restart is told after it, though nothing was published since."""
    targets = ("/mds/2.0/policies", "/mds/2.0/geographies", f"/mds/2.0/policies/{CAP}")
    with tempfile.TemporaryDirectory(prefix="public-") as room:
        city = City(program, room, open_to_all(configuration()))
        with city.serve() as server:
            publish(server, [geography(SQUARE, "square")], [policy(CAP, [SQUARE], EARLY), policy(WITHDRAWN, [SQUARE], EARLY)])
            publish(server, withdrawn=[WITHDRAWN])
            before = [ask(server, "GET", target)[2] for target in targets]
        with city.serve() as server:
            expect([ask(server, "GET", target)[2] for target in targets] == before, "something else is told after a restart")
            publish(server, (), [policy(LATE, [SQUARE], EARLY)])
            given = told(server, "/mds/2.0/policies", "policies")
            expect(ids(given, "policies", "policy_id") == [CAP, WITHDRAWN, LATE], f"behind a publication after a restart: {given}")
    yield from ()


def asking(city, over, seen, faults):
    """Asks again and again until it is over, and keeps what was told."""
    try:
        while not over.is_set():
            seen.append(ids(told(city, "/mds/2.0/policies", "policies"), "policies", "policy_id"))
    except (OSError, ValueError, Closed) as fault:
        faults.append(repr(fault))


def many_ask_at_once(program):
    """While one publication follows another, each of many who ask is told some front of them, and never an earlier one than before;
    and behind the last publication all of them."""
    with Alone(program, open_to_all(configuration())) as city:
        over, known, faults = threading.Event(), [identifier(2, n) for n in range(1, 21)], []
        seen = [[] for _ in range(4)]
        clients = [threading.Thread(target=asking, args=(city, over, it, faults)) for it in seen]
        publish(city, [geography(SQUARE, "square")])
        for it in clients:
            it.start()
        try:
            for number in known:
                publish(city, (), [policy(number, [SQUARE], EARLY)])
        finally:
            over.set()
            for it in clients:
                it.join()
        expect(not faults, f"{faults}")
        for client in seen:
            expect(all(it == known[: len(it)] for it in client), "no front of what is published")
            lengths = [len(it) for it in client]
            expect(lengths == sorted(lengths), f"an earlier front behind a later one: {lengths}")
        given = ids(told(city, "/mds/2.0/policies", "policies"), "policies", "policy_id")
        expect(given == known, f"behind the last publication: {given}")
    yield from ()


def round_place(number):
    """A geography of many corners, as its author drafts it."""
    turns = [2 * math.pi * it / CORNERS for it in range(CORNERS)]
    ring = [[round(5 + math.cos(it), 7), round(5 + math.sin(it), 7)] for it in turns]
    area = geography(identifier(1, number), "round")
    area["geography_json"]["features"][0]["geometry"]["coordinates"] = [[*ring, ring[0]]]
    return area


def processor_seconds(city):
    """The processor's time that a program has taken by now, in all of its threads."""
    with open(f"/proc/{city.process.pid}/stat", encoding="ascii") as text:
        fields = text.read().rpartition(")")[2].split()
    return (int(fields[11]) + int(fields[12])) / os.sysconf("SC_CLK_TCK")


def taken_by_asking(city, times):
    """The processor's time that it takes to tell two short documents so many times."""
    begun = processor_seconds(city)
    with Link(city.port) as link:
        for _ in range(times):
            for target in (f"/mds/2.0/policies/{CAP}", f"/mds/2.0/geographies/{SQUARE}"):
                link.send(f"GET {target} HTTP/1.1\r\nhost: x\r\n\r\n".encode())
                answer = link.answer()
                expect(answer.status == 200, f"GET {target}: {answer}")
    return processor_seconds(city) - begun


def documents_are_made_once(program):
    """Short documents take about as much of the processor where there are many long ones beside them as where there are none: what was made
    for the first who asked is told to all others, until the next publication."""
    given = open_to_all(configuration())
    with Alone(program, given) as few, Alone(program, given) as many:
        for city in (few, many):
            publish(city, [geography(SQUARE, "square")], [policy(CAP, [SQUARE], EARLY)])
        places = [round_place(100 + it) for it in range(PLACES)]
        publish(many, places, [policy(LATE, [it["geography_id"] for it in places], EARLY)])
        length = int(ask(many, "HEAD", "/mds/2.0/geographies")[1]["content-length"])
        expect(length > 10 * PLACES * CORNERS, f"the list has {length} bytes")
        ask(few, "HEAD", "/mds/2.0/geographies")
        of_few = of_many = 0
        for _ in range(ROUNDS):
            of_few += taken_by_asking(few, ASKED)
            of_many += taken_by_asking(many, ASKED)
            expect(of_many <= TIMES * of_few + MORE, f"beside long documents short ones take {of_many:.2f} s, and alone {of_few:.2f} s")
    yield from ()


def it_is_off(program, says):
    """Where the configuration doesn't turn it on these paths are an anonymous client's."""
    with Alone(program, configuration() if says is None else open_to_all(configuration(), says)) as city:
        expect(not city.tells_everyone, "the program said that everyone is told")
        for target in ("/mds/2.0/policies", "/mds/2.0/geographies", f"/mds/2.0/policies/{CAP}"):
            status, _, body = ask(city, "GET", target)
            expect((status, body) == (401, b'{"error":"token"}'), f"GET {target}: {status} {body[:80]}")
    yield from ()


def main():
    """Asks for all."""
    if len(sys.argv) != 2:
        sys.exit(__doc__)
    program, tried, moments = os.path.abspath(sys.argv[1]), Tried(), []
    with Alone(program, open_to_all(configuration())) as city:
        tried.one("nothing yet", nothing_yet(city))
        tried.one("publishing", published(city, moments))
        tried.one("lists", lists_are_told(city, moments))
        tried.one("one document", one_is_told(city))
        tried.one("periods", periods_are_asked_for(city))
        tried.one("versions", versions_are_taken(city))
        tried.one("methods", methods_are_refused(city))
        tried.one("tokens", tokens_are_no_matter(city))
        tried.one("withdrawals", a_withdrawal_is_an_end(city, moments))
        tried.one("operators of a policy", whom_a_policy_names(city))
    tried.one("a restart", a_restart_tells_the_same(program))
    tried.one("many at once", many_ask_at_once(program))
    tried.one("asked again", documents_are_made_once(program))
    # None stands for a configuration that says nothing of it.
    for says in (None, False, "true", 1):
        tried.one(f"public: {says}", it_is_off(program, says))
    return tried.told()


if __name__ == "__main__":
    sys.exit(main())
