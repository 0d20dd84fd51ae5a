"""Clients that keep their connections, after each kind of refusal: one of Python's library, and curl.

A refusal that says nothing of a close leaves the connection open, and the next request goes over it. After one that says
`connection: close` the next request goes over a new one. Either way it is answered.
"""

import contextlib
import os
import subprocess
import sys
import tempfile

import packages
from messages import BODY_LIMIT, code
from wire import AUTHOR, SECONDS, Closed, identifier, report, request

# http.py, beside this file, hides the library's package of that name.
PLACES, HERE = sys.path[:], os.path.dirname(os.path.abspath(__file__))
sys.path[:] = [it for it in PLACES if os.path.abspath(it) != HERE]
import http.client  # noqa: E402

sys.path[:] = PLACES

# Two operators. The second has as many vehicles as it may.
FIRST, FULL = "o00", "o01"
MOST_DRAFTS, MOST_PUBLISHED = 256, 512
EVENTS, DEVICE = "/fleet/events", identifier(4, 7)
SEVENTH, DRAFTED, PUBLISHED, NEXT, NOBODYS = 7, 8, 0, MOST_PUBLISHED, 9_999

# The codes behind which the server closes, and says so.
CLOSED_BEHIND = ("too_large", "bad_body", "busy")


def draft_of_policy(number):
    return f"/drafts/policies/{identifier(2, number)}"


def draft_of_place(number):
    return f"/drafts/geographies/{identifier(1, number)}"


def place(number, ring="[[0,0],[9,0],[9,9],[0,0]]"):
    """The text of a geography."""
    geometry = f'{{"type":"Polygon","coordinates":[{ring}]}}'
    return f'{{"geography_id":"{identifier(1, number)}","name":"p","geography_json":{geometry}}}'.encode()


def policy(number, **members):
    """The text of a policy, in which some members are other texts."""
    texts = {"policy_id": f'"{identifier(2, number)}"', "name": '"p"', "start_date": "0", "rules": "[]"} | members
    return ("{" + ",".join(f'"{name}":{text}' for name, text in texts.items()) + "}").encode()


def rule(*places):
    """The text of a rule over these geographies."""
    names = ",".join(f'"{identifier(1, it)}"' for it in places)
    return f'{{"rule_id":"{identifier(3, 1)}","name":"r","rule_type":"count","geographies":[{names}]}}'


def names(kind, member, numbers):
    """The text of a publication of these."""
    return f'{{"{member}":[{",".join(chr(34) + identifier(kind, it) + chr(34) for it in numbers)}]}}'.encode()


def these_policies(*numbers):
    return names(2, "policies", numbers)


# What was drafted before, but for small geographies.
DRAFTS = [
    (draft_of_policy(1), policy(1, rules=f"[{rule(NOBODYS)}]")),
    (draft_of_policy(2), policy(2, prev_policies=f'["{identifier(2, NOBODYS)}"]')),
    (draft_of_policy(3), policy(3)),
]

# Each kind of refusal that can be brought about: who asks, method, target, body, status and code.
REFUSALS = [
    (FIRST, "POST", EVENTS, b" " * (BODY_LIMIT + 1), 413, "too_large"),
    (FIRST, "POST", EVENTS, b" " * (BODY_LIMIT + 900_000), 413, "too_large"),
    ("nobody", "GET", "/policies", b"", 401, "token"),
    ("nobody", "POST", EVENTS, b"{}", 401, "token"),
    (FIRST, "GET", "/nowhere", b"", 404, "no_route"),
    (FIRST, "PUT", "/policies", b"{}", 405, "method"),
    (FIRST, "POST", "/publish", b"{}", 403, "role"),
    (AUTHOR, "POST", EVENTS, b"{}", 403, "role"),
    (FIRST, "GET", "/policies/1", b"", 400, "bad_id"),
    (FIRST, "POST", EVENTS, b"{", 400, "bad_json"),
    (FIRST, "POST", EVENTS, b"\xff", 400, "bad_json"),
    (FIRST, "POST", EVENTS, b"{}", 400, "bad_field"),
    (FIRST, "POST", EVENTS, report(7).replace(b":5}", b':"x"}'), 400, "bad_number"),
    (FIRST, "POST", EVENTS, report(7).replace(b":5}", b":200}"), 400, "out_of_range"),
    (AUTHOR, "PUT", draft_of_policy(SEVENTH), policy(SEVENTH, start_date="1.5"), 400, "decimal"),
    (AUTHOR, "PUT", draft_of_policy(SEVENTH), policy(SEVENTH, rules=f"[{','.join([rule()] * 65)}]"), 400, "too_many_rules"),
    (AUTHOR, "PUT", draft_of_policy(SEVENTH), policy(DRAFTED), 400, "id_mismatch"),
    (AUTHOR, "PUT", draft_of_place(SEVENTH), place(SEVENTH, f"[{','.join(['[0,0]'] * 20_001)}]"), 400, "too_many_points"),
    (AUTHOR, "PUT", draft_of_place(SEVENTH), place(SEVENTH, "[[0,0],[1,0],[0,0]]"), 400, "ring_short"),
    (AUTHOR, "PUT", draft_of_place(SEVENTH), place(SEVENTH, "[[0,0],[1,0],[1,1],[0,1]]"), 400, "ring_open"),
    (FIRST, "POST", EVENTS, report(7, timestamp=4_102_444_799_999), 409, "future"),
    (FULL, "POST", EVENTS, report(0, timestamp=1), 409, "stale"),
    (FULL, "POST", EVENTS, report(NOBODYS), 409, "fleet_full"),
    (FIRST, "DELETE", f"/fleet/vehicles/{DEVICE}", b"", 404, "not_found"),
    (FIRST, "GET", f"/compliance/{identifier(2, SEVENTH)}", b"", 404, "not_found"),
    (AUTHOR, "GET", draft_of_policy(SEVENTH), b"", 404, "no_draft"),
    (AUTHOR, "PUT", draft_of_place(NOBODYS), place(NOBODYS), 409, "drafts_full"),
    (AUTHOR, "POST", "/publish", b"{}", 400, "empty"),
    (AUTHOR, "POST", "/publish", these_policies(SEVENTH), 404, "no_draft"),
    (AUTHOR, "POST", "/publish", names(1, "geographies", [PUBLISHED]), 409, "published"),
    (AUTHOR, "POST", "/publish", these_policies(1), 409, "no_geography"),
    (AUTHOR, "POST", "/publish", these_policies(2), 409, "no_predecessor"),
    (AUTHOR, "POST", "/publish", names(2, "withdraw", [SEVENTH]), 409, "not_published"),
    (AUTHOR, "POST", "/publish", names(1, "geographies", [NEXT]), 409, "catalog_full"),
]


def succeed(server, token, asked):
    """Asks all of it over one connection, many before the first is answered; tells of what is no success."""
    with server.link() as link:
        for first in range(0, len(asked), 100):
            batch = asked[first : first + 100]
            link.send(b"".join(request(method, target, token, body) for method, target, body in batch))
            answers = [link.answer() for _ in batch]
            yield from (f"{target} is answered {answer}" for answer, (_, target, _) in zip(answers, batch) if answer.status != 200)


# The refusals for which all drafts and published geographies have to be there that may be.
FULL_ALONE = ("drafts_full", "catalog_full")


def what_is_refused(server, fleet, is_full):
    """What brings the refusals about: the second operator has as many vehicles as it may, and a published geography has a draft too.

    Where all is full, as many drafts and published geographies are there as may be.
    """
    yield from succeed(server, FULL, [("POST", EVENTS, report(number)) for number in range(fleet)])
    for first in range(0, MOST_PUBLISHED if is_full else 1, MOST_DRAFTS):
        numbers = range(first, first + (MOST_DRAFTS if is_full else 1))
        yield from succeed(server, AUTHOR, [("PUT", draft_of_place(it), place(it)) for it in numbers])
        yield from succeed(server, AUTHOR, [("POST", "/publish", names(1, "geographies", numbers))])
    held = [PUBLISHED, *(range(NEXT, NEXT + MOST_DRAFTS - 1) if is_full else ())]
    drafts = [("PUT", draft_of_place(it), place(it)) for it in held] + [("PUT", target, text) for target, text in DRAFTS]
    yield from succeed(server, AUTHOR, drafts)


def goes_on(client, told, status, name):
    """A client that keeps its connection reads this refusal, and asks once more."""
    answer = client.getresponse()
    body = answer.read()
    if (answer.status, body) != code(status, name):
        yield f"{told} is answered {answer.status} {body[:80]!r}"
    if answer.will_close != (name in CLOSED_BEHIND):
        yield f"behind {told} the server {'closes' if answer.will_close else 'says nothing of a close'}"
    try:
        client.request("GET", "/policies", headers={"authorization": f"Bearer {FIRST}"})
        behind = client.getresponse()
        if (behind.status, behind.read()[:13]) != (200, b'{"policies":['):
            yield f"behind {told} a request is answered {behind.status}"
    except (OSError, http.client.HTTPException) as fault:
        yield f"behind {told} a request fails: {fault!r}"


def client_of(server):
    return contextlib.closing(http.client.HTTPConnection("127.0.0.1", server.port, timeout=SECONDS))


def by_python(server, refusals):
    """A client of Python's library asks, is refused, and asks once more."""
    for who, method, target, body, status, name in refusals:
        with client_of(server) as client:
            client.request(method, target, body or None, {"authorization": f"Bearer {who}"})
            yield from goes_on(client, f"{name}, {len(body)} bytes,", status, name)
    with client_of(server) as client:
        client.putrequest("POST", EVENTS)
        for field in (("authorization", f"Bearer {FIRST}"), ("transfer-encoding", "chunked")):
            client.putheader(*field)
        client.endheaders()
        client.send(b"zz\r\n")
        yield from goes_on(client, "bad_body", 400, "bad_body")


def refused_as_busy(server, links, name):
    """Behind uploads that come to as much as may wait, and whose bodies are waited for, one more is told busy, and its client goes on."""
    whole = request("POST", EVENTS, FIRST, b" " * BODY_LIMIT, ["expect: 100-continue"])
    for link in links:
        link.send(whole[: whole.index(b"\r\n\r\n") + 4])
    if any((answer := link.answer()).status != 100 for link in links):
        yield f"an upload is answered {answer}"
    with client_of(server) as client:
        client.request("POST", EVENTS, report(7), {"authorization": f"Bearer {FIRST}"})
        yield from goes_on(client, name, 503, name)


def five_megabytes(server):
    """A body of 5 MB, and the next request of the same client. It may be cut off; a client is told an answer and the close."""
    for _ in range(5):
        with client_of(server) as client:
            with contextlib.suppress(BrokenPipeError, ConnectionResetError):
                client.request("POST", EVENTS, b" " * 5_000_000, {"authorization": f"Bearer {FIRST}"})
            try:
                yield from goes_on(client, "a body of 5 MB", 413, "too_large")
            except (OSError, http.client.HTTPException) as fault:
                yield f"a body of 5 MB has no answer: {fault!r}"
        yield from nothing_behind(server, 5_000_000)
    yield from nothing_behind(server, BODY_LIMIT + 900_000)


def nothing_behind(server, length):
    """A body that is too long and a request behind it are sent at once: the body's answer comes, and says that nothing more does."""
    with server.link() as link:
        link.send(request("POST", EVENTS, FIRST, b" " * length) + request("GET", "/policies", FIRST))
        try:
            answer, behind = link.answer(), link.rest()
        except Closed as end:
            yield f"a body of {length} bytes is answered by a close behind {end.args[0]!r}"
            return
    if not answer.is_by_the_server(*code(413, "too_large")) or answer.fields.get("connection") != ["close"] or behind:
        yield f"a body of {length} bytes is answered {answer}, connection {answer.fields.get('connection')}, and then {behind[:80]!r}"


def curl_asks(server, room, who, method, target, body, lines=()):
    """What becomes of a request and of the next one, by curl: its status, what it says, and of each the status, how many connections were
    made for it, and whether its answer tells a close."""
    file, heads = os.path.join(room, "body"), [os.path.join(room, it) for it in ("first", "then")]
    with open(file, "wb") as text:
        text.write(body)
    base = f"http://127.0.0.1:{server.port}"
    tails = [["-s", "-S", "-m", str(SECONDS), "-o", os.devnull, "-D", it, "-w", "%{http_code} %{num_connects}\n"] for it in heads]
    fields = [word for it in (f"authorization: Bearer {who}", *lines) for word in ("-H", it)]
    first = ["-X", method, *fields, *(["--data-binary", f"@{file}"] if body else []), base + target]
    then = ["-H", f"authorization: Bearer {FIRST}", f"{base}/policies"]
    words = ["curl", *tails[0], *first, "--next", *tails[1], *then]
    ran = subprocess.run(words, stdout=subprocess.PIPE, stderr=subprocess.PIPE, text=True, check=False)
    return ran.returncode, ran.stderr.strip(), [(*line.split(), closes(it)) for line, it in zip(ran.stdout.splitlines(), heads)]


def closes(file):
    """Whether the fields of an answer, in a file, tell a close."""
    with open(file, encoding="latin-1") as text:
        return "connection: close" in (line.strip().lower() for line in text)


def by_curl(server, refusals):
    """The same by curl, with two addresses in one call; a long body with and without a wait for 100."""
    if not packages.program("curl"):
        _, failed, _ = packages.leave_out("curl as a client", "curl")
        yield from ["curl isn't there"] * failed
        return
    asked = [(*it, ("expect:",)) for it in refusals]
    asked += [(FIRST, "POST", EVENTS, b" " * length, 413, "too_large", ()) for length in (BODY_LIMIT + 1, 5_000_000)]
    with tempfile.TemporaryDirectory() as room:
        for who, method, target, body, status, name, lines in asked:
            told = name in CLOSED_BEHIND
            wanted = (0, "", [(str(status), "1", told), ("200", "1" if told else "0", False)])
            if (ended := curl_asks(server, room, who, method, target, body, lines)) != wanted:
                yield f"curl at {name}, {len(body)} bytes: {ended}, not {wanted}"
