#!/usr/bin/env python3
"""Tries a built mds_serve or ruffletuff over loopback, by raw sockets: good requests, broken ones and hostile ones.

    http.py PROGRAM [messages | untimed | timed | exchanges | loads | short-loads]

What is accepted as an answer stands in the protocol, and where a message is no HTTP in RFC 9110 and 9112: where these leave a
choice, each of its sides is accepted. After each broken or hostile message the next request on a new connection is answered as if
it hadn't come. The scripts of tests/replays are run too, those whose answers don't depend on when a request comes; the others are
named. Then come the loads of tests/load.py, one after another. With a second word one of both is done; or of the messages those that may
run beside other work (`untimed`), those of which it is judged how soon they are answered, or by how many threads (`timed`), or those that
wait for no deadline but a head's, and for no script (`exchanges`); or the short ones of the loads, side by side. A server that keeps its state has a folder
of its own for each run, and isn't asked long questions; how it ends tests/journals.py tries. The messages take about 80 seconds, since the
deadlines are waited for, the loads some four minutes, the short ones up to 90 seconds. Prints what differs, and last 'N passed, M
failed'; ends with 1 where one failed.
"""

import contextlib
import json
import math
import os
import re
import statistics
import sys
import tempfile
import threading
import time
from concurrent.futures import ThreadPoolExecutor

import load
from closings import CLOSINGS
from ends import ENDS, TOLD_AT_ONCE, an_address_that_is_taken, an_end, is_refused, is_told_at_once, so_many_connections
from kept import City, Tried, is_keeping, serving
from messages import BODIES, BODY_LIMIT, CLOSE, HEADS, METHOD, NEW, NO_POLICY, NO_ROUTE, REPORT, TOKEN, TOO_LARGE
from messages import chunked, code, head, sized
from wire import AUTHOR, FIRST, SECOND, SECONDS, SLOWNESS, Answer, Closed, identifier, report, request

HERE = os.path.dirname(os.path.abspath(__file__))

HEAD_SECONDS, BODY_SECONDS, IDLE_SECONDS = 10, 30, 60
EARLY, LATE = 2, 10  # how far from its deadline a connection may be closed, on a busy machine
AT_MOST = 10 * SLOWNESS  # seconds, for which another client may wait beside one that is slow


def told(server, sent, may_close):
    """Sends what comes first on a connection: its answer or a close, and what comes behind."""
    with server.link() as link:
        link.send(sent)
        try:
            if may_close:
                link.socket.settimeout(2)
                link.more()
        except Closed:
            return CLOSE, b""
        except TimeoutError:
            # A server that waits for more has its right to; it is told that no more comes.
            link.half_close()
        link.socket.settimeout(SECONDS)
        try:
            answer = link.answer()
        except Closed as end:
            return (CLOSE, b"") if not end.args[0] else (f"a part of an answer, {end.args[0]!r}", b"")
        return answer, link.rest()


def is_accepted(answer, accepted):
    """Whether it is one of them. A status alone is the framing's answer: the application has then looked at no document."""
    if not isinstance(answer, Answer):
        return answer == CLOSE and CLOSE in accepted
    told = re.fullmatch(rb'{"error":"(\w+)"}', answer.body)
    framing = not told or told[1] in (b"bad_body", b"too_large")
    return any(
        framing and answer.status == it if isinstance(it, int) else it != CLOSE and answer.is_by_the_server(*it) for it in accepted
    )


def first_on_a_connection(server, sent, accepted):
    """It gets one of the accepted answers and then a close, and leaves nothing behind but a report that was taken."""
    answer, behind = told(server, sent, CLOSE in accepted)
    if not is_accepted(answer, accepted):
        yield f"answered {answer}"
    if behind:
        yield f"behind the answer {answer} comes {behind[:80]!r}"
    if isinstance(answer, Answer) and answer.is_by_the_server(*NEW):
        removed = server.ask("DELETE", f"/fleet/vehicles/{identifier(4, 1)}")
        if removed.status != 200:
            yield f"what was reported is removed by {removed}"
    yield from as_if_nothing_had_come(server)


def as_if_nothing_had_come(server):
    """The answers of a new server, on a new connection."""
    for target, wanted in (("/fleet/vehicles", b'{"vehicles":[]}'), ("/policies", NO_POLICY[1])):
        answer = server.ask("GET", target)
        if not answer.is_by_the_server(200, wanted):
            yield f"the next request, of {target}, is answered {answer}"


# --- Whole exchanges -----------------------------------------------------------------------------------------------


def many_on_one_connection(server):
    """Requests are answered in order, on one connection, however they are cut."""
    asked = [
        (request("GET", "/policies"), NO_POLICY),
        (request("POST", "/fleet/events", body=REPORT), NEW),
        (request("POST", "/fleet/events", body=REPORT, token=SECOND), NEW),
        (request("POST", "/fleet/events", body=REPORT), (200, b'{"result":"same"}')),
        (request("GET", "/nowhere"), NO_ROUTE),
        (request("POST", "/fleet/events", "nobody", b"{"), TOKEN),
        (request("PUT", "/policies", body=b"{"), METHOD),
        (request("DELETE", f"/fleet/vehicles/{identifier(4, 1)}"), (200, f'{{"removed":"{identifier(4, 1)}"}}'.encode())),
        (request("DELETE", f"/fleet/vehicles/{identifier(4, 1)}", SECOND), (200, f'{{"removed":"{identifier(4, 1)}"}}'.encode())),
    ]
    whole = b"".join(sent for sent, _ in asked)
    for size in (len(whole), 1000, 7, 1):
        with server.link() as link:
            sender = threading.Thread(target=lambda: [link.send(whole[it : it + size]) for it in range(0, len(whole), size)])
            sender.start()
            for number, (_, wanted) in enumerate(asked):
                answer = link.answer()
                if not answer.is_by_the_server(*wanted):
                    yield f"in pieces of {size}, request {number} is answered {answer}"
            sender.join()
    yield from as_if_nothing_had_come(server)


def a_thousand_at_once(server):
    """A thousand requests are sent at once, and have a thousand answers."""
    with server.link() as link:
        sender = threading.Thread(target=link.send, args=(request("GET", "/policies") * 1000,))
        sender.start()
        answers = [link.answer() for _ in range(1000)]
        sender.join()
    yield from (f"answered {it}" for it in answers if not it.is_by_the_server(*NO_POLICY))


def two_at_once(server):
    """Of two requests that come together none waits until the reply before it is acknowledged, for which a client takes 40 ms."""
    taken = []
    with server.link() as link:
        for _ in range(60):
            begun = time.monotonic()
            link.send(request("GET", "/policies") * 2)
            answers = [link.answer() for _ in range(2)]
            taken.append(time.monotonic() - begun)
            yield from (f"answered {it}" for it in answers if not it.is_by_the_server(*NO_POLICY))
    # A new connection is acknowledged at once for a while.
    median = statistics.median(taken[20:])
    if median > 0.03 * SLOWNESS:
        yield f"two requests at once take {1000 * median:.0f} ms"


def a_head_without_a_body(server):
    """HEAD is a method that no route has; its answer has no body."""
    with server.link() as link:
        link.send(request("HEAD", "/policies") + request("GET", "/policies"))
        answer, behind = link.answer("HEAD"), link.answer()
    if (answer.status, answer.body) != (405, b"") or not behind.is_by_the_server(*NO_POLICY):
        yield f"answered {answer}, and then {behind}"


def a_body_that_is_awaited(server):
    """Expect: 100-continue is met before the body comes, and what is refused then is refused."""
    for length, wanted in ((len(REPORT), NEW), (BODY_LIMIT + 1, TOO_LARGE)):
        body = REPORT.ljust(length)
        with server.link() as link:
            start, _, _ = request("POST", "/fleet/events", body=body, lines=["Expect: 100-continue"]).partition(b"\r\n\r\n")
            link.send(start + b"\r\n\r\n")
            answer = link.answer()
            if answer.status == 100:
                link.send(body)
                answer = link.answer()
            elif wanted == NEW:
                yield f"a body that is awaited is answered {answer} at once"
            if not answer.is_by_the_server(*wanted):
                yield f"a body of {length} that was awaited is answered {answer}"
    server.ask("DELETE", f"/fleet/vehicles/{identifier(4, 1)}")
    with server.link() as link:
        link.send(request("GET", "/policies", lines=["Expect: the-unexpected"]))
        answer = link.answer()
        if answer.status != 417 and not answer.is_by_the_server(*NO_POLICY):
            yield f"another expectation is answered {answer}"
    yield from as_if_nothing_had_come(server)


def gone_without_a_word(server):
    """Connections that are reset at any byte of a request leave nothing behind."""
    whole = sized(REPORT)
    for cut in range(0, len(whole) - 1, 5):
        link = server.link()
        link.send(whole[:cut])
        link.reset()
    yield from as_if_nothing_had_come(server)


def who_never_reads(server):
    """Who asks and asks and never reads holds up nobody, not even others with its own token."""
    documents = [(f"/drafts/geographies/{identifier(1, n)}", large_geography(identifier(1, n))) for n in range(4)]
    for target, document in documents:
        if not server.ask("PUT", target, AUTHOR, document).is_by_the_server(*NEW):
            yield "a large geography isn't drafted"
    names = ",".join(f'"{identifier(1, n)}"' for n in range(4))
    if server.ask("POST", "/publish", AUTHOR, f'{{"geographies":[{names}]}}'.encode()).status != 200:
        yield "large geographies aren't published"
    with contextlib.ExitStack() as stack:
        for token in (FIRST, AUTHOR):
            link = stack.enter_context(server.link(receive=4096))
            link.socket.settimeout(1)
            with contextlib.suppress(OSError):
                link.socket.sendall(request("GET", "/geographies", token) * 2000)
        for token in (FIRST, SECOND, AUTHOR) * 10:
            begun = time.monotonic()
            answer = server.ask("GET", "/policies", token)
            if not answer.is_by_the_server(200, b'{"policies":[],"revision":1}') or time.monotonic() - begun > AT_MOST:
                yield f"{token} is answered {answer} after {time.monotonic() - begun:.1f} s"


def large_geography(uuid):
    """A ring of 20,000 positions."""
    ring = ",".join(f"[{it * 0.001:.3f},{80 if it else 79}]" for it in range(19_999)) + ",[0.000,79]"
    return f'{{"geography_id":"{uuid}","name":"large","geography_json":{{"type":"Polygon","coordinates":[[{ring}]]}}}}'.encode()


def on_a_circle(turn, east=0):
    """The longitude and the latitude at this part of a turn around 5 degrees north and, but for what is given, 5 degrees east."""
    return 5 + east + 4 * math.cos(2 * math.pi * turn), 5 + 4 * math.sin(2 * math.pi * turn)


def what_makes_questions_long(server):
    """Draws 16 rings of 15,000 positions that cross, publishes 8 policies of 64 rules over them, and reports 2,000 vehicles.

    Fewer of each make questions long enough where the program isn't proved.
    """
    rings, corners, count = {}, 15_000 // SLOWNESS, 64 // SLOWNESS
    for number in range(16):
        positions = [on_a_circle(it / corners, number * 1e-6) for it in range(corners)]
        rings[identifier(1, number)] = ",".join(f"[{lng:.7f},{lat:.7f}]" for lng, lat in [*positions, positions[0]])
    for name, ring in rings.items():
        text = f'{{"geography_id":"{name}","name":"g","geography_json":{{"type":"Polygon","coordinates":[[{ring}]]}}}}'
        yield server.ask("PUT", f"/drafts/geographies/{name}", AUTHOR, text.encode())
    names, policies = list(rings), [identifier(2, number) for number in range(max(1, 8 // SLOWNESS))]
    for number, policy in enumerate(policies):
        rules = [
            {"rule_id": identifier(3, count * number + it), "name": "r", "rule_type": "count", "maximum": 2_000}
            | {"geographies": names[it % 16 :] + names[: it % 16]}
            for it in range(count)
        ]
        text = json.dumps({"policy_id": policy, "name": "p", "start_date": 1000, "rules": rules})
        yield server.ask("PUT", f"/drafts/policies/{policy}", AUTHOR, text.encode())
    yield server.ask("POST", "/publish", AUTHOR, json.dumps({"geographies": names, "policies": policies}).encode())
    with server.link() as link:
        for number in range(2_000 // SLOWNESS):
            lng, lat = on_a_circle(number * 0.2705628)
            text = report(number).replace(b'{"lat":5,"lng":5}', f'{{"lat":{lat:.7f},"lng":{lng:.7f}}}'.encode())
            link.send(request("POST", "/fleet/events", body=text))
            yield link.answer()


def two_publications(server, first):
    """Publishes two places, each by itself, and gives what is answered. A publication writes where those read that took a snapshot before
    the one before it, so the second of two waits for whoever holds one meanwhile."""
    ring = "[[0,0],[1,0],[1,1],[0,1],[0,0]]"
    for number in (first, first + 1):
        name = identifier(1, number)
        text = f'{{"geography_id":"{name}","name":"g","geography_json":{{"type":"Polygon","coordinates":[{ring}]}}}}'
        yield server.ask("PUT", f"/drafts/geographies/{name}", AUTHOR, text.encode())
        yield server.ask("POST", "/publish", AUTHOR, json.dumps({"geographies": [name], "policies": []}).encode())


def long_questions(server):
    """While an operator asks what takes long, on one connection or on more than there are threads, others are answered, and the author
    publishes."""
    for answer in what_makes_questions_long(server):
        if answer.status != 200:
            yield f"what makes questions long is answered {answer}"
    for number, count in enumerate((1, 2 * (os.cpu_count() or 1) + 4)):
        # The first question looks at each vehicle, and so does the next one, which keeps what it finds of them.
        if (further := server.ask("POST", "/fleet/events", FIRST, report(50_000 + number))).status != 200:
            yield f"a further vehicle is answered {further}"
        with contextlib.ExitStack() as stack:
            links = [stack.enter_context(server.link()) for _ in range(count)]
            begun, waited = time.monotonic(), []
            for link in links:
                link.socket.settimeout(12 * SECONDS)
                link.send(request("GET", "/compliance"))
            for token, status in ((SECOND, 200), (AUTHOR, 200), ("nobody", 401)):
                asked = time.monotonic()
                answer = server.ask("GET", "/policies", token)
                waited.append(time.monotonic() - asked)
                if answer.status != status:
                    yield f"{token} is answered {answer}"
            asked = time.monotonic()
            for answer in two_publications(server, 100 + 2 * number):
                waited.append(time.monotonic() - asked)
                asked = time.monotonic()
                if answer.status != 200:
                    yield f"the author is answered {answer}"
            answers = [link.answer() for link in links]
            took = time.monotonic() - begun
        yield from (f"a long question is answered {it}" for it in answers if it.status != 200 or b'"ok"' not in it.body)
        if max(waited) > took / 2:
            yield f"beside {count} long questions, which take {took:.2f} s, others wait for {max(waited):.2f} s"


def most_threads(server, link):
    """The answer to a question, and the most threads that the server had meanwhile."""
    asking, found = ThreadPoolExecutor(1), []
    link.send(request("GET", "/compliance"))
    with asking:
        answer = asking.submit(link.answer)
        while not answer.done():
            found.append(len(os.listdir(f"/proc/{server.process.pid}/task")))
    return answer.result(), max(found, default=0)


def a_policy_of_64_rules(server):
    """Publishes a policy whose rules are each on one vehicle type in a square."""
    square, cap, ring = identifier(1, 1), identifier(2, 1), "[[0,0],[9,0],[9,9],[0,9],[0,0]]"
    area = f'{{"geography_id":"{square}","name":"g","geography_json":{{"type":"Polygon","coordinates":[{ring}]}}}}'
    rules = [
        {"rule_id": identifier(3, it), "name": "r", "rule_type": "count", "geographies": [square], "vehicle_types": [f"t{it}"]}
        for it in range(64)
    ]
    text = json.dumps({"policy_id": cap, "name": "p", "start_date": 1000, "rules": rules})
    names = json.dumps({"geographies": [square], "policies": [cap]})
    drafts = (("PUT", f"/drafts/geographies/{square}", area), ("PUT", f"/drafts/policies/{cap}", text))
    for method, target, body in (*drafts, ("POST", "/publish", names)):
        if (answer := server.ask(method, target, AUTHOR, body.encode())).status != 200:
            yield f"{target} is answered {answer}"


def reported(link, numbers):
    """Reports these vehicles, a hundred at once."""
    for first in numbers[::100]:
        batch = range(first, min(first + 100, numbers.stop))
        link.send(b"".join(request("POST", "/fleet/events", body=report(it)) for it in batch))
        if any(link.answer().status != 200 for _ in batch):
            yield "a report isn't taken"


def a_question_by_threads(server):
    """What is worth threads is judged by threads that a first question starts; what isn't, and what was asked before, by none."""
    if len(os.sched_getaffinity(0)) == 1:
        print("a question isn't asked that starts threads: there is one processor")
        return
    yield from a_policy_of_64_rules(server)
    at_rest = len(os.listdir(f"/proc/{server.process.pid}/task"))
    few, many = 1_000 // SLOWNESS, 40_000 // SLOWNESS
    with server.link() as link:
        for numbers, wanted in ((range(few), False), (range(few, many), True)):
            yield from reported(link, numbers)
            asked = []
            for _ in range(max(3, 20 // SLOWNESS)):
                # Behind more than 64 devices that went and came nothing of the fleet lies ready.
                for it in numbers[:33]:
                    server.ask("DELETE", f"/fleet/vehicles/{identifier(4, it)}")
                yield from reported(link, numbers[:33])
                asked.append(most_threads(server, link))
            if any(answer.status != 200 for answer, _ in asked):
                yield f"a question over {numbers.stop} vehicles isn't answered"
            most = max(most for _, most in asked)
            if (most > at_rest) != wanted:
                yield f"over {numbers.stop} vehicles the server has {most} threads, and {at_rest} at rest"
            # The second question behind so many makes what further ones go by.
            again = [most_threads(server, link)[1] for _ in range(1 + max(3, 20 // SLOWNESS))]
            if max(again) > at_rest:
                yield f"over {numbers.stop} vehicles a question that was asked before starts threads"


def the_slow_and_the_others(server, patience):
    """While 500 connections send a byte a second, 50 others get all their answers."""
    first = b"GET /policies HTTP/1.1\r\nhost: x\r\nx-slow: " + b"a" * 200
    for _ in range(500):
        patience.add("500 heads that drip", server.link(), HEAD_SECONDS, HEAD_SECONDS, drip=first)

    def asks(number):
        own, found = identifier(0, number), []
        with server.link() as link:
            for _ in range(40):
                link.send(request("GET", f"/policies/{own}", (FIRST, SECOND, AUTHOR)[number % 3]))
                found.append(link.answer())
        return [f"another connection is answered {it}" for it in found if not it.is_by_the_server(*code(404, "not_found"))]

    begun = time.monotonic()
    with ThreadPoolExecutor(50) as pool:
        for found in pool.map(asks, range(50)):
            yield from found[:1]
    if time.monotonic() - begun > 2 * AT_MOST:
        yield f"50 others waited for {time.monotonic() - begun:.1f} s"


class Patience(threading.Thread):
    """Connections that have to be closed at a deadline, and some of them drip bytes meanwhile."""

    def __init__(self):
        super().__init__(daemon=True)
        self.waiting, self.faults, self.added, self.over = [], {}, threading.Lock(), threading.Event()

    def add(self, name, link, least, most, drip=b""):
        """A connection that is to be closed after these seconds, with an answer or without."""
        link.socket.setblocking(False)
        with self.added:
            self.faults.setdefault(name, [])
            self.waiting.append([name, link, time.monotonic(), least - EARLY, most + LATE, list(drip), 0])

    def run(self):
        while not (self.over.is_set() and not self.waiting):
            with self.added:
                waiting = list(self.waiting)
            for entry in waiting:
                if self.is_settled(entry):
                    entry[1].socket.close()
                    with self.added:
                        self.waiting.remove(entry)
            time.sleep(0.1)

    def is_settled(self, entry):
        """Whether a connection was closed, or should have been; sends its next byte else."""
        name, link, begun, least, most, drip, sent = entry
        after = time.monotonic() - begun
        try:
            closed = not link.socket.recv(65536)
        except BlockingIOError:
            closed = False
        except ConnectionError:
            closed = True
        if closed and after < least:
            self.faults[name].append(f"closed after {after:.1f} s, before {least} s")
        if not closed and after > most:
            self.faults[name].append(f"not closed within {most} s")
        if sent < len(drip) and after >= sent:
            with contextlib.suppress(OSError):
                link.socket.send(bytes(drip[sent : sent + 1]))
            entry[6] += 1
        return closed or after > most


def a_head_that_stops(server, patience):
    """A connection whose head begins and goes no further."""
    link = server.link()
    link.send(head()[:30])
    patience.add("a head that stops", link, HEAD_SECONDS, HEAD_SECONDS)


def deadlines(server, patience):
    """Connections that miss each deadline."""
    patience.add("a connection that says nothing", server.link(), HEAD_SECONDS, IDLE_SECONDS)
    a_head_that_stops(server, patience)
    link = server.link()
    link.send(sized(REPORT)[:-20])
    patience.add("a body that stops", link, BODY_SECONDS, BODY_SECONDS)
    link = server.link()
    link.send(chunked(b""))
    patience.add("chunks that drip", link, BODY_SECONDS, BODY_SECONDS, drip=b"40\r\n" + b" " * 60)
    link = server.link()
    link.send(request("GET", "/policies"))
    answer = link.answer()
    if not answer.is_by_the_server(*NO_POLICY):
        yield f"answered {answer}"
    patience.add("a connection that is idle", link, IDLE_SECONDS, IDLE_SECONDS)


def a_slow_body_in_time(server):
    """A body that takes longer than a head may, and comes within its own time, is taken."""
    whole = sized(REPORT)
    with server.link() as link:
        link.socket.settimeout(HEAD_SECONDS + 3 * SECONDS)
        link.send(whole[: -HEAD_SECONDS - 2])
        for it in range(-HEAD_SECONDS - 2, 0):
            time.sleep(1)
            link.send(whole[it:][:1])
        answer = link.answer()
    if not answer.is_by_the_server(*NEW):
        yield f"answered {answer}"


# --- Scripts -------------------------------------------------------------------------------------------------------


def moments(node):
    """The moments that a document holds."""
    if isinstance(node, dict):
        yield from (it for name, it in node.items() if name in ("start_date", "end_date", "timestamp") and isinstance(it, int))
    for child in node.values() if isinstance(node, dict) else node if isinstance(node, list) else ():
        yield from moments(child)


def looks_at_time(node):
    """Whether a document has a rule that looks at the time."""
    if isinstance(node, dict):
        return node.get("rule_type") == "time" or any(it in node for it in ("start_time", "end_time", "days")) or any(map(looks_at_time, node.values()))
    return isinstance(node, list) and any(map(looks_at_time, node))


def moments_matter(requests):
    """Whether answers may depend on when the requests of a script come.

    They do where its moments go back, where a report's timestamp is after its request, and, where compliance is asked for, where
    a document's moment is after the request that brings it or a rule looks at the time.
    """
    asked, last = any(target.startswith(b"/compliance") for _, _, _, target, _ in requests), 0
    for at, _, _, target, body in requests:
        if at < last:
            return True
        last = at
        try:
            document = json.loads(body or b"null")
        except ValueError:
            continue
        if (asked or target == b"/fleet/events") and any(it > at for it in moments(document)):
            return True
        if asked and looks_at_time(document):
            return True
    return False


def is_sent(fields):
    """Whether a request of a script can be sent as one of HTTP that has a body for its answer."""
    return len(fields) > 3 and fields[2] != b"HEAD" and re.fullmatch(rb"/[!-~]*", fields[3])


def script(name):
    """The configuration of a script, its requests, their replies, its status, and how many lines are left out: what HTTP can't carry."""
    path = f"{HERE}/replays/{name}"
    with open(f"{path}.in", "rb") as given, open(f"{path}.out", "rb") as wanted, open(f"{path}.status") as status:
        first, _, rest = given.read().partition(b"\n")
        *whole, last = rest.split(b"\n")
        lines = [it for it in [*(it.removesuffix(b"\r") for it in whole), last] if it]
        replies, ends = wanted.read().split(b"\n")[:-1], int(status.read())
    if not ends and len(lines) != len(replies):
        raise ValueError(f"{name}: {len(lines)} lines and {len(replies)} replies")
    pairs = [(it.split(b" ", 4) + [b""], reply) for it, reply in zip(lines, replies) if reply != b'400 {"error":"bad_line"}']
    requests = [(int(it[0]), *it[1:5]) for it, _ in pairs if is_sent(it)]
    return first + b"\n", requests, [reply for it, reply in pairs if is_sent(it)], ends, len(replies) - len(requests)


def without_moments(reply):
    """A reply whose moments of asking and publishing are left out, and those moments."""
    found = re.compile(rb'"(at|published_date)":(\d+)')
    return found.sub(rb'"\1":', reply), {(name, int(it)) for name, it in found.findall(reply)}


def a_script(program, given, requests, replies):
    """The answers by HTTP are those of the replay, but for the moments, which are now or a publication's, and where the page is."""
    published, has_page = set(), is_keeping(program)
    with serving(program, given=given) as server, server.link() as link:
        for number, ((_, token, method, target, body), wanted) in enumerate(zip(requests, replies)):
            if has_page and target == b"/":
                continue
            begun = time.time_ns() // 1_000_000
            link.send(request(method.decode(), target.decode(), token.decode(), body))
            answer = link.answer()
            now = range(begun, time.time_ns() // 1_000_000 + 1)
            text, found = without_moments(b"%d " % answer.status + answer.body)
            if text != without_moments(wanted)[0] or answer.fields.get("content-type") != ["application/json"]:
                yield f"request {number} is answered {answer}, not {wanted[:120]!r}"
            if target == b"/publish":
                published |= {it for _, it in found}
            for name, it in found:
                if it not in (published if name == b"published_date" and target != b"/publish" else now):
                    yield f"request {number}, answered {answer}, has the moment {it}"


def scripts(program):
    """Each script that can be run, with its faults; and which are left out, and lines of which."""
    left, lines = [], {}
    for name in sorted({it.rsplit(".", 1)[0] for it in os.listdir(f"{HERE}/replays")}):
        given, requests, replies, status, count = script(name)
        lines[name] = 0 if status else count
        if status:
            refused = is_refused_in_a_file if is_keeping(program) else is_refused
            yield name, refused(program, given.strip(b"\n"), status, refusal(name))
        elif moments_matter(requests):
            left.append(name)
        else:
            yield name, a_script(program, given, requests, replies)
    print(f"{len(left)} scripts are left out, since their answers depend on their moments: {', '.join(left)}")
    told = [f"{count} of {name}" for name, count in lines.items() if count and name not in left]
    print(f"lines are left out that HTTP can't carry: {', '.join(told)}")


def is_refused_in_a_file(program, given, status, said):
    """The configuration is refused by a server that reads it from a file, with the same words of what is wrong, and no folder is made."""
    with tempfile.TemporaryDirectory() as room:
        city = City(program, room, given)
        wanted = f"ruffletuff: the configuration is wrong: {city.file}\n{said.partition(chr(10))[2]}\n".encode()
        *found, err = city.refused()
        # What stands in the file before that is told with its place (config.py).
        said = b"".join(it for it in err.splitlines(keepends=True) if not it.startswith(f"{city.file}:".encode()))
        if (*found, said) != (status, b"", wanted):
            yield f"ends with {(*found, err)}, not {(status, wanted)}"
        if os.path.exists(city.folder):
            yield "its folder is made"


def refusal(name):
    """What mds_serve says of a script's configuration: what mds_replay says, under its own name."""
    path = f"{HERE}/replays/{name}.err"
    if not os.path.exists(path):
        return "serve: bad configuration"
    with open(path, encoding="ascii") as said:
        return said.read().removesuffix("\n").replace("replay: ", "serve: ", 1)


# --- All of it -----------------------------------------------------------------------------------------------------


def still_silent(server):
    """A server that wasn't told to end is there, and has printed nothing but 'ready'."""
    status, out, err = server.stop()
    if (status, out, err) != (None, b"", b""):
        yield f"status {status}, output {out[:200]!r}, standard error {err[:200]!r}"


def messages(tried, server, left_out=()):
    """What comes to one server and leaves nothing behind, but for messages of these names."""
    for name, (sent, accepted) in (HEADS | BODIES).items():
        if name not in left_out:
            tried.one(name, first_on_a_connection(server, sent, accepted))
    cases = (many_on_one_connection, a_thousand_at_once, a_head_without_a_body, a_body_that_is_awaited, gone_without_a_word)
    for case in (*cases, *CLOSINGS):
        tried.one(case.__name__, case(server))


def by_the_page(program):
    """The messages that a program with the page answers by it: page.py says how."""
    return ("a whole URI without a path",) if is_keeping(program) else ()


def programs(tried, program):
    """Runs of the program, each for itself."""
    if not is_keeping(program):
        ends(tried, program)
    for name, found in scripts(program):
        tried.one(name, found)


def ends(tried, program):
    """How mds_serve ends."""
    for name, (arguments, given, status, said) in ENDS.items():
        tried.one(name, an_end(program, arguments, given, status, said))
    for name, (words, said) in TOLD_AT_ONCE.items():
        tried.one(name, is_told_at_once(program, words, said))
    for case in (an_address_that_is_taken, so_many_connections):
        tried.one(case.__name__, case(program))


def untimed(tried, program, stack):
    """The messages whose answers may come late. The deadlines are waited for while the others run."""
    waited, plain, large = (stack.enter_context(serving(program, limit=limit)) for limit in (2, 2, 200))
    patience = Patience()
    patience.start()
    tried.one("deadlines", deadlines(waited, patience))
    tried.one("the_slow_and_the_others", the_slow_and_the_others(waited, patience))
    messages(tried, plain, by_the_page(program))
    programs(tried, program)
    tried.one("who_never_reads", who_never_reads(large))
    tried.one("a_slow_body_in_time", a_slow_body_in_time(large))
    patience.over.set()
    patience.join()
    for name, faults in patience.faults.items():
        tried.one(name, faults)
    tried.one("as_if_nothing_had_come", as_if_nothing_had_come(waited))
    for name, server in (("waited", waited), ("plain", plain), ("large", large)):
        tried.one(f"still_silent, {name}", still_silent(server))


# Of which it is judged how soon they are answered, or by how many threads: each with its server's limit. Nothing of the later ones goes by
# what is kept, and large fleets wait for many syncs, so a server that keeps its state is asked the first one alone.
TIMED = ((two_at_once, 2), (long_questions, 2_002), (a_question_by_threads, 40_000))


def timed(tried, program, stack):
    """The messages whose answers mustn't come late."""
    for case, limit in TIMED[:1] if is_keeping(program) else TIMED:
        server = stack.enter_context(serving(program, limit=limit))
        tried.one(case.__name__, case(server))
        tried.one(f"still_silent, {case.__name__}", still_silent(server))


# Reading so many blanks takes a minute where the program isn't proved and the machine is busy.
LONG_BODIES = ("a body at its limit", "chunks at the limit")


def exchanges(tried, program):
    """The tests that wait for no deadline but that of a head, which is waited for while the others run, at one server, but for those of the
    longest bodies."""
    patience = Patience()
    patience.start()
    with serving(program, limit=2) as server:
        a_head_that_stops(server, patience)
        messages(tried, server, (*LONG_BODIES, *by_the_page(program)))
        tried.one("two_at_once", two_at_once(server))
        patience.over.set()
        patience.join()
        for name, faults in patience.faults.items():
            tried.one(name, faults)
        tried.one("still_silent", still_silent(server))
    print(f"left out, and tried by make prove: other deadlines, slow readers and writers, long questions, {', '.join(LONG_BODIES)}")


WORDS = ("messages", "untimed", "timed", "exchanges", "loads", "short-loads")


def main(program, which="all"):
    tried = Tried()
    try:
        for name, call in (("untimed", untimed), ("timed", timed)):
            if which in ("all", "messages", name):
                with contextlib.ExitStack() as stack:
                    call(tried, program, stack)
        if which == "exchanges":
            exchanges(tried, program)
        if which in ("all", "loads", "short-loads"):
            for name, found in load.loads(program, which == "short-loads"):
                tried.one(name, found)
    except (OSError, ValueError) as fault:
        print(fault)
        tried.failed += 1
    return tried.told()


if __name__ == "__main__":
    if len(sys.argv) not in (2, 3) or sys.argv[2:] not in ([], *([it] for it in WORDS)):
        sys.exit(f"usage: http.py PROGRAM [{' | '.join(WORDS)}]")
    sys.exit(main(os.path.abspath(sys.argv[1]), *sys.argv[2:]))
