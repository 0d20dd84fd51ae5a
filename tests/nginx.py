#!/usr/bin/env python3
"""deploy/nginx.conf before two stand-ins of cities: limits, names, redirects, fields, and what is tried again.

    nginx.py

Runs Debian's nginx with that file, in which nothing is changed but ports, folders and the user, before stand-ins that answer each request
with what they were asked. Expects: of one address that makes up a token for each request as many as an address may have, and of one token
as many as a token may have, by the rates and bursts that docs/DEPLOYMENT.md has, the rest 429, while another address is answered; no more
requests of an address at the same time than it may have; http led to https, and closed for a name outside; the fields of every answer; no
way from the port where requests are tried again to any but a city; a request that came while a server was down answered once it is there,
and sent once; each name to its own city; bodies up to the limit; and no access token in a log. Prints what is otherwise, and last 'N
passed, M failed'; ends with 1 where one failed.
"""

import asyncio
import contextlib
import getpass
import json
import os
import re
import socket
import ssl
import subprocess
import sys
import tempfile
import threading
import time

import packages
from wire import free_port

TOP = os.path.dirname(os.path.dirname(os.path.abspath(__file__)))
SECONDS = 20
CITIES = {"portland.policies.example": 9001, "boise.policies.example": 9002}
PORTLAND, BOISE = CITIES
# What an address and a token may have: requests at once beyond the first, and then a second.
OF_ADDRESS, OF_TOKEN = (800, 400), (400, 200)
MOST_CONNECTIONS = 256
ROOM = 1_048_576
YEAR = "max-age=31536000"
# Requests that are written at once on one connection, on how many, and how often.
BATCH, CONNECTIONS, BATCHES = 50, 8, 10
TLS = ssl.SSLContext(ssl.PROTOCOL_TLS_CLIENT)
TLS.check_hostname, TLS.verify_mode = False, ssl.CERT_NONE


class Fault(Exception):
    """An answer that is none, or an nginx that doesn't run."""


class Stand(asyncio.Protocol):
    """A connection to a stand-in: answers each request with what was asked, as JSON; a GET of /held once it is released."""

    def __init__(self, asked, links, held):
        self.asked, self.links, self.held, self.given, self.out = asked, links, held, b"", None

    def connection_made(self, transport):
        self.out = transport
        self.links.add(transport)

    def connection_lost(self, _):
        self.links.discard(self.out)

    def data_received(self, data):
        self.given += data
        while b"\r\n\r\n" in self.given:
            head, _, rest = self.given.partition(b"\r\n\r\n")
            length = int((re.search(rb"(?i)\r\ncontent-length: (\d+)", head) or (0, 0))[1])
            if len(rest) < length:
                return
            self.given = rest[length:]
            line, *fields = head.decode("latin-1").split("\r\n")
            self.asked.append(line)
            told = {"line": line, "fields": dict(it.lower().split(": ", 1) for it in fields), "length": length}
            body = json.dumps(told).encode()
            answer = b"HTTP/1.1 200 OK\r\ncontent-type: application/json\r\ncontent-length: %d\r\n\r\n%s" % (len(body), body)
            if line.startswith("GET /held "):
                self.held.append(lambda answer=answer: self.out.write(answer))
            else:
                self.out.write(answer)


class Stands:
    """Servers in a thread of their own, each of which can be opened and closed."""

    def __init__(self):
        self.loop, self.asked, self.open, self.held = asyncio.new_event_loop(), {}, {}, []
        threading.Thread(target=self.loop.run_forever, daemon=True).start()

    def start(self, port):
        asked, links = self.asked.setdefault(port, []), set()
        making = self.loop.create_server(lambda: Stand(asked, links, self.held), "127.0.0.1", port)
        self.open[port] = asyncio.run_coroutine_threadsafe(making, self.loop).result(SECONDS), links

    def stop(self, port):
        """Closes a server and its connections."""

        async def close():
            server, links = self.open.pop(port)
            server.close()
            for it in [*links]:
                it.abort()

        asyncio.run_coroutine_threadsafe(close(), self.loop).result(SECONDS)

    def release(self):
        """Answers what is held."""
        for it in [*self.held]:
            self.loop.call_soon_threadsafe(it)
        self.held.clear()


def swapped(text, old, new):
    """A text with each `old`, which has to be there, as `new`."""
    if old not in text:
        raise Fault(f"deploy/nginx.conf has no {old!r}")
    return text.replace(old, new)


class Nginx:
    """A running nginx of deploy/nginx.conf, on other ports."""

    def __init__(self, program, room, stands):
        self.room, self.stands = room, stands
        self.https, self.http, self.again = (free_port() for _ in range(3))
        self.cities = {name: free_port() for name in CITIES}
        words = ["openssl", "req", "-x509", "-newkey", "ec", "-pkeyopt", "ec_paramgen_curve:P-256", "-nodes", "-days", "2"]
        words += ["-subj", "/CN=policies.example", "-keyout", f"{room}/privkey.pem", "-out", f"{room}/fullchain.pem"]
        subprocess.run(words, stderr=subprocess.DEVNULL, check=True)
        with open(f"{room}/nginx.conf", "w", encoding="utf-8") as made:
            made.write(self.configuration())
        words = [program, "-e", f"{room}/error.log", "-p", room, "-c", f"{room}/nginx.conf", "-g", "daemon off;"]
        self.process = subprocess.Popen(words, stdout=subprocess.DEVNULL, stderr=subprocess.PIPE)
        self.wait()

    def configuration(self):
        """The file as it is, on these ports and in this folder."""
        with open(f"{TOP}/deploy/nginx.conf", encoding="utf-8") as given:
            text = given.read()
        for name, port in CITIES.items():
            text = swapped(text, f"127.0.0.1:{port} ", f"127.0.0.1:{self.cities[name]} ")
        for old, new in (("127.0.0.1:8999", f"127.0.0.1:{self.again}"), ("listen 443 ", f"listen 127.0.0.1:{self.https} "),
                         ("listen 80 ", f"listen 127.0.0.1:{self.http} "), ("listen 80;", f"listen 127.0.0.1:{self.http};"),
                         ("/etc/ruffletuff/tls", self.room), ("/usr/share/ruffletuff/web", f"{TOP}/web"),
                         ("/etc/nginx/ruffletuff", self.room), ("/var/log/nginx", self.room), ("/run/nginx.pid", f"{self.room}/pid"),
                         ("user www-data;", f"user {getpass.getuser()};" if os.geteuid() == 0 else "")):
            text = swapped(text, old, new)
        kinds = ("client_body", "proxy", "fastcgi", "uwsgi", "scgi")
        return swapped(text, "http {\n", "http {\n" + "".join(f"    {it}_temp_path {self.room}/{it};\n" for it in kinds))

    def wait(self):
        """Waits until it takes connections."""
        until = time.monotonic() + SECONDS
        while time.monotonic() < until and self.process.poll() is None:
            with contextlib.suppress(OSError), socket.create_connection(("127.0.0.1", self.https), SECONDS):
                return
            time.sleep(0.05)
        self.process.kill()
        raise Fault(f"nginx doesn't run: {self.process.communicate()[1].decode(errors='replace')}")

    def stop(self):
        self.process.terminate()
        self.process.communicate(timeout=SECONDS)

    def logs(self):
        """All that is in its logs."""
        text = ""
        for name in ("ruffletuff.log", "error.log"):
            with open(f"{self.room}/{name}", encoding="utf-8", errors="replace") as log:
                text += log.read()
        return text


class Link:
    """A connection from one of the loopback's addresses, by TLS where a name is shaken hands for."""

    def __init__(self, port, name=None, source=1):
        self.socket = socket.create_connection(("127.0.0.1", port), SECONDS, (f"127.0.0.{source}", 0))
        if name:
            self.socket = TLS.wrap_socket(self.socket, server_hostname=name)
        self.stream = self.socket.makefile("rb")

    def __enter__(self):
        return self

    def __exit__(self, *_):
        self.socket.close()

    def send(self, *requests):
        self.socket.sendall(b"".join(requests))

    def answer(self):
        """The next answer: its status, fields and body."""
        head = self.stream.readline().split()
        if len(head) < 2:
            raise Fault("closed without an answer")
        fields = {}
        while (line := self.stream.readline().strip()):
            name, _, value = line.decode("latin-1").partition(":")
            fields[name.lower()] = value.strip()
        return int(head[1]), fields, self.stream.read(int(fields.get("content-length", 0)))


def request(host, target="/policies", method="GET", fields=(), body=b""):
    """A request's bytes."""
    lines = [f"{method} {target} HTTP/1.1", f"host: {host}", *fields, *([f"content-length: {len(body)}"] if body else [])]
    return "\r\n".join([*lines, "", ""]).encode() + body


def bearer(token, scheme="bearer"):
    """The field of an access token."""
    return (f"authorization: {scheme} {token}",)


def asked(nginx, host, source=1, **how):
    """One request to a city by TLS: its answer."""
    with Link(nginx.https, host, source) as link:
        link.send(request(host, **how))
        return link.answer()


def flood(nginx, source, fields):
    """Many requests from one address on several connections, each with the fields that it is given by its number: how many were answered
    with which status, and within how many seconds all were sent and answered."""
    counts, counting = {}, threading.Lock()

    def send(lane):
        with Link(nginx.https, PORTLAND, source) as link:
            for batch in range(BATCHES):
                first = (lane * BATCHES + batch) * BATCH
                link.send(*(request(PORTLAND, fields=fields(first + it)) for it in range(BATCH)))
                for _ in range(BATCH):
                    status = link.answer()[0]
                    with counting:
                        counts[status] = counts.get(status, 0) + 1

    begun = time.monotonic()
    lanes = [threading.Thread(target=send, args=(it,)) for it in range(CONNECTIONS)]
    for it in lanes:
        it.start()
    for it in lanes:
        it.join()
    return counts, time.monotonic() - begun


def limited(what, counts, seconds, of):
    """Faults of a flood that may have so many at once and a second: all beyond is refused."""
    burst, rate = of
    sent, most = BATCH * BATCHES * CONNECTIONS, burst + 1 + rate * (seconds + 0.1)
    print(f"{what}: {counts} in {seconds:.1f} s")
    if set(counts) - {200, 429} or sum(counts.values()) != sent:
        yield f"{what}: answered {counts}"
    if counts.get(200, 0) > most:
        yield f"{what}: {counts.get(200)} were let through, at most {most:.0f} may be"
    if counts.get(200, 0) < min(burst, sent):
        yield f"{what}: {counts.get(200, 0)} were let through, at least {burst} have to be"
    if sent <= most:
        yield f"{what}: {sent} requests took {seconds:.1f} s, so that none had to be refused: too slow to say"


def made_up_tokens(nginx):
    """A token that is made up for each request gives an address no more than it may have; another address goes on."""
    told = []
    beside = threading.Timer(0.3, lambda: told.append(asked(nginx, PORTLAND, source=12, fields=bearer("known"))[0]))
    beside.start()
    yield from limited("made-up tokens", *flood(nginx, 11, lambda number: bearer(f"made-up-{number}")), OF_ADDRESS)
    beside.join()
    if told != [200]:
        yield f"another address meanwhile: {told}"


def fields_that_are_no_tokens(nginx):
    """A field that can be no access token is an address's, whatever it has."""
    forms = ("basic {}", "bearer  {}", "bearer {}=", "bearer {}" + "x" * 64)
    given = lambda number: (f"authorization: {forms[number % len(forms)].format(number)}",)
    yield from limited("no tokens", *flood(nginx, 21, given), OF_TOKEN)


def one_token(nginx):
    """One access token has as much as a token may have, in whatever letter case its scheme stands."""
    schemes = ("bearer", "Bearer", "BEARER", "bEARER")
    yield from limited("one token", *flood(nginx, 31, lambda number: bearer("known", schemes[number % 4])), OF_TOKEN)


def many_connections(nginx):
    """Of one address so many requests are answered at the same time, and no more; another address goes on."""
    with contextlib.ExitStack() as stack:
        links = [stack.enter_context(Link(nginx.https, PORTLAND, 81)) for _ in range(MOST_CONNECTIONS + 1)]
        for it in links[:-1]:
            it.send(request(PORTLAND, "/held"))
        until = time.monotonic() + SECONDS
        while len(nginx.stands.held) < MOST_CONNECTIONS and time.monotonic() < until:
            time.sleep(0.05)
        links[-1].send(request(PORTLAND))
        if (status := links[-1].answer()[0]) != 429:
            yield f"one request more than {MOST_CONNECTIONS} at once: {status}"
        if (status := asked(nginx, PORTLAND, source=82)[0]) != 200:
            yield f"another address meanwhile: {status}"
        nginx.stands.release()
        if lost := [status for it in links[:-1] if (status := it.answer()[0]) != 200]:
            yield f"of {MOST_CONNECTIONS} at once: {lost}"


def in_the_clear(nginx):
    """http leads to https for a city's name, target and all, and has no answer for another name."""
    for target in ("/policies?vehicle_type=scooter&x=%2F", "//policies", "/"):
        with Link(nginx.http) as link:
            link.send(request(PORTLAND, target))
            status, fields, _ = link.answer()
        if (status, fields.get("location")) != (301, f"https://{PORTLAND}{target}"):
            yield f"http of {target}: {status} to {fields.get('location')}"
    for host in ("elsewhere.example", "127.0.0.1", f"{PORTLAND}.elsewhere.example"):
        with Link(nginx.http) as link:
            link.send(request(host))
            with contextlib.suppress(Fault, ConnectionError):
                yield f"http of {host}: answered {link.answer()}"
    if nginx.stands.asked[nginx.cities[PORTLAND]].count("GET // HTTP/1.1"):
        yield "what came in the clear reached a city"


def fields_of_answers(nginx):
    """Each answer by TLS says that the name is asked by https alone, and has the fields of its kind."""
    page = {"content-security-policy", "cache-control"}
    for what, status, more, how in (("a city's answer", 200, set(), {}), ("the page", 200, page, {"target": "/"}),
                                    ("a file of the page", 200, page, {"target": "/page.js"}),
                                    ("its settings", 200, page, {"target": "/settings.json"}),
                                    ("a long body", 413, set(), {"method": "POST", "body": b" " * (ROOM + 1)})):
        found, fields, _ = asked(nginx, PORTLAND, source=41, **how)
        yield from of_answer(what, status, found, fields, more)
    found, fields, body = asked(nginx, "nowhere.policies.example", source=41)
    yield from of_answer("a name that is no city", 404, found, fields, set())
    if body != b'{"error":"no_route"}':
        yield f"a name that is no city: {body!r}"


def of_answer(what, status, found, fields, more):
    """Faults of one answer's status and fields."""
    wanted = {"strict-transport-security": YEAR, "x-content-type-options": "nosniff", "referrer-policy": "no-referrer"}
    if found != status:
        yield f"{what}: {found}"
    for name, value in wanted.items():
        if fields.get(name) != value:
            yield f"{what}: {name} is {fields.get(name)!r}"
    if more - set(fields):
        yield f"{what}: has no {more - set(fields)}"


def names(nginx):
    """Each name is its own city's; one outside gets no handshake; targets go on as they came."""
    for host in CITIES:
        status, _, body = asked(nginx, host, source=51, target="//drafts%2F?x", fields=bearer("known"))
        told = json.loads(body) if status == 200 else {}
        if (told.get("line"), told.get("fields", {}).get("host")) != ("GET //drafts%2F?x HTTP/1.1", host):
            yield f"{host}: {status} {body!r}"
        if "GET //drafts%2F?x HTTP/1.1" not in nginx.stands.asked[nginx.cities[host]]:
            yield f"{host}: another city was asked"
    with contextlib.suppress(ssl.SSLError, ConnectionError):
        asked(nginx, "elsewhere.example", source=51)
        yield "a name outside gets a handshake"


def bodies(nginx):
    """A body at the limit goes on whole, one more is refused in the protocol's words."""
    status, _, body = asked(nginx, PORTLAND, source=61, method="POST", body=b" " * ROOM)
    if (status, json.loads(body).get("length")) != (200, ROOM):
        yield f"a body at the limit: {status} {body[:100]!r}"
    status, _, body = asked(nginx, PORTLAND, source=61, method="POST", body=b" " * (ROOM + 1))
    if (status, body) != (413, b'{"error":"too_large"}'):
        yield f"a body beyond it: {status} {body[:100]!r}"


def the_port_of_tries(nginx):
    """Who asks at the port where requests are tried again reaches a city by its name, and nothing else of the machine."""
    port = free_port()
    nginx.stands.start(port)
    trap = f"127.0.0.1:{port}"
    for host, target, more in ((trap, "/", ()), (PORTLAND, f"http://{trap}/", ()), ("localhost", "/", (f"x-city: {trap}",)),
                               ("portland", "/", ())):
        with Link(nginx.again) as link:
            link.send(request(host, target, fields=("x-request-id: 1", *more)))
            status, _, body = link.answer()
        if (status, body) != (404, b'{"error":"no_route"}'):
            yield f"host {host!r}, target {target}, {more}: {status} {body[:100]!r}"
    with Link(nginx.again) as link:
        link.send(request(PORTLAND, fields=(f"x-city: {trap}", f"x-forwarded-host: {trap}")))
        status, _, body = link.answer()
    if status != 200 or json.loads(body)["fields"]["host"] != PORTLAND:
        yield f"a city's name: {status} {body[:100]!r}"
    if nginx.stands.asked[port]:
        yield f"a port of the client's choice was asked: {nginx.stands.asked[port]}"
    nginx.stands.stop(port)


def tries_again(nginx):
    """What comes while a server is down is answered once it is there, and sent once; where it stays away, 503 after four seconds."""
    port, answers = nginx.cities[BOISE], {}

    def ask(what, **how):
        begun = time.monotonic()
        answers[what] = (*asked(nginx, BOISE, source=71, **how), time.monotonic() - begun)

    def ask_all(**kinds):
        lanes = [threading.Thread(target=ask, args=(what,), kwargs=how) for what, how in kinds.items()]
        for it in lanes:
            it.start()
        return lanes

    nginx.stands.stop(port)
    for it in (away := ask_all(away={"target": "/away"})):
        it.join()
    lanes = ask_all(read={"target": "/read"}, change={"target": "/change", "method": "POST", "body": b"{}", "fields": bearer("known")})
    time.sleep(1.5)
    nginx.stands.start(port)
    for it in (*away, *lanes):
        it.join()
    for what, line in (("read", "GET /read HTTP/1.1"), ("change", "POST /change HTTP/1.1")):
        status, _, body, seconds = answers.get(what, (0, {}, b"", 0))
        print(f"{what} while its server was away for 1.5 s: {status} after {seconds:.1f} s")
        if status != 200 or not 1.4 < seconds < 6:
            yield f"{what}: {status} {body[:100]!r} after {seconds:.1f} s"
        if nginx.stands.asked[port].count(line) != 1:
            yield f"{what}: was sent {nginx.stands.asked[port].count(line)} times"
    status, fields, body, seconds = answers.get("away", (0, {}, b"", 0))
    print(f"with no server at all: {status} after {seconds:.1f} s")
    if (status, body) != (503, b'{"error":"busy"}') or not 3 < seconds < 8:
        yield f"no server at all: {status} {body[:100]!r} after {seconds:.1f} s"
    if fields.get("strict-transport-security") != YEAR:
        yield f"no server at all: its fields are {fields}"


def logs(nginx):
    """No access token stands in a log."""
    text = nginx.logs()
    if "known" in text or "made-up-" in text:
        yield "a log has an access token"
    if PORTLAND not in text:
        yield "what was asked isn't logged"


def main():
    missing = [it for it in ("nginx", "openssl") if not packages.program(it)]
    if missing:
        packages.end_without("nginx before a server", *missing)
    passed = failed = 0
    with tempfile.TemporaryDirectory(prefix="nginx-") as room:
        stands = Stands()
        nginx = Nginx(packages.program("nginx"), room, stands)
        try:
            for port in nginx.cities.values():
                stands.start(port)
            for test in (names, bodies, in_the_clear, fields_of_answers, the_port_of_tries, made_up_tokens, fields_that_are_no_tokens,
                         one_token, many_connections, tries_again):
                faults = list(found(test, nginx))
                passed, failed = passed + (not faults), failed + bool(faults)
        finally:
            nginx.stop()
        faults = list(found(logs, nginx))
        passed, failed = passed + (not faults), failed + bool(faults)
    print(packages.count(passed, failed))
    return 1 if failed else 0


def found(test, nginx):
    """The faults of a test, which are printed."""
    try:
        for fault in test(nginx):
            print(f"{test.__name__}: {fault}")
            yield fault
    except (OSError, ValueError, KeyError, Fault) as fault:
        print(f"{test.__name__}: {fault!r}")
        yield fault


if __name__ == "__main__":
    try:
        sys.exit(main())
    except (Fault, OSError, subprocess.SubprocessError) as fault:
        print(fault)
        print(packages.count(0, 1))
        sys.exit(1)
