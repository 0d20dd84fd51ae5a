#!/usr/bin/env python3
"""The control port of a built ruffletuff: who may ask, who waits for whom, and where it listens.

    control.py PROGRAM

Expects of a server at 127.0.0.1, at every address, with a name of its own, and at a Unix socket: who names its address, localhost or that
name is answered; a 405, and no other answer, names the methods that its path takes; HEAD is answered as GET, without the body; another host,
an Origin or a Sec-Fetch-Site is refused with 403, and stops nothing; none or several hosts are 400; a head is answered as soon as it ends,
by line feeds alone too, and a connection whose head doesn't end is closed in its time; beside 50 and beside 200 connections that say nothing
the health is told within 100 ms; a Unix socket is its owner's alone, and takes the place of one that was left behind, and of nothing else;
`ruffletuff stop` ends the server beside idle connections too; curl is answered; and a page of another origin, in Chromium, neither reads it
nor stops it. What wants a package that isn't there is left out, which a line names (packages.py). Prints what is otherwise, and last
'N passed, M failed'; ends with 1 where one failed.
"""

import contextlib
import os
import signal
import socket
import stat
import statistics
import subprocess
import sys
import tempfile
import threading
import time

import packages
from kept import END_SECONDS, TELLS_EVERYONE, Tried, ended
from wire import AUTHOR, SECONDS, SLOWNESS, Link, Server, configuration, first_line, free_port

# http.py, beside this file, hides the library's package of that name.
PLACES, HERE = sys.path[:], os.path.dirname(os.path.abspath(__file__))
sys.path[:] = [it for it in PLACES if os.path.abspath(it) != HERE]
import http.server  # noqa: E402

sys.path[:] = PLACES

# Within how long the health is told beside connections that say nothing, how often that is asked, and how many may take longer.
AT_MOST, ASKED, LATE_ONES = 0.100 * SLOWNESS, 20, 1
# How long a head may take, and by how much the port may be late to see it.
HEAD_SECONDS, LATE = 5, 2 * SLOWNESS
# What is answered at once doesn't wait for a deadline.
AT_ONCE = 2 * SLOWNESS
LOCAL, EVERYWHERE, SOCKET = "127.0.0.1:{port}", "0.0.0.0:{port}", "unix:{room}/control"
NAME = "control.city.example"
HEALTHY, MALFORMED, FORBIDDEN = (200, b"ok\n"), (400, b"bad request\n"), (403, b"forbidden\n")
# What a page of another origin has in Chromium: without a window, and with a name that leads to this machine.
REBOUND = "rebound.example"
FLAGS = ["--headless", "--no-sandbox", "--disable-gpu", "--no-first-run", "--disable-extensions", "--disable-background-networking"]
FLAGS += ["--disable-component-update", "--disable-sync", "--disable-dev-shm-usage", f"--host-resolver-rules=MAP {REBOUND} 127.0.0.1"]


class Socket(Link):
    """A connection to a Unix socket."""

    def __init__(self, path):
        self.socket, self.kept = socket.socket(socket.AF_UNIX, socket.SOCK_STREAM), b""
        self.socket.settimeout(SECONDS)
        self.socket.connect(path)


class Controlled(Server):
    """The program, serving a folder of its own, with a control port."""

    def __init__(self, program, address=LOCAL, name=None, room=None):
        self.program, self.own = program, room is None and tempfile.TemporaryDirectory(prefix="control-")
        self.room = room or self.own.name
        self.port, self.control, self.name = free_port(), free_port(), name
        self.address = address.format(port=self.control, room=self.room)
        file = os.path.join(self.room, "city.json")
        with open(file, "wb") as text:
            text.write(configuration())
        words = ["--config", file, "--state", os.path.join(self.room, "city"), "--listen", f"127.0.0.1:{self.port}"]
        words += ["--control", self.address, *(["--control-host", name] if name else [])]
        streams = {"stdin": subprocess.DEVNULL, "stdout": subprocess.PIPE, "stderr": subprocess.PIPE}
        self.process = subprocess.Popen([program, "serve", *words], **streams)
        self.ended, self.ready = None, first_line(self.process.stdout)
        if self.ready == TELLS_EVERYONE:
            self.ready = first_line(self.process.stdout)

    def __enter__(self):
        super().__enter__()
        until = time.monotonic() + SECONDS
        while self.told("GET", "/healthz", "host: localhost") != HEALTHY and time.monotonic() < until:
            time.sleep(0.05)
        return self

    def stop(self):
        found = super().stop()
        if self.own:
            self.own.cleanup()
        return found

    def path(self):
        """Where its Unix socket is."""
        return os.path.join(self.room, "control")

    def dial(self, host="127.0.0.1"):
        """A connection to its control port."""
        if self.address.startswith("unix:"):
            return Socket(self.path())
        link = Link(self.control)
        if host != "127.0.0.1":
            link.socket.close()
            link.socket = socket.create_connection((host, self.control), SECONDS)
        return link

    def reply(self, head, host="127.0.0.1", method="GET"):
        """What is answered to these bytes, which are a request of this method."""
        with self.dial(host) as link:
            link.send(head)
            return link.answer(method)

    def text(self, head):
        """All bytes that are answered to these, up to the end of the connection."""
        with self.dial() as link:
            link.send(head)
            return b"".join(iter(lambda: link.socket.recv(65536), b""))

    def answer(self, head, host="127.0.0.1"):
        """The status and the text that are answered to these bytes."""
        found = self.reply(head, host)
        return found.status, found.body

    def told(self, method, path, *fields, version="1.1", host="127.0.0.1"):
        """The status and the text that are answered to a request with these fields."""
        lines = [f"{method} {path} HTTP/{version}", *fields, "", ""]
        return self.answer("\r\n".join(lines).encode(), host)

    def is_there(self):
        """Whether it still serves: its faults."""
        if (found := self.told("GET", "/healthz", "host: localhost")) != HEALTHY:
            yield f"its health is {found}"
        if self.process.poll() is not None or self.ask("GET", "/policies", AUTHOR).status != 200:
            yield "it has stopped"

    def stops(self):
        """Has it stopped by the program: its faults."""
        begun = time.monotonic()
        if (found := ended(self.program, "stop", self.address)) != (0, b"", b""):
            yield f"stop {self.address} ends with {found}"
            return
        out, err = self.process.communicate(timeout=END_SECONDS)
        self.ended = self.process.returncode, out, err
        if self.ended != (0, b"", b""):
            yield f"stopped, it ends with {self.ended}"
        if (took := time.monotonic() - begun) > HEAD_SECONDS * SLOWNESS:
            yield f"it takes {took:.1f} s to stop"


def who_names_it_is_answered(program):
    """Its address, localhost and its own name, with the port or without it, in any case of letters."""
    with Controlled(program, name=NAME) as server:
        port = server.control
        hosts = ["127.0.0.1", f"127.0.0.1:{port}", "localhost", f"localhost:{port}", "LocalHost", NAME, f"{NAME.upper()}:{port}"]
        for host in [*hosts, "localhost \t"]:
            for field in (f"host: {host}", f"HOST:{host}"):
                if (found := server.told("GET", "/healthz", field)) != HEALTHY:
                    yield f"{field!r}: {found}"
        if (found := server.told("GET", "/metrics", "host: localhost"))[0] != 200 or b"\nruffletuff_revision " not in found[1]:
            yield f"its metrics are {found}"
        for path, method in (("/stop", "GET"), ("/metrics", "POST"), ("/healthz", "PUT")):
            if (found := server.told(method, path, "host: localhost", "connection: close"))[0] != 405:
                yield f"{method} {path}: {found}"
        yield from server.stops()


def another_method_is_told_the_right_one(program):
    """Each 405 names the methods that its path takes (RFC 9110, section 15.5.6), and no other answer does."""
    with Controlled(program) as server:
        cases = [(it, "/healthz", 405, ["GET, HEAD"]) for it in ("POST", "PUT", "OPTIONS", "get", "GETS", "head", "HEADS")]
        cases += [(it, "/metrics", 405, ["GET, HEAD"]) for it in ("POST", "DELETE", "OPTIONS", "Get")]
        cases += [(it, "/stop", 405, ["POST"]) for it in ("GET", "HEAD", "PUT", "OPTIONS", "post", "POS")]
        cases += [("GET", "/healthz", 200, None), ("GET", "/metrics", 200, None), ("PUT", "/lost", 404, None)]
        for method, path, status, allow in cases:
            found = server.reply(f"{method} {path} HTTP/1.1\r\nhost: localhost\r\n\r\n".encode(), method=method)
            if (found.status, found.fields.get("allow")) != (status, allow):
                yield f"{method} {path}: {found}, allow {found.fields.get('allow')}"
        yield from server.is_there()


def a_head_is_answered_as_get_without_a_body(program):
    """The same status and fields, and nothing behind them (RFC 9110, section 9.3.2), also where it is refused."""
    with Controlled(program) as server:
        for path, fields in (("/healthz", "host: localhost"), ("/metrics", "host: localhost"), ("/stop", "host: localhost"), ("/", "host: evil")):
            read, bare = (server.text(f"{method} {path} HTTP/1.1\r\n{fields}\r\n\r\n".encode()) for method in ("GET", "HEAD"))
            if not bare.endswith(b"\r\n\r\n") or read.partition(b"\r\n\r\n")[0] != bare.removesuffix(b"\r\n\r\n"):
                yield f"HEAD {path}: {bare[:200]!r}, and GET: {read[:200]!r}"
        yield from server.is_there()


def who_names_another_is_refused(program):
    """Other hosts: nothing is told them, and nothing is stopped."""
    with Controlled(program, name=NAME) as server:
        port = server.control
        hosts = ["", "evil.example", f"evil.example:{port}", f"127.0.0.1:{port + 1}", "127.0.0.1:", "127.0.0.2", f"[::1]:{port}"]
        hosts += ["localhost.evil.example", f"{NAME}.", f"sub.{NAME}", f"127.0.0.1:{port}, evil.example", "localhost:0"]
        for host in hosts:
            for method, path in (("GET", "/healthz"), ("GET", "/metrics"), ("POST", "/stop"), ("GET", "/lost")):
                if (found := server.told(method, path, f"host: {host}")) != FORBIDDEN:
                    yield f"{method} {path} of {host!r}: {found}"
        yield from server.is_there()


def pages_are_refused(program):
    """What a page sends has fields that no page can leave out."""
    with Controlled(program, name=NAME) as server:
        own = f"http://127.0.0.1:{server.control}"
        fields = ["origin: http://evil.example", "Origin: null", f"ORIGIN: {own}", "origin:", "Sec-Fetch-Site: cross-site"]
        for field in [*fields, "sec-fetch-site: same-origin", "SEC-FETCH-SITE: none"]:
            for method, path in (("GET", "/healthz"), ("GET", "/metrics"), ("POST", "/stop"), ("OPTIONS", "/stop")):
                if (found := server.told(method, path, "host: localhost", field)) != FORBIDDEN:
                    yield f"{method} {path} with {field!r}: {found}"
                if (found := server.told(method, path, field, "host: localhost")) != FORBIDDEN:
                    yield f"{method} {path} with {field!r} first: {found}"
        yield from server.is_there()


def one_host_is_wanted(program):
    """A request of HTTP/1.1 has one Host, and one of HTTP/1.0 may have none."""
    with Controlled(program) as server:
        one, other = "host: localhost", "Host: evil.example"
        cases = [((), "1.1", MALFORMED), ((one, one), "1.1", MALFORMED), ((one, other), "1.1", MALFORMED), ((other, one), "1.0", MALFORMED)]
        cases += [((), "1.0", HEALTHY), ((one,), "1.0", HEALTHY), ((other,), "1.0", FORBIDDEN)]
        for fields, version, wanted in cases:
            if (found := server.told("GET", "/healthz", *fields, version=version)) != wanted:
                yield f"HTTP/{version} with {fields}: {found}"
        yield from server.is_there()


def at_every_address(program):
    """One that listens at every address goes by that at which it was reached."""
    with Controlled(program, EVERYWHERE) as server:
        for reached in ("127.0.0.1", "127.0.0.2"):
            for host in (reached, f"{reached}:{server.control}", "localhost", f"0.0.0.0:{server.control}"):
                if (found := server.told("GET", "/healthz", f"host: {host}", host=reached)) != HEALTHY:
                    yield f"{host!r} at {reached}: {found}"
            if (found := server.told("GET", "/healthz", "host: 10.0.0.1", host=reached)) != FORBIDDEN:
                yield f"another host at {reached}: {found}"
        yield from server.stops()


def a_head_is_answered_when_it_ends(program):
    """By CR LF or LF, however it comes; what becomes no head is 400."""
    with Controlled(program) as server:
        ask, host = "GET /healthz HTTP/1.1", "host: localhost"
        heads = [f"{ask}\n{host}\n\n", f"{ask}\r\n{host}\n\n", f"{ask}\n{host}\r\n\r\n", f"\r\n{ask}\r\n{host}\r\n\r\n"]
        broken = ["GET\r\n\r\n", f"{ask}\r\nno colon\r\n\r\n", f"{ask}\r\n{host}\r\na: {'x' * 10_000}", f"{ask}\r\n" + "a: b\r\n" * 65]
        for head, wanted in [*((it, HEALTHY) for it in heads), *((it, MALFORMED) for it in broken)]:
            begun = time.monotonic()
            if (found := server.answer(head.encode())) != wanted:
                yield f"{head[:40]!r}: {found}"
            if (took := time.monotonic() - begun) > AT_ONCE:
                yield f"{head[:40]!r} takes {took:.1f} s"
        with server.dial() as link:
            for byte in heads[0].encode():
                link.send(bytes([byte]))
            if (found := link.answer()).status != 200 or link.rest():
                yield f"byte by byte: {found}"


def a_head_that_does_not_end(program):
    """Its connection is closed in its time, whether something comes or not."""
    with Controlled(program) as server, contextlib.ExitStack() as links:
        idle, slow = (links.enter_context(server.dial()) for _ in range(2))
        begun = time.monotonic()
        while time.monotonic() - begun < HEAD_SECONDS - 1:
            slow.send(b"G")
            time.sleep(0.5)
        for name, link in (("one that says nothing", idle), ("one that says a byte now and then", slow)):
            if behind := link.rest():
                yield f"{name} is told {behind[:80]!r}"
            if not HEAD_SECONDS - 1 < (took := time.monotonic() - begun) < HEAD_SECONDS + LATE:
                yield f"{name} is closed after {took:.1f} s"


def the_health_beside_idle_connections(program):
    """It is told at once, however many say nothing, and so is the end."""
    with Controlled(program) as server, contextlib.ExitStack() as links:
        for count in (50, 200):
            times = []
            for _ in range(count):
                links.enter_context(server.dial())
            for _ in range(ASKED):
                begun = time.monotonic()
                if (found := server.told("GET", "/healthz", "host: localhost")) != HEALTHY:
                    yield f"beside {count} the health is {found}"
                times.append(time.monotonic() - begun)
            if sum(it > AT_MOST for it in times) > LATE_ONES:
                yield f"beside {count} the health takes {1e3 * statistics.median(times):.0f} ms, {1e3 * max(times):.0f} ms at most"
        yield from server.stops()


def at_a_socket(program):
    """A Unix socket is its owner's alone; whatever the host, but to no page."""
    with Controlled(program, SOCKET) as server:
        mode = os.stat(server.path()).st_mode
        if not stat.S_ISSOCK(mode) or stat.S_IMODE(mode) != 0o600:
            yield f"its socket has the mode {mode:o}"
        for fields in ((), ("host: localhost",), ("host: evil.example",)):
            if (found := server.told("GET", "/healthz", *fields)) != HEALTHY:
                yield f"with {fields}: {found}"
        for field in ("origin: null", "sec-fetch-site: none"):
            if (found := server.told("POST", "/stop", "host: localhost", field)) != FORBIDDEN:
                yield f"with {field!r}: {found}"
        with tempfile.TemporaryDirectory() as room:
            yield from not_listened_at(program, room, server.path())
        yield from server.is_there()
        yield from server.stops()


def not_listened_at(program, room, path):
    """Nothing is served where somebody listens, or where another file is: the faults of it."""
    file = os.path.join(room, "city.json")
    with open(file, "wb") as text:
        text.write(configuration())
    words = ("serve", "--config", file, "--state", os.path.join(room, "city"), "--listen", "127.0.0.1:0", "--control", f"unix:{path}")
    if (found := ended(program, *words)) != (1, b"", f"ruffletuff: nothing can be listened to for control: unix:{path}\n".encode()):
        yield f"at {path} it ends with {found}"


def what_lies_at_its_path(program):
    """A socket that was left behind is replaced, and another file stays what it is."""
    with tempfile.TemporaryDirectory() as room, tempfile.TemporaryDirectory() as other:
        with Controlled(program, SOCKET, room=room) as server:
            server.process.send_signal(signal.SIGKILL)
            server.process.wait(SECONDS)
        if not os.path.exists(os.path.join(room, "control")):
            yield "killed, it left no socket behind"
        with Controlled(program, SOCKET, room=room) as server:
            yield from server.is_there()
            yield from server.stops()
        kept = os.path.join(other, "control")
        with open(kept, "wb") as text:
            text.write(b"kept")
        yield from not_listened_at(program, other, kept)
        with open(kept, "rb") as text:
            if text.read() != b"kept":
                yield "a file was written over"
        if (found := ended(program, "stop", f"unix:{other}/none"))[:2] != (1, b""):
            yield f"where nothing is, stop ends with {found}"


def curl_is_answered(program):
    """curl and systemd's units ask as they always did."""
    asked = ["curl", "-sS", "--max-time", str(SECONDS)]
    with Controlled(program) as server:
        url = f"http://127.0.0.1:{server.control}"
        cases = [(("-f", f"{url}/healthz"), 0, b"ok\n"), (("-o", os.devnull, "-w", "%{http_code}", f"{url}/metrics"), 0, b"200")]
        cases += [(("-o", os.devnull, "-w", "%{http_code}", "-H", "Origin: null", f"{url}/healthz"), 0, b"403")]
        cases += [(("-f", "-X", "POST", f"{url}/stop"), 0, b"stopping\n")]
        yield from asks_by(asked, cases)
        if server.process.wait(END_SECONDS) != 0:
            yield "stopped by curl it ends otherwise than well"
    with Controlled(program, SOCKET) as server:
        yield from asks_by(asked, [(("-f", "--unix-socket", server.path(), "http://localhost/healthz"), 0, b"ok\n")])


def asks_by(program, cases):
    """What a program prints that asks, and its status: the faults of it."""
    for words, status, wanted in cases:
        found = subprocess.run([*program, *words], stdout=subprocess.PIPE, timeout=END_SECONDS, check=False)
        if (found.returncode, found.stdout) != (status, wanted):
            yield f"{' '.join(words)}: {found.returncode}, {found.stdout[:80]!r}"


# A page that asks for what isn't its own, in each way that it has, and then tells its server what it read.
PAGE = """<!doctype html><title>elsewhere</title><iframe name="inner"></iframe>
<form target="inner" method="post" action="CONTROL/stop"></form><script>
const read = [];
const note = (it) => read.push(it);
const text = async (path, how) => note(await (await fetch(`CONTROL${path}`, how)).text());
const each = [["/stop", {method: "POST", mode: "no-cors"}], ["/stop", {method: "POST"}], ["/metrics", {}], ["/metrics", {mode: "no-cors"}]];
const done = Promise.allSettled([...each.map(([path, how]) => text(path, how)), navigator.sendBeacon("CONTROL/stop", "x")]);
document.forms[0].submit();
done.then(() => setTimeout(() => fetch("/read", {method: "POST", body: read.join("|")}), 1000));
</script>"""


class Elsewhere(http.server.ThreadingHTTPServer):
    """A page of another origin, and what it read of a control port."""

    def __init__(self, control):
        super().__init__(("127.0.0.1", 0), Visit)
        self.page, self.read, self.is_read = PAGE.replace("CONTROL", control), None, threading.Event()
        threading.Thread(target=self.serve_forever, daemon=True).start()


class Visit(http.server.BaseHTTPRequestHandler):
    """A request of a browser for that page."""

    def give(self, body):
        self.send_response(200)
        self.send_header("content-type", "text/html")
        self.send_header("content-length", str(len(body)))
        self.end_headers()
        self.wfile.write(body)

    def do_GET(self):
        self.give(self.server.page.encode())

    def do_POST(self):
        self.server.read = self.rfile.read(int(self.headers["content-length"])).decode()
        self.give(b"")
        self.server.is_read.set()

    def log_message(self, *_):
        pass


@contextlib.contextmanager
def chromium(url, *words):
    """Chromium with a page, as long as it is wanted."""
    with tempfile.TemporaryDirectory(ignore_cleanup_errors=True) as folder:
        program = [packages.program(os.environ.get("CHROMIUM", "chromium")), *FLAGS, f"--user-data-dir={folder}", *words, url]
        running = subprocess.Popen(program, stdin=subprocess.DEVNULL, stdout=subprocess.PIPE, stderr=subprocess.DEVNULL)
        try:
            yield running
        finally:
            running.kill()
            running.communicate()


def a_page_of_another_origin(program):
    """In a browser it neither reads what is told here nor stops the server, also by a name that leads to this machine."""
    with Controlled(program) as server:
        for host in ("127.0.0.1", "localhost", REBOUND):
            with Elsewhere(f"http://{host}:{server.control}") as page:
                with chromium(f"http://127.0.0.1:{page.server_address[1]}/", "--remote-debugging-port=0"):
                    if not page.is_read.wait(END_SECONDS):
                        yield f"the page that asks {host} isn't through"
                page.shutdown()
            if page.read and page.read.strip("|"):
                yield f"of {host} it read {page.read[:80]!r}"
            yield from server.is_there()
        with chromium(f"http://{REBOUND}:{server.control}/metrics", "--dump-dom") as shown:
            found = shown.communicate(timeout=END_SECONDS)[0]
        if b"ruffletuff" in found or b"forbidden" not in found:
            yield f"by the name {REBOUND} its page is {found[:80]!r}"
        yield from server.is_there()


ALWAYS = [
    who_names_it_is_answered,
    another_method_is_told_the_right_one,
    a_head_is_answered_as_get_without_a_body,
    who_names_another_is_refused,
    pages_are_refused,
    one_host_is_wanted,
    at_every_address,
    a_head_is_answered_when_it_ends,
    a_head_that_does_not_end,
    the_health_beside_idle_connections,
    at_a_socket,
    what_lies_at_its_path,
]
WITH = {curl_is_answered: "curl", a_page_of_another_origin: "chromium"}


def main():
    if len(sys.argv) != 2:
        sys.exit(__doc__)
    program, found = os.path.abspath(sys.argv[1]), Tried()
    for call in ALWAYS:
        found.one(call.__name__.replace("_", " "), call(program))
    for call, wanted in WITH.items():
        if packages.program(os.environ.get(wanted.upper(), wanted)):
            found.one(call.__name__.replace("_", " "), call(program))
        else:
            found.add(*packages.leave_out(call.__name__.replace("_", " "), wanted))
    return found.told()


if __name__ == "__main__":
    sys.exit(main())
