"""What the tests of a server send and receive by: connections, responses by the grammar of RFC 9112, and the program, running."""

import contextlib
import fcntl
import os
import random
import re
import resource
import selectors
import socket
import struct
import subprocess
import tempfile
import time

# How many times as long as for the proved program, with the machine for itself, is waited for one that isn't proved, which is slower
# (tests/unproved.py), or that others run beside.
PATIENCE = int(os.environ.get("PATIENCE", "1"))
# How many times as slow as the proved program it is itself, where that isn't the same: so much less it is sent, and so much longer may what
# is judged take. The proved one is sent all and judged by the same bounds, whatever runs beside.
SLOWNESS = int(os.environ.get("SLOWNESS", str(PATIENCE)))
SECONDS = 10 * PATIENCE  # for anything that has no deadline of its own

AUTHOR, FIRST, SECOND = "city", "alfa", "bravo"


def identifier(kind, number):
    """A UUID of a kind of things."""
    return f"00000000-0000-4000-8000-{kind:04x}{number:08x}"


def configuration(limit=2):
    entries = ",".join(
        f'{{"id":"{identifier(0, n)}","limit":{limit},"token":"{token}"}}' for n, token in ((0xA1, FIRST), (0xB1, SECOND))
    )
    return f'{{"author":"{AUTHOR}","operators":[{entries}],"zone":"Z"}}\n'.encode()


def report(number, timestamp=2000):
    """A report of a vehicle at 5 degrees north, 5 degrees east."""
    return (
        f'{{"device_id":"{identifier(4, number)}","vehicle_type":"scooter","vehicle_state":"available",'
        f'"timestamp":{timestamp},"location":{{"lat":5,"lng":5}}}}'
    ).encode()


class Answer:
    """One response: its status, header fields by their names in lower case, and body."""

    def __init__(self, version, status, fields, body):
        self.version, self.status, self.fields, self.body = version, status, fields, body

    def __repr__(self):
        return f"{self.status} {self.body[:80].decode('latin-1')}"

    def is_by_the_server(self, status, body):
        """Whether it is the application's own answer, in its form."""
        fields = self.fields
        form = fields.get("content-type") == ["application/json"] and len(fields.get("date", [])) == 1
        return form and self.status == status and self.body == body


class Closed(Exception):
    """The connection was closed before the end of a response."""


class Link:
    """A connection."""

    def __init__(self, port, receive=None):
        self.socket = socket.socket(socket.AF_INET, socket.SOCK_STREAM)
        if receive:
            self.socket.setsockopt(socket.SOL_SOCKET, socket.SO_RCVBUF, receive)
        self.socket.settimeout(SECONDS)
        self.socket.connect(("127.0.0.1", port))
        self.socket.setsockopt(socket.IPPROTO_TCP, socket.TCP_NODELAY, 1)
        self.kept = b""

    def __enter__(self):
        return self

    def __exit__(self, *_):
        self.socket.close()

    def send(self, data):
        """Sends all that the other end takes; one that has closed, or takes no more, answers for itself."""
        with contextlib.suppress(ConnectionError, TimeoutError):
            self.socket.sendall(data)

    def half_close(self):
        with contextlib.suppress(OSError):
            self.socket.shutdown(socket.SHUT_WR)

    def reset(self):
        """Closes without a word."""
        self.socket.setsockopt(socket.SOL_SOCKET, socket.SO_LINGER, struct.pack("ii", 1, 0))
        self.socket.close()

    def more(self):
        try:
            data = self.socket.recv(65536)
        except ConnectionError:
            data = b""
        if not data:
            raise Closed(self.kept[:80])
        self.kept += data

    def until(self, mark):
        while mark not in self.kept:
            self.more()
        text, _, self.kept = self.kept.partition(mark)
        return text

    def exactly(self, count):
        while len(self.kept) < count:
            self.more()
        data, self.kept = self.kept[:count], self.kept[count:]
        return data

    def answer(self, method="GET"):
        """The next response, by the grammar of RFC 9112."""
        head = self.until(b"\r\n\r\n").split(b"\r\n")
        line = re.fullmatch(rb"HTTP/(1\.[01]) ([1-5]\d\d) [\t -~]*", head[0])
        if not line:
            raise ValueError(f"no status line: {head[0][:80]!r}")
        fields = {}
        for field in head[1:]:
            parts = re.fullmatch(rb"([!#$%&'*+.^_`|~0-9A-Za-z-]+):[ \t]*([\t -~]*?)[ \t]*", field)
            if not parts:
                raise ValueError(f"no header field: {field[:80]!r}")
            fields.setdefault(parts[1].decode().lower(), []).append(parts[2].decode())
        return Answer(line[1].decode(), int(line[2]), fields, self.body(int(line[2]), fields, method))

    def body(self, status, fields, method):
        if status < 200 or status in (204, 304) or method == "HEAD":
            return b""
        if "transfer-encoding" not in fields:
            lengths = fields.get("content-length", [])
            if len(lengths) != 1 or not lengths[0].isdigit():
                raise ValueError(f"a response whose length is {lengths}")
            return self.exactly(int(lengths[0]))
        body = b""
        while size := int(self.until(b"\r\n"), 16):
            body += self.exactly(size)
            self.until(b"\r\n")
        while self.until(b"\r\n"):
            pass
        return body

    def rest(self):
        """What still comes until the other end closes."""
        with contextlib.suppress(Closed):
            while True:
                self.more()
        return self.kept


class Server:
    """The program, running."""

    def __init__(self, program, given=None, arguments=(), limit=2):
        self.port = free_port()
        self.process = subprocess.Popen(
            [program, f"127.0.0.1:{self.port}", *arguments], stdin=subprocess.PIPE, stdout=subprocess.PIPE, stderr=subprocess.PIPE
        )
        self.ended = None
        # Standard input stays open: the configuration ends with its line.
        with contextlib.suppress(BrokenPipeError):
            self.process.stdin.write(given or configuration(limit))
            self.process.stdin.flush()
        self.ready = first_line(self.process.stdout)

    def __enter__(self):
        if self.ready != b"ready\n":
            self.stop()
            raise ValueError(f"the program isn't ready: it printed {self.ready!r}")
        return self

    def __exit__(self, *_):
        self.stop()

    def stop(self):
        """Ends it; its status where it had ended before, what it printed behind 'ready', and its standard error."""
        if self.ended is None:
            status = self.process.poll()
            self.process.kill()
            out, err = self.process.communicate()
            self.ended = status, out, err
        return self.ended

    def link(self, **options):
        return Link(self.port, **options)

    def ask(self, method, target, token=FIRST, body=b""):
        """The answer to one request on a new connection."""
        with self.link() as link:
            link.send(request(method, target, token, body))
            return link.answer(method)


def may_open(count):
    """Lets this process, and those that it starts, have so many files open, or as many as may be; how many that is."""
    _, most = resource.getrlimit(resource.RLIMIT_NOFILE)
    allowed = count if most == resource.RLIM_INFINITY else min(count, most)
    resource.setrlimit(resource.RLIMIT_NOFILE, (allowed, most))
    return allowed


def free_port():
    """A port that nobody listens at, below those of which the system gives one to each connection: so no connection takes it meanwhile.

    Nor does another test: the last number that was given stands in a file that all tests of a user share, and numbers go round. A program
    that another thread starts meanwhile has a copy of the probe until it is executed, so the probe is one beside which can be listened.
    """
    first, last = 10_000, 31_999
    name = os.path.join(tempfile.gettempdir(), f"ruffletuff-test-ports-{os.getuid()}")
    counter = os.open(name, os.O_RDWR | os.O_CREAT | os.O_NOFOLLOW | os.O_CLOEXEC, 0o600)
    with open(counter, "r+", encoding="ascii") as given:
        fcntl.flock(given, fcntl.LOCK_EX)
        text = given.read()
        port = int(text) if text.isdigit() and first <= int(text) <= last else random.SystemRandom().randint(first, last)
        while True:
            port = port + 1 if port < last else first
            with socket.socket() as probe, contextlib.suppress(OSError):
                probe.setsockopt(socket.SOL_SOCKET, socket.SO_REUSEADDR, 1)
                probe.bind(("127.0.0.1", port))
                given.seek(0)
                given.truncate()
                given.write(str(port))
                return port


def first_line(stream):
    """The first line of a stream, or what came of it in time."""
    with selectors.DefaultSelector() as selector:
        selector.register(stream, selectors.EVENT_READ)
        text = b""
        until = time.monotonic() + 3 * SECONDS
        while not text.endswith(b"\n") and selector.select(max(0, until - time.monotonic())):
            byte = os.read(stream.fileno(), 1)
            if not byte:
                break
            text += byte
        return text


def request(method, target, token=FIRST, body=b"", lines=()):
    """A plain request."""
    head = [f"{method} {target} HTTP/1.1", "host: x", f"authorization: Bearer {token}", *lines]
    if body or method in ("PUT", "POST"):
        head.append(f"content-length: {len(body)}")
    return "".join(f"{it}\r\n" for it in head).encode() + b"\r\n" + body
