#!/usr/bin/env python3
"""A city's journal in etcd: `ruffletuff seed`, `status` and `fetch` against a cluster of three members on loopback.

    cluster.py PROGRAM

Starts Debian's etcd (etcd-server), with data and ports of its own, and ends it. Expects: of a city that isn't there `status` says so, and
nothing is fetched; what is seeded is fetched back byte for byte, a journal of one record and one of some megabytes, in chunks of at most
256 KB; no journal is written over a folder's journal, nor over a city's; `check` reads what was fetched; beside members that don't listen, that
don't answer and that die, the others are asked; where a member's reply is lost, the same is sent again and counts once; what isn't a journal,
or is held by another program, isn't seeded; and of users, each does what its role grants, by a token that is asked for. Prints what is
otherwise, and last 'N passed, M failed'; ends with 1 where one failed.
"""

import base64
import contextlib
import fcntl
import json
import os
import shutil
import socket
import subprocess
import sys
import tempfile
import threading
import time

import packages
import records
from kept import Tried, ended
from wire import PATIENCE, SECONDS, free_port

# http.py, beside this file, hides the library's package of that name.
PLACES, HERE = sys.path[:], os.path.dirname(os.path.abspath(__file__))
sys.path[:] = [it for it in PLACES if os.path.abspath(it) != HERE]
import http.client  # noqa: E402

sys.path[:] = PLACES

REAL = os.path.join(HERE, "..", "crates", "ruffletuff", "data", "city", "journal")
MOST_CHUNK = 262_144
START_SECONDS = 3 * SECONDS
# Bytes of the longest journal that is seeded. A program that isn't proved is slower, and has the same time for an answer.
LONG = (5 << 20) // PATIENCE**2
STATUS = {"done": 0, "silent": 1, "wrong": 2, "unusable": 4, "damaged": 5, "refused": 9, "barred": 10}


def encoded(text):
    return base64.b64encode(text.encode()).decode()


class Cluster:
    """Members of one etcd, on loopback."""

    def __init__(self, count=3):
        self.room = tempfile.mkdtemp(prefix="etcd-")
        self.ports = [free_port() for _ in range(count)]
        self.peers = [free_port() for _ in range(count)]
        self.members = [None] * count

    def start(self, number):
        name, port, peer = f"m{number}", self.ports[number], self.peers[number]
        all_of = ",".join(f"m{it}=http://127.0.0.1:{at}" for it, at in enumerate(self.peers))
        words = ["--name", name, "--data-dir", f"{self.room}/{name}", "--initial-cluster", all_of, "--snapshot-count", "5000"]
        words += ["--listen-client-urls", f"http://127.0.0.1:{port}", "--advertise-client-urls", f"http://127.0.0.1:{port}"]
        words += ["--listen-peer-urls", f"http://127.0.0.1:{peer}", "--initial-advertise-peer-urls", f"http://127.0.0.1:{peer}"]
        words += ["--bcrypt-cost", "4"]
        with open(f"{self.room}/{name}.log", "ab") as log:
            self.members[number] = subprocess.Popen([packages.program("etcd"), *words], stdin=subprocess.DEVNULL, stdout=log, stderr=log)

    def __enter__(self):
        for number in range(len(self.ports)):
            self.start(number)
        for port in self.ports:
            self.await_health(port)
        return self

    def __exit__(self, *_):
        for number in range(len(self.ports)):
            self.kill(number)
        shutil.rmtree(self.room, ignore_errors=True)

    def kill(self, number):
        if self.members[number]:
            self.members[number].kill()
            self.members[number].wait(SECONDS)
            self.members[number] = None

    def await_health(self, port):
        until = time.monotonic() + START_SECONDS
        while time.monotonic() < until:
            with contextlib.suppress(OSError, http.client.HTTPException):
                link = http.client.HTTPConnection("127.0.0.1", port, timeout=2 * PATIENCE)
                link.request("GET", "/health")
                if json.loads(link.getresponse().read()).get("health") == "true":
                    return
            time.sleep(0.1)
        raise ValueError(f"etcd isn't healthy at port {port}")

    def asked(self, path, body, token=None):
        """What a member answers."""
        link = http.client.HTTPConnection("127.0.0.1", self.ports[0], timeout=SECONDS)
        link.request("POST", path, json.dumps(body), {"authorization": token} if token else {})
        answer = link.getresponse()
        found = answer.read()
        if answer.status != 200:
            raise ValueError(f"{path} is answered with {answer.status} {found[:200]!r}")
        return json.loads(found)

    def values(self, prefix):
        """Each key below a prefix with its value."""
        found = self.asked("/v3/kv/range", {"key": encoded(prefix), "range_end": encoded(prefix[:-1] + chr(ord(prefix[-1]) + 1))})
        return {base64.b64decode(it["key"]).decode(): base64.b64decode(it["value"]) for it in found.get("kvs", [])}

    def address(self, *ports):
        return "etcd:" + ",".join(f"127.0.0.1:{it}" for it in ports or self.ports)


class Cutter:
    """A proxy in front of a member, which passes requests on, and loses the replies to the transactions with these numbers, from 1 on."""

    def __init__(self, port, lost):
        self.port, self.lost, self.seen, self.cut = port, set(lost), 0, 0
        self.listener = socket.create_server(("127.0.0.1", 0))
        self.address = f"etcd:127.0.0.1:{self.listener.getsockname()[1]}"
        threading.Thread(target=self.run, daemon=True).start()

    def run(self):
        with contextlib.suppress(OSError):
            while True:
                front, _ = self.listener.accept()
                threading.Thread(target=self.serve, args=(front,), daemon=True).start()

    def serve(self, front):
        with contextlib.suppress(OSError, http.client.HTTPException, ValueError), front, front.makefile("rb") as came:
            while line := came.readline():
                path, length = line.split()[1].decode(), 0
                while (field := came.readline()).strip():
                    name, _, value = field.partition(b":")
                    length = int(value) if name.lower() == b"content-length" else length
                body = came.read(length)
                link = http.client.HTTPConnection("127.0.0.1", self.port, timeout=SECONDS)
                link.request("POST", path, body)
                answer = link.getresponse()
                found = answer.read()
                self.seen += path.endswith("/txn")
                if path.endswith("/txn") and self.seen in self.lost:
                    self.cut += 1
                    return
                front.sendall(b"HTTP/1.1 %d X\r\ncontent-length: %d\r\n\r\n" % (answer.status, len(found)) + found)

    def close(self):
        self.listener.close()


class Silent:
    """A member that takes connections and says nothing."""

    def __init__(self):
        self.listener = socket.create_server(("127.0.0.1", 0))
        self.port = self.listener.getsockname()[1]

    def close(self):
        self.listener.close()


def long_journal(size):
    """A journal of so many bytes at least, whose records are those of a real one, over and over."""
    with open(REAL, "rb") as file:
        real = file.read()
    texts, at = [], 0
    while at < len(real):
        length = int.from_bytes(real[at : at + 4], "big")
        text = real[at + records.HEAD : at + records.HEAD + length]
        at += records.HEAD + length
        if not text.startswith(records.WORD):
            texts.append(text)
    bytes_, sum_ = records.group(0, 0, 0, texts[:1])
    while len(bytes_) < size:
        more, sum_ = records.group(sum_, len(bytes_), len(bytes_), texts[1:] * 50)
        bytes_ += more
    return bytes_


class Tries:
    """The program, a cluster, and folders."""

    def __init__(self, program, cluster, room):
        self.program, self.cluster, self.room = program, cluster, room

    def folder(self, name, journal=None):
        path = os.path.join(self.room, name)
        if journal is not None:
            os.makedirs(path)
            with open(os.path.join(path, "journal"), "wb") as file:
                file.write(journal)
        return path

    def run(self, verb, city, *words, folder=None, address=None):
        places = [folder] if folder else []
        return ended(self.program, verb, *places, "--log", address or self.cluster.address(), "--city", city, *words)

    def expect(self, wanted, ran):
        status, out, said = ran
        if status != STATUS[wanted]:
            yield f"status {status} in place of {STATUS[wanted]}: {out[:200]!r} {said[:200]!r}"
        if (status == 0) != (said == b""):
            yield f"status {status}, and on standard error {said[:200]!r}"

    def seeded(self, city, journal, **how):
        yield from self.expect("done", self.run("seed", city, folder=self.folder(f"{city}-from", journal), **how))

    def fetched(self, city, journal, **how):
        folder = self.folder(f"{city}-to")
        yield from self.expect("done", self.run("fetch", city, folder=folder, **how))
        with open(os.path.join(folder, "journal"), "rb") as file:
            if file.read() != journal:
                yield f"what was fetched of {city} isn't what was seeded"
        if os.listdir(folder) != ["journal"]:
            yield f"beside the fetched journal stands {sorted(os.listdir(folder))}"

    def nobody(self):
        ran = self.run("status", "nobody")
        yield from self.expect("done", ran)
        if not ran[1].startswith(b"owner: none\n"):
            yield f"of no city status says {ran[1]!r}"
        yield from self.expect("refused", self.run("fetch", "nobody", folder=self.folder("nobody-to")))
        if self.cluster.values("ruffletuff/nobody/"):
            yield "a look has made keys"

    def one_record(self):
        with open(REAL, "rb") as file:
            journal = file.read()
        yield from self.seeded("small", journal)
        ran = self.run("status", "small")
        yield from self.expect("done", ran)
        lines = ran[1].decode().splitlines()
        if not lines[0].startswith("owner: epoch 1, nonce ") or f"position: {len(journal)} bytes, 1 chunks" not in lines[2]:
            yield f"status says {lines}"
        yield from self.fetched("small", journal)
        yield from self.expect("done", (ended(self.program, "check", self.folder("small-to"))))
        yield from self.expect("unusable", self.run("fetch", "small", folder=self.folder("small-to")))
        yield from self.expect("refused", self.run("seed", "small", folder=self.folder("small-to")))
        yield from self.fetched_again("small", journal)

    def fetched_again(self, city, journal):
        folder = self.folder(f"{city}-again")
        yield from self.expect("done", self.run("fetch", city, folder=folder))
        with open(os.path.join(folder, "journal"), "rb") as file:
            if file.read() != journal:
                yield f"{city} has changed"

    def many_chunks(self):
        journal = long_journal(LONG)
        yield from self.seeded("large", journal)
        chunks = [it for key, it in sorted(self.cluster.values("ruffletuff/large/c/").items())]
        if b"".join(chunks) != journal or max(map(len, chunks)) > MOST_CHUNK:
            yield f"the chunks are of {sorted(set(map(len, chunks)))} bytes, and aren't the journal"
        yield from self.fetched("large", journal)

    def lost_replies(self):
        journal = long_journal(2 * MOST_CHUNK + 1)
        chunks = -(-len(journal) // MOST_CHUNK)
        # The claim, a chunk in the middle, and what moves the head.
        lost = [1, 4, chunks + 3]
        cutter = Cutter(self.cluster.ports[0], lost)
        try:
            yield from self.seeded("lost", journal, address=cutter.address)
            if cutter.cut != len(lost):
                yield f"{cutter.cut} replies were lost in place of {len(lost)}"
        finally:
            cutter.close()
        found = self.cluster.values("ruffletuff/lost/")
        if len(found) != chunks + 2:
            yield f"there are {len(found)} keys in place of {chunks + 2}"
        yield from self.fetched("lost", journal)

    def members_in_turn(self):
        journal = long_journal(1 << 16)
        silent, unused = Silent(), free_port()
        try:
            address = self.cluster.address(unused, silent.port, self.cluster.ports[1])
            yield from self.seeded("turns", journal, address=address)
        finally:
            silent.close()
        self.cluster.kill(0)
        yield from self.fetched("turns", journal)
        self.cluster.start(0)
        self.cluster.await_health(self.cluster.ports[0])
        yield from self.expect("silent", self.run("status", "turns", address=self.cluster.address(unused)))

    def refusals(self):
        journal = long_journal(1 << 12)
        yield from self.expect("damaged", self.run("seed", "torn", folder=self.folder("torn", journal[:-1])))
        yield from self.expect("unusable", self.run("seed", "torn", folder=self.folder("empty", b"")))
        yield from self.expect("unusable", self.run("seed", "torn", folder=self.folder("nothing")))
        held = self.folder("held", journal)
        with open(os.path.join(held, "journal"), "rb") as file:
            fcntl.flock(file, fcntl.LOCK_EX)
            yield from self.expect("unusable", self.run("seed", "torn", folder=held))
        if self.cluster.values("ruffletuff/torn/"):
            yield "what was refused has made keys"
        yield from self.expect("wrong", self.run("status", "a/b"))
        yield from self.expect("wrong", self.run("status", "a", address="http://127.0.0.1:1"))
        yield from self.expect("wrong", self.run("status", "a", "--log-user", os.path.join(self.room, "no-user")))

    def users(self):
        """As the last, since the cluster has users from then on."""
        for name, city in (("root", None), ("port", "port"), ("land", "land")):
            self.cluster.asked("/v3/auth/user/add", {"name": name, "password": f"of:{name}"})
            self.cluster.asked("/v3/auth/role/add", {"name": name})
            if city:
                ends = {"key": encoded(f"ruffletuff/{city}/"), "range_end": encoded(f"ruffletuff/{city}0")}
                self.cluster.asked("/v3/auth/role/grant", {"name": name, "perm": {"permType": "READWRITE", **ends}})
            self.cluster.asked("/v3/auth/user/grant", {"user": name, "role": name})
        self.cluster.asked("/v3/auth/enable", {})
        users = {}
        for name, text in (("port", "port:of:port\n"), ("land", "land:of:land"), ("wrong", "port:of:land\n")):
            users[name] = os.path.join(self.room, f"user-{name}")
            with open(users[name], "w", encoding="utf-8") as file:
                file.write(text)
        journal = long_journal(LONG // 10)
        folder = self.folder("port-from", journal)
        yield from self.expect("done", self.run("seed", "port", "--log-user", users["port"], folder=folder))
        yield from self.expect("barred", self.run("status", "port"))
        yield from self.expect("barred", self.run("status", "port", "--log-user", users["land"]))
        yield from self.expect("barred", self.run("status", "port", "--log-user", users["wrong"]))
        yield from self.expect("done", self.run("fetch", "port", "--log-user", users["port"], folder=self.folder("port-to")))
        with open(os.path.join(self.folder("port-to"), "journal"), "rb") as file:
            if file.read() != journal:
                yield "what a user fetched isn't what it seeded"


def main():
    if len(sys.argv) != 2:
        sys.exit(__doc__)
    if not packages.program("etcd"):
        packages.end_without("a journal in etcd", "etcd")
    found = Tried()
    with Cluster() as cluster, tempfile.TemporaryDirectory(prefix="cluster-") as room:
        tries = Tries(os.path.abspath(sys.argv[1]), cluster, room)
        for call in (tries.nobody, tries.one_record, tries.many_chunks, tries.lost_replies, tries.members_in_turn, tries.refusals, tries.users):
            found.one(call.__name__.replace("_", " "), call())
    sys.exit(found.told())


if __name__ == "__main__":
    main()
