#!/usr/bin/env python3
"""Times how the author is told how every operator stands, and what another operator waits beside it, on a proved ruffletuff.

    oversight.py [PROGRAM]

A city of 64 operators of 2,000 vehicles each, and one policy of 8 rules in force for all, asked about before. Over one connection each: the
time of an operator's GET /compliance, and of the author's GET /app/compliance; the author's is to take at most 64 times the operator's and
5 ms. Then another operator's GET /compliance, ten in a hundred milliseconds, while nothing else is asked and while the author asks all the
time: its 99th percentile beside the author is to be at most 1.5 times that of idle. Medians and 99th percentiles, in milliseconds.

What of that is the machine's own: two processes that share nothing stand in for the server. One answers at once, the other computes as long
as the author's question took and then answers as much; the first one is asked at the same pace, alone and while the second is asked.
"""

import json
import multiprocessing
import os
import socket
import sys
import time

HERE = os.path.dirname(os.path.abspath(__file__))
# In the place of this folder, whose http.py hides the library's package of that name.
sys.path[0] = os.path.join(HERE, "..", "tests")

from clients import names, place, policy  # noqa: E402
from kept import Alone  # noqa: E402
from wire import AUTHOR, Link, identifier, report, request  # noqa: E402

PROGRAM = os.path.join(HERE, "..", "crates", "ruffletuff", "out", "ruffletuff")
OPERATORS, VEHICLES, RULES, LINES = 64, 2_000, 8, 1_000
QUESTIONS, LOOKS, SECONDS, PAUSE = 500, 100, 10, 0.01
RING = "[[-180,-80],[180,-80],[180,80],[-180,80],[-180,-80]]"


def token(number):
    return f"operator{number:03}"


def configuration():
    """64 operators, whom the author oversees whole."""
    operators = [{"id": identifier(0, 0x100 + n), "limit": VEHICLES, "token": token(n)} for n in range(OPERATORS)]
    return json.dumps({"author": AUTHOR, "operators": operators, "zone": "Z", "oversight": "vehicles"}).encode()


def ask(link, method, path, by, body=b""):
    """The body of a success."""
    link.send(request(method, path, by, body))
    answer = link.answer(method)
    if answer.status != 200:
        raise SystemExit(f"{method} {path}: {answer}")
    return answer.body


def fill(link):
    """Publishes the policy, and reports every operator's vehicles."""
    rules = ",".join(
        f'{{"rule_id":"{identifier(3, n)}","name":"r","rule_type":"count","geographies":["{identifier(1, 1)}"],"maximum":{n * 300}}}'
        for n in range(1, RULES + 1)
    )
    ask(link, "PUT", f"/drafts/geographies/{identifier(1, 1)}", AUTHOR, place(1, RING))
    ask(link, "PUT", f"/drafts/policies/{identifier(2, 1)}", AUTHOR, policy(1, rules=f"[{rules}]"))
    both = names(1, "geographies", [1])[:-1] + b"," + names(2, "policies", [1])[1:]
    ask(link, "POST", "/publish", AUTHOR, both)
    for operator in range(OPERATORS):
        for first in range(0, VEHICLES, LINES):
            lines = b"\n".join(report(n, 2_000) for n in range(first, first + LINES))
            ask(link, "POST", "/app/fleet/events", token(operator), lines)


def waits(link, path, by, count, pause=0.0):
    """The milliseconds of so many questions, one after another, in order of length."""
    found = []
    for _ in range(count):
        begun = time.perf_counter()
        ask(link, "GET", path, by)
        found.append(1_000 * (time.perf_counter() - begun))
        time.sleep(pause)
    return sorted(found)


def median(found):
    return found[len(found) // 2]


def last_percent(found):
    return found[len(found) * 99 // 100]


def look(port, ended, looks):
    """Asks as the author all the time until it is over, and counts the answers."""
    with Link(port) as link:
        while not ended.is_set():
            ask(link, "GET", "/app/compliance", AUTHOR)
            looks.value += 1


def beside(server):
    """Another operator's waits while the author asks all the time, in a process of its own, and how often it did."""
    ended, looks = multiprocessing.Event(), multiprocessing.Value("L", 0)
    author = multiprocessing.Process(target=look, args=(server.port, ended, looks))
    author.start()
    try:
        with Link(server.port) as link:
            found = waits(link, "/compliance", token(1), int(SECONDS / PAUSE), PAUSE)
    finally:
        ended.set()
        author.join()
    return found, looks.value


def stand_in(listener, seconds, size):
    """Answers each byte of one connection with so many bytes, after so many seconds of computing."""
    link, _ = listener.accept()
    link.setsockopt(socket.IPPROTO_TCP, socket.TCP_NODELAY, 1)
    with link:
        while link.recv(1):
            until = time.perf_counter() + seconds
            while time.perf_counter() < until:
                pass
            link.sendall(bytes(size))


class StandIn:
    """A process that stands in for a server, and a connection to it."""

    def __init__(self, seconds, size):
        self.size = size
        with socket.create_server(("127.0.0.1", 0)) as listener:
            self.process = multiprocessing.Process(target=stand_in, args=(listener, seconds, size), daemon=True)
            self.process.start()
            self.link = socket.create_connection(listener.getsockname())
        self.link.setsockopt(socket.IPPROTO_TCP, socket.TCP_NODELAY, 1)

    def ask(self):
        """Asks, and takes the whole answer."""
        self.link.sendall(b"?")
        left = self.size
        while left:
            left -= len(self.link.recv(left))

    def close(self):
        """Ends it."""
        self.link.close()
        self.process.join()


def ask_stand_in(seconds, size, ended):
    """Asks one that computes, all the time until it is over."""
    one = StandIn(seconds, size)
    while not ended.is_set():
        one.ask()
    one.close()


def waits_of(one, count):
    """The milliseconds of so many questions to a stand-in, at the pace of the measure, in order of length."""
    found = []
    for _ in range(count):
        begun = time.perf_counter()
        one.ask()
        found.append(1_000 * (time.perf_counter() - begun))
        time.sleep(PAUSE)
    return sorted(found)


def machine(own, author, size):
    """The 99th percentiles of one that answers at once, alone and beside one that computes: the milliseconds that each computes are given."""
    one, ended = StandIn(own / 1_000, 100), multiprocessing.Event()
    alone = waits_of(one, int(SECONDS / PAUSE))
    other = multiprocessing.Process(target=ask_stand_in, args=(author / 1_000, size, ended))
    other.start()
    together = waits_of(one, int(SECONDS / PAUSE))
    ended.set()
    other.join()
    one.close()
    return last_percent(alone), last_percent(together)


def main():
    program = os.path.abspath(sys.argv[1] if len(sys.argv) > 1 else PROGRAM)
    with Alone(program, given=configuration()) as server, Link(server.port) as link:
        fill(link)
        for operator in range(OPERATORS):
            waits(link, "/compliance", token(operator), 3)
        own = waits(link, "/compliance", token(0), QUESTIONS)
        all_of_them = waits(link, "/app/compliance", AUTHOR, LOOKS)
        size = len(ask(link, "GET", "/app/compliance", AUTHOR))
        idle = waits(link, "/compliance", token(1), int(SECONDS / PAUSE), PAUSE)
        busy, looks = beside(server)
        server.stop()
    most = OPERATORS * median(own) + 5
    print(f"{OPERATORS} operators of {VEHICLES} vehicles, {RULES} rules in force")
    print(f"one operator's question: {median(own):.3f} ms, 99th percentile {last_percent(own):.3f}")
    print(f"the author's of all: {median(all_of_them):.3f} ms, 99th percentile {last_percent(all_of_them):.3f}, {size} bytes; at most {most:.3f}")
    print(f"another operator's, idle: {median(idle):.3f} ms, 99th percentile {last_percent(idle):.3f}")
    ratio = last_percent(busy) / last_percent(idle)
    print(f"beside {looks} of the author's in {SECONDS} s: {median(busy):.3f} ms, 99th percentile {last_percent(busy):.3f}, {ratio:.2f} of idle")
    alone, together = machine(0, median(all_of_them), size)
    print(f"the machine's own: 99th percentile {alone:.3f} alone, {together:.3f} beside one that computes, {together / alone:.2f} of alone")


if __name__ == "__main__":
    main()
