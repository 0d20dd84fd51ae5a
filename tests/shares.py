#!/usr/bin/env python3
"""What one operator's bodies of many lines leave to the others: starts ruffletuff for a city of the author and three operators.

    shares.py PROGRAM [SECONDS] [--told]

One operator sends POST /app/fleet/events with 16,384 lines of `x` over three connections, all the time, and beside it a body of reports
over and over. Meanwhile another operator reports over four connections, a third reports now and then, each time over a new one, and the
author drafts, replaces and publishes. Each change of theirs has to be accepted, and of each it is told how many there were, their median
and their 99th percentile, which may be 250 ms; with --told, where other work runs beside, that isn't judged. Of the first operator each
line that is no report has to be answered as if it were sent alone, and its reports are taken or told busy.

Then the same beside a disk each of whose syncs takes 200 ms longer, and 64 connections over which the first operator sends single reports:
those may wait, and are taken, or told busy once they have waited, and never that the disk has no room.

Last a sync waits for as long as this test likes, and the first operator has as many changes behind it as it may. Each further one of its
own has to be told busy, once it has paused as often as a request may, and not to be carried out; another operator's is accepted, and so is
all of it once the disk goes on. Both want a compiler of C.

A load lasts SECONDS. Prints what is otherwise, and last 'N passed, M failed'; ends with 1 where one failed.
"""

import argparse
import concurrent.futures
import itertools
import json
import os
import statistics
import sys
import tempfile
import threading
import time

import packages
from beside import Background, high_of
from clients import draft_of_policy, policy, these_policies
from journals import until
from kept import Alone, City, Tried, held, slowed
from wire import AUTHOR, FIRST, SECOND, SECONDS, SLOWNESS, Closed, Link, identifier, report, request

THIRD = "charlie"
MANY, ONE = "/app/fleet/events", "/fleet/events"
LASTS = 10
HIGH = 0.250  # seconds, of the 99th percentile of a change
LEAST = 3  # changes of each who asks, in a load
# A program that isn't proved is slow.
LINES, REPORTS = (16_384, 4_000) if SLOWNESS == 1 else (2_048, 400)
JUNK_OF_REPORTS = 100  # of so many lines of a body of reports one is none
CONNECTIONS_OF_JUNK, CONNECTIONS_OF_REPORTS, CONNECTIONS = 3, 1, 4
SINGLES, BODIES_BESIDE_SINGLES = 64, 4
FIRST_SINGLE = 100_000  # the vehicle of the first of them: in no body
SYNC_MICROSECONDS = 200_000
LEAST_WAIT = 3  # seconds that a change has waited which is told busy
SHARE = 4_096  # changes of one client that wait for the journal, at the most
LEAST_PAUSED = 4.5  # seconds: 500 pauses of 10 ms, each of which a timer may cut short by one
LONGEST = 6 * SECONDS  # for a change that waits for a disk that waits
PAUSE = 0.1  # seconds between the changes of the third operator
MOST_PUBLISHED = 512
BUSY, NO_JSON = b'{"error":"busy"}', b'{"error":"bad_json"}'
NEW, SAME, CHANGED = (b'{"result":"%s"}' % it for it in (b"new", b"same", b"changed"))


def configuration():
    """A city of the author and three operators."""
    operators = [{"id": identifier(9, n), "limit": 20_000, "token": token} for n, token in enumerate((FIRST, SECOND, THIRD))]
    return json.dumps({"author": AUTHOR, "operators": operators, "zone": "Z"}).encode()


def line_of(status, body):
    """The line that tells an answer."""
    return b'{"body":%s,"status":%d}' % (body, status)


# --- Who asks ------------------------------------------------------------------------------------------------------


def reports_of(number):
    """Reports of one vehicle, each later than the one before."""
    return (("POST", ONE, report(number, timestamp)) for timestamp in itertools.count(2000))


def policies():
    """The author drafts a policy, replaces the draft and publishes it; drafts alone, once as many are published as may be."""
    for number in itertools.count():
        name = min(number, MOST_PUBLISHED)
        for text in ('"drafted"', '"replaced"'):
            yield "PUT", draft_of_policy(name), policy(name, name=text)
        if number < MOST_PUBLISHED:
            yield "POST", "/publish", these_policies(name)


class Client(threading.Thread):
    """Asks one change after another until it is over: keeps how long each took, and what wasn't answered 200."""

    def __init__(self, port, token, changes, over, pause=None):
        super().__init__(daemon=True)
        self.port, self.token, self.changes, self.over, self.pause = port, token, changes, over, pause
        self.times, self.others, self.link = [], [], None

    def run(self):
        for asked in self.changes:
            if self.over.is_set():
                break
            try:
                self.ask(*asked)
            except (OSError, ValueError, Closed) as fault:
                self.others.append((0, repr(fault), False))
                self.end_link()
            if self.pause:
                self.end_link()
                self.over.wait(self.pause)
        self.end_link()

    def ask(self, method, target, body):
        begun = time.monotonic()
        self.link = self.link or Link(self.port)
        self.link.send(request(method, target, self.token, body))
        answer = self.link.answer()
        self.times.append(time.monotonic() - begun)
        closes = answer.fields.get("connection") == ["close"]
        if answer.status != 200:
            self.others.append((self.times[-1], answer, closes))
        if closes:
            self.end_link()

    def end_link(self):
        if self.link:
            self.link.socket.close()
        self.link = None


class Sender(Client):
    """Sends bodies of many lines, and looks at each line of the answers."""

    def __init__(self, port, bodies, over):
        super().__init__(port, FIRST, bodies, over)
        self.faults, self.taken, self.busy = [], 0, 0

    def ask(self, body, judge):
        self.link = self.link or Link(self.port)
        self.link.send(request("POST", MANY, FIRST, body))
        answer = self.link.answer()
        if answer.status == 200:
            self.taken += 1
            self.busy += judge(answer.body, self.faults)
        elif is_told_busy(answer):
            self.busy += 1
            self.end_link()
        else:
            self.faults.append(f"a body of many lines is answered {answer}")

    def told(self):
        return self.taken, self.busy, self.faults + [f"a body of many lines isn't answered: {why}" for _, why, _ in self.others]


def is_told_busy(answer):
    """Whether a change waited too long, and the connection is closed behind that."""
    return answer.is_by_the_server(503, BUSY) and answer.fields.get("connection") == ["close"]


# --- Bodies of many lines, and their answers -----------------------------------------------------------------------


def judge_junk(answer, faults):
    """Each line is refused as one that is no report."""
    if answer != (line_of(400, NO_JSON) + b"\n") * LINES:
        faults.append(f"lines that are no reports are answered {answer[:200]!r}")
    return 0


def junk():
    """Bodies of lines that are no reports."""
    return itertools.repeat((b"x\n" * LINES, judge_junk))


def is_junk(number):
    """Whether the line of this number is no report, in a body of reports."""
    return number % JUNK_OF_REPORTS == JUNK_OF_REPORTS - 1


def judge_reports(answer, faults):
    """Each report is taken or told busy, and each line that is none refused as such, in its place. How many were told busy."""
    lines = answer.splitlines()
    if len(lines) != REPORTS:
        faults.append(f"{REPORTS} lines have {len(lines)} answers")
    taken, busy = [line_of(200, it) for it in (NEW, SAME, CHANGED)], line_of(503, BUSY)
    for number, line in enumerate(lines):
        wanted = [line_of(400, NO_JSON)] if is_junk(number) else [*taken, busy]
        if line not in wanted:
            faults.append(f"line {number} of a body of reports is answered {line[:200]!r}")
            break
    return lines.count(busy)


def bodies_of_reports(first):
    """Bodies of reports, each of them later than those before, with a line now and then that is none."""
    for timestamp in itertools.count(2000):
        yield b"\n".join(b"x" if is_junk(it) else report(first + it, timestamp) for it in range(REPORTS)), judge_reports


def sends_on(port, bodies, over, told):
    """Sends bodies of many lines over several connections, in a process of its own, and tells how they were answered."""
    senders = [Sender(port, it, over) for it in bodies]
    for it in senders:
        it.start()
    for it in senders:
        it.join()
    told.put([it.told() for it in senders])


def summed(told):
    """Of what senders tell: how many bodies were taken, how many bodies and lines were told busy, and what was answered otherwise."""
    taken, busy, faults = zip(*told)
    return sum(taken), sum(busy), [it for some in faults for it in some]


# --- The loads -----------------------------------------------------------------------------------------------------


class Others:
    """Who asks beside the first operator: what each is called, and its connections."""

    def __init__(self, port, over):
        self.of = {
            "another operator": [Client(port, SECOND, reports_of(it), over) for it in range(CONNECTIONS)],
            "a third operator": [Client(port, THIRD, reports_of(1), over, PAUSE)],
            "the author": [Client(port, AUTHOR, policies(), over)],
        }

    def all(self):
        return [it for some in self.of.values() for it in some]


def lasting(seconds, over, senders):
    """All of these ask for so long."""
    for it in senders:
        it.start()
    over.wait(seconds)
    over.set()
    for it in senders:
        it.join()


def accepted(senders, most):
    """What is wrong with the changes of who asks over these connections: each is accepted, within so many seconds, if that is judged."""
    others = [it for client in senders for it in client.others]
    times = [it for client in senders for it in client.times]
    yield from (f"a change is answered {answer}" for _, answer, _ in others[:2])
    if len(others) > 2:
        yield f"{len(others)} changes aren't accepted, and {len(times) - len(others)} are"
    if len(times) < LEAST:
        yield f"{len(times)} changes are answered, and {LEAST} are wanted at least"
    if most and times and high_of(times) > most:
        yield f"the 99th percentile of a change is {1e3 * high_of(times):.0f} ms, and may be {1e3 * most:.0f}"


def told(name, senders):
    """Tells how many changes who asks over these connections had answered, and how long they took."""
    times = [it for client in senders for it in client.times]
    waited = f"median {1e3 * statistics.median(times):.1f} ms, 99th percentile {1e3 * high_of(times):.1f} ms" if times else "none"
    print(f"{name}: {len(times)} changes, {waited}", flush=True)


def ends_well(server):
    """A server that is told to stop ends with 0, and has printed nothing."""
    if (found := server.end()) != (0, b"", b""):
        yield f"the server ends with {found}"


def under_load(tried, what, server, bodies, seconds, most, singles=0):
    """All ask while the first operator sends these bodies, and so many connections of its single reports; each is a test."""
    over = threading.Event()
    others = Others(server.port, over)
    alone = [Client(server.port, FIRST, reports_of(FIRST_SINGLE + it), over) for it in range(singles)]
    # The first operator sends bodies of many lines all the time.
    with Background(sends_on, server.port, bodies) as sending:
        lasting(seconds, over, others.all() + alone)
        taken, busy, faults = summed(sending.end(3 * SECONDS))
    print(f"{what}: {taken} bodies of many lines are taken, {busy} bodies and lines of them are told busy", flush=True)
    for name, senders in others.of.items():
        told(f"{what}: {name}", senders)
        tried.one(f"{what}: {name}", accepted(senders, most))
    tried.one(f"{what}: bodies of many lines", faults[:2] or ([] if taken else ["none is taken"]))
    if singles:
        told(f"{what}: single reports of the same operator", alone)
        tried.one(f"{what}: single reports", taken_or_busy(alone))
    tried.one(f"{what}: the end", ends_well(server))


def taken_or_busy(senders):
    """What is wrong with single reports: each is taken, or told busy once it has waited, and the connection closed behind that."""
    others = [it for client in senders for it in client.others]
    for waited, answer, closes in others:
        if isinstance(answer, str) or not is_told_busy(answer):
            yield f"a report is answered {answer}{', and closed' if closes else ''}"
            return
        if waited < LEAST_WAIT:
            yield f"a report is told busy after {waited:.1f} s"
            return
    print(f"{len(others)} of them are told busy, after {min((it for it, _, _ in others), default=0):.1f} s at the least")


def beside_many_lines(tried, program, seconds, most):
    """Changes beside one operator's bodies of many lines."""
    with tempfile.TemporaryDirectory(prefix="shares-") as room:
        with City(program, room, configuration()).serve("--thin-at", "0") as server:
            bodies = [junk() for _ in range(CONNECTIONS_OF_JUNK)] + [bodies_of_reports(0) for _ in range(CONNECTIONS_OF_REPORTS)]
            under_load(tried, "beside many lines", server, bodies, seconds, most)


def on_a_slow_disk(tried, program, seconds):
    """The same beside a disk that is slow, and many single reports of the first operator."""
    with tempfile.TemporaryDirectory(prefix="shares-") as room:
        slow = slowed(room, SYNC_MICROSECONDS)
        with City(program, room, configuration()).serve("--thin-at", "0", env=slow) as server:
            bodies = [junk()] + [bodies_of_reports(it * REPORTS) for it in range(BODIES_BESIDE_SINGLES)]
            under_load(tried, "on a slow disk", server, bodies, seconds, None, SINGLES)


def asked(server, token, target, body):
    """The answer to a change over a new connection, and how many seconds it took."""
    begun = time.monotonic()
    with server.link() as link:
        link.socket.settimeout(LONGEST)
        link.send(request("POST", target, token, body))
        return link.answer(), time.monotonic() - begun


def is_written_behind(journal, size):
    """Whether a journal becomes longer than it was."""
    end = time.monotonic() + SECONDS
    while os.path.getsize(journal) <= size and time.monotonic() < end:
        time.sleep(0.002)
    return os.path.getsize(journal) > size


def refused_at_last(pending):
    """What is wrong with changes whose client's share stays used up: each is told busy, behind all of its pauses."""
    times = []
    for it in pending:
        answer, waited = it.result()
        times.append(waited)
        if not is_told_busy(answer):
            yield f"a change whose client's share is used up is answered {answer}"
        elif waited < LEAST_PAUSED:
            yield f"a change whose client's share is used up is told busy after {waited:.2f} s"
    print(f"on a disk that waits: {len(times)} changes are told busy after {min(times):.2f} to {max(times):.2f} s", flush=True)


def are_new(what, answer, count=None):
    """Reports are taken, and none of their vehicles was known: one alone, or so many lines."""
    if answer.status != 200 or answer.body != (NEW if count is None else (line_of(200, NEW) + b"\n") * count):
        yield f"{what}: answered {answer}"


def on_a_disk_that_waits(program):
    """While a sync lasts, and an operator, not the first, has as many changes behind it as it may, each more is told busy and isn't carried
    out; the first one's change is taken."""
    with tempfile.TemporaryDirectory(prefix="shares-") as room, concurrent.futures.ThreadPoolExecutor(8) as pool:
        city, hold = City(program, room, configuration()), os.path.join(room, "hold")
        with city.serve("--thin-at", "0", env=held(room, hold)) as server:
            size = os.path.getsize(city.journal)
            with open(hold, "wb"):
                first = pool.submit(asked, server, SECOND, ONE, report(SHARE))
            # What is written doesn't wait any more, so the whole share is left for what comes behind it. The answer to many lines keeps
            # others of its client from their turn, from when it is counted until all of its lines wait.
            is_held = is_written_behind(city.journal, size)
            full = pool.submit(asked, server, SECOND, MANY, b"\n".join(report(it) for it in range(SHARE)))
            if not is_held or until(server, "pending_replies", lambda count: count == 2) != 2:
                yield "the disk doesn't wait"
                return
            late = [(ONE, report(SHARE + 1)), (ONE, report(SHARE + 2)), (MANY, report(SHARE + 3) + b"\n" + report(SHARE + 4))]
            refused = [pool.submit(asked, server, SECOND, *it) for it in late]
            other = pool.submit(asked, server, FIRST, ONE, report(1))
            yield from refused_at_last(refused)
            os.remove(hold)
            yield from are_new("the change that the disk waited with", first.result()[0])
            yield from are_new("as many as may wait behind it", full.result()[0], SHARE)
            yield from are_new("another operator's", other.result()[0])
            for target, body in late:
                yield from are_new("one that was told busy, again", asked(server, SECOND, target, body)[0], 2 if target == MANY else None)
            yield from ends_well(server)


def lines_that_are_none(program):
    """A line that is no report is answered as if it were sent alone, in its place among reports."""
    none = (b"x", b" ", b"{}", b"[1]", b"\xff\xfe", b'{"device_id":', report(1).replace(b":5}", b":200}"), b"\r\r")
    with Alone(program, configuration()) as server:
        texts, wanted = [], []
        for number in range(2_000 // SLOWNESS):
            texts.append(none[number // 7 % len(none)] if number % 7 == 6 else report(number))
        alone = {it: server.ask("POST", ONE, FIRST, it) for it in none}
        for text in texts:
            wanted.append(line_of(alone[text].status, alone[text].body) if text in alone else line_of(200, NEW))
        answer = server.ask("POST", MANY, FIRST, b"\n".join(texts))
        if answer.status != 200:
            yield f"a body of {len(texts)} lines is answered {answer}"
        found = answer.body.splitlines()
        for number, (line, its) in enumerate(itertools.zip_longest(found, wanted)):
            if line != its:
                yield f"line {number}, {texts[number] if number < len(texts) else None}, is answered {line}, and alone {its}"
                break


def main():
    parser = argparse.ArgumentParser(description=__doc__, formatter_class=argparse.RawDescriptionHelpFormatter)
    parser.add_argument("program")
    parser.add_argument("seconds", type=float, nargs="?", default=LASTS)
    parser.add_argument("--told", action="store_true", help="how long a change takes is told and not judged")
    options = parser.parse_args()
    program, found = os.path.abspath(options.program), Tried()
    found.one("lines that are no reports", lines_that_are_none(program))
    try:
        beside_many_lines(found, program, options.seconds, None if options.told else HIGH * SLOWNESS)
        if packages.program("cc"):
            on_a_slow_disk(found, program, options.seconds)
            found.one("on a disk that waits", on_a_disk_that_waits(program))
        else:
            found.add(*packages.leave_out("changes on a slow disk, and on one that waits", "cc"))
    except (OSError, ValueError) as fault:
        print(repr(fault))
        found.failed += 1
    return found.told()


if __name__ == "__main__":
    sys.exit(main())
