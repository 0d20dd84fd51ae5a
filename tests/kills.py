#!/usr/bin/env python3
"""Kills a running ruffletuff at random moments under load, and checks after each restart that all that was told is there.

    kills.py PROGRAM [KILLS] [--replay FILE] [--seed NUMBER]

Sixteen operators report vehicles, remove some and ask, each over one connection; the author drafts and publishes one policy after
another; and one more connection reads what the first operator reports. At a random moment the program is killed by SIGKILL, or while it
starts, and started again. Then its journal's audit has to be the audit before the kill and, of each who asked, what was answered with
success since, in order and once; behind it at most the one request that had no answer yet. Whatever a reply showed is in it. Each answer
is what mds_replay answers to the audit, byte for byte, and so is what is asked after the restart. Ten kills go to one folder, 50 take up
to a minute. Prints what differs, and last 'N passed, M failed', by kills; ends with 1 where one failed.
"""

import argparse
import contextlib
import os
import random
import re
import sys
import tempfile
import threading
import time

from kept import City, Tried, line_of, replayed, split, told_moment
from wire import AUTHOR, PATIENCE, Closed, Link, identifier, request

HERE = os.path.dirname(os.path.abspath(__file__))
REPLAY = os.path.join(HERE, "..", "crates", "mds_replay", "out", "mds_replay")
OPERATORS, VEHICLES, LIMIT = 16, 6, 8
KILLS, KILLS_OF_A_FOLDER = 50, 10
LOAD_SECONDS = 0.3 * PATIENCE  # of the longest load
START_SECONDS = 0.05 * PATIENCE  # within which a start is killed
STARTS_KILLED = 0.2  # what part of the kills comes at a start
MOST_PUBLICATIONS = 500
SQUARE, POLICY, RULE, DEVICE, OPERATOR = 1, 2, 3, 4, 9
READ = {
    "operator": ("/fleet/vehicles", "/compliance", "/policies", "/geographies"),
    "author": ("/policies", "/geographies", "/drafts/policies", "/drafts/geographies"),
}


def token(operator):
    return f"o{operator:03}"


def configuration():
    operators = [{"id": identifier(OPERATOR, it), "limit": LIMIT, "token": token(it)} for it in range(OPERATORS)]
    return {"author": AUTHOR, "operators": operators, "zone": "Z"}


class Client:
    """Who asks over one connection, one request behind the other."""

    def __init__(self, token, seed):
        self.token, self.choice = token, random.Random(seed)
        self.count, self.answered, self.open = 0, [], None

    def ask_all(self, port):
        """Asks until the connection is closed. What was answered is in `answered`, and a request without its answer is `open`."""
        self.answered, self.open = [], None
        with contextlib.suppress(OSError, Closed), Link(port) as link:
            while True:
                self.count += 1
                self.open = asked = self.next()
                link.send(request(asked[0], asked[1], self.token, asked[2].encode()))
                answer = link.answer()
                self.answered.append((asked, answer.status, answer.body.decode()))
                self.open = None

    def line(self, asked):
        return line_of(self.token, *asked)

    def kept(self):
        """What was answered of what the journal keeps: each line, with its answer as a replay writes it."""
        return [(self.line(asked), f"{status} {body}") for asked, status, body in self.answered if asked[0] != "GET" and status == 200]


class Operator(Client):
    """Reports, removes and asks."""

    def __init__(self, number, seed):
        super().__init__(token(number), f"{seed} {number}")
        self.number = number

    def next(self):
        chance, device = self.choice.random(), identifier(DEVICE, 100 * self.number + self.choice.randrange(VEHICLES))
        if chance < 0.1:
            return "DELETE", f"/fleet/vehicles/{device}", ""
        if chance < 0.3:
            return "GET", "/compliance" if chance < 0.2 else "/fleet/vehicles", ""
        state, latitude = self.choice.choice(("available", "on_trip")), self.choice.choice((5, 50))
        report = (
            f'{{"device_id":"{device}","vehicle_type":"scooter","vehicle_state":"{state}",'
            f'"timestamp":{10_000 + self.count},"location":{{"lat":{latitude},"lng":5}}}}'
        )
        return "POST", "/fleet/events", report


class Watcher(Client):
    """Reads what another connection of the first operator reports."""

    def next(self):
        return "GET", ("/fleet/vehicles", "/compliance")[self.count % 2], ""


class Author(Client):
    """Drafts and publishes: the square first, and then one policy at a time in the place of the one before."""

    def __init__(self, seed):
        super().__init__(AUTHOR, seed)
        self.published, self.drafted = 0, False

    def ask_all(self, port):
        self.drafted = False
        super().ask_all(port)

    def next(self):
        number = self.published
        if self.answered and self.answered[-1][0][0] == "POST" and self.answered[-1][1] == 200:
            number = self.published = self.published + 1
            self.drafted = False
        if number >= MOST_PUBLICATIONS:
            return "GET", "/policies", ""
        kind, name, member = (SQUARE, 1, "geographies") if number == 0 else (POLICY, number, "policies")
        if self.drafted:
            return "POST", "/publish", f'{{"{member}":["{identifier(kind, name)}"]}}'
        self.drafted = True
        return "PUT", f"/drafts/{member}/{identifier(kind, name)}", self.draft(number)

    def draft(self, number):
        """A draft, under a name that no other has."""
        if number == 0:
            ring = "[[0,0],[10,0],[10,10],[0,10],[0,0]]"
            geometry = f'{{"type":"Polygon","coordinates":[{ring}]}}'
            return f'{{"geography_id":"{identifier(SQUARE, 1)}","name":"square {self.count}","geography_json":{geometry}}}'
        before = f'"{identifier(POLICY, number - 1)}"' if number > 1 else ""
        rule = (
            f'{{"rule_id":"{identifier(RULE, 1)}","name":"cap","rule_type":"count",'
            f'"geographies":["{identifier(SQUARE, 1)}"],"maximum":{number % 3}}}'
        )
        head = f'"policy_id":"{identifier(POLICY, number)}","name":"cap {self.count}","start_date":1000'
        return f'{{{head},"prev_policies":[{before}],"rules":[{rule}]}}'


def numbers(name, texts):
    """The numbers that texts have behind this name."""
    for text in texts:
        yield from map(int, re.findall(rf'"{name}":(\d+)', text))


def ask_until_killed(clients, server, seconds):
    """All of them ask, until the server is killed; how many requests were answered."""
    asking = [threading.Thread(target=it.ask_all, args=(server.port,), daemon=True) for it in clients]
    for it in asking:
        it.start()
    time.sleep(seconds)
    server.stop()
    for it in asking:
        it.join()
    return sum(len(it.answered) for it in clients)


class Life:
    """A city that is killed and started again, with who asks it."""

    def __init__(self, city, replay, seed):
        self.city, self.replay = city, replay
        self.operators = [Operator(it, seed) for it in range(OPERATORS)]
        self.author, self.watcher = Author(seed), Watcher(token(0), seed)
        self.lines = []
        self.asked = 0

    def keepers(self):
        """Those whose requests the journal may keep."""
        return [*self.operators, self.author]

    def load(self, server, seconds):
        """All ask, until the server is killed."""
        self.asked += ask_until_killed((*self.keepers(), self.watcher), server, seconds)

    def faults(self, server):
        """What is wrong after a restart."""
        first, lines = self.city.audit()
        if lines[: len(self.lines)] != self.lines:
            yield "what the journal had before the kill isn't there any more, or has changed"
            return
        new = lines[len(self.lines) :]
        yield from self.lost(new)
        yield from self.shown(lines)
        reads = list(self.read_again(server, split(lines[-1])[0] if lines else 0))
        answers = replayed(self.replay, first, lines + [line for line, _ in reads])
        yield from self.otherwise(new, answers[len(self.lines) : len(lines)])
        for (line, reply), answer in zip(reads, answers[len(lines) :]):
            if reply != answer:
                yield f"after the restart {line[:80]} is answered {reply[:200]!r}, and not {answer[:200]!r}"
        self.lines = lines
        self.author.published = sum(" POST /publish " in it for it in lines)

    def lost(self, new):
        """The new lines of each who asked are what was answered with success, and then at most what had no answer."""
        found = {it.token: [] for it in self.keepers()}
        for line in new:
            asked = split(line)[1]
            found.setdefault(asked.partition(" ")[0], []).append(asked)
        for it in self.keepers():
            wanted = [line for line, _ in it.kept()]
            open_ = [it.line(it.open)] if it.open and it.open[0] != "GET" else []
            if found.pop(it.token) not in (wanted, wanted + open_):
                yield f"of {it.token} the journal has other requests than the {len(wanted)} that were answered"
        if found:
            yield f"the journal has requests of {list(found)}"

    def shown(self, lines):
        """What replies showed is in the journal: the first operator's reports, and the publications."""
        stamps = set(numbers("timestamp", (it for it in lines if split(it)[1].startswith(f"{token(0)} "))))
        shown = set(numbers("timestamp", (body for _, _, body in self.watcher.answered)))
        if missing := shown - stamps:
            yield f"reports of {sorted(missing)} were shown, and are lost"
        bodies = (body for who in (*self.operators, self.watcher) for _, _, body in who.answered)
        revisions = list(numbers("revision", bodies))
        if max(revisions, default=0) > sum(" POST /publish " in it for it in lines):
            yield f"revision {max(revisions)} was shown, and is lost"

    def read_again(self, server, moment):
        """What each is told after a restart: the lines of its questions, and the replies."""
        for it in self.keepers():
            with server.link() as link:
                for target in READ["author" if it is self.author else "operator"]:
                    link.send(request("GET", target, it.token))
                    answer = link.answer()
                    body = answer.body.decode()
                    moment = max(moment, told_moment(body) or 0) if target == "/compliance" else moment
                    yield f"{moment} {line_of(it.token, 'GET', target)}", f"{answer.status} {body}"

    def otherwise(self, new, answers):
        """What was answered before the kill is what a replay answers."""
        told = {it.token: iter([reply for _, reply in it.kept()]) for it in self.keepers()}
        for line, answer in zip(new, answers):
            moment, asked = split(line)
            reply = next(told.get(asked.partition(" ")[0], iter(())), None)
            if reply is not None and reply != answer:
                yield f"{asked[:80]} was answered {reply[:200]!r}, and a replay answers {answer[:200]!r}"
            if reply is not None and (date := told_moment(reply)) not in (None, moment):
                yield f"{asked[:80]} has the moment {moment} in the journal, and told {date}"


def killed(tried, stack, life, server, number, choice):
    """Kills the server under load, starts it again, and checks what is there. Some starts are killed too. The server that runs then."""
    life.load(server, choice.uniform(0.01, LOAD_SECONDS))
    while choice.random() < STARTS_KILLED:
        start = life.city.serve(is_awaited=False)
        time.sleep(choice.uniform(0, START_SECONDS))
        start.stop()
    again = stack.enter_context(life.city.serve())
    tried.one(f"kill {number + 1}", life.faults(again))
    return again


def lives(tried, program, kills, replay, seed):
    """Each folder with its kills."""
    choice = random.Random(seed)
    asked = kept = 0
    for before in range(0, kills, KILLS_OF_A_FOLDER):
        with tempfile.TemporaryDirectory(prefix="kills-") as room, contextlib.ExitStack() as stack:
            life = Life(City(program, room, configuration()), replay, f"{seed} {before}")
            server = stack.enter_context(life.city.serve())
            for number in range(before, min(before + KILLS_OF_A_FOLDER, kills)):
                server = killed(tried, stack, life, server, number, choice)
            tried.one(f"the end behind kill {number + 1}", ends_well(server))
            asked, kept = asked + life.asked, kept + len(life.lines)
    print(f"{asked} requests were answered, {kept} are in the journals; seed {seed}")


def ends_well(server):
    """A server that is told to stop ends with 0, and prints nothing."""
    if (found := server.end()) != (0, b"", b""):
        yield f"ends with {found}"


def main(text, kills, lives):
    """Reads the arguments of a test of kills, which this text describes, has `lives` kill so often, and tells how it went."""
    parser = argparse.ArgumentParser(description=text, formatter_class=argparse.RawDescriptionHelpFormatter)
    parser.add_argument("program")
    parser.add_argument("kills", type=int, nargs="?", default=kills)
    parser.add_argument("--replay", default=REPLAY, help="the built mds_replay")
    parser.add_argument("--seed", type=int, default=1)
    options = parser.parse_args()
    if options.kills < 1:
        parser.error("at least one kill")
    tried, begun = Tried(), time.monotonic()
    try:
        lives(tried, os.path.abspath(options.program), options.kills, os.path.abspath(options.replay), options.seed)
    except (OSError, ValueError) as fault:
        print(repr(fault))
        tried.failed += 1
    print(f"{options.kills} kills in {time.monotonic() - begun:.0f} s")
    return tried.told()


if __name__ == "__main__":
    sys.exit(main(__doc__, KILLS, lives))
