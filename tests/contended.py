#!/usr/bin/env python3
"""Reports one device over eight connections at once, while two connections of the author's draft, replace and publish, and four more put
one draft and take it away, kills ruffletuff by SIGKILL meanwhile, and starts it again.

    contended.py PROGRAM [KILLS] [--replay FILE] [--seed NUMBER]

What a desk or the author's room answers under its lock has to be in the journal in that order, or the next start is refused, or answers
another thing than was told. So each start has to be ready; the journal's audit has what it had before the kill, and behind it, of each
connection, what was answered with success since, in order and once, and at most the one request that had no answer yet; and each answer is
what mds_replay answers to the audit, byte for byte. Ten kills go to one folder; 100 take about a minute. Prints what differs, and last 'N
passed, M failed', by kills; ends with 1 where one failed.
"""

import contextlib
import itertools
import random
import sys
import tempfile

from kept import City, replayed, split
from kills import LOAD_SECONDS, OPERATOR, POLICY, RULE, SQUARE, Client, ask_until_killed, main
from wire import AUTHOR, FIRST, identifier

CONNECTIONS, AUTHORS, DRAFTERS = 8, 2, 4
KILLS, KILLS_OF_A_FOLDER = 100, 10
DEVICE, DRAFT = identifier(4, 1), identifier(POLICY, 0)


def configuration():
    return {"author": AUTHOR, "operators": [{"id": identifier(OPERATOR, 1), "limit": 3, "token": FIRST}], "zone": "Z"}


class Reporter(Client):
    """Reports the one device, each time at a later second that no other connection has."""

    def __init__(self, number, seconds, seed):
        super().__init__(FIRST, f"{seed} {number}")
        self.seconds = seconds

    def next(self):
        state = self.choice.choice(("available", "on_trip"))
        return "POST", "/fleet/events", (
            f'{{"device_id":"{DEVICE}","vehicle_type":"scooter","vehicle_state":"{state}",'
            f'"timestamp":{next(self.seconds)},"location":{{"lat":5,"lng":5}}}}'
        )


class Author(Client):
    """Drafts a policy, replaces the draft, and publishes it, each time one that no other connection has."""

    def __init__(self, number, names, seed):
        super().__init__(AUTHOR, f"{seed} author {number}")
        self.names, self.step, self.policy = names, 0, None

    def ask_all(self, port):
        self.step = 0
        super().ask_all(port)

    def next(self):
        if self.step == 0:
            self.policy = identifier(POLICY, next(self.names))
        self.step = (self.step + 1) % 3
        if self.step == 0:
            return "POST", "/publish", f'{{"policies":["{self.policy}"]}}'
        rule = (
            f'{{"rule_id":"{identifier(RULE, 1)}","name":"cap","rule_type":"count",'
            f'"geographies":["{identifier(SQUARE, 1)}"],"maximum":{self.step}}}'
        )
        head = f'"policy_id":"{self.policy}","name":"cap {self.count}","start_date":1000'
        return "PUT", f"/drafts/policies/{self.policy}", f'{{{head},"prev_policies":[],"rules":[{rule}]}}'


class Drafter(Client):
    """Puts one draft, which all of these connections put, and takes it away, by chance."""

    def __init__(self, number, seed):
        super().__init__(AUTHOR, f"{seed} drafter {number}")
        self.number = number

    def next(self):
        # No other connection asks the same: what is taken away is so with a body, which is kept and not read.
        own = f"{self.number} {self.count}"
        if self.choice.random() < 0.5:
            return "DELETE", f"/drafts/policies/{DRAFT}", f'"{own}"'
        return "PUT", f"/drafts/policies/{DRAFT}", f'{{"policy_id":"{DRAFT}","name":"{own}","start_date":1000,"rules":[]}}'


def publish_square(server):
    """Publishes the geography of all policies, once. Gives the requests, and what each was answered."""
    ring = "[[0,0],[10,0],[10,10],[0,10],[0,0]]"
    square = identifier(SQUARE, 1)
    geometry = f'{{"type":"Polygon","coordinates":[{ring}]}}'
    asked = [
        ("PUT", f"/drafts/geographies/{square}", f'{{"geography_id":"{square}","name":"square","geography_json":{geometry}}}'),
        ("POST", "/publish", f'{{"geographies":["{square}"]}}'),
    ]
    for method, target, body in asked:
        answer = server.ask(method, target, AUTHOR, body.encode())
        if answer.status != 200:
            raise ValueError(f"{method} {target}: {answer}")


class Life:
    """A city that is killed and started again, with the connections that ask it."""

    def __init__(self, city, replay, seed):
        self.city, self.replay = city, replay
        seconds, names = itertools.count(10_000), itertools.count(1)
        self.clients = [Reporter(it, seconds, seed) for it in range(CONNECTIONS)] + [Author(it, names, seed) for it in range(AUTHORS)]
        self.clients += [Drafter(it, seed) for it in range(DRAFTERS)]
        self.lines, self.asked = [], 0

    def faults(self):
        """What is wrong after a restart."""
        first, lines = self.city.audit()
        if lines[: len(self.lines)] != self.lines:
            yield "what the journal had before the kill isn't there any more, or has changed"
            return
        answers = replayed(self.replay, first, lines)
        new = [(split(line)[1], answer) for line, answer in zip(lines, answers)][len(self.lines) :]
        for it in self.clients:
            yield from self.otherwise(it, new)
        known = {it.line(asked) for it in self.clients for asked in [*(one[0] for one in it.answered), it.open] if asked}
        if strange := [asked for asked, _ in new if asked not in known]:
            yield f"the journal has {strange[0][:200]!r}, which nobody asked"
        self.lines = lines

    @staticmethod
    def otherwise(client, new):
        """What a connection was told otherwise than a replay of the journal tells, or than the journal has."""
        told = client.kept()
        mine = {line for line, _ in told}
        found = [(asked, answer) for asked, answer in new if asked in mine]
        if found == told:
            return
        if [asked for asked, _ in found] != [asked for asked, _ in told]:
            yield f"of {len(told)} requests that were answered with success the journal has {len(found)}, or in another order"
        for (asked, answer), (_, reply) in zip(found, told):
            if answer != reply:
                yield f"{asked[:80]} was answered {reply[:200]!r}, and a replay answers {answer[:200]!r}"


def lives(tried, program, kills, replay, seed):
    """Each folder with its kills."""
    choice, asked, kept = random.Random(seed), 0, 0
    for before in range(0, kills, KILLS_OF_A_FOLDER):
        with tempfile.TemporaryDirectory(prefix="contended-") as room, contextlib.ExitStack() as stack:
            life = Life(City(program, room, configuration()), replay, f"{seed} {before}")
            server = stack.enter_context(life.city.serve())
            publish_square(server)
            life.lines = life.city.audit()[1]
            for number in range(before, min(before + KILLS_OF_A_FOLDER, kills)):
                life.asked += ask_until_killed(life.clients, server, choice.uniform(0.02, LOAD_SECONDS))
                server = stack.enter_context(life.city.serve())
                tried.one(f"kill {number + 1}", life.faults())
            asked, kept = asked + life.asked, kept + len(life.lines)
    print(f"{asked} requests were answered, {kept} are in the journals; seed {seed}")


if __name__ == "__main__":
    sys.exit(main(__doc__, KILLS, lives))
