#!/usr/bin/env python3
"""How operators stand, as the author and they themselves are told: starts ruffletuff, and asks for /app/compliance and /app/fleet.

    oversight.py PROGRAM [--replay FILE]

Expects what docs/HTTP.md gives: the author sees as much as the configuration's `oversight` says, and an operator its own always; each part
of /app/compliance, and each operator's path, is what that operator is answered to its own GET /compliance and GET /fleet/vehicles, byte for
byte but for the moment, which is the answer's; operators come in the configuration's order, with the names that are names; none of it
leaves an entry in the journal or a sync. While operators report and the author publishes, each part is, byte for byte, what mds_replay
answers that operator at the same moment behind some of the publications and of its reports: no less than were answered before the author
asked, and no more than were sent before the answer came. And the same requests have the same answers, whether the author asks all the time
or not at all, and from mds_replay. Prints what is otherwise, and last 'N passed, M failed'; ends with 1 where one failed.
"""

import argparse
import contextlib
import itertools
import json
import os
import re
import sys
import threading
import time

from app import expect, refused
from clients import names, place, policy, succeed, these_policies
from journals import REPLAY
from kept import Alone, Tried, ended, line_of, replayed, split
from wire import AUTHOR, FIRST, SECOND, SLOWNESS, Link, identifier, report, request

THIRD, ZONE = "charlie", "Z"
ALFA, BRAVO, CHARLIE = (identifier(0, n) for n in (0xA1, 0xB1, 0xC1))
NAME = 'Alfa "Räder" </script>'
TOKENS = {ALFA: FIRST, BRAVO: SECOND, CHARLIE: THIRD}
RING = "[[0,0],[9,0],[9,9],[0,9],[0,0]]"
CAP = 1  # the policy, its geography and its rule
MOST = 2  # vehicles, that the rule allows
ROUNDS = 60 if SLOWNESS == 1 else 15
PUBLICATIONS = 6  # further ones, under load
COMPARED = 150 if SLOWNESS == 1 else 30  # of the author's answers under load, at most
MOMENT = re.compile(rb'^\{"at":\d+,')


def configured(oversight):
    """A city of three operators, one of which has a name that is one."""
    operators = [
        {"id": ALFA, "limit": 500, "token": FIRST, "name": NAME},
        {"id": BRAVO, "limit": 500, "token": SECOND, "name": 3},
        {"id": CHARLIE, "limit": 500, "token": THIRD},
    ]
    given = {"author": AUTHOR, "operators": operators, "zone": ZONE}
    return json.dumps(given | ({"oversight": oversight} if oversight else {})).encode()


def rule():
    """At most two vehicles in the place."""
    return f'[{{"rule_id":"{identifier(3, 1)}","name":"r","rule_type":"count","geographies":["{identifier(1, CAP)}"],"maximum":{MOST}}}]'


def publication():
    """The requests that publish a place, and a policy that allows two vehicles there, for all operators."""
    return [
        ("PUT", f"/drafts/geographies/{identifier(1, CAP)}", place(CAP, RING)),
        ("PUT", f"/drafts/policies/{identifier(2, CAP)}", policy(CAP, rules=rule())),
        ("POST", "/publish", names(1, "geographies", [CAP])[:-1] + b"," + names(2, "policies", [CAP])[1:]),
    ]


def publish(server):
    """Publishes these."""
    expect(not list(succeed(server, AUTHOR, publication())), "the policy wasn't published")


def told(server, path, token):
    """The body of a success, which no cache may keep."""
    answer = server.ask("GET", path, token)
    expect(answer.status == 200, f"{path} for {token}: {answer}")
    expect(answer.fields.get("cache-control") == ["no-store"], f"{path}: {answer.fields.get('cache-control')}")
    return answer.body


def timeless(body):
    """A reply to GET /compliance without its moment."""
    expect(MOMENT.match(body), f"no moment: {body[:80]}")
    return MOMENT.sub(b"{", body)


def parts(body):
    """The parts of the author's answer: of each operator its identifier, its name or None, and its own reply; all at one moment."""
    head = re.match(rb'\{"at":(\d+),"operators":\[', body)
    expect(head and body.endswith(b"]}"), f"another form: {body[:80]} .. {body[-20:]}")
    given = json.loads(body)["operators"]
    texts = []
    rest = body[head.end() : -2]
    for number, entry in enumerate(given):
        rest = rest.removeprefix(b",") if number else rest
        tail = b"," + json.dumps({"id": entry["id"]} | ({"name": entry["name"]} if "name" in entry else {}),
                                 separators=(",", ":"), ensure_ascii=False).encode()[1:]
        text, found, rest = rest.removeprefix(b'{"compliance":').partition(tail)
        expect(found, f"no entry of {entry['id']}")
        expect(json.loads(text) == entry["compliance"], "a part that is none")
        expect(text.startswith(b'{"at":' + head[1] + b","), f"another moment: {text[:40]} at {head[1]}")
        texts.append((entry["id"], entry.get("name"), text))
    expect(rest == b"", f"behind the parts stands {rest[:80]}")
    return texts


def measure(text):
    """How many vehicles the rule counts, in a reply to GET /compliance."""
    found = json.loads(text)["policies"]
    return found[0]["rules"][0]["measure"] if found else None


def settings(program):
    """The author sees as much as the configuration says; an operator sees its own, and no other's."""
    for oversight, verdicts, vehicles in ((None, 403, 403), ("none", 403, 403), ("verdicts", 200, 403), ("vehicles", 200, 200)):
        with Alone(program, configured(oversight)) as server:
            for path, status in (("/app/compliance", verdicts), (f"/app/compliance/{ALFA}", verdicts), (f"/app/fleet/{ALFA}", vehicles)):
                answer = server.ask("GET", path, AUTHOR)
                expect(answer.status == status, f"{path} at {oversight}: {answer}")
                if status == 403:
                    refused(server, "GET", path, AUTHOR, 403, "role")
            unknown = identifier(0, 0xD1)
            for path, status in ((f"/app/compliance/{unknown}", verdicts), (f"/app/fleet/{unknown}", vehicles)):
                refused(server, "GET", path, AUTHOR, *((404, "not_found") if status == 200 else (403, "role")))
            for path in ("/app/compliance/x", "/app/fleet/x"):
                refused(server, "GET", path, AUTHOR, 400, "bad_id")
            refused(server, "GET", "/app/fleet", AUTHOR, 403, "role")
            for path in (f"/app/compliance/{ALFA}", f"/app/compliance/{BRAVO}", f"/app/fleet/{ALFA}", f"/app/fleet/{BRAVO}"):
                refused(server, "GET", path, FIRST, 403, "role")
                refused(server, "GET", path, "nobody", 401, "token")
            expect(told(server, "/app/fleet", FIRST) == b'{"vehicles":[]}', "an operator's own fleet")
            expect(timeless(told(server, "/app/compliance", FIRST)) == timeless(told(server, "/compliance", FIRST)), "its own compliance")
    yield from ()


def own_answers(program):
    """Each part is the operator's own answer, before and after it has vehicles and policies, in order and with its name."""
    with Alone(program, configured("vehicles")) as server:
        for vehicles in (0, 1, MOST + 1):
            if vehicles == 1:
                publish(server)
            for number in range(vehicles):
                for token in (FIRST, THIRD):
                    expect(server.ask("POST", "/fleet/events", token, report(number)).status == 200, "a report")
            found = parts(told(server, "/app/compliance", AUTHOR))
            expect([it[:2] for it in found] == [(ALFA, NAME), (BRAVO, None), (CHARLIE, None)], f"{[it[:2] for it in found]}")
            for operator, _, text in found:
                own = told(server, "/compliance", TOKENS[operator])
                expect(timeless(text) == timeless(own), f"{operator}: {text} in the place of {own}")
                expect(timeless(told(server, f"/app/compliance/{operator}", AUTHOR)) == timeless(own), f"{operator} alone")
                expect(timeless(told(server, "/app/compliance", TOKENS[operator])) == timeless(own), f"{operator} for itself")
                fleet = told(server, "/fleet/vehicles", TOKENS[operator])
                expect(told(server, f"/app/fleet/{operator}", AUTHOR) == fleet, f"the vehicles of {operator}")
                expect(told(server, "/app/fleet", TOKENS[operator]) == fleet, f"the vehicles of {operator} for itself")
            wanted = {ALFA: vehicles, BRAVO: 0, CHARLIE: vehicles}
            if vehicles:
                expect({it: measure(text) for it, _, text in found} == wanted, f"measures {found} in the place of {wanted}")
        kept = {name: value for name, value in counted(server).items() if name.startswith(("ruffletuff_journal", "ruffletuff_sync"))}
        for _ in range(20):
            told(server, "/app/compliance", AUTHOR)
            told(server, f"/app/fleet/{ALFA}", AUTHOR)
            told(server, "/app/fleet", FIRST)
        after = counted(server)
        expect({it: after[it] for it in kept} == kept, f"a question left something in the journal: {kept} and {after}")
    yield from ()


def counted(server):
    """The numbers that the control port tells."""
    lines = server.asked("GET", "/metrics")[1].decode().splitlines()
    return {name: value for name, _, value in (it.rpartition(" ") for it in lines if it and not it.startswith("#"))}


class Asker(threading.Thread):
    """The author, who asks for each operator's compliance all the time; each answer with what it calls before and after."""

    def __init__(self, server, before, after):
        super().__init__()
        self.server, self.before, self.after = server, before, after
        self.told, self.fault, self.over = [], None, threading.Event()

    def run(self):
        try:
            with Link(self.server.port) as link:
                while not self.over.is_set():
                    least = self.before()
                    link.send(request("GET", "/app/compliance", AUTHOR))
                    answer = link.answer()
                    expect(answer.status == 200, f"the author: {answer}")
                    self.told.append((least, answer.body, self.after()))
        except Exception as fault:  # pylint: disable=broad-except
            self.fault = fault

    def __enter__(self):
        self.start()
        return self

    def __exit__(self, *_):
        self.over.set()
        self.join()
        if self.fault:
            raise ValueError(f"the author: {self.fault!r}")


class Load:
    """A city whose operators report, each over a connection of its own, while its author publishes and asks: how many reports of each
    operator and how many publications were sent and answered, and what the author was told, each time with how many were answered before
    and sent behind."""

    def __init__(self, server):
        self.server = server
        self.sent, self.answered = ({it: 0 for it in (*TOKENS, AUTHOR)} for _ in range(2))
        self.faults = []

    def send(self, link, who, token, *asked):
        """Sends a request that counts, and waits for its success."""
        self.sent[who] += 1
        link.send(request(*asked[:2], token, asked[2]))
        expect(link.answer(asked[0]).status == 200, f"{asked[:2]} of {token}")
        self.answered[who] += 1

    def operate(self, operator):
        with Link(self.server.port) as link:
            for number in range(ROUNDS):
                self.send(link, operator, TOKENS[operator], "POST", "/fleet/events", report(number))

    def publish(self, _):
        """A further policy each time a part of the reports is through."""
        with Link(self.server.port) as link:
            for number in range(1, PUBLICATIONS + 1):
                while not self.faults and self.answered[ALFA] < ROUNDS * number // (PUBLICATIONS + 1):
                    time.sleep(0.001)
                name = CAP + number
                link.send(request("PUT", f"/drafts/policies/{identifier(2, name)}", AUTHOR, policy(name, rules=rule())))
                expect(link.answer("PUT").status == 200, "a draft")
                self.send(link, AUTHOR, AUTHOR, "POST", "/publish", these_policies(name))

    def do(self, call, who):
        try:
            call(who)
        except Exception as fault:  # pylint: disable=broad-except
            self.faults.append(f"{who}: {fault!r}")

    def told(self):
        """All of it is done; what the author was told meanwhile."""
        calls = [(self.operate, it) for it in TOKENS] + [(self.publish, AUTHOR)]
        with Asker(self.server, lambda: dict(self.answered), lambda: dict(self.sent)) as author:
            threads = [threading.Thread(target=self.do, args=it) for it in calls]
            for it in threads:
                it.start()
            for it in threads:
                it.join()
        expect(not self.faults, f"under load: {self.faults}")
        return author.told


def script_of(server):
    """What a served city was asked that its journal keeps: the configuration's line, and the lines of each client in their order."""
    status, out, err = ended(server.program, "audit", server.folder, "--config", os.path.join(server.room, "city.json"))
    expect((status, err) == (0, b""), f"audit ends with {status}: {err[:200]}")
    first, *lines = out.decode().splitlines()
    return first, {token: [it for it in lines if split(it)[1].startswith(f"{token} ")] for token in (AUTHOR, *TOKENS.values())}


def published_by(lines, count):
    """The author's lines up to its publication of this number, from 0 as none."""
    ends = [0, *(number + 1 for number, it in enumerate(lines) if " POST /publish " in it)]
    return lines[: ends[count]]


def answered_by(replay, first, lines, publications, wanted):
    """What mds_replay answers an operator behind so many publications, by the operator, the number of its reports before and the moment:
    to each of the questions that are wanted, of an operator and a number of reports the moments."""
    asked, places = published_by(lines[AUTHOR], publications), {}
    for operator, token in TOKENS.items():
        for number in range(ROUNDS + 1):
            for at in sorted(wanted.get((operator, number), ())):
                places[operator, number, at] = len(asked)
                asked.append(f"{at} {line_of(token, 'GET', '/compliance')}")
            asked.extend(lines[token][number : number + 1])
    answers = replayed(replay, first, asked)
    return {key: answers[place_].encode() for key, place_ in places.items()}


def under_load(program, replay):
    """While operators report and the author publishes, each part is what that operator is answered at that moment, behind as many reports
    and publications as there may have been."""
    with Alone(program, configured("verdicts")) as server:
        publish(server)
        told_all = Load(server).told()
        first, lines = script_of(server)
    picked = told_all[:: max(1, -(-len(told_all) // COMPARED))]
    parts_told, wanted = [], {}
    for least, body, most in picked:
        for operator, _, text in parts(body):
            at = json.loads(text)["at"]
            ranges = (range(least[it], most[it] + 1) for it in (AUTHOR, operator))
            places = list(itertools.product(*ranges))
            parts_told.append((operator, at, places, text))
            for number, count in places:
                wanted.setdefault(number, {}).setdefault((operator, count), set()).add(at)
    # One publication came before the load.
    answers = {number: answered_by(replay, first, lines, number + 1, them) for number, them in wanted.items()}
    seen = set()
    for operator, at, places, text in parts_told:
        right = [it for it in places if answers[it[0]][operator, it[1], at] == b"200 " + text]
        expect(right, f"{operator} at {at} is told {text}, as behind none of {places[0]} to {places[-1]} publications and reports")
        seen.add(right[0])
    print(f"{len(parts_told)} parts of {len(picked)} answers, behind {len({it for it, _ in seen})} numbers of publications")
    expect(len({it for _, it in seen}) > 2 and len({it for it, _ in seen}) > 1, f"the author saw no change: {seen}")
    yield from ()


def asked_again():
    """The same requests in the same order: of the author, who publishes once, and of each operator."""
    for step in range(ROUNDS // 2):
        if step == ROUNDS // 4:
            yield from ((AUTHOR, *it) for it in publication())
        for token in TOKENS.values():
            yield token, "POST", "/fleet/events", report(step % 7, 2000 + step)
            yield token, "GET", "/compliance", b""
            yield token, "DELETE", f"/fleet/vehicles/{identifier(4, step % 5)}", b""
            yield token, "GET", "/fleet/vehicles", b""


def in_lines(answered):
    """What each operator is answered, a line for each status and body, without moments."""
    found = dict.fromkeys(TOKENS.values(), b"")
    for token, status, body in answered:
        if token != AUTHOR:
            found[token] += b"%d %s\n" % (status, MOMENT.sub(b"{", body))
    return found


def served(program, is_watched):
    """What each operator is answered over HTTP, whether the author asks all the time or not."""
    with Alone(program, configured("vehicles")) as server, contextlib.ExitStack() as stack:
        if is_watched:
            stack.enter_context(Asker(server, dict, dict))
        links, answered = {it: stack.enter_context(Link(server.port)) for it in (AUTHOR, *TOKENS.values())}, []
        for token, method, path, body in asked_again():
            links[token].send(request(method, path, token, body))
            answer = links[token].answer(method)
            answered.append((token, answer.status, answer.body))
        return in_lines(answered)


def replayed_again(replay):
    """What each operator is answered by mds_replay."""
    at, asked = time.time_ns() // 1_000_000, list(asked_again())
    lines = [f"{at} {line_of(token, method, path, body.decode())}" for token, method, path, body in asked]
    answers = replayed(replay, configured("vehicles").decode(), lines)
    found = [(it[0], *answer.encode().split(b" ", 1)) for it, answer in zip(asked, answers, strict=True)]
    return in_lines((token, int(status), body) for token, status, body in found)


def watched_or_not(program, replay):
    """Each operator's answers are the same, byte for byte but for the moments, whether the author asks all the time or not at all, and those
    of mds_replay."""
    watched, alone, replayed_ = served(program, True), served(program, False), replayed_again(replay)
    for token in TOKENS.values():
        expect(watched[token] == alone[token], f"{token} is answered otherwise where the author asks")
        expect(watched[token] == replayed_[token], f"{token} is answered otherwise by mds_replay")
    yield from ()


def main():
    parser = argparse.ArgumentParser(description=__doc__, formatter_class=argparse.RawDescriptionHelpFormatter)
    parser.add_argument("program", help="the built ruffletuff")
    parser.add_argument("--replay", default=REPLAY, help="the built mds_replay")
    given = parser.parse_args()
    program, replay = os.path.abspath(given.program), os.path.abspath(given.replay)
    found = Tried()
    for call, words in ((settings, ()), (own_answers, ()), (under_load, (replay,)), (watched_or_not, (replay,))):
        found.one(call.__name__.replace("_", " "), call(program, *words))
    return found.told()


if __name__ == "__main__":
    sys.exit(main())
