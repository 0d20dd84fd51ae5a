#!/usr/bin/env python3
"""What stood at moments of the past, as a server tells it while it serves: `?at=MOMENT` of /app/compliance and /app/fleet.

    past.py PROGRAM [--replay FILE] [--cities NUMBER] [--seed TEXT]

Cities are made by chance as for tests/report.py, in the days before now. At many moments each reply is worked out another way: into the
script that `ruffletuff audit` prints, the operator's own question is put in front of the first request that is later, and mds_replay
answers; that is what the operator, and the author by each oversight, are to be told, byte for byte, also behind changes that come later.
Refusals are tried in their order; a journal that was thinned with an archive, without one, and with one whose files are gone or damaged;
one that is replaced by a thinned one while a question looks for it (wants a compiler of C, packages.py); questions of three clients at
once, of which one is worked out; and that a question leaves nothing behind. Prints what differs, and last 'N passed, M failed'; ends with
1 where one failed.
"""

import argparse
import json
import os
import re
import shutil
import sys
import tempfile
import threading
import time

import packages
import records
from app import expect, refused
from journals import REPLAY
from kept import Alone, City, Tried, ended, exchanging, replayed, split
from oversight import ALFA, BRAVO, CHARLIE, configured, counted, parts
from report import ALFA_ID, BRAVO_ID, DAY, HOUR, NEW_YORK, Chance, accepted, line, payloads
from report import configuration as of_report
from wire import AUTHOR, FIRST, PATIENCE, SECOND, SLOWNESS, Closed, identifier, report

IDS = {FIRST: ALFA_ID, SECOND: BRAVO_ID}
CITIES, SEED = 4, "1"
# Moments of a city at which it is asked.
MOMENTS = 12
# The reports of a journal that is long enough for two questions to meet.
MANY = 40_000 if SLOWNESS == 1 else 6_000
LINES = 4_000
NOT_KEPT, BUSY = b'{"error":"not_kept"}', b'{"error":"busy"}'
UNTOLD = re.compile(rb"ruffletuff: what stood at \d+ isn't told: .+\n")


def now():
    """The machine's clock, in milliseconds."""
    return time.time_ns() // 1_000_000


def of_city(oversight="vehicles"):
    """The configuration of a city that is made by chance."""
    return of_report(zone=NEW_YORK) | {"oversight": oversight}


class PastCity(City):
    """A folder with a journal of these lines, which has been the city's own from its beginning."""

    def __init__(self, program, room, given, lines):
        super().__init__(program, room, given)
        os.mkdir(self.folder)
        with open(self.journal, "wb") as file:
            file.write(records.written(payloads(lines)))
        with open(os.path.join(self.folder, "compactions"), "wb"):
            pass


def asked(server, path, token, at):
    """What is answered to a question about a moment."""
    return server.ask("GET", f"{path}?at={at}", token)


def told(server, path, token, at):
    """The body of a success, which no cache may keep."""
    answer = asked(server, path, token, at)
    expect(answer.status == 200, f"{path}?at={at} for {token}: {answer}")
    expect(answer.fields.get("cache-control") == ["no-store"], f"{path}: {answer.fields.get('cache-control')}")
    return answer.body


def is_refused(answer, status, body, what):
    """It is this refusal, which no cache may keep."""
    expect(answer.is_by_the_server(status, body), f"{what}: {answer}")
    expect(answer.fields.get("cache-control") == ["no-store"], f"{what}: {answer.fields.get('cache-control')}")


# --- Another way ---------------------------------------------------------------------------------------------------


def worked_out(replay, first, lines, moments):
    """What each operator is answered at moments, by token, target and moment: its question is put in front of the first line that is later."""
    asked_all, places, questions = [], {}, {}
    for at in moments:
        early = next((number for number, it in enumerate(lines) if split(it)[0] > at), len(lines))
        for token in IDS:
            for target in ("/compliance", "/fleet/vehicles"):
                questions.setdefault(early, []).append(((token, target, at), line(at, token, "GET", target)))
    for number in range(len(lines) + 1):
        for key, question in questions.get(number, ()):
            places[key] = len(asked_all)
            asked_all.append(question)
        asked_all.extend(lines[number : number + 1])
    answers = replayed(replay, first, asked_all)
    found = {}
    for key, place in places.items():
        status, _, body = answers[place].partition(" ")
        expect(status == "200", f"{asked_all[place]} is answered {answers[place]}")
        found[key] = body.encode()
    return found


def some_moments(lines, count):
    """Moments of a journal: the first and the last one, just beside some of them, between two, and before and behind all."""
    all_ = sorted({split(it)[0] for it in lines})
    picked = all_[:: max(1, len(all_) // count)]
    return sorted({0, all_[0] - 1, all_[-1], all_[-1] + 1, *picked, *(it - 1 for it in picked[1::2]), *(it + 1 for it in picked[::3])})


def compared(server, wanted, moments):
    """Each operator's own replies, and the author's of each and of all."""
    for at in moments:
        for token, operator in IDS.items():
            own = {target: wanted[token, target, at] for target in ("/compliance", "/fleet/vehicles")}
            for path, who, target in (
                ("/app/compliance", token, "/compliance"),
                ("/app/fleet", token, "/fleet/vehicles"),
                (f"/app/compliance/{operator}", AUTHOR, "/compliance"),
                (f"/app/fleet/{operator}", AUTHOR, "/fleet/vehicles"),
            ):
                found = told(server, path, who, at)
                if found != own[target]:
                    yield f"{path}?at={at} for {who} is {found[:200]} in the place of {own[target][:200]}"
        found = {operator: text for operator, _, text in parts(told(server, "/app/compliance", AUTHOR, at))}
        if found != {operator: wanted[token, "/compliance", at] for token, operator in IDS.items()}:
            yield f"/app/compliance?at={at} of the author is {found}"


def moments_of_the_past(given):
    """At each moment what was to be answered then, whatever comes later; and again behind a restart."""
    for number in range(given.cities):
        with tempfile.TemporaryDirectory(prefix="past-") as room:
            chance = Chance(f"{given.seed}/{number}", now() - 5 * DAY)
            lines = accepted(given.replay, of_city(), [it for it in chance.asked if it[0] < now() - HOUR])
            city = PastCity(given.program, room, of_city(), lines)
            moments = some_moments(lines, MOMENTS)
            first, kept = city.audit()
            wanted = worked_out(given.replay, first, kept, moments)
            for _ in range(2):
                with city.serve() as server:
                    yield from compared(server, wanted, moments)
                    for device in range(3):
                        expect(server.ask("POST", "/fleet/events", FIRST, report(device, now())).status == 200, "a report")
                    yield from compared(server, wanted, moments[:: len(moments) // 2])
                    at = now()
                    found = told(server, "/app/fleet", FIRST, at)
                    expect(found == server.ask("GET", "/fleet/vehicles", FIRST).body, f"what stands now, asked of now: {found[:200]}")
                    server.stop()


# --- Refusals ------------------------------------------------------------------------------------------------------


def refusals(given):
    """Each in its order, by each oversight; and queries that ask for no moment."""
    for oversight, verdicts, vehicles in ((None, False, False), ("none", False, False), ("verdicts", True, False), ("vehicles", True, True)):
        with Alone(given.program, configured(oversight)) as server:
            late, wrong = now() + HOUR, "?at=x"
            unknown = identifier(0, 0xD1)
            for path in ("/app/compliance", "/app/fleet", f"/app/compliance/{ALFA}", f"/app/fleet/{ALFA}"):
                for token in ("nobody", ""):
                    refused(server, "GET", path + wrong, token, 401, "token")
                for method in ("POST", "PUT", "DELETE", "HEAD") if path.count("/") == 2 else ("POST",):
                    answer = server.ask(method, path + wrong, AUTHOR)
                    expect(answer.status == 405, f"{method} {path}: {answer}")
            refused(server, "GET", "/app/fleet" + wrong, AUTHOR, 403, "role")
            for path in (f"/app/compliance/{ALFA}", f"/app/fleet/{ALFA}", "/app/compliance/x", "/app/fleet/x"):
                refused(server, "GET", path + wrong, FIRST, 403, "role")
            for path in ("/app/compliance/x", "/app/fleet/x"):
                refused(server, "GET", path + wrong, AUTHOR, 400, "bad_id")
            for path, is_seen in (("/app/compliance", verdicts), (f"/app/compliance/{unknown}", verdicts), (f"/app/fleet/{unknown}", vehicles)):
                if not is_seen:
                    refused(server, "GET", path + wrong, AUTHOR, 403, "role")
                elif path != "/app/compliance":
                    refused(server, "GET", path + wrong, AUTHOR, 404, "not_found")
            seen = [("/app/compliance", FIRST), ("/app/fleet", SECOND)]
            seen += [("/app/compliance", AUTHOR), (f"/app/compliance/{BRAVO}", AUTHOR)] if verdicts else []
            seen += [(f"/app/fleet/{CHARLIE}", AUTHOR)] if vehicles else []
            for path, token in seen:
                for text in ("", "x", "-1", "1.5", "1e3", "+1", " 1", "%31", "00000000000001", "12345678901234", "4102444800000", "1&at=1", "1&x=2&at="):
                    refused(server, "GET", f"{path}?at={text}".replace(" ", "%20"), token, 400, "bad_number")
                for query in ("?at", "?x&at", "?at&at=1"):
                    refused(server, "GET", path + query, token, 400, "bad_number")
                refused(server, "GET", f"{path}?at={late}", token, 409, "future")
                for query in ("?at=0", "?x=1&at=0", "?at=0&", "?at=0000000000001"):
                    expect(server.ask("GET", path + query, token).status == 200, f"{path}{query}")
                for query in ("", "?", "?x", "?At=0", "?a=0", "?att=0", "?x=at=0", "?%61t=0"):
                    expect(server.ask("GET", path + query, token).status == 200, f"{path}{query}")
                    if "compliance" in path:
                        at = json.loads(server.ask("GET", path + query, token).body)["at"]
                        expect(abs(at - now()) < HOUR, f"{path}{query} is of {at}")
            for path in ("/app/whoami", "/compliance", "/fleet/vehicles", "/policies"):
                expect(server.ask("GET", path + wrong, FIRST).status == 200, f"{path}: a moment counts")
    yield from ()


# --- Journals that were thinned --------------------------------------------------------------------------------------


def thinned(city, *words):
    """Thins the journal of a city that isn't served."""
    status, _, err = ended(city.program, "thin", city.folder, "--config", city.file, *words)
    expect(status == 0, f"thin ends with {status}: {err[:200]}")


def reports(server, token, numbers):
    """Reports of vehicles; gives the moment behind them, before which the clock is waited for to go on."""
    for number in numbers:
        expect(server.ask("POST", "/fleet/events", token, report(number, now())).status == 200, "a report")
    time.sleep(0.01)
    at = now()
    time.sleep(0.01)
    return at


def an_archive(given):
    """Before a compaction the archived journal tells, behind it the present one; without an archive, or where its file is gone or damaged,
    nothing is told of what was before, and never today's vehicles."""
    with tempfile.TemporaryDirectory(prefix="past-") as room:
        city = City(given.program, room, configured("vehicles"))
        archive = os.path.join(room, "archive")
        os.mkdir(archive)
        at, bodies = [], []
        for step in range(3):
            with city.serve("--archive", archive) as server:
                for it, body in zip(at, bodies, strict=True):
                    expect(told(server, "/app/fleet", FIRST, it) == body, f"step {step}: another fleet at {it}")
                    expect(told(server, f"/app/fleet/{ALFA}", AUTHOR, it) == body, f"step {step}: another fleet of alfa at {it}")
                for _ in range(2):
                    at.append(reports(server, FIRST, (3 * step, 3 * step + 1, 3 * step)))
                    bodies.append(told(server, "/app/fleet", FIRST, at[-1]))
                server.stop()
            if step < 2:
                thinned(city, "--archive", archive)
        expect(len(set(bodies)) == 6, "fleets are the same at moments")
        names = sorted(os.listdir(archive), key=lambda it: int(it.split("-")[2].partition(".")[0]))
        expect(len(names) == 2, f"the archive has {names}")
        damaged = os.path.join(archive, names[0])
        with open(damaged, "rb") as file:
            bytes_ = file.read()
        with open(damaged, "wb") as file:
            file.write(bytes_.replace(b"scooter", b"bicycle", 1))
        os.remove(os.path.join(archive, names[1]))
        # The first archived journal, which is damaged, tells of at[0], and the second one, which is gone, of at[1] and at[2]; behind the
        # latest entry of that, the present journal has it all.
        for words in (("--archive", archive), ()):
            with city.serve(*words) as server:
                for path, token in (("/app/fleet", FIRST), ("/app/compliance", AUTHOR)):
                    for it in at[:3]:
                        is_refused(asked(server, path, token, it), 410, NOT_KEPT, f"{path}?at={it}")
                for it, body in zip(at[3:], bodies[3:], strict=True):
                    expect(told(server, "/app/fleet", FIRST, it) == body, f"another fleet at {it}")
                _, _, said = server.end()
            # An archived file that is damaged isn't the journal that was archived: it is as if it were gone.
            expect(not UNTOLD.findall(said), f"standard error says {said[:300]}")
    yield from ()


def reported_twice(given, room):
    """A city one of whose vehicles was reported before a moment, and again behind it; that moment, and the fleet as it stood then."""
    city = City(given.program, room, configured("vehicles"))
    with city.serve() as server:
        reports(server, FIRST, (1, 2))
        at = reports(server, FIRST, (1,))
        body = told(server, "/app/fleet", FIRST, at)
        reports(server, FIRST, (1,))
        server.stop()
    return city, at, body


def thinned_beside(city, *words):
    """The folder of a copy of a city, thinned."""
    os.mkdir(room := os.path.join(city.room, "beside"))
    other = City(city.program, room, configured("vehicles"))
    shutil.copytree(city.folder, other.folder)
    thinned(other, *words)
    return other.folder


def is_looked_for_again(given, room, *words):
    """Once a question has read which compactions there were, and before it opens the journal, a thinned one gets its name, and the thinning
    is recorded: the answer to the question, and the fleet as it stood. Where nothing were recorded, the thinned journal would tell of
    another fleet."""
    city, at, body = reported_twice(given, room)
    folder, by = thinned_beside(city, *words), os.path.join(room, "next")
    with city.serve("--thin-at", "0", *words, env=exchanging(city, by, "open")) as server:
        os.rename(folder, by)
        answer = asked(server, "/app/fleet", FIRST, at)
        expect(not os.path.exists(os.path.join(by, "journal")), "no other journal got the name meanwhile")
        said = server.stop()[2]
        expect(not UNTOLD.findall(said), f"standard error says {said[:300]}")
    with open(os.path.join(city.folder, "compactions"), "wb"):
        pass
    with city.serve() as server:
        expect(told(server, "/app/fleet", FIRST, at) != body, "the thinned journal tells of the same fleet")
        server.stop()
    return answer, body


def thinned_meanwhile(given):
    """Of a journal that is thinned while a question looks for it the archived one tells, or none does where there is none; and never the
    thinned one."""
    packages.need("cc")
    for is_archived in (True, False):
        with tempfile.TemporaryDirectory(prefix="past-") as made:
            room = os.path.realpath(made)
            os.mkdir(archive := os.path.join(room, "archive"))
            answer, body = is_looked_for_again(given, room, *(("--archive", archive) if is_archived else ()))
            if is_archived:
                expect((answer.status, answer.body) == (200, body), f"with an archive: {answer}")
            else:
                is_refused(answer, 410, NOT_KEPT, "without an archive")
    yield from ()


def a_copied_journal(given):
    """Of a journal that came without its folder nothing is told before its latest entry."""
    with tempfile.TemporaryDirectory(prefix="past-") as room:
        lines = accepted(given.replay, of_city(), [it for it in Chance(given.seed, now() - 5 * DAY).asked if it[0] < now() - HOUR])
        city = PastCity(given.program, room, of_city(), lines)
        os.remove(os.path.join(city.folder, "compactions"))
        latest = max(split(it)[0] for it in lines)
        with city.serve() as server:
            for it in (0, latest - 1):
                is_refused(asked(server, "/app/fleet", FIRST, it), 410, NOT_KEPT, f"at {it}")
            expect(told(server, "/app/fleet", FIRST, latest) == server.ask("GET", "/fleet/vehicles", FIRST).body, "the latest moment")
    yield from ()


def a_fault_is_said(given):
    """Where a link stands in the place of the file compactions nothing is told of the past, and standard error says so."""
    with tempfile.TemporaryDirectory(prefix="past-") as room:
        city = City(given.program, room, configured("vehicles"))
        with city.serve() as server:
            at = reports(server, FIRST, (1,))
            os.remove(record := os.path.join(city.folder, "compactions"))
            os.symlink(city.file, record)
            is_refused(asked(server, "/app/fleet", FIRST, at), 410, NOT_KEPT, "by a link")
            status, _, said = server.end()
        expect(status == 0 and len(UNTOLD.findall(said)) == 1, f"it ends with {status}, and standard error says {said[:300]}")
    yield from ()


# --- At once -------------------------------------------------------------------------------------------------------


class Asker(threading.Thread):
    """A client that asks for a moment again and again."""

    def __init__(self, server, path, token, at):
        super().__init__()
        self.server, self.path, self.token, self.at = server, path, token, at
        self.bodies, self.busy, self.fault, self.over = set(), 0, None, threading.Event()

    def run(self):
        try:
            while not self.over.is_set():
                answer = asked(self.server, self.path, self.token, self.at)
                if answer.status == 200:
                    self.bodies.add(answer.body)
                else:
                    is_refused(answer, 503, BUSY, self.path)
                    self.busy += 1
        except (ValueError, Closed, OSError) as fault:
            self.fault = fault


def at_once(given):
    """Of questions of several clients one is worked out at a time, and the others are told so; other requests are answered meanwhile. No
    question leaves an entry or a sync, and each counts as one that reads."""
    with Alone(given.program, configured("vehicles"), limit=500) as server:
        for number in range(0, MANY, LINES):
            body = b"\n".join(report((number + it) % 400, now()) for it in range(LINES))
            expect(server.ask("POST", "/app/fleet/events", FIRST, body).status == 200, "many reports")
        at = now()
        kept = {name: value for name, value in counted(server).items() if name.startswith(("ruffletuff_journal", "ruffletuff_sync"))}
        askers = [Asker(server, *it, at) for it in (("/app/compliance", AUTHOR), ("/app/fleet", FIRST), ("/app/compliance", SECOND))]
        for it in askers:
            it.start()
        slowest, end = 0, time.monotonic() + 60 * PATIENCE
        while time.monotonic() < end and not (all(it.bodies for it in askers) and any(it.busy for it in askers)):
            begun = time.monotonic()
            expect(server.ask("GET", "/policies", "charlie").status == 200, "another operator")
            slowest = max(slowest, time.monotonic() - begun)
            time.sleep(0.01)
        for it in askers:
            it.over.set()
        for it in askers:
            it.join()
            expect(it.fault is None, f"{it.path} for {it.token}: {it.fault!r}")
            expect(len(it.bodies) == 1, f"{it.path} for {it.token} has {len(it.bodies)} replies")
        expect(any(it.busy for it in askers), "no question met another one")
        expect(slowest < 2 * SLOWNESS, f"another operator waited for {slowest} s")
        after = counted(server)
        expect({it: after[it] for it in kept} == kept, f"a question left something in the journal: {kept} and {after}")
    yield from ()


def main():
    parser = argparse.ArgumentParser(description=__doc__, formatter_class=argparse.RawDescriptionHelpFormatter)
    parser.add_argument("program", help="the built ruffletuff")
    parser.add_argument("--replay", default=REPLAY, help="the built mds_replay")
    parser.add_argument("--cities", type=int, default=CITIES, help="how many cities are made")
    parser.add_argument("--seed", default=SEED, help="by which they are made")
    given = parser.parse_args()
    given.program, given.replay = os.path.abspath(given.program), os.path.abspath(given.replay)
    found = Tried()
    for call in (moments_of_the_past, refusals, an_archive, thinned_meanwhile, a_copied_journal, a_fault_is_said, at_once):
        found.one(call.__name__.replace("_", " "), call(given))
    return found.told()


if __name__ == "__main__":
    sys.exit(main())
