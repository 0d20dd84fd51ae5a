#!/usr/bin/env python3
"""Tries ruffletuff on journals that were changed, cut or copied, on other configurations, on full and failing disks, what it counts, and
its ends.

    journals.py PROGRAM [--replay FILE] [--stride NUMBER]

A small journal is changed in each byte, and cut at each length. What the program may make of it is worked out here a second time, by
tests/records.py: it goes on from a front of the journal, or refuses it by name; what was synced before the last group is never cut
silently. With a stride only each so many bytes. The full disk is a file system in memory, and the failing one a file on such a one that
seems larger; where these may not be mounted a test is left out (packages.py). Takes up to two minutes. Prints what differs, and last 'N
passed, M failed'; ends with 1 where one failed.
"""

import argparse
import contextlib
import functools
import os
import re
import resource
import shutil
import signal
import socket
import subprocess
import sys
import tempfile
import threading
import time
from concurrent.futures import ThreadPoolExecutor

import packages
import records
from kept import City, Tried, ended, line_of, replayed, split, told_moment
from messages import code
from wire import SECONDS, Closed, Link, identifier, request

HERE = os.path.dirname(os.path.abspath(__file__))
REPLAY = os.path.join(HERE, "..", "crates", "mds_replay", "out", "mds_replay")
AUTHOR, ALFA, BRAVO = "token-of-the-author", "token-of-alfa", "token-of-bravo"
ALFA_ID, BRAVO_ID, FURTHER_ID = (identifier(9, it) for it in (0xA1, 0xB1, 0xC1))
SQUARE, CAP, RULE = identifier(1, 1), identifier(2, 1), identifier(3, 1)
STARTS = 30  # about how many of the changed journals are started from
COUNT = "records, "
PUBLICATIONS = 1_024  # at the most (docs/PROTOCOL.md)
DISK, FILLED = 2 << 20, 1_200_000  # bytes of a small disk, and of what fills it at first
MOST_OF_A_FILE = 300_000  # bytes of a journal that can't grow further
LARGE = 20_000  # bytes of a report that fills either soon
SEEMING, THERE, BLOCK = 64_000_000, 9_000_000, 4096  # bytes that a disk seems to have, of those that are there, and of its blocks
LARGER = 100_000  # bytes of a report that fills it soon
STEP = 4_194_304  # bytes of room that are set aside at once, where the disk has as many

DAMAGED = b"ruffletuff: the journal is damaged, or of another version: "
UNFIT = b"ruffletuff: the configuration doesn't fit the journal: "
LOCKED = b"ruffletuff: another program has the folder: "
NO_ROOM = code(503, "no_room")


def operator(name, token, limit=3):
    return {"id": name, "limit": limit, "token": token}


def configuration(*operators, author=AUTHOR, zone="Z"):
    return {"author": author, "operators": list(operators), "zone": zone}


BOTH = configuration(operator(ALFA_ID, ALFA), operator(BRAVO_ID, BRAVO))


def report(number, timestamp, state="available", more=0):
    """A report, with a member of so many bytes that is read past."""
    note = f'"note":"{"x" * more}",' if more else ""
    return (
        f'{{"device_id":"{identifier(4, number)}","vehicle_type":"scooter","vehicle_state":"{state}",{note}'
        f'"timestamp":{timestamp},"location":{{"lat":5,"lng":5}}}}'
    )


GEOMETRY = '{"type":"Polygon","coordinates":[[[0,0],[10,0],[10,10],[0,10],[0,0]]]}'
RULES = f'[{{"rule_id":"{RULE}","name":"cap","rule_type":"count","geographies":["{SQUARE}"],"maximum":1}}]'
DRAFTS = (
    ("PUT", f"/drafts/geographies/{SQUARE}", f'{{"geography_id":"{SQUARE}","name":"square","geography_json":{GEOMETRY}}}'),
    ("PUT", f"/drafts/policies/{CAP}", f'{{"policy_id":"{CAP}","name":"cap","start_date":1000,"rules":{RULES}}}'),
)
PUBLISH = ("POST", "/publish", f'{{"geographies":["{SQUARE}"],"policies":["{CAP}"]}}')

# What is asked of a small city, each with the token of who asks.
SMALL = [
    *((AUTHOR, *it) for it in (*DRAFTS, PUBLISH)),
    (ALFA, "POST", "/fleet/events", report(1, 2000)),
    (BRAVO, "POST", "/fleet/events", report(2, 2000)),
    (ALFA, "POST", "/fleet/events", report(3, 2001)),
    (ALFA, "POST", "/fleet/events", report(1, 2002, "on_trip")),
    (BRAVO, "DELETE", f"/fleet/vehicles/{identifier(4, 2)}", ""),
    (ALFA, "POST", "/fleet/events", report(3, 2003, "on_trip")),
]
QUESTIONS = ("/policies", "/geographies", "/fleet/vehicles", "/compliance")


class Small:
    """A small city's folder, its lines, where each group of its journal ends, and the moments before each request and behind the last."""

    def __init__(self, program, room, replay):
        self.program, self.replay = program, replay
        city = City(program, room, BOTH)
        self.ends, self.moments = [], []
        with city.serve() as server:
            self.ends.append(len(city.bytes()))
            for token, *asked in SMALL:
                self.moments.append(time.time_ns() // 1_000_000)
                if (answer := server.ask(asked[0], asked[1], token, asked[2].encode())).status != 200:
                    raise ValueError(f"{asked[1]} is answered {answer}")
                self.ends.append(len(city.bytes()))
            self.moments.append(time.time_ns() // 1_000_000)
            self.told = told(server)
            if (found := server.end()) != (0, b"", b""):
                raise ValueError(f"the server ends with {found}")
        self.city, self.bytes = city, city.bytes()
        self.first, self.lines = city.audit()

    @contextlib.contextmanager
    def copy(self, journal=None, given=None):
        """Another folder with this journal, or with other bytes, and with this configuration or another."""
        with tempfile.TemporaryDirectory(prefix="journals-") as room:
            city = City(self.program, room, given or BOTH)
            os.mkdir(city.folder)
            with open(city.journal, "wb") as file:
                file.write(self.bytes if journal is None else journal)
            yield city


def told(server, tokens=(AUTHOR, ALFA, BRAVO)):
    """What each is told, without the moment of a question."""
    found = []
    for token in tokens:
        for target in QUESTIONS:
            answer = server.ask("GET", target, token)
            body = answer.body.decode()
            if target == "/compliance" and (at := told_moment(body)):
                body = body.replace(str(at), "")
            found.append((token, target, answer.status, body))
    return found


def is_as_replayed(server, city, replay, tokens=(AUTHOR, ALFA, BRAVO)):
    """A server that was started tells what mds_replay answers behind the audit of its journal."""
    first, lines = city.audit()
    moment, asked, replies = max((split(it)[0] for it in lines), default=0), [], []
    for token in tokens:
        for target in QUESTIONS:
            answer = server.ask("GET", target, token)
            body = answer.body.decode()
            at = told_moment(body) if target == "/compliance" else None
            asked.append(f"{at or moment} {line_of(token, 'GET', target)}")
            replies.append(f"{answer.status} {body}")
    answers = replayed(replay, first, lines + asked)[len(lines) :]
    yield from (f"{line} is answered {it!r}, and not {answer!r}" for line, it, answer in zip(asked, replies, answers) if it != answer)


# --- The layout ----------------------------------------------------------------------------------------------------


def has_its_layout(small):
    """The journal's bytes are what docs/FILES.md says, and no access token is among them."""
    found = records.read(small.bytes)
    texts = [records.head([(ALFA_ID, 3), (BRAVO_ID, 3)])]
    for line, (token, method, target, body) in zip(small.lines, SMALL):
        who = {ALFA: ALFA_ID, BRAVO: BRAVO_ID}.get(token)
        texts.append(records.entry(split(line)[0], method, who, target.encode(), body.encode()))
    if (found.texts, found.ending) != (texts, "whole"):
        yield f"{found.ending}, and its texts are other than those that were asked"
    if records.written(texts) != small.bytes:
        yield "its bytes are others than those of a group for each text"
    yield from (f"it has {it}" for it in (AUTHOR, ALFA, BRAVO) if it.encode() in small.bytes)
    if [split(it)[1] for it in small.lines] != [line_of(*it) for it in SMALL]:
        yield f"the audit has other lines: {small.lines}"


def has_its_moments(small):
    """Each entry has the moment of the machine's clock at which it was asked."""
    for line, begun, ended in zip(small.lines, small.moments, small.moments[1:]):
        if not begun <= split(line)[0] <= ended:
            yield f"between {begun} and {ended} was asked {line[:80]}"


def sets_room_aside(small):
    """Once a change is made the ballast has a step of room, but for what the change's record took of it."""
    with small.copy() as city, city.serve() as server:
        server.ask("POST", "/fleet/events", ALFA, report(1, 3000).encode())
        found = os.path.getsize(os.path.join(city.folder, "ballast"))
        if not STEP - 1_000 <= found < STEP:
            yield f"the ballast has {found} bytes"


def is_checked(small):
    """check tells how many records there are; who may read the files is their owner."""
    wanted = f"{len(SMALL) + 1} {COUNT}{len(small.bytes)} bytes, 0 behind them, whole\n".encode()
    if (found := small.city.check()) != (0, wanted, b""):
        yield f"check ends with {found}"
    for name in ("journal", "lock", "ballast", "compactions"):
        if (mode := os.stat(os.path.join(small.city.folder, name)).st_mode & 0o777) != 0o600:
            yield f"{name} has the mode {mode:o}"


# --- Changed and cut -----------------------------------------------------------------------------------------------


def wrongs(small, found):
    """What may be said of a journal that ends so."""
    if found.ending == "damaged":
        return [b"it was synced up to byte %d, and isn't whole up to there" % it for it in small.ends]
    if found.ending == "unexplained":
        return [b"what stands from byte %d on is no record, and isn't what a kill of the program leaves" % found.whole]
    return [b"it doesn't begin as a journal does, but with bytes behind which records of a journal stand"]


def looked_at(small, journal, must_be_refused, may_be_refused):
    """What check and audit make of other bytes: a front of the lines, or a refusal by name."""
    found = records.read(journal)
    count, is_refused = len(found.texts), found.ending in records.REFUSED
    is_wrong = is_refused or found.ending == "unexplained"
    with small.copy(journal) as city:
        status, out, err = city.check()
        audited, script, _ = ended(city.program, "audit", city.folder, "--config", city.file)
    lines = script.decode().splitlines()[1:]
    if status != (5 if is_wrong else 0) or audited != (5 if is_refused else 0):
        yield f"check ends with {status} and audit with {audited}: {err[:200]!r}"
    if must_be_refused and not is_refused or is_refused and not may_be_refused:
        yield f"it is {found.ending}"
    if is_wrong:
        heard = err.splitlines()
        if heard[:1] != [DAMAGED + city.folder.encode()] or heard[1:2] == [] or heard[1] not in wrongs(small, found):
            yield f"check says {err[:200]!r}"
    if is_refused:
        return
    front = f"{count} {COUNT}{found.whole} bytes, {len(journal) - found.whole} behind them, ".encode()
    if not out.startswith(front) or (b", whole\n" in out) != (found.ending == "whole"):
        yield f"check says {out!r}"
    if lines != small.lines[: max(0, count - 1)]:
        yield f"it is read as other {len(lines)} lines than the first {count - 1}"


def is_started_from(small, journal):
    """A start from other bytes: from a front, with what is cut told, or refused by name."""
    found = records.read(journal)
    with small.copy(journal) as city:
        if found.ending in records.REFUSED:
            status, out, err = city.refused()
            if (status, out) != (5, b"") or not err.startswith(DAMAGED):
                yield f"a start ends with {status, out, err[:200]}"
            if city.bytes() != journal:
                yield "a start that is refused changes the journal"
            return
        with city.serve() as server:
            yield from is_as_replayed(server, city, small.replay)
            cut = len(journal) - found.whole
            said = f"ruffletuff: {cut} bytes behind the last whole record, from byte {found.whole} on, are cut off the journal".encode()
            if (end := server.end())[:2] != (0, b"") or end[2].startswith(said) != bool(cut):
                yield f"it ends with {end}"
        if city.audit()[1] != small.lines[: max(0, len(found.texts) - 1)]:
            yield "it has other lines than a front"


def changed(small, place):
    """The journal with another byte at a place."""
    return small.bytes[:place] + bytes([small.bytes[place] ^ (1 << place % 8 or 1)]) + small.bytes[place + 1 :]


def all_of(cases):
    """The faults of cases, as many at once as there are processors; the first ones of many."""
    found = []
    with ThreadPoolExecutor(max(2, os.cpu_count() or 1)) as pool:
        for name, faults in pool.map(lambda it: (it[0], list(it[1]())), cases):
            found += [f"{name}: {fault}" for fault in faults]
    yield from found[:20]


def each_byte_changed(small, stride):
    """A byte that is another is found wherever it stands; what was synced isn't cut."""
    cases = []
    for place in range(0, len(small.bytes), stride):
        is_synced = place < small.ends[-2]
        cases.append((f"byte {place}", functools.partial(looked_at, small, changed(small, place), is_synced, is_synced)))
    yield from all_of(cases)


def each_length_cut(small, stride):
    """Of a journal that is cut a front is read."""
    lengths = range(0, len(small.bytes), stride)
    yield from all_of([(f"{it} bytes", functools.partial(looked_at, small, small.bytes[:it], False, False)) for it in lengths])


def starts_from_some(small):
    """Some of these are started from."""
    step = max(1, len(small.bytes) // STARTS * 2)
    others = {f"byte {it}": changed(small, it) for it in range(step // 2, len(small.bytes), step)}
    others |= {f"{it} bytes": small.bytes[:it] for it in range(0, len(small.bytes), step)}
    for tail in (b"\0" * 4096, b"\0", small.bytes[:60], b"\xffsynced:" + b"\xff" * 40):
        others[f"{len(tail)} bytes behind"] = small.bytes + tail
    yield from all_of([(name, functools.partial(is_started_from, small, journal)) for name, journal in others.items()])


def unknown_versions(small):
    """A version that isn't known is refused by name, and so is what is no head and what is no entry."""
    texts = records.read(small.bytes).texts
    cases = {
        b"it has version 2, which this program doesn't know": [records.head([(ALFA_ID, 3)], version=2), *texts[1:]],
        b"its first record is no journal's head": texts[1:],
        b"its record 2 is none that this program knows": [*texts[:2], b"\2" + texts[2][1:], *texts[3:]],
        b"its record 3 is none that this program knows": [*texts[:3], texts[3][:20], *texts[4:]],
    }
    for said, others in cases.items():
        with small.copy(records.written(others)) as city:
            # As in the folder of each city that was served: of one without the file, standard error says that the past isn't told.
            with open(os.path.join(city.folder, "compactions"), "wb"):
                pass
            wanted = DAMAGED + city.folder.encode() + b"\n" + said + b"\n"
            for status, _, err in (city.check(), city.refused()):
                if (status, err) != (5, wanted):
                    yield f"{said.decode()}: ends with {status, err}"


# --- Configurations ------------------------------------------------------------------------------------------------


def is_refused(city, *words, said=b""):
    """A start is refused since the configuration doesn't fit, and the journal stays as it is."""
    before = city.bytes()
    status, out, err = city.refused(*words)
    if (status, out) != (6, b"") or UNFIT + city.folder.encode() + b"\n" not in err or said not in err:
        yield f"a start ends with {status, out, err}"
    if city.bytes() != before:
        yield "it changes the journal"


def other_tokens(small):
    """Other access tokens are no matter; the old ones are nobody's."""
    given = configuration(operator(ALFA_ID, "alfa-again"), operator(BRAVO_ID, "bravo-again"), author="author-again")
    with small.copy(given=given) as city, city.serve() as server:
        again = {AUTHOR: "author-again", ALFA: "alfa-again", BRAVO: "bravo-again"}
        if told(server, again.values()) != [(again[token], *rest) for token, *rest in small.told]:
            yield "it tells other things"
        yield from (f"{it} is still answered" for it in again if server.ask("GET", "/policies", it).status != 401)


def what_fits(small):
    """Another zone, a higher limit and a further operator are no matter, and a limit that is lower than needed is."""
    with small.copy(given=configuration(*BOTH["operators"], zone="+02:00")) as city, city.serve() as server:
        yield from is_as_replayed(server, city, small.replay)
    higher = configuration(operator(ALFA_ID, ALFA, 5), operator(BRAVO_ID, BRAVO))
    with small.copy(given=higher) as city:
        with city.serve() as server:
            statuses = [server.ask("POST", "/fleet/events", ALFA, report(it, 3000).encode()).status for it in (5, 6, 7)]
            if statuses != [200, 200, 200]:
                yield f"under a higher limit reports are answered {statuses}"
        city.configure(BOTH)
        low = b" is too low: operator " + ALFA_ID.encode() + b" has held more vehicles\n"
        yield from is_refused(city, said=b"operators[0].limit: 3" + low)
        yield from is_refused(city, said=b"is answered with status 409")
    for limit, status in ((2, 0), (1, 6)):
        with small.copy(given=configuration(operator(ALFA_ID, ALFA, limit), operator(BRAVO_ID, BRAVO))) as city:
            if status:
                yield from is_refused(city, said=b"operators[0].limit: 1" + low)
            else:
                with city.serve() as server:
                    yield from is_as_replayed(server, city, small.replay)


def a_further_operator(small):
    """A further operator is served; once it has entries it can't be left out."""
    with small.copy(given=configuration(*BOTH["operators"], operator(FURTHER_ID, "further"))) as city:
        with city.serve() as server:
            if (answer := server.ask("POST", "/fleet/events", "further", report(9, 3000).encode())).status != 200:
                yield f"a further operator is answered {answer}"
        city.configure(BOTH)
        yield from is_refused(city, said=b"of an operator that isn't in the configuration")
        with city.serve("--drop", FURTHER_ID) as server:
            if told(server) != small.told:
                yield "without it others are told other things"


def an_operator_left_out(small):
    """An operator that is left out is refused, but for --drop, at each start."""
    with small.copy(given=configuration(operator(ALFA_ID, ALFA))) as city:
        said = f"operator {BRAVO_ID} has entries in it and isn't in the configuration\n".encode()
        yield from is_refused(city, said=said)
        yield from is_refused(city, "--drop", FURTHER_ID, said=said)
        with city.serve("--drop", BRAVO_ID) as server:
            if told(server, (AUTHOR, ALFA)) != [it for it in small.told if it[0] != BRAVO]:
                yield "others are told other things"
            if (answer := server.ask("POST", "/fleet/events", ALFA, report(1, 3000).encode())).status != 200:
                yield f"a report is answered {answer}"
        yield from is_refused(city, said=said)
        status, _, err = ended(city.program, "audit", city.folder, "--config", city.file)
        if status != 6 or said not in err:
            yield f"an audit without it ends with {status, err}"
        if len(lines := city.audit("--operator", ALFA_ID)[1]) != len([it for it in SMALL if it[0] != BRAVO]) + 1:
            yield f"its audit of the other operator has {len(lines)} lines"


# --- Starts and ends -----------------------------------------------------------------------------------------------


def a_restart_keeps_all(small):
    """Publication moments, since when vehicles stand, and the revision are the same behind a restart, and requests go on."""
    with small.copy() as city:
        with city.serve() as server:
            if told(server) != small.told:
                yield f"it tells {told(server)}, and not {small.told}"
            if (answer := server.ask("POST", "/fleet/events", ALFA, report(3, 2003, "on_trip").encode())).body != b'{"result":"same"}':
                yield f"a report that was made before is answered {answer}"
            draft = DRAFTS[1][2].replace(CAP, identifier(2, 2)).replace(RULE, identifier(3, 2)).encode()
            server.ask("PUT", f"/drafts/policies/{identifier(2, 2)}", AUTHOR, draft)
            answer = server.ask("POST", "/publish", AUTHOR, f'{{"policies":["{identifier(2, 2)}"]}}'.encode())
            if b'"revision":2' not in answer.body:
                yield f"the next publication is answered {answer}"
        with city.serve() as server:
            yield from is_as_replayed(server, city, small.replay)


def as_many_publications_as_may_be(small):
    """A city publishes until its catalogue is full, and a restart has all of it."""
    body = f'{{"withdraw":["{CAP}"]}}'.encode()
    with small.copy() as city:
        with city.serve() as server, Link(server.port) as link:
            for revision in range(2, PUBLICATIONS + 2):
                link.send(request("POST", "/publish", AUTHOR, body))
                answer = link.answer()
                if (answer.status, b'"revision":%d}' % revision in answer.body) != (200, True):
                    break
            if (revision, answer.status, answer.body) != (PUBLICATIONS + 1, *code(409, "catalog_full")):
                yield f"publication {revision} is answered {answer}"
        with city.serve() as server:
            yield from is_as_replayed(server, city, small.replay)
            if (answer := server.ask("POST", "/publish", AUTHOR, body)).body != code(409, "catalog_full")[1]:
                yield f"behind a restart the next publication is answered {answer}"


def one_program_a_folder(small):
    """A second program is refused, and the first goes on; check and audit read beside it."""
    with small.copy() as city, city.serve() as server:
        status, out, err = city.refused()
        if (status, out, err) != (4, b"", LOCKED + city.folder.encode() + b"\n"):
            yield f"a second program ends with {status, out, err}"
        if told(server) != small.told:
            yield "the first one tells other things"
        if city.check()[0] or city.audit()[1] != small.lines:
            yield "check and audit don't read beside it"
        server.stop()
        with city.serve() as again:
            if told(again) != small.told:
                yield "the next one tells other things"


def ended_by_signals(small):
    """SIGTERM and SIGINT lose nothing that was answered."""
    # A shell ignores SIGINT in what it runs in the background, and a program would inherit that.
    signal.signal(signal.SIGINT, signal.default_int_handler)
    with small.copy() as city:
        for count, number in enumerate((signal.SIGTERM, signal.SIGINT, signal.SIGKILL), 1):
            with city.serve() as server:
                server.ask("POST", "/fleet/events", ALFA, report(1, 4000 + count).encode())
                server.process.send_signal(number)
                if (found := server.end(told=False)[0]) != -number:
                    yield f"it ends with {found}"
            if len(city.audit()[1]) != len(SMALL) + count:
                yield f"behind signal {number} the report isn't there"


def stopped_under_load(small):
    """stop ends the server with 0 once what has begun is answered: each answer that came is there."""
    with small.copy() as city:
        answered = []
        with city.serve() as server:

            def reports():
                with contextlib.suppress(Exception), Link(server.port) as link:
                    for it in range(5000, 100_000):
                        link.send(request("POST", "/fleet/events", ALFA, report(1, it).encode()))
                        if link.answer().status != 200:
                            return
                        answered.append(it)

            asking = threading.Thread(target=reports)
            asking.start()
            time.sleep(0.3)
            if (found := server.end()) != (0, b"", b""):
                yield f"it ends with {found}"
            asking.join()
        stamps = [int(it.partition('"timestamp":')[2].partition(",")[0]) for it in city.audit()[1][len(SMALL) :]]
        if stamps[: len(answered)] != answered or len(stamps) > len(answered) + 1:
            yield f"{len(answered)} reports were answered, and {len(stamps)} are there"


def counted(server):
    """What the control port tells that is counted, by its names."""
    text = server.asked("GET", "/metrics")[1].decode()
    found = {name: int(value) for name, value in re.findall(r"^ruffletuff_(\S+) (\d+)$", text, re.M)}
    lines = [it for it in text.splitlines() if not it.startswith(("# HELP ruffletuff_", "# TYPE ruffletuff_"))]
    if len(lines) != len(found):
        raise ValueError(f"its metrics have other lines: {text}")
    return found


def calls(server):
    """How many answers are counted, by what was asked and the class of the status; those that are any."""
    found = re.compile(r'requests_total\{call="(\w+)",status="(\dxx)"\}')
    return {found.fullmatch(name).groups(): value for name, value in counted(server).items() if found.fullmatch(name) and value}


def until(server, name, is_right):
    """The number of this name once it is right, or the last one that was told in time."""
    end = time.monotonic() + SECONDS
    while not is_right(value := counted(server)[name]) and time.monotonic() < end:
        time.sleep(0.002)
    return value


def the_control_port(small):
    """It says that the server serves, what it counts, and what isn't there."""
    with small.copy() as city, city.serve() as server:
        until = time.monotonic() + SECONDS
        while server.asked("GET", "/healthz")[0] == 503 and time.monotonic() < until:
            time.sleep(0.05)
        wanted = {("GET", "/healthz"): 200, ("GET", "/metrics"): 200, ("GET", "/stop"): 405, ("POST", "/healthz"): 405, ("GET", "/x"): 404}
        for (method, path), status in wanted.items():
            if (found := server.asked(method, path))[0] != status:
                yield f"{method} {path} is answered {found}"
        if (found := server.asked("GET", "/healthz")) != (200, b"ok\n"):
            yield f"its health is {found}"
        if server.ask("GET", "/healthz", AUTHOR).status != 404:
            yield "the city's port has its pages too"


def what_is_counted(small):
    """What the control port counts is what was asked, what is published and what the journal has."""
    further = identifier(2, 9)
    put = ("PUT", f"/drafts/policies/{further}", DRAFTS[1][2].replace(CAP, further))
    published = ("POST", "/publish", f'{{"policies":["{further}"]}}')
    asked = [
        (ALFA, "POST", "/fleet/events", report(1, 3000), 200, "change"),
        (ALFA, "POST", "/fleet/events", "{}", 400, "change"),
        (ALFA, "POST", "/fleet/events", "x" * 1_048_577, 413, "change"),
        (BRAVO, "DELETE", f"/fleet/vehicles/{identifier(4, 2)}", "", 404, "change"),
        (AUTHOR, *put, 200, "change"),
        (AUTHOR, *published, 200, "publish"),
        (AUTHOR, *published, 404, "publish"),
        (AUTHOR, "GET", "/policies", "", 200, "read"),
        (ALFA, "GET", "/compliance", "", 200, "read"),
        ("nobody", "GET", "/policies", "", 401, "read"),
    ]
    with small.copy() as city, city.serve() as server:
        before, wanted = counted(server), {}
        if (before["revision"], before["journal_bytes"], before["pending_replies"], calls(server)) != (1, len(small.bytes), 0, {}):
            yield f"before anything is asked it counts {before}"
        for token, method, target, body, status, call in asked:
            if (answer := server.ask(method, target, token, body.encode())).status != status:
                yield f"{method} {target} is answered {answer}"
            kind = call, f"{status // 100}xx"
            wanted[kind] = wanted.get(kind, 0) + 1
        after = counted(server)
        if calls(server) != wanted:
            yield f"it counts {calls(server)}, and not {wanted}"
        buckets = [value for name, value in after.items() if name.startswith("answer_milliseconds_bucket")]
        if buckets != sorted(buckets) or {buckets[-1], after["answer_milliseconds_count"]} != {len(asked)}:
            yield f"it counts the answers {buckets} by how long they took, and {after['answer_milliseconds_count']}"
        if (after["revision"], after["journal_bytes"]) != (2, len(city.bytes())) or after["syncs_total"] <= before["syncs_total"]:
            yield f"it counts {after}"
        yield from pending_replies(server)
        if server.end() != (0, b"", b""):
            yield f"it ends with {server.ended}"
        with city.serve() as again:
            if (found := counted(again))["revision"] != 2 or found["journal_bytes"] != len(city.bytes()):
                yield f"after a restart it counts {found}"


def pending_replies(server):
    """Replies on their way are counted while they are, and not any more once they are told or given up."""
    over, heads = threading.Event(), [request("POST", "/fleet/events", ALFA, report(1, 7000 + it).encode()) for it in range(50)]

    def reports():
        with contextlib.suppress(Closed), Link(server.port) as link:
            while not over.is_set():
                link.send(heads[0])
                link.answer()

    asking = [threading.Thread(target=reports) for _ in range(4)]
    for it in asking:
        it.start()
    if not until(server, "pending_replies", lambda value: value > 0):
        yield "it counts no reply on its way"
    over.set()
    for it in asking:
        it.join()
    for head in heads:
        with Link(server.port) as link:
            link.send(head)
    if (found := until(server, "pending_replies", lambda value: value == 0)) != 0:
        yield f"once all are told or given up it counts {found} on their way"


def what_there_is(small):
    """The control port tells how many vehicles each operator has, after a restart too, and how many connections are open."""

    def vehicles(server):
        found = counted(server)
        return tuple(found[f'vehicles{{operator="{it}"}}'] for it in (ALFA_ID, BRAVO_ID))

    lines = "\n".join(report(it, 3000) for it in (6, 7, 8))
    asked = [
        (BRAVO, "POST", "/fleet/events", report(5, 3000), 200, (2, 1)),
        (BRAVO, "POST", "/app/fleet/events", lines, 200, (2, 3)),
        (ALFA, "POST", "/fleet/events", report(2, 3000), 200, (3, 3)),
        (ALFA, "POST", "/fleet/events", report(4, 3000), 409, (3, 3)),
        (ALFA, "DELETE", f"/fleet/vehicles/{identifier(4, 1)}", "", 200, (2, 3)),
        (ALFA, "GET", "/fleet/vehicles", "", 200, (2, 3)),
    ]
    with small.copy() as city:
        with city.serve() as server:
            if (found := vehicles(server)) != (2, 0):
                yield f"at first it tells {found} vehicles"
            for token, method, target, body, status, wanted in asked:
                answer = server.ask(method, target, token, body.encode())
                if answer.status != status or (found := vehicles(server)) != wanted:
                    yield f"{method} {target} is answered {answer}, and it tells {found} vehicles"
            for wanted in (0, 2, 0):
                with contextlib.ExitStack() as links:
                    for _ in range(wanted):
                        links.enter_context(Link(server.port))
                    if (found := until(server, "connections", lambda value, wanted=wanted: value == wanted)) != wanted:
                        yield f"of {wanted} connections it tells {found}"
            if server.end() != (0, b"", b""):
                yield f"it ends with {server.ended}"
        with city.serve() as again:
            if (found := vehicles(again)) != (2, 3):
                yield f"after a restart it tells {found} vehicles"


def copied_while_it_runs(small):
    """A folder that is copied while the server writes is a front of what was answered."""
    with small.copy() as city, city.serve() as server:
        over, reported = threading.Event(), []

        def reports():
            with Link(server.port) as link:
                for it in range(6000, 100_000):
                    if over.is_set():
                        return
                    link.send(request("POST", "/fleet/events", ALFA, report(1, it).encode()))
                    link.answer()
                    reported.append(it)

        asking = threading.Thread(target=reports)
        asking.start()
        try:
            for _ in range(3):
                time.sleep(0.1)
                before = len(reported)
                with tempfile.TemporaryDirectory() as room:
                    copy = City(city.program, room, BOTH)
                    shutil.copytree(city.folder, copy.folder)
                    with copy.serve() as other:
                        yield from is_as_replayed(other, copy, small.replay)
                    lines = copy.audit()[1]
                if len(lines) < len(SMALL) + before or lines != city.audit()[1][: len(lines)]:
                    yield f"{before} reports were answered, and {len(lines) - len(SMALL)} are in the copy"
        finally:
            over.set()
            asking.join()


def parts_of_an_audit(small):
    """An audit has the requests before the first later one, and of one operator alone, with the author's."""
    moment = split(small.lines[4])[0]
    early = [it for it in small.lines if split(it)[0] <= moment]
    own = [it for it in small.lines if split(it)[1].split()[0] in (ALFA, AUTHOR)]
    for words, wanted in ((("--until", str(moment)), early), (("--operator", ALFA_ID), own), (("--until", "0"), [])):
        if (found := small.city.audit(*words)[1]) != wanted:
            yield f"{words}: {len(found)} lines, and not {len(wanted)}"


# Arguments that are wrong, and how the command is called that they begin; without one how serve is.
SERVED = "serve --config FILE --state DIR --listen ADDRESS"
REPORTED = "report FOLDER.. --config FILE --from TIME --to TIME [--every MINUTES] [--operator ID].. --out DIR"
SENT = "import policies|status FILE.. --to ADDRESS --token-file PATH [--dry-run]"
USAGE, MORE = b"ruffletuff: the arguments are wrong\nusage:", b"ruffletuff --help says more"
WRONG = (
    ((), SERVED),
    (("serve",), SERVED),
    (("server", "city"), SERVED),
    (("--help", "thin"), SERVED),
    (("city", "thin"), SERVED),
    (("check",), "check DIR, or check --config FILE"),
    (("check", "--config"), "check DIR, or check --config FILE"),
    (("audit", "city"), "audit DIR --config FILE [--until MOMENT] [--operator ID]"),
    (("thin", "city"), "thin DIR --config FILE [--archive DIR]"),
    (("report", "city", "--config", "city.json"), REPORTED),
    (("stop",), "stop ADDRESS"),
    (("stop", "127.0.0.1:1", "now"), "stop ADDRESS"),
    (("import", "drafts", "a.json", "--dry-run"), SENT),
    (("export", "out", "--from", "127.0.0.1:1"), "export DIR --from ADDRESS --token-file PATH"),
    (("status",), "status --log CLUSTER --city NAME [--log-user PATH]"),
    (("fetch", "city", "--log", "etcd:127.0.0.1:1"), "fetch DIR --log CLUSTER --city NAME [--log-user PATH]"),
    (("seed", "city", "--city", "portland"), "seed DIR --log CLUSTER --city NAME [--log-user PATH]"),
)


def told_what_is_wrong(small):
    """Arguments, configurations, addresses and folders that are none: the exit status, and what standard error begins with."""
    program, folder, file = small.program, small.city.folder, small.city.file
    with tempfile.TemporaryDirectory() as room:
        bad, new = os.path.join(room, "bad.json"), os.path.join(room, "new")
        with open(bad, "w", encoding="ascii") as text:
            text.write('{\n"author": "city"\n}\n')
        serve, at = ("serve", "--config", file, "--state", new, "--listen"), ("--listen", "127.0.0.1:0")
        misconfigured, unusable = b"ruffletuff: the configuration is wrong: ", b"ruffletuff: the folder can't be used: "
        cases = [
            *((words, 2, b"%s ruffletuff %s (%s)\n" % (USAGE, called.encode(), MORE)) for words, called in WRONG),
            ((*serve[:5], *at, "--port", "1"), 2, b"ruffletuff: the arguments are wrong\n"),
            ((*serve, "127.0.0.1:0", "--drop", "x"), 2, b"ruffletuff: the arguments are wrong\n"),
            (("serve", "--config", bad, "--state", new, *at), 2, misconfigured + bad.encode()),
            (("serve", "--config", new, "--state", new, *at), 2, misconfigured + new.encode()),
            ((*serve, "nowhere"), 1, b"ruffletuff: nothing can be listened to: nowhere\n"),
            ((*serve, "127.0.0.1:0", "--control", "nowhere"), 1, b"ruffletuff: nothing can be listened to for control: nowhere\n"),
            (("serve", "--config", file, "--state", file, *at), 4, unusable + file.encode()),
            (("check", os.path.join(room, "none")), 4, unusable),
            (("audit", os.path.join(room, "none"), "--config", file), 4, unusable),
            (("audit", folder, "--config", bad), 2, misconfigured),
            (("stop", "127.0.0.1:1"), 1, b"ruffletuff: no server says that it stops: 127.0.0.1:1\n"),
        ]
        for words, status, said in cases:
            found = ended(program, *words)
            if found[:2] != (status, b"") or not found[2].startswith(said):
                yield f"{words}: ends with {found}"
    for words, said in ((("--version",), b"ruffletuff 1.3.0\n"), (("--help",), b"ruffletuff serve --config FILE")):
        found = ended(program, *words)
        if (found[0], found[2]) != (0, b"") or not found[1].startswith(said):
            yield f"{words}: ends with {found}"


def files_of(folder):
    """The files of a folder, with their bytes and the times at which they were changed last."""
    found = {}
    for it in os.scandir(folder):
        with open(it.path, "rb") as file:
            found[it.name] = it.stat().st_mtime_ns, file.read()
    return found


def an_address_that_is_taken(small):
    """Where another program listens at its address, or at that of its control port, that is told before the journal is looked at, and
    nothing of the folder changes: also where the journal is damaged or torn, and a kill left a shorter one beside it."""
    damaged = small.bytes[:200] + bytes([small.bytes[200] ^ 1]) + small.bytes[201:]
    with small.copy() as city, socket.socket() as other:
        other.bind(("127.0.0.1", 0))
        other.listen()
        address = f"127.0.0.1:{other.getsockname()[1]}"
        shutil.copytree(small.city.folder, city.folder, dirs_exist_ok=True)
        for name, bytes_ in (("whole", small.bytes), ("damaged", damaged), ("torn", small.bytes[:-5])):
            for path, text in ((city.journal, bytes_), (os.path.join(city.folder, "journal.thinned"), b"what a kill left")):
                with open(path, "wb") as file:
                    file.write(text)
            before = files_of(city.folder)
            for words, said in (((address,), "listened to"), (("127.0.0.1:0", "--control", address), "listened to for control")):
                found = ended(small.program, "serve", "--config", city.file, "--state", city.folder, "--listen", *words)
                if found != (1, b"", f"ruffletuff: nothing can be {said}: {address}\n".encode()):
                    yield f"{name}, at {words}: ends with {found}"
                if (after := files_of(city.folder)) != before:
                    yield f"{name}, at {words}: changes {[it for it in before | after if before.get(it) != after.get(it)]}"


# --- Disks ---------------------------------------------------------------------------------------------------------


def until_not_taken(server, begun=10_000, more=LARGE):
    """Reports until one isn't taken: the last answer, or none where the connection was closed, and how many were."""
    with contextlib.suppress(Closed), Link(server.port) as link:
        for count in range(10 * DISK // LARGE):
            link.send(request("POST", "/fleet/events", ALFA, report(1, begun + count, more=more).encode()))
            if (answer := link.answer()).status != 200:
                return answer, count
    return None, count


def done(*words):
    """Whether a command could be run and ended well."""
    with contextlib.suppress(FileNotFoundError):
        return not subprocess.run(words, stdout=subprocess.DEVNULL, stderr=subprocess.DEVNULL, check=False).returncode
    return False


@contextlib.contextmanager
def small_disk(room, bytes_):
    """A disk of so many bytes at a folder. Where none may be mounted what wants it is left out."""
    os.mkdir(place := os.path.join(room, "disk"))
    if not done("mount", "-t", "tmpfs", "-o", f"size={bytes_}", "tmpfs", place):
        raise packages.LeftOut(packages.MAY_MOUNT)
    try:
        yield place
    finally:
        done("umount", "-l", place)


@contextlib.contextmanager
def failing_disk(below):
    """A disk in a file of the small one `below`, which seems larger: what doesn't fit fails once it is synced. Its device, and its folder.
    Where no file may be mounted what wants it is left out."""
    file, place = os.path.join(below, "file"), os.path.join(os.path.dirname(below), "failing")
    os.mkdir(place)
    with open(file, "wb") as made:
        made.truncate(SEEMING)
    device = ""
    # A file system that keeps its own tables whole, though what it writes fails.
    if done("mkfs.ext4", "-q", "-F", "-b", str(BLOCK), "-m", "0", "-N", "16", "-J", "size=4", file):
        found = subprocess.run(["losetup", "--find", "--show", file], stdout=subprocess.PIPE, stderr=subprocess.DEVNULL, check=False)
        device = found.stdout.decode().strip()
    try:
        # Linux takes a write of which a part fitted for one that was done, so each is of one block, which fits or doesn't.
        queue = f"/sys/block/{os.path.basename(device)}/queue/max_sectors_kb"
        with contextlib.suppress(OSError), open(queue, "w", encoding="ascii") as most:
            most.write(str(BLOCK // 1024))
        if not device or not done("mount", device, place):
            raise packages.LeftOut("run as root, where mkfs.ext4 is and a file may be mounted")
        yield device, place
    finally:
        done("umount", "-l", place)
        if device:
            done("losetup", "-d", device)


def a_full_disk(small):
    """On a full disk a change is refused, and nothing is changed; reads go on, and once there is room changes do."""
    with tempfile.TemporaryDirectory() as room, small_disk(room, DISK) as disk:
        city = City(small.program, disk, BOTH)
        with open(filler := os.path.join(disk, "filler"), "wb") as file:
            file.write(bytes(FILLED))
        with city.serve() as server:
            for asked in (*DRAFTS, PUBLISH):
                server.ask(asked[0], asked[1], AUTHOR, asked[2].encode())
            # The small ones take what is left behind the large ones.
            _, large = until_not_taken(server)
            answer, small_ones = until_not_taken(server, begun=20_000, more=0)
            count = large + small_ones
            if answer is None or not answer.is_by_the_server(*NO_ROOM) or "connection" in answer.fields:
                yield f"behind {count} reports one is answered {answer}"
            before = told(server)
            for token, *asked in [(AUTHOR, *DRAFTS[1]), (AUTHOR, *PUBLISH), (ALFA, "DELETE", f"/fleet/vehicles/{identifier(4, 1)}", "")]:
                if not (answer := server.ask(asked[0], asked[1], token, asked[2].encode())).is_by_the_server(*NO_ROOM):
                    yield f"{asked[0]} {asked[1]} is answered {answer}"
            for token, target, wanted in ((ALFA, "/nowhere", code(404, "no_route")), ("nobody", "/fleet/events", code(401, "token"))):
                if not (answer := server.ask("POST", target, token, b"{}")).is_by_the_server(*wanted):
                    yield f"{target} of {token} is answered {answer}"
            if told(server) != before:
                yield "what was refused has changed something"
            yield from is_as_replayed(server, city, small.replay)
            os.remove(filler)
            if (answer := server.ask("POST", "/fleet/events", ALFA, report(1, 900_000).encode())).status != 200:
                yield f"once there is room a report is answered {answer}"
            # However many changes were refused, it is said once.
            if server.end() != (0, b"", b"ruffletuff: the disk has no room: changes are answered 503 until it has\n"):
                yield f"it ends with {server.ended}"
        if (found := len(city.audit()[1])) != len(DRAFTS) + 2 + count:
            yield f"{count + 1} reports were answered, and {found} lines are there"
        with city.serve() as server:
            yield from is_as_replayed(server, city, small.replay)


def a_journal_that_can_not_be_written(small):
    """Where a write fails nothing more is told and the program ends with 7; each report that was answered is there."""

    def limited():
        signal.signal(signal.SIGXFSZ, signal.SIG_IGN)
        resource.setrlimit(resource.RLIMIT_FSIZE, (MOST_OF_A_FILE, MOST_OF_A_FILE))

    with small.copy() as city:
        with city.serve(preexec_fn=limited, restore_signals=False) as server:
            answer, count = until_not_taken(server)
            if answer:
                yield f"behind {count} reports one is answered {answer}"
            found = server.end(told=False)
            wanted = b"ruffletuff: the journal couldn't be written any more: " + city.folder.encode() + b"\n"
            if found != (7, b"", wanted):
                yield f"it ends with {found}"
        with city.serve() as server:
            yield from is_as_replayed(server, city, small.replay)
        lines = city.audit()[1]
        if not count <= len(lines) - len(SMALL) <= count + 1:
            yield f"{count} reports were answered, and {len(lines) - len(SMALL)} are there"


def a_disk_that_fails(small):
    """Where the disk fails a sync nothing more is told and the program ends with 7; each report that was answered is on the disk."""
    with contextlib.ExitStack() as stack:
        room = stack.enter_context(tempfile.TemporaryDirectory())
        below = stack.enter_context(small_disk(room, THERE))
        device, disk = stack.enter_context(failing_disk(below))
        city = City(small.program, disk, BOTH)
        with city.serve() as server:
            answer, count = until_not_taken(server, more=LARGER)
            if answer or not count:
                yield f"behind {count} reports one is answered {answer}"
            status, out, said = server.end(told=False)
            if (status, out) != (7, b"") or b"the journal couldn't be written any more" not in said:
                yield f"it ends with {server.ended}"
        # What is read again is what lies on the disk, and not what was to be written.
        if not all((done("umount", disk), done("mount", "-o", f"remount,size={2 * SEEMING}", below), done("mount", device, disk))):
            yield "the disk can't be taken out and put in again"
            return
        city.configure(BOTH)
        with city.serve() as server:
            yield from is_as_replayed(server, city, small.replay)
            server.end()
        if not count <= len(city.audit()[1]) <= count + 1:
            yield f"{count} reports were answered, and {len(city.audit()[1])} are there"


CASES = (
    has_its_layout,
    has_its_moments,
    is_checked,
    sets_room_aside,
    unknown_versions,
    other_tokens,
    what_fits,
    a_further_operator,
    an_operator_left_out,
    a_restart_keeps_all,
    as_many_publications_as_may_be,
    one_program_a_folder,
    ended_by_signals,
    stopped_under_load,
    the_control_port,
    what_is_counted,
    what_there_is,
    copied_while_it_runs,
    parts_of_an_audit,
    told_what_is_wrong,
    an_address_that_is_taken,
    a_full_disk,
    a_journal_that_can_not_be_written,
    a_disk_that_fails,
    starts_from_some,
)


def main():
    parser = argparse.ArgumentParser(description=__doc__, formatter_class=argparse.RawDescriptionHelpFormatter)
    parser.add_argument("program")
    parser.add_argument("--replay", default=REPLAY, help="the built mds_replay")
    parser.add_argument("--stride", type=int, default=1)
    options = parser.parse_args()
    tried, begun = Tried(), time.monotonic()
    with tempfile.TemporaryDirectory(prefix="journals-") as room:
        try:
            small = Small(os.path.abspath(options.program), room, os.path.abspath(options.replay))
        except (OSError, ValueError, subprocess.SubprocessError) as fault:
            print(repr(fault))
            tried.failed += 1
            return tried.told()
        for case in CASES:
            tried.one(case.__name__, case(small))
        for case in (each_byte_changed, each_length_cut):
            tried.one(case.__name__, case(small, options.stride))
    print(f"a journal of {len(small.bytes)} bytes, each {options.stride}; in {time.monotonic() - begun:.0f} s")
    return tried.told()


if __name__ == "__main__":
    sys.exit(main())
