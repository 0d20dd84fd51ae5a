#!/usr/bin/env python3
"""Tries `ruffletuff thin`: a city answers as before, its journal is shorter, and whatever goes wrong leaves the journal as it was.

    thinning.py PROGRAM [--replay FILE] [--vehicles NUMBER] [--kills NUMBER]

A city is run: three operators report, remove and report again, while its author publishes, supersedes, withdraws and keeps drafts. Which
entries stay of its journal is worked out here a second time, from what is said in docs/OPERATIONS.md. A server of the thinned journal is
compared with one of the journal before, over HTTP in all that is asked for, and by mds_replay at the same moments. What is recorded of
each thinning in the file compactions is worked out here too. Then come configurations, folders and journals that are refused, a disk without room, a file that can't grow, and a journal of a day's reports, made by
tests/records.py, whose thinning is killed at several moments. Then the journal is thinned while its city is served, under load, with
kills, on a disk that fills up, and where it can't be. A full disk is a file system in memory; where none may be mounted that test is left
out (packages.py). Prints what differs, and last 'N passed, M failed'; ends with 1 where one failed.
"""

import argparse
import contextlib
import json
import os
import random
import re
import resource
import shutil
import signal
import subprocess
import sys
import tempfile
import threading
import time
import uuid

import records
from journals import AUTHOR, DAMAGED, GEOMETRY, LOCKED, REPLAY, UNFIT, configuration, operator, report, small_disk
from kept import City, Tried, ended, line_of, replayed, split
from wire import PATIENCE, Closed, Link, identifier, request

ALFA, BRAVO, CAROL = "token-of-alfa", "token-of-bravo", "token-of-carol"
ALFA_ID, BRAVO_ID, CAROL_ID = (identifier(9, it) for it in (0xA1, 0xB1, 0xC1))
IDS = {ALFA: ALFA_ID, BRAVO: BRAVO_ID, CAROL: CAROL_ID}
GIVEN = configuration(operator(ALFA_ID, ALFA, 6), operator(BRAVO_ID, BRAVO, 6), operator(CAROL_ID, CAROL, 3), zone="-05:00")
SQUARE, ISLE, YARD = (identifier(1, it) for it in (1, 2, 3))
CAP, LESS, STAY, GONE, OWN, NEXT, LOST = (identifier(2, it) for it in range(1, 8))
TARGETS = (
    *("/policies", "/geographies", "/fleet/vehicles", "/compliance"),
    *(f"/policies/{it}" for it in (CAP, LESS, STAY, GONE, OWN, NEXT)),
    *(f"/geographies/{it}" for it in (SQUARE, ISLE, YARD)),
    *(f"/compliance/{it}" for it in (CAP, LESS, STAY, GONE, OWN)),
    *(f"/drafts/policies/{it}" for it in (CAP, NEXT, LOST)),
    f"/drafts/geographies/{YARD}",
)
LINE = re.compile(r"(\d+) records, (\d+) bytes before; (\d+) records, (\d+) bytes now\n")

CLEARED = "journal.thinned"
RECORDED, RECORDING = "compactions", "compactions.part"
NOT_WRITTEN = b"ruffletuff: the thinned journal couldn't be written: "
UNUSABLE = b"ruffletuff: the folder can't be used: "
DISK = 12 << 20  # bytes of a small disk
DAY, MINUTE = 1440, 60_000  # minutes, and milliseconds
BEGUN = 1_700_000_000_000  # the moment of the first report
BOUND = 2  # records of each vehicle that stay, at most


def geography(name):
    return "PUT", f"/drafts/geographies/{name}", f'{{"geography_id":"{name}","name":"place","geography_json":{GEOMETRY}}}'


def policy(name, kind="count", **members):
    """A policy of one rule, with these further members."""
    rule = {"rule_id": identifier(3, 1), "name": "rule", "rule_type": kind, "geographies": [SQUARE], "maximum": 1}
    rule |= {"rule_units": "minutes"} if kind == "time" else {}
    found = {"policy_id": name, "name": "policy", "start_date": 1000, "rules": [rule]} | members
    return "PUT", f"/drafts/policies/{name}", json.dumps(found)


def publish(**members):
    return "POST", "/publish", json.dumps(members)


def removal(number):
    return "DELETE", f"/fleet/vehicles/{identifier(4, number)}", ""


def told(number, timestamp, state="available"):
    return "POST", "/fleet/events", report(number, timestamp, state)


def reports():
    """What operators tell, in their order: repeated reports, states that come back, removals, and one device of two operators."""
    for step in range(12):
        for number in (1, 2, 3):
            yield ALFA, told(number, 2000 + 10 * step, "on_trip" if step // (number + 1) % 2 else "available")
        yield BRAVO, told(1, 3000 + step // 2, ("available", "on_trip", "elsewhere")[step // 5])
        if step in (4, 9):
            yield ALFA, removal(2)
            yield BRAVO, told(7, 3000 + step)
        if step == 6:
            yield BRAVO, removal(7)
    yield ALFA, told(4, 5000)
    yield ALFA, removal(4)
    yield CAROL, ("POST", "/fleet/events", report(9, 6000).replace(identifier(4, 9), f"urn:uuid:{identifier(4, 9).upper()}"))
    yield CAROL, ("POST", "/fleet/events", report(9, 6001))
    yield CAROL, ("POST", "/fleet/events", report(9, 6001))
    yield CAROL, ("POST", "/fleet/events", report(8, 6002))


def asked():
    """What is asked of the city, each with the token of who asks: the author's requests stand among the reports."""
    author = [
        (geography(SQUARE), geography(ISLE), policy(CAP), policy(STAY, "time"), publish(geographies=[SQUARE, ISLE], policies=[CAP, STAY])),
        (policy(GONE), policy(GONE, description="again"), publish(policies=[GONE])),
        (policy(LESS, prev_policies=[CAP]), policy(OWN, provider_ids=[BRAVO_ID]), publish(policies=[LESS, OWN])),
        (publish(withdraw=[GONE]),),
        (policy(NEXT), policy(NEXT, "time"), geography(YARD), policy(LOST), ("DELETE", f"/drafts/policies/{LOST}", "")),
    ]
    fleet = list(reports())
    step = len(fleet) // len(author) + 1
    for place, part in enumerate(author):
        yield from ((AUTHOR, it) for it in part)
        yield from fleet[place * step : (place + 1) * step]


def device_of(line):
    """Whose vehicle a line of an audit is about, its number, and the state that is reported, if one is; None of any other line."""
    token, method, target, *body = split(line)[1].split(" ", 3)
    if token == AUTHOR:
        return None
    if method == "DELETE":
        return token, uuid.UUID(target.rpartition("/")[2]), None
    found = json.loads(body[0])
    return token, uuid.UUID(found["device_id"]), found["vehicle_state"]


def staying(lines):
    """The lines that stay of a journal: the author's, and of each vehicle since it was last removed its last report, and the one with
    which its last run of one state began."""
    kept, runs = set(), {}
    for place, line in enumerate(lines):
        found = device_of(line)
        if found is None:
            kept.add(place)
            continue
        *device, state = found
        if state is None:
            runs.pop(tuple(device), None)
        else:
            begun = runs.get(tuple(device))
            runs[tuple(device)] = (begun[0] if begun and begun[2] == state else place, place, state)
    kept |= {place for begun, last, _ in runs.values() for place in (begun, last)}
    return [line for place, line in enumerate(lines) if place in kept]


def folder_of(folder):
    """The files of a folder with their bytes."""
    found = {}
    for name in sorted(os.listdir(folder)):
        with open(os.path.join(folder, name), "rb") as file:
            found[name] = file.read()
    return found


def recorded(city):
    """What is recorded of the thinnings of a city's journal."""
    with open(os.path.join(city.folder, RECORDED), "rb") as file:
        return file.read().decode()


def record(city, text):
    """Puts a text in the place of what is recorded, or nothing."""
    path = os.path.join(city.folder, RECORDED)
    with contextlib.suppress(FileNotFoundError):
        os.remove(path)
    if text is not None:
        with open(path, "wb") as file:
            file.write(text.encode())


def line_for(lines, name="-"):
    """What is recorded of the thinning of a journal of these lines: the latest moment, and the name of the archived one."""
    return f"{max(split(it)[0] for it in lines)} {name}\n"


def thin(city, *words, file=None, **how):
    return ended(city.program, "thin", city.folder, "--config", file or city.file, *words, **how)


def answers(server, tokens=(AUTHOR, ALFA, BRAVO, CAROL)):
    """What each is told, without the moment of a question."""
    found = {}
    for token in tokens:
        for target in TARGETS:
            answer = server.ask("GET", target, token)
            found[token, target] = answer.status, re.sub(rb'"at":\d+', b'"at":0', answer.body)
    return found


class Run:
    """A city that was run, and its folder, which is copied for each test."""

    def __init__(self, program, room, replay, vehicles, kills):
        self.program, self.replay, self.vehicles, self.kills = program, replay, vehicles, kills
        self.city = City(program, room, GIVEN)
        with self.city.serve() as server:
            for token, (method, target, body) in asked():
                if (answer := server.ask(method, target, token, body.encode())).status != 200:
                    raise ValueError(f"{method} {target} {body} is answered {answer}")
            self.answers = answers(server)
            if (found := server.end()) != (0, b"", b""):
                raise ValueError(f"the server ends with {found}")
        self.bytes = self.city.bytes()
        self.first, self.lines = self.city.audit()
        self.kept = staying(self.lines)

    @contextlib.contextmanager
    def copy(self, given=None, room=None, journal=None):
        """Another folder of the same files, with this configuration or another, and this journal or another."""
        with tempfile.TemporaryDirectory(prefix="thinning-", dir=room) as place:
            city = City(self.program, place, given or GIVEN)
            shutil.copytree(self.city.folder, city.folder)
            if journal is not None:
                with open(city.journal, "wb") as file:
                    file.write(journal)
            yield city

    def thinned(self):
        """The bytes of the thinned journal."""
        with self.copy() as city:
            if (found := thin(city))[0] or found[2]:
                raise ValueError(f"thin ends with {found}")
            return city.bytes()


# --- What stays ----------------------------------------------------------------------------------------------------


def is_thinned(run):
    """The entries stay that are worked out here, the line tells the counts, and a second time changes nothing."""
    with run.copy() as city:
        status, out, err = thin(city)
        found = LINE.fullmatch(out.decode())
        wanted = [len(run.lines) + 1, len(run.bytes), len(run.kept) + 1, len(city.bytes())]
        if (status, err) != (0, b"") or not found or list(map(int, found.groups())) != wanted:
            yield f"thin ends with {status, out, err}, and not with {wanted}"
        if city.audit() != (run.first, run.kept):
            yield f"other lines stay: {city.audit()[1]}, and not {run.kept}"
        if not len(run.kept) < len(run.lines) or not len(city.bytes()) < len(run.bytes):
            yield "it isn't shorter"
        once = folder_of(city.folder)
        if records.read(once["journal"]).ending != "whole" or sorted(once) != ["ballast", RECORDED, "journal", "lock"]:
            yield f"its folder has {sorted(once)}"
        if (found := recorded(city)) != (first := line_for(run.lines)):
            yield f"{found!r} is recorded, and not {first!r}"
        if (mode := os.stat(city.journal).st_mode & 0o777) != 0o600:
            yield f"the journal has the mode {mode:o}"
        again = f"{wanted[2]} records, {wanted[3]} bytes before; {wanted[2]} records, {wanted[3]} bytes now\n".encode()
        twice = once | {RECORDED: (first + line_for(run.kept)).encode()}
        if (found := thin(city)) != (0, again, b"") or folder_of(city.folder) != twice:
            yield f"a second time ends with {found}, and {recorded(city)!r} is recorded"


def answers_as_before(run):
    """Each is answered as before, and so are further requests, after a restart too."""
    further = [
        (ALFA, told(1, 9000, "on_trip")),
        (ALFA, told(2, 9001)),
        (ALFA, told(6, 1)),
        (BRAVO, told(1, 2999)),
        (BRAVO, removal(7)),
        (CAROL, told(9, 6001)),
        (CAROL, told(10, 6003)),
        (CAROL, told(11, 6004)),
        (AUTHOR, publish(policies=[NEXT], geographies=[YARD])),
        (AUTHOR, publish(policies=[CAP])),
    ]
    with run.copy() as before, run.copy() as after:
        if (found := thin(after))[0]:
            yield f"thin ends with {found}"
        heard = []
        for city in (before, after):
            with city.serve() as server:
                if (found := answers(server)) != run.answers:
                    yield from (f"{it} is answered {found[it]}, and not {run.answers[it]}" for it in found if found[it] != run.answers[it])
                replies = [server.ask(method, target, token, body.encode()) for token, (method, target, body) in further]
                heard.append([(it.status, re.sub(rb'"published_date":\d+', b"", it.body)) for it in replies])
                last = {it: found for it, found in answers(server).items() if not it[1].startswith(("/policies", "/geographies"))}
                heard[-1].append(last)
                if (found := server.end()) != (0, b"", b""):
                    yield f"the server ends with {found}"
            with city.serve() as server:
                if {it: found for it, found in answers(server).items() if it in last} != last:
                    yield "after a restart it answers otherwise"
        if heard[0] != heard[1]:
            yield f"further requests are answered {heard[1]}, and not {heard[0]}"


def answers_at_the_same_moments(run):
    """By mds_replay: at the same moments each is answered the same behind either journal, by the beginning of each vehicle's state."""
    last = max(split(it)[0] for it in run.lines)
    moments = [0, 3100, 60_000, 65_000, 70_000, last, last + 1]
    targets = [it for it in TARGETS if not it.startswith("/drafts")]
    questions = [f"{at} {line_of(token, 'GET', target)}" for at in moments for token in (ALFA, BRAVO, CAROL) for target in targets]
    before = replayed(run.replay, run.first, run.lines + questions)[len(run.lines) :]
    after = replayed(run.replay, run.first, run.kept + questions)[len(run.kept) :]
    yield from (f"{line} is answered {it!r}, and not {old!r}" for line, it, old in zip(questions, after, before, strict=True) if it != old)
    if len(set(before)) < 20:
        yield "the answers tell too little"


# --- What is refused -----------------------------------------------------------------------------------------------


def is_refused(city, status, said, *words, second=b"", file=None, **how):
    """Thinning is refused by name, and the folder's files are what they were."""
    before = folder_of(city.folder)
    found = thin(city, *words, file=file, **how)
    if found[:2] != (status, b"") or not found[2].startswith(said) or second not in found[2]:
        yield f"thin ends with {found}, and not with {status, said, second}"
    if folder_of(city.folder) != before:
        yield f"it changes the folder: {sorted(folder_of(city.folder))}"


def while_a_server_runs(run):
    """The folder is the server's as long as it runs."""
    with run.copy() as city, city.serve() as server:
        yield from is_refused(city, 4, LOCKED + city.folder.encode() + b"\n")
        if answers(server) != run.answers:
            yield "the server tells other things"
        if (found := server.end()) != (0, b"", b""):
            yield f"the server ends with {found}"


def other_configurations(run):
    """A configuration that is none or isn't there is refused, and one that doesn't fit; other tokens and a further operator are no matter."""
    two = [it for it in GIVEN["operators"] if it["id"] != CAROL_ID]
    low = [it | {"limit": 1} if it["id"] == CAROL_ID else it for it in GIVEN["operators"]]
    for given, second in (
        (configuration(*two), f"operator {CAROL_ID} has entries in it and isn't in the configuration\n".encode()),
        (configuration(*low), b"is answered with status 409\n"),
    ):
        with run.copy(given) as city:
            yield from is_refused(city, 6, UNFIT + city.folder.encode() + b"\n", second=second)
    with run.copy(b'{\n"author": "city"\n}\n') as city:
        yield from is_refused(city, 2, b"ruffletuff: the configuration is wrong: " + city.file.encode())
        none = os.path.join(city.room, "none")
        yield from is_refused(city, 2, b"ruffletuff: the configuration is wrong: " + none.encode(), file=none)
    others = [it | {"token": it["token"] + "-again"} for it in GIVEN["operators"]]
    with run.copy(configuration(*others, operator(identifier(9, 0xD1), "further"), author="again")) as city:
        if (found := thin(city))[0] or len(city.audit()[1]) != len(run.kept):
            yield f"with other tokens it ends with {found}"


def no_folder(run):
    """A folder that isn't there isn't made, and one without a journal gets none."""
    with tempfile.TemporaryDirectory() as room:
        city = City(run.program, room, GIVEN)
        for what in ("no folder", "an empty one"):
            if (found := thin(city)) != (4, b"", UNUSABLE + city.folder.encode() + b"\n"):
                yield f"of {what} it ends with {found}"
            if os.path.exists(city.folder) and os.listdir(city.folder):
                yield f"of {what} it makes {os.listdir(city.folder)}"
            os.makedirs(city.folder, exist_ok=True)


def damaged_journals(run):
    """A byte that is another, a text that is no entry and an unknown version are refused; a torn end is kept and said, as by a server."""
    texts = records.read(run.bytes).texts
    place = len(run.bytes) // 2
    cases = {
        b"it was synced up to byte ": run.bytes[:place] + bytes([run.bytes[place] ^ 1]) + run.bytes[place + 1 :],
        b"its first record is no journal's head": records.written(texts[1:]),
        b"its record 2 is none that this program knows": records.written([*texts[:2], b"\2" + texts[2][1:], *texts[3:]]),
    }
    for said, journal in cases.items():
        with run.copy(journal=journal) as city:
            yield from is_refused(city, 5, DAMAGED + city.folder.encode() + b"\n", second=said)
    front = f"ruffletuff: 40 bytes behind the last whole record, from byte {len(run.bytes)} on"
    said = f"{front}, are cut off the journal, and kept in a new journal.cut\n"
    with run.copy(journal=run.bytes + run.bytes[:40]) as city:
        if (found := thin(city))[::2] != (0, said.encode()) or city.audit()[1] != run.kept:
            yield f"with a torn end it ends with {found}"
        if (found := folder_of(city.folder)["journal.cut"]) != run.bytes[:40]:
            yield f"of a torn end it keeps {found}"


def limited(limit):
    """How a program is started none of whose files may have more bytes than this."""

    def limit_files():
        signal.signal(signal.SIGXFSZ, signal.SIG_IGN)
        resource.setrlimit(resource.RLIMIT_FSIZE, (limit, limit))

    return {"preexec_fn": limit_files, "restore_signals": False}


def a_file_that_can_not_grow(run):
    """Where the thinned journal can't be written the journal stays, and nothing is left beside it."""
    for limit in (1000, 5000, len(run.thinned()) - 1):
        with run.copy() as city:
            yield from is_refused(city, 7, NOT_WRITTEN + city.folder.encode() + b"\n", **limited(limit))


def fill(filler):
    """Fills the disk of a file up."""
    with contextlib.suppress(OSError):
        while filler.write(bytes(4096)):
            filler.flush()


def thinning_on_a_full_disk(run):
    """The same on a disk that has no room for a second journal; once there is room it is thinned."""
    with tempfile.TemporaryDirectory() as room, small_disk(room, DISK) as disk:
        with run.copy(room=disk) as city, open(os.path.join(disk, "filler"), "wb") as filler:
            os.truncate(os.path.join(city.folder, "ballast"), 0)
            fill(filler)
            yield from is_refused(city, 7, NOT_WRITTEN + city.folder.encode() + b"\n")
            os.truncate(filler.name, 0)
            if (found := thin(city))[0] or city.audit()[1] != run.kept:
                yield f"once there is room it ends with {found}"


def wrong_arguments(run):
    """Arguments that are none change nothing."""
    with run.copy() as city:
        given, archive = ("--config", city.file), ("--archive", city.room)
        for words in (("--config",), ("--until", "1"), archive, (*given, "--archive"), (*given, "--until", "1"), given * 2):
            found = ended(run.program, "thin", city.folder, *words)
            if found[:2] != (2, b"") or not found[2].startswith(b"ruffletuff: the arguments are wrong\nusage: ruffletuff thin DIR "):
                yield f"{words}: ends with {found}"
        if ended(run.program, "thin", city.folder)[0] != 2 or city.bytes() != run.bytes:
            yield "without a configuration it changes something"
        for words in (("--thin-at",), ("--thin-at", "x"), ("--thin-at", "-1"), ("--thin-at", "1" * 14), ("--thin-at", "1", "--thin-at", "2")):
            found = city.refused(*words)
            if found[:2] != (2, b"") or not found[2].startswith(b"ruffletuff: the arguments are wrong\nusage: ruffletuff serve "):
                yield f"to serve with {words} ends with {found}"


# --- A day's journal -----------------------------------------------------------------------------------------------


def a_days_journal(vehicles, minutes=DAY):
    """The journal of so many vehicles that each reported each minute of a day, or of so many, and how many records it has."""
    found, sum_ = records.group(0, 0, 0, [records.head([(it, 64) for it in IDS.values()])])
    first = (geography(SQUARE), policy(CAP), policy(STAY, "time"), publish(geographies=[SQUARE], policies=[CAP, STAY]))
    groups = [[records.entry(BEGUN - 1, method, None, target.encode(), body.encode()) for method, target, body in first]]
    for minute in range(minutes):
        at = BEGUN + minute * MINUTE
        states = ["on_trip" if minute // (5 + it) % 2 else "available" for it in range(vehicles)]
        bodies = [report(it, at, state).encode() for it, state in enumerate(states)]
        groups.append([records.entry(at + 1, "POST", ALFA_ID, b"/fleet/events", it) for it in bodies])
    parts = [found]
    position = len(found)
    for texts in groups:
        part, sum_ = records.group(sum_, position, position, texts)
        parts.append(part)
        position += len(part)
    return b"".join(parts), 1 + len(first) + minutes * vehicles


def killed(city, seconds, *words):
    """Thins, and kills it after so many seconds: whether it was still at it."""
    words = [city.program, "thin", city.folder, "--config", city.file, *words]
    with subprocess.Popen(words, stdout=subprocess.DEVNULL, stderr=subprocess.DEVNULL) as process:
        try:
            process.wait(seconds)
        except subprocess.TimeoutExpired:
            process.kill()
            return True
    return False


def a_day(run):
    """Of a day's reports at most two of each vehicle stay. Killed at any moment, thinning leaves the journal or the thinned one."""
    given = configuration(*(operator(it, token, 64) for token, it in IDS.items()))
    journal, count = a_days_journal(run.vehicles)
    with run.copy(given, journal=journal) as city:
        begun = time.monotonic()
        status, out, err = thin(city)
        took = time.monotonic() - begun
        found = LINE.fullmatch(out.decode())
        if (status, err) != (0, b"") or not found or int(found[1]) != count or int(found[3]) > 5 + BOUND * run.vehicles:
            yield f"a day's journal: thin ends with {status, out, err}"
        shorter, told = city.bytes(), recorded(city)
        if told != f"{BEGUN + (DAY - 1) * MINUTE + 1} -\n":
            yield f"of a day's journal {told!r} is recorded"
        print(f"{run.vehicles} vehicles each minute of a day, in {took:.1f} s: {out.decode()}", end="")
        with city.serve() as server:
            wanted = answers(server, (AUTHOR, ALFA))
    with run.copy(given, journal=journal) as city, city.serve() as server:
        if answers(server, (AUTHOR, ALFA)) != wanted:
            yield "of a day's journal other things are told"
    ends = []
    for kill in range(run.kills):
        with run.copy(given, journal=journal) as city:
            is_killed = killed(city, took * (kill + 0.5) / run.kills)
            is_thinned = city.bytes() == shorter
            ends.append((is_killed, is_thinned))
            if not is_thinned and city.bytes() != journal or not is_killed and not is_thinned:
                yield f"kill {kill}: another journal stands there"
            if (found := recorded(city)) != told and (found or is_thinned):
                yield f"kill {kill}: {found!r} is recorded"
            with city.serve() as server:
                if answers(server, (AUTHOR, ALFA)) != wanted:
                    yield f"kill {kill}: other things are told"
            if thin(city)[0] or city.bytes() != shorter or CLEARED in os.listdir(city.folder):
                yield f"kill {kill}: then it isn't thinned"
    print(f"of {run.kills} kills {sum(it[0] for it in ends)} came in time, and {sum(it[1] for it in ends)} found it thinned")


# --- An archive ----------------------------------------------------------------------------------------------------

PART = "archive.part"
NO_ARCHIVE = b"ruffletuff: the archive can't be used: "
NOT_ARCHIVED = b"ruffletuff: the journal can't be archived, and isn't thinned: "
NO_ROOM = b"the archive's disk has no room for it\n"
CHECKED = re.compile(r"\d+ records, (\d+) bytes, 0 behind them, whole\n")


def archive_of(city):
    """The folder of a city's archive, which is made where it isn't there."""
    place = os.path.join(city.room, "archive")
    os.makedirs(place, exist_ok=True)
    return place


def lines_of(city, path):
    """The lines of an archived journal behind its first one."""
    status, out, err = ended(city.program, "audit", path, "--config", city.file)
    if status or err:
        raise ValueError(f"audit of {path} ends with {status}: {err[:200]!r}")
    return out.decode().splitlines()[1:]


def name_of(lines):
    """The name of the archived journal of these lines."""
    return f"journal-{split(lines[0])[0]}-{split(lines[-1])[0]}"


def archive_faults(city, archive):
    """What of an archive isn't a whole journal that its owner alone may read, under the name of its entries."""
    for name in os.listdir(archive):
        path = os.path.join(archive, name)
        status, out, err = ended(city.program, "check", path)
        found = CHECKED.fullmatch(out.decode())
        if (status, err) != (0, b"") or not found or int(found[1]) != os.path.getsize(path):
            yield f"check of {name} ends with {status, out, err}"
        if (mode := os.stat(path).st_mode & 0o777) != 0o600:
            yield f"{name} has the mode {mode:o}"
        if re.fullmatch(re.escape(name_of(lines_of(city, path))) + r"(\.[1-9]\d*)?", name) is None:
            yield f"{name} has the lines of {name_of(lines_of(city, path))}"


def is_archived(run):
    """The journal is kept as it was, once. What is there by its name stays, and each file is read as a journal by itself."""
    with run.copy() as city:
        archive, name = archive_of(city), name_of(run.lines)
        if (found := thin(city, "--archive", archive))[0] or found[2]:
            yield f"thin ends with {found}"
        shorter, wanted = city.bytes(), {name: run.bytes}
        if folder_of(archive) != wanted:
            yield f"the archive has {sorted(os.listdir(archive))}"
        if (found := recorded(city)) != (told := line_for(run.lines, name)):
            yield f"{found!r} is recorded, and not {told!r}"
        if lines_of(city, os.path.join(archive, name)) != run.lines:
            yield "the archived journal has other lines"
        if city.audit() != (run.first, run.kept):
            yield "other lines stay"
        wanted |= {f"{name}.1": shorter}
        for _ in range(2):
            told += line_for(run.kept, f"{name}.1")
            if (found := thin(city, "--archive", archive))[0] or folder_of(archive) != wanted or recorded(city) != told:
                yield f"once more it ends with {found}, and the archive has {sorted(os.listdir(archive))} and {recorded(city)!r} is recorded"
        yield from archive_faults(city, archive)


def no_archive(run):
    """An archive that isn't there, or is no folder, is refused at the start, and isn't made."""
    with run.copy() as city:
        for archive in (os.path.join(city.room, "none"), city.file):
            said = NO_ARCHIVE + archive.encode() + b"\n"
            yield from is_refused(city, 4, said, "--archive", archive)
            if (found := city.refused("--archive", archive)) != (4, b"", said):
                yield f"to serve with {archive} ends with {found}"
        if os.path.exists(os.path.join(city.room, "none")):
            yield "it is made"


def an_archive_that_can_not_be_written(run):
    """Where the journal can't be archived it isn't thinned, and the archive stays as it was: behind a limit, and where a folder stands in
    the place of the file that is written."""
    with run.copy() as city:
        archive = archive_of(city)
        said = NOT_ARCHIVED + archive.encode() + b"\n"
        how = {"second": b"the archive's folder can't be written\n"} | limited(len(run.bytes) - 1)
        yield from is_refused(city, 7, said, "--archive", archive, **how)
        if os.listdir(archive):
            yield f"the archive has {os.listdir(archive)}"
        os.makedirs(os.path.join(archive, PART, "full"))
        yield from is_refused(city, 7, said, "--archive", archive)
        if os.listdir(archive) != [PART]:
            yield f"the archive has {os.listdir(archive)}"


def a_full_archive(run):
    """On a disk that has no room for the journal it isn't archived nor thinned; once there is room it is."""
    with tempfile.TemporaryDirectory() as room, small_disk(room, DISK) as disk:
        with run.copy() as city, open(os.path.join(disk, "filler"), "wb") as filler:
            fill(filler)
            yield from is_refused(city, 7, NOT_ARCHIVED + disk.encode() + b"\n", "--archive", disk, second=NO_ROOM)
            if os.listdir(disk) != ["filler"]:
                yield f"the archive has {os.listdir(disk)}"
            os.truncate(filler.name, 0)
            if (found := thin(city, "--archive", disk))[0] or city.audit()[1] != run.kept:
                yield f"once there is room it ends with {found}"
            if folder_of(disk).get(name_of(run.lines)) != run.bytes:
                yield f"once there is room the archive has {os.listdir(disk)}"


def killed_at(city, archive, is_reached):
    """Thins with an archive, and kills it once something is seen: whether it was seen."""
    words = [city.program, "thin", city.folder, "--config", city.file, "--archive", archive]
    with subprocess.Popen(words, stdout=subprocess.DEVNULL, stderr=subprocess.DEVNULL) as process:
        while process.poll() is None:
            if is_reached():
                process.kill()
                return True
    return False


def killed_while_archived(run):
    """Killed at any step, and at any moment, thinning leaves no archived journal or a whole one, and that one where the journal is thinned;
    thinning once more archives it once."""
    given = configuration(*(operator(it, token, 64) for token, it in IDS.items()))
    journal, _ = a_days_journal(run.vehicles, DAY // 12)
    seen = []

    def steps(city, archive, name, took):
        paths = (os.path.join(city.folder, CLEARED), os.path.join(archive, PART), os.path.join(archive, name))
        for path in (*paths, os.path.join(city.folder, RECORDING)):
            yield lambda path=path: seen.append(killed_at(city, archive, lambda: os.path.exists(path)))
        yield lambda: seen.append(killed_at(city, archive, lambda: recorded(city)))
        for kill in range(run.kills):
            yield lambda kill=kill: killed(city, took * (0.5 + 0.6 * kill / run.kills), "--archive", archive)

    with run.copy(given, journal=journal) as city:
        archive, begun = archive_of(city), time.monotonic()
        if (found := thin(city, "--archive", archive))[0]:
            yield f"thin ends with {found}"
        took, shorter, wanted = time.monotonic() - begun, city.bytes(), folder_of(archive)
        (name,) = wanted
        told = f"{BEGUN + (DAY // 12 - 1) * MINUTE + 1} {name}\n"
        if (found := recorded(city)) != told:
            yield f"{found!r} is recorded, and not {told!r}"
        for number, step in enumerate(steps(city, archive, name, took)):
            with open(city.journal, "wb") as file:
                file.write(journal)
            shutil.rmtree(archive)
            os.makedirs(archive)
            record(city, "")
            step()
            found = {it: text for it, text in folder_of(archive).items() if it != PART}
            is_thinned = city.bytes() == shorter
            if found not in ({}, wanted) or not is_thinned and city.bytes() != journal or is_thinned and found != wanted:
                yield f"kill {number}: the archive has {sorted(found)}, and the journal is {'thinned' if is_thinned else 'not thinned'}"
            if (begun := recorded(city)) != told and (begun or is_thinned) or begun and found != wanted:
                yield f"kill {number}: {begun!r} is recorded, and the archive has {sorted(found)}"
            if thin(city, "--archive", archive)[0] or city.bytes() != shorter:
                yield f"kill {number}: then it isn't thinned"
            last = wanted | ({f"{name}.1": shorter} if is_thinned else {})
            if folder_of(archive) != last:
                yield f"kill {number}: then the archive has {sorted(os.listdir(archive))}"
            if (found := recorded(city)) != begun + (told.replace(name, f"{name}.1") if is_thinned else told):
                yield f"kill {number}: then {found!r} is recorded"
    print(f"of 5 steps of an archived journal {sum(seen)} were seen before a kill")


# --- What is recorded ----------------------------------------------------------------------------------------------

DAMAGED_RECORD = (
    b"ruffletuff: the file compactions is damaged, and kept as compactions.damaged: "
    b"what stood before the journal's latest entry isn't told any more\n"
)


def served(city):
    """What standard error says of a server that starts and is stopped."""
    with city.serve() as server:
        status, out, said = server.end()
    if (status, out) != (0, b""):
        raise ValueError(f"the server ends with {status, out, said}")
    return said


def folders_of_earlier_versions(run):
    """Of a journal that came without the file it isn't known what was dropped up to its latest entry: a start says so, and a thinning. What
    is there then stays."""
    first = line_for(run.lines)
    with run.copy() as city:
        record(city, None)
        for _ in range(2):
            if (said := served(city)) or recorded(city) != first:
                yield f"a start says {said}, and {recorded(city)!r} is recorded"
    for name, words in (("-", ()), (name_of(run.lines), ("--archive",))):
        with run.copy() as city:
            record(city, None)
            found = thin(city, *words, *(archive_of(city) for _ in words))
            if found[::2] != (0, b"") or recorded(city) != first + line_for(run.lines, name):
                yield f"thin ends with {found}, and {recorded(city)!r} is recorded"


def damaged_records(run):
    """A file that has no such lines is kept, and said, and another begins as where there was none."""
    first = line_for(run.lines)
    for text in ("\n", "2002 -", "x -\n", "1 journal-1/2\n", "01 -\n"):
        with run.copy() as city:
            record(city, text)
            if (said := served(city)) != DAMAGED_RECORD or recorded(city) != first:
                yield f"{text!r}: a start says {said}, and {recorded(city)!r} is recorded"
            if (found := folder_of(city.folder)["compactions.damaged"]) != text.encode():
                yield f"{text!r}: {found} is kept"
    with run.copy() as city:
        record(city, "x -\n")
        if (found := thin(city))[::2] != (0, DAMAGED_RECORD) or recorded(city) != 2 * first:
            yield f"thin ends with {found}, and {recorded(city)!r} is recorded"


def new_cities_have_no_record(run):
    """Nothing is recorded of a new city, its owner alone may read that, and its journal without entries is thinned to itself."""
    with tempfile.TemporaryDirectory(prefix="thinning-") as room:
        city = City(run.program, room, GIVEN)
        if (said := served(city)) or recorded(city):
            yield f"a start says {said}, and {recorded(city)!r} is recorded"
        if (mode := os.stat(os.path.join(city.folder, RECORDED)).st_mode & 0o777) != 0o600:
            yield f"{RECORDED} has the mode {mode:o}"
        if (found := thin(city))[::2] != (0, b"") or recorded(city):
            yield f"thin ends with {found}, and {recorded(city)!r} is recorded"


def thinnings_that_can_not_be_recorded(run):
    """Where a thinning can't be recorded the journal isn't thinned. No link is followed in the file's place."""
    with run.copy() as city:
        os.makedirs(os.path.join(city.folder, RECORDING, "full"))
        if (found := thin(city)) != (7, b"", NOT_WRITTEN + city.folder.encode() + b"\n"):
            yield f"thin ends with {found}"
        if city.bytes() != run.bytes or recorded(city) or CLEARED in os.listdir(city.folder):
            yield f"{recorded(city)!r} is recorded in {os.listdir(city.folder)}"
    with run.copy() as city:
        record(city, None)
        os.symlink(city.file, os.path.join(city.folder, RECORDED))
        said = b"ruffletuff: a file of the folder is a link, or none: " + city.folder.encode() + b"\n"
        for found in (thin(city), city.refused()):
            if found != (4, b"", said):
                yield f"by a link it ends with {found}"
        if city.bytes() != run.bytes:
            yield "by a link the journal is thinned"


# --- While the city is served --------------------------------------------------------------------------------------

THINNED = b"ruffletuff: the journal is thinned\n"
NOT_THINNED = b"ruffletuff: the journal isn't thinned: "
LOADED = configuration(*(operator(it, token, 64) for token, it in IDS.items()))
SMALL = 20_000  # bytes of growth behind which the journal is thinned
DUE, LEFT = 80_000, 16_384  # the same on a disk that fills up, and what is left of it: less than the shorter journal takes


class Reporter:
    """An operator that reports its vehicles over one connection, one report behind the other."""

    def __init__(self, token, first, vehicles=4):
        self.token, self.first, self.vehicles = token, first, vehicles
        self.count, self.sent, self.told, self.accepted = 0, {}, {}, set()

    def report_all(self, port, is_over):
        """Reports until it is over or the connection is closed. The last timestamps are in `sent`, those answered with 200 in `told`,
        and all of those, each with its device and the token, in `accepted`."""
        with contextlib.suppress(OSError, Closed), Link(port) as link:
            while not is_over():
                self.count += 1
                number = self.first + self.count % self.vehicles
                self.sent[number] = 10_000 + self.count
                body = report(number, self.sent[number], "on_trip" if self.count // 9 % 2 else "available")
                link.send(request("POST", "/fleet/events", self.token, body.encode()))
                if link.answer().status != 200:
                    return
                self.told[number] = self.sent[number]
                self.accepted.add((self.token, identifier(4, number), self.sent[number]))

    def faults(self, server):
        """What of its vehicles isn't as it was told, or as it was sent last."""
        rows = json.loads(server.ask("GET", "/fleet/vehicles", self.token).body)["vehicles"]
        found = {row["device_id"]: row["timestamp"] for row in rows}
        for number, told in self.told.items():
            last = found.get(identifier(4, number))
            if last is None or not told <= last <= self.sent[number]:
                yield f"{self.token}'s vehicle {number} was last told at {told}, and is there with {last}"


def author_drafts(server, is_over):
    """The author drafts one policy after another, and publishes some: what it was answered with 200, in order."""
    answered = []
    with contextlib.suppress(OSError, Closed), Link(server.port) as link:
        for number in range(100, 100_000):
            if is_over():
                break
            name = identifier(2, number)
            for method, target, body in (policy(name, "time" if number % 3 else "count"), publish(policies=[name])):
                link.send(request(method, target, AUTHOR, body.encode()))
                if link.answer().status == 200:
                    answered.append((method, target))
            time.sleep(0.1 * PATIENCE)
    return answered


@contextlib.contextmanager
def loaded(server, reporters):
    """The city under load: reporters, each in a thread, and the author. What the author was answered is there once it is over."""
    over, answered = threading.Event(), []
    threads = [threading.Thread(target=it.report_all, args=(server.port, over.is_set)) for it in reporters]
    threads.append(threading.Thread(target=lambda: answered.extend(author_drafts(server, over.is_set))))
    for it in threads:
        it.start()
    try:
        yield answered
    finally:
        over.set()
        for it in threads:
            it.join()


def reporters():
    return [Reporter(ALFA, 10), Reporter(ALFA, 20), Reporter(BRAVO, 10), Reporter(CAROL, 10)]


def city_of(program, room):
    """A city with a square, whose author has published it."""
    city = City(program, room, LOADED)
    with city.serve("--thin-at", "0") as server:
        for method, target, body in (geography(SQUARE), publish(geographies=[SQUARE])):
            server.ask(method, target, AUTHOR, body.encode())
        server.end()
    return city


def told_alike(city, wanted, tokens=(AUTHOR, ALFA, BRAVO, CAROL)):
    """A server that is started again tells what was told before."""
    with city.serve("--thin-at", "0") as server:
        found = answers(server, tokens)
        yield from (f"{it} is answered {found[it]} after a restart, and not {wanted[it]}" for it in wanted if found[it] != wanted[it])
        if (ended_ := server.end()) != (0, b"", b""):
            yield f"the server ends with {ended_}"


def record_faults(city, times, archive=None):
    """What of the record of so many thinnings isn't so: a line for each at least, with no earlier moment than the one before, as long as the
    clock goes on; without an archive no names, and else the moment is the latest of the archived journal."""
    found = [re.fullmatch(r"(\d+) (\S+)", line) for line in recorded(city).splitlines()]
    moments = [int(it[1]) for it in found if it]
    if not all(found) or len(found) < times or sorted(moments) != moments:
        yield f"of {times} thinnings {recorded(city)!r} is recorded"
        return
    for it in found:
        if archive is None:
            is_right = it[2] == "-"
        else:
            lines = lines_of(city, os.path.join(archive, it[2]))
            is_right = f"{it[0]}\n" == line_for(lines, it[2])
        if not is_right:
            yield f"{it[0]!r} is recorded"


def is_thinned_while_served(run):
    """Under load the journal is thinned again and again, and stays short; nothing that was told is lost, and each answer stays."""
    with tempfile.TemporaryDirectory(prefix="thinning-") as room:
        city, asking = city_of(run.program, room), reporters()
        most = 0
        with city.serve("--thin-at", str(SMALL)) as server:
            begun = time.monotonic()
            with loaded(server, asking):
                while time.monotonic() - begun < 4 * PATIENCE:
                    time.sleep(0.1)
                    most = max(most, os.path.getsize(city.journal))
            for it in asking:
                yield from it.faults(server)
            wanted = answers(server)
            counted = server.asked("GET", "/metrics")[1].decode()
            if f"\nruffletuff_journal_bytes {os.path.getsize(city.journal)}\n" not in counted:
                yield f"its journal has {os.path.getsize(city.journal)} bytes, and it tells {counted}"
            status, out, said = server.end()
        times = said.count(THINNED)
        print(f"thinned {times} times under {sum(it.count for it in asking)} reports; the journal had {most} bytes at the most")
        if (status, out) != (0, b"") or said != times * THINNED or times < 2:
            yield f"it ends with {status, out, said}"
        if CLEARED in os.listdir(city.folder):
            yield "something is left beside the journal"
        yield from record_faults(city, times)
        yield from told_alike(city, wanted)
        first, lines = city.audit()
        refused = [it for it in replayed(run.replay, first, lines) if not it.startswith("200 ")]
        if refused:
            yield f"a replay of the audit is answered {refused[:3]}"


def killed_while_thinned(run):
    """Killed at a random moment while the journal is thinned, nothing that was told is lost, and nothing is left beside the journal."""
    choice, kills, done = random.Random(7), max(2, run.kills // 2), 0
    with tempfile.TemporaryDirectory(prefix="thinning-") as room:
        city, asking = city_of(run.program, room), reporters()
        for kill in range(kills):
            with city.serve("--thin-at", str(SMALL)) as server:
                with loaded(server, asking):
                    time.sleep((0.3 + choice.random()) * PATIENCE)
                    server.process.kill()
                _, out, said = server.stop()
            done += said.count(THINNED)
            if out or not THINNED.startswith(said.replace(THINNED, b"")):
                yield f"kill {kill}: it says {out, said}"
            with city.serve("--thin-at", "0") as server:
                for it in asking:
                    yield from (f"kill {kill}: {fault}" for fault in it.faults(server))
                if CLEARED in os.listdir(city.folder):
                    yield f"kill {kill}: something is left beside the journal"
                status, out, said = server.end()
                if (status, out) != (0, b"") or b"isn't thinned" in said:
                    yield f"kill {kill}: then it ends with {status, out, said}"
    print(f"thinned {done} times before {kills} kills")
    if not done:
        yield "it was never thinned"


def cannot_be_thinned_while_served(run):
    """Where the shorter journal can't be written, or its thinning can't be recorded, that is said, and the city is served on all the
    same."""
    for name in (CLEARED, RECORDING):
        with tempfile.TemporaryDirectory(prefix="thinning-") as room:
            city, asking = city_of(run.program, room), [Reporter(ALFA, 10)]
            os.makedirs(os.path.join(city.folder, name, "full"))
            with city.serve("--thin-at", str(SMALL)) as server:
                with loaded(server, asking):
                    until = time.monotonic() + 60 * PATIENCE
                    while asking[0].count < 500 and time.monotonic() < until:
                        time.sleep(0.1)
                yield from asking[0].faults(server)
                wanted = answers(server)
                status, out, said = server.end()
            if (status, out) != (0, b"") or not said or said.replace(NOT_THINNED + b"the thinned journal can't be written\n", b""):
                yield f"{name}: it ends with {status, out, said}"
            if recorded(city):
                yield f"{name}: {recorded(city)!r} is recorded"
            yield from told_alike(city, wanted)


def a_disk_that_fills_up_while_served(run):
    """On a disk without room for a second journal the city is served on, and once there is room its journal is thinned."""
    with tempfile.TemporaryDirectory() as room, small_disk(room, DISK) as disk:
        city, asking = city_of(run.program, disk), Reporter(ALFA, 0, 60)
        filler = os.path.join(disk, "filler")

        def reported(is_over):
            """Reports until it is over, and waits then: what is thinned meanwhile has the disk for itself."""
            asking.report_all(server.port, is_over)
            if not is_over():
                raise ValueError(f"a report is answered otherwise, behind {asking.count}")
            time.sleep(0.3 * PATIENCE)

        def is_beyond(bytes_):
            return lambda: os.path.getsize(city.journal) > bytes_

        with city.serve("--thin-at", str(DUE)) as server:
            reported(is_beyond(DUE // 2))
            with open(filler, "wb", buffering=0) as file:
                fill(file)
            os.truncate(filler, os.path.getsize(filler) - LEFT)
            reported(is_beyond(DUE))
            reached = asking.count + 20
            reported(lambda: asking.count >= reached)
            os.truncate(filler, 0)
            reported(is_beyond(3 * DUE))
            # What was reported last is brought to the shorter one, which takes the place behind one more report.
            for _ in range(4):
                reached = asking.count + 1
                reported(lambda: asking.count >= reached)
            yield from asking.faults(server)
            wanted = answers(server)
            status, out, said = server.end()
        if (status, out) != (0, b"") or NOT_THINNED not in said or THINNED not in said:
            yield f"it ends with {status, out, said}"
        yield from told_alike(city, wanted)


def reports_in(city, archive):
    """The reports of an archive and of the journal, each with the token, the device and its timestamp."""
    found = set()
    for path in (*(os.path.join(archive, it) for it in os.listdir(archive) if it != PART), city.folder):
        for line in lines_of(city, path):
            token, _, target, *body = split(line)[1].split(" ", 3)
            if target == "/fleet/events":
                row = json.loads(body[0])
                found.add((token, row["device_id"], row["timestamp"]))
    return found


def is_archived_while_served(run):
    """Under load and with kills, each journal that a shorter one replaces is archived, whole: archive and journal have every accepted
    report, and the server tells what it was told."""
    choice, kills = random.Random(11), max(2, run.kills // 4)
    with tempfile.TemporaryDirectory(prefix="thinning-") as room:
        city, asking = city_of(run.program, room), reporters()
        archive, times = archive_of(city), 0
        for kill in range(kills + 1):
            with city.serve("--thin-at", str(SMALL), "--archive", archive) as server:
                with loaded(server, asking):
                    time.sleep((0.5 + choice.random()) * PATIENCE if kill < kills else 3 * PATIENCE)
                    if kill < kills:
                        server.process.kill()
                if kill < kills:
                    _, out, said = server.stop()
                else:
                    for it in asking:
                        yield from it.faults(server)
                    status, out, said = server.end()
                    if status:
                        yield f"it ends with {status}"
            times += said.count(THINNED)
            if out or said.replace(THINNED, b"") not in (b"", THINNED[: len(said) % len(THINNED)]):
                yield f"kill {kill}: it says {out, said}"
        with contextlib.suppress(FileNotFoundError):
            os.remove(os.path.join(archive, PART))
        yield from archive_faults(city, archive)
        yield from record_faults(city, times, archive)
        accepted = set().union(*(it.accepted for it in asking))
        if lacking := accepted - reports_in(city, archive):
            yield f"{len(lacking)} of {len(accepted)} accepted reports are nowhere: {sorted(lacking)[:3]}"
        print(f"archived {len(os.listdir(archive))} journals, by {times} thinnings and {kills} kills, under {len(accepted)} reports")
        if not times or len(os.listdir(archive)) < times:
            yield f"{times} thinnings left {sorted(os.listdir(archive))}"


def a_full_archive_while_served(run):
    """Where the archive's disk is full the journal isn't thinned, that is said, and the city is served on; once there is room both are
    done."""
    with tempfile.TemporaryDirectory() as room, small_disk(room, DISK) as disk:
        city, asking = city_of(run.program, room), [Reporter(ALFA, 0, 60)]
        filler = os.path.join(disk, "filler")
        with open(filler, "wb", buffering=0) as file:
            fill(file)
        with city.serve("--thin-at", str(SMALL), "--archive", disk) as server:
            with loaded(server, asking):
                # Beyond that it was to be thinned, and then again.
                until = time.monotonic() + 60 * PATIENCE
                while os.path.getsize(city.journal) < 4 * SMALL and time.monotonic() < until:
                    time.sleep(0.1)
                time.sleep(2 * PATIENCE)
                full, standing = os.listdir(disk), os.path.getsize(city.journal)
                os.truncate(filler, 0)
                until = time.monotonic() + 60 * PATIENCE
                while (set(os.listdir(disk)) <= {"filler", PART} or os.path.getsize(city.journal) > standing) and time.monotonic() < until:
                    time.sleep(0.1)
            yield from asking[0].faults(server)
            status, out, said = server.end()
        told = NOT_THINNED + b"it can't be archived: " + NO_ROOM
        if full != ["filler"] or (status, out) != (0, b"") or not said.startswith(told) or said.replace(told, b"").replace(THINNED, b""):
            yield f"with {full} in its archive it ends with {status, out, said}"
        os.remove(filler)
        yield from archive_faults(city, disk)
        if THINNED not in said or (lacking := asking[0].accepted - reports_in(city, disk)):
            yield f"once there is room it says {said}, and {sorted(lacking)[:3]} are nowhere"


CASES = (
    is_thinned,
    answers_as_before,
    answers_at_the_same_moments,
    while_a_server_runs,
    other_configurations,
    no_folder,
    damaged_journals,
    a_file_that_can_not_grow,
    thinning_on_a_full_disk,
    wrong_arguments,
    a_day,
    is_archived,
    no_archive,
    an_archive_that_can_not_be_written,
    a_full_archive,
    killed_while_archived,
    folders_of_earlier_versions,
    damaged_records,
    new_cities_have_no_record,
    thinnings_that_can_not_be_recorded,
    is_thinned_while_served,
    killed_while_thinned,
    cannot_be_thinned_while_served,
    a_disk_that_fills_up_while_served,
    is_archived_while_served,
    a_full_archive_while_served,
)


def main():
    parser = argparse.ArgumentParser(description=__doc__, formatter_class=argparse.RawDescriptionHelpFormatter)
    parser.add_argument("program")
    parser.add_argument("--replay", default=REPLAY, help="the built mds_replay")
    parser.add_argument("--vehicles", type=int, default=8, help="how many report each minute of a day")
    parser.add_argument("--kills", type=int, default=12)
    options = parser.parse_args()
    tried, begun = Tried(), time.monotonic()
    with tempfile.TemporaryDirectory(prefix="thinning-") as room:
        try:
            places = [os.path.abspath(it) for it in (options.program, options.replay)]
            run = Run(places[0], room, places[1], options.vehicles, options.kills)
        except (OSError, ValueError, Closed, subprocess.SubprocessError) as fault:
            print(repr(fault))
            tried.failed += 1
            return tried.told()
        for case in CASES:
            tried.one(case.__name__, case(run))
    print(f"of {len(run.lines)} entries {len(run.kept)} stay; in {time.monotonic() - begun:.0f} s")
    return tried.told()


if __name__ == "__main__":
    sys.exit(main())
