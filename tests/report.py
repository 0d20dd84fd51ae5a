#!/usr/bin/env python3
"""Tries `ruffletuff report`: what it says of moments of the past is what was to be answered then.

    report.py PROGRAM [--replay FILE] [--cities NUMBER] [--seed TEXT]

Journals of cities are made by chance over both nights on which New York's clocks are changed: policies with windows over midnight, that
supersede others, are withdrawn, begin and end, two operators that report, repeat and remove, and a clock that goes back. Each sample of
verdicts.csv is worked out here another way: into the script that `ruffletuff audit` prints a question for compliance is put at each
moment, mds_replay answers, and the answer is read by Python. summary.csv is worked out a second time from verdicts.csv, and local times
from the two nights. The marks of report.html, by how much and since when a rule is violated, and the order of rules are worked out from
verdicts.csv and the documents. A thinned journal with the one before it, a copy of it or what `thin --archive` and `serve --archive` kept,
says the same as the whole one. Names that a spreadsheet or a browser would take for more than names, operators that are many, journals
that are refused, and reports that aren't written whole are tried too. Prints what differs, and last 'N passed, M failed'; ends with 1
where one failed.
"""

import argparse
import collections
import csv
import io
import itertools
import json
import os
import random
import re
import resource
import shutil
import signal
import subprocess
import sys
import tempfile
import time
from datetime import datetime, timezone

import records
from journals import REPLAY
from kept import City, Tried, ended, replayed, split
from report_page import DAY_LINE, MARK, OPEN, RULE, Page, bounds_of, counts_of, marks_of, minutes_are_told, page_faults, since_of, worst_of
from thinning import THINNED, archive_of
from wire import SECONDS, Closed, identifier
from wire import report as report_of

AUTHOR, ALFA, BRAVO = "city", "alfa", "bravo"
ALFA_ID, BRAVO_ID, FURTHER_ID = (identifier(9, it) for it in (0xA1, 0xB1, 0xC1))
IDS = {ALFA: ALFA_ID, BRAVO: BRAVO_ID}
NEW_YORK = "EST5EDT,M3.2.0,M11.1.0"
# 2025-03-08, 2025-11-01 and 2025-06-12 at midnight in New York, in milliseconds since the Unix epoch; behind the first two the clocks are
# set forward on 9 March at 07:00 UTC, and back on 2 November at 06:00 UTC. All are over, since a report tells nothing of what is to come.
SPRING, AUTUMN, SUMMER = 1_741_410_000_000, 1_761_969_600_000, 1_749_700_800_000
FORWARD, BACK = 1_741_503_600_000, 1_762_063_200_000
MINUTE, HOUR, DAY = 60_000, 3_600_000, 86_400_000
EVERY = 30  # minutes
STEPS, DEVICES = 90, 4
TYPES, STATES = ("scooter", "bicycle"), ("available", "on_trip", "reserved", "non_operational")
NAMES = ("verdicts.csv", "summary.csv", "report.html")
COLUMNS = (
    "moment,local,operator_id,operator_name,policy_id,policy_name,rule_number,rule_id,rule_name,status,measure,minimum,maximum,"
    "units".split(",")
)
SUMMED = (
    "operator_id,operator_name,policy_id,policy_name,rule_number,rule_id,rule_name,day,samples,violated,longest,longest_first,"
    "longest_last,first_violated,last_violated,greatest_measure,least_measure".split(",")
)
# Names that a spreadsheet, a browser or a reader of lines may take for more than that.
HOSTILE = (
    "=cmd|' /C calc'!A0",
    "+1+1",
    "-2+3",
    "@SUM(A1:A9)",
    "\t=1",
    "\r=1",
    'said "no", and went',
    "two\nlines",
    "two\r\nlines",
    "<script>alert(1)</script>",
    "'><img src=x onerror=alert(1)>",
    "</title></style></svg><script>alert(2)</script>",
    "&amp; &lt;",
    "ordinary",
    "",
)
COUNTS = re.compile(rb"\d+ operators?, \d+ moments?, \d+ rows? in verdicts\.csv\n")
MADE = re.compile(rb"(<tr><th>Made</th><td>)([^<]*)(</td></tr>\n)")
DAMAGED = "ruffletuff: the journal is damaged, or of another version: "
UNFIT = "ruffletuff: the configuration doesn't fit the journal: "


# --- Cities --------------------------------------------------------------------------------------------------------


def configuration(names=("Alfa", "Bravo"), zone=NEW_YORK, without=()):
    operators = [{"id": IDS[it], "limit": 64, "token": it, "name": name} for it, name in zip((ALFA, BRAVO), names, strict=True)]
    return {"author": AUTHOR, "operators": [it for it in operators if it["id"] not in without], "zone": zone}


def square(number, west):
    ring = [[west, 0], [west + 10, 0], [west + 10, 10], [west, 10], [west, 0]]
    shape = {"type": "Polygon", "coordinates": [ring]}
    return {"geography_id": identifier(1, number), "name": "square", "geography_json": shape}


class Chance:
    """What happens in a city from a moment on, by chance."""

    def __init__(self, seed, start):
        self.chance, self.start = random.Random(seed), start
        self.policies, self.places = [], []
        self.asked = [it for number in range(STEPS) for it in self.step(number)]

    def a_rule(self, number):
        pick = self.chance
        rule = {"rule_id": identifier(3, number), "name": f"rule {number}", "geographies": [pick.choice(self.places)]}
        if pick.random() < 0.6:
            rule |= {"rule_type": "count", "maximum": pick.randrange(3)}
        else:
            rule |= {"rule_type": "time", "rule_units": pick.choice(("minutes", "hours")), "maximum": pick.randrange(1, 5)}
        if pick.random() < 0.3:
            rule["minimum"] = pick.randrange(1, 3)
            rule["maximum"] = max(rule["maximum"], rule["minimum"])
        for bound in ("minimum", "maximum"):
            if bound in rule and pick.random() < 0.2:
                rule[f"inclusive_{bound}"] = False
        if pick.random() < 0.3:
            rule["vehicle_types"] = [pick.choice(TYPES)]
        if pick.random() < 0.4:
            rule["states"] = {it: [] for it in pick.sample(STATES, 2)}
        if pick.random() < 0.6:
            begin, end = pick.choice((("22:00", "04:00"), ("20:00", "02:30"), ("00:30", "03:00"), ("08:00", "18:00"), ("01:00", "02:00")))
            rule |= {"start_time": begin, "end_time": end}
        if pick.random() < 0.4:
            rule["days"] = pick.sample(["mon", "tue", "wed", "thu", "fri", "sat", "sun"], 4)
        return rule

    def of_author(self, at):
        """What the author does in a step: a policy with a place, one that takes the place of another, or one withdrawn."""
        pick, number = self.chance, len(self.policies)
        if self.policies and pick.random() < 0.25:
            yield at, AUTHOR, "POST", "/publish", {"withdraw": [pick.choice(self.policies)]}
            return
        if number == 8:
            return
        place = square(number, pick.choice((0, 5, 20)))
        self.places.append(place["geography_id"])
        rules = [self.a_rule(8 * number + it) for it in range(pick.choice((1, 1, 2, 3)))]
        begin = at + pick.choice((-HOUR, 0, 3 * HOUR))
        policy = {"policy_id": identifier(2, number), "name": f"policy {number}", "start_date": begin, "rules": rules}
        if pick.random() < 0.3:
            policy["end_date"] = begin + pick.randrange(6, 30) * HOUR
        if self.policies and pick.random() < 0.4:
            policy["prev_policies"] = [pick.choice(self.policies)]
        if pick.random() < 0.3:
            policy["provider_ids"] = [pick.choice((ALFA_ID, BRAVO_ID))]
        self.policies.append(policy["policy_id"])
        yield at, AUTHOR, "PUT", f"/drafts/geographies/{place['geography_id']}", place
        yield at, AUTHOR, "PUT", f"/drafts/policies/{policy['policy_id']}", policy
        yield at, AUTHOR, "POST", "/publish", {"geographies": [place["geography_id"]], "policies": [policy["policy_id"]]}

    def of_operator(self, token, at):
        """What an operator does in a step: a report, or a removal."""
        pick = self.chance
        device = identifier(4, pick.randrange(DEVICES) + (100 if token == BRAVO else 0))
        if pick.random() < 0.15:
            return at, token, "DELETE", f"/fleet/vehicles/{device}", None
        found = {
            "device_id": device,
            "vehicle_type": pick.choice(TYPES),
            "vehicle_state": pick.choice(STATES),
            "timestamp": at + pick.choice((-20 * MINUTE, -1, 0, 0)),
            "location": {"lat": pick.choice((-5, 0, 5, 10)), "lng": pick.choice((0, 7, 12, 25))},
        }
        return at, token, "POST", "/fleet/events", found

    def step(self, number):
        """The requests of a step. Some steps are of an earlier moment than those before: the clock went back."""
        pick = self.chance
        at = self.start + (number - 8) * 36 * MINUTE + pick.randrange(30 * MINUTE)
        if pick.random() < 0.06:
            at -= pick.choice((1, 5 * MINUTE, 2 * HOUR))
        if number == 0 or pick.random() < 0.12:
            yield from self.of_author(at)
        for _ in range(pick.choice((1, 2, 3))):
            yield self.of_operator(pick.choice((ALFA, ALFA, BRAVO)), at)


def line(at, token, method, target, body=None):
    return f"{at} {token} {method} {target}" + ("" if body is None else f" {json.dumps(body)}")


def entry(line_):
    """The payload of a line of a script."""
    at, asked = split(line_)
    token, method, target, *body = asked.split(" ", 3)
    return records.entry(at, method, IDS.get(token), target.encode(), body[0].encode() if body else b"")


def payloads(lines):
    """A journal's payloads, of the lines of its entries."""
    return [records.head([(it, 64) for it in IDS.values()]), *map(entry, lines)]


def timeless(files):
    """Files of a report but for when it was made, which is another moment each time."""
    page, count = MADE.subn(rb"\1\3", files["report.html"])
    if count != 1:
        raise ValueError(f"the page says {count} times when it was made")
    return files | {"report.html": page}


class Journal(City):
    """A city's folder, with a journal of these payloads. The report is written beside it."""

    def __init__(self, program, room, given, texts):
        super().__init__(program, room, given)
        os.mkdir(self.folder)
        self.keep(records.written(texts))
        self.out = os.path.join(room, "out")
        os.mkdir(self.out)

    def keep(self, bytes_):
        with open(self.journal, "wb") as file:
            file.write(bytes_)

    def report(self, first, last, *words, folders=None, **how):
        """Status, standard output and standard error of a report."""
        words = ["--config", self.file, "--from", str(first), "--to", str(last), "--out", self.out, *words]
        return ended(self.program, "report", *(folders or [self.folder]), *words, **how)

    def files(self):
        """The files of the report, with their bytes."""
        found = {}
        for name in sorted(os.listdir(self.out)):
            with open(os.path.join(self.out, name), "rb") as file:
                found[name] = file.read()
        return found

    def reported(self, *words, **how):
        """The files of a report that is to be written, which are taken away."""
        status, out, err = self.report(*words, **how)
        if status or not COUNTS.fullmatch(out) or not all(it.startswith(b"ruffletuff: ") for it in err.splitlines()):
            raise ValueError(f"report ends with {status, out, err}")
        found = self.files()
        if sorted(found) != sorted(NAMES):
            raise ValueError(f"the report has the files {sorted(found)}")
        for name in found:
            os.remove(os.path.join(self.out, name))
        return timeless(found)


def accepted(replay, given, asked):
    """The lines of requests that are answered with success, one after another."""
    lines = [line(*it) for it in asked]
    answers = replayed(replay, json.dumps(given), lines)
    return [it for it, answer in zip(lines, answers, strict=True) if answer.startswith("200 ")]


# --- Another way ---------------------------------------------------------------------------------------------------


def moment_text(at):
    """A moment in UTC (RFC 3339), its milliseconds only where there are some."""
    found = datetime.fromtimestamp(at // 1000, timezone.utc).strftime("%Y-%m-%dT%H:%M:%S")
    return found + (f".{at % 1000:03}" if at % 1000 else "") + "Z"


def ahead_of(at):
    """How many hours New York's clocks are ahead of UTC's at a moment of 2025."""
    return -4 if FORWARD <= at < BACK else -5


def local_text(at):
    """The same in New York."""
    ahead = ahead_of(at)
    return moment_text(at + ahead * HOUR)[:-1] + f"-{-ahead:02}:00"


def sampled(replay, city, moments, folder=None):
    """The samples of each operator at moments: what mds_replay answers to a question for compliance, which is put in front of the first
    request that is later."""
    status, out, err = ended(city.program, "audit", folder or city.folder, "--config", city.file)
    if status or err:
        raise ValueError(f"audit ends with {status}: {err[:200]!r}")
    first, *lines = out.decode().splitlines()
    asked, places, left = [], [], list(moments)
    for it in [*lines, None]:
        while left and (it is None or split(it)[0] > left[0]):
            for token in (ALFA, BRAVO):
                places.append((left[0], token, len(asked)))
                asked.append(line(left[0], token, "GET", "/compliance"))
            left.pop(0)
        if it is not None:
            asked.append(it)
    answers = replayed(replay, first, asked)
    found = {ALFA: [], BRAVO: []}
    for at, token, place in places:
        status, _, body = answers[place].partition(" ")
        if status != "200":
            raise ValueError(f"{asked[place]} is answered {answers[place]}")
        for policy in json.loads(body)["policies"]:
            for number, rule in enumerate(policy["rules"]):
                found[token].append((at, policy["policy_id"], number, rule["rule_id"], rule["status"], rule["measure"]))
    return found


def published(lines):
    """Each policy's document, as it was published last."""
    drafts, found = {}, {}
    for it in lines:
        _, method, target, *body = split(it)[1].split(" ", 3)
        if method == "PUT" and target.startswith("/drafts/policies/"):
            drafts[target.rpartition("/")[2]] = json.loads(body[0])
        if method == "POST" and target == "/publish":
            found |= {name: drafts[name] for name in json.loads(body[0]).get("policies", ())}
    return found


def cell(text):
    """A value as a spreadsheet is to read it: never as a formula."""
    return f"'{text}" if text[:1] in ("=", "+", "-", "@", "\t", "\r") and text else text


def wanted_rows(found, documents, names):
    """The rows of verdicts.csv for these samples."""
    for token, name in zip((ALFA, BRAVO), names, strict=True):
        for at, policy, number, rule, status, measure in found[token]:
            document = documents[policy]
            text = document["rules"][number]
            bounds = [str(text.get(it, "")) for it in ("minimum", "maximum")]
            units = "" if text["rule_type"] == "count" else text.get("rule_units", "")
            front = [moment_text(at), local_text(at), IDS[token], cell(name), policy, cell(document["name"])]
            yield [*front, str(number), rule, cell(text["name"]), status, str(measure), *bounds, units]


def rows_of(bytes_, columns):
    """The rows behind the columns' names, by RFC 4180."""
    text = bytes_.decode()
    if not text.endswith("\r\n"):
        raise ValueError(f"the last line doesn't end: {text[-80:]!r}")
    first, *rows = csv.reader(io.StringIO(text, newline=""), strict=True)
    if first != columns or any(len(it) != len(columns) for it in rows):
        raise ValueError(f"the columns are {first}, and rows have {sorted({len(it) for it in rows})} of them")
    return rows


def longest_run(samples):
    """The longest run of violated samples, of two as long the earlier one."""
    runs = [list(them) for is_violated, them in itertools.groupby(samples, lambda it: it["status"] == "violated") if is_violated]
    return max(runs, key=len) if runs else []


def summed(rows):
    """The rows of summary.csv, from those of verdicts.csv."""
    operators = list(dict.fromkeys(it[2] for it in rows))
    groups = collections.defaultdict(list)
    for it in rows:
        row = dict(zip(COLUMNS, it, strict=True))
        groups[operators.index(row["operator_id"]), row["policy_id"], int(row["rule_number"]), row["local"][:10]].append(row)
    for (_, _, _, day), them in sorted(groups.items()):
        violated = [it["local"] for it in them if it["status"] == "violated"]
        longest = [it["local"] for it in longest_run(them)]
        ends = [longest[0], longest[-1], violated[0], violated[-1]] if violated else [""] * 4
        front = [them[0][it] for it in SUMMED[:7]]
        most = max(int(it["measure"]) for it in them)
        least = [str(min(int(it["measure"]) for it in them if it["status"] in OPEN))] if any(it["status"] in OPEN for it in them) else [""]
        yield [*front, day, str(len(them)), str(len(violated)), str(len(longest)), *ends, str(most), *least]


def differing(what, found, wanted):
    """Where two lists of rows differ first."""
    for number, (one, other) in enumerate(itertools.zip_longest(found, wanted)):
        if one != other:
            yield f"{what}: row {number} is {one}, and not {other}"
            return


# --- What is reported ----------------------------------------------------------------------------------------------


class Made:
    """A city that was made by chance, with what it was asked, and the moments of its report."""

    def __init__(self, program, replay, room, seed, start):
        self.program, self.replay, self.given = program, replay, configuration()
        self.lines = accepted(replay, self.given, Chance(seed, start).asked)
        self.city = Journal(program, room, self.given, payloads(self.lines))
        self.first, self.last = start, start + 2 * DAY
        self.moments = list(range(self.first, self.last, EVERY * MINUTE))
        self.whole = self.city.reported(self.first, self.last, "--every", str(EVERY))

    @property
    def documents(self):
        return published(self.lines)


def says_what_was_answered(made):
    """Each row of verdicts.csv is what is answered at its moment, and none is left out; so are the rows of summary.csv."""
    rows = rows_of(made.whole["verdicts.csv"], COLUMNS)
    wanted = list(wanted_rows(sampled(made.replay, made.city, made.moments), made.documents, ("Alfa", "Bravo")))
    yield from differing("verdicts.csv", rows, wanted)
    yield from differing("summary.csv", rows_of(made.whole["summary.csv"], SUMMED), list(summed(rows)))
    if len({it[9] for it in rows}) < 3:
        yield f"too little happens: {collections.Counter(it[9] for it in rows)}"


def times_may_be_local(made):
    """The same report, with its times as local dates and times, and as moments of UTC."""
    for first, last in (
        (local_text(made.first)[:10], local_text(made.last)[:16]),
        (moment_text(made.first), local_text(made.last)),
    ):
        if made.city.reported(first, last, "--every", str(EVERY)) != made.whole:
            yield f"from {first} to {last} it says other things"


def of_one_operator(made):
    """The rows of one operator are those of the report on all; by default each fifth minute is sampled."""
    rows = rows_of(made.whole["verdicts.csv"], COLUMNS)
    for them in ([BRAVO_ID], [BRAVO_ID, ALFA_ID]):
        words = [word for it in them for word in ("--operator", it)]
        found = made.city.reported(made.first, made.last, "--every", str(EVERY), *words)
        yield from differing(f"of {them}", rows_of(found["verdicts.csv"], COLUMNS), [it for it in rows if it[2] in them])
    hour = made.first, made.first + HOUR
    found = made.city.reported(*hour)
    if found != made.city.reported(*hour, "--every", "5"):
        yield "by default another minute than each fifth is sampled"
    # A moment at which no policy is in force has no row.
    fifth = {moment_text(it) for it in range(*hour, 5 * MINUTE)}
    if others := {it[0] for it in rows_of(found["verdicts.csv"], COLUMNS)} - fifth:
        yield f"not each fifth minute: {sorted(others)}"


def of_thinned_journals(made):
    """A journal that was thinned and went on, with copies of those before it in any order, says what the whole one says; alone it says
    what it tells itself."""
    cuts = [len(made.lines) // 3, 2 * len(made.lines) // 3]
    with tempfile.TemporaryDirectory(prefix="report-") as room:
        city, copies = Journal(made.program, room, made.given, payloads(made.lines[: cuts[0]])), []
        for number, more in enumerate((made.lines[cuts[0] : cuts[1]], made.lines[cuts[1] :])):
            shutil.copytree(city.folder, copy := os.path.join(room, f"copy-{number}"))
            copies.append(copy)
            if (found := ended(made.program, "thin", city.folder, "--config", city.file))[0]:
                yield f"thin ends with {found}"
            texts = records.read(city.bytes()).texts
            city.keep(records.written([*texts, *map(entry, more)]))
        every = ("--every", str(EVERY))
        for folders in ([city.folder, *copies], [*copies, city.folder], [copies[1], city.folder, copies[0]]):
            found = city.reported(made.first, made.last, *every, folders=folders)
            for name in NAMES:
                if found[name] != made.whole[name]:
                    yield f"{name} of {[os.path.basename(it) for it in folders]} isn't that of the whole journal"
        # Moments of which copies alone tell: names of what was published are theirs.
        early = made.first, made.first + 6 * HOUR
        if city.reported(*early, folders=[city.folder, *copies]) != made.city.reported(*early):
            yield "of the first hours copies say other things"
        alone = rows_of(city.reported(made.first, made.last, *every)["verdicts.csv"], COLUMNS)
        wanted = wanted_rows(sampled(made.replay, city, made.moments), made.documents, ("Alfa", "Bravo"))
        yield from differing("a thinned journal", alone, list(wanted))


def thin_while_served(city, archive):
    """Serves a city until its journal was archived and a shorter one took its place, which it does behind reports: those are of now."""
    file, until = os.stat(city.journal).st_ino, time.monotonic() + SECONDS
    with city.serve("--thin-at", "1", "--archive", archive) as server:
        while os.stat(city.journal).st_ino == file:
            answer = server.ask("POST", "/fleet/events", ALFA, report_of(1, time.time_ns() // 1_000_000))
            if answer.status != 200 or time.monotonic() > until:
                raise ValueError(f"a report is answered {answer}, and the journal isn't thinned")
            time.sleep(0.05)
        status, out, said = server.end()
    if (status, out) != (0, b"") or not said or said.replace(THINNED, b""):
        raise ValueError(f"the server ends with {status, out, said}")


def of_one_latest_moment(made, city, archive, latest):
    """A journal that nothing has come to since it was thinned, and the archived one, say in either order what the whole one says of the
    moments before their latest entry."""
    (kept,) = (os.path.join(archive, it) for it in os.listdir(archive))
    every = ("--every", str(EVERY))
    wanted = made.city.reported(made.first, latest, *every)
    for folders in ([city.folder, kept], [kept, city.folder]):
        found = city.reported(made.first, latest, *every, folders=folders)
        for name in NAMES:
            if found[name] != wanted[name]:
                yield f"{name} of {[os.path.basename(it) for it in folders]}, as it was thinned, isn't that of the whole journal"


def of_an_archive(program, replay):
    """The journals of an archive, one of which was thinned while its city was served, say with what is left in the folder what the whole
    journal says, in any order, and also by themselves. What is left says less."""
    with tempfile.TemporaryDirectory(prefix="report-") as room, tempfile.TemporaryDirectory(prefix="report-") as other:
        made = Made(program, replay, room, "archive", SPRING)
        yield from says_what_was_answered(made)
        cut, every = len(made.lines) // 2, ("--every", str(EVERY))
        city = Journal(program, other, made.given, payloads(made.lines[:cut]))
        archive = archive_of(city)
        if (found := ended(program, "thin", city.folder, "--config", city.file, "--archive", archive))[0]:
            yield f"thin ends with {found}"
        yield from of_one_latest_moment(made, city, archive, max(split(it)[0] for it in made.lines[:cut]))
        texts = records.read(city.bytes()).texts
        city.keep(records.written([*texts, *map(entry, made.lines[cut:])]))
        thin_while_served(city, archive)
        kept = sorted(os.path.join(archive, it) for it in os.listdir(archive))
        if len(kept) < 2:
            yield f"the archive has {kept}"
        for folders in ([city.folder, *kept], [*reversed(kept), city.folder], kept):
            found = city.reported(made.first, made.last, *every, folders=folders)
            for name in NAMES:
                if found[name] != made.whole[name]:
                    yield f"{name} of {[os.path.basename(it) for it in folders]} isn't that of the whole journal"
        if city.reported(made.first, made.last, *every)["verdicts.csv"] == made.whole["verdicts.csv"]:
            yield "without its archive the folder says the same: nothing of it was thinned"


def is_the_same_again(made):
    """The same journal says the same, byte for byte, and isn't changed."""
    before = made.city.bytes()
    if made.city.reported(made.first, made.last, "--every", str(EVERY)) != made.whole:
        yield "it says other things again"
    if made.city.bytes() != before or os.listdir(made.city.folder) != ["journal"]:
        yield f"it changes the folder, which has {os.listdir(made.city.folder)}"


def marks_follow_the_clock(made):
    """Each mark of a day in report.html begins and ends where the clock says, also behind a change of the clocks; and behind a day's line
    stands in how many samples the rule was violated, of those in which it was open."""
    days = collections.defaultdict(list)
    for row in rows_of(made.whole["verdicts.csv"], COLUMNS):
        days[row[2], row[4], row[6], row[1][:10]].append(row)
    wanted = collections.Counter()
    for (*_, day), rows in days.items():
        judged = [it[9] for it in rows if it[9] in OPEN]
        wanted[day, marks := marks_of(rows, EVERY), f"{judged.count('violated')} of {len(judged)}"] += 1
        yield from minutes_are_told(day, rows, marks, EVERY)
    lines = DAY_LINE.findall(made.whole["report.html"].decode())
    found = collections.Counter((day, tuple((it, int(x), int(w)) for it, x, w in MARK.findall(text)), told) for day, text, told in lines)
    for line_ in found - wanted:
        yield f"a day is drawn that isn't in verdicts.csv: {line_}"
    for line_ in wanted - found:
        yield f"a day isn't drawn: {line_}"


def rules_are_told(made):
    """The page tells of each operator the rules, the one that is violated most often first, by how much each is violated, and since when."""
    _, *sections = made.whole["report.html"].decode().split("<section>\n")
    rules = collections.defaultdict(list)
    for row in rows_of(made.whole["verdicts.csv"], COLUMNS):
        rules[row[2], row[4], int(row[6])].append(row)
    ends = [moment_text(made.moments[it]) for it in (0, -1)]
    for section, token in zip(sections, (ALFA, BRAVO), strict=True):
        wanted = []
        for (whose, policy, number), rows in sorted(rules.items()):
            if whose == IDS[token]:
                rule, violated = made.documents[policy]["rules"][number], [int(row[10]) for row in rows if row[9] == "violated"]
                told = f"{counts_of(rows)}{''.join(worst_of(rule, violated))}"
                wanted.append((len(violated), (rows[0][7], policy, str(number + 1), bounds_of(rule), told, since_of(rows, *ends))))
        wanted = [it for _, it in sorted(wanted, key=lambda it: -it[0])]
        yield from differing(f"{token} on the page", RULE.findall(section), wanted)


UNTITLED = "Rules for shared vehicles (no city is named: the configuration has no page.title)"
HEAD_ROW = re.compile(r"<tr><th>([^<]*)</th><td>([^<]*)</td></tr>\n")


def heads_are_told(program, replay):
    """The page begins with the city's title, or that it has none, its zone, the first and last moment, how far samples are apart, and when and
    by which program it was made."""
    with tempfile.TemporaryDirectory(prefix="report-") as room:
        for number, (page, zone) in enumerate((({"page": {"title": "River & City"}}, "America/New_York"), ({}, NEW_YORK), ({"page": 1}, "Z"))):
            if "/" in zone and not os.path.exists(os.path.join("/usr/share/zoneinfo", zone)):
                continue
            given = configuration() | page | {"zone": zone}
            os.mkdir(here := os.path.join(room, str(number)))
            city = Journal(program, here, given, payloads(accepted(replay, configuration(), hostile_city(("cap", "rule")))))
            begun = time.time()
            status, out, err = city.report(SUMMER, SUMMER + HOUR, "--every", "25", "--operator", ALFA_ID)
            text = city.files()["report.html"].decode()
            if (status, out) != (0, b"1 operator, 3 moments, 3 rows in verdicts.csv\n"):
                yield f"report ends with {status, out, err}"
            found = dict(HEAD_ROW.findall(text.partition("<section>")[0]))
            made = datetime.fromisoformat(found.pop("Made")).timestamp()
            if not begun - 1 < made < time.time() + 1:
                yield f"it was made at {made}, and not at {begun}"
            version = ended(program, "--version")[1].decode().strip()
            first, last = (it if zone != "Z" else moment_text(at).replace("Z", "+00:00") for at, it in
                           ((at, local_text(at)) for at in (SUMMER, SUMMER + 50 * MINUTE)))
            wanted = {"First sample": first, "Last sample": last, "Sampled every": "25 minutes", "By": version}
            words = "UTC" if zone == "Z" else "UTC-05:00, in summer UTC-04:00"
            wanted["Time zone"] = f"{zone} ({words})" if "/" in zone else words
            wanted["City"] = UNTITLED if number else "River &amp; City"
            if found != wanted:
                yield f"the page begins with {found}, and not with {wanted}"


def nothing_is_told_of_what_is_to_come(program, replay):
    """A report that is asked for up to a moment that is still to come ends when it is made, and says so; none begins then. One up to a moment
    that is over says nothing of it."""
    with tempfile.TemporaryDirectory(prefix="report-") as room:
        city = Journal(program, room, configuration(), payloads(accepted(replay, configuration(), hostile_city(("cap", "rule")))))
        begun = int(time.time() * 1000)
        first, last = begun - 2 * HOUR, begun + DAY
        status, _, err = city.report(first, last, "--operator", ALFA_ID)
        done, files = int(time.time() * 1000), city.files()
        if status or err.decode().splitlines()[0] != f"ruffletuff: the moment of --to is still to come, so the report ends now: {last}":
            yield f"report ends with {status, err}"
        found = [it[0] for it in rows_of(files["verdicts.csv"], COLUMNS)]
        least, most = (len(range(first, it, 5 * MINUTE)) for it in (begun, done))
        if not least <= len(found) <= most or found != [moment_text(first + it * 5 * MINUTE) for it in range(len(found))]:
            yield f"of {least} to {most} moments are told {found}"
        told = dict(HEAD_ROW.findall(files["report.html"].decode()))
        stated, ended_at = told["Asked for up to"].partition(", "), rows_of(files["verdicts.csv"], COLUMNS)[-1][1]
        if round(datetime.fromisoformat(stated[0]).timestamp() * 1000) != last:
            yield f"the page says that it was asked for up to {stated}"
        if stated[2] != "which was still to come: the report ends when it was made" or told["Last sample"] != ended_at:
            yield f"the page begins with {told}"
        for name in NAMES:
            os.remove(os.path.join(city.out, name))
        said = f"ruffletuff: the moment of --to is still to come, so the report ends now: {last}\n"
        said += f"ruffletuff: the moment of --to isn't later than that of --from: {last}\n"
        yield from is_refused(city, 2, said, times=(begun + HOUR, last))
        status, _, err = city.report(SUMMER, SUMMER + HOUR)
        if status or b"to come" in err or "Asked for up to" in city.files()["report.html"].decode():
            yield f"of a report up to a moment that is over is said {err}"


# --- Names ---------------------------------------------------------------------------------------------------------


def hostile_city(names):
    """What is asked in a city whose policy and rule have these names: a rule that is violated by each operator's vehicle."""
    policy, rule = names
    place, at = square(1, 0), SUMMER
    found = {"rule_id": identifier(3, 1), "name": rule, "rule_type": "count", "geographies": [place["geography_id"]], "maximum": 0}
    document = {"policy_id": identifier(2, 1), "name": policy, "start_date": at, "rules": [found]}
    yield at, AUTHOR, "PUT", f"/drafts/geographies/{place['geography_id']}", place
    yield at, AUTHOR, "PUT", f"/drafts/policies/{document['policy_id']}", document
    yield at, AUTHOR, "POST", "/publish", {"geographies": [place["geography_id"]], "policies": [document["policy_id"]]}
    for number, token in enumerate((ALFA, BRAVO)):
        location = {"lat": 5, "lng": 5}
        kinds = {"vehicle_type": "scooter", "vehicle_state": "available"}
        yield at, token, "POST", "/fleet/events", {"device_id": identifier(4, number), **kinds, "timestamp": at, "location": location}


def hostile_names(program, replay):
    """Names stay names: in a spreadsheet no formula, in a browser no element, and a cell is one cell whatever it has."""
    for number, name in enumerate(HOSTILE):
        others = (HOSTILE[(number + 1) % len(HOSTILE)] or "policy", HOSTILE[(number + 4) % len(HOSTILE)] or "rule")
        given = configuration((name, "Bravo"))
        with tempfile.TemporaryDirectory(prefix="report-") as room:
            lines = accepted(replay, given, hostile_city(others))
            city = Journal(program, room, given, payloads(lines))
            files = city.reported(SUMMER, SUMMER + HOUR, "--every", str(EVERY))
            rows = rows_of(files["verdicts.csv"], COLUMNS)
            moments = range(SUMMER, SUMMER + HOUR, EVERY * MINUTE)
            wanted = wanted_rows(sampled(replay, city, moments), published(lines), (name, "Bravo"))
            yield from differing(f"{name!r}", rows, list(wanted))
            yield from differing(f"{name!r} in the summary", rows_of(files["summary.csv"], SUMMED), list(summed(rows)))
            if len(rows) != 4 or {it[9] for it in rows} != {"violated"}:
                yield f"{name!r}: the rows are {rows}"
            text = files["report.html"].decode()
            yield from (f"{name!r}: {it}" for it in page_faults(text))
            told = " ".join(" ".join(Page(text).texts).split())
            for it in (name, *others):
                if " ".join(it.split()) not in told:
                    yield f"the page doesn't tell {it!r}"


# --- What is refused -----------------------------------------------------------------------------------------------


def is_refused(city, status, said, *words, times=(SUMMER, SUMMER + HOUR), wrote=(), **how):
    """A report is refused by name, and nothing is written."""
    found = city.report(*times, *words, **how)
    if found[:2] != (status, b"") or not found[2].decode().startswith(said):
        yield f"report ends with {found}, and not with {status, said}"
    if sorted(city.files()) != sorted(wrote):
        yield f"it leaves {sorted(city.files())}"


def arguments_are_refused(program, replay):
    """Times that are none or in the wrong order, operators that aren't in the configuration, and options that are wrong."""
    with tempfile.TemporaryDirectory(prefix="report-") as room:
        city = Journal(program, room, configuration(), payloads(accepted(replay, configuration(), hostile_city(("cap", "rule")))))
        none = "ruffletuff: this is no moment: "
        yield from is_refused(city, 2, f"{none}yesterday\n", times=("yesterday", SUMMER))
        yield from is_refused(city, 2, f"{none}2026-02-30\n", times=(SUMMER, "2026-02-30"))
        yield from is_refused(city, 2, f"ruffletuff: the moment of --to isn't later than that of --from: {SUMMER}\n", times=(SUMMER, SUMMER))
        said = f"ruffletuff: the operator isn't in the configuration: {city.file}\noperator {FURTHER_ID} isn't in it\n"
        known = f'operators in {city.file}:\n{ALFA_ID} "Alfa"\n{BRAVO_ID} "Bravo"\n'
        yield from is_refused(city, 2, said + known, "--operator", FURTHER_ID)
        found = city.report(SUMMER, SUMMER + HOUR, "--operator", "Alfa")
        said = f"--operator takes an operator's id, not its name: Alfa\n{known}"
        if found[:2] != (2, b"") or not found[2].decode().endswith(f" (ruffletuff --help says more)\n{said}"):
            yield f"of an operator's name report says {found}"
        for words in (("--operator", "alfa"), ("--every", "0"), ("--every", "1441"), ("--every", "x"), ("--out", "again"), ("--until", "1")):
            yield from is_refused(city, 2, "ruffletuff: the arguments are wrong\nusage: ruffletuff report FOLDER.. --config FILE ", *words)
        city.configure(b"{}")
        yield from is_refused(city, 2, f"ruffletuff: the configuration is wrong: {city.file}\n")


def folders_are_refused(program, replay):
    """A report is refused where its folder isn't there or has a file of one, before a journal is looked at; and by the name of the journal
    that is damaged, cut, none, or of another configuration."""
    with tempfile.TemporaryDirectory(prefix="report-") as room:
        lines = accepted(replay, configuration(), hostile_city(("cap", "rule")))
        city = Journal(program, room, configuration(), payloads(lines))
        whole = city.bytes()
        os.mkdir(other := os.path.join(room, "other"))
        missing = os.path.join(room, "missing")
        bad = {
            "changed": whole[:200] + bytes([whole[200] ^ 1]) + whole[201:],
            "cut out": whole[:300] + whole[400:],
            "a text": b"a text\n" * 40,
            "without a head": records.written(payloads(lines)[1:]),
            "an unknown record": records.written([*payloads(lines), b"\2" + entry(lines[0])[1:]]),
        }
        for name, bytes_ in bad.items():
            with open(os.path.join(other, "journal"), "wb") as file:
                file.write(bytes_)
            audited = ended(program, "audit", other, "--config", city.file)
            for folders in ([other], [city.folder, other], [other, city.folder]):
                yield from (f"{name}: {it}" for it in is_refused(city, 5, f"{DAMAGED}{other}\n", folders=folders))
            if name != "without a head" and audited[0] != 5:
                yield f"{name}: audit ends with {audited}"
        yield from is_refused(city, 4, f"ruffletuff: the folder can't be used: {missing}\n", folders=[city.folder, missing])
        city.configure(configuration(without=(BRAVO_ID,)))
        unfit = f"{UNFIT}{city.folder}\noperator {BRAVO_ID} has entries in it and isn't in the configuration\n"
        yield from is_refused(city, 6, unfit)
        city.configure(configuration())
        again = [*payloads(lines), entry(lines[2])]
        city.keep(records.written(again))
        yield from is_refused(city, 6, f"{UNFIT}{city.folder}\nentry {len(lines)} of those that are answered again")
        # From here on the journal is damaged, and the report's folder is looked at first.
        city.keep(bad["changed"])
        out, city.out = city.out, missing
        found = city.report(SUMMER, SUMMER + HOUR)
        if found != (4, b"", f"ruffletuff: the folder for the report isn't there: {missing}\n".encode()):
            yield f"without its folder a report ends with {found}"
        city.out = out
        for name in NAMES:
            with open(os.path.join(out, name), "wb"):
                pass
            said = f"ruffletuff: the folder has a report already: {out}\n{name} is there\n"
            yield from is_refused(city, 4, said, wrote=[name])
            os.remove(os.path.join(out, name))


def torn_journals_are_told(program, replay):
    """What a kill leaves of the last group isn't read, as a start doesn't: the report is that of the journal without it."""
    with tempfile.TemporaryDirectory(prefix="report-") as room:
        lines = accepted(replay, configuration(), hostile_city(("cap", "rule")))
        city = Journal(program, room, configuration(), payloads(lines[:-1]))
        front = city.bytes()
        wanted = city.reported(SUMMER, SUMMER + HOUR)
        city.keep(records.written(payloads(lines))[:-5])
        if records.read(city.bytes()).ending != "torn" or not city.bytes().startswith(front):
            yield "the journal isn't torn"
        if city.reported(SUMMER, SUMMER + HOUR) != wanted:
            yield "a torn journal is told otherwise"


def nothing_is_left_of_a_part(program, replay):
    """A report that can't be written whole leaves nothing, and what a kill left of one is no matter."""

    def limited():
        signal.signal(signal.SIGXFSZ, signal.SIG_IGN)
        resource.setrlimit(resource.RLIMIT_FSIZE, (2000, 2000))

    with tempfile.TemporaryDirectory(prefix="report-") as room:
        city = Journal(program, room, configuration(), payloads(accepted(replay, configuration(), hostile_city(("cap", "rule")))))
        said = f"ruffletuff: the report couldn't be written: {city.out}\n"
        found = city.report(SUMMER, SUMMER + DAY, preexec_fn=limited)
        if found[:2] != (7, b"") or said not in found[2].decode():
            yield f"report ends with {found}, and not with {7, said}"
        if city.files():
            yield f"it leaves {sorted(city.files())}"
        for name in NAMES:
            with open(os.path.join(city.out, f"{name}.part"), "wb") as file:
                file.write(b"what a kill left\n" * 1000)
        wanted = city.reported(SUMMER, SUMMER + DAY)
        if any(b"what a kill left" in it for it in wanted.values()):
            yield "what a kill left is in the report"


# --- Side by side --------------------------------------------------------------------------------------------------


class Many(Journal):
    """A city of nine operators, of which each one has as many vehicles in a place that is to have none as its number says, from 0."""

    OPERATORS = 9

    def __init__(self, program, room):
        self.ids = [identifier(9, 0xD0 + it) for it in range(self.OPERATORS)]
        operators = [{"id": it, "limit": 64, "token": f"token{number}", "name": f"No. {number}"} for number, it in enumerate(self.ids)]
        texts = [records.head([(it, 64) for it in self.ids])]
        asked = list(hostile_city(("cap", "rule")))
        texts += [self.text(at, method, None, target, body) for at, token, method, target, body in asked if token == AUTHOR]
        at, _, _, _, first = asked[-1]
        for number, whose in enumerate(self.ids):
            for vehicle in range(number):
                body = first | {"device_id": identifier(4, 100 * number + vehicle)}
                texts.append(self.text(at, "POST", whose, "/fleet/events", body))
        self.texts = texts
        super().__init__(program, room, {"author": AUTHOR, "operators": operators, "zone": NEW_YORK}, texts)

    def text(self, at, method, whose, target, body=None):
        """The payload of an entry."""
        return records.entry(at, method, whose, target.encode(), b"" if body is None else json.dumps(body).encode())


def on_one_processor():
    """For a program that is started: it runs on one processor alone."""
    os.sched_setaffinity(0, {min(os.sched_getaffinity(0))})


def operators_stand_in_order(program, replay):
    """However many operators are worked out at once, the files have them in the configuration's order, and are those of one processor; each
    one that is through is told in turn. Where several journals can't be answered again for operators, the first of these is told."""
    with tempfile.TemporaryDirectory(prefix="report-") as room:
        city = Many(program, room)
        hour = SUMMER, SUMMER + HOUR, "--every", str(EVERY)
        told = [f"ruffletuff: {it} of {city.OPERATORS} operators are through\n" for it in range(1, city.OPERATORS + 1)]
        status, out, err = city.report(*hour)
        if (status, out, err.decode()) != (0, b"9 operators, 2 moments, 18 rows in verdicts.csv\n", "".join(told)):
            yield f"report ends with {status, out, err}"
        files = timeless(city.files())
        found = [(it[2], it[3], it[9], it[10]) for it in rows_of(files["verdicts.csv"], COLUMNS)]
        wanted = [(whose, f"No. {it}", "violated" if it else "ok", str(it)) for it, whose in enumerate(city.ids) for _ in range(2)]
        yield from differing("verdicts.csv", found, wanted)
        yield from differing("summary.csv", [it[0] for it in rows_of(files["summary.csv"], SUMMED)], city.ids)
        places = [files["report.html"].find(it.encode()) for it in city.ids]
        if places != sorted(places) or places[0] < 0:
            yield f"on the page operators stand at {places}"
        for name in NAMES:
            os.remove(os.path.join(city.out, name))
        if city.reported(*hour, preexec_fn=on_one_processor) != files:
            yield "on one processor it says other things"
        # A vehicle that isn't there can't be removed: operators 7 and 2 ask for it, in this order.
        missing = f"/fleet/vehicles/{identifier(4, 9999)}"
        bad = [city.text(SUMMER, "DELETE", city.ids[it], missing) for it in (7, 2)]
        city.keep(records.written(city.texts + bad))
        said = f"{''.join(told[:2])}{UNFIT}{city.folder}\nentry {len(city.texts)} of those that are answered again"
        yield from is_refused(city, 6, said)


OF_A_CITY = (
    says_what_was_answered,
    times_may_be_local,
    of_one_operator,
    of_thinned_journals,
    is_the_same_again,
    marks_follow_the_clock,
    rules_are_told,
)
FURTHER = (
    heads_are_told,
    nothing_is_told_of_what_is_to_come,
    of_an_archive,
    hostile_names,
    operators_stand_in_order,
    arguments_are_refused,
    folders_are_refused,
    torn_journals_are_told,
    nothing_is_left_of_a_part,
)


def main():
    parser = argparse.ArgumentParser(description=__doc__, formatter_class=argparse.RawDescriptionHelpFormatter)
    parser.add_argument("program")
    parser.add_argument("--replay", default=REPLAY, help="the built mds_replay")
    parser.add_argument("--cities", type=int, default=9)
    parser.add_argument("--seed", default="1")
    options = parser.parse_args()
    program, replay = (os.path.abspath(it) for it in (options.program, options.replay))
    tried = Tried()
    for number in range(options.cities):
        start = (SPRING, AUTUMN, SUMMER)[number % 3]
        with tempfile.TemporaryDirectory(prefix="report-") as room:
            try:
                made = Made(program, replay, room, f"{options.seed}/{number}", start)
            except (OSError, ValueError, Closed, subprocess.SubprocessError) as fault:
                print(f"city {number}: {fault!r}")
                tried.failed += 1
                continue
            for case in OF_A_CITY:
                tried.one(f"city {number}: {case.__name__}", case(made))
    for case in FURTHER:
        tried.one(case.__name__, case(program, replay))
    return tried.told()


if __name__ == "__main__":
    sys.exit(main())
