#!/usr/bin/env python3
"""Tries ruffletuff on journals that aren't what it wrote, and on folders that others share or changed.

    damages.py PROGRAM [--replay FILE] [--count NUMBER]

A small journal is packed, put behind a byte order mark, shifted, zeroed, given other line ends, cut in its middle and mixed with
another city's; then so many times (200) by chance, from a fixed seed. Each such file is either refused with status 5, and stays as
it is, or served: then with all records that stand whole before the fault, and the rest, byte for byte, in a new journal.cut. A city
is never begun anew over a file with a record of ours, but where that is the beginning of a first group. Then a second program while
the first one serves, with the lock removed and behind a thinning; a journal that loses its name to a longer one before it is locked
(wants a compiler of C, packages.py); links in the folder, which aren't followed; the modes of what is made, whatever the umask; and what
check says of each end of a journal. Takes about a minute. Prints what differs, and last 'N passed, M failed'; ends with 1 where one failed.
"""

import argparse
import contextlib
import fcntl
import functools
import gzip
import os
import random
import subprocess
import sys
import tempfile
import time

import packages
import records
from journals import (
    ALFA,
    ALFA_ID,
    AUTHOR,
    BOTH,
    BRAVO,
    DRAFTS,
    LOCKED,
    PUBLISH,
    REPLAY,
    UNFIT,
    all_of,
    configuration,
    is_as_replayed,
    operator,
    report,
    told,
)
from kept import END_SECONDS, City, Tried, ended, exchanging
from wire import identifier

SEED = 20_240_229
COUNT = 200  # journals that are damaged by chance
FIRST = len(records.group(0, 0, 0, [])[0])  # bytes of the record of the first mark, with which each journal begins
TAKEN = 100  # bytes that are taken out of the middle
STRANGE = bytes(range(7, 256, 11)) * 3  # bytes that are nobody's
THIN_AT = 20_000  # bytes from which on a journal is thinned in a test
REPORTS = 4000  # at most so many make a journal long enough to be thinned
DAMAGED = b"ruffletuff: the journal is damaged, or of another version: "


def spaced(body):
    """The same JSON on many lines."""
    return body.replace(",", ",\n")


# What is asked of the city whose journal is damaged, and of another one under the same configuration.
OURS = [
    *((AUTHOR, method, target, spaced(body)) for method, target, body in (*DRAFTS, PUBLISH)),
    *((ALFA, "POST", "/fleet/events", spaced(report(it, 2000 + it))) for it in (1, 2, 3)),
    *((BRAVO, "POST", "/fleet/events", spaced(report(it, 3000 + it))) for it in (4, 5)),
    (BRAVO, "DELETE", f"/fleet/vehicles/{identifier(4, 4)}", ""),
    (ALFA, "POST", "/fleet/events", spaced(report(3, 4000, "on_trip"))),
]
OTHERS = [
    *((BRAVO, "POST", "/fleet/events", report(it, 5000 + it)) for it in (7, 8, 9)),
    (AUTHOR, *DRAFTS[0]),
    *((ALFA, "POST", "/fleet/events", report(it, 6000 + it)) for it in (10, 11)),
]


class Sample:
    """A city that was asked something, and its journal, of which damaged copies are made."""

    def __init__(self, program, room, replay, asked):
        self.program, self.replay = program, replay
        city = City(program, room, BOTH)
        self.ends = []
        with city.serve() as server:
            self.ends.append(len(city.bytes()))
            for token, method, target, body in asked:
                if (answer := server.ask(method, target, token, body.encode())).status != 200:
                    raise ValueError(f"{target} is answered {answer}")
                self.ends.append(len(city.bytes()))
            if (found := server.end()) != (0, b"", b""):
                raise ValueError(f"the server ends with {found}")
        self.bytes = city.bytes()
        self.texts = records.read(self.bytes).texts

    @contextlib.contextmanager
    def copy(self, journal=None):
        """Another folder with this journal, or with other bytes."""
        with tempfile.TemporaryDirectory(prefix="damages-") as room:
            city = City(self.program, room, BOTH)
            os.mkdir(city.folder, 0o700)
            write(city.journal, self.bytes if journal is None else journal)
            yield city


def write(path, data):
    with open(path, "wb") as file:
        file.write(data)


def read(path):
    with open(path, "rb") as file:
        return file.read()


def place(city, name):
    return os.path.join(city.folder, name)


def kept(city):
    """What stands in the files beside the journal for what was cut, in the order in which they were made."""
    names = [it for it in os.listdir(city.folder) if it == "journal.cut" or it.startswith("journal.cut.")]
    return [read(place(city, it)) for it in sorted(names, key=lambda it: int(it[12:] or 0))]


def cut_line(tail, whole):
    """What is said of bytes that are cut off behind so many whole ones: nothing of none."""
    front = f"ruffletuff: {len(tail)} bytes behind the last whole record, from byte {whole} on"
    return f"{front}, are cut off the journal, and kept in a new journal.cut\n".encode() if tail else b""


def started(city, served=lambda server: (), **how):
    """A start: its status, its standard error, and what is found wrong while it serves, if it does."""
    server = city.serve(**how)
    if server.ready != b"ready\n":
        _, err = server.process.communicate(timeout=END_SECONDS)
        return server.process.returncode, err, []
    try:
        found = list(served(server))
        status, _, err = server.end()
        return status, err, found
    finally:
        server.stop()


# --- What may become of a damaged journal --------------------------------------------------------------------------


def is_front_of_first(journal):
    """Whether bytes are less than the first group of a journal: what a first start leaves that was killed."""
    found = records.read(journal)
    begun = records.group(0, 0, 0, [])[0]
    if found.whole == 0:
        return begun.startswith(journal)
    behind = journal[found.whole :]
    return len(behind) < 4 or int.from_bytes(behind[:4], "big") + records.HEAD > len(behind)


def is_left(city, journal, status, err):
    """A refusal leaves all as it is."""
    if (status, err[: len(DAMAGED)]) != (5, DAMAGED):
        yield f"it is refused with {status, err[:200]}"
    if city.bytes() != journal or kept(city):
        yield "it is refused, and changed"


def is_kept(city, journal, err):
    """What is served begins with each record that stood whole, and the rest is kept, and said."""
    before, after = records.read(journal), records.read(city.bytes())
    rest = journal[before.whole :]
    if not city.bytes().startswith(journal[: before.whole]):
        yield "a record that stood whole is changed"
    if (before.texts and after.texts != before.texts) or after.whole != len(city.bytes()):
        yield f"{len(after.texts)} texts are read of it, and {len(before.texts)} stood whole"
    if kept(city) != ([rest] if rest else []):
        yield f"{len(rest)} bytes aren't whole, and {[len(it) for it in kept(city)]} are kept"
    if cut_line(rest, before.whole) not in err or (b" are cut off the journal" in err) != bool(rest):
        yield f"it says {err[:300]!r}"
    if journal and before.whole and not before.texts and not is_front_of_first(journal):
        yield "a city is begun anew over a journal"
    if journal and not before.whole and not is_front_of_first(journal):
        yield "a city is begun anew over a file that is no journal"


def is_safe(sample, journal):
    """A damaged journal is refused as it is, or served with all that stood whole."""
    with sample.copy(journal) as city:
        checked = city.check()[0]
        if city.bytes() != journal or kept(city):
            yield "check changes something"
        status, err, found = started(city, lambda server: is_as_replayed(server, city, sample.replay))
        yield from found
        if status == 0:
            yield from is_kept(city, journal, err)
            if checked not in (0, 5):
                yield f"check ends with {checked}"
        else:
            yield from is_left(city, journal, status, err)
            if checked != 5:
                yield f"check ends with {checked}, and a start with {status}"


def is_refused(sample, journal, said):
    """All of serve, check, audit and thin refuse a file, say what it is, and leave it as it is."""
    with sample.copy(journal) as city:
        config = ("--config", city.file)
        runs = {
            "check": city.check(),
            "audit": ended(city.program, "audit", city.folder, *config),
            "thin": ended(city.program, "thin", city.folder, *config),
            "serve": city.refused(),
        }
        for name, (status, _, err) in runs.items():
            if status != 5 or not err.startswith(DAMAGED + city.folder.encode() + b"\n") or said not in err:
                yield f"{name} ends with {status, err[:300]}"
        if city.bytes() != journal or kept(city):
            yield "the file isn't as it was"


# --- Named damages -------------------------------------------------------------------------------------------------


def named(sample, other):
    """What is done to a journal, and what is said of it."""
    data, middle = sample.bytes, sample.ends[len(sample.ends) // 2] - TAKEN // 2
    return {
        "gzipped": (gzip.compress(data, mtime=0), b"compressed with gzip"),
        "behind a byte order mark": (b"\xef\xbb\xbf" + data, b"a byte order mark"),
        "without its first byte": (data[1:], b"records of a journal"),
        "without its first group": (data[sample.ends[0] :], b"records of a journal"),
        "all zero": (bytes(len(data)), b"zeros"),
        "a foreign log": (b"2024-02-29T12:00:00Z server[17]: started\n" * 40, b"a text"),
        "a picture": (b"\x89PNG\r\n\x1a\n" + STRANGE * 9, b"other bytes"),
        "with other line ends": (data.replace(b"\n", b"\r\n"), b""),
        "with bytes taken out of the middle": (data[:middle] + data[middle + TAKEN :], b""),
        "with bytes put into the middle": (data[:middle] + STRANGE + data[middle:], b""),
        "behind another journal": (other.bytes + data, b""),
        # Ours is the longer one, so no mark of the other says that more was synced than stands whole.
        "before another journal": (data + other.bytes, b"written for another place"),
        "behind another journal's start": (other.bytes[: other.ends[1]] + data, b""),
        "with its first text changed": (data[: FIRST + 20] + b"?" + data[FIRST + 21 :], b""),
    }


def named_damages(sample, other):
    """Each is refused by its name, by each command."""
    cases = named(sample, other).items()
    yield from all_of([(name, functools.partial(is_refused, sample, journal, said)) for name, (journal, said) in cases])


def started_from_named(sample, other):
    """Nor is one of them lost where it is served after all."""
    cases = named(sample, other).items()
    yield from all_of([(name, functools.partial(is_safe, sample, journal)) for name, (journal, _) in cases])


# --- Damages by chance ---------------------------------------------------------------------------------------------


def span(chance, data, most=300):
    """A part of bytes: from where to where."""
    begin = chance.randrange(len(data))
    return begin, min(len(data), begin + chance.randint(1, most))


def shifted(chance, data, _):
    count = chance.randint(1, 64)
    return chance.choice([data[count:], chance.randbytes(count) + data, bytes(count) + data])


def put_in(chance, data, _):
    begin, _ = span(chance, data)
    return data[:begin] + chance.randbytes(chance.randint(1, 300)) + data[begin:]


def taken_out(chance, data, _):
    begin, end = span(chance, data)
    return data[:begin] + data[end:]


def doubled(chance, data, _):
    begin, end = span(chance, data)
    return data[:end] + data[begin:end] + data[end:]


def swapped(chance, data, _):
    size = chance.choice([16, 64, 512])
    blocks = [data[it : it + size] for it in range(0, len(data), size)]
    one, two = chance.sample(range(len(blocks)), 2)
    blocks[one], blocks[two] = blocks[two], blocks[one]
    return b"".join(blocks)


def with_another_start(chance, data, other):
    begin = chance.randrange(1, min(len(data), len(other)))
    return chance.choice([other[:begin] + data[begin:], other[:begin] + data])


def with_another_end(chance, data, other):
    begin = chance.randrange(1, min(len(data), len(other)))
    return chance.choice([data[:begin] + other[begin:], data[:begin] + other, data + other[begin:]])


def zeroed(chance, data, _):
    begin, end = span(chance, data, 4096)
    return data[:begin] + bytes(end - begin) + data[end:]


WAYS = (shifted, put_in, taken_out, doubled, swapped, with_another_start, with_another_end, zeroed)


def damages_by_chance(sample, other, count):
    """Each is refused as it is, or served with all that stood whole."""
    cases = []
    for number in range(count):
        chance = random.Random(SEED + number)
        way = WAYS[number % len(WAYS)]
        cases.append((f"{number} {way.__name__}", functools.partial(is_safe, sample, way(chance, sample.bytes, other.bytes))))
    yield from all_of(cases)


# --- What is cut is kept -------------------------------------------------------------------------------------------


def tails_are_kept(sample, _):
    """Each cut has a file of its own, and none is ever written over."""
    tails = [sample.bytes[-50:], STRANGE, b"\0", b"\0" * 5000]
    with sample.copy(sample.bytes + tails[0]) as city:
        wanted = []
        for number, tail in enumerate(tails):
            if number:
                write(city.journal, sample.bytes + tail)
            wanted.append(tail)
            status, err, _ = started(city)
            if status or kept(city) != wanted or city.bytes() != sample.bytes:
                yield f"behind {number + 1} cuts it ends with {status, err[:200]}, and {[len(it) for it in kept(city)]} bytes are kept"
        for name in ("journal.cut", "journal.cut.1"):
            if (mode := os.stat(place(city, name)).st_mode & 0o777) != 0o600:
                yield f"{name} has the mode {mode:o}"


def thinned(city, **how):
    return ended(city.program, "thin", city.folder, "--config", city.file, **how)


def torn_journals_are_thinned(sample, _):
    """What thin cuts off a journal is kept and said as by a start, also where it isn't thinned then; of a whole one nothing is."""
    whole = sample.ends[-2] + FIRST  # the last group's mark is whole, and its text isn't
    cases = {
        "torn": (sample.bytes[:-5], whole, sample.bytes[whole:-5]),
        "with other bytes behind": (sample.bytes + STRANGE, len(sample.bytes), STRANGE),
        "whole": (sample.bytes, len(sample.bytes), b""),
    }
    for name, (journal, place_, tail) in cases.items():
        with sample.copy(journal) as city:
            status, _, err = thinned(city)
            if status or err != cut_line(tail, place_) or kept(city) != ([tail] if tail else []):
                yield f"{name}: thin ends with {status, err[:300]}, and {[len(it) for it in kept(city)]} bytes are kept"
        with sample.copy(journal) as city:
            city.configure(configuration(operator(ALFA_ID, ALFA)))
            status, out, err = thinned(city)
            said = cut_line(tail, place_) + UNFIT + city.folder.encode() + b"\n"
            if (status, out) != (6, b"") or not err.startswith(said) or kept(city) != ([tail] if tail else []):
                yield f"{name}: by another configuration thin ends with {status, out, err[:300]}"
            if city.bytes() != journal[:place_]:
                yield f"{name}: by another configuration thin changes a record"


def journals_without_a_record_are_left(sample, _):
    """What a first start leaves that was killed: nothing, the record of the first mark (12 and 32 bytes), or a front of the head behind it.
    check takes it, thin leaves the whole records as they are, and says and keeps the rest, and a start begins the city."""
    for size, whole in ((0, 0), (1, 0), (43, 0), (44, 44), (45, 44), (60, 44)):
        with sample.copy(sample.bytes[:size]) as city:
            tail = sample.bytes[whole:size]
            status, out, err = city.check()
            if (status, err) != (0, b"") or not out.startswith(f"0 records, {whole} bytes, {len(tail)} behind them, ".encode()):
                yield f"{size} bytes: check ends with {status, out, err}"
            wanted = f"0 records, {size} bytes before; 0 records, {whole} bytes now\n".encode()
            if (found := thinned(city)) != (0, wanted, cut_line(tail, whole)):
                yield f"{size} bytes: thin ends with {found}, and not with {wanted, cut_line(tail, whole)}"
            if city.bytes() != sample.bytes[:whole] or kept(city) != ([tail] if tail else []):
                yield f"{size} bytes: thin leaves {len(city.bytes())} bytes, and {[len(it) for it in kept(city)]} are kept"
            if (found := thinned(city)) != (0, wanted.replace(b"%d bytes before" % size, b"%d bytes before" % whole), b""):
                yield f"{size} bytes: a second time thin ends with {found}"
            status, err, _ = started(city)
            if status or err or len(records.read(city.bytes()).texts) != 1:
                yield f"{size} bytes: a start ends with {status, err[:200]}"


def ends_are_checked(sample, _):
    """check ends with 0 where a journal is whole, or torn as a kill leaves it, and else with 5."""
    last = sample.ends[-2]
    cases = {
        "whole": (sample.bytes, 0, b", whole"),
        "within the last text": (sample.bytes[:-1], 0, b", torn: "),
        "within the last mark": (sample.bytes[: last + 20], 0, b", torn"),
        "with the first byte of a record": (sample.bytes[: last + 1], 0, b", torn"),
        "with other bytes behind": (sample.bytes + STRANGE, 5, b", unexplained: "),
        "with zeros behind": (sample.bytes + bytes(4096), 5, b", unexplained: "),
        "with its last byte changed": (sample.bytes[:-1] + bytes([sample.bytes[-1] ^ 1]), 5, b""),
        "with its last group again": (sample.bytes + sample.bytes[last:], 5, b"written for another place"),
        "without its first byte": (sample.bytes[1:], 5, b"it doesn't begin as a journal does"),
    }
    for name, (journal, wanted, said) in cases.items():
        with sample.copy(journal) as city:
            status, out, err = city.check()
            if status != wanted or said not in out + err or city.bytes() != journal:
                yield f"{name}: check ends with {status, out, err[:300]}"


def empty_files_are_journals(sample, _):
    """An empty file and the front of a first mark are the beginning of a journal."""
    for size in (0, 1, 5, FIRST - 1):
        with sample.copy(sample.bytes[:size]) as city:
            status, err, _ = started(city)
            if status or kept(city) != ([sample.bytes[:size]] if size else []) or len(records.read(city.bytes()).texts) != 1:
                yield f"{size} bytes: it ends with {status, err[:200]}"


# --- One program a folder ------------------------------------------------------------------------------------------


def is_locked(city, server):
    """A second program is refused, and the first one goes on."""
    before = told(server)
    status, out, err = city.refused()
    if (status, out, err) != (4, b"", LOCKED + city.folder.encode() + b"\n"):
        yield f"a second program ends with {status, out, err[:200]}"
    if (found := thinned(city))[0] != 4:
        yield f"thin ends with {found}"
    if told(server) != before:
        yield "the first one tells other things"


def a_removed_lock(sample, _):
    """Who removes the lock, or puts another in its place, or the journal away, lets no second program in."""
    for name in ("lock", "journal"):
        with sample.copy() as city, city.serve() as server:
            os.remove(place(city, name))
            yield from (f"without {name}: {it}" for it in is_locked(city, server))
    with sample.copy() as city, city.serve() as server:
        os.remove(place(city, "lock"))
        write(place(city, "lock"), b"")
        yield from (f"with another lock: {it}" for it in is_locked(city, server))


def is_exchanged(city, server, begun):
    """Reports until the journal's name is another file's, as once it was thinned."""
    for number in range(REPORTS):
        server.ask("POST", "/fleet/events", ALFA, report(1, 10_000 + number).encode())
        if number % 20 == 0 and os.stat(city.journal).st_ino != begun:
            return True
    return False


def a_removed_lock_behind_a_thinning(sample, _):
    """The journal that is renamed over another is locked before it has the name."""
    with sample.copy() as city, city.serve("--thin-at", str(THIN_AT)) as server:
        if not is_exchanged(city, server, os.stat(city.journal).st_ino):
            yield "the journal isn't thinned"
            return
        os.remove(place(city, "lock"))
        yield from is_locked(city, server)


@contextlib.contextmanager
def losing_its_name(sample, behind=0):
    """A city whose journal lacks the latest entries, the whole journal beside its folder, and the environment of a program that opens the
    first one, and before whose lock the name goes to the other, behind so many locks."""
    with sample.copy(sample.bytes[: sample.ends[len(sample.ends) // 2]]) as city:
        os.mkdir(by := os.path.join(city.room, "next"))
        write(longer := os.path.join(by, "journal"), sample.bytes)
        yield city, longer, exchanging(city, by, "lock", behind)


def goes_on(wanted, longer, server):
    """The longer journal has the name, and is served: one more change is made."""
    if os.path.exists(longer):
        yield "the longer journal didn't get the name"
    if told(server) != wanted:
        yield "it tells of the journal that lost its name"
    if (answer := server.ask("POST", "/fleet/events", ALFA, report(1, 9000).encode())).status != 200:
        yield f"a report is answered {answer}"


def a_name_lost_before_the_lock(sample, _):
    """A journal that was opened, and lost its name to a longer one before it was locked, is neither served nor thinned. The longer one is, and
    where another program has that a start is refused."""
    packages.need("cc")
    with sample.copy() as city, city.serve() as server:
        wanted = told(server)
    with losing_its_name(sample) as (city, longer, env):
        status, err, found = started(city, functools.partial(goes_on, wanted, longer), env=env)
        yield from found
        if (status, err) != (0, b""):
            yield f"a start ends with {status, err[:200]}"
        if not city.bytes().startswith(sample.bytes) or len(records.read(city.bytes()).texts) != len(sample.texts) + 1:
            yield "behind a start the name's journal isn't the longer one with a change more"
    with losing_its_name(sample) as (city, longer, env), open(longer, "rb") as other:
        fcntl.flock(other, fcntl.LOCK_EX)
        status, err, _ = started(city, env=env)
        if (status, err) != (4, LOCKED + city.folder.encode() + b"\n"):
            yield f"where another program has the longer one a start ends with {status, err[:200]}"
    # thin opens the folder twice: to cut what isn't whole, and to read the journal whose place the shorter one takes.
    for behind in (0, 1):
        with losing_its_name(sample, behind) as (city, longer, env):
            if (found := thinned(city, env=env))[0] or os.path.exists(longer):
                yield f"behind {behind} locks thin ends with {found}"
            with city.serve() as server:
                if told(server) != wanted:
                    yield f"behind {behind} locks thin leaves another city than the longer journal's"


# --- Links and modes -----------------------------------------------------------------------------------------------


def links_are_refused(sample, _):
    """A link in the place of a file is followed by nobody, wherever it leads."""
    for name in ("journal", "lock", "ballast", "compactions"):
        for there in (sample.bytes, None):
            with sample.copy() as city:
                target = os.path.join(city.room, "elsewhere")
                if there is not None:
                    write(target, there)
                with contextlib.suppress(FileNotFoundError):
                    os.remove(place(city, name))
                os.symlink(target, place(city, name))
                status, out, err = city.refused()
                if (status, out) != (4, b""):
                    yield f"{name} as a link: a start ends with {status, out, err[:200]}"
                if (read(target) if os.path.exists(target) else None) != there:
                    yield f"{name} as a link: what it leads to is changed"


def links_beside_are_kept(sample, _):
    """What is written beside the journal isn't written through a link."""
    with sample.copy(sample.bytes[:-5]) as city:
        target = os.path.join(city.room, "elsewhere")
        write(target, STRANGE)
        for name in ("journal.cut", "journal.thinned", "compactions.part"):
            os.symlink(target, place(city, name))
        status, err, _ = started(city)
        if status or read(place(city, "journal.cut.1")) != sample.bytes[records.read(sample.bytes[:-5]).whole : -5]:
            yield f"a start ends with {status, err[:200]}"
        if os.path.lexists(place(city, "journal.thinned")):
            os.remove(place(city, "journal.thinned"))
        os.symlink(target, place(city, "journal.thinned"))
        if (found := ended(city.program, "thin", city.folder, "--config", city.file))[0]:
            yield f"thin ends with {found}"
        if os.path.islink(city.journal) or read(target) != STRANGE:
            yield "a link is followed"


def modes_are_the_owners(sample, _):
    """A folder that is made is its owner's alone, whatever the umask, and so are its files."""
    for umask in (0, 0o022, 0o177):
        with tempfile.TemporaryDirectory(prefix="damages-") as room:
            city = City(sample.program, room, BOTH)
            with city.serve(umask=umask) as server:
                server.end()
            modes = {it: os.stat(place(city, it)).st_mode & 0o777 for it in (".", "journal", "lock", "ballast", "compactions")}
            if modes != {".": 0o700, "journal": 0o600, "lock": 0o600, "ballast": 0o600, "compactions": 0o600}:
                yield f"under the umask {umask:o} the modes are { {name: oct(mode) for name, mode in modes.items()} }"


CASES = (
    named_damages,
    started_from_named,
    tails_are_kept,
    torn_journals_are_thinned,
    journals_without_a_record_are_left,
    ends_are_checked,
    empty_files_are_journals,
    a_removed_lock,
    a_removed_lock_behind_a_thinning,
    a_name_lost_before_the_lock,
    links_are_refused,
    links_beside_are_kept,
    modes_are_the_owners,
)


def samples(program, room, replay):
    """The city whose journal is damaged, and another."""
    places = [os.path.join(room, it) for it in ("ours", "others")]
    for it in places:
        os.mkdir(it)
    return Sample(program, places[0], replay, OURS), Sample(program, places[1], replay, OTHERS)


def main():
    parser = argparse.ArgumentParser(description=__doc__, formatter_class=argparse.RawDescriptionHelpFormatter)
    parser.add_argument("program")
    parser.add_argument("--replay", default=REPLAY, help="the built mds_replay")
    parser.add_argument("--count", type=int, default=COUNT, help="journals that are damaged by chance")
    options = parser.parse_args()
    tried, begun = Tried(), time.monotonic()
    with tempfile.TemporaryDirectory(prefix="damages-") as room:
        try:
            sample, other = samples(os.path.abspath(options.program), room, os.path.abspath(options.replay))
        except (OSError, ValueError, subprocess.SubprocessError) as fault:
            print(repr(fault))
            tried.failed += 1
            return tried.told()
        for case in CASES:
            tried.one(case.__name__, case(sample, other))
        tried.one(damages_by_chance.__name__, damages_by_chance(sample, other, options.count))
    print(f"a journal of {len(sample.bytes)} bytes, {options.count} times by chance; in {time.monotonic() - begun:.0f} s")
    return tried.told()


if __name__ == "__main__":
    sys.exit(main())
