#!/usr/bin/env python3
"""What is synced, and when: starts ruffletuff with a library before its own, which makes its syncs wait, or tells of each.

    syncs.py PROGRAM

While a sync lasts a report that waits for it isn't answered, and isn't shown to its operator over other connections either; a refusal that
shows nothing waits for no sync. And a thinned journal is synced before it gets the journal's name, and behind that the folder is, before
anything else: by `thin`, and while the city is served. By then the thinning is recorded, and the journal before it archived, each on the
disk: as long as the record doesn't get its name the thinned journal doesn't get the journal's. Wants a compiler of C (packages.py). Prints what is otherwise, and last 'N passed, M failed'; ends with 1 where one failed.
"""

import concurrent.futures
import itertools
import os
import sys
import tempfile
import time

import packages
from journals import until
from kept import City, ended, held, held_name, told_of, tried
from shares import is_written_behind
from thinning import PART, RECORDED, RECORDING
from wire import FIRST, PATIENCE, SECONDS, Link, configuration, identifier, report, request

NEW = b'{"result":"new"}'
PAUSE = 0.5 * PATIENCE  # seconds for an answer that isn't to come
SMALL = 20_000  # bytes of growth behind which the journal is thinned
REPORTS = 10_000  # at the most, until it is
BEHIND = 20  # reports while a thinning waits to be recorded
# What shows a report: who asks what, and what the answer has.
SHOWING = {
    "a question": (("GET", "/fleet/vehicles", FIRST), 200, identifier(4, 1).encode()),
    "a view": (("GET", "/app/fleet", FIRST), 200, identifier(4, 1).encode()),
    "the refusal of an earlier report": (("POST", "/fleet/events", FIRST, report(1, 1_999)), 409, b"stale"),
}


def reported(server):
    """The answer to a report, for which it waits as long as it lasts."""
    with server.link() as link:
        link.socket.settimeout(6 * SECONDS)
        link.send(request("POST", "/fleet/events", FIRST, report(1)))
        return link.answer()


def what_is_not_synced_is_not_told(program):
    """While its sync lasts a report isn't answered, and nothing that would show it is either; once it is over all is. What is refused without
    a turn is answered meanwhile."""
    with tempfile.TemporaryDirectory(prefix="syncs-") as room, concurrent.futures.ThreadPoolExecutor(5) as pool:
        city, hold = City(program, room, configuration()), os.path.join(room, "hold")
        with city.serve("--thin-at", "0", env=held(room, hold)) as server:
            size = os.path.getsize(city.journal)
            with open(hold, "wb"):
                change = pool.submit(reported, server)
            is_held = is_written_behind(city.journal, size)
            shown = {name: pool.submit(server.ask, *asked) for name, (asked, _, _) in SHOWING.items()}
            waiting = 1 + len(shown)
            if not is_held or until(server, "pending_replies", lambda count: count == waiting) != waiting:
                yield "a report and what would show it don't wait together"
            refused = pool.submit(server.ask, "GET", "/nowhere", FIRST)
            time.sleep(PAUSE)
            if change.done():
                yield "a report is answered while its sync lasts"
            yield from (f"a report is shown by {name} while its sync lasts" for name, it in shown.items() if it.done())
            if not refused.done():
                yield "a refusal waits for a sync"
            os.remove(hold)
            if (answer := change.result()).status != 200 or answer.body != NEW:
                yield f"the report is answered {answer}"
            for name, it in shown.items():
                if (answer := it.result()).status != SHOWING[name][1] or SHOWING[name][2] not in answer.body:
                    yield f"{name} is answered {answer}"
            if (answer := refused.result()).status != 404:
                yield f"what is refused is answered {answer}"
            if (found := server.end()) != (0, b"", b""):
                yield f"it ends with {found}"


def steps_in(file):
    """What was told of syncs and names, in order."""
    with open(file, encoding="utf-8") as text:
        return text.read().splitlines()


def on_the_disk(steps, file, name):
    """Whether a file was synced, then got its name, and then the folder of that name was synced."""
    named = max((place for place, step in enumerate(steps) if step == f"named {name}"), default=None)
    return named is not None and f"synced {file}" in steps[:named] and f"synced {os.path.dirname(name)}" in steps[named:]


def unsynced(city, file, archive=None):
    """What isn't synced in time of journals that got the journal's name."""
    steps = steps_in(file)
    places = [place for place, step in enumerate(steps) if step == f"named {city.journal}"]
    if not places:
        yield "no other journal got the name"
    for place in places:
        if f"synced {city.journal}.thinned" not in steps[:place]:
            yield "a journal gets the name that wasn't synced"
        if not on_the_disk(steps[:place], os.path.join(city.folder, RECORDING), os.path.join(city.folder, RECORDED)):
            yield "a journal gets the name before its thinning is recorded on the disk"
        for name in os.listdir(archive) if archive else ():
            if not on_the_disk(steps[:place], os.path.join(archive, PART), os.path.join(archive, name)):
                yield f"a journal gets the name before {name} is on the disk"
        if steps[place + 1 : place + 2] != [f"synced {city.folder}"]:
            yield f"behind the new name comes {steps[place + 1 : place + 2]}"


def names_are_synced(program):
    """A thinned journal is synced before it gets the name, and the folder behind that: while the city is served, and by thin. What is
    recorded and archived of it is on the disk before."""
    with tempfile.TemporaryDirectory(prefix="syncs-") as made:
        room = os.path.realpath(made)
        city, file = City(program, room, configuration()), os.path.join(room, "steps")
        how = {"env": told_of(room, file)}
        with city.serve("--thin-at", str(SMALL), **how) as server, Link(server.port) as link:
            for number in range(REPORTS):
                link.send(request("POST", "/fleet/events", FIRST, report(1, 2_000 + number)))
                if (answer := link.answer()).status != 200:
                    yield f"a report is answered {answer}"
                    return
                if number % 20 == 0 and f"named {city.journal}" in steps_in(file):
                    break
            server.end()
        yield from (f"while it is served: {it}" for it in unsynced(city, file))
        os.remove(file)
        os.mkdir(archive := os.path.join(room, "archive"))
        if (found := ended(program, "thin", city.folder, "--config", city.file, "--archive", archive, **how))[0]:
            yield f"thin ends with {found}"
        if len(os.listdir(archive)) != 1:
            yield f"the archive has {os.listdir(archive)}"
        yield from (f"by thin: {it}" for it in unsynced(city, file, archive))


def is_reported(link, numbers, is_over):
    """Reports these, one after another, until that is so, and gives whether it came to be so."""
    for number in numbers:
        link.send(request("POST", "/fleet/events", FIRST, report(1, 2_000 + number)))
        if (answer := link.answer()).status != 200:
            raise ValueError(f"a report is answered {answer}")
        if is_over():
            return True
    return False


def a_thinning_is_recorded_first(program):
    """As long as the record of a thinning doesn't get its name, the thinned journal doesn't get the journal's, and reports are accepted; once
    the record has its name, the journal has its own."""
    with tempfile.TemporaryDirectory(prefix="syncs-") as made:
        room = os.path.realpath(made)
        city, hold, numbers = City(program, room, configuration()), os.path.join(room, "hold"), iter(range(REPORTS))
        env, recording = held_name(room, os.path.join(city.folder, RECORDED), hold), os.path.join(city.folder, RECORDING)
        with city.serve("--thin-at", str(SMALL), env=env) as server, Link(server.port) as link:
            first = os.stat(city.journal).st_ino
            with open(hold, "wb"):
                is_recorded = is_reported(link, numbers, lambda: os.path.exists(recording))
            # Each of these is written in a round of its own: if a thinned journal were offered by now, the first would give it the name.
            is_reported(link, itertools.islice(numbers, BEHIND), lambda: False)
            if not is_recorded or os.stat(city.journal).st_ino != first:
                yield "a journal gets the name before its thinning is recorded"
            os.remove(hold)
            if not is_reported(link, numbers, lambda: os.stat(city.journal).st_ino != first):
                yield "no other journal gets the name"
            server.end()


if __name__ == "__main__":
    if not packages.program("cc"):
        packages.end_without("what is synced, and when", "cc")
    sys.exit(tried(__doc__, (what_is_not_synced_is_not_told, names_are_synced, a_thinning_is_recorded_first)))
