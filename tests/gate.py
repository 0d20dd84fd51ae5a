#!/usr/bin/env python3
"""What `make prove` does, the whole gate: every proof, the tests, the programs and the edits that must fail (rt ci, from nothing), alone.

    gate.py

Then come, side by side: the mutation tests that edits/gate.txt lists, by the functions that they change or name (edits.py); the built
mds_replay on the scripts of tests/, and on questions that are asked once and again; the built mds_serve and ruffletuff on broken messages,
and many and slow connections beside another operator; the built ruffletuff killed fifty times under load, and a hundred times while one
device is reported over eight connections, on journals that were changed, cut, full and thinned, asked how operators stood in the past, sent
many reports at once, seen to sync what it tells, given files to import, and asked for what people are told, now and of the past, for the
page, and for what everyone is told; nginx before a server; the counts in documents; and the tests for out of memory are built.

Then, each with the machine for itself, since it is judged there how soon something is answered, or it takes all processors itself: the
control port, messages that mustn't come late, loads, changes beside the many lines of another operator, each path by each method and
client, a short stress, the page in a browser, and the tests for out of memory, with one growth after another refused.

What a part prints comes once it is over, but that of rt ci at once. What wants a package that isn't there, or the leave to mount a disk, is
left out, which the lines before the last name; with GATE=1 it has failed (packages.py). A part whose program wasn't built, that doesn't end
with its count, or that ends badly behind a good one, has failed. Before the last lines comes what all of it took. The last line counts all
of it: 'N passed, M failed', ', K skipped' behind it where some were left out; ends with 1 where one failed.
"""

import contextlib
import os
import sys
import tempfile
import time

import packages
import parts

TOP = os.path.dirname(os.path.dirname(os.path.abspath(__file__)))
REPLAY, SERVE, KEEP = (f"crates/{it}/out/{it}" for it in ("mds_replay", "mds_serve", "ruffletuff"))
MOST_LANES = 4
# How many times as long is waited beside other parts. The program is the proved one all the same: it is sent all (tests/wire.py).
BESIDE, ALONE = {"PATIENCE": "3", "SLOWNESS": "1"}, {"PATIENCE": "1", "SLOWNESS": "1"}
GROWTH_SECONDS = 60  # for the refused growths of each crate's tests
# The crates whose tests for out of memory bear a refused growth in their set-up too.
SWEPT = ("tests_core", "tests_server", "tests_journal")
TOLD_MINUTES = 0.5  # of the processor: a part that took less isn't named


def side_by_side(replay, serve, keep):
    """The tests of programs, and of documents, that may be late: they judge what is answered, what is kept and what is waited for at least,
    and their bounds of time are for what never ends. Each with its name, about how many minutes it takes, its program if any, and how it is
    called."""
    by = ("--replay", replay)
    return (
        ("scripts", 1, replay, "replays.py", replay),
        ("columns", 0.5, replay, "columns.py", replay),
        ("http", 1.5, serve, "http.py", serve, "untimed"),
        ("kept_http", 1.5, keep, "http.py", keep, "untimed"),
        # A kill comes at any moment: none of them is judged by when.
        ("kills", 2, keep, "kills.py", keep, "50", *by),
        ("contended", 2, keep, "contended.py", keep, "100", *by),
        ("journals", 2, keep, "journals.py", keep, *by),
        ("damages", 1, keep, "damages.py", keep, *by),
        ("config", 0.3, keep, "config.py", keep),
        ("many", 0.3, keep, "many.py", keep),
        # What isn't to come is waited for longer, while the sync is held for as long.
        ("syncs", 0.3, keep, "syncs.py", keep),
        ("app", 0.3, keep, "app.py", keep),
        ("oversight", 0.3, keep, "oversight.py", keep, *by),
        # Beside a question about the past another operator may wait two seconds, some hundred times what it waits for.
        ("past", 1, keep, "past.py", keep, *by),
        ("exchange", 0.3, keep, "exchange.py", keep),
        ("page", 0.2, keep, "page.py", keep),
        # Short documents may take four times the processor's time beside long ones: time that others take isn't counted.
        ("public", 0.3, keep, "public.py", keep),
        ("definitions", 0.1, None, "definitions.py"),
        ("crates", 0.1, None, "crates.py", "--check"),
        ("documents", 0.1, None, "documents.py"),
        ("mutations", 0.1, None, "mutations.py"),
        # nginx is what is tried, and its limits are by the second: a flood that comes slower is counted by its own time.
        ("nginx", 0.3, None, "nginx.py"),
        ("thinning", 2, keep, "thinning.py", keep, *by),
        ("report", 2, keep, "report.py", keep, *by),
    )


def alone(replay, serve, keep):
    """The tests beside which nothing else may run, as above: what somebody waits for is judged there in thousandths of a second, or by what
    else is answered meanwhile."""
    return (
        ("control", 0.5, keep, "control.py", keep),
        ("timed_http", 0.5, serve, "http.py", serve, "timed"),
        ("timed_kept_http", 0.1, keep, "http.py", keep, "timed"),
        ("loads", 4, serve, "http.py", serve, "loads"),
        ("shares", 0.5, keep, "shares.py", keep),
        ("routes", 1, keep, "routes.py", keep),
        ("plain_routes", 1, serve, "routes.py", serve),
        ("stress", 0.2, serve, "stress.py", "20", "4", "--serve", serve, "--replay", replay),
        # A browser takes several processors, and how long the page keeps it busy is judged.
        ("browser", 2, keep, "web/run.py", "checks", keep),
    )


def judged(ran):
    """The counts in a part's last line. One that doesn't end so, or that ends badly behind a good line, has failed."""
    found = packages.COUNT.fullmatch((ran.text.splitlines() or [""])[-1])
    passed, failed = map(int, found.groups()[:2]) if found else (0, 1)
    return parts.Result(passed, failed or int(ran.status != 0), len(packages.LEFT_OUT.findall(ran.text)), ran.text, ran.seconds)


def test(program, words, how):
    """Runs a test, which may be one of a program. A program that isn't there has failed."""
    if program and not os.access(program, os.X_OK):
        return parts.Result(0, 1, 0, f"{program} wasn't built\n")
    return judged(parts.run([sys.executable, "-B", f"tests/{words[0]}", *words[1:]], how))


def tests_of(crate, file):
    """Builds the tests of a crate, and keeps their program. They were run and counted by rt ci, so their count isn't taken again."""
    ran = parts.run([sys.executable, "-B", "tests/unproved.py", crate, file, "--test"])
    is_there = os.access(file, os.X_OK)
    return parts.Result(0, int(not is_there), 0, ran.text if ran.status or not is_there else "", ran.seconds)


def all_parts(room, lanes, jobs):
    """All parts, each behind those that it waits for: rt ci, what runs side by side, and one by one what has the machine for itself."""
    made = []

    def add(name, minutes, call, needs=(), behind=(), **how):
        made.append(parts.Part(name, minutes, call, needs, behind, **how))
        return made[-1]

    proofs = [add("proofs", 60, lambda: judged(parts.run(["rt", "ci"], is_live=True)), is_live=True)]
    # Each mutation test takes a processor and up to 3 GB, so they have as many lanes as they are at once.
    at_once = max(1, lanes // 2)
    edits = ("edits.py", "--folder", "gate", "--jobs", str(at_once))
    add("edits", 12 / at_once, lambda: test(None, edits, {}), (), proofs, lanes=at_once)
    built = {}
    for crate in SWEPT:
        call = lambda crate=crate: tests_of(crate, f"{room}/{crate}")
        built[crate] = add(f"tests_of_{crate}", 3, call, (), proofs)
    for name, minutes, program, *words in side_by_side(REPLAY, SERVE, KEEP):
        add(name, minutes, lambda program=program, words=words: test(program, words, BESIDE), (), proofs)
    for name, minutes, program, *words in alone(REPLAY, SERVE, KEEP):
        add(name, minutes, lambda program=program, words=words: test(program, words, ALONE), (), [*made])
    # These have as long as they have, and so much is refused as the processors do meanwhile.
    for crate, needed in built.items():
        words = ("growths.py", f"{room}/{crate}", str(GROWTH_SECONDS), str(jobs))
        add(f"growths_{crate}", GROWTH_SECONDS / 60, lambda words=words: test(words[1], words, ALONE), [needed], [*made])
    return made


def jobs_of_checks():
    """How many checks rt does side by side, which RT_JOBS says. A check in several jobs takes over a quarter more processor time, and here
    other checks mostly wait for it. With RT_JOBS=auto rt gives idle processors to the checks that run."""
    processors = min(len(os.sched_getaffinity(0)), MOST_LANES)
    told = os.environ.get("RT_JOBS") or str(processors)
    os.environ["RT_JOBS"] = told
    return max(1, int(told)) if told.isdecimal() else processors


def tell_costs(todo, minutes):
    """Tells what all of it took, and what each part, so that its budget can be seen."""
    taken = {it.name: it.seconds / 60 for it in todo}
    listed = ", ".join(f"{name} {spent:.1f}" for name, spent in taken.items() if spent >= TOLD_MINUTES)
    print(f"the gate took {sum(taken.values()):.0f} processor minutes: {listed}")
    proofs, *others = todo
    last = [it for it in others if len(it.behind) > 1]
    one_by_one = sum(it.clock for it in last) / 60
    beside = minutes - proofs.clock / 60 - one_by_one
    print(f"by the clock {minutes:.1f} minutes: proofs {proofs.clock / 60:.1f}, side by side {beside:.1f}, one by one {one_by_one:.1f}")


def main():
    begun = time.monotonic()
    os.chdir(TOP)
    for it in (REPLAY, SERVE, KEEP):
        with contextlib.suppress(FileNotFoundError):
            os.remove(it)
    jobs = jobs_of_checks()
    lanes = min(parts.lanes(), MOST_LANES, jobs)
    parts.end_by_signals()
    with tempfile.TemporaryDirectory(prefix="make-prove-", ignore_cleanup_errors=True) as room:
        todo = all_parts(room, lanes, jobs)
        parts.do_all(todo, lanes)
    tell_costs(todo, (time.monotonic() - begun) / 60)
    for it in todo:
        if it.failed:
            print(f"failed: {it.failed} of {it.name}")
    passed, failed = (sum(getattr(it, which) for it in todo) for which in ("passed", "failed"))
    print(packages.told(passed, failed, "\n".join(it.text for it in todo)))
    return 1 if failed else 0


if __name__ == "__main__":
    sys.exit(main())
