#!/usr/bin/env python3
"""What `make test` does: all tests, and the programs on scripts, messages, kills and journals, before any proof. It proves nothing.

    quick.py

The tests of each crate that has some are built and run by `rt try --test`, and mds_replay and ruffletuff are built by `rt try`
(tests/unproved.py) and kept in out/unproved, as many at once as there are processors and memory; a program that is there is taken, the
proved one first, where no source is newer. Then come the scripts (replays.py), questions that are asked once and again (columns.py),
ruffletuff on the messages that wait for no deadline but a head's and on the short loads (http.py), some kills (kills.py, contended.py), journals
(journals.py, damages.py, thinning.py), reports on the past (report.py), the control port (control.py), configurations (config.py), many
reports at once (many.py), also beside the changes of others (shares.py), what is synced and when (syncs.py), each path by each method and
client (routes.py), files that are imported (exchange.py), what people are told (app.py), how operators stand (oversight.py) and stood
(past.py), what everyone is told (public.py), the counts in docs/audit/DEFINITIONS.md (definitions.py), the table of crates in
docs/ARCHITECTURE.md (crates.py), links and lengths of all documents (documents.py), whether each edit can be made (mutations.py), nginx
before a server (nginx.py), the page (page.py), in a browser too (web/run.py), a short stress (stress.py), some refused growths of memory
(growths.py) and the check of docs/openapi.yaml (openapi.py). The other messages, and mds_serve, which serves by the same crates, are tried by `make prove` alone.

What wants a package that isn't there, or the leave to mount a disk, is left out: the lines before the last name it, with the command that
gets the packages; with GATE=1 it has failed (packages.py). What a part prints comes once the part is over, and of one that failed the last
lines again behind all parts. Last comes 'N passed, M failed' over all parts, ', K skipped' behind it where some were left out; ends with 1
where one failed.
"""

import os
import re
import sys
import tempfile
import time

import packages
import parts
import unproved

HERE = os.path.dirname(os.path.abspath(__file__))
SCRIPT_PARTS = 3
GROWTH_SECONDS = 20  # for the growths of a crate's tests
KILLS = "10"
CONTENDED_KILLS = "10"
TOLD_AGAIN = 20  # lines of each part that failed, behind all parts
STRIDE = "29"  # of a journal's bytes, each so many are changed
CITIES = "2"  # whose questions are asked once and again
SHARES = ("4", "--told")  # seconds of each load beside which others ask for changes
DAY = ("--vehicles", "1", "--kills", "2")  # of a journal that is thinned
REPORTED = ("--cities", "3")  # whose past is reported
PAST = ("--cities", "2")  # whose past is asked for
# The crates whose tests for out of memory bear a refused growth in their set-up too.
SWEPT = ("tests_core", "tests_server", "tests_journal")
SLOW = "8"  # how many times as long a part waits for a program that isn't proved
TESTS = re.compile(r"^test result: \w+\. (\d+) passed; (\d+) failed;", re.M)


def counted(ran, pattern):
    """The counts that a command printed last, and of the lines that tell what was left out. One that printed none, or ended badly without a
    failure, has failed."""
    found = pattern.findall(ran.text)
    passed, failed = map(int, found[-1][:2]) if found else (0, 1)
    return parts.Result(passed, failed or int(ran.status != 0), len(packages.LEFT_OUT.findall(ran.text)), ran.text, ran.seconds)


def run(name, *words, slow=False):
    """Runs one of the Python files beside this one."""
    return parts.run([sys.executable, "-B", f"{HERE}/{name}", *words], {"PATIENCE": SLOW if slow else "1"})


def tests_of(name, program):
    """Builds and runs the tests of a crate; those that passed are counted alone. Where a file is named, the program is kept there."""
    found = counted(run("unproved.py", name, *([program] if program else []), "--test"), TESTS)
    kept = [line for line in found.text.splitlines() if not re.fullmatch(r"test \S+ \.\.\. ok|tests: \d+", line)]
    return found._replace(text="\n".join(kept))


def program_of(name):
    """Builds a program, and runs it on the crate's own input."""
    ran = run("unproved.py", name)
    return parts.Result(int(ran.status == 0), int(ran.status != 0), 0, ran.text if ran.status else "", ran.seconds)


def script(name, *words, slow=True):
    """Runs a test."""
    return counted(run(name, *words, slow=slow), packages.COUNT)


def crates_with_tests():
    """The crates that have a test, those with most lines first."""
    found = {}
    for path in unproved.sources():
        name = os.path.relpath(path, unproved.crate("")).split(os.sep)[0]
        with open(path, encoding="utf-8") as text:
            source = text.read()
        lines, has = found.get(name, (0, False))
        found[name] = lines + source.count("\n"), has or "#[test]" in source
    return sorted((name for name, (_, has) in found.items() if has), key=lambda name: -found[name][0])


def all_parts(room):
    """All parts, each behind those that it waits for."""
    made, built, slow = [], {}, {}

    def add(name, minutes, needs, call, behind=()):
        made.append(parts.Part(name, minutes, call, needs, behind))
        return [made[-1]]

    for name, minutes in (("ruffletuff", 4), ("mds_replay", 1)):
        program, slow[name] = unproved.proved(name), not unproved.proved(name)
        program = program or unproved.kept(name)
        needs = [] if program else add(f"{name} is built unproved", minutes, [], lambda name=name: program_of(name))
        built[name] = (program or f"{unproved.KEPT}/{name}", needs)
    (keep, kept), (replay, replayed) = built["ruffletuff"], built["mds_replay"]
    slowly = slow["ruffletuff"] or slow["mds_replay"]
    stress = ("stress.py", "20", "4", "--serve", keep, "--replay", replay)
    add("messages", 1.5, kept, lambda: script("http.py", keep, "exchanges", slow=slow["ruffletuff"]))
    add("kills", 1.5, kept + replayed, lambda: script("kills.py", keep, KILLS, "--replay", replay, slow=slowly))
    contended = ("contended.py", keep, CONTENDED_KILLS, "--replay", replay)
    add("one device over many connections", 1, kept + replayed, lambda: script(*contended, slow=slowly))
    add("journals", 1.5, kept + replayed, lambda: script("journals.py", keep, "--replay", replay, "--stride", STRIDE, slow=slowly))
    add("damaged journals", 1, kept + replayed, lambda: script("damages.py", keep, "--replay", replay, slow=slowly))
    add("the control port", 0.5, kept, lambda: script("control.py", keep, slow=slow["ruffletuff"]))
    add("configurations", 0.3, kept, lambda: script("config.py", keep, slow=slow["ruffletuff"]))
    add("many reports", 0.5, kept, lambda: script("many.py", keep, slow=slow["ruffletuff"]))
    add("changes beside many lines", 0.5, kept, lambda: script("shares.py", keep, *SHARES, slow=slow["ruffletuff"]))
    add("what is synced, and when", 0.3, kept, lambda: script("syncs.py", keep, slow=slow["ruffletuff"]))
    add("each path, and what refusals take", 1.5, kept, lambda: script("routes.py", keep, "--told", slow=slow["ruffletuff"]))
    add("what people are told", 0.3, kept, lambda: script("app.py", keep, slow=slow["ruffletuff"]))
    add("how operators stand", 0.3, kept + replayed, lambda: script("oversight.py", keep, "--replay", replay, slow=slowly))
    past = ("past.py", keep, "--replay", replay, *PAST)
    add("moments of the past", 1, kept + replayed, lambda: script(*past, slow=slowly))
    add("files and a server", 0.5, kept, lambda: script("exchange.py", keep, slow=slow["ruffletuff"]))
    add("the page", 0.2, kept, lambda: script("page.py", keep, slow=slow["ruffletuff"]))
    add("what everyone is told", 0.3, kept, lambda: script("public.py", keep, slow=slow["ruffletuff"]))
    add("the counts of definitions", 0.1, [], lambda: script("definitions.py"))
    add("the table of crates", 0.1, [], lambda: script("crates.py", "--check"))
    add("links and lengths of documents", 0.1, [], lambda: script("documents.py"))
    add("the texts of mutation tests", 0.1, [], lambda: script("mutations.py"))
    add("nginx before a server", 0.3, [], lambda: script("nginx.py", slow=False))
    add("thinned journals", 1, kept + replayed, lambda: script("thinning.py", keep, "--replay", replay, *DAY, slow=slowly))
    add("reports on the past", 2, kept + replayed, lambda: script("report.py", keep, "--replay", replay, *REPORTED, slow=slowly))
    for part in range(1, SCRIPT_PARTS + 1):
        words = ("replays.py", replay, str(part), str(SCRIPT_PARTS))
        call = lambda words=words: script(*words, slow=slow["mds_replay"])
        add(f"scripts, part {part} of {SCRIPT_PARTS}", 2, replayed, call)
    add("questions again", 0.5, replayed, lambda: script("columns.py", replay, "1", CITIES, slow=slow["mds_replay"]))
    for name in crates_with_tests():
        program = f"{room}/{name}-tests" if name in SWEPT else None
        needs = add(f"the tests of {name}", 3, [], lambda name=name, program=program: tests_of(name, program))
        words = ("growths.py", program, str(GROWTH_SECONDS))
        if name in SWEPT:
            add(f"some growths refused to {name}", GROWTH_SECONDS / 60, needs, lambda words=words: script(*words))
    add("a short stress", 0.5, kept + replayed, lambda: script(*stress, slow=slowly))
    add("the description of the protocol", 0.1, [], lambda: script("openapi.py"))
    # Last and with nothing beside each of them, so that no other part makes them late.
    add("the page in a browser", 2, kept, lambda: script("web/run.py", "checks", keep, slow=slow["ruffletuff"]), [*made])
    add("short loads", 1.5, kept, lambda: script("http.py", keep, "short-loads", slow=slow["ruffletuff"]), [*made])
    return made


def main():
    begun = time.monotonic()
    parts.end_by_signals()
    with tempfile.TemporaryDirectory(prefix="make-test-", ignore_cleanup_errors=True) as room:
        todo = all_parts(room)
        parts.do_all(todo, parts.lanes())
    passed, failed = (sum(getattr(it, which) for it in todo) for which in ("passed", "failed"))
    print(f"in {(time.monotonic() - begun) / 60:.1f} minutes; nothing is proved by this (make prove)")
    for it in todo:
        if it.failed:
            print(f"failed: {it.name}")
            print("".join(f"   {line}\n" for line in it.text.splitlines()[-TOLD_AGAIN:]), end="")
    print(packages.told(passed, failed, "\n".join(it.text for it in todo)))
    return 1 if failed else 0


if __name__ == "__main__":
    sys.exit(main())
