"""Counts the instructions of a request over HTTP, by valgrind's callgrind: repeatable for one build, whatever else the machine does.

    instructions.py [PROGRAM] [--before OTHER] [--profile FOLDER]

PROGRAM is an mds_serve; with `--before` another build is counted beside it. A request's count is the difference of two runs of one
connection, of 200 and of 1,200 requests one after another, by 1,000. What the kernel does isn't counted. With `--profile` the longer
run's output of callgrind, for callgrind_annotate, is kept in that folder.
"""

import argparse
import os
import re
import subprocess
import sys
import tempfile

HERE = os.path.dirname(os.path.abspath(__file__))
sys.path.append(os.path.join(HERE, "..", "tests"))

from wire import FIRST, Link, configuration, first_line, free_port, request  # noqa: E402

PROGRAM = os.path.join(HERE, "..", "crates", "mds_serve", "out", "mds_serve")
FEW, MANY = 200, 1_200
REPORT = (
    '{{"device_id":"00000000-0000-4000-8000-00040000{:04x}","event_types":["trip_end"],"location":{{"lat":39.8,"lng":-86.1}},'
    '"propulsion_types":["electric"],"timestamp":{},"vehicle_state":"available","vehicle_type":"scooter"}}'
)
COLLECTED = re.compile(rb"Collected : (\d+)")


def report(turn):
    """A report of one of a hundred devices."""
    return request("POST", "/fleet/events", FIRST, REPORT.format(turn % 100, 1_700_000_000_000 + turn).encode())


# What is asked, by its name: the request of a turn, and the status of its answer.
KINDS = {
    "a report": (report, 200),
    "a question with no vehicle and no policy in force": (lambda _: request("GET", "/compliance", FIRST), 200),
    "a list with nothing in it": (lambda _: request("GET", "/policies", FIRST), 200),
    "a path that isn't there": (lambda _: request("GET", "/nothing", FIRST), 404),
}


def instructions(program, kind, count, out):
    """How many instructions a program takes from its start to its end, with so many requests of a kind over one connection."""
    make, status = KINDS[kind]
    port = free_port()
    words = ["valgrind", "--tool=callgrind", f"--callgrind-out-file={out}", program, f"127.0.0.1:{port}", "1"]
    with subprocess.Popen(words, stdin=subprocess.PIPE, stdout=subprocess.PIPE, stderr=subprocess.PIPE) as process:
        process.stdin.write(configuration(1_000))
        process.stdin.flush()
        if first_line(process.stdout) != b"ready\n":
            process.kill()
            raise SystemExit(f"{program} isn't ready under valgrind: {process.stderr.read().decode()}")
        with Link(port) as link:
            for turn in range(count):
                link.send(make(turn))
                answer = link.answer("GET")
                if answer.status != status:
                    raise SystemExit(f"{kind}: {answer.status} in the place of {status}")
        process.stdin.close()
        return int(COLLECTED.search(process.stderr.read())[1])


def counted(program, kind, folder):
    """The instructions of one request of a kind."""
    name = kind.replace(" ", "_").replace("'", "")
    few, many = (instructions(program, kind, count, f"{folder}/{name}.{count}") for count in (FEW, MANY))
    return round((many - few) / (MANY - FEW))


def main():
    asked = argparse.ArgumentParser(description=__doc__.splitlines()[0])
    asked.add_argument("program", nargs="?", default=PROGRAM)
    asked.add_argument("--before")
    asked.add_argument("--profile")
    asked = asked.parse_args()
    builds = {"before": asked.before, "after": asked.program} if asked.before else {"": asked.program}
    for kind in KINDS:
        for build, program in builds.items():
            with tempfile.TemporaryDirectory() as folder:
                keep = asked.profile if asked.profile and program == asked.program else folder
                os.makedirs(keep, exist_ok=True)
                print(f"{kind}{', ' if build else ''}{build}: {counted(program, kind, keep)}", flush=True)


if __name__ == "__main__":
    main()
