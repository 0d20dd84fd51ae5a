#!/usr/bin/env python3
"""Runs the checks of the page, or makes the screenshots of the README, where chromium and node are there.

    run.py checks | shots [PROGRAM [GROUP]..]

PROGRAM is a built ruffletuff, whose own page it is, or mds_serve with the page beside it. Without it the proved ruffletuff is taken where
it is built and no source is newer, else one is built from the sources before their proof (tests/unproved.py, some four minutes), which is
kept for as long as no source is newer. The groups are those of checks.mjs, all where none is named. With PATIENCE=N each wait is N times
as long. What is left out for want of a package is named in one line (packages.py). Last comes 'N passed, M failed'; ends with 1 where one
failed.
"""

import os
import re
import subprocess
import sys

HERE = os.path.dirname(os.path.abspath(__file__))
sys.path.insert(0, os.path.dirname(HERE))

import packages  # noqa: E402, it stands in the folder above
import unproved  # noqa: E402, as that

COUNT = re.compile(r"^(\d+) passed, (\d+) failed$", re.M)
SECONDS = 1800


def node(script, *words):
    """Runs a script of this folder: what it counted. One that counted nothing has failed."""
    run = subprocess.run(["node", f"{HERE}/{script}", *words], stdout=subprocess.PIPE, text=True, timeout=SECONDS, check=False)
    print(COUNT.sub("", run.stdout).rstrip() or f"{script}: as wanted", flush=True)
    counted = COUNT.findall(run.stdout)
    passed, failed = map(int, counted[-1]) if counted else (0, 1)
    return passed, failed or int(run.returncode != 0), 0


def main():
    what, *rest = sys.argv[1:] or ["checks"]
    missing = [it for it in ("node", "chromium") if not packages.program(os.environ.get(it.upper(), it))]
    done = [node("units.mjs")] if what == "checks" and "node" not in missing else []
    if missing:
        left = "the page's checks" if "node" in missing else "the page's checks in a browser"
        done.append(packages.leave_out(left if what == "checks" else "the screenshots", *missing))
    else:
        done.append(node(f"{what}.mjs", *(rest or [unproved.to_run("ruffletuff")])))
    passed, failed, skipped = (sum(it[n] for it in done) for n in range(3))
    print(packages.count(passed, failed, skipped))
    return 1 if failed else 0


if __name__ == "__main__":
    sys.exit(main())
