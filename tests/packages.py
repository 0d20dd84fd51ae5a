"""What tests want that a fresh machine may not have: Python's modules and programs of Debian's packages, and the leave to mount a disk.

    packages.py PASSED FAILED < TEXT

A test that lacks some of it is left out: it prints 'left out: WHAT: WHY', where WHY is 'apt-get install PACKAGE..' or begins with 'run as
root', and its last line counts it: 'N passed, M failed, K skipped'. With GATE=1, as in the merge gate, it has failed instead. As a program
this prints what is left out in a text of many tests, a line for each reason, with packages in the last of them; and then the line that
counts all.
"""

import os
import re
import shutil
import subprocess
import sys

PACKAGES = {
    "yaml": "python3-yaml",
    "jsonschema": "python3-jsonschema",
    "node": "nodejs",
    "chromium": "chromium",
    "nginx": "nginx",
    "openssl": "openssl",
    "curl": "curl",
    "tzdata": "tzdata",
    "cc": "gcc libc6-dev",
    "etcd": "etcd-server",
}
# What has to be there of a module that an old package lacks.
PROBES = {"jsonschema": "jsonschema.Draft202012Validator"}
SECONDS = 30
COUNT = re.compile(r"^(\d+) passed, (\d+) failed(?:, (\d+) skipped)?$", re.M)
INSTALL = "apt-get install "
MAY_MOUNT = "run as root, who may mount"
LEFT_OUT = re.compile(rf"^left out: (.*): ({INSTALL}.*|run as root.*)$", re.M)


class LeftOut(Exception):
    """A test can't be done here, for this reason."""


def count(passed, failed, skipped=0):
    """The last line of a test."""
    return f"{passed} passed, {failed} failed" + (f", {skipped} skipped" if skipped else "")


def told(passed, failed, text):
    """The lines behind many tests: what they left out, by what they printed, and their count."""
    by_reason, wanted = {}, {}
    for what, why in LEFT_OUT.findall(text):
        reason = INSTALL if why.startswith(INSTALL) else why
        by_reason.setdefault(reason, []).append(what)
        if reason == INSTALL:
            wanted |= dict.fromkeys(why.removeprefix(INSTALL).split())
    reasons = sorted(by_reason, key=lambda reason: reason == INSTALL)
    lines = [f"left out: {', '.join(by_reason[it])}: {it}{' '.join(wanted) if it == INSTALL else ''}" for it in reasons]
    return "\n".join([*lines, count(passed, failed, sum(map(len, by_reason.values())))])


def leave_out_since(what, why):
    """Says what is left out and why; how many passed, failed and were skipped by that."""
    fails = os.environ.get("GATE") == "1"
    print(f"{'failed' if fails else 'left out'}: {what}: {why}", flush=True)
    return (0, 1, 0) if fails else (0, 0, 1)


def leave_out(what, *names):
    """The same for want of these modules or programs."""
    return leave_out_since(what, INSTALL + " ".join(PACKAGES[it] for it in names))


def need(*names):
    """Leaves a test out for want of one of these programs."""
    if missing := [it for it in names if not program(it)]:
        raise LeftOut(INSTALL + " ".join(PACKAGES[it] for it in missing))


def end_without(what, *names):
    """Ends a test that can't be done without these modules or programs."""
    counts = leave_out(what, *names)
    print(count(*counts))
    sys.exit(counts[1])


def program(name):
    """Where a program is, or None. One of those for root is looked for beside the PATH too."""
    return shutil.which(name, path=f"{os.environ.get('PATH', os.defpath)}:/usr/sbin:/sbin")


def has(python, modules):
    """Whether a Python has these modules, each as new as it has to be."""
    probe = "\n".join([f"import {', '.join(modules)}", *(PROBES[it] for it in modules if it in PROBES)])
    try:
        ran = subprocess.run([python, "-c", probe], cwd="/", stderr=subprocess.DEVNULL, timeout=SECONDS, check=False)
    except (OSError, subprocess.TimeoutExpired):
        return False
    return ran.returncode == 0


def pythons():
    """This Python, each python3 of the PATH, and Debian's, which its packages belong to."""
    folders = os.environ.get("PATH", os.defpath).split(os.pathsep)
    found = [sys.executable, *(os.path.join(it, "python3") for it in folders), "/usr/bin/python3"]
    return list(dict.fromkeys(it for it in found if os.access(it, os.X_OK)))


def need_modules(what, *modules):
    """Goes on in the first Python that has these modules, this one where it has them. Where none has, the test ends here."""
    python = next((it for it in pythons() if has(it, modules)), None)
    if python is None:
        end_without(what, *(it for it in modules if not has(sys.executable, [it])))
    if python != sys.executable:
        os.execv(python, [python, "-B", *sys.argv])


if __name__ == "__main__":
    print(told(*map(int, sys.argv[1:]), sys.stdin.buffer.read().decode(errors="replace")))
