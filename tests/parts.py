"""Parts of a long run, done side by side: what `make test` (quick.py) and `make prove` (gate.py) consist of.

A part begins once all those are over that it stands behind, and as many run at once as there are lanes. Of those that may begin the one
comes first from whose begin to the end it takes longest. What a part prints comes once it is over. Each command that it runs is in a
process group of its own: what a command leaves running is ended, and where the run itself is told to end, all that still runs is told so
as by Ctrl-C, and killed where it doesn't end in time.
"""

import contextlib
import os
import re
import signal
import subprocess
import sys
import tempfile
import threading
import time
from typing import NamedTuple

import packages

MEMORY = 3 << 30  # bytes of what runs in one lane, at most
GRACE = 20  # seconds within which what is told to end has to


class Result(NamedTuple):
    """How many tests of a part passed, failed and were left out, what it printed, and the seconds of the processor that it took."""

    passed: int
    failed: int
    skipped: int
    text: str
    seconds: float = 0.0


class Part:
    """One thing to do: its name, how many minutes it takes about, and the call that does it, for a Result. It begins behind the parts whose
    programs it runs, and isn't done where one of them failed, and behind others. It takes so many lanes. What a live one prints comes at
    once, by the call itself."""

    def __init__(self, name, minutes, call, needs=(), behind=(), lanes=1, is_live=False):
        self.name, self.minutes, self.call, self.needs, self.behind = name, minutes, call, needs, (*needs, *behind)
        self.lanes, self.is_live, self.is_begun, self.is_over, self.clock = lanes, is_live, False, False, 0.0
        self.take(Result(0, 1, 0, "it wasn't done\n"))

    def take(self, result):
        """Keeps what came of it."""
        self.passed, self.failed, self.skipped, self.text, self.seconds = result

    def do(self, printing):
        """Does it, and tells that it begins and how it went."""
        with printing:
            print(f"begins: {self.name}, about {self.minutes} min", flush=True)
        begun = time.monotonic()
        lost = [it.name for it in self.needs if it.failed]
        try:
            self.take(self.call() if not lost else Result(0, 1, 0, f"not done, since this failed: {lost[0]}\n"))
        except Exception as fault:  # pylint: disable=broad-except
            self.take(Result(0, 1, 0, f"{fault!r}\n"))
        self.clock = time.monotonic() - begun
        if not COMMANDS.is_over:
            with printing:
                print(f"== {self.name}, in {self.clock:.0f} s: {packages.count(self.passed, self.failed, self.skipped)}")
                print("".join(f"   {line}\n" for line in self.text.splitlines() if not self.is_live), end="", flush=True)


# --- Commands ------------------------------------------------------------------------------------------------------


class Ran(NamedTuple):
    """The status of a command, what it printed, and the seconds of the processor that it took with all that it waited for."""

    status: int
    text: str
    seconds: float


class Commands:
    """The commands that run, and whether all is told to end: then no further one begins."""

    def __init__(self):
        self.changing, self.groups, self.is_over = threading.Lock(), set(), False

    def start(self, words, **how):
        """Starts one, in a process group of its own."""
        with self.changing:
            if self.is_over:
                raise OSError("all is told to end")
            started = subprocess.Popen(words, stdin=subprocess.DEVNULL, start_new_session=True, **how)
            self.groups.add(started.pid)
        return started

    def wait(self, started):
        """Waits for one, and ends what it leaves running: its status, and the seconds of the processor."""
        os.waitid(os.P_PID, started.pid, os.WEXITED | os.WNOWAIT)
        with self.changing:
            self.groups.discard(started.pid)
        # No other process has its number before it is waited for.
        kill(started.pid)
        _, status, used = os.wait4(started.pid, 0)
        started.returncode = os.waitstatus_to_exitcode(status)
        return started.returncode, used.ru_utime + used.ru_stime

    def end(self):
        """Tells all that still run to end, and lets nothing more begin. A command ends by itself what it started."""
        with self.changing:
            self.is_over = True
            for it in self.groups:
                os.kill(it, signal.SIGINT)

    def kill(self):
        """Kills all that still run, with all that they started."""
        with self.changing:
            for it in self.groups:
                kill(it)


COMMANDS = Commands()


def kill(group):
    """Kills a process group, if there is still somebody."""
    with contextlib.suppress(ProcessLookupError, PermissionError):
        os.killpg(group, signal.SIGKILL)


def run(words, env=None, is_live=False):
    """Runs a command with these variables beside the environment's. What it printed is told with its standard error in front; of a live
    one all is printed as it comes, and its standard error isn't told."""
    how = {"env": {**os.environ, **(env or {})}}
    with tempfile.TemporaryFile() as wrote, tempfile.TemporaryFile() as said:
        streams = {"stdout": subprocess.PIPE} if is_live else {"stdout": wrote, "stderr": said}
        started = COMMANDS.start(words, **streams, **how)
        if is_live:
            with started.stdout as stream:
                for data in iter(lambda: os.read(stream.fileno(), 65536), b""):
                    wrote.write(data)
                    sys.stdout.buffer.write(data)
                    sys.stdout.flush()
        status, seconds = COMMANDS.wait(started)
        texts = []
        for it in (said, wrote):
            it.seek(0)
            texts.append(it.read().decode(errors="replace"))
    if texts[0] and not texts[0].endswith("\n"):
        texts[0] += "\n"
    return Ran(status, "".join(texts), seconds)


# --- The run -------------------------------------------------------------------------------------------------------


def lanes():
    """How many parts may run at once, by the processors and the memory."""
    with open("/proc/meminfo", encoding="ascii") as text:
        free = 1024 * int(re.search(r"MemAvailable:\s+(\d+)", text.read())[1])
    return max(1, min(len(os.sched_getaffinity(0)), free // MEMORY))


def chains(parts):
    """The minutes of each part with the longest chain of others behind it. All stand in the list behind those that they wait for."""
    found = {}
    for part in reversed(parts):
        found[part] = part.minutes + max((minutes for other, minutes in found.items() if part in other.behind), default=0)
    return found


def next_of(parts, chain, free):
    """The part to begin next, if one may in so many lanes."""
    ready = [it for it in parts if not it.is_begun and it.lanes <= free and all(before.is_over for before in it.behind)]
    return max(ready, key=chain.get, default=None)


def do_all(parts, count):
    """Does all of these parts in so many lanes. All stand in the list behind those that they wait for."""
    changed, printing, chain, threads = threading.Condition(), threading.Lock(), chains(parts), []
    for it in parts:
        it.lanes = min(it.lanes, count)

    def do(part):
        try:
            part.do(printing)
        finally:
            with changed:
                part.is_over = True
                changed.notify_all()

    try:
        with changed:
            while not all(it.is_over for it in parts):
                part = next_of(parts, chain, count - sum(it.lanes for it in parts if it.is_begun and not it.is_over))
                if part is None:
                    changed.wait()
                    continue
                part.is_begun = True
                threads.append(threading.Thread(target=do, args=(part,), daemon=True))
                threads[-1].start()
    except BaseException:
        end_all(threads)
        raise


def end_all(threads):
    """Tells what still runs to end and to clear up, as by Ctrl-C, and kills what doesn't in time."""
    until = time.monotonic() + GRACE
    try:
        COMMANDS.end()
        for it in threads:
            it.join(max(0, until - time.monotonic()))
    finally:
        COMMANDS.kill()


def end_by_signals():
    """Lets the program end by way of end_all however it is told to. What it is to ignore, as behind nohup, it ignores, but the commands
    that it starts don't, since they are told by it alone."""
    for number in (signal.SIGINT, signal.SIGTERM, signal.SIGHUP):
        is_heeded = signal.getsignal(number) != signal.SIG_IGN
        signal.signal(number, (lambda told, _: sys.exit(128 + told)) if is_heeded else (lambda *_: None))
