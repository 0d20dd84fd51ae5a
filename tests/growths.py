#!/usr/bin/env python3
"""Refuses growths of memory, one in each run, to the tests whose names speak of being out of memory: none of them may fail.

    growths.py PROGRAM SECONDS [JOBS]

The program is one of tests that tests/unproved.py built. It counts the growths that it asks for, and refuses the Nth by a
comparison with N: in a copy of it another N takes the place of the one that it was built with. How many growths a test asks for is
found by copies that end by a bad instruction in place of a refusal. Each growth of each test is refused once, where the seconds are
enough; else each test gets as much time as another, and those growths are refused that lie farthest from what was refused before. A
test that starts threads may ask for more or fewer in each run. Prints how many of how many growths were refused to each test, and at
which it failed; last 'N passed, M failed', by tests.
"""

import os
import re
import subprocess
import sys
import tempfile
import threading
import time
from concurrent.futures import ThreadPoolExecutor

from unproved import GROWTH

NAMES = re.compile(r"out_of_memory")
LIMIT = 300  # seconds for one run
ILLEGAL = "AddressSanitizer: ILL"  # what a program says that comes to a bad instruction
SHORT, BAD = b"\x75", b"\x0f\x0b"  # of x86-64: a jump over less than 128 bytes where two numbers aren't equal, and a bad instruction


class Tests:
    """The program of tests, of which copies are made."""

    def __init__(self, program, room):
        with open(program, "rb") as code:
            self.code, self.room, self.made = code.read(), room, 0
        self.starting = threading.Lock()
        number = GROWTH.to_bytes(4, "little")
        # One comparison is where memory is asked for, and one where what is held grows.
        self.places = [it.start() for it in re.finditer(re.escape(number), self.code)]
        if len(self.places) != 2 or any(self.code[it + 4 : it + 5] != SHORT for it in self.places):
            sys.exit("growths: the comparisons that refuse a growth aren't found: does rt try build them in another way?")
        listed = subprocess.run([program, "--list"], stdout=subprocess.PIPE, check=True, text=True).stdout
        self.names = [it for it in re.findall(r"^(\S+): test$", listed, re.M) if NAMES.search(it)]

    def copy(self, growth, refusal=None):
        """A copy that refuses this growth, or does something else in place of the refusal."""
        code = bytearray(self.code)
        for place in self.places:
            code[place : place + 4] = growth.to_bytes(4, "little")
            if refusal:
                code[place + 6 : place + 6 + len(refusal)] = refusal
        self.made += 1
        path = os.path.join(self.room, f"{self.made}-{growth}")
        with open(path, "wb", opener=lambda name, flags: os.open(name, flags, 0o700)) as file:
            file.write(code)
        return path

    def run(self, name, growth, refusal=None):
        """Status and last lines of a test that is refused this growth."""
        # A program can't be started while a child of another thread still holds its file open.
        with self.starting:
            path = self.copy(growth, refusal)
            ran = subprocess.Popen([path, name], stdin=subprocess.DEVNULL, stdout=subprocess.PIPE, stderr=subprocess.STDOUT)
        try:
            said, _ = ran.communicate(timeout=LIMIT)
            return ran.returncode, " ".join(said.decode(errors="replace").split())[-300:]
        except subprocess.TimeoutExpired:
            ran.kill()
            ran.communicate()
            return 1, f"not ended after {LIMIT} seconds"
        finally:
            os.remove(path)

    def count(self, name, until):
        """How many growths a test asks for, and at most how many; the same, where there is time to find that."""
        low, high = 0, 1
        while self.asks(name, high):
            low, high = high, 2 * high
        while high - low > 1 and time.monotonic() < until:
            middle = (low + high) // 2
            low, high = (middle, high) if self.asks(name, middle) else (low, middle)
        return low, high - 1

    def asks(self, name, growth):
        """Whether a test asks for so many growths."""
        return ILLEGAL in self.run(name, growth, BAD)[1]


def spread(count):
    """The numbers from 1 to `count`, each as far as may be from those before it: by their bits in reverse."""
    bits = count.bit_length()
    return [it for it in (int(f"{number:0{bits}b}"[::-1], 2) for number in range(1 << bits)) if 0 < it <= count]


class Sweep:
    """One test, how many of its growths were refused, and where it failed."""

    def __init__(self, tests, name, seconds):
        self.name, self.count, self.most, self.refused, self.failed = name, 0, 0, 0, []
        self.steps, self.spent, self.is_free, self.is_over = self.refusals(tests, seconds), 0, True, False

    def refusals(self, tests, seconds):
        """Refuses one growth in each step; so many seconds are for finding how many there are."""
        self.count, self.most = tests.count(self.name, time.monotonic() + seconds)
        for growth in spread(self.count):
            status, said = tests.run(self.name, growth)
            self.refused += 1
            if status:
                self.failed.append((growth, said))
            yield

    def step(self):
        """Refuses the next growth."""
        begun = time.monotonic()
        try:
            next(self.steps)
        except StopIteration:
            self.is_over = True
        finally:
            self.spent += time.monotonic() - begun

    def tell(self):
        whole = self.count if self.count == self.most else f"{self.count} to {self.most}"
        print(f"{self.name}: {self.refused} of {whole} growths were refused, one in each run")
        for growth, said in sorted(self.failed):
            print(f"{self.name}: growth {growth} was refused: {said}")


def work(sweeps, lock, until):
    """Takes the test that had least time so far, again and again; once the time is over only those that had no refusal."""
    while True:
        with lock:
            ready = [it for it in sweeps if it.is_free and not it.is_over and (not it.refused or time.monotonic() < until)]
            if not ready:
                return
            mine = min(ready, key=lambda it: it.spent)
            mine.is_free = False
        try:
            mine.step()
        finally:
            mine.is_free = True


def main(program, seconds, jobs):
    begun, lock = time.monotonic(), threading.Lock()
    with tempfile.TemporaryDirectory() as room:
        tests = Tests(program, room)
        sweeps = [Sweep(tests, it, seconds * jobs / len(tests.names) / 4) for it in tests.names]
        if not sweeps:
            print("no test's name speaks of being out of memory")
        with ThreadPoolExecutor(jobs) as pool:
            for it in [pool.submit(work, sweeps, lock, begun + seconds) for _ in range(jobs)]:
                it.result()
    for it in sweeps:
        it.tell()
    whole, refused = (sum(getattr(it, name) for it in sweeps) for name in ("most", "refused"))
    # Where none asks for any, the growths weren't seen.
    failed = sum(bool(it.failed) or not whole for it in sweeps)
    print(f"{refused} of {whole} growths were refused in {time.monotonic() - begun:.0f} s")
    print(f"{len(sweeps) - failed} passed, {failed} failed")
    return 1 if failed else 0


if __name__ == "__main__":
    if len(sys.argv) not in (3, 4):
        sys.exit("usage: growths.py PROGRAM SECONDS [JOBS]")
    sys.exit(main(os.path.abspath(sys.argv[1]), float(sys.argv[2]), int((sys.argv[3:] or ["1"])[0])))
