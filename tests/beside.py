"""What stands beside a load: what asks all the while in a process of its own, as another operator does, and what reads the server's memory
and open files from /proc."""

import contextlib
import multiprocessing
import os
import statistics
import threading
import time

from wire import SECONDS, Closed, Link, request

# What another operator has to get of a proved server: at least so many answers, within these seconds.
LEAST, MEDIAN, HIGH = 500, 0.010, 0.150
PAUSE = 0.004
MEGABYTE = 1 << 20
# A server that takes more is ended, and has failed.
MOST_MEMORY = 1_500 * MEGABYTE
FORK = multiprocessing.get_context("fork")


class Background:
    """A process of its own, in which a function works until it is over and then puts what it tells: it is given these words, what is set
    once it is over, and where to put."""

    def __init__(self, call, *words):
        self.over, self.told_by = FORK.Event(), FORK.Queue()
        self.process = FORK.Process(target=call, args=(*words, self.over, self.told_by), daemon=True)

    def __enter__(self):
        self.process.start()
        return self

    def __exit__(self, *_):
        self.over.set()
        self.process.join(SECONDS)
        self.process.kill()

    def end(self, seconds=2 * SECONDS):
        """Ends it: what it tells, which may take so long."""
        self.over.set()
        return self.told_by.get(timeout=seconds)


def asks_on(port, token, asked, over, told):
    """Asks until it is over, each tenth time over a new connection; tells the seconds that each answer took, and what was no answer."""
    times, faults, kept = [], [], None
    wanted = request("GET", "/policies", token)
    while not over.is_set():
        link = kept
        begun = time.monotonic()
        try:
            if link is None or len(times) % 10 == 9:
                link = Link(port)
            link.send(wanted)
            answer = link.answer()
            if answer.status != 200:
                faults.append(f"another operator is answered {answer}")
        except (OSError, ValueError, Closed) as fault:
            faults.append(f"another operator isn't answered: {fault!r}")
            link = kept = None
        times.append(time.monotonic() - begun)
        asked.value = len(times)
        if kept is None:
            kept = link
        elif link is not kept and link is not None:
            link.socket.close()
        time.sleep(PAUSE)
    told.put((times, faults))


class Neighbour(Background):
    """Another operator that asks all the while, and tells the seconds of its answers and its faults."""

    def __init__(self, port, token):
        self.asked = FORK.Value("q", 0)
        super().__init__(asks_on, port, token, self.asked)


def memory_of_connections():
    """The bytes that the kernel holds for all connections of the machine, which are no part of a process's memory."""
    with open("/proc/net/sockstat", encoding="ascii") as told:
        found = [line.split()[-1] for line in told if line.startswith("TCP:")]
    return os.sysconf("SC_PAGE_SIZE") * int(found[0]) if found else 0


class Watch(threading.Thread):
    """Reads a server's memory and open files as long as it runs. Ends a server that takes too much memory, or whose load lasts too long."""

    def __init__(self, server, seconds):
        super().__init__(daemon=True)
        self.server, self.pid, self.over = server, server.process.pid, threading.Event()
        self.until, self.seconds, self.why = time.monotonic() + seconds, seconds, None
        self.idle = self.most = self.memory()
        self.idle_files = self.most_files = self.files()
        self.idle_kernel = self.most_kernel = memory_of_connections()

    def __enter__(self):
        self.start()
        return self

    def __exit__(self, *_):
        self.over.set()
        self.join()

    def memory(self):
        """The bytes that the server holds in memory."""
        with open(f"/proc/{self.pid}/status", encoding="ascii") as status:
            found = [line.split()[1] for line in status if line.startswith("VmRSS")]
        return 1024 * int(found[0]) if found else 0

    def files(self):
        """How many files it has open; none, once it has ended: until it is waited for, only root may look there then."""
        with contextlib.suppress(FileNotFoundError, PermissionError, ProcessLookupError):
            return len(os.listdir(f"/proc/{self.pid}/fd"))
        return 0

    def run(self):
        with contextlib.suppress(FileNotFoundError, ProcessLookupError):
            while not self.over.wait(0.05) and not self.why:
                self.most, self.most_files = max(self.most, self.memory()), max(self.most_files, self.files())
                self.most_kernel = max(self.most_kernel, memory_of_connections())
                if self.most > MOST_MEMORY:
                    self.why = f"the server takes more than {MOST_MEMORY // MEGABYTE} MB, and was ended"
                elif time.monotonic() > self.until:
                    self.why = f"it lasts longer than {self.seconds} s, and was ended"
        if self.why:
            self.server.process.kill()

    def above_idle(self):
        """The megabytes that it held at the most, without those that it held before."""
        return (self.most - self.idle) / MEGABYTE


def measured(name, watch, times, seconds):
    """Tells of a load that is over."""
    waited = "none"
    if times:
        waited = (
            f"{len(times)} answers, median {1e3 * statistics.median(times):.2f} ms, 99th percentile {1e3 * high_of(times):.1f} ms, "
            f"longest {1e3 * max(times):.0f} ms"
        )
    kernel = (watch.most_kernel - watch.idle_kernel) / MEGABYTE
    return (
        f"{name}: {seconds:.0f} s, {watch.above_idle():.1f} MB above idle, {watch.most_files} open files, {watch.idle_files} of them before; "
        f"the kernel's for all connections {kernel:.0f} MB more; another operator: {waited}"
    )


def high_of(times):
    """The 99th percentile."""
    return sorted(times)[len(times) * 99 // 100]


def waits_too_long(times, scale):
    """What another operator waited for too long, where so many times as long is borne as of a proved server."""
    median, high = statistics.median(times), high_of(times)
    if median > MEDIAN * scale or high > HIGH * scale:
        yield (
            f"another operator waits for {1e3 * median:.1f} ms, 99th percentile {1e3 * high:.0f} ms; "
            f"{1e3 * MEDIAN * scale:.0f} and {1e3 * HIGH * scale:.0f} are wanted"
        )
