"""A city that is kept in a folder, and the program ruffletuff that serves it: what its tests start, read and count by."""

import functools
import json
import os
import re
import shutil
import subprocess
import sys
import tempfile

import packages
from wire import SECONDS, Closed, Link, Server, configuration, first_line, free_port

# As long as a program may take that ends by itself.
END_SECONDS = 3 * SECONDS
# What a program says before it is ready, where everyone is told what is meant for everyone.
TELLS_EVERYONE = b"tells everyone at /mds/2.0\n"
# Each sync of a program waits for as long as a file is there: loaded before the program's own libraries.
HELD_SYNC = b"""
#define _GNU_SOURCE
#include <dlfcn.h>
#include <stdlib.h>
#include <unistd.h>

typedef int sync_of(int);

static int held(const char *name, int file) {
    const char *by = getenv("SYNC_HELD_BY");
    while (by && !access(by, F_OK)) usleep(5000);
    return ((sync_of *)dlsym(RTLD_NEXT, name))(file);
}

int fsync(int file) { return held("fsync", file); }

int fdatasync(int file) { return held("fdatasync", file); }
"""
# Each sync of a program, and each name that it gives to a file, is told in a file, once it is done.
TOLD_SYNC = b"""
#define _GNU_SOURCE
#include <dlfcn.h>
#include <stdio.h>
#include <stdlib.h>
#include <unistd.h>

typedef int sync_of(int);
typedef int rename_of(const char *, const char *);

static void tell(const char *what, const char *path) {
    const char *by = getenv("SYNC_TOLD_IN");
    FILE *told = by ? fopen(by, "a") : 0;
    if (!told) return;
    fprintf(told, "%s %s\\n", what, path);
    fclose(told);
}

static int synced(const char *name, int file) {
    char link[64], path[4096];
    int status = ((sync_of *)dlsym(RTLD_NEXT, name))(file);
    snprintf(link, sizeof link, "/proc/self/fd/%d", file);
    ssize_t length = readlink(link, path, sizeof path - 1);
    path[length < 0 ? 0 : length] = 0;
    if (!status) tell("synced", path);
    return status;
}

int fsync(int file) { return synced("fsync", file); }

int fdatasync(int file) { return synced("fdatasync", file); }

int rename(const char *from, const char *to) {
    int status = ((rename_of *)dlsym(RTLD_NEXT, "rename"))(from, to);
    if (!status) tell("named", to);
    return status;
}
"""
# A name that a program gives to a file waits for as long as another file is there.
HELD_NAME = b"""
#define _GNU_SOURCE
#include <dlfcn.h>
#include <stdlib.h>
#include <string.h>
#include <unistd.h>

typedef int rename_of(const char *, const char *);

int rename(const char *from, const char *to) {
    const char *of = getenv("NAME_HELD"), *by = getenv("NAME_HELD_BY");
    while (of && by && !strcmp(to, of) && !access(by, F_OK)) usleep(5000);
    return ((rename_of *)dlsym(RTLD_NEXT, "rename"))(from, to);
}
"""
# Just before a program locks a city's journal, or opens it only to read it, and has done so a number of times, another journal and its file
# compactions get the names of the city's. They do so once: then there is no other.
EXCHANGED_FILES = b"""
#undef _FORTIFY_SOURCE
#define _GNU_SOURCE
#include <dlfcn.h>
#include <fcntl.h>
#include <stdarg.h>
#include <stdio.h>
#include <stdlib.h>
#include <string.h>
#include <sys/file.h>
#include <sys/types.h>
#include <unistd.h>

typedef int lock_of(int, int);
typedef int open_of(const char *, int, ...);

static void give(const char *name, const char *from, const char *to) {
    char old[4096], new[4096];
    snprintf(old, sizeof old, "%s/%s", from, name);
    snprintf(new, sizeof new, "%s/%s", to, name);
    rename(old, new);
}

static void exchange(const char *call, const char *path) {
    static int passed;
    const char *at = getenv("EXCHANGED_AT"), *from = getenv("EXCHANGED_BY"), *to = getenv("EXCHANGED_IN");
    const char *behind = getenv("EXCHANGED_BEHIND");
    char journal[4096];
    if (!at || !from || !to || !behind || strcmp(at, call)) return;
    snprintf(journal, sizeof journal, "%s/journal", to);
    if (strcmp(path, journal) || passed++ < atoi(behind)) return;
    give("compactions", from, to);
    give("journal", from, to);
}

int flock(int file, int how) {
    char link[64], path[4096];
    snprintf(link, sizeof link, "/proc/self/fd/%d", file);
    ssize_t length = readlink(link, path, sizeof path - 1);
    path[length < 0 ? 0 : length] = 0;
    exchange("lock", path);
    return ((lock_of *)dlsym(RTLD_NEXT, "flock"))(file, how);
}

int open(const char *path, int how, ...) {
    va_list rest;
    va_start(rest, how);
    mode_t mode = how & O_CREAT ? va_arg(rest, mode_t) : 0;
    va_end(rest);
    if ((how & O_ACCMODE) == O_RDONLY) exchange("open", path);
    return ((open_of *)dlsym(RTLD_NEXT, "open"))(path, how, mode);
}
"""


@functools.cache
def is_keeping(program):
    """Whether a program keeps what it serves in a folder: ruffletuff does, and mds_serve doesn't."""
    return ended(program, "--version")[1].startswith(b"ruffletuff ")


def ended(program, *words, **how):
    """Status, standard output and standard error of a run that ends by itself."""
    streams = {"stdin": subprocess.DEVNULL, "stdout": subprocess.PIPE, "stderr": subprocess.PIPE}
    ran = subprocess.run([program, *words], timeout=END_SECONDS, check=False, **streams, **how)
    return ran.returncode, ran.stdout, ran.stderr


class Keeping(Server):
    """The program, serving a folder."""

    def __init__(self, program, folder, file, words=(), is_awaited=True, **how):
        self.program, self.folder = program, folder
        self.port, self.control = free_port(), free_port()
        ports = ["--listen", f"127.0.0.1:{self.port}", "--control", f"127.0.0.1:{self.control}"]
        streams = {"stdin": subprocess.DEVNULL, "stdout": subprocess.PIPE, "stderr": subprocess.PIPE}
        self.process = subprocess.Popen([program, "serve", "--config", file, "--state", folder, *ports, *words], **streams, **how)
        self.ended = None
        self.ready = first_line(self.process.stdout) if is_awaited else None
        self.tells_everyone = self.ready == TELLS_EVERYONE
        if self.tells_everyone:
            self.ready = first_line(self.process.stdout)

    def __enter__(self):
        if self.ready != b"ready\n":
            status, _, said = self.stop()
            raise ValueError(f"it isn't ready: it printed {self.ready!r}, and with status {status} {said[:300]!r}")
        return self

    def end(self, told=True):
        """Its status, and what it printed behind 'ready', once it ended: it is told so at its control port, or was told before."""
        if told:
            status, _, said = ended(self.program, "stop", f"127.0.0.1:{self.control}")
            if status:
                raise ValueError(f"stop ends with {status}: {said[:200]!r}")
        out, err = self.process.communicate(timeout=END_SECONDS)
        self.ended = self.process.returncode, out, err
        return self.ended

    def asked(self, method, path):
        """The status and the text that its control port answers."""
        with Link(self.control) as link:
            link.send(f"{method} {path} HTTP/1.1\r\nhost: 127.0.0.1:{self.control}\r\n\r\n".encode())
            answer = link.answer()
            return answer.status, answer.body


class Alone(Keeping):
    """The program, serving a folder of its own, which goes with it."""

    def __init__(self, program, given=None, arguments=(), limit=2):
        self.room = tempfile.mkdtemp(prefix="kept-")
        file = os.path.join(self.room, "city.json")
        with open(file, "wb") as text:
            text.write(given or configuration(limit))
        super().__init__(program, os.path.join(self.room, "city"), file, arguments)

    def stop(self):
        found = super().stop()
        shutil.rmtree(self.room, ignore_errors=True)
        return found


def serving(program, **how):
    """The program, started: one that keeps what it serves has a folder of its own."""
    return Alone(program, **how) if is_keeping(program) else Server(program, **how)


def slowed(folder, microseconds):
    """The environment of a program each of whose syncs takes so much longer, as on a slower disk. What it takes is built into the folder, by
    a compiler of C."""
    library = os.path.join(folder, "slow_sync.so")
    source = os.path.join(os.path.dirname(os.path.abspath(__file__)), "..", "bench", "slow_sync.c")
    subprocess.run(["cc", "-O2", "-shared", "-fPIC", "-o", library, source, "-ldl"], check=True)
    return os.environ | {"LD_PRELOAD": library, "SYNC_MICROSECONDS": str(microseconds)}


def preloaded(folder, name, source):
    """A library of this source, which is loaded before a program's own. It is built into the folder, by a compiler of C."""
    library = os.path.join(folder, name)
    subprocess.run(["cc", "-O2", "-shared", "-fPIC", "-o", library, "-x", "c", "-", "-ldl"], input=source, check=True)
    return library


def held(folder, file):
    """The environment of a program each of whose syncs waits for as long as a file is there."""
    return os.environ | {"LD_PRELOAD": preloaded(folder, "held_sync.so", HELD_SYNC), "SYNC_HELD_BY": file}


def told_of(folder, file):
    """The environment of a program that tells in a file of each sync, by the path of what is synced, and of each name that it gives."""
    return os.environ | {"LD_PRELOAD": preloaded(folder, "told_sync.so", TOLD_SYNC), "SYNC_TOLD_IN": file}


def held_name(folder, name, file):
    """The environment of a program that gives no file this name for as long as another file is there."""
    library = preloaded(folder, "held_name.so", HELD_NAME)
    return os.environ | {"LD_PRELOAD": library, "NAME_HELD": name, "NAME_HELD_BY": file}


def exchanging(city, by, call, behind=0):
    """The environment of a program before whose `lock` of a city's journal, or `open` only to read it, behind so many of them, the files
    compactions and journal of another folder get the names of the city's, those that are there. It is built into the city's room."""
    library = preloaded(city.room, "exchanged_files.so", EXCHANGED_FILES)
    places = {"EXCHANGED_IN": os.path.realpath(city.folder), "EXCHANGED_BY": by}
    return os.environ | {"LD_PRELOAD": library, "EXCHANGED_AT": call, "EXCHANGED_BEHIND": str(behind)} | places


class City:
    """A folder and a configuration, on which the program is started as often as one likes."""

    def __init__(self, program, room, given):
        self.program, self.room = program, room
        self.folder, self.file = os.path.join(room, "city"), os.path.join(room, "city.json")
        self.journal = os.path.join(self.folder, "journal")
        self.configure(given)

    def configure(self, given):
        """Another configuration from now on: a text, or what it is of."""
        with open(self.file, "wb") as text:
            text.write(given if isinstance(given, bytes) else json.dumps(given).encode())

    def serve(self, *words, **how):
        """The program, started."""
        return Keeping(self.program, self.folder, self.file, words, **how)

    def refused(self, *words, **how):
        """Status, standard output and standard error of a start that doesn't come to serve."""
        places = ["--config", self.file, "--state", self.folder, "--listen", "127.0.0.1:0"]
        return ended(self.program, "serve", *places, *words, **how)

    def check(self):
        return ended(self.program, "check", self.folder)

    def audit(self, *words):
        """The script of the journal: its first line, which is the configuration, and the others."""
        status, out, err = ended(self.program, "audit", self.folder, "--config", self.file, *words)
        if status or err:
            raise ValueError(f"audit ends with {status}: {err[:200]!r}")
        first, *lines = out.decode().splitlines()
        return first, lines

    def bytes(self):
        with open(self.journal, "rb") as journal:
            return journal.read()


def replayed(replay, first, lines):
    """What mds_replay answers to each line behind a configuration."""
    script = "".join(f"{line}\n" for line in [first, *lines])
    answers = subprocess.run([replay], input=script.encode(), stdout=subprocess.PIPE, check=True, timeout=6 * END_SECONDS).stdout
    return answers.decode().splitlines()


def line_of(token, method, target, body=""):
    """A request as a script has it, without its moment."""
    return f"{token} {method} {target} {body}".rstrip(" ")


def split(line):
    """The moment of a line of a script, and the request."""
    moment, _, asked = line.partition(" ")
    return int(moment), asked


def told_moment(body):
    """The moment that a reply tells as that of its request, if it does."""
    found = re.search(r'"(?:at|published_date)":(\d+)', body)
    return int(found[1]) if found else None


class Tried:
    """What was tried, what of it failed, and what was left out."""

    def __init__(self):
        self.passed = self.failed = self.skipped = 0

    def add(self, passed, failed, skipped):
        """Counts what passed, failed and was skipped elsewhere."""
        self.passed, self.failed, self.skipped = self.passed + passed, self.failed + failed, self.skipped + skipped

    def one(self, name, found):
        """Counts a test by its faults, or why they can't be told; one that can't be done here is left out."""
        faults, is_done = [], True
        try:
            faults.extend(found)
        except packages.LeftOut as why:
            is_done = False
            self.add(*packages.leave_out_since(name.replace("_", " "), why))
        except (OSError, ValueError, Closed, subprocess.SubprocessError) as fault:
            faults.append(repr(fault))
        for fault in faults:
            print(f"{name}: {fault}", flush=True)
        self.passed += is_done and not faults
        self.failed += bool(faults)

    def told(self):
        """Says how many passed, and gives the status to end with."""
        print(packages.count(self.passed, self.failed, self.skipped))
        return 1 if self.failed else 0


def tried(text, calls):
    """Tries these on the program that the only argument names, and tells how they went; without one it tells this text. Gives the status."""
    if len(sys.argv) != 2:
        sys.exit(text)
    program = os.path.abspath(sys.argv[1])
    found = Tried()
    for call in calls:
        found.one(call.__name__.replace("_", " "), call(program))
    return found.told()
