"""Times mds_serve over loopback by wrk, and in the same run another build of it and nginx that gives static files of the same sizes.

The build of `--program` is 'after', that of `--before`, where one is given, 'before'; nginx comes beside them where it is installed. Each
measure is taken by turns, of each of them in each round; the median of the rounds is printed with the least and the greatest, and of
'after' against 'before' the ratio of each round. Processor time is that of the program, user and system, read from /proc. Then come the
reads of operators while the author publishes 20 times a second, the memory of idle connections and of lists that nobody takes, and a
question over the largest fleet on one processor and on four, by the clock.
"""

import argparse
import contextlib
import os
import re
import shutil
import statistics
import subprocess
import sys
import tempfile
import threading
import time

import generate

HERE = os.path.dirname(os.path.abspath(__file__))
sys.path.append(os.path.join(HERE, "..", "tests"))

from measure import RULES as MOST_RULES, city  # noqa: E402
from wire import Link, Server, free_port, request  # noqa: E402

PROGRAM = os.path.join(HERE, "..", "crates", "mds_serve", "out", "mds_serve")
CONNECTIONS = (32, 256)
THREADS = 2
ROUNDS, SECONDS = 3, 5
SMALL, LARGE = 1_024, 102_400
FLEET, RULES = 2_000, 8
PUBLICATIONS, PUBLISHING_SECONDS, PUBLISHING_CONNECTIONS = 20, 10, 32
IDLE = 1_000
UNTAKEN, DESCRIPTION, LARGE_PLACES = 200, 900_000, 5
PROCESSORS, QUESTIONS, EDGES, AT_ONCE = 4, 20, 1_000, 200
OPERATOR, OTHER = generate.token(0), generate.token(1)
BEFORE, AFTER, NGINX_NAME = "before", "after", "nginx"
TICKS = os.sysconf("SC_CLK_TCK")

NGINX = """
daemon off;
{user}
worker_processes auto;
pid {folder}/pid;
error_log {folder}/error.log;
events {{ worker_connections 4096; }}
http {{
    access_log off;
    sendfile on;
    tcp_nopush on;
    keepalive_requests 1000000000;
    open_file_cache max=100;
    default_type application/json;
    client_body_temp_path {folder}/temporary;
    proxy_temp_path {folder}/temporary;
    fastcgi_temp_path {folder}/temporary;
    uwsgi_temp_path {folder}/temporary;
    scgi_temp_path {folder}/temporary;
    server {{ listen 127.0.0.1:{port} backlog=4096; root {folder}/files; }}
}}
"""

REPORTS = """
local threads, turn = 0, 0
local first = %d + 10000000 * tonumber(os.getenv("LOAD"))
function setup(thread)
    thread:set("number", threads)
    threads = threads + 1
end
function request()
    turn = turn + 1
    local body = string.format(
        '{"device_id":"00000000-0000-4000-8000-0004%%08x","vehicle_type":"scooter","propulsion_types":["electric"],'
        .. '"vehicle_state":"available","event_types":["trip_end"],"timestamp":%%d,"location":{"lat":39.8,"lng":-86.1}}',
        number * 20000 + turn %% 20000, first + turn)
    return wrk.format("POST", "/fleet/events", nil, body)
end
"""


# Each request is by the next operator.
IN_TURN = """
local requests, turn = {}, 0
function init()
    for token in string.gmatch("%s", "%%S+") do
        table.insert(requests, wrk.format("GET", nil, { ["authorization"] = "Bearer " .. token }))
    end
end
function request()
    turn = turn %% #requests + 1
    return requests[turn]
end
"""


class Static:
    """nginx with files."""

    def __init__(self, folder):
        self.folder, self.port = folder, free_port()
        for name in ("files", "temporary"):
            os.mkdir(os.path.join(folder, name))
        path = os.path.join(folder, "nginx.conf")
        with open(path, "w", encoding="ascii") as text:
            # Where it would give up being root it couldn't read the folder.
            user = "user root;" if os.geteuid() == 0 else ""
            text.write(NGINX.format(folder=folder, port=self.port, user=user))
        self.process = subprocess.Popen(["nginx", "-c", path, "-e", os.path.join(folder, "error.log")])
        for _ in range(100):
            with contextlib.suppress(OSError):
                Link(self.port).socket.close()
                return
            time.sleep(0.1)
        sys.exit("nginx doesn't listen")

    def give(self, content):
        """The target of a file that has this content."""
        name = f"{len(os.listdir(os.path.join(self.folder, 'files')))}.json"
        with open(os.path.join(self.folder, "files", name), "wb") as out:
            out.write(content)
        return f"/{name}"

    def stop(self):
        self.process.terminate()
        self.process.wait()


def processor_seconds(pid):
    """The processor time of a process and of its children, user and system."""
    seconds = 0
    with contextlib.suppress(FileNotFoundError, ProcessLookupError):
        with open(f"/proc/{pid}/stat", encoding="ascii") as text:
            fields = text.read().rpartition(")")[2].split()
        seconds = (int(fields[11]) + int(fields[12])) / TICKS
        with open(f"/proc/{pid}/task/{pid}/children", encoding="ascii") as text:
            seconds += sum(processor_seconds(int(child)) for child in text.read().split())
    return seconds


def resident(pid):
    """The resident memory of a process, in bytes."""
    with open(f"/proc/{pid}/status", encoding="ascii") as text:
        return int(re.search(r"VmRSS:\s+(\d+) kB", text.read())[1]) * 1024


class Load:
    """What wrk measured of one target: requests a second, the median and the 99th percentile in seconds, processor time of a request."""

    UNITS = {"us": 1e-6, "ms": 1e-3, "s": 1, "m": 60}
    taken = 0

    def __init__(self, pid, port, target, connections, seconds, token=OPERATOR, script=None):
        command = ["wrk", "--latency", f"-t{THREADS}", f"-c{connections}", f"-d{seconds}s", "-H", f"authorization: Bearer {token}"]
        command += ["-s", script] if script else []
        before = processor_seconds(pid)
        Load.taken += 1  # a script's reports come after those of the loads before
        environment = os.environ | {"LOAD": str(Load.taken)}
        ran = subprocess.run(command + [f"http://127.0.0.1:{port}{target}"], capture_output=True, text=True, check=True, env=environment)
        used = processor_seconds(pid) - before
        if "Non-2xx" in ran.stdout or "Socket errors" in ran.stdout:
            sys.exit(f"{target}: not every answer is a success\n{ran.stdout}")
        self.rate = float(re.search(r"Requests/sec:\s+([\d.]+)", ran.stdout)[1])
        self.median, self.worst = (self.percentile(ran.stdout, it) for it in ("50", "99"))
        self.processor = used / max(1, int(re.search(r"(\d+) requests in", ran.stdout)[1]))

    def percentile(self, text, number):
        value, unit = re.search(rf"\s{number}%\s+([\d.]+)(us|ms|s|m)", text).groups()
        return float(value) * self.UNITS[unit]


def send(link, line):
    """Sends one line of generated input, which succeeds."""
    _, token, method, target, body = (line.split(" ", 4) + [""])[:5]
    link.send(request(method, target, token, body.encode()))
    answer = link.answer()
    if answer.status != 200:
        sys.exit(f"{line[:160]} is answered {answer}")
    return answer.body


def serve(stack, program, lines):
    """The server, with these lines answered."""
    server = stack.enter_context(Server(program, (generate.config() + "\n").encode()))
    with server.link() as link:
        for line in lines:
            send(link, line)
    return server


def districts(random):
    """Eight districts, published."""
    rings = generate.districts(random, RULES, 200, 0.2)
    lines = [generate.put_geography(n, generate.geography(n, ring)) for n, ring in enumerate(rings)]
    return lines + [generate.publish(range(RULES))]


def policies(random, size):
    """Published policies whose list has just this many bytes."""
    lines, taken, number = [], len('{"policies":[],"revision":1}'), 0
    while taken < size:
        name, rules = "cap", 3 if size == SMALL else 6
        text = generate.policy(random, number, rules, range(RULES), name=name)
        served = len(text) + len(',"published_date":1700000000000') + (1 if number else 0)
        if size - taken - served < 3_000:
            # The last one, filled up by its name.
            text = generate.policy(random, number, 1, range(RULES), name="")
            served = len(text) + len(',"published_date":1700000000000') + (1 if number else 0)
            text = text.replace('"name":""', '"name":"%s"' % ("x" * (size - taken - served)), 1)
            served = size - taken
        lines.append(generate.put_policy(number, text))
        taken, number = taken + served, number + 1
    return lines + [generate.publish([], range(number))]


class Bound:
    """What a measure must be: requests against nginx at the least, and what they should be; processor time against before at the most."""

    def __init__(self, requests=("", ""), processor=""):
        self.requests, self.processor = requests, processor


class Measure:
    """One target of each build of mds_serve, and the file of nginx that has its size."""

    def __init__(self, label, servers, target, static, bound, script=None, token=OPERATOR, reply=None, other_script=None):
        self.label, self.servers, self.target, self.bound = label, servers, target, bound
        self.static, self.script, self.token, self.other_script = static, script, token, other_script
        replies = [reply or asked_of(it, target) for it in servers.values()]
        self.size = len(replies[-1])
        if any(len(it) != self.size for it in replies):
            sys.exit(f"{label}: the builds give replies of other lengths")
        if static:
            self.file = static.give(replies[-1])
        self.loads = {}

    def take(self, connections, seconds, turn):
        """One round: each build, the other one first in each second round, and nginx last."""
        found, names = {}, list(self.servers)
        for name in names if turn % 2 == 0 else names[::-1]:
            server = self.servers[name]
            found[name] = Load(server.process.pid, server.port, self.target, connections, seconds, self.token, self.script)
        if self.static:
            port = self.static.port
            found[NGINX_NAME] = Load(self.static.process.pid, port, self.file, connections, seconds, script=self.other_script)
        self.loads.setdefault(connections, []).append(found)
        told = ", ".join(f"{name} {it.rate:.0f}" for name, it in found.items())
        print(f"{self.label}, {connections}: {told} requests a second", file=sys.stderr)

    def rows(self):
        """For each number of connections the label, and what was measured of each by rounds."""
        for connections, rounds in self.loads.items():
            yield [f"{self.label}, {self.size} bytes", str(connections)], {name: [it[name] for it in rounds] for name in rounds[0]}

    def tell(self):
        """A row for each number of connections."""
        for cells, found in self.rows():
            for loads in (found[it] for it in [*self.servers, NGINX_NAME] if it in found):
                cells.append(spread([it.rate for it in loads], 1, ""))
                cells.append(f"{middle(loads, 'median', 1e3)} ms, {middle(loads, 'worst', 1e3)} ms")
                cells.append(f"{middle(loads, 'processor', 1e6)} us")
            if self.static:
                cells += [spread(ratios(found[AFTER], found[NGINX_NAME], "rate"), 1, ""), *self.bound.requests]
            line(cells)

    def compare(self):
        """A row for each number of connections: after against before."""
        for cells, found in self.rows():
            after, before = found[AFTER], found[BEFORE]
            requests, processor, worst = (spread(ratios(after, before, it), 1, "") for it in ("rate", "processor", "worst"))
            line([*cells, requests, processor, self.bound.processor, worst])


def asked_of(server, target):
    """The reply to a question of this target."""
    with server.link() as link:
        return send(link, generate.get(target))


def ratios(loads, others, name):
    """The ratio of what was measured of both, by rounds; none of what took no time that is told."""
    pairs = [(getattr(one, name), getattr(other, name)) for one, other in zip(loads, others)]
    return [one / other for one, other in pairs if other] or [float("nan")]


def line(cells):
    print("| %s |" % " | ".join(cells))


def middle(loads, name, scale):
    return figure(statistics.median(getattr(it, name) for it in loads) * scale)


def figure(value):
    """Three digits that count."""
    return "%.0f" % value if abs(value) >= 100 else "%.3g" % value


def spread(values, scale, unit):
    return "%s%s (%s to %s)" % (figure(statistics.median(values) * scale), unit, figure(min(values) * scale), figure(max(values) * scale))


class Author(threading.Thread):
    """Publishes a geography, so many times a second, until it is told to stop."""

    def __init__(self, server, random):
        super().__init__()
        self.server, self.over, self.published = server, threading.Event(), 0
        self.rings = generate.districts(random, 500, 20, 0.1)

    def run(self):
        begun = time.monotonic()
        with self.server.link() as link:
            for number, ring in enumerate(self.rings, 100):
                if self.over.wait(max(0, begun + self.published / PUBLICATIONS - time.monotonic())):
                    return
                send(link, generate.put_geography(number, generate.geography(number, ring)))
                send(link, generate.publish([number]))
                self.published += 1


def while_publishing(name, program, lines, rounds, seconds):
    """The 99th percentile of operators' reads, idle and while the author publishes, in turns."""
    pairs, published = [], 0
    for _ in range(rounds):
        with contextlib.ExitStack() as stack:
            random = generate.Xorshift(generate.SEED)
            server = serve(stack, program, lines)
            idle = Load(server.process.pid, server.port, "/policies", PUBLISHING_CONNECTIONS, seconds)
            author = Author(server, random)
            author.start()
            busy = Load(server.process.pid, server.port, "/policies", PUBLISHING_CONNECTIONS, seconds)
            author.over.set()
            author.join()
        pairs.append((idle, busy))
        published += author.published
    print(f"\n| Measure, {name} | idle | while publishing | ratio | must | aim |\n|---|---|---|---|---|---|")
    cells = [f"99th percentile of GET of a policy list, {PUBLISHING_CONNECTIONS} connections, {published / rounds / seconds:.1f} publications a second"]
    cells += [spread([it.worst for it in loads], 1e3, " ms") for loads in zip(*pairs)]
    cells.append(spread([busy.worst / idle.worst for idle, busy in pairs], 1, ""))
    print("| %s | 2 | 1.2 |" % " | ".join(cells))
    cells = ["requests a second meanwhile"] + [spread([it.rate for it in loads], 1, "") for loads in zip(*pairs)]
    print("| %s | %s | | |" % (" | ".join(cells), spread([busy.rate / idle.rate for idle, busy in pairs], 1, "")))


def idle_connections(name, program, lines):
    """The memory of connections that asked once and are silent now."""
    with contextlib.ExitStack() as stack:
        server = serve(stack, program, lines)
        before = resident(server.process.pid)
        for _ in range(IDLE):
            send(stack.enter_context(server.link()), generate.get("/policies"))
        more = resident(server.process.pid) - before
    line([f"memory of the server with a policy list of {SMALL} bytes, {name}", f"{before / 1e6:.1f} MB"])
    line([f"memory of {IDLE} idle connections, {name}", f"{more / 1e6:.1f} MB, {more / IDLE / 1024:.1f} KiB each"])


def untaken_lists(name, program):
    """The memory of connections that ask for a long list and never read."""
    rings = generate.districts(generate.Xorshift(generate.SEED), LARGE_PLACES, 4, 0.2)
    described = '{"description":"%s",' % ("d" * DESCRIPTION)
    texts = [generate.geography(number, ring).replace("{", described, 1) for number, ring in enumerate(rings)]
    lines = [generate.put_geography(number, text) for number, text in enumerate(texts)]
    with contextlib.ExitStack() as stack:
        server = serve(stack, program, [*lines, generate.publish(range(LARGE_PLACES))])
        size, before = len(asked_of(server, "/geographies")), resident(server.process.pid)
        for _ in range(UNTAKEN):
            stack.enter_context(server.link(receive=4096)).send(request("GET", "/geographies", OPERATOR))
        time.sleep(5)
        more = resident(server.process.pid) - before
    line([f"memory of {UNTAKEN} connections that ask for a list of {size / 1e6:.1f} MB and never read, {name}", f"{more / 1e6:.1f} MB"])


@contextlib.contextmanager
def kept_to(processors):
    """What is started meanwhile runs on these processors alone."""
    all_ = os.sched_getaffinity(0)
    os.sched_setaffinity(0, processors)
    try:
        yield
    finally:
        os.sched_setaffinity(0, all_)


def send_many(link, lines):
    """Sends lines of generated input, which succeed, many before the first is answered."""
    for place in range(0, len(lines), AT_ONCE):
        parts = [(line.split(" ", 4) + [""])[1:5] for line in lines[place : place + AT_ONCE]]
        link.send(b"".join(request(method, target, token, body.encode()) for token, method, target, body in parts))
        if any(link.answer(method).status != 200 for _, method, _, _ in parts):
            sys.exit("not every report is taken")


def asked_first(server, policies):
    """The seconds of the answers to questions about policies, each asked once and published just before, and those answers."""
    seconds, answers = [], []
    with server.link() as link:
        for number, policy in policies:
            send(link, generate.put_policy(number, policy))
            send(link, generate.publish([], [number]))
            begun = time.perf_counter()
            answer = send(link, generate.get("/compliance/" + generate.policy_id(number)))
            seconds.append(time.perf_counter() - begun)
            answers.append(re.sub(rb'"at":\d+', b"", answer))
    return seconds, answers


def several_processors(name, program, rounds):
    """The first question about a policy, over the largest fleet, judged on one processor and on several."""
    processors = sorted(os.sched_getaffinity(0))
    if len(processors) < PROCESSORS:
        print(f"fewer than {PROCESSORS} processors: judging by several threads wasn't timed")
        return
    random = generate.Xorshift(generate.SEED)
    lines, fleet = city(random, 100, EDGES), generate.fleet(random, generate.MOST_VEHICLES)
    numbers, times = range(100, 100 + MOST_RULES), {}
    with contextlib.ExitStack() as stack:
        servers = {}
        for count in (1, PROCESSORS):
            with kept_to(processors[:count]):
                servers[count] = serve(stack, program, lines)
            with servers[count].link() as link:
                send_many(link, fleet)
        for turn in range(rounds):
            first = 1000 + turn * QUESTIONS
            asked = [(n, generate.policy(random, n, MOST_RULES, numbers)) for n in range(first, first + QUESTIONS)]
            told = []
            for count, server in servers.items():
                seconds, answers = asked_first(server, asked)
                times.setdefault(count, []).append(statistics.median(seconds))
                told.append(answers)
            if told[0] != told[1]:
                sys.exit("the answers on one processor and on several differ")
    what = f"the first question about a policy, {len(fleet)} vehicles, {MOST_RULES} rules, {EDGES} edges each, {name}"
    label = f"{what}, on {PROCESSORS} processors against one (speed-up)"
    speed = spread([one / several for one, several in zip(times[1], times[PROCESSORS])], 1, "")
    print("\n| Measure | one | several | speed-up | must | aim |\n|---|---|---|---|---|---|")
    print("| %s | %s | %s | %s | 2.5 | 3.5 |" % (label, *(spread(times[count], 1e3, " ms") for count in (1, PROCESSORS)), speed))


def measures(stack, programs, folder, static):
    """All that is compared."""
    random = generate.Xorshift(generate.SEED)
    places = districts(random)
    fleet = [generate.put_policy(0, generate.policy(random, 0, RULES, range(RULES))), generate.publish([], [0])]
    contents = {
        "small": places + policies(random, SMALL),
        "large": places + policies(random, LARGE),
        "judged": places + fleet + generate.fleet(random, FLEET),
    }
    small, large, judged = ({name: serve(stack, it, lines) for name, it in programs.items()} for lines in contents.values())
    reports, in_turn = os.path.join(folder, "reports.lua"), os.path.join(folder, "in_turn.lua")
    with open(reports, "w", encoding="ascii") as text:
        text.write(REPORTS % generate.START)
    with open(in_turn, "w", encoding="ascii") as text:
        text.write(IN_TURN % " ".join(generate.token(it) for it in range(generate.OPERATORS)))
    one, turns = "GET of a policy list by one operator", f"GET of a policy list by {generate.OPERATORS} operators in turn"
    short, long = Bound(("0.5", "0.8")), Bound(("0.5", "0.8"), processor="0.75")
    return [
        Measure(one, small, "/policies", static, short),
        Measure(one, large, "/policies", static, long),
        Measure(turns, small, "/policies", static, short, in_turn, other_script=in_turn),
        Measure(turns, large, "/policies", static, long, in_turn, other_script=in_turn),
        Measure("POST of a report", small, "/fleet/events", static, Bound(), reports, OTHER, b'{"result":"changed"}'),
        Measure(f"GET of compliance, {FLEET} vehicles, {RULES} rules", judged, "/compliance", static, Bound()),
    ]


def tell(all_, names, is_static):
    """The tables of what was measured by wrk."""
    columns = "requests a second | median, 99th percentile | processor time of a request"
    heads = [f"{name}: {columns}" for name in (*names, *([NGINX_NAME] if is_static else []))]
    against = ["requests, against nginx", "must", "aim"] if is_static else []
    print()
    line(["Measure", "connections", *heads, *against])
    print("|" + "---|" * (2 + 3 * len(heads) + len(against)))
    for measure in all_:
        measure.tell()
    if BEFORE in names:
        print("\n| After against before | connections | requests | processor time of a request | must | 99th percentile |")
        print("|" + "---|" * 6)
        for measure in all_:
            measure.compare()


def main():
    parser = argparse.ArgumentParser(description=__doc__, formatter_class=argparse.RawDescriptionHelpFormatter)
    parser.add_argument("--program", default=PROGRAM, help="the built mds_serve")
    parser.add_argument("--before", help="another build of mds_serve, which the first is compared with")
    parser.add_argument("--rounds", type=int, default=ROUNDS)
    parser.add_argument("--seconds", type=int, default=SECONDS, help="how long each measure takes")
    parser.add_argument("--requests-alone", action="store_true", help="leave out what comes behind the tables of requests")
    options = parser.parse_args()
    programs = {BEFORE: options.before, AFTER: options.program}
    programs = {name: os.path.abspath(it) for name, it in programs.items() if it}
    if not shutil.which("wrk"):
        sys.exit("the benchmark needs wrk")
    with tempfile.TemporaryDirectory() as folder, contextlib.ExitStack() as stack:
        static = Static(folder) if shutil.which("nginx") else None
        if static:
            stack.callback(static.stop)
        else:
            print("nginx isn't installed: nothing is compared with it")
        all_ = measures(stack, programs, folder, static)
        for number in range(options.rounds):
            for measure in all_:
                for connections in CONNECTIONS:
                    measure.take(connections, options.seconds, number)
            print("load of the machine after round %d: %.2f" % (number + 1, os.getloadavg()[0]))
        tell(all_, list(programs), static is not None)
    if not options.requests_alone:
        behind(programs, options.rounds)


def behind(programs, rounds):
    """What isn't measured by requests of one kind."""
    lines = districts(generate.Xorshift(generate.SEED)) + policies(generate.Xorshift(generate.SEED), SMALL)
    for name, program in programs.items():
        while_publishing(name, program, lines, rounds, PUBLISHING_SECONDS)
    print("\n| Measure | |\n|---|---|")
    for name, program in programs.items():
        idle_connections(name, program, lines)
        untaken_lists(name, program)
    for name, program in programs.items():
        several_processors(name, program, rounds)


if __name__ == "__main__":
    main()
