"""What many connections, slow ones and large bodies do to a running server, and to another operator beside them.

While a load lasts, another operator asks in a process of its own, at least 500 times, within a median of 10 ms and a 99th percentile of
150 ms; the server's memory and open files are read from /proc. A load lasts at most 40 seconds. All loads are tried one after another on
a server that has the machine for itself. The short ones, which don't wait for deadlines and are lighter, are over in some seconds each
and are tried side by side: what another operator waits for is then told and not judged. Before a proof what another operator may wait is
as many times as long as the environment's SLOWNESS, or PATIENCE alone, says, and a load may last longer.
"""

import collections
import concurrent.futures
import contextlib
import multiprocessing
import queue
import select
import socket
import sys
import threading
import time

import clients
from beside import LEAST, Neighbour, Watch, measured, waits_too_long
from kept import serving
from messages import BODY_LIMIT, NO_POLICY, code
from wire import AUTHOR, SECONDS, SLOWNESS, Closed, identifier, may_open, report, request

# How long a load lasts at most, a short one and another; and how much earlier it waits for nothing more, so that what it found is told.
SHORT_SECONDS, MOST_SECONDS = (40, 40) if SLOWNESS == 1 else (60, 120)
TO_TELL = 4
# How many of the short ones are tried at once: they wait more than they work.
SIDE_BY_SIDE = 3

# The server's limits: connections of all, of those without an access token, of one operator.
SEATS, MOST_ANONYMOUS, ASKER_SEATS = 4_096, 2_048, 512
# Bytes of the bodies that come or wait, of one who asks and of all.
WAITING_BODIES, ALL_BODIES = 64 << 20, 256 << 20
IDLE_TAKING = 30
# How long it may take until uploads are told busy: less than a body may take.
TELLING_SECONDS = 20
# Connections beside those of a load: the other operator's, and those that knock.
OTHERS = 16
# A program that isn't proved keeps what it gives back for a while, to see whether it is used then.
KEPT_BACK = 0 if SLOWNESS == 1 else 128

OPERATORS = 12
FLEET, LARGE_FLEET = 200 // SLOWNESS, 2_000 // SLOWNESS
NEIGHBOUR = OPERATORS - 1
BUSY = code(503, "busy")


def token(operator):
    return f"o{operator:02}"


def city():
    """A configuration of all operators. The first may have a larger fleet."""
    limits = [LARGE_FLEET] + [FLEET] * (OPERATORS - 1)
    entries = ",".join(f'{{"id":"{identifier(9, n)}","limit":{limit},"token":"{token(n)}"}}' for n, limit in enumerate(limits))
    return f'{{"author":"{AUTHOR}","operators":[{entries}],"zone":"Z"}}\n'.encode()


class Load:
    """A server, what watches it, and the other operator beside the load."""

    def __init__(self, server, watch, neighbour, stack, is_short):
        self.server, self.watch, self.neighbour, self.stack, self.is_short = server, watch, neighbour, stack, is_short
        self.begun, self.first, self.waits = time.monotonic(), neighbour.asked.value, watch.seconds - TO_TELL

    def link(self, **options):
        """A connection that is kept until the load is over."""
        return self.stack.enter_context(self.server.link(**options))

    def lasts_for(self):
        return time.monotonic() - self.begun

    def left(self):
        """The seconds that the load may still wait for something."""
        return self.waits - self.lasts_for()

    def asked(self):
        """How often the other operator asked meanwhile."""
        return self.neighbour.asked.value - self.first

    def wanted(self):
        """How often it has to ask."""
        return LEAST // SLOWNESS if self.is_short else LEAST

    def lasts(self, enough=lambda: True):
        """Lets the load last until the other has asked often enough, and until what else is wanted holds; whether that came."""
        while self.left() > 0 and self.server.process.poll() is None:
            if self.asked() >= self.wanted() and enough():
                return True
            time.sleep(0.05)
        return enough()

    def others(self):
        """The connections that the server holds beside those that it held before the load."""
        return self.watch.files() - self.watch.idle_files


def tell(found):
    """Faults, and last what ended their search."""
    try:
        yield from found
    except (OSError, ValueError, Closed, queue.Empty) as fault:
        yield repr(fault)


def asked_afterwards(server):
    """A question is answered once the load is over."""
    answer = server.ask("GET", "/compliance", token(0))
    if answer.status != 200:
        yield f"afterwards a question is answered {answer}"


def gives_back(load):
    """Once the connections of a load are closed, the server has none of them."""
    until = time.monotonic() + SECONDS
    while load.others() > 2 and time.monotonic() < until:
        time.sleep(0.05)
    if load.others() > 2:
        yield f"the server holds {load.others()} connections of a load that is over"


def within_bounds(kind, watch):
    """Memory and open files were within what this kind of load may take."""
    if watch.above_idle() > kind.megabytes + KEPT_BACK:
        yield f"it takes {watch.above_idle():.1f} MB more than idle, and {kind.megabytes + KEPT_BACK} are wanted at most"
    if watch.most_files - watch.idle_files > kind.connections + OTHERS:
        yield f"it has {watch.most_files - watch.idle_files} open files more than idle, and {kind.connections + OTHERS} are wanted at most"


def under_load(program, name, kind, is_short):
    """The faults of one load, on a server of its own."""
    with contextlib.ExitStack() as stack:
        server = stack.enter_context(serving(program, given=city()))
        if kind.prepare:
            yield from tell(kind.prepare(server, is_short))
        server.ask("GET", "/policies", token(NEIGHBOUR))
        neighbour = stack.enter_context(Neighbour(server.port, token(NEIGHBOUR)))
        while not neighbour.asked.value:
            time.sleep(0.01)
        watch = stack.enter_context(Watch(server, SHORT_SECONDS if is_short else MOST_SECONDS))
        with contextlib.ExitStack() as links:
            load = Load(server, watch, neighbour, links, is_short)
            yield from tell(kind.case(load))
        yield from gives_back(load)
        asked, lasted, (times, faults) = load.asked(), load.lasts_for(), neighbour.end()
        print(measured(name, watch, times, lasted), flush=True)
        yield from faults[:2]
        if asked < load.wanted():
            yield f"another operator is answered {asked} times meanwhile, and not {load.wanted()}"
        if times and not is_short:
            yield from waits_too_long(times, SLOWNESS)
        yield from within_bounds(kind, watch)
        yield from tell(asked_afterwards(server))
        status, out, err = server.stop()
        if watch.why:
            yield watch.why
        elif (status, out, err) != (None, b"", b""):
            yield f"the server ended: {status}, output {out[:200]!r}, standard error {err[:200]!r}"


# --- Replies that nobody takes -------------------------------------------------------------------------------------

LIST, LIST_LENGTH = "/geographies", 4_000_000


def a_large_list(server, _):
    """Publishes geographies with long descriptions, whose list is over 4 MB, and has it asked for once by each operator that will ask."""
    names, long = [identifier(1, number) for number in range(5)], "d" * 900_000
    geometry = '{"type":"Polygon","coordinates":[[[0,0],[9,0],[9,9],[0,0]]]}'
    for name in names:
        document = f'{{"geography_id":"{name}","name":"large","description":"{long}","geography_json":{geometry}}}'
        answer = server.ask("PUT", f"/drafts/geographies/{name}", AUTHOR, document.encode())
        if answer.status != 200:
            yield f"a large geography is answered {answer}"
    listed = ",".join(f'"{it}"' for it in names)
    answer = server.ask("POST", "/publish", AUTHOR, f'{{"geographies":[{listed}]}}'.encode())
    if answer.status != 200:
        yield f"large geographies are answered {answer}"
    for operator in range(4):
        if len(server.ask("GET", LIST, token(operator)).body) < LIST_LENGTH:
            yield "the list isn't as long as it should be"


def readers(load, count):
    """Connections that ask for the list, at most 500 of an operator."""
    found = []
    for number in range(count):
        link = load.link(receive=4096)
        link.send(request("GET", LIST, token(number // 500)))
        found.append(link)
    return found


def begins(links, wanted):
    """The answer of each connection begins so; nothing of it is taken."""
    for number, link in enumerate(links):
        if (found := link.socket.recv(len(wanted), socket.MSG_PEEK | socket.MSG_WAITALL)) != wanted:
            yield f"reader {number} is answered {found!r}"
            return


def end_in_time(load):
    """The server closes what takes too little, once its time is over and not before."""
    load.lasts(lambda: load.others() <= 0)
    if load.others() > 0:
        yield f"after {load.lasts_for():.0f} s the server still holds {load.others()} connections"
    elif load.lasts_for() < IDLE_TAKING - 2:
        yield f"connections are closed after {load.lasts_for():.0f} s, before {IDLE_TAKING} s"


def never_read(count):
    def case(load):
        yield from begins(readers(load, count), b"HTTP/1.1 200 ")
        load.lasts()
        if load.others() < count and load.lasts_for() < IDLE_TAKING - 2:
            yield f"the server holds {load.others()} of {count} readers"
        if not load.is_short:
            yield from end_in_time(load)

    return case


def a_byte_a_second(load):
    """100 readers take a byte a second, for as long as the load lasts."""
    found, over = readers(load, 100), threading.Event()

    def takes():
        while not over.wait(1):
            for link in found:
                with contextlib.suppress(OSError):
                    link.socket.recv(1, socket.MSG_DONTWAIT)

    taking = threading.Thread(target=takes, daemon=True)
    taking.start()
    try:
        load.lasts(lambda: load.lasts_for() > 3)
        if load.others() < len(found) and load.lasts_for() < IDLE_TAKING - 2:
            yield f"the server holds {load.others()} of {len(found)} readers"
        if not load.is_short:
            yield from end_in_time(load)
    finally:
        over.set()
        taking.join()


# --- Connections ---------------------------------------------------------------------------------------------------


def knocks(load, operators):
    """Each of these operators and the author asks over a new connection, and is answered."""
    for name in [token(it) for it in operators] + [AUTHOR]:
        try:
            answer = load.server.ask("GET", "/policies", name)
        except (OSError, ValueError, Closed) as fault:
            yield f"{name} knocks, and isn't answered: {fault!r}"
            continue
        if not answer.is_by_the_server(*NO_POLICY):
            yield f"{name} knocks, and is answered {answer}"


def idle_anonymous(load):
    """As many connections as there are seats, or more than anonymous clients may hold, none of which says anything."""
    for _ in range(MOST_ANONYMOUS + 100 if load.is_short else SEATS):
        load.link()
    yield from knocks(load, range(4))
    load.lasts(lambda: load.others() <= MOST_ANONYMOUS + OTHERS)
    yield from knocks(load, range(4))
    if load.others() > MOST_ANONYMOUS + OTHERS:
        yield f"anonymous clients hold {load.others()} connections, of {MOST_ANONYMOUS} that they may hold"
    if load.others() < MOST_ANONYMOUS - OTHERS:
        yield f"anonymous clients hold {load.others()} connections alone"


def is_open(link):
    """Whether a connection over which nothing comes is still open."""
    link.socket.setblocking(False)
    try:
        return bool(link.socket.recv(1))
    except BlockingIOError:
        return True
    except OSError:
        return False


def six_hundred_by_one(load):
    """One operator asks over more connections than it may hold: each is answered, and the oldest are closed."""
    count, links, answers = 600, [], []
    for _ in range(count):
        link = load.link()
        link.send(request("GET", "/policies", token(0)))
        answers.append(link.answer())
        links.append(link)
    wrong = [it for it in answers if not it.is_by_the_server(*NO_POLICY)]
    yield from (f"one of {count} connections is answered {it}" for it in wrong[:1])
    yield from knocks(load, range(3))
    load.lasts(lambda: load.others() <= ASKER_SEATS + 1)
    held = [is_open(link) for link in links]
    if sum(held) > ASKER_SEATS:
        yield f"one operator holds {sum(held)} connections, of {ASKER_SEATS} that it may hold"
    if sum(held) < ASKER_SEATS - 2:
        yield f"one operator holds {sum(held)} connections alone"
    if any(held[: count - ASKER_SEATS]):
        yield "a connection is open that is older than others which were closed"


def all_seats_taken(load):
    """Eight operators hold as many connections as they may: who has none, and who knocks again, is answered."""
    wrong = []
    for number in range(SEATS):
        link = load.link()
        link.send(request("GET", "/policies", token(number // ASKER_SEATS)))
        answer = link.answer()
        if not answer.is_by_the_server(*NO_POLICY):
            wrong.append(f"connection {number} is answered {answer}")
    yield from wrong[:1]
    yield from knocks(load, range(10))
    load.lasts()
    yield from knocks(load, range(10))
    if load.others() > SEATS:
        yield f"the server holds {load.others()} connections, and may hold {SEATS}"
    if load.others() < SEATS - OTHERS:
        yield f"the server holds {load.others()} connections alone"


# --- Bodies and questions ------------------------------------------------------------------------------------------


def is_busy(link, answer):
    """What is wrong with an answer that should be the server's own, with a close behind it."""
    if not answer.is_by_the_server(*BUSY):
        return f"answered {answer}"
    if answer.fields.get("connection") != ["close"]:
        return "busy, and no word of the close"
    link.socket.settimeout(SECONDS)
    try:
        return f"behind busy comes {behind[:40]!r}" if (behind := link.rest()) else None
    except TimeoutError:
        return "busy, and not closed"


def told_at_once(load, links, wanted):
    """The first answer of each connection over which something comes, once so many have, or there is no more time."""
    found = {}
    while len(found) < wanted and load.lasts_for() < TELLING_SECONDS:
        waiting = {link.socket.fileno(): number for number, link in enumerate(links) if number not in found}
        ready = select.poll()
        for it in waiting:
            ready.register(it, select.POLLIN)
        for it, _ in ready.poll(100):
            try:
                found[waiting[it]] = links[waiting[it]].answer()
            except (OSError, Closed) as fault:
                found[waiting[it]] = repr(fault)
    return found


def upload(operator):
    """A report whose body has as many bytes as may be, and where the body begins in it."""
    whole = request("POST", "/fleet/events", token(operator), b" " * BODY_LIMIT)
    return whole, whole.index(b"\r\n\r\n") + 4


def heads_of_uploads(load, operators, taken):
    """Sends the heads of uploads by these operators in turn: so many are waited for, and the others told busy at once."""
    links, told = [load.link() for _ in operators], {}
    for link, operator in zip(links, operators):
        whole, start = upload(operator)
        link.send(whole[:start])
    told = told_at_once(load, links, len(links) - taken)
    faults = [f"{len(told)} of {len(links)} uploads are answered at once, not {len(links) - taken}"] if len(told) != len(links) - taken else []
    wrong = [fault if isinstance(fault, str) else is_busy(links[number], fault) for number, fault in told.items()]
    faults += [it for it in wrong if it][:2]
    return [link for number, link in enumerate(links) if number not in told], faults


def stopped_uploads(load):
    """300 bodies of the greatest size, of which the last byte isn't sent: 64 are waited for, and the others told busy."""
    waiting, faults = heads_of_uploads(load, [0] * 300, WAITING_BODIES // BODY_LIMIT)
    yield from faults
    whole, start = upload(0)
    for link in waiting:
        link.send(whole[start : start + 100_000 if load.is_short else -1])
    yield from knocks(load, range(1, 4))
    answer = load.server.ask("POST", "/fleet/events", token(1), report(1))
    if answer.status != 200:
        yield f"another operator's report is answered {answer}"
    load.lasts()
    if not load.is_short:
        load.lasts(lambda: load.others() <= 0)
        if load.others() > 0:
            yield f"after {load.lasts_for():.0f} s the server still waits for {load.others()} bodies"


def uploads_by_five(load):
    """Five operators begin 64 uploads each: four of them come to as much as may wait of all, and the fifth is told busy."""
    each = WAITING_BODIES // BODY_LIMIT
    _, faults = heads_of_uploads(load, [number // each for number in range(5 * each)], ALL_BODIES // BODY_LIMIT)
    yield from faults
    yield from knocks(load, range(6))
    load.lasts()


def a_small_city(server, is_short):
    """A cap on a square in which the first operator has vehicles."""
    square, cap = identifier(1, 1), identifier(2, 1)
    rules = ",".join(
        f'{{"rule_id":"{identifier(3, it)}","name":"r","rule_type":"count","geographies":["{square}"],"maximum":{LARGE_FLEET}}}'
        for it in range(max(1, 8 // SLOWNESS))
    )
    asked = [
        ("PUT", clients.draft_of_place(1), clients.place(1, "[[0,0],[9,0],[9,9],[0,9],[0,0]]")),
        ("PUT", clients.draft_of_policy(1), clients.policy(1, start_date="1000", rules=f"[{rules}]")),
        ("POST", "/publish", f'{{"geographies":["{square}"],"policies":["{cap}"]}}'.encode()),
    ]
    yield from clients.succeed(server, AUTHOR, asked)
    vehicles = range(FLEET if is_short else LARGE_FLEET)
    yield from clients.succeed(server, token(0), [("POST", "/fleet/events", report(it)) for it in vehicles])


def many_questions(load):
    """Many questions at once, each over a connection of its own: each is answered, or told busy."""
    count = ASKER_SEATS + 100 if load.is_short else 2_000
    links = [load.link() for _ in range(count)]
    for link in links:
        link.send(request("GET", "/compliance", token(0)))
    answers, faults = [], []
    for link in links:
        link.socket.settimeout(max(1, load.left()))
        try:
            answers.append(answer := link.answer())
            if answer.status != 200 and (fault := is_busy(link, answer)):
                faults.append(fault)
        except (OSError, ValueError, Closed) as fault:
            faults.append(f"a question isn't answered: {fault!r}")
    yield from faults[:2]
    served = sum(it.status == 200 for it in answers)
    if served < ASKER_SEATS - 1:
        yield f"{served} of {count} questions are answered, and {ASKER_SEATS} at once may be asked"
    load.lasts(lambda: load.others() <= ASKER_SEATS + OTHERS)
    if load.others() > ASKER_SEATS + OTHERS:
        yield f"one operator holds {load.others()} connections, of {ASKER_SEATS} that it may hold"


# --- Clients that keep connections ---------------------------------------------------------------------------------


def busy_clients(load):
    """A client is told busy, and goes on: while as much waits of one who asks as may."""
    links = [load.link() for _ in range(WAITING_BODIES // BODY_LIMIT)]
    yield from clients.refused_as_busy(load.server, links, "busy")
    load.lasts()


def five_megabytes(load):
    yield from clients.five_megabytes(load.server)
    load.lasts()


def by_python(load):
    """A client of Python's library; the short load leaves out what takes long to bring about."""
    refusals = [it for it in clients.REFUSALS if not load.is_short or it[-1] not in clients.FULL_ALONE]
    yield from clients.by_python(load.server, refusals)
    load.lasts()


def by_curl(load):
    """The same by curl; the short load has one of each status."""
    first = {it[-2]: it for it in reversed(clients.REFUSALS)}
    yield from clients.by_curl(load.server, first.values() if load.is_short else clients.REFUSALS)
    load.lasts()


def a_city_to_be_refused(server, is_short):
    yield from clients.what_is_refused(server, FLEET, not is_short)


# --- All of it -----------------------------------------------------------------------------------------------------

# A load: what it does, what is prepared before it, how many megabytes above idle and connections it may take, and whether it is one of
# the short ones.
Kind = collections.namedtuple("Kind", "case prepare megabytes connections is_short")

LOADS = {
    "200 readers that never read a list of 4 MB": Kind(never_read(200), a_large_list, 20, 200, True),
    "2,000 readers that never read a list of 4 MB": Kind(never_read(2_000), a_large_list, 100, 2_000, False),
    "100 readers that take a byte a second": Kind(a_byte_a_second, a_large_list, 10, 100, True),
    "4,096 idle connections without a token": Kind(idle_anonymous, None, 64, SEATS, True),
    "600 connections by one operator": Kind(six_hundred_by_one, None, 20, 600, True),
    "4,096 connections by eight operators": Kind(all_seats_taken, None, 128, SEATS, False),
    "300 uploads of 1 MB that stop before their last byte": Kind(stopped_uploads, None, 128, 300, True),
    "320 uploads by five operators": Kind(uploads_by_five, None, 20, 320, True),
    "2,000 questions at once by one operator": Kind(many_questions, a_small_city, 64, 2_000, True),
    "a body of 5 MB, then the next request": Kind(five_megabytes, None, 20, 1, True),
    "a client of Python's library after each refusal": Kind(by_python, a_city_to_be_refused, 20, 1, True),
    "the same after busy": Kind(busy_clients, None, 20, 65, True),
    "curl after each refusal": Kind(by_curl, a_city_to_be_refused, 20, 1, True),
}


def chosen(is_short):
    """The names of the loads to try; what is left out is told."""
    names = [name for name, kind in LOADS.items() if kind.is_short or not is_short]
    if is_short:
        left = "; ".join(name for name in LOADS if name not in names)
        print(f"no deadline is waited for, loads are lighter, and these are left out: {left}")
        print("the loads run side by side: what another operator waits for is told, and not judged")
    elif SLOWNESS > 1:
        print(f"the program isn't proved: another operator may wait {SLOWNESS} times as long")
    wanted = (MOST_ANONYMOUS if is_short else SEATS) + 500
    if (most := may_open(wanted)) < wanted:
        few = [name for name in names if LOADS[name].connections > 1_000]
        print(f"only {most} files may be open (ulimit -Hn), so these are left out: {'; '.join(few)}")
        names = [name for name in names if name not in few]
    return names


def one(program, name, is_short):
    """The faults of one load, as a list that goes from one process to another."""
    return list(tell(under_load(program, name, LOADS[name], is_short)))


def loads(program, is_short):
    """Each load with its faults: all, one after another; or the short ones, side by side. A load with faults is tried once more by itself,
    since a host that takes processors away makes any of them late."""
    names = chosen(is_short)
    sys.stdout.flush()
    fork = multiprocessing.get_context("fork")
    with concurrent.futures.ProcessPoolExecutor(SIDE_BY_SIDE if is_short else 1, mp_context=fork) as pool:
        tried = [(name, pool.submit(one, program, name, is_short)) for name in names]
        found = {name: it.result() for name, it in tried}
        for name in names:
            if found[name]:
                print(f"{name} is tried once more, since: {found[name][0]}", flush=True)
                found[name] = pool.submit(one, program, name, is_short).result()
            yield name, found[name]
