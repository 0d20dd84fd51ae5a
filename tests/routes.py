#!/usr/bin/env python3
"""What each path, method and asker is answered, by a table, and what a refusal takes: starts a program, and asks it all of that.

    routes.py PROGRAM [--told]

The table of tests/route_table.py is worked out by hand from docs/PROTOCOL.md and docs/HTTP.md: of each path of the protocol, of /app, also
with a moment of the past, of the page, of /mds/2.0 and of nothing, by seven methods, what the author, an operator, a wrong access token and
none are told. It is asked with room on the disk, where everyone is told what is published; of /mds/2.0 also where nobody is; and once more
on a full disk, where what may change something alone says `no_room`; where no small disk may be mounted that is left out (packages.py).
mds_serve has the paths of the protocol alone.

Then 200 refused requests of each kind are asked of ruffletuff: nothing is synced, kept or published by them, by what its control port
counts; and a request that only reads isn't counted as a change.

Last an operator asks 32 questions at once that take long, and meanwhile who it is, for a file of the page, and what is refused it: these
are answered at once, as a median; and what is published is told behind two of the questions at the most. With --told, where other work
runs beside, how long they wait is told and not judged. Of a program that isn't proved requests are fewer, and questions shorter. Prints
what is otherwise, and last 'N passed, M failed'; ends with 1 where one failed.
"""

import argparse
import collections
import concurrent.futures
import itertools
import json
import os
import statistics
import sys
import tempfile
import time

import packages
from clients import draft_of_place, draft_of_policy, names, place, policy, rule, succeed
from journals import ALFA, ALFA_ID, AUTHOR, BRAVO, BRAVO_ID, DISK, FILLED, calls, configuration, counted, operator, small_disk
from journals import until_not_taken
from kept import City, Tried, is_keeping, serving
from messages import BODY_LIMIT
from route_table import APP, APP_ORDER, METHODS, NOWHERE, ORDER, PAGE, PROTOCOL, PUBLIC, STATUS, WHO, blocks, nowhere, singles
from wire import SECONDS, SLOWNESS, Closed, identifier, report, request

TOKENS = {"author": (AUTHOR,), "operator": (ALFA,), "anonymous": ("nobody", "")}
# What the table speaks of.
CAP, OTHERS, WITHDRAWN, DRAFT, UNKNOWN = 1, 2, 3, 4, 9
NAMES = {
    "policy": identifier(2, CAP), "others": identifier(2, OTHERS), "draft": identifier(2, DRAFT), "place": identifier(1, CAP),
    "drawn": identifier(1, DRAFT), "device": identifier(4, 1), "unknown": identifier(2, UNKNOWN),
    "operator": ALFA_ID, "other": BRAVO_ID,
}
RING = "[[0,0],[9,0],[9,9],[0,9],[0,0]]"
# With these bodies a request is carried out, as often as one likes. All others are sent with a body that is none.
GOOD = {
    ("POST", "/fleet/events"): report(1),
    ("POST", "/app/fleet/events"): report(1),
    ("PUT", "/drafts/policies/{draft}"): policy(DRAFT),
    ("PUT", "/drafts/geographies/{drawn}"): place(DRAFT, RING),
    ("POST", "/publish"): names(2, "withdraw", [WITHDRAWN]),
}
BODIES = {"none": b"", "broken": b"{", "junk": b"x", "empty": b"{}", "another": policy(DRAFT), "long": b" " * (BODY_LIMIT + 1)}
NO_ROOM_SAID = b"ruffletuff: the disk has no room: changes are answered 503 until it has\n"

# A program as it is asked by the table.
Run = collections.namedtuple("Run", "server keeps is_full")

QUESTIONS, COMPLIANCE = 32, "/compliance"
AT_ONCE = 0.25 * SLOWNESS  # seconds
# What is published is told behind two of the questions: the one that is answered, and the next. A fourth of what all take is far more.
NEXT, SHARE = 2, 1 / 4
LONG = 0.3  # seconds that a question takes at the least
LONGEST = 30 * SECONDS  # that an answer may take
PAUSE = 0.1 if SLOWNESS == 1 else 0.5  # seconds between requests beside long questions
MOST_DRAFTS = 256
# How many policies and vehicles make a question long. The least of these fleets is taken that does. A program that isn't proved is slow.
POLICIES, FLEETS = 512, (8_000, 12_000, 18_000, 27_000, 40_000, 60_000, 90_000, 135_000, 200_000)
LINES = 4_000  # of a body of reports
if SLOWNESS > 1:
    POLICIES, FLEETS, LINES = 48, (125, 250, 500, 1_000, 2_000, 4_000, 8_000), 500

REFUSED = ("no_route", "method", "role", "token", "bad_id")
REFUSED_TO = TOKENS | {"operator": (ALFA, BRAVO)}
CHANGING = ("GET", "POST", "PUT", "DELETE")
OFTEN = 200 if SLOWNESS == 1 else 50


# --- A city --------------------------------------------------------------------------------------------------------


def city(is_public=False, limit=3):
    """A configuration of two operators, of whom the author sees all, on one line."""
    given = configuration(operator(ALFA_ID, ALFA, limit), operator(BRAVO_ID, BRAVO)) | {"oversight": "vehicles"}
    given |= {"public": True} if is_public else {}
    return json.dumps(given).encode() + b"\n"


def standing(server):
    """What a row of the table may take away: drafts, and a vehicle."""
    drafts = [("PUT", draft_of_policy(DRAFT), policy(DRAFT)), ("PUT", draft_of_place(DRAFT), place(DRAFT, RING))]
    yield from succeed(server, AUTHOR, drafts)
    yield from succeed(server, ALFA, [("POST", "/fleet/events", report(1))])


def published(server):
    """What the table speaks of is published, and its drafts and its vehicle are there."""
    texts = {CAP: {"rules": f"[{rule(CAP)}]"}, OTHERS: {"provider_ids": f'["{BRAVO_ID}"]'}, WITHDRAWN: {}}
    drafts = [("PUT", draft_of_policy(number), policy(number, **members)) for number, members in texts.items()]
    yield from succeed(server, AUTHOR, [("PUT", draft_of_place(CAP), place(CAP, RING)), *drafts])
    batch = names(1, "geographies", [CAP])[:-1] + b"," + names(2, "policies", texts)[1:]
    yield from succeed(server, AUTHOR, [("POST", "/publish", batch)])
    yield from standing(server)


def asked(method, target, token, body=b""):
    """A request, without the field of the access token where there is none."""
    return request(method, target, token, body).replace(b"authorization: Bearer \r\n", b"", 0 if token else 1)


# --- The table -----------------------------------------------------------------------------------------------------


def wanted(cell, is_full):
    """The status and the code that a cell says; no code of a success."""
    word = "no_room" if is_full and cell.endswith("!") else cell.rstrip("!")
    return (200, None) if word == "200" else (STATUS[word], word)


def word_of(answer):
    """The code that a refusal tells."""
    try:
        return json.loads(answer.body)["error"]
    except (ValueError, KeyError, TypeError):
        return None


def fields(status, allow):
    """What a refusal names: the methods of its path, or the scheme of an access token."""
    return {"allow": set(allow.split(", ")) if status == 405 else None, "www-authenticate": {"Bearer"} if status == 401 else None}


def differs(run, method, cell, allow, answer):
    """What is otherwise of an answer than a cell says. That of HEAD has no body to tell a code."""
    status, word = wanted(cell, run.is_full)
    if answer.status != status or word and method != "HEAD" and word_of(answer) != word:
        yield f"it is answered {answer}, and not {status} {word or ''}"
    elif run.keeps:
        for name, values in fields(status, allow).items():
            found = answer.fields.get(name)
            if (found and {it.strip() for it in ",".join(found).split(",")}) != values:
                yield f"it is answered {status} with {name} {found}, and not {values}"


def body_of(method, target, cell):
    """The body with which a row of the table is asked: one of a request that is carried out, or none that is read."""
    plain = target.removeprefix("http://x").partition("?")[0]
    if cell.endswith("!"):
        return GOOD.get((method, plain), b"")
    return b"" if method in ("GET", "HEAD", "OPTIONS") else BODIES["broken"]


def is_told(run, block, target):
    """A target of the table by each method, to each who asks, over one connection."""
    if not run.is_full and any(it.endswith("!") for cells in block.cells.values() for it in cells.values()):
        yield from standing(run.server)
    rows = [(method, who, token) for method in METHODS for who in WHO for token in TOKENS[who]]
    path = target.format(**NAMES)
    with run.server.link() as link:
        link.send(b"".join(asked(method, path, token, body_of(method, target, block.cells[method][who])) for method, who, token in rows))
        for method, who, token in rows:
            found = differs(run, method, block.cells[method][who], block.allow, link.answer(method))
            yield from (f"{method} by {who}{'' if token else ' without a token'}: {it}" for it in found)


def is_refused_first(run, single):
    """A single request, over a connection of its own. One whose body is cut may be told by a close alone."""
    target = single.target.format(**NAMES)
    for token in TOKENS[single.who]:
        if single.body == "cut":
            whole = asked(single.method, target, token).replace(b"content-length: 0\r\n", b"")
            whole = whole[:-2] + b"transfer-encoding: chunked\r\n\r\nzz\r\n"
        else:
            whole = asked(single.method, target, token, BODIES[single.body])
        with run.server.link() as link:
            link.send(whole)
            try:
                yield from differs(run, single.method, single.cell, "", link.answer(single.method))
            except Closed as end:
                if single.body != "cut" or end.args[0]:
                    yield f"it is answered by a close behind {end.args[0]!r}"


def by_blocks(tried, what, run, found):
    """Blocks of the table, each of their targets a test."""
    for block in found:
        for target in block.targets:
            tried.one(f"{what}: {target}", is_told(run, block, target))


def by_table(tried, what, run):
    """All of the table. Of mds_serve what ruffletuff alone answers is of nothing."""
    alone = [it for table in (APP, PAGE, PUBLIC) for it in (blocks(table) if run.keeps else nowhere(table))]
    by_blocks(tried, what, run, blocks(PROTOCOL) + blocks(NOWHERE) + alone)
    for single in singles(ORDER) + (singles(APP_ORDER) if run.keeps else []):
        tried.one(f"{what}: {single.method} {single.target} by {single.who}, body {single.body}", is_refused_first(run, single))


def with_room(tried, program):
    """The table with room on the disk, where everyone is told what is published; and what that is, where nobody is."""
    keeps = is_keeping(program)
    with serving(program, given=city(keeps)) as server:
        tried.one("publishing", published(server))
        by_table(tried, "with room", Run(server, keeps, False))
    if keeps:
        with serving(program, given=city()) as server:
            by_blocks(tried, "nobody is told more", Run(server, True, False), nowhere(PUBLIC))


def filled(server):
    """Reports until the disk has no room: large ones, and small ones for what these leave."""
    until_not_taken(server)
    answer, _ = until_not_taken(server, begun=20_000, more=0)
    if answer is None or word_of(answer) != "no_room":
        yield f"on a full disk a report is answered {answer}"


def says_it_once(server):
    """However many changes were refused for want of room, it is said once."""
    if (found := server.end()) != (0, b"", NO_ROOM_SAID):
        yield f"it ends with {found}"


def without_room(tried, program):
    """The table on a full disk: what may change something alone is refused for it, and nothing is kept."""
    with tempfile.TemporaryDirectory() as room, small_disk(room, DISK) as disk:
        held = City(program, disk, city(True))
        with open(os.path.join(disk, "filler"), "wb") as file:
            file.write(bytes(FILLED))
        with held.serve() as server:
            tried.one("a full disk: publishing", published(server))
            tried.one("a full disk: filling it", filled(server))
            before = held.bytes()
            by_table(tried, "a full disk", Run(server, True, True))
            tried.one("a full disk: nothing is kept", ["the journal has changed"] if held.bytes() != before else [])
            tried.one("a full disk: the end", says_it_once(server))


# --- Long questions ------------------------------------------------------------------------------------------------


def answered(server, method, target, token=ALFA):
    """The answer to a request over a new connection, and the moments at which it was asked and told."""
    begun = time.monotonic()
    with server.link() as link:
        link.socket.settimeout(LONGEST)
        link.send(request(method, target, token))
        return link.answer(method), begun, time.monotonic()


def reported(server, keeps, numbers):
    """Reports these vehicles: many in one request, where the program takes them so."""
    if not keeps:
        yield from succeed(server, ALFA, [("POST", "/fleet/events", report(it)) for it in numbers])
        return
    for first in range(0, len(numbers), LINES):
        body = b"\n".join(report(it) for it in numbers[first : first + LINES])
        yield from succeed(server, ALFA, [("POST", "/app/fleet/events", body)])


def many_policies(server):
    """As many policies as there may be, over one square in which all vehicles are."""
    yield from succeed(server, AUTHOR, [("PUT", draft_of_place(1), place(1, RING))])
    for first in range(0, POLICIES, MOST_DRAFTS):
        numbers = range(first, min(first + MOST_DRAFTS, POLICIES))
        texts = [("PUT", draft_of_policy(it), policy(it, rules=f"[{rule(1)}]")) for it in numbers]
        batch = names(2, "policies", numbers) if first else names(1, "geographies", [1])[:-1] + b"," + names(2, "policies", numbers)[1:]
        yield from succeed(server, AUTHOR, [*texts, ("POST", "/publish", batch)])


def long_fleet(server, keeps):
    """Reports vehicles until a question takes long, behind the two that make what is kept; what was otherwise."""
    for first, last in itertools.pairwise((0, *FLEETS)):
        yield from reported(server, keeps, range(first, last))
        for _ in range(3):
            answer, begun, ended = answered(server, "GET", COMPLIANCE)
            if answer.status != 200:
                yield f"a question is answered {answer}"
        print(f"with {last} vehicles and {POLICIES} policies a question takes {ended - begun:.2f} s", flush=True)
        if ended - begun >= LONG:
            return
    yield f"a question takes {ended - begun:.2f} s alone, and {LONG} are wanted"


# What is asked beside long questions: its name, method and target, whether it is answered at once, its status, and that of mds_serve.
BESIDE = (
    ("who it is", "GET", "/app/whoami", True, 200, 404),
    ("a path of nothing", "GET", "/nothing", True, 404, 404),
    ("a file of the page", "GET", "/page.css", True, 200, 404),
    ("a publication, which is the author's", "POST", "/publish", True, 403, 403),
    ("a method that the path hasn't", "DELETE", "/policies", True, 405, 405),
    ("an identifier that is none", "GET", f"{COMPLIANCE}/x", True, 400, 400),
    ("what is published", "GET", "/policies", False, 200, 200),
)


def asks_on(server, method, target, questions):
    """Asks again and again while long questions wait: the answers, each with its two moments."""
    found = []
    while not found or not all(it.done() for it in questions):
        found.append(answered(server, method, target))
        time.sleep(PAUSE)
    return found


def asks_beside(server):
    """Asks long questions at once, and the others once the first of these is answered: the answers, each with its two moments."""
    with concurrent.futures.ThreadPoolExecutor(QUESTIONS + len(BESIDE)) as pool:
        questions = [pool.submit(answered, server, "GET", COMPLIANCE) for _ in range(QUESTIONS)]
        concurrent.futures.wait(questions, return_when=concurrent.futures.FIRST_COMPLETED)
        others = [pool.submit(asks_on, server, method, target, questions) for _, method, target, *_ in BESIDE]
        return [it.result() for it in questions], [it.result() for it in others]


def waits(times, behind, is_at_once, took):
    """What was waited for too long, beside questions that took so long together, or behind too many of them."""
    if is_at_once and (median := statistics.median(times)) > AT_ONCE:
        yield f"it waits for {median:.2f} s, as a median, and {AT_ONCE:.2f} s are wanted: {QUESTIONS} questions take {took:.1f} s"
    if max(times) > SHARE * took:
        yield f"it waits for {max(times):.2f} s, and {SHARE * took:.2f} s are wanted at the most: {QUESTIONS} questions take {took:.1f} s"
    if (median := statistics.median_low(behind)) > (0 if is_at_once else NEXT):
        yield f"it waits behind {median} of {QUESTIONS} questions, as a median"


def told(name, method, target, times, behind):
    """Tells how long answers took, and how many questions were answered meanwhile."""
    waited = f"median {statistics.median(times):.3f} s, longest {max(times):.3f} s"
    counts = f"median {statistics.median_low(behind)}, most {max(behind)}"
    print(f"beside them {name}, {method} {target}: {len(times)} answers, {waited}; questions meanwhile: {counts}", flush=True)


def beside(tried, questions, others, keeps, is_judged):
    """What was asked beside long questions, each a test: its status, and how long it waited."""
    ends = [ended for _, _, ended in questions]
    took = max(ends) - min(begun for _, begun, _ in questions)
    print(f"{QUESTIONS} questions at once take {took:.1f} s", flush=True)
    wrong = [f"a question is answered {answer}" for answer, _, _ in questions if answer.status != 200]
    if is_judged and took < 2 * AT_ONCE:
        wrong.append(f"they take {took:.1f} s alone, and what waits for them can't be told from what doesn't")
    tried.one(f"{QUESTIONS} questions at once", wrong[:1])
    for (name, method, target, is_at_once, *statuses), answers in zip(BESIDE, others):
        times = [ended - begun for _, begun, ended in answers]
        behind = [sum(begun < it < ended for it in ends) for _, begun, ended in answers]
        told(name, method, target, times, behind)
        found = [f"it is answered {answer}" for answer, _, _ in answers if answer.status != statuses[not keeps]]
        found += waits(times, behind, is_at_once, took) if is_judged else ()
        tried.one(f"beside long questions: {name}", found[:1])


def long_questions(tried, program, is_judged):
    """Who asks long questions isn't kept waiting by them for what takes none of their time."""
    keeps = is_keeping(program)
    with serving(program, given=city(limit=FLEETS[-1])) as server:
        tried.one("many policies", many_policies(server))
        tried.one("a long question", long_fleet(server, keeps))
        beside(tried, *asks_beside(server), keeps, is_judged)


# --- Nothing is left behind ----------------------------------------------------------------------------------------


def targets_refused(word, method, who):
    """The targets of the table that are refused so."""
    found = [it for table in (PROTOCOL, NOWHERE, APP) for it in blocks(table)]
    return [target.format(**NAMES) for block in found if block.cells[method][who] == word for target in block.targets]


def kept(server):
    """What is counted of what is kept."""
    found = counted(server)
    return {name: found[name] for name in ("syncs_total", "journal_bytes", "revision")}


def leaves_nothing(server, word):
    """Refusals of this kind, by each method and who asks: none of them is synced, kept or published."""
    for method, (who, tokens) in itertools.product(CHANGING, REFUSED_TO.items()):
        before, rows = kept(server), itertools.product(targets_refused(word, method, who), tokens)
        rows = list(itertools.islice(itertools.cycle(rows), OFTEN))
        with server.link() as link:
            link.send(b"".join(asked(method, target, token, BODIES["broken"]) for target, token in rows))
            answers = [link.answer() for _ in rows]
        wrong = [it for it in answers if it.status != STATUS[word] or word_of(it) != word]
        yield from (f"{method} by {who} is answered {it}" for it in wrong[:1])
        if (found := kept(server)) != before:
            yield f"behind {OFTEN} of {method} by {who} it counts {found}, and before {before}"


def reads_are_no_changes(server):
    """A method that only reads, and no route has, isn't counted as a change."""
    before = calls(server)
    for token in (AUTHOR, ALFA, "nobody"):
        server.ask("HEAD", "/policies", token)
    behind = calls(server)
    for kind in ("change", "publish"):
        found = [{status: count for (call, status), count in it.items() if call == kind} for it in (before, behind)]
        if found[0] != found[1]:
            yield f"of HEAD /policies it counts {found[1]} of {kind}, and before {found[0]}"


def nothing_is_left(tried, program):
    """What is refused leaves nothing behind that is counted."""
    with serving(program, given=city()) as server:
        tried.one("refusals: publishing", published(server))
        for word in REFUSED:
            tried.one(f"refusals: {word} leaves nothing", leaves_nothing(server, word))
        tried.one("refusals: HEAD is no change", reads_are_no_changes(server))


# --- All of it -----------------------------------------------------------------------------------------------------


def parts(program, is_judged):
    """What is tried of a program, by its names."""
    found = {"the table": lambda tried: with_room(tried, program)}
    if is_keeping(program):
        found["the table on a full disk"] = lambda tried: without_room(tried, program)
        found["what refusals leave"] = lambda tried: nothing_is_left(tried, program)
    return found | {"long questions": lambda tried: long_questions(tried, program, is_judged)}


def main():
    parser = argparse.ArgumentParser(description=__doc__, formatter_class=argparse.RawDescriptionHelpFormatter)
    parser.add_argument("program")
    parser.add_argument("--told", action="store_true", help="how long is waited beside long questions is told and not judged")
    options = parser.parse_args()
    found = Tried()
    for name, call in parts(os.path.abspath(options.program), not options.told).items():
        begun = time.monotonic()
        try:
            call(found)
        except packages.LeftOut as why:
            found.add(*packages.leave_out_since(name, why))
        except (OSError, ValueError, Closed) as fault:
            print(f"{name}: {fault!r}")
            found.failed += 1
        print(f"{name}: {time.monotonic() - begun:.0f} s", flush=True)
    return found.told()


if __name__ == "__main__":
    sys.exit(main())
