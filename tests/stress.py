"""Publishes at a running server while operators ask, and checks what each is told against a replay of its view.

    stress.py [PUBLICATIONS OPERATORS] [--serve PROGRAM] [--replay PROGRAM]

Each operator is a process with one connection. By turns it reports its one vehicle, in the square or out of it, and asks for
compliance, until the author has published all, and then some more. After that mds_replay answers each operator's requests behind the
publications that their replies tell of, at the moments that they tell: each reply has to be the same, byte for byte. Tells how many
publications and replies a second there were, and what time a reply took while publishing and idle. Takes some seconds. Prints what
differs, and last 'N passed, M failed', by operators; ends with 1 where one failed.
"""

import argparse
import contextlib
import multiprocessing
import os
import re
import statistics
import subprocess
import sys
import time

from kept import serving
from wire import AUTHOR, PATIENCE, SLOWNESS, Link, identifier, request

HERE = os.path.dirname(os.path.abspath(__file__))
SERVE, REPLAY = (os.path.join(HERE, "..", "crates", name, "out", name) for name in ("mds_serve", "mds_replay"))
PUBLICATIONS, OPERATORS = 500, 8
MOST_PUBLICATIONS, MOST_OPERATORS = 500, 64
MOST_REQUESTS, IDLE_REQUESTS = 50_000, 1_000 // SLOWNESS
SECONDS = 60 * PATIENCE
SQUARE, POLICY, RULE, DEVICE, OPERATOR = 1, 2, 3, 4, 9


def token(operator):
    return f"o{operator:03}"


def configuration(operators):
    entries = ",".join(f'{{"id":"{identifier(OPERATOR, n)}","limit":2,"token":"{token(n)}"}}' for n in range(operators))
    return f'{{"author":"{AUTHOR}","operators":[{entries}],"zone":"Z"}}'


def publication(number):
    """What the author asks for a publication: the square at first, then one policy at a time, each in the place of the one before."""
    if number == 0:
        target, names = f"/drafts/geographies/{identifier(SQUARE, 1)}", f'{{"geographies":["{identifier(SQUARE, 1)}"]}}'
        ring = "[[0,0],[10,0],[10,10],[0,10],[0,0]]"
        draft = f'{{"geography_id":"{identifier(SQUARE, 1)}","name":"square","geography_json":{{"type":"Polygon","coordinates":[{ring}]}}}}'
    else:
        target, names = f"/drafts/policies/{identifier(POLICY, number)}", f'{{"policies":["{identifier(POLICY, number)}"]}}'
        before = f'"{identifier(POLICY, number - 1)}"' if number > 1 else ""
        rule = (
            f'{{"rule_id":"{identifier(RULE, 1)}","name":"cap","rule_type":"count",'
            f'"geographies":["{identifier(SQUARE, 1)}"],"maximum":{number % 2}}}'
        )
        draft = f'{{"policy_id":"{identifier(POLICY, number)}","name":"cap","start_date":1000,"prev_policies":[{before}],"rules":[{rule}]}}'
    return ("PUT", target, draft), ("POST", "/publish", names)


def question(operator, number):
    """What an operator asks: by turns a report of its one vehicle, which goes into the square and out of it, and the verdicts."""
    if number % 2:
        return "GET", "/compliance", ""
    latitude = 5 if number // 2 % 2 == operator % 2 else 50
    return (
        "POST",
        "/fleet/events",
        f'{{"device_id":"{identifier(DEVICE, operator)}","vehicle_type":"scooter","vehicle_state":"available",'
        f'"timestamp":{moment(number)},"location":{{"lat":{latitude},"lng":5}}}}',
    )


def moment(number):
    """A moment for a request whose reply tells none, not before its report's."""
    return 10_000 + number


def ask(link, operator, number):
    """The nanoseconds that a reply took, and the line that a replay writes for it."""
    method, target, body = question(operator, number)
    sent = request(method, target, token(operator), body.encode())
    begun = time.perf_counter_ns()
    link.send(sent)
    answer = link.answer()
    return time.perf_counter_ns() - begun, b"%d %s" % (answer.status, answer.body)


def ask_all(port, operator, began, over, told):
    """Asks until the author is done, and then some more."""
    with Link(port) as link:
        replies = [ask(link, operator, 0)]
        began.release()
        while not over.is_set() and len(replies) < MOST_REQUESTS:
            replies.append(ask(link, operator, len(replies)))
        busy = len(replies)
        while len(replies) < busy + IDLE_REQUESTS:
            replies.append(ask(link, operator, len(replies)))
    told.put((operator, busy, replies))


def publish_all(port, publications):
    """The moments of the publications."""
    dates = []
    with Link(port) as link:
        for number in range(publications):
            for method, target, body in publication(number):
                link.send(request(method, target, AUTHOR, body.encode()))
                answer = link.answer()
                if answer.status != 200:
                    sys.exit(f"publication {number} is answered {answer}")
            dates.append(int(re.search(rb'"published_date":(\d+)', answer.body)[1]))
    return dates


def view(operator, replies, dates, operators):
    """The script of an operator's view, and which of its lines are the operator's."""
    lines, places, published = [configuration(operators)], [], 0
    for number, (_, reply) in enumerate(replies):
        revision = re.search(rb'"revision":(\d+)', reply)
        for later in range(published, int(revision[1]) if revision else published):
            lines += [f"{dates[later]} {AUTHOR} {' '.join(asked)}" for asked in publication(later)]
            published = later + 1
        at = re.search(rb'"at":(\d+)', reply)
        places.append(len(lines) - 1)
        lines.append(f"{int(at[1]) if at else moment(number)} {token(operator)} {' '.join(question(operator, number)).rstrip()}")
    return "".join(f"{line}\n" for line in lines), places


def is_as_replayed(replay, operator, replies, dates, operators):
    """Whether each reply is the one of the machine of one thread; prints the first that isn't."""
    script, places = view(operator, replies, dates, operators)
    answers = subprocess.run([replay], input=script.encode(), stdout=subprocess.PIPE, check=True).stdout.splitlines()
    for number, (place, (_, reply)) in enumerate(zip(places, replies)):
        if answers[place] != reply:
            print(f"operator {operator}: reply {number} isn't as replayed: {reply[:200]!r}, and not {answers[place][:200]!r}")
            return False
    return True


def spread(name, times):
    """The least, the median and the 99th percentile."""
    times = sorted(times)
    high = times[min(len(times) - 1, len(times) * 99 // 100)]
    print(f"a reply {name}: least {times[0] / 1e3:.1f} us, median {statistics.median(times) / 1e3:.1f} us, 99th percentile {high / 1e3:.1f} us")


def overlapped(port, publications, operators):
    """The author and the operators at once: the moments of the publications, their seconds, and what each operator was told."""
    fork = multiprocessing.get_context("fork")
    began, over, told = fork.Semaphore(0), fork.Event(), fork.Queue()
    asking = [fork.Process(target=ask_all, args=(port, operator, began, over, told), daemon=True) for operator in range(operators)]
    for process in asking:
        process.start()
    if not all(began.acquire(timeout=SECONDS) for _ in asking):
        sys.exit("an operator didn't begin in time")
    begun = time.monotonic()
    dates = publish_all(port, publications)
    seconds = time.monotonic() - begun
    over.set()
    found = [told.get(timeout=SECONDS) for _ in asking]
    for process in asking:
        process.join()
    return dates, seconds, found


def main():
    parser = argparse.ArgumentParser(description=__doc__, formatter_class=argparse.RawDescriptionHelpFormatter)
    parser.add_argument("publications", type=int, nargs="?", default=PUBLICATIONS)
    parser.add_argument("operators", type=int, nargs="?", default=OPERATORS)
    parser.add_argument("--serve", default=SERVE, help="the built mds_serve, or ruffletuff")
    parser.add_argument("--replay", default=REPLAY, help="the built mds_replay")
    options = parser.parse_args()
    publications, operators = options.publications, options.operators
    if not 0 < publications <= MOST_PUBLICATIONS or not 0 < operators <= MOST_OPERATORS:
        parser.error(f"1 to {MOST_PUBLICATIONS} publications, and 1 to {MOST_OPERATORS} operators")
    with contextlib.ExitStack() as stack:
        server = stack.enter_context(serving(os.path.abspath(options.serve), given=(configuration(operators) + "\n").encode()))
        dates, seconds, found = overlapped(server.port, publications, operators)
    replay = os.path.abspath(options.replay)
    passed = sum(is_as_replayed(replay, operator, replies, dates, operators) for operator, _, replies in found)
    busy = [time_ for _, count, replies in found for time_, _ in replies[:count]]
    idle = [time_ for _, count, replies in found for time_, _ in replies[count:]]
    print(f"{publications} publications, {publications / seconds:.0f} a second")
    print(f"{len(busy)} replies to {operators} operators meanwhile, {len(busy) / seconds:.0f} a second, and {len(idle)} afterwards")
    spread("while publishing", busy)
    spread("idle", idle)
    print(f"{passed} passed, {operators - passed} failed")
    sys.exit(passed < operators)


if __name__ == "__main__":
    main()
