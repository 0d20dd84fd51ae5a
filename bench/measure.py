"""Times mds_replay on generated input, and beside it, on the same input, a good program written by hand, the same one that keeps
memberships, and a plain one.

Processor time (user and system) of whole runs; a part's time is the difference of two runs that
differ in that part alone, divided by how often the part is in the longer one. The median of the rounds is
printed with the least and the greatest, and each ratio with what it must be, what it should be, and whether it
is. All programs have to give the same answers.
"""

import argparse
import collections
import os
import shutil
import statistics
import subprocess
import sys
import tempfile

import expected
import generate

HERE = os.path.dirname(os.path.abspath(__file__))
PROGRAM = os.path.join(HERE, "..", "crates", "mds_replay", "out", "mds_replay")
TIMER = "time"
ROUNDS = 3
EDGES = (4, 1_000, generate.MOST_POSITIONS - 1)
RULES = 64
RADIUS = 0.2
FLEET = generate.MOST_VEHICLES
# How often each program is asked behind its second question: often, where that is cheap.
QUESTIONS = {"ours": 100, "good": 20, "keeping": 400}
# Cities of many policies: how many, of how many rules, at how many places, for how many vehicles, and whether rules have windows.
Shape = collections.namedtuple("Shape", "policies rules places fleet windows")
CITY = Shape(30, 8, RULES, 20_000, False)
SMALL_CITY = Shape(5, 4, 8, 1_000, False)
MOST_POLICIES = Shape(512, 8, RULES, FLEET, False)
MOST_DRAFTS = 256
# How many vehicles change before a question, and how often.
CHANGED = ((10_000, 20), (100_000, 4))
# Questions about rules with windows are so many milliseconds apart: another window opens or closes meanwhile.
APART = 20 * 60_000
VIOLATED = 700  # the number of the policy whose rules are violated; the next one's have windows
NEW_DEVICES = 20_000
ARRIVALS = 50
MANY_DEVICES = 100_000
SMALL_FLEET = 2_000
PUTS, POLICY_PUTS, LISTS = 100, 10_000, 50
FEW_AREAS, MANY_AREAS = 10, 110
# The scripts on which the plain program isn't run.
NOT_SCANNED = ("large", "areas", "second", "one policy", "all policies", "no arrival", "arrivals")
NOT_SCANNED += ("violated", "first violated", "first windows", "changed", "many policies")
# The scripts whose replies are compared with what is expected of them.
EXPECTED = ("ask violated, ours", "ask windows, ours", "ask windows city, ours", "changed", "many policies and asked")


def scale(by):
    """Makes fleets, and how often each part is repeated, so many times as large: to try the scripts."""
    global FLEET, CITY, SMALL_CITY, MOST_POLICIES, CHANGED, NEW_DEVICES, MANY_DEVICES, SMALL_FLEET  # noqa: PLW0603
    global ARRIVALS, PUTS, POLICY_PUTS, LISTS, FEW_AREAS, MANY_AREAS  # noqa: PLW0603

    def scaled(*counts):
        return tuple(max(1, round(by * it)) for it in counts)

    CITY, SMALL_CITY, MOST_POLICIES = (it._replace(fleet=scaled(it.fleet)[0]) for it in (CITY, SMALL_CITY, MOST_POLICIES))
    CHANGED = tuple(scaled(vehicles)[:1] + scaled(times) for vehicles, times in CHANGED)
    FLEET, NEW_DEVICES, MANY_DEVICES, SMALL_FLEET = scaled(FLEET, NEW_DEVICES, MANY_DEVICES, SMALL_FLEET)
    ARRIVALS, PUTS, POLICY_PUTS, LISTS, FEW_AREAS = scaled(ARRIVALS, PUTS, POLICY_PUTS, LISTS, FEW_AREAS)
    MANY_AREAS = FEW_AREAS + scaled(MANY_AREAS - FEW_AREAS)[0]
    QUESTIONS.update({who: scaled(count)[0] for who, count in QUESTIONS.items()})


class Run:
    """One program on one script, and what each round measured of it."""

    def __init__(self, command, source, output):
        self.command = command
        self.source = source
        self.output = output
        self.seconds = []
        self.memory = []

    def measure(self):
        """Runs the command under the timer, which tells its peak memory; both are waited for."""
        note = self.output + ".memory"
        with open(self.source, "rb") as source, open(self.output, "wb") as output:
            command = [TIMER, "-f", "%M", "-o", note] + self.command
            child = subprocess.Popen(command, stdin=source, stdout=output)
            _, status, usage = os.wait4(child.pid, 0)
            child.returncode = os.waitstatus_to_exitcode(status)
        if child.returncode != 0:
            sys.exit("%s ended with %d" % (" ".join(self.command), child.returncode))
        self.seconds.append(usage.ru_utime + usage.ru_stime)
        with open(note, encoding="ascii") as text:
            self.memory.append(int(text.read().split()[-1]))


def city(random, first, edges):
    """So many geographies with a policy of as many rules, published."""
    numbers = range(first, first + RULES)
    rings = generate.districts(random, RULES, edges, RADIUS)
    lines = [generate.put_geography(n, generate.geography(n, ring)) for n, ring in zip(numbers, rings)]
    lines.append(generate.put_policy(first, generate.policy(random, first, RULES, numbers)))
    lines.append(generate.publish(numbers, [first]))
    return lines


def flat(turns):
    """The lines of turns, one after another."""
    return [line for turn in turns for line in turn]


def most_turns():
    """How often any program is asked at most."""
    return 2 + max(QUESTIONS.values())


def asked(name, lines, turns):
    """These lines, the same with a first turn, whose last line is a question, with a second one, and for each program that is asked again
    with its further ones."""
    scripts = {name: lines, f"first {name}": lines + turns[0], f"second {name}": lines + flat(turns[:2])}
    for who, count in QUESTIONS.items():
        scripts[f"ask {name}, {who}"] = lines + flat(turns[: 2 + count])
    return scripts


def alike(target):
    """Turns of the same question."""
    return [[generate.get(target)]] * most_turns()


def question_scripts(random):
    """The questions: the largest fleet, and a policy of the most rules for each number of edges."""
    lines = []
    for place, edges in enumerate(EDGES):
        lines += city(random, 100 * (place + 1), edges)
    scripts = {"cities": lines, "fleet": lines + sorted(generate.fleet(random, FLEET))}
    for place, edges in enumerate(EDGES):
        found = asked("fleet", scripts["fleet"], alike("/compliance/" + generate.policy_id(100 * (place + 1))))
        scripts |= {f"{name.replace('fleet', str(edges))}": it for name, it in found.items() if name != "fleet"}
    questions = [generate.get("/compliance/" + generate.policy_id(100 * (place + 1))) for place in range(len(EDGES))]
    return scripts | {"one policy kept": scripts["fleet"] + questions[:1] * 2, "all policies kept": scripts["fleet"] + questions * 2}


def arrival_scripts(random):
    """A question of a great fleet again and again, and the same behind a new device each time."""
    vehicles = generate.fleet(random, FLEET)
    lines = city(random, 100, EDGES[1]) + sorted(vehicles[ARRIVALS:])
    question = generate.get("/compliance/" + generate.policy_id(100))
    asked = lines + [question] * 2
    return {
        "no arrival": asked + [question] * ARRIVALS,
        "arrivals": asked + [it for vehicle in vehicles[:ARRIVALS] for it in (vehicle, question)],
    }


def documents_of(random, shape):
    """Places, and policies of a shape, published as many at once as there may be drafts."""
    rings = generate.districts(random, shape.places, 200, RADIUS)
    lines = [generate.put_geography(n, generate.geography(n, ring)) for n, ring in enumerate(rings)]
    for first in range(0, shape.policies, MOST_DRAFTS):
        numbers = range(first, min(first + MOST_DRAFTS, shape.policies))
        for n in numbers:
            policy = generate.policy(random, n, shape.rules, [random.below(shape.places) for _ in range(shape.rules)])
            lines.append(generate.put_policy(n, generate.with_windows(random, policy) if shape.windows else policy))
        lines.append(generate.publish(() if first else range(shape.places), numbers))
    return lines


def city_of(random, shape):
    """The documents of a shape, and its fleet."""
    return documents_of(random, shape) + sorted(generate.fleet(random, shape.fleet))


def policies_scripts(random):
    """Many small policies, of a city and of a small one."""
    scripts = asked("policies", city_of(random, CITY), alike("/compliance"))
    return scripts | asked("small city", city_of(random, SMALL_CITY), alike("/compliance"))


def more_policies_scripts(random):
    """As many policies whose rules have windows, asked about at other times of the day; and as many policies as may be."""
    turns = [[generate.get("/compliance", turn * APART)] for turn in range(most_turns())]
    scripts = asked("windows city", city_of(random, CITY._replace(windows=True)), turns)
    lines = city_of(random, MOST_POLICIES)
    return scripts | {"many policies": lines, "many policies and asked": lines + [generate.get("/compliance")]}


def violated_city(random):
    """Two policies of the most rules, all of which are violated: the last one of each catches what no other does. Those of the second have
    windows."""
    numbers, policies = range(VIOLATED, VIOLATED + RULES), (VIOLATED, VIOLATED + 1)
    rings = generate.districts(random, RULES - 1, EDGES[1], RADIUS)
    lines = [generate.put_geography(n, generate.geography(n, ring)) for n, ring in zip(numbers, rings)]
    lines.append(generate.put_geography(numbers[-1], generate.whole_city(numbers[-1])))
    for n in policies:
        policy = generate.policy(random, n, RULES - 1, numbers[:-1], maximum=0)
        policy = policy if n == VIOLATED else generate.with_windows(random, policy)
        lines.append(generate.put_policy(n, generate.with_rest(policy, n, numbers[-1])))
    return lines + [generate.publish(numbers, policies)]


def violated_scripts(random):
    """Questions about violated rules over a great fleet: each behind one vehicle that moved; the same about rules with windows, at other
    times of the day; and each behind many vehicles that moved."""
    vehicles = generate.fleet(random, FLEET)
    lines = violated_city(random) + sorted(vehicles)
    plain, windows = ("/compliance/" + generate.policy_id(n) for n in (VIOLATED, VIOLATED + 1))
    moved = generate.reported_again(random, vehicles[: most_turns()], 0)
    scripts = asked("violated", lines, [[report, generate.get(plain)] for report in moved])
    scripts |= asked("windows", lines, [[report, generate.get(windows, turn * APART)] for turn, report in enumerate(moved)])
    del scripts["windows"]
    question = [generate.get(plain)]
    for count, times in CHANGED:
        turns = [generate.reported_again(random, vehicles[:count], turn + 1) for turn in range(times)]
        scripts[f"changed {count}"] = lines + question * 2 + flat(turns)
        scripts[f"changed {count} and asked"] = lines + question * 2 + flat(turn + question for turn in turns)
    return scripts


def report_scripts(random):
    """New devices in a large fleet, and in fleets of about 2,000, twenty of them."""
    large = sorted(generate.fleet(random, FLEET - MANY_DEVICES))
    more = generate.fleet(random, MANY_DEVICES)
    few = SMALL_FLEET - NEW_DEVICES // 20 // 2
    small, others = [], []
    for operator in range(1, generate.OPERATORS):
        small += sorted(generate.fleet(random, few, operator))
        others += generate.fleet(random, NEW_DEVICES // 20, operator)
    return {
        "large fleet": large,
        "large fleet and more": large + more,
        "small fleets": small,
        "small fleets and more": small + others,
        "no report": [],
        "reports": more[:NEW_DEVICES],
    }


def document_scripts(random):
    """Putting one geography of the most positions and one policy of about 2 KB, again and again; and lists."""
    ring = generate.outline(random, EDGES[-1], generate.CENTRE, 0.8)
    put = generate.put_geography(1, generate.geography(1, ring))
    policy = generate.put_policy(1, generate.policy(random, 1, 6, [1]))
    rings = generate.districts(random, 100, 100, RADIUS)
    lines = [generate.put_geography(n, generate.geography(n, ring)) for n, ring in enumerate(rings)]
    lines += [generate.put_policy(n, generate.policy(random, n, 6, [n])) for n in range(100)]
    lines.append(generate.publish(range(100), range(100)))
    return {
        "geography": [put],
        "geography again": [put] * (1 + PUTS),
        "policy": [policy],
        "policy again": [policy] * (1 + POLICY_PUTS),
        "published": lines,
        "lists": lines + [generate.get("/policies"), generate.get("/geographies")] * LISTS,
    }


def area_scripts(random):
    """Geographies of the most positions, each put and published before the next."""
    ring = generate.outline(random, EDGES[-1], generate.CENTRE, 0.8)
    lines = []
    for n in range(MANY_AREAS):
        lines += [generate.put_geography(n, generate.geography(n, ring)), generate.publish([n])]
    return {"areas": lines[: 2 * FEW_AREAS], "areas and more": lines}


def scripts_for(who, scripts):
    """Which scripts a program runs. The plain one isn't asked what would take it minutes, and the one that keeps memberships questions
    alone."""
    for name in scripts:
        only = name.partition(", ")[2]
        if only and only != who:
            continue
        if who == "scan" and (name.startswith(NOT_SCANNED) or name == f"first {EDGES[-1]}"):
            continue
        asked = name.startswith(("first", "second")) or f"first {name}" in scripts
        if who == "keeping" and not (only or asked or name == "fleet"):
            continue
        yield name


def build_runs(folder, program, scripts):
    good = os.path.join(folder, "good")
    source = os.path.join(HERE, "good", "main.rs")
    subprocess.run(["rustc", "--edition", "2024", "-O", "-o", good, source], check=True)
    commands = {"ours": [program], "good": [good], "keeping": [good, "kept"], "scan": [good, "scan"]}
    paths = {name: generate.write_lines(folder, name + ".replay", lines) for name, lines in scripts.items()}
    runs = {}
    for name in scripts:
        for who, command in commands.items():
            if name in scripts_for(who, scripts):
                runs[who, name] = Run(command, paths[name], os.path.join(folder, "%s %s.out" % (who, name)))
    return runs


def check(runs, scripts):
    """Every answer is a success, all programs give the same ones, and what is expected of them is in them."""
    for (who, name), run in runs.items():
        replies = replies_of(run)
        if len(replies) != len(scripts[name]) or not all(it.startswith("200 ") for it in replies):
            sys.exit("not every answer of %s to '%s' is a success" % (who, name))
        if who == "ours" and name.startswith(EXPECTED) and (line := expected.wrong_reply(scripts[name], replies, fleet_of(name))):
            sys.exit("the answer of %s to '%s' of '%s' isn't as expected" % (who, line, name))
        other = name.partition(", ")[0] + ", ours" if "," in name else name
        if not is_front((scripts[other], replies_of(runs["ours", other])), (scripts[name], replies)):
            sys.exit("%s answers otherwise to '%s'" % (who, name))


def replies_of(run):
    """The lines of a program's output."""
    with open(run.output, encoding="ascii") as output:
        return output.read().splitlines()


def fleet_of(name):
    """How many vehicles a script has whose replies are compared with what is expected."""
    return CITY.fleet if "city" in name else FLEET


def is_front(one, other):
    """Whether the replies of one script are those of the other, or the shorter's are the longer's first ones: questions are asked more
    often of one program than of another. Where it is one question all the time, its answer is the shorter's last one all the time."""
    (short_lines, short), (long_lines, long) = sorted((one, other), key=lambda it: len(it[0]))
    is_alike = all(line == short_lines[-1] for line in long_lines[len(short) :])
    return short == long[: len(short)] and (not is_alike or all(answer == short[-1] for answer in long[len(short) :]))


WHO = ("ours", "good", "keeping", "scan")


class Table:
    """The measures, each of all programs that have it."""

    def __init__(self, runs):
        self.runs = runs

    def seconds(self, who, longer, shorter, count):
        """The seconds of one of the parts that the longer run has over the shorter, by round."""
        if (who, longer) not in self.runs or (who, shorter) not in self.runs:
            return None
        pairs = zip(self.runs[who, longer].seconds, self.runs[who, shorter].seconds)
        return [(more - less) / count for more, less in pairs]

    def row(self, label, longer, shorter, count, scale, unit, bounds):
        """A line of the table: each program's median with the least and the greatest, and the ratios of the medians."""
        return self.print_row(label, {who: self.seconds(who, longer, shorter, count) for who in WHO}, scale, unit, bounds)

    def question(self, label, name, bounds, shorter=None):
        """The same for a question: a further one, the first one, which is the plain program's only one, and the second."""
        first = {who: self.seconds(who, f"first {name}", shorter or name, 1) for who in WHO}
        second = {who: self.seconds(who, f"second {name}", f"first {name}", 1) for who in WHO}
        further = {who: self.seconds(who, f"ask {name}, {who}", f"second {name}", count) for who, count in QUESTIONS.items()}
        asked = self.print_row(label, further | {"scan": first["scan"]}, 1e3, "ms", bounds)
        for which, found in (("first", first), ("second", second)):
            self.print_row(f"the {which} {label.removeprefix('a ')}", found | {"scan": None}, 1e3, "ms", None)
        return asked

    def print_row(self, label, found, scale, unit, bounds):
        """A line of what each program took."""
        ours, good, others = found["ours"], found["good"], [found["keeping"], found["scan"]]
        cells = [label, spread(ours, scale, unit), spread(good, scale, unit)] + told(ratio(ours, good), bounds)
        line(cells + [cell for it in others for cell in ([spread(it, scale, unit), figure(ratio(ours, it))] if it else ["", ""])])
        return ours

    def rate(self, label, names, count, unit, bounds):
        """The same for how many there are in a second, where more is better: by two runs, and by the number that is one of a unit."""
        each = [self.seconds(who, *names, count) for who in ("ours", "good", "scan")]
        ours, good, scan = ([1 / seconds for seconds in rounds] if rounds else None for rounds in each)
        scale, word = unit
        cells = [label, spread(ours, scale, word), spread(good, scale, word)] + told(ratio(ours, good), bounds, more=True)
        line(cells + ["", ""] + ([spread(scan, scale, word), figure(ratio(ours, scan))] if scan else ["", ""]))

    def most(self, label, names, count, unit, bounds):
        """A line of what the longer of two runs takes more, each time, in a unit, and what that must and should be."""
        ours, good = (self.seconds(who, *names, count) for who in ("ours", "good"))
        scale, word = unit
        _, must, aim, kept = told(scale * statistics.median(ours), bounds)
        cells = [spread(ours, scale, word), spread(good, scale, word), "", f"{must} {word}", f"{aim} {word}", kept]
        line([label] + cells + [""] * 4)

    def compare(self, label, ours, others, bounds):
        line([label, "", ""] + told(ratio(ours, others), bounds) + [""] * 4)


def line(cells):
    print("| %s |" % " | ".join(cells))


def told(value, bounds, more=False):
    """A ratio, what it must be at most (or at least, where more is better), what it should be, and whether it is."""
    if bounds is None:
        return [figure(value), "", "", ""]
    kept = [value >= bound if more else value <= bound for bound in bounds]
    found = "lost in noise" if value <= 0 else "no" if not kept[0] else "aim" if kept[1] else "yes"
    return [figure(value)] + [("at least " if more else "") + figure(bound) for bound in bounds] + [found]


def ratio(ours, others):
    return statistics.median(ours) / statistics.median(others)


def figure(value):
    """Three digits that count, and never a power of ten."""
    return "%.0f" % value if abs(value) >= 100 else "%.3g" % value


def spread(values, scale, unit):
    middle, least, most = (f(values) * scale for f in (statistics.median, min, max))
    return "%s %s (%s to %s)" % (figure(middle), unit, figure(least), figure(most))


def tell(runs):
    table = Table(runs)
    print("\n| Measure | mds_replay | good | ratio | must | aim | kept | keeping memberships | ratio | plain | ratio |\n|" + "---|" * 11)
    tell_questions(table)
    tell_changes(table)
    tell_reports(table)
    tell_documents(table)
    tell_memory(runs, "memory of a vehicle, bytes", ("fleet", "cities"), FLEET, (200, 130))
    tell_memory(runs, "for each policy kept", ("all policies kept", "one policy kept"), FLEET * (len(EDGES) - 1), (12, 8))
    label = "memory of a published geography of %d positions, MB" % generate.MOST_POSITIONS
    tell_memory(runs, label, ("areas and more", "areas"), (MANY_AREAS - FEW_AREAS) * 1_000_000, (1.1, 0.8))
    label = "the most memory of a run in which %d of them are put and published, MB" % MANY_AREAS
    tell_memory(runs, label, ("areas and more", None), 1_000_000, (120, 60))


def tell_questions(table):
    """The rows of questions that are asked again and again."""
    further = {}
    for edges in EDGES:
        label = "a question, %d vehicles, %d rules, %d edges each" % (FLEET, RULES, edges)
        further[edges] = table.question(label, str(edges), (0.06, 0.02), "fleet")
        each = [seconds / FLEET / RULES for seconds in further[edges]]
        line(["for each vehicle and rule", spread(each, 1e9, "ns")] + [""] * 9)
    label = "each vehicle, %d edges against %d" % (EDGES[2], EDGES[1])
    table.compare(label, further[EDGES[2]], further[EDGES[1]], (1.8, 1.4))
    label = "a question, %d policies of %d rules, %d vehicles"
    table.question(label % (CITY.policies, CITY.rules, CITY.fleet), "policies", (0.12, 0.05))
    table.question(label % (SMALL_CITY.policies, SMALL_CITY.rules, SMALL_CITY.fleet), "small city", (0.35, 0.2))
    table.question(label % (CITY.policies, CITY.rules, CITY.fleet) + ", windows", "windows city", (0.08, 0.04))
    label = "a question behind a vehicle that moved, %d vehicles, %d rules, all violated" % (FLEET, RULES)
    table.question(label, "violated", (0.06, 0.03))
    table.question(label + ", windows", "windows", (0.06, 0.03), "violated")


def tell_changes(table):
    """The rows of questions behind vehicles that came or changed, and of a first one about all policies."""
    milliseconds = (1e3, "ms")
    label = "a question more behind one new device, fleet of %d" % FLEET
    table.most(label, ("arrivals", "no arrival"), ARRIVALS, milliseconds, (3, 0.7))
    for (count, times), bounds in zip(CHANGED, ((8, 4), (40, 20))):
        label = "a question behind %d of %d vehicles that moved, %d rules, all violated" % (count, FLEET, RULES)
        table.most(label, (f"changed {count} and asked", f"changed {count}"), times, milliseconds, bounds)
    label = "the first question about %d policies of %d rules, %d vehicles"
    label %= (MOST_POLICIES.policies, MOST_POLICIES.rules, MOST_POLICIES.fleet)
    table.most(label, ("many policies and asked", "many policies"), 1, (1, "s"), (1, 0.3))


def tell_reports(table):
    """The rows of reports."""
    label = "a report of a new device, fleet of %d"
    large = table.row(label % FLEET, "large fleet and more", "large fleet", MANY_DEVICES, 1e6, "us", None)
    small = table.row(label % SMALL_FLEET, "small fleets and more", "small fleets", NEW_DEVICES, 1e6, "us", None)
    table.compare("a fleet of %d against %d" % (FLEET, SMALL_FLEET), large, small, (2, 1.5))
    label = "reports a second, fleet from 0 to %d" % NEW_DEVICES
    table.rate(label, ("reports", "no report"), NEW_DEVICES, (1e-3, "thousand"), (0.6, 1))


def tell_documents(table):
    """The rows of documents."""
    label = "putting a geography of %d positions" % generate.MOST_POSITIONS
    table.row(label, "geography again", "geography", PUTS, 1e3, "ms", (1.2, 0.6))
    label = "geographies of %d positions, each put and published" % generate.MOST_POSITIONS
    table.rate(label, ("areas and more", "areas"), MANY_AREAS - FEW_AREAS, (1, "a second"), (0.8, 1))
    table.row("putting a policy of 2 KB", "policy again", "policy", POLICY_PUTS, 1e6, "us", (0.74, 0.3))
    table.row("GET of 100 policies and of 100 geographies", "lists", "published", LISTS, 1e3, "ms", (3, 1.5))


def tell_memory(runs, label, names, count, bounds):
    """A line of what one of so many takes: the difference of the peaks of a run with them and of one without, or the run's whole peak."""
    ours, good = (memory(runs, who, names) / count for who in ("ours", "good"))
    _, must, aim, kept = told(ours, bounds)
    line([label, figure(ours), figure(good), figure(ours / good), must, aim, kept] + [""] * 4)


def memory(runs, who, names):
    """The bytes that the longer of two runs takes over the shorter, by their peaks, or all of it where there is no shorter one."""
    more, less = (statistics.median(runs[who, name].memory) if name else 0 for name in names)
    return (more - less) * 1024


def main():
    parser = argparse.ArgumentParser(description=__doc__)
    parser.add_argument("--program", default=PROGRAM, help="the built mds_replay")
    parser.add_argument("--rounds", type=int, default=ROUNDS)
    parser.add_argument("--scale", type=float, default=1, help="fleets and repetitions so many times as large, to try the scripts")
    options = parser.parse_args()
    scale(options.scale)
    if not shutil.which(TIMER) or not shutil.which("rustc"):
        sys.exit("the benchmark needs rustc, and GNU time as the command %s" % TIMER)
    random = generate.Xorshift(generate.SEED)
    scripts = question_scripts(random) | policies_scripts(random)
    scripts |= report_scripts(random) | document_scripts(random) | area_scripts(random) | arrival_scripts(random)
    scripts |= more_policies_scripts(random) | violated_scripts(random)
    with tempfile.TemporaryDirectory() as folder:
        runs = build_runs(folder, os.path.abspath(options.program), scripts)
        for number in range(options.rounds):
            for (who, name), run in runs.items():
                run.measure()
                print("round %d, %s, %s: %.3f s" % (number + 1, who, name, run.seconds[-1]), file=sys.stderr)
            print("load of the machine after round %d: %.2f" % (number + 1, os.getloadavg()[0]))
        check(runs, scripts)
        tell(runs)


if __name__ == "__main__":
    main()
