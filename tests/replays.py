#!/usr/bin/env python3
"""Runs a built mds_replay on scripts whose answers are known from outside the program.

    replays.py PROGRAM [PART PARTS]

The scripts are tests/replays/NAME.in with NAME.out (its standard output), NAME.status (its exit status) and, where it isn't the
one known line of that status, NAME.err (its standard error), and those that are made here, since they are long: bodies, lines and
documents at their limits, fleets and catalogues that are full, areas and fleets held against their definitions, and a device that
takes no bytes. With 2 and 3 the second of three parts of them is run. Prints what differs, and last
'N passed, M failed'; ends with 1 where one failed.
"""

import os
import subprocess
import sys

HERE = os.path.dirname(os.path.abspath(__file__))
# How many times as long as for the proved program is waited for one that isn't proved, which is slower (tests/unproved.py).
PATIENCE = int(os.environ.get("PATIENCE", "1"))
SLOWNESS = int(os.environ.get("SLOWNESS", str(PATIENCE)))  # as in wire.py
SECONDS = 120 * PATIENCE

MESSAGES = {0: b"", 1: b"replay: write fault\n", 2: b"replay: bad configuration\n", 3: b"replay: no memory\n"}

BODY_LIMIT = 1_048_576
LINE_LIMIT = 2_097_152
FLEET_LIMIT = 200_000
# The limit of a fleet that is filled: a program that isn't proved takes its time.
FILLED = FLEET_LIMIT if SLOWNESS == 1 else 5_000
DRAFT_LIMIT = 256
CATALOGUE_LIMIT = 512
DEVICES_LISTED = 100
RULE_LIMIT = 64
POSITION_LIMIT = 20_000

AUTHOR, FIRST, SECOND = "city", "alfa", "bravo"


def identifier(kind, number):
    """A UUID of a kind of things, one of 16^8."""
    return f"00000000-0000-4000-8000-{kind:04x}{number:08x}"


def configuration(first_limit, second_limit):
    operators = [(0xA1, first_limit, FIRST), (0xB1, second_limit, SECOND)]
    entries = ",".join(f'{{"id":"{identifier(0, n)}","limit":{limit},"token":"{token}"}}' for n, limit, token in operators)
    return f'{{"author":"{AUTHOR}","operators":[{entries}],"zone":"Z"}}'


SQUARE = identifier(1, 1)
CAP = identifier(2, 1)
RULE = identifier(3, 1)
RING = "[[[0,0],[10,0],[10,10],[0,10],[0,0]]]"


def geography(uuid):
    return f'{{"geography_id":"{uuid}","name":"square","geography_json":{{"type":"Polygon","coordinates":{RING}}}}}'


def policy(uuid, rules=""):
    return f'{{"policy_id":"{uuid}","name":"cap","start_date":0,"rules":[{rules}]}}'


def count_rule(maximum):
    return f'{{"rule_id":"{RULE}","name":"cap","rule_type":"count","geographies":["{SQUARE}"],"maximum":{maximum}}}'


def put(kind, uuid, document):
    return f"1000 {AUTHOR} PUT /drafts/{kind}/{uuid} {document}"


def publish(moment, **lists):
    members = ",".join(f'"{name}":[' + ",".join(f'"{it}"' for it in ids) + "]" for name, ids in lists.items())
    return f"{moment} {AUTHOR} POST /publish {{{members}}}"


def report(token, number):
    """A report of a vehicle in the square, at 2000."""
    return (
        f'2000 {token} POST /fleet/events {{"device_id":"{identifier(4, number)}","vehicle_type":"scooter",'
        '"vehicle_state":"available","timestamp":2000,"location":{"lat":5,"lng":5}}'
    )


NEW = '200 {"result":"new"}'


def published(moment, revision):
    return f'200 {{"published_date":{moment},"revision":{revision}}}'


def judged(status, measure, devices=None):
    """The compliance of the one policy at 2000, at revision 1."""
    listed = "" if devices is None else '"devices":[' + ",".join(f'"{it}"' for it in devices) + "],"
    entry = f'{{{listed}"measure":{measure},"rule_id":"{RULE}","status":"{status}"}}'
    return f'200 {{"at":2000,"policies":[{{"policy_id":"{CAP}","rules":[{entry}]}}],"revision":1,"version":2}}'


def capped(maximum):
    """The lines that publish a cap on vehicles in the square, and their answers."""
    lines = [
        put("geographies", SQUARE, geography(SQUARE)),
        put("policies", CAP, policy(CAP, count_rule(maximum))),
        publish(1000, geographies=[SQUARE], policies=[CAP]),
    ]
    return lines, [NEW, NEW, published(1000, 1)]


ASK = f"2000 {FIRST} GET /compliance"


def bodies_at_the_limit():
    ask, empty = f"2000 {FIRST} GET /fleet/vehicles", '200 {"vehicles":[]}'
    lines, answers = [], []
    for token, over in ((FIRST, 0), (FIRST, 1), ("nobody", 1), (AUTHOR, 1)):
        lines += [f"2000 {token} POST /fleet/events " + " " * (BODY_LIMIT + over), ask]
        answers += ['413 {"error":"too_large"}' if over else '400 {"error":"bad_json"}', empty]
    return [configuration(2, 2)] + lines, answers


def lines_at_the_limit():
    front = f"2000 {FIRST} POST /fleet/events "
    lines = [front + "x" * (LINE_LIMIT - len(front) + over) for over in (0, 1, 8)]
    ask = f"2000 {FIRST} GET /fleet/vehicles"
    bad = '400 {"error":"bad_line"}'
    return [configuration(2, 2), *lines, ask], ['413 {"error":"too_large"}', bad, bad, '200 {"vehicles":[]}']


def a_neighbour_with_5000_vehicles():
    """One operator's answers are the same with nothing of another's and with 5,000 vehicles of it."""
    lines, answers = capped(1)
    for number in range(5000):
        lines.append(report(SECOND, number))
        answers.append(NEW)
    lines += [report(FIRST, 1), ASK, report(FIRST, 2), ASK]
    answers += [NEW, judged("ok", 1), NEW, judged("violated", 2, [identifier(4, 1), identifier(4, 2)])]
    return [configuration(2, 5000)] + lines, answers


def a_fleet_at_its_limit():
    """The largest fleet that may be, or a smaller one before the proof: every vehicle is counted, and one more isn't taken."""
    limit = FILLED
    lines, answers = capped(limit)
    for number in range(limit):
        lines.append(report(FIRST, number))
        answers.append(NEW)
    lines += [report(FIRST, limit), ASK]
    answers += ['409 {"error":"fleet_full"}', judged("ok", limit)]
    return [configuration(limit, 2)] + lines, answers


def a_fleet_one_over_a_cap():
    """5,001 vehicles over a cap of 5,000: the first hundred are listed, in the order of their identifiers."""
    lines, answers = capped(5000)
    for number in reversed(range(5001)):
        lines.append(report(FIRST, number))
        answers.append(NEW)
    lines.append(ASK)
    answers.append(judged("violated", 5001, [identifier(4, number) for number in range(DEVICES_LISTED)]))
    return [configuration(FLEET_LIMIT, 2)] + lines, answers


def drafts_and_catalogue_full_of_both_kinds():
    """256 drafts of each kind, twice published whole; a 513th of neither kind fits."""
    lines, answers = [], []
    for turn in range(CATALOGUE_LIMIT // DRAFT_LIMIT):
        numbers = range(turn * DRAFT_LIMIT, (turn + 1) * DRAFT_LIMIT)
        areas, rules = [identifier(1, n) for n in numbers], [identifier(2, n) for n in numbers]
        lines += [put("geographies", it, geography(it)) for it in areas] + [put("policies", it, policy(it)) for it in rules]
        answers += [NEW] * (2 * DRAFT_LIMIT)
        other = identifier(9, 0)
        lines += [put("geographies", other, geography(other)), put("policies", other, policy(other))]
        answers += ['409 {"error":"drafts_full"}'] * 2
        lines.append(publish(1000 + turn, geographies=areas, policies=rules))
        answers.append(published(1000 + turn, turn + 1))
    for kind, document in (("geographies", geography), ("policies", policy)):
        lines += [put(kind, identifier(9, 0), document(identifier(9, 0))), publish(3000, **{kind: [identifier(9, 0)]})]
        answers += [NEW, '409 {"error":"catalog_full"}']
    lines.append(f"3000 {FIRST} GET /policies/{identifier(2, CATALOGUE_LIMIT - 1)}")
    served = policy(identifier(2, CATALOGUE_LIMIT - 1))
    answers.append('200 {"policy":' + ordered(served, 1001) + ',"revision":2}')
    return [configuration(2, 2)] + lines, answers


def ordered(document, moment):
    """A policy of `policy` without rules as it is served: its members in the order of their names."""
    uuid = document.split('"')[3]
    return f'{{"name":"cap","policy_id":"{uuid}","published_date":{moment},"rules":[],"start_date":0}}'


def served_policy(uuid, moment, rules):
    """A policy of `policy` as it is served, a draft where it has no moment; its rules as they are served."""
    dated = "" if moment is None else f'"published_date":{moment},'
    return f'{{"name":"cap","policy_id":"{uuid}",{dated}"rules":[{rules}],"start_date":0}}'


def served_geography(uuid, moment, polygons):
    """A geography of these polygons as it is served, a draft where it has no moment."""
    geometry = f'{{"coordinates":[{polygons}],"type":"MultiPolygon"}}'
    feature = f'{{"geometry":{geometry},"properties":null,"type":"Feature"}}'
    dated = "" if moment is None else f',"published_date":{moment}'
    collection = f'{{"features":[{feature}],"type":"FeatureCollection"}}'
    return f'{{"geography_id":"{uuid}","geography_json":{collection},"name":"area"{dated}}}'


def area(uuid, kind, coordinates):
    """A geography of a geometry of this kind."""
    geometry = f'{{"type":"{kind}","coordinates":{coordinates}}}'
    return f'{{"geography_id":"{uuid}","name":"area","geography_json":{geometry}}}'


def the_most_rules():
    """64 rules are taken, shown as a draft, published and shown; 65 aren't taken."""
    names = [f'"name":"cap","rule_id":"{identifier(3, number)}","rule_type":"count"' for number in range(RULE_LIMIT + 1)]
    rules = [f'{{"geographies":[],{name}}}' for name in names]
    whole = ",".join(rules[:RULE_LIMIT])
    draft, shown = f"1000 {AUTHOR} GET /drafts/policies/{CAP}", f"1000 {FIRST} GET /policies/{CAP}"
    lines = [put("policies", CAP, policy(CAP, ",".join(rules))), draft, put("policies", CAP, policy(CAP, whole)), draft]
    lines += [publish(1000, policies=[CAP]), shown, draft]
    answers = ['400 {"error":"too_many_rules"}', '404 {"error":"no_draft"}', NEW]
    answers += ['200 {"draft":' + served_policy(CAP, None, whole) + "}", published(1000, 1)]
    answers += ['200 {"policy":' + served_policy(CAP, 1000, whole) + ',"revision":1}', '404 {"error":"no_draft"}']
    return [configuration(2, 2)] + lines, answers


def the_most_positions():
    """20,000 positions are taken, shown as a draft, published and shown; one more isn't taken."""
    ring = lambda position, count: "[" + ",".join([position] * count) + "]"
    square = "[[0,0],[10,0],[10,10],[0,10],[0,0]]"
    forms = [
        ("Polygon", "[{}]", "[{}]", "[0,0]", POSITION_LIMIT),
        ("Polygon", "[{}]", "[{}]", "[0.5,-0.5]", POSITION_LIMIT),
        ("MultiPolygon", f"[[{square}],[{{}}]]", f"[{square}],[{{}}]", "[0,0]", POSITION_LIMIT - 5),
    ]
    lines, answers = [], []
    for number, (kind, written, polygons, position, most) in enumerate(forms):
        uuid = identifier(1, number)
        draft, shown = f"1000 {AUTHOR} GET /drafts/geographies/{uuid}", f"1000 {SECOND} GET /geographies/{uuid}"
        whole = polygons.format(ring(position, most))
        for count in (most + 1, most):
            lines += [put("geographies", uuid, area(uuid, kind, written.format(ring(position, count)))), draft]
        lines += [publish(1000, geographies=[uuid]), shown]
        answers += ['400 {"error":"too_many_points"}', '404 {"error":"no_draft"}', NEW]
        answers += ['200 {"draft":' + served_geography(uuid, None, whole) + "}", published(1000, number + 1)]
        answers.append('200 {"geography":' + served_geography(uuid, 1000, whole) + f',"revision":{number + 1}}}')
    return [configuration(2, 2)] + lines, answers


def a_chain_of_512_policies():
    """Eight publications of 64 policies, each in the place of the one 64 places before: the last 64 are in force."""
    layer, lines, answers = 64, [], []
    ids = [identifier(2, place * 37 % CATALOGUE_LIMIT) for place in range(CATALOGUE_LIMIT)]
    moments = [1000 * (1 + place // layer) for place in range(CATALOGUE_LIMIT)]
    for first in range(0, CATALOGUE_LIMIT, layer):
        places = range(first, first + layer)
        for place in places:
            before = f'"{ids[place - layer]}"' if first else ""
            lines.append(put("policies", ids[place], policy(ids[place])[:-1] + f',"prev_policies":[{before}]}}'))
        lines.append(publish(moments[first], policies=[ids[place] for place in places]))
        answers += [NEW] * layer + [published(moments[first], 1 + first // layer)]
    revision = CATALOGUE_LIMIT // layer
    for at in (999, *sorted(set(moments))):
        entries = ",".join(f'{{"policy_id":"{it}","rules":[]}}' for it, moment in zip(ids, moments) if moment == at)
        lines.append(f"{at} {FIRST} GET /compliance")
        answers.append(f'200 {{"at":{at},"policies":[{entries}],"revision":{revision},"version":2}}')
    for place, (uuid, moment) in enumerate(zip(ids, moments)):
        before = f'"{ids[place - layer]}"' if place >= layer else ""
        shown = f'"name":"cap","policy_id":"{uuid}","prev_policies":[{before}],"published_date":{moment},"rules":[],"start_date":0'
        lines.append(f"1 {SECOND} GET /policies/{uuid}")
        answers.append(f'200 {{"policy":{{{shown}}},"revision":{revision}}}')
    return [configuration(2, 2)] + lines, answers


def numbers(seed):
    """A row of 64-bit numbers without a pattern (xorshift)."""
    number = seed
    while True:
        number ^= number << 13 & 0xFFFF_FFFF_FFFF_FFFF
        number ^= number >> 7
        number ^= number << 17 & 0xFFFF_FFFF_FFFF_FFFF
        yield number


def reports_and_removals_against_a_list():
    """12,000 reports and removals of 3,000 devices do to a fleet of 2,000 what the rules say of a plain list."""
    limit, held, lines, answers = 2000, {}, [], []
    row = numbers(88_172_645_463_325_252)
    for now in range(1, 12_000):
        device, chance, state = identifier(4, next(row) % 3000), next(row), ("available", "on_trip")[next(row) % 2]
        if chance % 4 == 0:
            lines.append(f"{now} {FIRST} DELETE /fleet/vehicles/{device}")
            answers.append(f'200 {{"removed":"{device}"}}' if held.pop(device, None) else '404 {"error":"not_found"}')
            continue
        sent = 1 if chance % 32 == 1 else now + 1 if chance % 32 == 2 else now
        members = f'"device_id":"{device}","vehicle_type":"scooter","vehicle_state":"{state}","timestamp":{sent}'
        lines.append(f'{now} {FIRST} POST /fleet/events {{{members},"location":{{"lat":5,"lng":5}}}}')
        if sent > now:
            answers.append('409 {"error":"future"}')
        elif device not in held:
            answers.append(NEW if len(held) < limit else '409 {"error":"fleet_full"}')
            if len(held) < limit:
                held[device] = (state, sent, sent)
        else:
            kept, timestamp, since = held[device]
            same = (kept, timestamp) == (state, sent)
            answers.append('409 {"error":"stale"}' if timestamp > sent else '200 {"result":"%s"}' % ("same" if same else "changed"))
            if timestamp <= sent:
                held[device] = (state, sent, since if kept == state else sent)
    place = '"event_types":[],"location":{"lat":5,"lng":5},"propulsion_types":[]'
    vehicles = ",".join(
        f'{{"device_id":"{it}",{place},"since":{since},"timestamp":{sent},"vehicle_state":"{state}","vehicle_type":"scooter"}}'
        for it, (state, sent, since) in sorted(held.items())
    )
    lines.append(f"12000 {FIRST} GET /fleet/vehicles")
    answers.append(f'200 {{"vehicles":[{vehicles}]}}')
    return [configuration(limit, 2)] + lines, answers


def degrees(units):
    """Ten-millionths of a degree in decimal notation."""
    whole, rest = divmod(abs(units), 10**7)
    return "-" * (units < 0) + str(whole) + (f".{rest:07}".rstrip("0") if rest else "")


def reaching(polygons, lat):
    """The edges of each polygon that reach a latitude; no other counts for a position there."""
    return [
        [
            (start, end)
            for ring in polygon
            for start, end in zip(ring, ring[1:] + ring[:1])
            if min(start[1], end[1]) <= lat <= max(start[1], end[1])
        ]
        for polygon in polygons
    ]


def holds(polygons, at):
    """By the definition, edge after edge: what is on an edge is held, and what a polygon's edges cross oddly to the east."""
    lng, lat = at
    for polygon in polygons:
        odd = False
        for (from_lng, from_lat), (to_lng, to_lat) in polygon:
            side = (to_lng - from_lng) * (lat - from_lat) - (to_lat - from_lat) * (lng - from_lng)
            if side == 0 and min(from_lng, to_lng) <= lng <= max(from_lng, to_lng):
                return True
            odd ^= from_lat <= lat < to_lat and side > 0 or to_lat <= lat < from_lat and side < 0
        if odd:
            return True
    return False


def on_a_grid(areas, lngs, lats):
    """Vehicles go along each latitude, one at each longitude: those are counted in an area that it holds by the definition."""
    lines, answers, names = [], [], [(identifier(1, it), identifier(2, it)) for it in range(len(areas))]
    for (place, cap), polygons in zip(names, areas):
        corner = lambda at: f"[{degrees(at[0])},{degrees(at[1])}]"
        rings = lambda polygon: ",".join("[" + ",".join(map(corner, ring + ring[:1])) + "]" for ring in polygon)
        lines.append(put("geographies", place, area(place, "MultiPolygon", "[" + ",".join(f"[{rings(it)}]" for it in polygons) + "]")))
        lines.append(put("policies", cap, policy(cap, count_rule(0).replace(SQUARE, place))))
        answers += [NEW, NEW]
    lines.append(publish(1000, geographies=[place for place, _ in names], policies=[cap for _, cap in names]))
    answers.append(published(1000, 1))
    for moment, lat in enumerate(lats, 2000):
        for number, lng in enumerate(lngs):
            location = f'"location":{{"lat":{degrees(lat)},"lng":{degrees(lng)}}}'
            members = f'"device_id":"{identifier(4, number)}","vehicle_type":"scooter","vehicle_state":"available","timestamp":{moment}'
            lines.append(f"{moment} {FIRST} POST /fleet/events {{{members},{location}}}")
            answers.append(NEW if moment == 2000 else '200 {"result":"changed"}')
        entries = []
        for (_, cap), polygons in zip(names, areas):
            reached = reaching(polygons, lat)
            told = [f'"{identifier(4, number)}"' for number, lng in enumerate(lngs) if holds(reached, (lng, lat))]
            listed, status = (f'"devices":[{",".join(told)}],', "violated") if told else ("", "ok")
            entry = f'{{{listed}"measure":{len(told)},"rule_id":"{RULE}","status":"{status}"}}'
            entries.append(f'{{"policy_id":"{cap}","rules":[{entry}]}}')
        lines.append(f"{moment} {FIRST} GET /compliance")
        answers.append(f'200 {{"at":{moment},"policies":[{",".join(entries)}],"revision":1,"version":2}}')
    return [configuration(len(lngs), 2)] + lines, answers


def walk(start, *sides):
    """The corners along sides, each a step and how often it is taken, one unit after another."""
    corners, at = [], start
    for (lng, lat), count in sides:
        for _ in range(count):
            corners.append(at)
            at = (at[0] + lng, at[1] + lat)
    return corners


EAST, NORTH, WEST, SOUTH = (1, 0), (0, 1), (-1, 0), (0, -1)
BLOCK = [(0, 0), (16, 0), (16, 16), (0, 16)]
HOLE = [(4, 4), (8, 4), (8, 8), (4, 8)]
# it shares a corner with the hole and has corners on the block's sides
SECOND_HOLE = [(8, 8), (16, 8), (12, 12), (8, 16)]
STAIRS = [(0, 0), (12, 0), (12, 4), (8, 4), (8, 8), (4, 8), (4, 12), (0, 12)]
# two long edges, and short ones
COMB = [(0, 0), (16, 16)] + [(10 + lat % 2, 9 - lat) for lat in range(10)]
LONG_STAIRS = walk(
    (0, 0), (EAST, 20), (NORTH, 4), (WEST, 6), (NORTH, 4), (WEST, 6), (NORTH, 4), (WEST, 8), (SOUTH, 12)
)
SAW = [(0, 0), (15, 15)] + [(16 - tooth, lat) for tooth in range(16) for lat in (0, 1)]


def box(low, high):
    """The corners round a box, one unit after another."""
    width, height = high[0] - low[0], high[1] - low[1]
    return walk(low, (EAST, width), (NORTH, height), (WEST, width), (SOUTH, height))


def diamond(middle, size):
    """The corners round a square on its tip, one unit after another."""
    return walk((middle[0] + size, middle[1]), ((-1, 1), size), ((-1, -1), size), ((1, -1), size), ((1, 1), size))


def small_and_generated_areas():
    """Holes, stairs, combs and saws, and 96 areas of two rings whose edges cross wherever it comes."""
    areas = [[], [[BLOCK]], [[BLOCK, HOLE]], [[BLOCK, HOLE, SECOND_HOLE]], [[STAIRS]], [[COMB]]]
    areas += [[[BLOCK, HOLE], [STAIRS], [COMB]], [[HOLE], [SECOND_HOLE], [HOLE]]]
    areas += [[[LONG_STAIRS]], [[SAW]], [[LONG_STAIRS], [SAW]]]
    row = numbers(88_172_645_463_325_252)
    for turn in range(48):
        first, second = ([(next(row) % 11, next(row) % 11) for _ in range(3 + turn % 16)] for _ in range(2))
        areas += [[[first, second]], [[first], [second]]]
    return on_a_grid(areas, range(-2, 18), range(-2, 18))


def areas_of_many_cells():
    """Boxes with holes and a polygon within one, and squares on their tips: most cells tell what is held."""
    outer, hole, inner = box((0, 0), (32, 28)), box((7, 8), (24, 20)), box((12, 11), (19, 17))
    large, small = diamond((20, 20), 20), diamond((24, 20), 9)
    areas = [[[outer, hole]], [[outer, hole], [inner]], [[large, small]], [[small], [large]]]
    return on_a_grid(areas, range(-2, 44), range(-2, 44))


def areas_far_apart():
    """Two small polygons with most strips and cells between them empty."""
    areas = [[[box((0, 0), (16, 16))], [box((0, 1_000_000), (16, 1_000_016))]]]
    ends = [-1, 0, 1, 15, 16, 17]
    lats = [*ends, 262_144, 500_000, 999_999, *(1_000_000 + it for it in ends[1:])]
    return on_a_grid(areas, [-1, 0, 1, 8, 15, 16, 17], lats)


def areas_at_the_ends_of_the_map():
    """Triangles at both poles and on both sides of the antimeridian."""
    east, north = 1_800_000_000, 900_000_000
    areas = [[[[(-4, lat), (4, lat), (0, inner)]] for lat, inner in ((north, north - 4), (-north, 4 - north))]]
    areas[0] += [[[(lng, 0), (lng, 4), (inner, 0)]] for lng, inner in ((east, east - 4), (-east, 4 - east))]
    near = lambda end: [it for step in (4, 3, 1, 0) for it in (step - end, end - step)] + [-4, -3, -1, 0, 1, 3, 4]
    return on_a_grid(areas, sorted(near(east)), sorted(near(north)))


MADE = [
    bodies_at_the_limit,
    lines_at_the_limit,
    a_neighbour_with_5000_vehicles,
    a_fleet_at_its_limit,
    a_fleet_one_over_a_cap,
    drafts_and_catalogue_full_of_both_kinds,
    the_most_rules,
    the_most_positions,
    a_chain_of_512_policies,
    reports_and_removals_against_a_list,
    small_and_generated_areas,
    areas_of_many_cells,
    areas_far_apart,
    areas_at_the_ends_of_the_map,
]


def kept(name):
    """A script in files: its input, its output, its status and its standard error."""
    path = f"{HERE}/replays/{name}"
    with open(f"{path}.in", "rb") as given, open(f"{path}.out", "rb") as wanted, open(f"{path}.status") as ends:
        status, said = int(ends.read()), None
        if os.path.exists(f"{path}.err"):
            with open(f"{path}.err", "rb") as error:
                said = error.read()
        return given.read(), wanted.read(), status, MESSAGES[status] if said is None else said


def made(make):
    """A script that is made here."""
    lines, answers = make()
    return "".join(f"{it}\n" for it in lines).encode(), "".join(f"{it}\n" for it in answers).encode(), 0, b""


def first_difference(got, wanted):
    """The first line in which two outputs differ."""
    got, wanted = got.split(b"\n"), wanted.split(b"\n")
    for number, (one, other) in enumerate(zip(got, wanted), 1):
        if one != other:
            return f"line {number}: {one[:160]!r}, not {other[:160]!r}"
    return f"{len(got)} lines, not {len(wanted)}"


def run(program, given, sink=subprocess.PIPE):
    return subprocess.run([program], input=given, stdout=sink, stderr=subprocess.PIPE, timeout=SECONDS)


def faults(program, name, script):
    """What is wrong with a run of a script, each thing in a line."""
    given, wanted, status, said = script()
    ran = run(program, given)
    if ran.returncode != status:
        yield f"{name}: status {ran.returncode}, not {status}"
    if ran.stdout != wanted:
        yield f"{name}: {first_difference(ran.stdout, wanted)}"
    if ran.stderr != said:
        yield f"{name}: standard error {ran.stderr[:160]!r}, not {said[:160]!r}"


def faults_of_a_full_device(program):
    """A device without room: what was answered can't be sent on, and the program says so."""
    lines, _ = capped(1)
    given = "".join(f"{it}\n" for it in [configuration(2, 2), *lines]).encode()
    with open("/dev/full", "wb") as full:
        ran = run(program, given, sink=full)
    if (ran.returncode, ran.stderr) != (1, MESSAGES[1]):
        yield f"a_full_device: status {ran.returncode}, standard error {ran.stderr[:160]!r}"


def faults_of_a_long_configuration(program):
    """A first line over the limit of a line is no configuration, whatever it says, and the program says so."""
    given = configuration(2, 2).encode().ljust(LINE_LIMIT + 1) + b"\n"
    ran = run(program, given)
    if (ran.returncode, ran.stdout, ran.stderr) != (2, b"", MESSAGES[2] + b"longer than 2097152 bytes\n"):
        yield f"a_long_configuration: status {ran.returncode}, standard error {ran.stderr[:160]!r}"


def told(name, found):
    """The faults, or why they can't be told."""
    try:
        return list(found)
    except (OSError, ValueError, KeyError, subprocess.SubprocessError) as fault:
        return [f"{name}: {fault!r}"]


def tries(program):
    """Each script by its name, with its faults; they are looked for once they are asked for."""
    names = sorted({it.rsplit(".", 1)[0] for it in os.listdir(f"{HERE}/replays")})
    for name in names:
        yield name, faults(program, name, lambda name=name: kept(name))
    for make in MADE:
        yield make.__name__, faults(program, make.__name__, lambda make=make: made(make))
    yield "a_full_device", faults_of_a_full_device(program)
    yield "a_long_configuration", faults_of_a_long_configuration(program)
    if not names:
        yield "tests/replays", iter(["tests/replays: no script"])


def main(program, part=1, parts=1):
    tried = {name: told(name, found) for number, (name, found) in enumerate(tries(program)) if number % parts == part - 1}
    for line in (line for found in tried.values() for line in found):
        print(line)
    if SLOWNESS > 1 and a_fleet_at_its_limit.__name__ in tried:
        print(f"a_fleet_at_its_limit has a limit of {FILLED}, not of {FLEET_LIMIT} as in make prove")
    failed = sum(bool(found) for found in tried.values())
    print(f"{len(tried) - failed} passed, {failed} failed")
    return 1 if failed else 0


if __name__ == "__main__":
    if len(sys.argv) not in (2, 4):
        sys.exit("usage: replays.py PROGRAM [PART PARTS]")
    sys.exit(main(os.path.abspath(sys.argv[1]), *map(int, sys.argv[2:])))
