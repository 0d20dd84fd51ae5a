"""Generated input for the benchmark: the same on every machine, from one fixed seed."""

import math
import os
import re

SEED = 0x9E3779B97F4A7C15
MASK = (1 << 64) - 1
DEGREE = 10_000_000
START = 1_700_000_000_000
CENTRE = (-861_000_000, 398_000_000)
HALF_BOX = 2_000_000
MOST_POSITIONS = 20_000
MOST_VEHICLES = 200_000
OPERATORS = 21
VEHICLE_TYPES = ("bicycle", "cargo_bicycle", "car", "moped", "scooter_standing", "scooter_seated", "delivery_robot", "other")
STATES = ("available", "reserved", "on_trip", "non_operational", "elsewhere", "stopped")
PROPULSION = ("human", "electric_assist", "electric", "combustion")
DAYS = ("sun", "mon", "tue", "wed", "thu", "fri", "sat")
COUNT = '"rule_type":"count",'
EVENTS = ("trip_start", "trip_end", "trip_pause", "battery_low", "maintenance", "rebalance_pick_up", "located", "agency_drop_off")
DEVICE = re.compile('"device_id":"([^"]*)"')


class Xorshift:
    """A small generator of 64 random bits at a time (xorshift, shifts 13, 7 and 17)."""

    def __init__(self, seed):
        self.state = seed

    def next(self):
        x = self.state
        x ^= (x << 13) & MASK
        x ^= x >> 7
        x ^= (x << 17) & MASK
        self.state = x
        return x

    def below(self, limit):
        return (self.next() >> 16) % limit

    def some(self, words, most):
        """So many distinct words at most, one at least."""
        rest = list(words)
        return [rest.pop(self.below(len(rest))) for _ in range(1 + self.below(most))]


def identifier(kind, number):
    return "00000000-0000-4000-8000-%04x%08x" % (kind, number)


def geography_id(number):
    return identifier(1, number)


def policy_id(number):
    return identifier(2, number)


def token(operator):
    return "operator_%d" % operator


def config():
    entries = (
        '{"id":"%s","limit":%d,"token":"%s"}' % (identifier(9, n), MOST_VEHICLES, token(n)) for n in range(OPERATORS)
    )
    return '{"author":"city","operators":[%s],"zone":"Z"}' % ",".join(entries)


def degrees(units):
    """The text of a coordinate, always with seven decimals."""
    size = abs(units)
    return "%s%d.%07d" % ("-" if units < 0 else "", size // DEGREE, size % DEGREE)


def position_text(position):
    return "[%s,%s]" % (degrees(position[0]), degrees(position[1]))


def outline(random, edges, centre, radius):
    """A closed ring of so many edges: four corners, else a coast with bays."""
    ring = []
    for number in range(edges):
        angle = 0.3 + 2 * math.pi * number / edges
        reach = radius
        if edges > 4:
            reach *= 1 + 0.2 * math.sin(5 * angle) + 0.05 * math.sin(17 * angle)
        reach = reach * HALF_BOX + random.below(1_000)
        lng = centre[0] + round(reach * math.cos(angle))
        lat = centre[1] + round(reach * math.sin(angle))
        ring.append((lng, lat))
    return ring + ring[:1]


def districts(random, count, edges, radius):
    """Rings of so many edges each, round centres that lie anywhere in the city."""
    rings = []
    for _ in range(count):
        centre = [middle - HALF_BOX + random.below(2 * HALF_BOX + 1) for middle in CENTRE]
        rings.append(outline(random, edges, centre, radius))
    return rings


def geography(number, ring):
    return '{"geography_id":"%s","name":"%d edges","geography_json":{"type":"Polygon","coordinates":[[%s]]}}' % (
        geography_id(number),
        len(ring) - 1,
        ",".join(position_text(position) for position in ring),
    )


def words(texts):
    return "[%s]" % ",".join('"%s"' % text for text in texts)


def rule(random, number, geographies, maximum):
    """A count rule, three in four of which ask for types, states with events, or propulsion too."""
    members = [
        '"rule_id":"%s"' % identifier(3, number),
        '"name":"rule %d"' % number,
        '"rule_type":"count"',
        '"geographies":%s' % words(geography_id(n) for n in geographies),
        '"maximum":%d' % maximum,
    ]
    if random.below(2):
        members.append('"vehicle_types":%s' % words(random.some(VEHICLE_TYPES, 4)))
    if random.below(2):
        states = random.some(STATES, 3)
        entries = ('"%s":%s' % (state, words(random.some(EVENTS, 4) if random.below(2) else [])) for state in states)
        members.append('"states":{%s}' % ",".join(entries))
    if random.below(4) == 0:
        members.append('"propulsion_types":%s' % words(random.some(PROPULSION, 2)))
    return "{%s}" % ",".join(members)


def policy(random, number, rules, geographies, maximum=MOST_VEHICLES, name="cap"):
    """A policy of so many rules, each with one of these geographies in turn."""
    entries = (rule(random, 64 * number + n, [geographies[n % len(geographies)]], maximum) for n in range(rules))
    return '{"policy_id":"%s","name":"%s","start_date":%d,"rules":[%s]}' % (policy_id(number), name, START, ",".join(entries))


def window(random):
    """The members of a rule's window: some hours, perhaps over midnight, and for half of the rules some days."""
    begin = random.below(1_440)
    end = (begin + 360 + random.below(900)) % 1_440
    members = '"start_time":"%02d:%02d","end_time":"%02d:%02d",' % (*divmod(begin, 60), *divmod(end, 60))
    return members + ('"days":%s,' % words(random.some(DAYS, 5)) if random.below(2) else "")


def with_windows(random, policy):
    """The same policy, each rule of which is open at its own times of some days."""
    front, *rules = policy.split(COUNT)
    return front + "".join(COUNT + window(random) + rest for rest in rules)


def with_rest(policy, number, place):
    """The same policy with a last rule, always open, that catches whatever is in a place, of which there may be none."""
    last = (identifier(3, 64 * number + 63), COUNT, words([geography_id(place)]))
    return policy[:-2] + ',{"rule_id":"%s","name":"rest",%s"geographies":%s,"maximum":0}]}' % last


def whole_city(number):
    """A geography in which the whole city lies: a square of twice its width."""
    lng, lat = CENTRE
    corners = ((lng + 2 * x * HALF_BOX, lat + 2 * y * HALF_BOX) for x, y in ((-1, -1), (1, -1), (1, 1), (-1, 1), (-1, -1)))
    return geography(number, list(corners))


def device(random):
    bits = "%016x%016x" % (random.next(), random.next())
    return "-".join((bits[:8], bits[8:12], bits[12:16], bits[16:20], bits[20:]))


def report(random, operator, name=None, timestamp=START + 500):
    """A new device with a random identifier, or the one of this name, at a random position of the city."""
    lng, lat = (middle - HALF_BOX + random.below(2 * HALF_BOX + 1) for middle in CENTRE)
    return (
        '%d %s POST /fleet/events {"device_id":"%s","vehicle_type":"%s","propulsion_types":%s,'
        '"vehicle_state":"%s","event_types":%s,"timestamp":%d,"location":{"lat":%s,"lng":%s}}'
        % (
            START + 1_000,
            token(operator),
            name or device(random),
            VEHICLE_TYPES[random.below(len(VEHICLE_TYPES))],
            words(random.some(PROPULSION, 2)),
            STATES[random.below(len(STATES))],
            words(random.some(EVENTS, 2)),
            timestamp,
            degrees(lat),
            degrees(lng),
        )
    )


def fleet(random, size, operator=0):
    return [report(random, operator) for _ in range(size)]


def reported_again(random, reports, turn):
    """Of each of these reports of the first operator a later one, of a turn, of its vehicle elsewhere in the city."""
    return [report(random, 0, DEVICE.search(it)[1], START + 500 + turn) for it in reports]


def request(method, target, body=None, who="city", at=START):
    line = "%d %s %s %s" % (at, who, method, target)
    return line if body is None else line + " " + body


def put_geography(number, body):
    return request("PUT", "/drafts/geographies/" + geography_id(number), body)


def put_policy(number, body):
    return request("PUT", "/drafts/policies/" + policy_id(number), body)


def publish(geographies, policies=()):
    body = '{"geographies":%s,"policies":%s}'
    return request("POST", "/publish", body % (words(map(geography_id, geographies)), words(map(policy_id, policies))))


def get(target, later=0):
    """A question of the first operator, so many milliseconds later than another."""
    return request("GET", target, who=token(0), at=START + 2_000 + later)


def write_lines(folder, name, lines):
    path = os.path.join(folder, name)
    with open(path, "w", encoding="ascii", newline="\n") as out:
        out.write("\n".join([config()] + lines))
        out.write("\n")
    return path
