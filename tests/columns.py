#!/usr/bin/env python3
"""Asks a built mds_replay the same questions over and over, and for the first time: what it keeps between questions changes no answer.

    columns.py PROGRAM [SEED [CITIES]]

A city's author publishes, supersedes and withdraws policies while operators report, repeat, move and remove a few vehicles each, none or
some in a step, so that devices come and go between questions. In one script every operator asks for its compliance behind each of these
steps, at moments before and behind the windows of the rules. In further scripts, one for each step, the same is asked behind that step
alone, when nothing can have been kept. Both must have the same answers. Prints what differs, and last 'N passed, M failed'; ends with 1
where one failed.
"""

import json
import os
import random
import subprocess
import sys

# How many times as long as for the proved program is waited for one that isn't proved, which is slower (tests/unproved.py).
SECONDS = 60 * int(os.environ.get("PATIENCE", "1"))
AUTHOR = "city"
OPERATORS, STEPS, DEVICES, CITIES = 16, 24, 5, 6
START, HOUR = 1_700_000_000_000, 3_600_000
TYPES, STATES, EVENTS = ("scooter", "bicycle"), ("available", "reserved"), ("trip_end", "off_hours")


def identifier(kind, number):
    """A UUID of a kind of things, one of 16^8."""
    return f"00000000-0000-4000-8000-{kind:04x}{number:08x}"


def configuration(zone):
    operators = [{"id": identifier(0, it), "limit": DEVICES, "token": f"op-{it}"} for it in range(OPERATORS)]
    return json.dumps({"author": AUTHOR, "operators": operators, "zone": zone})


def square(number, west):
    ring = [[west, 0], [west + 10, 0], [west + 10, 10], [west, 10], [west, 0]]
    shape = {"type": "Polygon", "coordinates": [ring]}
    return {"geography_id": identifier(1, number), "name": "square", "geography_json": shape}


class City:
    """What happens in a city, step by step, by chance."""

    def __init__(self, seed):
        self.chance = random.Random(seed)
        self.policies, self.places = [], []
        self.first = configuration(self.chance.choice(["Z", "-05:00", "EST5EDT,M3.2.0,M11.1.0"]))
        self.steps = [self.step(it) for it in range(STEPS)]

    def a_moment(self):
        """One before, in or behind the windows, and before or behind the last one."""
        return START + self.chance.randrange(-30, 60) * HOUR + self.chance.randrange(HOUR)

    def a_rule(self, number):
        places = self.chance.sample(self.places, self.chance.randint(1, len(self.places)))
        rule = {"rule_id": identifier(3, number), "name": "rule", "geographies": places}
        if self.chance.random() < 0.5:
            rule |= {"rule_type": "count", "maximum": self.chance.randrange(3)}
        else:
            rule |= {"rule_type": "time", "rule_units": "hours", "maximum": self.chance.randrange(20)}
        if self.chance.random() < 0.3:
            rule["minimum"] = 1
        if self.chance.random() < 0.5:
            rule["vehicle_types"] = [self.chance.choice(TYPES)]
        if self.chance.random() < 0.5:
            rule["states"] = {self.chance.choice(STATES): self.chance.sample(EVENTS, self.chance.randrange(2))}
        if self.chance.random() < 0.4:
            rule |= {"start_time": "08:00", "end_time": self.chance.choice(["20:00", "02:00"])}
        if self.chance.random() < 0.3:
            rule["days"] = self.chance.sample(["mon", "tue", "wed", "thu", "fri", "sat", "sun"], 3)
        return rule

    def of_author(self, moment):
        """What the author does in a step: a policy with its places, one that takes the place of another, or one withdrawn."""
        number = len(self.policies)
        if self.policies and self.chance.random() < 0.3:
            yield moment, AUTHOR, "POST", "/publish", {"withdraw": [self.chance.choice(self.policies)]}
            return
        if len(self.policies) == 8 or self.chance.random() < 0.4:
            return
        place = square(number, self.chance.choice([0, 5, 20]))
        self.places.append(place["geography_id"])
        rules = [self.a_rule(64 * number + it) for it in range(self.chance.choice([1, 2, 5, 63, 64]))]
        policy = {"policy_id": identifier(2, number), "name": "policy", "start_date": self.a_moment(), "rules": rules}
        if self.policies and self.chance.random() < 0.4:
            policy["prev_policies"] = [self.chance.choice(self.policies)]
        self.policies.append(policy["policy_id"])
        yield moment, AUTHOR, "PUT", f"/drafts/geographies/{place['geography_id']}", place
        yield moment, AUTHOR, "PUT", f"/drafts/policies/{policy['policy_id']}", policy
        yield moment, AUTHOR, "POST", "/publish", {"geographies": [place["geography_id"]], "policies": [policy["policy_id"]]}

    def of_operator(self, operator, moment):
        """What an operator does in a step: a report, which may be the same again, too old or of the future, or a removal."""
        device, token = identifier(4, DEVICES * operator + self.chance.randrange(DEVICES)), f"op-{operator}"
        if self.chance.random() < 0.2:
            return moment, token, "DELETE", f"/fleet/vehicles/{device}", None
        place = {"lat": self.chance.choice([-5, 0, 5, 10]), "lng": self.chance.choice([0, 7, 12, 25])}
        report = {
            "device_id": device,
            "vehicle_type": self.chance.choice(TYPES),
            "vehicle_state": self.chance.choice(STATES),
            "event_types": self.chance.sample(EVENTS, self.chance.randrange(3)),
            "timestamp": moment + self.chance.choice([-HOUR, 0, 0, 0, 1]),
            "location": place,
        }
        return moment, token, "POST", "/fleet/events", report

    def step(self, number):
        """The requests of a step, and at which moments each operator asks behind it."""
        moment = START + number * HOUR // 2
        times = [self.chance.choice([0, 0, 1, 1, 2, 5]) for _ in range(OPERATORS)]
        done = [*self.of_author(moment), *(self.of_operator(it, moment) for it, many in enumerate(times) for _ in range(many))]
        return done, [self.a_moment() for _ in range(OPERATORS)]


def line(moment, token, method, target, body=None):
    return f"{moment} {token} {method} {target}" + ("" if body is None else f" {json.dumps(body)}")


def questions(moments, times):
    """Each operator asks for its compliance so many times."""
    return [line(moment, f"op-{it}", "GET", "/compliance") for it, moment in enumerate(moments) for _ in range(times)]


def answers(program, first, lines):
    """What the program answers to each line behind a configuration."""
    script = "".join(f"{it}\n" for it in [first, *lines]).encode()
    ran = subprocess.run([program], input=script, stdout=subprocess.PIPE, check=True, timeout=SECONDS)
    found = ran.stdout.decode().splitlines()
    if len(found) != len(lines):
        raise ValueError(f"{len(found)} answers to {len(lines)} lines")
    return found


def differences(program, city, times=3):
    """Where an operator that asks behind every step is answered otherwise than one that asks behind this step alone."""
    every, behind, places = [], [], []
    for done, moments in city.steps:
        every += [line(*it) for it in done]
        places.append(len(every))
        every += questions(moments, times)
    asked = answers(program, city.first, every)
    for number, (done, moments) in enumerate(city.steps):
        behind += [line(*it) for it in done]
        alone = answers(program, city.first, behind + questions(moments, 1))[len(behind) :]
        kept = asked[places[number] : places[number] + times * OPERATORS]
        for operator, wanted in enumerate(alone):
            if not wanted.startswith("200 "):
                yield f"step {number}: operator {operator} is answered {wanted[:80]}"
            for again, found in enumerate(kept[times * operator : times * (operator + 1)]):
                if found != wanted:
                    yield f"step {number}: operator {operator} is answered otherwise when it asks time {again + 1}: {found[:200]}"


def main(program, seed=1, cities=CITIES):
    passed = failed = 0
    for number in range(int(cities)):
        found = list(differences(program, City(f"{seed}/{number}")))
        for it in found[:5]:
            print(f"city {number}, seed {seed}: {it}")
        passed, failed = passed + (not found), failed + bool(found)
    print(f"{passed} passed, {failed} failed")
    return 1 if failed else 0


if __name__ == "__main__":
    if len(sys.argv) not in (2, 3, 4):
        sys.exit("usage: columns.py PROGRAM [SEED [CITIES]]")
    sys.exit(main(os.path.abspath(sys.argv[1]), *sys.argv[2:]))
