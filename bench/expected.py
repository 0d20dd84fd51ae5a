"""What replies to questions have to say, worked out from the script alone, apart from all programs that are timed."""

import json
import re

import generate

DAY = 86_400_000
PUT = re.compile(r"\d+ \S+ PUT /drafts/policies/\S+ (.*)")
ASKED = re.compile(r"(\d+) \S+ GET /compliance\S*")
MOST_DEVICES = 100


def seconds(time):
    """The second of the day of `hh:mm`."""
    hours, minutes = time.split(":")
    return 3_600 * int(hours) + 60 * int(minutes)


def is_open(rule, at):
    """Whether a rule's window is open at a moment, in UTC."""
    today, second = (at // DAY + 4) % 7, at % DAY // 1_000
    start, end = seconds(rule.get("start_time", "00:00")), seconds(rule["end_time"]) if "end_time" in rule else DAY
    is_day_of = [day in rule.get("days", generate.DAYS) for day in generate.DAYS]
    if start <= end:
        return start <= second <= end and is_day_of[today]
    return (start <= second and is_day_of[today]) or (second <= end and is_day_of[today - 1])


def status(rule, at, measure):
    """The status of a rule that catches so many vehicles."""
    if not is_open(rule, at):
        return "inactive"
    return "violated" if measure > rule["maximum"] else "ok"


def is_as_expected(policy, report, at, vehicles):
    """Whether a report tells each rule's status, and the first hundred devices of those that are violated; where the last rule catches
    the rest, whether all together catch the whole fleet."""
    measures = [entry["measure"] for entry in report["rules"]]
    for rule, entry in zip(policy["rules"], report["rules"], strict=True):
        devices, measure = entry.get("devices", []), entry["measure"]
        wanted = status(rule, at, measure)
        if entry["rule_id"] != rule["rule_id"] or entry["status"] != wanted or (wanted == "inactive" and measure):
            return False
        if len(devices) != (min(measure, MOST_DEVICES) if wanted == "violated" else 0) or devices != sorted(set(devices)):
            return False
    return sum(measures) == vehicles if policy["rules"][-1]["name"] == "rest" else sum(measures) <= vehicles


def wrong_reply(lines, replies, vehicles):
    """The first question of a script whose reply tells anything else, or nothing. Every policy of the script is in force from its begin."""
    policies = {}
    for line, reply in zip(lines, replies):
        if found := PUT.fullmatch(line):
            policy = json.loads(found[1])
            policies[policy["policy_id"]] = policy
        elif found := ASKED.fullmatch(line):
            told = json.loads(reply.partition(" ")[2])
            reports = told["policies"] if "policies" in told else [told["policy"]]
            at, wanted = int(found[1]), len(policies) if "policies" in told else 1
            if len(reports) != wanted or not all(is_as_expected(policies[it["policy_id"]], it, at, vehicles) for it in reports):
                return line
    return None
