"""What report.html has to say, worked out from the rows of verdicts.csv and from the policies' documents, and what it mustn't have."""

import html.parser
import itertools
import re
from datetime import datetime, timedelta

OPEN = ("ok", "violated")
DAY_LINE = re.compile(r"<tr><th>(\d{4}-\d\d-\d\d)</th><td><svg[^>]*>(.*?)</svg></td><td>(\d+ of \d+)</td></tr>\n", re.S)
MARK = re.compile(r'<rect class="(\w+)"[^>]* x="(\d+)" width="(\d+)"/>')
DRAWN = {"violated": "violated", "ok": "kept"}


def minute_of(local):
    """The minute that the clock shows in a local text."""
    return 60 * int(local[11:13]) + int(local[14:16])


def marks_of(rows, every):
    """The marks of a rule's day, by its rows: of which class, where each begins, and how long it is, by the clock. One goes on to the next
    row where that is as long behind as rows are, and the clock went as far: it wasn't set in between."""
    marks, before = [], None
    for row in rows:
        drawn, at, begin = DRAWN.get(row[9], "closed"), datetime.fromisoformat(row[0]), minute_of(row[1])
        if not before or before[0] != drawn or at - before[1] != timedelta(minutes=every) or begin != before[2] + every:
            marks.append([drawn, begin, 0])
        marks[-1][2] = max(1, min(begin + every, 1440) - marks[-1][1])
        before = drawn, at, begin
    return tuple(tuple(it) for it in marks)


def minutes_are_told(day, rows, marks, every):
    """Each minute of a day that a sample stands for is in a mark of its class, and a mark has no other one: none of the hour that the clock
    passes over."""
    for drawn in ("violated", "kept", "closed"):
        begins = [minute_of(row[1]) for row in rows if DRAWN.get(row[9], "closed") == drawn]
        of_rows = {it for begin in begins for it in range(begin, min(begin + every, 1440))}
        of_marks = {it for kind, begin, width in marks if kind == drawn for it in range(begin, begin + width)}
        if of_rows != of_marks:
            yield f"on {day} {drawn} are {sorted(of_rows ^ of_marks)}"


RULE = re.compile(
    r"<h3>[^<]* <small>([^<]*)</small></h3>\n<p>Policy &ldquo;[^<]*&rdquo; <small>([^<]*)</small>, rule (\d+): ([^.]*)\. (Violated in [^<]*)</p>\n"
    r"(?:<p>([^<]*)</p>\n)?<table>\n"
)


def vehicles(number):
    return "1 vehicle" if number == 1 else f"{number} vehicles"


def counts_of(rows):
    """In how many of a rule's samples it was violated: of those in which it was open, and how many there are, where these are more."""
    judged = sum(row[9] in OPEN for row in rows)
    which = " in which it was open" if judged else " in which it was open and evaluated"
    behind = f"{which} ({len(rows)} in all)" if judged < len(rows) else ""
    return f"Violated in {sum(row[9] == 'violated' for row in rows)} of {judged} samples{behind}."


def worst_of(rule, measures):
    """By how much a rule is violated, by the measures of violated samples: a count above its bound and below it, or vehicles at once."""
    if measures and rule["rule_type"] == "time":
        yield f" At worst {vehicles(max(measures))} at once."
    if measures and rule["rule_type"] == "count":
        bounds, (low, high) = limits_of(rule), (min(measures), max(measures))
        # The most and the least that are allowed.
        most = rule.get("maximum", 10**9) - (not rule.get("inclusive_maximum", True))
        least = rule.get("minimum", 0) + ("minimum" in rule and not rule.get("inclusive_minimum", True))
        if high > most:
            yield f" At worst {high} of {bounds[-1]}: {high - most} too many."
        if low < least:
            yield f" At worst {low} of {bounds[0]}: {least - low} too few."


def since_of(rows, first, last):
    """From when to when a rule was violated last whenever it was open, by its rows; nothing where it never was."""
    judged = [row for row in rows if row[9] in OPEN]
    kept = list(itertools.takewhile(lambda row: row[9] == "ok", reversed(judged)))
    run = list(itertools.takewhile(lambda row: row[9] == "violated", reversed(judged[: len(judged) - len(kept)])))
    if not run:
        return ""
    since = run[-1][1] + (" or before" if len(run) + len(kept) == len(judged) and rows[0][0] == first else "")
    if kept:
        return f"Last violated, whenever the rule was open, from {since} to {run[0][1]}; it was kept since. Its lines show each time."
    if run[0][0] == last:
        return f"Violated at the report's end, and whenever the rule was open since {since}. Its lines show each time."
    return f"Last violated, whenever the rule was open, from {since} to {run[0][1]}, the last sample in which it was open. Its lines show each time."


def limits_of(rule):
    """A rule's minimum and maximum in words, those that it has."""
    least, most = ("at least", "more than"), ("at most", "fewer than")
    words = [f"{least[not rule.get('inclusive_minimum', True)]} {rule['minimum']}"] if "minimum" in rule else []
    return words + ([f"{most[not rule.get('inclusive_maximum', True)]} {rule['maximum']}"] if "maximum" in rule else [])


def bounds_of(rule):
    """A rule's bounds in words."""
    unit = "vehicles" if rule["rule_type"] == "count" else rule["rule_units"]
    if rule.get("maximum", rule.get("minimum")) == 1:
        unit = unit.removesuffix("s")
    if rule["rule_type"] != "count":
        unit += " in one state"
    return f"{' and '.join(limits_of(rule)) or 'any number of'} {unit}"


class Page(html.parser.HTMLParser):
    """What is in a page: its elements with their attributes, whether they are closed in order, and its text."""

    VOID = ("meta", "link", "br", "hr", "img", "input", "col")

    def __init__(self, text):
        super().__init__(convert_charrefs=True)
        self.open, self.elements, self.texts, self.faults = [], [], [], []
        self.feed(text)
        self.close()
        if self.open:
            self.faults.append(f"{self.open} are open at the end")

    def handle_starttag(self, tag, attrs):
        self.elements.append((tag, dict(attrs)))
        if tag not in self.VOID:
            self.open.append(tag)

    def handle_startendtag(self, tag, attrs):
        self.elements.append((tag, dict(attrs)))

    def handle_endtag(self, tag):
        if not self.open or self.open.pop() != tag:
            self.faults.append(f"</{tag}> closes another")

    def handle_data(self, data):
        self.texts.append(data)


def page_faults(text):
    """What a page mustn't have: scripts, what runs by an event, what is fetched from elsewhere, elements that aren't closed."""
    page = Page(text)
    yield from page.faults
    for tag, attributes in page.elements:
        if tag in ("script", "img", "link", "iframe", "object", "embed", "form", "base", "foreignobject"):
            yield f"the page has an element {tag}"
        for name, value in attributes.items():
            if name.startswith("on") or "javascript:" in (value or "") or (name in ("href", "src") and not value.startswith("#")):
                yield f"the page has {tag} with {name}={value!r}"
    if "http" in text.replace("http://www.w3.org/", ""):
        yield "the page names an address"
