// Checks of the page's parts that need no browser: node units.mjs
//
// Local times are compared with those of the system's time zones, and verdicts with what docs/PROTOCOL.md says, by hand.

import { cpSync, mkdtempSync, readFileSync, readdirSync, rmSync, writeFileSync } from "node:fs";
import { tmpdir } from "node:os";
import { join } from "node:path";
import { TOP } from "./city.mjs";
import { Tally } from "./tally.mjs";

// A copy that node takes as modules, which a browser is told by the page.
const copy = mkdtempSync(join(tmpdir(), "web-"));
process.on("exit", () => rmSync(copy, { recursive: true }));
cpSync(join(TOP, "web"), copy, { recursive: true });
writeFileSync(join(copy, "package.json"), '{"type":"module"}');
globalThis.sessionStorage = { getItem: () => null };
const part = (name) => import(join(copy, `${name}.js`));
const { inWhole, isCrossing, mercator, unmercator, within } = await part("geometry");
const { Clock, zone } = await part("zone");
const { WAITS, WORDS, askPast, inTurn } = await part("server");
const { csv } = await part("dom");
const rules = await part("rules");

const { is, ok, done } = new Tally();
const DAY = 86_400_000, HOUR = 3_600_000;

// --- Zones --------------------------------------------------------------------------------------------------------------

/** How far a named zone is from UTC at a moment, in milliseconds. */
function system(name) {
  const format = new Intl.DateTimeFormat("en-US", { timeZone: name, hourCycle: "h23", year: "numeric", month: "numeric",
    day: "numeric", hour: "numeric", minute: "numeric", second: "numeric" });
  return (t) => {
    const [month, day, year, hour, minute, second] = format.format(t).match(/\d+/g).map(Number);
    return Date.UTC(year, month - 1, day, hour, minute, second) - Math.floor(t / 1000) * 1000;
  };
}

const SAME = [
  ["PST8PDT,M3.2.0,M11.1.0", "America/Los_Angeles", 2010, 2030],
  ["CET-1CEST,M3.5.0,M10.5.0/3", "Europe/Berlin", 2010, 2030],
  ["AEST-10AEDT,M10.1.0,M4.1.0/3", "Australia/Sydney", 2010, 2030],
  ["<-03>3", "America/Argentina/Buenos_Aires", 2010, 2030],
  ["IST-5:30", "Asia/Kolkata", 2010, 2030],
  ["+05:45", "Asia/Kathmandu", 2010, 2030],
  ["-07:00", "America/Phoenix", 2010, 2030],
];
for (const [text, name, first, last] of SAME) {
  const offset = zone(text), wanted = system(name);
  let wrong = "";
  for (let t = Date.UTC(first, 0, 1); t < Date.UTC(last, 0, 1) && !wrong; t += 17 * HOUR - 1) {
    if (offset(t) !== wanted(t)) wrong = new Date(t).toISOString();
  }
  is(`${text} is as ${name}`, wrong, "");
}
is("J60 is the first of March in a leap year too", zone("XXX0YYY,J60/0,J300/0")(Date.UTC(2024, 1, 29, 12)), 0);
is("59 is the 29th of February in a leap year", zone("XXX0YYY,59/0,300/0")(Date.UTC(2024, 1, 29, 12)), HOUR);
is("a name is no zone", zone("America/Los_Angeles"), null);
is("a field goes there and back over a change of clocks", [Date.UTC(2026, 10, 1, 7), Date.UTC(2026, 2, 8, 11), Date.UTC(2026, 6, 1)]
  .map((t) => { const clock = new Clock("PST8PDT,M3.2.0,M11.1.0"); return clock.fromField(clock.toField(t)) - t; }).join(), "0,0,0");

const own = new Clock("", true);
is("the reader's own time is said to be so, and no other", [own, new Clock("Z", true)].map((it) => /^your own time, UTC/.test(it.name(0))).join(), "true,false");
is("a zone that isn't told is UTC", [own.isTold, new Clock("").offset(0)].join(), "false,0");

// --- Geometry -----------------------------------------------------------------------------------------------------------

const square = (side, at = 0) => [[at, at], [at + side, at], [at + side, at + side], [at, at + side], [at, at]];
const holds = (polygons, x, y) => within(inWhole(polygons), { lng: [Math.round(x * 1e7)], lat: [Math.round(y * 1e7)] }, 1)[0];
const ringed = [[square(10), square(4, 3)]];
is("inside, on the edge, on a corner", [holds(ringed, 1, 1), holds(ringed, 0, 5), holds(ringed, 10, 10)].join(), "1,1,1");
is("in the hole, on its edge, outside", [holds(ringed, 5, 5), holds(ringed, 3, 5), holds(ringed, 11, 5)].join(), "0,1,0");
is("a hair from a long slanted edge", [[90, 45], [90, 45.0000001], [90, 44.9999999]]
  .map(([x, y]) => holds([[[[0, 0], [180, 90], [180, 0], [0, 0]]]], x, y)).join(), "1,0,1");
const [x, y] = mercator(-122.68, 45.52), [lng, lat] = unmercator(x, y);
ok("the map's square goes there and back", Math.abs(lng + 122.68) < 1e-9 && Math.abs(lat - 45.52) < 1e-9);

is("a square, a bow tie, a corner on an edge, an edge there and back, corners twice", [square(10), [[0, 0], [4, 4], [4, 0], [0, 4], [0, 0]],
  [[0, 0], [8, 0], [8, 8], [4, 0], [0, 8], [0, 0]], [[0, 0], [8, 0], [8, 8], [8, 0], [0, 8], [0, 0]], [[0, 0], [0, 0], [4, 0], [4, 4], [4, 4], [0, 0]]]
  .map(isCrossing).join(), "false,true,true,true,false");
is("a long outline is looked at in time, and crosses nothing", isCrossing(inWhole([[Array.from({ length: 20_001 }, (_, n) => {
  const angle = 2 * Math.PI * (n % 20_000) / 20_000, radius = n % 2 ? 0.08 : 0.07;
  return [radius * Math.cos(angle), radius * Math.sin(angle)];
})]])[0][0]), false);

// --- Policies -----------------------------------------------------------------------------------------------------------

const policy = (id, more = {}) => ({ policy_id: id, name: id, published_date: 100, start_date: 100, rules: [], ...more });
function standing(it, t, policies = [it], withdrawals = [], judged = null) {
  return rules.standing(it, t, { policies, withdrawals: new Map(withdrawals), judged }).kind;
}
const A = policy("a"), B = policy("b", { published_date: 150, start_date: 200, prev_policies: ["a"] });
is("before its publication", standing(A, 99), "soon");
is("from its start on", standing(A, 100), "force");
is("before the end date", standing(policy("a", { end_date: 120 }), 119), "force");
is("at the end date", standing(policy("a", { end_date: 120 }), 120), "ended");
is("with an end that isn't after its start", standing(policy("a", { end_date: 100 }), 110), "never");
is("before its successor has started", standing(A, 199, [A, B]), "force");
is("once its successor has started", standing(A, 200, [A, B]), "superseded");
is("superseded though the successor has ended", standing(A, 900, [A, { ...B, end_date: 300 }]), "superseded");
is("withdrawn before it was superseded", standing(A, 900, [A, B], [["a", 180]]), "withdrawn");
is("superseded before it was withdrawn", standing(A, 900, [A, B], [["a", 250]]), "superseded");
is("due, and not among those that were judged", standing(A, 300, [A], [], { at: 300, policies: new Map() }), "gone");
is("published only after the server judged", standing(A, 300, [A], [], { at: 90, policies: new Map() }), "force");

const clock = new Clock("Z"), monday = Date.UTC(2026, 10, 23);
const open = (rule, day, hour, second = 0) => rules.isOpen(rule, monday + day * DAY + hour * HOUR + second * 1000, clock);
const night = { start_time: "20:00", end_time: "02:00", days: ["fri"] };
is("a window over midnight", [open(night, 4, 19.99), open(night, 4, 20), open(night, 5, 2), open(night, 5, 2, 1), open(night, 4, 1)]
  .join(), "false,true,true,false,false");
is("a whole day", [open({}, 0, 0), open({ end_time: "05:00" }, 0, 5), open({ end_time: "05:00" }, 0, 5, 1)].join(), "true,true,false");

// --- Verdicts -----------------------------------------------------------------------------------------------------------

const kinds = [{ type: "scooter", state: "available", propulsion: ["electric"], events: ["trip_end"] },
  { type: "bicycle", state: "on_trip", propulsion: ["human"], events: ["trip_start"] }];
const fleet = { count: 4, kinds, kind: [0, 0, 1, 0], since: [0, 1000, 0, 5000], inside: [[1, 1, 1, 0], [0, 1, 1, 1]] };
const places = [{ geography_id: "P" }, { geography_id: "Q" }];
const rule = (more) => ({ rule_type: "count", geographies: ["P"], ...more });
const verdicts = (...list) => rules.workOut(policy("a", { rules: list }), 10_000, { fleet, places, clock })
  .map((it) => `${it.status} ${it.measure} ${it.rows.join("")}`).join("; ");
is("the first rule catches", verdicts(rule({ vehicle_types: ["scooter"], maximum: 1 }), rule({ geographies: ["Q"], maximum: 2 })),
  "violated 2 01; ok 2 23");
is("bounds that aren't within", verdicts(rule({ maximum: 3, inclusive_maximum: false })), "violated 3 012");
is("too few", verdicts(rule({ minimum: 4 })), "violated 3 012");
is("too few are no offenders", [rules.hasTooFew({ ...rule({}), minimum: 4 }, 3), rules.hasTooFew({ ...rule({}), maximum: 2 }, 3)]
  .join(), "true,false");
is("how long they stand", verdicts(rule({ rule_type: "time", rule_units: "seconds", maximum: 9, geographies: ["P", "Q"] })),
  "violated 2 02");
is("states and events", verdicts(rule({ states: { available: ["trip_end"], on_trip: ["trip_pause"] } })), "ok 2 01");
is("what isn't judged", verdicts(rule({ rule_type: "speed" }), rule({ rule_type: "time" })), "not_evaluated 0 ; not_evaluated 0 ");
is("nowhere", verdicts(rule({ geographies: [], maximum: 0 })), "ok 0 ");
is("bounds in words", [{ maximum: 0 }, { minimum: 2, maximum: 1500 }, { minimum: 1, inclusive_minimum: false }, {}]
  .map((it) => rules.bounds(rule(it))).join("; "), "None; At least 2, at most 1,500; More than 1; Any number");

const two = { ...fleet, owner: [0, 0, 1, 1], starts: [0, 2, 4] };
const each = (...list) => rules.workOutEach(policy("a", { rules: list }), 10_000, { fleet: two, places, clock })
  .map((it) => it.map(({ status, measure }) => `${status} ${measure}`).join(", ")).join("; ");
is("each operator's own vehicles count", each(rule({ vehicle_types: ["scooter"], maximum: 1 }), rule({ geographies: ["Q"], minimum: 1 })),
  "violated 2, ok 0; violated 0, ok 2");
is("closed, and not judged, for each operator", each(rule({ days: ["fri"] }), rule({ rule_type: "speed" })), "inactive 0, inactive 0; not_evaluated 0, not_evaluated 0");
is("a unit that is none isn't judged", ["hours", "toString", "constructor", undefined].map((rule_units) =>
  rules.isJudged({ rule_type: "time", rule_units })).join(), "true,false,false,false");
is("how long ago, in words", [0, 59_999, 60_000, 3 * HOUR + 12 * 60_000, HOUR, 2 * DAY + 23 * HOUR + 59 * 60_000, DAY + 60_000].map((it) => rules.ago(it)).join("; "),
  "less than a minute ago; less than a minute ago; 1 minute ago; 3 hours 12 minutes ago; 1 hour ago; 2 days 23 hours ago; 1 day ago");
is("how long before another moment", [0, HOUR].map((it) => rules.ago(it, "before then")).join("; "), "less than a minute before then; 1 hour before then");
const words = [rules.TYPES, rules.STATES, rules.EVENTS, rules.PROPULSIONS];
is("each word of MDS stands once, in order", words.map((list) => list.join() === [...new Set(list)].sort().join()).join(), "true,true,true,true");
ok("and is a token of the protocol", words.flat().every((it) => /^[a-z0-9_]{1,40}$/.test(it)));

// --- How operators stand ------------------------------------------------------------------------------------------------

const measured = (more, status, measure) => rules.measured(rule(more), { status, measure });
is("a count against its bounds", [measured({ maximum: 10 }, "violated", 12), measured({ maximum: 0 }, "violated", 3), measured({ minimum: 4 }, "ok", 4),
  measured({ maximum: 10, inclusive_maximum: false }, "violated", 1200)].join("; "), "12 of at most 10: 2 too many; 3, none allowed: 3 too many; 4 of at least 4; 1,200 of fewer than 10: 1,191 too many");
is("a count that is too low", [measured({ minimum: 40 }, "violated", 33), measured({ minimum: 40, inclusive_minimum: false }, "violated", 40),
  measured({ minimum: 10, maximum: 40 }, "violated", 45)].join("; "),
"33 of at least 40: 7 too few; 40 of more than 40: 1 too few; 45 of at least 10, at most 40: 5 too many");
const time = { rule_type: "time", rule_units: "hours" };
is("a time's bounds in words", [{ maximum: 1 }, { minimum: 1, maximum: 24 }, { maximum: 0 }, { rule_units: "days", minimum: 1, inclusive_minimum: false }]
  .map((it) => rules.bounds(rule({ ...time, ...it }))).join("; "), "At most 1 hour; At least 1 hour, at most 24 hours; At most 0 hours; More than 1 day");
is("a time against its bounds", [measured({ ...time, maximum: 72 }, "violated", 9), measured({ ...time, maximum: 24, inclusive_maximum: false }, "ok", 0),
  measured({ ...time, minimum: 2, maximum: 24 }, "violated", 1)].join("; "),
"9 vehicles for more than 72 hours; no vehicle for 24 hours or more; 1 vehicle for less than 2 hours, or for more than 24 hours");
const stoodFor = (more, ...minutes) => rules.measured(rule({ ...time, ...more }), { status: "violated", measure: minutes.length },
  minutes.map((it) => it * 60_000));
is("and how far it is off", [stoodFor({ maximum: 72 }, 72 * 60 + 130), stoodFor({ maximum: 1 }, 61, 100, 99),
  stoodFor({ rule_units: "days", maximum: 1, inclusive_maximum: false }, 1440), stoodFor({ minimum: 2 }, 119, 90), stoodFor({ minimum: 2, maximum: 24 }, 90, 2440)]
  .join("; "), "1 vehicle for more than 72 hours: 2 hours 10 minutes too long; 3 vehicles for more than 1 hour: up to 40 minutes too long; "
  + "1 vehicle for 1 day or more: less than a minute too long; 2 vehicles for less than 2 hours: up to 30 minutes too short; "
  + "2 vehicles for less than 2 hours, or for more than 24 hours: up to 16 hours 40 minutes too long, up to 30 minutes too short");
is("unless a vehicle stood otherwise then", stoodFor({ maximum: 1 }, 61, 60), "2 vehicles for more than 1 hour");
is("what isn't judged has no measure", [measured({}, "inactive", 0), measured({ rule_type: "speed" }, "not_evaluated", 0)].join(), ",");
const ruled = (id, ...names) => policy(id, { policy_id: id, name: id, rules: names.map((name) => rule({ name })) });
const reports = (...list) => ({ policies: list.map(([policy_id, ...statuses]) => ({ policy_id, rules: statuses.map((status) => ({ status, measure: 0 })) })) });
const stood = rules.standingRows([{ id: "B", compliance: reports(["p", "ok", "violated"], ["q", "inactive"]) }, { id: "A", compliance: reports(["P", "violated", "ok"]) },
  { id: "C", compliance: { error: "no_memory" } }, { id: "D", compliance: reports(["unknown", "ok"]) }], [ruled("p", "one", "two"), ruled("q", "three")]);
const said = (list) => list.map((it) => `${it.id}${it.owner} ${it.rule.name} ${it.verdict.status}`).join("; ");
is("a row for each operator and rule that it is told of", said(stood),
  "B0 one ok; B0 two violated; B0 three inactive; A1 one violated; A1 two ok");
is("the broken ones first", said(rules.inOrder(stood, "broken", (id) => id)),
  "B0 two violated; A1 one violated; B0 one ok; A1 two ok; B0 three inactive");
is("by operator", said(rules.inOrder(stood, "operator", (id) => id)), "A1 one violated; A1 two ok; B0 two violated; B0 one ok; B0 three inactive");
is("by policy", said(rules.inOrder(stood, "policy", (id) => id)), "B0 two violated; A1 one violated; B0 one ok; A1 two ok; B0 three inactive");
const lookedAt = (...looks) => {
  const rowsOf = (status) => (status ? rules.standingRows([{ id: "A", compliance: reports(["p", status]) }], [ruled("p", "one")]) : []);
  const seen = looks.reduce((before, [at, status]) => rules.remember(before, rowsOf(status), at, 90), new Map()).get("A p/0");
  return `${seen.hasBegun ? "since" : "before"} ${seen.from}`;
};
is("broken when it was first seen", lookedAt([100, "violated"], [130, "violated"]), "before 100");
is("seen to break", lookedAt([100, "ok"], [130, "violated"], [160, "violated"], [160, "violated"]), "since 130");
is("seen to break again", lookedAt([100, "violated"], [130, "ok"], [160, "violated"]), "since 160");
is("nobody looked for as long as may be", lookedAt([100, "ok"], [190, "violated"]), "since 190");
is("nor for longer, so that nobody saw it break", lookedAt([100, "ok"], [191, "violated"]), "before 191");
is("and nobody saw that it stayed broken", lookedAt([100, "ok"], [130, "violated"], [221, "violated"]), "before 221");
is("a rule that wasn't told of meanwhile", lookedAt([100, "ok"], [130, null], [160, "violated"]), "before 160");
const east = new Clock("+02:00"), dayTime = new Intl.DateTimeFormat(undefined, { timeZone: "UTC", hour: "2-digit", minute: "2-digit" });
is("a moment of the same local day", east.since(Date.UTC(2026, 0, 4, 22, 5), Date.UTC(2026, 0, 5, 21, 59)), dayTime.format(Date.UTC(2026, 0, 5, 0, 5)));
is("a moment of another one", east.since(Date.UTC(2026, 0, 4, 21, 59), Date.UTC(2026, 0, 4, 22, 5)), east.when(Date.UTC(2026, 0, 4, 21, 59)));
is("a moment in local time with its offset", [["-03:30", "2026-01-04T18:35:00.000-03:30"], ["Z", "2026-01-04T22:05:00.000+00:00"],
  ["PST8PDT,M3.2.0,M11.1.0", "2026-01-04T14:05:00.000-08:00"]].map(([text, wanted]) => new Clock(text).stamp(Date.UTC(2026, 0, 4, 22, 5)) === wanted).join(),
"true,true,true");
is("CSV by RFC 4180, without a formula", csv([["a", 'b "c"', "d,e", "f\ng"], ["=1+1", "+1", "-1", "@x", "\tx", "'x"], [-1, null, undefined, 0]]),
  "a,\"b \"\"c\"\"\",\"d,e\",\"f\ng\"\r\n'=1+1,'+1,'-1,'@x,'\tx,'x\r\n-1,,,0\r\n");

// --- Since when ---------------------------------------------------------------------------------------------------------

/** Since when something is so that was so at some moments, counted in minutes before now, by how many questions. */
async function sinceWhen(wasSo, now = Date.UTC(2026, 10, 29, 12, 0, 30)) {
  const asked = [], minutes = (t) => Math.ceil((now - t) / 60_000);
  const { from, before, stood, isKept } = await rules.sinceWhen(now, async (t) => {
    asked.push(t);
    const told = wasSo(minutes(t));
    return typeof told === "boolean" ? told ? "violated" : "ok" : told;
  });
  const isWhole = asked.every((it) => it % 300_000 === 0), isOnce = new Set(asked).size === asked.length;
  return { from: minutes(from), before: before && minutes(before), stood, isKept, count: asked.length, isWhole, isOnce };
}

for (const age of [1, 4, 5, 14, 16, 59, 61, 200, 239, 241, 1_000, 5_000, 20_000]) {
  const { from, before, count, isWhole, isOnce } = await sinceWhen((it) => it <= age), near = Math.max(5, (before ?? 0) / 64);
  ok(`so for ${age} minutes`, from <= age && before > age && before - from <= near + 1, { age, from, before });
  ok(`by few questions, of whole five minutes, each once: ${age}`, count <= 15 && isWhole && isOnce, { count, isWhole, isOnce });
}
is("so for longer than is asked", JSON.stringify(await sinceWhen(() => true)),
  '{"from":61441,"before":null,"stood":null,"isKept":true,"count":7,"isWhole":true,"isOnce":true}');
is("so as long as it is told", JSON.stringify(await sinceWhen((it) => (it > 900 ? null : true))),
  '{"from":241,"before":null,"stood":null,"isKept":false,"count":4,"isWhole":true,"isOnce":true}');
is("nothing is told", JSON.stringify(await sinceWhen(() => null)),
  '{"from":0,"before":null,"stood":null,"isKept":false,"count":1,"isWhole":true,"isOnce":true}');
const gap = await sinceWhen((it) => (it > 100 && it < 200 ? null : it <= 150));
is("what isn't told in between ends it", [gap.from, gap.before, gap.stood, gap.count].join(), "61,241,ok,4");
// 15, 60, 40, 30, 25 and 20 minutes before 12:00, and half a minute more: closed at 20, in force no longer at 25 and earlier.
const shut = await sinceWhen((it) => (it <= 16 ? "violated" : it < 22 ? "inactive" : "absent"));
is("how it stood at the last moment at which it wasn't so", [shut.from, shut.before, shut.stood].join(), "16,21,inactive");

// --- Asking of the past -------------------------------------------------------------------------------------------------

const waited = [], real = { fetch: globalThis.fetch, setTimeout: globalThis.setTimeout };
/** What asking of a moment comes to, where these are the answers: `[status, document]`, or null where there is none. */
async function asking(list, isDropped = () => false) {
  const asked = [];
  waited.length = 0;
  globalThis.setTimeout = (call, after) => { waited.push(after); real.setTimeout(call); };
  globalThis.fetch = async (target) => {
    const told = list[Math.min(asked.push(target), list.length) - 1];
    if (!told) throw new TypeError("no network");
    return { ok: told[0] === 200, status: told[0], json: async () => told[1] };
  };
  const said = await askPast("app/compliance", 77, isDropped).then((it) => JSON.stringify(it), (fault) => fault.code);
  Object.assign(globalThis, real);
  return `${said} ${asked.length}`;
}
const busy = [503, { error: "busy" }], toldThen = [200, { at: 77 }];
is("what stood then", await asking([toldThen]), '{"at":77} 1');
is("behind a server that is busy", await asking([busy, busy, busy, toldThen]), '{"at":77} 4');
is("each time later", waited.join(), WAITS.slice(0, 3).join());
is("which isn't for ever", await asking([busy]), `busy ${WAITS.length + 1}`);
ok("but for less than a minute", waited.join() === WAITS.join() && WAITS.reduce((sum, it) => sum + it) < 60_000, waited);
is("no server", await asking([null, toldThen]), "unreachable 1");
is("none behind a proxy", await asking([[504, null], toldThen]), "unreachable 1");
is("no memory", await asking([[503, { error: "no_memory" }], toldThen]), "no_memory 1");
is("not kept", await asking([[410, { error: "not_kept" }], toldThen]), "not_kept 1");
is("by the server's clock to come", await asking([[409, { error: "future" }], toldThen]), "future 1");
is("a server that tells of now", await asking([[200, { at: 78 }]]), "untold 1");
is("one without the path", await asking([[404, { error: "no_route" }]]), "untold 1");
is("an operator that there isn't", await asking([[404, { error: "not_found" }]]), "not_found 1");
is("dropped before", await asking([toldThen], () => true), "null 0");
let looks = 0;
is("dropped while the server is busy", await asking([busy, toldThen], () => looks++ > 0), "null 1");
const order = [];
await Promise.all([inTurn(async () => { await new Promise((then) => { setTimeout(then, 20); }); order.push(1); throw new Error("no"); }).catch(() => order.push("!")),
  inTurn(async () => order.push(2))]);
is("one behind another, also behind one that fails", order.join(), "1,!,2");

// --- Likely mistakes ----------------------------------------------------------------------------------------------------

const warned = (more, seen = [], dates = {}) => rules.warnings({ start_date: 5, rules: [rule({ name: "R", maximum: 1, ...more })], ...dates }, seen).join(" ");
is("nothing to warn of", warned({ vehicle_types: ["moped"], states: { available: [] } }, [], { end_date: 6 }), "");
is("a type and a state that are none", warned({ vehicle_types: ["scooter_stading"], states: { availabel: [] } }),
  "The rule “R”: “scooter_stading” is no vehicle type of MDS, and no vehicle is known to be one. "
  + "The rule “R”: “availabel” is no vehicle state of MDS, and no vehicle is known to be in it.");
is("a type that no vehicle has now", warned({ vehicle_types: ["bus", "scooter"] }, kinds), "The rule “R”: no vehicle is a “bus” now.");
is("states that no vehicle is in now", warned({ states: { missing: [], available: [], reserved: ["located"] } }, kinds),
  "The rule “R”: no vehicle is in the state “missing” now. The rule “R”: no vehicle is in the state “reserved” now.");
is("states of MDS where no vehicle is known", warned({ vehicle_types: ["bus"], states: { missing: [] } }), "");
is("a type and a state of a vehicle alone", warned({ vehicle_types: ["own"], states: { odd: [] } }, [{ type: "own", state: "odd" }]), "");
is("no bound", warned({ maximum: undefined }), "The rule “R”: it has no bound, so it is always kept.");
is("bounds that exclude one another", warned({ minimum: 5, maximum: 3 }), "The rule “R”: nothing is at least 5 and at most 3.");
is("bounds that are the same", warned({ minimum: 3, maximum: 3 }), "");
is("an end that isn't after the start", [4, 5].map((end_date) => /never in force/.test(warned({}, [], { end_date }))).join(), "true,true");
is("what isn't judged isn't looked at", warned({ rule_type: "speed", maximum: undefined }), "");
is("a document of any kind", [{}, { rules: null }, { rules: [null, 1, {}] }].map((it) => rules.warnings(it, []).length).join(), "0,0,0");

// --- The sources --------------------------------------------------------------------------------------------------------

const read = (name) => readFileSync(join(TOP, "docs", name), "utf8");
const protocol = read("PROTOCOL.md");
const refusals = protocol.slice(protocol.indexOf("## Refusals"), protocol.indexOf("## Limits"));
const table = refusals + read("HTTP.md");
const codes = [...table.matchAll(/^\| [45]\d\d .*?\|/gm)].flatMap(([cell]) => [...cell.matchAll(/`([a-z_]+)`/g)].map((it) => it[1]));
ok("the protocol's refusals are found", codes.length > 25, codes.length);
is("each refusal is told in words", [...new Set(codes)].filter((it) => !WORDS[it]).join(), "");
const sources = readdirSync(join(TOP, "web")).map((it) => [it, readFileSync(join(TOP, "web", it), "utf8")]);
const having = (pattern) => sources.filter(([, text]) => pattern.test(text)).map(([name]) => name).join();
is("no text becomes HTML", having(/innerHTML|outerHTML|insertAdjacentHTML|document\.write|DOMParser|\beval\b|Function\(/), "");
is("nothing is named of another origin", having(/(?:https?:)?\/\/[a-z0-9-]+\.[a-z]/i), "");
const html = readFileSync(join(TOP, "web", "index.html"), "utf8");
is("no script or style stands in the page", /<script(?![^>]*\bsrc=)|<style|\bstyle=|\bon[a-z]+=/.test(html), false);
const nginx = readFileSync(join(TOP, "deploy", "nginx.conf"), "utf8");
const serving = readFileSync(join(TOP, "tests", "web", "serve.py"), "utf8");
ok("nginx has the same content policy", /default-src 'none'; script-src 'self'; worker-src 'self'; style-src 'self'/.test(nginx)
  && /default-src 'none'; script-src 'self'; worker-src 'self'; style-src 'self'/.test(serving));
ok("and neither has unsafe-inline", !/unsafe/.test(nginx + serving));
done();
