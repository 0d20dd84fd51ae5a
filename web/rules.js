// What policies and rules mean: whether a policy is in force, what a rule catches, how operators stand, and all of it in words.
// docs/PROTOCOL.md has the meanings; nothing here asks a server or touches the page.

export const DAYS = ["sun", "mon", "tue", "wed", "thu", "fri", "sat"];
const UNITS = { seconds: 1_000, minutes: 60_000, hours: 3_600_000, days: 86_400_000 };

/** The 32 digits of an identifier, by which identifiers are compared. */
export const digitsOf = (id) => String(id).toLowerCase().replace(/^urn:uuid:|[{}-]/g, "");
export const isSame = (one, other) => digitsOf(one) === digitsOf(other);

/** Whether the server judges a rule; it keeps and serves every other. */
export const isJudged = (rule) =>
  rule.rule_type === "count" || (rule.rule_type === "time" && Object.hasOwn(UNITS, rule.rule_units));

// --- The words of MDS ---------------------------------------------------------------------------------------------------

// The vehicle types, propulsion types, states and events of MDS 2.0 (its General Information and its modes).
export const TYPES = ["bicycle", "bus", "car", "cargo_bicycle", "delivery_robot", "moped", "motorcycle", "other",
  "scooter_seated", "scooter_standing", "truck"];
export const PROPULSIONS = ["combustion", "combustion_diesel", "electric", "electric_assist", "human", "hybrid",
  "hydrogen_fuel_cell", "plug_in_hybrid"];
export const STATES = ["available", "elsewhere", "missing", "non_contactable", "non_operational", "on_trip", "removed",
  "reserved", "stopped"];
export const EVENTS = ["agency_drop_off", "agency_pick_up", "battery_charged", "battery_low", "changed_geographies",
  "charging_end", "charging_start", "comms_lost", "comms_restored", "compliance_pick_up", "customer_cancellation",
  "decommissioned", "driver_cancellation", "fueling_end", "fueling_start", "located", "maintenance", "maintenance_end",
  "maintenance_pick_up", "not_located", "off_hours", "on_hours", "order_drop_off", "order_pick_up", "passenger_cancellation",
  "provider_cancellation", "provider_drop_off", "rebalance_pick_up", "recommission", "remote_end", "remote_start",
  "reservation_cancel", "reservation_start", "reservation_stop", "service_end", "service_start", "system_resume",
  "system_suspend", "trip_cancel", "trip_end", "trip_enter_jurisdiction", "trip_leave_jurisdiction", "trip_pause",
  "trip_resume", "trip_start", "trip_stop", "unspecified"];

// --- In force or not ----------------------------------------------------------------------------------------------------

/** The moment from which a policy supersedes what it lists, and may be in force. */
export const begin = (policy) => Math.max(policy.published_date, policy.start_date);

/** What has ended a policy by a moment: `{at, kind, by?}`, the earliest; null where nothing has. */
function ending(policy, t, { policies, withdrawals }) {
  const ends = [];
  const withdrawn = withdrawals?.get(digitsOf(policy.policy_id));
  if (withdrawn !== undefined) ends.push({ at: withdrawn, kind: "withdrawn" });
  for (const other of policies) {
    if (other.prev_policies?.some((id) => isSame(id, policy.policy_id))) {
      ends.push({ at: begin(other), kind: "superseded", by: other.name });
    }
  }
  if (policy.end_date != null) {
    const kind = policy.end_date <= policy.start_date ? "never" : "ended";
    ends.push({ at: kind === "never" ? policy.published_date : policy.end_date, kind });
  }
  return ends.filter((it) => it.at <= t).sort((a, b) => a.at - b.at)[0] || null;
}

/**
 * How a policy stands at a moment: `{state, kind, at, by?}`. The state is `force`, `soon` or `over`; the kind says why.
 *
 * `known` has `policies`, `withdrawals` (moments by the digits of identifiers, as far as they are known) and, for an operator,
 * `judged`: the moment at which the server judged, with the digits of the policies that were then in force. A policy that should
 * have been among these and wasn't is over, by a withdrawal or by a policy that isn't meant for this operator.
 */
export function standing(policy, t, known) {
  const over = ending(policy, t, known);
  if (over) return { state: "over", ...over };
  if (begin(policy) > t) return { state: "soon", kind: "soon", at: begin(policy) };
  const { judged } = known;
  const wasDue = judged && t >= judged.at && begin(policy) <= judged.at && !ending(policy, judged.at, known);
  if (wasDue && !judged.policies.has(digitsOf(policy.policy_id))) return { state: "over", kind: "gone", at: judged.at };
  return { state: "force", kind: "force", at: policy.end_date ?? null };
}

/** That in words. */
export function standingWords({ kind, at, by }, clock) {
  switch (kind) {
    case "soon": return `to come, from ${clock.when(at)}`;
    case "withdrawn": return `withdrawn ${clock.when(at)}`;
    case "superseded": return `superseded by “${by}”`;
    case "ended": return `ended ${clock.when(at)}`;
    case "never": return "never in force";
    case "gone": return "withdrawn or superseded";
    default: return at === null ? "in force" : `in force until ${clock.when(at)}`;
  }
}

// --- What a rule catches ------------------------------------------------------------------------------------------------

/** The second of the day that `hh:mm` or `hh:mm:ss` is. */
function secondOf(text) {
  const [hours, minutes, seconds = 0] = text.split(":").map(Number);
  return hours * 3600 + minutes * 60 + seconds;
}
const opens = (rule) => secondOf(rule.start_time || "00:00");
const closes = (rule) => secondOf(rule.end_time || "23:59:59");

/** Whether a rule is open at a moment. A window over midnight belongs to the day on which it begins. */
export function isOpen(rule, t, clock) {
  const { day, second } = clock.local(t), first = opens(rule), last = closes(rule);
  const isOn = (number) => !rule.days?.length || rule.days.includes(DAYS[number]);
  if (first <= last) return isOn(day) && second >= first && second <= last;
  return (isOn(day) && second >= first) || (isOn((day + 6) % 7) && second <= last);
}

/** Whether a kind of vehicle (type, state, propulsion types, events) meets a rule, wherever it is. */
function isMeant(rule, kind) {
  if (rule.vehicle_types?.length && !rule.vehicle_types.includes(kind.type)) return false;
  if (rule.propulsion_types?.length && !rule.propulsion_types.some((it) => kind.propulsion.includes(it))) return false;
  if (!rule.states || !Object.keys(rule.states).length) return true;
  if (!Object.hasOwn(rule.states, kind.state)) return false;
  const events = rule.states[kind.state];
  return !events?.length || events.some((it) => kind.events.includes(it));
}

/** Whether a measure is within a rule's bounds, each times a unit. */
function isWithin(rule, measure, unit) {
  const low = rule.minimum ?? null, high = rule.maximum ?? null;
  if (low !== null && (rule.inclusive_minimum === false ? measure <= low * unit : measure < low * unit)) return false;
  return high === null || (rule.inclusive_maximum === false ? measure < high * unit : measure <= high * unit);
}

/** Whether a rule of count is broken by too few: then the vehicles that it counts are no offenders. */
export const hasTooFew = (rule, measure) =>
  rule.rule_type === "count" && !isWithin({ ...rule, maximum: null }, measure, 1);

/** The vehicles that each rule of a policy catches at a moment: of each policy a vehicle is caught by the first rule it meets. */
function caughtBy(policy, t, { fleet, places, clock }) {
  const rules = policy.rules.map((rule) => ({
    isLive: isJudged(rule) && isOpen(rule, t, clock),
    marks: rule.geographies.map((id) => places.findIndex((it) => isSame(it.geography_id, id)))
      .filter((index) => index >= 0 && fleet.inside[index]).map((index) => fleet.inside[index]),
    kinds: fleet.kinds.map((kind) => isMeant(rule, kind)),
    caught: [],
  }));
  const live = rules.filter((it) => it.isLive);
  for (let row = 0; row < fleet.count; row++) {
    const first = live.find((it) => it.kinds[fleet.kind[row]] && it.marks.some((mark) => mark[row]));
    first?.caught.push(row);
  }
  return rules;
}

/** How a rule stands by the vehicles that it catches: `{status, measure, rows}`; `rows` are those that the measure counts. */
function verdictOf(rule, { isLive, caught }, t, { since }) {
  if (!isJudged(rule)) return { status: "not_evaluated", measure: 0, rows: [] };
  if (!isLive) return { status: "inactive", measure: 0, rows: [] };
  if (rule.rule_type === "count") {
    return { status: isWithin(rule, caught.length, 1) ? "ok" : "violated", measure: caught.length, rows: caught };
  }
  const rows = caught.filter((row) => !isWithin(rule, Math.max(0, t - since[row]), UNITS[rule.rule_units]));
  return { status: rows.length ? "violated" : "ok", measure: rows.length, rows };
}

/**
 * What a page works out by itself for a moment at which the server wasn't asked, the fleet standing as it was last reported:
 * for each rule its verdict, with the rows that it `caught`.
 */
export function workOut(policy, t, city) {
  return caughtBy(policy, t, city).map((it, index) =>
    ({ ...verdictOf(policy.rules[index], it, t, city.fleet), caught: it.caught }));
}

/** The same for each of the operators whose fleets stand one behind the other: a list of verdicts for each rule. */
export function workOutEach(policy, t, city) {
  const { owner, starts } = city.fleet, count = starts.length - 1;
  return caughtBy(policy, t, city).map(({ isLive, caught }, index) => {
    const each = Array.from({ length: count }, () => []);
    for (const row of caught) each[owner[row]].push(row);
    return each.map((rows) => verdictOf(policy.rules[index], { isLive, caught: rows }, t, city.fleet));
  });
}

// --- In words -----------------------------------------------------------------------------------------------------------

const format = new Intl.NumberFormat();
export const number = (value) => format.format(value);
export const plain = (token) => token.replaceAll("_", " ");

/** A list in words: `a, b or c`. */
export const words = (list, and = "or") =>
  list.length < 2 ? list.join("") : `${list.slice(0, -1).join(", ")} ${and} ${list.at(-1)}`;

/** So many of a rule's units in words: `1 hour`, `72 hours`; without a unit the number alone. */
function amount(count, unit) {
  if (!unit) return number(count);
  return `${number(count)} ${count === 1 && Object.hasOwn(UNITS, unit) ? unit.slice(0, -1) : unit}`;
}

/** A rule's bounds in words. */
export function bounds(rule) {
  const low = rule.minimum ?? null, high = rule.maximum ?? null;
  const unit = rule.rule_type === "time" ? rule.rule_units : "";
  if (high === 0 && rule.inclusive_maximum !== false && low === null && rule.rule_type !== "time") return "None";
  const parts = [];
  if (low !== null) parts.push(`${rule.inclusive_minimum === false ? "more than" : "at least"} ${amount(low, unit)}`);
  if (high !== null) parts.push(`${rule.inclusive_maximum === false ? "fewer than" : "at most"} ${amount(high, unit)}`);
  const text = parts.join(", ") || "any number";
  return text[0].toUpperCase() + text.slice(1);
}

/** Which vehicles a rule is about, in words. */
export function vehicles(rule) {
  const states = Object.entries(rule.states || {});
  const parts = [rule.vehicle_types?.length ? words(rule.vehicle_types.map(plain)) : "any vehicle"];
  if (rule.propulsion_types?.length) parts.push(words(rule.propulsion_types.map(plain)));
  const inState = ([state, events]) => plain(state) + (events?.length ? ` (after ${words(events.map(plain))})` : "");
  return parts.join(", ") + (states.length ? `: ${words(states.map(inState))}` : "");
}

const SPANS = [["day", 86_400_000], ["hour", 3_600_000], ["minute", 60_000]];

/** How long ago something was, in words, to the minute: `3 hours 12 minutes ago`; `word` is another one than `ago`. */
export function ago(milliseconds, word = "ago") {
  const found = SPANS.findIndex(([, length]) => milliseconds >= length);
  if (found < 0) return `less than a minute ${word}`;
  let left = milliseconds;
  const parts = SPANS.slice(found, found + 2).map(([name, length]) => {
    const count = Math.floor(left / length);
    left -= count * length;
    return count ? `${number(count)} ${name}${count === 1 ? "" : "s"}` : "";
  });
  return `${parts.filter(Boolean).join(" ")} ${word}`;
}

/** Whether a rule is open at all times. */
export const isAlwaysOpen = (rule) => !rule.start_time && !rule.end_time && !rule.days?.length;

/** When a rule is open, in words. */
export function hours(rule) {
  const days = rule.days?.length ? words(rule.days.map((it) => it[0].toUpperCase() + it.slice(1)), "and") : "every day";
  if (!rule.start_time && !rule.end_time) return `${days}, all day`;
  const nextDay = opens(rule) > closes(rule) ? " on the next day" : "";
  return `${days}, ${rule.start_time || "00:00"} to ${rule.end_time || "23:59:59"}${nextDay}`;
}

/** For how long a vehicle stands that a rule of time counts, in words. */
function tooLong(rule) {
  const low = rule.minimum ?? null, high = rule.maximum ?? null;
  const least = amount(low, rule.rule_units), most = amount(high, rule.rule_units);
  const under = rule.inclusive_minimum === false ? `${least} or less` : `less than ${least}`;
  const over = rule.inclusive_maximum === false ? `${most} or more` : `more than ${most}`;
  return [low === null ? null : under, high === null ? null : over].filter(Boolean).join(", or for ");
}

/** By how many vehicles a count is outside a rule's bounds, in words: `2 too many`, `7 too few`; empty where it is within. */
export function excess(rule, measure) {
  const low = rule.minimum ?? null, high = rule.maximum ?? null;
  // A measure that is equal to a bound which isn't inclusive is one outside.
  const least = low + (rule.inclusive_minimum === false ? 1 : 0), most = high - (rule.inclusive_maximum === false ? 1 : 0);
  if (low !== null && measure < least) return `${number(least - measure)} too few`;
  return high !== null && measure > most ? `${number(measure - most)} too many` : "";
}

/** For how many milliseconds a vehicle may stand by a rule of time; for any number where it has no such bound. */
export const longest = (rule) => (rule.maximum == null ? Infinity : rule.maximum * UNITS[rule.rule_units]);

/** Milliseconds in words, by whole minutes and at most two units: `2 days 4 hours`, `2 hours 10 minutes`. */
function durationText(milliseconds) {
  let minutes = Math.floor(milliseconds / UNITS.minutes);
  if (!minutes) return "less than a minute";
  const parts = [];
  for (const unit of ["days", "hours", "minutes"]) {
    const size = UNITS[unit] / UNITS.minutes, count = Math.floor(minutes / size);
    if (count) parts.push(amount(count, unit));
    minutes -= count * size;
  }
  return parts.slice(0, 2).join(" ");
}

/**
 * How far vehicles that have stood for so many milliseconds are outside a rule of time, in words: of one vehicle
 * `2 hours 10 minutes too long`, of several that of the worst, `up to 2 days 4 hours too long`; empty where one isn't outside.
 */
export function overstay(rule, spans) {
  const unit = UNITS[rule.rule_units], low = rule.minimum ?? null, high = rule.maximum ?? null;
  const outside = spans.filter((it) => !isWithin(rule, it, unit)), upTo = outside.length > 1 ? "up to " : "";
  // Vehicles of another moment than the verdict's say nothing of it.
  if (outside.length < spans.length) return "";
  const long = outside.filter((it) => high !== null && it >= high * unit).map((it) => it - high * unit);
  const short = outside.filter((it) => low !== null && it <= low * unit).map((it) => low * unit - it);
  const worst = (list, what) => (list.length ? [`${upTo}${durationText(Math.max(...list))} too ${what}`] : []);
  return [...worst(long, "long"), ...worst(short, "short")].join(", ");
}

/**
 * How many vehicles a rule counts against its bounds, and how far that is off, in words: `12 of at most 10: 2 too many`. Of a
 * rule of time it is as far as is known how long the vehicles have stood. Empty where it isn't judged.
 */
export function measured(rule, { status, measure }, spans = []) {
  if (status !== "ok" && status !== "violated") return "";
  const text = bounds(rule), bound = text[0].toLowerCase() + text.slice(1);
  if (rule.rule_type === "time") {
    const count = measure ? `${number(measure)} vehicle${measure === 1 ? "" : "s"}` : "no vehicle", long = tooLong(rule);
    const far = measure ? overstay(rule, spans) : "";
    return (long ? `${count} for ${long}` : `${count}, for any time`) + (far && `: ${far}`);
  }
  const far = status === "violated" ? excess(rule, measure) : "";
  return (bound === "none" ? `${number(measure)}, none allowed` : `${number(measure)} of ${bound}`) + (far && `: ${far}`);
}

// --- How operators stand ------------------------------------------------------------------------------------------------

const RANKS = ["violated", "ok", "inactive", "not_evaluated"];

/** A row for each operator and each rule in force for it, in the order in which the server tells them. */
export function standingRows(operators, policies) {
  const known = new Map(policies.map((it) => [digitsOf(it.policy_id), it]));
  return operators.flatMap(({ id, compliance }, owner) => (compliance?.policies || []).flatMap((report) => {
    const policy = known.get(digitsOf(report.policy_id));
    if (!policy) return [];
    return report.rules.map((verdict, index) => ({ id, owner, policy, index, rule: policy.rules[index], verdict }));
  }));
}

/** Rows in the order of `broken`, `operator` or `policy`: within the latter two the broken ones first too. */
export function inOrder(rows, by, nameOf) {
  const rank = (row) => RANKS.indexOf(row.verdict.status);
  const key = by === "operator" ? (row) => nameOf(row.id) : by === "policy" ? (row) => row.policy.name : () => "";
  return rows.map((row) => ({ row, text: String(key(row)), rank: rank(row) }))
    .sort((one, other) => one.text.localeCompare(other.text) || one.rank - other.rank).map((it) => it.row);
}

/** What tells an operator's row for a rule from every other. */
export const rowKey = ({ id, policy, index }) => `${id} ${policy.policy_id}/${index}`;

/**
 * What is remembered of rows that were told at a moment, by what was remembered before: of each its status, since when it was
 * seen so, whether that was seen to begin, and when it was last seen. Where nobody looked for longer than so many milliseconds,
 * what happened meanwhile isn't known, and the row is seen for the first time again.
 */
export function remember(before, rows, at, longest) {
  const seen = new Map();
  for (const row of rows) {
    const { status } = row.verdict, known = before.get(rowKey(row)), last = known && at - known.last <= longest ? known : null;
    const from = last?.status === status ? last : { from: at, hasBegun: last !== null };
    seen.set(rowKey(row), { status, from: from.from, hasBegun: from.hasBegun, last: at });
  }
  return seen;
}

// How far back it is asked since when something is so, in minutes: some 43 days at most. Moments that are asked about are whole
// multiples of five minutes, as those of a report are where nothing else is said.
const STEPS_BACK = [15, 60, 240, 960, 3_840, 15_360, 61_440], SAMPLE = 5 * 60_000, MOST_HALVES = 8;

/** The last moment of a sample that isn't later than `t`. */
const sampleBefore = (t) => Math.floor(t / SAMPLE) * SAMPLE;

/** A moment of a sample between two moments, or null where there is none: the one before the middle, else the next one. */
function sampleBetween(before, from) {
  const middle = sampleBefore((before + from) / 2), next = middle > before ? middle : before + SAMPLE;
  return next < from ? next : null;
}

/**
 * Since when a rule is broken, by few questions: further and further back until it wasn't, and from there by halves.
 * `stoodAt` says of a moment, in whole five minutes, which status the rule had then, `absent` where its policy wasn't in force, or
 * null where that isn't told. Answers `{from, before, stood, isKept}`: it was `violated` at `from` and at each later moment
 * that was asked, and wasn't at `before`, when it stood as `stood` says; both are null where it was each time. `isKept` is
 * false where an earlier moment isn't told.
 */
export async function sinceWhen(at, stoodAt) {
  let from = at, before = null, stood = null, isKept = true;
  const ask = async (t) => {
    const told = await stoodAt(t);
    isKept = told !== null;
    if (told === "violated") from = t;
    else if (isKept) [before, stood] = [t, told];
    return told;
  };
  for (const minutes of STEPS_BACK) if (await ask(sampleBefore(at - minutes * 60_000)) !== "violated") break;
  for (let n = 0; n < MOST_HALVES && isKept && before !== null; n++) {
    const between = sampleBetween(before, from);
    if (between === null) break;
    await ask(between);
  }
  return { from, before, stood, isKept };
}

// --- Likely mistakes ----------------------------------------------------------------------------------------------------

/** What is likely a mistake in a rule, in sentences; `kinds` are those of the vehicles that the page knows. */
function ruleWarnings(rule, kinds) {
  const has = (member, value) => kinds.some((it) => it[member] === value);
  const low = rule.minimum ?? null, high = rule.maximum ?? null;
  const types = (Array.isArray(rule.vehicle_types) ? rule.vehicle_types : []).filter((it) => !has("type", it));
  const states = Object.keys(rule.states || {}).filter((it) => !has("state", it));
  const strange = (list, known) => list.filter((it) => !known.includes(it));
  const absent = (list, known) => (kinds.length ? list.filter((it) => known.includes(it)) : []);
  return [
    ...strange(types, TYPES).map((it) => `“${it}” is no vehicle type of MDS, and no vehicle is known to be one`),
    ...absent(types, TYPES).map((it) => `no vehicle is a “${it}” now`),
    ...strange(states, STATES).map((it) => `“${it}” is no vehicle state of MDS, and no vehicle is known to be in it`),
    ...absent(states, STATES).map((it) => `no vehicle is in the state “${it}” now`),
    ...(low === null && high === null ? ["it has no bound, so it is always kept"] : []),
    ...(low !== null && high !== null && low > high ? [`nothing is at least ${number(low)} and at most ${number(high)}`] : []),
  ].map((it) => `The rule “${rule.name}”: ${it}.`);
}

/** What is likely a mistake in a policy that the server would take all the same, in sentences. */
export function warnings(policy, kinds) {
  const { start_date: start, end_date: end, rules } = policy, isNever = end != null && end <= start;
  const judged = (Array.isArray(rules) ? rules : []).filter((it) => it && isJudged(it));
  return [...(isNever ? ["It ends before it starts, or as it starts, so that it is never in force."] : []),
    ...judged.flatMap((it) => ruleWarnings(it, kinds))];
}
