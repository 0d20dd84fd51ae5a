// Who breaks which rule, by how much and since when, as the author's first view tells it: in the table and in CSV, before answers that
// are made here. It is 17:00 on Saturday, 29 November 2025, by the server's clock, eight hours behind UTC.

import { inState, told } from "./looking.mjs";
import { device, published, serve } from "./mock.mjs";
import { downloaded, parsed } from "./oversight.mjs";

const MINUTE = 60_000, NOW = Date.UTC(2025, 10, 30, 1, 0), at = (hours, minutes) => Date.UTC(2025, 10, 30, hours, minutes);
const OPERATORS = [["11111111-0000-4000-8000-000000000000", "Scoot"], ["22222222-0000-4000-8000-000000000000", "Wheels"]].map(([id, name]) => ({ id, name }));
const idOf = (kind, n) => `0000000${kind}-0000-4000-8000-00000000000${n}`;

// Of each policy the first rule, the measure, and how it stands at a moment: `absent` where it isn't in force then.
const broken = (t, since, before) => (t >= since ? "violated" : before);
const CASES = [
  { name: "Again", rule: { maximum: 40 }, measure: 45, stands: (t) => (t >= at(0, 40) || t < at(0, 0) - 10 * MINUTE ? "violated" : "ok") },
  { name: "Few", rule: { minimum: 40 }, measure: 33, dates: { published_date: at(0, 50) }, stands: (t) => broken(t, at(0, 50), "absent") },
  { name: "=Closed", rule: { rule_type: "time", rule_units: "minutes", maximum: 30 }, measure: 2, devices: [1, 2],
    stands: (t) => broken(t, at(0, 50), "inactive") },
  { name: "Started", rule: { maximum: 0 }, measure: 3, dates: { start_date: at(0, 50) }, stands: (t) => broken(t, at(0, 50), "absent") },
  { name: "Always", rule: { minimum: 1, inclusive_minimum: false }, measure: 1, stands: () => "violated" },
  { name: "Seen", rule: { maximum: 7 }, measure: 8, stands: (t) => broken(t, at(1, 1), "ok") },
];

const policies = () => {
  const [{ geography_id }] = published().geographies;
  return CASES.map(({ name, rule, dates }, n) => ({ policy_id: idOf(1, n), name, start_date: 1, published_date: 1, ...dates,
    rules: [{ rule_id: idOf(2, n), name, rule_type: "count", geographies: [geography_id], ...rule }] }));
};

/** What an operator is answered of a moment. The second one breaks the last but one of the rules alone. */
function reply(t, isSecond) {
  const list = CASES.map((it, n) => ({ ...it, n, status: isSecond && it.name !== "Always" ? "ok" : it.stands(t) }));
  return { at: t, revision: 2, version: 2, policies: list.filter((it) => it.status !== "absent").map(({ n, status, measure, devices = [] }) => ({
    policy_id: idOf(1, n), rules: [{ rule_id: idOf(2, n), status, ...(status === "violated" ? { devices: devices.map(device), measure } : { measure: 0 }) }] })) };
}

/** A server with these answers, whose clock can be set; of the second operator it tells nothing older than 16:50. */
async function made(oversight) {
  const it = { now: NOW };
  const vehicle = (n, minutes) => ({ device_id: device(n), event_types: ["trip_end"], location: { lat: 45.5, lng: -122.6 }, propulsion_types: ["electric"],
    since: NOW - minutes * MINUTE, timestamp: NOW - minutes * MINUTE, vehicle_state: "available", vehicle_type: "bicycle" });
  const answer = (path, t) => {
    if (path === "/app/whoami") return { role: "author", oversight, zone: "-08:00", operators: OPERATORS };
    if (path === "/policies") return { policies: policies(), revision: 2 };
    if (path === "/geographies") return { geographies: published().geographies, revision: 2 };
    if (path === "/app/drafts") return { drafts: [] };
    if (path === "/app/withdrawals") return { withdrawals: [] };
    if (path === "/app/compliance") return { at: t, operators: OPERATORS.map((one, n) => ({ ...one, compliance: reply(t, n === 1) })) };
    if (path.startsWith("/app/fleet/")) return { vehicles: path.endsWith(OPERATORS[0].id) ? [vehicle(1, 75), vehicle(2, 160)] : [] };
    return path.startsWith("/app/compliance/") ? reply(t, path.endsWith(OPERATORS[1].id)) : undefined;
  };
  const server = await serve((path, query) => {
    const t = Number(/^at=(\d+)$/.exec(query)?.[1] ?? it.now);
    if (path.endsWith(OPERATORS[1].id) && path.startsWith("/app/compliance/") && t < at(0, 50)) return [410, '{"error":"not_kept"}'];
    const document = answer(path, t);
    return document && JSON.stringify(document);
  });
  return Object.assign(it, server);
}

/** Each broken row: operator, rule, since when, measure. */
const rowsOf = async (page) => (await page.run(() => [...document.querySelectorAll("#standingtable tbody tr.bad")].map((row) =>
  [row.querySelector("th"), row.querySelector("td button"), row.querySelectorAll("td")[2].querySelector(".small") || row.querySelectorAll("td")[2],
    row.querySelector("td:last-child summary") || row.querySelectorAll("td")[3]].map((it) => it.textContent).join(" | ")).sort().join("\n"))).replace(/[^\S\n]/g, " ");

const MEASURES = { Again: "45 of at most 40: 5 too many", Few: "33 of at least 40: 7 too few", Started: "3, none allowed: 3 too many",
  Always: "1 of more than 1: 1 too few", Seen: "8 of at most 7: 1 too many", "=Closed": "2 vehicles for more than 30 minutes: up to 2 hours 10 minutes too long" };
const AT_FIRST = "not known yet: already broken when this page first looked, at 05:00 PM";

/** The rows as they are wanted: since when each of the first operator's rules is broken, and the second one's. */
const wanted = (first, second, measures = MEASURES) => [...Object.entries(first).map(([name, since]) => `Scoot | ${name} | ${since} | ${measures[name]}`),
  `Wheels | Always | ${second} | ${measures.Always}`].sort().join("\n");

const BUTTONS = '#standingtable button[aria-label^="Since when?"]';

/** Asks since when one broken rule is so, and then each of those that are left, by one button. */
async function askAll(page, { is, ok }) {
  const isShown = () => page.run(() => !document.getElementById("askeach").hidden);
  await page.click(BUTTONS);
  await page.until((it) => document.querySelectorAll(it).length === 5, BUTTONS);
  ok("several are left, and a button for each of them", await isShown());
  await page.click("#askeach");
  is("which can't be pressed meanwhile", await page.run(() => document.getElementById("askeach").disabled), true);
  await page.until((it) => !document.querySelector(it) && !/Asking/.test(document.getElementById("standingtable").textContent), BUTTONS);
  await page.until(() => document.getElementById("askeach").hidden);
  is("and which goes then", await isShown(), false);
}

// Asked are 15, 60, 240, .. minutes before 17:00, then halves, in whole five minutes, until five are left: 16:45 and 16:50; of
// what was kept from 15:50 to 16:40: 16:45, 16:00, 16:20, 16:30, 16:35, 16:40. The farthest are 61,440 minutes: 42 days, 16 hours.
const ASKED = {
  Again: "this time since 04:40 PM; at 04:35 PM it wasn’t broken",
  Few: "since 04:50 PM; at 04:45 PM the policy wasn’t published yet (in force since 04:50 PM)",
  Started: "since 04:50 PM; at 04:45 PM the policy wasn’t in force yet (in force since 04:50 PM)",
  "=Closed": "this time since 04:50 PM; at 04:45 PM it wasn’t open",
  Always: "this time since Sat, Oct 18, 2025, 01:00 AM or earlier: broken at each moment asked about, as far back as this page asks",
};
const NOT_KEPT = "this time since 05:00 PM or earlier: what stood before that isn’t kept";
const MOMENTS = {
  Again: ["5 too many", "2025-11-30T00:40:00.000Z", "2025-11-29T16:40:00.000-08:00"],
  Few: ["7 too few", "2025-11-30T00:50:00.000Z", "2025-11-29T16:50:00.000-08:00"],
  Started: ["3 too many", "2025-11-30T00:50:00.000Z", "2025-11-29T16:50:00.000-08:00"],
  "=Closed": ["up to 2 hours 10 minutes too long", "2025-11-30T00:50:00.000Z", "2025-11-29T16:50:00.000-08:00"],
  Always: ["1 too few", "2025-10-18T09:00:00.000Z", "2025-10-18T01:00:00.000-08:00"],
};

/** The broken rows of the file: its last four columns by the operator and the rule. */
async function fileOf(page) {
  const [head, ...lines] = parsed((await downloaded(page)).text.slice(1).replace(/\r\n$/, ""));
  const isBroken = (it) => it[head.indexOf("Verdict")] === "broken", column = (it, name) => it[head.indexOf(name)];
  return { head, lines, values: new Map(lines.filter(isBroken).map((it) =>
    [`${column(it, "Operator")} ${column(it, "Rule")}`, it.slice(-4).join(" | ").replace(/\s/g, " ")])) };
}

/** The file has the same as the table, its moments by two clocks, and no formula. */
async function file(page, { is }) {
  const { head, lines, values } = await fileOf(page);
  is("the last columns", head.slice(-4).join(), "By how much,Broken since (UTC),Broken since (local),Broken since (in words)");
  for (const [name, found] of Object.entries(MOMENTS)) {
    const said = values.get(`Scoot ${name === "=Closed" ? "'=Closed" : name}`);
    is(`the file: ${name}`, said, [...found, ASKED[name]].join(" | "));
  }
  is("the file: what isn't kept", values.get("Wheels Always"),
    `1 too few | 2025-11-30T01:00:00.000Z | 2025-11-29T17:00:00.000-08:00 | ${NOT_KEPT}`);
  is("a kept rule has no time", lines.filter((it) => it[head.indexOf("Verdict")] === "kept" && it.slice(-4).join("")).length, 0);
  is("no value is a formula", lines.flat().filter((it) => /^[=+\-@]/.test(it)).join(), "");
}

/** A rule that breaks while it is looked at, and what is asked of a moment that is over. */
async function seen(page, server, { is, ok }) {
  server.now = at(1, 1);
  await page.click("#refresh");
  await told(page, "#standingtable", /8 of at most 7/);
  ok("seen to break", (await rowsOf(page)).includes(`Scoot | Seen | this time since 05:01 PM | ${MEASURES.Seen}`), await rowsOf(page));
  is("what was asked stays", (await rowsOf(page)).split("\n").filter((it) => it.includes(ASKED.Few)).length, 1);
  const local = "2025-11-29T16:55";
  await page.run((text) => {
    const field = document.getElementById("moment");
    field.value = text;
    field.dispatchEvent(new Event("change"));
  }, local);
  await told(page, "#standingtitle", /stood on/);
  await page.until(() => !document.getElementById("standingview").hidden);
  const { values } = await fileOf(page);
  is("of a moment that is over nothing is known before it is asked", values.get("Scoot Few"), "7 too few |  |  | not asked");
}

/** All of it. */
export default async function since(browser, _, tally) {
  const { is, ok } = tally, server = await made("vehicles"), page = await browser.open(server.url);
  await page.signIn("city");
  await inState(page, (it) => { it.settings.refresh_seconds = 600; });
  await told(page, "#standingtable", /minutes too long/);
  is("at the first look", await rowsOf(page), wanted(Object.fromEntries(Object.keys(ASKED).map((it) => [it, AT_FIRST])), AT_FIRST));
  ok("no word of a deadline", !/\bbefore \d|not yet at/.test(await page.text("#standingtable")), await page.text("#standingtable"));
  is("the columns", await page.text("#standingtable thead th"), "Operator | Policy | Verdict | Broken since | Measure");
  ok("below the table it is said what counts", /may have been broken, and kept again, before/.test(await page.text("#sincenote")));
  ok("and by a title", /earlier time.*doesn’t count/.test(await page.run(() => document.querySelector("#standingtable td .small[title]").title)));
  await askAll(page, tally);
  is("once it was asked", await rowsOf(page), wanted(ASKED, NOT_KEPT));
  await file(page, tally);
  await seen(page, server, tally);
  await page.close();
  server.close();
  const other = await made("verdicts"), narrow = await browser.open(other.url, { width: 390, height: 800, isMobile: true });
  await narrow.signIn("city");
  await told(narrow, "#standingtable", /33 of at least 40/);
  is("without vehicles no minutes are told", await rowsOf(narrow), wanted(Object.fromEntries(Object.keys(ASKED).map((it) => [it, AT_FIRST])), AT_FIRST,
    { ...MEASURES, "=Closed": "2 vehicles for more than 30 minutes" }));
  ok("and why", /only where the city is shown the vehicles/.test(await narrow.text("#sincenote")));
  is("nothing is wider than a narrow page", await narrow.run(() => document.documentElement.scrollWidth > innerWidth), false);
  await narrow.close();
  other.close();
}
