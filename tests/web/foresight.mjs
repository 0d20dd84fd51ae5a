// How operators would stand by a draft, worked out by the page before it is saved, against what the server says of the same policy
// once it is published: three fleets, places with holes, in several parts and drafts, types, states, events, propulsion, bounds
// and hours.

import { wait } from "./browser.mjs";
import { City, example } from "./city.mjs";
import { clean, fillForm, inState, told } from "./looking.mjs";
import { device } from "./mock.mjs";

const id = (kind, number) => `00000000-0000-4000-8000-${kind.padStart(4, "0")}${String(number).padStart(8, "0")}`;
const TYPES = ["scooter_standing", "bicycle", "cargo_bicycle"], STATES = ["available", "on_trip", "reserved", "non_operational"];
const EVENTS = ["trip_end", "trip_start", "maintenance"];
const PROPULSIONS = [["electric"], ["human"], ["electric_assist", "human"], []];
const DAYS = ["sun", "mon", "tue", "wed", "thu", "fri", "sat"], FLEETS = { scoot: 240, wheels: 90, third: 33 };

const ring = (west, south, side) => [[0, 0], [side, 0], [side, side], [0, side], [0, 0]]
  .map(([lng, lat]) => [+(west + lng).toFixed(7), +(south + lat).toFixed(7)]);

// Of the lattice on which vehicles stand, of a hundredth of a degree, lines lie on edges of these.
const PLACES = {
  "With a hole": { type: "Polygon", coordinates: [ring(-122.7, 45.5, 0.1), ring(-122.66, 45.54, 0.04)] },
  "In two parts": { type: "MultiPolygon",
    coordinates: [[ring(-122.7, 45.5, 0.03)], [ring(-122.62, 45.58, 0.05), ring(-122.6, 45.6, 0.01)]] },
  Slanted: { type: "Polygon", coordinates: [[[-122.7, 45.5], [-122.55, 45.56], [-122.61, 45.65], [-122.7, 45.5]]] },
};
const DRAFT = {
  "A draft with a hole": { type: "Polygon", coordinates: [ring(-122.68, 45.52, 0.1), ring(-122.64, 45.55, 0.03)] },
};

/** Numbers without a pattern, the same in each run. */
function random(seed) {
  let x = seed;
  return (below) => {
    x = (x * 1_103_515_245 + 12_345) % 2_147_483_648;
    return Math.floor(x / 65_536) % below;
  };
}

/** A vehicle on the lattice, of any type, state, event and propulsion. */
function report(n, pick) {
  return { device_id: device(n), vehicle_type: TYPES[pick(TYPES.length)], vehicle_state: STATES[pick(STATES.length)],
    event_types: [EVENTS[pick(EVENTS.length)]], propulsion_types: PROPULSIONS[pick(PROPULSIONS.length)],
    timestamp: Date.now() - 60_000 * pick(600) - 1,
    location: { lat: +(45.48 + 0.01 * pick(20)).toFixed(2), lng: +(-122.72 + 0.01 * pick(20)).toFixed(2) } };
}

/** Draft or published places: identifiers by their names. */
async function draftPlaces(city, places, from) {
  const ids = {};
  for (const [n, [name, geography_json]] of Object.entries(places).entries()) {
    ids[name] = id("1", from + n);
    await city.sure("city", "PUT", `/drafts/geographies/${ids[name]}`, { geography_id: ids[name], name, geography_json });
  }
  return ids;
}

async function start(program) {
  const [scoot, wheels] = example("city.json").operators, third = { ...wheels, id: id("9", 1), name: "Third", token: "third" };
  const operators = [scoot, wheels, third], city = await City.start(program, { isTold: true, seconds: 600, fill: "nothing",
    changes: { oversight: "vehicles", operators } });
  const ids = await draftPlaces(city, PLACES, 1);
  await city.sure("city", "POST", "/publish", { geographies: Object.values(ids) });
  for (const [token, count] of Object.entries(FLEETS)) {
    const pick = random(count);
    for (let n = 0; n < count; n++) await city.sure(token, "POST", "/fleet/events", report(n, pick));
  }
  Object.assign(ids, await draftPlaces(city, DRAFT, 50));
  return { city, ids };
}

/** The rules of several policies by their names; `today` is the local day, by its number. */
function policies(ids, operators, today) {
  const [hole, parts, slanted, draft] = [...Object.keys(PLACES), ...Object.keys(DRAFT)].map((it) => ids[it]);
  const rule = (geographies, more) => ({ rule_type: "count", geographies, ...more });
  const closed = { days: [DAYS[(today + 3) % 7]] }, time = { rule_type: "time", rule_units: "hours" };
  return {
    "a place with a hole": [rule([hole], { maximum: 60 })],
    "a place in two parts, and a least number": [rule([parts], { minimum: 5 })],
    "a draft": [rule([draft], { maximum: 20 })],
    "a draft and a slanted place, of one type": [rule([draft, slanted], { vehicle_types: ["bicycle"], maximum: 15 })],
    "several types and a state": [rule([hole, parts], { vehicle_types: ["bicycle", "cargo_bicycle"], states: { available: [] },
      maximum: 12 })],
    "states with events": [rule([slanted], { states: { available: ["trip_end"], on_trip: ["maintenance", "trip_start"],
      reserved: null }, maximum: 9 })],
    "propulsion": [rule([hole], { propulsion_types: ["human"], minimum: 3, maximum: 30 })],
    "bounds that aren't within": [rule([hole], { maximum: 20, inclusive_maximum: false }),
      rule([slanted], { minimum: 3, inclusive_minimum: false })],
    "the first rule that is met": [rule([hole], { vehicle_types: ["bicycle"], maximum: 10 }), rule([hole, slanted], { maximum: 40 }),
      rule([draft], { maximum: 0 })],
    "a rule that isn't open before one that is": [rule([hole], { ...closed, maximum: 0 }),
      rule([hole], { days: [DAYS[today]], maximum: 50 })],
    "a rule of time before one of count": [rule([slanted], { ...time, vehicle_types: ["bicycle"], maximum: 1 }),
      rule([slanted], { maximum: 12 })],
    "a rule that isn't judged before one of count": [rule([slanted], { rule_type: "speed", maximum: 1 }),
      rule([slanted], { maximum: 25 })],
    "two operators alone": [rule([hole, parts, slanted], { maximum: 70 })],
    "nowhere": [rule([], { minimum: 1 })],
    "no bound": [rule([draft], {})],
  };
}

/** The tables of the open form: for each rule its text, or a line for each operator. */
const tables = (page) => page.run(() => {
  document.querySelectorAll("#foresighttable details").forEach((it) => { it.open = true; });
  return new Promise((then) => {
    setTimeout(() => then([...document.getElementById("foresighttable").children].map((part) => {
      const rows = [...part.querySelectorAll("tbody tr")];
      if (part.tagName !== "DETAILS") return part.textContent;
      return rows.map((row) => [...row.children].map((it) => it.textContent).join(" | "));
    })), 60);
  });
});

const SAID = { ok: "✓ kept", violated: "✗ broken", inactive: "– not open now" };
const bounds = async (page, list) => page.run((it) => import("/rules.js").then((rules) => it.map(rules.bounds)), list);

/** What the same tables would say by what each operator is answered itself. */
async function wanted(page, city, policy, names) {
  const found = policy.rules.map(() => []), said = await bounds(page, policy.rules);
  for (const { name, token } of names) {
    const report = (await city.sure(token, "GET", "/compliance")).policies.find((it) => it.policy_id === policy.policy_id);
    report?.rules.forEach(({ status, measure }, n) =>
      found[n].push([name, status === "inactive" ? "–" : measure, said[n], SAID[status]].join(" | ")));
  }
  return found;
}

/** Each policy as a draft by the page, then published, and told by the server. */
async function agreeing(page, city, ids, { is, ok }) {
  const { operators } = city.configuration, today = await inState(page, ({ clock }) => clock.local(Date.now()).day);
  const drafts = [];
  for (const [n, [name, list]] of Object.entries(policies(ids, operators, today)).entries()) {
    const rules = list.map((it, m) => ({ rule_id: id("3", 100 * n + m), name: `Rule ${m}`, ...it }));
    const provider_ids = /two operators/.test(name) ? [operators[0].id, operators[2].id.toUpperCase()] : [];
    const policy = { policy_id: id("2", n), name, start_date: 1, provider_ids, rules };
    await page.click("#write");
    await fillForm(page, "policyform", { json: JSON.stringify(policy) });
    await told(page, "#foresightnote", /as they were read at/);
    await wait(500);
    drafts.push({ name, policy, said: await tables(page), note: await page.text("#foresightnote") });
    await page.click("#policyform .cancel");
    await city.sure("city", "PUT", `/drafts/policies/${policy.policy_id}`, policy);
  }
  const place = ids[Object.keys(DRAFT)[0]];
  await city.sure("city", "POST", "/publish", { geographies: [place], policies: drafts.map((it) => it.policy.policy_id) });
  let broken = 0, kept = 0;
  for (const { name, policy, said } of drafts) {
    const right = await wanted(page, city, policy, operators);
    for (const [m, rule] of policy.rules.entries()) {
      const text = String(said[m]);
      if (rule.rule_type === "time") ok(`${name}: that is told later`, /told once the policy is published/.test(text), text);
      else if (rule.rule_type !== "count") ok(`${name}: that isn't judged`, /not judged by this server/.test(text), text);
      else is(`${name}, rule ${m}: the page says what the server does`, said[m].join("\n"), right[m].join("\n"));
      broken += (text.match(/✗/g) || []).length;
      kept += (text.match(/✓/g) || []).length;
    }
  }
  ok("some are broken and some are kept", broken > 5 && kept > 5, `${broken} broken, ${kept} kept`);
  ok("whom it isn't meant for is told", /isn’t meant for Wheels/.test(drafts.find((it) => /two operators/.test(it.name)).note));
}

/** By the fields of the form, as they change; and what is no policy. */
async function typing(page, { is, ok }) {
  await page.click("#write");
  await fillForm(page, "policyform", { name: "By fields", where: ["With a hole"], types: ["bicycle"], states: [], maximum: 1000 });
  await told(page, "#foresighttable", /✓ kept/);
  ok("by the fields all keep it", (await tables(page))[0].every((it) => /✓ kept/.test(it)), await tables(page));
  await fillForm(page, "policyform", { maximum: 0 });
  await told(page, "#foresighttable", /✗ broken/);
  ok("none allowed is broken", (await tables(page))[0].some((it) => /\| None \| ✗ broken/.test(it)), await tables(page));
  await page.run(() => document.querySelector("#foresighttable summary").focus());
  await fillForm(page, "policyform", { maximum: 1 });
  await told(page, "#foresighttable", /At most 1/);
  is("the focus stays when it is worked out anew", await page.run(() => document.activeElement.tagName), "SUMMARY");
  await fillForm(page, "policyform", { json: "{" });
  ok("no JSON is told", /no JSON/.test(await told(page, "#foresightnote", /no JSON/)));
  for (const text of ['{"rules":1}', '{"rules":[{"rule_type":"count"}]}', "null", "[]"]) {
    await fillForm(page, "policyform", { json: text });
    await wait(500);
    const note = await page.text("#foresightnote");
    ok(`${text} can't be worked out, in words`, /can’t be worked out/.test(note), note);
  }
  const nowhere = { rules: [{ name: "R", rule_type: "count", geographies: [id("1", 999)], maximum: 1 }] };
  await fillForm(page, "policyform", { json: JSON.stringify(nowhere) });
  ok("a place that isn't there is told", /neither published nor a draft/.test(await told(page, "#foresightnote", /neither/)));
  await page.click("#policyform .cancel");
}

/** With other words than "vehicles" nothing is foreseen. */
async function little(browser, program, { is }) {
  const city = await City.start(program, { isTold: true, seconds: 600, changes: { oversight: "verdicts" } });
  const page = await browser.open(city.url);
  await page.signIn("city");
  await page.click("#write");
  await fillForm(page, "policyform", { name: "By verdicts", maximum: 1 });
  await wait(600);
  is("verdicts: nothing is foreseen", await page.run(() => document.getElementById("foresight").hidden), true);
  await page.close();
  await city.close();
}

export default async function foresight(browser, program, tally) {
  const { city, ids } = await start(program), page = await browser.open(city.url);
  await page.signIn("city");
  await told(page, "#legend", /Third/);
  await typing(page, tally);
  await agreeing(page, city, ids, tally);
  await clean(page, city, tally, "who is about to draft");
  await page.close();
  await city.close();
  await little(browser, program, tally);
}
