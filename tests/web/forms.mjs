// The forms of the author by check boxes: what a policy then says, what an edit leaves as it was, and that the focus, what is
// selected and how far something is scrolled stay when a part of the page is made anew.

import { wait } from "./browser.mjs";
import { City } from "./city.mjs";
import { clean, fillForm, inState, tickedIn, told } from "./looking.mjs";
import { device } from "./mock.mjs";

const id = (kind, number) => `00000000-0000-4000-8000-${kind.padStart(4, "0")}${String(number).padStart(8, "0")}`;
const triangle = (lng, lat) => ({ type: "Polygon",
  coordinates: [[[lng, lat], [lng + 0.1, lat], [lng + 0.1, lat + 0.1], [lng, lat]]] });

const documentOf = (page) => page.run(() => JSON.parse(document.querySelector("#policyform [name=json]").value));

const openEvents = (page, state) => page.run((it) => {
  const part = [...document.querySelectorAll("#events details")].find((one) => one.textContent.startsWith(`${it}:`));
  part.open = true;
  return new Promise((then) => { setTimeout(() => then(part.dataset.key), 50); });
}, state);

/** Ticks events of a state, and types others. */
const bind = async (page, state, events, others) => {
  const key = await openEvents(page, state);
  await page.run((it, list, text) => {
    const part = document.querySelector(`[data-key="${it}"]`), field = part.querySelector("[name=otherevents]");
    const wanted = [...part.querySelectorAll(".boxes label")].filter((label) => list.includes(label.textContent));
    for (const label of wanted) label.querySelector("input").click();
    field.value = text;
    field.dispatchEvent(new Event("input", { bubbles: true }));
  }, key, events, others);
};

/** A policy by check boxes alone says what was ticked, and nothing of what wasn't. */
async function ticking(page, city, { is }) {
  await page.click("#write");
  is("nothing is ticked but the states of what is parked", await tickedIn(page, "#policyform"),
    "available,non operational,reserved");
  is("each group has the words of MDS", await page.run(() =>
    ["types", "propulsions", "states"].map((it) => document.querySelectorAll(`#${it} input`).length).join()), "11,8,9");
  await fillForm(page, "policyform", { name: "By boxes", maximum: 3, forwhom: ["Wheels"], where: ["Downtown", "City limits"],
    types: ["scooter standing", "bicycle"], othertypes: "skateboard, bicycle", propulsions: ["electric"],
    states: ["available", "on trip"], otherstates: "odd_one", days: ["sat", "sun"] });
  await bind(page, "available", ["trip end", "agency drop off"], "own_event");
  const said = await documentOf(page), [rule] = said.rules, places = (await city.sure("city", "GET", "/geographies")).geographies;
  const named = (list) => list.map((it) => places.find((one) => one.geography_id === it).name).sort().join();
  is("operators", said.provider_ids.join(), city.configuration.operators[1].id);
  is("places", named(rule.geographies), "City limits,Downtown");
  is("types, and another by hand", rule.vehicle_types.join(), "bicycle,scooter_standing,skateboard");
  is("propulsion", rule.propulsion_types.join(), "electric");
  is("states with their events, and others by hand", JSON.stringify(rule.states),
    '{"available":["agency_drop_off","trip_end","own_event"],"on_trip":[],"odd_one":[]}');
  is("a state's line tells its events", await page.run(() => document.querySelector("#events summary").textContent),
    "available: after agency drop off, trip end or own event");
  is("days", rule.days.join(), "sun,sat");
  const none = { forwhom: [], types: [], othertypes: "", propulsions: [], states: [], otherstates: "", days: [] };
  await fillForm(page, "policyform", none);
  const { provider_ids: who, rules: [bare] } = await documentOf(page), members = ["vehicle_types", "propulsion_types", "states", "days"];
  is("none ticked is all", [who.length, ...members.map((it) => it in bare)].join(), "0,false,false,false,false");
  await page.click("#policyform .cancel");
  is("the focus goes to what opened the form", await page.run(() => document.activeElement.id), "write");
}

/** A type and a state of MDS that no vehicle has now are asked about before a policy is saved. */
async function asked(page, { is }) {
  await page.click("#write");
  await fillForm(page, "policyform", { name: "Of none", maximum: 3, where: ["Downtown"], types: ["bus", "scooter standing"], states: ["available", "missing"] });
  await page.run(() => document.getElementById("policyform").requestSubmit());
  await page.until(() => document.getElementById("ask").open);
  is("a type and a state that no vehicle has are asked about", await page.text("#askbody li"),
    "The rule “Of none”: no vehicle is a “bus” now. | The rule “Of none”: no vehicle is in the state “missing” now.");
  await page.click("#askno");
  await page.click("#policyform .cancel");
}

/** What an edit doesn't touch is sent as it was written: order, other forms of identifiers, null, unknown words and operators. */
async function untouched(page, city, { is }) {
  const [place] = (await city.sure("city", "GET", "/geographies")).geographies, upper = place.geography_id.toUpperCase();
  const rule = { rule_id: id("3", 1), name: "R", rule_type: "count", geographies: [upper], maximum: 4, minimum: 1,
    vehicle_types: ["truck", "skateboard", "bus"], propulsion_types: ["human", "electric"], days: ["wed", "mon"],
    states: { reserved: null, available: ["trip_end", "own_event", "agency_drop_off"], odd_one: [] }, inclusive_minimum: false };
  const policy = { policy_id: id("2", 1), name: "As written", description: "", start_date: 5, end_date: null, prev_policies: [],
    provider_ids: [device(9), city.configuration.operators[0].id], rules: [rule] };
  await city.sure("city", "PUT", `/drafts/policies/${policy.policy_id}`, policy);
  await page.click("#refresh");
  await told(page, "#drafts", /As written/);
  await page.run(() => document.querySelector('#drafts [aria-label="Edit the draft As written"]').click());
  const sorted = (it) => JSON.stringify(it, (_, value) => (value && typeof value === "object" && !Array.isArray(value)
    ? Object.fromEntries(Object.entries(value).sort()) : value));
  is("an edit that changes nothing says the same", sorted(await documentOf(page)), sorted(policy));
  is("with what isn't MDS's beside the boxes", await page.run(() => ["othertypes", "otherstates"].map((it) =>
    document.querySelector(`[name=${it}]`).value).join(";")), "skateboard;odd_one");
  await page.click("#policyform .cancel");
}

const active = (page) => page.run(() => {
  const it = document.activeElement;
  return it.closest("label")?.textContent.trim() || it.getAttribute("aria-label") || it.name || it.id;
});

/** Reads anew, and waits until it was read. */
const renew = async (page) => {
  const before = await inState(page, (it) => [it.readAt, it.fleetAt]);
  await page.click("#refresh");
  await page.until(([read, fleet]) =>
    import("/state.js").then(({ state }) => state.readAt > read && state.fleetAt > fleet), before);
  await wait(600);
};

/** The focus, a selection and how far something is scrolled stay, whatever is made anew. */
async function staying(page, city, { is, ok }) {
  await page.run(() => document.querySelector("#drafts input").focus());
  await renew(page);
  is("a draft's box keeps the focus", await active(page), "As written");
  await page.run(() => document.querySelector("#drafts button[aria-label^=Drop]").focus());
  await renew(page);
  is("and so does its button", await active(page), "Drop the draft As written");
  await page.click("#write");
  await fillForm(page, "policyform", { where: ["Downtown"] });
  await page.run(() => {
    const boxes = document.getElementById("where");
    boxes.style.maxHeight = "2.5rem";
    boxes.querySelectorAll("input")[1].focus();
    boxes.scrollTop = 12;
  });
  const scrolled = () => page.run(() => document.getElementById("where").scrollTop), before = [await active(page), await scrolled()];
  const another = { geography_id: id("1", 1), name: "Another", geography_json: triangle(-122.7, 45.4) };
  await city.sure("city", "PUT", `/drafts/geographies/${another.geography_id}`, another);
  await renew(page);
  ok("a place that comes can be ticked", /Another \(draft\)/.test(await page.text("#where label")));
  is("and a place's box keeps the focus and its place", [await active(page), await scrolled()].join(), before.join());
  is("what was ticked stays so", await tickedIn(page, "#where"), "Downtown");
  await page.run(() => {
    const field = document.querySelector("#policyform [name=description]");
    field.value = "Some words of a city";
    field.focus();
    field.setSelectionRange(5, 10, "backward");
  });
  const report = (n) => city.sure("wheels", "POST", "/fleet/events", { device_id: device(n), vehicle_type: "scooter_standing",
    vehicle_state: "available", timestamp: Date.now() - 10_000, location: { lat: 45.52, lng: -122.675 } });
  const table = () => page.text("#standingtable td:last-child");
  const first = await table();
  for (let n = 70; n < 75; n++) await report(n);
  await renew(page);
  ok("the table of operators is made anew", (await table()) !== first, first);
  is("a field keeps the focus and what is selected in it", await page.run(() => {
    const it = document.activeElement;
    return [it.name, it.value, it.selectionStart, it.selectionEnd, it.selectionDirection].join();
  }), "description,Some words of a city,5,10,backward");
  await page.click("#policyform .cancel");
  await page.run(() => document.querySelector("#standingtable td button").focus());
  const row = await active(page);
  await report(80);
  await renew(page);
  is("a row of the table keeps the focus", await active(page), row);
}

/** A part with a field whose text is partly selected, made anew by what keeps places. */
async function selection(page, { is }) {
  is("a field that is made anew keeps what is selected", await page.run(async () => {
    const { el, keepPlace } = await import("/dom.js"), panel = document.getElementById("drafts");
    const field = () => el("div", { "data-key": "one" }, el("input", { type: "text", value: "abcdefg" }));
    panel.replaceChildren(field());
    panel.querySelector("input").focus();
    panel.querySelector("input").setSelectionRange(2, 4);
    const place = keepPlace(document.getElementById("panel"), "#drafts");
    panel.replaceChildren(field());
    place();
    const it = document.activeElement;
    return [it.closest("#drafts") !== null, it.selectionStart, it.selectionEnd].join();
  }), "true,2,4");
}

/** What is told of a vehicle: its type, state and since when; and that its button keeps the focus. */
async function vehicle(page, city, { is, ok }) {
  const since = Date.now() - 3 * 3_600_000 - 12 * 60_000 - 5_000;
  await city.sure("wheels", "POST", "/fleet/events", { device_id: device(90), vehicle_type: "cargo_bicycle",
    vehicle_state: "non_operational", event_types: ["maintenance"], timestamp: since, location: { lat: 45.55, lng: -122.5 } });
  await renew(page);
  await page.run((it) => import("/map.js").then((map) => map.showDevice(it, 1)), device(90));
  const pairs = await page.run(() =>
    Object.fromEntries([...document.querySelectorAll("#picked dt")].map((it) => [it.textContent, it.nextSibling.textContent])));
  is("a vehicle's type and state", await page.text("#picked b"), "cargo bicycle, non operational");
  is("after what", pairs.After, "maintenance");
  ok("since when, and how long ago", pairs.Since.includes("3 hours 12 minutes ago"), pairs.Since);
  is("by its timestamp", await page.run(() => Date.parse(document.querySelector("#picked time").dateTime)), since);
  const format = new Intl.DateTimeFormat("en-US", { timeZone: "America/Los_Angeles", hour: "2-digit", minute: "2-digit" });
  const local = format.format(since);
  ok("in local time", pairs.Since.includes(local), `${pairs.Since} ${local}`);
  ok("by its operator", /of Wheels/.test(await page.text("#picked")));
  await page.run(() => document.querySelector("#picked button").focus());
  await renew(page);
  is("the button to close it keeps the focus", await page.run(() => document.activeElement.textContent), "Close");
}

export default async function forms(browser, program, tally) {
  const city = await City.start(program, { isTold: true, seconds: 600, fill: "fleets", changes: { oversight: "vehicles" } });
  const page = await browser.open(city.url);
  await page.signIn("city");
  await told(page, "#legend", /Scoot/);
  await ticking(page, city, tally);
  await asked(page, tally);
  await untouched(page, city, tally);
  await staying(page, city, tally);
  await vehicle(page, city, tally);
  await selection(page, tally);
  await clean(page, city, tally, "who fills forms");
  await page.close();
  await city.close();
}
