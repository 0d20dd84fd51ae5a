// What the author is shown of the operators, by the three words that a configuration may have for it: a table, CSV, vehicles on the map;
// what an operator is told of that; and that no other moment has counts of now.

import { mkdtempSync, readFileSync, readdirSync, rmSync } from "node:fs";
import { tmpdir } from "node:os";
import { join } from "node:path";
import { wait } from "./browser.mjs";
import { City, example } from "./city.mjs";
import { cardOf, clean, inState, setMoment, texts, told } from "./looking.mjs";
import { device, fleet, published, serve } from "./mock.mjs";

const VERDICTS = { ok: "kept", violated: "broken", inactive: "not open now", not_evaluated: "not judged" };
const NAMES = { scoot: "Scoot", wheels: "Wheels" };
// Names that would be an element, a script or a formula, were they taken for such.
const HOSTILE = ["<img src=x onerror=\"document.title='broken into'\">", '=HYPERLINK("http://x.invalid","y")', "+1", "-1", "@SUM(A1)",
  'a "quoted", name', "'; DROP TABLE"];

/** What the page has asked of how operators stand. */
const asked = (page, from = 0) => page.asked.slice(from).map((it) => new URL(it.url).pathname).filter((it) => /^\/app\/(compliance|fleet)/.test(it));

/** Whether a server tells what stood at moments that are over, of which this is the first. */
export const tellsPast = async (city) => (await city.ask("city", "GET", "/app/compliance?at=0")).document?.at === 0;

/** Chooses from a list above the table. */
export const choose = (page, id, text) => page.run((list, wanted) => {
  const it = document.getElementById(list), option = [...it.options].find((one) => one.textContent === wanted);
  it.value = option.value;
  it.dispatchEvent(new Event("change"));
}, id, text);

/** Each row of the table: operator, rule or policy, how it stands. */
export const table = (page) => page.run(() => [...document.querySelectorAll("#standingtable tbody tr")].map((row) => {
  const [policy, stands] = row.querySelectorAll("td"), name = policy.querySelector(".small") || policy.querySelector("button");
  return [row.querySelector("th").textContent, name.textContent, stands.querySelector(".tag").textContent.replace(/^\S /, "")].join(" | ");
}));

/** The same by what each operator is answered itself. */
async function wanted(city) {
  const { policies } = await city.sure("city", "GET", "/policies"), found = [];
  for (const [token, name] of Object.entries(NAMES)) {
    for (const report of (await city.sure(token, "GET", "/compliance")).policies) {
      const policy = policies.find((it) => it.policy_id === report.policy_id);
      report.rules.forEach((it, n) => found.push([name, policy.rules[n].name, VERDICTS[it.status]].join(" | ")));
    }
  }
  return found;
}

const sorted = (list) => [...list].sort().join("\n");

/** With "none" the author is shown nothing, and asks for nothing; an operator is told so. */
async function none(browser, program, { is, ok }) {
  const city = await City.start(program, { isTold: true, seconds: 1, fill: "fleets", changes: { oversight: "none" } });
  const author = await browser.open(city.url), operator = await browser.open(city.url);
  await author.signIn("city");
  await wait(2500);
  ok("none: one sentence says why, and how to", /configuration doesn’t show.*"oversight": "verdicts".*"vehicles"/
    .test(await author.text("#standingnote")), await author.text("#standingnote"));
  is("none: there is no table", await author.run(() => document.getElementById("standingview").hidden), true);
  is("none: nothing is asked", asked(author).join(), "");
  is("none: no vehicle is on the map", await inState(author, (it) => it.fleet), null);
  await operator.signIn("scoot");
  ok("none: an operator is told so", /neither your verdicts nor your vehicles/.test(await operator.text("#watched")));
  for (const [who, page] of Object.entries({ author, operator })) {
    await clean(page, city, { is }, `the ${who}, none`);
    await page.close();
  }
  await city.close();
}

/** With "verdicts" there is a table, and no vehicle. */
async function verdicts(browser, program, { is, ok }) {
  const city = await City.start(program, { isTold: true, seconds: 600, fill: "fleets", changes: { oversight: "verdicts" } });
  const author = await browser.open(city.url), operator = await browser.open(city.url);
  await author.signIn("city");
  await author.until(() => document.querySelectorAll("#standingtable tbody tr").length > 0);
  is("verdicts: the table is what each operator is answered", sorted(await table(author)), sorted(await wanted(city)));
  is("verdicts: no vehicle is asked for", asked(author).join(), "/app/compliance");
  is("verdicts: none is on the map", await inState(author, (it) => it.fleet), null);
  await author.run(() => [...document.querySelectorAll("#standingtable summary")].find((it) => /for more than 24 hours/.test(it.textContent)).click());
  await author.until(() => document.querySelectorAll("#standingtable .devices li").length === 5);
  is("verdicts: vehicles are told, and lead nowhere", await author.run(() => document.querySelectorAll(".devices button").length), 0);
  await operator.signIn("wheels");
  ok("verdicts: an operator is told so", /your verdicts.*not where your vehicles are/.test(await operator.text("#watched")));
  is("an operator has no table of the others", await operator.run(() => document.getElementById("standing").hidden), true);
  is("and asks for none", asked(operator).join(), "");
  ok("nor is another operator named to it", !/Scoot/.test(await operator.text("#standing")));
  for (const [who, page] of Object.entries({ author, operator })) {
    await clean(page, city, { is }, `the ${who}, verdicts`);
    await page.close();
  }
  await city.close();
}

/** The table by operator, by policy, and the broken ones. */
async function choices(page, { is, ok }) {
  const rows = await table(page), stands = rows.map((it) => it.split(" | ")[2]), first = stands.findIndex((it) => it !== "broken");
  ok("broken ones come first", first > 0 && !stands.slice(first).includes("broken"), stands);
  ok("a measure against its bound", /141 of at most 150/.test(await page.text("#standingtable")), await page.text("#standingtable"));
  ok("a measure of time", /9 vehicles for more than 72 hours/.test(await page.text("#standingtable")));
  await choose(page, "byoperator", "Wheels");
  is("by operator", (await table(page)).filter((it) => !it.startsWith("Wheels")).join(), "");
  is("the map shows its vehicles alone", await inState(page, (it) => it.caught.reduce((a, b) => a + b, 0)), 112);
  await choose(page, "byoperator", "all");
  await choose(page, "bypolicy", "Downtown fleet cap");
  is("by policy", (await texts(page, "#standingtable td button")).split(",").filter((it) => it !== "Downtown fleet cap").join(), "");
  await choose(page, "bypolicy", "all");
  await choose(page, "order", "by operator");
  const names = (await table(page)).map((it) => it.split(" | ")[0]);
  is("in the operators' order", names.join(), [...names].sort().join());
  await choose(page, "order", "broken first");
  await page.click("#brokenalone");
  is("the broken ones alone", (await table(page)).filter((it) => !it.endsWith("broken")).join(), "");
  await page.click("#brokenalone");
}

/** The operators' vehicles on the map: marks, a legend, and what is told of one. */
async function vehicles(page, city, { is, ok }) {
  // The browser may not tell of the first request of a worker.
  const wants = city.configuration.operators.map((it) => `/app/fleet/${it.id}`).join(), fleets = asked(page).filter((it) => /fleet/.test(it)).join();
  ok("each operator's vehicles are asked for, one after another", fleets && wants.endsWith(fleets), fleets);
  is("all of them are there", await inState(page, (it) => it.fleet.count), 419 + 112);
  const legend = await page.text("#legend li");
  ok("the legend names operators, and how many break a rule", /breaks a rule.*Scoot \(1[47] break a rule\).*Wheels/.test(legend), legend);
  is("with a mark for each", await page.run(() => document.querySelectorAll("#legend canvas").length), 2);
  await page.run(() => [...document.querySelectorAll("#standingtable summary")].find((it) => /for more than 24 hours/.test(it.textContent)).click());
  await page.until(() => document.querySelectorAll("#standingtable .devices button").length === 5);
  await page.click("#standingtable .devices button");
  const said = await page.text("#picked");
  ok("a vehicle's operator, type, state, and since when", /scooter standing, non operational.*of Scoot.*Since.*\d (hours?|minutes?|days?).* ago 20\d\d-\d\d-\d\dT[\d:.]+Z.*breaks a rule/.test(said), said);
  ok("a card tells by how many a rule is broken", /broken by 1 operator/.test(await cardOf(page, "Nothing stands for more than 72 hours")));
}

/** The lines of CSV (RFC 4180), each its values. */
export function parsed(text) {
  const lines = [[]];
  for (const [, end, quoted, bare] of text.matchAll(/(^|,|\r\n)(?:"((?:[^"]|"")*)"|([^",\r\n]*))/g)) {
    if (end === "\r\n") lines.push([]);
    lines.at(-1).push(quoted === undefined ? bare : quoted.replaceAll('""', '"'));
  }
  return lines;
}

/** What is downloaded by a click. */
export async function downloaded(page) {
  const folder = mkdtempSync(join(tmpdir(), "csv-"));
  try {
    await page.browser.call("Browser.setDownloadBehavior", { behavior: "allow", browserContextId: page.context, downloadPath: folder });
    await page.click("#csv");
    // The browser first makes an empty file of that name.
    const read = () => readdirSync(folder).filter((it) => it.endsWith(".csv")).map((it) => [it, readFileSync(join(folder, it), "utf8")])
      .find(([, text]) => text);
    for (let n = 0; n < 400 && !read(); n++) await wait(50);
    const [name, text] = read() || ["", ""];
    return { name, text };
  } finally {
    rmSync(folder, { recursive: true });
  }
}

/** The table as a file. */
async function csv(page, city, { is, ok }) {
  const { name, text } = await downloaded(page);
  ok("the file's name has the moment", /^operators-\d{4}(-\d\d){5}\.csv$/.test(name), name);
  is("it begins with the mark of UTF-8", text.codePointAt(0), 0xfeff);
  ok("each line ends with a carriage return and a line feed", text.endsWith("\r\n") && !/[^\r]\n/.test(text));
  const [head, ...lines] = parsed(text.slice(1).replace(/\r\n$/, "")), at = (title) => head.indexOf(title);
  const rows = lines.map((it) => [it[at("Operator")], it[at("Rule")], it[at("Verdict")]].join(" | "));
  is("it has what each operator is answered", sorted(rows), sorted(await wanted(city)));
  is("kept rules have no time", lines.filter((it) => it[at("Verdict")] !== "broken" && it.slice(at("By how much")).join("")).length, 0);
  ok("broken ones have the first moment that is known, in words too", lines.filter((it) => it[at("Verdict")] === "broken").every((it) =>
    Date.parse(it[at("Broken since (UTC)")]) === Date.parse(it[at("Broken since (local)")]) && / or earlier|^not known yet/.test(it[at("Broken since (in words)")])), lines);
  const cap = lines.find((it) => it[at("Measure")] === "141");
  is("with numbers and bounds", [cap[at("At least")], cap[at("At most")], cap[at("Unit")]].join(), ",150,vehicles");
  const reports = (await city.sure("scoot", "GET", "/compliance")).policies.flatMap((it) => it.rules);
  is("and the vehicles that break a rule", lines.find((it) => it[at("Measure")] === "5")[at("Vehicles (the first 100)")], reports.find((it) => it.measure === 5).devices.join(" "));
}

/** Another moment than now shows the author nothing of now: before all was published, by whether the server tells that, and to come. */
async function ofAuthor(author, isTold, { is, ok }) {
  const over = isTold ? ["#standingtable", /No rule was in force for an operator then/] : ["#standingnote", /isn’t told here/];
  for (const [text, where, pattern] of [["2024-12-01T12:00", ...over], ["2031-12-01T12:00", "#standingnote", /isn’t told of a moment to come/]]) {
    await setMoment(author, text);
    const said = await told(author, where, pattern);
    ok(`the author at ${text}`, pattern.test(said), said);
    is(`no row at ${text}`, (await author.run(() => document.getElementById("standingview").hidden)) || (await table(author)).length === 0, true);
    is(`no offender at ${text}`, await inState(author, (it) => it.offenders.size), 0);
    is(`no operator in the legend at ${text}`, await author.run(() => document.querySelectorAll("#legend canvas").length), 0);
  }
  await author.click("#now");
  await told(author, "#legend", /Scoot/);
  ok("now the operators are back", /Scoot/.test(await author.text("#legend")) && (await table(author)).length > 0);
}

/** And so an operator: what stood then is told, or that it isn't. */
async function ofOperator(operator, isTold, { is, ok }) {
  await setMoment(operator, "2024-12-01T12:00");
  if (isTold) {
    const said = await told(operator, ".tiles", /^0vehicles then/);
    ok("before all was published an operator had nothing", /^0vehicles then0rules were broken0rules were kept$/.test(said), said);
  } else {
    const said = await told(operator, "#untold", /isn’t told here/);
    ok("an operator is told that it isn't told", /What stood then isn’t told here/.test(said), said);
    is("and no count", await operator.run(() => document.querySelectorAll(".tiles b").length), 0);
    ok("and so by the note", /no vehicle is shown, and no verdict/.test(await operator.text("#timenote")));
  }
  is("no vehicle is in the legend", await operator.run(() => document.querySelectorAll("#legend li").length), 0);
  is("no rule is kept or broken then", /[✓✗]|counted/.test(await operator.text("#policies article")), false);
  await operator.run(() => document.getElementById("map").focus());
  await operator.key("Enter", "\r");
  is("no vehicle is found on the map", / ago/.test(await operator.text("#picked")), false);
  await setMoment(operator, "2031-12-01T12:00");
  ok("of a moment to come it is told what would be", /would be/.test(await operator.text(".tiles")), await operator.text(".tiles"));
  await operator.click("#now");
}

/** With "vehicles" all of it, and it is renewed while it is looked at. */
export async function whole(browser, program, { is, ok }) {
  const city = await City.start(program, { isTold: true, seconds: 600, fill: "fleets", changes: { oversight: "vehicles" } });
  const author = await browser.open(city.url), operator = await browser.open(city.url);
  await author.signIn("city");
  await told(author, "#legend", /Scoot/);
  await choices(author, { is, ok });
  await csv(author, city, { is, ok });
  await vehicles(author, city, { is, ok });
  await operator.signIn("scoot");
  ok("vehicles: an operator is told so", /your verdicts and all of your vehicles/.test(await operator.text("#watched")));
  const isTold = await tellsPast(city);
  await ofAuthor(author, isTold, { is, ok });
  await ofOperator(operator, isTold, { is, ok });
  await renewal(author, city, { is, ok });
  for (const [who, page] of Object.entries({ author, operator })) {
    await clean(page, city, { is }, `the ${who}, vehicles`);
    await page.close();
  }
  await city.close();
}

/** A rule that was broken at the first look, and one that is seen to break; and where the past is told. */
async function since(page, city, [lng, lat], { is, ok }) {
  const told_ = (text) => page.run((it) => [...document.querySelectorAll("#standingtable tbody tr")]
    .filter((row) => row.className === "bad" && row.textContent.includes(it)).map((row) => [1, 2].map((n) => row.querySelectorAll("td")[n].textContent).join(": ")).join(), text);
  ok("a rule that was broken at the first look", /^✗ broken: not known yet: already broken when this page first looked, at \d/.test(await told_("for more than 72 hours")), await told_("for more than 72 hours"));
  is("one that is kept has no time", await page.run(() =>
    [...document.querySelectorAll("#standingtable tr:not(.bad)")].filter((it) => /(since|before) \d/.test(it.textContent)).length), 0);
  for (let n = 2; n < 11; n++) {
    await city.sure("scoot", "POST", "/fleet/events", { device_id: device(n), vehicle_type: "scooter_standing", vehicle_state: "available",
      timestamp: Date.now() - 1000, location: { lat, lng } });
  }
  await told(page, "#standingtable", /151 of at most 150/);
  ok("a rule that is seen to break", /^✗ broken: this time since \d(?!.*or earlier)/.test(await told_("151 of at most 150")), await told_("151 of at most 150"));
  ok("where the past is told", /ruffletuff report/.test(await page.text("#standingview")));
}

/** A round brings what has changed, the focus stays, and nothing is asked for while nobody looks. */
async function renewal(page, city, { is, ok }) {
  await inState(page, (it) => { it.settings.refresh_seconds = 1; });
  await page.click("#refresh");
  await told(page, "#standingtable", /141 of at most 150/);
  await page.run(() => [...document.querySelectorAll("#standingtable tbody tr")].find((it) => /141 of/.test(it.textContent))
    .querySelector("button").focus());
  const [lng, lat] = await inState(page, ({ fleet: it, places }) => {
    const row = it.inside[places.findIndex(({ name }) => name === "Downtown")].indexOf(1);
    return [it.lng[row] / 1e7, it.lat[row] / 1e7];
  });
  await city.sure("scoot", "POST", "/fleet/events", { device_id: device(1), vehicle_type: "scooter_standing", vehicle_state: "available",
    timestamp: Date.now() - 1000, location: { lat, lng } });
  ok("a round tells what has changed", /142 of at most 150/.test(await told(page, "#standingtable", /142 of at most 150/)));
  ok("and the focus is where it was", await page.run(() => /142 of/.test(document.activeElement.closest("tr")?.textContent || "")));
  await since(page, city, [lng, lat], { is, ok });
  await page.run(() => Object.defineProperty(document, "visibilityState", { value: "hidden", configurable: true }));
  // What was being read is read to its end; a round would come each second.
  let before = -1;
  for (let n = 0; n < 20 && before !== page.asked.length; n++) {
    before = page.asked.length;
    await wait(2500);
  }
  is("nothing is asked for while nobody looks", page.asked.length - before, 0);
  await page.run(() => {
    delete document.visibilityState;
    document.dispatchEvent(new Event("visibilitychange"));
  });
  // A round asks for more than how operators stand, and in any order.
  for (let n = 0; n < 100 && !asked(page, before).length; n++) await wait(100);
  ok("and at once when somebody does", asked(page, before).length > 0);
  await page.run(() => document.getElementById("leave").click());
}

/** Names that are markup or formulas stay text, on the page and in CSV. */
export async function hostile(browser, program, { is, ok }) {
  const operators = example("city.json").operators.map((it, n) => ({ ...it, name: HOSTILE[n] }));
  const city = await City.start(program, { isTold: true, seconds: 600, fill: "fleets", changes: { oversight: "vehicles", operators } });
  const places = (await city.sure("city", "GET", "/geographies")).geographies.map((it) => it.geography_id);
  const id = (kind, n) => `00000000-0000-4000-8000-0000${kind}00${String(n).padStart(3, "0")}`;
  for (const [n, name] of HOSTILE.entries()) {
    const rule = { rule_id: id("001", n), name, rule_type: "count", geographies: places, maximum: 1 };
    await city.sure("city", "PUT", `/drafts/policies/${id("000", n)}`, { policy_id: id("000", n), name, start_date: 0, rules: [rule] });
  }
  await city.sure("city", "POST", "/publish", { policies: HOSTILE.map((_, n) => id("000", n)) });
  const page = await browser.open(city.url);
  await page.signIn("city");
  await told(page, "#legend", /HYPERLINK/);
  is("no name is an element", await page.run(() => document.querySelectorAll("#work img, #work script").length), 0);
  is("nor is run", await page.run(() => document.title), city.title);
  const said = await texts(page, "#standingtable td button");
  is("each policy's name stands as it is", HOSTILE.filter((it) => !said.includes(it)).join(), "");
  const { text } = await downloaded(page), [head, ...lines] = parsed(text.slice(1).replace(/\r\n$/, ""));
  is("each line has all values", lines.filter((it) => it.length !== head.length).length, 0);
  const values = lines.flat();
  is("no value begins as a formula does", values.filter((it) => /^[=+\-@\t\r]/.test(it)).join(), "");
  is("those that would have an apostrophe in front", [...new Set(values.filter((it) => /^'[=+\-@]/.test(it)))].sort().join(" "),
    HOSTILE.slice(1, 5).map((it) => `'${it}`).sort().join(" "));
  ok("a value with quotes and commas is whole", values.includes(HOSTILE[5]) && values.includes(HOSTILE[0]));
  await clean(page, city, { is }, "who reads hostile names");
  await page.close();
  await city.close();
}

const COUNT = 64, EACH = 2_000, SLOW = Number(process.env.PATIENCE || 1);

/** What a server of 64 operators with 2,000 vehicles each would answer. */
function answers() {
  const { policies, geographies } = published(), operators = Array.from({ length: COUNT }, (_, n) => ({ id: device(n), name: `Operator ${n}` }));
  const verdict = ({ rule_id }, n, isBroken) => (isBroken
    ? { devices: Array.from({ length: 100 }, (_, i) => device(i)), measure: 150, rule_id, status: "violated" } : { measure: 7, rule_id, status: "ok" });
  const reports = (n) => policies.map((it, p) => ({ policy_id: it.policy_id, rules: it.rules.map((rule) => verdict(rule, n, (n + p) % 4 === 0)) }));
  const body = (n) => ({ at: Date.now(), policies: reports(n), revision: 2, version: 2 });
  const told = {
    "/policies": { policies, revision: 2 }, "/geographies": { geographies, revision: 2 }, "/app/withdrawals": { withdrawals: [] },
    "/app/drafts": { drafts: [] },
    "/app/whoami": { role: "author", oversight: "vehicles", zone: "Z", operators },
    "/app/compliance": { at: Date.now(), operators: operators.map((it, n) => ({ compliance: body(n), ...it })) },
  };
  const vehicles = JSON.stringify({ vehicles: fleet(EACH) });
  const texts_ = Object.fromEntries(Object.entries(told).map(([path, it]) => [path, JSON.stringify(it)]));
  return { told: texts_, answer: (path) => texts_[path] ?? (path.startsWith("/app/fleet/") ? vehicles : undefined) };
}

/** Signs in, and tells when the table is there, when the vehicles are, and how long the page has been busy at a time. */
const timed = async () => {
  const { state } = await import("/state.js"), begun = performance.now(), seen = {};
  document.getElementById("token").value = "city";
  document.getElementById("sign").requestSubmit();
  for (let last = begun, longest = 0; !seen.fleet;) {
    await new Promise((then) => { setTimeout(then, 1); });
    const t = performance.now();
    if (document.querySelector("#standingtable tr")) seen.table ??= t - begun;
    if (state.fleet) seen.fleet = t - begun;
    seen.longest = longest = Math.max(longest, t - last);
    last = t;
  }
  return seen;
};

/** 64 operators of 2,000 vehicles stay quick. */
export async function many(browser, _, { is, ok }) {
  const { told: texts_, answer } = answers(), server = await serve(answer), page = await browser.open(server.url);
  const seen = await page.run(timed);
  ok("64 operators: the table is there in time", seen.table < 3_000 * SLOW, seen);
  ok("64 operators: and their 128,000 vehicles", seen.fleet < 20_000 * SLOW, seen);
  ok("64 operators: the page is never busy for long", seen.longest < 3_000 * SLOW, seen);
  is("64 operators: all vehicles", await inState(page, (it) => it.fleet.count), COUNT * EACH);
  is("64 operators: the first rows alone", await page.run(() => document.querySelectorAll("#standingtable tbody tr").length), 25);
  await page.click("#morerows");
  is("64 operators: more rows", await page.run(() => document.querySelectorAll("#standingtable tbody tr").length), 225);
  const frame = await page.run(async () => {
    const map = await import("/map.js"), begun = performance.now();
    for (let n = 0; n < 5; n++) {
      map.draw();
      await new Promise((then) => { requestAnimationFrame(() => requestAnimationFrame(then)); });
    }
    return (performance.now() - begun) / 5;
  });
  ok("64 operators: a frame", frame < 1_000 * SLOW, frame);
  const round = await page.run(async () => {
    const cards = await import("/cards.js"), begun = performance.now();
    cards.render();
    return performance.now() - begun;
  });
  ok("64 operators: a round", round < 500 * SLOW, round);
  // The configuration is another one after a restart.
  texts_["/app/whoami"] = texts_["/app/whoami"].replace('"vehicles"', '"none"');
  texts_["/app/compliance"] = [403, '{"error":"role"}'];
  await page.click("#refresh");
  ok("another configuration is told", /configuration doesn’t show/.test(await told(page, "#standingnote", /configuration/)));
  is("and nothing of the operators stays", await inState(page, (it) => [it.fleet, it.standings].join()), ",");
  await page.close();
  server.close();
}

/** The first two words, of which the one shows nothing. */
export async function little(browser, program, tally) {
  await none(browser, program, tally);
  await verdicts(browser, program, tally);
}
