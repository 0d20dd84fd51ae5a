// Moments that are over: what the page asks of them, what it shows of them and where it says that nothing is told, before answers that are
// made here; since when a rule is broken; and what a program tells that keeps the past, before and after a restart.

import { wait } from "./browser.mjs";
import { City, example, isKeeping } from "./city.mjs";
import { cardOf, clean, differences, inState, setMoment, texts, told } from "./looking.mjs";
import { device, fleet, published, serve } from "./mock.mjs";
import { choose, downloaded, parsed, table, tellsPast } from "./oversight.mjs";

const MINUTE = 60_000, HOUR = 60 * MINUTE, ZONE = "PST8PDT,M3.2.0,M11.1.0", CAP = "Downtown fleet cap";
const OPERATORS = example("city.json").operators.map(({ id, name }) => ({ id, name })), [SCOOT, WHEELS] = OPERATORS.map((it) => it.id);
// How many vehicles an operator has now and had then, and of how many the cap's first rule allows 150.
const NOW = { vehicles: 20, measure: 141 }, THEN = { vehicles: 5, measure: 177 }, STOOD = 3 * HOUR + 12 * MINUTE;
const NOT_KEPT = [410, '{"error":"not_kept"}'], BUSY = [503, '{"error":"busy"}'];

const local = new Intl.DateTimeFormat("en-US", { timeZone: "America/Los_Angeles", weekday: "short", day: "numeric", month: "short",
  year: "numeric", hour: "2-digit", minute: "2-digit" });

/** A text with plain spaces, where a browser and node put different ones before AM. */
const spaced = (text) => text.replace(/\s/g, " ");

/** What a page wrote to the console but for answers of these statuses. */
const strange = (page, ...statuses) =>
  page.console.filter((it) => ![404, ...statuses].some((status) => it.includes(`status of ${status} `))).join("; ");

// --- Answers that are made ----------------------------------------------------------------------------------------------

/** What an operator is answered of its rules, of which the cap's first one counts so many vehicles. */
function reply(at, measure) {
  const verdict = ({ rule_id }, isCap) => (!isCap ? { measure: 7, rule_id, status: "ok" }
    : measure > 150 ? { devices: [device(0), device(1)], measure, rule_id, status: "violated" } : { measure, rule_id, status: "ok" });
  const inForce = published().policies.filter((it) => !/2024|Festival/.test(it.name));
  return { at, policies: inForce.map(({ policy_id, name, rules }) =>
    ({ policy_id, rules: rules.map((it, n) => verdict(it, name === CAP && !n)) })), revision: 2, version: 2 };
}

/** The same of all operators, of which the second keeps all rules. */
const replies = (at, measure) => ({ at, operators: OPERATORS.map((it, n) => ({ compliance: reply(at, n ? 7 : measure), ...it })) });

const vehicles = (count, at) => ({ vehicles: fleet(count).map((it) => ({ ...it, since: at - STOOD, timestamp: at - STOOD })) });

/** A server that is asked by the author or an operator: `past` is what it answers of a moment that is over, to be replaced. */
async function made(role, oversight, now = NOW) {
  const isAuthor = role === "author", { policies, geographies } = published(), it = { asked: [], atOnce: 0, most: 0 };
  it.me = isAuthor ? { role, oversight, zone: ZONE, operators: OPERATORS } : { role, oversight, zone: ZONE, ...OPERATORS[0] };
  const verdicts = (path, at, measure) => (path === "/app/compliance" && isAuthor ? replies(at, measure) : reply(at, measure));
  it.past = (path, at) => JSON.stringify(/compliance/.test(path) ? verdicts(path, at, THEN.measure) : vehicles(THEN.vehicles, at));
  const still = { "/policies": { policies, revision: 2 }, "/geographies": { geographies, revision: 2 }, "/app/drafts": { drafts: [] },
    "/app/withdrawals": { withdrawals: [] } };
  const ofNow = (path) => {
    if (path === "/app/whoami") return it.me;
    if (/^\/(app\/)?compliance/.test(path)) return verdicts(path, Date.now(), now.measure);
    return /^\/(app\/fleet|fleet\/vehicles)/.test(path) ? vehicles(now.vehicles, Date.now()) : still[path];
  };
  const ofPast = async (path, at) => {
    it.asked.push(`${path.slice(4)} ${at}`);
    it.most = Math.max(it.most, ++it.atOnce);
    await wait(40);
    it.atOnce--;
    return it.past(path, at);
  };
  const server = await serve((path, query) => {
    const at = /^at=(\d+)$/.exec(query)?.[1];
    if (at && path.startsWith("/app/")) return ofPast(path, Number(at));
    const document = ofNow(path);
    return document && JSON.stringify(document);
  });
  return Object.assign(it, server);
}

/** Chooses a moment, to the millisecond. */
const go = async (page, t) => setMoment(page, await page.run((at) =>
  import("/state.js").then(({ state }) => new Date(at + state.clock.offset(at)).toISOString().slice(0, 23)), t));

/** How many vehicles are shown, null where none may be. */
const shownCount = (page) => page.run(() => import("/state.js").then((it) => it.shownFleet()?.count ?? null));
const fleetIsThere = (page) => page.until(() => import("/state.js").then((it) => it.shownFleet() !== null));

const isHidden = (page, id) => page.run((it) => document.getElementById(it).hidden, id);

/** What the table says, once it is shown and says so. */
async function tableTold(page, pattern) {
  await page.until(() => !document.getElementById("standingview").hidden);
  return told(page, "#standingtable", pattern);
}

/** What was asked of moments that are over, since it was looked at last. */
const takeAsked = (server) => server.asked.splice(0).join();

/** A page before such a server, once it shows what is now. */
async function opened(browser, server, token, isFleetDue = true) {
  const page = await browser.open(server.url);
  await page.signIn(token);
  await page.until(() => document.querySelectorAll("#standingtable tr, .tiles").length > 0);
  if (isFleetDue) await fleetIsThere(page);
  return page;
}

/** A moment some hours ago, not a whole minute. */
const before = (hours) => Date.now() - Math.round(hours * HOUR) - 1_234;

// --- The author ---------------------------------------------------------------------------------------------------------

/** The table, the map, what is told of a vehicle, and the file, all as of then. */
async function shown(page, server, { is, ok }) {
  const t = before(2);
  await go(page, t);
  is("the heading says of when", spaced(await page.text("#standingtitle")), `How operators stood on ${spaced(local.format(t))}`);
  is("until it is told nothing of now is shown", [await isHidden(page, "standingview"), await shownCount(page)].join(), "true,");
  ok("the table is that of then", /177 of at most 150/.test(await tableTold(page, /177 of at most/)));
  ok("and not that of now", !/141 of/.test(await page.text("#standingtable")));
  ok("so says the note", /^1 of 2 operators broke a rule then: 1 rule broken, .*By what had been reported until .*city time, UTC/
    .test(await page.text("#standingnote")), await page.text("#standingnote"));
  await fleetIsThere(page);
  is("the vehicles are those of then", await shownCount(page), 2 * THEN.vehicles);
  is("those that broke a rule are marked", await inState(page, (it) => it.offenders.size), 2);
  ok("the legend says of when", /Scoot \(2 break a rule\).*Wheels.*Vehicles as they stood then/.test(await page.text("#legend li")));
  ok("a card tells by how many a rule was broken", /broken by 1 operator/.test(await cardOf(page, CAP)));
  await page.click("#standingtable summary");
  await page.until(() => document.querySelectorAll("#standingtable .devices button").length === 2);
  await page.click("#standingtable .devices button");
  const said = await page.text("#picked");
  ok("a vehicle is told of as of then", /of Scoot.*Since.*3 hours 12 minutes before then.*breaks a rule/.test(said), said);
  is("asked is what is needed, once", takeAsked(server), `/compliance ${t},/fleet/${SCOOT} ${t},/fleet/${WHEELS} ${t}`);
  is("and one thing at a time", server.most, 1);
  await file(page, t, { is, ok });
  const { length } = page.asked;
  await wait(2_500);
  is("nothing is renewed", page.asked.length - length, 0);
  await setMoment(page, await inState(page, (it) => it.clock.toField(Date.now() + 86_400_000)));
  ok("a moment to come isn't told", /isn’t told of a moment to come/.test(await page.text("#standingnote")));
  await page.click("#now");
  ok("now is told again", /141 of at most 150/.test(await tableTold(page, /141 of/)));
  is("by its own heading", await page.text("#standingtitle"), "How operators stand");
  is("with its own vehicles", await shownCount(page), 2 * NOW.vehicles);
  is("nothing more was asked", takeAsked(server), "");
}

/** The file has the moment that is shown. */
async function file(page, t, { is, ok }) {
  const { name, text } = await downloaded(page), [head, ...lines] = parsed(text.slice(1).replace(/\r\n$/, ""));
  const moment = new Date(t).toISOString(), at = (title) => head.indexOf(title);
  is("the file's name has the moment of then", name, `operators-${moment.slice(0, 19).replace(/[T:]/g, "-")}.csv`);
  ok("so has each line", lines.length > 5 && lines.every((it) => it[at("Moment (UTC)")] === moment));
  is("with what stood then", lines.filter((it) => it[at("Verdict")] === "broken").map((it) => it[at("Measure")]).join(), "177");
}

/** A slider that moves asks for the last of its moments alone; the view of one operator for that one's vehicles. */
async function sparing(page, server, { is }) {
  await page.run(() => {
    const it = document.getElementById("slider"), middle = Math.floor(it.value / 2);
    for (let value = middle; value < middle + 20; value++) {
      it.value = value;
      it.dispatchEvent(new Event("input"));
    }
  });
  await tableTold(page, /177 of at most/);
  await fleetIsThere(page);
  const t = await inState(page, (it) => it.moment);
  is("of a slider that moves its last moment", takeAsked(server), `/compliance ${t},/fleet/${SCOOT} ${t},/fleet/${WHEELS} ${t}`);
  await choose(page, "byoperator", "Wheels");
  await wait(500);
  is("what was read isn't asked for again", takeAsked(server), "");
  const other = before(4);
  await go(page, other);
  await told(page, "#standingtitle", /stood on/);
  await fleetIsThere(page);
  is("of one operator its vehicles alone", takeAsked(server), `/compliance ${other},/fleet/${WHEELS} ${other}`);
  await choose(page, "byoperator", "all");
  await fleetIsThere(page);
  is("and all of them where all are shown", takeAsked(server), `/fleet/${SCOOT} ${other},/fleet/${WHEELS} ${other}`);
  is("which are there", await shownCount(page), 2 * THEN.vehicles);
}

// --- What isn't told ----------------------------------------------------------------------------------------------------

/** Lets the page's own waits be over sooner, but for its rounds. */
const hurry = (page) => page.run(async () => {
  const { state } = await import("/state.js"), real = window.setTimeout;
  state.settings.refresh_seconds = 600;
  window.setTimeout = (call, after, ...rest) => real(call, after / 20, ...rest);
});

/** A moment that isn't kept, or hasn't come by the server's clock, and a server that is busy for a while or for long. */
async function refused(page, server, { is, ok }) {
  const { past } = server, nothing = async () => [await isHidden(page, "standingview"), await shownCount(page)].join();
  server.past = () => NOT_KEPT;
  await go(page, before(5));
  const said = await told(page, "#standingnote", /isn’t kept/);
  ok("what isn't kept is told so", /isn’t kept on this server any more.*archive of them would have it/.test(said), said);
  is("nothing else is shown in its place", await nothing(), "true,");
  ok("nor by the note", /No vehicle is shown, and no verdict/.test(await page.text("#timenote")), await page.text("#timenote"));
  is("and asking again is of no use", await page.text("#standingnote button"), "");
  is("it was asked once", server.asked.splice(0).length, 1);
  server.past = () => [409, '{"error":"future"}'];
  await go(page, before(6));
  ok("what hasn't come by the server's clock", /hasn’t come yet/.test(await told(page, "#standingnote", /hasn’t come/)));
  server.past = () => [504, ""];
  await go(page, before(6.5));
  ok("a server that doesn't answer", /can’t be reached.*Ask again/.test(await told(page, "#standingnote", /be reached/)));
  is("each was asked once", server.asked.splice(0).length, 2);
  // Each question is answered at the third time.
  const tried = new Map(), t = before(7);
  server.past = (path, at) => {
    tried.set(path, (tried.get(path) || 0) + 1);
    return tried.get(path) < 3 ? BUSY : past(path, at);
  };
  await go(page, t);
  ok("a server that is busy is asked again", /177 of/.test(await tableTold(page, /177 of/)));
  await fleetIsThere(page);
  is("also for the vehicles", [[...tried.values()].join(), await shownCount(page)].join(), `3,3,3,${2 * THEN.vehicles}`);
  takeAsked(server);
  await hurry(page);
  server.past = () => BUSY;
  await go(page, before(8));
  ok("but not for ever", /still working out another question.*Ask again/.test(await told(page, "#standingnote", /working out/)));
  is("eight times", server.asked.splice(0).length, 8);
  is("nothing else is shown meanwhile", await nothing(), "true,");
  server.past = past;
  await page.click("#standingnote button");
  ok("and again where it is told to", /177 of/.test(await tableTold(page, /177 of/)));
  await fleetIsThere(page);
}

/** Vehicles that aren't kept any more, though the verdicts were; another configuration; a token that isn't known any more. */
async function later(page, server, { is, ok }) {
  const { past } = server;
  server.past = (path, at) => (/fleet/.test(path) ? NOT_KEPT : past(path, at));
  await go(page, before(9));
  const said = await told(page, "#legend", /isn’t kept/);
  ok("vehicles that aren't kept are told so", /Where vehicles stood then isn’t shown.*isn’t kept/.test(said), said);
  ok("beside verdicts that were", /177 of/.test(await page.text("#standingtable")));
  server.past = () => [403, '{"error":"role"}'];
  server.me = { ...server.me, oversight: "none" };
  await go(page, before(10));
  ok("another configuration is told", /configuration doesn’t show/.test(await told(page, "#standingnote", /configuration/)));
  server.me = { ...server.me, oversight: "vehicles" };
  server.past = () => [401, '{"error":"token"}'];
  await page.click("#refresh");
  await tableTold(page, /141 of/);
  await go(page, before(11));
  ok("a token that isn't known any more leads out", /any more/.test(await told(page, "#say", /any more/)));
  is("and nothing stays", await inState(page, (it) => [it.past, it.fleet, it.moment].join()), ",,");
}

/** Servers that don't tell the past: what is said is as before there was one that does. */
async function untold(browser, tally) {
  const { is, ok } = tally;
  for (const [what, past] of Object.entries({
    "takes no notice of the moment": (path) => JSON.stringify(/compliance/.test(path) ? replies(Date.now(), 999) : vehicles(9, 0)),
    "has no such path": () => [404, '{"error":"no_route"}'],
  })) {
    const server = await made("author", "vehicles", { ...NOW, measure: 160 }), page = await opened(browser, server, "city");
    server.past = past;
    await go(page, before(2));
    const said = await told(page, "#standingnote", /isn’t told here/);
    ok(`a server that ${what}: that is said`, /How operators stood then isn’t told here.*ruffletuff report/.test(said), said);
    is(`and nothing is shown: ${what}`, [await isHidden(page, "standingview"), await shownCount(page)].join(), "true,");
    is(`as by the heading: ${what}`, await page.text("#standingtitle"), "How operators stand");
    await go(page, before(3));
    await wait(800);
    is(`it isn't asked again: ${what}`, server.asked.length, 1);
    await page.click("#now");
    await tableTold(page, /160 of/);
    ok(`nor is since when a rule is broken: ${what}`, await isHidden(page, "askeach")
      && !/Since when/.test(await page.text("#standingtable, #sincenote")), await page.text("#standing"));
    await page.close();
    server.close();
  }
}

/** Where oversight goes less far less is asked. */
async function overseen(browser, { is, ok }) {
  for (const [oversight, wanted] of Object.entries({ verdicts: (t) => `/compliance ${t}`, none: () => "" })) {
    const server = await made("author", oversight), page = await browser.open(server.url), t = before(2);
    await page.signIn("city");
    await go(page, t);
    await (oversight === "verdicts" ? tableTold(page, /177 of/) : wait(1_500));
    await wait(300);
    is(`${oversight}: asked of the past`, takeAsked(server), wanted(t));
    is(`${oversight}: no vehicle`, await shownCount(page), null);
    if (oversight === "none") {
      ok("none: it is said as ever", /configuration doesn’t show/.test(await page.text("#standingnote")));
      ok("none: and by the note", /isn’t told here: no vehicle/.test(await page.text("#timenote")), await page.text("#timenote"));
    }
    is(`${oversight}: nothing on the console`, strange(page), "");
    await page.close();
    server.close();
  }
}

// --- An operator --------------------------------------------------------------------------------------------------------

/** An operator is shown itself, whatever the author is shown. */
async function operator(browser, { is, ok }) {
  const server = await made("operator", "none"), page = await opened(browser, server, "scoot"), t = before(2);
  await go(page, t);
  is("an operator: the heading", spaced(await page.text("#then")), `How your vehicles stood on ${spaced(local.format(t))}`);
  await told(page, ".tiles", /rule was broken/);
  await fleetIsThere(page);
  const said = await page.text(".tiles");
  ok("an operator: what stood then", /^5vehicles then1rule was broken\d+rules were kept$/.test(said), said);
  ok("an operator: its card", /✗ broken.*177 counted/.test(await cardOf(page, CAP)), await cardOf(page, CAP));
  ok("an operator: the server's word, not the page's", !/worked out by this page/.test(await page.text("#policies")));
  ok("an operator: so says the note", /verdicts are what the server would have answered on/.test(await page.text("#timenote")));
  is("an operator: marked on the map", await inState(page, (it) => it.offenders.size), 2);
  is("an operator: asked is its own, once", takeAsked(server), `/compliance ${t},/fleet ${t}`);
  const { past } = server;
  server.past = () => NOT_KEPT;
  await go(page, before(3));
  const untold_ = await told(page, "#untold", /isn’t kept/);
  ok("an operator: what isn't kept", /isn’t kept on this server any more.*archive/.test(untold_), untold_);
  is("an operator: no count then", await page.run(() => document.querySelectorAll(".tiles b").length), 0);
  is("an operator: no verdict then", /[✓✗]|counted/.test(await page.text("#policies article")), false);
  is("an operator: no vehicle then", [await shownCount(page), await page.text("#legend li")].join(), ",");
  server.past = past;
  await page.click("#now");
  ok("an operator: now", /141 counted/.test(await cardOf(page, CAP)));
  is("an operator: as many as now", (await texts(page, ".tiles b")).split(",").slice(0, 2).join(), "20,0");
  is("an operator: nothing on the console", strange(page, 410), "");
  await page.close();
  server.close();
}

// --- Since when ---------------------------------------------------------------------------------------------------------

const SINCE = '#standingtable button[aria-label^="Since when?"]';

/** Since when a rule is broken, by few questions; where that isn't kept; and of a moment that is over. */
async function since(browser, { is, ok }) {
  const server = await made("author", "vehicles", { ...NOW, measure: 160 }), page = await opened(browser, server, "city");
  const begun = before(3.4), { past } = server;
  server.past = (path, at) => (path === `/app/compliance/${SCOOT}` ? JSON.stringify(reply(at, at < begun ? 100 : 160)) : past(path, at));
  is("a broken rule can be asked about", await texts(page, SINCE), "Since when?");
  is("nothing is asked before", takeAsked(server), "");
  await page.run((it) => document.querySelector(it).focus(), SINCE);
  await page.click(SINCE);
  const said = await tableTold(page, /it wasn’t broken/);
  ok("since when it is broken, and when it wasn't", /✗ brokenthis time since .*\d\d.*; at .*\d\d.* it wasn’t broken/.test(said), said);
  const found = await inState(page, (it) => [...it.sinces.values()][0]);
  ok("as near as five minutes", found.from >= begun && found.before < begun && found.from - found.before <= 5 * MINUTE, { begun, ...found });
  const asked = server.asked.splice(0);
  ok("by few questions about that operator", asked.length < 13 && asked.every((it) => it.startsWith(`/compliance/${SCOOT} `)), asked);
  is("each once", new Set(asked).size, asked.length);
  is("one at a time", server.most, 1);
  await page.click("#refresh");
  await wait(500);
  ok("a round leaves it", /it wasn’t broken/.test(await page.text("#standingtable")));
  const t = before(1);
  server.past = (path, at) => (at < t - 20 * MINUTE ? NOT_KEPT : past(path, at));
  await go(page, t);
  await tableTold(page, /177 of/);
  await page.click(SINCE);
  const kept = await tableTold(page, /isn’t kept/);
  ok("what isn't kept ends it", /this time since .* or earlier: what stood before that isn’t kept/.test(kept), kept);
  await hurry(page);
  server.past = (path, at) => (path.endsWith(SCOOT) && /compliance/.test(path) ? BUSY : past(path, at));
  await go(page, before(1.5));
  await tableTold(page, /177 of/);
  await page.click(SINCE);
  const busy = await tableTold(page, /another question/);
  ok("a busy server is told, and can be asked again", /another question.*Since when\?/.test(busy), busy);
  await page.close();
  server.close();
}

// --- A program ----------------------------------------------------------------------------------------------------------

/** Rows of the table by what each operator was answered. */
function rowsOf(policies, found) {
  const names = { ok: "kept", violated: "broken", inactive: "not open then", not_evaluated: "not judged" };
  return Object.entries(found).flatMap(([name, { verdicts }]) => verdicts.policies.flatMap((report) => report.rules.map((it, n) =>
    [name, policies.find(({ policy_id }) => policy_id === report.policy_id).rules[n].name, names[it.status]].join(" | ")))).sort().join("\n");
}

/** What each operator is answered now, and the moment by which all of them were. */
async function answers(city) {
  const found = {};
  for (const { name, token } of city.configuration.operators) {
    const { vehicles: list } = await city.sure(token, "GET", "/fleet/vehicles");
    found[name] = { verdicts: await city.sure(token, "GET", "/compliance"), count: list.length };
  }
  await wait(20);
  return { found, t: Math.max(...Object.values(found).map((it) => it.verdicts.at)) };
}

/** More scooters downtown than the cap allows, and one vehicle that goes. */
async function change(city) {
  const { vehicles: list } = await city.sure("wheels", "GET", "/fleet/vehicles"), { policies } = await city.sure("scoot", "GET", "/policies");
  const report = (await city.sure("scoot", "GET", "/compliance")).policies
    .find((it) => policies.find(({ policy_id }) => policy_id === it.policy_id).name === CAP);
  for (let n = 0; n < 151 - report.rules[0].measure; n++) {
    await city.sure("scoot", "POST", "/fleet/events", { device_id: device(n), vehicle_type: "scooter_standing", vehicle_state: "available",
      timestamp: Date.now() - 1000, location: { lat: 45.519, lng: -122.677 } });
  }
  await city.sure("wheels", "DELETE", `/fleet/vehicles/${list[0].device_id}`);
}

/** The author's view of a moment is what each operator was answered then. */
async function sameAsThen(page, city, { found, t }, { is, ok }) {
  const { policies } = await city.sure("city", "GET", "/policies");
  await go(page, t);
  await told(page, "#standingtitle", /stood on/);
  await page.until(() => !document.getElementById("standingview").hidden);
  is("the table is what each operator was answered then", (await table(page)).sort().join("\n"), rowsOf(policies, found));
  await fleetIsThere(page);
  is("with the vehicles of then", await shownCount(page), Object.values(found).reduce((sum, it) => sum + it.count, 0));
  ok("and no other", !/151 of at most 150/.test(await page.text("#standingtable")));
}

/** A program that tells the past, by what was answered before: to the author, to an operator, and behind a restart. */
async function kept(browser, program, tally) {
  const { is, ok } = tally, changes = { oversight: "vehicles" };
  const city = await City.start(program, { isTold: true, seconds: 600, fill: "fleets", changes });
  const isTold = await tellsPast(city);
  if (isKeeping(program)) ok("the program tells the past", isTold);
  if (isTold) {
    const then = await answers(city);
    await change(city);
    const author = await browser.open(city.url), scoot = await browser.open(city.url);
    await author.signIn("city");
    ok("now a rule is broken that wasn't", /151 of at most 150/.test(await told(author, "#standingtable", /151 of/)));
    await sameAsThen(author, city, then, tally);
    await scoot.signIn("scoot");
    await go(scoot, then.t);
    await told(scoot, ".tiles", /were|was/);
    await fleetIsThere(scoot);
    is("an operator's vehicles of then", (await texts(scoot, ".tiles b")).split(",")[0], `${then.found.Scoot.count}`);
    is("by which the page works out what the server says", await differences(scoot), "");
    await city.stop();
    await city.begin();
    await author.click("#refresh");
    await told(author, "#standingtable", /151 of/);
    await sameAsThen(author, city, then, tally);
    for (const [who, page] of Object.entries({ "the author of the past": author, "an operator of the past": scoot })) {
      await clean(page, city, tally, who, /ERR_(CONNECTION_REFUSED|EMPTY_RESPONSE|CONNECTION_RESET)/);
      await page.close();
    }
  }
  await city.close();
}

/** All of it. */
export default async function past(browser, program, tally) {
  const server = await made("author", "vehicles"), page = await opened(browser, server, "city");
  await inState(page, (it) => { it.settings.refresh_seconds = 1; });
  await page.click("#refresh");
  await shown(page, server, tally);
  await sparing(page, server, tally);
  await refused(page, server, tally);
  await later(page, server, tally);
  tally.is("nothing else on the console", strange(page, 401, 403, 409, 410, 503, 504), "");
  await page.close();
  server.close();
  await untold(browser, tally);
  await overseen(browser, tally);
  await operator(browser, tally);
  await since(browser, tally);
  await kept(browser, program, tally);
}
