// The page of a city's policies: signing in, reading what the server tells, again and again, the moment that is shown,
// and what is asked of one that is over.

import * as author from "./author.js";
import * as cards from "./cards.js";
import { $, say } from "./dom.js";
import { boxOf, inSquare, inWhole, polygonsOf } from "./geometry.js";
import * as map from "./map.js";
import { digitsOf, isSame, number, rowKey, sinceWhen } from "./rules.js";
import * as server from "./server.js";
import { SETTINGS, isAuthor, isEveryone, isOver, mayAskPast, now, oversight, shownPast, shownStandings, state,
  takeWithdrawals } from "./state.js";
import { Clock } from "./zone.js";

const DAY = 86_400_000, QUARTER = 900_000, MOST_OFTEN_READ = 20_000;
const RETRY_FIRST = 2_000, RETRY_LAST = 30_000, STILL = 400;
const ANEW = "The server has begun anew: its revision went back. Fleets have to be reported again.";
const EXPIRED = "Nobody has this access token any more. Sign in with another: what stands in a form is still there.";

// --- Reading ------------------------------------------------------------------------------------------------------------

let worker = null, timer = 0, retry = 0, isReading = false;
// The reading that counts: what an older one brings later is dropped.
let turn = 0;
// The verdicts that were asked for to learn who somebody is.
let early = null;

/** A geography with what the map draws and the worker takes. */
function asPlace(geography) {
  const polygons = polygonsOf(geography), path = inSquare(polygons);
  return { ...geography, polygons, path, box: boxOf(path.flat(2)) };
}

/** The geographies, null where no publication has come, which is what changes them. */
async function readPlaces(told, isAsked) {
  const isSame = told.revision === state.revision && JSON.stringify(told.policies) === JSON.stringify(state.policies);
  if (isSame && !isAsked) return null;
  return (await server.ask("GET", "geographies")).geographies.map(asPlace);
}

/** The server's verdicts by policies, those of a policy in the order of its rules. */
const reportsIn = (told) => new Map(told.policies.map((it) => [digitsOf(it.policy_id), it.rules]));

/** Takes the server's verdicts of now. */
function takeReports(told) {
  state.judgedAt = told.at;
  state.reports = reportsIn(told);
}

/** Whether what an operator or the author is told is of a later publication than those that are shown. */
function isLater(told) {
  const replies = told?.operators?.map((it) => it.compliance) ?? [told];
  return replies.some((it) => it?.revision > state.revision);
}

/** Takes whom the server says that it is, where it tells: what the author is shown changes with the configuration. */
function takeMe(told) {
  if (told?.role !== state.me.role) return;
  const areOthers = JSON.stringify(told.operators) !== JSON.stringify(state.me.operators);
  if (areOthers) state.fleet = state.standings = null;
  if (areOthers || told.oversight !== state.me.oversight) forgetPast();
  if (told.oversight !== "verdicts" && told.oversight !== "vehicles") state.standings = null;
  if (isAuthor() && told.oversight !== "vehicles") state.fleet = null;
  state.me = told;
}

/** What the author is told of the operators, null where it is told nothing. */
async function readStandings() {
  if (oversight() === "none") return null;
  try {
    return await server.ask("GET", "app/compliance");
  } catch (fault) {
    // The configuration is another than before, which the next round is told.
    if (fault.code === "role") return null;
    throw fault;
  }
}

/** Takes an operator's verdicts, or what the author is told of the operators: whether they are of a later publication. */
function takeVerdicts(told) {
  if (!isAuthor()) {
    if (told.revision === state.revision) takeReports(told);
    return told.revision !== state.revision;
  }
  state.standings = told;
  return isLater(told);
}

/**
 * Reads what is published, an operator's verdicts and fleet, for the author how the operators stand. Answers what is to be said,
 * and whether a publication came in between, so that the verdicts are of another revision; null where it was dropped.
 */
async function readCity(isAsked) {
  const mine = ++turn, isDropped = () => mine !== turn;
  const asked = [server.ask("GET", "policies"), server.askIfThere("app/withdrawals"), server.askIfThere("app/whoami")];
  const verdicts = isAuthor() ? readStandings() : early ? Promise.resolve(early) : server.ask("GET", "compliance");
  early = null;
  verdicts.catch(() => {});
  const [told, withdrawals, me] = await Promise.all(asked);
  const hasBegunAnew = told.revision < state.revision, places = await readPlaces(told, isAsked);
  if (isDropped()) return null;
  if (me) takeMe(me);
  if (hasBegunAnew) forgetAllPast();
  if (places) state.places = places;
  state.policies = told.policies;
  state.revision = told.revision;
  takeWithdrawals(withdrawals);
  if (isAuthor()) await author.readDrafts();
  if (isDropped()) return null;
  state.readAt = Date.now();
  showSpan();
  if (!state.past) askPastSoon();
  cards.render();
  map.draw();
  readFleet(isAsked || places !== null);
  // Nothing was asked for where the configuration showed the author nothing before.
  const reports = await verdicts ?? await readStandings();
  if (isDropped()) return null;
  const isBehind = takeVerdicts(reports);
  cards.render();
  map.draw();
  return { news: hasBegunAnew ? ANEW : "", isBehind };
}

/** Reads what everyone is told. Where the server tells it no longer, the form to sign in is left alone. */
async function readPublic() {
  const mine = ++turn, isDropped = () => mine !== turn;
  const policies = await server.askPublic("policies"), isNew = !state.readAt || policies?.at !== state.revision;
  const places = policies && isNew ? await server.askPublic("geographies") : null;
  if (isDropped()) return null;
  if (!policies || (isNew && !places)) {
    clear();
    showWork();
    return null;
  }
  if (places) state.places = places.list.map(asPlace);
  state.policies = policies.list;
  state.revision = policies.at;
  state.readAt = Date.now();
  showSpan();
  cards.render();
  map.draw();
  return { news: "", isBehind: false };
}

/** Where the vehicles are asked for: an operator's own, the author's one operator after another, as far as it is shown them. */
function fleetTargets() {
  if (!isAuthor()) return ["fleet/vehicles"];
  return oversight() === "vehicles" ? state.me.operators.map((it) => `app/fleet/${it.id}`) : [];
}

/** Reads the vehicles beside the page; many only where they are asked for, or where places have changed. */
function readFleet(isAsked) {
  const targets = fleetTargets();
  if (!targets.length || (!isAsked && (worker || state.fleet?.count >= MOST_OFTEN_READ))) return;
  worker?.terminate();
  const mine = worker = readBeside(targets, [], ({ progress, fault, fleet }) => {
    if (mine !== worker) return;
    if (progress) return say(`Reading the fleet: ${number(progress)} vehicles so far…`);
    stopReading();
    if (fault && isAuthor() && fault.code === "role") return;
    if (fault) return fail(fault);
    takeFleet(fleet);
  });
}

/**
 * A worker that reads the vehicles at these targets, and asks a busy server again behind these times. It tells what comes
 * of it: `{progress}`, then `{fleet}` or `{fault}`.
 */
function readBeside(targets, waits, tell) {
  const it = new Worker("fleet.js", { type: "module" }), places = state.places.map((place) => inWhole(place.polygons));
  const refused = ({ status, code }) => ({ fault: new server.Refused(status, code) });
  it.onmessage = ({ data }) => tell(data.fault ? refused(data.fault) : data);
  it.onerror = () => tell(refused({ status: 0, code: "worker" }));
  it.postMessage({ header: server.header(), places, targets, waits });
  return it;
}

function stopReading() {
  worker?.terminate();
  worker = null;
}

function takeFleet(fleet) {
  const isFirst = !state.fleet;
  map.takeFleet(fleet);
  if ($("say").textContent.startsWith("Reading the fleet")) say("");
  cards.render();
  author.foreseeSoon();
  if (isFirst) map.fitFirst();
  map.draw();
}

// --- What stood at a moment that is over --------------------------------------------------------------------------------

let pastTimer = 0, endReadingPast = () => {};
// What was told of earlier moments, as far as it was asked since when a rule is broken: that never changes.
let answers = new Map();

/** Forgets what was told of a moment that is over, and drops what is still asked of it. */
function forgetPast() {
  clearTimeout(pastTimer);
  endReadingPast();
  map.closeVehicle();
  state.past = null;
}

/** The same of all moments that are over. */
function forgetAllPast() {
  forgetPast();
  answers = new Map();
  state.sinces = new Map();
}

/** Asks what stood at the moment that is shown, where it is over and may be asked, once no other was chosen for a while. */
function askPastSoon() {
  if (state.past?.at === state.moment && isOver() && !state.past.fault) return;
  if (state.past || isOver()) forgetPast();
  if (!mayAskPast()) return;
  state.past = { at: state.moment, told: null, reports: null, fault: null, readFor: null, reading: null, fleet: null,
    fleetFault: null };
  pastTimer = setTimeout(askPast, STILL, state.past);
}

/** Asks it: first the verdicts, then the vehicles. */
async function askPast(past) {
  const isDropped = () => state.past !== past;
  try {
    const told = await server.askPast("app/compliance", past.at, isDropped);
    if (isDropped()) return;
    // What was published since the page has read last may have been in force then.
    if (isLater(told)) await refresh(true);
    if (isDropped()) return;
    past.told = told;
    if (!isAuthor()) past.reports = reportsIn(told);
    cards.render();
    map.draw();
    await readPast(past);
  } catch (fault) {
    if (!isDropped()) failPast(past, fault);
  }
}

/** Where the vehicles of then are asked for: all, or those of the operator to which the author's view is narrowed. */
function pastTargets({ at, readFor }) {
  if (!isAuthor()) return [`app/fleet?at=${at}`];
  const targetOf = ({ id }) => (readFor === null || readFor === id ? `app/fleet/${id}?at=${at}` : null);
  return oversight() === "vehicles" ? state.me.operators.map(targetOf) : [];
}

/** Reads the vehicles of then, beside the page. */
async function readPast(past) {
  past.readFor = state.shownOperator;
  const mine = past.reading = {}, isDropped = () => state.past !== past || past.reading !== mine;
  const targets = pastTargets(past);
  if (!targets.length) return;
  const { fleet, fault } = await server.inTurn(() => (isDropped() ? {} : new Promise((done) => {
    const it = readBeside(targets, server.WAITS, (told) => !told.progress && done(told));
    endReadingPast = () => {
      it.terminate();
      done({});
    };
  })));
  if (isDropped()) return;
  endReadingPast();
  if (fault?.code === "token") return fail(fault);
  map.closeVehicle();
  past.fleet = fleet ?? null;
  past.fleetFault = fault ?? null;
  cards.render();
  map.draw();
}

/** Reads the vehicles of then of whom the author's view shows now, where they weren't read with the others. */
function widenPast() {
  const past = shownPast();
  if (!past || past.readFor === null || past.readFor === state.shownOperator) return;
  endReadingPast();
  map.closeVehicle();
  past.fleet = past.fleetFault = null;
  readPast(past);
}

/** What stood then can't be told: says why in its place. */
function failPast(past, fault) {
  if (fault.code === "token") return fail(fault);
  past.fault = fault;
  if (fault.code === "untold") {
    state.lacksPast = true;
    forgetPast();
  }
  cards.render();
  map.draw();
  // The configuration is another than before.
  if (fault.code === "role") refresh(true);
}

/** How a rule stood for an operator at a moment, `absent` where its policy wasn't in force; null where that isn't told. */
async function stoodThen({ id, policy, index }, t, isDropped) {
  const key = `${id} ${t}`;
  try {
    const told = t < 0 ? null : answers.get(key) ?? await server.askPast(`app/compliance/${id}`, t, isDropped);
    if (!told || isDropped()) return null;
    answers.set(key, told);
    const report = told.policies.find((it) => isSame(it.policy_id, policy.policy_id));
    return report ? report.rules[index].status : "absent";
  } catch (fault) {
    if (fault.code === "not_kept") return null;
    throw fault;
  }
}

/** Asks since when an operator breaks a rule, of moments before the one that is shown. */
async function askSince(row) {
  const { sinces } = state, { at } = shownStandings(), isDropped = () => sinces !== state.sinces;
  const take = (found) => {
    if (isDropped()) return;
    sinces.set(rowKey(row), { at, ...found });
    cards.render();
  };
  take({ isComing: true });
  try {
    take(await sinceWhen(at, (t) => stoodThen(row, t, isDropped)));
  } catch (fault) {
    if (isDropped()) return;
    if (fault.code === "token") return fail(fault);
    if (fault.code === "untold") state.lacksPast = true;
    take({ fault });
  }
}

/** Asks it of each of these rows, one after another, for as long as the same moment is shown and the server answers. */
async function askEach(rows) {
  const { sinces } = state;
  for (const row of rows) {
    if (sinces !== state.sinces || state.lacksPast) return;
    await askSince(row);
    if (sinces.get(rowKey(row))?.fault) return;
  }
}

// --- Again and again ----------------------------------------------------------------------------------------------------

/** Reads anew after some time. */
function soon(milliseconds) {
  clearTimeout(timer);
  timer = setTimeout(round, milliseconds);
}

async function round() {
  const isSeen = document.visibilityState === "visible";
  if (state.me && isSeen && (state.moment === null || retry)) await refresh();
  else if (state.me) soon(state.settings.refresh_seconds * 1000);
  // A moment to come may be over by now.
  if (state.me && isSeen && isOver() && !state.past) setMoment(state.moment);
}

/** Reads anew what the server tells; a fault is told and never thrown. */
async function refresh(isAsked = false) {
  if (isReading && !isAsked) return;
  isReading = true;
  clearTimeout(timer);
  const reading = isEveryone() ? readPublic() : readCity(isAsked), mine = turn;
  try {
    const told = await reading;
    if (told === null) return;
    if (told.news) say(told.news, true);
    else if (retry) say("The server is back.");
    else if (isAsked) say("");
    retry = 0;
    soon(told.isBehind ? 0 : state.settings.refresh_seconds * 1000);
  } catch (fault) {
    if (mine === turn) fail(fault);
  } finally {
    isReading = false;
  }
}

/** Tells a fault in words. A token that isn't known any more leads out; a server that is gone is asked again. */
function fail(fault) {
  if (fault.code === "token" && state.me) return leave(EXPIRED);
  if (fault.code !== "unreachable" || !state.me) {
    say(fault.message, true);
    if (state.me) soon(state.settings.refresh_seconds * 1000);
    return;
  }
  retry = Math.min(RETRY_LAST, retry ? retry * 2 : RETRY_FIRST);
  const since = state.readAt ? ` What is shown is from ${state.clock.when(state.readAt)}.` : "";
  say(`The server can’t be reached.${since} It is asked again in ${retry / 1000} seconds.`, true);
  soon(retry);
}

// --- Coming and going ---------------------------------------------------------------------------------------------------

/** Who the token's owner is. A server that doesn't tell is asked what only an operator may ask. */
async function whoAmI() {
  const told = await server.askIfThere("app/whoami");
  if (told) return told;
  try {
    early = await server.ask("GET", "compliance");
    return { role: "operator" };
  } catch (fault) {
    if (fault.code === "role") return { role: "author" };
    throw fault;
  }
}

/** Shows the form to sign in to whoever has no access token, and the work to whom something is told: to everyone both. */
function showWork() {
  const isTold = state.me !== null;
  $("enter").hidden = isTold && !isEveryone();
  $("enter").classList.toggle("strip", isEveryone());
  $("work").hidden = $("who").hidden = $("actions").hidden = !isTold;
  $("leave").hidden = isEveryone();
}

/** Forgets what was told to whoever was here before. */
function clear() {
  stopReading();
  forgetAllPast();
  turn++;
  Object.assign(state, { me: null, policies: [], places: [], draftPlaces: [], drafts: [], revision: 0, readAt: 0, judgedAt: 0,
    reports: new Map(), standings: null, seen: new Map(), fleet: null, moment: null, lacksPast: false, shownRule: null,
    shownPlaces: null, shownOperator: null });
}

/** Begins to show what somebody, or everyone, is told: nothing at first, and nothing that another was told before. */
async function begin(me, clock, who) {
  clear();
  state.me = me;
  state.clock = clock;
  $("who").textContent = who;
  author.show(isAuthor());
  cards.render();
  map.close();
  showWork();
  retry = 0;
  await refresh(true);
  map.showFirst();
}

async function enter(isDropped) {
  say("Asking the server…");
  const me = await whoAmI();
  if (isDropped()) return;
  server.keep();
  say("");
  await begin(me, new Clock(me.zone || state.settings.zone), me.role === "author" ? "the city’s author" : ownName(me));
}

/** Shows what everyone is told, where the server tells it; the form to sign in stays above that. What was said stays too. */
async function lookAround() {
  const mine = signings, isDropped = () => mine !== signings || state.me !== null;
  try {
    if (isDropped() || !await server.askPublic("policies") || isDropped()) return;
  } catch {
    // The form is there all the same.
    setTimeout(lookAround, RETRY_LAST);
    return;
  }
  const said = $("say").textContent, isBad = $("say").classList.contains("bad");
  await begin({ role: "everyone" }, new Clock(state.settings.zone, true), "what everyone is told");
  if (said && !$("say").textContent) say(said, isBad);
}

/** The name that the server tells of an operator, or that the settings give, or the front of its identifier. */
function ownName({ id, name }) {
  if (!id) return "an operator";
  const set = Object.entries(state.settings.operators).find(([key]) => digitsOf(key) === digitsOf(id))?.[1];
  return `operator ${name || set || id.slice(0, 8)}`;
}

/** Leads out, and says why, to what everyone is told. What stands in a form stays there. */
function leave(why = "", isKept = false) {
  if (!isKept) server.forget();
  if (!isEveryone()) {
    clearTimeout(timer);
    clear();
    showWork();
  }
  $("token").focus();
  say(why, why !== "");
  if (!isKept) lookAround();
}

// How often somebody has begun to sign in: what an earlier one brings later is dropped. And when it is tried again.
let signings = 0, signTimer = 0;

/** Signs in by the token that is taken. A server that is gone is asked again, by the same token. */
async function signIn() {
  const mine = ++signings, isDropped = () => mine !== signings;
  clearTimeout(signTimer);
  try {
    await enter(isDropped);
  } catch (fault) {
    if (isDropped()) return;
    const isGone = fault.code === "unreachable";
    leave(isGone ? `${fault.message} It is asked again in ${RETRY_FIRST / 1000} seconds.` : fault.message, isGone);
    if (isGone) signTimer = setTimeout(signIn, RETRY_FIRST);
  }
}

// --- The moment ---------------------------------------------------------------------------------------------------------

let from = 0, to = 1;

/** How far the slider goes: from the first date of a policy to the last, within limits. */
function showSpan() {
  const t = Date.now(), dates = state.policies.flatMap((it) => [it.start_date, it.end_date ?? t, it.published_date]);
  const least = dates.reduce((one, other) => Math.min(one, other), t), most = dates.reduce((one, other) => Math.max(one, other), t);
  from = Math.max(least, t - 90 * DAY) - DAY;
  to = Math.min(Math.max(t + 14 * DAY, most + DAY), t + 400 * DAY);
  if (state.moment === null) showMoment();
}

function showMoment() {
  const t = now();
  $("slider").value = (t - from) / (to - from) * 1000;
  $("slider").setAttribute("aria-valuetext", state.clock.when(t));
  $("moment").value = state.clock.toField(t);
}

function setMoment(t) {
  if (t !== state.moment) {
    map.close();
    state.sinces = new Map();
  }
  state.moment = t;
  showMoment();
  askPastSoon();
  cards.render();
  map.draw();
}

function bindMoment() {
  let due = 0;
  $("slider").oninput = (event) => {
    cancelAnimationFrame(due);
    const t = from + event.target.value / 1000 * (to - from);
    due = requestAnimationFrame(() => setMoment(Math.round(t / QUARTER) * QUARTER));
  };
  $("moment").onchange = (event) => {
    const t = state.clock.fromField(event.target.value);
    if (t !== null) setMoment(t);
  };
  $("now").onclick = () => {
    setMoment(null);
    refresh();
  };
}

// --- The beginning ------------------------------------------------------------------------------------------------------

function showAll() {
  state.shownRule = state.shownPlaces = null;
  if (state.me) cards.render();
  map.fit();
}

function bind() {
  $("sign").onsubmit = (event) => {
    event.preventDefault();
    server.take($("token").value.trim());
    $("token").value = "";
    signIn();
  };
  $("leave").onclick = () => {
    server.forget();
    location.reload();
  };
  $("refresh").onclick = () => {
    setMoment(null);
    refresh(true);
  };
  document.onvisibilitychange = () => {
    if (document.visibilityState === "visible") soon(0);
  };
  Object.assign(cards.actions, { replace: author.replace, withdraw: author.withdraw, askSince, askEach, narrow: widenPast,
    askAgain: () => setMoment(state.moment) });
  author.start(() => refresh(true), fail);
  bindMoment();
  map.start(showAll);
  cards.start();
  // The legend has marks in the colours of the page's scheme.
  matchMedia("(prefers-color-scheme: dark)").addEventListener("change", () => state.me && cards.render());
}

async function load() {
  state.settings = await server.settings(SETTINGS);
  $("city").textContent = document.title = state.settings.city;
  $("attribution").textContent = state.settings.tiles ? state.settings.attribution : "";
  map.fitFirst();
  // Somebody may have signed in before the settings came.
  if (server.hasToken() && !signings) await signIn();
  else if (!signings) await lookAround();
}

bind();
load();
