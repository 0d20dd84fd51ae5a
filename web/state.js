// What the page has been told, and what it shows of it.

import { Clock } from "./zone.js";
import { digitsOf, isSame, standing } from "./rules.js";
import { memory } from "./dom.js";

export const SETTINGS = { city: "Rules for shared vehicles", tiles: "", attribution: "", zone: "", operators: {},
  refresh_seconds: 30, view: null };

export const state = {
  settings: SETTINGS,
  clock: new Clock("Z"),
  me: null, // {role, id?, zone?, operators?, oversight?}; the role is author, operator, or everyone: who has no access token
  policies: [],
  places: [], // as served, with `polygons`, `path` and `box`
  draftPlaces: [],
  drafts: [], // {kind, id, document, isChosen}
  revision: 0,
  readAt: 0,
  withdrawals: new Map(), // moments by the digits of identifiers
  areWithdrawalsTold: false,
  areDraftsTold: false,
  judgedAt: 0,
  reports: new Map(), // of the server's compliance: verdicts by the digits of policies and rules
  standings: null, // {at, operators: [{id, compliance}, ..]}, which the author is told
  seen: new Map(), // since when each row of these is seen as it stands, which is forgotten with the page
  sinces: new Map(), // since when rows are broken at the moment that is shown, as far as that was asked
  fleet: null, // an operator's vehicles; the author's are all operators', those of each behind those of the one before it
  fleetAt: 0,
  moment: null, // null is now
  past: null, // what is asked of a moment that is over: {at, told, reports, fault, readFor, reading, fleet, fleetFault}
  lacksPast: false, // whether the server has shown that it doesn't tell the past
  shownRule: null,
  shownPlaces: null,
  shownOperator: null, // the identifier to which the author's view is narrowed
  offenders: new Set(), // rows of the fleet
  caught: null, // one mark a row, of the rule that is shown
};

export const isAuthor = () => state.me?.role === "author";
export const isEveryone = () => state.me?.role === "everyone";
export const now = () => state.moment ?? Date.now();

/** What the author is shown of the operators: `none`, `verdicts` or `vehicles`; `none` too where the server doesn't tell. */
export const oversight = () => state.me?.oversight || "none";

/** Whether the moment that is shown is over. */
export const isOver = () => state.moment !== null && state.moment < Date.now();

/** Whether the server can be asked what stood then: by an operator of itself, by the author as far as oversight goes. */
export const mayAskPast = () => isOver() && state.moment >= 0 && !state.lacksPast
  && (isAuthor() ? oversight() !== "none" : Boolean(state.me?.oversight));

/** What the server told of the moment that is shown, where that is over; null where it told nothing of it. */
export const shownPast = () => (isOver() && state.past?.at === state.moment && state.past.told ? state.past : null);

/**
 * The vehicles that may be shown for the moment that is shown. Those of now never stand for those of a moment that is
 * over, which the server tells; an operator may see what would be if they stood still until a moment to come.
 */
export function shownFleet() {
  if (isOver()) return shownPast()?.fleet ?? null;
  return state.moment === null || !isAuthor() ? state.fleet : null;
}

/** What the author is told of the operators at the moment that is shown: {at, operators}; null where it isn't told. */
export function shownStandings() {
  if (!isAuthor()) return null;
  return state.moment === null ? state.standings : shownPast()?.told ?? null;
}

/** The server's verdicts for an operator, of the past that is shown, else of now: {at, reports}; null without any. */
export function serverVerdicts() {
  const past = shownPast();
  if (past?.reports) return past;
  return state.judgedAt ? { at: state.judgedAt, reports: state.reports } : null;
}

/** How a policy stands at a moment, by all that is known. */
export function standingOf(policy, t) {
  const told = serverVerdicts(), judged = told && { at: told.at, policies: told.reports };
  return standing(policy, t, { policies: state.policies, withdrawals: state.withdrawals, judged });
}

export const placeName = (id) =>
  state.places.find((it) => isSame(it.geography_id, id))?.name || "a place that isn’t published";

/** An operator by the name that the server tells or the settings give, else by the front of its identifier. */
export function operatorName(id) {
  if (state.me?.id && isSame(id, state.me.id)) return "you";
  const told = state.me?.operators?.find((it) => isSame(it.id, id))?.name;
  const set = Object.entries(state.settings.operators).find(([key]) => isSame(key, id))?.[1];
  return told || set || `operator ${String(id).slice(0, 8)}`;
}

/** The operators that a policy can be meant for, as far as they are known. */
export const operatorIds = () => state.me?.operators?.map((it) => it.id) || Object.keys(state.settings.operators);

/** Remembers withdrawals that this browser made, which a server without a list of them doesn't tell. */
export function rememberWithdrawal(id, at) {
  memory.set("withdrawn", [...memory.get("withdrawn"), [digitsOf(id), at]]);
}

/** Takes the server's list of withdrawals, or what this browser remembers where there is none. */
export function takeWithdrawals(told) {
  state.areWithdrawalsTold = told !== null;
  const list = told ? told.withdrawals.map((it) => [digitsOf(it.policy_id), it.withdrawn]) : memory.get("withdrawn");
  state.withdrawals = new Map();
  for (const [id, at] of list) if (!(state.withdrawals.get(id) <= at)) state.withdrawals.set(id, at);
}
