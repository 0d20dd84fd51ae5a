// How fast the page is with a fleet of N vehicles, and where N is the word `operators` with 64 operators of 2,000: node measure.mjs N..
//
// The API is answered by a server in this process, from documents that are made beforehand, so that the page alone is measured.
// Prints a line for each N: milliseconds from signing in to the cards and to the fleet, of a frame while panning and of another
// moment, megabytes of the heap and of the fleet as JSON. Of operators it prints the milliseconds that the page's checks are about.

import { Browser } from "./browser.mjs";
import { fleet, published, serve } from "./mock.mjs";
import { many } from "./oversight.mjs";

/** The answers to a fleet of so many vehicles all over the city. */
function answers(count) {
  const { policies, geographies } = published(), verdict = (rule) => ({ measure: 0, rule_id: rule.rule_id, status: "ok" });
  const reports = policies.map((it) => ({ policy_id: it.policy_id, rules: it.rules.map(verdict) }));
  const told = {
    "/policies": { policies, revision: 2 },
    "/geographies": { geographies, revision: 2 },
    "/compliance": { at: Date.now(), policies: reports, revision: 2, version: 2 },
    "/fleet/vehicles": { vehicles: fleet(count) },
    "/app/whoami": { role: "operator", id: "e5ff2df2-12dd-5466-9b22-62ddabeff11a", zone: "PST8PDT,M3.2.0,M11.1.0" },
    "/app/withdrawals": { withdrawals: [] },
  };
  return Object.fromEntries(Object.entries(told).map(([path, it]) => [path, JSON.stringify(it)]));
}

/** Signs in, and tells when the cards are there and when the fleet is. */
const signIn = async () => {
  const { state } = await import("/state.js"), begun = performance.now(), seen = {};
  document.getElementById("token").value = "scoot";
  document.getElementById("sign").requestSubmit();
  while (!seen.fleet) {
    await new Promise((then) => { setTimeout(then, 1); });
    const t = Math.round(performance.now() - begun);
    if (document.querySelector("article")) seen.cards ??= t;
    if (state.fleet) seen.fleet = t;
  }
  return seen;
};

/** The mean of how long the page works at each of 20 steps. */
const steps = async (isPan) => {
  const drawn = () => new Promise((then) => {
    requestAnimationFrame(() => {
      const begun = performance.now();
      setTimeout(() => then(performance.now() - begun));
    });
  });
  const map = document.getElementById("map"), moment = document.getElementById("moment");
  let sum = 0;
  for (let n = 0; n < 20; n++) {
    const frame = drawn();
    const begun = performance.now();
    if (isPan) map.dispatchEvent(new KeyboardEvent("keydown", { key: n % 2 ? "ArrowLeft" : "ArrowRight" }));
    else {
      moment.value = `2026-12-${String(n + 1).padStart(2, "0")}T20:30`;
      moment.dispatchEvent(new Event("change"));
    }
    sum += performance.now() - begun + await frame;
  }
  return Math.round(sum / 20 * 10) / 10;
};

if (process.argv.includes("operators")) {
  const browser = new Browser();
  await many(browser, undefined, { is: () => {}, ok: (name, _, seen) => console.log(name, JSON.stringify(seen)) });
  await browser.close();
}
for (const count of process.argv.slice(2).filter((it) => it !== "operators").map(Number)) {
  const told = answers(count), bytes = told["/fleet/vehicles"].length, server = await serve((path) => told[path]);
  const browser = new Browser(), page = await browser.open(server.url);
  const seen = await page.run(signIn);
  await page.run(() => new Promise((then) => { setTimeout(then, 500); }));
  const pan = await page.run(steps, true), moment = await page.run(steps, false);
  await page.call("Performance.enable");
  await page.call("HeapProfiler.collectGarbage");
  const heap = (await page.call("Performance.getMetrics")).metrics.find((it) => it.name === "JSHeapUsedSize").value;
  const megabytes = (it) => Math.round(it / 1e5) / 10;
  console.log(JSON.stringify({ vehicles: count, ...seen, pan, moment, heap: megabytes(heap), json: megabytes(bytes) }));
  await browser.close();
  server.close();
}
process.exit(0);
