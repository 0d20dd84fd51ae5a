// What the page shows to whoever has no access token, where everyone is told what is published: `"public": true`.

import { City, isKeeping } from "./city.mjs";
import { cardOf, clean, inState, standingOf, told } from "./looking.mjs";

const PLACE = "00000000-0000-4000-8000-000100000001", MINE = "00000000-0000-4000-8000-000200000001";
const COMING = "00000000-0000-4000-8000-000200000002", DAY = 86_400_000;

/** Publishes a policy for one operator alone, with a place that it alone names, and one for everyone that is to come. */
async function publishMore(city) {
  const outline = [[-122.7, 45.5], [-122.6, 45.5], [-122.6, 45.6], [-122.7, 45.5]];
  await city.sure("city", "PUT", `/drafts/geographies/${PLACE}`, { geography_id: PLACE, name: "For one alone",
    geography_json: { type: "Polygon", coordinates: [outline] } });
  await city.sure("city", "PUT", `/drafts/policies/${MINE}`, { policy_id: MINE, name: "Scoot's own", start_date: 0,
    provider_ids: [city.configuration.operators[0].id],
    rules: [{ rule_id: MINE, name: "R", rule_type: "count", geographies: [PLACE], maximum: 1 }] });
  const { geographies } = await city.sure("city", "GET", "/geographies"), place = geographies.find((it) => it.name === "Downtown");
  await city.sure("city", "PUT", `/drafts/policies/${COMING}`, { policy_id: COMING, name: "To come",
    start_date: Date.now() + 5 * DAY, end_date: Date.now() + 9 * DAY,
    rules: [{ rule_id: COMING, name: "R", rule_type: "count", geographies: [place.geography_id], maximum: 1 }] });
  await city.sure("city", "POST", "/publish", { geographies: [PLACE], policies: [MINE, COMING] });
}

const names = async (city, kind) => {
  const answer = await fetch(`${city.url}/mds/2.0/${kind}`);
  return (await answer.json()).data[kind].map((it) => it.name).sort().join();
};

const isShown = (page, id) => page.run((it) => document.getElementById(it).offsetParent !== null, id);

/** The published policies and places, by what the server tells everyone. */
async function looking(page, city, { is, ok }) {
  await told(page, "article h3", /Downtown fleet cap/);
  is("everyone sees the policies that are for everyone", await page.run(() =>
    [...document.querySelectorAll("article h3")].map((it) => it.textContent).sort().join()), await names(city, "policies"));
  const places = await inState(page, (it) => it.places.map(({ name }) => name).sort().join());
  is("and their places", places, await names(city, "geographies"));
  ok("nothing that is for one alone", !/Scoot’?'?s own|For one alone/.test(await page.text("body")));
  is("a policy in force", await standingOf(page, "Downtown fleet cap"), "in force");
  ok("one to come", /^to come, from /.test(await standingOf(page, "To come")), await standingOf(page, "To come"));
  ok("from when on it is in force", /From/.test(await cardOf(page, "Downtown fleet cap")));
  is("the form to sign in is there", await isShown(page, "token"), true);
  is("and no button to sign out", await isShown(page, "leave"), false);
  is("no verdict, no vehicle, no form of the author", [/[✓✗]/.test(await page.text("#panel")), await inState(page, (it) => it.fleet),
    await isShown(page, "authoring"), await isShown(page, "standing")].join(), "false,,false,false");
  ok("in words what is told", /published for everyone/.test(await page.text("#foreveryone")));
  is("no token is asked for or sent", page.asked.filter((it) => it.headers.Authorization || it.headers.authorization).length, 0);
  const asked = page.asked.filter((it) => it.url.startsWith("http")).map((it) => new URL(it.url).pathname);
  is("and nothing but what everyone may ask", asked.filter((it) => !/^\/(mds\/2\.0\/(policies|geographies)|[a-z]*\.(js|css|json)|)$/.test(it)).join(), "");
}

/** The map and other moments, as for those who sign in. */
async function moments(page, { is, ok }) {
  await page.run(() => import("/map.js").then((it) => it.fit(["f887da465e7459638f8f6db03b8da342"])));
  await page.run(() => document.getElementById("map").focus());
  await page.key("Enter", "\r");
  ok("a place tells what is in force there", /In force here: .*/.test(await page.text("#picked")), await page.text("#picked"));
  const date = await inState(page, ({ policies, clock }) =>
    clock.toField(policies.find((it) => it.name === "To come").start_date + 60_000));
  await page.run((it) => {
    const field = document.getElementById("moment");
    field.value = it;
    field.dispatchEvent(new Event("change"));
  }, date);
  const then = await standingOf(page, "To come");
  ok("from its first moment on a policy is in force", /^in force until/.test(then), then);
  is("the note says by what", /What would be in force then, by what is published today/.test(await page.text("#timenote")), true);
  await page.click("#now");
  ok("now again", /^to come/.test(await standingOf(page, "To come")));
}

/** A withdrawal is shown by the next round; a wrong token leaves what is shown, and a right one shows what it is told. */
async function changes(page, city, { is, ok }) {
  const count = await page.run(() => document.querySelectorAll("article").length);
  const policy = (await city.sure("city", "GET", "/policies")).policies.find((it) => it.name === "Downtown fleet cap");
  await city.sure("city", "POST", "/publish", { withdraw: [policy.policy_id] });
  await told(page, "#policies summary", /No longer \(2\)/);
  const standing = await standingOf(page, "Downtown fleet cap");
  ok("a withdrawal is shown by itself", /^ended /.test(standing), standing);
  await page.run(() => {
    document.getElementById("token").value = "nobody";
    document.getElementById("sign").requestSubmit();
  });
  ok("a wrong token is told", /Nobody has this access token/.test(await told(page, "#say", /Nobody/)));
  is("and the focus is where one signs in", await page.run(() => document.activeElement.id), "token");
  is("what everyone is told stays", await page.run(() => document.querySelectorAll("article").length), count);
  await page.signIn("scoot");
  ok("an operator is told its own too", /Scoot's own/.test(await page.text("article h3")));
  is("and the form is gone", await isShown(page, "token"), false);
  await page.click("#leave");
  await page.until((it) => document.readyState === "complete" && document.querySelectorAll("article").length === it, count);
  is("signed out one has the form", await isShown(page, "token"), true);
  is("and sees what everyone does", /Scoot's own/.test(await page.text("article h3")), false);
}

/** An access token that isn't known any more leads to what everyone is told, and the reason stays. */
async function expiring(browser, city, { is, ok }) {
  const page = await browser.open(city.url);
  await page.signIn("scoot");
  await page.run(() => {
    const work = document.getElementById("work"), form = document.getElementById("enter");
    const watch = new MutationObserver(() => {
      if (form.hidden || work.hidden || !/Scoot's own/.test(work.textContent)) return;
      watch.disconnect();
      work.dataset.leaked = "yes";
    });
    watch.observe(document.body, { subtree: true, childList: true, attributes: true });
  });
  await city.stop();
  await city.begin({ operators: city.configuration.operators.map((it) => ({ ...it, token: `new-${it.token}` })) });
  ok("an expired token is told", /Nobody has this access token any more/.test(await told(page, "#say", /any more/)));
  await page.until(() => document.getElementById("foreveryone"));
  ok("and stays so beside what everyone is told", /any more/.test(await page.text("#say")), await page.text("#say"));
  is("without what was its own", /Scoot's own/.test(await page.text("article h3")), false);
  is("at any moment", await page.run(() => document.getElementById("work").dataset.leaked || ""), "");
  await page.close();
}

/** Where it is switched off the form alone is there, as on a server that doesn't have it. */
async function off(browser, page, city, { is }) {
  await city.stop();
  await city.begin({ public: false });
  await page.until(() => document.getElementById("work").hidden);
  is("switched off, the form alone is left", await isShown(page, "token"), true);
  const other = await browser.open(city.url);
  await other.until(() => performance.getEntriesByType("resource").some((it) => /mds\/2\.0\/policies$/.test(it.name)));
  is("and is all that another sees", [await isShown(other, "token"), await isShown(other, "work")].join(), "true,false");
  await other.close();
}

export default async function everyone(browser, program, tally) {
  if (!isKeeping(program)) return;
  const city = await City.start(program, { seconds: 1, changes: { public: true } });
  await publishMore(city);
  for (const isMobile of [true, false]) {
    const page = await browser.open(city.url, isMobile ? { width: 360, height: 740, isMobile } : {});
    await looking(page, city, tally);
    if (isMobile) {
      tally.ok("360 px, everyone", await page.run(() => document.documentElement.scrollWidth <= 360));
      await page.close();
      continue;
    }
    await moments(page, tally);
    await changes(page, city, tally);
    await expiring(browser, city, tally);
    await off(browser, page, city, tally);
    await clean(page, city, tally, "everyone", /status of (401|50[24]) |ERR_(CONNECTION_REFUSED|EMPTY_RESPONSE|CONNECTION_RESET)/);
    await page.close();
  }
  await city.close();
}
