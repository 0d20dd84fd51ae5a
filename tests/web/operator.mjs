// What an operator sees: its vehicles, the verdicts of its rules, other moments, and the map.

import { City } from "./city.mjs";
import { cardOf, clean, differences, inState, setMoment, standingOf, texts, told } from "./looking.mjs";

/** The cards say what the server says, and the page works out the same. */
async function verdicts(page, city, { is, ok }) {
  const reports = (await city.sure("scoot", "GET", "/compliance")).policies.flatMap((it) => it.rules);
  const count = (status) => reports.filter((it) => it.status === status).length;
  is("vehicles, broken rules, kept rules", await texts(page, ".tiles b"), `419,${count("violated")},${count("ok")}`);
  is("the page works out what the server says", await differences(page), "");
  ok("a measure against its bound", /141 counted/.test(await cardOf(page, "Downtown fleet cap"))
    && /At most 150/.test(await cardOf(page, "Downtown fleet cap")));
  ok("vehicles outside a limit", /5 vehicles outside the limit/.test(await cardOf(page, "Nothing stands for more than 72 hours")));
  is("a policy in force", await standingOf(page, "Downtown fleet cap"), "in force");
  is("one that is superseded", await standingOf(page, "Downtown fleet cap of 2024"), "superseded by “Downtown fleet cap”");
  ok("a policy to come", /^to come, from /.test(await standingOf(page, "Lantern Festival")), await standingOf(page, "Lantern Festival"));
  ok("names of the groups", /In force now \(4\).*To come \(1\).*No longer \(1\)/.test(await page.text("details.group > summary")));
}

/** Those that break a rule are ringed and listed, and found on the map. */
async function offenders(page, city, { is, ok }) {
  // 5 and 9 have stood for too long; on two nights of the week 3 are in the park.
  const isNight = /✗ broken/.test(await cardOf(page, "Waterfront: no parking on weekend nights"));
  is("rings", await inState(page, (it) => it.offenders.size), isNight ? 17 : 14);
  await page.run(() => [...document.querySelectorAll("article details summary")].find((it) => it.textContent === "5 vehicles").click());
  await page.until(() => document.querySelectorAll(".devices li").length === 5);
  const reports = (await city.sure("scoot", "GET", "/compliance")).policies.flatMap((it) => it.rules);
  is("the list has the server's devices", await texts(page, ".devices li"),
    reports.find((it) => it.measure === 5).devices.join());
  await page.click(".devices button");
  ok("a device is found on the map", /non operational.*breaks a rule/.test(await page.text("#picked")), await page.text("#picked"));
  await page.click(".rule .actions button[aria-label*='150 parked']");
  is("a rule by itself: the vehicles it catches", await inState(page, (it) => it.caught.reduce((a, b) => a + b, 0)), 141);
  await page.click("#fit");
  is("everything again", await inState(page, (it) => it.caught), null);
}

/** Other moments: the page's own verdict, marked as its own. */
async function moments(page, { is, ok }) {
  const go = (text) => setMoment(page, text);
  const friday = await inState(page, ({ policies, clock }) =>
    clock.toField(policies.find((it) => it.name === "Lantern Festival").start_date).slice(0, 10));
  await go(`${friday}T23:30`);
  ok("the festival is in force in its time", /^in force until/.test(await standingOf(page, "Lantern Festival")));
  const park = await cardOf(page, "Waterfront: no parking on weekend nights");
  ok("a rule that the server doesn't judge now", /✗ broken/.test(park) && /3 counted/.test(park), park);
  ok("the verdict is marked as the page's own", /worked out by this page/.test(park));
  ok("and so is the moment", /only by its own clock.*works it out by itself/.test(await page.text("#timenote")));
  await go(`${friday}T11:59`);
  ok("a minute before it begins", /^to come/.test(await standingOf(page, "Lantern Festival")));
  await page.click("#now");
  ok("now is the server's word", /judged by the server/.test(await told(page, "#timenote", /judged/)));
  is("the cards are the server's again", /worked out/.test(await page.text("#policies")), false);
}

/** The map by mouse and by keyboard. */
async function map(page, { is, ok }) {
  const draws = () => page.run(() => {
    const canvas = document.getElementById("map"), { data } = canvas.getContext("2d").getImageData(0, 0, canvas.width, canvas.height);
    let sum = 0;
    for (let i = 0; i < data.length; i += 97) sum = (sum * 31 + data[i]) % 1_000_003;
    return new Promise((then) => { requestAnimationFrame(() => requestAnimationFrame(() => then(sum))); });
  });
  await page.run(() => document.getElementById("map").focus());
  await page.key("0");
  await draws();
  const whole = await draws();
  for (const key of ["ArrowRight", "+"]) await page.key(key);
  await draws();
  const near = await draws();
  ok("keys pan and zoom", near !== whole);
  await page.mouse(400, 400, 300, 340);
  await draws();
  ok("a drag pans", (await draws()) !== near);
  await page.key("0");
  await draws();
  is("zero shows everything", await draws(), whole);
  await page.click(".devices button");
  await page.key("Escape");
  is("Escape closes what is told", await page.run(() => document.getElementById("picked").hidden), true);
  await page.run(() => import("/map.js").then((it) => it.fit(["f887da465e7459638f8f6db03b8da342"])));
  await inState(page, (it) => { it.fleet.count = 0; });
  await page.run(() => document.getElementById("map").focus());
  await page.key("Enter", "\r");
  ok("Enter tells the places at the middle", /Downtown.*In force here: .*Downtown fleet cap/.test(await page.text("#picked")));
  await page.click("#refresh");
}

/** What somebody reads stays where it is when the page reads anew, and tiles come by a setting alone. */
async function staying(page, { is, ok }) {
  await page.run(() => {
    const list = document.querySelector(".devices");
    list.closest("article").id = "reading";
    list.querySelectorAll("button")[2].focus();
  });
  await page.run(() => import("/cards.js").then((it) => it.render()));
  is("a card that says the same stays", await page.run(() => document.querySelectorAll("#reading").length), 1);
  await inState(page, (it) => it.reports.forEach((rules) => { rules[0].measure += 1; }));
  await page.run(() => import("/cards.js").then((it) => it.render()));
  is("one that says something else is new", await page.run(() => document.querySelectorAll("#reading").length), 0);
  is("and the focus is where it was", await page.run(() =>
    [...document.querySelectorAll(".devices button")].indexOf(document.activeElement)), 2);
  ok("no tile without a setting", !page.asked.some((it) => /tiles/.test(it.url)));
  await inState(page, (it) => { it.settings.tiles = "/tiles/{z}/{x}/{y}.png"; });
  await page.click("#in");
  await page.until(() => performance.getEntriesByType("resource").some((it) => /\/tiles\/\d+\/\d+\/\d+\.png$/.test(it.name)));
  ok("tiles by a setting", true);
}

/** How many rules hold for the second operator: the park's is judged on two nights of the week alone, the East's by day. */
async function kept(city) {
  const { policies } = await city.sure("wheels", "GET", "/compliance");
  return policies.flatMap((it) => it.rules).filter((it) => it.status === "ok").length;
}

export default async function operator(browser, program, tally) {
  const city = await City.start(program, { seconds: 600, fill: "fleets" });
  const page = await browser.open(city.url);
  await page.signIn("scoot");
  await verdicts(page, city, tally);
  await offenders(page, city, tally);
  await moments(page, tally);
  await staying(page, tally);
  await map(page, tally);
  await clean(page, city, tally, "an operator", /status of 401 .*\/tiles\//);
  const others = await browser.open(city.url, { isDark: true });
  await others.signIn("wheels");
  tally.is("another operator sees its own", await texts(others, ".tiles b"), `112,0,${await kept(city)}`);
  await others.close();
  await page.close();
  await city.close();
}
