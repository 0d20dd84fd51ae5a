// What comes from outside: other browsers, tokens that expire, a server that goes away, and documents at their limits.

import { City, isKeeping } from "./city.mjs";
import { cardOf, clean, differences, press, standingOf, told } from "./looking.mjs";

const id = (kind, number) => `00000000-0000-4000-8000-${kind.padStart(4, "0")}${String(number).padStart(8, "0")}`;

/** One browser withdraws, the others see it by themselves. */
export async function twoBrowsers(browser, program, { is, ok }) {
  for (const isTold of isKeeping(program) ? [true] : [false, true]) {
    const city = await City.start(program, { seconds: 1, isTold }), name = "Downtown fleet cap";
    const [first, second, operator] = [await browser.open(city.url), await browser.open(city.url), await browser.open(city.url)];
    await first.signIn("city");
    await second.signIn("city");
    await operator.signIn("scoot");
    is("in force for the operator", await standingOf(operator, name), "in force");
    await press(first, name, "button.withdraw");
    await first.until(() => document.getElementById("ask").open);
    await first.click("#askyes");
    const gone = (page) => told(page, "article h3 + .tag", /^withdrawn/);
    ok("the author's own browser tells it", /withdrawn/.test(await gone(first)));
    ok("the operator's browser sees it", /withdrawn/.test(await gone(operator)) && /^withdrawn/.test(await standingOf(operator, name)));
    if (isTold) ok("the author's other browser sees it too", /^withdrawn/.test((await gone(second), await standingOf(second, name))));
    else ok("without a list of withdrawals the other says so", /no list of withdrawals/.test(await second.text("#timenote")));
    for (const [who, page] of Object.entries({ first, second, operator })) {
      await clean(page, city, { is }, `the ${who}`);
      await page.close();
    }
    await city.close();
  }
}

/** A token that isn't known any more, and a server that is gone for a while. */
export async function comingAndGoing(browser, program, { is, ok }) {
  const city = await City.start(program, { seconds: 1 });
  const page = await browser.open(city.url);
  await page.run(() => { document.getElementById("token").value = "nobody"; document.getElementById("sign").requestSubmit(); });
  ok("a wrong token is told", /Nobody has this access token/.test(await told(page, "#say", /Nobody/)));
  await page.signIn("scoot");
  is("the token is kept in the tab", await page.run(() => Object.values(sessionStorage).join()), "scoot");
  is("and nowhere else", await page.run(() => /scoot/.test(JSON.stringify(localStorage) + location.href + document.cookie)), false);
  await page.go(city.url);
  await page.until(() => document.querySelectorAll("article").length === 6);
  ok("it is there after a reload", true);
  const late = await browser.open(city.url);
  await city.stop();
  await late.run(() => { document.getElementById("token").value = "scoot"; document.getElementById("sign").requestSubmit(); });
  ok("one that signs in while it is gone is told", /can’t be reached.*asked again/.test(await told(late, "#say", /reached/)));
  await city.begin();
  if (!city.isKeeping) city.fill();
  await late.until(() => document.querySelectorAll("article").length === 6);
  ok("and is in once it is back, by the same token", true);
  await late.close();
  await page.until(() => document.querySelectorAll("article").length === 6);
  await city.stop();
  ok("a server that is gone is told", /can’t be reached.*What is shown is from/.test(await told(page, "#say", /reached/)));
  is("what was read is still there", await page.run(() => document.querySelectorAll("article").length), 6);
  if (city.isKeeping) {
    await city.begin();
    ok("that it is back is told", /is back/.test(await told(page, "#say", /is back/)));
    is("and what it has kept is shown", await page.run(() => document.querySelectorAll("article").length), 6);
    await city.stop();
    await told(page, "#say", /reached/);
  }
  await city.beginAnew();
  const news = await told(page, "#say", /begun anew|is back/);
  ok("that it is back, and has begun anew, is told", /begun anew/.test(news), news);
  is("and what it holds is shown", await page.run(() => document.querySelectorAll("article").length), 0);
  city.fill();
  await page.until(() => document.querySelectorAll("article").length === 6);
  await city.stop();
  await told(page, "#say", /reached/);
  await city.begin({ operators: city.configuration.operators.map((it) => ({ ...it, token: `new-${it.token}` })) });
  ok("an expired token leads out, in words", /Nobody has this access token any more/.test(await told(page, "#say", /any more/)));
  is("to where one signs in", await page.run(() => document.getElementById("work").hidden && !document.getElementById("enter").hidden), true);
  is("and is kept no longer", await page.run(() => sessionStorage.length), 0);
  await page.signIn("new-scoot");
  ok("another token is taken", true);
  await clean(page, city, { is }, "who comes and goes", /status of (401|50[24]) |ERR_(CONNECTION_REFUSED|EMPTY_RESPONSE|CONNECTION_RESET)/);
  await page.close();
  await city.close();
}

/** A comb of `count` positions in all, with holes, in the middle of the city; what lies in a hole isn't held. */
function comb(count) {
  const holes = Array.from({ length: 40 }, (_, n) => {
    const x = -122.66 + 0.003 * n, y = 45.5;
    return [[x, y], [x + 0.002, y], [x + 0.002, y + 0.002], [x, y + 0.002], [x, y]];
  });
  const points = count - 1 - 40 * 5, outer = [];
  for (let n = 0; n < points; n++) {
    const angle = 2 * Math.PI * n / points, radius = n % 2 ? 0.08 : 0.07;
    outer.push([-122.6 + radius * Math.cos(angle), 45.52 + radius * Math.sin(angle)].map((it) => +it.toFixed(7)));
  }
  return { type: "Polygon", coordinates: [[...outer, outer[0]], ...holes] };
}

/** A description of 10,000 characters, words without an end, and a place at its limit. */
export async function large(browser, program, { is, ok }) {
  const city = await City.start(program, { seconds: 600, fill: "nothing" }), name = "A name without an end ".repeat(3) + "x".repeat(300);
  const place = { geography_id: id("1", 1), name: "Comb", description: "y".repeat(2000), geography_json: comb(20_000) };
  const description = `${"z".repeat(500)} ${"A long story. ".repeat(680)}`.slice(0, 10_000);
  const policy = { policy_id: id("2", 1), name, description, start_date: 0,
    rules: [{ rule_id: id("3", 1), name: "w".repeat(400), rule_type: "count", geographies: [id("1", 1)], maximum: 1 }] };
  await city.sure("city", "PUT", `/drafts/geographies/${id("1", 1)}`, place);
  await city.sure("city", "PUT", `/drafts/policies/${id("2", 1)}`, policy);
  await city.sure("city", "POST", "/publish", { geographies: [id("1", 1)], policies: [id("2", 1)] });
  // In a hole, between two holes, on a hole's edge, and outside: the second and the third are held.
  for (const [number, lng] of [[1, -122.6585], [2, -122.6575], [3, -122.6], [4, -122.4]]) {
    await city.sure("scoot", "POST", "/fleet/events", { device_id: id("4", number), vehicle_type: "bicycle",
      vehicle_state: "available", timestamp: 1, location: { lng, lat: 45.501 } });
  }
  const page = await browser.open(city.url);
  await page.signIn("scoot");
  is("the description is there whole", await page.run(() => document.querySelector(".about").textContent.length), 10_000);
  ok("in a part of its own that scrolls", await page.run(() => {
    const { clientHeight, scrollHeight } = document.querySelector(".about");
    return clientHeight < 200 && scrollHeight > 1000;
  }));
  is("nothing is wider than its place", await page.run(() =>
    [document.documentElement, document.getElementById("panel")].some((it) => it.scrollWidth > it.clientWidth)), false);
  const report = (await city.sure("scoot", "GET", "/compliance")).policies[0].rules[0];
  is("the server counts what is in no hole", report.measure, 2);
  is("and so does the page", await differences(page), "");
  const frame = await page.run(async () => {
    const map = await import("/map.js"), begun = performance.now();
    for (let n = 0; n < 5; n++) {
      map.draw();
      await new Promise((then) => { requestAnimationFrame(() => requestAnimationFrame(then)); });
    }
    return (performance.now() - begun) / 5;
  });
  ok("a frame with 20,000 positions", frame < 1000, frame);
  await clean(page, city, { is }, "who looks at large documents");
  await page.close();
  const author = await browser.open(city.url);
  await author.signIn("city");
  await author.run((text) => {
    document.getElementById("draw").click();
    const it = document.getElementById("placeform");
    it.elements.name.value = "One more";
    it.elements.geojson.value = text;
    it.requestSubmit();
  }, JSON.stringify(comb(20_001)));
  ok("20,001 positions are refused in words", /more than 20,000 positions/.test(await told(author, "#say", /positions/)));
  ok("the card of the author too", (await cardOf(author, name)) !== "");
  await author.close();
  await city.close();
}
