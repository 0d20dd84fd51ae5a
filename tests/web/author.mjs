// What the author does: drafts, places drawn, typed and pasted, policies by form and as JSON, publishing, replacing, withdrawing.

import { wait } from "./browser.mjs";
import { City, isKeeping } from "./city.mjs";
import { cardOf, clean, fillForm, inState, press, standingOf, texts, tickOnly, tickedIn, told } from "./looking.mjs";

const SCRIPT = "<img src=x onerror=\"document.title='broken into'\"><script>document.title='broken into'</script>";

/** Fills a form's fields and saves it; answers what the page then says. */
async function save(page, form, fields) {
  await fillForm(page, form, fields);
  await page.run((id) => {
    document.getElementById("say").textContent = "";
    document.getElementById(id).requestSubmit();
  }, form);
  return told(page, "#say", /./);
}

async function publish(page) {
  await page.run(() => {
    document.getElementById("say").textContent = "";
    document.getElementById("publish").click();
  });
  await page.until(() => document.getElementById("ask").open);
  await page.click("#askyes");
  return told(page, "#say", /./);
}

async function policy(page, fields) {
  await page.click("#write");
  return save(page, "policyform", fields);
}

async function place(page, name, geojson) {
  await page.click("#draw");
  return save(page, "placeform", { name, geojson });
}

const corners = (page) => page.run(() => JSON.parse(document.querySelector("#placeform [name=geojson]").value || "[]"));

/** A place by keyboard, one by mouse, and one that is pasted. */
async function places(page, { is, ok }) {
  await page.click("#draw");
  for (const key of ["Enter", "ArrowRight", "Enter", "ArrowDown", "Enter", "ArrowLeft", "Enter", "Backspace"]) {
    await page.key(key, key === "Enter" ? "\r" : undefined);
  }
  is("three corners by keyboard", (await corners(page)).length, 3);
  ok("a place by keyboard is kept", /draft is kept/.test(await save(page, "placeform", { name: "By keyboard" })));
  await page.click("#draw");
  const box = await page.run(() => document.getElementById("map").getBoundingClientRect().toJSON());
  for (const [x, y] of [[100, 100], [180, 110], [170, 200], [90, 190]]) await page.mouse(box.x + x, box.y + y);
  await page.mouse(box.x + 300, box.y + 300, box.x + 280, box.y + 290);
  is("four corners by mouse, and none by a drag", (await corners(page)).length, 4);
  ok("a place by mouse is kept", /draft is kept/.test(await save(page, "placeform", { name: "By mouse" })));
  const ring = [[-122.6, 45.5], [-122.59, 45.5], [-122.59, 45.51], [-122.6, 45.5]];
  const pasted = { type: "Feature", properties: {}, geometry: { type: "Polygon", coordinates: [ring] } };
  ok("a pasted place is kept", /draft is kept/.test(await place(page, "Pasted", JSON.stringify(pasted, null, 2))));
  ok("two corners are too few", /three corners/.test(await place(page, "Two", "[[1,2],[2,3]]")));
  const open = { type: "Polygon", coordinates: [[[0, 0], [1, 0], [1, 1], [0, 1]]] };
  ok("an open ring is told in words", /outline isn't closed/.test(await place(page, "Open", JSON.stringify(open))));
  ok("what is no JSON is told", /no JSON/.test(await place(page, "None", "{")));
  await page.click("#placeform .cancel");
  is("the drafts are listed", (await page.text("#drafts td:first-child")).replace(/\s+/g, " ").trim(), "By keyboard | By mouse | Pasted");
}

/** A policy from a draft to its end. */
async function life(page, city, { is, ok }) {
  const name = `${SCRIPT} ban`, next = "Successor of the ban";
  ok("a policy without a place is told", /Choose where/.test(await policy(page, { name, maximum: 0 })));
  ok("a policy by form is kept", /draft is kept/.test(await save(page, "policyform", { where: ["By mouse (draft)"] })));
  is("no draft is ticked to be published before somebody does", await tickedIn(page, "#drafts"), "");
  ok("nothing ticked is nothing published", /Tick a draft/.test(await page.run(() => {
    document.getElementById("publish").click();
    return document.getElementById("say").textContent;
  })));
  await tickOnly(page, "#drafts", ["By keyboard", "Pasted", name]);
  ok("a publication without its place is told in words", /place of a rule is neither published/.test(await publish(page)));
  is("what is ticked stays so when the drafts are read anew", await tickedIn(page, "#drafts"), `${name},By keyboard,Pasted`);
  await tickOnly(page, "#drafts", ["By keyboard", "By mouse", "Pasted", name]);
  ok("it is published", /^Published/.test(await publish(page)), await page.text("#say"));
  is("and in force", await standingOf(page, name), "in force");
  is("a script in a name stays text", await page.run(() => document.querySelectorAll("article img, article script").length), 0);
  is("and isn't run", await page.run(() => document.title), city.title);
  ok("an operator is served it", (await city.sure("scoot", "GET", "/policies")).policies.some((it) => it.name === name));
  await press(page, name, "button.replace");
  is("its fields are its successor's", await page.run(() => {
    const it = document.getElementById("policyform").elements;
    return [it.name.value, it.rule.value, it.maximum.value].join();
  }), `${name},,0`);
  is("and so is what is ticked", [await tickedIn(page, "#where"), await tickedIn(page, "#prev"), await tickedIn(page, "#states")].join("; "),
    `By mouse; ${name}; available,non operational,reserved`);
  await save(page, "policyform", { name: next, maximum: 5 });
  await tickOnly(page, "#drafts", [next]);
  ok("it is replaced", /^Published/.test(await publish(page)), await page.text("#say"));
  is("and superseded", await standingOf(page, name), `superseded by “${next}”`);
  await press(page, next, "button.withdraw");
  await page.until(() => document.getElementById("ask").open);
  await page.click("#askno");
  await wait(200);
  is("a no changes nothing", await standingOf(page, next), "in force");
  await press(page, next, "button.withdraw");
  await page.click("#askyes");
  ok("it is withdrawn", /is withdrawn/.test(await told(page, "#say", /withdrawn/)));
  ok("and says so", /^withdrawn /.test(await standingOf(page, next)), await standingOf(page, next));
}

/** A policy as JSON, what the server refuses, and drafts that are edited and dropped. */
async function documents(page, city, { is, ok }) {
  const edit = async (change) => {
    await page.click("#write");
    await page.run(() => { document.querySelector("#policyform [name=name]").value = "By hand"; });
    const text = await page.run(() => document.querySelector("#policyform [name=json]").value);
    return save(page, "policyform", { json: change(JSON.parse(text)) });
  };
  const places = { geographies: ["2e2dc124093255acb9e62ed0215192dd"] };
  const rule = (it, n) => ({ ...it.rules[0], ...places, rule_id: `${n}`.repeat(32), name: `Rule ${n}`, maximum: n });
  const two = (it) => ({ ...it, name: "By hand", currency: "USD", rules: [rule(it, 1), rule(it, 2)] });
  const said = await edit((it) => JSON.stringify(two(it), null, 2));
  ok("a policy of two rules as JSON is kept", /draft is kept/.test(said), said);
  for (const [what, change, words] of [
    ["a fraction", (it) => JSON.stringify(two(it)).replace('"maximum":1', '"maximum":1.5'), /whole numbers/],
    ["a member that is missing", (it) => JSON.stringify({ ...two(it), rules: undefined }), /member is missing/],
    ["65 rules", (it) => JSON.stringify({ ...two(it), rules: Array(65).fill(two(it).rules[0]) }), /more than 64 rules/],
    ["an identifier that is none", (it) => JSON.stringify({ ...two(it), policy_id: "x" }), /no UUID/],
    ["no JSON", () => "{", /no JSON/],
    ["over 1 MB", (it) => JSON.stringify({ ...two(it), description: "x".repeat(1_100_000) }), /over 1 MB/],
  ]) ok(`refused in words: ${what}`, words.test(await edit(change)), (await page.text("#say")).slice(0, 200));
  await page.click("#policyform .cancel");
  const button = (label) => page.run((it) => document.querySelector(`#drafts [aria-label="${it}"]`).click(), label);
  await button("Edit the draft By hand");
  is("an edit keeps what no field has", await page.run(() => {
    const it = JSON.parse(document.querySelector("#policyform [name=json]").value);
    return [it.currency, it.rules.length, it.rules[1].name, it.rules[1].maximum].join();
  }), "USD,2,Rule 2,2");
  ok("it is saved again", /draft is kept/.test(await save(page, "policyform", { maximum: 7 })));
  const id = await inState(page, (it) => it.drafts.find(({ document }) => document.name === "By hand").id);
  is("with the change alone", (await city.sure("city", "GET", `/drafts/policies/${id}`)).draft.rules.map((it) => it.maximum).join(), "7,2");
  await button("Drop the draft By hand");
  ok("a draft is dropped", /is dropped/.test(await told(page, "#say", /dropped/)));
  is("and gone", (await city.ask("city", "GET", `/drafts/policies/${id}`)).status, 404);
}

/** What is likely a mistake is asked about before it is saved. */
async function mistakes(page, { is, ok }) {
  const asking = async (form, fields) => {
    await page.run((id, values) => {
      const it = document.getElementById(id);
      for (const [name, value] of Object.entries(values)) {
        it.elements[name].value = value;
        it.elements[name].dispatchEvent(new Event("input", { bubbles: true }));
      }
      it.requestSubmit();
    }, form, fields);
    await page.until(() => document.getElementById("ask").open);
    return page.text("#askbody li");
  };
  await page.click("#draw");
  const said = await asking("placeform", { name: "Bow tie", geojson: "[[-122.6,45.5],[-122.5,45.6],[-122.5,45.5],[-122.6,45.6]]" });
  ok("an outline that crosses itself is asked about", /crosses or touches itself/.test(said), said);
  await page.click("#askno");
  await wait(200);
  is("a no keeps the form, and saves nothing", await page.run(() => document.getElementById("placeform").hidden), false);
  await asking("placeform", {});
  await page.click("#askyes");
  ok("a yes saves it", /draft is kept/.test(await told(page, "#say", /draft is kept/)));
  await page.click("#write");
  await page.click("#where input");
  const fields = { name: "Mistaken", minimum: 5, maximum: 3, othertypes: "scooter_stading", end: "2020-01-01T00:00" };
  const list = await asking("policyform", fields);
  ok("a policy's likely mistakes are asked about",
    /never in force.*scooter_stading.*at least 5 and at most 3/.test(list), list);
  await page.click("#askno");
  await page.click("#policyform .cancel");
  await page.run(() => document.querySelector('#drafts [aria-label="Drop the draft Bow tie"]').click());
  await told(page, "#say", /dropped/);
}

export default async function author(browser, program, tally) {
  for (const isTold of isKeeping(program) ? [true] : [false, true]) {
    const city = await City.start(program, { seconds: 600, isTold });
    const page = await browser.open(city.url, { isDark: isTold });
    await page.signIn("city");
    await places(page, tally);
    await life(page, city, tally);
    await mistakes(page, tally);
    if (isTold) tally.is("the operators' names are told", await texts(page, "#forwhom label"), "Scoot,Wheels");
    if (!isTold || city.isKeeping) await documents(page, city, tally);
    tally.is("nothing of a visit is saved", await page.run(() => document.querySelectorAll("[download]").length), 0);
    await clean(page, city, tally, "the author", /status of 4(00|04|09|13) /);
    tally.ok("the cards have the policies", (await cardOf(page, "Downtown fleet cap")) !== "");
    await page.close();
    await city.close();
  }
}
