// Whether everybody can use the page: names of controls, contrast, narrow screens, the keyboard, and what the page is served with.

import { City, isKeeping } from "./city.mjs";
import { clean, fillForm, setMoment, told } from "./looking.mjs";

/** Controls and pictures without a name, by the tree that a screen reader is given. */
async function unnamed(page) {
  await page.call("Accessibility.enable");
  const { nodes } = await page.call("Accessibility.getFullAXTree");
  const isControl = (it) => it.properties?.some(({ name, value }) => name === "focusable" && value.value) || it.role?.value === "img";
  return nodes.filter((it) => !it.ignored && it.role?.value !== "RootWebArea" && isControl(it) && !it.name?.value?.trim())
    .map((it) => it.role?.value).join();
}

/** The lowest contrast of a text with what is behind it, by WCAG 2's formula, and which text that is. */
const lowest = (page) => page.run(() => {
  const channel = (it) => (it / 255 <= 0.03928 ? it / 255 / 12.92 : ((it / 255 + 0.055) / 1.055) ** 2.4);
  const light = (colour) => {
    const [r, g, b] = colour.match(/[\d.]+/g).map(Number).map(channel);
    return 0.2126 * r + 0.7152 * g + 0.0722 * b;
  };
  const behind = (element) => {
    for (let it = element; it; it = it.parentElement) {
      const colour = getComputedStyle(it).backgroundColor;
      if (!/, 0\)$/.test(colour)) return colour;
    }
    return "rgb(255, 255, 255)";
  };
  const isText = (it) => [...it.childNodes].some((node) => node.nodeType === 3 && node.data.trim()) || it.matches("input, textarea");
  const contrast = (it) => {
    const [one, other] = [light(getComputedStyle(it).color), light(behind(it))];
    return (Math.max(one, other) + 0.05) / (Math.min(one, other) + 0.05);
  };
  return [...document.querySelectorAll("body *")]
    .filter((it) => it.offsetParent && isText(it) && !it.matches("script, option, noscript"))
    .map((it) => [contrast(it), `${it.tagName} ${it.className} ${it.textContent.slice(0, 30)}`])
    .sort((a, b) => a[0] - b[0])[0];
});

/** Names and contrast in both schemes, as the page now stands. */
async function state(page, what, { is, ok }) {
  is(`each control is named: ${what}`, await unnamed(page), "");
  for (const isDark of [false, true]) {
    await page.scheme(isDark);
    // What changes by and by has changed.
    await page.run(() => new Promise((then) => { setTimeout(then, 300); }));
    const [contrast, text] = await lowest(page);
    ok(`contrast, ${isDark ? "dark" : "light"}: ${what}`, contrast >= 4.5, `${contrast} ${text}`);
  }
}

const isNarrow = (page) => page.run(() => document.documentElement.scrollWidth <= 320);

/** Words that stand on two lines, but those of documents and the identifiers of vehicles. */
const brokenWords = (page) => page.run(() => {
  const isLooked = (it) => it?.offsetParent && !it.closest("script, noscript, option, pre, .devices, .hidden, .skip");
  const lines = (node, { 0: word, index }) => {
    const range = document.createRange();
    range.setStart(node, index);
    range.setEnd(node, index + word.length);
    return new Set([...range.getClientRects()].filter((it) => it.width).map((it) => Math.round(it.top))).size;
  };
  const found = [], nodes = document.createTreeWalker(document.body, NodeFilter.SHOW_TEXT);
  while (nodes.nextNode()) {
    const node = nodes.currentNode, words = isLooked(node.parentElement) ? [...node.data.matchAll(/\S+/g)] : [];
    found.push(...words.filter((it) => lines(node, it) > 1).map((it) => it[0]));
  }
  return found.join();
});

/** Each thing that can be reached by Tab, in order, until the first comes again. */
async function tabs(page, most) {
  const found = [];
  for (let n = 0; n < most; n++) {
    await page.key("Tab");
    found.push(await page.run(() => {
      const it = document.activeElement, { outlineStyle } = getComputedStyle(it);
      const name = it.id || it.name || it.getAttribute("aria-label") || it.textContent.trim().slice(0, 30);
      return `${name}${outlineStyle === "none" ? " WITHOUT OUTLINE" : ""}`;
    }));
  }
  return found;
}

/** Signing in, looking and publishing without a mouse. */
async function keyboard(browser, city, { is, ok }) {
  const page = await browser.open(city.url);
  await page.key("Tab");
  await page.key("Tab");
  is("the token's field is the second", await page.run(() => document.activeElement.id), "token");
  await page.type("city");
  await page.key("Enter", "\r");
  await page.until(() => document.querySelectorAll("article").length === 6 && document.querySelectorAll("#legend li").length > 1);
  await page.mouse(2, 2);
  const order = await tabs(page, 60);
  const wanted = ["refresh", "leave", "byoperator", "bypolicy", "order", "brokenalone", "csv", "Show on the map", "map", "in", "out", "fit", "slider", "moment", "now", "draw", "write"];
  const places = wanted.map((it) => order.findIndex((name) => name.startsWith(it)));
  ok("Tab goes through the page in its order", places.every((it, n) => it >= 0 && (!n || it > places[n - 1])), order);
  is("each shows that it is in focus", order.filter((it) => /WITHOUT/.test(it)).join(), "");
  await page.run(() => document.querySelector(".withdraw").focus());
  await page.key("Enter", "\r");
  await page.until(() => document.getElementById("ask").open);
  is("a question begins with no", await page.run(() => document.activeElement.id), "askno");
  await page.key("Escape");
  await page.until(() => !document.getElementById("ask").open);
  is("Escape is no", (await city.sure("city", "GET", "/policies")).revision, 2);
  await page.run(() => document.querySelector(".skip").focus());
  await page.key("Enter", "\r");
  is("the policies can be skipped to", await page.run(() => document.activeElement.id), "panel");
  await page.close();
}

/** A phone of 320 pixels. */
async function narrow(browser, city, { is, ok }) {
  const page = await browser.open(city.url, { width: 320, height: 640, isMobile: true });
  ok("320 px, signing in", await isNarrow(page));
  await page.signIn("scoot");
  ok("320 px, an operator", await isNarrow(page));
  await page.run(() => document.querySelectorAll("details").forEach((it) => { it.open = true; }));
  await page.run(() => new Promise((then) => { setTimeout(then, 100); }));
  ok("320 px, with all open", await isNarrow(page));
  await page.run(() => sessionStorage.clear());
  await page.go(city.url);
  await page.signIn("city");
  for (const form of ["write", "draw"]) {
    await page.click(`#${form}`);
    ok(`320 px, the author: ${form}`, await isNarrow(page));
  }
  await clean(page, city, { is }, "who has a phone");
  await page.close();
}

/** A phone of 360 pixels breaks no word. */
async function whole(browser, city, { is }) {
  const id = "7d2f0b1e-5c43-4f6a-9b18-2a6d1c0e4f01", outline = [[-86, 39], [-85, 39], [-85, 40], [-86, 40], [-86, 39]];
  const place = { geography_id: id, name: "School street and Churchyard", geography_json: { type: "Polygon", coordinates: [outline] } };
  await city.sure("city", "PUT", `/drafts/geographies/${id}`, place);
  for (const token of ["scoot", "city"]) {
    const page = await browser.open(city.url, { width: 360, height: 740, isMobile: true });
    is(`360 px, no word is broken: signing in before ${token}`, await brokenWords(page), "");
    await page.signIn(token);
    await page.run(() => document.querySelectorAll("details").forEach((it) => { it.open = true; }));
    await page.run(() => new Promise((then) => { setTimeout(then, 100); }));
    is(`360 px, no word is broken: ${token}`, await brokenWords(page), "");
    if (token === "city") {
      await page.click("#write");
      await fillForm(page, "policyform", { name: "Narrow", maximum: 1500, where: ["Downtown"] });
      await told(page, "#foresighttable", /At most 1,500/);
      await page.run(() => document.querySelectorAll("#policyform details").forEach((it) => { it.open = true; }));
      await page.run(() => new Promise((then) => { setTimeout(then, 100); }));
      is("360 px, no word is broken: a policy's form", await brokenWords(page), "");
    }
    await page.close();
  }
}

/** What whoever has no access token sees, where everyone is told what is published. */
async function everyone(browser, program, tally) {
  const city = await City.start(program, { seconds: 600, changes: { public: true } });
  const page = await browser.open(city.url), phone = await browser.open(city.url, { width: 360, height: 740, isMobile: true });
  for (const it of [page, phone]) {
    await told(it, "article h3", /Downtown/);
    await it.run(() => document.querySelectorAll("details").forEach((one) => { one.open = true; }));
  }
  await state(page, "everyone", tally);
  tally.is("360 px, no word is broken: everyone", await brokenWords(phone), "");
  const order = await tabs(page, 24), places = ["token", "map", "slider", "now"].map((it) => order.findIndex((name) => name.startsWith(it)));
  tally.ok("Tab goes to the form, the map and the moment", places.every((it, n) => it >= 0 && (!n || it > places[n - 1])), order);
  tally.is("each shows that it is in focus: everyone", order.filter((it) => /WITHOUT/.test(it)).join(), "");
  await page.close();
  await phone.close();
  await city.close();
}

/** What the page's files are served with. */
async function served(city, { is, ok }) {
  const types = { "/": "text/html", "/page.css": "text/css", "/page.js": "text/javascript", "/settings.json": "application/json" };
  for (const [path, type] of Object.entries(types)) {
    const { headers } = await fetch(`${city.url}${path}`);
    ok(`the type of ${path}`, headers.get("content-type").startsWith(type), headers.get("content-type"));
    is(`what ${path} is served with`, ["cache-control", "x-content-type-options", "referrer-policy"].map((it) => headers.get(it)).join(),
      "no-cache,nosniff,no-referrer");
    const policy = headers.get("content-security-policy");
    ok(`the content policy of ${path}`, /default-src 'none'/.test(policy) && !/unsafe|\*/.test(policy), policy);
    const again = await fetch(`${city.url}${path}`, { headers: { "if-none-match": headers.get("etag") } });
    is(`${path} isn't sent twice`, `${again.status} ${(await again.text()).length}`, "304 0");
  }
  const answer = await city.ask("scoot", "GET", "/policies");
  is("an answer isn't stored", answer.fields.get("cache-control"), "no-store");
  is("a path of the protocol answers as ever", (await city.ask("nobody", "GET", "/policies")).document.error, "token");
}

export default async function access(browser, program, tally) {
  const city = await City.start(program, { isTold: true, seconds: 600, fill: "fleets", changes: { oversight: "vehicles" } });
  const page = await browser.open(city.url);
  await state(page, "signing in", tally);
  await page.signIn("scoot");
  await page.run(() => document.querySelectorAll("details").forEach((it) => { it.open = true; }));
  await state(page, "an operator", tally);
  await setMoment(page, "2024-12-01T12:00");
  await page.run(() => new Promise((then) => { setTimeout(then, 1500); }));
  await state(page, "another moment", tally);
  await page.run(() => sessionStorage.clear());
  await page.go(city.url);
  await page.signIn("city");
  await page.until(() => document.querySelectorAll("#legend li").length > 1);
  await page.run(() => document.querySelectorAll("details").forEach((it) => { it.open = true; }));
  await state(page, "the author", tally);
  await setMoment(page, "2024-12-01T12:00");
  await page.run(() => new Promise((then) => { setTimeout(then, 1500); }));
  await state(page, "the author at another moment", tally);
  await page.click("#now");
  for (const form of ["write", "draw"]) {
    await page.click(`#${form}`);
    await page.run(() => document.querySelectorAll("#authoring details").forEach((it) => { it.open = true; }));
    await state(page, `the author: ${form}`, tally);
  }
  await page.run(() => document.querySelector(".withdraw").click());
  await page.until(() => document.getElementById("ask").open);
  await state(page, "a question", tally);
  await page.close();
  await keyboard(browser, city, tally);
  await narrow(browser, city, tally);
  await whole(browser, city, tally);
  await served(city, tally);
  await city.close();
  if (isKeeping(program)) await everyone(browser, program, tally);
}
