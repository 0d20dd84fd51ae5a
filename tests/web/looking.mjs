// What the checks look at on a page.

/** What a policy's card says, empty where there is none. */
export const cardOf = (page, name) => page.run((it) =>
  [...document.querySelectorAll("article")].find((card) => card.querySelector("h3").textContent === it)?.textContent || "", name);

/** How a policy stands, by its card. */
export const standingOf = (page, name) => page.run((it) => {
  const card = [...document.querySelectorAll("article")].find((card) => card.querySelector("h3").textContent === it);
  return card?.querySelector(".tag").textContent || "";
}, name);

/** Presses a button of a policy's card. */
export const press = (page, name, button) => page.run((it, what) => {
  const card = [...document.querySelectorAll("article")].find((card) => card.querySelector("h3").textContent === it);
  card.querySelector(what).click();
}, name, button);

/** Ticks the check boxes of a part whose texts these are, and no other. */
export const tickOnly = (page, part, wanted) => page.run((it, names) => {
  for (const label of document.querySelector(it).querySelectorAll("label:has(input[type=checkbox])")) {
    const box = label.querySelector("input");
    if (box.checked !== names.includes(label.textContent.trim())) box.click();
  }
}, part, wanted);

/** The texts of the check boxes of a part that are ticked, with commas between. */
export const tickedIn = (page, part) => page.run((it) =>
  [...document.querySelectorAll(`${it} input:checked`)].map((box) => box.closest("label").textContent.trim()).join(), part);

/** Fills a form's fields, and ticks what a list names; answers once it is told of. */
export const fillForm = (page, form, fields) => page.run((id, values) => {
  const it = document.getElementById(id);
  for (const [name, value] of Object.entries(values)) {
    if (Array.isArray(value)) {
      for (const label of it.querySelectorAll(`#${name} label:has(input[type=checkbox])`)) {
        const box = label.querySelector("input");
        if (box.checked !== value.includes(label.textContent.trim())) box.click();
      }
      continue;
    }
    it.elements[name].value = value;
    it.elements[name].dispatchEvent(new Event("input", { bubbles: true }));
  }
}, form, fields);

/** The texts of elements, with commas between. */
export const texts = (page, selector) => page.run((it) =>
  [...document.querySelectorAll(it)].map((e) => e.textContent.trim()).join(), selector);

/** What a function of the page's state answers. */
export const inState = (page, look) => page.run(`import("/state.js").then(({ state }) => (${look})(state))`);

/** Chooses a moment by its field: local time, to the millisecond where it is given so. */
export const setMoment = (page, text) => page.run((it) => {
  const field = document.getElementById("moment");
  field.value = it;
  field.dispatchEvent(new Event("change"));
}, text);

/** Where the page's own verdicts differ from the server's. */
export const differences = (page) => page.run(`import("/cards.js").then((it) => it.differences().join())`);

/** Waits until what stands somewhere is so, and answers it; what it says in the end where it isn't. */
export async function told(page, selector, pattern) {
  try {
    await page.until((where, source) => {
      const wanted = new RegExp(source);
      return [...document.querySelectorAll(where)].some((it) => wanted.test(it.textContent));
    }, selector, pattern.source);
  } catch {
    // The check that looks at it fails.
  }
  return page.text(selector);
}

// What a browser writes by itself for an answer that isn't 200: for what mds_serve doesn't have, where it is asked who somebody
// is, and where it is asked what everyone is told.
const USUAL = [/status of 404 .*\/app\/(whoami|withdrawals|drafts)$/, /status of 403 .*\/compliance$/,
  /status of 40[14] .*\/mds\/2\.0\/policies$/];

/** Nothing on the console but what is usual and expected, nothing asked elsewhere, and no token in an address or kept for good. */
export async function clean(page, city, { is }, who, ...expected) {
  const said = page.console.filter((it) => ![...USUAL, ...expected].some((usual) => usual.test(it)));
  is(`nothing on the console of ${who}`, said.join("; "), "");
  const elsewhere = page.asked.filter((it) => !/^(data|blob):/.test(it.url) && !it.url.startsWith(`${city.url}/`));
  is(`nothing is asked elsewhere by ${who}`, elsewhere.map((it) => it.url).join(), "");
  const telling = page.asked.map((it) => it.url).filter((it) => /\b(scoot|wheels|city)\b/.test(it.replace(city.url, "")));
  is(`no token in an address of ${who}`, telling.join(), "");
}
