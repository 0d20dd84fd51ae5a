// The README's screenshots: node shots.mjs PROGRAM
//
// PROGRAM is a built ruffletuff, or mds_serve. Writes docs/page-oversight.png, docs/page-operator.png and docs/page-author.png, and by
// ruffletuff docs/page-report.png, each under 150 KB. Look at them.

import { execFileSync } from "node:child_process";
import { mkdtempSync, readFileSync, rmSync, statSync, writeFileSync } from "node:fs";
import { tmpdir } from "node:os";
import { join } from "node:path";
import { pathToFileURL } from "node:url";
import { Browser } from "./browser.mjs";
import { City, EXAMPLE, TOP } from "./city.mjs";
import { fillForm, told } from "./looking.mjs";
import { smaller } from "./png.mjs";
import { Tally } from "./tally.mjs";

const MOST = 150_000, WIDTH = 1280, HEIGHT = 800;

/** The author's first view: how operators stand, and where what breaks a rule is. */
async function oversight(browser, city, file) {
  const page = await browser.open(city.url, { width: WIDTH, height: HEIGHT });
  await page.signIn("city");
  await page.until(() => document.querySelectorAll("#legend li").length > 2);
  await page.run(() => import("/map.js").then((it) => it.fit()));
  await page.run(() => new Promise((then) => { setTimeout(then, 500); }));
  await page.shot(file);
  await page.close();
}

/** An operator, with what breaks a rule ringed and listed. */
async function operator(browser, city, file) {
  const page = await browser.open(city.url, { width: WIDTH, height: HEIGHT });
  await page.signIn("scoot");
  await page.run(() => {
    const card = [...document.querySelectorAll("article")].find((it) => /72 hours/.test(it.querySelector("h3").textContent));
    const panel = document.getElementById("panel"), top = (it) => it.getBoundingClientRect().top;
    card.querySelector("summary").click();
    panel.scrollTop += top(card) - top(panel) - 10;
  });
  await page.run(() => new Promise((then) => { setTimeout(then, 500); }));
  await page.shot(file);
  await page.close();
}

/** The author, who has drawn a place and writes a policy for it: how operators would stand by it. */
async function author(browser, city, file) {
  const page = await browser.open(city.url, { width: WIDTH, height: HEIGHT, isDark: true });
  await page.signIn("city");
  await page.until(() => document.querySelectorAll("#legend li").length > 2);
  await page.click("#draw");
  const box = await page.run(() => document.getElementById("map").getBoundingClientRect().toJSON());
  const corners = [[300, 80], [390, 60], [420, 130], [370, 190], [290, 160]];
  for (const [x, y] of corners) await page.mouse(box.x + x, box.y + y);
  await fillForm(page, "placeform", { name: "School street", description: "From the bridge to the school." });
  await page.run(() => document.getElementById("placeform").requestSubmit());
  await told(page, "#drafts", /School street/);
  await page.click("#write");
  await fillForm(page, "policyform", { name: "No crowd near the school", where: ["School street (draft)"], maximum: 100 });
  await told(page, "#foresighttable", /At most 100/);
  await page.run(() => document.getElementById("foresight").scrollIntoView({ block: "end" }));
  await page.run(() => new Promise((then) => { setTimeout(then, 500); }));
  await page.shot(file);
  await page.close();
}

/** The report on a week, as `make report` makes it: the rules that its first operator broke most often. */
async function report(browser, city, file) {
  const folder = mkdtempSync(join(tmpdir(), "week-"));
  execFileSync("python3", ["-B", join(EXAMPLE, "week.py"), city.program, folder], { stdio: ["ignore", "ignore", "inherit"] });
  const page = await browser.open(pathToFileURL(join(folder, "report.html")).href, { width: WIDTH, height: HEIGHT });
  await page.run(() => document.querySelector("section").scrollIntoView());
  await page.run(() => new Promise((then) => { setTimeout(then, 500); }));
  await page.shot(file);
  await page.close();
  rmSync(folder, { recursive: true });
}

const { ok, done } = new Tally();
const browser = new Browser(), city = await City.start(process.argv[2], { isTold: true, seconds: 600, fill: "fleets", changes: { oversight: "vehicles" } });
for (const [name, shoot] of Object.entries({ oversight, operator, author, ...(city.isKeeping ? { report } : {}) })) {
  const file = join(TOP, "docs", `page-${name}.png`);
  try {
    await shoot(browser, city, file);
    writeFileSync(file, smaller(readFileSync(file)));
    const { size } = statSync(file);
    ok(`docs/page-${name}.png is under 150 KB`, size < MOST, size);
  } catch (fault) {
    ok(`docs/page-${name}.png`, false, fault.stack);
  }
}
await browser.close();
await City.closeAll();
done();
