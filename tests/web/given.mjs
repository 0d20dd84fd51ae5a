// What the configuration says of the page: its title, its first view and its map tiles, from a server of another origin.

import { createServer } from "node:http";
import { given } from "./browser.mjs";
import { City, isKeeping } from "./city.mjs";
import { inState } from "./looking.mjs";

const TITLE = "Rules <b>of</b> River City", ATTRIBUTION = "© the <i>makers</i> of the map";
// A picture of one pixel.
const PIXEL = Buffer.from("R0lGODlhAQABAIAAAAAAAP///yH5BAEAAAAALAAAAAABAAEAAAIBRAA7", "base64");

/** A server of tiles, and what it was asked for. */
function tileServer() {
  const asked = [];
  const it = createServer((request, response) => {
    asked.push(request.url);
    response.writeHead(200, { "content-type": "image/gif" }).end(PIXEL);
  });
  return new Promise((done) => {
    it.listen(0, "127.0.0.1", () => done({ it, asked, origin: `http://127.0.0.1:${it.address().port}` }));
  });
}

const others = (page, city) => page.asked.map((it) => it.url).filter((it) => it.startsWith("http") && !it.startsWith(`${city.url}/`));

/** The page with all of it. At zoom 2 the world is four tiles wide; 45° west and 45° north lie in the tile of x 1 and y 1. */
async function shown(page, city, tiles, { is, ok }) {
  await page.until(() => import("/state.js").then(({ state }) => state.me && state.readAt));
  is("the title is the heading", await page.text("#city"), TITLE);
  const said = await page.run(() => [document.title, document.querySelectorAll("#city b").length].join());
  is("and the document's, as text", said, `${TITLE},0`);
  is("the attribution is text", await page.text("#attribution"), ATTRIBUTION);
  for (let turn = 0; turn < 100 && !tiles.asked.includes("/2/1/1"); turn++) await new Promise((done) => { setTimeout(done, 50); });
  ok("the tile of the first view is asked for", tiles.asked.includes("/2/1/1"), tiles.asked.join());
  ok("and none of another zoom", tiles.asked.every((it) => it.startsWith("/2/")), tiles.asked.join());
  ok("from nowhere else", others(page, city).every((it) => it.startsWith(`${tiles.origin}/`)), others(page, city).join());
  const answer = await fetch(`${city.url}/`), policy = answer.headers.get("content-security-policy");
  ok("the policy names the origin for pictures alone", policy.split(tiles.origin).length === 2
    && policy.includes(`; img-src 'self' data: ${tiles.origin}; `), policy);
}

/** The page without a word about it asks nobody else. */
async function absent(browser, city, { is, ok }) {
  await city.stop();
  await city.begin({ page: null });
  const page = await browser.open(city.url);
  is("without a title", await page.text("#city"), city.title);
  is("and without tiles", await inState(page, (it) => it.settings.tiles), "");
  await page.until(() => document.querySelectorAll("article").length);
  is("nothing is asked for elsewhere", others(page, city).join(), "");
  ok("and nothing could be", !/http/.test((await fetch(`${city.url}/`)).headers.get("content-security-policy")));
  await page.close();
}

export default async function settings(browser, program, tally) {
  if (!isKeeping(program)) return;
  const tiles = await tileServer();
  const said = { title: TITLE, view: { lat: 45, lng: -45, zoom: 2 }, tiles: `${tiles.origin}/{z}/{x}/{y}`, attribution: ATTRIBUTION };
  const city = await City.start(program, { seconds: 600, changes: { public: true, page: said } });
  given.delete(`${city.url}/settings.json`);
  const page = await browser.open(city.url);
  await shown(page, city, tiles, tally);
  tally.is("nothing on the console", page.console.join("; "), "");
  await page.close();
  await absent(browser, city, tally);
  await city.close();
  tiles.it.close();
}
