// Checks of the page in Chromium: node checks.mjs PROGRAM [GROUP]..
//
// PROGRAM is a built ruffletuff, whose own page it is, or mds_serve with the page beside it; the groups are operator, author, forms,
// foresight, everyone, settings, little, whole, hostile, many, past, since, browsers, coming, large, access, all where none is named.
// Prints what doesn't hold, and last 'N passed, M failed'; ends with 1 where one doesn't.

import access from "./access.mjs";
import author from "./author.mjs";
import { comingAndGoing, large, twoBrowsers } from "./away.mjs";
import { Browser } from "./browser.mjs";
import { City } from "./city.mjs";
import everyone from "./everyone.mjs";
import foresight from "./foresight.mjs";
import forms from "./forms.mjs";
import settings from "./given.mjs";
import operator from "./operator.mjs";
import { hostile, little, many, whole } from "./oversight.mjs";
import past from "./past.mjs";
import since from "./since.mjs";
import { Tally } from "./tally.mjs";

const GROUPS = { operator, author, forms, foresight, everyone, settings, little, whole, hostile, many, past, since,
  browsers: twoBrowsers, coming: comingAndGoing, large, access };
const [, , program, ...names] = process.argv, tally = new Tally();
const browser = new Browser();
for (const signal of ["SIGINT", "SIGTERM"]) {
  process.on(signal, async () => {
    await Promise.all([browser.close(), City.closeAll()]);
    tally.ok("ended in time", false);
    tally.done();
  });
}
for (const name of names.length ? names : Object.keys(GROUPS)) {
  try {
    await GROUPS[name](browser, program, tally);
  } catch (fault) {
    tally.ok(`${name} runs to its end`, false, fault.stack);
  }
  await City.closeAll();
}
await browser.close();
tally.done();
