// A server in this process that serves the page of web/ and answers each request by what a function gives, so that the page alone is
// looked at: a status and a document, made beforehand or for the request.

import { createServer } from "node:http";
import { existsSync, readFileSync, readdirSync } from "node:fs";
import { extname, join } from "node:path";
import { EXAMPLE, TOP, example } from "./city.mjs";

const TYPES = { ".html": "text/html", ".css": "text/css", ".js": "text/javascript", ".json": "application/json" };
const STATES = [["available", "trip_end"], ["available", "trip_end"], ["on_trip", "trip_start"], ["reserved", "reservation_start"],
  ["non_operational", "maintenance"]];

const documents = (kind) => readdirSync(EXAMPLE).filter((it) => it.startsWith(`${kind}-`)).map(example);

/** A geography as a server serves it. */
function served(geography) {
  const coordinates = geography.geography_json.features.flatMap(({ geometry }) =>
    (geometry.type === "Polygon" ? [geometry.coordinates] : geometry.coordinates));
  const features = [{ type: "Feature", properties: null, geometry: { type: "MultiPolygon", coordinates } }];
  return { ...geography, published_date: 1, geography_json: { type: "FeatureCollection", features } };
}

/** The example's policies and places, as published. */
export const published = () => ({ policies: documents("policy").map((it) => ({ ...it, published_date: 1 })),
  geographies: documents("geography").map(served) });

/** The device with a number. */
export const device = (n) => `${n.toString(16).padStart(8, "0")}-0000-4000-8000-000000000000`;

/** A fleet of so many vehicles all over the city. */
export const fleet = (count) => Array.from({ length: count }, (_, n) => {
  const [vehicle_state, event] = STATES[n % STATES.length], turn = n * 0.6180339887 % 1, since = Date.now() - (n % 90) * 3_600_000;
  return { device_id: device(n), event_types: [event],
    location: { lat: +(45.46 + 0.12 * (n / count)).toFixed(6), lng: +(-122.74 + 0.262 * turn).toFixed(6) },
    propulsion_types: ["electric"], since, timestamp: since, vehicle_state, vehicle_type: n % 4 ? "scooter_standing" : "bicycle" };
});

/** Serves the page, and what `answer` gives for a path and its query, at once or later: a text, or `[status, text]`. */
export function serve(answer) {
  const server = createServer(async (request, response) => {
    const [path, query = ""] = request.url.split("?"), told = await answer(path, query), name = path === "/" ? "/index.html" : path;
    const file = join(TOP, "web", name), isThere = told !== undefined || existsSync(file);
    const [status, body] = !isThere ? [404, "{}"] : Array.isArray(told) ? told : [200, told ?? readFileSync(file)];
    response.writeHead(status, { "content-type": told === undefined && isThere ? TYPES[extname(name)] : "application/json" });
    response.end(body);
  });
  return new Promise((done) => {
    server.listen(0, "127.0.0.1", () => done({ url: `http://127.0.0.1:${server.address().port}`, close: () => {
      server.close();
      server.closeAllConnections?.();
    } }));
  });
}
