// River City for the tests: a running server with its page, which can be ended and begun anew. ruffletuff serves the page itself; beside
// mds_serve stands tests/web/serve.py.

import { execFileSync, spawn } from "node:child_process";
import { mkdtempSync, readFileSync, rmSync, writeFileSync } from "node:fs";
import { createServer } from "node:net";
import { tmpdir } from "node:os";
import { dirname, join } from "node:path";
import { fileURLToPath } from "node:url";
import { given } from "./browser.mjs";

export const HERE = dirname(fileURLToPath(import.meta.url)), TOP = dirname(dirname(HERE));
export const EXAMPLE = join(TOP, "examples", "river-city");

/** A document of the example. */
export const example = (name) => JSON.parse(readFileSync(join(EXAMPLE, name), "utf8"));

function freePort() {
  return new Promise((done) => {
    const it = createServer().listen(0, "127.0.0.1", () => {
      const { port } = it.address();
      it.close(() => done(port));
    });
  });
}

/** A process that has said `ready`. */
function ready(program, words, input) {
  const it = spawn(program, words, { stdio: ["pipe", "pipe", "inherit"] });
  it.stdin.on("error", () => {});
  it.stdin.end(input || "");
  return new Promise((done, fail) => {
    it.on("exit", () => fail(new Error(`${program} has ended`)));
    it.stdout.once("data", () => done(it));
  });
}

function end(it) {
  if (it.exitCode !== null || it.signalCode !== null) return undefined;
  const ended = new Promise((done) => { it.once("exit", done); });
  it.kill("SIGKILL");
  return ended;
}

/** Whether a server keeps what it answers, and serves the page itself. */
export const isKeeping = (program) => /^ruffletuff /.test(execFileSync(program, ["--version"]).toString());

/** The servers, and requests to them. */
export class City {
  // Those that run, which end with the tests however these end.
  static running = new Set();

  /** Starts them: `isTold` whether /app/ is answered, as ruffletuff always does, `seconds` between two rounds of the page, `fill` what
   * they are filled with, `changes` of the example's configuration. */
  static async start(program, { isTold = false, seconds = 2, fill = "policies", changes = {} } = {}) {
    const it = new City();
    City.running.add(it);
    Object.assign(it, { program, isKeeping: isKeeping(program), folder: mkdtempSync(join(tmpdir(), "city-")), port: await freePort() });
    it.configuration = { ...example("city.json"), ...changes };
    await it.begin();
    if (it.isKeeping && !await it.isBehind()) it.showOwnPage(seconds);
    else await it.showPageBeside(isTold || it.isKeeping, seconds);
    if (fill !== "nothing") it.fill(fill);
    return it;
  }

  /** Whether the page of web/ is to be served beside: with BESIDE=1, or where the server doesn't tell how operators stand. */
  async isBehind() {
    this.url = `http://127.0.0.1:${this.port}`;
    return process.env.BESIDE === "1" || (await this.ask("city", "GET", "/app/compliance")).status === 404;
  }

  /** The page that the server serves. Of its settings a browser is given another time between two rounds. */
  showOwnPage(seconds) {
    const settings = JSON.parse(readFileSync(join(TOP, "web", "settings.json"), "utf8"));
    this.title = settings.city;
    this.url = `http://127.0.0.1:${this.port}`;
    given.set(`${this.url}/settings.json`, JSON.stringify({ ...settings, refresh_seconds: seconds }));
  }

  async showPageBeside(isTold, seconds) {
    const port = await freePort(), settings = join(this.folder, "settings.json"), usual = example("settings.json");
    this.title = usual.city;
    writeFileSync(settings, JSON.stringify({ ...usual, refresh_seconds: seconds }));
    const told = isTold ? ["--app", join(this.folder, "configuration.json")] : [];
    this.page = await ready("python3", ["-B", join(HERE, "serve.py"), `${port}`, `127.0.0.1:${this.port}`, "--settings", settings, ...told]);
    this.url = `http://127.0.0.1:${port}`;
  }

  /** Publishes the example's `policies`, or its policies and `fleets`. */
  fill(what = "policies") {
    execFileSync("python3", ["-B", join(EXAMPLE, "publish.py"), this.url, ...(what === "policies" ? ["--policies-only"] : [])]);
  }

  /** Begins the server, with these changes of its configuration and with what it has kept. */
  async begin(changes = {}) {
    const line = `${JSON.stringify({ ...this.configuration, ...changes })}\n`, address = `127.0.0.1:${this.port}`;
    const file = join(this.folder, "configuration.json");
    writeFileSync(file, line);
    const words = this.isKeeping ? ["serve", "--config", file, "--state", this.state, "--listen", address] : [address];
    this.server = await ready(this.program, words, line);
  }

  /** Begins it with nothing kept. */
  async beginAnew(changes = {}) {
    rmSync(this.state, { recursive: true, force: true });
    await this.begin(changes);
  }

  get state() {
    return join(this.folder, "state");
  }

  stop() {
    return end(this.server);
  }

  /** A request past the page: status and document. */
  async ask(token, method, target, body = undefined) {
    const sent = body === undefined || typeof body === "string" ? body : JSON.stringify(body);
    const answer = await fetch(`${this.url}${target}`, { method, headers: { authorization: `Bearer ${token}` }, body: sent });
    return { status: answer.status, fields: answer.headers, document: await answer.json().catch(() => null) };
  }

  /** The same, which has to be answered 200. */
  async sure(token, method, target, body = undefined) {
    const { status, document } = await this.ask(token, method, target, body);
    if (status !== 200) throw new Error(`${method} ${target}: ${status} ${JSON.stringify(document)}`);
    return document;
  }

  async close() {
    City.running.delete(this);
    await Promise.all([this.server, this.page].filter(Boolean).map(end));
    rmSync(this.folder, { recursive: true });
  }

  /** Ends all that still run. */
  static async closeAll() {
    await Promise.all([...City.running].map((it) => it.close()));
  }
}
