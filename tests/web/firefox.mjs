/* The page in Firefox, driven by its Marionette protocol: firefox.mjs FIREFOX PAGE FOLDER, with the program's files of round.csv in
 * FOLDER. What page.mjs tries in Chromium at length is tried here at its heart. The last line is 'N passed, M failed'. */
import { spawn } from "node:child_process";
import { existsSync, mkdtempSync, readFileSync, rmSync, writeFileSync } from "node:fs";
import { connect } from "node:net";
import { tmpdir } from "node:os";
import { join, resolve } from "node:path";
import { pathToFileURL } from "node:url";
import { Tally } from "./tally.mjs";

const [program, file, folder] = process.argv.slice(2);
const room = mkdtempSync(join(tmpdir(), "pocsag-web-")), tally = new Tally(), HEADER = "address,kind,message\n";
const ELEMENT = "element-6066-11e4-a52e-4f735466cecf"; // the name of an element in WebDriver
const wait = (ms) => new Promise((done) => setTimeout(done, ms));

/* Waits until something is so; whether it came to that. */
async function comes(holds, seconds = 30) {
  for (const end = Date.now() + 1000 * seconds; Date.now() < end; await wait(30)) if (await holds()) return true;
  return false;
}

/* Firefox with a profile of its own, which saves files in `room` and writes there at which port it listens. */
const settings = {
  "marionette.port": 0, "browser.download.folderList": 2, "browser.download.dir": room, "browser.download.useDownloadDir": true,
  "browser.download.alwaysOpenPanel": false, "app.update.enabled": false, "media.volume_scale": "0.0", "media.autoplay.default": 0,
};
writeFileSync(join(room, "user.js"), Object.entries(settings).map((it) => `user_pref(${it.map((word) => JSON.stringify(word)).join(", ")});\n`).join(""));
const firefox = spawn(program, ["--headless", "--marionette", "--no-remote", "--profile", room], { stdio: "ignore", env: { ...process.env, HOME: room } });
const port = join(room, "MarionetteActivePort");
if (!(await comes(() => existsSync(port) && readFileSync(port, "utf8") > "", 60))) throw new Error("Firefox does not listen");
const socket = connect(Number(readFileSync(port, "utf8")), "127.0.0.1"), waiting = new Map();

/* Each message is its length in bytes, a colon, and JSON. */
let held = Buffer.alloc(0), number = 0;
socket.on("data", (data) => {
  held = Buffer.concat([held, data]);
  for (let colon = held.indexOf(58); colon >= 0; colon = held.indexOf(58)) {
    const end = colon + 1 + Number(held.subarray(0, colon));
    if (held.length < end) return;
    const [, id, error, result] = [].concat(JSON.parse(held.subarray(colon + 1, end)));
    held = held.subarray(end);
    waiting.get(id)?.(error ? Promise.reject(new Error(error.message)) : result);
  }
});
function send(name, words = {}) {
  const message = JSON.stringify([0, ++number, `WebDriver:${name}`, words]), given = new Promise((done) => waiting.set(number, done));
  socket.write(`${Buffer.byteLength(message)}:${message}`);
  return given;
}

const value = async (script, ...args) => (await send("ExecuteScript", { script: `return (${script})`, args })).value;
const text = (selector) => value(`document.querySelector(arguments[0]).textContent`, selector);
const find = async (selector) => (await send("FindElement", { using: "css selector", value: selector })).value[ELEMENT];
const click = async (selector) => send("ElementClick", { id: await find(selector) });
const says = (selector, wanted) => comes(async () => (await text(selector)).includes(wanted));
const title = (wanted) => comes(async () => (await text("#plan-title")) === wanted);

/* A new round, as a user pastes it. */
async function round(words) {
  await value(`((it) => (it.value = arguments[0], it.dispatchEvent(new Event("input", { bubbles: true }))))(document.querySelector("#csv"))`, words);
}

/* Presses keys at once, each by its character or by its code of WebDriver. */
const [TAB, CONTROL, SHIFT, DOWN, RIGHT, ENTER, ESCAPE] = ["\ue004", "\ue009", "\ue008", "\ue015", "\ue014", "\ue007", "\ue00c"];
async function press(...keys) {
  const actions = [...keys.map((key) => ({ type: "keyDown", value: key })), ...keys.reverse().map((key) => ({ type: "keyUp", value: key }))];
  await send("PerformActions", { actions: [{ type: "key", id: "keys", actions }] });
}

/* Quotes, wrong files, the last round, links and the keys of the table, as page.mjs tries them in Chromium. */
async function tryHandling() {
  await round(`${HEADER}8,tone0,\n16,alpha,"open\n24,tone0,\n`);
  tally.check("an open quote is a fault", await says("#status", "record 2: the quote in line 3 is not closed"), await text("#status"));
  await click("#as-table");
  await click("#rows .why button");
  tally.check("until it is read all the same", await says("#status", "2 pages"), await text("#status"));
  writeFileSync(join(folder, "junk.bin"), Buffer.from([1, 2, 3]));
  await send("ElementSendKeys", { id: await find("#file"), text: ["junk.bin", "round.bin", "round.csv"].map((it) => join(folder, it)).join("\n") });
  tally.check("a file that is none is named", await says("#verdict", "junk.bin: not taken, since it begins neither as a page file"), await text("#verdict"));
  tally.check("among others", await says("#verdict", "round.bin: 6 pages, those of the round") && await title("2 batches"), await text("#verdict"));
  await press(CONTROL, "z");
  tally.check("the last round comes back", await says("#status", "record 2: the quote in line 3"), await text("#status"));
  await send("Refresh");
  tally.check("a reload keeps the round", await says("#status", "record 2: the quote in line 3"), await text("#status"));
  await press(CONTROL, SHIFT, "Z");
  tally.check("and the others", await says("#status", "6 pages, 24 codewords"), await text("#status"));
  await value(`document.querySelector("#as-csv").focus()`);
  const focus = () => value(`((it) => [it.closest("[data-row]")?.dataset.row ?? it.id, it.tagName])(document.activeElement)`);
  await press(TAB);
  tally.is("the table is reached", await focus(), ["0", "SPAN"]);
  await press(DOWN);
  await press(RIGHT);
  tally.is("the arrows move in it", await focus(), ["1", "SPAN"]);
  await press(TAB);
  tally.is("it is one stop", await focus(), ["order-play", "BUTTON"]);
  await press(SHIFT, TAB);
  await press(RIGHT);
  await press(RIGHT);
  await press(ENTER);
  tally.is("a field is reached", await focus(), ["1", "INPUT"]);
  await press("7");
  await press(ESCAPE);
  tally.is("edited and left", [await focus(), await value(`document.querySelector('#rows [data-row="1"] .message').value`)], [["1", "SPAN"], "7"]);
  await click("#link");
  tally.check("a link is copied, or that it is not is said", await comes(async () => /^(copied|not copied)/.test(await text("#linked"))), await text("#linked"));
  await value(`(location.hash = location.hash.slice(0, -9), 0)`);
  tally.check("a damaged link says so", await says("#linked", "the link is damaged"), await text("#linked"));
}

async function tryPage() {
  await send("NewSession", { capabilities: { alwaysMatch: {} } });
  await send("Navigate", { url: pathToFileURL(resolve(file)).href });
  tally.check("a plan is shown", await title("2 batches"), await text("#status"));
  tally.check("the counts", (await text("#status")).startsWith("6 pages, 24 codewords; planned in"), await text("#status"));
  tally.check("what is saved", (await text("#saved")).startsWith("instead of 4: saves 907 ms at 1200 bit/s"), await text("#saved"));
  tally.is("the grid", await value(`[...document.querySelectorAll('[data-which="fewest"] .key')].map((it) => it.textContent).sort().join("")`), "ABCDEF");
  tally.check("why there are no fewer", await comes(async () => (await text("#nodes")).includes("all slots: 24 codewords, room for 16")), await text("#nodes"));
  for (const name of ["round.csv", "round.bin", "round.cert", "round.wav"]) {
    await value(`[...document.querySelectorAll("#files button")].find((it) => it.textContent === arguments[0]).click()`, name);
    const path = join(room, name), wanted = readFileSync(join(folder, name));
    tally.check(`${name} is the program's`, await comes(() => existsSync(path) && readFileSync(path).equals(wanted), 10));
  }
  await click("#as-csv");
  await round(`${HEADER}8,tone0,\n16,tone0,\n24,tone0,\n`);
  tally.check("a round is pasted", await title("2 batches"), await text("#status"));
  await round(`${HEADER}8,tone9,\n`);
  tally.check("a bad record is named", await comes(async () => (await text("#status")).includes("record 1: unknown kind")), await text("#status"));
  await round(`${HEADER}8,tone0,\n`);
  tally.check("and another round is planned", await title("1 batch"), await text("#status"));
  await tryHandling();
  tally.is("no request to a network", await value(`performance.getEntriesByType("resource").map((it) => it.name).filter((it) => !/^(blob|data):/.test(it))`), []);
}

try {
  await tryPage();
} catch (error) {
  tally.check("Firefox does what it is asked", false, error.message);
} finally {
  socket.destroy();
  firefox.kill();
  await Promise.race([new Promise((done) => firefox.on("exit", done)), wait(10_000)]);
  rmSync(room, { recursive: true, force: true, maxRetries: 5 });
}
tally.end();
