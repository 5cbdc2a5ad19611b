/* The page in Chromium, used as a user does: page.mjs CHROMIUM PAGE FOLDER, with round.csv, round.bin, round.cert and round.wav of the
 * program in FOLDER. The last line is 'N passed, M failed'. */
import { existsSync, mkdirSync, readFileSync, rmSync, writeFileSync } from "node:fs";
import { join, resolve } from "node:path";
import { pathToFileURL } from "node:url";
import { Browser } from "./browser.mjs";
import { Tally } from "./tally.mjs";

const [program, file, folder] = process.argv.slice(2);
const url = pathToFileURL(resolve(file)).href, sample = readFileSync(join(folder, "round.csv"), "utf8");
const tally = new Tally(), HEADER = "address,kind,message\n";
const browser = new Browser(program);
const pages = [];

async function opened(width, height, at = url) {
  const page = await browser.open(at, width, height);
  pages.push(page);
  tally.check(`a plan is shown at ${width} pixels`, await page.comes(`document.querySelector("#plan")`) && await title(page, "2 batches"), await page.text("#status"));
  return page;
}

/* Waits until the round is planned or refused, and then until an element says this. */
const PLANNED = `document.querySelector("#plan").ariaBusy === "false"`;
const title = (page, text) => page.comes(`${PLANNED} && document.querySelector("#plan-title").textContent === ${JSON.stringify(text)}`);
const says = (page, selector, text, once = PLANNED) => page.comes(`${once} && document.querySelector("${selector}").textContent.includes(${JSON.stringify(text)})`);

/* Whether an element is in view in the table. */
const isInTable = (page, it) => page.value(`((it, box) => it.top >= box.top && it.bottom <= box.bottom)(${it}.getBoundingClientRect(), document.querySelector("#rows").getBoundingClientRect())`);

/* A new round, as a user types it. */
async function round(page, text) {
  await page.click("#as-csv");
  await page.fill("#csv", text);
}

/* Drops files on the page; again where a busy browser lost them. */
async function drop(page, ...names) {
  const data = { items: [], files: names.map((name) => join(folder, name)), dragOperationsMask: 1 };
  await page.value(`document.querySelector("#verdict").textContent = ""`);
  for (let tries = 0; tries < 3; tries++) {
    for (const type of ["dragEnter", "dragOver", "drop"]) await page.send("Input.dispatchDragEvent", { type, x: 600, y: 300, data });
    if (await page.comes(`document.querySelector("#verdict").textContent`, 3)) return;
  }
}

async function taken(page, name, box = "#files") {
  const before = page.downloaded;
  rmSync(join(page.downloads, name), { force: true });
  await page.value(`[...document.querySelectorAll("${box} button")].find((it) => it.textContent === "${name}").click()`);
  const path = join(page.downloads, name);
  for (let k = 0; k < 6_000 && page.downloaded === before; k++) await new Promise((done) => setTimeout(done, 20));
  return existsSync(path) ? readFileSync(path) : Buffer.from("no file");
}

async function tryFirst(page) {
  tally.check("what is saved", (await page.text("#saved")).startsWith("instead of 4: saves 907 ms at 1200 bit/s"), await page.text("#saved"));
  tally.check("the counts", (await page.text("#status")).startsWith("6 pages, 24 codewords; planned in"), await page.text("#status"));
  for (const name of ["round.csv", "round.bin", "round.cert", "round.wav"])
    tally.check(`${name} is the program's`, (await taken(page, name)).equals(readFileSync(join(folder, name))));
  tally.is("the grid", await page.value(`[...document.querySelectorAll('[data-which="fewest"] .key')].map((it) => it.textContent).sort().join("")`), "ABCDEF");
  tally.is("letters in the order of the table", await page.value(`[...document.querySelectorAll("#rows .label")].map((it) => it.textContent).join("")`), "ABCDEF");
  tally.check("saved rows", (await page.text('[data-which="fewest"] .grid')).includes("saved"));
  tally.is("words of the addresses", await page.value(`[...document.querySelectorAll("#rows .place")].map((it) => it.textContent)`),
    ["0 00000000", "3 00000000", "3 00003B49", "5 082919D5", "0 000026EC", "0 3E46533F"]);
  await page.pointAt('[data-which="order"] .idle');
  tally.check("pointing names an idle", (await page.text("#caption")).endsWith("an idle codeword"), await page.text("#caption"));
  await page.pointAt('[data-which="fewest"] .key');
  tally.check("pointing names a page", /^[A-F]: address \d+, \w+.* codewords? from batch 1, frame \d, slot \d+$/.test(await page.text("#caption")), await page.text("#caption"));
  tally.is("and marks it in both pictures and the table", await page.value(`[".sent:has(.on)", "#rows .on"].map((it) => document.querySelectorAll(it).length)`), [2, 1]);
  tally.check("why there are no fewer", (await page.text("#nodes")).includes("all slots: 24 codewords, room for 16"), await page.text("#nodes"));
  tally.check("in words", (await page.text("#node")).includes("24 codewords must stand in all slots, with room for 16: 8 too many"), await page.text("#node"));
  const backs = (selector) => page.value(`[...new Set([...document.querySelectorAll("${selector}")].map((it) => getComputedStyle(it).backgroundColor))]`);
  const [bar, drawn] = await Promise.all([".load > span", ".page"].map(backs));
  tally.check("the bar has two tints that no page has", bar.length === 2 && !bar.some((it) => drawn.includes(it)), [bar, drawn]);
}

async function tryEditing(page) {
  await page.click("#add");
  await page.key("a", 2);
  await page.type("16");
  tally.check("a page is added", await says(page, "#status", "7 pages, 25 codewords"), await page.text("#status"));
  await page.choose('#rows [data-row="6"] select', "alpha");
  tally.check("an empty message is named", await says(page, "#status", "record 7: the message is empty"), await page.text("#status"));
  tally.check("and its row is marked", await page.value(`document.querySelector('#rows [data-row="6"]').classList.contains("wrong")`));
  await page.fill('#rows [data-row="6"] .message', 'say "yes", now');
  tally.check("and then planned", await says(page, "#status", "7 pages"), await page.text("#status"));
  tally.check("with its quotes", (await taken(page, "round.csv")).includes('16,alpha,"say ""yes"", now"'), "");
  await page.fill('#rows [data-row="0"] .address', "2007664");
  tally.check("a reserved address is named", await says(page, "#status", "record 1: reserved address"), await page.text("#status"));
  tally.is("and there is no plan", [await page.text("#plan-title"), await page.value(`document.querySelectorAll("#files button").length`)], ["No plan", 1]);
  const inView = () => page.value(`[".sent", "#caption", "#why-title", "#plan .note"].filter((it) => document.querySelector(it).checkVisibility()).length`);
  tally.is("nor a picture of one", await inView(), 0);
  await page.click('#rows [data-row="0"] .remove');
  tally.check("a page is removed", await says(page, "#status", "6 pages"), await page.text("#status"));
  tally.is("and the plan is shown again", await inView(), 4);
  await round(page, HEADER + [...Array(99).keys()].map((k) => `${k},tone${k === 90 ? 9 : 0},\n`).join(""));
  tally.check("a bad record is named", await says(page, "#status", "record 91: unknown kind"), await page.text("#status"));
  await page.click("#as-table");
  tally.check("and marked in the table", await page.value(`document.querySelector('#rows [data-row="90"]').classList.contains("wrong")`));
  tally.check("with why, in view", await isInTable(page, `document.querySelector("#rows .wrong .why")`));
  const every = [...Array(127).keys()].map((k) => String.fromCharCode(k + 1)).join("").replace('"', '""');
  writeFileSync(join(folder, "every.csv"), HEADER + `8,alpha,"${every}"\n`);
  await drop(page, "every.csv");
  tally.check("a message of every character", await says(page, "#status", "1 page, 46 codewords"), await page.text("#status"));
  tally.is("is taken along as it came", (await taken(page, "round.csv")).toString(), HEADER + `8,alpha,"${every}"\n`);
  await page.fill('#rows [data-row="0"] .address', "24");
  tally.check("and another address leaves it as it is", await page.comes(`document.querySelector("#rows .place").textContent.length > 3`));
  tally.is("also when it is taken along", (await taken(page, "round.csv")).toString(), HEADER + `24,alpha,"${every}"\n`);
}

/* A quote that is not closed swallows pages, so it is a fault until the user wants it read nevertheless. */
async function tryQuotes(page) {
  const open = HEADER + '3,numeric,20451\n11,alpha,"Pump 4\n24,alpha,Call\n8,tone0,\n';
  const shown = () => page.value(`[!document.querySelector("#anyway").hidden, ...[...document.querySelectorAll("#rows .why")].filter((it) => it.checkVisibility()).map((it) => it.textContent)]`);
  await round(page, open);
  tally.check("an open quote is a fault", await says(page, "#status", "record 2: the quote in line 3 is not closed") && (await page.text("#plan-title")) === "No plan", await page.text("#status"));
  tally.is("with a way to read it", await shown(), [true]);
  await page.click("#as-table");
  tally.is("which stands at the row", await shown(), [false, "the quote in line 3 is not closed: mend it in the CSV, or Read it all the same"]);
  tally.is("with the lines that it swallowed", await page.value(`document.querySelector('#rows [data-row="1"] .message').value`), "Pump 4\u21b524,alpha,Call\u21b58,tone0,\u21b5");
  await page.fill('#rows [data-row="0"] .address', "16");
  await page.click('#rows [data-row="0"] .remove');
  await page.click("#add");
  tally.is("the table changes nothing before", [(await taken(page, "round.csv")).toString(), await page.value(`document.querySelectorAll("#rows [data-row]").length`)], [open, 2]);
  await page.value(`document.querySelector("#as-csv").focus()`);
  for (const key of ["Tab", "PageDown", "End", "Enter"]) await page.key(key);
  tally.check("then it is read", await says(page, "#status", "2 pages") && (await taken(page, "round.csv")).toString() === open, await page.text("#status"));
  tally.is("with its row as any other", await shown(), [false]);
  tally.is("and the focus in it", await page.value(`document.activeElement.querySelector(".remove")?.ariaLabel`), "remove page 2");
  await round(page, open + "16,tone0,\n");
  tally.check("another text is asked again", await says(page, "#status", "record 2: the quote in line 3 is not closed"), await page.text("#status"));
  await page.click("#anyway");
  tally.check("and read from there", await says(page, "#status", "2 pages"), await page.text("#status"));
  await page.fill("#csv", HEADER + '8,alpha,Call "ward\n16,tone0,\n');
  tally.check("a quote within a field", await says(page, "#status", "record 1: the quote in line 2 stands inside a field that begins without one"), await page.text("#status"));
  await page.fill("#csv", HEADER + '16,tone0,\n8,alpha,"Call"ward\n');
  tally.check("text behind a quote", await says(page, "#status", "record 2: text follows the closing quote in line 3"), await page.text("#status"));
  await page.fill("#csv", 'address,kind,mess"age\n8,tone0,\n');
  tally.check("a quote in the header", await says(page, "#status", "record 0: the quote in line 1 stands inside a field"), await page.text("#status"));
  await page.click("#as-table");
  tally.is("has no row", await shown(), [true]);
  await page.click("#anyway");
  tally.check("and then the header is wrong", await says(page, "#status", "the header must be address,kind,message"), await page.text("#status"));
}

/* Only what begins as a page file becomes the round, and the last round comes back. */
async function tryWrongFiles(page) {
  const keep = async () => [await page.text("#plan-title"), (await taken(page, "round.csv")).toString()];
  await page.choose("#example", "a hospital's round");
  await title(page, "2 batches");
  const wrong = {
    "junk.bin": Buffer.from([...Array(999).keys()].map((k) => (k * k * 7 + 3) & 255)), "empty.csv": "", "semicolons.csv": "address;kind;message\n8;tone0;\n",
    "other.csv": "name,kind,message\n8,tone0,\n", "wide.csv": Buffer.from(`\ufeff${sample}`, "utf16le"), "longer.csv": "address,kind,messages\n8,tone0,\n",
  };
  for (const [name, data] of Object.entries(wrong)) writeFileSync(join(folder, name), data);
  mkdirSync(join(folder, "folder"), { recursive: true });
  for (const name of [...Object.keys(wrong), "round.wav", "folder"]) {
    await drop(page, name);
    tally.check(`${name} is refused`, await says(page, "#verdict", `${name}: not taken, since it ${name === "empty.csv" ? "is empty" : "begins"}`), await page.text("#verdict"));
    tally.is("and the round stays", await keep(), ["2 batches", sample]);
  }
  const accepted = { "marked.csv": `\ufeff${HEADER}8,tone0,\n`, "quoted.csv": '\r\n"address",kind,"message"\r\n8,tone0,\r\n' };
  for (const [name, data] of Object.entries(accepted)) {
    writeFileSync(join(folder, name), data);
    await drop(page, name);
    tally.check(`${name} is a page file`, await says(page, "#verdict", `${name}: the round`) && await says(page, "#status", "1 page,"), await page.text("#verdict"));
    tally.is("as it came", (await taken(page, "round.csv")).toString(), data);
    await page.key("z", 2);
    tally.check("and the last round comes back by a key", await title(page, "2 batches"));
  }
  await page.key("Z", 2 + 8);
  tally.check("and goes by another", await title(page, "1 batch"));
  await page.click("#back");
  tally.check("and comes back by a button", await title(page, "2 batches"));
  await page.click('#rows [data-row="1"] .remove');
  await says(page, "#status", "5 pages");
  await page.key("z", 2);
  tally.check("a page that was removed comes back", await says(page, "#status", "6 pages"), await page.text("#status"));
  await page.fill('#rows [data-row="1"] .message', "7");
  await page.key("z", 2);
  tally.check("a field keeps this key for its own words", await page.comes(`document.querySelector("#status").textContent.includes("6 pages")`) && (await page.text("#verdict")).includes("quoted.csv"));
  await page.fill("#pager", "8");
  await drop(page, "quoted.csv");
  await title(page, "1 batch");
  await page.key("z", 2);
  await new Promise((done) => setTimeout(done, 300));
  tally.check("and so does a field that is none of the round's", (await page.text("#status")).startsWith("1 page,"), await page.text("#status"));
  await page.fill("#pager", " ");
  await page.click('[name="end"][value="closed"]');
  await page.key("z", 2);
  tally.check("but a choice does not", await says(page, "#status", "6 pages"), await page.text("#status"));
  await drop(page, "quoted.csv");
  await title(page, "1 batch");
  await page.send("Page.reload");
  tally.check("a reload keeps the round", await title(page, "1 batch") && await page.comes(`document.querySelector("#status").textContent.startsWith("1 page,")`), await page.text("#status"));
  tally.check("its options", await page.value(`document.querySelector('[name="end"][value="closed"]').checked`));
  await page.key("z", 2);
  tally.check("and the last round", await says(page, "#status", "6 pages"), await page.text("#status"));
  await page.click('[name="end"][value="open"]');
}

/* Files that are dropped together have a verdict each, in their order. */
async function tryMany(page) {
  await round(page, HEADER + "8,tone0,\n");
  await title(page, "1 batch");
  await drop(page, "round.cert", "junk.bin", "round.bin", "round.csv", "quoted.csv");
  tally.check("the page file among many is the round", await title(page, "2 batches"), await page.text("#plan-title"));
  await says(page, "#verdict", "round.bin: 6 pages, those of the round");
  const lines = await page.value(`[...document.querySelectorAll("#verdict > div")].map((it) => it.firstChild.textContent + it.childNodes[1].textContent)`);
  tally.is("each has a verdict", lines.map((it) => it.slice(0, 38)), ["round.cert: at least 2 batches", "junk.bin: not taken, since it begins n", "round.bin: 6 pages, those of the round",
    "round.csv: the round", "quoted.csv: not taken, since another p"]);
  const [height, room] = await page.value(`((it) => [it.scrollHeight, it.clientHeight])(document.querySelector("#verdict"))`);
  tally.check("all in view", height <= room, [height, room]);
}

async function tryFront(page) {
  await round(page, HEADER + [8, 16, 24, 32, 40].map((it) => `${it},tone0,\n`).join(""));
  tally.check("five tones of a frame", await title(page, "3 batches"));
  await page.click('[name="send"][value="batches"]');
  await page.fill('[name="batches"]', "2");
  tally.check("what fits in two batches", await title(page, "2 batches"));
  tally.check("and what is left", await says(page, "#status", "4 pages, 4 codewords; planned in") && (await page.text("#status")).includes("1 page left"), await page.text("#status"));
  tally.check("why not one page more", await says(page, "#why-title", "Why not one page more?") && (await page.text("#nodes")).includes("5 pages start there"), await page.text("#nodes"));
  tally.is("the pages that are left", (await taken(page, "rest.csv")).toString(), HEADER + "40,tone0,\n");
  tally.check("and why", (await taken(page, "why.cert")).subarray(0, 4).toString() === "PCB2");
  await page.click('[name="send"][value="ms"]');
  await page.fill('[name="ms"]', "934");
  tally.check("what fits in 934 ms", await title(page, "1 batch"), await page.text("#plan-title"));
  await page.fill('[name="ms"]', "933");
  tally.check("and in 933 ms", await says(page, "#status", "page 1 needs 1 batches"), await page.text("#status"));
  for (const [name, text, wanted] of [["ms", "", "the milliseconds: the field is empty"], ["batches", "", "the batches: the field is empty"],
    ["batches", "-1", "the batches: -1 is no whole number from 0 to 4,294,967,295"], ["ms", "-934", "-934 is no"], ["ms", "0.5", "0.5 is no"], ["ms", "4294967296", "4,294,967,296 is no"], ["ms", "e", "this is no"]]) {
    await page.fill(`[name="${name}"]`, text);
    if (!text) await page.key("Backspace");
    tally.check(`'${text}' ${name}`, await says(page, "#status", wanted), await page.text("#status"));
  }
  await page.fill('[name="batches"]', "2");
  tally.check("a number chooses its line", await title(page, "2 batches"), await page.text("#status"));
  await page.click('[name="send"][value="all"]');
  tally.check("all again", await title(page, "3 batches"));
}

async function tryEnds(page) {
  await page.choose("#example", "loops apart");
  tally.check("the loops apart", await title(page, "3 batches"));
  tally.check("are explained", await says(page, "#nodes", "a page of address 3 (16 codewords) starts or ends outside boundary 0"), await page.text("#nodes"));
  await page.click("#node-1");
  tally.check("node by node", await says(page, "#node", "2 codewords must stand in slot 0, with room for 1: 1 too many"), await page.text("#node"));
  tally.is("with its slots", await page.value(`document.querySelectorAll("#node .named").length`), 1);
  await page.click('[name="end"][value="idle"]');
  tally.check("with an idle last", await says(page, "#status", "2 pages") && await title(page, "3 batches"));
  await page.choose('[name="limit"]', "1");
  tally.check("a search that stops", await says(page, "#saved", "at least 2 are needed"), await page.text("#saved"));
  await page.click('[name="always"]');
  tally.check("refuses where it may", await says(page, "#status", "search limit reached: at least 2 batches, 3 would do"), await page.text("#status"));
  await page.click('[name="always"]');
  await page.choose('[name="limit"]', "100000");
  await page.click('[name="end"][value="open"]');
  tally.check("and plans again", await says(page, "#saved", "no fewer suffice"));
}

async function tryFiles(page) {
  await page.choose("#example", "a hospital's round");
  await title(page, "2 batches");
  await drop(page, "round.cert");
  tally.check("a certificate is judged", await says(page, "#verdict", "round.cert: at least 2 batches"), await page.text("#verdict"));
  await drop(page, "round.bin");
  tally.check("a transmission is read", await says(page, "#verdict", "round.bin: 6 pages, those of the round"), await page.text("#verdict"));
  writeFileSync(join(folder, "cut.bin"), readFileSync(join(folder, "round.bin")).subarray(0, 150));
  await drop(page, "cut.bin");
  tally.check("one that is cut short is refused", await says(page, "#verdict", "cut.bin: the transmission is cut short"), await page.text("#verdict"));
  writeFileSync(join(folder, "cut.cert"), readFileSync(join(folder, "round.cert")).subarray(0, 9));
  await drop(page, "cut.cert");
  tally.check("and so is a certificate", await says(page, "#verdict", "cut.cert: the certificate is cut short"), await page.text("#verdict"));
  await round(page, HEADER + "8,tone0,\n");
  await title(page, "1 batch");
  await drop(page, "round.cert");
  tally.check("another round's certificate", await says(page, "#verdict", "round.cert: not shown"), await page.text("#verdict"));
  await drop(page, "round.bin");
  tally.check("another round's transmission", await says(page, "#verdict", "round.bin: 6 pages, not those of the round"), await page.text("#verdict"));
  await drop(page, "round.csv");
  tally.check("a page file becomes the round", await title(page, "2 batches"));
  await page.fill("#pager", "11");
  tally.check("what a pager shows", await says(page, "#shown", "alpha: Pump 4, hall B: pressure low"), await page.text("#shown"));
  await page.fill("#pager", "12");
  tally.check("what another shows", await says(page, "#shown", "nothing"), await page.text("#shown"));
  await page.fill("#pager", "2007664");
  tally.check("what none can show", await says(page, "#shown", "reserved address"), await page.text("#shown"));
  for (const [text, wanted] of [["-5", "the address: -5 is no whole number"], ["2097152", "bad address"]]) {
    await page.fill("#pager", text);
    tally.check(`a pager ${text}`, await says(page, "#shown", wanted), await page.text("#shown"));
  }
}

// A round that reaches the greatest limit, which takes many seconds.
const HARD = HEADER + [[6, 31], [1, 24], [5, 22], [7, 27], [2, 31], [3, 9], [3, 31], [0, 22], [4, 21], [4, 15]]
  .map(([frame, length], k) => `${8 * k + frame},numeric,${"1".repeat(5 * (length - 1))}\n`).join("");

async function tryLong(page) {
  await page.choose('[name="limit"]', "1000000");
  await page.click('[name="always"]');
  await round(page, HARD);
  tally.check("a long search is told", await says(page, "#status", "searching: an edit ends it", "true"), await page.text("#status"));
  const begun = Date.now();
  await page.fill("#csv", HEADER + "8,tone0,\n");
  tally.check("an edit ends it", await title(page, "1 batch") && Date.now() - begun < 10_000, Date.now() - begun);
  await round(page, HARD);
  await new Promise((done) => setTimeout(done, 150));
  await page.fill("#csv", HEADER + "8,tone0,\n16,tone0,\n");
  await new Promise((done) => setTimeout(done, 600));
  tally.check("and nothing of it is told later", await says(page, "#status", "2 pages,"), await page.text("#status"));
  await page.click('[name="always"]');
  await page.choose('[name="limit"]', "100000");
  await page.choose("#example", "twenty thousand pages");
  tally.check("twenty thousand pages", await says(page, "#status", "20,000 pages"), await page.text("#status"));
  // 15,455 batches have 8,408,096 bits with the preamble: 16,422.06 s, 7,006.75 s and 3,503.37 s.
  tally.check("take hours", (await page.text('[data-which="order"] .counts')).includes("4 h 34 min \u00b7 1 h 57 min \u00b7 58 min 23 s at\u00a0512"), await page.text('[data-which="order"] .counts'));
  tally.check("with one separator", (await page.text("#saved")).startsWith("instead of 15,455: saves 1 h 1 min at 1200 bit/s"), await page.text("#saved"));
  tally.check("also in words of the library", await says(page, "#nodes", "all slots: 118,600 codewords, room for 118,592") && (await page.text("#sum")).includes("in 7,412 batches"), await page.text("#sum"));
  tally.is("and no sound, which is said", await page.value(`[...document.querySelectorAll(".counts, #files")].map((it) => it.textContent.endsWith("no sound: it would be longer than 34 min 43 s"))`), [true, true, true]);
  const count = await page.value(`document.querySelectorAll(".grid *").length`);
  tally.check("only rows in view are in the document", count < 2_000, count);
  await page.click('[data-which="fewest"] .grid');
  await page.value(`document.querySelector('[data-which="fewest"] .grid').scrollTop = 100_000`);
  await page.click("#as-table");
  await tryWidths(page, 300_000);
  tally.check("rows that come into view", await page.comes(`[...document.querySelectorAll('[data-which="fewest"] .batch :first-child')].some((it) => it.textContent === "5001")`));
  await page.value(`document.querySelector("#rows").scrollTop = 32 * 10_000`);
  tally.check("pages that come into view", await page.comes(`Boolean(document.querySelector('#rows [data-row="10000"]'))`));
}

/* At each width every label and every number is whole, and there is room to type a message. */
async function tryWidths(page, scrolled = 0) {
  const clipped = `[...document.querySelectorAll(".batch > *, .slots > *, .load > *, .load, #rows .label, #rows [role=gridcell]:has(.place)")].filter((it) => it.scrollWidth > it.clientWidth + 1 && it.textContent)`;
  const overlaps = `(() => { const boxes = [...document.querySelectorAll(".slots .long")].map((it) => it.getBoundingClientRect()); return boxes.filter((it, k) => k && it.left < boxes[k - 1].right - 0.5).length; })()`;
  for (const width of [1280, 1152, 1024, 910, 800, 601, 400]) {
    await page.size(width, 1000);
    await page.value(`document.querySelector("#rows").scrollTop = ${scrolled}`);
    await new Promise((done) => setTimeout(done, 100));
    tally.is(`no label is cut off at ${width} pixels`, await page.value(`${clipped}.map((it) => it.textContent)`), []);
    tally.is("and none is on another", await page.value(overlaps), 0);
    tally.check("and a message has room", await page.value(`Math.min(...[...document.querySelectorAll("#rows .message")].map((it) => it.clientWidth)) >= 150`));
  }
  await page.size(320, 1000);
  tally.check("320 pixels are enough", await page.value(`document.documentElement.scrollWidth <= innerWidth`));
  await page.size(1280, 1000);
}

async function tryLink(page) {
  const before = await browser.busy();
  await round(page, HEADER + "5,tone0,\n13,tone0,\n21,alpha,\u00fc\n");
  tally.check("twenty thousand lines are typed over at once", (await browser.busy()) - before < 20, (await browser.busy()) - before);
  await says(page, "#status", "record 3: bad character at 0");
  await page.fill("#csv", HEADER + "5,tone0,\n13,tone0,\n21,tone0,\n");
  await page.click('[name="end"][value="closed"]');
  await title(page, "2 batches");
  await page.browser.send("Browser.setPermission", { permission: { name: "clipboard-write" }, setting: "denied" });
  await page.click("#link");
  tally.check("a link", await page.comes(`location.hash.length > 20`));
  tally.check("is not copied where that is not allowed", await says(page, "#linked", "not copied: take it from the address bar"), await page.text("#linked"));
  for (const name of ["clipboard-read", "clipboard-write"]) await page.browser.send("Browser.setPermission", { permission: { name }, setting: "granted" });
  await page.send("Page.bringToFront");
  await page.click("#link");
  tally.check("and is where it is", await page.comes(`document.querySelector("#linked").textContent === "copied"`) && (await page.value("navigator.clipboard.readText()")) === (await page.value("location.href")), await page.text("#linked"));
  tally.check("beside the button", await page.value(`(([a, b]) => b.left > a.right && b.left < a.right + 20 && b.top < a.bottom && b.bottom > a.top)(["#link", "#linked"].map((it) => document.querySelector(it).getBoundingClientRect()))`));
  const other = await opened(1280, 1000, await page.value("location.href"));
  tally.check("carries the round and its options", await says(other, "#status", "3 pages, 3 codewords") && await other.value(`document.querySelector('[name="end"][value="closed"]').checked`), await other.text("#status"));
  await tryDamagedLinks(page, await page.value("location.hash"));
}

/* Whatever character of a link is changed or lost, it gives no round, and no example stands in its place. */
async function tryDamagedLinks(page, hash) {
  const damaged = [hash.slice(0, -4), `#${hash.slice(5)}`, "#x", "#eJwDAAAAAAE", "#%C3%BC"];
  for (let at = 1; at < hash.length - 1; at += 7) damaged.push(`${hash.slice(0, at)}${hash[at] === "A" ? "B" : "A"}${hash.slice(at + 1)}`);
  const other = await browser.open(url + damaged[0], 1280, 1000);
  pages.push(other);
  tally.check("a damaged link says so", await says(other, "#linked", "the link is damaged: it has no round"), await other.text("#linked"));
  tally.check("and shows no example", await says(other, "#status", "there are no pages") && (await other.value(`document.querySelectorAll("#rows [data-row]").length + document.querySelector("#example").value`)) === "0", await other.text("#status"));
  await round(other, HEADER + "8,tone0,\n");
  await title(other, "1 batch");
  for (const it of damaged.slice(1)) {
    await other.value(`document.querySelector("#linked").textContent = "", location.hash = ${JSON.stringify(it)}, 0`);
    tally.check(`${it} is damaged`, await says(other, "#linked", "the link is damaged"), it);
  }
  tally.check("and the round stays", (await other.text("#status")).startsWith("1 page,"), await other.text("#status"));
  // A link of version 1.1.0, which has no sum.
  await other.value(`location.hash = "${await other.value(LINK_WITHOUT_SUM)}", 0`);
  tally.check("a link without a sum is taken", await says(other, "#status", "2 pages"), await other.text("#status"));
}
const LINK_WITHOUT_SUM = `(async () => {
  const words = JSON.stringify({ text: "address,kind,message\\n8,tone0,\\n16,tone0,\\n", settings: { end: "open", send: "all", batches: "1", ms: "1000", rate: "1200", limit: "100000", always: true } });
  const packed = await new Response(new Blob([words]).stream().pipeThrough(new CompressionStream("deflate-raw"))).arrayBuffer();
  return btoa(String.fromCharCode(...new Uint8Array(packed))).replaceAll("+", "-").replaceAll("/", "_").replaceAll("=", "");
})()`;

/* The program's own command line, over the files of the page. */
async function tryCommand(page) {
  const ended = `document.querySelector("#command pre").ariaBusy !== "true"`;
  const command = async (line, input, told, once = ended) => {
    await page.fill('#command [name="line"]', line);
    await page.fill('#command [name="input"]', input);
    await page.value(`document.querySelector("#command form").requestSubmit()`);
    tally.check(`the command line: ${line}`, await says(page, "#command pre", told, once), await page.text("#command pre"));
  };
  await page.click('[name="end"][value="open"]');
  await round(page, sample);
  await title(page, "2 batches");
  await page.click("#command summary");
  await command("check round.csv round.cert", "", "at least 2 batches\n");
  await command("pocsag plan none.csv 'a b.bin' \"a.cert\" --verbose", "", "page file none.csv: No such file or directory (os error 2)\nstatus 3\n");
  await command("open --journal edits round.csv", "add,16,tone0,\nplan,new.bin,new.cert\n", "ok 7\nbatches 3\n");
  await command("decode < new.bin -", "", "16,tone0,\n");
  await command("wav round.bin > new.wav", "", "$ pocsag wav round.bin > new.wav\n");
  await command("wav round.bin", "", " bytes, which > and a name keep\n");
  const names = `[...document.querySelectorAll("#command .held button")].map((it) => it.textContent).join(" ")`;
  tally.check("its files", await page.comes(`${names} === "round.csv round.bin round.cert edits new.bin new.cert new.wav"`), await page.value(names));
  tally.check("the sound is the program's", (await taken(page, "new.wav", "#command")).equals(readFileSync(join(folder, "round.wav"))));
  await round(page, HARD);
  await command("plan round.csv a.bin a.cert --limit 1000000", "", "$ pocsag plan round.csv a.bin a.cert --limit 1000000\n", "true");
  await command("--version", "", "one run at a time: Escape ends it\n", "true");
  await page.key("Escape");
  tally.check("a long run is ended", await says(page, "#command pre", "ended; the files are as they were\n", ended), await page.text("#command pre"));
  await command("report round.csv --rate 512 --limit 1 --always", "", "codewords 233\n");
  await round(page, sample);
  await title(page, "2 batches");
  await page.click("#as-table");
  await tryNames(page);
}

async function trySound(page) {
  await page.send("Page.bringToFront");
  await page.choose("#example", "a hospital's round");
  await page.click('[name="end"][value="open"]');
  await title(page, "2 batches");
  // A short sound may begin and end between two looks at a busy page, so the page itself writes down what it shows.
  const [button, mark] = [".play", ".playing"].map((it) => `document.querySelector('[data-which="fewest"] ${it}')`);
  await page.value(`window.shown = {}, new MutationObserver(() => {
    if (${button}.textContent.includes("Stop")) shown.stop = true;
    if (${mark}) shown.mark = true;
  }).observe(document.body, { subtree: true, childList: true, characterData: true, attributes: true })`);
  await page.click('[data-which="fewest"] .play');
  tally.check("the sound plays", await page.comes("shown.stop"));
  tally.check("and marks what sounds", await page.comes("shown.mark"));
  tally.check("until it ends", await page.comes(`document.querySelector('[data-which="fewest"] .play').textContent.includes("Play")`));
}

/* What is read aloud: each control has a name of its own. */
async function tryNames(page) {
  const { nodes } = await page.send("Accessibility.getFullAXTree"), told = nodes.filter(({ ignored }) => !ignored).map(({ role, name }) => [role?.value, name?.value]);
  const controls = told.filter(([role]) => ["button", "radio", "checkbox", "textbox", "combobox", "spinbutton", "listbox", "grid"].includes(role)).map(([, name]) => name);
  tally.check("there are controls", controls.length > 60, controls.length);
  tally.is("none without a name", controls.filter((name) => !name), []);
  tally.is("no two of one name", controls.filter((name, k) => controls.indexOf(name) !== k), []);
  tally.is("tables, pictures and their parts", ["grid", "row", "gridcell", "columnheader", "rowheader"].filter((role) => !told.some(([it]) => it === role)), []);
}

/* The table is one stop, in which the arrows move. */
async function tryTable(page) {
  const cell = async () => page.value(`((it) => [Number(it.closest("[data-row]")?.dataset.row), [...it.closest("[data-row]")?.children ?? []].indexOf(it.closest("[role=gridcell]")), it.tagName])(document.activeElement)`);
  const keys = async (...names) => {
    for (const name of names) await page.key(...[name].flat());
    return cell();
  };
  await page.choose("#example", "a thousand pages");
  await says(page, "#status", "1,000 pages");
  await tryWidths(page);
  await tryNames(page);
  await page.value(`document.querySelector("#as-csv").focus()`);
  await keys("Tab");
  tally.is("the table is reached", await keys(["Home", 2], "ArrowRight"), [0, 1, "SPAN"]);
  await page.key("Tab");
  tally.is("and left by one key", await page.value(`document.activeElement.id`), "order-play");
  await page.key("Tab", 8);
  tally.is("and reached from behind", await cell(), [0, 1, "SPAN"]);
  tally.is("down and right", await keys("ArrowDown", "ArrowDown", "ArrowRight"), [2, 2, "SPAN"]);
  tally.is("up and left", await keys("ArrowUp", "ArrowLeft", "ArrowLeft"), [1, 0, "SPAN"]);
  tally.is("and no further", await keys("ArrowLeft", "ArrowUp", "ArrowUp"), [0, 0, "SPAN"]);
  tally.is("to the end of a row", await keys("End"), [0, 5, "SPAN"]);
  tally.is("to its head", await keys("Home"), [0, 0, "SPAN"]);
  tally.is("to the last page", await keys(["End", 2]), [999, 5, "SPAN"]);
  tally.is("pages up", await keys("PageUp", "PageUp"), [979, 5, "SPAN"]);
  tally.check("which is in view", await isInTable(page, "document.activeElement"));
  await page.key("Tab");
  await page.value(`document.querySelector("#rows").scrollTop = 0`);
  await new Promise((done) => setTimeout(done, 100));
  await page.key("Tab", 8);
  tally.is("and comes back there when it was scrolled away", await cell(), [979, 5, "SPAN"]);
  tally.is("to the first page", await keys(["Home", 2]), [0, 0, "SPAN"]);
  tally.is("into a field", await keys("ArrowRight", "Enter"), [0, 1, "INPUT"]);
  tally.is("where arrows stay", await keys("ArrowLeft", "ArrowDown"), [0, 1, "INPUT"]);
  tally.is("and out of it", await keys("Escape"), [0, 1, "SPAN"]);
  await page.key("9");
  tally.is("a digit is typed into the field", [await cell(), await page.value("document.activeElement.value")], [[0, 1, "INPUT"], "9"]);
  tally.is("and Tab leaves the table", [await keys("Enter"), (await page.key("Tab"), await page.value("document.activeElement.id"))], [[0, 1, "SPAN"], "order-play"]);
  await page.key("Tab", 8);
  tally.is("to the kind", await keys("ArrowRight", "ArrowRight", "Enter"), [0, 3, "SELECT"]);
  await keys("ArrowUp", "Escape");
  tally.is("which is chosen", [await cell(), await page.value(`document.querySelector('#rows [data-row="0"] select').value`)], [[0, 3, "SPAN"], "numeric"]);
  await keys("ArrowDown", "ArrowRight", "ArrowRight", "Enter");
  tally.check("a page is removed", await page.comes(`document.querySelector("#table").getAttribute("aria-rowcount") === "1000"`));
  tally.is("and the next one has its place", await cell(), [1, 5, "SPAN"]);
  await page.key("z", 2);
  tally.check("and comes back", await page.comes(`document.querySelector("#table").getAttribute("aria-rowcount") === "1001"`));
  await keys(["End", 2], "Enter");
  await page.comes(`document.querySelector("#table").getAttribute("aria-rowcount") === "1000"`);
  tally.is("where the last page is removed, the focus goes up", await cell(), [998, 5, "SPAN"]);
}

/* From the head of the page by keys alone: a page is typed, the round is planned, the picture and the nodes are gone through. */
async function tryKeys(page) {
  const focus = () => page.value(`document.activeElement.outerHTML.slice(0, 100)`);
  const reachedWhere = async (holds, most = 60) => {
    for (let k = 0; k < most; k++) {
      await page.key("Tab");
      if (await page.value(holds)) return true;
    }
    return false;
  };
  const reached = (wanted, most) => reachedWhere(`${JSON.stringify(wanted)} === (document.activeElement.id || document.activeElement.name)`, most);
  await page.value(`(document.activeElement.blur(), window.scrollTo(0, 0))`);
  await page.key("Tab");
  tally.check("the example is reached", await page.value(`document.activeElement.id === "example"`) || await reached("example"), await focus());
  tally.check("then the file", await reached("file", 2));
  tally.check("a page is added", await reached("add", 5));
  await page.key("Enter");
  tally.check("and has the focus", await page.comes(`document.activeElement.getAttribute("aria-label") === "address of page 7"`), await focus());
  await page.key("a", 2);
  await page.type("24");
  tally.check("and is planned", await page.comes(`document.querySelector('#rows [data-row="6"] .place').textContent === "0 000065E7"`), await page.text('#rows [data-row="6"] .place'));
  tally.check("a picture is reached", await reachedWhere(`document.activeElement.classList.contains("grid")`), await focus());
  await page.key("ArrowRight");
  tally.check("and begun", (await page.text("#caption")).startsWith("A: address 0, numeric: 5550199"), await page.text("#caption"));
  for (const key of ["ArrowRight", "ArrowRight", "ArrowRight", "ArrowDown", "ArrowUp"]) await page.key(key);
  tally.is("and gone through", await page.text("#caption"), "batch 1, frame 1, slot 3: an idle codeword");
  tally.check("with a mark", (await page.value(`document.querySelectorAll(".at").length`)) === 1);
  tally.is("that is read aloud", await page.value(`((it) => [it.role ?? it.getAttribute("role"), document.getElementById(it.getAttribute("aria-activedescendant")).getAttribute("aria-label")])(document.activeElement)`), ["grid", "batch 1, frame 1, slot 3: an idle codeword"]);
  for (const [key, modifiers, place] of [["End", 0, "batch 1, frame 7, slot 15"], ["Home", 0, "A: address 0"], ["ArrowDown", 0, "batch 2, frame 0, slot 0"]]) {
    await page.key(key, modifiers);
    tally.check(`${key} goes on`, (await page.text("#caption")).startsWith(place), await page.text("#caption"));
  }
  tally.check("the nodes are reached", await reached("nodes"), await focus());
  tally.check("with a visible focus", (await page.value(`getComputedStyle(document.activeElement).outlineStyle`)) === "solid");
  tally.check("the end is reached", await reached("end"), await focus());
  await page.value(`document.querySelector("#files").firstElementChild.dataset.old = "yes"`);
  await page.key("ArrowRight");
  tally.check("and chosen", await page.value(`document.querySelector('[name="end"][value="closed"]').checked`));
  tally.check("and planned with", await page.comes(`!document.querySelector("#files [data-old]")`));
}

async function tryLooks(page) {
  const back = () => page.value(`getComputedStyle(document.body).backgroundColor`);
  await page.send("Emulation.setEmulatedMedia", { features: [{ name: "prefers-color-scheme", value: "dark" }] });
  tally.check("dark where the system is", await page.comes(`getComputedStyle(document.body).backgroundColor === "rgb(22, 24, 28)"`), await back());
  await page.click("#theme");
  tally.is("light where it is chosen", await back(), "rgb(255, 255, 255)");
  await page.send("Emulation.setEmulatedMedia", { features: [{ name: "prefers-color-scheme", value: "light" }] });
  const tops = (at) => at.value(`["#round", "#plan", "#options", "#files"].map((it) => document.querySelector(it).getBoundingClientRect()).map(({ left, top }) => [left, top])`);
  const [[, roundTop], [planLeft, planTop], [optionsLeft, optionsTop]] = await tops(page);
  tally.check("round and plan side by side, options below the round", planTop === roundTop && optionsTop > planTop && planLeft > optionsLeft);
  await tryForced(page);
  const narrow = await opened(400, 900), order = (await tops(narrow)).map(([, top]) => top);
  for (const at of [page, narrow]) {
    const words = await at.value(`[...document.querySelectorAll(".note, .lines label")].filter((it) => it.checkVisibility()).map((it) => it.textContent.trim())`);
    for (const it of ["Frame: where the page may start, its address modulo 8. Word: its address codeword", "open: the last message may end", "closed: an idle or address codeword follows",
      "idle: the last codeword is idle", "If the search stops there, the plan may have one batch more", "Slot: the place of a codeword in its batch, 0 to 15"]) tally.check(`'${it}' is explained`, words.some((told) => told.startsWith(it)), words);
  }
  tally.is("the result comes before options and files there", [...order].sort((a, b) => a - b), order);
  tally.check("and is in view on a small telephone", order[1] < 560, order);
  tally.is("400 pixels are enough", await narrow.value(`[document.documentElement.scrollWidth <= innerWidth, [...document.querySelectorAll("body *")].filter((it) => it.getBoundingClientRect().right > 401 && !it.closest(".scroll")).length]`), [true, 0]);
  await narrow.fill('#rows [data-row="2"] .message', "short");
  tally.check("and a page is edited there", await says(narrow, "#status", "6 pages, 16 codewords"), await narrow.text("#status"));
}

/* Where the reader's colours stand for all others, what is told apart by colours is told apart nevertheless. */
async function tryForced(page) {
  await page.send("Emulation.setEmulatedMedia", { features: [{ name: "forced-colors", value: "active" }] });
  const looks = (selector) => page.value(`((it) => [it.backgroundColor, it.borderTopStyle])(getComputedStyle(document.querySelector(${JSON.stringify(selector)})))`);
  const kinds = await Promise.all([".page.key", ".page:not(.key)", ".idle"].map((it) => looks(`.batch > ${it}`)));
  tally.is("an address, a message and an idle codeword differ", new Set(kinds.map(([back]) => back)).size, 3);
  tally.is("an idle has a frame", kinds[2][1], "dotted");
  for (const [one, other] of [["#as-table", "#as-csv"], ["#nodes > [aria-selected]", "#nodes"], [".slot.named", "body"]])
    tally.check(`${one} differs from ${other}`, (await looks(one))[0] !== (await looks(other))[0], [await looks(one), await looks(other)]);
  await page.click('[name="end"][value="open"]');
  await page.choose("#example", "loops apart");
  await says(page, "#nodes", "room for 1 in slot 15");
  tally.is("the boundaries of a cut are marked", await page.value(`[...document.querySelectorAll(".slots > .edge")].map((it) => getComputedStyle(it).borderLeftStyle)`), ["solid", "solid"]);
  await page.click("#node-1");
  const ink = (selector) => page.value(`getComputedStyle(document.querySelector('#nodes > [aria-selected="true"]${selector}')).color`);
  tally.is("the limits of a chosen node have its colour", await ink(" > .limits"), await ink(""));
  await page.choose("#example", "a hospital's round");
  await title(page, "2 batches");
  await page.send("Emulation.setEmulatedMedia", { features: [{ name: "forced-colors", value: "none" }] });
}

async function tryParts(...parts) {
  const page = await opened(1280, 1000);
  for (const part of parts) {
    const before = await browser.busy();
    try {
      await part(page);
    } catch (error) {
      tally.check(part.name, false, error.stack);
    }
    console.log(`${part.name}: ${Math.round((await browser.busy()) - before)} s of processors`);
  }
}
await tryParts(tryFirst, tryEditing, tryQuotes, tryWrongFiles, tryMany, tryFront, tryEnds, tryFiles, tryLong, tryLink, tryCommand, trySound);
await tryParts(tryKeys, tryLooks, tryTable);
tally.is("nothing on the console", pages.flatMap(({ errors }) => errors), []);
tally.is("no request but for the page itself", pages.flatMap(({ requests }) => requests).filter((it) => !it.startsWith("blob:") && it.split("#")[0] !== url), []);
await browser.close();
tally.end();
