/* The ES module in Node: module.mjs FOLDER EXAMPLES VECTORS. The worked examples and the published vectors by its calls; its
 * faults, by name, text and place; what it refuses; refused memory; a trap. The last line is 'N passed, M failed'. */
import { readFileSync } from "node:fs";
import { once } from "node:events";
import { join, resolve } from "node:path";
import { pathToFileURL } from "node:url";
import { runInNewContext } from "node:vm";
import { Worker } from "node:worker_threads";
import { Tally } from "./tally.mjs";

const [folder, examples, vectors] = process.argv.slice(2).map((it) => resolve(it));
const pocsag = await import(pathToFileURL(join(folder, "pocsag.mjs")));
const source = (path) => import(new URL(`../../web/${path}`, import.meta.url));
const files = { ...(await source("page/files.js")), ...(await source("page/reading.js")) };
const wasm = readFileSync(join(folder, "pocsag.wasm"));
const tally = new Tally();
const { Fault, Pocsag } = pocsag, HEADER = "address,kind,message\n", SAMPLE = HEADER + "8,tone0,\n";
const ENDINGS = { open: "", closed: " with a closed end", idle: " with an idle last" };
const sorted = (text) => files.recordsOf(text).map(({ fields }) => [String(Number(fields[0])), ...fields.slice(1)]).sort();
const latin = (text) => Uint8Array.from(text, (it) => it.charCodeAt(0));

/* == The worked examples. == */
const { rounds, refused } = JSON.parse(readFileSync(examples));
for (const [name, [text, open, closed, idle, inOrder]] of Object.entries(rounds)) {
  for (const [end, batches] of Object.entries({ open, closed, idle })) {
    if (batches === null || batches === undefined) continue;
    const plan = pocsag.plan(text, { end });
    tally.is(`${name} ${end}`, [plan.batches, plan.bound, plan.transmission.length], [batches, batches, 72 + 68 * batches]);
    tally.is(`check of ${name} ${end}`, pocsag.check(text, plan.certificate), { isShown: true, end, batches });
    tally.is(`pages of ${name} ${end}`, sorted(pocsag.decode(plan.transmission)), sorted(text));
    const addresses = files.recordsOf(text).map(({ fields }) => Number(fields[0])), ordered = pocsag.layInOrder(text);
    tally.is(`${name} in file order`, (ordered.length - 72) / 68, plan.inOrder);
    tally.is(`${name} in file order reads in that order`, files.readingOf(ordered).pages.map(({ address }) => address), addresses);
    if (inOrder) tally.is(`${name} counted in file order`, plan.inOrder, inOrder);
  }
}
for (const [name, [text, fault]] of Object.entries(refused)) {
  const told = tally.attempt(() => pocsag.plan(latin(text)));
  tally.is(`refused: ${name}`, [told instanceof Fault, told.message], [true, fault]);
}

/* == The published vectors, but for those of 268 MB. == */
const table = files.recordsOf(readFileSync(join(vectors, "table.csv"), "utf8")).map(({ fields }) => fields);
let rows = 0;
for (const [name, , pages, tx, cert, , line] of table) {
  if ([pages, tx, cert].some((it) => it.startsWith("large/"))) continue;
  rows++;
  const [page, certificate] = [pages, cert].map((it) => readFileSync(join(vectors, it)));
  const told = tally.attempt(() => {
    const { isShown, end, batches } = pocsag.check(page, certificate);
    return { message: isShown ? `at least ${batches} batches${ENDINGS[end]}` : "not shown" };
  });
  tally.is(`vector ${name}`, told.message, line.replace(/^pocsag: /, ""));
  const explained = tally.attempt(() => pocsag.explain(page, certificate, { depth: 0 }).text.split("\n")[0].replace(/, \w+ end: .*|, idle last: .*/, ""));
  tally.check(`vector ${name} in words`, explained.message === told.message || told.message.startsWith(explained) || explained === "not shown", explained);
}
tally.check("all rows of the vectors but the largest", rows > 60, rows);

/* == Faults. == */
const sent = pocsag.plan(SAMPLE).transmission, proof = pocsag.plan(SAMPLE).certificate;
const faults = [
  [() => pocsag.plan(HEADER + "1,tone0,\n2,tone9,\n"), "POCSAG_BAD_KIND", "record 2: unknown kind", { recordNumber: 2 }],
  [() => pocsag.plan(HEADER + "8,numeric,12x4\n"), "POCSAG_BAD_CHARACTER", "record 1: bad character at 2", { recordNumber: 1, at: 2 }],
  [() => pocsag.plan(SAMPLE, { limit: 0 }), "POCSAG_BAD_LIMIT", "the limit must be 1 to 1000000", {}],
  [() => pocsag.plan(SAMPLE, { limit: 2 ** 32 + 1 }), "POCSAG_BAD_LIMIT", "the limit must be 1 to 1000000", {}],
  [() => pocsag.plan(SAMPLE, { end: "none" }), "POCSAG_BAD_END", "the end must be open, closed or idle", {}],
  [() => pocsag.plan(rounds["loops-apart"][0], { limit: 2, always: false }), "POCSAG_SEARCH_LIMIT", "search limit reached: at least 2 batches, 3 would do", { least: 2, found: 3 }],
  [() => pocsag.planAtMost(rounds["loops-apart"][0], 0), "POCSAG_FIRST_PAGE", "page 1 needs 1 batches", { found: 1 }],
  [() => pocsag.report(SAMPLE, 1201), "POCSAG_BAD_RATE", "the rate must be 512, 1200 or 2400", {}],
  [() => pocsag.report(SAMPLE, 2 ** 32 + 512), "POCSAG_BAD_RATE", "the rate must be 512, 1200 or 2400", {}],
  [() => pocsag.frames(SAMPLE, { end: "none" }), "POCSAG_BAD_END", "the end must be open, closed or idle", {}],
  [() => pocsag.frames(HEADER + "1,tone0,\n2,tone9,\n"), "POCSAG_BAD_KIND", "record 2: unknown kind", { recordNumber: 2 }],
  [() => pocsag.explain(SAMPLE, proof, { form: "verse" }), "POCSAG_BAD_FORM", "the form must be words or json", {}],
  [() => pocsag.check(SAMPLE, new Uint8Array(4)), "POCSAG_NOT_CERTIFICATE", "not a certificate", {}],
  [() => pocsag.decode(sent.subarray(0, 139)), "POCSAG_TRUNCATED", "the transmission is cut short", {}],
  [() => pocsag.hear(2_097_152, sent), "POCSAG_PAGER_BAD_ADDRESS", "bad address", {}],
  [() => pocsag.hear(2 ** 32 + 8, sent), "POCSAG_PAGER_BAD_ADDRESS", "bad address", {}],
  [() => pocsag.hear(-1, sent), "POCSAG_PAGER_BAD_ADDRESS", "bad address", {}],
  [() => pocsag.hear(2_007_664, sent), "POCSAG_PAGER_RESERVED_ADDRESS", "reserved address", {}],
  [() => pocsag.decode(sent, "aloud"), "POCSAG_BAD_READING", "there is no such reading or picture", {}],
  [() => pocsag.show(sent, { form: "film" }), "POCSAG_BAD_READING", "there is no such reading or picture", {}],
  [() => pocsag.show(sent, { first: 2, last: 1 }), "POCSAG_BAD_ROWS", "there are no such batches", {}],
  [() => pocsag.show(sent, { first: -1 }), "POCSAG_BAD_ROWS", "there are no such batches", {}],
  [() => pocsag.show(sent, { first: 2 }), "POCSAG_BAD_ROWS", "there are no such batches", {}],
  [() => pocsag.writePage(8, "numeric", "12x4"), "POCSAG_BAD_CHARACTER", "bad character at 2", { at: 2 }],
  [() => pocsag.writePage(8, "tone9"), "POCSAG_BAD_KIND", "unknown kind", {}],
  [() => pocsag.writePage(2 ** 32, "tone0"), "POCSAG_BAD_ADDRESS", "bad address", {}],
  [() => pocsag.strict(HEADER + '8,alpha,"a"b\n'), "POCSAG_QUOTE_FOLLOWED", "record 1: text follows the closing quote in line 2", { recordNumber: 1, at: 2 }],
  [() => pocsag.plan(HEADER + '8,alpha,a"b\n', { strict: true }), "POCSAG_QUOTE_INSIDE", 'record 1: the quote in line 2 stands inside a field that begins without one', { recordNumber: 1, at: 2 }],
  [() => pocsag.check('"' + HEADER, proof, { strict: true }), "POCSAG_QUOTE_OPEN", "record 0: the quote in line 1 is not closed", { at: 1 }],
  [() => pocsag.wav(sent, 1201), "POCSAG_BAD_RATE", "the rate must be 512, 1200 or 2400", {}],
  [() => pocsag.wav(sent, 1200, { samples: 1_199 }), "POCSAG_BAD_SAMPLES", "the samples a second must be from the rate to 192000", {}],
  [() => pocsag.wav(sent, 1200, { preamble: 0 }), "POCSAG_BAD_PREAMBLE", "the preamble must have 576 bits or more, a multiple of 8", {}],
  [() => pocsag.airtimeBatches(934, 1201), "POCSAG_BAD_RATE", "the rate must be 512, 1200 or 2400", {}],
];
const header = readFileSync(join(vectors, "../clib/pocsag.h"), "utf8");
for (const [call, name, message, place] of faults) {
  const told = tally.attempt(call), at = { recordNumber: 0, least: 0, found: 0, at: 0, ...place };
  tally.is(message, [told instanceof Fault, told.name, told.message], [true, name, message]);
  tally.is(`the place of ${name}`, Object.fromEntries(Object.keys(at).map((it) => [it, told[it]])), at);
  tally.check(`${name} is of the header`, new RegExp(`#define ${name} ${told.status}u`).test(header), told.status);
}
const faulty = tally.attempt(() => pocsag.plan(HEADER + "8,numeric,12x4\n"));
const due = { recordNumber: 1, least: 0, found: 0, at: 2, status: 25, name: "POCSAG_BAD_CHARACTER", message: "record 1: bad character at 2" };
tally.check("a fault is an error", faulty instanceof Error && String(faulty) === `${due.name}: ${due.message}` && faulty.stack.includes("module.mjs"), faulty.stack);
for (const [how, last] of [["posted", "parentPort.postMessage(fault)"], ["thrown", "throw fault"]]) {
  const code = `import { parentPort, workerData } from "node:worker_threads";
    const { plan } = await import(workerData);
    try { plan("address,kind,message\\n8,numeric,12x4\\n"); } catch (fault) { ${last}; }`;
  const worker = new Worker(new URL(`data:text/javascript,${encodeURIComponent(code)}`), { workerData: pathToFileURL(join(folder, "pocsag.mjs")).href });
  const [crossed] = await (how === "posted" ? once(worker, "message") : new Promise((gives) => worker.on("error", (it) => gives([it]))));
  tally.is(`a fault that is ${how} by a worker`, { ...crossed, stack: undefined }, { ...due, stack: undefined });
  const again = new Fault(crossed.status, crossed);
  tally.is("and is a fault again", [again instanceof Fault, { ...again }], [true, due]);
}
for (const [name, call, kind] of [
  ["no bytes", () => pocsag.plan(5), TypeError], ["no number", () => pocsag.plan(SAMPLE, { limit: "9" }), TypeError],
  ["half a page", () => pocsag.hear(1.5, sent), TypeError], ["half a batch", () => pocsag.show(sent, { first: 1.5 }), TypeError], ["no module", () => new Pocsag(5).plan(SAMPLE), TypeError],
]) tally.check(name, tally.attempt(call) instanceof kind, tally.attempt(call));
for (const call of [
  () => pocsag.explain(SAMPLE, proof, { depth: -1 }), () => pocsag.planAtMost(SAMPLE, -1), () => pocsag.planAtMost(SAMPLE, 2 ** 32), () => pocsag.airtimeBatches(-1, 512),
  () => pocsag.airtimeBatches(2 ** 32, 512), () => pocsag.statusText(-1),
]) {
  const told = tally.attempt(call);
  tally.is(`${call} is a fault`, [told instanceof Fault, told.name, told.status], [true, "POCSAG_OUT_OF_RANGE", 0]);
}
tally.is("the version", [pocsag.version(), header.includes(`#define POCSAG_VERSION ${pocsag.VERSION}u`)], [pocsag.VERSION, true]);
const elsewhere = runInNewContext(`[new Uint8Array(bytes), new Uint8Array(bytes).buffer]`, { bytes: [...latin(SAMPLE)] }); // of another realm
const shared = new SharedArrayBuffer(SAMPLE.length);
new Uint8Array(shared).set(latin(SAMPLE));
for (const given of [...elsewhere, shared, latin(SAMPLE), latin(SAMPLE).buffer, new DataView(latin(SAMPLE).buffer), Buffer.from(SAMPLE), new Uint8Array([...latin("xx"), ...latin(SAMPLE)]).subarray(2)])
  tally.is("other bytes are read alike", pocsag.plan(given).transmission, sent);
const bound = pocsag.plan(rounds["loops-apart"][0], { limit: 1 });
tally.is("a batch more than the bound", [bound.batches, bound.bound], [3, 2]);
const front = pocsag.planAtMost(SAMPLE + "16,tone0,\n24,tone0,\n", 1);
tally.is("a front", [front.pages, front.left, front.batches, front.beyond, front.rest], [2, 1, 1, 2, HEADER + "24,tone0,\n"]);
tally.is("why not one page more", pocsag.check(SAMPLE + "16,tone0,\n24,tone0,\n", front.why), { isShown: true, end: "open", batches: 2 });
const { frames: rooms, ...counts } = pocsag.frames(SAMPLE + "13,tone0,\n21,tone0,\n");
tally.is("the frames of a plan", rooms.map(({ frame, pages, codewords, room }) => [frame, pages, codewords, room]),
  [[0, 1, 1, 1], [1, 0, 0, 2], [2, 0, 0, 2], [3, 0, 0, 2], [4, 0, 0, 2], [5, 2, 2, 0], [6, 0, 0, 2], [7, 0, 0, 2]]);
tally.is("and its batches", counts, { batches: 1, bound: 1 });
const quotes = HEADER + '8,alpha,a\n16,alpha,"' + '""'.repeat(3_000) + '"\n';
tally.is("the pages that are left, with their quotes", pocsag.planAtMost(quotes, 1).rest, HEADER + '16,alpha,"' + '""'.repeat(3_000) + '"\n');
const every = HEADER + `8,alpha,"${String.fromCharCode(...Array(127).keys()).slice(1).replace('"', '""')}\x7f"\n`;
tally.is("a message of every character", sorted(pocsag.decode(pocsag.plan(every).transmission)), sorted(every));
tally.is("and what its pager shows", sorted(pocsag.hear(8, pocsag.plan(every).transmission)), sorted(every));
const apart = pocsag.plan(rounds["loops-apart"][0]), long = pocsag.explain(rounds["loops-apart"][0], apart.certificate, { form: "json", depth: 300 });
tally.check("an explanation as JSON", JSON.parse(long.text).nodes === 3 && long.isShown, long.text);

/* == What is read, shown and written. == */
const turned = sent.map((byte) => byte ^ 255), listed = pocsag.decode(sent), bad = sent.map((byte, k) => (k === 80 ? byte ^ 6 : byte));
tally.is("a capture of the other polarity", [pocsag.decode(turned, "captured"), pocsag.hear(8, turned, "captured")], [listed, listed]);
tally.is("two wrong bits are repaired", [tally.attempt(() => pocsag.decode(bad)).name, pocsag.decode(bad, "repaired")], ["POCSAG_BAD_WORD", listed]);
const grid = "       0  1  2  3  4  5  6  7\n  1   A. .. .. .. .. .. .. ..\n", places = "batch,frame,slot,codewords,address,kind,message\n1,0,0,1,8,tone0,\n";
tally.is("a text of one tone", pocsag.show(sent).split("\n").slice(1).join("\n"), grid);
tally.is("its place", pocsag.show(bad, { form: "list", reading: "repaired" }), places);
tally.check("a drawing", /^<svg [^]*<\/svg>\n$/.test(pocsag.show(sent, { form: "drawing" })));
tally.is("a page's record", pocsag.writePage(11, "alpha", 'say "yes", now'), '11,alpha,"say ""yes"", now"\n');
tally.is("a header and records", pocsag.plan(pocsag.HEADER + pocsag.writePage(8, "tone0")).transmission, sent);
// 1,664 bits with the silence, of which the last of the preamble is 0 and the first of the synchronisation codeword too.
const heard = pocsag.wav(sent, 2400, { samples: 2_400 }), turnedRound = pocsag.wav(sent, 2400, { samples: 2_400, inverted: true });
tally.is("a sound", [heard.length, [...heard.subarray(44 + 2 * 574, 44 + 2 * 578)]], [44 + 2 * 1_664, [0xc0, 0xe0, 0x40, 0x1f, 0x40, 0x1f, 0xc0, 0xe0]]);
tally.is("and inverted", [...turnedRound.subarray(44 + 2 * 574, 44 + 2 * 578)], [0x40, 0x1f, 0xc0, 0xe0, 0xc0, 0xe0, 0x40, 0x1f]);
tally.is("a preamble of its own", pocsag.wav(sent, 1200, { preamble: 800 }).length - pocsag.wav(sent, 1200).length, (2 * 224 * 48_000) / 1200);
tally.is("batches in a time", [933, 934, 1_386, 1_387].map((ms) => pocsag.airtimeBatches(ms, 1200)), [0, 1, 1, 2]);
tally.is("texts", [pocsag.statusText(20), pocsag.release()], ["bad address", readFileSync(join(vectors, "../VERSION"), "utf8").split(/\s/)[0]]);

/* == Page files as the page itself reads and writes them: as the library does. == */
for (const text of [every, quotes, SAMPLE, HEADER + '8,alpha,"a,b\r\nc"\r\n\r\n16,alpha,"x"y"z"\r24,alpha,"a""b"c"d"\n32,alpha,"open\n40,tone0,\n', "\ufeff" + SAMPLE]) {
  const fields = files.recordsOf(text).map((it) => it.fields), read = sorted(pocsag.decode(pocsag.plan(text).transmission));
  tally.is("records as the library reads them", fields.map((it) => [...it]).sort(), read);
  tally.is("and written again", sorted(pocsag.decode(pocsag.plan(files.fileOf(fields)).transmission)), read);
  tally.is("and shown in a line", fields.flat().map((it) => files.unpictured(files.pictured(it))), fields.flat());
  const first = text.slice(0, files.recordsOf(text)[0].end);
  tally.is("the first page alone", pocsag.plan(first).pages, 1);
}

/* == Refused memory: a module whose memory may not grow beyond so many pages of 64 KiB. == */
function limited(most) {
  const leb = (value) => [...Array(5).keys()].map((k) => ((value >>> (7 * k)) & 127) | (k < 4 ? 128 : 0));
  let at = 8;
  const number = () => {
    for (let value = 0, shift = 0; ; shift += 7) {
      value |= (wasm[at] & 127) << shift;
      if (wasm[at++] < 128) return value;
    }
  };
  for (;;) {
    const start = at, id = wasm[at++], size = number(), content = at;
    if (id === 5) {
      at = content + 2;
      const least = number(), made = [1, 1, ...leb(least), ...leb(Math.max(most, least))];
      return { least, module: new WebAssembly.Module(Buffer.concat([wasm.subarray(0, start), Buffer.from([5, ...leb(made.length), ...made]), wasm.subarray(content + size)])) };
    }
    at = content + size;
  }
}
const tones = HEADER + [...Array(3_000).keys()].map((k) => `${k},tone0,\n`).join(""), ample = pocsag.plan(tones, { limit: 100 });
const calls = {
  plan: [tones, { limit: 100 }], planAtMost: [tones, 5, { limit: 100 }], report: [tones, 512], frames: [tones, { limit: 100 }], check: [tones, ample.certificate],
  explain: [tones, ample.certificate], decode: [ample.transmission, "repaired"], hear: [8, ample.transmission, "captured"],
  show: [ample.transmission, { form: "drawing" }], layInOrder: [tones], wav: [sent, 1200],
};
const { least } = limited(0);
for (const [name, words] of Object.entries(calls)) {
  const wanted = JSON.stringify(pocsag[name](...words)), seen = { refused: 0, done: 0 };
  for (let most = least; seen.done < 3 && most < least + 400; most++) {
    const library = new Pocsag(limited(most).module), told = tally.attempt(() => library[name](...words));
    if (told instanceof Fault && told.name === "POCSAG_OUT_OF_MEMORY") seen.refused++;
    else if (JSON.stringify(told) === wanted) seen.done++;
    else tally.check(`${name} with ${most} pages of memory`, false, told.stack ?? told);
    tally.is(`${name} with ${most} pages, and then the version`, library.version(), pocsag.VERSION);
  }
  tally.check(`${name} is refused memory, and then is not`, seen.refused > 0 && seen.done === 3, seen);
}

/* == A trap loses the instance, and the next call has another. == */
const { Instance } = WebAssembly;
let instances = 0, traps = 0;
WebAssembly.Instance = class {
  constructor(...words) {
    const { exports } = new Instance(...words);
    instances++;
    this.exports = { ...exports, pocsag_decode_as: (reading, address, ...rest) => exports.pocsag_decode_as(reading, traps++ ? address : 2n ** 31n, ...rest) };
  }
};
const library = new Pocsag(new WebAssembly.Module(wasm));
tally.check("a call traps", tally.attempt(() => library.decode(sent)) instanceof WebAssembly.RuntimeError);
tally.is("the next one does not", [library.decode(sent), instances], [pocsag.decode(sent), 2]);
library.plan(HEADER + `8,alpha,${"a".repeat(4_000)}\n` + "\n".repeat(2 ** 26));
tally.is("an instance of much memory is not kept", [library.version(), instances], [pocsag.VERSION, 3]);
WebAssembly.Instance = Instance;
tally.end();
