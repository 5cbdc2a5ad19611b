/* pocsag in WebAssembly: plans of paging rounds with the fewest batches, certificates of that, and what transmissions say.
 *
 *     import { plan } from "./pocsag.mjs";
 *     const { batches, transmission, certificate } = plan("address,kind,message\n8,tone0,\n");
 *
 * Runs in Node 20 and later, in Deno and in browsers, with pocsag.wasm beside it. pocsag.d.mts describes each call. A page file
 * is a string or bytes; bytes are a Uint8Array, another view or an ArrayBuffer. Each fault is an error: `name` is that of
 * pocsag.h, `message` the program's text, `recordNumber` and `at` the place. */

/* The name and the text of each status, and those that tell of a record: quotes of some always, others where the page stands in a file. */
const STATUSES = {
  0: ["OUT_OF_RANGE", "a whole number from 0 to 4294967295 is wanted"], // of this module, for numbers of which the library allows each
  2: ["BAD_END", "the end must be open, closed or idle"], 3: ["OUT_OF_MEMORY", "out of memory"],
  4: ["BAD_RATE", "the rate must be 512, 1200 or 2400"], 5: ["BAD_LIMIT", "the limit must be 1 to 1000000"],
  6: ["SEARCH_LIMIT", "search limit reached: at least {least} batches, {found} would do"],
  11: ["BAD_FORM", "the form must be words or json"], 12: ["FIRST_PAGE", "page 1 needs {found} batches"],
  17: ["PAGES_TOO_LARGE", "the file is too large"], 18: ["BAD_HEADER", "the header must be address,kind,message"],
  19: ["FIELD_COUNT", "three fields are wanted"], 20: ["BAD_ADDRESS", "bad address"], 21: ["RESERVED_ADDRESS", "reserved address"],
  22: ["BAD_KIND", "unknown kind"], 23: ["MESSAGE_FOR_TONE", "a tone page has no message"], 24: ["EMPTY_MESSAGE", "the message is empty"],
  25: ["BAD_CHARACTER", "bad character at {at}"], 26: ["TOO_LONG", "the message is too long"],
  27: ["DUPLICATE_ADDRESS", "the address is already there"], 28: ["TOO_MANY_PAGES", "too many pages"], 29: ["BAD_PAYLOAD", "bad payload"],
  30: ["NO_PAGES", "there are no pages"], 32: ["NOT_CERTIFICATE", "not a certificate"], 33: ["CERT_VERSION", "unknown certificate version"],
  34: ["CERT_TRUNCATED", "the certificate is cut short"], 35: ["CERT_TRAILING", "bytes after the certificate"],
  36: ["CERT_BAD_TAG", "the certificate is malformed"], 37: ["CERT_BAD_FIELD", "the certificate is malformed"],
  38: ["CERT_TOO_DEEP", "the certificate is too deep"], 39: ["CERT_TOO_MANY", "the certificate has too many nodes"],
  41: ["QUOTE_OPEN", "the quote in line {at} is not closed"],
  42: ["QUOTE_INSIDE", "the quote in line {at} stands inside a field that begins without one"],
  43: ["QUOTE_FOLLOWED", "text follows the closing quote in line {at}"], 48: ["SHORT_PREAMBLE", "the preamble is too short"],
  49: ["NO_SYNC", "batch {at}: no synchronisation codeword"], 50: ["BAD_WORD", "codeword {at}: not a codeword"],
  51: ["ORPHAN", "codeword {at}: a message without an address"], 52: ["TRUNCATED", "the transmission is cut short"],
  53: ["NO_BATCH", "the transmission has no batch"], 56: ["CAPTURE_TOO_LARGE", "the capture is too large"],
  57: ["BAD_ROWS", "there are no such batches"], 58: ["BAD_READING", "there is no such reading or picture"],
  60: ["BAD_SAMPLES", "the samples a second must be from the rate to 192000"],
  61: ["BAD_PREAMBLE", "the preamble must have 576 bits or more, a multiple of 8"],
  62: ["TOO_LONG_FOR_WAV", "the sound is too long for a WAV file"], 64: ["PAGER_BAD_ADDRESS", "bad address"],
  65: ["PAGER_RESERVED_ADDRESS", "reserved address"],
};

const OF_RECORD = [19, 20, 21, 22, 23, 24, 25, 26, 27, 28, 29], OF_QUOTES = [41, 42, 43];

/* Why a call did nothing. It is an error by its prototype alone: of an object that the engine made as an error the message alone crosses
 * to another worker, and of any other all fields. */
export class Fault {
  constructor(status, { recordNumber = 0, least = 0, found = 0, at = 0 } = {}) {
    const [name, text] = STATUSES[status] ?? ["UNKNOWN", `status ${status}`], place = { recordNumber, least, found, at };
    const isOfRecord = (recordNumber && OF_RECORD.includes(status)) || OF_QUOTES.includes(status);
    const told = text.replace(/\{(\w+)\}/g, (_, word) => place[word]), message = isOfRecord ? `record ${recordNumber}: ${told}` : told;
    Object.assign(this, place, { status, name: `POCSAG_${name}`, message });
    Error.captureStackTrace?.(this, Fault);
  }
}
Object.setPrototypeOf(Fault.prototype, Error.prototype);

export const VERSION = 5;
export const DEFAULT_LIMIT = 100_000, GREATEST_LIMIT = 1_000_000, DEFAULT_DEPTH = 3;
export const HEADER = "address,kind,message\n";
export const KINDS = ["tone0", "tone1", "tone2", "tone3", "numeric", "alpha"];
const ENDS = ["open", "closed", "idle"], FORMS = ["words", "json"];
const READINGS = ["plain", "repaired", "captured"], PICTURES = ["text", "list", "drawing"];
const GREATEST = 2 ** 32 - 1, MOST_BATCHES = 1_760_001;
const TOO_SMALL = [7, 8, 9, 10, 13, 14]; // the statuses of a buffer
const LARGE = 2 ** 26; // bytes: memory never shrinks, so an instance that holds more is not kept for the next call

/* The fields of what a call tells, with their bytes; a place stands behind them. */
const PLACE = [["recordNumber", 4], ["least", 4], ["found", 4], ["at", 8]];
const fields = (size, ...names) => names.map((name) => [name, size]);
const PLAN = fields(4, "pages", "codewords", "inOrder", "batches", "bound");
const FRONT = fields(4, "pages", "left", "codewords", "inOrder", "batches", "bound", "beyond");
const CHECK = fields(4, "end", "batches");
const REPORT = [...PLAN, ...fields(8, "idles", "bits", "airtimeMs")];
const FRAME = [...fields(4, "frame", "pages"), ...fields(8, "codewords", "room")];
const NUMBERS = [0, 1, 2, 3, 4, 5, 6, 7];
const FRAMES = [...NUMBERS.flatMap((k) => FRAME.map(([name, size]) => [name + k, size])), ...fields(4, "batches", "bound")];

/* Where each field stands, as a C compiler lays them out, and where the next structure may begin. */
function layout(listed, start = 0) {
  let end = start;
  const places = listed.map(([name, size, unit = size]) => {
    const at = Math.ceil(end / unit) * unit;
    end = at + size;
    return [name, size, at];
  });
  return { places, end: Math.ceil(end / 8) * 8 };
}

/* What stands in a structure, by the names of its fields. */
const valuesIn = (view, { places }) =>
  Object.fromEntries(places.map(([name, size, at]) => [name, size === 8 ? Number(view.getBigUint64(at, true)) : view.getUint32(at, true)]));

const bytesOf = (data) => {
  if (typeof data === "string") return new TextEncoder().encode(data);
  if (ArrayBuffer.isView(data)) return new Uint8Array(data.buffer, data.byteOffset, data.byteLength);
  if (Object.prototype.toString.call(data).endsWith("ArrayBuffer]")) return new Uint8Array(data); // of whatever realm
  throw new TypeError("a string or bytes are wanted");
};
const textOf = (bytes) => new TextDecoder("utf-8", { ignoreBOM: true }).decode(bytes);

/* A number that the library takes; the fault of the status where it does not. */
function number(value, status = 0, greatest = GREATEST) {
  if (!Number.isInteger(value)) throw new TypeError(`a whole number is wanted, not ${String(value)}`);
  if (value < 0 || value > greatest) throw new Fault(status);
  return value;
}

/* The number of a name; the fault of the status where it is none. */
function placeIn(names, name, status) {
  if (!names.includes(name)) throw new Fault(status);
  return names.indexOf(name);
}

/* Sizes of a transmission and of a certificate that suffice for the plan of so many bytes, as pocsag_plan_bound of pocsag.h
 * gives them; and of the pages that are left, with their quotes. */
function sizesOf(length, limit) {
  const records = Math.floor(Math.max(Math.min(length, 2 ** 28) - 20, 0)), pages = Math.min(Math.floor(records / 9), 20_000);
  const codewords = Math.floor((records * 7) / 20) + 14 * pages, nodes = Math.min(Math.max(limit, 1), GREATEST_LIMIT);
  const batches = Math.min(Math.floor(codewords / 16) + 2, MOST_BATCHES);
  return { tx: 72 + 68 * batches, cert: 9 + Math.floor((9 * nodes - 3) / 2), rest: 2 * records + 3 * pages + 64 };
}

/* The calls of the library over a compiled module. Each runs at once and is done when it returns. */
export class Pocsag {
  #module;
  #exports = null;

  constructor(module) {
    this.#module = module;
  }

  get #instance() {
    return (this.#exports ??= new WebAssembly.Instance(this.#module, {}).exports);
  }

  /* What the work gives with an instance of the module and a block of its memory. An instance that trapped is lost, and one with much
   * memory is not kept. */
  #with(size, work) {
    const exports = this.#instance, block = exports.pocsag_take(BigInt(size));
    if (block === 0n) throw new Fault(3);
    this.#exports = null;
    const given = work(exports, Number(block));
    exports.pocsag_give(block);
    if (exports.memory.buffer.byteLength <= LARGE) this.#exports = exports;
    return given;
  }

  /* Calls `name` with what it reads, buffers of these sizes and numbers, and gives its status, what it tells, and the texts in
   * the buffers; the numbers may stand before the buffers, or before what it reads. A buffer that is too small gets the size that
   * was told. All lies in one block of memory: what is read, the buffers, and then the lengths of the texts and what is told. */
  #call(name, told, { head = [], reads = [], first = [], sizes = [], numbers = [] }) {
    const info = layout(told, 8 * sizes.length), place = layout(PLACE, info.end);
    for (;;) {
      const { places, end } = layout([...reads.map((it) => it.length), ...sizes, place.end].map((size, k) => [k, size, 8]));
      const { status, view, lengths, texts } = this.#with(end, (exports, block) => {
        const bytes = (k, size = places[k][1]) => new Uint8Array(exports.memory.buffer, block + places[k][2], size);
        const words = places.map(([, size, at]) => [BigInt(block + at), BigInt(size)]), [tells] = words.pop();
        reads.forEach((it, k) => bytes(k).set(it));
        bytes(words.length).fill(0);
        const given = words.slice(0, reads.length).flat(), outs = words.slice(reads.length).flatMap((it, k) => [...it, tells + BigInt(8 * k)]);
        const status = exports[name](...head, ...given, ...first, ...outs, ...numbers, tells + BigInt(8 * sizes.length)) >>> 0;
        const view = new DataView(bytes(words.length).slice().buffer), lengths = sizes.map((_, k) => Number(view.getBigUint64(8 * k, true)));
        const texts = lengths.map((length, k) => (length > sizes[k] ? null : bytes(reads.length + k, length).slice()));
        return { status, view, lengths, texts };
      });
      if (TOO_SMALL.includes(status) && lengths.some((length, k) => length > sizes[k])) {
        sizes = sizes.map((size, k) => size && Math.max(size, lengths[k]));
        continue;
      }
      if (status > 1 || (status === 1 && told !== CHECK)) throw new Fault(status, valuesIn(view, place));
      return { status, info: valuesIn(view, info), texts };
    }
  }

  version() {
    return this.#instance.pocsag_version();
  }

  /* What a status says, without its place; and the version of the package. */
  statusText(status) {
    return this.#text("pocsag_text_of_status", { head: [number(status)], sizes: [256] });
  }

  release() {
    return this.#text("pocsag_text_of_version", { sizes: [256] });
  }

  /* The text of a call that fills one buffer. */
  #text(name, words) {
    return textOf(this.#call(name, [], words).texts[0]);
  }

  /* The bytes of a page file, which may be refused for a quote. */
  #pages(pages, isStrict) {
    const bytes = bytesOf(pages);
    if (isStrict) this.strict(bytes);
    return bytes;
  }

  /* The same with the numbers of a search, and the sizes that suffice for what it finds. */
  #search(pages, { limit = DEFAULT_LIMIT, end = "open", always = true, strict = false } = {}) {
    const bytes = this.#pages(pages, strict), numbers = [number(limit, 5), placeIn(ENDS, end, 2), Number(Boolean(always))];
    return { reads: [bytes], numbers, ...sizesOf(bytes.length, limit) };
  }

  plan(pages, search) {
    const { reads, numbers, tx, cert } = this.#search(pages, search);
    const { info, texts } = this.#call("pocsag_plan", PLAN, { reads, sizes: [tx, cert], numbers });
    return { transmission: texts[0], certificate: texts[1], ...info };
  }

  planAtMost(pages, batches, search) {
    const { reads, numbers, tx, cert, rest } = this.#search(pages, search), sizes = [tx, cert, rest, cert];
    const { info, texts } = this.#call("pocsag_plan_at_most", FRONT, { reads, first: [number(batches)], sizes, numbers });
    return { transmission: texts[0], certificate: texts[1], rest: textOf(texts[2]), why: texts[3], ...info };
  }

  report(pages, rate, search) {
    const first = [number(rate, 4)];
    return this.#call("pocsag_report", REPORT, { ...this.#search(pages, search), first }).info;
  }

  frames(pages, search) {
    const { info } = this.#call("pocsag_frames", FRAMES, this.#search(pages, search));
    const frames = NUMBERS.map((k) => Object.fromEntries(FRAME.map(([name]) => [name, info[name + k]])));
    return { frames, batches: info.batches, bound: info.bound };
  }

  check(pages, certificate, { strict = false } = {}) {
    const { status, info } = this.#call("pocsag_check", CHECK, { reads: [this.#pages(pages, strict), bytesOf(certificate)] });
    return { isShown: status === 0, end: ENDS[info.end], batches: info.batches };
  }

  explain(pages, certificate, { form = "words", depth = DEFAULT_DEPTH, strict = false } = {}) {
    const reads = [this.#pages(pages, strict), bytesOf(certificate)], first = [placeIn(FORMS, form, 11), number(depth)];
    const { status, info, texts } = this.#call("pocsag_explain", CHECK, { reads, first, sizes: [2 ** 16] });
    return { isShown: status === 0, end: ENDS[info.end], batches: info.batches, text: textOf(texts[0]) };
  }

  decode(transmission, reading = "plain") {
    return this.#listed("pocsag_decode_as", transmission, reading);
  }

  hear(address, transmission, reading = "plain") {
    return this.#listed("pocsag_hear_as", transmission, reading, number(address, 64));
  }

  /* A listing of a transmission; the size suffices for most of so many bytes. */
  #listed(name, transmission, reading, ...address) {
    const bytes = bytesOf(transmission), head = [placeIn(READINGS, reading, 58), ...address];
    return this.#text(name, { head, reads: [bytes], sizes: [Math.min(2 * bytes.length, 2 ** 24) + 64] });
  }

  show(transmission, { form = "text", first = 1, last = Number.MAX_SAFE_INTEGER, reading = "plain" } = {}) {
    const bytes = bytesOf(transmission), head = [placeIn(READINGS, reading, 58)];
    const rows = [first, last].map((it) => BigInt(number(it, 57, Number.MAX_SAFE_INTEGER))), picture = placeIn(PICTURES, form, 58);
    return this.#text("pocsag_show", { head, reads: [bytes], first: [picture, ...rows], sizes: [2 ** 16] });
  }

  wav(transmission, rate, { samples = 48_000, preamble = null, inverted = false } = {}) {
    const bytes = bytesOf(transmission), asked = preamble === null ? 0 : number(preamble, 61) || 1; // no preamble has 0 bits or 1
    const first = [number(rate, 4), number(samples, 60), asked, Number(Boolean(inverted))];
    const size = 46 + Math.ceil((2 * samples * (8 * bytes.length + asked + 544)) / Math.max(rate, 1)); // too long from 2 ** 32 on
    return this.#call("pocsag_wav", [], { reads: [bytes], first, sizes: [size < 2 ** 31 ? size : 0] }).texts[0];
  }

  layInOrder(pages, { strict = false } = {}) {
    const bytes = this.#pages(pages, strict), sizes = [sizesOf(bytes.length, 1).tx];
    return this.#call("pocsag_lay_in_order", [], { reads: [bytes], sizes }).texts[0];
  }

  writePage(address, kind, message = "") {
    const bytes = bytesOf(message), named = KINDS.includes(kind) ? KINDS.indexOf(kind) : KINDS.length;
    return this.#text("pocsag_write_page", { head: [number(address, 20), named], reads: [bytes], sizes: [2 * bytes.length + 20] });
  }

  strict(pages) {
    this.#call("pocsag_strict", [], { reads: [bytesOf(pages)] });
  }

  airtimeBatches(airtimeMs, rate) {
    return this.#call("pocsag_airtime_batches", fields(4, "batches"), { head: [number(airtimeMs), number(rate, 4)] }).info.batches;
  }
}

/* == From here on as an ES module: the library over the file beside this one. == */

async function compiled(place) {
  if (place.protocol !== "file:" || globalThis.Deno) return WebAssembly.compile(await (await fetch(place)).arrayBuffer());
  return WebAssembly.compile(await (await import("node:fs/promises")).readFile(place));
}

const library = new Pocsag(await compiled(new URL("pocsag.wasm", import.meta.url)));
const bound = (name) => [name, (...words) => library[name](...words)];
export const { version, statusText, release, plan, planAtMost, report, frames, check, explain, decode, hear, show, wav, layInOrder, writePage,
  strict, airtimeBatches } = Object.fromEntries(Object.getOwnPropertyNames(Pocsag.prototype).map(bound));
