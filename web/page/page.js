/* The page: a round on the left, its transmissions on the right, and why it takes no fewer batches. */
import { CommandLine } from "./command.js";
import { Library } from "./library.js";
import { Rows } from "./rows.js";
import { Cells, MOVES } from "./cells.js";
import { airtimeOf, beginsAsPages, fileOf, grouped, HEADER, KINDS, labelsOf, nodesOf, pictured, unpictured } from "./files.js";
import { readingOf, recordsOf } from "./reading.js";

const EXAMPLES = {} /*EXAMPLES*/;
const MOST_SOUND = 200_000_000; // bytes that are played or taken along
const MOST_RECORDS = 40_000; // that the table shows
const MOST_ROUNDS = 20; // that are kept behind the one that is shown
const ROW = 20, FEWEST_ROWS = 4, MOST_ROWS = 20; // the height of a batch, and how many are in view
const LONGEST_LABEL = 2; // that is drawn in a codeword
const element = (id) => document.getElementById(id);
const number = (count) => count.toLocaleString("en");
const counted = (count, one, more = `${one}s`) => `${number(count)} ${count === 1 ? one : more}`;

/* A time on the air. */
function time(ms) {
  const minutes = Math.round(ms / 60_000);
  if (ms < 1_000) return `${Math.round(ms * 10) / 10} ms`;
  if (ms < 60_000) return `${(ms / 1_000).toFixed(2)} s`;
  if (ms < 3_600_000) return `${Math.floor(ms / 60_000)} min ${Math.floor((ms / 1_000) % 60)} s`;
  return `${Math.floor(minutes / 60)} h ${minutes % 60} min`;
}

/* An element with these properties, or attributes where a name has a hyphen, and what stands in it. */
const made = (tag, given = {}, ...inside) => {
  const it = document.createElement(tag);
  for (const [name, value] of Object.entries(given)) {
    if (name === "role" || name.includes("-")) it.setAttribute(name, value);
    else it[name] = value;
  }
  it.append(...inside);
  return it;
};

/* The round as it was typed, whether its quotes are judged, the options, and what is planned for them; `sent` is a reading with its
 * bytes. */
const state = { text: "", isStrict: true, fields: [], records: [], depth: 3 };
const NOTHING = { plan: null, order: null, fewest: null, fault: null, labels: new Map(), pages: new Map() };
Object.assign(state, NOTHING);
let library;

/* == The round. == */

function setRound(text) {
  Object.assign(state, { text, isStrict: true, records: recordsOf(text, MOST_RECORDS) });
  state.fields = state.records.map(({ fields }) => [...fields]);
  element("example").value = "";
  replan();
}

/* The rounds that took each other's place. Each is kept with its edits, and comes back by a key, also after a reload. */
const rounds = { texts: [], at: 0 };

function replaceRound(text) {
  if (text === state.text) return setRound(text);
  rounds.texts = [...rounds.texts.slice(0, rounds.at), state.text, text].slice(-MOST_ROUNDS);
  showRoundAt(rounds.texts.length - 1);
}

function goBy(step) {
  if (rounds.texts[rounds.at + step] === undefined) return;
  rounds.texts[rounds.at] = state.text;
  showRoundAt(rounds.at + step);
}

function showRoundAt(at) {
  rounds.at = at;
  element("back").disabled = at === 0;
  setRound(rounds.texts[at]);
}

/* Control and Z bring back the last round. A field keeps them for its own words, those of the round only where they were edited. */
function goByKeys(event) {
  const { target, key, ctrlKey, metaKey, shiftKey } = event, isEdited = state.text !== rounds.texts[rounds.at];
  const isField = target.matches("textarea, input:not([type=radio], [type=checkbox], [type=file])");
  if (key.toLowerCase() !== "z" || !(ctrlKey || metaKey)) return;
  if (isField && (isEdited || !target.matches("#csv, #rows input"))) return;
  event.preventDefault();
  goBy(shiftKey ? 1 : -1);
}

const isQuote = (fault) => fault?.name?.startsWith("POCSAG_QUOTE") ?? false;

/* Whether the table may be edited: it must show all records, and none that a wrong quote made. */
const isEditable = () => state.fields.length < MOST_RECORDS && !isQuote(state.fault);

function changeFields(change) {
  if (isEditable()) {
    change(state.fields);
    state.text = fileOf(state.fields);
    state.records = recordsOf(state.text, MOST_RECORDS);
    element("example").value = "";
  }
  replan();
}

function readAnyway() {
  state.isStrict = false;
  replan();
}

const pageOf = (index) => state.pages.get(Number(state.fields[index]?.[0]));

function edit(index, place, value) {
  changeFields((rows) => {
    const fields = rows[index];
    while (fields.length <= place) fields.push("");
    fields[place] = value;
    if (place === 1 && value.startsWith("tone")) fields[2] = "";
  });
}

/* Another round without this page, so that the round with it comes back by a key. */
function removePage(index) {
  if (isEditable()) replaceRound(fileOf(state.fields.filter((_, at) => at !== index)));
}

function makeRow() {
  const index = () => Number(row.dataset.row);
  const address = made("input", { className: "address", inputMode: "numeric", oninput: () => edit(index(), 0, address.value) });
  const kind = made("select", { className: "kind", onchange: () => edit(index(), 1, kind.value) });
  const message = made("input", { className: "message", oninput: () => edit(index(), 2, unpictured(message.value)) });
  const remove = made("button", { className: "remove", textContent: "\u00d7", onclick: () => removePage(index()) });
  const row = made("div", { role: "row", onmouseenter: () => point(pageOf(index())) });
  const cell = (it) => made("span", { role: "gridcell", tabIndex: -1 }, it);
  for (const it of [address, kind, message, remove]) it.tabIndex = -1;
  const [label, place, why] = [made("b"), made("span", { className: "place" }), made("span", { className: "why" })];
  row.append(...[label, address, place, kind, message, remove, why].map(cell));
  return row;
}

function fillRow(row, index) {
  const [label, address, place, kind, message, remove, why] = [...row.children].map((it) => it.firstChild);
  const fields = state.fields[index], page = pageOf(index), labelled = state.labels.get(page?.address);
  label.textContent = labelled?.label ?? "";
  label.className = labelled ? `label h${labelled.hue}` : "";
  const word = page ? state.fewest.words[page.start].toString(16).toUpperCase().padStart(8, "0") : "";
  place.textContent = /^\d+$/.test(fields[0]) ? `${Number(fields[0]) & 7} ${word}` : "";
  const kinds = KINDS.includes(fields[1] ?? "") ? KINDS : [...KINDS, fields[1] ?? ""];
  const options = () => kinds.map((it) => made("option", { textContent: it, value: it }));
  if (kind.length !== kinds.length || kind.value !== fields[1]) kind.replaceChildren(...options());
  const set = (input, value) => input.value !== value && (input.value = value);
  set(address, fields[0] ?? ""), set(kind, fields[1] ?? ""), set(message, pictured(fields[2] ?? ""));
  for (const it of [address, kind, message]) it.setAttribute("aria-label", `${it.className} of page ${index + 1}`);
  remove.setAttribute("aria-label", `remove page ${index + 1}`);
  row.setAttribute("aria-rowindex", index + 2);
  row.dataset.page = page?.address ?? "";
  row.classList.toggle("on", Boolean(page) && page.address === pointed);
  const isWrong = state.fault?.recordNumber === index + 1;
  row.classList.toggle("wrong", isWrong);
  why.parentNode.hidden = !isWrong;
  why.replaceChildren(...(isWrong ? whyOf(state.fault) : []));
}

/* Why a page is refused, and where a quote is the cause, how to read it nevertheless. */
function whyOf(fault) {
  const words = fault.message.replace(/^record \d+: /, "");
  if (!isQuote(fault)) return [words];
  const { textContent } = element("anyway");
  return [`${words}: mend it in the CSV, or `, made("button", { tabIndex: -1, textContent, onclick: readAnyway })];
}

function addPage() {
  changeFields((rows) => {
    const highest = Math.max(-1, ...rows.map(([address]) => Number(address) || 0));
    rows.push([String(highest < 2_007_663 ? highest + 1 : 0), "tone0", ""]);
  });
  if (state.fields.length) cells.reach(state.fields.length - 1, 1).querySelector("input").focus();
}

function showRound() {
  const isCsv = element("as-csv").getAttribute("aria-pressed") === "true", { fault, fields, labels, text } = state;
  const longest = [...labels.values()].at(-1)?.label.length ?? 1;
  const tall = { index: (fault?.recordNumber || Infinity) - 1, more: isQuote(fault) ? 60 : 30 };
  element("csv").hidden = !isCsv;
  element("table").hidden = isCsv;
  element("table").style.setProperty("--labels", `${20 + 8 * longest}px`);
  element("anyway").hidden = !isQuote(fault) || (!isCsv && fault.recordNumber > 0);
  if (isCsv && element("csv").value !== text) element("csv").value = text;
  cells.show(fields.length, element("table").clientWidth > 480 ? 32 : 60, tall);
}

function showAs(kind) {
  for (const it of ["table", "csv"]) element(`as-${it}`).setAttribute("aria-pressed", String(it === kind));
  showRound(), reachFault();
}

/* Brings the page that is refused into view. */
function reachFault() {
  const { recordNumber } = state.fault ?? {};
  if (recordNumber && !element("table").hidden) table.reach(recordNumber - 1);
}

/* == Planning. == */

/* The number in a field, or why it is none. */
function numberIn({ value, validity }, what) {
  if (/^\d+$/.test(value) && Number(value) < 2 ** 32) return Number(value);
  if (value === "" && !validity.badInput) throw { message: `${what}: the field is empty` };
  throw { message: `${what}: ${value || "this"} is no whole number from 0 to ${number(2 ** 32 - 1)}` };
}

function options() {
  const { end, send, rate, batches, ms, limit, always } = element("options").elements;
  const most = { all: async () => null, batches: async () => numberIn(batches, "the batches") };
  most.ms = async () => (await library.ask("airtimeBatches", numberIn(ms, "the milliseconds"), Number(rate.value))).given;
  const search = { end: end.value, limit: Number(limit.value), always: always.checked, strict: state.isStrict };
  return { mostBatches: most[send.value], rate: Number(rate.value), search };
}

let timer = 0, slow = 0;
const waiting = []; // what is done when the round is planned, or refused

function replan() {
  if (library?.endCalls() && player && !player.audio.src) stop(); // whose sound was among them
  for (const it of [timer, slow]) clearTimeout(it);
  element("plan").ariaBusy = "true";
  timer = setTimeout(plan, 40);
  element("linked").textContent = "";
  showRound();
}

/* Plans the round, has the checker judge the plan, and shows both; then asks why there are no fewer batches. */
async function plan() {
  const { mostBatches, search } = options(), file = state.text;
  slow = setTimeout(showSearch, 300);
  try {
    const most = await mostBatches();
    const { given, took } = await (most === null ? library.ask("plan", file, search) : library.ask("planAtMost", file, most, search));
    const front = most === null ? file : file.slice(0, state.records[given.pages - 1].end);
    const { given: verdict } = await library.ask("check", front, given.certificate);
    if (!verdict.isShown || verdict.batches !== given.bound) throw { message: "the checker does not accept the plan's certificate" };
    const { given: inOrder } = await library.ask("layInOrder", front);
    showPlan({ ...given, front, took, most }, inOrder);
    clearTimeout(slow);
    await explain(3);
  } catch (fault) {
    showFault(fault);
  } finally {
    clearTimeout(slow);
    element("plan").ariaBusy = "false";
    waiting.splice(0).forEach((done) => done());
  }
}

function say(text, isFault = false) {
  element("status").textContent = grouped(text);
  element("status").classList.toggle("fault", isFault);
}

/* What stands while a search is slow; what was wrong before it is wrong no more. */
function showSearch() {
  say("searching: an edit ends it");
  state.fault = null;
  showRound();
}

function showFault(fault) {
  Object.assign(state, NOTHING, { fault });
  say(fault.message, true);
  element("plan").className = "none";
  element("plan-title").textContent = "No plan";
  element("why-title").textContent = "\u00a0";
  element("saved").textContent = "";
  showSent(), showNodes(null), showFiles(), showRound(), reachFault(), hear();
}

/* Shows a plan beside the transmission of the same pages in the order of the file. */
function showPlan(plan, bytes) {
  const fewest = readingOf(plan.transmission), addresses = state.records.slice(0, plan.pages).map(({ fields }) => Number(fields[0]));
  const order = readingOf(bytes);
  if (order.batches !== plan.inOrder) throw { message: "the order of the file takes other batches than the library counts" };
  const pages = new Map(fewest.pages.map((page) => [page.address, page])), labels = labelsOf(addresses);
  const sent = { fewest: { ...fewest, which: "fewest", bytes: plan.transmission }, order: { ...order, which: "order", bytes } };
  Object.assign(state, { plan, pages, labels, fault: null, ...sent });
  const left = plan.left ? `; ${counted(plan.left, "page")} left` : "";
  say(`${counted(plan.pages, "page")}, ${counted(plan.codewords, "codeword")}; planned in ${time(plan.took)}${left}`);
  element("plan").className = "";
  element("plan-title").textContent = counted(plan.batches, "batch", "batches");
  element("saved").textContent = `${besideFileOrder(plan)} \u00b7 the certificate holds`;
  point(null);
  showSent(), showFiles(), showRound(), hear();
}

function besideFileOrder({ inOrder, batches, bound }) {
  const { rate } = options(), saved = time(airtimeOf(inOrder, rate) - airtimeOf(batches, rate));
  const needed = bound < batches ? `at least ${number(bound)} are needed` : "no fewer suffice";
  if (batches > inOrder) return `with this end \u00b7 ${needed}`;
  return `${batches < inOrder ? `instead of ${number(inOrder)}: saves ${saved} at ${rate} bit/s` : "as many as in the order of the file"} \u00b7 ${needed}`;
}

/* == Transmissions. == */

const shownRows = () => Math.max(state.order?.batches ?? 0, state.fewest?.batches ?? 0);

function fillBatch(row, batch, sent) {
  row.className = "batch";
  if (batch >= sent.batches) {
    row.className = "batch saved";
    row.replaceChildren(made("span"), made("span", { role: "gridcell", textContent: "saved" }));
    return;
  }
  row.setAttribute("aria-rowindex", batch + 1);
  const cells = [made("span", { role: "rowheader", textContent: batch + 1 })];
  for (let index = 16 * batch; index < 16 * batch + 16; index++) {
    const page = sent.pages[sent.owners[index]], cell = made("span", { role: "gridcell", className: "idle" });
    if (page) {
      const { label, hue } = state.labels.get(page.address), isKey = page.start === index;
      cell.className = `page h${hue}${isKey ? " key" : ""}${page.address === pointed ? " on" : ""}`;
      if (label.length <= LONGEST_LABEL) cell.textContent = isKey ? label : index % 16 === 0 ? label.toLowerCase() : "";
      cell.dataset.page = page.address;
    }
    if (index === sent.at) {
      cell.classList.add("at");
      cell.id = `${sent.which}-at`;
      cell.setAttribute("aria-label", page ? described(page) : `${placeOf(index)}: an idle codeword`);
    }
    cell.dataset.index = index;
    cells.push(cell);
  }
  row.replaceChildren(...cells);
}

function showSent() {
  const { rate } = options();
  element("plan").style.setProperty("--numbers", `${Math.max(34, 8 + 7 * String(shownRows()).length)}px`);
  for (const { which, box, counts, rows, play } of grids) {
    const sent = state[which], title = element(`${which}-title`).textContent;
    box.style.height = `${Math.min(Math.max(shownRows(), FEWEST_ROWS), MOST_ROWS) * ROW + 2}px`;
    box.removeAttribute("aria-activedescendant");
    box.setAttribute("aria-rowcount", shownRows());
    rows.show(sent ? shownRows() : 0);
    play.disabled = !hasSound(sent, rate);
    counts.textContent = sent ? countsOf(sent, rate) : "";
    box.setAttribute("aria-label", sent ? `${title}: ${counts.textContent}; the arrow keys go through the codewords` : `${title}: nothing`);
  }
}

const RATES = "at 512 \u00b7 1200 \u00b7 2400".replaceAll(" ", "\u00a0"); // in one line

function countsOf(sent, rate) {
  const idles = sent.owners.reduce((sum, owner) => sum + (owner < 0), 0), share = Math.round((100 * idles) / sent.owners.length);
  const times = [512, 1200, 2400].map((it) => time(airtimeOf(sent.batches, it))).join(" \u00b7 ");
  const silence = hasSound(sent, rate) ? "" : `\n${NO_SOUND}`;
  return `${counted(sent.batches, "batch", "batches")}, ${counted(idles, "idle")} (${share}%)\n${times} ${RATES}${silence}`;
}

const HOW_TO_READ =
  "A row is a batch: eight frames of two codewords. A page may start only in the frame of its address; faint codewords are idle. " +
  "Point at one, or tap it, to see its page.";
let pointed = null;

/* Marks a page wherever it is shown, and says what and where it is. */
function point(page, text = page && described(page)) {
  pointed = page?.address ?? null;
  document.querySelectorAll(".on").forEach((it) => it.classList.remove("on"));
  if (page) document.querySelectorAll(`[data-page="${pointed}"]`).forEach((it) => it.classList.add("on"));
  element("caption").textContent = text ?? HOW_TO_READ;
}

function described(page) {
  const [, kind, message] = state.records[recordOf(page.address)].fields;
  const text = message && `: ${pictured(message.length > 60 ? `${message.slice(0, 60)}..` : message)}`;
  const what = `${state.labels.get(page.address).label}: address ${page.address}, ${kind}${text}`;
  return `${what} \u00b7 ${counted(page.length, "codeword")} from ${placeOf(page.start)}`;
}

const recordOf = (address) => state.records.findIndex(({ fields }) => Number(fields[0]) === address);

const placeOf = (index) => `batch ${(index >> 4) + 1}, frame ${(index >> 1) & 7}, slot ${index & 15}`;

/* Moves a picture's cursor by the keys of the table: a row is a batch. */
function move(event, { which, box, rows }) {
  const sent = state[which], [down, right] = MOVES[event.key] ?? [];
  if (!sent || down === undefined) return;
  event.preventDefault();
  const step = { Home: -(sent.at & 15), End: 15 - (sent.at & 15) }[event.key] ?? 16 * down + right;
  sent.at = sent.at === undefined ? 0 : Math.min(Math.max(sent.at + step, 0), sent.owners.length - 1);
  const page = sent.pages[sent.owners[sent.at]];
  point(page, page ? undefined : `${placeOf(sent.at)}: an idle codeword`);
  rows.reach(sent.at >> 4);
  rows.show(shownRows());
  box.setAttribute("aria-activedescendant", `${which}-at`);
}

/* == Sound. == */

const hasSound = (sent, rate) => Boolean(sent) && (2 * 48_000 * (8 * sent.bytes.length + 544)) / rate <= MOST_SOUND;
const NO_SOUND = `no sound: it would be longer than ${time(MOST_SOUND / (2 * 48))}`;
let player = null;

function stop() {
  player?.audio.pause();
  URL.revokeObjectURL(player?.audio.src);
  if (player) player.grid.play.textContent = "\u25b6 Play";
  document.querySelectorAll(".playing").forEach((it) => it.classList.remove("playing"));
  player = null;
}

async function play(grid) {
  const wasHere = player?.grid === grid, sent = state[grid.which], { rate } = options();
  stop();
  if (wasHere || !sent) return;
  const audio = new Audio();
  player = { audio, grid };
  grid.play.textContent = "\u25a0 Stop";
  audio.onended = stop;
  try {
    const { given } = await library.ask("wav", sent.bytes, rate);
    if (player?.audio !== audio) return;
    audio.src = URL.createObjectURL(new Blob([given], { type: "audio/wav" }));
    await audio.play();
    follow(audio, sent, rate);
  } catch (error) {
    if (player?.audio === audio) stop(), say(`no sound: ${error.message}`, true);
  }
}

/* Marks the codeword that sounds, until the sound ends. */
function follow(audio, sent, rate) {
  if (player?.audio !== audio) return;
  const word = Math.floor((audio.currentTime * rate - 576) / 32), batch = Math.floor(word / 17), slot = (word % 17) - 1;
  document.querySelectorAll(".playing").forEach((it) => it.classList.remove("playing"));
  if (batch >= 0 && batch < sent.batches) player.grid.rows.reach(batch)?.children[slot + 1].classList.add("playing");
  requestAnimationFrame(() => follow(audio, sent, rate));
}

/* == Why no fewer. == */

/* Asks for the nodes down to a depth: of the certificate of one page more, where pages are left, or else of the plan's. */
async function explain(depth) {
  const { plan, text, records } = state, isFront = Boolean(plan.left && plan.why.length);
  const file = isFront ? text.slice(0, records[plan.pages].end) : plan.front, certificate = isFront ? plan.why : plan.certificate;
  const { given: words } = await library.ask("explain", file, certificate, { form: "words", depth });
  const { given: facts } = await library.ask("explain", file, certificate, { form: "json", depth });
  if (plan !== state.plan) return;
  state.depth = depth;
  element("why-title").textContent = questionOf(plan, isFront);
  showNodes(nodesOf(words.text, JSON.parse(facts.text)));
}

function questionOf({ bound, beyond, most }, isFront) {
  if (!isFront) return `Why not ${counted(bound - 1, "batch", "batches")}?`;
  return beyond > most ? "Why not one page more?" : `One page more needs at least ${counted(beyond, "batch", "batches")}`;
}

function showNodes(explained) {
  const list = element("nodes"), hidden = explained?.hidden ?? 0;
  element("deeper").hidden = hidden === 0;
  element("deeper").textContent = `${counted(hidden, "node")} below`;
  const lines = (explained?.nodes ?? []).map((node, index) => {
    const words = made("div", { textContent: (node.number === "1" ? "" : `${node.number}, `) + grouped(node.words) });
    const line = made("div", { role: "option", id: `node-${index}`, onclick: () => choose(index) }, words);
    if (node.limits) line.append(made("div", { className: "limits", textContent: grouped(node.limits) }));
    line.style.setProperty("--depth", node.number.split(".").length);
    return line;
  });
  const choose = (index) => {
    list.dataset.chosen = index;
    list.setAttribute("aria-activedescendant", `node-${index}`);
    lines.forEach((it, k) => it.setAttribute("aria-selected", String(k === index)));
    lines[index].scrollIntoView({ block: "nearest" });
    element("node").replaceChildren(...slotsOf(explained.nodes[index].facts));
  };
  list.onkeydown = (event) => {
    const next = Number(list.dataset.chosen) + ({ ArrowDown: 1, ArrowUp: -1 }[event.key] ?? 0);
    if (event.key.startsWith("Arrow")) event.preventDefault();
    if (lines[next]) choose(next);
  };
  element("sum").textContent = explained ? grouped(`${explained.sum} .. ${explained.so}`) : "";
  list.replaceChildren(...lines);
  element("node").replaceChildren();
  if (lines.length) choose(0);
}

/* The slots of a node: those that it names, its boundaries, the room of each; and of an overload what must stand there. */
function slotsOf({ fact, limits }) {
  const all = [...Array(16).keys()], cells = [];
  const line = (head, cell) => cells.push(made("span", { textContent: head }), ...all.map(cell));
  const isEdge = (slot) => fact.kind === "cut" && fact.boundaries.includes(slot);
  const isNamed = (slot) => fact.kind === "overload" && fact.slots.includes(slot);
  line("slot", (slot) => made("span", { textContent: slot, className: isEdge(slot) ? "edge" : "" }));
  line("", (slot) => made("span", { className: `slot${isNamed(slot) ? " named" : ""}${isEdge(slot) ? " edge" : ""}` }));
  line("room", (slot) => made("span", { textContent: number(limits.cap[slot]), className: limits.cap[slot] > 99 ? "long" : "" }));
  const slots = made("div", { className: "slots" }, ...cells), said = (textContent) => made("p", { className: "dim", textContent });
  return fact.kind === "overload" ? [slots, loadOf(fact), said(sumOf(fact))] : [slots, said(CASES[fact.kind] ?? "")];
}

const CASES = {
  cut: "A page must cross a line that is marked, and each way across is shown to be wanting by a node below.",
  split: "One of the two cases holds, and neither has room.",
  close: "The transmission must end in one of these ways.",
};

function sumOf({ slots, least, room }) {
  const where = slots.length === 16 ? "all slots" : `slot${slots.length > 1 ? "s" : ""} ${slots.join(", ")}`;
  return `${counted(least, "codeword")} must stand in ${where}, with room for ${number(room)}: ${number(least - room)} too many.`;
}

/* A bar of the codewords that must stand in the slots, a part for each class of pages, and a line at the room. */
function loadOf({ least, room, shares }) {
  const bar = made("div", { className: "load" }), percent = (part) => `${(100 * part) / Math.max(least, 1)}%`;
  for (const { least: share } of shares) {
    const part = made("span", { textContent: share > 0.06 * least ? number(share) : "" });
    part.style.flexGrow = share;
    bar.append(part);
  }
  const line = made("i"), over = made("u");
  line.style.left = percent(room);
  over.style.width = percent(least - room);
  bar.append(line, over);
  return bar;
}

/* == Files, a pager, examples and links. == */

function takeAlong(name, data) {
  const link = made("a", { download: name, href: URL.createObjectURL(new Blob([data])) });
  link.click();
  setTimeout(() => URL.revokeObjectURL(link.href), 10_000);
}

function showFiles() {
  const { plan, fewest, order, text } = state, { rate } = options();
  const files = [["round.csv", () => text]];
  if (plan) files.push(["round.bin", () => plan.transmission], ["round.cert", () => plan.certificate]);
  if (plan) files.push(["file-order.bin", () => order.bytes]);
  if (hasSound(fewest, rate)) files.push(["round.wav", async () => (await library.ask("wav", plan.transmission, rate)).given]);
  if (plan?.left) files.push(["rest.csv", () => plan.rest], ["why.cert", () => plan.why]);
  const buttons = files.map(([name, data]) => made("button", { textContent: name, onclick: async () => takeAlong(name, await data()) }));
  if (plan && !hasSound(fewest, rate)) buttons.push(made("span", { className: "dim", textContent: `round.wav: ${NO_SOUND}` }));
  element("files").replaceChildren(...buttons);
}

async function hear() {
  const shown = element("shown"), field = element("pager");
  shown.textContent = "";
  if (!state.plan || (field.value === "" && !field.validity.badInput)) return;
  try {
    const { given } = await library.ask("hear", numberIn(field, "the address"), state.plan.transmission);
    const lines = recordsOf(given).map(({ fields: [, kind, message] }) => `${kind}${message && `: ${message}`}`);
    shown.textContent = lines.join("\n") || "nothing";
  } catch (fault) {
    shown.textContent = fault.message;
  }
}

const ENDINGS = { open: "", closed: " with a closed end", idle: " with an idle last" };

/* What a file is by what it begins with. */
async function kindOf(file) {
  const head = new Uint8Array(await file.slice(0, 256).arrayBuffer()), text = new TextDecoder("latin1").decode(head);
  if (text.startsWith("PCB")) return "certificate";
  if (head[0] === 0xaa) return "transmission";
  return beginsAsPages(new TextDecoder().decode(head)) ? "pages" : "other";
}

const NO_KIND = `not taken, since it begins neither as a page file ("${HEADER}") nor as a certificate nor as a transmission`;

/* What is said of a file: the first page file becomes the round, a certificate and a transmission are compared with the round. */
const VERDICTS = {
  async pages(file, { isFirst }) {
    if (!isFirst) return "not taken, since another page file came with it";
    replaceRound(new TextDecoder("utf-8", { ignoreBOM: true }).decode(await bytesOfFile(file)));
    return "the round";
  },
  async certificate(file) {
    const { isShown, batches, end } = (await library.ask("check", state.text, await bytesOfFile(file))).given;
    return isShown ? `at least ${counted(batches, "batch", "batches")}${ENDINGS[end]}` : "not shown";
  },
  async transmission(file, { isAlone }) {
    if (element("plan").ariaBusy === "true") await new Promise((done) => waiting.push(done));
    const { given: listing } = await library.ask("decode", await bytesOfFile(file));
    const planned = state.plan && (await library.ask("decode", state.plan.transmission)).given;
    const records = (text) => JSON.stringify(recordsOf(text).map(({ fields }) => fields).sort());
    const isSame = planned && records(planned) === records(listing);
    const said = `${counted(recordsOf(listing).length, "page")}, ${isSame ? "those" : "not those"} of the round`;
    return [said, made("details", { open: isAlone }, made("summary", { textContent: `pages of ${file.name}` }), listing)];
  },
  other: async (file) => (file.size ? NO_KIND : "not taken, since it is empty"),
};

const bytesOfFile = async (file) => new Uint8Array(await file.arrayBuffer());

/* Judges each of these files, page files first, and says so in their order. */
async function judge(files) {
  const lines = files.map(({ name }) => made("div", { textContent: `${name}: ` }));
  element("verdict").replaceChildren(...lines);
  const kinds = await Promise.all(files.map((file) => kindOf(file).catch(() => "other")));
  const order = [...files.keys()].sort((a, b) => (kinds[b] === "pages") - (kinds[a] === "pages"));
  for (const at of order) {
    const how = { isFirst: at === order[0], isAlone: files.length === 1 };
    lines[at].append(...[await VERDICTS[kinds[at]](files[at], how).catch((fault) => fault.message)].flat());
  }
}

const streamed = async (data, stream) => new Uint8Array(await new Response(new Blob([data]).stream().pipeThrough(stream)).arrayBuffer());
const bytesIn = (text) => Uint8Array.from(atob(text.replaceAll("-", "+").replaceAll("_", "/")), (it) => it.charCodeAt(0));

const settings = () => ({ ...Object.fromEntries(new FormData(element("options"))), always: element("options").elements.always.checked });

function setSettings(given) {
  const { elements } = element("options");
  for (const [name, value] of Object.entries(given)) if (elements[name]) elements[name].value = value;
  elements.always.checked = given.always;
}

function sayOfLink(text, isFault = false) {
  element("linked").textContent = text;
  element("linked").classList.toggle("fault", isFault);
}

/* A link carries the round and the options, packed, with a sum that shows damage. */
async function copyLink() {
  const packed = await streamed(JSON.stringify({ text: state.text, settings: settings() }), new CompressionStream("deflate"));
  const text = btoa(Array.from(packed, (it) => String.fromCharCode(it)).join(""));
  history.replaceState(null, "", `#${text.replaceAll("+", "-").replaceAll("/", "_").replaceAll("=", "")}`);
  const copied = navigator.clipboard?.writeText(location.href) ?? Promise.reject();
  await copied.then(() => sayOfLink("copied"), () => sayOfLink("not copied: take it from the address bar"));
}

/* Takes the round of the link, or says that the link is damaged. Links of version 1.1.0 have no sum. */
async function openLink() {
  if (location.hash.length < 2) return;
  try {
    const packed = bytesIn(location.hash.slice(1)), format = packed[0] === 0x78 ? "deflate" : "deflate-raw";
    const { text, settings: given } = JSON.parse(new TextDecoder().decode(await streamed(packed, new DecompressionStream(format))));
    if (typeof text !== "string") throw new TypeError("no round");
    setSettings(given);
    replaceRound(text);
  } catch {
    sayOfLink("the link is damaged: it has no round", true);
  }
}

/* What a reload keeps: the options, the link that was opened, and the rounds, or where they are too large only the last, or none. */
const KEPT = "pocsag";

function keep() {
  rounds.texts[rounds.at] = state.text;
  for (const kept of [rounds, { texts: [state.text], at: 0 }, {}]) {
    try {
      return sessionStorage.setItem(KEPT, JSON.stringify({ ...kept, settings: settings(), hash: location.hash }));
    } catch {} // more than the browser keeps
  }
}

/* Whether there are rounds that were kept, which are then shown. */
function openKept() {
  try {
    const { texts, at, settings: given, hash } = JSON.parse(sessionStorage.getItem(KEPT));
    if (hash !== location.hash) return false;
    setSettings(given);
    rounds.texts = texts;
    showRoundAt(at);
    return true;
  } catch {
    return false; // nothing was kept
  }
}

/* Rounds to begin with; the pages of the larger ones are drawn by a fixed rule. */
function drawn(count) {
  let number = 1;
  const next = (below) => (number = (number * 48_271) % 2_147_483_647) % below;
  return fileOf([...Array(count).keys()].map((k) => {
    const [kind, text] = [["numeric", "55501992043318560027"], ["alpha", "call the ward, bed 7 ".repeat(3)], ["tone0", ""]][next(3)];
    return [String(7 * k + next(7)), kind, text.slice(0, 1 + next(60))];
  }));
}
const DRAWN = {
  "three tones of one frame": () => `${HEADER}\n5,tone0,\n13,tone0,\n21,tone0,\n`,
  "a thousand pages": () => drawn(1_000),
  "twenty thousand pages": () => drawn(20_000),
  "no page": () => `${HEADER}\n`,
};

/* == Where it begins. == */

const table = new Rows(element("rows"), 32, makeRow, fillRow);
const cells = new Cells(element("table"), table, (row) => point(pageOf(row)));
const grids = [...document.querySelectorAll(".sent")].map((place) => {
  const [box, counts, play] = [".grid", ".counts", ".play"].map((it) => place.querySelector(it)), which = place.dataset.which;
  const rows = new Rows(box, ROW, () => made("div", { role: "row" }), (row, batch) => fillBatch(row, batch, state[which]));
  place.querySelector(".columns").append(made("b"), ...[...Array(8).keys()].map((frame) => made("span", { textContent: frame })));
  return { which, box, counts, rows, play };
});
for (const grid of grids) {
  grid.box.onkeydown = (event) => move(event, grid);
  grid.play.onclick = () => play(grid);
  grid.box.onmouseover = ({ target }) => {
    const sent = state[grid.which], index = Number(target.dataset.index ?? NaN), page = sent?.pages[sent.owners[index]];
    if (index >= 0) point(page, page ? undefined : `${placeOf(index)}: an idle codeword`);
  };
  grid.box.onclick = () => pointed !== null && table.reach(recordOf(pointed));
}
document.addEventListener("keydown", goByKeys);
element("options").onsubmit = (event) => event.preventDefault();
element("options").oninput = ({ target }) => {
  if (target.type === "number") element("options").elements.send.value = target.name;
  replan();
};
element("csv").oninput = () => setRound(element("csv").value);
element("anyway").onclick = () => {
  readAnyway();
  element("csv").focus();
};
element("add").onclick = addPage;
element("as-table").onclick = () => showAs("table");
element("as-csv").onclick = () => showAs("csv");
element("deeper").onclick = () => explain(state.depth + 2).catch(showFault);
element("pager").oninput = hear;
element("back").onclick = () => goBy(-1);
element("link").onclick = copyLink;
element("file").onchange = async ({ target }) => {
  await judge([...target.files]);
  target.value = "";
};
document.ondragover = (event) => event.preventDefault();
document.ondrop = (event) => {
  event.preventDefault();
  if (event.dataTransfer.files.length) judge([...event.dataTransfer.files]);
};
const dark = matchMedia("(prefers-color-scheme: dark)");
document.documentElement.classList.toggle("dark", dark.matches);
dark.onchange = () => document.documentElement.classList.toggle("dark", dark.matches);
element("theme").onclick = () => document.documentElement.classList.toggle("dark");
onhashchange = openLink;
onpagehide = keep;
onresize = showRound;

const examples = { ...Object.fromEntries(Object.entries(EXAMPLES).map(([name, text]) => [name, () => text])), ...DRAWN };
element("example").append(made("option", { value: "", textContent: "none", hidden: true }));
element("example").append(...Object.keys(examples).map((name) => made("option", { textContent: name })));
element("example").onchange = ({ target: { value } }) => {
  replaceRound(examples[value]());
  element("example").value = value;
};

/* A worker with the class over the module that is packed in an element. */
async function begun(id, kind) {
  const code = await streamed(bytesIn(element(id).textContent), new DecompressionStream("deflate-raw"));
  return new Library(await WebAssembly.compile(code), element("worker").textContent, kind);
}
const roundFiles = () => ({ "round.csv": state.text, ...(state.plan && { "round.bin": state.plan.transmission, "round.cert": state.plan.certificate }) });
new CommandLine(element("command"), roundFiles, () => begun("program", "Program"), takeAlong);
library = await begun("module", "Pocsag");
if (!openKept()) {
  const isLink = location.hash.length > 1;
  rounds.texts = [isLink ? `${HEADER}\n` : Object.values(examples)[0]()];
  showRoundAt(0);
  if (isLink) await openLink();
  else element("example").selectedIndex = 1;
}
