/* What the page itself writes of page files, and how it names pages and nodes. tests/web compares each with the program. */

export const HEADER = "address,kind,message";
export const KINDS = ["numeric", "alpha", "tone0", "tone1", "tone2", "tone3"];

const quoted = (field) => (/[",\r\n]/.test(field) ? `"${field.replaceAll('"', '""')}"` : field);

/* A page file of these fields. */
export const fileOf = (rows) => [HEADER, ...rows.map((fields) => fields.map(quoted).join(","))].join("\n") + "\n";

/* A field without what a line cannot show: the end of a line as an arrow, which every font has, each other control character as its
 * picture; and back. */
const shifted = (text, by) => text.replace(/./gs, (it) => String.fromCharCode(it.charCodeAt(0) + by));
export const pictured = (field) => field.replace(/[\x00-\x1f]+/g, (it) => shifted(it, 0x2400)).replaceAll("\x7f", "\u2421").replaceAll("\u240a", "\u21b5");
export const unpictured = (line) => line.replaceAll("\u21b5", "\n").replace(/[\u2400-\u241f]+/g, (it) => shifted(it, -0x2400)).replaceAll("\u2421", "\x7f");

/* The milliseconds of so many batches at a rate, rounded up. */
export const airtimeOf = (batches, rate) => Math.ceil(((576 + 544 * batches) * 1000) / rate);

/* Whether a file that begins like this is a page file: its first record is the header. */
export const beginsAsPages = (text) => /^\ufeff?[\r\n]*("?)address\1,("?)kind\2,("?)message\3(?=[\r\n]|$)/.test(text);

/* The label and the hue of each page, in the order of the file: A to Z, then A2 to Z2. */
export function labelsOf(addresses) {
  const label = (k) => String.fromCharCode(65 + (k % 26)) + (k < 26 ? "" : Math.floor(k / 26) + 1);
  return new Map(addresses.map((address, k) => [address, { hue: k % 12, label: label(k) }]));
}

/* Words of the library with separators in numbers that count. Numbers that name something have none. */
const NUMBERS = /\b(?:address(?:es)?|record|line|codeword|batch|at|node) [\d., ]+|\d{4,}/g;
export const grouped = (words) => words.replace(NUMBERS, (it) => (/^\d/.test(it) ? Number(it).toLocaleString("en") : it));

/* The nodes of an explanation: its words beside its facts. */
export function nodesOf(text, facts) {
  const lines = [];
  for (const line of text.trimEnd().split("\n")) {
    const trimmed = line.trim(), begins = line === trimmed || /^(node \d|limits: |\.\. \d+ nodes? below)/.test(trimmed);
    if (begins) lines.push(trimmed);
    else lines[lines.length - 1] += ` ${trimmed}`;
  }
  const nodes = [];
  for (const line of lines.slice(1, -1)) {
    const [, number, words] = /^node ([\d.]+)(?:: |, )(.*)$/.exec(line) ?? [];
    if (number) nodes.push({ number, words, limits: "", facts: facts.listed[nodes.length] });
    else if (line.startsWith("limits: ")) nodes[nodes.length - 1].limits = line.slice(8);
  }
  const below = /^\.\. (\d+) nodes? below$/;
  const hidden = lines.map((line) => Number(below.exec(line)?.[1] ?? 0)).reduce((sum, count) => sum + count, 0);
  return { sum: lines[0], nodes, hidden, so: lines[lines.length - 1] };
}
