/* What is read of page files and of transmissions that the library has taken. tests/web compares it with the library and the program. */

const PREAMBLE = 72, BATCH = 68, IDLE = 0x7a89c197;

/* The records of a page file behind its header, at most so many: the fields of each, and where it ends in the text. A quote
 * stands for itself anywhere but at the head of a field and behind it up to the quote that closes. */
export function recordsOf(text, most = Infinity) {
  const records = [], edge = /[,\r\n]/g;
  let at = text.startsWith("\ufeff") ? 1 : 0;
  while (at < text.length && records.length <= most) {
    if (text[at] === "\n" || text[at] === "\r") {
      at++;
      continue;
    }
    const fields = [];
    do {
      let field = "";
      if (text[at] === '"') {
        for (at++; at < text.length && (text[at] !== '"' || text[at + 1] === '"'); at++) {
          if (text[at] === '"') at++;
          field += text[at];
        }
        at++;
      }
      edge.lastIndex = at;
      const stop = edge.exec(text)?.index ?? text.length;
      fields.push(field + text.slice(at, stop));
      at = stop;
    } while (text[at++] === ",");
    records.push({ fields, end: Math.min(at, text.length) });
  }
  return records.slice(1);
}

/* What a transmission says: its batches, its codewords, the pages in order, and the page of each codeword, -1 for an idle.
 * The library has read it without a fault. */
export function readingOf(bytes) {
  const view = new DataView(bytes.buffer, bytes.byteOffset, bytes.byteLength);
  const batches = Math.floor((bytes.length - PREAMBLE) / BATCH), start = bytes.length - batches * BATCH;
  const words = new Uint32Array(16 * batches), owners = new Int32Array(16 * batches).fill(-1), pages = [];
  for (let index = 0; index < words.length; index++) {
    const word = (words[index] = view.getUint32(start + (index >> 4) * BATCH + 4 + 4 * (index & 15)));
    if (word === IDLE) continue;
    if (word < 2 ** 31) pages.push({ address: ((word >>> 13) << 3) | ((index >> 1) & 7), start: index, length: 0 });
    owners[index] = pages.length - 1;
    pages[pages.length - 1].length++;
  }
  return { batches, words, owners, pages };
}
