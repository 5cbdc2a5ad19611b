/* The program over files in memory, for pages, workers and Node:
 *
 *     import { run } from "./program.mjs";
 *     const { status, out, err, files } = run(["plan", "round.csv", "round.bin", "round.cert"], { "round.csv": text });
 *
 * with program.wasm and system.mjs beside it. Each call is a run of its own, and has no other files. program.d.mts describes it. */
import { compiled, refuse, Run } from "./system.mjs";

const REGULAR = 0o100000, FOLDER = 0o40755, PIPE = 0o10600; // kinds of files, with what their owner may do
const encoded = (given) => (typeof given === "string" ? new TextEncoder().encode(given) : given);

/* A copy of the bytes with zeros up to so many. */
function padded(bytes, size) {
  try {
    const room = new Uint8Array(size);
    room.set(bytes);
    return room;
  } catch {
    return refuse("ENOSPC");
  }
}

/* A file, a folder or a stream: its bytes, with room for more, and what is known of it. */
class File {
  names = 0;

  constructor(number, mode, bytes = new Uint8Array()) {
    Object.assign(this, { number, mode, room: new Uint8Array(bytes), size: bytes.length });
  }

  get bytes() {
    return this.room.subarray(0, this.size);
  }

  get status() {
    return { mode: this.mode, nlink: this.names, uid: 0, gid: 0, ino: BigInt(this.number), size: BigInt(this.size), dev: 1n };
  }

  resize(size) {
    [this.room, this.size] = [padded(this.bytes.subarray(0, size), size), size];
  }

  write(at, bytes) {
    const end = at + bytes.length;
    if (end > this.room.length) this.room = padded(this.bytes, Math.max(end, 2 * this.size));
    this.room.set(bytes, at);
    this.size = Math.max(this.size, end);
  }
}

/* Files in memory as a system. One run has them, so each lock is free. Their folders are those of the files that are given. */
class Files {
  pid = 1;
  #count = 0;
  #named = new Map(); // files and folders by their paths, of which that of the folder of all is empty
  #openings = []; // by their numbers

  constructor(given, input) {
    this.#make("", FOLDER);
    for (const [name, data] of Object.entries(given)) {
      const parts = name.split("/").filter((part) => part !== "" && part !== ".");
      parts.slice(1).forEach((_, k) => this.#make(parts.slice(0, k + 1).join("/"), FOLDER));
      this.#make(parts.join("/"), REGULAR | 0o644, encoded(data));
    }
    this.streams = [encoded(input), undefined, undefined].map((bytes) => new File(++this.#count, PIPE, bytes));
    this.streams.forEach((file, number) => this.#open({ file, at: 0, isRead: number === 0, isWritten: number > 0 }));
  }

  get all() {
    return Object.fromEntries([...this.#named].filter(([, { mode }]) => mode & REGULAR).map(([path, { bytes }]) => [path, bytes]));
  }

  #make(path, mode, bytes) {
    if (!this.#named.has(path)) this.#name(path, new File(++this.#count, mode, bytes));
  }

  #name(path, file) {
    file.names++;
    this.#named.set(path, file);
  }

  /* A path in its one spelling. What stands in front of a stroke must be a folder. */
  #path(bytes) {
    const parts = [], text = new TextDecoder("utf-8", { ignoreBOM: true }).decode(bytes);
    if (text === "") refuse("ENOENT");
    for (const part of text.split("/")) {
      if (this.#at(parts.join("/")).mode & REGULAR) refuse("ENOTDIR");
      if (part === "..") parts.pop();
      else if (part !== "" && part !== ".") parts.push(part);
    }
    return parts.join("/");
  }

  #at = (path) => this.#named.get(path) ?? refuse("ENOENT");
  #regular = (path) => (this.#at(path).mode & REGULAR ? this.#at(path) : refuse("EISDIR"));
  #opened = (number) => this.#openings[number] ?? refuse("EBADF");

  /* The lowest number that is free becomes that of an opening. */
  #open(opening) {
    const free = this.#openings.findIndex((it) => !it), number = free < 0 ? this.#openings.length : free;
    this.#openings[number] = opening;
    return number;
  }

  openSync(name, flags, mode) {
    const path = this.#path(name), has = (flag) => flags.includes(flag), isWritten = has("O_WRONLY") || has("O_RDWR");
    if (has("O_EXCL") && this.#named.has(path)) refuse("EEXIST");
    if (has("O_CREAT")) this.#make(path, REGULAR | mode);
    const file = isWritten ? this.#regular(path) : this.#at(path);
    if (has("O_TRUNC")) file.resize(0);
    return this.#open({ file, at: 0, isRead: !has("O_WRONLY"), isWritten, isAppended: has("O_APPEND") });
  }

  readSync(number, room) {
    const opening = this.#opened(number), { file, at, isRead } = opening;
    if (!isRead || file.mode === FOLDER) refuse(isRead ? "EISDIR" : "EBADF");
    const piece = file.bytes.subarray(at, at + room.length);
    room.set(piece);
    opening.at += piece.length;
    return piece.length;
  }

  writeSync(number, bytes) {
    const opening = this.#opened(number), { file, isWritten, isAppended } = opening;
    if (!isWritten) refuse("EBADF");
    if (isAppended) opening.at = file.size;
    file.write(opening.at, bytes);
    opening.at += bytes.length;
    return bytes.length;
  }

  duplicate = (number) => this.#open(this.#opened(number));
  closeSync = (number) => void (this.#openings[this.#opened(number) && number] = undefined);
  ftruncateSync = (number, size) => (this.#opened(number).isWritten ? this.#opened(number).file.resize(size) : refuse("EINVAL"));
  fchmodSync = (number, mode) => void (this.#opened(number).file.mode = REGULAR | mode);
  fsyncSync = (number) => void this.#opened(number);
  lock = this.fsyncSync;
  fstatSync = (number) => this.#opened(number).file.status;
  statSync = (name) => this.#at(this.#path(name)).status;
  lstatSync = this.statSync; // no path is a link
  isatty = () => false;
  pause = () => {}; // nothing changes meanwhile

  linkSync(from, to) {
    const file = this.#regular(this.#path(from)), path = this.#path(to);
    this.#named.has(path) ? refuse("EEXIST") : this.#name(path, file);
  }

  renameSync(from, to) {
    const path = this.#path(to), file = this.#regular(this.#path(from));
    if (this.#named.get(path) === file) return; // as POSIX has it
    if (this.#named.has(path)) this.unlinkSync(to);
    this.#name(path, file);
    this.unlinkSync(from);
  }

  unlinkSync(name) {
    const path = this.#path(name);
    this.#regular(path).names--;
    this.#named.delete(path);
  }
}

/* The program of a compiled module. */
export class Program {
  constructor(module) {
    this.module = module;
  }

  run(words, files = {}, { input = "" } = {}) {
    const system = new Files(files, input), status = new Run(system, words.map(encoded)).status(this.module);
    const [, out, err] = system.streams.map(({ bytes }) => bytes);
    return { status, out, err, files: system.all };
  }
}

/* == From here on as an ES module: the program of the file beside this one. == */

const program = new Program(await compiled(new URL("program.wasm", import.meta.url)));
export const run = (words, files, options) => program.run(words, files, options);
