/* The system as the program's module sees it. The module imports calls of the C library, with the numbers and layouts of Linux on x86-64;
 * here they become calls of an object with the names of node:fs and a few more. One that fails throws an error with the reason's name. */

const ERRORS = {
  EPERM: 1, ENOENT: 2, EINTR: 4, EIO: 5, ENXIO: 6, EBADF: 9, EAGAIN: 11, ENOMEM: 12, EACCES: 13, EBUSY: 16, EEXIST: 17, EXDEV: 18, ENODEV: 19,
  ENOTDIR: 20, EISDIR: 21, EINVAL: 22, ENFILE: 23, EMFILE: 24, ENOTTY: 25, ETXTBSY: 26, EFBIG: 27, ENOSPC: 28, ESPIPE: 29, EROFS: 30,
  EMLINK: 31, EPIPE: 32, ENAMETOOLONG: 36, ENOSYS: 38, ENOTEMPTY: 39, ELOOP: 40, ENODATA: 61, EOVERFLOW: 75, EILSEQ: 84, ENOTSUP: 95,
  ECONNRESET: 104, ENOTCONN: 107, ETIMEDOUT: 110, ESTALE: 116, EDQUOT: 122,
};
const FLAGS = { O_WRONLY: 0o1, O_RDWR: 0o2, O_CREAT: 0o100, O_EXCL: 0o200, O_NOCTTY: 0o400, O_TRUNC: 0o1000, O_APPEND: 0o2000 };
const AT_SYMLINK_NOFOLLOW = 0x100, AT_EMPTY_PATH = 0x1000, F_DUPFD_CLOEXEC = 1030;
const MOST_BYTES = 0x7ffff000; // of one call to read or write
const STATX_SIZE = 256, ALL_BUT_TIMES = 0x31f;
const STREAM = /^\/proc\/self\/fd\/([0-2])$/; // by which the program asks what its standard streams are

/* Has a call of the system fail for the reason of this name. */
export function refuse(code) {
  throw Object.assign(new Error(code), { code });
}

/* One run of the program, over a system and with words, which are bytes. */
export class Run {
  #system;
  #words;
  #memory;
  #error = 0;

  constructor(system, words) {
    [this.#system, this.#words] = [system, [new TextEncoder().encode("pocsag"), ...words]];
  }

  /* Runs the program of a module in a fresh instance, to its exit status. */
  status(module) {
    try {
      const { exports } = new WebAssembly.Instance(module, { env: this.#calls() });
      this.#memory = exports.memory;
      return exports.main(0, 0n) & 255;
    } catch (error) {
      return this.stopped(error);
    }
  }

  /* The same where the engine stops the program, or has none of it: it has no more memory or stack, or the file is no module. */
  stopped(error) {
    const text = error instanceof RangeError ? "out of memory" : error.message;
    this.#narrow(() => this.#system.writeSync(2, new TextEncoder().encode(`pocsag: ${text}\n`)))();
    return 3; // the status of a file and of memory
  }

  #bytes = (at, size) => new Uint8Array(this.#memory.buffer, Number(at), Math.min(Number(size), MOST_BYTES));
  #view = (at, size) => new DataView(this.#memory.buffer, Number(at), size);

  /* The path that begins there and ends in front of a zero. */
  #path(at) {
    const bytes = new Uint8Array(this.#memory.buffer, Number(at));
    return bytes.slice(0, bytes.indexOf(0));
  }

  /* A call that returns a number of 32 bits: what the system returns or else 0, and -1 where it fails. */
  #narrow = (call) => (...words) => {
    try {
      return call(...words) ?? 0;
    } catch (error) {
      if (typeof error.code !== "string") throw error; // no fault of the system
      this.#error = ERRORS[error.code] ?? ERRORS.EIO;
      return -1;
    }
  };
  #wide = (call) => (...words) => BigInt(this.#narrow(call)(...words)); // the same of 64 bits

  /* The calls that the module imports. */
  #calls() {
    const system = this.#system, [narrow, wide] = [this.#narrow, this.#wide];
    const path = (at) => this.#path(at), flagsIn = (number) => Object.keys(FLAGS).filter((name) => number & FLAGS[name]);
    return {
      rattle_errno: () => this.#error,
      rattle_set_errno: (number) => void (this.#error = number),
      rattle_arg: (index, at, size) => this.#put(this.#words[Number(index)], at, size),
      getpid: () => system.pid,
      nanosleep: narrow((at) => void system.pause(this.#milliseconds(at))),
      host_fcntl: narrow((file, command) => (command === F_DUPFD_CLOEXEC ? system.duplicate(file) : refuse("EINVAL"))),
      close: narrow((file) => system.closeSync(file)),
      read: wide((file, at, size) => system.readSync(file, this.#bytes(at, size))),
      write: wide((file, at, size) => system.writeSync(file, this.#bytes(at, size))),
      isatty: (file) => Number(system.isatty(file)),
      ftruncate: narrow((file, size) => system.ftruncateSync(file, Number(size))),
      fchmod: narrow((file, mode) => system.fchmodSync(file, mode)),
      fchown: narrow((file, user, group) => system.fchownSync(file, user >>> 0, group >>> 0)),
      fsync: narrow((file) => system.fsyncSync(file)),
      fdatasync: narrow((file) => system.fsyncSync(file)),
      flock: narrow((file) => system.lock(file)),
      host_open: narrow((at, flags, mode) => system.openSync(path(at), flagsIn(flags), mode)),
      statx: narrow((file, at, flags, _, to) => this.#describe(this.#found(file, path(at), flags), to)),
      link: narrow((from, to) => system.linkSync(path(from), path(to))),
      rename: narrow((from, to) => system.renameSync(path(from), path(to))),
      unlink: narrow((at) => system.unlinkSync(path(at))),
      // The program reads a folder for what killed runs left there and nobody has locked. Without locks there is nothing of that.
      rattle_open_dir_at: narrow(() => refuse("ENOSYS")),
      getdents64: wide(() => refuse("ENOSYS")),
    };
  }

  /* Puts a word there. Gives its length, -1 where there is none, or -2 where it has no room. */
  #put(word, at, size) {
    if (!word || word.length > size) return word ? -2n : -1n;
    this.#bytes(at, word.length).set(word);
    return BigInt(word.length);
  }

  /* A time of seconds and of nanoseconds. */
  #milliseconds(at) {
    const [seconds, rest] = [0, 8].map((place) => Number(this.#view(at, 16).getBigInt64(place, true)));
    return seconds * 1e3 + rest / 1e6;
  }

  /* What is known of a file at a path, or of one that is open. */
  #found(file, path, flags) {
    const how = { bigint: true }, stream = STREAM.exec(String.fromCharCode(...path));
    if (stream || flags & AT_EMPTY_PATH) return this.#system.fstatSync(stream ? Number(stream[1]) : file, how);
    return flags & AT_SYMLINK_NOFOLLOW ? this.#system.lstatSync(path, how) : this.#system.statSync(path, how);
  }

  /* Writes it as Linux's statx does: all but its times. */
  #describe({ mode, nlink, uid, gid, ino, size, dev }, to) {
    const view = this.#view(to, STATX_SIZE);
    this.#bytes(to, STATX_SIZE).fill(0);
    view.setUint32(0, ALL_BUT_TIMES, true);
    for (const [at, number] of [[16, nlink], [20, uid], [24, gid]]) view.setUint32(at, Number(number), true);
    view.setUint16(28, Number(mode), true);
    for (const [at, number] of [[32, ino], [40, size], [136, dev]]) view.setBigUint64(at, number, true);
  }
}

/* == From here on as an ES module. == */

/* The compiled module of a file. */
export async function compiled(place) {
  if (place.protocol !== "file:" || globalThis.Deno) return WebAssembly.compile(await (await fetch(place)).arrayBuffer());
  return WebAssembly.compile(await (await import("node:fs/promises")).readFile(place));
}
