#!/usr/bin/env node
/* The program in Node: node cli.mjs WORDS, with program.wasm and system.mjs beside it. It has all commands of the manual page. What is here
 * carries out the calls of the system that the program makes. */
import fs from "node:fs";
import { isatty } from "node:tty";
import { setFlagsFromString } from "node:v8";
import { compiled, refuse, Run } from "./system.mjs";

const PAUSE_MS = 5; // between two looks at a stream that is not ready
const IS_WINDOWS = process.platform === "win32";

const pause = (ms) => Atomics.wait(new Int32Array(new SharedArrayBuffer(4)), 0, 0, ms);

/* What a call returns that reads or writes. It waits for a pipe or a terminal that another process has set not to wait. */
function waited(call) {
  for (;;) {
    try {
      return call();
    } catch (error) {
      if (error.code === "EOF") return 0; // the end of a pipe on Windows
      if (error.code !== "EAGAIN") throw error;
      pause(PAUSE_MS);
    }
  }
}

/* Opens a file by the names of flags, of which Windows has some. There only what is open for writing can be brought to the disk. */
function openSync(path, names, mode) {
  const flags = names.reduce((sum, name) => sum | fs.constants[name], 0);
  if (!IS_WINDOWS || flags !== fs.constants.O_RDONLY) return fs.openSync(path, flags, mode);
  try {
    return fs.openSync(path, "r+");
  } catch {
    return fs.openSync(path, "r");
  }
}

/* The words behind the name of this script. Of a word that is no UTF-8 Node keeps no more than that, but /proc of Linux shows its bytes.
 * On Windows a path may have the stroke that the program does not know. */
function words() {
  const given = process.argv.slice(2).map((word) => Buffer.from(IS_WINDOWS ? word.replaceAll("\\", "/") : word));
  if (!fs.existsSync("/proc/self/cmdline")) return given;
  const shown = fs.readFileSync("/proc/self/cmdline", "latin1").split("\0").slice(0, -1);
  return shown.slice(shown.length - given.length).map((word) => Buffer.from(word, "latin1"));
}

/* Node has no call that locks a file, and none that duplicates a descriptor. */
const refused = () => refuse("ENOTSUP");
const system = {
  ...fs, openSync, pause, isatty, pid: process.pid, lock: refused, duplicate: refused,
  readSync: (file, bytes) => waited(() => fs.readSync(file, bytes)),
  writeSync: (file, bytes) => waited(() => fs.writeSync(file, bytes)),
};
setFlagsFromString("--wasm-tiering-budget=20000000"); // a short run takes longer to compile better than to end
const run = new Run(system, words()), module = compiled(new URL("program.wasm", import.meta.url));
process.exitCode = await module.then((it) => run.status(it), (error) => run.stopped(error));
