/* Calls the WebAssembly module as C would: calls.mjs MODULE. Each line of standard input is a call as JSON, a name and its words:
 * ["bytes", HEX], ["file", PATH], ["room", SIZE], ["number", N], ["wide", N] of 64 bits, or ["info", SIZE]. Each line of the answer is the status, and of
 * each room the length that was told and a sum of its bytes, and of each structure its bytes. */
import { createHash } from "node:crypto";
import { readFileSync } from "node:fs";
import { createInterface } from "node:readline";

const module = new WebAssembly.Module(readFileSync(process.argv[2]));
let { exports } = new WebAssembly.Instance(module, {});
const bytes = (address, size) => Buffer.from(exports.memory.buffer, Number(address), size);

function call([name, ...words]) {
  const held = [], outs = [];
  const take = (size, fill) => {
    const address = exports.pocsag_take(BigInt(size));
    if (address === 0n) throw new Error("no memory for a buffer");
    held.push(address);
    bytes(address, size).fill(fill);
    return address;
  };
  const given = words.flatMap(([kind, value]) => {
    if (kind === "number") return [value];
    if (kind === "wide") return [BigInt(value)];
    if (kind === "info") {
      const address = take(value, 0x5a);
      outs.push(() => bytes(address, value).toString("hex"));
      return [address];
    }
    if (kind === "room") {
      const [address, told] = [take(value, 0x5a), take(8, 0x5a)];
      outs.push(() => [String(bytes(told, 8).readBigUInt64LE()), createHash("sha256").update(bytes(address, value)).digest("hex")]);
      return [address, BigInt(value), told];
    }
    const data = kind === "bytes" ? Buffer.from(value, "hex") : readFileSync(value), address = take(data.length, 0);
    bytes(address, data.length).set(data);
    return [address, BigInt(data.length)];
  });
  const status = exports[name](...given) >>> 0, told = outs.map((out) => out());
  held.reverse().forEach((address) => exports.pocsag_give(address));
  if (exports.memory.buffer.byteLength > 2 ** 28) ({ exports } = new WebAssembly.Instance(module, {}));
  return [status, ...told];
}

let answers = [];
for await (const line of createInterface({ input: process.stdin })) {
  answers.push(JSON.stringify(call(JSON.parse(line))));
}
process.stdout.write(answers.join("\n") + "\n");
console.error(`memory ${exports.memory.buffer.byteLength}`);
