/* Times calls of the WebAssembly module: calls.mjs MODULE CASES, with the cases of `run`. Prints the least milliseconds of each. */
import { readFileSync } from "node:fs";

const { exports } = new WebAssembly.Instance(new WebAssembly.Module(readFileSync(process.argv[2])), {});
const place = (size) => exports.pocsag_take(BigInt(size));

for (const { call, words, runs } of JSON.parse(readFileSync(process.argv[3]))) {
  const given = words.flatMap(([kind, value]) => {
    if (kind === "number") return [value];
    if (kind === "info") return [place(value)];
    if (kind === "room") return [place(value), BigInt(value), place(8)];
    const data = readFileSync(value), address = place(data.length);
    new Uint8Array(exports.memory.buffer, Number(address), data.length).set(data);
    return [address, BigInt(data.length)];
  });
  let least = Infinity;
  for (let k = 0; k < runs; k++) {
    const begun = performance.now();
    const status = exports[call](...given);
    least = Math.min(least, performance.now() - begun);
    if (status) throw new Error(`${call}: status ${status}`);
  }
  console.log(least);
}
