/* Runs the program over files in memory: memory.mjs FOLDER. Each line of standard input is a run as JSON: its words, its files and its input,
 * in base64; each line of standard output what it returns, likewise. */
import { join, resolve } from "node:path";
import { createInterface } from "node:readline";
import { pathToFileURL } from "node:url";

const { run } = await import(pathToFileURL(join(resolve(process.argv[2]), "program.mjs")));
const each = (files, change) => Object.fromEntries(Object.entries(files).map(([name, data]) => [name, change(data)]));
const [packed, unpacked] = [(bytes) => Buffer.from(bytes).toString("base64"), (text) => Buffer.from(text, "base64")];

for await (const line of createInterface({ input: process.stdin })) {
  const { words, files, input } = JSON.parse(line), given = each(files, unpacked);
  const { status, out, err, files: left } = run(words, given, { input: unpacked(input) });
  if (JSON.stringify(each(given, packed)) !== JSON.stringify(files)) throw new Error(`${words} changed what was given`);
  process.stdout.write(`${JSON.stringify({ status, out: packed(out), err: packed(err), files: each(left, packed) })}\n`);
}
