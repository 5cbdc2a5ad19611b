/** The program over files in memory: see program.mjs. */

/** The files of a run by their paths, as `round.csv` or `ward/round.csv`. Text stands for its bytes in UTF-8. */
export type Files = Record<string, Uint8Array | string>;

export interface Result {
  /** The exit status: 0 done, 1 refused or not shown, 2 wrong words, 3 a file or memory. */
  status: number;
  /** What the program wrote to standard output, and to standard error. */
  out: Uint8Array;
  err: Uint8Array;
  /** All files that there are behind the run. */
  files: Record<string, Uint8Array>;
}

export interface Options {
  /** What standard input holds; nothing where it is not given. */
  input?: Uint8Array | string;
}

/** Runs the program with these words, as `["plan", "round.csv", "round.bin", "round.cert"]`, over these files alone. What is given stays
 * as it is. It returns when the program has ended, so call it from a worker where a search may be long. */
export function run(words: readonly string[], files?: Files, options?: Options): Result;

/** The program of a `WebAssembly.Module` that you compiled yourself, for instance in a worker. */
export class Program {
  constructor(module: object);
  run(words: readonly string[], files?: Files, options?: Options): Result;
}
