/** Plans of paging rounds with the fewest batches, certificates of that, and what transmissions say. */

/** What is read: bytes, or a text that is taken as UTF-8. */
export type Data = string | ArrayBufferView | ArrayBufferLike;
/** What ends the last message: the end of the transmission; a codeword that is no message; an idle codeword. */
export type End = "open" | "closed" | "idle";

/** What is read of bytes: these; their repair; or all transmissions of a capture, one behind the other. */
export type Reading = "plain" | "repaired" | "captured";
export type Kind = "tone0" | "tone1" | "tone2" | "tone3" | "numeric" | "alpha";

export interface Strict {
  /** Refuses a page file in which a quote does not stand as CSV has it. False where it is not given. */
  strict?: boolean;
}

export interface Search extends Strict {
  /** The most nodes that the search examines, 1 to 1,000,000; 100,000 where it is not given. */
  limit?: number;
  /** `open` where it is not given. */
  end?: End;
  /** Refuses no round: where the search stops at its limit, the batches may be one more than the bound. True where it is not given. */
  always?: boolean;
}

export interface Plan {
  transmission: Uint8Array;
  certificate: Uint8Array;
  /** Of the pages that are planned. */
  pages: number;
  codewords: number;
  /** Batches in the order of the file, with the open end. */
  inOrder: number;
  /** Of the transmission. */
  batches: number;
  /** No transmission of the pages has fewer; `batches`, or one less. */
  bound: number;
}

export interface Front extends Plan {
  /** How many pages are left. */
  left: number;
  /** The page file of those that are left. */
  rest: string;
  /** The certificate of one page more, which needs more batches; of no byte where no page is left. */
  why: Uint8Array;
  /** No transmission of one page more has fewer batches; 0 where no page is left. */
  beyond: number;
}

export interface Report {
  pages: number;
  codewords: number;
  inOrder: number;
  batches: number;
  bound: number;
  /** Idle codewords. */
  idles: number;
  /** Of the transmission. */
  bits: number;
  /** Milliseconds, rounded up. */
  airtimeMs: number;
}

export interface Frame {
  /** 0 to 7. The pages of an address start in the frame that is the address modulo 8. */
  frame: number;
  /** How many pages start in it. */
  pages: number;
  /** Of these pages, also those that stand in other frames. */
  codewords: number;
  /** How many codewords of the frame are idle, of two in each batch. */
  room: number;
}

export interface Frames {
  /** The eight frames, in their order. */
  frames: Frame[];
  batches: number;
  bound: number;
}

export interface Verdict {
  /** Whether the certificate shows its batches for the page file. */
  isShown: boolean;
  /** What the certificate names. */
  end: End;
  batches: number;
}

export interface Explanation extends Verdict {
  text: string;
}

/** Why a call did nothing. What `postMessage` gives another worker of it is an object with all these fields, and no `Fault`. */
export class Fault extends Error {
  /** A fault of a status, or the one that crossed from another worker: `new Fault(data.status, data)`. */
  constructor(status: number, place?: { recordNumber?: number; least?: number; found?: number; at?: number });
  /** As in pocsag.h, such as `POCSAG_BAD_ADDRESS`; `POCSAG_OUT_OF_RANGE` for a number that no call can take. */
  name: string;
  /** The number of that name; of `POCSAG_OUT_OF_RANGE` 0. */
  status: number;
  /** The record of the page file, from 1; 0 where the fault is not of one, or is a quote of the header. */
  recordNumber: number;
  /** A byte of the message, a batch or a codeword, from 0; of a quote the line, from 1. */
  at: number;
  /** What a search knew at its limit: so many batches are needed at the least, so many would do. */
  least: number;
  found: number;
}

/** The calls over a compiled `WebAssembly.Module`, a type that not every choice of libraries has. Each is done when it returns. */
export class Pocsag {
  constructor(module: object);
  /** The number of the library's interface. */
  version(): number;
  /** The transmission of a page file, and the certificate that there are no fewer batches than `bound`. */
  plan(pages: Data, search?: Search): Plan;
  /** The same of the first pages, as many as so many batches carry. */
  planAtMost(pages: Data, batches: number, search?: Search): Front;
  /** What the plan of a page file takes on the air at 512, 1200 or 2400 bits a second. */
  report(pages: Data, rate: number, search?: Search): Report;
  /** The frames of the plan of a page file: where pages start, and where there is room for more. */
  frames(pages: Data, search?: Search): Frames;
  /** Whether a certificate shows its batches for a page file. */
  check(pages: Data, certificate: Data, how?: Strict): Verdict;
  /** Why fewer batches do not suffice, by the nodes no deeper than `depth` (3 where it is not given), or which node does not hold. */
  explain(pages: Data, certificate: Data, how?: Strict & { form?: "words" | "json"; depth?: number }): Explanation;
  /** The pages of a transmission, as a listing. */
  decode(transmission: Data, reading?: Reading): string;
  /** What the pager of an address shows of a transmission, as a listing. */
  hear(address: number, transmission: Data, reading?: Reading): string;
  /** A letter for each codeword of a transmission (`text`, where it is not given), where each page stands (`list`, as CSV), or an
   * SVG drawing; text and drawing of the batches from `first` to `last`, counted from 1. */
  show(transmission: Data, how?: { form?: "text" | "list" | "drawing"; first?: number; last?: number; reading?: Reading }): string;
  /** The sound that a transmitter is keyed with at 512, 1200 or 2400 bits a second, as a WAV file: so many samples a second (48,000
   * where it is not given), so many bits of preamble in place of the transmission's own, and the levels the other way round. */
  wav(transmission: Data, rate: number, how?: { samples?: number; preamble?: number | null; inverted?: boolean }): Uint8Array;
  /** The transmission of a page file in the order of the file, as a centre without a planner sends it. */
  layInOrder(pages: Data, how?: Strict): Uint8Array;
  /** The record of a page, with its quotes. `HEADER` and the records behind it are a page file. */
  writePage(address: number, kind: Kind, message?: Data): string;
  /** Refuses a page file in which a quote does not stand as CSV has it. */
  strict(pages: Data): void;
  /** The most batches that last at most so many milliseconds at a rate; 0 where one lasts longer. */
  airtimeBatches(airtimeMs: number, rate: number): number;
  /** What a status says, without its place. */
  statusText(status: number): string;
  /** The version of the package. */
  release(): string;
}

/** The number of the interface that this module was written for. */
export const VERSION: number;
export const DEFAULT_LIMIT: number;
export const GREATEST_LIMIT: number;
export const DEFAULT_DEPTH: number;
/** The first line of a page file. */
export const HEADER: string;
export const KINDS: Kind[];

/* The calls of a `Pocsag` over the file pocsag.wasm beside the module. */
export const version: Pocsag["version"];
export const plan: Pocsag["plan"];
export const planAtMost: Pocsag["planAtMost"];
export const report: Pocsag["report"];
export const frames: Pocsag["frames"];
export const check: Pocsag["check"];
export const explain: Pocsag["explain"];
export const decode: Pocsag["decode"];
export const hear: Pocsag["hear"];
export const show: Pocsag["show"];
export const wav: Pocsag["wav"];
export const layInOrder: Pocsag["layInOrder"];
export const writePage: Pocsag["writePage"];
export const strict: Pocsag["strict"];
export const airtimeBatches: Pocsag["airtimeBatches"];
export const statusText: Pocsag["statusText"];
export const release: Pocsag["release"];
