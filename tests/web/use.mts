import { plan, planAtMost, check, decode, hear, show, wav, writePage, KINDS, Fault, Pocsag, type Plan, type Front } from "pocsag";
declare const console: { log(...words: unknown[]): void };
const pages = "address,kind,message\n8,tone0,\n";
const made: Plan = plan(pages, { end: "closed", limit: 9, always: false, strict: true });
const front: Front = planAtMost(new Uint8Array(3).buffer, 2);
const verdict: { isShown: boolean; batches: number } = check(pages, made.certificate);
const texts: string[] = [decode(made.transmission, "captured"), hear(8, made.transmission), show(made.transmission, { form: "drawing", first: 1 }), writePage(8, KINDS[0], "")];
try {
  const sound: Uint8Array = wav(made.transmission, 1200, { preamble: null });
  console.log(sound, front.why, verdict, texts, Pocsag);
} catch (fault) {
  if (fault instanceof Fault) console.log(fault.name, new Fault(fault.status + 0, fault));
}
