/* The program's own command line, over the files of the page and those that it writes itself. */

/* The words of a line, as a shell parts them, and the files that `<` and `>` name. */
function parted(line) {
  const words = (line.match(/(?:[^\s"']|"[^"]*"|'[^']*')+/g) ?? []).map((word) => word.replace(/"([^"]*)"|'([^']*)'/g, "$1$2"));
  const named = (sign) => (words.includes(sign) ? words.splice(words.indexOf(sign), 2)[1] ?? "" : undefined);
  return { words, from: named("<"), to: named(">") };
}

/* Bytes as text, or how many they are where they are none. */
function shown(bytes) {
  const text = new TextDecoder().decode(bytes);
  return /[\0-\x08\x0e-\x1f\ufffd]/.test(text) ? `${bytes.length} bytes, which > and a name keep\n` : text;
}

export class CommandLine {
  #box;
  #ofPage;
  #begin;
  #save;
  #program = null; // in a worker
  #taken = {}; // the files of the page, as they were taken over last
  #files = {};

  /* In a box that opens: `ofPage` gives the files of the page, `begin` a worker with the program, and `save` takes a file along. */
  constructor(box, ofPage, begin, save) {
    [this.#box, this.#ofPage, this.#begin, this.#save] = [box, ofPage, begin, save];
    box.ontoggle = () => (this.#program ??= begin());
    box.querySelector("form").onsubmit = (event) => (event.preventDefault(), this.#run());
    box.onkeydown = async ({ key }) => {
      if (key !== "Escape" || !(await this.#program)?.endCalls()) return;
      this.#log.ariaBusy = "false";
      this.#print("ended; the files are as they were\n");
    };
  }

  get #log() {
    return this.#box.querySelector("pre");
  }

  #print(text) {
    this.#log.textContent += text;
    this.#log.scrollTop = this.#log.scrollHeight;
  }

  async #run() {
    const { elements } = this.#box.querySelector("form"), line = elements.line.value.replace(/^\s*pocsag\s/, "");
    const { words, from, to } = parted(line);
    if (this.#log.ariaBusy === "true") return this.#print("one run at a time: Escape ends it\n"); // the next one takes on its files
    for (const [name, data] of Object.entries(this.#ofPage())) if (data !== this.#taken[name]) this.#files[name] = this.#taken[name] = data;
    this.#print(`$ pocsag ${line}\n`);
    if (from !== undefined && this.#files[from] === undefined) return this.#print(`there is no file ${from}\n`);
    const given = { input: from === undefined ? elements.input.value : this.#files[from] };
    this.#log.ariaBusy = "true";
    const program = await (this.#program ??= this.#begin());
    const { given: told, message } = await program.ask("run", words, this.#files, given).catch((fault) => fault);
    this.#log.ariaBusy = "false";
    if (!told) return this.#print(`${message}\n`);
    const { status, out, err, files } = told;
    this.#files = to === undefined ? files : { ...files, [to]: out };
    this.#print(`${to === undefined ? shown(out) : ""}${shown(err)}${status ? `status ${status}\n` : ""}`);
    const save = (name) => ({ textContent: name, ariaLabel: `save ${name}`, onclick: () => this.#save(name, this.#files[name]) });
    const button = (name) => Object.assign(document.createElement("button"), save(name));
    this.#box.querySelector(".held").replaceChildren(...Object.keys(this.#files).map(button));
  }
}
