/* The library or the program in a worker: it gets the compiled module, then calls by their names, and gives back what each gave, or its
 * fault. */
let library;
onmessage = ({ data }) => {
  if (data.module) {
    library = new { Pocsag, Program }[data.kind](data.module);
    return;
  }
  try {
    const begun = performance.now();
    const given = library[data.name](...data.words);
    postMessage({ number: data.number, given, took: performance.now() - begun });
  } catch (fault) {
    postMessage({ number: data.number, fault: { ...fault, name: fault.name, message: fault.message } });
  }
};
