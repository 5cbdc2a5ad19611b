"""What the verdict on a wrong body rests on.

The verdict on a function rests on the function's text and proof files, on the edit, and on what these name, of the crate and of those
below it: contracts of functions, statements of lemmas, types with what they implement, traits, constants and definitions; and on what
the contracts, types and definitions name, and so on. It does not rest on a comment, the body of another function or the proof of a lemma.
A name stands for each item that has it, wherever that stands: a sum covers too much rather than too little. A word like `rest` is also a
variable's or a field's, so it is a name only in a file that gives or imports it.
"""

import re
import textwrap

import workspace
from sources import (ANTT, CODE, LEMMA, MEANING, OF_FUNCTIONS, RUST, File, all_functions, block_of, called_in, cleaned, constant_at, statement,
                     texts_of, words_in)


class Basis:
    """The items of crates, by their names, and what the verdicts on wrong bodies rest on."""

    def __init__(self, crates):
        self.named, self.files = {}, {}
        for crate in crates.values():
            self.files[crate.name] = {path: File(path, text) for path, text in texts_of(crate).items()}
            for path, file in self.files[crate.name].items():
                for name, item in () if path.endswith(OF_FUNCTIONS) else file.items():
                    self.named.setdefault(name, []).append((crate.name, item))
        self.below = {name: workspace.below(crates, name) for name in crates}

    def called(self, code, file):
        """The functions that a text names: before a bracket, of the type where that is given, or as the file gives or imports them."""
        found = {f"{of}::{name}" if f"{of}::{name}" in self.named else name for of, name in called_in(code)}
        found |= words_in(code) & file.given.union(*(names for names, _, _ in file.uses))
        return found.union(*(words for names, _, words in file.uses if names & found))

    def texts(self, crate, edit, texts):
        """All that the verdict on an edit of a crate with these texts rests on, in a fixed order."""
        files, functions = self.files[crate.name], all_functions(texts)
        code = cleaned(re.sub(r"(?m)^\w+: ?", "", edit.text), RUST)
        own, calls, meant = [crate.line, edit.text], set(), {name for it in edit.places for name, _ in [constant_at(*it)] if name}
        for path in ("src/lib.rt", "src/main.rt", *dict.fromkeys(path for path, _, _ in edit.pairs)):
            inner, words = files[path].scoped(files[path].inner) if path in files else ("", ())
            own, meant = [*own, inner], meant.union(words)
        for path, function in (functions[it] for it in sorted(edit.judged & functions.keys())):
            lines = texts[path].split("\n")
            body = textwrap.dedent(cleaned("\n".join(lines[function.first:function.last + 1]), RUST))
            calls |= self.called(body[len(statement(body.split("\n"))):] + code, files[path])
            found = [files[path].scoped("\n".join([block_of(lines, function), body, code]))]
            found += [files[it].scoped(cleaned(texts[it], ANTT)) for folder in function.proof_folders() for it in texts
                      if it.startswith(f"{folder}/")]
            own, meant = [*own, path, *(text for text, _ in found)], meant.union(*(words for _, words in found))
        left = [(meant, (MEANING, LEMMA)), (calls, (CODE,))]
        found = set()
        while left:
            words, kinds = left.pop()
            for one in (it for word in words for it in self.named.get(word, ())):
                if one[1].kind in kinds and one not in found and one[0] in self.below[crate.name]:
                    found.add(one)
                    left.append((one[1].words, (MEANING,)))
        return [*own, *sorted({f"{of}: {item.text}" for of, item in found})]
