/* A list of many rows, of which only those in view are in the document. */
export class Rows {
  #box;
  #inside = document.createElement("div");
  #height;
  #make;
  #fill;
  #count = 0;
  #tall = { index: Infinity, more: 0 };
  #shown = new Map();

  /* `make` gives an empty row, `fill` shows the row of a number in it; each is `height` pixels high. */
  constructor(box, height, make, fill) {
    [this.#box, this.#height, this.#make, this.#fill] = [box, height, make, fill];
    this.#inside.className = "inside";
    box.append(this.#inside);
    box.addEventListener("scroll", () => this.#draw());
    new ResizeObserver(() => this.#draw()).observe(box);
  }

  /* Shows so many rows anew, of which one may be taller by less than two rows. */
  show(count, height = this.#height, tall = { index: Infinity, more: 0 }) {
    [this.#count, this.#height, this.#tall] = [count, height, tall];
    this.#inside.style.height = `${this.#top(count)}px`;
    for (const [index, row] of this.#shown) if (index < count) this.#place(row, index);
    this.#draw();
  }

  /* The row of a number, brought into view. */
  reach(index) {
    const top = this.#top(index), end = this.#top(index + 1), room = this.#box.clientHeight;
    if (top < this.#box.scrollTop) this.#box.scrollTop = top;
    if (end > this.#box.scrollTop + room) this.#box.scrollTop = end - room;
    this.#draw();
    return this.#shown.get(index);
  }

  #top(index) {
    return index * this.#height + (index > this.#tall.index ? this.#tall.more : 0);
  }

  #place(row, index) {
    row.style.top = `${this.#top(index)}px`;
    this.#fill(row, index);
  }

  #draw() {
    const first = Math.floor(this.#box.scrollTop / this.#height) - 4;
    const last = Math.ceil((this.#box.scrollTop + this.#box.clientHeight) / this.#height) + 2;
    const isInView = (index) => index >= first && index < last && index < this.#count;
    for (const [index, row] of this.#shown) {
      if (isInView(index) || (index < this.#count && row.contains(document.activeElement))) continue;
      row.remove();
      this.#shown.delete(index);
    }
    for (let index = Math.max(first, 0); isInView(index); index++) {
      if (this.#shown.has(index)) continue;
      const row = this.#make(index);
      this.#shown.set(index, row);
      row.dataset.row = index;
      this.#inside.insertBefore(row, [...this.#inside.children].find((it) => it.dataset.row > index) ?? null);
      this.#place(row, index);
    }
  }
}
