/* The keys of a table, which is one stop for the Tab key: arrows go from cell to cell, Enter into a cell's field, Escape out of it. */

/* How many rows and columns a key goes. */
export const MOVES = {
  ArrowLeft: [0, -1], ArrowRight: [0, 1], ArrowUp: [-1, 0], ArrowDown: [1, 0], PageUp: [-10, 0], PageDown: [10, 0],
  Home: [0, -16], End: [0, 16],
};

const within = (at, count) => Math.min(Math.max(at, 0), count - 1);
const cellsOf = (row) => [...row.children].filter((it) => !it.hidden);

export class Cells {
  #box;
  #rows;
  #reached;
  #count = 0;
  #row = 0;
  #column = 1;

  /* The cells of `rows`, which stand in `box`; `reached` gets the number of a row in which a cell gets the focus. */
  constructor(box, rows, reached) {
    [this.#box, this.#rows, this.#reached] = [box, rows, reached];
    box.onkeydown = (event) => this.#move(event);
    box.onfocus = () => this.#count && box.matches(":focus-visible") && this.reach(this.#row, this.#column);
    box.addEventListener("focusin", ({ target }) => this.#follow(target.closest("[role=gridcell]")));
    box.addEventListener("focusout", () => (box.tabIndex = 0));
  }

  /* Gives a cell the focus, and gives it back. */
  reach(row, column) {
    const cells = cellsOf(this.#rows.reach(within(row, this.#count))), cell = cells[within(column, cells.length)];
    cell.focus({ preventScroll: true });
    return cell;
  }

  /* Shows so many rows; if the cell of the focus is gone, the nearest one has it. */
  show(count, ...how) {
    const hadFocus = this.#hasFocus();
    this.#count = count;
    this.#box.setAttribute("aria-rowcount", count + 1);
    this.#rows.show(count, ...how);
    if (hadFocus && count && (!this.#hasFocus() || document.activeElement.closest("[hidden]"))) this.reach(this.#row, this.#column);
    if (!this.#hasFocus()) this.#box.tabIndex = 0;
  }

  #hasFocus() {
    return this.#box.contains(document.activeElement);
  }

  #follow(cell) {
    this.#box.tabIndex = -1; // so that the way back leads out of the table
    if (!cell) return;
    [this.#row, this.#column] = [Number(cell.parentNode.dataset.row), cellsOf(cell.parentNode).indexOf(cell)];
    this.#reached(this.#row);
  }

  #move(event) {
    const { target, key } = event, cell = target.closest("[role=gridcell]"), isStart = ["Enter", "F2"].includes(key);
    if (!cell || event.altKey) return;
    if (target.matches("input, select")) {
      if (key !== "Escape" && !isStart) return;
      cell.focus();
    } else if (MOVES[key]) {
      const [down, right] = MOVES[key], isFar = event.ctrlKey && ["Home", "End"].includes(key);
      this.reach(this.#row + (isFar ? right * Infinity : down), this.#column + right);
    } else if (event.ctrlKey || event.metaKey || !this.#use(cell.querySelector("input, select, button"), event, isStart)) return;
    event.preventDefault();
  }

  /* Uses what stands in a cell; whether the key is used up by that. What is typed goes on into the field. */
  #use(field, { target, key }, isStart) {
    if (field?.matches("button")) {
      if (target === field || !["Enter", " "].includes(key)) return false;
      field.click();
      return true;
    }
    if (!field || (!isStart && key.length > 1)) return false;
    field.focus();
    field.select?.();
    return isStart;
  }
}
