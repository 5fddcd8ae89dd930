// Lists in pages: a long list shows its first lines, and buttons that lead through the others.

/** Lines of a list that are shown at once: fewer on a narrow screen, where each is a block. */
export const PAGE = matchMedia("(max-width: 640px)").matches ? 10 : 20;

/** Adds a row to a place's first table: texts, or elements; numbers stand to the right. */
export function addRow(place, cells, kind = "") {
  const table = place.querySelector("table");
  const heads = table.tHead.rows[0].cells;
  const row = table.tBodies[0].insertRow();
  row.className = kind;
  // On a narrow screen the rows are blocks, of which a browser no longer tells that they are a table.
  row.setAttribute("role", "row");
  cells.forEach((content, at) => {
    const cell = row.insertCell();
    cell.className = heads[at].className;
    cell.setAttribute("role", "cell");
    cell.dataset.label = heads[at].textContent;
    cell.append(content);
  });
  table.hidden = false;
}

export function clearRows(place) {
  place.querySelector("tbody").replaceChildren();
}

/** Gives the tables their roles in words, which stay when a style makes blocks of them. */
export function nameTables(root) {
  for (const table of root.querySelectorAll("table")) {
    table.setAttribute("role", "table");
    table.tHead.setAttribute("role", "rowgroup");
    table.tBodies[0].setAttribute("role", "rowgroup");
    table.tHead.rows[0].setAttribute("role", "row");
    [...table.tHead.rows[0].cells].forEach((it) => it.setAttribute("role", "columnheader"));
  }
}

/** The pages of a list: `bar` holds the buttons, which are named by `what` it lists, and `draw` shows the lines of one page. */
export class Pages {
  constructor(bar, what, draw) {
    Object.assign(this, { bar, draw, items: [], at: 0 });
    const button = (text, step) => {
      const it = Object.assign(document.createElement("button"), { type: "button", textContent: `${text} ${what}` });
      it.addEventListener("click", () => this.turn(step));
      return it;
    };
    this.where = document.createElement("span");
    this.where.setAttribute("role", "status");
    this.back = button(`Previous ${PAGE}`, -PAGE);
    this.next = button(`Next ${PAGE}`, PAGE);
    bar.replaceChildren(this.where, this.back, this.next);
  }

  /** Shows a list, from its beginning or, where it grew, from where it stood. */
  show(items, from = 0) {
    this.items = items;
    this.at = from < items.length ? from : 0;
    this.turn(0);
  }

  turn(step) {
    this.at += step;
    const end = Math.min(this.at + PAGE, this.items.length);
    this.draw(this.items.slice(this.at, end));
    this.bar.hidden = this.items.length <= PAGE;
    this.where.textContent = `${this.at + 1} to ${end} of ${this.items.length}`;
    this.back.disabled = this.at === 0;
    this.next.disabled = end === this.items.length;
  }
}
