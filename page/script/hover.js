// The type of the part under the pointer, beside it, and that of the part at the cursor, in a line under the text.

import { partAt } from "./annotation.js";

export class Hover {
  // `tip` stands beside the pointer, `line` under the text.
  constructor(sheet, tip, line) {
    Object.assign(this, { sheet, tip, line, annotation: null, shown: "" });
    const { text } = sheet.parts;
    text.addEventListener("pointermove", (event) => this.point(event));
    for (const name of ["pointerleave", "scroll", "input", "pointerdown"]) {
      text.addEventListener(name, () => this.hide());
    }
    addEventListener("keydown", (event) => {
      if (event.key === "Escape") this.hide();
    });
    document.addEventListener("selectionchange", () => this.cursor());
    for (const name of ["keyup", "pointerup"]) text.addEventListener(name, () => this.cursor());
  }

  // Takes what `annot` says of the text; null if nothing is known.
  set(annotation) {
    this.annotation = annotation;
    this.hide();
    this.cursor();
  }

  part({ line, offset }) {
    const { colours, lines } = this.sheet;
    return this.annotation && partAt(this.annotation, lines[line - 1], line, offset, colours.tokens(line - 1));
  }

  cursor() {
    const place = this.sheet.cursor();
    const found = this.part(place) ?? (place.offset > 0 ? this.part({ ...place, offset: place.offset - 1 }) : null);
    this.line.textContent = found ? found.text : "";
  }

  point(event) {
    if (event.pointerType === "touch" || event.buttons) return;
    const place = this.sheet.placeUnder(event.clientX, event.clientY);
    const found = place && this.part(place);
    const shown = found ? `${place.line}:${found.start}` : "";
    if (shown === this.shown) return;
    this.hide();
    if (found) this.show(place, found);
    this.shown = shown;
  }

  show(place, found) {
    const box = this.sheet.boxOf({ line: place.line, offset: found.start });
    this.tip.textContent = found.text;
    this.tip.hidden = false;
    const { width, height } = this.tip.getBoundingClientRect();
    const below = box.bottom + 4 + height < innerHeight;
    this.tip.style.left = `${Math.max(4, Math.min(box.left, innerWidth - width - 4))}px`;
    this.tip.style.top = `${below ? box.bottom + 4 : box.top - height - 4}px`;
  }

  hide() {
    this.shown = "";
    this.tip.hidden = true;
  }
}
