// The text field with what lies under it: the numbers of the lines, the colours, and the marks of places. Only the
// lines that are seen are drawn.

import { columnAt, offsetInLine, pieces, rangeOf } from "./places.js";

const PADDING = 10;

export class Sheet {
  // `parts` are the elements: text, numbers, colours, marks.
  constructor(parts, colours, classOf) {
    this.parts = parts;
    this.colours = colours;
    this.classOf = classOf;
    this.height = parseFloat(getComputedStyle(parts.text).lineHeight);
    this.lines = [""];
    this.starts = [0];
    this.marked = new Map();
    this.first = 0;
    parts.text.addEventListener("scroll", () => this.draw());
    addEventListener("resize", () => this.draw());
    parts.text.parentElement.classList.add("coloured");
  }

  // Takes the text of the field, after a change.
  read() {
    this.lines = this.parts.text.value.split("\n");
    this.starts = [0];
    for (const line of this.lines) this.starts.push(this.starts.at(-1) + line.length + 1);
    this.colours.set(this.lines);
    this.mark([]);
  }

  // Marks places; the first one is where a refusal stands, the others are those that it names besides.
  mark(places) {
    this.marked = new Map();
    places.forEach(({ line, column }, turn) => {
      const text = this.lines[line - 1];
      if (text === undefined) return;
      const ranges = this.marked.get(line) ?? [];
      ranges.push([...rangeOf(text, column), turn === 0 ? "first" : "other"]);
      this.marked.set(line, ranges);
    });
    this.main = places[0]?.line;
    this.draw();
  }

  draw() {
    const { text, numbers, colours, marks } = this.parts;
    const { scrollTop, scrollLeft, clientHeight } = text;
    this.first = Math.max(0, Math.floor((scrollTop - PADDING) / this.height));
    const last = Math.min(this.lines.length, this.first + Math.ceil(clientHeight / this.height) + 2);
    const top = this.first * this.height - scrollTop;
    const seen = Array.from({ length: Math.max(0, last - this.first) }, (_, turn) => this.first + turn);
    numbers.replaceChildren(...seen.map((at) => (this.main === at + 1 ? element("b", `${at + 1}\n`) : `${at + 1}\n`)));
    numbers.style.width = `${Math.max(3, String(this.lines.length).length)}ch`;
    numbers.style.transform = `translateY(${top}px)`;
    colours.replaceChildren(...seen.map((at) => row(this.lines[at], this.coloured(at))));
    marks.replaceChildren(...seen.map((at) => row(this.lines[at], pieces(this.marked.get(at + 1) ?? []), "mark")));
    for (const layer of [colours, marks]) layer.style.transform = `translate(${-scrollLeft}px, ${top}px)`;
  }

  coloured(at) {
    return this.colours.tokens(at).map(([start, end, scope]) => [start, end, this.classOf(scope)]);
  }

  // Where the cursor stands: the number of the line, from 1, and the offset in it.
  cursor() {
    return this.placeOf(this.parts.text.selectionStart);
  }

  placeOf(position) {
    let [low, high] = [0, this.lines.length - 1];
    while (low < high) {
      const middle = (low + high + 1) >> 1;
      if (this.starts[middle] <= position) low = middle;
      else high = middle - 1;
    }
    return { line: low + 1, offset: position - this.starts[low] };
  }

  columnOf({ line, offset }) {
    return columnAt(this.lines[line - 1], offset);
  }

  select(line, column) {
    const text = this.lines[line - 1] ?? "";
    const at = Math.min(this.starts[line - 1] ?? 0, this.parts.text.value.length) + offsetInLine(text, column);
    this.parts.text.focus();
    this.parts.text.setSelectionRange(at, at);
    this.show(line, offsetInLine(text, column));
  }

  // Scrolls to a place.
  show(line, offset) {
    const { text } = this.parts;
    const top = (line - 1) * this.height;
    if (top < text.scrollTop || top > text.scrollTop + text.clientHeight - 2 * this.height) {
      text.scrollTop = Math.max(0, top - text.clientHeight / 2);
      this.draw();
    }
    const [box, field] = [this.boxOf({ line, offset }), text.getBoundingClientRect()];
    if (box && (box.left < field.left || box.right > field.right)) {
      text.scrollLeft += box.left - field.left - field.width / 2;
    }
  }

  // Where on the screen the character at an offset stands; null if its line isn't drawn.
  boxOf({ line, offset }) {
    const drawn = this.parts.colours.children[line - 1 - this.first];
    const range = drawn && (rangeIn(drawn, offset) ?? (offset > 0 ? rangeIn(drawn, offset - 1) : null));
    if (!range) return drawn?.getBoundingClientRect() ?? null;
    const box = range.getBoundingClientRect();
    return offset < this.lines[line - 1].length ? box : new DOMRect(box.right, box.top, 0, box.height);
  }

  // The line and the offset under a point of the screen, or null.
  placeUnder(x, y) {
    const { text, colours } = this.parts;
    const at = Math.floor((y - text.getBoundingClientRect().top - PADDING + text.scrollTop) / this.height);
    const drawn = colours.children[at - this.first];
    if (at < 0 || !drawn) return null;
    let [low, high] = [0, this.lines[at].length];
    while (low < high) {
      const middle = (low + high) >> 1;
      if (rangeIn(drawn, middle).getBoundingClientRect().right <= x) low = middle + 1;
      else high = middle;
    }
    return { line: at + 1, offset: low };
  }
}

// One line, with its parts [start, end, class] as elements.
function row(line, parts, name = "span") {
  const made = document.createElement("div");
  let at = 0;
  for (const [start, end, kind] of parts) {
    if (start > at) made.append(line.slice(at, start));
    made.append(element(name, line.slice(start, end) || " ", kind));
    at = end;
  }
  if (at < line.length) made.append(line.slice(at));
  return made;
}

// The range of the character at an offset of a line that is drawn; null at its end.
function rangeIn(drawn, offset) {
  let left = offset;
  const walker = document.createTreeWalker(drawn, NodeFilter.SHOW_TEXT);
  for (let node = walker.nextNode(); node; node = walker.nextNode()) {
    if (left < node.length) {
      const range = document.createRange();
      range.setStart(node, left);
      range.setEnd(node, left + 1);
      return range;
    }
    left -= node.length;
  }
  return null;
}

export function element(name, text, kind) {
  const made = document.createElement(name);
  made.textContent = text;
  if (kind) made.className = kind;
  return made;
}
