// The list of names under the cursor. It opens as one types, and with Control and the space bar. The arrow keys choose,
// Enter and Tab put the chosen name in, Escape closes. Without a choice the keys do what they always do.

import { candidates, namesOf, typedBefore } from "./completion.js";
import { element } from "./sheet.js";

const SHOWN_FROM = 2;
const MOST_CHARACTERS = 300000;
const LEAVING = ["ArrowLeft", "ArrowRight", "Home", "End", "PageUp", "PageDown", "Enter", "Tab"];

export class Popup {
  // `functions` gives the schemes of the functions by their names.
  constructor(sheet, list, words, functions) {
    Object.assign(this, { sheet, list, words, functions, found: [], chosen: -1, typed: "" });
    this.text = sheet.parts.text;
    this.text.addEventListener("keydown", (event) => this.key(event));
    for (const name of ["blur", "scroll", "pointerdown"]) this.text.addEventListener(name, () => this.close());
    list.addEventListener("pointerdown", (event) => {
      event.preventDefault();
      const at = [...list.children].indexOf(event.target.closest("li"));
      if (at >= 0) this.put(at);
    });
  }

  get isOpen() {
    return !this.list.hidden;
  }

  // After a change of the text.
  typedOne() {
    const { line, offset } = this.sheet.cursor();
    if (typedBefore(this.sheet.lines[line - 1].slice(0, offset)).length >= SHOWN_FROM) this.look();
    else this.found = [];
    if (this.found.length === 0) this.close();
    else this.open(-1);
  }

  look() {
    const { line, offset } = this.sheet.cursor();
    const { lines, colours } = this.sheet;
    const isLong = this.text.value.length > MOST_CHARACTERS;
    const names = isLong ? new Map() : namesOf(lines, (number) => colours.tokens(number));
    const before = lines[line - 1].slice(0, offset);
    Object.assign(this, candidates({
      before, open: colours.at(line - 1, offset), names, words: this.words, functions: this.functions() }));
  }

  open(chosen) {
    const cursor = this.sheet.cursor();
    const box = this.sheet.boxOf({ ...cursor, offset: Math.max(0, cursor.offset - this.typed.length) });
    if (!box) return;
    this.list.replaceChildren(...this.found.map((one, at) => item(one, at)));
    this.list.hidden = false;
    const { width, height } = this.list.getBoundingClientRect();
    const below = box.top + 22 + height < innerHeight;
    this.list.style.left = `${Math.max(4, Math.min(box.left, innerWidth - width - 4))}px`;
    this.list.style.top = `${below ? box.top + 22 : Math.max(4, box.top - height - 2)}px`;
    this.choose(chosen);
  }

  close() {
    this.list.hidden = true;
    this.text.removeAttribute("aria-activedescendant");
  }

  choose(at) {
    this.chosen = at;
    [...this.list.children].forEach((one, turn) => one.setAttribute("aria-selected", String(turn === at)));
    if (at < 0) {
      this.text.removeAttribute("aria-activedescendant");
      return;
    }
    this.text.setAttribute("aria-activedescendant", `name-${at}`);
    this.list.children[at].scrollIntoView({ block: "nearest" });
  }

  put(at) {
    const end = this.text.selectionStart;
    this.close();
    this.text.focus();
    this.text.setSelectionRange(end - this.typed.length, end);
    // A change by this call can be undone with the keyboard, which one by setRangeText can't.
    const { text } = this.found[at];
    if (!document.execCommand("insertText", false, text)) {
      this.text.setRangeText(text, end - this.typed.length, end, "end");
      this.text.dispatchEvent(new Event("input"));
    }
    this.close();
  }

  key(event) {
    if (event.key === " " && event.ctrlKey) {
      event.preventDefault();
      this.look();
      if (this.found.length > 0) this.open(0);
      return;
    }
    if (!this.isOpen) return;
    const count = this.found.length;
    if (event.key === "ArrowDown") this.choose((this.chosen + 1) % count);
    else if (event.key === "ArrowUp") this.choose(this.chosen <= 0 ? count - 1 : this.chosen - 1);
    else if (["Enter", "Tab"].includes(event.key) && this.chosen >= 0) this.put(this.chosen);
    else if (event.key === "Escape") this.close();
    else {
      if (LEAVING.includes(event.key)) this.close();
      return;
    }
    event.preventDefault();
    event.stopPropagation();
  }
}

function item({ text, kind, detail }, at) {
  const made = document.createElement("li");
  made.id = `name-${at}`;
  made.role = "option";
  made.append(element("code", text), element("span", detail || kind, "detail"));
  return made;
}
