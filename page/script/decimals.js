// A value in decimals and in named units: fields for the digits and the units, and what `show` answers.

import { showWords } from "./commands.js";

// A value that took longer is shown in decimals when one asks for it, since that is another run.
const SOON = 500;

export class Decimals {
  // `parts` are the elements: decimals (a form), digits, units, decimal. `ask` puts a question's words.
  constructor(parts, ask) {
    Object.assign(this, { parts, ask, call: null });
    parts.decimals.addEventListener("submit", (event) => {
      event.preventDefault();
      this.show();
    });
    for (const field of [parts.digits, parts.units]) field.addEventListener("input", () => this.show());
  }

  // Takes the call whose value is shown, and how long it took; null if there is none.
  set(call, time) {
    this.call = call;
    this.parts.decimals.hidden = call === null;
    this.parts.decimal.textContent = "";
    if (call !== null && time < SOON) this.show();
  }

  show() {
    if (this.call) this.ask(showWords(this.parts.digits.value, this.parts.units.value, this.call));
  }

  // Takes the answer of `show`.
  heard({ status, bytes, fault }) {
    const text = fault ? "no answer" : new TextDecoder().decode(bytes).replace(/\n$/, "");
    this.parts.decimal.textContent = status === 1 ? "These digits or units can't be read." : text;
    this.parts.decimal.className = status === 0 ? "" : "refusal";
  }
}
