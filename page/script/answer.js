// The answer as it is shown.

import { lineOfCalls } from "./words.js";
import { element } from "./sheet.js";

// More answers than these stand as one text, without a table.
const MOST_ROWS = 1000;
// A source line of an explanation, or the mark under it.
const SOURCE = /^[ \d]+ \| /;

export class AnswerPane {
  // `parts` are the elements: answer, status, time, explained.
  constructor(parts) {
    this.parts = parts;
  }

  status(text, kind) {
    this.parts.status.textContent = text;
    this.parts.status.className = kind;
  }

  took(time) {
    this.parts.time.textContent = `${time < 10 ? time.toFixed(1) : Math.round(time)} ms`;
  }

  text(text, kind) {
    this.parts.answer.replaceChildren(element("pre", text, kind));
  }

  note(text) {
    this.parts.answer.replaceChildren(element("p", text, "note"));
  }

  // The two values of twin beside each other, each under the sizes that its run had.
  twins(text, sizes) {
    const titles = ["as it is written", `with ${sizes.replaceAll(",", ", ")}`];
    const figures = text.trimEnd().split("\n").map((value, turn) => {
      const figure = document.createElement("figure");
      figure.append(element("figcaption", titles[turn] ?? ""), element("pre", value));
      return figure;
    });
    const twins = document.createElement("div");
    twins.className = "twins";
    twins.append(...figures);
    this.parts.answer.replaceChildren(twins);
  }

  // The calls of a field, each with its answer.
  calls(text, lines) {
    const answers = text.replace(/\n$/, "").split("\n");
    if (answers.length > MOST_ROWS || text === "") {
      this.text(text, "");
      return;
    }
    const table = document.createElement("table");
    table.append(headOf(["Call", "Answer"]));
    const body = table.createTBody();
    const calls = lines.split("\n").map(lineOfCalls);
    answers.forEach((answer, turn) => {
      const row = body.insertRow();
      row.append(element("td", (calls[turn] ?? "").replaceAll("\t", " ")));
      row.append(element("td", answer, answer.startsWith("error ") ? "refusal" : ""));
    });
    this.parts.answer.replaceChildren(table);
  }

  // Lines of an explanation, whose places are buttons that go there; nothing for null.
  explain(lines, goTo) {
    const { explained } = this.parts;
    explained.hidden = !lines?.length;
    const pre = document.createElement("pre");
    (lines ?? []).forEach((line, turn) => {
      if (turn > 0) pre.append("\n");
      if (SOURCE.test(line[0])) pre.append(element("span", line[0], "source"));
      else pre.append(...line.map((part) => (typeof part === "string" ? part : placeButton(part, goTo))));
    });
    explained.replaceChildren(...(lines?.length ? [pre] : []));
  }
}

function placeButton(place, goTo) {
  const made = element("button", place.text, "place");
  made.type = "button";
  made.title = `Go to line ${place.line}, column ${place.column}`;
  made.onclick = () => goTo(place);
  return made;
}

function headOf(titles) {
  const head = document.createElement("thead");
  const row = head.insertRow();
  for (const title of titles) {
    const cell = element("th", title);
    cell.scope = "col";
    row.append(cell);
  }
  return head;
}
