// What `explain` and `trace` print, by its parts: which of it names a place in the text.

// Lines that name places in their own words, with the place's line and column as the groups.
const PLACES = [
  /^the let at (\d+:\d+) has no in$/,
  /^declared before at (\d+:\d+)$/,
  /^ {2}(\d+:\d+) /,
  /^called from \S+ at (\d+:\d+)$/,
];

// The lines of an explanation, each as parts: texts, and places {text, line, column}. The report line comes first.
export function linesOf(text) {
  return text.replace(/\n$/, "").split("\n").map((line, number) => {
    const found = number === 0 ? / at (\d+:\d+)$/.exec(line) : firstMatch(line);
    if (!found) return [line];
    const at = found.index + found[0].indexOf(found[1]);
    const [row, column] = found[1].split(":").map(Number);
    return [line.slice(0, at), { text: found[1], line: row, column }, line.slice(at + found[1].length)];
  });
}

function firstMatch(line) {
  for (const form of PLACES) {
    const found = form.exec(line);
    if (found) return found;
  }
  return null;
}

// The places that the lines name, in their order, each once.
export function placesOf(lines) {
  const found = lines.flat().filter((part) => typeof part !== "string");
  return found.filter((place, at) => found.findIndex(
    ({ line, column }) => line === place.line && column === place.column) === at);
}

// What `explain` says after the report line, if it speaks of the same refusal; otherwise null.
export function explanationOf(answer, report) {
  const lines = linesOf(answer);
  const first = lines[0].map((part) => part.text ?? part).join("");
  return first === report.replace(/\n$/, "") ? lines.slice(1) : null;
}
