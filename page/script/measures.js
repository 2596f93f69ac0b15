// What the measures and abbreviations of a text stand for, which the program is asked.

const TAKES = /^\S+ : num(?:<([^<>]*)>)? -> /;
const MOST = 200;

// The measures and abbreviations that a text declares, by the scopes of its tokens; none of a text with too many.
export function measuresOf(lines, tokensOf) {
  const names = new Set();
  lines.forEach((line, number) => {
    if (!line.includes("type")) return;
    for (const [start, end, scope] of tokensOf(number)) {
      if (scope.startsWith("entity.name.type.measure")) names.add(line.slice(start, end));
    }
  });
  return names.size > MOST ? [] : [...names];
}

// The text with functions after it, each of which takes a number with one of these units.
export function textWithUnits(text, names) {
  let fresh = "unit";
  while (text.includes(fresh)) fresh += "_";
  return `${text}\n${names.map((name, at) => `let ${fresh}${at} (x: num<${name}>) = x\n`).join("")}`;
}

// What each name stands for, by the answer of `types` to that text.
export function unitsOf(answer, names) {
  const lines = answer.replace(/\n$/, "").split("\n").slice(-names.length);
  return new Map(names.map((name, at) => [name, TAKES.exec(lines[at])?.[1] ?? "1"]));
}
