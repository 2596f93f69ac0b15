// Completion of names: what could be meant by the letters before the cursor.

const LETTERS = /(?<![\p{L}\p{N}\p{M}\p{Pc}])'?[\p{L}\p{Nl}_][\p{L}\p{N}\p{M}\p{Pc}]*$/u;
const KINDS = [
  ["entity.name.type.measure", "measure"], ["support.constant.measure", "measure"],
  ["variable.parameter.unit", "unit variable"], ["entity.name.type.record", "record"],
  ["entity.name.function", "name"], ["variable.other", "name"],
];
const MOST = 100;

// The names of a text by what they are, with the lines where they stand: the tokens' scopes say which.
export function namesOf(lines, tokensOf) {
  const names = new Map();
  const put = (text, kind) => {
    const known = names.get(text);
    if (!known) names.set(text, kind);
    else if (known === "name" && kind !== "name") names.set(text, kind);
  };
  lines.forEach((line, number) => {
    for (const [start, end, scope] of tokensOf(number)) {
      const kind = KINDS.find(([beginning]) => scope.startsWith(beginning))?.[1];
      if (kind) put(line.slice(start, end), kind === "name" && isField(line, start, end) ? "field" : kind);
    }
  });
  return names;
}

// A name after a dot is a field's, and so is one after a brace or a semicolon that a colon or an equals sign follows.
function isField(line, start, end) {
  const before = line.slice(0, start).trimEnd();
  return before.endsWith(".") || /[{;]$/.test(before) && /^\s*[:=](?!:)/.test(line.slice(end));
}

// What stands before the cursor, and is open there, says which names can stand there.
export function placeKind(before, open) {
  const rest = before.replace(LETTERS, "");
  if (rest.includes("//")) return "comment";
  if (/(?<!\d)\.\s*$/.test(rest)) return "field";
  if (open.some((rule) => rule.end === ">")) return "unit";
  if (open.some((rule) => rule.begin === "(?<!:):(?!:)")) return "type";
  return open.some((rule) => rule.begin?.startsWith("(\\[<)")) ? "abbreviation" : "expression";
}

const FITTING = {
  comment: [],
  abbreviation: ["measure", "word"],
  field: ["field"],
  unit: ["measure", "unit variable"],
  type: ["record", "word"],
  expression: ["name", "function", "field", "measure", "record", "word"],
};

// The letters of a name directly before the cursor.
export function typedBefore(before) {
  return LETTERS.exec(before)?.[0] ?? "";
}

// The candidates for the letters before the cursor, each {text, kind, detail}, and how many letters they replace. Names
// that begin with the letters come first, in the order of the text, and then those that hold them.
export function candidates({ before, open, names, words, functions }) {
  const typed = typedBefore(before);
  const kinds = FITTING[placeKind(before, open)];
  const every = [...names].map(([text, kind]) => (functions.has(text) && kind === "name"
    ? { text, kind: "function", detail: functions.get(text).slice(text.length + 3) } : { text, kind, detail: "" }));
  every.push(...words.filter((word) => !names.has(word)).map((text) => ({ text, kind: "word", detail: "" })));
  const fitting = every.filter(({ text, kind }) => kinds.includes(kind) && text !== typed);
  const begins = fitting.filter(({ text }) => text.startsWith(typed));
  const low = typed.toLowerCase();
  const holds = fitting.filter((one) => !begins.includes(one) && one.text.toLowerCase().includes(low));
  return { typed, found: [...begins, ...(typed.length > 1 ? holds : [])].slice(0, MOST) };
}
