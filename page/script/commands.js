// The commands of the program that read a text: the words that stand after each, and what it answers.

export const COMMANDS = {
  types: ["", "the type of each function"],
  run: ["BUDGET NAME ARG..", "the value of a call, by the compiled code"],
  show: ["DIGITS UNITS BUDGET NAME ARG..", "the value of a call in decimals and in units, as J,ft=0.3048<m>, or -"],
  calls: ["BUDGET", "the values of many calls, which stand in the field under the program, one a line"],
  trace: ["BUDGET NAME ARG..", "the value of a call, or where the run went wrong"],
  annot: ["", "the type of each part of each function"],
  twin: ["BUDGET SIZES NAME ARG..", "the value of a call, and that of the same call in other sizes of the units"],
  rescale: ["SIZES", "the program in other sizes of its units, as m=100,s=1000"],
  conform: ["NAME TYPE", "whether a function may be used at a type"],
  fmt: ["", "the program in its layout"],
  tidy: ["", "the program laid out, with its comments and line breaks"],
  code: ["", "the compiled code"],
  steps: ["BUDGET NAME ARG..", "the value of a call, and how many steps it took"],
  eval: ["BUDGET NAME ARG..", "the value of a call, by the syntax tree"],
  prove: ["", "a certificate of each type, which sums of integers check"],
};

// The words that a command line has after its command and before the function of its call.
export const WORDS_BEFORE_NAME = { run: 1, eval: 1, steps: 1, trace: 1, twin: 2, show: 3, conform: 0 };

// What tells, on an empty text, whether a program has a command that not every program has: words that it answers with
// any status but that of unknown words.
export const PROBES = {
  explain: ["explain"],
  annot: ["annot"],
  tidy: ["tidy"],
  calls: ["calls", "1"],
  trace: ["trace", "1", "f"],
  show: ["show", "0", "-", "1", "f"],
};

const UNKNOWN_WORDS = 1;
// After these statuses `explain` has more to say.
const EXPLAINED = [3, 4, 5, 6, 7, 8, 9, 10, 19];
// A trap, and the end of the budget.
const STOPPED = [12, 13];

export function isExplained(status) {
  return EXPLAINED.includes(status);
}

export function isStopped(status) {
  return STOPPED.includes(status);
}

// Asks about each command that not every program has, and gives those that this one lacks. `ask` gives the answer to
// words about a text.
export async function lackingCommands(ask) {
  const lacking = new Set();
  for (const [name, words] of Object.entries(PROBES)) {
    const { status } = await ask(words, new Uint8Array());
    if (status === undefined || status === UNKNOWN_WORDS) lacking.add(name);
  }
  return lacking;
}

// The call that a command's words make, by its budget, its function and its arguments; null if it makes none.
export function callOf(words) {
  const [command, ...rest] = words;
  const before = WORDS_BEFORE_NAME[command];
  if (!before || rest.length <= before) return null;
  return { budget: command === "twin" ? rest[0] : rest[before - 1], call: rest.slice(before) };
}

// The words of `show` for a call. UNITS are parts with a comma between each two; spaces around a comma mean nothing.
export function showWords(digits, units, { budget, call }) {
  const parts = units.split(",").map((part) => part.trim()).filter((part) => part !== "");
  return ["show", digits.trim(), parts.join(",") || "-", budget, ...call];
}
