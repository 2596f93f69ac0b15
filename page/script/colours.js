// The colours of a text's lines. What the lines before leave open is kept, so that a change costs little.

// Scopes of the grammar by their beginnings, and the class of each; the first that fits counts.
const CLASSES = [
  ["comment", "comment"], ["constant.numeric", "number"], ["constant.language", "truth"],
  ["keyword.operator.word", "word"], ["keyword.operator", "sign"], ["keyword", "word"], ["storage", "word"],
  ["support.type", "type"], ["entity.name.type.record", "type"],
  ["entity.name.type.measure", "unit"], ["support.constant.measure", "unit"], ["variable.parameter.unit", "unit"],
  ["variable.language.hole", "unit"], ["entity.name.function", "function"], ["punctuation", "sign"],
];
const LONGEST = 20000;
// So many lines are read at once to know what is open at a line; further away one begins anew a bit before it.
const FAR = 4000;
const NEAR = 200;

export function classOf(scope) {
  return CLASSES.find(([beginning]) => scope.startsWith(beginning))?.[1] ?? "";
}

export class Colours {
  constructor(grammar) {
    this.grammar = grammar;
    this.lines = [];
    // What stands open before a line, and the tokens of a line, as far as they are known.
    this.open = new Map([[0, grammar.start]]);
    this.known = new Map();
  }

  // Takes the lines of a text that was changed.
  set(lines) {
    const most = Math.min(lines.length, this.lines.length);
    let same = 0;
    while (same < most && lines[same] === this.lines[same]) same += 1;
    this.lines = lines;
    for (const number of this.open.keys()) if (number > same) this.open.delete(number);
    for (const number of this.known.keys()) if (number >= same) this.known.delete(number);
  }

  // The tokens of a line, [start, end, scope].
  tokens(number) {
    if (!this.known.has(number)) this.read(number, this.before(number));
    return this.known.get(number);
  }

  // What stands open before a line.
  before(number) {
    let at = number;
    while (at > 0 && !this.open.has(at) && number - at < FAR) at -= 1;
    if (!this.open.has(at)) {
      at = number - NEAR;
      this.open.set(at, this.grammar.start);
    }
    for (; at < number; at += 1) this.read(at, this.open.get(at));
    return this.open.get(number);
  }

  read(number, before) {
    const text = this.lines[number] ?? "";
    const { tokens, open } = text.length > LONGEST ? { tokens: [], open: before } : this.grammar.line(text, before);
    this.known.set(number, tokens);
    this.open.set(number + 1, open);
  }

  // What stands open at an offset of a line.
  at(number, offset) {
    return this.grammar.line((this.lines[number] ?? "").slice(0, offset), this.before(number)).open;
  }
}
