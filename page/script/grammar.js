// The tokens of a line by a TextMate grammar, that of the editors: the rules `match`, `begin` with `end`, `captures`
// and `include`. An `end` never speaks of what its `begin` found.

const LETTER = String.raw`[\p{L}\p{Nl}\p{Mn}\p{Mc}\p{Nd}\p{Pc}]`;
// The border of a word, with letters beyond ASCII.
const BORDER = `(?:(?<!${LETTER})(?=${LETTER})|(?<=${LETTER})(?!${LETTER}))`;

// A line of ASCII is read by simpler expressions, which mean the same there.
const STARTS = String.raw`[_\p{L}\p{Nl}]`;
const PLAIN = /^[\x00-\x7f]*$/;

function expression(pattern, flags, isPlain) {
  return isPlain ? new RegExp(pattern.replaceAll(STARTS, "[A-Za-z_]").replaceAll(LETTER, "\\w"), flags)
    : new RegExp(pattern.replaceAll("\\b", BORDER), `${flags}u`);
}

export class Grammar {
  constructor(tree) {
    this.repository = tree.repository;
    this.frames = { true: new Map(), false: new Map() };
    // What stands open at the start of a text: the rules whose end hasn't come, the innermost last.
    this.start = [tree];
  }

  // The rules of a list, with the rules that it includes in their places.
  rules(patterns) {
    return patterns.flatMap((rule) => {
      const meant = rule.include ? this.repository[rule.include.slice(1)] : rule;
      return meant.match || meant.begin ? [meant] : this.rules(meant.patterns);
    });
  }

  // What can come while a rule is open: its end and the rules in it, each with its expression, and one expression for
  // all. It finds the match that begins first, and of equals the one that comes first in the list.
  frame(open, isPlain) {
    let found = this.frames[isPlain].get(open);
    if (!found) {
      const rules = this.rules(open.patterns).map((rule) => ({ rule, pattern: rule.match ?? rule.begin }));
      if (open.end) rules.unshift({ rule: null, pattern: open.end });
      const any = rules.map(({ pattern }, turn) => `(?<r${turn}>${pattern})`).join("|");
      const own = rules.map((one) => ({ ...one, whole: expression(one.pattern, "dy", isPlain) }));
      found = { any: expression(any, "g", isPlain), rules: own };
      this.frames[isPlain].set(open, found);
    }
    return found;
  }

  // The tokens of a line, [start, end, scope], and what stands open after it.
  line(text, open) {
    const tokens = [];
    const isPlain = PLAIN.test(text);
    let state = open;
    for (let at = 0; ; ) {
      const { any, rules } = this.frame(state.at(-1), isPlain);
      any.lastIndex = at;
      const found = any.exec(text);
      if (!found) return { tokens, open: state };
      const { rule, whole } = rules.find((_, turn) => found.groups[`r${turn}`] !== undefined);
      at = found.index + found[0].length;
      if (!rule) {
        const { endCaptures, captures } = state.at(-1);
        scoped(text, found, whole, endCaptures ?? captures, undefined, tokens);
        state = state.slice(0, -1);
      } else {
        scoped(text, found, whole, rule.begin ? rule.beginCaptures ?? rule.captures : rule.captures, rule.name, tokens);
        if (rule.begin) state = [...state, rule];
      }
    }
  }
}

// Puts the parts of a match with their scopes after the tokens.
function scoped(text, found, whole, captures, name, tokens) {
  if (!captures || captures[0]) {
    const scope = captures ? captures[0].name : name;
    if (scope && found[0]) tokens.push([found.index, found.index + found[0].length, scope]);
    return;
  }
  whole.lastIndex = found.index;
  const { indices } = whole.exec(text);
  for (const [group, capture] of Object.entries(captures)) {
    const [start, end] = indices[group] ?? [0, 0];
    if (end > start) tokens.push([start, end, capture.name]);
  }
}

// The words of the language, as the grammar's rule for words lists them.
export function wordsOfGrammar(tree) {
  return tree.repository.word.patterns.flatMap(({ match }) => /\(\?:(.*?)\)/.exec(match)[1].split("|"));
}
