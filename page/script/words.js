// The words of a command line, and the lines of `calls`.

const LINE_FEED = 10;

// The words of a line: parts without white space, in which a part in quotes is taken as it stands. Each has its text
// and where each of its characters stands in the line.
export function wordsOf(line) {
  const words = [];
  let word = null;
  let quote = "";
  for (let at = 0; at < line.length; ) {
    const character = String.fromCodePoint(line.codePointAt(at));
    const isMark = quote ? character === quote : character === '"' || character === "'" && isBeginning(line, at);
    if (isMark) {
      quote = quote ? "" : character;
      word ??= { text: "", places: [] };
    } else if (!quote && /\s/.test(character)) {
      if (word) words.push(word);
      word = null;
    } else {
      word ??= { text: "", places: [] };
      word.text += character;
      word.places.push(at);
    }
    at += character.length;
  }
  if (word) words.push(word);
  return words;
}

// A single quote opens a quoted part only where a word begins, since unit variables begin with one.
function isBeginning(line, at) {
  return at === 0 || /\s/.test(line[at - 1]);
}

// A line of `calls`: one with a tab as it stands, and any other by its words, with a tab between each two.
export function lineOfCalls(line) {
  return line.includes("\t") ? line : wordsOf(line).map((word) => word.text).join("\t");
}

// What `calls` reads: a program's text, and lines of calls. A line of the text that is three signs alone would end it;
// a space after them changes nothing.
export function sourceOfCalls(text, lines) {
  const cut = text.replace(/^---(?=\r?$)/gm, "--- ");
  return `${cut}${cut === "" || cut.endsWith("\n") ? "" : "\n"}${afterText(lines)}`;
}

// The same of a text's bytes, which may be no UTF-8.
export function sourceOfBytes(bytes, lines) {
  const end = bytes.length === 0 || bytes.at(-1) === LINE_FEED ? "" : "\n";
  const after = new TextEncoder().encode(`${end}${afterText(lines)}`);
  const source = new Uint8Array(bytes.length + after.length);
  source.set(bytes);
  source.set(after, bytes.length);
  return source;
}

function afterText(lines) {
  const calls = lines.split("\n").map(lineOfCalls);
  if (calls.at(-1) === "") calls.pop();
  return `---\n${calls.map((line) => `${line}\n`).join("")}`;
}
