// Places in a text. A place has a line and a column, both from 1; a column counts characters, and an offset the units
// of a string.

// Where the character of this column begins in a line.
export function offsetInLine(line, column) {
  let at = 0;
  for (let left = column - 1; left > 0 && at < line.length; left -= 1) {
    at += String.fromCodePoint(line.codePointAt(at)).length;
  }
  return at;
}

// The column of the character that begins at an offset.
export function columnAt(line, offset) {
  let column = 1;
  for (let at = 0; at < offset && at < line.length; column += 1) {
    at += String.fromCodePoint(line.codePointAt(at)).length;
  }
  return column;
}

const TOKEN = /^(?:\d+(?:[.r]\d+)?|'?[\p{L}\p{N}_][\p{L}\p{N}\p{M}\p{Pc}]*|\[<|>\]|<=|<>|->|::|\|\||&&|.)/u;

// The token at the front of a rest of a line, so far as it is plain to see.
export function tokenAt(rest) {
  return TOKEN.exec(rest)?.[0] ?? "";
}

// The part of a line that a place names: the offsets of its token. At the line's end it is one character wide.
export function rangeOf(line, column) {
  const start = offsetInLine(line, column);
  return [start, start + (tokenAt(line.slice(start)).length || 1)];
}

// The place that a report line names in the text, or null.
export function placeOf(report) {
  const found = / at (\d+):(\d+)\n?$/.exec(report);
  return found && { line: Number(found[1]), column: Number(found[2]) };
}

// The argument that a report line names, and the place in it; the argument is 0 for a signature.
export function placeInWords(report) {
  const found = /: (?:argument (\d+)|signature), .* at (\d+)\n?$/.exec(report);
  return found && { argument: Number(found[1] ?? 0), column: Number(found[2]) };
}

// The numbers of the ranges of a line that begin and end at each piece's ends, by their classes: pieces that don't
// overlap, in order. Of two that overlap the earlier one of the list counts.
export function pieces(ranges) {
  const found = [];
  for (const [start, end, kind] of ranges) {
    if (found.every(([from, to]) => end <= from || to <= start)) found.push([start, end, kind]);
  }
  return found.sort((one, other) => one[0] - other[0]);
}
