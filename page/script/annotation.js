// What `annot` prints: the type of each function, and the type of each part by its place.

import { columnAt } from "./places.js";

export class Annotation {
  constructor(text) {
    this.functions = new Map();
    this.types = new Map();
    // What each measure and abbreviation stands for, once it is known.
    this.units = new Map();
    for (const line of text.split("\n")) {
      const part = /^ {2}(\d+:\d+) (.*)$/.exec(line);
      if (part) this.types.set(part[1], part[2]);
      else if (line.includes(" : ")) this.functions.set(line.slice(0, line.indexOf(" : ")), line);
    }
  }

  typeAt(line, column) {
    return this.types.get(`${line}:${column}`);
  }
}

const NUMBER = /(?<![\p{L}\p{N}\p{M}\p{Pc}])\d+(?:[.r]\d+)?<[^<>]*>/gu;
const MEASURE = ["entity.name.type.measure", "support.constant.measure"];
const DECLARED = /(?<![\p{L}\p{N}\p{M}\p{Pc}])let\s+(?:rec\s+)?$/u;

// The part at an offset of a line, as {start, end, text}: what stands there, and its type. A number has its unit with
// it, and a field the sign before it. Null if nothing with a type stands there.
export function partAt(annotation, line, number, offset, tokens) {
  const token = tokens.find(([start, end]) => start <= offset && offset < end);
  if (!token || offset >= line.length) return null;
  const [start, end] = token;
  const text = line.slice(start, end);
  const type = annotation.typeAt(number, columnAt(line, start));
  if (type !== undefined) return { start, end, text: `${text} : ${type}` };
  return field(annotation, line, number, token) ?? numberWithUnit(annotation, line, number, offset)
    ?? declared(annotation, line, number, token) ?? measure(annotation, line, token);
}

function field(annotation, line, number, [start, end]) {
  const before = line.slice(0, start).trimEnd();
  if (!before.endsWith(".")) return null;
  const type = annotation.typeAt(number, columnAt(line, before.length - 1));
  return type === undefined ? null : { start, end, text: `.${line.slice(start, end)} : ${type}` };
}

function numberWithUnit(annotation, line, number, offset) {
  for (const found of line.matchAll(NUMBER)) {
    const [start, end] = [found.index, found.index + found[0].length];
    if (start > offset || offset >= end) continue;
    const type = annotation.typeAt(number, columnAt(line, start));
    return type === undefined ? null : { start, end, text: `${found[0]} : ${type}` };
  }
  return null;
}

// A measure or an abbreviation, if no number stands before it: what it stands for.
function measure(annotation, line, [start, end, scope]) {
  const name = line.slice(start, end);
  const unit = annotation.units.get(name);
  if (unit === undefined || !MEASURE.some((beginning) => scope.startsWith(beginning))) return null;
  return { start, end, text: unit === name ? `${name} : base measure` : `${name} = ${unit}` };
}

// A function's name at its declaration. The `let` of a local variable is a part with a type, and that of a function is
// none.
function declared(annotation, line, number, [start, end]) {
  const scheme = annotation.functions.get(line.slice(start, end));
  const found = DECLARED.exec(line.slice(0, start));
  if (!scheme || !found || annotation.typeAt(number, columnAt(line, found.index)) !== undefined) return null;
  return { start, end, text: scheme };
}
