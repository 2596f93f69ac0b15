import assert from "node:assert/strict";
import test from "node:test";

import { Annotation, partAt } from "../script/annotation.js";
import { explanationOf, linesOf, placesOf } from "../script/explanation.js";
import { Colours } from "../script/colours.js";
import { Grammar } from "../script/grammar.js";
import { measuresOf, textWithUnits, unitsOf } from "../script/measures.js";
import { columnAt, offsetInLine, pieces, placeInWords, placeOf, rangeOf } from "../script/places.js";
import { GRAMMAR, answer, textOf } from "./program.js";

function explained(text) {
  const report = answer(["types"], text).text;
  const lines = explanationOf(answer(["explain"], text).text, report);
  return { report, lines, places: placesOf(lines).map(({ line, column }) => `${line}:${column}`) };
}

test("places count characters, offsets units of a string", () => {
  assert.equal(offsetInLine("a😀b", 3), 3);
  assert.equal(columnAt("a😀b", 3), 3);
  assert.deepEqual(rangeOf("let x = y2 + 1", 9), [8, 10]);
  assert.deepEqual(rangeOf("let", 4), [3, 4]);
  assert.deepEqual(rangeOf("1 <= 2.5<m>", 6), [5, 8]);
  assert.deepEqual(placeOf("error 9: units of f at 3:35\n"), { line: 3, column: 35 });
  assert.equal(placeOf("error 11: argument 1, shape at 1\n"), null);
  assert.deepEqual(placeInWords("error 11: argument 2, shape at 4\n"), { argument: 2, column: 4 });
  assert.deepEqual(placeInWords("error 11: signature, text at 4\n"), { argument: 0, column: 4 });
});

test("pieces don't overlap, and the earlier one counts", () => {
  assert.deepEqual(pieces([[4, 6, "first"], [0, 2, "other"], [5, 7, "other"]]), [[0, 2, "other"], [4, 6, "first"]]);
});

test("an explanation names places", () => {
  const text = "[<Measure>] type m\n[<Measure>] type s\nlet f (x: num<_>) (y: num<_>) =\n  let a = x + 1<m> in\n"
    + "  let b = y + 1<s> in\n  x + y\n";
  const { report, lines, places } = explained(text);
  assert.equal(report, "error 9: units of f at 6:5\n");
  assert.deepEqual(places, ["4:13", "5:13"]);
  assert.deepEqual(lines[0], ["6 |   x + y"]);
  assert.deepEqual(lines.at(-1), ["    right: num<s>"]);
  assert.deepEqual(explained("let k = 1\nlet k = 2\n").places, ["1:5"]);
  assert.deepEqual(explained("let f (x: num) =\n  let y = x\nlet g = 1\n").places, ["2:3"]);
  assert.deepEqual(explained("let f = g\n").places, []);
});

test("each refusal of the examples has an explanation whose places stand in the text", () => {
  for (const name of ["characters", "form", "generality", "limits", "names", "powers", "shapes", "units"]) {
    const text = textOf(`examples/refusals/${name}.um`);
    const { lines, report } = explained(text);
    assert.ok(lines.length > 1, name);
    for (const { line, column } of [placeOf(report), ...placesOf(lines)]) {
      assert.ok(column <= [...text.split("\n")[line - 1]].length + 1, `${name}: ${line}:${column}`);
    }
  }
});

test("what explains another refusal is no explanation", () => {
  assert.equal(explanationOf("error 9: units of f at 1:2\nmore\n", "error 5: syntax at 1:2\n"), null);
  assert.deepEqual(explanationOf("error 9: units of f at 1:2\nmore\n", "error 9: units of f at 1:2\n"), [["more"]]);
});

test("a trace names the place and the open calls", () => {
  const text = "let rec g (n: num) : num = if n < 1 then 1 / n else g (n - 1)\nlet f (n: num) = g n + 1\n";
  const lines = linesOf(answer(["trace", "99", "f", "1"], text).text);
  assert.deepEqual(placesOf(lines).map(({ line, column }) => `${line}:${column}`), ["1:44", "1:53", "2:18"]);
});

// ---- types of parts

const TYPED = "[<Measure>] type m\ntype P<[<Measure>] 'u> = { x: num<'u>; w: num }\n"
  + "let f (p: P<m>) (é: num) =\n  let y = p.x + 2.5<m^2/m> in\n  y * -é // 😀\nlet g = true\n";

test("the part at an offset has its type", () => {
  const annotation = new Annotation(answer(["annot"], TYPED).text);
  const colours = new Colours(new Grammar(GRAMMAR));
  const lines = TYPED.split("\n");
  colours.set(lines);
  const at = (line, offset) => partAt(annotation, lines[line - 1], line, offset, colours.tokens(line - 1))?.text;
  assert.equal(at(4, 10), "p : P<m>");
  assert.equal(at(4, 11), ". : num<m>");
  assert.equal(at(4, 12), ".x : num<m>");
  assert.equal(at(4, 14), "+ : num<m>");
  assert.equal(at(4, 20), "2.5<m^2/m> : num<m>");
  assert.equal(at(4, 2), "let : num<m>");
  assert.equal(at(4, 6), undefined);
  assert.equal(at(5, 6), "- : num");
  assert.equal(at(5, 7), "é : num");
  assert.equal(at(5, 12), undefined);
  assert.equal(at(3, 4), "f : P<m> -> num -> num<m>");
  assert.equal(at(6, 4), "g : bool");
  assert.equal(at(6, 40), undefined);
});

test("a measure is shown with what it stands for", () => {
  const text = "[<Measure>] type kg\n[<Measure>] type m\n[<Measure>] type s\n[<Measure>] type N = kg m / s^2\n"
    + "[<Measure>] type one = m / m\nlet unit (x: num<N m>) (y: num<one>) = x // N";
  const colours = new Colours(new Grammar(GRAMMAR));
  const lines = text.split("\n");
  colours.set(lines);
  const names = measuresOf(lines, (number) => colours.tokens(number));
  assert.deepEqual(names, ["kg", "m", "s", "N", "one"]);
  const annotation = new Annotation(answer(["annot"], text).text);
  const at = (line, offset) => partAt(annotation, lines[line - 1], line, offset, colours.tokens(line - 1))?.text;
  assert.equal(at(4, 17), undefined);
  annotation.units = unitsOf(answer(["types"], textWithUnits(text, names)).text, names);
  assert.equal(at(4, 17), "N = kg m/s^2");
  assert.equal(at(4, 21), "kg : base measure");
  assert.equal(at(5, 17), "one = 1");
  assert.equal(at(6, 17), "N = kg m/s^2");
  assert.equal(at(6, 19), "m : base measure");
  assert.equal(at(6, lines[5].length - 1), undefined);
});

test("a text without measures has none, and one with too many neither", () => {
  assert.deepEqual(measuresOf(["let type_ = 1"], () => []), []);
  const many = Array.from({ length: 201 }, (_, at) => `type m${at}`);
  assert.deepEqual(measuresOf(many, (number) => [[5, many[number].length, "entity.name.type.measure.um"]]), []);
});
