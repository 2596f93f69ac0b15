import assert from "node:assert/strict";
import { spawnSync } from "node:child_process";
import { readdirSync } from "node:fs";
import test from "node:test";

import { Colours, classOf } from "../script/colours.js";
import { candidates, namesOf } from "../script/completion.js";
import { Grammar, wordsOfGrammar } from "../script/grammar.js";
import { GRAMMAR, ROOT, textOf } from "./program.js";

function coloured(text) {
  const colours = new Colours(new Grammar(GRAMMAR));
  colours.set(text.split("\n"));
  return colours;
}

// The lines of editors/scopes: the number, the token and its scope.
function scopes(text) {
  const colours = coloured(text);
  return text.split("\n").flatMap((line, number) => colours.tokens(number).map(
    ([start, end, scope]) => `${number + 1}\t${line.slice(start, end)}\t${scope}`));
}

test("tokens are those of the editors' own engine", () => {
  const files = ["examples", "examples/refusals", "library"].flatMap(
    (folder) => readdirSync(ROOT + folder).filter((name) => name.endsWith(".um")).map((name) => `${folder}/${name}`));
  assert.ok(files.length > 20);
  const form = /^\s*(\d+)\s+(.*?)\s+(\S+)$/;
  for (const file of files) {
    const { stdout } = spawnSync("python3", [`${ROOT}editors/scopes`, ROOT + file], { encoding: "utf8" });
    const theirs = stdout.split("\n").map((line) => form.exec(line)).filter((it) => it && it[3] !== "-")
      .map(([, number, token, scope]) => `${number}\t${token}\t${scope}`);
    assert.ok(theirs.length > 3, file);
    assert.deepEqual(scopes(textOf(file)), theirs, file);
  }
});

test("letters beyond ASCII go on a word", () => {
  assert.deepEqual(scopes("leté = élet"), [
    "1\tleté\tvariable.other.um", "1\t=\tkeyword.operator.um", "1\télet\tvariable.other.um"]);
});

test("a change of a line changes the colours of those after it, as far as they depend on it", () => {
  const colours = coloured("[<Measure>] type v =\nm\n/ s\nlet x = 1");
  const classesOf = (number) => colours.tokens(number).map(([, , scope]) => classOf(scope)).join(" ");
  const classes = () => [0, 1, 2, 3].map(classesOf);
  assert.deepEqual(classes(), ["sign word sign sign word unit sign", "unit", "sign unit", "word function sign number"]);
  colours.set("let v =\nm\n/ s\nlet x = 1".split("\n"));
  assert.deepEqual(classes(), ["word function sign", "", "sign ", "word function sign number"]);
});

test("the colours of a far line begin shortly before it, and those of a near one at the start", () => {
  const colours = coloured(`[<Measure>] type v =\n${"m\n".repeat(9000)}m`);
  assert.equal(classOf(colours.tokens(9000)[0][2]), "");
  assert.equal(classOf(colours.tokens(3000)[0][2]), "unit");
  assert.deepEqual(coloured(`let k = ${"1 + ".repeat(6000)}1`).tokens(0), []);
});

// ---- names

const TEXT = "[<Measure>] type metre\ntype Body<[<Measure>] 'u> = { weight: num; place: num<'u> }\n"
  + "let height (width: num<metre>) =\n";

function offered(line, functions = new Map()) {
  const text = TEXT + line;
  const colours = coloured(text);
  const lines = text.split("\n");
  const { typed, found } = candidates({
    before: line, open: colours.at(lines.length - 1, line.length),
    names: namesOf(lines, (number) => colours.tokens(number)), words: wordsOfGrammar(GRAMMAR), functions });
  return { typed, texts: found.map((one) => one.text), found };
}

test("the words of the language are those of the grammar", () => {
  assert.equal(wordsOfGrammar(GRAMMAR).sort().join(" "),
    "Measure bool else false if in let list match not num pown rec then true type with");
});

test("names that fit are offered where they can stand", () => {
  assert.deepEqual(offered("  he").texts, ["height", "then"]);
  assert.deepEqual(offered("  wi").texts, ["width", "with"]);
  assert.deepEqual(offered("  2<").texts, ["metre", "'u"]);
  assert.deepEqual(offered("  2<me").texts, ["metre"]);
  assert.deepEqual(offered("  b.").texts, ["weight", "place"]);
  assert.deepEqual(offered("  b.pl").texts, ["place"]);
  assert.deepEqual(offered("let f (b: Bo").texts, ["Body", "bool"]);
  assert.deepEqual(offered("  { we").texts, ["weight"]);
  assert.deepEqual(offered("  // he").texts, []);
  assert.deepEqual(offered("  12").typed, "");
  assert.deepEqual(offered("  height").texts, []);
});

test("a function has its scheme beside it", () => {
  const functions = new Map([["height", "height : num<metre> -> num"]]);
  assert.deepEqual(offered("  hei", functions).found, [
    { text: "height", kind: "function", detail: "num<metre> -> num" }]);
});
