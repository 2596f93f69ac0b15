import assert from "node:assert/strict";
import test from "node:test";

import { callOf, lackingCommands, showWords, PROBES } from "../script/commands.js";
import { lineOfCalls, sourceOfBytes, sourceOfCalls, wordsOf } from "../script/words.js";
import { answer, ask, textOf } from "./program.js";

const VEHICLE = textOf("examples/vehicle.um");

function texts(line) {
  return wordsOf(line).map((word) => word.text);
}

test("words are parts without white space, and parts in quotes", () => {
  assert.deepEqual(texts(" 9  mean '[1<m>; 2<m>]' \"a b\"c "), ["9", "mean", "[1<m>; 2<m>]", "a bc"]);
  assert.deepEqual(texts("num<'a> -> num"), ["num<'a>", "->", "num"]);
  assert.deepEqual(texts("''"), [""]);
  assert.deepEqual(wordsOf("x 'ab'")[1].places, [3, 4]);
});

test("a line of calls is words, or has tabs", () => {
  assert.equal(lineOfCalls("mean '[1; 2]' 3"), "mean\t[1; 2]\t3");
  assert.equal(lineOfCalls("mean\t[1; 2]"), "mean\t[1; 2]");
  assert.equal(lineOfCalls(""), "");
});

test("calls are answered line by line", () => {
  const lines = "kinetic '2<kg>' '3<m/s>'\n\nmean\t[1<m>; 2<m>]\nmean []";
  const found = answer(["calls", "9"], sourceOfCalls(VEHICLE, lines));
  assert.deepEqual(found, { status: 0, text: "9<kg m^2/s^2>\n\n3r2<m>\nerror 12: division by zero\n" });
  assert.deepEqual(answer(["calls", "9"], sourceOfCalls(VEHICLE, "")), { status: 0, text: "" });
  const minus = sourceOfCalls("let f (x: num) = x\n---\n1", "f 3\n");
  assert.deepEqual(answer(["calls", "9"], minus), { status: 0, text: "2\n" });
});

test("the bytes of a text that is no UTF-8 stay", () => {
  const latin = Uint8Array.from([...new TextEncoder().encode("let f (x: num) = x\n// caf"), 0xe9]);
  const { status, text: report } = answer(["calls", "9"], sourceOfBytes(latin, "f 3"));
  assert.deepEqual([status, report], [3, "error 3: not UTF-8 at 2:7\n"]);
  const text = new TextEncoder().encode(VEHICLE);
  assert.deepEqual(sourceOfBytes(text, "mean []"), new TextEncoder().encode(sourceOfCalls(VEHICLE, "mean []")));
});

test("a command's words have a call", () => {
  assert.deepEqual(callOf(["run", "9", "f", "1"]), { budget: "9", call: ["f", "1"] });
  assert.deepEqual(callOf(["twin", "9", "m=2", "f", "1"]), { budget: "9", call: ["f", "1"] });
  assert.deepEqual(callOf(["show", "2", "-", "9", "f"]), { budget: "9", call: ["f"] });
  for (const words of ["types", "run 9", "conform f num", "calls 9"]) assert.equal(callOf(words.split(" ")), null);
});

test("show is asked with units as they are written", () => {
  const call = callOf(["run", "9", "kinetic", "2<kg>", "3.5<m/s>"]);
  assert.deepEqual(answer(showWords("2", " kJ=1000<J> , J ", call), VEHICLE), { status: 0, text: "~0.01<kJ>\n" });
  assert.deepEqual(answer(showWords("2", "J", call), VEHICLE), { status: 0, text: "12.25<J>\n" });
  assert.deepEqual(answer(showWords("0", " , ", call), VEHICLE), { status: 0, text: "~12<kg m^2/s^2>\n" });
  assert.equal(answer(showWords("19", "", call), VEHICLE).status, 1);
});

test("what a program lacks is asked once for each command", async () => {
  const seen = [];
  const older = async (words) => {
    seen.push(words[0]);
    return { status: ["explain", "annot", "show"].includes(words[0]) ? 1 : 11 };
  };
  assert.deepEqual(await lackingCommands(older), new Set(["explain", "annot", "show"]));
  assert.deepEqual(seen, Object.keys(PROBES));
  assert.deepEqual(await lackingCommands(async () => ({ fault: "memory" })), new Set(Object.keys(PROBES)));
  assert.deepEqual(await lackingCommands(async (words, text) => ask(words, text)), new Set());
});
