import assert from "node:assert/strict";
import test from "node:test";

import { Questions } from "../script/questions.js";
import { opened, packed } from "../script/links.js";

// A program that answers when it is told to.
class Standing {
  constructor() {
    this.asked = [];
    this.stopped = 0;
  }

  ask(words, text, heard) {
    this.asked.push(words[0]);
    this.hear = () => heard({ status: 0, words });
  }

  stop() {
    this.stopped += 1;
    this.hear = null;
  }
}

function begun() {
  const [program, heard, busy] = [new Standing(), [], []];
  const questions = new Questions(program, (isAsked) => busy.push(isAsked));
  const put = (key, name = key) => questions.put(key, [name], "", (found) => heard.push(found.words[0]));
  return { program, questions, heard, busy, put };
}

test("questions are answered one after another", () => {
  const { program, heard, busy, put } = begun();
  put("answer");
  put("annot");
  assert.deepEqual(program.asked, ["answer"]);
  program.hear();
  program.hear();
  assert.deepEqual([program.asked, heard], [["answer", "annot"], ["answer", "annot"]]);
  assert.deepEqual([busy, program.stopped], [[true, true, false], 0]);
});

test("a later question with the same key takes the place of the earlier one", () => {
  const { program, heard, put } = begun();
  put("annot");
  put("show", "first");
  put("show", "second");
  program.hear();
  put("show", "third");
  program.hear();
  assert.deepEqual([program.asked, heard, program.stopped], [["annot", "second", "third"], ["annot", "third"], 1]);
});

test("nothing is answered after all is left out", () => {
  const { program, questions, heard, busy, put } = begun();
  put("answer");
  put("annot");
  questions.clear();
  assert.deepEqual([program.asked, heard, busy.at(-1), program.stopped], [["answer"], [], false, 1]);
  put("answer", "anew");
  program.hear();
  assert.deepEqual(heard, ["anew"]);
});

test("a link holds its texts", async () => {
  const texts = ["run", "9 f '1<m>'", "let f (x: num<_>) = x // é 😀\n"];
  const link = await packed(texts);
  assert.match(link, /^[A-Za-z0-9_-]+$/);
  assert.deepEqual(await opened(link), texts);
  await assert.rejects(opened("nothing"));
});
