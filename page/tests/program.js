// The program that the tests ask: the one that UMC names, otherwise the proved one of the checkout. One that lacks a
// command has `reference/umc` beside it, which has them all.

import { spawnSync } from "node:child_process";
import { existsSync, readFileSync } from "node:fs";
import { fileURLToPath } from "node:url";

export const ROOT = fileURLToPath(new URL("../../", import.meta.url));
const BUILT = `${ROOT}crates/umc/out/umc`;
const NAMED = process.env.UMC ?? (existsSync(BUILT) ? BUILT : null);
const REFERENCE = `${ROOT}reference/umc`;
const USAGE = 1;

function asked(program, words, text) {
  const { status, stdout, error } = spawnSync(program, words, { input: text, maxBuffer: 1 << 26 });
  // A program that doesn't read its text says why by its status.
  if (error && error.code !== "EPIPE") throw error;
  return { status, bytes: new Uint8Array(stdout), time: 1 };
}

// The status and the bytes of an answer.
export function ask(words, text) {
  const found = NAMED ? asked(NAMED, words, text) : null;
  return found && found.status !== USAGE ? found : asked(REFERENCE, words, text);
}

export function answer(words, text) {
  const { status, bytes } = ask(words, text);
  return { status, text: new TextDecoder().decode(bytes) };
}

export function textOf(file) {
  return readFileSync(`${ROOT}${file}`, "utf8");
}

export const GRAMMAR = JSON.parse(textOf("editors/vscode/syntaxes/um.tmLanguage.json"));
