// The page: what is asked, when, and what becomes of the answer.

import { Annotation } from "./annotation.js";
import { AnswerPane } from "./answer.js";
import { Colours, classOf } from "./colours.js";
import { COMMANDS, WORDS_BEFORE_NAME, callOf, isExplained, isStopped, lackingCommands } from "./commands.js";
import { Decimals } from "./decimals.js";
import { start } from "./engine.js";
import { Examples } from "./examples.js";
import { explanationOf, linesOf, placesOf } from "./explanation.js";
import { Grammar, wordsOfGrammar } from "./grammar.js";
import { Hover } from "./hover.js";
import { LONGEST_LINK, opened, packed } from "./links.js";
import { measuresOf, textWithUnits, unitsOf } from "./measures.js";
import { placeInWords, placeOf } from "./places.js";
import { Popup } from "./popup.js";
import { Questions } from "./questions.js";
import { element, Sheet } from "./sheet.js";
import { Source } from "./source.js";
import { sourceOfBytes, sourceOfCalls, wordsOf } from "./words.js";

const SECONDS_FOR_TYPES = 2;
const page = Object.fromEntries([
  "example", "name", "words", "form", "open", "link", "file", "numbers", "marks", "colours", "text", "type", "size",
  "held", "calls-field", "calls", "status", "go", "stop", "answer", "trace", "explained", "decimals", "digits", "units",
  "decimal", "time", "said", "tip", "names"].map((name) => [name, document.getElementById(name)]));
const grammar = JSON.parse(document.getElementById("grammar").textContent);
const sheet = new Sheet(page, new Colours(new Grammar(grammar)), classOf);
const source = new Source(page, () => sheet.read());
const pane = new AnswerPane(page);
const hover = new Hover(sheet, page.tip, page.type);
const popup = new Popup(sheet, page.names, wordsOfGrammar(grammar), () => functions);
const decimals = new Decimals(page, (words) => put("show", words, (found) => decimals.heard(found)));

let questions = null;
let lacking = new Set();
let examples = null;
// What was last written after each command.
let lastWords = {};
// The functions by their names, as they were known last.
let functions = new Map();
let waiting = 0;
let late = 0;

// ---- asking

function wordsOfCommand() {
  return [{ text: page.name.value, places: [] }, ...(page.words.disabled ? [] : wordsOf(page.words.value))];
}

// What a command reads: the text, for `calls` with the calls.
function asked() {
  if (page.name.value !== "calls") return source.bytes();
  return source.held ? sourceOfBytes(source.held, page.calls.value)
    : new TextEncoder().encode(sourceOfCalls(page.text.value, page.calls.value));
}

// Puts a question about the text.
function put(key, words, heard) {
  questions.put(key, words, source.bytes(), heard);
}

// Asks again a moment after the last change.
function changed() {
  clearTimeout(waiting);
  waiting = setTimeout(ask, 120);
}

function ask() {
  clearTimeout(waiting);
  clearTimeout(late);
  if (!questions) return;
  const words = wordsOfCommand();
  late = setTimeout(() => {
    pane.status("running", "");
    page.stop.hidden = false;
  }, 300);
  document.body.dataset.state = "running";
  questions.clear();
  questions.put("answer", words.map((word) => word.text), asked(), (found) => {
    clearTimeout(late);
    page.stop.hidden = true;
    show(found, words);
    document.body.dataset.state = "answered";
  });
}

function stop() {
  clearTimeout(late);
  questions?.clear();
  page.stop.hidden = true;
  pane.status("stopped", "");
}

// ---- showing an answer

function show({ status, bytes, fault, time }, words) {
  sheet.mark([]);
  pane.explain(null);
  pane.took(time);
  for (const part of [page.go, page.trace]) part.hidden = true;
  decimals.set(null);
  if (fault) {
    pane.status("no answer", "refused");
    pane.note(`The engine ended the run (${fault}): it has less stack or memory than the program. ./umc has more.`);
    return;
  }
  const text = new TextDecoder("utf-8", { ignoreBOM: true }).decode(bytes);
  if (status === 17) {
    pane.status("status 17", "refused");
    pane.note("Memory was wanting.");
  } else if (status !== 0) {
    pane.status(`status ${status}`, "refused");
    pane.text(text, "refusal");
    showPlace(text, words);
  } else {
    pane.status("done", "done");
    showAnswer(text, words);
  }
  if (status !== 17) askMore(status, text, words.map((word) => word.text), time);
}

function showAnswer(text, words) {
  if (page.name.value === "twin") pane.twins(text, words[2]?.text ?? "");
  else if (page.name.value === "calls") pane.calls(text, page.calls.value);
  else if (page.name.value === "trace" && text.startsWith("error ")) showTrace(text);
  else pane.text(text, "");
}

// What is asked besides: why a text is refused, the types of its parts, a value in decimals.
function askMore(status, text, words, time) {
  if (isExplained(status)) {
    hover.set(null);
    if (!lacking.has("explain")) put("explain", ["explain"], (found) => showExplanation(found, text));
    return;
  }
  if (!lacking.has("annot") && !hover.annotation && time < 1000 * SECONDS_FOR_TYPES) put("annot", ["annot"], showTypes);
  const call = callOf(words);
  if (!call) return;
  if (isStopped(status) && page.name.value !== "twin" && !lacking.has("trace")) offerTrace(call);
  const isValue = status === 0 && page.name.value !== "show" && !text.startsWith("error ") && /\d/.test(text);
  if (isValue && !lacking.has("show")) decimals.set(call, time);
}

function decoded({ status, bytes, fault }) {
  return fault || status !== 0 ? null : new TextDecoder("utf-8", { ignoreBOM: true }).decode(bytes);
}

function showExplanation(found, report) {
  const answer = decoded(found);
  const lines = answer === null ? null : explanationOf(answer, report);
  if (!lines) return;
  pane.explain(lines, goTo);
  sheet.mark([placeOf(report), ...placesOf(lines)].filter((place) => place !== null));
}

function showTypes(found) {
  const answer = decoded(found);
  hover.set(answer === null ? null : new Annotation(answer));
  if (!hover.annotation) return;
  ({ functions } = hover.annotation);
  askUnits(hover.annotation);
}

// Asks what the measures of the text stand for.
function askUnits(annotation) {
  const names = source.held ? [] : measuresOf(sheet.lines, (number) => sheet.colours.tokens(number));
  if (names.length === 0) return;
  const text = new TextEncoder().encode(textWithUnits(page.text.value, names));
  questions.put("units", ["types"], text, (found) => {
    const answer = decoded(found);
    if (answer !== null) annotation.units = unitsOf(answer, names);
  });
}

function offerTrace({ budget, call }) {
  page.trace.hidden = false;
  page.trace.onclick = () => put("trace", ["trace", budget, ...call], (found) => {
    const answer = decoded(found);
    page.trace.hidden = answer !== null;
    if (answer !== null) showTrace(answer);
  });
}

// Shows where a run went wrong, after its report line.
function showTrace(answer) {
  const lines = linesOf(answer);
  if (page.name.value === "trace") pane.text(answer.slice(0, answer.indexOf("\n") + 1), "refusal");
  pane.explain(page.name.value === "trace" ? lines.slice(1) : lines, goTo);
  sheet.mark(placesOf(lines));
}

// ---- places

// Marks the place that a refusal names, in the text or in the words, and offers to go there.
function showPlace(text, words) {
  const place = placeOf(text);
  const inWord = placeInWords(text);
  if (place) {
    sheet.mark([place]);
    offer(`Go to ${place.line}:${place.column}`, () => goTo(place));
  } else if (inWord) {
    const before = (WORDS_BEFORE_NAME[page.name.value] ?? 0) + 1;
    const word = words[inWord.argument ? before + inWord.argument : 2];
    const at = word?.places[inWord.column - 1] ?? (word?.places.at(-1) ?? -1) + 1;
    offer("Go to the word", () => {
      page.words.focus();
      page.words.setSelectionRange(at, at + 1);
    });
  }
}

function offer(text, go) {
  page.go.textContent = text;
  page.go.hidden = false;
  page.go.onclick = go;
}

function goTo({ line, column }) {
  sheet.select(line, column);
}

// ---- the command

function showForm() {
  const [form, meaning] = COMMANDS[page.name.value];
  page.words.disabled = form === "";
  page.words.placeholder = form;
  page.form.replaceChildren(element("code", `${page.name.value} ${form}`.trim()), `: ${meaning}`);
  page["calls-field"].hidden = page.name.value !== "calls";
}

function setCommand(name, words) {
  page.name.value = name;
  page.words.value = words;
  lastWords[name] = words;
  showForm();
}

// Another command keeps the words that were last written after it, or after one of the same form.
function commandChosen() {
  const form = COMMANDS[page.name.value][0];
  const alike = Object.keys(lastWords).filter((name) => COMMANDS[name][0] === form);
  const given = { calls: "10000" }[page.name.value] ?? "";
  setCommand(page.name.value, lastWords[page.name.value] ?? (alike.length ? lastWords[alike.at(-1)] : given));
  ask();
}

function setText(text) {
  source.set(text);
  hover.set(null);
}

function exampleChosen() {
  const chosen = examples.chosen();
  if (!chosen) return;
  lastWords = chosen.first;
  setText(chosen.text);
  setCommand(chosen.command, chosen.words);
  ask();
}

async function open(file) {
  await source.open(file);
  hover.set(null);
  page.example.selectedIndex = 0;
  ask();
}

// ---- links

// Puts the program and the command into the page's address, and copies it where that may be done.
async function link() {
  const calls = page.name.value === "calls" ? [page.calls.value] : [];
  const text = await packed([page.name.value, page.words.value, page.text.value, ...calls]);
  if (text.length > LONGEST_LINK) {
    say("The program is too long for a link");
    return;
  }
  history.replaceState(null, "", `#${text}`);
  try {
    await navigator.clipboard.writeText(location.href);
    say("The link is copied, and in the address bar");
  } catch {
    say("The link is in the address bar");
  }
}

async function followLink() {
  try {
    const [name, words, text, calls] = await opened(location.hash.slice(1));
    if (!(name in COMMANDS) || lacking.has(name)) throw new Error("command");
    page.example.selectedIndex = 0;
    setText(text);
    page.calls.value = calls ?? "";
    setCommand(name, words);
    ask();
    return true;
  } catch {
    say("This link can't be read");
    return false;
  }
}

function say(text) {
  page.said.textContent = text;
  setTimeout(() => {
    if (page.said.textContent === text) page.said.textContent = "";
  }, 6000);
}

// ---- the start

function listen() {
  page.example.onchange = exampleChosen;
  page.name.onchange = commandChosen;
  page.words.oninput = () => {
    lastWords[page.name.value] = page.words.value;
    changed();
  };
  page.text.oninput = () => {
    source.edited();
    hover.set(null);
    page.example.selectedIndex = 0;
    popup.typedOne();
    changed();
  };
  page.calls.oninput = changed;
  page.open.onclick = () => page.file.click();
  page.file.onchange = () => {
    if (page.file.files[0]) open(page.file.files[0]);
    page.file.value = "";
  };
  page.link.onclick = link;
  page.stop.onclick = stop;
  addEventListener("hashchange", followLink);
  addEventListener("keydown", (event) => {
    if (event.key === "Escape" && !page.stop.hidden) stop();
  });
  addEventListener("dragover", (event) => event.preventDefault());
  addEventListener("drop", (event) => {
    if (!event.dataTransfer.files.length) return;
    event.preventDefault();
    open(event.dataTransfer.files[0]);
  });
}

// The commands and the examples that the program has.
function list() {
  const known = Object.keys(COMMANDS).filter((name) => !lacking.has(name));
  page.name.replaceChildren(...known.map((name) => new Option(name)));
  examples = new Examples(page.example, JSON.parse(document.getElementById("examples").textContent), lacking);
  page.example.selectedIndex = 1;
  exampleChosen();
}

async function begin() {
  listen();
  list();
  let program = null;
  try {
    program = await start(document.getElementById("module").textContent);
  } catch (fault) {
    pane.status("no program", "refused");
    pane.note(`This browser can't run the program, which needs WebAssembly with a 64-bit memory (${fault}).`);
    document.body.dataset.state = "unable";
    return;
  }
  lacking = await lackingCommands((words, text) => new Promise((heard) => program.ask(words, text, heard)));
  const typed = page.example.selectedIndex === 0 ? [page.name.value, page.words.value, page.text.value] : null;
  list();
  if (typed) {
    setText(typed[2]);
    setCommand(typed[0], typed[1]);
    page.example.selectedIndex = 0;
  }
  questions = new Questions(program, (isAsked) => {
    document.body.dataset.asked = isAsked;
  });
  if (location.hash.length < 2 || !await followLink()) ask();
}

begin();
