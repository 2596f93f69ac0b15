// Starts the language server `um lsp` for programs with units of measure, and offers tasks that run `um`.
"use strict";

const vscode = require("vscode");
const { LanguageClient, RevealOutputChannelOn } = require("vscode-languageclient/node");

let client;

function command() {
  const words = vscode.workspace.getConfiguration("um").get("command");
  return Array.isArray(words) && words.length > 0 ? words : ["um"];
}

function serverOptions() {
  const [program, ...words] = command();
  const before = vscode.workspace.getConfiguration("um").get("with") || [];
  return { command: program, args: [...words, "lsp", ...before.flatMap((file) => ["--with", file])] };
}

async function start() {
  client = new LanguageClient("um", "um", serverOptions(), {
    documentSelector: [{ language: "um" }],
    revealOutputChannelOn: RevealOutputChannelOn.Never,
  });
  try {
    await client.start();
  } catch (fault) {
    client = undefined;
    vscode.window.showErrorMessage(`um: the language server didn't start: ${fault.message}. ` +
      "The setting um.command names the command.");
  }
}

async function restart() {
  if (client) await client.stop();
  await start();
}

function task(definition, scope) {
  const [program, ...words] = command();
  return new vscode.Task(definition, scope, definition.words.join(" "), "um",
    new vscode.ShellExecution(program, [...words, ...definition.words]), "$um");
}

const tasks = {
  provideTasks: () => [["types", "${file}"], ["annot", "${file}"], ["tidy", "--check", "${file}"]]
    .map((words) => task({ type: "um", words }, vscode.TaskScope.Workspace)),
  resolveTask: (given) => (Array.isArray(given.definition.words)
    ? task(given.definition, given.scope || vscode.TaskScope.Workspace) : undefined),
};

async function activate(context) {
  context.subscriptions.push(
    vscode.commands.registerCommand("um.restart", restart),
    vscode.tasks.registerTaskProvider("um", tasks),
    vscode.workspace.onDidChangeConfiguration((change) => {
      if (change.affectsConfiguration("um.command") || change.affectsConfiguration("um.with")) restart();
    }));
  await start();
}

async function deactivate() {
  if (client) await client.stop();
}

module.exports = { activate, deactivate };
