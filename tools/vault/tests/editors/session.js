"use strict";
// A session of the extension of VS Code, over a stand-in for the editor: node session.js EXTENSION VAULT SECONDS FILE OTHER. What reaches
// the editor is written line by line. FILE is a program with an error; OTHER one that the editor takes for another language's.
const fs = require("fs");
const path = require("path");
const { pathToFileURL } = require("url");
const Module = require("module");

const [extension, vault, seconds, file, other] = process.argv.slice(2);
const standIn = path.join(__dirname, "vscode.js");
const resolve = Module._resolveFilename;
Module._resolveFilename = (name, ...more) => (name === "vscode" ? standIn : resolve(name, ...more));

const vscode = require("vscode");
const { session } = vscode;
const say = (...words) => console.log(words.join(" ").replace(/\n/g, "|"));
const at = (it) => `${it.start.line + 1}:${it.start.character + 1}`;

function opened(name, language) {
  const document = new session.Document(pathToFileURL(name).toString(), language, fs.readFileSync(name, "utf8"));
  session.openDocument(document);
  return document;
}

async function errors(document, wanted) {
  const uri = document.uri.toString();
  await session.until(() => session.shown.has(uri) && wanted(session.shown.get(uri).length));
  for (const it of session.shown.get(uri)) {
    const page = it.code.target.toString().replace(/^.*\/docs\//, "docs/");
    say("error", at(it.range), `severity ${it.severity}`, it.source, it.code.value, page, it.message);
    it.relatedInformation.forEach((one) => say("related", at(one.location.range), one.message));
  }
  say("errors", session.shown.get(uri).length);
}

async function provide(kind, call, ...words) {
  return session.providers[kind].provider[call](...words);
}

async function look(document) {
  const here = new vscode.Position(14, 9);
  const line = new vscode.Range(here, here);
  say("hover", (await provide("Hover", "provideHover", document, here)).contents.value);
  const definition = await provide("Definition", "provideDefinition", document, new vscode.Position(12, 5));
  say("definition", at(definition.range));
  say("references", (await provide("Reference", "provideReferences", document, new vscode.Position(2, 8))).length);
  say("highlights", (await provide("DocumentHighlight", "provideDocumentHighlights", document, new vscode.Position(2, 8))).length);
  const symbols = await provide("DocumentSymbol", "provideDocumentSymbols", document);
  say("symbols", symbols.map((it) => `${it.name}/${it.kind}`).join(" "));
  const fields = await provide("CompletionItem", "provideCompletionItems", document, new vscode.Position(16, 6));
  say("completion", fields.map((it) => `${it.label}/${it.kind}`).join(" "));
  const whole = new vscode.Range(new vscode.Position(0, 0), new vscode.Position(99, 0));
  for (const it of await provide("InlayHints", "provideInlayHints", document, whole)) say("hint", it.position.line + 1, it.label);
  const renamed = await provide("Rename", "provideRenameEdits", document, new vscode.Position(2, 8), "money");
  say("renamed", renamed.edits.get(document.uri.toString()).length);
  const keyword = provide("Rename", "provideRenameEdits", document, new vscode.Position(2, 8), "while");
  await keyword.catch((error) => say("refused", error.message));
  return provide("CodeActions", "provideCodeActions", document, line);
}

async function main() {
  session.set({ "vault.command": vault, "vault.options": ["--seconds", seconds] });
  const { activate, deactivate } = require(extension);
  const context = { subscriptions: [] };
  const document = opened(file, "vault");
  await activate(context);
  await errors(document, (count) => count > 0);
  const [action] = await look(document);
  say("action", action.title, action.kind, action.isPreferred, `for ${action.diagnostics.length}`);
  document.apply(action.edit.edits.get(document.uri.toString()));
  await errors(document, (count) => count === 0);
  document.apply([new vscode.TextEdit(new vscode.Range(new vscode.Position(0, 0), new vscode.Position(0, 0)), "// first\n\n\n")]);
  const [layout] = await provide("DocumentFormattingEdit", "provideDocumentFormattingEdits", document, {});
  say("layout", layout.newText.slice(0, 35));

  const second = opened(other, "verilog");
  await errors(second, () => true);
  say("language", second.languageId);

  await session.commands["vault.restart"]();
  session.shown.clear();
  await errors(document, () => true);
  await deactivate();

  session.set({ "vault.command": "/no/such/program" });
  await activate(context);
  await session.until(() => session.messages.length > 0);
  say("told", session.messages.join(" "));
  say("without a server", JSON.stringify(await provide("Hover", "provideHover", document, new vscode.Position(14, 9))));
}

main();
