"use strict";
// The extension: starts `vault lsp`, hands it the open programs, and shows in the editor what it answers.
const fs = require("fs");
const path = require("path");
const vscode = require("vscode");
const { Client } = require("./client");

const LANGUAGE = "vault";
const SELECTOR = { language: LANGUAGE };
const DECLARES_VAULT = /^\s*(\/\/ *vault\b|(stateset|abstract|variant|extern)\b)|\btracked\s*[(@]/m;

let client;
let diagnostics;

// ---- what the protocol has, as the editor has it

const position = (it) => new vscode.Position(it.line, it.character);
const range = (it) => new vscode.Range(position(it.start), position(it.end));
const location = (it) => new vscode.Location(vscode.Uri.parse(it.uri), range(it.range));
const textEdit = (it) => new vscode.TextEdit(range(it.range), it.newText);

function diagnostic(said) {
  // the protocol counts severities from 1, the editor from 0; the same holds for kinds of symbols and of items
  const found = new vscode.Diagnostic(range(said.range), said.message, said.severity - 1);
  found.source = said.source;
  found.code = said.codeDescription ? { value: said.code, target: vscode.Uri.parse(said.codeDescription.href) } : said.code;
  found.relatedInformation = (said.relatedInformation || []).map(
    (it) => new vscode.DiagnosticRelatedInformation(location(it.location), it.message || " ")
  );
  return found;
}

function workspaceEdit(said) {
  const found = new vscode.WorkspaceEdit();
  for (const [uri, edits] of Object.entries(said.changes)) found.set(vscode.Uri.parse(uri), edits.map(textEdit));
  return found;
}

function codeAction(said) {
  const found = new vscode.CodeAction(said.title, vscode.CodeActionKind.QuickFix);
  found.edit = workspaceEdit(said.edit);
  found.isPreferred = said.isPreferred;
  found.diagnostics = said.diagnostics.map(diagnostic);
  return found;
}

function inlayHint(said) {
  const found = new vscode.InlayHint(position(said.position), said.label);
  found.paddingLeft = said.paddingLeft;
  found.tooltip = said.tooltip;
  return found;
}

function completionItem(said) {
  const found = new vscode.CompletionItem(said.label, said.kind - 1);
  found.detail = said.detail;
  return found;
}

const documentSymbol = (it) => new vscode.DocumentSymbol(it.name, it.detail, it.kind - 1, range(it.range), range(it.selectionRange));

// ---- what the editor asks

// the editor's own ranges would be written as lists
const place = (it) => ({ line: it.line, character: it.character });
const span = (it) => ({ start: place(it.start), end: place(it.end) });
const identified = (document) => ({ textDocument: { uri: document.uri.toString() } });

// The answer of the server about a document; null if there is none, so that the editor shows nothing.
function ask(method, document, more) {
  return client.request(`textDocument/${method}`, { ...identified(document), ...more }).catch(() => null);
}

async function list(method, document, more, make) {
  return ((await ask(method, document, more)) || []).map(make);
}

const providers = {
  registerHoverProvider: {
    async provideHover(document, at) {
      const found = await ask("hover", document, { position: place(at) });
      return found && new vscode.Hover(new vscode.MarkdownString(found.contents.value));
    },
  },
  registerDefinitionProvider: {
    async provideDefinition(document, at) {
      const found = await ask("definition", document, { position: place(at) });
      return found && location(found);
    },
  },
  registerReferenceProvider: {
    provideReferences: (document, at) =>
      list("references", document, { position: place(at), context: { includeDeclaration: true } }, location),
  },
  registerDocumentHighlightProvider: {
    provideDocumentHighlights: (document, at) =>
      list("documentHighlight", document, { position: place(at) }, (it) => new vscode.DocumentHighlight(range(it.range))),
  },
  registerDocumentSymbolProvider: {
    provideDocumentSymbols: (document) => list("documentSymbol", document, {}, documentSymbol),
  },
  registerDocumentFormattingEditProvider: {
    provideDocumentFormattingEdits: (document, options) => list("formatting", document, { options }, textEdit),
  },
  registerCodeActionsProvider: {
    provideCodeActions: (document, at) => list("codeAction", document, { range: span(at), context: { diagnostics: [] } }, codeAction),
  },
  registerInlayHintsProvider: {
    provideInlayHints: (document, at) => list("inlayHint", document, { range: span(at) }, inlayHint),
  },
  registerRenameProvider: {
    // why a renaming is refused is shown by the editor
    provideRenameEdits: async (document, at, newName) =>
      workspaceEdit(await client.request("textDocument/rename", { ...identified(document), position: place(at), newName })),
  },
};
const completions = { provideCompletionItems: (document, at) => list("completion", document, { position: place(at) }, completionItem) };

// ---- documents

// A file `.v` that is taken for another language's, but is a program in Vault: by its text, or since it lies beside a vault.json.
function isVaults(document) {
  if (document.uri.scheme !== "file" || !document.fileName.endsWith(".v") || document.languageId === LANGUAGE) return false;
  return DECLARES_VAULT.test(document.getText()) || fs.existsSync(path.join(path.dirname(document.fileName), "vault.json"));
}

function open(document) {
  if (document.languageId === LANGUAGE) {
    const said = { uri: document.uri.toString(), languageId: LANGUAGE, version: document.version, text: document.getText() };
    client.notify("textDocument/didOpen", { textDocument: said });
  } else if (isVaults(document)) {
    // the editor closes it, and opens it again in that language
    vscode.languages.setTextDocumentLanguage(document, LANGUAGE);
  }
}

function change(event) {
  const document = event.document;
  if (document.languageId !== LANGUAGE || !event.contentChanges.length) return;
  const changes = event.contentChanges.map((it) => ({ range: span(it.range), text: it.text }));
  const said = { uri: document.uri.toString(), version: document.version };
  client.notify("textDocument/didChange", { textDocument: said, contentChanges: changes });
}

function close(document) {
  if (document.languageId !== LANGUAGE) return;
  client.notify("textDocument/didClose", identified(document));
  diagnostics.delete(document.uri);
}

function told(method, params) {
  if (method === "textDocument/publishDiagnostics") {
    diagnostics.set(vscode.Uri.parse(params.uri), params.diagnostics.map(diagnostic));
  } else if (method === "window/showMessage") {
    vscode.window.showErrorMessage(params.message);
  }
}

// ---- the extension

async function start() {
  const settings = vscode.workspace.getConfiguration("vault");
  const command = settings.get("command") || "vault";
  const words = ["lsp", ...(settings.get("options") || [])];
  client = new Client(command, words, told, (why) => {
    diagnostics.clear();
    vscode.window.showErrorMessage(`${command} lsp: ${why}; the setting vault.command says which program is started`);
  });
  try {
    await client.request("initialize", { processId: process.pid, rootUri: null, capabilities: {} });
  } catch (error) {
    return;
  }
  client.notify("initialized", {});
  vscode.workspace.textDocuments.forEach(open);
}

async function restart() {
  await client.stop();
  await start();
}

async function activate(context) {
  diagnostics = vscode.languages.createDiagnosticCollection("vault");
  context.subscriptions.push(diagnostics, vscode.commands.registerCommand("vault.restart", restart));
  await start();
  for (const [register, provider] of Object.entries(providers)) {
    context.subscriptions.push(vscode.languages[register](SELECTOR, provider));
  }
  context.subscriptions.push(
    vscode.languages.registerCompletionItemProvider(SELECTOR, completions, ".", "@", "'"),
    vscode.workspace.onDidOpenTextDocument(open),
    vscode.workspace.onDidChangeTextDocument(change),
    vscode.workspace.onDidCloseTextDocument(close)
  );
}

const deactivate = () => client && client.stop();

module.exports = { activate, deactivate };
