"use strict";
// A stand-in for the module `vscode`: what the extension uses of it. It keeps what reaches the editor, and lets a session open and
// change documents.
class Position {
  constructor(line, character) {
    Object.assign(this, { line, character });
  }
  toJSON() {
    return { line: this.line, character: this.character };
  }
}

class Range {
  constructor(start, end) {
    Object.assign(this, { start, end });
  }
  // as the editor's own ranges are written
  toJSON() {
    return [this.start, this.end];
  }
}

class Uri {
  constructor(text) {
    const url = new URL(text);
    Object.assign(this, { text, scheme: url.protocol.slice(0, -1), fsPath: decodeURIComponent(url.pathname) });
  }
  static parse(text) {
    return new Uri(text);
  }
  toString() {
    return this.text;
  }
}

const record = (...names) =>
  class {
    constructor(...values) {
      names.forEach((name, number) => (this[name] = values[number]));
    }
  };

class WorkspaceEdit {
  constructor() {
    this.edits = new Map();
  }
  set(uri, edits) {
    this.edits.set(uri.toString(), edits);
  }
}

// ---- what reaches the editor

const shown = new Map();
const messages = [];
const providers = {};
const commands = {};
const listeners = { open: [], change: [], close: [] };
let settings = {};
let watchers = [];

function told() {
  watchers = watchers.filter((watcher) => !watcher());
}

// Waits until something holds; looked at whenever something reached the editor.
function until(holds) {
  return new Promise((resolve) => {
    watchers.push(() => {
      if (!holds()) return false;
      resolve();
      return true;
    });
    told();
  });
}

const collection = {
  set: (uri, found) => (shown.set(uri.toString(), found), told()),
  delete: (uri) => shown.delete(uri.toString()),
  clear: () => shown.clear(),
  dispose: () => {},
};
const register = (kind) => (selector, provider, ...more) => {
  providers[kind] = { selector, provider, more };
  return { dispose: () => delete providers[kind] };
};
const listen = (kind) => (listener) => {
  listeners[kind].push(listener);
  return { dispose: () => {} };
};
const kinds = [
  "Hover", "Definition", "Reference", "DocumentHighlight", "DocumentSymbol", "DocumentFormattingEdit", "CodeActions", "InlayHints",
  "Rename", "CompletionItem",
];
const registers = Object.fromEntries(kinds.map((kind) => [`register${kind}Provider`, register(kind)]));

// ---- documents, as a session has them

class Document {
  constructor(uri, languageId, text) {
    Object.assign(this, { uri: Uri.parse(uri), languageId, text, version: 1 });
    this.fileName = this.uri.fsPath;
  }
  getText() {
    return this.text;
  }
  offset(at) {
    const lines = this.text.split("\n");
    return lines.slice(0, at.line).reduce((sum, line) => sum + line.length + 1, 0) + at.character;
  }
  apply(edits) {
    const inOrder = [...edits].sort((one, other) => this.offset(other.range.start) - this.offset(one.range.start));
    for (const edit of inOrder) {
      this.text = this.text.slice(0, this.offset(edit.range.start)) + edit.newText + this.text.slice(this.offset(edit.range.end));
    }
    this.version += 1;
    const contentChanges = inOrder.map((edit) => ({ range: edit.range, text: edit.newText }));
    listeners.change.forEach((listener) => listener({ document: this, contentChanges }));
  }
}

const textDocuments = [];
function openDocument(document) {
  textDocuments.push(document);
  listeners.open.forEach((listener) => listener(document));
}

module.exports = {
  Position,
  Range,
  Uri,
  WorkspaceEdit,
  Location: record("uri", "range"),
  Diagnostic: record("range", "message", "severity"),
  DiagnosticRelatedInformation: record("location", "message"),
  Hover: record("contents"),
  MarkdownString: record("value"),
  TextEdit: record("range", "newText"),
  CodeAction: record("title", "kind"),
  CodeActionKind: { QuickFix: "quickfix" },
  InlayHint: record("position", "label"),
  CompletionItem: record("label", "kind"),
  DocumentHighlight: record("range"),
  DocumentSymbol: record("name", "detail", "kind", "range", "selectionRange"),
  languages: {
    ...registers,
    createDiagnosticCollection: () => collection,
    setTextDocumentLanguage: (document, languageId) => {
      listeners.close.forEach((listener) => listener(document));
      document.languageId = languageId;
      listeners.open.forEach((listener) => listener(document));
    },
  },
  commands: { registerCommand: (name, run) => ((commands[name] = run), { dispose: () => {} }) },
  window: { showErrorMessage: (text) => (messages.push(text), told()) },
  workspace: {
    textDocuments,
    getConfiguration: (part) => ({ get: (name) => settings[`${part}.${name}`] }),
    onDidOpenTextDocument: listen("open"),
    onDidChangeTextDocument: listen("change"),
    onDidCloseTextDocument: listen("close"),
  },
  session: { Document, openDocument, shown, messages, providers, commands, until, set: (all) => (settings = all) },
};
