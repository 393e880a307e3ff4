// What the server offers, in the editor's own terms.
'use strict';
const vscode = require('vscode');

const range = (r) => new vscode.Range(r.start.line, r.start.character, r.end.line, r.end.character);
const edit = (e) => new vscode.TextEdit(range(e.range), e.newText);

/** The protocol counts severities and the kinds of symbols and completions from 1, the editor from 0. */
const kind = (number) => number - 1;

const place = ({ line, character }) => ({ line, character });
const about = (document, position) => ({
  textDocument: { uri: document.uri.toString() },
  position: position && place(position),
});

function diagnostic(one) {
  const made = new vscode.Diagnostic(range(one.range), one.message);
  const guide = one.codeDescription;
  made.code = guide ? { value: one.code, target: vscode.Uri.parse(guide.href) } : one.code;
  made.severity = kind(one.severity);
  made.source = one.source;
  return made;
}

function symbol(one) {
  const made = new vscode.DocumentSymbol(one.name, one.detail, kind(one.kind), range(one.range), range(one.selectionRange));
  made.children = one.children.map(symbol);
  return made;
}

function changes(found) {
  const made = new vscode.WorkspaceEdit();
  for (const [uri, edits] of Object.entries(found.changes)) made.set(vscode.Uri.parse(uri), edits.map(edit));
  return made;
}

function action(one) {
  const made = new vscode.CodeAction(one.title, vscode.CodeActionKind.QuickFix);
  if (one.edit) made.edit = changes(one.edit);
  if (one.command) made.command = one.command;
  if (one.diagnostics) made.diagnostics = one.diagnostics.map(diagnostic);
  return made;
}

/** Registers everything for a server; `server.client` is the one that runs. */
function providers(server) {
  const ask = (method, document, position, more) =>
    server.client.ask(`textDocument/${method}`, { ...about(document, position), ...more });
  const renamed = async (method, document, position, more) => {
    const { result, error } = await server.client.reply(`textDocument/${method}`, { ...about(document, position), ...more });
    if (error) throw new Error(error.message);
    return result;
  };
  const { languages } = vscode;
  return [
    languages.registerHoverProvider('station', {
      async provideHover(document, position) {
        const hover = await ask('hover', document, position);
        return hover && new vscode.Hover(new vscode.MarkdownString(hover.contents.value), hover.range && range(hover.range));
      },
    }),
    languages.registerDefinitionProvider('station', {
      async provideDefinition(document, position) {
        const found = await ask('definition', document, position);
        return found && new vscode.Location(document.uri, range(found.range));
      },
    }),
    languages.registerReferenceProvider('station', {
      async provideReferences(document, position, context) {
        const found = await ask('references', document, position, { context });
        return (found || []).map((one) => new vscode.Location(document.uri, range(one.range)));
      },
    }),
    languages.registerRenameProvider('station', {
      async prepareRename(document, position) {
        const found = await renamed('prepareRename', document, position);
        return found && { range: range(found.range), placeholder: found.placeholder };
      },
      async provideRenameEdits(document, position, newName) {
        const found = await renamed('rename', document, position, { newName });
        return found && changes(found);
      },
    }),
    languages.registerDocumentSymbolProvider('station', {
      async provideDocumentSymbols(document) {
        return ((await ask('documentSymbol', document)) || []).map(symbol);
      },
    }),
    languages.registerCodeActionsProvider('station', {
      async provideCodeActions(document, selected) {
        const asked = { range: { start: place(selected.start), end: place(selected.end) }, context: { diagnostics: [] } };
        return ((await ask('codeAction', document, undefined, asked)) || []).map(action);
      },
    }),
    languages.registerCompletionItemProvider('station', {
      async provideCompletionItems(document, position) {
        const items = (await ask('completion', document, position)) || [];
        return items.map((one) => {
          const item = new vscode.CompletionItem(one.label, kind(one.kind));
          item.detail = one.detail;
          item.insertText = one.textEdit.newText;
          item.range = range(one.textEdit.range);
          return item;
        });
      },
    }, '\t', '.'),
    languages.registerDocumentFormattingEditProvider('station', {
      async provideDocumentFormattingEdits(document) {
        return ((await ask('formatting', document)) || []).map(edit);
      },
    }),
  ];
}

module.exports = { diagnostic, providers };
