// Starts `station lsp`, and again when it ends by itself or the setting changes;
// passes on what it says. No package is needed.
'use strict';
const vscode = require('vscode');
const { execFile } = require('child_process');
const { Client } = require('./client');
const { diagnostic, providers } = require('./providers');

/** So often a server that ends by itself is started again within so many milliseconds. */
const RESTARTS = 4;
const WITHIN = 180000;

const program = () => vscode.workspace.getConfiguration('station').get('program', 'station');
const ours = (document) => document.languageId === 'station';

/** The server that runs now. */
class Server {
  constructor() {
    this.found = vscode.languages.createDiagnosticCollection('station');
    this.ends = [];
  }

  start() {
    const client = new Client(program(), (message) => this.heard(message), (error) => this.ended(client, error));
    this.client = client;
    const symbols = { hierarchicalDocumentSymbolSupport: true };
    client.ask('initialize', { processId: process.pid, rootUri: null, capabilities: { textDocument: { documentSymbol: symbols } } });
    client.tell('initialized', {});
    vscode.workspace.textDocuments.forEach((document) => this.open(document));
  }

  /** By hand, or for another program: what happened before does not count. */
  async restart() {
    this.ends = [];
    this.found.clear();
    await this.client.stop();
    this.start();
  }

  ended(client, error) {
    if (client !== this.client) return;
    if (error) {
      vscode.window.showErrorMessage(`station: ${error.message}; see the setting station.program`);
      return;
    }
    const now = Date.now();
    this.ends = [...this.ends.filter((end) => now - end < WITHIN), now];
    if (this.ends.length <= RESTARTS) this.start();
    else vscode.window.showErrorMessage(`station lsp ended ${this.ends.length} times; the command "Station: restart the server" starts it again`);
  }

  heard({ method, params }) {
    if (method === 'textDocument/publishDiagnostics') {
      this.found.set(vscode.Uri.parse(params.uri), params.diagnostics.map(diagnostic));
    }
  }

  open(document) {
    if (!ours(document)) return;
    const { uri, version } = document;
    const textDocument = { uri: uri.toString(), languageId: 'station', version, text: document.getText() };
    this.client.tell('textDocument/didOpen', { textDocument });
  }

  change({ document }) {
    if (!ours(document)) return;
    const textDocument = { uri: document.uri.toString(), version: document.version };
    this.client.tell('textDocument/didChange', { textDocument, contentChanges: [{ text: document.getText() }] });
  }

  close(document) {
    if (ours(document)) this.client.tell('textDocument/didClose', { textDocument: { uri: document.uri.toString() } });
  }
}

/** What `station explain NUMBER` says, as the text of `station:explain/NUMBER`. */
const explanations = {
  provideTextDocumentContent(uri) {
    const number = uri.path.split('/').pop();
    return new Promise((answer) => {
      execFile(program(), ['explain', number], (error, out) => answer(error ? `station: ${error.message}` : out));
    });
  },
};

async function explain(number) {
  const document = await vscode.workspace.openTextDocument(vscode.Uri.parse(`station:explain/${number}`));
  await vscode.window.showTextDocument(document, { preview: true });
}

function activate(context) {
  const server = new Server();
  const { workspace, commands } = vscode;
  context.subscriptions.push(
    server.found,
    workspace.onDidOpenTextDocument((document) => server.open(document)),
    workspace.onDidChangeTextDocument((change) => server.change(change)),
    workspace.onDidCloseTextDocument((document) => server.close(document)),
    workspace.onDidChangeConfiguration((change) => change.affectsConfiguration('station.program') && server.restart()),
    workspace.registerTextDocumentContentProvider('station', explanations),
    commands.registerCommand('station.explain', explain),
    commands.registerCommand('station.restart', () => server.restart()),
    ...providers(server),
    { dispose: () => server.client.stop() },
  );
  server.start();
}

module.exports = { activate };
