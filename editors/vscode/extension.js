// Starts the language server of unity-tool, and hands on what it says, without packages.
'use strict';
const vscode = require('vscode');
const fs = require('fs');
const path = require('path');
const { Connection } = require('./connection.js');

const UNITY = { language: 'unity' };

// The tool: as the settings say, of the folder that is open, or of that which this folder lies in.
function findTool() {
  const said = vscode.workspace.getConfiguration('unity').get('tool');
  const folders = (vscode.workspace.workspaceFolders || []).map(it => it.uri.fsPath);
  const places = [...folders, path.join(fs.realpathSync(__dirname), '..', '..')];
  return said || places.map(it => path.join(it, 'scripts', 'unity-tool')).find(it => fs.existsSync(it));
}

const place = it => new vscode.Position(it.line, it.character);
const range = it => new vscode.Range(place(it.start), place(it.end));
const position = it => ({ line: it.line, character: it.character });
const document = it => ({ textDocument: { uri: it.uri.toString() } });
const at = (it, where) => ({ ...document(it), position: position(where) });
const location = it => new vscode.Location(vscode.Uri.parse(it.uri), range(it.range));

function editOf(edit) {
  const made = new vscode.WorkspaceEdit();
  for (const [uri, edits] of Object.entries(edit.changes)) {
    for (const one of edits) made.replace(vscode.Uri.parse(uri), range(one.range), one.newText);
  }
  return made;
}

function diagnostic(it) {
  const made = new vscode.Diagnostic(range(it.range), it.message, it.severity - 1);
  made.source = it.source;
  made.code = it.code;
  return made;
}

function symbol(it) {
  const made = new vscode.DocumentSymbol(it.name, it.detail, it.kind - 1, range(it.range), range(it.selectionRange));
  made.children = (it.children || []).map(symbol);
  return made;
}

// What the server tells of its own accord.
function listen(server, found) {
  server.on('textDocument/publishDiagnostics', params =>
    found.set(vscode.Uri.parse(params.uri), params.diagnostics.map(diagnostic)));
  server.on('window/showMessage', params => params.type === 1
    ? vscode.window.showErrorMessage(params.message) : vscode.window.showInformationMessage(params.message));
  server.on('workspace/applyEdit', async params => (
    { applied: await vscode.workspace.applyEdit(editOf(params.edit)) }));
}

// What the server is told of documents.
function follow(server, keep) {
  const open = it => it.languageId === 'unity' && server.tell('textDocument/didOpen', { textDocument: {
    uri: it.uri.toString(), languageId: 'unity', version: it.version, text: it.getText() } });
  const changed = it => it.document.languageId === 'unity' && server.tell('textDocument/didChange', {
    textDocument: { uri: it.document.uri.toString(), version: it.document.version },
    contentChanges: it.contentChanges.map(one => ({ range: { start: position(one.range.start),
      end: position(one.range.end) }, text: one.text })) });
  const close = it => it.languageId === 'unity' && server.tell('textDocument/didClose', document(it));
  vscode.workspace.textDocuments.forEach(open);
  keep(vscode.workspace.onDidOpenTextDocument(open), vscode.workspace.onDidChangeTextDocument(changed),
    vscode.workspace.onDidCloseTextDocument(close));
}

// What the editor asks.
function provide(server, legend, keep) {
  const ask = (what, params) => server.ask(`textDocument/${what}`, params);
  const list = (what, params, made) => ask(what, params).then(found => (found || []).map(made));
  const on = vscode.languages;
  keep(
    on.registerHoverProvider(UNITY, { provideHover: (it, where) => ask('hover', at(it, where)).then(found =>
      found && new vscode.Hover(new vscode.MarkdownString(found.contents.value))) }),
    on.registerDefinitionProvider(UNITY, { provideDefinition: (it, where) =>
      ask('definition', at(it, where)).then(found => found && location(found)) }),
    on.registerReferenceProvider(UNITY, { provideReferences: (it, where, context) =>
      list('references', { ...at(it, where), context }, location) }),
    on.registerDocumentSymbolProvider(UNITY, { provideDocumentSymbols: it =>
      list('documentSymbol', document(it), symbol) }),
    on.registerFoldingRangeProvider(UNITY, { provideFoldingRanges: it => list('foldingRange', document(it),
      one => new vscode.FoldingRange(one.startLine, one.endLine, one.kind === 'comment' ? 1 : 3)) }),
    on.registerCompletionItemProvider(UNITY, { provideCompletionItems: (it, where) => list('completion', at(it, where),
      one => new vscode.CompletionItem(one.label, one.kind - 1)) }, '.'),
    on.registerRenameProvider(UNITY, { provideRenameEdits: (it, where, newName) =>
      ask('rename', { ...at(it, where), newName }).then(editOf) }),
    on.registerCodeLensProvider(UNITY, { provideCodeLenses: it => list('codeLens', document(it),
      one => new vscode.CodeLens(range(one.range), one.command)) }),
    on.registerCodeActionsProvider(UNITY, { provideCodeActions: (it, where) => list('codeAction', { ...document(it),
      range: { start: position(where.start), end: position(where.end) }, context: {} }, one => {
      const made = new vscode.CodeAction(one.title, vscode.CodeActionKind.QuickFix);
      made.command = { title: one.title, command: 'unity.act', arguments: [one.command, one.arguments] };
      return made;
    }) }),
    on.registerDocumentSemanticTokensProvider(UNITY, { provideDocumentSemanticTokens: it =>
      ask('semanticTokens/full', document(it)).then(found => new vscode.SemanticTokens(new Uint32Array(found.data))) },
    new vscode.SemanticTokensLegend(legend.tokenTypes, legend.tokenModifiers)));
}

async function activate(context) {
  const tool = findTool();
  if (!tool) {
    vscode.window.showErrorMessage('unity: there is no scripts/unity-tool; the setting unity.tool names it');
    return;
  }
  const keep = (...some) => context.subscriptions.push(...some);
  const found = vscode.languages.createDiagnosticCollection('unity');
  const server = new Connection('python3', [tool, 'lsp'],
    says => vscode.window.showErrorMessage(`unity: the language server ended: ${says}`));
  keep(found, server);
  listen(server, found);
  const { capabilities } = await server.ask('initialize', { processId: process.pid, capabilities: {} });
  server.tell('initialized', {});
  keep(vscode.commands.registerCommand('unity.act', (command, words) => server.ask('workspace/executeCommand',
    { command, arguments: words }).catch(fault => vscode.window.showErrorMessage(fault.message))));
  follow(server, keep);
  provide(server, capabilities.semanticTokensProvider.legend, keep);
}

module.exports = { activate, deactivate: () => {} };
