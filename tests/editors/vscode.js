// Runs the extension for Visual Studio Code with a stand-in for the editor: opens the document that the first word
// names, and prints what is found of it, what is told of its last step, and the edit of an action.
'use strict';
const fs = require('fs');
const path = require('path');
const Module = require('module');

const [file, command] = process.argv.slice(2);
const text = fs.readFileSync(file, 'utf8');
const uri = { fsPath: file, toString: () => 'file://' + file };
const opened = { uri, languageId: 'unity', version: 1, getText: () => text };
const provided = {}, commands = {}, waiting = [];
let found = [];

class Values {
  constructor(...values) { this.values = values; }
}
class Position { constructor(line, character) { Object.assign(this, { line, character }); } }
class Range { constructor(start, end) { Object.assign(this, { start, end }); } }
class Diagnostic { constructor(range, message, severity) { Object.assign(this, { range, message, severity }); } }
class WorkspaceEdit { constructor() { this.edits = []; } replace(...edit) { this.edits.push(edit); } }
const register = name => (_, provider) => { provided[name] = provider; return { dispose() {} }; };
const nothing = () => ({ dispose() {} });
const languages = new Proxy({
  createDiagnosticCollection: () => ({ set: (_, all) => { found = all; waiting.forEach(it => it()); }, dispose() {} }),
}, { get: (own, name) => own[name] || register(name.replace(/^register|Provider$/g, '')) });

const vscode = {
  languages, Position, Range, Diagnostic, WorkspaceEdit, Uri: { parse: it => ({ toString: () => it }) },
  CodeActionKind: { QuickFix: 'quickfix' },
  workspace: {
    textDocuments: [opened], workspaceFolders: [], getConfiguration: () => ({ get: () => '' }),
    onDidOpenTextDocument: nothing, onDidChangeTextDocument: nothing, onDidCloseTextDocument: nothing,
    applyEdit: async edit => { console.log(edit.edits.map(it => it[2]).join('\n')); return true; },
  },
  window: { showErrorMessage: it => console.log('error: ' + it), showInformationMessage: it => console.log(it) },
  commands: { registerCommand: (name, act) => { commands[name] = act; return { dispose() {} }; } },
};
const made = ['Hover', 'MarkdownString', 'Location', 'DocumentSymbol', 'FoldingRange', 'CompletionItem', 'CodeLens',
              'CodeAction', 'SemanticTokens', 'SemanticTokensLegend'];
for (const name of made) vscode[name] = class extends Values {};

const load = Module._load;
Module._load = (name, ...more) => (name === 'vscode' ? vscode : load(name, ...more));
const extension = require(path.join(__dirname, '..', '..', 'editors', 'vscode', 'extension.js'));

const until = holds => new Promise(yes => {
  const look = () => holds() && yes();
  waiting.push(look);
  look();
});

async function main() {
  const context = { subscriptions: [] };
  await extension.activate(context);
  await until(() => found.length && found[0].message.includes('\n\n'));
  console.log(`${found[0].range.start.line + 1}: ${found[0].message.split('\n')[0]}`);
  const line = found[0].range.start.line;
  const hover = await provided.Hover.provideHover(opened, new Position(line, found[0].range.start.character + 1));
  console.log(hover ? hover.values[0].values[0].split('\n')[0] : 'nothing is told');
  const symbols = await provided.DocumentSymbol.provideDocumentSymbols(opened);
  console.log(symbols.map(it => it.values[0]).join(' '));
  await commands['unity.act'](command, [uri.toString(), { line, character: 3 }]);
  context.subscriptions.forEach(it => it && it.dispose && it.dispose());
  process.exit(0);
}

main();
