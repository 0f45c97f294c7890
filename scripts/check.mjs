#!/usr/bin/env node
// Checks documents by node alone: node scripts/check.mjs [--prove] [FILE | FOLDER]..
//
// Neither Python nor a built program is needed: the module of the page for a browser answers. Each document has a line,
// as compilers write errors, FILE:LINE:COLUMN: MESSAGE, without what it does not have. Those of a folder come in the
// order of their names. The last line counts those that pass. The status is that of the first answer that is not 0, and
// 64 where there is no document. With --prove the certificates of a document that has none are searched for, and what
// is found is not kept. As an action of GitHub (action.yml) it takes its words from there, and names the patterns by
// which its lines are shown in the changes.
import { execFileSync, spawn } from 'node:child_process';
import { lstatSync, readFileSync, readdirSync, statSync } from 'node:fs';
import { cpus } from 'node:os';
import { fileURLToPath } from 'node:url';

const WRITE_FAULT = 8, WRONG_USE = 64, BUDGET = '1000000';
// the stack that a call gets, in KB, where the system grants it, and what of it is kept free
const STACK = 65536, KEPT_FREE = 1024;
const pathOf = name => fileURLToPath(new URL(name, import.meta.url));
const MODULE = pathOf('unity_tool/module.mjs'), PAGE = pathOf('../playground/unity.html');
const CODES = ['told', 'places'].map(it => readFileSync(pathOf(`../playground/src/${it}.js`), 'utf8'));
const { placeOf } = new Function(`'use strict'; ${CODES.join('')} return { placeOf };`)();

// The comment above, on standard output or standard error, and the end.
function usage(status) {
  const lines = readFileSync(fileURLToPath(import.meta.url), 'utf8').split('\n').slice(1);
  const says = lines.slice(0, lines.findIndex(it => !it.startsWith('//'))).map(it => it.slice(3));
  (status ? process.stderr : process.stdout).write(`${says.join('\n')}\n`);
  process.exit(status);
}

// The documents below a folder, in the order of the bytes of their names; a file alone.
function documentsOf(name) {
  if (!statSync(name).isDirectory()) return [name];
  const below = folder => readdirSync(folder).flatMap(it => {
    const path = `${folder.replace(/\/$/, '')}/${it}`, kind = lstatSync(path);
    return kind.isDirectory() ? below(path) : kind.isFile() && it.endsWith('.unity') ? [path] : [];
  });
  return below(name).sort((one, other) => Buffer.compare(Buffer.from(one), Buffer.from(other)));
}

// What runs node in as great a stack as it wants or the system grants; without a shell, in the usual one.
function nodeInStack() {
  try {
    const most = execFileSync('sh', ['-c', 'ulimit -Hs']).toString().trim();
    const stack = most === 'unlimited' ? STACK : Math.min(STACK, Number(most));
    return ['sh', '-c', 'ulimit -Ss "$0" && exec "$@"', `${stack}`, process.execPath, '--liftoff-only',
      `--stack-size=${stack - KEPT_FREE}`];
  } catch {
    return [process.execPath, '--liftoff-only'];
  }
}

const [START, ...STARTED] = nodeInStack();

// What the module answers by these words of a document: a status and a text.
function ask(words, source) {
  return new Promise(done => {
    const parts = [], kinds = { stdio: ['pipe', 'pipe', 'inherit'] };
    const child = spawn(START, [...STARTED, MODULE, PAGE, ...words], kinds);
    child.stdout.on('data', it => parts.push(it));
    child.on('close', status => done({ status, text: Buffer.concat(parts).toString() }));
    child.stdin.on('error', () => {}).end(source);
  });
}

// The place as compilers write it: a column counts bytes.
function placed(name, source, place) {
  if (!place) return name;
  if (!place.exact) return `${name}:${place.line}`;
  const start = source.lastIndexOf('\n', place.index - 1) + 1;
  return `${name}:${place.line}:${Buffer.byteLength(source.slice(start, place.index)) + 1}`;
}

// The status of a document, and its line.
async function judged(name, proves) {
  const bytes = readFileSync(name), source = bytes.toString();
  const searches = proves && !/^certificates\b/m.test(source);
  const { status, text } = await ask(searches ? ['prove', BUDGET] : ['check'], bytes);
  const says = status === 0 && searches ? 'proved' : text.split('\n', 1)[0] || `no answer, status ${status}`;
  return { status, line: `${placed(name, source, await placeOf(source, text, ask))}: ${says}` };
}

// The words of the call, or those that the action has.
function chosen() {
  const words = process.argv.slice(2), isAction = Boolean(process.env.GITHUB_ACTIONS) && words.length === 0;
  if (['-h', '--help'].includes(words[0])) usage(0);
  if (isAction) console.log(`::add-matcher::${pathOf('../editors/matcher.json')}`);
  const proves = isAction ? process.env.INPUT_PROVE === 'true' : words[0] === '--prove';
  const names = isAction ? (process.env.INPUT_FILES || '.').split(/\s+/) : words.slice(proves ? 1 : 0);
  if (names.length === 0 || names.some(it => it.startsWith('--'))) usage(WRONG_USE);
  return { proves, names };
}

// The documents that these names name; the end, where one can't be read or there is none.
function documents(names) {
  try {
    const found = names.filter(it => it).flatMap(documentsOf);
    if (found.length > 0) return found;
    process.stderr.write(`${names.join(', ')}: no document\n`);
  } catch (fault) {
    process.stderr.write(`${fault.path}: ${fault.code}\n`);
  }
  return process.exit(WRONG_USE);
}

// Asks of each document, some of them side by side, and prints the lines in their order.
async function judgeAll({ proves, names }) {
  const found = documents(names), answers = [], waiting = found.keys();
  const printed = { count: 0, passed: 0, status: 0 };
  const work = async () => {
    for (const at of waiting) {
      answers[at] = await judged(found[at], proves);
      for (; answers[printed.count]; printed.count++) {
        const { status, line } = answers[printed.count];
        console.log(line);
        printed.passed += status === 0;
        printed.status ||= status;
      }
    }
  };
  // (a container may tell of no processor)
  await Promise.all(Array.from({ length: Math.max(1, cpus().length) }, work));
  console.log(`${printed.passed} of ${found.length} pass`);
  process.exitCode = printed.status;
}

process.stdout.on('error', () => process.exit(WRITE_FAULT));
await judgeAll(chosen());
