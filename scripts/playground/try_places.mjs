// Compares the places and pictures of the page's script with those of scripts/: node try_places.mjs PAGE
import { readFileSync, readdirSync, existsSync } from 'node:fs';
import { execFileSync, spawnSync } from 'node:child_process';

const top = new URL('../..', import.meta.url).pathname, read = file => readFileSync(file, 'utf8');
const codes = ['sections', 'told', 'places', 'answers', 'claims'].map(it => read(`${top}/playground/src/${it}.js`));
const parts = '{ placeOf, traceSvg, withTrace, isTrace, stepsOf, refutationOf, changesOf, brokenParts, stepNamed }';
const { placeOf, traceSvg, withTrace, isTrace, stepsOf, refutationOf, changesOf, brokenParts, stepNamed } =
  new Function(`'use strict'; ${codes.join('')} return ${parts};`)();
const shell = (script, ...words) => execFileSync('bash', ['-c', script, 'bash', ...words]).toString();

// What `unity` answers to these words of a document.
async function ask(words, input) {
  const done = spawnSync('python3', ['-B', `${top}/scripts/unity-tool`, 'unity', ...words],
    { input, maxBuffer: 1 << 28 });
  return { status: done.status, text: done.stdout.toString() };
}

let tried = 0, failed = 0;

function compare(what, here, there) {
  tried++;
  if (here !== there) {
    failed++;
    console.log(`${what}: ${here.slice(0, 200)}, not ${there.slice(0, 200)}`);
  }
}

const draw = text => shell('printf %s "$2" | bash "$1/scripts/trace_svg.sh"', top, text);

// A violation is drawn with the trace up to its place, and with the whole of it.
function drawViolation(name, answer, trace) {
  const told = withTrace(answer, trace);
  compare(`${name}, its trace`, isTrace(told) ? traceSvg(told) : '', draw(told));
  compare(`${name}, all of the trace`, traceSvg(answer + trace), draw(answer + trace));
}

// What does not hold after a refutation, as `why` says it. Behind a `=>` the page goes on to parts, and it leaves names
// as they are: there both must say something.
async function compareParts(name, document, why, refuted, step) {
  const lists = [...why.matchAll(/(?:not hold(?: there)?|of the right side.*):\n((?:  .*\n)+)/g)];
  const told = lists.flatMap(it => it[1].trimEnd().split('\n'));
  const found = await brokenParts(document, refuted, step, ask);
  const here = found.flatMap(([, some]) => some);
  const sorted = some => some.map(it => it.replace(/\s/g, '')).sort().join('\n');
  const loose = told.some(it => it.includes('=>')) || here.some(it => /^\w+$/.test(it));
  compare(`${name}, what does not hold`, loose ? `${here.length > 0}` : sorted(here), loose ? 'true' : sorted(told));
}

// What a refutation's statement changes, as `why` says it.
async function compareChanges(name, document, why) {
  const steps = await stepsOf(document, ask), refuted = refutationOf(why, steps), { instance } = refuted;
  const changes = instance && await changesOf(document, refuted, ask);
  const each = changes?.map(([slot, old, now]) => `${slot} from ${old} to ${now}`).join(', ') || 'nothing';
  const here = changes === null ? `${instance} is undefined here:` : changes ? `${instance} changes ${each}` : '';
  await compareParts(name, document, why, { ...refuted, changes }, stepNamed(steps, refuted.program, refuted.step));
  compare(`${name}, what it changes`, here, /^\S+ (changes|is undefined) .*$/m.exec(why)?.[0] ?? '');
}

for (const code of codes) {
  if (!read(process.argv[2]).includes(code.trim())) throw new Error('the page has another script than playground/src');
}
for (const folder of ['examples', 'examples/mistakes', 'examples/causes', 'tests/places'].map(it => `${top}/${it}`)) {
  for (const name of readdirSync(folder)) {
    const file = `${folder}/${name}`, document = file.replace(/\.\w+$/, '.unity');
    if (/\.why$/.test(name)) {
      await compareChanges(name, read(document), read(file));
    } else if (/\.(run|fixed|replay)$/.test(name)) {
      compare(name, traceSvg(read(file)), shell('bash "$1/scripts/trace_svg.sh" < "$2"', top, file));
    } else if (/\.(expected|refuted|watch)$/.test(name) && existsSync(document)) {
      const told = shell('python3 -B "$1/scripts/unity-tool" place F "$3" < "$2" 2>&1', top, file, document);
      const place = await placeOf(read(document), read(file), ask);
      compare(name, `${place?.line ?? ''}`, /^F:(\d+)/m.exec(told)?.[1] ?? '');
      const replay = file.replace(/\.watch$/, '.replay');
      if (replay !== file && /^violated /.test(read(file))) drawViolation(name, read(file), read(replay));
    }
  }
}
compare('no variables, at rest', traceSvg('run P\n0\nfixed 0\nrounds 0\n'), draw('run P\n0\nfixed 0\nrounds 0\n'));
// (a step with parameters, a program without variables, a violation at the start, and one before an undefined step)
const none = 'replay P\n0\n1 skip\n2 skip\nrounds 2\n', wide = 'replay Q\n0 x=0\n1 grow x=1\nundefined 2 grow\n';
drawViolation('no variables', 'violated P.step place 1\nj = -1\nlong_name = 12\n1 skip\n', none);
drawViolation('the start', 'violated P.step place 0\n0\n', none);
drawViolation('an undefined step', 'violated Q.safe place 1\n1 grow x=1\n', wide);
compare('a place without a trace', withTrace('violated P.step place 0\n0\n', ''), 'violated P.step place 0\n0\n');
console.log(`places and pictures: ${tried - failed} passed, ${failed} failed`);
process.exit(failed ? 1 : 0);
