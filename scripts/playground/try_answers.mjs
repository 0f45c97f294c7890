// Compares the page's module with the native program: node try_answers.mjs PAGE UNITY
//
// The module and the code that calls it are taken out of the page. Each document of examples/ is checked, proved,
// replayed, watched, run and run up to a fixed point, its obligations are told, and what was proved is checked as well;
// each text and status must be that of UNITY.
import { readFileSync, readdirSync } from 'node:fs';
import { spawnSync } from 'node:child_process';

const [file, unity] = process.argv.slice(2);
const top = new URL('../..', import.meta.url).pathname;
const page = readFileSync(file, 'utf8');
const [, module] = /<script type="text\/plain" id="module">([^<]*)<\/script>/.exec(page);
const [code] = /^function engine\(\) \{\n[^]*?\n\}\n/m.exec(page);
// A search of minutes is given up early, by both.
const LONG = ['go_back_n.unity'];
let told, tried = 0, failed = 0;
const worker = `'use strict'; let onmessage; ${code} engine(); return data => onmessage({ data });`;
const ask = new Function('postMessage', worker)(it => { told = it; });

ask({ module });
if (!told.ready) throw new Error(told.fault);

function answer(words, source) {
  ask({ words, source });
  return told;
}

function compare(name, words, source) {
  const native = spawnSync(unity, words, { input: source, maxBuffer: 1 << 28 });
  const here = answer(words, source);
  tried++;
  if (here.status !== native.status || here.text !== native.stdout.toString()) {
    failed++;
    const found = `${here.trap ?? here.status}, natively ${native.status}`;
    console.log(`${name} ${words.join(' ')}: ${found}; ${here.text?.slice(0, 200)}`);
  }
  return here;
}

for (const folder of ['examples', 'examples/mistakes', 'examples/causes']) {
  for (const name of readdirSync(`${top}/${folder}`).filter(it => it.endsWith('.unity')).sort()) {
    const source = readFileSync(`${top}/${folder}/${name}`, 'utf8');
    compare(name, ['check'], source);
    const proved = compare(name, ['prove', LONG.includes(name) ? '20000' : '1000000'], source);
    if (proved.status === 0) compare(`${name}, proved,`, ['check'], proved.text);
    compare(name, ['replay'], source);
    compare(name, ['watch'], source);
    compare(name, ['obligations'], source);
    for (const it of source.matchAll(/^program (\w+)/gm)) {
      for (const word of ['run', 'fixed']) compare(name, [word, it[1], '50'], source);
    }
  }
}
const others = [['demo', '64'], ['nothing'], ['prove', '0'], ['run', 'X', '-1'], ['fixed', 'X', '01'], ['täglich'], ['watch', '1']];
for (const words of others) compare('', words, '');

// The time of a search, where the engine has compiled the module, and that of the native program with its start.
const median = times => times.sort((a, b) => a - b)[times.length >> 1].toFixed(1);
const peterson = readFileSync(`${top}/examples/peterson.unity`, 'utf8'), here = [], native = [];
for (let k = 0; k < 20; k++) {
  here.push(answer(['prove', '1000000'], peterson).time);
  const begun = performance.now();
  spawnSync(unity, ['prove', '1000000'], { input: peterson });
  native.push(performance.now() - begun);
}
const times = `${median(here)} ms under node, ${median(native)} ms by the native program`;
console.log(`prove of Peterson: ${times} (medians of 20)`);
console.log(`answers: ${tried - failed} passed, ${failed} failed`);
process.exit(failed ? 1 : 0);
