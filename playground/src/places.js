// ---- Where in the document an answer points, and the picture of a trace. No part of this touches the page.

// The line (from 1) and the index in the text of a byte of the document, which answers count from 0.
function placeOfByte(source, at) {
  const bytes = new TextEncoder().encode(source);
  const before = new TextDecoder().decode(bytes.subarray(0, Math.min(at, bytes.length)));
  return { line: before.split('\n').length, index: before.length, exact: true };
}

// The line of a place, with the index at which it begins.
function lineOf(source, at) {
  return { line: source.slice(0, at).split('\n').length, index: source.lastIndexOf('\n', at - 1) + 1 };
}

// An answer that names a step, or a proof.
const placeWords = /^(?:rejected \d+ \w+|refuted|budget|violated) (\w+)(?:\.(\w+))?/;

// The place that an answer names, or nothing. Of a step it is what the steps of the document tell, which are null where
// one does not follow its rule, and are asked for where they are not given; `ask` puts words and a document to the
// program.
async function placeOf(source, answer, ask, steps) {
  const [first] = answer.split('\n', 1), byte = /^bad \d+ \w+ byte (\d+)$/.exec(first);
  if (byte) return placeOfByte(source, Number(byte[1]));
  const named = placeWords.exec(first);
  if (!named) return null;
  const [, program, step] = named, told = steps === undefined && step ? await stepsOf(source, ask) : steps;
  const at = told ? stepNamed(told, program, step)?.byte : await declaredAt(source, program, step, ask);
  return at === undefined ? null : lineOf(source, placeOfByte(source, at).index);
}

// The byte at which the name of a step begins, in a document of which no step is told. Where the name is declared once
// more before it, the program says where it is declared twice. Without a step, the byte of the proof.
async function declaredAt(source, program, step, ask) {
  const plain = source.replace(/#[^\n]*/g, it => ' '.repeat(it.length));
  const proof = new RegExp(`\\bproof\\s+${program}\\b`).exec(plain);
  if (!proof) return undefined;
  if (!step) return new TextEncoder().encode(source.slice(0, proof.index)).length;
  const end = proof.index + proof[0].length, more = ` ${step}: defined by text;`;
  const told = await ask(['check'], source.slice(0, end) + more + source.slice(end));
  const twice = /^bad \d+ DeclaredTwice byte (\d+)$/m.exec(told.text);
  return twice ? Number(twice[1]) - more.length : undefined;
}

// What `watch` tells of a violation: its place, its own lines, and all of these but the state as one line.
function violationOf(answer) {
  const told = /^(violated [\w.]+ place (\d+)\n(?:\w+ = -?\d+\n)*)\2(?: .*)?\n/.exec(answer);
  return told && { place: Number(told[2]), lines: told[0], fault: told[1].trimEnd().replace(/\n/g, ', ') };
}

// This answer of `watch`, and below it the trace up to the place that is violated, as scripts/watch.sh prints them.
function withTrace(answer, trace) {
  const violation = violationOf(answer);
  return violation && trace ? answer + trace.split('\n', violation.place + 2).join('\n') + '\n' : answer;
}

const isTrace = text => /^(run|replay) \w+\n/.test(text.slice(violationOf(text)?.lines.length ?? 0));

// The states of a trace, as rows of a number, a statement and the values; the heads of the columns; the line of its
// fixed point, where it has one; and the last line, where the trace has an end.
function tableOf(trace) {
  const lines = trace.replace(/\n$/, '').split('\n'), rows = [], head = ['state', 'statement'];
  const last = /^(rounds|undefined) /.test(lines.at(-1)) ? lines.pop() : '';
  const rest = /^fixed \d+$/.test(lines.at(-1)) ? lines.pop() : '';
  for (const line of lines.slice(1)) {
    const words = line.split(' '), first = rows.length ? 2 : 1;
    const cells = words.slice(first).map(it => [it.slice(0, it.indexOf('=')), it.slice(it.indexOf('=') + 1)]);
    cells.forEach(([name], k) => { head[k + 2] = name; });
    rows.push([words[0], rows.length ? words[1] : '', ...cells.map(it => it[1])]);
  }
  return { title: lines[0], head, rows, rest, last };
}

const escaped = text => text.replace(/&/g, '&amp;').replace(/</g, '&lt;').replace(/>/g, '&gt;');

// The picture of a trace, byte by byte the one that scripts/trace_svg.sh draws; before the trace the answer of `watch`
// may stand.
function traceSvg(text) {
  const { place = -1, lines = '', fault = '' } = violationOf(text) ?? {};
  const { title, head, rows, rest, last } = tableOf(text.slice(lines.length));
  const wide = head.map((name, k) => Math.max(name.length, ...rows.map(it => it[k].length)));
  const x = [];
  let left = 10;
  wide.forEach((n, k) => { x[k] = left; left += n * 8 + 16; });
  const feet = [rest, last, fault].filter(Boolean), foot = rows.length * 20 + 86;
  const width = Math.max(left + 2, ...[title, ...feet].map(it => it.length * 8 + 30));
  const height = foot - 10 + feet.length * 20;
  const cell = (at, y, kind, text) => `<text x="${at}" y="${y}"${kind && ` class="${kind}"`}>${escaped(text)}</text>`;
  const out = [
    `<svg xmlns="http://www.w3.org/2000/svg" width="${width}" height="${height}" viewBox="0 0 ${width} ${height}">`,
    `<title>${escaped(title)}</title>`,
    '<style>text { font: 13px monospace; fill: #202020 } .head, .new { font-weight: bold }',
    ...(rest ? ['.rest { fill: #d9f2d9 }'] : []),
    ...(fault ? ['.fault { fill: #ffd6d6 }'] : []),
    '.bad { font-weight: bold; fill: #a00000 } .mark { fill: #ffe08a } line { stroke: #b0b0b0 }</style>',
    `<rect width="${width}" height="${height}" fill="#ffffff"/>`,
    cell(10, 24, 'head', title),
    ...head.map((name, k) => cell(x[k], 52, 'head', name)),
    `<line x1="10" y1="60" x2="${left - 6}" y2="60"/>`,
  ];
  rows.forEach((state, n) => {
    const y = 78 + n * 20, violated = n === place, fixed = rest && n === rows.length - 1;
    const ground = kind => out.push(`<rect class="${kind}" x="4" y="${y - 14}" width="${left - 8}" height="18"/>`);
    if (fixed) ground('rest');
    if (violated) ground('fault');
    const name = violated ? 'bad' : fixed ? 'head' : '';
    state.forEach((value, k) => {
      const changed = n > 0 && k > 1 && value !== rows[n - 1][k];
      const mark = `<rect class="mark" x="${x[k] - 4}" y="${y - 14}" width="${wide[k] * 8 + 8}" height="18"/>`;
      if (changed) out.push(mark);
      out.push(cell(x[k], y, changed ? 'new' : k < 2 ? name : '', value));
    });
  });
  const kindOf = line => (/^(undefined|violated) /.test(line) ? 'bad' : line === rest ? 'head' : '');
  feet.forEach((line, k) => out.push(cell(10, foot + k * 20, kindOf(line), line)));
  out.push('</svg>');
  return out.join('\n') + '\n';
}
