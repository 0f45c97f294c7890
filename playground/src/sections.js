// ---- The sections of a document, and its tokens without comments. No part of this touches the page, or judges.

const tokenForm = /#[^\n]*|:=|::|\.\.|<\[\]|<\|\||\[\]|\|>|\|\||<=|>=|=>|\/=|\w+|\S/g;
const sectionWords = ['program', 'proof', 'schedule', 'certificates'];

// The tokens of a text, each with its place, without comments.
function tokensOf(source) {
  const found = [];
  for (const it of source.matchAll(tokenForm)) if (it[0][0] !== '#') found.push({ word: it[0], index: it.index });
  return found;
}

// The sections from their first word up to their `end`, each with its kind and the name behind its first word.
function sectionsOf(source) {
  const found = [];
  let open = null;
  for (const { word, index } of tokensOf(source)) {
    if (open && !open.name && index > open.from) open.name = word;
    if (!open && sectionWords.includes(word)) open = { kind: word, name: '', from: index, to: source.length };
    else if (open && word === 'end') {
      open.to = index + word.length;
      found.push(open);
      open = null;
    }
  }
  return open ? [...found, open] : found;
}

// The text without its sections of these kinds.
function without(source, ...kinds) {
  let at = 0, out = '';
  for (const { kind, from, to } of sectionsOf(source)) {
    if (!kinds.includes(kind)) continue;
    out += source.slice(at, from);
    at = to;
  }
  return `${(out + source.slice(at)).trimEnd()}\n`;
}

const bare = source => without(source, 'schedule', 'certificates');
const programsAlone = source => without(source, 'proof', 'schedule', 'certificates');

// The text without certificates and with this schedule in place of its own.
function withSchedule(source, program, choices) {
  return `${bare(source)}schedule ${program} :\n${wrapped(choices)}end\n`;
}

// The choices of a schedule on lines of up to 100 letters.
function wrapped(choices) {
  let out = '', line = ' ';
  choices.forEach((it, k) => {
    const word = ` ${it}${k + 1 < choices.length ? ',' : ''}`;
    if (line.length + word.length > 100) {
      out += `${line}\n`;
      line = ' ';
    }
    line += word;
  });
  return line.trim() ? `${out}${line}\n` : out;
}

// Where the certificates begin, or the text's length.
function certificatesAt(source) {
  const at = source.search(/^certificates\b/m);
  return at < 0 ? source.length : at;
}

// ---- Holes of exercises: a hole begins behind a list of tokens, and ends before the first token of its kind's list.

const everyHole = ['program', 'proof', 'end', 'certificates'];
const holeEnds = {
  formula: [...everyHole, 'by', 'using', 'with', ';', ':=', '[]', '~', '||', '|>', 'initially', 'assign'],
  rule: [...everyHole, ';'],
  steps: everyHole,
  schedule: everyHole,
  numbers: [...everyHole, ';'],
};

// Where these words stand among the tokens, from a place on; -1 where they don't.
function placeOfWords(tokens, words, from) {
  for (let k = from; k + words.length <= tokens.length; k++) {
    if (words.every((word, j) => tokens[k + j].word === word)) return k;
  }
  return -1;
}

// The given tokens as pieces, each with the kind of the hole behind it; `holes` are [kind, the words before it].
function piecesOf(start, holes) {
  const tokens = tokensOf(start), pieces = [];
  let from = 0;
  for (const [kind, before] of holes) {
    const words = tokensOf(before).map(it => it.word), at = placeOfWords(tokens, words, from) + words.length;
    let to = at;
    while (to < tokens.length && !holeEnds[kind].includes(tokens[to].word)) to++;
    const [first, last] = [tokens[at - 1], tokens[to]];
    pieces.push({ words: tokens.slice(from, at).map(it => it.word), kind, from: first.index + first.word.length,
      to: last ? last.index : start.length });
    from = to;
  }
  return [...pieces, { words: tokens.slice(from).map(it => it.word) }];
}

// The start with these texts in its holes.
function filled(start, holes, texts) {
  let out = '', at = 0;
  piecesOf(start, holes).slice(0, -1).forEach(({ from, to }, k) => {
    out += `${start.slice(at, from)} ${texts[k]}${/\s*$/.exec(start.slice(from, to))[0]}`;
    at = to;
  });
  return out + start.slice(at);
}

// What of a text is compared with the start: sections that it has and the start has not are left out.
function compared(start, source) {
  const has = new Set(sectionsOf(start).map(it => it.kind));
  return without(source, ...['schedule', 'certificates'].filter(it => !has.has(it)));
}

// Where the holes are in a text that is as it was given up to them: from the end of the word before one up to the word
// behind it.
function holesIn(start, holes, source) {
  const tokens = tokensOf(source), found = [];
  let at = 0;
  for (const { words, kind } of piecesOf(start, holes)) {
    if (!words.every((word, k) => tokens[at + k]?.word === word)) return found;
    at += words.length;
    const from = tokens[at - 1].index + tokens[at - 1].word.length;
    while (kind && at < tokens.length && !holeEnds[kind].includes(tokens[at].word)) at++;
    if (kind) found.push({ from, to: tokens[at]?.index ?? source.length });
  }
  return found;
}

// The index of the first token outside the holes that is not as it was given, or -1.
function changedAt(start, holes, source) {
  const kept = compared(start, source), tokens = tokensOf(kept);
  let at = 0;
  for (const { words, kind } of piecesOf(start, holes)) {
    for (const word of words) {
      if (tokens[at]?.word !== word) return tokens[at]?.index ?? kept.length;
      at++;
    }
    while (kind && at < tokens.length && !holeEnds[kind].includes(tokens[at].word)) at++;
  }
  return at < tokens.length ? tokens[at].index : -1;
}
