// ---- Which part of a claim does not hold after a refutation. No part of this touches the page, or judges: a part is a
// piece of the text, and `watch` says of a document with that part alone where it is false.

// More parts than these are not asked for.
const MOST_PARTS = 64;
const pairWords = ['unless', 'ensures', 'leadsto', 'until', 'detects'], binders = ['all', 'any', 'sum'];

// The tokens of a text, each with whether a blank stands before it.
function spacedTokens(source) {
  const found = tokensOf(source);
  return found.map(({ word, index }, k) => {
    const before = k ? found[k - 1].index + found[k - 1].word.length : index;
    return { word, gap: index > before };
  });
}

const spelled = tokens => tokens.map(({ word, gap }, k) => (k && gap ? ' ' : '') + word).join('');

// Each token with the number of brackets that are open before it.
function depthsOf(tokens) {
  let depth = 0;
  return tokens.map(({ word }) => {
    if (word === ')' || word === ']') depth--;
    const here = depth;
    if (word === '(' || word === '[') depth++;
    return here;
  });
}

// The places of a word that stands outside all brackets.
function outside(tokens, ...words) {
  const depths = depthsOf(tokens);
  return [...tokens.keys()].filter(k => depths[k] === 0 && words.includes(tokens[k].word));
}

// The tokens between these places.
function between(tokens, places) {
  const ends = [...places, tokens.length];
  return ends.map((to, k) => tokens.slice(k ? ends[k - 1] + 1 : 0, to));
}

// The same with numbers in place of names. A bound of a range, as i + 1, becomes one number, since the language has
// no sum of numbers there.
function numbered(tokens, numbers) {
  const put = tokens.map(it => (numbers.has(it.word) ? { ...it, word: numbers.get(it.word) } : it)), found = [];
  for (let k = 0; k < put.length; k++) {
    const [before, one, sign, other, after] = put.slice(Math.max(0, k - 1), k + 4).map(it => it.word);
    const isBound = k > 0 && [':', '..'].includes(before) && ['..', '::'].includes(after);
    const isSum = isBound && /^\d+$/.test(one) && /^[+-]$/.test(sign) && /^\d+$/.test(other);
    if (isSum) found.push({ ...put[k], word: String(Number(one) + Number(sign + other)) });
    else found.push(put[k]);
    if (isSum) k += 2;
  }
  return found;
}

// The tokens without brackets that stand around all of them.
function unwrapped(tokens) {
  const closes = tokens[0]?.word === '(' ? depthsOf(tokens).findIndex((it, k) => k > 0 && it === 0) : -1;
  return closes === tokens.length - 1 && closes > 0 ? unwrapped(tokens.slice(1, -1)) : tokens;
}

// What a formula joins by `and`, on the right of `=>` too, and for each number of an `all` whose range has two numbers.
function conjuncts(given) {
  const tokens = unwrapped(given), [implies] = outside(tokens, '=>');
  const range = /^all (\w+) : (-?\d+) \.\. (-?\d+) ::$/.exec(tokens.slice(0, 7).map(it => it.word).join(' '));
  if (range) {
    const [, name, from, to] = range, found = [];
    for (let k = Number(from); k <= Number(to) && found.length <= MOST_PARTS; k++) {
      found.push(...conjuncts(numbered(tokens.slice(7), new Map([[name, String(k)]]))));
    }
    return found;
  }
  if (binders.includes(tokens[0]?.word)) return [given];
  if (implies !== undefined) {
    const left = tokens.slice(0, implies + 1);
    return conjuncts(tokens.slice(implies + 1)).map(it => [...left, ...bracketed(it)]);
  }
  const ands = outside(tokens, 'and');
  return ands.length ? between(tokens, ands).flatMap(conjuncts) : [given];
}

// A part on the right of `=>`, in brackets where it has a `=>` itself.
function bracketed(tokens) {
  const [first, ...others] = tokens;
  if (!outside(tokens, '=>').length) return [{ ...first, gap: true }, ...others];
  return [{ word: '(', gap: true }, { ...first, gap: false }, ...others, { word: ')', gap: false }];
}

// What a step claims, as a formula and, of a pair, another one; with numbers in place of its parameters.
function claimOf(source, { step, byte, kind }, numbers) {
  const tokens = spacedTokens(source.slice(placeOfByte(source, byte).index));
  const [colon] = outside(tokens, ':'), [by] = outside(tokens, 'by'), [stop] = outside(tokens, ';');
  if (tokens[0]?.word !== step || !(colon < by) || !(by < stop)) return null;
  const words = numbered(tokens.slice(colon + 1, by), numbers), pairs = outside(words, ...pairWords);
  if (['invariant', 'stable'].includes(kind) && words[0]?.word === kind) return { left: words.slice(1) };
  if (!['unless', 'ensures'].includes(kind) || pairs.length !== 1) return null;
  const [left, right] = between(words, pairs);
  return { left, right };
}

// Whether a formula is false at these values.
async function isFalse(source, program, values, formula, ask) {
  const alone = startedAt(source, program, values), [name, safe] = freshNames(alone);
  const proof = `proof ${program}\n  ${safe}: defined by text;\n  ${name}: invariant ${formula} by text;\nend\n`;
  const told = await ask(['watch'], withSchedule(alone + proof, program, []));
  return brokenBy(told.text)?.step === `${program}.${name}`;
}

// Two names that a text has not.
function freshNames(source) {
  const has = new Set(tokensOf(source).map(it => it.word)), found = [];
  for (let k = 0; found.length < 2; k++) if (!has.has(`part${k}`)) found.push(`part${k}`);
  return found;
}

// Those parts of a formula that are false at these values.
async function falseParts(source, program, values, tokens, ask) {
  const found = [];
  for (const it of conjuncts(tokens).slice(0, MOST_PARTS)) {
    const inner = unwrapped(it), part = spelled(binders.includes(inner[0]?.word) ? it : inner);
    if (await isFalse(source, program, values, part, ask)) found.push(part);
  }
  return found;
}

// The parts of a claim that do not hold where it is refuted, each list with the words before it: at the values, or
// after the statement has changed them. `step` is what `obligations` tells of it.
async function brokenParts(source, { program, origin, instance, values, changes }, step, ask) {
  const own = new Set(partsOf(source, program).flatMap(it => [...declaredIn(it.tokens)]));
  const claim = claimOf(source, step, new Map(values.filter(([name]) => !own.has(name.split('[')[0]))));
  if (!claim || !(origin === 'start' || changes)) return [];
  const where = changes ? `after ${instance}` : 'at this initial state';
  const now = [...new Map([...values, ...(changes ?? []).map(([slot, , made]) => [slot, made])])];
  const left = / helps$/.test(origin) ? [] : await falseParts(source, program, now, claim.left, ask);
  const right = claim.right ? await falseParts(source, program, now, claim.right, ask) : [];
  const nor = left.length ? 'nor does this, of the right side:' : `${where} this of the right side does not hold:`;
  return [[`${where} this${claim.right ? ' of the left side' : ''} does not hold:`, left], [nor, right]]
    .filter(([, parts]) => parts.length);
}
