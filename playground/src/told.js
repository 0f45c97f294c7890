// ---- What `obligations` tells of a document, and what a statement makes of a refutation. No part of this touches the
// page, or judges.

const UNDEFINED = 5;

// The steps in the text of `obligations`: each with its program and name, the byte at which the name begins, its kind
// and bound as `check` has them, and its obligations, each with its number and what it comes from.
function stepsIn(text) {
  const steps = [];
  for (const [line] of text.matchAll(/^; (?:step|obligation) .*$/gm)) {
    const step = /^; step (\w+)\.(\w+) byte (\d+) line \d+ (\w+)(?: (\d+))?$/.exec(line);
    const one = /^; obligation (\d+) \S+ (.*)$/.exec(line);
    if (step) {
      const [, program, name, byte, kind, bound] = step;
      steps.push({ program, step: name, byte: Number(byte), kind, bound: bound ?? '', obligations: [] });
    } else if (one) {
      steps.at(-1)?.obligations.push({ number: Number(one[1]), origin: one[2] });
    }
  }
  return steps;
}

// The steps of a document, or nothing where one does not follow its rule; `ask` puts words and a document to the
// program.
async function stepsOf(source, ask) {
  const told = await ask(['obligations'], source);
  return told.status === 0 ? stepsIn(told.text) : null;
}

// The step of this name, or nothing.
const stepNamed = (steps, program, step) => steps?.find(it => it.program === program && it.step === step);

// ---- Refutations.

// What a refutation is about: the program, the step, the obligation with its origin, the instance, where it is about
// one, and the values; or nothing.
function refutationOf(answer, steps) {
  const head = /^refuted (\w+)\.(\w+) obligation (\d+)$/m.exec(answer);
  const one = head && stepNamed(steps, head[1], head[2])?.obligations.find(it => it.number === Number(head[3]));
  if (!one) return null;
  const [, after, before] = /^(?:after (\S+) the |(\S+) (?:is defined|keeps it|helps|leaves ))/.exec(one.origin) ?? [];
  const values = [...answer.matchAll(/^(\S+) = (\S+)$/gm)].map(it => it.slice(1));
  return { program: head[1], step: head[2], ...one, instance: after ?? before, values };
}

// The names that a program declares, by its tokens.
function declaredIn(tokens) {
  const from = tokens.findIndex(it => it.word === 'declare');
  const words = from < 0 ? [] : tokens.slice(from, tokens.findIndex(it => it.word === 'assign'));
  return new Set(words.filter((it, k) => words[k + 1]?.word === ':').map(it => it.word));
}

// The sections of the programs that a program is made of, itself or the parts of a union.
function partsOf(source, program) {
  const section = sectionsOf(source).find(it => it.kind === 'program' && it.name === program);
  if (!section) return [];
  const tokens = tokensOf(source.slice(section.from, section.to));
  if (tokens[2]?.word !== '=') return [{ ...section, tokens }];
  return [tokens[3].word, tokens[5].word].flatMap(it => partsOf(source, it));
}

// The document without proofs, in which a program begins at these values, and not where it says.
function startedAt(source, program, values) {
  let made = programsAlone(source);
  for (const { from, tokens } of partsOf(made, program).sort((one, other) => other.from - one.from)) {
    const own = declaredIn(tokens), mine = values.filter(([slot]) => own.has(slot.split('[')[0]));
    const [cut, assign] = [['initially', 'start', 'assign'], ['assign']].map(words =>
      from + tokens.find(it => words.includes(it.word)).index);
    const start = mine.length ? `start\n  ${mine.map(it => it.join(' = ')).join(', ')}\n` : '';
    made = made.slice(0, cut) + start + made.slice(assign);
  }
  return made;
}

// The byte at which the label of an instance stands, or nothing.
function labelByte(source, program, instance) {
  const label = instance.split('[')[0];
  for (const { from, tokens } of partsOf(source, program)) {
    const assign = tokens.findIndex(it => it.word === 'assign');
    const found = tokens.find((it, k) => k > assign && it.word === label && tokens[k + 1]?.word === ':');
    if (found) return new TextEncoder().encode(source.slice(0, from + found.index)).length;
  }
  return undefined;
}

// What an instance changes in the state of these values: each slot with the value before and after. It is null where
// the step is undefined there, and undefined where that is not told.
async function changesOf(source, { program, instance, values }, ask) {
  const told = await ask(['replay'], withSchedule(startedAt(source, program, values), program, [instance]));
  if (told.status === UNDEFINED) return null;
  const [before, after] = told.text.split('\n').slice(1).filter(it => /^\d+ /.test(it)).map(it => it.match(/\S+=\S+/g));
  const pairs = after?.map((it, k) => [...before[k].split('='), it.split('=')[1]]);
  return pairs?.filter(([, old, now]) => old !== now);
}
