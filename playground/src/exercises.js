// ---- Exercises: a document with a hole each. The program says whether it is filled, by `check` or by `watch`.

let exercise = null;
const exerciseOf = called => data.exercises.find(it => it.name === called);
const doneOnes = () => stored('localStorage', 'done') ?? [];

function fillExercises() {
  const done = doneOnes();
  const groups = data.lessons.map(({ title }, chapter) => {
    const group = element('optgroup', '', { label: title });
    data.exercises.forEach((it, k) => {
      const words = `${done.includes(it.name) ? '✓ ' : ''}${k + 1}. ${it.title}`;
      if (it.chapter === chapter + 1) group.append(new Option(words, it.name));
    });
    return group;
  });
  get('exercise').replaceChildren(new Option(`none; ${done.length} of ${data.exercises.length} done`, ''), ...groups);
  get('exercise').value = exercise?.name ?? '';
}

function leaveExercise() {
  if (!exercise) return;
  if (edited) store('localStorage', `draft.${exercise.name}`, sourceOf());
  exercise = null;
  get('exercise').value = '';
  showAside(false);
}

// Shows an exercise, and puts its document into the editor, as far as it was filled.
function showExercise(called) {
  const draft = stored('localStorage', `draft.${called}`), chosen = exerciseOf(called);
  leaveExercise();
  if (chosen) {
    write(draft ?? chosen.start, chosen.name);
    edited = Boolean(draft);
  }
  showTask(called);
  showHole();
}

// What stands in the holes of the exercise that is shown, in the present text: without blanks around it, and comments
// behind it.
function ownWords() {
  const holes = exercise ? holesIn(exercise.start, exercise.holes, text.value) : [];
  return holes.map(({ from, to }) => {
    const inner = text.value.slice(from, to).replace(/\s*(#[^\n]*\s*)*$/, '');
    const begin = from + inner.length - inner.trimStart().length;
    return { from: begin, to: from + inner.length };
  });
}

// The lines of these.
function ownLines() {
  const lines = new Set();
  for (const { from, to } of ownWords()) {
    for (let k = lineOf(text.value, from).line; k <= lineOf(text.value, to).line; k++) lines.add(k);
  }
  return lines;
}

// Selects what stands in the first hole, and brings it into sight; whoever goes to the editor types over it.
function showHole() {
  const [hole] = ownWords();
  if (!hole) return;
  text.setSelectionRange(hole.from, hole.to);
  lookAt(lineOf(text.value, hole.from));
  const letter = parseFloat(getComputedStyle(text).fontSize) * 0.6, { index } = lineOf(text.value, hole.from);
  text.scrollLeft = Math.max(0, (hole.to - index + 4) * letter - text.clientWidth);
  follow();
}

// The exercise beside the editor, whose text stays as it is.
function showTask(called) {
  exercise = exerciseOf(called) ?? null;
  get('chapter').value = '';
  get('exercise').value = exercise?.name ?? '';
  if (exercise) drawTask();
  showAside(Boolean(exercise));
  repaint();
}

function drawTask() {
  const { title, html, hints, chapter, name: called } = exercise, box = get('lesson');
  const done = doneOnes(), task = element('div', '', { innerHTML: html }), told = element('div', '');
  const line = element('p', '', { className: 'turn' }), verdict = element('p', '', { id: 'verdict' });
  const at = data.exercises.indexOf(exercise), next = data.exercises[at + 1];
  verdict.setAttribute('role', 'status');
  const is = `exercise ${at + 1} of ${data.exercises.length}; read chapter ${chapter} before it`;
  line.append(element('button', 'is it done?', { id: 'judge', onclick: judge }),
    element('button', 'a hint', { id: 'hint', onclick: () => showHint(told) }),
    element('button', 'begin anew', { id: 'anew', onclick: () => startAnew() }),
    element('button', 'the solution', { id: 'solution', onclick: showSolution }));
  if (next) line.append(element('button', 'the next exercise', { onclick: () => showExercise(next.name) }));
  box.replaceChildren(element('h2', title), element('p', is), task, line, verdict, told);
  box.setAttribute('aria-label', 'exercise');
  told.dataset.left = hints.length;
  if (done.includes(called)) verdict.textContent = 'It was done already.';
}

function showHint(told) {
  const { hints } = exercise, k = hints.length - Number(told.dataset.left);
  if (k >= hints.length) return;
  told.dataset.left -= 1;
  told.append(element('p', `Hint ${k + 1} of ${hints.length}: ${hints[k]}`));
  get('hint').disabled = k + 1 === hints.length;
}

function startAnew() {
  write(exercise.start, exercise.name);
  store('localStorage', `draft.${exercise.name}`, null);
  showHole();
  text.focus();
}

function showSolution() {
  write(filled(exercise.start, exercise.holes, exercise.solution), exercise.name);
}

// Asks whether the exercise is done: first whether what was given is there, and then what the program says.
async function judge() {
  if (waiting || searching) return;
  const source = sourceOf(), chosen = exercise, { goal, name: called } = chosen;
  const at = changedAt(chosen.start, chosen.holes, source);
  let done = false, words = '';
  if (at >= 0) {
    const line = source.slice(0, at).split('\n').length;
    words = `Not yet: line ${line} is none that was left open, and it is not as it was given.`;
    clear();
    showPlace({ line, index: at, exact: true });
  } else {
    ({ done, words } = goal.violated ? await judgeRun(goal.violated) : await judgeProof(source, goal));
  }
  if (done) keepDone(called, source);
  // (meanwhile another exercise may have been chosen)
  if (exercise === chosen) {
    get('verdict').className = done ? 'good' : 'bad';
    get('verdict').textContent = words;
  }
  document.dispatchEvent(new Event('judged'));
}

async function judgeRun(step) {
  const told = await ask('watch'), broken = told && brokenBy(told.text);
  if (broken?.step === step) return { done: true, words: `Done: the schedule breaks ${step}.` };
  return { done: false, words: `Not yet: ${broken ? broken.step : 'nothing'} is broken by this schedule.` };
}

// A document with certificates is checked, another one proved; `check` has the last word.
async function judgeProof(source, { line }) {
  const given = certificatesAt(source) < source.length && certificatesAt(exercise.start) < exercise.start.length;
  const told = given ? await ask('check') : await ask('prove', get('budget').value);
  const accepted = told?.status === 0 && !given ? await asked(['check'], told.text) : told;
  if (accepted?.status !== 0) return { done: false, words: 'Not yet: the answer says what is missing.' };
  if (line && !accepted.text.split('\n').includes(line)) {
    return { done: false, words: `Not yet: “${line}” is wanted among the steps that are proved.` };
  }
  return { done: true, words: 'Done: what is claimed is proved.' };
}

function keepDone(called, source) {
  const done = doneOnes();
  if (!done.includes(called)) store('localStorage', 'done', [...done, called]);
  store('localStorage', `draft.${called}`, source);
  fillExercises();
}
