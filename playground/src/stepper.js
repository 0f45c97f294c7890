// ---- Step by step: a schedule that is made by clicks. Each answer is that of `run`, `replay` or `watch`.

// Of more instances than this it is not asked which change something.
const MOST_TRIED = 128, MOST_INSTANCES = 4097;
const walk = { list: [], at: 0, program: '', source: '', names: [], turn: 0 };

// The instances of a program, in their order: those of which `obligations` says what a step asks that it is defined.
async function instancesOf(source, program) {
  const alone = programsAlone(source), [name] = freshNames(alone);
  const told = await asked(['obligations'], `${alone}proof ${program}\n  ${name}: defined by text;\nend\n`);
  const [step] = told.status === 0 ? stepsIn(told.text) : [];
  if (!step) return namesOfRun(alone, program);
  return { names: step.obligations.map(it => it.origin.replace(/ is defined$/, '')) };
}

// The same where that is not told: those of a run, up to the first that comes again.
async function namesOfRun(alone, program) {
  const told = await asked(['run', program, String(MOST_INSTANCES)], alone), names = [];
  for (const line of told.text.split('\n').slice(2)) {
    const found = /^(?:undefined )?\d+ (\w+(?:\[[-\d,]+\])?)( |$)/.exec(line)?.[1];
    if (!found || names.includes(found)) break;
    names.push(found);
  }
  return told.status === 0 || told.status === UNDEFINED ? { names } : { names, fault: told };
}

// The values in the last state of a trace, as its line has them behind the statement.
function lastState(trace) {
  const line = trace.trimEnd().split('\n').filter(it => /^\d+( |$)/.test(it)).at(-1) ?? '';
  return line.split(' ').filter(it => it.includes('=')).join(' ');
}

const kindTitles = { moves: 'changes the state', idle: 'changes nothing here', undefined: 'is undefined here',
  open: '' };

// What an instance does after these choices: moves, idle or undefined.
async function kindOf(alone, list, instance, now) {
  const told = await asked(['replay'], withSchedule(alone, walk.program, [...list, instance]));
  if (told.status === UNDEFINED) return 'undefined';
  return told.status === 0 && lastState(told.text) === now ? 'idle' : 'moves';
}

// The choices of the document's own schedule, where it is one of this program.
async function ownChoices(source, program) {
  if (!sectionsOf(source).some(it => it.kind === 'schedule' && it.name === program)) return [];
  const told = await asked(['replay'], source), names = [];
  for (const line of told.text.split('\n').slice(2)) {
    const found = /^(?:undefined )?\d+ (\w+(?:\[[-\d,]+\])?)( |$)/.exec(line)?.[1];
    if (found) names.push(found);
  }
  return names;
}

async function stepThrough() {
  if (waiting || searching) return;
  await beginWalk(await ownChoices(sourceOf(), get('program').value), 0);
}

// Begins a walk through the present document with these choices, at a place among them.
async function beginWalk(list = [], at = 0) {
  if (waiting || searching) return;
  const source = sourceOf(), program = get('program').value, turn = ++walk.turn;
  const { names, fault } = await instancesOf(source, program);
  if (turn !== walk.turn) return;
  if (fault || !names.length) {
    clear();
    // (places in the text without proofs are none of this document)
    const own = fault && await asked(['check'], source);
    const told = own?.status === 2 ? own : fault ?? { fault: 'There is no program to step through.' };
    show(['step'], source, told, await besides(['step'], source, told));
    return;
  }
  Object.assign(walk, { list, at, program, source, names });
  await showWalk(true);
}

// Shows where the walk is: what each instance would do, the trace, and the claim that is broken.
async function showWalk(takesFocus = false) {
  const turn = ++walk.turn, { source, program, names } = walk, alone = programsAlone(source);
  const list = walk.list.slice(0, walk.at), composed = withSchedule(source, program, list);
  const trace = await asked(['replay'], withSchedule(alone, program, list));
  const ended = trace.status === UNDEFINED, rows = [];
  for (const it of ended ? [] : names) {
    rows.push([it, names.length > MOST_TRIED ? 'open' : await kindOf(alone, list, it, lastState(trace.text))]);
    if (turn !== walk.turn) return;
  }
  const seen = sectionsOf(source).some(it => it.kind === 'proof' && it.name === program)
    ? await asked(['watch'], composed) : { status: -1, text: '' };
  const place = await placeOf(source, seen.text, asked);
  if (turn !== walk.turn || sourceOf() !== source) return;
  clear();
  drawChoices(rows, takesFocus);
  tellWalk(trace, seen, place);
  walk.composed = composed;
  get('walk').hidden = false;
  comeIntoView('walk');
  document.dispatchEvent(new CustomEvent('answered', { detail: trace.time }));
}

function tellWalk(trace, seen, place) {
  const broken = seen.status === VIOLATED && brokenBy(seen.text), where = `state ${walk.at}`;
  showText(broken ? withTrace(seen.text, trace.text) : trace.text, broken ? VIOLATED : trace.status);
  const to = broken && place;
  const line = to ? `, line ${to.line}` : '', since = broken?.place < walk.at ? `, since state ${broken.place}` : '';
  if (broken) say(`${where}: ${broken.step} is broken${line}${since}`, false);
  else if (trace.status === UNDEFINED) say(`${where}: this step is undefined`, false);
  else if (seen.status > 0) say(`${where}; the claims were not looked at: ${seen.text.split('\n')[0]}`, false);
  else say(`${where}: choose a statement`, true);
  showPlace(to || null);
  if (to) lookAt(to);
}

// The buttons of the instances, and which of the others can be used.
function drawChoices(rows, takesFocus) {
  const box = get('choices'), next = walk.list[walk.at], focused = document.activeElement;
  const inside = takesFocus || get('walk').contains(focused), wanted = takesFocus ? next : focused.dataset.choice;
  box.replaceChildren(...rows.map(([instance, kind], k) => {
    const key = k < 9 ? `, key ${k + 1}` : '', about = [kindTitles[kind], instance === next ? 'the next one' : ''];
    const button = element('button', instance, { className: kind, onclick: () => take(instance) });
    button.title = about.filter(Boolean).join(', ') + key;
    button.setAttribute('aria-label', `${instance}: ${button.title}`);
    button.dataset.choice = instance;
    if (instance === next) button.classList.add('next');
    return button;
  }));
  get('walk').hidden = false;
  get('back').disabled = get('restart').disabled = walk.at === 0;
  get('forward').disabled = walk.at >= walk.list.length;
  // the focus stays where it is, or goes to the same statement, or to the first
  const stays = !takesFocus && !wanted && !focused.disabled, same = box.querySelector(`[data-choice="${wanted}"]`);
  if (inside && !stays) (same ?? box.firstChild ?? get('back')).focus();
}

// Takes this step: what stood behind this place is given up, unless it goes on in the same way.
function take(instance) {
  if (walk.list[walk.at] !== instance) walk.list = [...walk.list.slice(0, walk.at), instance];
  walk.at++;
  showWalk();
}

function goWalk(to) {
  walk.at = Math.max(0, Math.min(to, walk.list.length));
  showWalk();
}

// Puts the choices so far into the document, as its schedule.
function writeSchedule() {
  const { program, at } = walk, list = walk.list.slice(0, at);
  write(withSchedule(sourceOf(), program, list), name);
  edited = true;
  say(`The schedule of ${at} choices stands at the end of the document.`, true);
}

// The keys of a walk: 1 to 9 take a step; arrows go among the buttons.
function walkKey(event) {
  if (event.ctrlKey || event.altKey || event.metaKey) return;
  const buttons = [...get('choices').children], here = buttons.indexOf(document.activeElement);
  const jobs = { Backspace: () => goWalk(walk.at - 1), b: () => goWalk(walk.at - 1), f: () => goWalk(walk.at + 1),
    r: () => goWalk(0), w: writeSchedule, ArrowRight: () => buttons[(here + 1) % buttons.length]?.focus(),
    ArrowLeft: () => buttons.at(here - 1)?.focus() };
  const job = /^[1-9]$/.test(event.key) ? () => buttons[event.key - 1]?.click() : jobs[event.key];
  if (!job) return;
  event.preventDefault();
  job();
}
