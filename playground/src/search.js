// ---- A run that breaks a claim: random fair schedules are watched, and the first that breaks one is shortened.

const MOST_RUNS = 400, MOST_CHOICES = 2000, LEAST_ROUNDS = 8;
let searching = false;

// Names in a random order, each once.
function shuffled(names) {
  const list = [...names];
  for (let k = list.length - 1; k > 0; k--) {
    const j = Math.floor(Math.random() * (k + 1));
    [list[k], list[j]] = [list[j], list[k]];
  }
  return list;
}

// So many rounds, in each of which every name comes once, and some once more.
function fairSchedule(names, rounds) {
  const list = [];
  for (let k = 0; k < rounds && list.length < MOST_CHOICES; k++) {
    list.push(...shuffled([...names, ...names.filter(() => Math.random() < 0.3)]));
  }
  return list.slice(0, MOST_CHOICES);
}

// What `watch` says of these choices: the claim that is broken and the state, or nothing.
async function brokenOn(source, program, list) {
  const told = await asked(['watch'], withSchedule(source, program, list));
  return told.status === VIOLATED ? brokenBy(told.text) : null;
}

// As few of these choices as still break the same claim: from the end, half of them first and then one by one.
async function shortened(source, program, list, step) {
  let found = list;
  for (let size = Math.ceil(list.length / 2); size >= 1; size = size > 1 ? Math.ceil(size / 2) : 0) {
    for (let from = found.length - size; from >= 0 && searching; from -= size) {
      const less = [...found.slice(0, from), ...found.slice(from + size)];
      const broken = await brokenOn(source, program, less);
      if (broken?.step === step) found = less.slice(0, broken.place);
      from = Math.min(from, found.length);
    }
  }
  return found;
}

// Rounds enough for the greatest bound of the proof.
function roundsFor(watched) {
  const bounds = [...watched.matchAll(/ leadsto (\d+)$/gm)].map(it => Number(it[1]));
  return Math.max(LEAST_ROUNDS, ...bounds.map(it => it + 4));
}

async function firstBroken(source, program, names, rounds) {
  for (let run = 1; run <= MOST_RUNS && searching; run++) {
    say(`run ${run} of at most ${MOST_RUNS} …`, true);
    const list = fairSchedule(names, rounds), broken = await brokenOn(source, program, list);
    if (broken) return { run, list: list.slice(0, broken.place), step: broken.step };
  }
  return null;
}

// What stops a search before it begins, in words of the page.
function cantSearch(told) {
  if (told.stopped) return 'Stopped.';
  return `A run is watched by the claims of a proof, and this document can't be watched: ${told.text.split('\n')[0]}`;
}

async function findRun() {
  if (waiting || searching) return;
  const source = sourceOf(), program = get('program').value;
  clear();
  searching = true;
  busy(true);
  const first = await asked(['watch'], withSchedule(source, program, []));
  const { names } = await instancesOf(source, program);
  let found = null, words = `none of ${MOST_RUNS} runs breaks a claim; that is no proof`;
  if (first.status === VIOLATED) found = { run: 0, list: [], step: brokenBy(first.text).step };
  else if (first.status !== 0 || !names.length) words = cantSearch(first);
  else found = await firstBroken(source, program, names, roundsFor(first.text));
  const given = found?.list.length;
  const list = found ? await shortened(source, program, found.list, found.step) : [];
  const stopped = !searching;
  searching = false;
  busy(false);
  if (!found) say(stopped ? 'Stopped. The document is as it was.' : words, !stopped && first.status === 0);
  else await showFound(found, given, list);
  document.dispatchEvent(new Event('searched'));
}

// What was found is stepped through, from its beginning.
async function showFound({ run, step }, given, list) {
  await beginWalk(list, 0);
  const steps = `${list.length} of its ${given} choices do it`;
  say(`run ${run} breaks ${step}: ${steps}. Go through them by “forward”.`, false);
}
