// ---- What the browser keeps of this page, for itself: the text of this tab, the last text, and exercises.

// A browser may refuse its stores to a page that was opened from disk; then nothing is kept, and all else works.
function stored(kind, key) {
  try {
    return JSON.parse(window[kind].getItem(`unity.${key}`));
  } catch {
    return null;
  }
}

function store(kind, key, value) {
  try {
    window[kind].setItem(`unity.${key}`, JSON.stringify(value));
  } catch {
    // (no room, or none at all)
  }
}

let keeping;

// Keeps the text soon; of a tab its own, and for a later tab the last.
function keepSoon() {
  clearTimeout(keeping);
  keeping = setTimeout(keepNow, 200);
}

function keepNow() {
  clearTimeout(keeping);
  const { hash } = location, lesson = get('chapter').value;
  const now = { source: sourceOf(), name, edited, exercise: exercise?.name ?? '', lesson, hash };
  store('sessionStorage', 'tab', now);
  if (edited) store('localStorage', 'last', { source: now.source, name });
  if (edited && exercise) store('localStorage', `draft.${exercise.name}`, now.source);
}
