// ---- The editor: a plain text field, above a copy of its text that has the colours.

const get = id => document.getElementById(id);
const data = JSON.parse(get('data').textContent);
const text = get('text'), paint = get('paint'), gutter = get('gutter');
// A longer document has no colours. More lines of certificates than these are folded, and are not in the text field.
const MOST_COLOURED = 100000, MOST_UNFOLDED = 20;
let marked = null, name = 'document', folded = '', edited = false;

const token = new RegExp(data.grammar.patterns.map((it, k) => `(?<p${k}>${it.match})`).join('|'), 'gm');
const kinds = data.grammar.patterns.map(it => it.name.split('.')[0]);

// The whole document: what the field shows, and what is folded.
const sourceOf = () => text.value + folded;

// A piece of the text as HTML; the letter at `spot` is marked, where it is one of this piece.
function spotted(piece, at, spot) {
  const here = spot - at;
  if (!(here >= 0 && here < piece.length) || piece[here] === '\n') return escaped(piece);
  const [letter] = piece.slice(here);
  const after = escaped(piece.slice(here + letter.length));
  return `${escaped(piece.slice(0, here))}<b class="spot">${escaped(letter)}</b>${after}`;
}

function coloured(source, spot = -1) {
  let at = 0, out = '';
  for (const found of source.matchAll(token)) {
    const kind = kinds[Object.keys(found.groups).findIndex(k => found.groups[k] !== undefined)];
    out += spotted(source.slice(at, found.index), at, spot);
    out += `<span class="${kind}">${spotted(found[0], found.index, spot)}</span>`;
    at = found.index + found[0].length;
  }
  return out + spotted(source.slice(at), at, spot);
}

function repaint() {
  const long = text.value.length > MOST_COLOURED;
  document.body.classList.toggle('plain', long);
  showFold();
  if (long) {
    paint.textContent = gutter.textContent = '';
    return;
  }
  const lines = coloured(text.value, marked?.exact ? marked.index : -1).split('\n');
  const atEnd = marked?.exact && (marked.index >= text.value.length || text.value[marked.index] === '\n');
  const end = atEnd ? '<b class="spot"> </b>' : '';
  const markedLine = it => `<mark>${it || (end ? '' : ' ')}${end}</mark>`;
  paint.innerHTML = lines.map((it, k) => (k + 1 === marked?.line ? markedLine(it) : it)).join('\n') + '\n';
  const own = ownLines();
  gutter.innerHTML = lines.map((_, k) => (own.has(k + 1) ? `<b>${k + 1}</b>` : k + 1)).join('\n') + '\n';
  follow();
}

function follow() {
  paint.style.transform = `translate(${-text.scrollLeft}px, ${-text.scrollTop}px)`;
  gutter.style.transform = `translateY(${-text.scrollTop}px)`;
}

// ---- Certificates are folded away below the text.

const linesIn = source => source.trimEnd().split('\n').length;

function showFold() {
  const at = folded ? 0 : certificatesAt(text.value);
  const lines = folded ? linesIn(folded) : at < text.value.length ? linesIn(text.value.slice(at)) : 0;
  get('fold').hidden = !lines;
  get('fold').textContent = `${folded ? 'show' : 'fold'} the certificates, ${lines} lines`;
  get('fold').setAttribute('aria-expanded', String(!folded));
}

function fold(yes) {
  const source = sourceOf(), at = yes ? certificatesAt(source) : source.length;
  const caret = Math.min(text.selectionStart, at), top = text.scrollTop;
  text.value = source.slice(0, at);
  folded = source.slice(at);
  text.setSelectionRange(caret, caret);
  text.scrollTop = top;
  repaint();
}

// Puts a whole document into the field, folded where its certificates are long.
function place(source) {
  const at = certificatesAt(source), folds = linesIn(source.slice(at)) > MOST_UNFOLDED;
  text.value = folds ? source.slice(0, at) : source;
  folded = folds ? source.slice(at) : '';
}

// ---- Every text that the field had, so that undo goes back over examples and lessons as well.

const PAUSE = 800, MOST_VERSIONS = 500, MOST_LETTERS = 3e7;
const versions = { list: [], at: -1, typed: 0 };
// The text that stood here before the last example, lesson or exercise.
let before = null;

// Remembers the present text; letters that are typed without a pause are one version.
function remember(typed = false) {
  const now = { source: sourceOf(), name, caret: text.selectionStart }, { list, at } = versions;
  const goesOn = typed && at > 0 && performance.now() - versions.typed < PAUSE;
  versions.typed = typed ? performance.now() : 0;
  if (list[at]?.source === now.source) return;
  list.length = at + 1;
  if (goesOn) list.pop();
  list.push(now);
  let letters = list.reduce((sum, it) => sum + it.source.length, 0);
  while (list.length > 1 && (list.length > MOST_VERSIONS || letters > MOST_LETTERS)) {
    letters -= list.shift().source.length;
  }
  versions.at = list.length - 1;
  showVersions();
}

function showVersions() {
  get('undo').disabled = versions.at <= 0;
  get('redo').disabled = versions.at >= versions.list.length - 1;
  get('before').disabled = !before;
}

function goVersion(by) {
  const version = versions.list[versions.at + by];
  if (!version) return;
  versions.at += by;
  versions.typed = 0;
  put(version.source, version.name);
  text.setSelectionRange(version.caret, version.caret);
  edited = true;
  showVersions();
}

function put(source, called) {
  place(source);
  text.setSelectionRange(0, 0);
  text.scrollTop = text.scrollLeft = 0;
  marked = null;
  name = called;
  clear();
  repaint();
  programs();
  keepSoon();
}

// Puts a document into the editor; the text that was edited there can be had again.
function write(source, called = 'document') {
  remember();
  if (edited || !before?.edited) before = { source: sourceOf(), name, edited };
  edited = false;
  put(source, called);
  remember();
}

// Changes the places of the present text and the one before it.
function takeBefore() {
  const now = { source: sourceOf(), name, edited: true }, then = before;
  remember();
  put(then.source, then.name);
  edited = true;
  before = now;
  remember();
}

// The names of the programs, for `run` and `fixed`, wherever they stand: comments before them may be long. Certificates
// are folded where they are long, and then are no part of the text.
function programs() {
  const source = text.value.replace(/#.*/g, '');
  const names = [...source.matchAll(/(?:^|\s)program\s+(\w+)/g)].map(it => it[1]);
  const was = get('program').value;
  get('program').replaceChildren(...names.map(it => new Option(it)));
  if (names.includes(was)) get('program').value = was;
}

function goTo(to) {
  if (to.index > text.value.length) fold(false);
  text.focus();
  text.setSelectionRange(to.index, to.index);
  text.scrollTop = Math.max(0, (to.line - 8) * parseFloat(getComputedStyle(text).lineHeight));
  follow();
}

// Marks a place of the document, and shows the button that goes there.
function showPlace(to) {
  marked = to ?? null;
  get('place').hidden = !to;
  if (to) {
    get('place').textContent = `line ${to.line}`;
    get('place').onclick = () => goTo(to);
  }
  repaint();
}
