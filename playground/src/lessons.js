// ---- Examples and lessons.

function fillGallery() {
  for (const { title, rows } of data.gallery) {
    const list = document.createElement('ul');
    for (const [document_, about] of rows) {
      const item = document.createElement('li'), button = element('button', document_.split('/').pop());
      button.onclick = () => {
        leaveExercise();
        write(data.documents[document_], document_.split('/').pop());
        get('gallery').open = false;
        text.focus();
      };
      item.append(button, element('span', about));
      list.append(item);
    }
    get('documents').append(element('h2', title), list);
  }
}

// Shows a part of the page beside the editor, or nothing; the focus goes to its heading.
function showAside(shown) {
  const box = get('lesson');
  document.body.classList.toggle('lesson', shown);
  document.body.classList.toggle('task', shown && Boolean(exercise));
  box.hidden = !shown;
  if (!shown) return;
  box.scrollTop = 0;
  const heading = box.querySelector('h2');
  heading.tabIndex = -1;
  heading.focus();
}

function showLesson(number) {
  const lesson = data.lessons[number - 1], box = get('lesson');
  leaveExercise();
  get('chapter').value = lesson ? number : '';
  if (lesson) {
    box.setAttribute('aria-label', 'lesson');
    box.innerHTML = lesson.html;
    const turn = element('p', '', { className: 'turn' });
    for (const [to, words] of [[number - 1, 'the chapter before'], [number + 1, 'the next chapter']]) {
      if (data.lessons[to - 1]) turn.append(element('button', words, { onclick: () => showLesson(to) }));
    }
    box.append(turn);
    for (const button of box.querySelectorAll('button[data-take]')) {
      button.onclick = () => carryOut(data.tries[button.dataset.take]);
    }
  }
  showAside(Boolean(lesson));
}

// Puts a document of the lesson into the editor, and carries out its command, if it has one.
function carryOut({ file, source, words }) {
  if (waiting) return;
  write(data.texts[source], file.replace(/\.unity$/, ''));
  if (words.length === 3) get('program').value = words[1], get('steps').value = words[2];
  if (words.length) ask(...words);
  else text.focus();
}
