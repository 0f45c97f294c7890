"""Clicks through what a lecture does with the page, in the browser of try_browser.py, at two widths.

Each function takes the Try of try_browser.py: a lock is broken by clicks and by keys, mended and proved; a run is
found; texts are kept; certificates are folded; addresses have chosen buttons alone; pictures are saved; exercises are
done.
"""
import json
import time

SIZES = {"desktop": (1280, 800), "phone": (390, 844)}
# What a student changes in the race: the lock is looked at once more as it is taken, and it tells who is inside.
MENDING = [
    ("if pc[i] = 1\n", "if pc[i] = 1 and not lock\n"),
    ("  enters(i : 0..1): pc[i] = 1 ensures pc[i] = 2 by text with take[i];\n",
     "  held: invariant lock = (pc[0] = 2 or pc[1] = 2) and not (pc[0] = 2 and pc[1] = 2) by text;\n"),
    ("pc[1] = 2) by text;\nend", "pc[1] = 2) by text using held;\nend"),
]
PARTS = ("layout", "student", "stepping", "stepping_by_keys", "finding", "refuting", "proving", "marking", "embedding",
         "saving", "keeping", "exercises_pressed")
# Whether the line of the caret is one of those that the field shows.
IN_SIGHT = """(() => {
  const high = lineOf(text.value, text.selectionStart).line * parseFloat(getComputedStyle(text).lineHeight);
  return high > text.scrollTop && high < text.scrollTop + text.clientHeight;
})()"""
CHOICE = "get('choices').querySelector('[data-choice=\"%s\"]').click()"


def status(tried):
    return tried.browser.value("get('status').textContent")


def example(tried, name):
    """Chooses an example from the menu."""
    tried.browser.value("get('menu').open = true; get('gallery').open = true")
    buttons = "[...document.querySelectorAll('#documents button')]"
    tried.browser.value("%s.find(it => it.textContent === '%s').click()" % (buttons, name))


def typed(tried, old, new):
    """Selects these letters in the editor, and types others."""
    tried.browser.value("{ const at = text.value.indexOf(%s); text.focus(); text.setSelectionRange(at, at + %d); }"
                        % (json.dumps(old), len(old)))
    tried.browser.insert(new)


def stepping(tried):
    """The lock of the race is broken by four clicks; back, forward, restart, and the schedule in the document."""
    example(tried, "race")
    tried.browser.value("text.setRangeText('', text.value.indexOf('schedule Race'), text.value.length); typed(); 0")
    tried.ask("get('step').click()")
    kinds = tried.browser.value("[...get('choices').children].map(it => it.textContent + ' ' + it.className)")
    wanted = ["%s[%d] %s" % (name, i, "moves" if name == "look" else "idle")
              for i in (0, 1) for name in ("look", "take", "leave")]
    tried.holds("the statements, bold where they change something", kinds == wanted, kinds)
    bold = tried.browser.value("[...get('choices').children].map(it => getComputedStyle(it).fontWeight >= 600)")
    tried.holds("bold", bold == [True, False, False, True, False, False], bold)
    for name in ("look[0]", "look[1]", "take[0]", "take[1]"):
        told = tried.ask(CHOICE % name)
    tried.holds("the lock is broken", "Race.claims is broken, line 28" in told["status"], told["status"])
    tried.holds("its line", told["place"] == "line 28", told["place"])
    tried.holds("its picture", 'class="fault"' in told["picture"])
    tried.holds("the table has four states more", "\n4 take[1] pc[0]=2 pc[1]=2 lock=true" in told["answer"])
    told = tried.ask("get('back').click()")
    tried.holds("back", "state 3" in told["status"] and "\n4 take" not in told["answer"], told["status"])
    told = tried.ask("get('forward').click()")
    tried.holds("forward", "state 4: Race.claims is broken" in told["status"], told["status"])
    tried.browser.value("get('schedule').click()")
    schedule = tried.browser.value("text.value.slice(text.value.lastIndexOf('schedule Race'))")
    tried.holds("the schedule", schedule == "schedule Race :\n  look[0], look[1], take[0], take[1]\nend\n", schedule)
    told = tried.ask("get('watch').click()")
    tried.holds("it is watched", told["answer"].startswith("violated Race.claims place 4\n"), told["answer"])
    tried.ask("get('step').click()")
    tried.ask("get('forward').click()")
    told = tried.ask("get('restart').click()")
    tried.holds("restart", "state 0" in told["status"], told["status"])


def stepping_by_keys(tried):
    """The same by keys alone, once the focus is on `step`."""
    tried.write(tried.text_of("race.unity").partition("schedule Race")[0])
    tried.ask("get('step').focus(); get('step').click()")
    tried.holds("the focus is on the first statement",
                tried.browser.value("document.activeElement.textContent") == "look[0]")
    for key, state in (("1", 1), ("4", 2), ("2", 3), ("5", 4), ("Backspace", 3), ("f", 4), ("r", 0), ("f", 1)):
        tried.browser.value("window.next = new Promise(done => document.addEventListener('answered', () => done(0),"
                            " { once: true })); 0")
        tried.browser.press(key)
        tried.browser.value("window.next")
        tried.holds("the key %s" % key, status(tried).startswith("state %d" % state), status(tried))
        if state == 4:
            tried.holds("broken by keys", "Race.claims is broken" in status(tried), status(tried))
    tried.browser.press("ArrowRight")
    tried.holds("an arrow goes on", tried.browser.value("get('choices').contains(document.activeElement)"))
    tried.browser.press("w")
    tried.holds("w writes", tried.browser.value("text.value").endswith("schedule Race :\n  look[0]\nend\n"))


def press(tried, part, event=None):
    """Presses the mouse on a part of the page, which must come into sight and lie under nothing; awaits `event`."""
    x, y, free = tried.browser.value("""(() => {
      const it = %s;
      it.scrollIntoView({ block: 'center', inline: 'center' });
      const { left, top, width, height } = it.getBoundingClientRect(), x = left + width / 2, y = top + height / 2;
      return [x, y, it.contains(document.elementFromPoint(x, y))];
    })()""" % part)
    tried.holds("%s lies free" % part, free, (x, y))
    if event:
        tried.browser.value("window.next = new Promise(done => document.addEventListener('%s', () => done(0),"
                            " { once: true })); 0" % event)
    tried.browser.click(x, y)
    if event:
        tried.browser.value("window.next")
    return status(tried)


def student(tried):
    """A student chooses the race, breaks its lock by the mouse, mends it by typing, and proves it; nothing is lost."""
    if not tried.browser.value("get('menu').open"):
        press(tried, "get('menu').querySelector('summary')")
    press(tried, "get('gallery').querySelector('summary')")
    press(tried, "[...document.querySelectorAll('#documents button')].find(it => it.textContent === 'race')")
    tried.holds("the race is there", tried.browser.value("text.value") == tried.text_of("race.unity"))
    press(tried, "get('step')", "answered")
    for name in ("look[0]", "look[1]", "take[0]", "take[1]"):
        told = press(tried, "get('choices').querySelector('[data-choice=\"%s\"]')" % name, "answered")
    tried.holds("the lock is broken by the mouse", "Race.claims is broken, line 28" in told, told)
    press(tried, "get('back')", "answered")
    told = press(tried, "get('forward')", "answered")
    tried.holds("and again", "Race.claims is broken" in told, told)
    press(tried, "get('schedule')")
    told = press(tried, "get('watch')", "answered")
    tried.holds("by the schedule that was written", "violated" in told, told)
    for old, new in MENDING:
        typed(tried, old, new)
    told = press(tried, "get('prove')", "answered")
    tried.holds("the mended lock is proved", told.startswith("prove 1000000: proved"), told)
    rows = tried.browser.value("[...get('proved').rows].map(it => [...it.cells].map(it => it.textContent).join(' '))")
    wanted = ["step kind bound obligations", "Race.safe defined  6", "Race.held invariant  7",
              "Race.claims invariant  7"]
    tried.holds("its steps", rows == wanted, rows)
    told = press(tried, "get('watch')", "answered")
    tried.holds("its schedule breaks nothing", "no step of the proof is violated" in told, told)
    told = press(tried, "get('find')", "searched")
    tried.holds("no run breaks it", "none of" in told, told)
    mine = tried.browser.value("sourceOf()")
    tried.browser.reload()
    tried.settled()
    tried.holds("it is there after a reload", tried.browser.value("sourceOf()") == mine and "held:" in mine)
    example(tried, "swap")
    if not tried.browser.value("get('menu').open"):
        press(tried, "get('menu').querySelector('summary')")
    press(tried, "get('before')")
    tried.holds("and after an example", tried.browser.value("sourceOf()") == mine)


def refuting(tried):
    """After a refutation: the statement, what it changes, and which part of the claim does not hold then."""
    tried.write(tried.text_of("race.unity"))
    tried.ask("get('prove').click()")
    caption = tried.browser.value("get('refuted').caption.textContent")
    tried.holds("what is refuted", caption == "Race.claims, obligation 18: take[0] keeps it", caption)
    rows = tried.browser.value("[...get('refuted').rows].map(it => [...it.cells].map(it => it.textContent).join(' '))")
    wanted = ["variable value after take[0]", "pc[0] 1 2", "pc[1] 2 ", "lock false true"]
    tried.holds("what its statement changes", rows == wanted, rows)
    shown = "get('broken').hidden ? [] : [...get('broken').children].map(it => it.textContent)"
    parts = tried.browser.value(shown)
    wanted = ["after take[0] this does not hold:", "not (pc[0] = 2 and pc[1] = 2)"]
    tried.holds("what does not hold", parts == wanted, parts)
    tried.browser.value("get('refuted').querySelector('button').click()")
    line = tried.browser.value("text.value.slice(0, text.selectionStart).split('\\n').length")
    tried.holds("the statement's line", line == 22, line)
    # of a claim of each process, the one of which it breaks; of a pair, both sides
    tried.write(tried.text_of("causes/peterson.unity"))
    tried.ask("get('prove').click()")
    parts = tried.browser.value(shown)
    tried.holds("the part of an `all`", parts[1:] == ["pc[1] = 3 => pc[1 - 1] < 2 or tie = 1"], parts)
    tried.write(tried.text_of("causes/writer_priority.unity"))
    tried.ask("get('prove').click()")
    parts = tried.browser.value(shown)
    both = len(parts) == 4 and "of the left side" in parts[0] and "of the right side" in parts[2]
    tried.holds("both sides", both, parts)
    tried.write(tried.text_of("count.unity"))
    tried.ask("get('check').click()")
    tried.holds("nothing of it after another answer", tried.browser.value(shown) == [])


def finding(tried):
    """A run is found, shortened and gone through; and a search is stopped."""
    tried.write(tried.text_of("lost_update.unity"))
    told = tried.ask("get('find').click()", "searched")
    tried.holds("a run is found", "breaks Tally.right" in told["status"], told["status"])
    steps = tried.browser.value("walk.list.length")
    tried.holds("it is short", steps == 4, steps)
    for _ in range(steps):
        told = tried.ask("get('forward').click()")
    tried.holds("it is gone through", "Tally.right is broken" in told["status"], told["status"])
    tried.write(tried.text_of("peterson.unity"))
    told = tried.ask("get('find').click(); setTimeout(() => get('stop').click(), 300)", "searched")
    tried.holds("a search is stopped", told["status"].startswith("Stopped"), told["status"])
    tried.write(tried.text_of("count_without_proof.unity"))
    told = tried.ask("get('find').click()", "searched")
    tried.holds("nothing to find", "can't be watched" in told["status"], told["status"])


def proving(tried):
    """After `prove` the steps, with the document folded below; its certificates fold in the editor."""
    tried.write(tried.text_of("peterson.unity"))
    told = tried.ask("get('prove').click()")
    accepted = tried.text_of("peterson.accepted").splitlines()
    rows = tried.browser.value("[...get('proved').rows].slice(1).map(it => it.textContent)")
    tried.holds("a row for each step", len(rows) == len(accepted) - 1, rows)
    counts = tried.browser.value("[...get('proved').rows].slice(1).map(it => Number(it.cells[3].textContent))")
    tried.holds("their obligations", sum(counts) == int(accepted[0].split(" ")[3]), counts)
    caption = tried.browser.value("get('proved').caption.textContent")
    numbers = accepted[0].split(" ")
    tried.holds("how many", caption == "%s steps are proved, by %s obligations" % (numbers[1], numbers[3]), caption)
    tried.holds("the document is folded", not tried.browser.value("get('written').open"))
    tried.browser.value("get('take').click()")
    tried.holds("certificates are folded", "certificates" not in tried.browser.value("text.value"))
    tried.holds("and are there", tried.browser.value("sourceOf()") == told["answer"])
    tried.compare("check of what is folded", tried.ask("get('check').click()"), tried.text_of("peterson.accepted"))
    tried.browser.value("get('fold').click()")
    tried.holds("unfolded", tried.browser.value("text.value") == told["answer"])
    tried.browser.value("get('fold').click()")
    tried.holds("folded again", tried.browser.value("sourceOf()") == told["answer"] and
                tried.browser.value("folded.startsWith('certificates')"))


def marking(tried):
    """What is `bad` has its byte marked, and not its line alone."""
    text = tried.text_of("count.unity").replace("x = 0", "x == 0")
    tried.write(text)
    told = tried.ask("get('check').click()")
    tried.holds("bad", told["answer"].startswith("bad 3 Unexpected byte "), told["answer"])
    spots = tried.browser.value("[...paint.querySelectorAll('.spot')].map(it => it.textContent + "
                                "it.closest('mark').textContent)")
    tried.holds("its byte is marked", len(spots) == 1 and spots[0].startswith("=") and "x == 0" in spots[0], spots)
    tried.write("unity 1\nprogram P")
    tried.ask("get('check').click()")
    tried.holds("the end of a text", tried.browser.value("paint.querySelectorAll('.spot').length") == 1)


def keeping(tried):
    """Nothing is lost: by a reload, by an example, and by undo across both."""
    mine = "unity 1\n# mine\n"
    tried.write(tried.text_of("count.unity"))
    tried.browser.value("text.focus(); text.select()")
    tried.browser.insert(mine)
    tried.browser.reload()
    tried.settled()
    tried.holds("a reload", tried.browser.value("text.value") == mine, tried.browser.value("text.value"))
    example(tried, "swap")
    example(tried, "race")
    tried.holds("examples", tried.browser.value("text.value") == tried.text_of("race.unity"))
    tried.browser.value("get('before').click()")
    tried.holds("the text before", tried.browser.value("text.value") == mine, tried.browser.value("text.value"))
    tried.browser.value("get('before').click()")
    tried.holds("and back", tried.browser.value("text.value") == tried.text_of("race.unity"))
    tried.browser.value("get('undo').click(); get('undo').click(); get('undo').click()")
    tried.holds("undo over examples", tried.browser.value("text.value") == tried.text_of("swap.unity"))
    tried.browser.value("text.focus()")
    tried.browser.press("z", 2)
    tried.holds("Ctrl+Z", tried.browser.value("text.value") == mine, tried.browser.value("text.value"))
    tried.browser.press("y", 2)
    tried.holds("Ctrl+Y", tried.browser.value("text.value") == tried.text_of("swap.unity"))


def embedding(tried):
    """An address with chosen buttons alone."""
    tried.ask("location.hash = '#embed=step,watch&example=race'", "followed")
    shown = "[...document.querySelectorAll('header button')].filter(it => it.offsetParent).map(it => it.id)"
    buttons = [it for it in tried.browser.value(shown) if it != "skip"]
    tried.holds("chosen buttons alone", buttons == ["step", "watch", "stop", "all"], buttons)
    tried.holds("with its document", tried.browser.value("text.value") == tried.text_of("race.unity"))
    tried.ask("get('step').click()")
    tried.holds("they work", status(tried).startswith("state 0"), status(tried))
    tried.ask("get('all').click()", "followed")
    tried.holds("all of the page", tried.browser.value("!document.body.classList.contains('embed')"))
    tried.ask("get('link').click()", "linked")
    tried.ask("get('chosen').querySelector('[value=step]').click()", "linked")
    address = tried.browser.value("get('copy').value")
    tried.holds("an address of one button", "#embed=step&" in address, address)
    tried.browser.value("get('chosen').querySelector('[value=step]').checked = false")
    tried.browser.value("history.replaceState(null, '', location.pathname)")


def saving(tried):
    """The picture of a trace, as SVG and PNG."""
    tried.write(tried.text_of("race.unity"))
    tried.ask("get('replay').click()")
    tried.browser.value("window.saved = []; window.kept = save; save = (it, file) => saved.push([it, file])")
    tried.browser.value("get('svg').click(); get('png').click()")
    while tried.browser.value("saved.length") < 2:
        time.sleep(0.1)
    tried.holds("SVG", tried.browser.value("saved[0][0].text()") == tried.text_of("race.svg"))
    head = tried.browser.value("saved[1][0].arrayBuffer().then(it => [...new Uint8Array(it).slice(1, 4)])")
    tried.holds("PNG", bytes(head) == b"PNG", head)
    tried.holds("their names", tried.browser.value("saved.map(it => it[1])") == ["document.svg", "document.png"])
    tried.browser.value("save = kept; 0")


def layout(tried):
    """On a phone the editor has two thirds of the height, and the buttons leave it in sight."""
    width, height = tried.browser.value("[innerWidth, innerHeight]")
    wide, editor, head = tried.browser.value("[document.documentElement.scrollWidth, get('editor').offsetHeight, "
                                             "document.querySelector('header').offsetHeight]")
    tried.holds("nothing is wider than %d" % width, wide <= width, wide)
    if width < 900:
        tried.holds("the editor's height", editor * 3 >= height * 2 - 2, (editor, height))
        tried.holds("the buttons' height", head <= height // 6, head)


def judged(tried, code):
    once = "document.addEventListener('judged', () => done(0), { once: true })"
    tried.browser.value("new Promise(done => { %s; %s })" % (once, code))
    return tried.browser.value("[get('verdict').className, get('verdict').textContent]")


def exercises(tried):
    """Each start is not done, and each solution is, in the page; and what is done is kept."""
    tried.browser.value("localStorage.clear(); fillExercises()")
    names = tried.browser.value("data.exercises.map(it => it.name)")
    tried.holds("24 exercises at least", len(names) >= 24, len(names))
    for name in names:
        tried.browser.value("get('exercise').value = '%s'; get('exercise').onchange()" % name)
        told = judged(tried, "get('judge').click()")
        tried.holds("%s, its start" % name, told[0] == "bad", told)
        tried.browser.value("get('solution').click()")
        told = judged(tried, "get('judge').click()")
        tried.holds("%s, its solution" % name, told[0] == "good", told)
    changed = "write(sourceOf().replace('program', 'program More end program'), 'x'); get('judge').click()"
    told = judged(tried, changed)
    tried.holds("a changed program", told[0] == "bad" and "not as it was given" in told[1], told)
    for k in range(3):
        tried.browser.value("get('hint').click()")
    tried.holds("three hints", tried.browser.value("[...get('lesson').querySelectorAll('p')].filter(it => "
                                                   "it.textContent.startsWith('Hint ')).length") == 3)
    tried.browser.reload()
    tried.settled()
    marks = tried.browser.value("[...get('exercise').options].filter(it => it.textContent.startsWith('✓')).length")
    tried.holds("what is done is kept", marks == len(names), marks)
    tried.holds("the exercise is there after a reload", tried.browser.value("exercise && exercise.name") == names[-1])
    tried.browser.value("localStorage.clear(); leaveExercise()")


def exercises_pressed(tried):
    """One exercise of each goal by the mouse: chosen, its holes marked, a hint, the solution, and it is done."""
    tried.browser.value("localStorage.clear(); fillExercises()")
    for name in ("token_ring", "bound", "three_held"):
        tried.browser.value("get('exercise').value = '%s'; get('exercise').onchange()" % name)
        lines = tried.browser.value("[...gutter.querySelectorAll('b')].map(it => Number(it.textContent))")
        told = enumerate(tried.browser.value("text.value").split("\n"), 1)
        yours = [k for k, line in told if "yours" in line and k > 2]
        tried.holds("%s, its lines" % name, bool(lines) and set(yours) <= set(lines), (lines, yours))
        inside = tried.browser.value(IN_SIGHT)
        tried.holds("%s, its hole is in sight" % name, inside)
        press(tried, "get('hint')")
        press(tried, "get('judge')", "judged")
        tried.holds("%s, not yet" % name, tried.browser.value("get('verdict').className") == "bad")
        press(tried, "get('solution')")
        press(tried, "get('judge')", "judged")
        tried.holds("%s, done" % name, tried.browser.value("get('verdict').className") == "good")
    # a verdict that comes late is that of the exercise that was asked about
    tried.browser.value("showExercise('peterson'); showSolution(); 0")
    judged(tried, "get('judge').click(); showExercise('race')")
    done = tried.browser.value("doneOnes()")
    tried.holds("a late verdict", "peterson" in done and "race" not in done, done)
    tried.holds("is not told of another", tried.browser.value("get('verdict').textContent") == "")
    tried.browser.value("leaveExercise(); localStorage.clear(); fillExercises()")


def part_at(tried, size, part):
    """One of these functions at one width."""
    tried.within = "%s, %s:" % (size, part)
    tried.browser.resize(*SIZES[size])
    # (the page has been told of its new width once it is drawn)
    tried.browser.value("new Promise(done => requestAnimationFrame(() => requestAnimationFrame(() => done(0))))")
    globals()[part](tried)
    tried.within = ""


def lecture(tried):
    """Everything at both widths; all exercises, of which some are pressed at both, at one."""
    for size in SIZES:
        for part in PARTS:
            part_at(tried, size, part)
    part_at(tried, "desktop", "exercises")
