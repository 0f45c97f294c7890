"""Whether the page can be read and used by everybody, in the browser of try_browser.py: contrast, focus and labels."""

# Each text that is shown, with its colour and the ground behind it; those that can't be used at present are left out.
CONTRAST = """(() => {
  const parsed = it => { const [r, g, b, a = 1] = it.match(/[\\d.]+/g).map(Number); return { r, g, b, a }; };
  const part = it => (it /= 255, it <= 0.03928 ? it / 12.92 : ((it + 0.055) / 1.055) ** 2.4);
  const light = it => 0.2126 * part(it.r) + 0.7152 * part(it.g) + 0.0722 * part(it.b);
  const ground = it => {
    for (; it; it = it.parentElement) {
      const found = parsed(getComputedStyle(it).backgroundColor);
      if (found.a === 1) return found;
    }
    return { r: 255, g: 255, b: 255 };
  };
  const told = [], walker = document.createTreeWalker(document.body, NodeFilter.SHOW_TEXT);
  while (walker.nextNode()) {
    const it = walker.currentNode.parentElement;
    if (!walker.currentNode.data.trim() || !it.getClientRects().length || it.closest('svg')) continue;
    if (it.closest(':disabled, script, style')) continue;
    const style = getComputedStyle(it), colour = parsed(style.color);
    if (style.visibility === 'hidden' || colour.a === 0) continue;
    const [high, low] = [light(colour), light(ground(it))].sort((a, b) => b - a), found = (high + 0.05) / (low + 0.05);
    const named = `${it.tagName}#${it.id}.${it.className}`;
    if (found < 4.5) told.push(`${named} ${found.toFixed(1)}: ${it.textContent.slice(0, 30)}`);
  }
  return told;
})()"""
# Each part that Tab comes to and that does not show that it has the focus.
FOCUS = """(() => {
  const it = document.activeElement;
  if (it === document.body) return ['', true];
  const seen = it.closest('label.file') ?? it, style = getComputedStyle(seen);
  const shown = style.outlineStyle !== 'none' && parseFloat(style.outlineWidth) > 0 || style.boxShadow !== 'none';
  return [it.id || it.textContent.slice(0, 20), shown];
})()"""
KINDS = ("button", "textbox", "combobox", "spinbutton", "checkbox", "image", "region", "group")


def contrasts(tried, what):
    told = tried.browser.value(CONTRAST)
    tried.holds("contrast, %s" % what, not told, told)


def focus(tried, theme):
    """Each part that the key Tab comes to shows it."""
    # (a page that no key came to yet shows no focus)
    tried.browser.press_tab()
    tried.browser.value("get('skip').focus(); 0")
    dull = set()
    for _ in range(45):
        name, shown = tried.browser.value(FOCUS)
        if not shown and name:
            dull.add(name)
        tried.browser.press_tab()
    tried.holds("the focus is seen, %s" % theme, not dull - {"unity"}, dull)


def labels(tried, what):
    """Each thing to be used has a name, and no two buttons of the heading have the same."""
    nodes = tried.browser.say("Accessibility.getFullAXTree")["nodes"]
    role = lambda it: it.get("role", {}).get("value")
    used = [it for it in nodes if not it.get("ignored") and role(it) in KINDS]
    nameless = [role(it) for it in used if role(it) != "group" and not it.get("name", {}).get("value")]
    tried.holds("labels, %s" % what, used and not nameless, nameless)
    twice = tried.browser.value("[...document.querySelectorAll('[id]')].map(it => it.id).filter((it, k, all) =>"
                                " all.indexOf(it) !== k)")
    tried.holds("no name is given twice, %s" % what, not twice, twice)


def access(tried):
    """At the width of a desktop and of a phone."""
    tried.browser.say("Accessibility.enable")
    for size, (width, height) in {"desktop": (1280, 800), "phone": (390, 844)}.items():
        tried.browser.resize(width, height)
        tried.within = size + ","
        access_at(tried)
    tried.within = ""
    tried.browser.resize(1280, 800)


def access_at(tried):
    states = {
        "an answer": "write(data.documents.race, 'race'); get('replay').click()",
        "a refutation": "write(data.documents.race, 'race'); get('prove').click()",
        "a text that is bad": "write('unity 1 program $'); get('check').click()",
        "a walk": "write(data.documents.race, 'race'); get('step').click()",
        "steps": "write(data.documents.peterson, 'peterson'); get('prove').click()",
    }
    for theme in ("dark", "light"):
        tried.browser.value("chooseTheme('%s')" % theme)
        for name, code in states.items():
            tried.ask(code)
            contrasts(tried, "%s, %s" % (name, theme))
            labels(tried, "%s, %s" % (name, theme))
        tried.browser.value("showExercise('race'); get('hint').click()")
        contrasts(tried, "an exercise, %s" % theme)
        labels(tried, "an exercise, %s" % theme)
        tried.browser.value("showLesson(6)")
        contrasts(tried, "a lesson, %s" % theme)
        tried.browser.value("showLesson(0); get('gallery').open = true")
        contrasts(tried, "the examples, %s" % theme)
        tried.browser.value("get('gallery').open = false")
        tried.ask("write(data.documents.race, 'race'); get('step').click()")
        focus(tried, theme)
