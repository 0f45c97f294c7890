"""The chapters of docs/TUTORIAL.md as parts of the page, with the documents that they make.

A block of code that begins with ```LANGUAGE NAME is a file of that name; one that begins with ```console has
commands, each on a line after `$ `, and below each what it prints. The commands are carried out as the page goes,
without `unity`, only for the documents that they write: so the page can put each into its editor, and do what a
command on it does.
"""
import html
import os
import re
import subprocess
import tempfile

# What a command asks of `unity`, where it asks on a document.
ASKED = [(re.compile(r"unity (check|replay|watch|obligations|(?:run|fixed) \w+ \d+|prove \d+) < ([\w.]+\.unity)$"), None),
         (re.compile(r'bash "\$top/scripts/(check|watch)\.sh" ([\w.]+\.unity)$'), None),
         (re.compile(r'bash "\$top/scripts/(prove|why)\.sh" ([\w.]+\.unity)'), ["prove", "1000000"])]
# What is asked on a document that a command changes on the way, with the command, what is asked, its name and the rest.
PIPED = re.compile(r"(sed [^|]* ([\w.]+\.unity)) \| unity (check|watch)( \| .*)?$")
# A document that only the built program makes of another one: the same with another schedule.
RESCHEDULED = re.compile(r'bash "\$top/scripts/(?:try|shrink)\.sh" ([\w.]+\.unity)(?: .*)? > ([\w.]+\.unity)$')
# Nothing of what the commands run is wanted but the files that they write by sed and cat.
SILENT = "unity() { :; }; bash() { :; }; make() { :; }; top=$PWD; cd lesson\n"


def inline(text):
    """A line of prose: code, emphasis, and links as their text."""
    parts = re.split(r"(`[^`]+`)", text)
    for k, part in enumerate(parts):
        if part.startswith("`"):
            parts[k] = "<code>%s</code>" % html.escape(part[1:-1], quote=False)
        else:
            part = html.escape(part, quote=False)
            part = re.sub(r"\[([^]]*)\]\([^)]*\)", r"\1", part)
            part = re.sub(r"\*\*([^*]+)\*\*", r"<strong>\1</strong>", part)
            parts[k] = re.sub(r"\*([^*]+)\*", r"<em>\1</em>", part)
    return "".join(parts)


def table(lines):
    rows = [[inline(cell.strip()) for cell in line.strip("|").split(" | ")] for line in lines if "---" not in line]
    made = []
    for k, row in enumerate(rows):
        cell = "td" if k else "th"
        made.append("<tr>%s</tr>" % "".join("<%s>%s</%s>" % (cell, it, cell) for it in row))
    return "<table>%s</table>" % "".join(made)


def wanted_of(command, printed):
    """What the page shows for a command that prints this: of `watch.sh` without the line of the step."""
    if "/watch.sh" in command:
        return re.sub(r"^[\w.]+:\d+\n.*\n", "", printed, flags=re.M)
    return printed if command.startswith("unity") else None


class Lessons:
    """`chapters` have a title and HTML each, whose buttons name one of the `tries`; these name one of the `texts`."""

    def __init__(self, page):
        self.chapters, self.tries, self.texts = [], [], []
        self.files, self.commands, self.rescheduled = {}, [], {}
        with tempfile.TemporaryDirectory() as self.folder:
            os.makedirs(os.path.join(self.folder, "lesson"))
            for part in re.split(r"^## ", page, flags=re.M)[1:]:
                title, _, rest = part.partition("\n")
                if title[:1].isdigit():
                    body = "".join(self.blocks(rest.strip("\n").split("\n")))
                    shown = "<h2>%s</h2>%s" % (inline(title), body)
                    self.chapters.append({"title": title.replace("`", ""), "html": shown})

    def blocks(self, lines):
        while lines:
            if lines[0].startswith("```"):
                end = lines.index("```")
                yield self.code(lines[0][3:].split(), lines[1:end])
                lines = lines[end + 1:]
            else:
                end = lines.index("") if "" in lines else len(lines)
                if end:
                    yield self.prose(lines[:end])
                lines = lines[end + 1:]

    def prose(self, lines):
        if lines[0].startswith("### "):
            return "<h3>%s</h3>" % inline(lines[0][4:])
        if lines[0].startswith("|"):
            return table(lines)
        if lines[0].startswith("- "):
            return "<ul>%s</ul>" % "".join("<li>%s</li>" % inline(line[2:]) for line in lines)
        return "<p>%s</p>" % inline(" ".join(lines))

    def code(self, words, lines):
        shown = "<pre>%s</pre>" % html.escape("\n".join(lines), quote=False)
        if words[:1] == ["console"]:
            return "".join(self.console(lines))
        if len(words) == 2:
            self.write(words[1], "\n".join(lines) + "\n")
            if words[1].endswith(".unity"):
                label = "<code>%s</code> %s" % (words[1], self.button(words[1], [], None, "put it into the editor"))
                return '<p class="order">%s</p>%s' % (label, shown)
        return shown

    def console(self, lines):
        while lines:
            command, printed = lines[0][2:], []
            lines = lines[1:]
            while lines and not lines[0].startswith("$ "):
                printed.append(lines.pop(0))
            yield self.command(command, "".join(line + "\n" for line in printed))

    def command(self, command, printed):
        buttons = ""
        for name in self.run(command):
            buttons += " " + self.button(name, [], None, "put %s into the editor" % name)
        self.reschedule(command, printed)
        for pattern, words in ASKED:
            asked = pattern.match(command)
            if asked and asked.group(2) in self.files:
                words = words or asked.group(1).split()
                buttons = self.button(asked.group(2), words, wanted_of(command, printed), "do this here")
        piped = PIPED.match(command)
        if piped and piped.group(2) in self.files:
            text, wanted = self.shell(piped.group(1)), None if piped.group(4) else printed
            buttons = self.button(piped.group(2), [piped.group(3)], wanted, "do this here", text)
        line = '<p class="order"><code>$ %s</code>%s</p>' % (html.escape(command, quote=False), buttons)
        return line + ("<pre>%s</pre>" % html.escape(printed.rstrip("\n"), quote=False) if printed else "")

    def button(self, name, words, wanted, label, text=None):
        """A button that puts the file as it stands, or this text, into the editor, and asks by these words, if any."""
        text = text or self.files[name]
        if text not in self.texts:
            self.texts.append(text)
        made = {"file": name, "source": self.texts.index(text), "words": words}
        if wanted is not None:
            made["wanted"] = wanted
        self.tries.append(made)
        return '<button data-take="%d">%s</button>' % (len(self.tries) - 1, label)

    def write(self, name, text):
        with open(os.path.join(self.folder, "lesson", name), "w", encoding="utf-8") as file:
            file.write(text)
        self.files[name] = text

    def shell(self, command):
        """Carries out all commands so far that set a variable, and then this one; what it prints."""
        script = SILENT + "\n".join(self.commands) + "\n" + command + "\n"
        how = {"cwd": self.folder, "stdin": subprocess.DEVNULL, "stdout": subprocess.PIPE,
               "stderr": subprocess.DEVNULL, "env": {"HOME": self.folder, "PATH": os.environ["PATH"]}}
        return subprocess.run(["bash", "-c", script], check=False, encoding="utf-8", **how).stdout

    def reschedule(self, command, printed):
        """A document of `shrink.sh` is known where the page shows its trace, which has the choices of its schedule."""
        made = RESCHEDULED.match(command)
        if made:
            self.rescheduled[made.group(2)] = self.rescheduled.get(made.group(1), made.group(1))
        watched = re.match(r'bash "\$top/scripts/watch\.sh" ([\w.]+)$', command)
        trace = re.search(r"^replay (\w+)\n0.*\n((?:\d+ .*\n)*)", printed, re.M)
        base = watched and self.rescheduled.get(watched.group(1))
        if trace and base in self.files:
            choices = ", ".join(line.split(" ")[1] for line in trace.group(2).splitlines())
            schedule = "schedule %s :\n  %s\nend" % (trace.group(1), choices)
            text = re.sub(r"^schedule \w+ :[^#]*?\bend\b", schedule, self.files[base], flags=re.M)
            self.write(watched.group(1), text)

    def run(self, command):
        """Carries out this command; the documents that it changed."""
        self.shell(command)
        if re.match(r"\w+=", command):
            self.commands.append(command)
        changed = []
        for name in sorted(os.listdir(os.path.join(self.folder, "lesson"))):
            with open(os.path.join(self.folder, "lesson", name), encoding="utf-8") as file:
                text = file.read()
            if name.endswith(".unity") and text and self.files.get(name) != text:
                self.files[name] = text
                changed.append(name)
        return changed
