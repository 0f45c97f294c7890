"""A document as `unity` reads it, byte by byte, and its places as editors count them: lines from 0, and in a line units
of UTF-16."""
import bisect
import re

# what stands from here on is a list of certificates
SECTION = re.compile(r"(?m)^certificates\b")
# a longer document, without its certificates, has no outline
LONGEST = 2000000


class Text:
    """A document, a letter for each byte."""

    def __init__(self, source):
        self.latin = source.encode("utf-8", "replace").decode("latin-1")
        self.starts = None

    def lines(self):
        """Where each line begins."""
        if self.starts is None:
            self.starts = [0] + [found.end() for found in re.finditer("\n", self.latin)]
        return self.starts

    def place(self, at):
        """The place of a byte."""
        at = max(0, min(at, len(self.latin)))
        line = bisect.bisect_right(self.lines(), at) - 1
        return {"line": line, "character": units(self.latin[self.lines()[line]:at])}

    def range(self, start, end):
        return {"start": self.place(start), "end": self.place(max(start, end))}

    def at(self, place):
        """The byte of a place; the nearest where the document has no such place."""
        line, character = place["line"], place["character"]
        if line >= len(self.lines()):
            return len(self.latin)
        start = self.lines()[max(line, 0)]
        end = self.latin.find("\n", start)
        end = len(self.latin) if end < 0 else end
        whole = self.latin[start:end]
        if whole.isascii():
            return start + max(0, min(character, len(whole)))
        wide = whole.encode("latin-1").decode("utf-8", "replace").encode("utf-16-le")
        return start + len(wide[:2 * max(character, 0)].decode("utf-16-le", "ignore").encode("utf-8"))

    def whole(self):
        return self.range(0, len(self.latin))

    def line_end(self, at):
        """Where the line of a byte ends."""
        end = self.latin.find("\n", at)
        return len(self.latin) if end < 0 else end

    def certificates(self):
        """Where the certificates begin, or nothing."""
        found = SECTION.search(self.latin)
        return found.start() if found else None

    def before_certificates(self):
        return self.latin[:self.certificates()]

    def outlined(self):
        """What has an outline: the text before the certificates, where it is not too long."""
        latin = self.before_certificates()
        return latin if len(latin) <= LONGEST else ""

    def changed(self, change):
        """The text after a change, of a part or of all."""
        if not change.get("range"):
            return Text(change["text"])
        start, end = self.at(change["range"]["start"]), self.at(change["range"]["end"])
        made = Text(change["text"])
        made.latin = self.latin[:start] + made.latin + self.latin[max(start, end):]
        return made


def units(latin):
    """How many units of UTF-16 these bytes are."""
    if latin.isascii():
        return len(latin)
    return len(latin.encode("latin-1").decode("utf-8", "replace").encode("utf-16-le", "replace")) // 2


def shown(latin):
    """A text of a byte a letter, as editors show it."""
    try:
        return latin.encode("latin-1").decode("utf-8", "replace")
    except UnicodeEncodeError:
        return latin


def edit_between(text, new):
    """One edit that makes a text of another one: what is alike at both ends stays."""
    old, front = text.latin, 0
    most = min(len(old), len(new))
    while front < most and old[front] == new[front]:
        front += 1
    back = 0
    while back < most - front and old[-1 - back] == new[-1 - back]:
        back += 1
    while front and is_inside(old, front):
        front -= 1
    while back and is_inside(old, len(old) - back):
        back -= 1
    return {"range": text.range(front, len(old) - back), "newText": shown(new[front:len(new) - back])}


def is_inside(latin, at):
    """Whether a byte goes on with a letter of UTF-8 that began before it."""
    return at < len(latin) and 0x80 <= ord(latin[at]) < 0xC0
