"""A document that is open in an editor: its text, what its names mean, and what was found of it."""
import re

from unity_tool.outline import Outline

ERROR = 1


class Opened:
    """A document, with the workers that are at it."""

    def __init__(self, uri, version, text):
        self.uri, self.version, self.text = uri, version, text
        self.diagnostics, self.steps, self.outline = [], {}, None
        self.due, self.judging, self.acting, self.asked, self.is_judged = None, None, None, None, False

    def change(self, change, version):
        self.text, self.outline = self.text.changed(change), None
        self.version = version if version is not None else self.version

    def workers(self):
        return [it for it in (self.judging, self.acting) if it]

    def names(self):
        """What the names of the present text mean."""
        if self.outline is None:
            self.outline = Outline(self.text.outlined())
        return self.outline

    def at_top(self, says):
        """A diagnostic of the whole document."""
        return {"range": self.text.range(0, self.text.line_end(0)), "severity": ERROR, "source": "unity",
                "message": says}

    def current(self):
        """The steps that were judged and stand in the present text as they were, with the place of each."""
        found, at = [], 0
        for step in self.steps.values():
            start = self.text.latin.find(step["words"], at)
            if start >= 0:
                at = start + len(step["words"])
                found.append((step, start, at))
        return found

    def marks(self):
        """How each step stands, with its range."""
        return [(self.text.range(start, end), "%s: %s" % (step["state"], step["record"]))
                for step, start, end in self.current()]

    def chosen(self, at):
        """The step at a byte, and the answer that refutes it; where the byte is in a program or proof, its name."""
        chosen = {}
        for step, start, end in self.current():
            if start <= at <= end:
                chosen = {"named": step["named"], "program": step["program"]}
        for it in self.diagnostics:
            says = it["message"].split("\n\n")[0]
            head = re.match(r"refuted (\w+\.\w+) ", says)
            if head and chosen.get("named", head.group(1)) == head.group(1):
                return {"named": head.group(1), "program": head.group(1).split(".")[0], "answer": says}
        return chosen
