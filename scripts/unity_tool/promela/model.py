"""A program as Promela: one process for each instance, so that SPIN's weak fairness is that of an execution. A process
carries its instance out again and again."""
from unity_tool.document import programs_in
from unity_tool.promela import processes
from unity_tool.promela.formulas import HEAD, Sayings, TooLarge
from unity_tool.promela.ranges import ends_of, numbers, places_of, words_of
from unity_tool.promela.start import Start

# SPIN takes 255 processes
MOST_INSTANCES = 250


class Model(Sayings):
    """The variables, the start and the instances of a program."""

    def __init__(self, document, program):
        self.parts = programs_in(document, program)
        self.variables = {it.name: it for part in self.parts for it in part.declared}
        super().__init__(document, program, {
            word: number for it in document.variables.values() for number, word in enumerate(words_of(it))})
        self.instances = [it for part in self.parts for item in part.items for it in self.unfold(item, {}, ())]
        if len(self.instances) > MOST_INSTANCES:
            raise TooLarge("%s has %d instances, and SPIN takes %d processes" % (
                program, len(self.instances), MOST_INSTANCES))

    # variables

    def variable(self, name):
        """The variable of a name, or nothing. A claim may speak of one that the program does not show: it has any
        value, and keeps it."""
        if name not in self.variables and name in self.document.variables:
            self.variables[name] = self.document.variables[name]
        return self.variables.get(name)

    def slots(self):
        """Each slot: its variable, and its index or nothing."""
        for it in self.variables.values():
            for index in range(places_of(it)[0], places_of(it)[1] + 1) if it.places else [None]:
                yield it, index

    @staticmethod
    def shown(variable, number):
        """A value as a document has it."""
        words = words_of(variable)
        if words:
            return words[number]
        return str(number) if variable.ends else "true" if number else "false"

    def number(self, variable, shown):
        """The number of a value that a document has."""
        return {"true": 1, "false": 0}.get(shown, self.words.get(shown)) if not variable.ends else int(shown)

    # instances

    def unfold(self, item, known, indices):
        """The instances of an item: the name of each, and its writes."""
        if item.binder is None:
            name = item.label + ("[%s]" % ",".join(map(str, indices)) if indices else "")
            return [(name, self.writes(item.components, known))]
        return [it for more in numbers(item.binder, known) for inner in item.items
                for it in self.unfold(inner, more, indices + (more[item.binder[0]],))]

    def writes(self, components, known):
        """The writes of a statement: the variable, the index or nothing, the condition and the value."""
        found = []
        for it in components:
            if it.binder:
                found += [one for more in numbers(it.binder, known) for one in self.writes(it.components, more)]
                continue
            for values, condition in it.choices:
                when = self.say(condition, known) if condition else "true"
                for target, value in zip(it.targets, values):
                    index = self.say(target.parts[0], known) if target.kind == "index" else None
                    found.append((self.variables[target.name], index, when, self.say(value, known)))
        return found

    # the whole

    def declared(self):
        lines = []
        for it in self.variables.values():
            low, high = ends_of(it)
            kind = "byte" if low >= 0 and high < 256 else "short" if -32768 <= low and high < 32768 else "int"
            room = "[%d]" % (places_of(it)[1] - places_of(it)[0] + 1) if it.places else ""
            lines.append("%s v_%s%s;" % (kind, it.name, room))
        return lines

    def text(self, monitor, claim="", told=None):
        """The whole model with a monitor, and what has never to be; it begins where the slots that are told have these
        values. A search for what has never to be goes by depth, and then notes are hidden."""
        noted = processes.notes(self.instances) + [("byte", it) for it in monitor.noted()]
        tidy = [] if claim else ["%s = 0;" % name for _, name in noted]
        kinds, runs = processes.processes(self.instances, monitor, tidy)
        start = Start(self, told)
        begin = start.lines() + start.printed() + monitor.begin() + runs + ["ready = true"]
        hidden = ["%s%s %s;" % ("hidden " if claim else "", kind, name) for kind, name in noted]
        lines = [HEAD + "bool ready;", *self.declared(), *hidden, *monitor.declared(), *kinds]
        return "\n".join(lines + ["init { atomic {\n  %s } }\n%s" % ("\n  ".join(begin), claim)])
