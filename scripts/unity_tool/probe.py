"""Asks `unity` what holds at a state, and what a statement makes of it."""
from unity_tool.document import Record
from unity_tool.formulas import Formula, value_of
from unity_tool.program import unity

WIDE = "-1000000000..1000000000"


def unused(text):
    """A beginning of names that no word of the text has."""
    name = "probe"
    while name in text:
        name += "s"
    return name


def declared(plan, more):
    """Declarations of all variables of a document and of more, and its always names."""
    document = plan.document
    lines = ["  %s : %s" % (it.name, it.text) for it in document.variables.values()]
    lines += ["  %s : %s" % each for each in more]
    defs = ["  %s = %s" % (name, Formula(document.text, node, {}, {})) for name, node in document.defs.items()]
    return "\n".join(["declare"] + lines + (["always"] + defs if defs else [])) + "\n"


def heading(plan):
    return "unity %s\nprogram Probe\n" % plan.document.version


def start_of(values):
    return "start " + ", ".join("%s = %s" % each for each in values.items()) + "\n" if values else ""


def bodies(plan, program):
    made = plan.document.programs[program]
    return [made.body] if not made.parts else [it for part in made.parts for it in bodies(plan, part)]


def look(plan, program, values, questions, instance=None):
    """What questions are answered at the state of these values, and after an instance of a statement; and what it
    changes. A question is a formula, with True where it asks for a number."""
    name = unused(plan.document.text)
    asked = ["%s%d" % (name, at) for at in range(len(questions))]
    more = [(it, WIDE if numeric else "boolean") for it, (_, numeric) in zip(asked, questions)]
    gives = ", ".join(asked) + " := " + ", ".join(str(it) for it, _ in questions) if asked else "%s := 0" % name
    text = heading(plan) + declared(plan, more + [(name, "0..0")]) + start_of(values)
    text += "assign\n  %s_look: %s\n  [] " % (name, gives) + "\n  [] ".join(bodies(plan, program)) + "\nend\n"
    choices = [name + "_look"] + ([instance, name + "_look"] if instance else [])
    text += "schedule Probe : " + ", ".join(choices) + " end\n"
    traced, status = unity(["replay"], text)
    if status not in (0, 5):
        raise SystemExit("the state can't be replayed: " + traced.strip())
    return answers(traced, asked, questions, instance)


def answers(traced, asked, questions, instance):
    states = []
    for line in traced.split("\n"):
        words = line.split(" ")
        if words[0].isdigit():
            states.append(dict(word.split("=", 1) for word in words[1:] if "=" in word))

    def told(state):
        return [int(state[name]) if numeric else state[name] == "true"
                for name, (_, numeric) in zip(asked, questions)]

    own = [name for name in states[0] if name.rstrip("0123456789") not in {it.rstrip("0123456789") for it in asked}]
    moved = [(name, states[1][name], states[2][name]) for name in own if states[1][name] != states[2][name]] \
        if len(states) > 2 else []
    return Record(before=told(states[1]), after=told(states[3]) if len(states) > 3 else None, moved=moved,
                  state=states[1], undefined=instance is not None and len(states) < 3)


def excluded(plan, values, formulas):
    """Whether no state with these values meets these formulas: None where that is not told, True, or such a state."""
    facts = ["%s = %s" % (name, value) if value not in ("true", "false") else name if value == "true" else "not " + name
             for name, value in values.items()]
    here = " and ".join(facts + [it.bare() for it in formulas]) or "true"
    name = unused(plan.document.text)
    text = heading(plan) + declared(plan, [(name, "0..0")])
    text += "assign %s_look: %s := 0 end\nproof Probe\n  %s_safe: defined by text;\n" % (name, name, name)
    text += "  %s_never: %s leadsto false by imply(%s, false);\nend\n" % (name, here, here)
    told, status = unity(["prove", 100000], text)
    if status == 0:
        return True
    if status != 3:
        return None
    return dict(line.split(" = ") for line in told.split("\n")[1:] if " = " in line)


def find_statement(plan, program, instance):
    """The statement of an instance, and the numbers of its bound names."""
    made = plan.document.programs[program]
    if made.parts:
        found = [find_statement(plan, part, instance) for part in made.parts]
        return next((it for it in found if it), None)
    label, _, indices = instance.partition("[")
    numbers = [int(it) for it in indices.rstrip("]").split(",")] if indices else []

    def search(items, names):
        for item in items:
            if item.binder is None and item.label == label:
                return item, dict(zip(names, numbers))
            found = item.binder and search(item.items, names + [item.binder[0]])
            if found:
                return found
        return None

    return search(made.items, [])


def writes_of(plan, components, numbers):
    """All writes that components may make: target, value, condition, as formulas."""
    found = []
    for one in components:
        if one.binder:
            name, (low, high) = one.binder
            for number in range(value_of(low, numbers), value_of(high, numbers) + 1):
                found += writes_of(plan, one.components, {**numbers, name: number})
            continue
        for values, condition in one.choices:
            for target, value in zip(one.targets, values):
                parts = [it and plan.formula(it, numbers) for it in (target, value, condition)]
                found.append(Record(target=parts[0], value=parts[1], condition=parts[2]))
    return found


def made_writes(plan, program, values, instance):
    """The writes that an instance makes at a state, with their slots and numbers."""
    item, numbers = find_statement(plan, program, instance)
    found = writes_of(plan, item.components, numbers)[:600]
    questions, places = [], []

    def ask(formula, numeric):
        places.append(len(questions))
        questions.append((formula, numeric))
        return places[-1]

    for it in found:
        it.variable = plan.document.variables[it.target.node.name]
        is_index = it.target.node.kind == "index"
        it.index_at = ask(it.target.part(it.target.node.parts[0]), True) if is_index else None
        it.value_at = ask(it.value, True) if it.variable.ends else None
        it.condition_at = ask(it.condition, False) if it.condition else None
    told = look(plan, program, values, questions).before
    made = [it for it in found if it.condition_at is None or told[it.condition_at]]
    for it in made:
        it.index = told[it.index_at] if it.index_at is not None else None
        it.number = told[it.value_at] if it.value_at is not None else None
    return made
