"""Instances of statements as processes of Promela.

In one step a process reads all that its statement reads, then writes, and prints the instance's name, by which a trail
is read. A step that is undefined is not taken. What is noted on the way is hidden, no part of a state; or, since a
search by breadth takes nothing hidden, it is 0 again in each state. Instances stand together in one kind of process, so
that what a monitor does stands once; its number tells one from the other.
"""
from unity_tool.promela.ranges import ends_of, places_of

# SPIN takes so many statements in one step, and 2,048 as it counts them
MOST_STATEMENTS = 1500
KINDS = (("byte", "c"), ("int", "w"), ("int", "i"))


def notes(instances):
    """What the processes note, each with its type: of each write whether it is made, its value and its index."""
    widest = max((len(writes) for _, writes in instances), default=0)
    return [("byte", "undefined"), ("byte", "changed"), ("int", "bad")] + [
        (kind, "%s%d" % (letter, at)) for at in range(widest) for kind, letter in KINDS]


def processes(instances, monitor, tidy):
    """The kinds of processes, and the lines that start a process for each instance; `tidy` ends each step."""
    kinds, starts = [], []
    before, after = monitor.before(), monitor.after() + ["fi;"] + tidy
    own = weight(before["undefined"] + before["step"] + after)
    for first, some in together(instances, own):
        name = "s%d" % len(kinds)
        kinds.append(process(name, first, some, before, after))
        starts += ["run %s(%d);" % (name, first + at) for at in range(len(some))]
    return kinds, starts


def weight(lines):
    """About how many statements lines have."""
    return sum(it.count(";") + it.count("::") for it in lines)


def together(instances, own):
    """Instances in groups that one step has room for, each with the number of its first one."""
    groups, room = [], 0
    for at, instance in enumerate(instances):
        need = weight(reads(instance) + does(instance)) + 1
        if not groups or need > room:
            groups.append((at, []))
            room = MOST_STATEMENTS - own
        groups[-1][1].append(instance)
        room -= need
    return groups


def process(name, first, some, before, after):
    lines = ["undefined = false;", *chosen(first, [reads(it) for it in some]), *before["undefined"],
             "if :: undefined -> skip :: else ->", *before["step"], *chosen(first, [does(it) for it in some]), *after]
    return "proctype %s(byte n) { do :: d_step {\n    %s } od }\n" % (name, "\n    ".join(lines))


def chosen(first, each):
    """The lines of the instance that a process is."""
    if len(each) == 1:
        return each[0]
    lines = [line for at, lines in enumerate(each) for line in [":: n == %d ->" % (first + at), *(lines or ["skip"])]]
    return ["if", *lines, "fi;"]


def reads(instance):
    """Reads each write, and notes where it is undefined: outside its range, or with another value for a slot."""
    writes = instance[1]
    return [line for at, write in enumerate(writes) for line in read_write(at, write, writes[:at])]


def read_write(at, write, others):
    variable, index, when, value = write
    low, high = ends_of(variable)
    lines = ["c%d = %s;" % (at, when), "w%d = (c%d -> %s : %d);" % (at, at, value, low)]
    wrong = ["w%d < %d || w%d > %d" % (at, low, at, high)]
    if index is not None:
        first, last = places_of(variable)
        lines.append("i%d = %s;" % (at, index))
        wrong.append("i%d < %d || i%d > %d" % (at, first, at, last))
    for other, (their, _, _, _) in enumerate(others):
        if their.name == variable.name:
            same = "i%d == i%d && " % (at, other) if index is not None else ""
            wrong.append("(c%d && %sw%d != w%d)" % (other, same, at, other))
    return lines + ["undefined = (undefined || (c%d && (%s)));" % (at, " || ".join(wrong))]


def does(instance):
    """Makes the writes, and notes whether they change anything."""
    name, writes = instance
    lines, moved = [], []
    for at, (variable, index, _, _) in enumerate(writes):
        slot = "v_" + variable.name + ("" if index is None else "[i%d - (%d)]" % (at, places_of(variable)[0]))
        moved.append("(c%d && %s != w%d)" % (at, slot, at))
        lines.append("if :: c%d -> %s = w%d :: else fi;" % (at, slot, at))
    return ["changed = (%s);" % (" || ".join(moved) or "false"), *lines, 'printf("@@ %s\\n");' % name]
