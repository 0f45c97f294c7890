"""The rooms and crates of crates.txt as tables of the pages."""
import os
import re
import sys

BEGIN = "<!-- written by scripts/map.sh -->"
END = "<!-- until here -->"


def rooms_of(top):
    """The rooms in order, each with its sentence and its crates; and the crates that each crate names."""
    rooms, uses, heading = [], {}, None
    with open(os.path.join(top, "crates.txt"), encoding="utf-8") as lines:
        for number, line in enumerate(lines, 1):
            line = line.strip()
            if line.startswith("#"):
                heading = line[1:].strip()
            elif not line:
                heading = None
            else:
                if heading:
                    name, _, sentence = heading.partition(": ")
                    rooms.append((name, sentence, []))
                    heading = None
                crate, _, names = line.partition(":")
                crate = crate.split()[0]
                if not rooms:
                    raise SystemExit("crates.txt:%d: %s stands in no room" % (number, crate))
                rooms[-1][2].append(crate)
                uses[crate] = names.split()
    listed = list(uses)
    for crate in listed:
        uses[crate] = [name for name in uses[crate] if name in uses]
        for name in uses[crate]:
            if listed.index(name) > listed.index(crate):
                raise SystemExit("crates.txt: %s stands above %s, which it names" % (crate, name))
    return rooms, uses


def below(uses):
    """All that each one stands on, given what each names; each stands behind those that it names."""
    found = {}
    for name in uses:
        found[name] = set(uses[name])
        for other in uses[name]:
            found[name] |= found[other]
    return found


def nearest(uses):
    """Of what each one names, those that no other of them stands on."""
    all_below = below(uses)
    return {name: [it for it in uses if it in uses[name] and not any(it in all_below[other] for other in uses[name])]
            for name in uses}


def sentence_of(top, crate):
    """The first paragraph of a crate's page."""
    with open(os.path.join(top, "crates", crate, "README.md"), encoding="utf-8") as page:
        lines = page.read().split("\n")
    if lines[:2] != ["# " + crate, ""] or not lines[2]:
        raise SystemExit("crates/%s/README.md: the page begins with its name and a paragraph" % crate)
    paragraph = " ".join(lines[2:lines.index("", 2)])
    return paragraph.replace("|", "\\|")


def room_uses(rooms, uses):
    room = {crate: name for name, _, crates in rooms for crate in crates}
    return {name: {room[it] for crate in crates for it in uses[crate]} - {name} for name, _, crates in rooms}


def rooms_table(rooms, uses, page):
    """The rooms, with links to the page that has their crates."""
    above = nearest(room_uses(rooms, uses))
    rows = ["| Room | Crates | Is about | Stands on |", "|---|---|---|---|"]
    for name, sentence, crates in rooms:
        link = "[%s](%s#%s)" % (name, page, name.lower().replace(" ", "-"))
        rows.append("| %s | %d | %s | %s |" % (link, len(crates), sentence.rstrip("."), ", ".join(above[name])))
    return rows


def crates_tables(top, rooms, uses):
    above = nearest(uses)
    rows = []
    for name, sentence, crates in rooms:
        rows += ["### " + name, "", sentence[:1].upper() + sentence[1:], ""]
        rows += ["| Crate | Is | Stands on |", "|---|---|---|"]
        for crate in crates:
            link = "[%s](../crates/%s/README.md)" % (crate, crate)
            names = ", ".join("`%s`" % it for it in above[crate])
            rows.append("| %s | %s | %s |" % (link, sentence_of(top, crate), names))
        rows.append("")
    return rows[:-1]


def with_tables(page, text, rows):
    """The page with these rows between its two marks."""
    lines = text.split("\n")
    if BEGIN not in lines or END not in lines:
        raise SystemExit("%s has no marks for what scripts/map.sh writes" % page)
    return "\n".join(lines[:lines.index(BEGIN) + 1] + rows + lines[lines.index(END):])


def lacking(top, page, uses):
    """The files that the page's tables name of a crate, and that are not there."""
    faults = []
    with open(os.path.join(top, page), encoding="utf-8") as lines:
        for number, line in enumerate(lines, 1):
            row = re.match(r"\| `(\w+)` \| (.*) \|$", line)
            for file in re.findall(r"`([^`]+\.(?:rt|antt))`", row.group(2)) if row and row.group(1) in uses else []:
                if not os.path.isfile(os.path.join(top, "crates", row.group(1), file)):
                    faults.append("%s:%d: %s has no %s" % (page, number, row.group(1), file))
    return faults


def main(top, words):
    if words not in ([], ["--check"]):
        print("usage: bash scripts/map.sh [--check]", file=sys.stderr)
        return 64
    rooms, uses = rooms_of(top)
    faults = lacking(top, "CONTRIBUTING.md", uses)
    print("".join(fault + "\n" for fault in faults), end="", file=sys.stderr)
    status = 1 if faults else 0
    for page, rows in [("docs/ARCHITECTURE.md", rooms_table(rooms, uses, "") + [""] + crates_tables(top, rooms, uses))]:
        with open(os.path.join(top, page), encoding="utf-8") as old:
            text = old.read()
        wanted = with_tables(page, text, rows)
        if words and wanted != text:
            print("%s: scripts/map.sh writes other tables" % page, file=sys.stderr)
            status = 1
        elif wanted != text:
            with open(os.path.join(top, page), "w", encoding="utf-8") as new:
                new.write(wanted)
    return status
