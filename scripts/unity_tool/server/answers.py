"""What the server answers at once of a text: names, symbols, words, folds and tokens."""
import re

from unity_tool.document import TOKEN
from unity_tool.outline import BOUND, DEFINED, LABEL, PROGRAM, STEP, VALUE, VARIABLE
from unity_tool.server.texts import shown
from unity_tool.words import kind_of_word, table

# kinds of symbols, of completions and of tokens, by the numbers and words of the protocol
SYMBOLS = {PROGRAM: 5, VARIABLE: 13, DEFINED: 12, VALUE: 22, LABEL: 6, STEP: 24}
ITEMS = {PROGRAM: 7, VARIABLE: 6, DEFINED: 3, VALUE: 20, LABEL: 2, STEP: 23, BOUND: 6}
KEYWORD_ITEM = 14
TYPES = ["keyword", "type", "operator", "number", "comment", "class", "variable", "function", "enumMember", "method",
         "event", "parameter"]
OF_WORD = {"operators": "operator", "types": "type", "values": "number"}
OF_NAME = {PROGRAM: "class", VARIABLE: "variable", DEFINED: "function", VALUE: "enumMember", LABEL: "method",
           STEP: "event", BOUND: "parameter"}
COMMENT_FOLD, REGION_FOLD = "comment", "region"


def name_range(text, name):
    return text.range(name.start, name.end)


def definition(text, names, at):
    found = names.name_at(at)
    return found and names.declared(found)


def places_alike(names, at, with_declaration=True):
    """All places that mean what the name at a byte means."""
    found = names.name_at(at)
    return [it for it in names.alike(found) if with_declaration or not it.declares] if found else []


def is_new_name(word):
    """Whether a word can be a name."""
    return re.fullmatch(r"[A-Za-z][A-Za-z0-9_]*", word) is not None and word not in kind_of_word()


def declaration(text, name):
    """What the text has of a declaration: its line, without the comment."""
    line_start = text.latin.rfind("\n", 0, name.start) + 1
    line = text.latin[line_start:text.line_end(name.start)].split("#")[0]
    return shown(" ".join(line.split()))


def symbols(text, names, steps):
    """The programs and proofs, with what they declare."""
    roots = []
    for fold in names.folds:
        inside = [it for it in names.names if fold.start <= it.start < fold.end]
        head = next((it for it in inside if it.kind == PROGRAM), None)
        if head is None or fold.kind == "schedule":
            continue
        declared = [it for it in inside if it.declares and it.kind in SYMBOLS and it is not head]
        children = [symbol(text, it, text.range(it.start, it.end), detail_of(it, steps)) for it in declared]
        made = symbol(text, head, text.range(fold.start, max(fold.end, head.end)), fold.kind)
        made["children"] = children
        roots.append(made)
    return roots


def detail_of(name, steps):
    step = steps.get("%s.%s" % (name.owner, name.word)) if name.kind == STEP else None
    return "%s, %s" % (step["record"], step["state"]) if step else name.kind


def symbol(text, name, whole, detail):
    return {"name": name.word, "detail": detail, "kind": SYMBOLS[name.kind], "range": whole,
            "selectionRange": text.range(name.start, name.end)}


def completions(names, at):
    """Names that mean something here, and words."""
    before = re.search(r"(\w+)\.\w*$", names.latin[max(0, at - 200):at])
    if before:
        steps = {it.word for it in names.names if it.kind == STEP and it.declares and it.owner == before.group(1)}
        return [{"label": word, "kind": ITEMS[STEP]} for word in sorted(steps)]
    known = {it.word: it.kind for it in names.names
             if it.declares and not (it.start < at <= it.end) and (it.kind != BOUND or near(names, it, at))}
    found = [{"label": word, "kind": ITEMS[kind], "detail": kind} for word, kind in sorted(known.items())]
    return found + [{"label": word, "kind": KEYWORD_ITEM} for word in kind_of_word()]


def near(names, name, at):
    """Whether a bound name may still be known: no step or part ends between."""
    return name.start < at and ";" not in names.latin[name.start:at] and "\nend" not in names.latin[name.start:at]


def folds(text, names):
    """What can be folded: programs, proofs, schedules, certificates and comments of several lines."""
    found = [(it.start, it.end, REGION_FOLD) for it in names.folds]
    if text.certificates() is not None:
        found.append((text.certificates(), len(text.latin.rstrip()), REGION_FOLD))
    found += [(it.start(), it.end() - 1, COMMENT_FOLD) for it in
              re.finditer(r"(?m)(?:^[ \t]*#[^\n]*\n){2,}", text.before_certificates())]
    made = []
    for start, end, kind in found:
        first, last = text.place(start)["line"], text.place(end)["line"]
        if last > first:
            made.append({"startLine": first, "endLine": last, "kind": kind})
    return made


def tokens(text, names):
    """The tokens in the form of the protocol: five numbers each, places relative to the token before."""
    kind_at = {it.start: OF_NAME[it.kind] for it in names.names}
    pieces = [(found.start(), found.end(), kind) for found in re.finditer(r"#[^\n]*|" + TOKEN.pattern, names.latin)
              for kind in [kind_of(found.group(), kind_at.get(found.start()))] if kind]
    data, line, column = [], 0, 0
    for start, end, kind in pieces:
        place = text.place(start)
        wide = text.place(end)["character"] - place["character"]
        data += [place["line"] - line, place["character"] - (column if place["line"] == line else 0), wide,
                 TYPES.index(kind), 0]
        line, column = place["line"], place["character"]
    return data


def kind_of(word, name):
    if word.startswith("#"):
        return "comment"
    if name or word[0].isdigit():
        return name or "number"
    if word in kind_of_word():
        return OF_WORD.get(kind_of_word()[word], "keyword")
    return "operator" if word in table()["symbols"] else None


def hover(text, names, steps, at):
    """What is known of the name at a byte, as lines of Markdown."""
    found = names.name_at(at)
    if not found:
        return []
    if found.kind == STEP:
        return of_step(text, steps.get("%s.%s" % (found.owner, found.word))) or of_declaration(text, names, found)
    return of_declaration(text, names, found)


def of_declaration(text, names, name):
    place = names.declared(name)
    if not place:
        return []
    line = text.place(place.start)["line"] + 1
    return ["%s **%s**, declared at line %d" % (name.kind, name.word, line), "", "    " + declaration(text, place)]


def of_step(text, step):
    """A step: its kind and bound, how it stands, what `using` names, and its obligations with where they come from.
    Of a step that was changed since it was judged, nothing."""
    if not step or step["words"] not in text.latin:
        return []
    lines = ["**%s** %s: %s" % (step["named"], step["record"], step["state"])]
    if step["rests"]:
        lines += ["", "it rests on %s, which is not proved" % ", ".join(step["rests"])]
    if step["using"]:
        lines += ["", "it is proved under %s" % ", ".join(step["using"])]
    lines += ["", "%d obligations" % step["count"] if step["count"] != 1 else "1 obligation", ""]
    for number, (says, line) in enumerate(step["says"], step["first"]):
        lines.append("%d. %s (line %d)" % (number, says, line))
    if step["count"] > len(step["says"]):
        lines.append("and %d more" % (step["count"] - len(step["says"])))
    return lines
