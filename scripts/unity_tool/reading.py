"""What a reader of a clause has to read: the definitions that it reaches."""
import os
import re
import sys

from unity_tool.passed_on import origin

# Names of antt may hold nearly anything but these.
BREAK = re.compile(r"[\s(){},;|]+")


class Item:
    """A definition or a type: the file in which it stands, its lines there, and their text."""

    def __init__(self, file, name, is_type=False):
        self.file = file
        self.path = file.path
        self.name = name
        self.is_type = is_type
        self.lines = set()
        self.text = []

    def add(self, number, line):
        self.lines.add(number)
        self.text.append(line)


class File:
    """A file: its items by the names that they define, what it imports by name, and the modules that it names."""

    def __init__(self, repo, crate, path):
        self.path = path
        self.crate = crate
        self.items = {}
        self.imports = {}
        self.modules = {}
        with open(os.path.join(repo.top, path), encoding="utf-8") as text:
            self.lines = text.read().split("\n")

    def take_import(self, line):
        found = re.match(r"(?:ghost\s+)?use\s+([^\s{]+?)(?:\.\{(.*)\})?(?:\s+as\s+(\S+?))?;?\s*$", line)
        path, names, alias = found.groups()
        path = origin(path)
        if names is None:
            self.modules[alias or path.split(".")[-1]] = path
            return
        for name in names.split(","):
            parts = name.split()
            if parts:
                self.imports[parts[-1]] = (path, parts[0])


class AnttFile(File):
    """A file of definitions."""

    def __init__(self, repo, crate, path):
        super().__init__(repo, crate, path)
        self.comments = []
        self.item = None
        self.in_mutual = False
        for number, line in enumerate(self.lines, 1):
            self.take_line(number, line)
        for item in list(self.items.values()):
            if item.is_type:
                self.take_cases(item)

    def take_line(self, number, line):
        """The definitions of a `mutual` block are indented, and are read as those outside."""
        if self.in_mutual and line.startswith("  "):
            line = line[2:]
        elif line.strip():
            self.in_mutual = line.split() in (["mutual"], ["abbrev", "mutual"])
            if self.in_mutual:
                return
        self.take_definition_line(number, line)

    def take_definition_line(self, number, line):
        words = line.split()
        if not words:
            # a comment before a blank line belongs to no definition
            self.comments = []
        elif line[0].isspace():
            if self.item:
                self.item.add(number, line)
        elif words[0] == "use":
            self.take_import(line)
        elif line.startswith("--") or words[0] in ("infixr", "infixl", "infix"):
            self.comments.append((number, line))
        elif words[0] not in ("mod", "module") and words[:2] not in (["pub", "mod"], ["pub", "use"]):
            self.take_head(number, line, words)

    def take_head(self, number, line, words):
        """A line that begins a definition, or a line of one by cases; of an operator it names no definition."""
        head = re.match(r"(?:(?:abbrev|unfoldable|pub|record|data)\s+)*", line).group(0).split()
        name = words[len(head)]
        if name in self.items:
            self.item = self.items[name]
        elif head or re.match(r"[^\s:]+\s*:\s", line):
            self.item = Item(self, name, "record" in head or "data" in head)
            self.items[name] = self.item
        for at, text in self.comments + [(number, line)]:
            self.item.add(at, text)
        self.comments = []

    def take_cases(self, item):
        """The names of the cases of a type, and those of a record's fields, which nothing asks for."""
        for line in item.text[1:]:
            found = re.match(r"\s+([^\s:]+)\s*:\s", line)
            if found and not line.strip().startswith(("→", "--", "(")):
                self.items.setdefault(found.group(1), item)


class RattleFile(File):
    """A file of code: its types with their models, and its traits."""

    def __init__(self, repo, crate, path):
        super().__init__(repo, crate, path)
        self.uses = {}
        text = "\n".join(self.lines)
        for found in re.finditer(r"^\s*(ghost use [^;]*;)", text, re.M):
            self.take_import(" ".join(found.group(1).split()))
        for found in re.finditer(r"^(?:pub )?use ((?:[^;{]|\{[^}]*\})*);", text, re.M):
            self.take_use(found.group(1))
        for number, line in enumerate(self.lines):
            found = re.match(r"(?:pub(?:\([a-z]+\))? )?(?:struct|enum|trait) (\w+)", line)
            if found:
                self.take_block(number, found.group(1))
        for number, line in enumerate(self.lines):
            found = re.match(r"impl(?:<.*?>)? Model for (\w+)", line)
            if found and found.group(1) in self.items:
                self.extend(self.items[found.group(1)], number)

    def take_use(self, text):
        text = origin(" ".join(text.split()))
        found = re.match(r"(.*?)::\{(.*)\}$", text)
        paths = [found.group(1) + "::" + name.strip() for name in found.group(2).split(",")] if found else [text]
        for path in paths:
            name = path.split("::")[-1].split(" as ")
            self.uses[name[-1].strip()] = path.split(" as ")[0]

    def take_block(self, number, name):
        item = Item(self, name, True)
        first = number
        while first > 0 and self.lines[first - 1].lstrip().startswith(("///", "#[")):
            first -= 1
        for at in range(first, number):
            item.add(at + 1, self.lines[at])
        self.extend(item, number)
        self.items[name] = item

    def extend(self, item, number):
        """Adds the block that begins in this line, up to its closing brace or its `;`."""
        for at in range(number, len(self.lines)):
            line = self.lines[at]
            if line.strip():
                item.add(at + 1, line)
            if line.startswith("}") or (at == number and line.rstrip().endswith((";", "}"))):
                return


class Repository:
    def __init__(self, top):
        self.top = top
        with open(os.path.join(top, "crates.txt"), encoding="utf-8") as lines:
            names = [line.split("#")[0].split(":")[0].split() for line in lines]
        self.crates = [name[0] for name in names if name]
        self.antt = {}
        self.rattle = {}

    def antt_file(self, crate, parts):
        """The file of definitions of this crate whose path is the longest beginning of these parts, and the rest."""
        for count in range(len(parts), 0, -1):
            path = "/".join(["crates", crate, "specs"] + parts[:count]) + ".antt"
            if os.path.isfile(os.path.join(self.top, path)):
                if path not in self.antt:
                    self.antt[path] = AnttFile(self, crate, path)
                return self.antt[path], parts[count:]
        raise SystemExit("reading.sh: %s has no definitions %s" % (crate, ".".join(parts)))

    def rattle_file(self, path):
        if path not in self.rattle:
            self.rattle[path] = RattleFile(self, path.split("/")[1], path)
        return self.rattle[path]

    def rattle_files(self, crate):
        folder = os.path.join(self.top, "crates", crate, "src")
        for where, _, names in sorted(os.walk(folder)):
            for name in sorted(names):
                if name.endswith(".rt"):
                    yield self.rattle_file(os.path.relpath(os.path.join(where, name), self.top))

    def declared(self, crate, parts, name):
        """The type or trait of this name, in the module of these parts if it has one there."""
        name = re.sub(r"^fold-|-F$", "", name)
        found = [file for file in self.rattle_files(crate) if name in file.items]
        if len(found) > 1:
            for file in found:
                if file.path.endswith("/src/" + "/".join(parts) + ".rt"):
                    found = [file]
        if len(found) != 1:
            raise SystemExit("reading.sh: %s has no one type %s" % (crate, name))
        return found[0].items[name]

    def declared_as(self, crate, rest, name):
        """The type that a generated module speaks of: its own, unless it imports another one's fold or shape."""
        inner = [at for at, part in enumerate(rest) if part.startswith("The")]
        variants = inner and rest[inner[0]] == "TheVariants"
        rest = rest[:inner[0]] if inner else rest
        own = re.sub(r"^fold-|-F$", "", name)
        if variants or not any(own in file.items for file in self.rattle_files(crate)):
            own = re.sub(r"PartialEq$", "", rest[-1])
        return self.declared(crate, rest[1:-1], own)

    def named(self, path, name):
        """The item of this name in the module of this path, or None where the repository does not have it."""
        parts = path.split(".")
        if parts[0] != "Rattle" or parts[1] not in self.crates:
            return None
        crate, rest = parts[1], parts[3:]
        if parts[2] != "specs":
            raise SystemExit("reading.sh: %s is no path of definitions" % path)
        if rest[0] in ("declared", "contracts"):
            return self.declared_as(crate, rest, name)
        file, left = self.antt_file(crate, rest)
        if left or name not in file.items:
            raise SystemExit("reading.sh: %s has no %s" % (path, name))
        return file.items[name]

    def found(self, file, name, part=None):
        """What a name means in a file, where the repository has it; of a module's name, its part of that name."""
        if part and name in file.modules:
            return self.named(file.modules[name], part)
        if name in file.imports:
            return self.named(*file.imports[name])
        if name in file.items:
            return file.items[name]
        if isinstance(file, RattleFile) and name in file.uses:
            return self.used(file, file.uses[name])
        return None

    def used(self, file, path):
        """The type or trait that a `use` of code names, or None where the repository does not have it."""
        parts = path.split("::")
        crate = file.crate if parts[0] in ("crate", "self", "super") else parts[0]
        if crate not in self.crates or not any(parts[-1] in one.items for one in self.rattle_files(crate)):
            return None
        return self.declared(crate, parts[1:-1], parts[-1])


def plain(text):
    """Definitions without comments and texts in quotes."""
    lines = []
    for line in text:
        line = re.sub(r"(^|\s)--(\s.*|$)", " ", line)
        lines.append(re.sub(r'"[^"]*"', ' ', line))
    # what stands before `=` in braces is the name of a field or of an argument
    return re.sub(r"([{;]\s*)[^\s;{}=().]+\s*=(?=\s)", r"\1", "\n".join(lines))


def binders(text):
    """The names that are bound in a definition: by groups with a type, by functions, and as fields."""
    bound = set()
    for found in re.finditer(r"[({]([^(){}:]*?)\s:\s", text):
        bound.update(found.group(1).split())
    for found in re.finditer(r"λ\s+([^.]*?)\.\s", text):
        bound.update(BREAK.split(re.sub(r":[^()]*", " ", found.group(1))))
    for found in re.finditer(r"^\s+(?:pub\s+)?([^\s:]+)\s:\s", text, re.M):
        bound.add(found.group(1))
    return bound


def words_of(file, text):
    """The words of a definition, and the operators of which all parts are among them."""
    words = {word for word in BREAK.split(text) if word}
    for name in list(file.imports) + list(file.items):
        if "◌" in name and all(part in words for part in name.split("◌") if part):
            words.add(name)
    return words


def uses_of_antt(repo, item):
    """What a definition names."""
    text = plain(item.text)
    bound = binders(text)
    reached = []
    for word in words_of(item.file, text):
        parts = word.split(".") + [""]
        for name in {parts[0], word}:
            target = repo.found(item.file, name, parts[1])
            if target is not None and (target.is_type or name not in bound):
                reached.append(target)
    return reached


def uses_of_rattle(repo, item):
    """What a type, a trait or a clause names."""
    text = "\n".join(line for line in item.text if not line.strip().startswith(("///", "#[", "//")))
    text = re.sub(r"ghost use [^;]*;", " ", text)
    reached = []
    for word in set(re.findall(r"[^\s(){}\[\]<>,;:&|]+", text)):
        for name in {word, word.split(".")[0]}:
            target = repo.found(item.file, name)
            if target is not None and target is not item:
                reached.append(target)
    return reached


def function_in(repo, crate, name):
    """The file of a crate with this public function, and its text from there on."""
    for file in repo.rattle_files(crate):
        text = "\n".join(file.lines)
        found = re.search(r"^pub fn %s\b" % name, text, re.M)
        if found:
            return file, text[found.start():]
    raise SystemExit("reading.sh: %s has no public function %s" % (crate, name))


def clauses_of(repo, crate, name):
    """The clauses of a public function by their names, each as an item, with the bounds of its type parameters."""
    file, text = function_in(repo, crate, name)
    head = text[:re.search(r"^\{", text, re.M).start()]
    bounds = re.findall(r"(\w+): (\w+)", head[:head.index("(")])
    clauses = {}
    for found in re.finditer(r"^    ensures (\w+) \{((?:[^{}]|\{[^{}]*\})*)\}$", head, re.M):
        item = Item(file, found.group(1))
        item.text = found.group(2).split("\n")
        item.text += [bound for own, bound in bounds if re.search(r"\b%s\." % own, found.group(2))]
        clauses[found.group(1)] = item
    return clauses


def closure(repo, items):
    """The definitions that these items reach."""
    reached, seen, todo = [], set(), list(items)
    seeds = {id(item) for item in items}
    while todo:
        item = todo.pop()
        if id(item) in seen:
            continue
        seen.add(id(item))
        if id(item) not in seeds:
            reached.append(item)
        todo.extend(uses_of_antt(repo, item) if item.path.endswith(".antt") else uses_of_rattle(repo, item))
    return reached


CRATE = "unity_cli"
TOP = "unity"
PARTS = [
    [(TOP, "safe")],
    [(TOP, "bounds"), (TOP, "runs")],
    [(TOP, "answer"), (TOP, "follows"), (TOP, "starts"), (TOP, "violated"), (TOP, "unviolated"), (TOP, "kept"),
     ("one_answer", None)],
    [(TOP, None)],
    [("layers_project", None), ("scripts_mean", None)],
]
LAWS = [("unity_cli", "Laws"), ("soundness", "Layers")]
PAGE = "docs/READING.md"
ROW = re.compile(r"^\| \[([^\]]*)\]\(\.\./([^)]*)\) \| (\d+) \|(.*)\|$")
BEGIN = "<!-- written by scripts/reading.sh -->"
END = "<!-- until here -->"


def parts_of(repo):
    """For each part of the page its clauses by name, and the files with the numbers of lines that are new there."""
    known = {}
    taken = set()
    parts = []
    for part in PARTS:
        names, items = [], []
        for function, clause in part:
            clauses = known.setdefault(function, clauses_of(repo, CRATE, function))
            if clause and clause not in clauses:
                raise SystemExit("reading.sh: %s has no clause %s" % (function, clause))
            chosen = [clause] if clause else [name for name in clauses if (function, name) not in taken]
            taken.update((function, name) for name in chosen)
            names.extend(chosen if function == TOP else [function])
            items.extend(clauses[name] for name in chosen)
        parts.append((names, items))
    before = {}
    answer = []
    reached = []
    for names, items in parts:
        reached = reached + items
        lines = {}
        for item in closure(repo, reached):
            lines.setdefault(item.path, set()).update(item.lines)
        new = {path: lines[path] - before.get(path, set()) for path in lines}
        answer.append((names, {path: new[path] for path in new if new[path]}))
        before = lines
    return answer


def totals(parts):
    """The table of the parts."""
    rows = ["| Part | Clauses and laws | Files | Lines |", "|---|---|---|---|"]
    for number, (names, files) in enumerate(parts, 1):
        rows.append("| %d | %s | %d | %s |" % (number, ", ".join("`%s`" % name for name in names), len(files),
                                             format(sum(len(lines) for lines in files.values()), ",")))
    return rows


def label(path):
    return "/".join(path.split("/")[1:])


def page_rows(lines):
    """The rows of the page: for each its line, its part, its path, its number and its sentence."""
    part = 0
    for at, line in enumerate(lines):
        heading = re.match(r"## Part (\d+)\b", line)
        if heading:
            part = int(heading.group(1))
        elif line.startswith("## "):
            part = 0
        row = ROW.match(line)
        if row:
            yield at, part, row.group(2), int(row.group(3)), row.group(4).strip()


def faults_of(parts, lines):
    """What is wrong in the page."""
    faults = []
    seen = set()
    for at, part, path, number, sentence in page_rows(lines):
        files = parts[part - 1][1] if 0 < part <= len(parts) else {}
        if path not in files or (part, path) in seen:
            faults.append("%s:%d: %s is not to be read here" % (PAGE, at + 1, path))
        elif number != len(files[path]):
            faults.append("%s:%d: of %s %d lines are to be read" % (PAGE, at + 1, path, len(files[path])))
        if lines[at] != "| [%s](../%s) | %d | %s |" % (label(path), path, number, sentence) or not sentence:
            faults.append("%s:%d: no row with a sentence" % (PAGE, at + 1))
        seen.add((part, path))
    for number, (_, files) in enumerate(parts, 1):
        for path in sorted(files):
            if (number, path) not in seen:
                faults.append("%s: part %d has no row for %s, %d lines" % (PAGE, number, path, len(files[path])))
    if BEGIN not in lines or END not in lines or lines[lines.index(BEGIN) + 1:lines.index(END)] != totals(parts):
        faults.append("%s: the table of the parts is another one" % PAGE)
    return faults


def written(parts, lines):
    """The page with its numbers, with a row for each file, and with the table of the parts."""
    kept, last = set(), {}
    lines = list(lines)
    rows = list(page_rows(lines))
    for at, part, path, _, sentence in rows:
        files = parts[part - 1][1] if 0 < part <= len(parts) else {}
        own = {row[2] for row in rows if row[1] == part}
        if path not in files:
            # a file that moved: the one of its name that has no row yet
            same = [other for other in files if os.path.basename(other) == os.path.basename(path) and other not in own]
            path = same[0] if len(same) == 1 else path
        if path in files and (part, path) not in kept:
            kept.add((part, path))
            lines[at] = "| [%s](../%s) | %d | %s |" % (label(path), path, len(files[path]), sentence)
        else:
            lines[at] = None
        last[part] = at
    for number, (_, files) in enumerate(parts, 1):
        for path in sorted(path for path in files if (number, path) not in kept):
            row = "| [%s](../%s) | %d |  |" % (label(path), path, len(files[path]))
            at = last[number]
            lines[at] = row if lines[at] is None else lines[at] + "\n" + row
    lines = "\n".join(line for line in lines if line is not None).split("\n")
    first, end = lines.index(BEGIN), lines.index(END)
    return lines[:first + 1] + totals(parts) + lines[end:]


def show(top, parts, lines, number):
    """Prints the definitions of a part, in the order of the page."""
    files = parts[number - 1][1]
    order = [path for _, part, path, _, _ in page_rows(lines) if part == number and path in files]
    for path in order + sorted(set(files) - set(order)):
        print("---- %s" % path)
        text = open(os.path.join(top, path), encoding="utf-8").read().split("\n")
        before = None
        for at in sorted(files[path]):
            if before is not None and at != before + 1:
                print()
            print(text[at - 1])
            before = at
        print()


def misquoted(repo):
    """The clauses and the laws that the page quotes, and that the contract or its laws do not have word for word."""
    contract = "\n".join(function_in(repo, CRATE, TOP)[0].lines)
    with open(os.path.join(repo.top, PAGE), encoding="utf-8") as page:
        text = page.read()
    quoted = re.findall(r"^ensures \w+ \{(?:.*\n)*?.*\}$", text, re.M)
    faults = ["%s: no clause is quoted" % PAGE] if not quoted else []
    for clause in quoted:
        if "\n".join("    " + line for line in clause.split("\n")) not in contract:
            faults.append("%s: the contract has no clause `%s ..`" % (PAGE, clause.split(" {")[0]))
    laws = "\n\n".join("\n".join(repo.antt_file(crate, [file])[0].lines) for crate, file in LAWS)
    for law in re.findall(r"^[A-Z]\w+ .*= (?:(?!```).+\n)+", text, re.M):
        if "\n" + law not in laws:
            faults.append("%s: there is no law `%s ..`" % (PAGE, law.split(" ")[0]))
    return faults


def main(top, words):
    repo = Repository(top)
    parts = parts_of(repo)
    page = os.path.join(top, PAGE)
    lines = open(page, encoding="utf-8").read().split("\n") if os.path.exists(page) else []
    if words == ["--check"]:
        faults = faults_of(parts, lines) + misquoted(repo)
        print("".join(fault + "\n" for fault in faults), end="", file=sys.stderr)
        return 1 if faults else 0
    if words == ["--write"]:
        text = "\n".join(written(parts, lines))
        with open(page, "w", encoding="utf-8") as out:
            out.write(text)
        return 0
    if len(words) == 2 and words[0] == "--text" and words[1] in [str(n) for n in range(1, len(parts) + 1)]:
        show(top, parts, lines, int(words[1]))
        return 0
    if words:
        print("usage: bash scripts/reading.sh [--check | --write | --text PART]", file=sys.stderr)
        return 64
    for number, (names, files) in enumerate(parts, 1):
        print("part %d: %s" % (number, " ".join(names)))
        for path in sorted(files):
            print("%6d %s" % (len(files[path]), path))
        print("%6d lines in %d files" % (sum(len(new) for new in files.values()), len(files)))
    return 0
