"""Documents as they are being typed: the server's answers on what stands so far, asked without an editor.

Of each document texts are taken that end after a token, within one, or at a blank. Whatever such a text is, no answer
fails, and every range lies within it. Of some of them what is found is asked too: its place is the one that `why`
names.
"""
import contextlib
import io
import json
import re
import sys

from unity_tool import why
from unity_tool.document import tokens_of
from unity_tool.server import actions, answers
from unity_tool.server.judge import BUDGET, Judge
from unity_tool.outline import Outline
from unity_tool.server.texts import Text
from unity_tool.trials.asking import ask, unity
from unity_tool.trials.cases import Case, faults
from unity_tool.trials.documents import Document, documents
from unity_tool.trials.within import outside, place_in, wrong_place

FOLDERS = ("examples", "examples/mistakes", "examples/causes")
# so many tokens are read for one document, over all texts that are taken of it; and so many texts are judged
USUAL, MANY, JUDGED, MANY_JUDGED = 6000, 400000, 1, 12
# so many documents are tried in one process
TOGETHER = 16


def place_by_why(latin):
    """The status of a text, and the place that `why` names."""
    came = unity("check" if re.search(r"(?m)^certificates\b", latin) else "prove %d" % BUDGET, latin.encode("latin-1"))
    said = io.StringIO()
    with contextlib.redirect_stdout(said):
        why.explain("here", latin, came.text.decode("latin-1"))
    return came.status, place_in(said.getvalue(), "here")


def cuts(latin, most):
    """Where texts end: at most so many tokens are read for all of them together."""
    tokens = tokens_of(latin)
    count = min(len(tokens), max(1, 2 * most // max(1, len(tokens))))
    for number in range(1, count + 1):
        _, start, end = tokens[len(tokens) * number // count - 1]
        yield (end, (start + end + 1) // 2, min(end + 1, len(latin)))[number % 3]


def wrong_answers(part):
    """What is wrong with the answers on a text; nothing where all is right."""
    text = Text(part)
    names, at = Outline(text.before_certificates()), len(text.latin)
    data = answers.tokens(text, names)
    each = [answers.symbols(text, names, {}), answers.folds(text, names), answers.completions(names, at),
            answers.hover(text, names, {}, at), actions.offered(text, False),
            [answers.name_range(text, it) for it in answers.places_alike(names, at)],
            [answers.name_range(text, it) for it in names.names[-50:]]]
    lines = [line for line in each[1] if line["endLine"] >= len(text.lines())]
    whole = len(data) % 5 or any(it < 0 for it in data)
    return outside(each, part) or (lines and "a fold is not within the document") or (
        whole and "the tokens are no tokens") or None


def wrong_verdict(part):
    """What is wrong with what is found of a text."""
    found = []
    Judge(Text(part), found.append).judge()
    if not found or not found[-1].get("last"):
        return "no last word came"
    status, place = place_by_why(Text(part).latin)
    diagnostics = found[-1]["diagnostics"]
    if status and not diagnostics:
        return "`unity` answers %d, and nothing was found" % status
    return outside(found, part) or (wrong_place(diagnostics, place, part) if status else None)


def typed(document, most, judged):
    """What is wrong with a document as it is typed, with the text at which it is."""
    text = re.split(r"(?m)^certificates\b", document.text().decode("utf-8"))[0]
    latin, found, taken = Text(text).latin, None, []
    for at in cuts(latin, most):
        part = latin[:at].encode("latin-1").decode("utf-8", "ignore")
        taken.append(part)
        found = found or attempt(wrong_answers, part)
    for number in range(judged if taken else 0):
        found = found or attempt(wrong_verdict, taken[len(taken) * (number + 1) // (judged + 1)])
    return found


def attempt(question, part):
    try:
        found = question(part)
    except Exception as fault:  # pylint: disable=broad-except
        found = "it fails: %r" % fault
    return found and faults(found, "the text ends with %r" % part[-60:])


def several(paths, most, judged):
    """What is wrong with documents as they are typed, in a process of its own: what is said there goes to a text."""
    came = ask(["python3", "-B", "-c", "import sys; sys.path.insert(0, 'scripts')\n"
                "from unity_tool.trials import prefixes\nprefixes.run()", most, judged, *paths])
    lines = came.text.decode().splitlines()
    found = [json.loads(line) for line in lines]
    yield from (("the answers while %s is typed" % path, fault) for path, fault in found)
    yield "all answers while one types", None if len(found) == len(paths) else came.notes.decode()


def run():
    """In a process of its own: tries documents, and prints a line for each."""
    most, judged = map(int, sys.argv[1:3])
    for path in sys.argv[3:]:
        folder, _, name = path.rpartition("/")
        print(json.dumps([path, typed(Document(folder, name[:-len(".unity")]), most, judged)]), flush=True)


def in_parts(paths, size):
    return [paths[at:at + size] for at in range(0, len(paths), size)]


def paths():
    return [document.path for folder in FOLDERS for document in documents(folder)]


def cases():
    for some in in_parts(paths(), TOGETHER):
        yield Case("the server's answers while %s is typed, and those after it" % some[0],
                   lambda room, it=some: several(it, USUAL, JUDGED), 4)


def all_cases():
    """Many more texts of each document: an hour of processor, so these are run where they are asked for alone."""
    for path in paths():
        yield Case("the server's answers while %s is typed, token by token" % path,
                   lambda room, it=path: several([it], MANY, MANY_JUDGED), 20)
