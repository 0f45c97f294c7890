"""The language server: a scripted session over all examples, with mistakes, on prefixes as they are typed, and on what
is no document."""
import os
import re

from unity_tool.trials.asking import unity
from unity_tool.trials.cases import Case
from unity_tool.trials.documents import documents
from unity_tool.trials.editor import Editor
from unity_tool.trials.prefixes import FOLDERS
from unity_tool.trials.within import outside, place_by_why, wrong_place

# so many prefixes of each document are typed
PREFIXES = 12
HALF_TYPED = ["", "unity", "unity 1\nprogram", "unity 1\nproof P\n  a(i : 0..", "\x00\x01\udc80", "é 😀 # ü\n" * 3,
              "unity 1\nprogram P assign s: x := 9" + "9" * 5000 + " end", "(" * 3000, "certificates", "# only"]


def uri_of(document):
    return "file:///" + document.path


def judged(document, editor):
    """What is wrong with what is found of a document."""
    text, uri = document.text().decode("utf-8"), uri_of(document)
    editor.open(uri, text)
    found = editor.wait(uri)
    status, place = place_by_why(document.path)
    if outside(found, text):
        return outside(found, text)
    if status == 0:
        wrong = [it["message"] for it in found if it["severity"] < 2]
        return "it is accepted, and this came: %s" % wrong[0] if wrong else None
    if not found or wrong_place(found, place, text):
        return wrong_place(found, place, text) if found else "`unity` answers %d, and nothing was found" % status
    marks = editor.of("codeLens", uri)
    return outside(marks, text)


def session(folder):
    """Opens the documents of a folder, one after the other, in one session."""
    with Editor() as editor:
        for document in documents(folder):
            yield "the server on %s" % document.path, judged(document, editor)
            editor.close(uri_of(document))


def questions(editor, uri, text):
    """Asks what can be asked of a text; what is wrong with the answers, or nothing."""
    lines = text.split("\n")
    at = {"line": max(0, len(lines) - 2), "character": 3}
    asked = [("documentSymbol", {}), ("foldingRange", {}), ("semanticTokens/full", {}), ("codeLens", {}),
             ("hover", {"position": at}), ("definition", {"position": at}), ("completion", {"position": at}),
             ("references", {"position": at}), ("documentHighlight", {"position": at}),
             ("codeAction", {"range": {"start": at, "end": at}, "context": {}})]
    for what, more in asked:
        answer = editor.of(what, uri, **more)
        if isinstance(answer, dict) and "code" in answer:
            return "%s: %s" % (what, answer["message"])
        if outside(answer, text):
            return "%s: %s" % (what, outside(answer, text))
    return None


def typed(room):
    """Each document as it is being typed: what is asked of its prefixes is answered."""
    del room
    with Editor() as editor:
        for document in (it for folder in FOLDERS for it in documents(folder)):
            text = re.split(r"(?m)^certificates\b", document.text().decode("utf-8"))[0]
            uri, found = uri_of(document), None
            editor.open(uri, "")
            for number in range(1, PREFIXES + 1):
                part = text[:len(text) * number // PREFIXES]
                editor.change(uri, part)
                found = found or questions(editor, uri, part)
            editor.close(uri)
            yield "the server while %s is typed" % document.path, found


def no_document(room):
    """What is no document, or no message: the server answers and lives."""
    del room
    with Editor() as editor:
        for number, text in enumerate(HALF_TYPED):
            uri = "file:///half%d" % number
            editor.open(uri, text)
            found = editor.wait(uri)
            yield "the server on half a text, number %d" % number, \
                outside(found, text.encode("utf-8", "replace").decode()) or (None if found else "nothing was found")
        for data in (b"Content-Length: x\r\n\r\n", b"Content-Length: 3\r\n\r\n{]}", b"Content-Length: 2\r\n\r\n[]"):
            editor.write(data)
        for method, params in (("textDocument/hover", {}), ("textDocument/hover", {"textDocument": 3}),
                               ("nothing", {}), ("textDocument/rename", {"textDocument": {"uri": "file:///none"}})):
            answer = editor.ask(method, params)
            yield "the server on a wrong %s" % method, None if "code" in (answer or {}) else "it has no error"
        big = "unity 1\nprogram P assign s: x := 1 end\ncertificates\n" + "1: sum 1 * 1 ;\n" * 560000 + "end\n"
        editor.open("file:///big", big)
        found = editor.wait("file:///big")
        yield "the server on 8 MB", None if found and found[0]["code"] == "3" else "it found %s" % found
        yield "the server after all that", None if editor.ask("shutdown", {}) is None else "it does not shut down"


def without_programs(room):
    """Where neither the built program nor node answers, that is said, and the server lives."""
    with Editor(PATH=room, UNITY_PAGE="1") as editor:
        editor.open("file:///a", "unity 1\n")
        while "file:///a" not in editor.diagnostics:
            editor.next()
        said = editor.diagnostics["file:///a"][0]["message"]
        yield "the server without a program", None if "not built" in said else said


def names(room):
    """Definition, references and rename of a name, over what binds it again."""
    del room
    text = "unity 1\nprogram P # é 😀\ndeclare x : 0..3\nassign s: x := 1 if (any x : 0..1 :: x = 0) or x = 2\nend\n" \
        "proof P\n  safe: defined by text;\n  low: invariant x <= 2 by text;\n  more: invariant x <= 3 by text " \
        "using low;\nend\n"
    with Editor() as editor:
        editor.open("file:///n", text)
        at = {"line": 2, "character": 8}
        starts = [it["range"]["start"] for it in editor.of("references", "file:///n", position=at)]
        places = [(it["line"], it["character"]) for it in starts]
        wanted = [(2, 8), (3, 10), (3, 47), (7, 17), (8, 18)]
        yield "references of a variable", None if places == wanted else str(places)
        found = editor.of("definition", "file:///n", position={"line": 8, "character": 39})
        yield "the definition of a step", None if found and found["range"]["start"] == {
            "line": 7, "character": 2} else str(found)
        edits = editor.of("rename", "file:///n", position={"line": 7, "character": 3}, newName="least")
        yield "a step renamed", None if len(edits["changes"]["file:///n"]) == 2 else str(edits)
        for word in ("proof", "9", "x", "more"):
            answer = editor.of("rename", "file:///n", position=at, newName=word)
            yield "a variable renamed to %s" % word, None if "code" in answer else str(answer)


SPARE = """unity 1
program P
declare
  x : 0..3
initially
  x = 0
assign
  s: x := 1 if x = 0
end
proof P
  safe: defined by text;
  low: invariant x <= 2 by text;
  more: invariant x <= 3 by text using low;
end
"""


def changed(text, edit):
    """A text of ASCII after an edit of the server."""
    starts = [0]
    for line in text.split("\n"):
        starts.append(starts[-1] + len(line) + 1)
    at = [starts[edit["range"][end]["line"]] + edit["range"][end]["character"] for end in ("start", "end")]
    return text[:at[0]] + edit["newText"] + text[at[1]:]


def acted(editor, uri, text, action, line=0):
    """The text that an action makes, and what it says."""
    editor.open(uri, text)
    editor.wait(uri)
    before = len(editor.told)
    answer = editor.ask("workspace/executeCommand", {
        "command": "unity." + action, "arguments": [uri, {"line": line, "character": 3}]})
    edits = [it["params"]["edit"]["changes"][uri] for it in editor.told[before:]
             if it["method"] == "workspace/applyEdit"]
    return changed(text, edits[0][0]) if edits else None, (answer or {}).get("says") or str(answer)


def actions(room):
    """Each action on certificates and on `using` once; the chapter on editors and the extension show a run."""
    del room
    with Editor() as editor:
        proved, says = acted(editor, "file:///prove", SPARE, "prove")
        yield "the action that proves", None if proved and unity("check", proved.encode()).status == 0 else says
        foreign = SPARE.replace("x <= 2", "x <= 1") + "certificates\n1: sum 1 * 1 ;\n9: sum 1 * 1 ;\nend\n"
        made, says = acted(editor, "file:///repair", foreign, "repair")
        yield "the action that repairs", None if made and unity("check", made.encode()).status == 0 else says
        made, says = acted(editor, "file:///drop", proved or "", "drop")
        yield "the action that drops", None if made and made.strip() == SPARE.strip() else says
        made, says = acted(editor, "file:///using", SPARE, "using")
        yield "the action on `using`", None if made == SPARE.replace(" using low", "") else says


def killed(room):
    """Where node is killed, that is said, and the server lives."""
    node = os.path.join(room, "node")
    with open(node, "w", encoding="utf-8") as file:
        file.write("#!/bin/sh\nkill -9 $$\n")
    os.chmod(node, 0o755)
    with Editor(PATH=room + os.pathsep + os.environ["PATH"], UNITY_PAGE="1") as editor:
        editor.open("file:///k", SPARE)
        found = editor.wait("file:///k")
        said = found[0]["message"] if found else "nothing was found"
        yield "the server where node is killed", None if "gave no answer" in said else said
        yield "the server after that", None if editor.ask("shutdown", {}) is None else "it does not shut down"


def sessions_cases():
    """Each document in an editor, whole and as it is typed: long, so these are run where they are asked for alone."""
    for folder, seconds in (("examples", 200), ("examples/causes", 60)):
        yield Case("the language server over %s" % folder, lambda room, it=folder: session(it), seconds)
    yield Case("the language server while one types", typed, 30)


def cases():
    yield Case("the language server on no documents", no_document, 30)
    yield Case("the language server without programs", without_programs, 2)
    yield Case("the language server's actions", actions, 10)
    yield Case("the language server where node is killed", killed, 2)
    yield Case("the language server on names", names, 2)
    yield Case("the language server over examples/mistakes", lambda room: session("examples/mistakes"), 30)
