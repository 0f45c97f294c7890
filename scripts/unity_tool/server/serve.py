"""The server: takes messages, answers what it knows at once, and has documents judged by workers."""
import os
import re
import select
import sys
import time

from unity_tool import paged
from unity_tool.program import BUILDING, way
from unity_tool.server import actions, answers
from unity_tool.server.judge import Judge
from unity_tool.server.opened import Opened
from unity_tool.server.texts import Text, edit_between
from unity_tool.server.wire import Wire
from unity_tool.server.workers import Worker

# seconds: nothing typed for so long, and the text is judged; and how long a worker may take
QUIET, LONGEST_WORK, TURN = 0.1, 300, 0.5
UNKNOWN_METHOD, WRONG_PARAMETERS, FAULT, CHANGED = -32601, -32602, -32603, -32801
ERROR, NOTE = 1, 3
INCREMENTAL = 2
CAPABILITIES = {
    "textDocumentSync": {"openClose": True, "change": INCREMENTAL}, "hoverProvider": True, "definitionProvider": True,
    "referencesProvider": True, "documentSymbolProvider": True, "foldingRangeProvider": True,
    "documentHighlightProvider": True, "completionProvider": {"triggerCharacters": ["."]},
    "renameProvider": {"prepareProvider": True}, "codeActionProvider": True, "inlayHintProvider": True,
    "codeLensProvider": {"resolveProvider": False},
    "semanticTokensProvider": {"legend": {"tokenTypes": answers.TYPES, "tokenModifiers": []}, "full": True},
    "executeCommandProvider": {"commands": list(actions.TITLES)}}


class Refused(Exception):
    """A request that is answered by an error."""

    def __init__(self, code, says):
        super().__init__(says)
        self.code = code


class Server:
    """An editor's documents, and the workers that judge them."""

    def __init__(self, source, target):
        self.wire, self.opened, self.dying = Wire(source, target), {}, []
        self.is_shut, self.is_ended, self.number = False, False, 0

    # the course of things

    def serve(self):
        """Serves until the editor ends it or goes away, and gives the status."""
        while self.wire.is_open and not self.is_ended:
            self.wait()
        for it in self.opened.values():
            self.end_workers(it)
        self.reap(True)
        return 0 if self.is_shut or self.is_ended else 1

    def wait(self):
        """Takes what comes next: from the editor, from a worker, or that nothing came for a moment."""
        workers = {it.source: (opened, it) for opened in self.opened.values() for it in opened.workers()}
        late = [it.due for it in self.opened.values() if it.due is not None]
        pause = max(0.0, min(late) - time.monotonic()) if late else TURN
        ready, _, _ = select.select([self.wire.source, *workers], [], [], min(pause, TURN))
        if self.wire.source in ready:
            self.wire.fill()
            for message in self.wire.messages():
                self.take(message)
            return
        for source in ready:
            self.found(*workers[source])
        for opened, worker in workers.values():
            if worker.is_late() and worker in opened.workers():
                self.give_up(opened, worker)
        for opened in self.opened.values():
            if opened.due is not None and opened.due <= time.monotonic():
                self.start_judging(opened)
        self.reap(False)

    def reap(self, is_last):
        while True:
            self.dying = [it for it in self.dying if not it.is_gone()]
            if not self.dying or not is_last:
                return
            time.sleep(0.02)

    def end_workers(self, opened):
        for it in opened.workers():
            it.end()
            self.dying.append(it)
        if opened.asked is not None:
            self.refuse(opened.asked, CHANGED, "the document was changed before the answer came")
        opened.judging = opened.acting = opened.asked = None

    # messages

    def take(self, message):
        """Carries a message out; whatever goes wrong in it, the server goes on."""
        method, number = message.get("method"), message.get("id")
        if not isinstance(method, str):
            return
        act = getattr(self, "on_" + re.sub(r"\W", "_", method), None)
        try:
            if act is None:
                raise Refused(UNKNOWN_METHOD, "there is no %s here" % method)
            answer = act(message.get("params") or {}, number)
            if number is not None and answer is not LATER:
                self.wire.send(id=number, result=answer)
        except Refused as refused:
            if number is not None and not method.startswith("$/"):
                self.refuse(number, refused.code, str(refused))
        except (KeyError, TypeError, AttributeError, IndexError, ValueError):
            self.fail(number, WRONG_PARAMETERS, "%s has other parameters than it wants" % method)
        except RecursionError:
            self.fail(number, FAULT, "%s goes too deep" % method)

    def fail(self, number, code, says):
        if number is not None:
            self.refuse(number, code, says)
        else:
            self.log(says)

    def refuse(self, number, code, says):
        self.wire.send(id=number, error={"code": code, "message": says})

    def log(self, says):
        self.wire.send(method="window/logMessage", params={"type": NOTE, "message": says})

    def show(self, kind, says):
        self.wire.send(method="window/showMessage", params={"type": kind, "message": says})

    # how a session begins and ends

    def on_initialize(self, _, number):
        del number
        return {"serverInfo": {"name": "unity"}, "capabilities": CAPABILITIES}

    def on_initialized(self, *_):
        if way() == "sources":
            self.show(ERROR, "%s; nor is node there, to ask the page's module" % BUILDING)
        elif way() == "page":
            paged.tell()

    def on_shutdown(self, *_):
        self.is_shut = True

    def on_exit(self, *_):
        self.is_ended = True

    def on___cancelRequest(self, *_):
        pass

    def on___setTrace(self, *_):
        pass

    # documents

    def on_textDocument_didOpen(self, params, _):
        document = params["textDocument"]
        if document["uri"] in self.opened:
            self.end_workers(self.opened[document["uri"]])
        self.opened[document["uri"]] = Opened(document["uri"], document.get("version"), Text(document["text"]))
        self.opened[document["uri"]].due = time.monotonic()

    def on_textDocument_didChange(self, params, _):
        opened = self.one(params)
        self.end_workers(opened)
        for change in params["contentChanges"]:
            opened.change(change, params["textDocument"].get("version"))
        opened.due = time.monotonic() + QUIET

    def on_textDocument_didSave(self, *_):
        pass

    def on_textDocument_didClose(self, params, _):
        opened = self.one(params)
        self.end_workers(opened)
        del self.opened[opened.uri]
        self.publish(opened, [])

    def one(self, params):
        uri = params["textDocument"]["uri"]
        if uri not in self.opened:
            raise Refused(WRONG_PARAMETERS, "%s is not open" % uri)
        return self.opened[uri]

    # judging

    def start_judging(self, opened):
        opened.due = None
        if way() == "sources":
            self.publish(opened, [opened.at_top(BUILDING)])
            return
        text = opened.text
        opened.is_judged = False
        opened.judging = Worker(lambda emit: Judge(text, emit).judge(), LONGEST_WORK)

    def found(self, opened, worker):
        """Takes what a worker sends; its end too."""
        if worker not in opened.workers():
            return
        for one in worker.fill():
            if "diagnostics" in one:
                opened.is_judged = opened.is_judged or bool(one["diagnostics"]) or one["last"]
                opened.diagnostics = one["diagnostics"]
                self.publish(opened, one["diagnostics"])
                if one["last"]:
                    self.wire.send(method="$/unity/judged", params={"uri": opened.uri, "version": opened.version})
            elif "steps" in one:
                opened.steps = {it["named"]: it for it in one["steps"]}
            else:
                self.acted(opened, one)
        if worker.is_over:
            self.over(opened, worker)

    def over(self, opened, worker):
        worker.end()
        self.dying.append(worker)
        if worker is opened.judging:
            opened.judging = None
            if not opened.is_judged:
                self.publish(opened, [opened.at_top("the search was stopped before it had an answer")])
        else:
            opened.acting = None
            if opened.asked is not None:
                self.refuse(opened.asked, FAULT, "it was stopped before it had an answer")
                opened.asked = None

    def give_up(self, opened, worker):
        if worker is opened.judging:
            self.publish(opened, opened.diagnostics + [opened.at_top("no more was found in %d s" % LONGEST_WORK)])
            opened.is_judged = True
        self.over(opened, worker)

    def publish(self, opened, diagnostics):
        params = {"uri": opened.uri, "diagnostics": diagnostics}
        if opened.version is not None:
            params["version"] = opened.version
        self.wire.send(method="textDocument/publishDiagnostics", params=params)

    # questions that are answered at once

    def here(self, params):
        opened = self.one(params)
        return opened, opened.text.at(params["position"])

    def on_textDocument_hover(self, params, _):
        opened, at = self.here(params)
        lines = answers.hover(opened.text, opened.names(), opened.steps, at)
        return {"contents": {"kind": "markdown", "value": "\n".join(lines)}} if lines else None

    def on_textDocument_definition(self, params, _):
        opened, at = self.here(params)
        found = answers.definition(opened.text, opened.names(), at)
        return {"uri": opened.uri, "range": answers.name_range(opened.text, found)} if found else None

    def on_textDocument_references(self, params, _):
        opened, at = self.here(params)
        declares = (params.get("context") or {}).get("includeDeclaration", True)
        return [{"uri": opened.uri, "range": answers.name_range(opened.text, it)}
                for it in answers.places_alike(opened.names(), at, declares)]

    def on_textDocument_documentHighlight(self, params, _):
        opened, at = self.here(params)
        return [{"range": answers.name_range(opened.text, it)} for it in answers.places_alike(opened.names(), at)]

    def on_textDocument_prepareRename(self, params, _):
        opened, at = self.here(params)
        found = opened.names().name_at(at)
        return answers.name_range(opened.text, found) if found else None

    def on_textDocument_rename(self, params, _):
        opened, at = self.here(params)
        places, word = answers.places_alike(opened.names(), at), params["newName"]
        if not places:
            raise Refused(WRONG_PARAMETERS, "no name stands here")
        if not answers.is_new_name(word):
            raise Refused(WRONG_PARAMETERS, "%s is no name" % word)
        taken = [it for it in opened.names().names if it.word == word]
        if taken:
            line = opened.text.place(taken[0].start)["line"] + 1
            raise Refused(WRONG_PARAMETERS, "%s is a name already, at line %d" % (word, line))
        edits = [{"range": answers.name_range(opened.text, it), "newText": word} for it in places]
        return {"changes": {opened.uri: edits}}

    def on_textDocument_documentSymbol(self, params, _):
        opened = self.one(params)
        return answers.symbols(opened.text, opened.names(), opened.steps)

    def on_textDocument_completion(self, params, _):
        opened, at = self.here(params)
        return answers.completions(opened.names(), at)

    def on_textDocument_foldingRange(self, params, _):
        opened = self.one(params)
        return answers.folds(opened.text, opened.names())

    def on_textDocument_semanticTokens_full(self, params, _):
        opened = self.one(params)
        return {"data": answers.tokens(opened.text, opened.names())}

    def on_textDocument_codeLens(self, params, _):
        """How each step stands, above it."""
        return [{"range": where, "command": {"title": says, "command": ""}} for where, says in self.one(params).marks()]

    def on_textDocument_inlayHint(self, params, _):
        """How each step stands, after it."""
        return [{"position": where["end"], "label": " " + says, "paddingLeft": True}
                for where, says in self.one(params).marks()]

    # actions

    def on_textDocument_codeAction(self, params, _):
        opened = self.one(params)
        at = opened.text.at(params["range"]["start"])
        chosen = opened.chosen(at)
        return [{"title": actions.TITLES[it], "command": it, "arguments": [opened.uri, params["range"]["start"]]}
                for it in actions.offered(opened.text, "answer" in chosen)]

    def on_workspace_executeCommand(self, params, number):
        name, words = params["command"], params.get("arguments") or []
        if name not in actions.ACTIONS or not words:
            raise Refused(WRONG_PARAMETERS, "there is no such action")
        opened = self.one({"textDocument": {"uri": words[0]}})
        if way() == "sources":
            raise Refused(FAULT, BUILDING)
        chosen = opened.chosen(opened.text.at(words[1])) if len(words) > 1 else {}
        latin = opened.text.latin
        if opened.acting and opened.asked is not None:
            raise Refused(FAULT, "another action is under way")
        if opened.acting:
            self.over(opened, opened.acting)
        opened.asked = number

        def act(emit):
            made, says = actions.carry_out(name, latin, chosen)
            emit({"made": made, "says": says, "label": actions.TITLES[name]})

        opened.acting = Worker(act, LONGEST_WORK)
        return LATER

    def acted(self, opened, outcome):
        """An action is done: its text goes to the editor as one edit, and its word too."""
        if outcome["made"] is None or outcome["made"] == opened.text.latin:
            self.show(NOTE, outcome["says"])
        else:
            self.number += 1
            edit = edit_between(opened.text, outcome["made"])
            self.wire.send(id="edit%d" % self.number, method="workspace/applyEdit", params={
                "label": outcome["label"], "edit": {"changes": {opened.uri: [edit]}}})
            self.log(outcome["says"])
        if opened.asked is not None:
            self.wire.send(id=opened.asked, result={"says": outcome["says"]})
            opened.asked = None


LATER = object()


def serve():
    """Serves on standard input and output. What else writes to standard output is turned to standard error."""
    target = os.dup(1)
    os.dup2(2, 1)
    sys.stdout = sys.stderr
    return Server(0, target).serve()
