"""What goes wrong around the language server: certificates of another text, documents of 8 MB, programs that are killed
or take for ever, actions on half a text. It says so in words, and lives."""
import os
import re
import signal
import time

from unity_tool.promela import running
from unity_tool.server.actions import TITLES
from unity_tool.trials.asking import read, unity
from unity_tool.trials.cases import Case
from unity_tool.trials.editor import Editor
from unity_tool.trials.within import outside, place_by_why, wrong_place
from unity_tool.trials.wrong_seconds import KILLED, with_program, without

URI, MOST_WAITED = "file:///fault", 60
HALF = ("", "unity 1\nprogram P\n", "unity 1\nproof P\n  a(i : 0..", "certificates\n1: sum", "\x00 é 😀")
SMALL = "unity 1\nprogram P declare x : 0..1 assign s: x := 1 end\n"


def says_of(editor):
    """What is said of each finding, once all is found."""
    return "\n".join(it["message"] for it in editor.wait(URI))


def lives(editor):
    """What is wrong with the server after all: nothing where it still judges a text, and ends when it is asked to."""
    editor.open(URI, SMALL)
    found = editor.wait(URI)
    return "it finds %s" % found if found else None if editor.ask("shutdown", {}) is None else "it does not shut down"


def foreign(room):
    """Certificates of another text: what is found stands where `why` has it, and an edit mends it."""
    text = read("examples", "peterson.unity").decode()
    other = text + "".join(unity("prove 1000000", read("examples", "count.unity")).text.decode().partition(
        "\ncertificates\n")[1:])
    path = os.path.join(room, "foreign.unity")
    with Editor() as editor:
        for name, made in (("of another text", other), ("cut off", other[:-6]), ("twice", other + other[-400:])):
            with open(path, "w", encoding="utf-8") as file:
                file.write(made)
            editor.open(URI, made)
            found, (_, place) = editor.wait(URI), place_by_why(path)
            yield "the server on certificates %s" % name, outside(found, made) or (
                wrong_place(found, place, made) if found and place else "%s is found, and by `why` %s" % (found, place))
        editor.change(URI, text)
        yield "the server once they are gone", says_of(editor) or None
        yield "the server after certificates of another text", lives(editor)


def large(room):
    """Texts of 8 MB in several forms: an answer comes, and so do those on a small text afterwards."""
    del room
    size = 8 << 20
    with Editor() as editor:
        for name, text in (("a comment", "unity 1\n#" + "x" * size), ("one line", "unity 1 " + "x " * (size // 2)),
                           ("brackets", "unity 1\n" + "(" * size), ("lines", "\n" * size),
                           ("a program", SMALL + "# y\n" * (size // 4) + "proof"), ("letters", "é😀" * (size // 6))):
            editor.open(URI, text)
            found = editor.wait(URI)
            asked = editor.of("hover", URI, position={"line": 1, "character": 1})
            yield "the server on 8 MB: %s" % name, outside(found, text) or (
                str(asked)[:300] if isinstance(asked, dict) and "code" in asked else None)
        yield "the server after 8 MB", lives(editor)


def is_gone(path):
    """Whether a process that wrote its number to a file is gone, or goes before long; nothing where it never came."""
    end = time.monotonic() + MOST_WAITED
    while time.monotonic() < end:
        number = open(path, encoding="utf-8").read().strip() if os.path.exists(path) else ""
        if number and not os.path.exists("/proc/%s" % number):
            return True
        time.sleep(0.05)
    return False


def wait_for(path):
    """Waits until a file has something in it."""
    end = time.monotonic() + MOST_WAITED
    while time.monotonic() < end and not (os.path.exists(path) and os.path.getsize(path)):
        time.sleep(0.05)
    return os.path.exists(path)


def endless(room):
    """A search that takes for ever is ended by the next edit, with all that it has started, and when the editor goes;
    where the server's copy at work is killed, that is said."""
    path = os.path.join(room, "number")
    slow = 'case "$1" in --version) echo v20.0.0;; *) echo $$ > %s; exec sleep 600;; esac' % path
    env = {**with_program(room, "node", slow), "UNITY_PAGE": "1"}
    with Editor(**env) as editor:
        editor.open(URI, SMALL)
        yield "a search that takes for ever", None if wait_for(path) else "it was not started"
        os.rename(path, path + "1")
        editor.change(URI, SMALL + "\n")
        yield "it is ended by the next edit", None if is_gone(path + "1") else "it goes on"
        yield "the next search", None if wait_for(path) else "it was not started"
        with open("/proc/%d/task/%d/children" % (editor.process.pid, editor.process.pid), encoding="utf-8") as file:
            for number in file.read().split():
                os.kill(int(number), signal.SIGKILL)
        while URI not in editor.diagnostics or not editor.diagnostics[URI]:
            editor.next()
        said = editor.diagnostics[URI][0]["message"]
        yield "a search that is killed", None if "stopped before it had an answer" in said else said
        os.rename(path, path + "2")
        editor.change(URI, SMALL)
        yield "a search after that", None if wait_for(path) else "it was not started"
        editor.process.stdin.close()
        editor.process.wait(MOST_WAITED)
        yield "the search once the editor is gone", None if is_gone(path) else "it goes on"


def act(editor, action, line=0):
    """What an action says."""
    answer = editor.ask("workspace/executeCommand", {
        "command": action, "arguments": [URI, {"line": line, "character": 2}]}) or {}
    return answer.get("says") or answer.get("message") or ""


def half_acted(room):
    """Each action on half a text says why it makes nothing."""
    del room
    with Editor() as editor:
        for number, text in enumerate(HALF):
            editor.open(URI, text)
            editor.wait(URI)
            said = {it: act(editor, it, 7) for it in TITLES}
            silent = ["%s says %r" % each for each in said.items() if not each[1] or "Traceback" in each[1]]
            yield "the actions on half a text, number %d" % number, "\n".join(silent) or None
        yield "the server after these actions", lives(editor)


def without_spin(room):
    """The action that asks SPIN, where SPIN is missing or killed."""
    race = read("examples", "race.unity").decode()
    line = race[:race.index("claims:")].count("\n")
    killed = with_program(os.path.join(room, "killed"), "spin", KILLED) if running.is_there() else {}
    for name, env, says in (("missing", without(os.path.join(room, "without"), "spin"), r"SPIN is not there"),
                            ("killed", killed, r"not decided.* stopped by signal 9")):
        with Editor(**env) as editor:
            editor.open(URI, race)
            editor.wait(URI)
            said = act(editor, "unity.spin", line) if env else says
            yield "the action where SPIN is %s" % name, None if re.search(says, said) or not env else said
            yield "the server where SPIN is %s" % name, lives(editor)


def cases():
    yield Case("the language server on certificates of another text", foreign, 3)
    yield Case("the language server on 8 MB", large, 30)
    yield Case("the language server and what takes for ever", endless, 5)
    yield Case("the language server's actions on half a text", half_acted, 10)
    yield Case("the language server without SPIN", without_spin, 5)
