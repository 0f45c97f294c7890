"""`unity-tool all` over several machines, and with a log: two logins of this machine stand for two machines, which are
reached by a script in the place of ssh, and : is this machine."""
import os
import shutil

from unity_tool.repository import TOP, UNITY
from unity_tool.trials.asking import script
from unity_tool.trials.cases import Case, faults, other_status, unlike

# what parallel and rsync call in the place of ssh: [-OPTION..] LOGIN [--] COMMAND..
LOGIN = '''#!/bin/sh
while case $1 in -l) shift 2;; -*) shift;; *) false;; esac; do :; done
HOME=%s/$1; export HOME; mkdir -p "$HOME"; cd "$HOME" || exit 255
echo "$1" >> ../used
shift
test "$1" != -- || shift
exec sh -c "$*"
'''
# where each document stands, and the example that it is
DOCUMENTS = {"a b/it's {} $x #1.unity": "count", "a b/pick.unity": "pick", "-dash.unity": "and_or_mixed",
             "count.unity": "count"}
LINES = [b"0 %s/a b/it's {} $x #1.unity: accepted 2 steps 3 obligations",
         b"0 %s/count.unity: accepted 2 steps 3 obligations",
         b"1 %s/a b/pick.unity: rejected 50 CertMissing Pick.safe obligation 1",
         b"2 %s/-dash.unity: bad 3 Unexpected byte 61", b"2 of 4 accepted"]


def written(path, text):
    with open(path, "w", encoding="utf-8") as file:
        file.write(text)
    return path


def made(room):
    """A folder with documents, and a file with two logins."""
    for name, example in DOCUMENTS.items():
        path = os.path.join(room, "given", name)
        os.makedirs(os.path.dirname(path), exist_ok=True)
        shutil.copy(os.path.join(TOP, "examples", example + ".unity"), path)
    login = written(os.path.join(room, "login"), LOGIN % room)
    os.chmod(login, 0o755)
    hosts = "".join("1/%s %s\n" % (login, name) for name in ("one", "other"))
    return os.path.join(room, "given"), written(os.path.join(room, "hosts"), hosts)


def lines_of(came):
    return b"\n".join(sorted(came.text.splitlines()))


def logged(room):
    """With a log nothing is asked twice, unless it is another text, and a line that was cut off is asked again."""
    folder, _ = made(room)
    wanted = b"\n".join(line.replace(b"%s", folder.encode()) for line in LINES)
    log = os.path.join(room, "log")
    yield "all --log", unlike(wanted, lines_of(script("check_all.sh", folder, "--log", log)))
    with open(log, "rb") as file:
        whole = file.read()
    yield "all --log, once more", faults(
        unlike(wanted, lines_of(script("check_all.sh", folder, "--log", log))), unlike(whole, open(log, "rb").read()))
    with open(log, "wb") as file:
        file.write(whole[:-5])
    yield "all --log, cut off", unlike(wanted, lines_of(script("check_all.sh", folder, "--log", log)))
    shutil.copy(os.path.join(folder, "count.unity"), os.path.join(folder, "-dash.unity"))
    came = script("check_all.sh", folder, "--log", log)
    yield "all --log, of another text", unlike(b"3 of 4 accepted", came.text.splitlines()[-1])


def shared(room):
    """Two logins and this machine say what is said here, and leave nothing behind."""
    if not shutil.which("parallel") or not shutil.which("rsync"):
        return
    folder, hosts = made(room)
    wanted = b"\n".join(line.replace(b"%s", folder.encode()) for line in LINES)
    command = ["--command", UNITY + " check"]
    came = script("check_all.sh", folder, "--hosts", hosts, *command)
    left = [name for login in ("one", "other") for _, _, some in os.walk(os.path.join(room, login)) for name in some]
    yield "all --hosts, of two logins", faults(other_status(1, came), unlike(wanted, lines_of(came)),
                                               unlike([], left, "list"))
    here = written(os.path.join(room, "here"), ":\n")
    yield "all --hosts, of this machine", unlike(wanted, lines_of(script("check_all.sh", folder, "--hosts", here,
                                                                         *command)))
    gone = written(os.path.join(room, "gone"), "1/false nobody\n")
    came = script("check_all.sh", folder, "--hosts", gone, *command)
    yield "all --hosts, where none answers", unlike(b"255", came.text.split(b" ", 1)[0])
    came = script("check_all.sh", folder, "--hosts", here, "--command", "no-such-program")
    yield "all --hosts, without the program", unlike(b"127", came.text.split(b" ", 1)[0])


def cases():
    yield Case("documents of a folder, with a log", logged, 3)
    yield Case("documents of a folder, on several machines", shared, 20)
