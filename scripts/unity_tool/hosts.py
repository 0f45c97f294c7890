"""Documents judged on several machines, by GNU parallel."""
import os
import shlex
import shutil
import subprocess

from unity_tool.program import Answer
from unity_tool.wrong_use import Failure

# what a machine does with a document: it prints the status and the first line of the answer. To this machine, which is
# the login : of parallel, none is sent, so it goes to the folder
JUDGES = 'test "$PARALLEL_SSHLOGIN" != : || cd "$2"; answer=$(%s < "$1"); ' \
    'printf "%%s " "$?"; printf "%%s\\n" "$answer" | head -n 1'
NO_ANSWER = Answer(255, b"no machine answered\n")


def words_of(folder, hosts, jobs, command):
    """How `parallel` is called: each document goes to the machine that judges it, and goes away again."""
    judges = "sh -c %s sh {} %s" % (shlex.quote(JUDGES % command), shlex.quote(os.path.abspath(folder)))
    at_once = ["--jobs", str(jobs)] if jobs else []
    return ["parallel", "--null", "--sshloginfile", os.path.abspath(hosts), "--retries", "2", "--workdir", "...",
            "--transferfile", "{}", "--cleanup", "--tagstring", "{}", *at_once, judges]


def answers_of(folder, names, hosts, jobs, command):
    """The names below a folder with their answers, as they come from the machines that a file names; of a document that
    no machine answers, last, that this is so."""
    if not shutil.which("parallel"):
        raise Failure(64, "there is no GNU parallel, which --hosts needs")
    waiting = {os.path.join(".", os.path.relpath(name, folder)): name for name in names}
    given = b"".join(os.fsencode(name) + b"\0" for name in waiting)
    # (without SHELL it takes what called it, this Python, for its shell)
    with subprocess.Popen(words_of(folder, hosts, jobs, command), cwd=folder, stdin=subprocess.PIPE,
                          stdout=subprocess.PIPE, env={"SHELL": "/bin/sh", **os.environ}) as process:
        try:
            process.stdin.write(given)
            process.stdin.close()
        except BrokenPipeError:
            pass  # parallel has ended, and has said why
        for line in process.stdout:
            name, _, said = line.rpartition(b"\t")
            status, _, text = said.partition(b" ")
            if os.fsdecode(name) in waiting and status.isdigit():
                yield waiting.pop(os.fsdecode(name)), Answer(int(status), text)
    for name in waiting.values():
        yield name, NO_ANSWER
