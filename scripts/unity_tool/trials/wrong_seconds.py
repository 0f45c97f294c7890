"""SPIN and its compiler missing, killed, out of time or out of memory, and documents that are none: `spin` and `why`
say so in words, with the status that they have for it, and never end in a trace of Python."""
import os
import shutil

from unity_tool.promela import running
from unity_tool.trials.asking import ask, script
from unity_tool.trials.cases import Case, faults, other_status

RACE, COUNT = "examples/race.unity", "examples/count.unity"
KILLED, SLEEPS, REFUSES = "kill -9 $$", "exec sleep 600", "echo 'syntax error'; exit 1"
# a compiler whose program prints what no search prints, and one whose program is killed
PRINTS = "printf '#!/bin/sh\\necho nonsense\\n' > pan; chmod +x pan"
ENDS = "printf '#!/bin/sh\\nkill -9 $$\\n' > pan; chmod +x pan"
UNDECIDED, IS_MISSING = 4, 1


def with_program(room, name, does):
    """The environment with a program of this name, which does this, before all others. SPIN has the compiler read its
    model first, and that goes to the true one."""
    os.makedirs(os.path.join(room, name), exist_ok=True)
    path = os.path.join(room, name, name)
    passes = 'case " $* " in *" -E "*) exec %s "$@";; esac\n' % shutil.which(name) if name == "gcc" else ""
    with open(path, "w", encoding="utf-8") as file:
        file.write("#!/bin/sh\n%s%s\n" % (passes, does))
    os.chmod(path, 0o755)
    return {**os.environ, "UNITY_SPIN": "1", "PATH": os.path.join(room, name) + os.pathsep + os.environ["PATH"]}


def without(room, name):
    """The environment with all programs but this one."""
    folder = os.path.join(room, "all")
    os.makedirs(folder, exist_ok=True)
    for each in reversed(os.environ["PATH"].split(os.pathsep)):
        for program in os.listdir(each) if os.path.isdir(each) else []:
            link = os.path.join(folder, program)
            if program != name and not os.path.lexists(link):
                os.symlink(os.path.join(each, program), link)
    return {**os.environ, "UNITY_SPIN": "1", "PATH": folder}


def spin(*words, **more):
    return ask(["python3", "-B", "scripts/unity-tool", "spin", *words], **more)


def wrong(came, status, *says):
    """What is wrong with what came: it has this status and says this, and there is no trace of Python."""
    said = (came.text + came.notes).decode("utf-8", "replace")
    trace = "Traceback" in said and "a trace of Python came:\n" + said[-2000:]
    lacks = ["%r is not said in:\n%s" % (it, said[-2000:]) for it in says if it not in said]
    return faults(other_status(status, came), trace, *lacks)


def missing(room):
    """Without SPIN, or without the compiler: `spin` says what it wants, and `why` says what it says without them."""
    for name in ("spin", "gcc"):
        env = without(os.path.join(room, name), name)
        yield "`spin` without %s" % name, wrong(spin(COUNT, env=env), IS_MISSING, "SPIN is not there", "apt-get")
        yield "`why` without %s" % name, wrong(script("why.sh", RACE, env=env), 3, "no other invariant")


def broken(room):
    """SPIN or the compiler that is killed, refuses the model, or makes a program that searches nothing."""
    for name, does, says in (("spin", KILLED, "stopped by signal 9"), ("spin", REFUSES, "does not take the model"),
                             ("gcc", KILLED, "stopped by signal 9"), ("gcc", REFUSES, "syntax error"),
                             ("gcc", PRINTS, "SPIN was stopped"), ("gcc", ENDS, "SPIN was stopped")):
        env = with_program(os.path.join(room, name), name, does)
        yield "`spin` where %s: %s" % (name, does), wrong(spin(COUNT, env=env), UNDECIDED, "not decided", says)
    env = with_program(os.path.join(room, "why"), "spin", KILLED)
    yield "`why` where SPIN is killed", wrong(
        script("why.sh", RACE, env=env), 3, "SPIN did not decide", "stopped by signal 9")


def out_of_limits(room):
    """A search that takes too long or too much is ended, and that is said."""
    for name in ("spin", "gcc"):
        env = with_program(room, name, SLEEPS)
        yield "`spin` where %s takes too long" % name, wrong(
            spin("--seconds", "2", COUNT, env=env), UNDECIDED, "the limit of 2 s")
    yield "`spin` without memory", wrong(
        spin("--memory", "10", "--seconds", "300", COUNT), UNDECIDED, "the limit of 10 MB was reached")
    yield "`spin` with no time", wrong(spin("--seconds", "0", COUNT), UNDECIDED, "the limit of 0 s was reached")


def no_document(room):
    """What is no document, has no such step, or is too large for a model."""
    for number, (text, status, says) in enumerate((
            ("", 2, "bad 3"), ("unity 1\nprogram P assign s: x := ", 2, "bad"), ("\0\xff", 2, "bad 1"),
            ("unity 1\n" + "(" * 5000, 2, "bad"), ("unity 1\n", 0, ""), (MANY, UNDECIDED, "300 instances"),
            (WIDE, UNDECIDED, "32 bits"))):
        path = os.path.join(room, "%d.unity" % number)
        with open(path, "w", encoding="latin-1") as file:
            file.write(text)
        yield "`spin` on %r" % text[:40], wrong(spin(path), status, says)
    yield "`spin` on a step that is none", wrong(spin(COUNT, "nothing"), 64, "nothing is no step")
    yield "`spin` on a folder", wrong(spin("examples"), 7)


MANY = """unity 1
program P
declare x : 0..1
assign <[] i : 1..300 :: s: x := 1 |>
end
proof P
  safe: defined by text;
end
"""
WIDE = """unity 1
program P
declare x : 0..1000000000
assign s: x := 1 if 5 * x > 7
end
proof P
  safe: defined by text;
end
"""


def cases():
    if running.is_there():
        yield Case("SPIN missing", missing, 4)
        yield Case("SPIN broken", broken, 6)
        yield Case("SPIN out of limits", out_of_limits, 12)
        yield Case("SPIN on no document", no_document, 4)
    else:
        yield Case("SPIN that is not there", lambda room: [("`spin` without SPIN", wrong(
            spin(COUNT), IS_MISSING, "SPIN is not there"))], 1)
