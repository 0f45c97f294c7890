"""`unity` by the module of the page for a browser, playground/unity.html, in node: an answer at once, where the program
is not built. UNITY_SOURCES=1 asks for the sources instead.
"""
import os
import re
import resource
import shutil
import subprocess
import sys
import threading

from unity_tool.repository import IS_INSTALLED, SCRIPTS, TOP, is_built

PAGE = os.path.join(TOP, "playground", "unity.html")
MODULE = os.path.join(SCRIPTS, "unity_tool", "module.mjs")
# the stack that the module gets, where the system grants it, in KB; a formula of 65,536 nodes runs in it
STACK, KEPT_FREE = 65536, 1024
telling, told = threading.Lock(), []


def is_there():
    """Whether the page's module can answer."""
    return not os.environ.get("UNITY_SOURCES") and os.path.isfile(PAGE) and shutil.which("node") is not None


def foot_of_page():
    """The commit and the sum of the sources that the page says it was made from."""
    with open(PAGE, encoding="utf-8") as page:
        text = page.read()
    found = [re.search(r'<span id="%s">([^<]*)</span>' % name, text) for name in ("commit", "sources")]
    return [it.group(1) if it else "" for it in found]


def present_sources():
    """The sum of the present sources."""
    done = subprocess.run([sys.executable, "-B", os.path.join(SCRIPTS, "playground", "sources.py")],
                          stdout=subprocess.PIPE, check=False)
    return done.stdout.decode().strip()


def is_present():
    """Whether the page is of the present sources; where it is installed it is."""
    return IS_INSTALLED or foot_of_page()[1] == present_sources()


def tell():
    """Says once on standard error what answers, and where the page is not of the present sources."""
    with telling:
        if told:
            return
        told.append(True)
    commit = foot_of_page()[0]
    stale = "" if is_present() else \
        ", which is not of the present sources (scripts/playground.sh makes it anew)"
    sys.stderr.write("%sthe module of playground/unity.html answers, made of commit %s%s\n" % (
        "" if is_built() else "the program is not built: ", commit, stale))
    sys.stderr.flush()


def command(words):
    """What runs the module, in as great a stack as it wants or the system grants."""
    _, most = resource.getrlimit(resource.RLIMIT_STACK)
    stack = STACK if most == resource.RLIM_INFINITY else min(STACK, most // 1024)
    return ["sh", "-c", 'ulimit -Ss "$0" && exec "$@"', str(stack), "node", "--liftoff-only",
            "--stack-size=%d" % (stack - KEPT_FREE), MODULE, PAGE] + [str(word) for word in words]


def run(words, **ways):
    """Runs the module, and gives its status and what it wrote."""
    tell()
    done = subprocess.run(command(words), check=False, **ways)
    return done.returncode if done.returncode >= 0 else 128 - done.returncode, done.stdout
