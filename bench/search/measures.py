"""What one search took: time, units, instructions, and what other provers take for the same obligations."""
import os
import re
import shutil
import subprocess
import time

PEERS = {"z3": ["z3"], "cvc5": ["cvc5", "--incremental"]}
WORD = re.compile(r"case|split|quot|sum|round|share|\*")
COLLECTED = re.compile(r"Collected : (\d+)")


def least(words, source, answer, runs=3):
    """The least processor time of so many runs, in thousandths of a second."""
    found = []
    for _ in range(runs):
        with open(source, "rb") as given, open(answer, "wb") as made:
            with subprocess.Popen(words, stdin=given, stdout=made, stderr=subprocess.DEVNULL) as ran:
                _, _, used = os.wait4(ran.pid, 0)
                ran.returncode = 0
        found.append(used.ru_utime + used.ru_stime)
    return 1000 * min(found)


def units(path):
    """Of the certificates in a document how many there are, the units of all, and the most of one."""
    counts, inside = [], False
    with open(path, encoding="utf-8") as lines:
        for line in lines:
            if inside and line.startswith("end"):
                break
            if inside:
                counts.append(len(WORD.findall(line)))
            inside = inside or line.startswith("certificates")
    return len(counts), sum(counts), max(counts, default=0)


def obligations(program, document, script):
    """Writes what is left to be shown of a document, as a script that the peers read."""
    with open(document, "rb") as given, open(script, "wb") as made:
        subprocess.run([program, "obligations"], stdin=given, stdout=made, check=True)


def peer_time(name, script, answer, runs=3):
    """What a peer takes for a script, in thousandths of a second, or None where it is not there."""
    words = PEERS[name]
    return least([*words, script], os.devnull, answer, runs) if shutil.which(words[0]) else None


def instructions(words, source):
    """How many instructions a run takes, as valgrind counts them, or None where it is not there."""
    if not shutil.which("valgrind"):
        return None
    with open(source, "rb") as given:
        ran = subprocess.run(["valgrind", "--tool=callgrind", "--callgrind-out-file=/dev/null", *words], stdin=given,
                             stdout=subprocess.DEVNULL, stderr=subprocess.PIPE, text=True, check=False)
    told = COLLECTED.search(ran.stderr)
    return int(told[1]) if told else None


def machine():
    """The day, the processor, how many of them there are, and the load."""
    with open("/proc/cpuinfo", encoding="utf-8") as lines:
        names = [line.partition(":")[2].strip() for line in lines if line.startswith("model name")]
    return "%s, %d of %s, load %.1f" % (time.strftime("%Y-%m-%d"), len(names), names[0], os.getloadavg()[0])
