"""One run of the program under limits: what it took of the processor and of memory, and how it ended."""
import os
import subprocess
import tempfile

# A shell that limits memory (KB), time of the processor (seconds) and stack (KB) of what it becomes. What is measured is
# a child of `time`, so that nothing of this script counts.
MEMORY = os.environ.get("HOSTILE_MEMORY", "4194304")
LIMITED = ('ulimit -Sv "$1"; ulimit -St "$2"; ulimit -Ss "$3"; shift 3; '
           'exec env time -q -f "%U %S %M" -o "$0" "$@"')


class Run:
    """What a run took: seconds of processor, bytes of memory at most, the status or the signal, and its first line."""

    def __init__(self, seconds, memory, status, first):
        self.seconds, self.memory, self.status, self.first = seconds, memory, status, first

    @property
    def is_cut(self):
        """Whether it took too long: the signal that tells of the limit of time."""
        return self.status in (128 + 24, 128 + 9)


def run(program, words, text, seconds=60, memory=MEMORY, stack="8192"):
    """Runs the program with these words on a text. Its answer is read to its end, and the first line kept."""
    with tempfile.TemporaryFile() as given, tempfile.TemporaryFile() as answer, tempfile.NamedTemporaryFile() as used:
        given.write(text.encode())
        given.seek(0)
        asked = ["sh", "-c", LIMITED, used.name, memory, str(seconds), stack, program, *words]
        status = subprocess.run(asked, stdin=given, stdout=answer, stderr=subprocess.DEVNULL, check=False).returncode
        answer.seek(0)
        first = answer.readline(200).decode(errors="replace").rstrip("\n")
        user, system, most = used.read().split()[-3:]
    return Run(float(user) + float(system), int(most) * 1024, status, first)
