"""What /proc says of processes."""
import os

TICKS = os.sysconf("SC_CLK_TCK")
PAGE = os.sysconf("SC_PAGE_SIZE")
# Words of a command that take a word after them and say nothing of what it does.
SPARE = ("-L", "--extern", "--lib", "--links", "--link", "--antt-project", "--logic-built", "--toolchain", "--asan")


class Stat:
    """One reading of a process: whose child it is, seconds of its own and of the children that it has waited for."""

    def __init__(self, pid, text):
        fields = text[text.rindex(")") + 2:].split()
        self.pid, self.parent = pid, int(fields[1])
        self.own = (int(fields[11]) + int(fields[12])) / TICKS
        self.children = (int(fields[13]) + int(fields[14])) / TICKS
        self.threads = int(fields[17])
        self.started = int(fields[19])
        self.megabytes = int(fields[21]) * PAGE >> 20

    def key(self):
        """A name that no other process has, whatever its number: the number is given again."""
        return "%d.%d" % (self.pid, self.started)


def read_stat(pid):
    """The reading of one process, or None once it is gone."""
    try:
        with open("/proc/%d/stat" % pid, encoding="utf-8", errors="replace") as file:
            return Stat(pid, file.read())
    except (OSError, ValueError):
        return None


def all_stats():
    """A reading of each process, by number."""
    found = [read_stat(int(name)) for name in os.listdir("/proc") if name.isdigit()]
    return {it.pid: it for it in found if it}


def short(words):
    """The words of a command without those that only say where libraries lie."""
    kept, skips = [], False
    for word in words:
        if not skips and word not in SPARE:
            kept.append(word)
        skips = not skips and word in SPARE
    return kept


def command_of(pid):
    """The words of the process's command, shortened; none for one that has ended."""
    try:
        with open("/proc/%d/cmdline" % pid, encoding="utf-8", errors="replace") as file:
            text = file.read().rstrip("\0")
    except OSError:
        text = ""
    return short(text.split("\0")) if text else []


def folder_of(pid):
    """The folder that the process works in."""
    try:
        return os.readlink("/proc/%d/cwd" % pid)
    except OSError:
        return ""


def variable_of(pid, name):
    """A variable of the environment that the process began with; nothing where it is not set."""
    try:
        with open("/proc/%d/environ" % pid, encoding="utf-8", errors="replace") as file:
            said = dict(it.partition("=")[::2] for it in file.read().split("\0"))
    except OSError:
        said = {}
    return said.get(name, "")


def memory_left():
    """The memory that is free to take, in MB."""
    with open("/proc/meminfo", encoding="utf-8") as file:
        said = dict(line.split(":", 1) for line in file)
    return int(said["MemAvailable"].split()[0]) // 1024
