"""Samples a process and all that descend from it, and writes what each one took."""
import json
import os
import signal
import subprocess
import sys
import time

from processes import TICKS, all_stats, command_of, folder_of, variable_of

# Seconds between two samples, and between two times that the file is written.
INTERVAL = 0.5
WRITES = 10


def lanes_of(pid):
    """How many lanes `rt ci` has there: RT_JOBS, or where that is not set the processors."""
    said = variable_of(pid, "RT_JOBS")
    return int(said) if said.isdigit() and int(said) else len(os.sched_getaffinity(0))


class Sampler:
    """What is known so far of a process and those that descend from it."""

    def __init__(self, root, file, command):
        self.root, self.file, self.alive = root, file, {}
        self.run = {"command": command, "lanes": lanes_of(root), "exact": None, "processes": {}}
        self.sampled = self.written = time.monotonic()

    def sample(self):
        """Takes one sample, and returns whether the root is still there."""
        stats, now = all_stats(), time.monotonic()
        seen = {it.key(): it for it in self.descendants(stats)}
        gone = [key for key in self.alive if key not in seen]
        self.make_up(seen, gone, now - self.sampled)
        for key, stat in seen.items():
            self.note(key, stat, stats)
        self.alive, self.sampled = seen, now
        if any(it.pid == self.root for it in seen.values()):
            self.run["exact"] = self.total()
        if now - self.written > WRITES:
            self.write()
        return any(it.pid == self.root for it in seen.values())

    def descendants(self, stats):
        """The root, those that descend from it, and those that did when they were first seen."""
        known, belongs = {key.partition(".")[0] for key in self.alive}, {}

        def is_ours(pid):
            if pid not in belongs:
                stat = stats.get(pid)
                belongs[pid] = False
                belongs[pid] = bool(stat) and (
                    pid == self.root or str(pid) in known and stat.key() in self.alive or is_ours(stat.parent))
            return belongs[pid]

        return [stat for pid, stat in stats.items() if is_ours(pid)]

    def note(self, key, stat, stats):
        """Keeps what this sample says of one process. One that was made just now has its parent's command still."""
        made = self.run["processes"].setdefault(key, {"first": time.time(), "megabytes": 0, "missed": 0, "unseen": 0})
        parent = stats.get(stat.parent)
        made.setdefault("parent", parent.key() if parent and parent.key() in self.run["processes"] else None)
        made.setdefault("age", round(self.age(stat), 2))
        made.update(seconds=stat.own, last=time.time(), megabytes=max(made["megabytes"], stat.megabytes))
        made["words"] = command_of(stat.pid) or made.get("words", [])
        made["folder"] = folder_of(stat.pid) or made.get("folder", "")

    @staticmethod
    def age(stat):
        """Seconds for which the process has been there."""
        return time.clock_gettime(time.CLOCK_BOOTTIME) - stat.started / TICKS

    def make_up(self, seen, gone, passed):
        """Gives to children that ended since the last sample what their parents waited for and no sample saw."""
        for key, stat in seen.items():
            was = self.alive.get(key)
            ended = [self.alive[it] for it in gone if self.alive[it].parent == stat.pid]
            if not was or stat.children == was.children:
                continue
            lacks = stat.children - was.children - sum(it.own + it.children for it in ended)
            for number, it in enumerate(ended):
                more = max(0, min(lacks / (len(ended) - number), passed * max(it.threads, 1)))
                self.run["processes"][it.key()]["missed"] += more
                lacks -= more
            # (children that lived between two samples; less than nothing where a child's own children were no child's)
            self.run["processes"][key]["unseen"] += max(0, lacks)

    def total(self):
        """Seconds of all at the last sample: each has its own, and those of its children that it has waited for."""
        return sum(it.own + it.children for it in self.alive.values())

    def write(self):
        """Writes the file anew, so that a reader never meets half of it."""
        self.written = time.monotonic()
        with open(self.file + ".new", "w", encoding="utf-8") as made:
            json.dump(self.run, made)
        os.replace(self.file + ".new", self.file)


def attach(pid, file):
    """Samples a process that runs already until it is gone; 1 where it never was there."""
    sampler = Sampler(pid, file, command_of(pid))
    signal.signal(signal.SIGTERM, lambda *_: sys.exit(128 + signal.SIGTERM))
    try:
        while sampler.sample():
            time.sleep(INTERVAL)
    finally:
        sampler.write()
    if not sampler.run["processes"]:
        print("there is no process %d" % pid, file=sys.stderr)
    return int(not sampler.run["processes"])


def sample(file, command):
    """Runs a command, samples it and what descends from it, and returns its status as a shell does."""
    with subprocess.Popen(command) as ran:
        sampler = Sampler(ran.pid, file, command)
        signal.signal(signal.SIGTERM, lambda *_: ran.terminate())
        try:
            ended = 0
            while not ended:
                sampler.sample()
                time.sleep(INTERVAL)
                # (it has a number of its own until it is waited for)
                ended, status, used = os.wait4(ran.pid, os.WNOHANG)
            sampler.run["exact"] = used.ru_utime + used.ru_stime
            ran.returncode = os.waitstatus_to_exitcode(status)
        finally:
            sampler.write()
    return ran.returncode if ran.returncode >= 0 else 128 - ran.returncode
