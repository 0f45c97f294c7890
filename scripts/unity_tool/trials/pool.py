"""Tests side by side, the heavy ones first, and what they found."""
import concurrent.futures
import os
import sys
import tempfile
import time
import traceback


class Tally:
    """How many passed and failed, told as they come."""

    def __init__(self, cases, shows_progress):
        self.cases, self.ended, self.passed, self.failed = cases, 0, 0, 0
        self.shows_progress = shows_progress
        self.times = []

    def add(self, case, found, seconds):
        self.ended += 1
        self.times.append((seconds, case.name))
        for name, fault in found:
            if fault is None:
                self.passed += 1
                continue
            self.failed += 1
            self.clear()
            print("%s: failed\n%s" % (name, "\n".join("  " + line for line in fault.split("\n"))), flush=True)
        self.tell()

    def tell(self):
        if self.shows_progress:
            sys.stderr.write("\r%d of %d, %d failed " % (self.ended, self.cases, self.failed))
            sys.stderr.flush()

    def clear(self):
        if self.shows_progress:
            sys.stderr.write("\r\033[K")
            sys.stderr.flush()


def carry_out(case):
    """What a test found, and in how many seconds. An error of the test itself is a failure of it."""
    begun = time.monotonic()
    with tempfile.TemporaryDirectory(prefix="unity-test-") as room:
        try:
            found = list(case.attempt(room))
        except Exception:  # one test that can't be tried is not to end the others
            found = [(case.name, traceback.format_exc())]
    return found, time.monotonic() - begun


def run_all(cases, at_once=None):
    """Runs the tests, so many at once, and returns the tally."""
    tally = Tally(len(cases), sys.stderr.isatty())
    with concurrent.futures.ThreadPoolExecutor(at_once or os.cpu_count()) as pool:
        running = {pool.submit(carry_out, case): case for case in sorted(cases, key=lambda case: -case.seconds)}
        for done in concurrent.futures.as_completed(running):
            tally.add(running[done], *done.result())
    tally.clear()
    return tally
