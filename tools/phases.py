"""Phases of a run: commands whose last line counts what passed, one after another or side by side, each with its
time."""
import os
import re
import subprocess
import time
from concurrent.futures import ThreadPoolExecutor

# A line that says how many passed.
COUNTS = re.compile(r"(\d+) passed, (\d+) failed\b")


def processors():
    return len(os.sched_getaffinity(0))


def count_of(text, status):
    """Both numbers of the last line that counts; at least one failed if the exit status is not 0."""
    found = COUNTS.findall(text)
    passed, failed = map(int, found[-1]) if found else (0, 1)
    return passed, max(failed, 1) if status else failed


class Phases:
    """Counts what passed, and says what is running. Each line has the seconds since the start."""

    def __init__(self, name):
        self.name, self.began = name, time.monotonic()
        self.passed = self.failed = 0

    def say(self, text):
        print(f"{self.name}: {time.monotonic() - self.began:5.0f} s  {text}", flush=True)

    def count(self, what, began, passed, failed):
        """Adds to what passed and failed, and says how long it took."""
        self.passed, self.failed = self.passed + passed, self.failed + failed
        self.say(f"{what}: {passed} passed, {failed} failed; {time.monotonic() - began:.0f} s")
        return not failed

    def run(self, what, words, shows=False, nice=0):
        """Runs a command. Its output is shown as it comes, or else only if something fails."""
        began, text = time.monotonic(), ""
        how = {"stdin": subprocess.DEVNULL, "stdout": subprocess.PIPE, "stderr": subprocess.STDOUT, "text": True, "errors": "replace"}
        started = subprocess.Popen(["nice", "-n", str(nice), *words], **how)
        for line in started.stdout:
            text += line
            if shows:
                print(line, end="", flush=True)
        passed, failed = count_of(text, started.wait())
        if failed and not shows:
            print(text, end="", flush=True)
        return self.count(what, began, passed, failed)

    def call(self, what, call):
        """Runs a call that returns how many passed and how many failed."""
        began = time.monotonic()
        return self.count(what, began, *call())

    def beside(self, *calls):
        """Runs calls side by side, and returns whether all passed."""
        with ThreadPoolExecutor(len(calls)) as pool:
            return all([done.result() for done in [pool.submit(call) for call in calls]])

    def end(self):
        """Says what passed in all, and returns the exit status."""
        self.say(f"in all, with {processors()} processors")
        print(f"{self.passed} passed, {self.failed} failed")
        return 1 if self.failed else 0
