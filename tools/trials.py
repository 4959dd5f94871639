"""Tries wrong bodies: the prover must refuse each.

A function is proved from the contracts of those that it calls, so one check judges a wrong body in each of many
functions. A function that only calls a refused one waits for the next check, and an edit that no shared check refuses
is tried alone. If a crate has many edits, those that its first check leaves are tried in parts, side by side, over what
that check kept."""
import itertools
import os
import re
import shutil
import tempfile
import threading
import time

from edits import apply, sources_of
from functions import proof_folder
from memo import REFUSED

# What this uses of the toolchain's command.
USED = {
    "checked": ["crate", "texts", "flags", "kept"],
    "must_fail": ["crate", "edit", "flags", "kept"],
    "need": ["crate"],
    "in_lanes": ["tasks"],
    "REFUSED": None,
    "AT_LIMIT": None,
}
# How many edits of a crate make one part of it.
PART = 20
# More than a crate has edits: crates with new edits are tried first.
FIRST = 10_000
BY_NAME = "only because a proof file names"


def is_refused(said, crate, function):
    """Whether a goal of the function itself, or of a closure in it, stays open, and not only of one that it calls."""
    module, name = function
    head = re.escape("::".join([crate, *module]))
    lines = re.findall(rf"(?m)^fn {head}::(?:fn::)?{re.escape(name)}(?:::[^:\n]*)?: (.*)$", said)
    return any(is_open(line, said, function) for line in lines)


def is_open(line, said, function):
    """Whether this line about a function reports a goal of its own."""
    # (a function whose own clause stays open may also call a refused one, which the rest of the line reports)
    if line.startswith("no proof: expected answers"):
        return "did not prove" in line
    if not line.startswith("not proved"):
        return False
    errors = re.findall(rf"(?m)^{re.escape('./' + proof_folder(function))}/\S+ error: (.*)", said)
    return any(not re.search(r"is not in scope|has no `|has no field|was not admitted", error) for error in errors)


class Course:
    """What the trials of a run share: the command, what is known, and whether one has failed, which ends the others."""

    def __init__(self, rt, selection, memo, ends_at_failure):
        self.rt, self.selection, self.memo = rt, selection, memo
        self.ends_at_failure, self.failed = ends_at_failure, threading.Event()

    def is_over(self):
        return self.ends_at_failure and self.failed.is_set()


class Trial:
    """Edits of a crate, and the checks that judge them."""

    def __init__(self, course, crate, edits, start=None):
        self.course, self.rt, self.crate, self.start = course, course.rt, crate, start
        self.sources = sources_of(crate.name, course.selection.texts)
        # (new edits come first)
        self.edits = sorted(edits, key=lambda edit: edit.file not in course.selection.changed)
        self.parts = -(-len(self.edits) // PART) or 1
        self.checks, self.refused, self.faults, self.left, self.ended = itertools.count(1), [], [], [], []

    def say(self, edit, text):
        print(f"{self.crate.name}/{edit.name}: {text}", flush=True)

    def fail(self, edit, text):
        self.faults.append(edit)
        self.course.failed.set()
        self.say(edit, text)

    def note(self, edit, text):
        """Notes that this edit is refused."""
        self.refused.append(edit)
        self.course.memo.keep(REFUSED, self.course.selection.sums[edit.file])
        self.say(edit, text)

    def check(self, texts, functions, kept):
        """Returns the number of a check of these functions, in a copy of the crate with these texts, and what it
        says."""
        number = next(self.checks)
        flags = ["--jobs", "1"]
        for module, name in sorted(functions):
            flags += ["--only", "::".join([*module, name])]
        ran = self.rt.checked(self.crate, texts, flags, kept)
        if ran.returncode not in (0, 1):
            last = ran.stdout.strip().rpartition("\n")[2]
            print(f"{self.crate.name}: check {number} judged nothing: {last[:200]}", flush=True)
        return number, ran.stdout

    def choose(self, left):
        """Returns as many edits as are in separate functions, with their texts and these functions."""
        texts, taken, chosen = {}, set(), []
        for edit in left:
            made = apply([edit], self.sources, texts) if edit.functions and not edit.functions & taken else None
            if made:
                texts, taken, chosen = made, taken | edit.functions, [*chosen, edit]
        return texts, taken, chosen

    def batch(self, left, kept):
        """Tries as many edits as one check judges, and returns those refused."""
        texts, taken, chosen = self.choose(left)
        number, said = self.check(texts, taken, kept) if chosen else (0, "")
        done = []
        for edit in chosen:
            found = next((name for name in sorted(edit.functions) if is_refused(said, self.crate.name, name)), None)
            if found:
                self.note(edit, f"refused at {'::'.join([*found[0], found[1]])} (check {number})")
                done.append(edit)
        return done

    def alone(self, edit, kept):
        """Tries one edit alone, on the whole crate if its own functions are proved with it."""
        number, said = self.check(apply([edit], self.sources), edit.functions, kept) if edit.functions else (0, "")
        if any(is_refused(said, self.crate.name, name) for name in edit.functions):
            self.note(edit, f"refused alone (check {number})")
            return
        number = next(self.checks)
        kind, text = self.rt.must_fail(self.crate, os.path.abspath(edit.file), ["--jobs", "1"], kept)
        text = text.partition(": ")[2].replace("BAD EDIT", "DOESN'T COMPILE")
        if BY_NAME in text:
            self.fail(edit, f"NOT REFUSED by a contract: {text}")
        elif kind in (self.rt.REFUSED, self.rt.AT_LIMIT):
            self.note(edit, f"{text} (check {number})")
        else:
            self.fail(edit, text)

    def begin(self):
        """Tries as many edits as one check judges. The parts continue from what it kept."""
        self.began, self.room = time.monotonic(), tempfile.TemporaryDirectory(prefix="wrong-bodies-")
        kept = f"{self.room.name}/kept"
        if self.start and os.path.isdir(self.start):
            shutil.copytree(self.start, kept)
        else:
            os.mkdir(kept)
        done = [] if self.course.is_over() else self.batch(self.edits, kept)
        self.left = [edit for edit in self.edits if edit not in done]

    def go_on(self, part):
        """Tries this part of the edits that the first check left."""
        left = done = self.left[part :: self.parts]
        with tempfile.TemporaryDirectory(prefix="wrong-bodies-") as room:
            kept = shutil.copytree(f"{self.room.name}/kept", f"{room}/kept")
            while left and done and not self.course.is_over():
                done = self.batch(left, kept)
                left = [edit for edit in left if edit not in done]
            for edit in left:
                if not self.course.is_over():
                    self.alone(edit, kept)
        self.ended.append(part)
        if len(self.ended) == self.parts:
            self.end()

    def end(self):
        self.room.cleanup()
        seconds, checks = int(time.monotonic() - self.began), next(self.checks) - 1
        print(f"{self.crate.name}: {len(self.refused)} wrong bodies refused, {len(self.faults)} not, {checks} checks, {seconds} s", flush=True)

    def tasks(self):
        """The first check, and after it the parts, as tasks that run beside those of other crates."""
        first, need = ((self.crate.name, "first"), "edits"), self.rt.need(self.crate)
        weight = len(self.edits) + (FIRST if self.edits[0].file in self.course.selection.changed else 0)
        yield first, ([], weight, need, lambda given, jobs: self.begin())
        for part in range(self.parts):
            yield ((self.crate.name, part), "edits"), ([first], weight // self.parts, need, lambda given, jobs, part=part: self.go_on(part))


def run(trials, rt):
    """Runs trials side by side, and returns how many edits were refused and how many were not."""
    if trials:
        rt.in_lanes(dict(task for trial in trials for task in trial.tasks()))
    return sum(len(trial.refused) for trial in trials), sum(len(trial.faults) for trial in trials)
