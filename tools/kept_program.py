"""The program built from its sources, without a proof, and kept beside a sum of what it was built from."""
import contextlib
import fcntl
import glob
import hashlib
import os
import subprocess

from beside import build_unproved
from repository import TOP
from toolchain import kit_line

FOLDER = f"{TOP}/out/unproved"
PROGRAM, SUM = f"{FOLDER}/office", f"{FOLDER}/sum"
# A program of other sources has this many seconds to find a fault in the command line or in the configuration; these
# statuses report one.
SECONDS, FAULTS = 5, (2, 3)


def sum_of_sources():
    """A sum of all that the program is built from: the sources of the crates, and the kit."""
    found = hashlib.sha256(kit_line().encode())
    for file in [f"{TOP}/crates.txt", *sorted(glob.glob(f"{TOP}/crates/*/src/**/*.rt", recursive=True))]:
        with open(file, "rb") as opened:
            found.update(repr((os.path.relpath(file, TOP), opened.read())).encode())
    return found.hexdigest()


def is_there():
    """Whether a program is kept, of whichever sources."""
    return os.access(PROGRAM, os.X_OK)


def is_current():
    """Whether the kept program is of the present sources."""
    with contextlib.suppress(OSError), open(SUM, encoding="utf-8") as opened:
        return is_there() and opened.read() == sum_of_sources()
    return False


def build():
    """Builds the program and keeps it, unless it is there; returns what is printed if it can't be built. One build runs
    at a time."""
    os.makedirs(FOLDER, exist_ok=True)
    with open(f"{FOLDER}/lock", "w", encoding="utf-8") as lock:
        fcntl.flock(lock, fcntl.LOCK_EX)
        if is_current():
            return ""
        found, made = sum_of_sources(), f"{FOLDER}/office.new"
        with contextlib.suppress(FileNotFoundError):
            os.remove(made)
        said = build_unproved(TOP, made)
        if not said:
            os.replace(made, PROGRAM)
            with open(SUM, "w", encoding="utf-8") as opened:
                opened.write(found)
        return said


def fault_of(words):
    """The fault that the kept program finds in these words or in their configuration; empty if it finds none."""
    if words[:1] == ["serve"] and "--turns" not in words:
        words = [*words, "--turns", "0"]
    how = {"stdin": subprocess.DEVNULL, "stdout": subprocess.DEVNULL, "stderr": subprocess.PIPE, "text": True, "errors": "replace"}
    with contextlib.suppress(subprocess.TimeoutExpired, OSError):
        ran = subprocess.run(["office", *words], executable=PROGRAM, timeout=SECONDS, **how)
        return ran.stderr.strip() if ran.returncode in FAULTS else ""
    return ""
