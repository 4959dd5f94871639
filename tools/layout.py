"""What every file must keep: laid out as rt fmt does; one concept, so 450 lines at most, Python too; comments within
120 columns; and no tests except as data."""
import glob
import os
import re
import subprocess

from repository import libraries, text_of
from toolchain import rattle

MOST_LINES, MOST_COLUMNS = 450, 120
COMMENT = re.compile(r" *(?://|--)")
# Where Python files are.
PYTHON = ("*", "tools/**/*", "examples/**/*.py")


def sources(crate):
    """The sources of a crate, its definitions and its proofs."""
    found = sorted(glob.glob(f"crates/{crate}/**/*", recursive=True))
    return [file for file in found if file.endswith((".rt", ".antt")) and "/out/" not in file]


def python_files():
    """The files in Python: modules by their name, commands by their first line."""
    found = {file for pattern in PYTHON for file in glob.glob(pattern, recursive=True) if os.path.isfile(file)}
    return sorted(file for file in found if file.endswith(".py") or first_line(file).endswith("python3"))


def first_line(file):
    with open(file, encoding="utf-8", errors="replace") as opened:
        return opened.readline().strip()


def faults_of(file):
    """The rules that a file breaks."""
    lines = text_of(file).splitlines()
    if len(lines) > MOST_LINES:
        yield f"{file}: more than {MOST_LINES} lines"
    if not file.endswith((".rt", ".antt")):
        return
    if any("#[test]" in line for line in lines):
        yield f"{file}: a #[test] function; rows are data"
    for number, line in enumerate(lines, 1):
        if len(line) > MOST_COLUMNS and COMMENT.match(line):
            yield f"{file}:{number}: a comment of more than {MOST_COLUMNS} columns"


def is_laid_out(files):
    """Whether all of these files are laid out as rt fmt does; the compiler names those that are not."""
    return bool(files) and not subprocess.run([rattle(), "fmt", "--check", *files]).returncode


def layout_faults():
    """All rules that the files of the repository break."""
    crates = {crate: sources(crate) for crate in sorted(libraries())}
    if not is_laid_out([file for files in crates.values() for file in files]):
        yield "run rt fmt in each crate of the files above"
    for crate, files in crates.items():
        if not files:
            yield f"crates/{crate}: no sources"
        if os.path.isdir(f"crates/{crate}/must-fail"):
            yield f"crates/{crate}/must-fail: wrong bodies stand in wrong-bodies/"
        yield from (fault for file in files for fault in faults_of(file))
    yield from (fault for file in python_files() for fault in faults_of(file))
