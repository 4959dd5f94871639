"""The repository: its top, its crates, its commits, and the texts of its sources in a commit."""
import functools
import glob
import os
import subprocess

TOP = os.path.dirname(os.path.dirname(os.path.abspath(__file__)))
# The sources that a verdict depends on.
KINDS = (".rt", ".antt", ".edit")


def go_to_top():
    """Changes to the top of the repository, where every command works."""
    os.chdir(TOP)


def text_of(file):
    with open(file, encoding="utf-8") as opened:
        return opened.read()


def libraries(text=None):
    """Each crate of crates.txt, or of a text like it, with the libraries that it uses, the repository's and the
    kit's."""
    lines = [line.partition("#")[0].partition(":") for line in (text or text_of("crates.txt")).splitlines()]
    return {name.split()[0]: used.split() for name, _, used in lines if name.strip()}


def below(uses):
    """For each crate, the crates of the repository that it depends on."""
    @functools.cache
    def found(name):
        direct = [used for used in uses[name] if used in uses]
        return frozenset(direct).union(*map(found, direct))

    return {name: found(name) for name in uses}


def git(*words, given=""):
    """Returns what git prints."""
    ran = subprocess.run(["git", *words], input=given.encode(), capture_output=True, check=True)
    return ran.stdout.decode(errors="replace")


def commit_count():
    """How many commits lead to this one, which decides what is chosen anew at each commit."""
    return int(git("rev-list", "--count", "HEAD"))


def is_ancestor(commit):
    """Whether a word names an ancestor of this commit."""
    ran = subprocess.run(["git", "merge-base", "--is-ancestor", commit, "HEAD"], capture_output=True)
    return ran.returncode == 0


def texts_in_tree():
    """The text of each source of the crates, as it is on disk."""
    files = glob.glob("crates/*/*/**/*", recursive=True)
    return {file: text_of(file) for file in files if file.endswith(KINDS) and "/out/" not in file}


def by_crate(texts):
    """These texts, crate by crate."""
    found = {}
    for path, text in texts.items():
        found.setdefault(path.split("/")[1], {})[path] = text
    return dict(sorted(found.items()))


def texts_at(commit):
    """The text of each source of the crates in a commit."""
    lines = git("ls-tree", "-r", "--format=%(path)\t%(objectname)", commit, "--", "crates").splitlines()
    names = {path: name for path, name in (line.split("\t") for line in lines) if path.endswith(KINDS)}
    wanted = "".join(f"{name}\n" for name in names.values()).encode()
    ran = subprocess.run(["git", "cat-file", "--batch"], input=wanted, capture_output=True, check=True)
    return dict(zip(names, blobs(ran.stdout, len(names))))


def blobs(out, count):
    """The texts that `git cat-file --batch` printed."""
    at = 0
    for _ in range(count):
        end = out.index(b"\n", at)
        length = int(out[at:end].rpartition(b" ")[2])
        yield out[end + 1 : end + 1 + length].decode(errors="replace")
        at = end + length + 2
