"""What the compiler alone says about sources, without a proof: it finds edits that don't compile, and misuses of the
libraries."""
import contextlib
import glob
import os
import re
import shutil
import subprocess
import tempfile
from concurrent.futures import ThreadPoolExecutor

from edits import apply, sources_of
from memo import COMPILES
from repository import text_of

# What this uses of the toolchain's command.
USED = {
    "rtlib.guarded": [],
    "rtlib.crates_below": ["top"],
    "rtlib.Crate.words": ["self", "flags", "tests", "keeps", "as_source"],
    "rtlib.RATTLE": None,
}
# No function has this name, so a check ends once the compiler has read everything, before any definition is checked.
NOTHING = ["--jobs", "1", "--start", "no function"]
ENDED = re.compile(r"(?m)^rattle: error: .* has no function `no function`")


def read(rt, crate, folder):
    """Returns whether the compiler accepts a crate's sources in a folder, over the sources of those below, and what it
    says."""
    words = [rt.rtlib.RATTLE, "check", *crate.words(NOTHING, as_source=True)]
    how = {"stdin": subprocess.DEVNULL, "stdout": subprocess.PIPE, "stderr": subprocess.STDOUT, "text": True, "errors": "replace"}
    said = subprocess.run([*rt.rtlib.guarded(), *words], cwd=folder, **how).stdout
    return bool(ENDED.search(said)), said


def copy_with(crate, texts, folder):
    """Copies a crate's sources into a folder, with these texts instead of its own."""
    for part in ("src", "specs", "proofs"):
        if os.path.isdir(f"{crate.folder}/{part}"):
            shutil.copytree(f"{crate.folder}/{part}", f"{folder}/{part}")
    for path, text in texts.items():
        with open(f"{folder}/{path}", "w", encoding="utf-8") as opened:
            opened.write(text)


class Compiling:
    """Compiles edits: as many as fit into one copy of their crate, and by halves if such a copy doesn't compile."""

    def __init__(self, rt, selection, memo):
        self.rt, self.selection, self.memo = rt, selection, memo

    def faults(self, crate, edits):
        """Yields each of these edits of a crate that doesn't compile, with what the compiler says first."""
        left = [edit for edit in edits if not self.memo.knows(COMPILES, self.selection.sums[edit.file])]
        while left:
            group, texts = self.group(crate, left)
            yield from self.of_group(crate, group, texts)
            left = [edit for edit in left if edit not in group]

    def group(self, crate, left):
        """Compiles as many edits as can be made together. If two of them conflict, halves of the group are tried."""
        sources, texts, chosen = sources_of(crate.name, self.selection.texts), {}, []
        for edit in left:
            made = apply([edit], sources, texts)
            if made:
                texts, chosen = made, [*chosen, edit]
        return chosen, texts

    def of_group(self, crate, group, texts):
        with tempfile.TemporaryDirectory(prefix="wrong-bodies-") as folder:
            copy_with(crate, texts, folder)
            compiles, said = read(self.rt, crate, folder)
        if compiles:
            for edit in group:
                self.memo.keep(COMPILES, self.selection.sums[edit.file])
        elif len(group) == 1:
            yield group[0], next((line for line in said.splitlines() if "error" in line), said[-200:])
        else:
            sources = sources_of(crate.name, self.selection.texts)
            for half in (group[: len(group) // 2], group[len(group) // 2 :]):
                yield from self.of_group(crate, half, apply(half, sources))


def compile_all(rt, selection, memo, crates, files):
    """Compiles these edits, crates side by side, and returns those that don't compile."""
    compiling, chosen = Compiling(rt, selection, memo), {}
    for file in files:
        chosen.setdefault(selection.edits[file].crate, []).append(selection.edits[file])
    with ThreadPoolExecutor(len(os.sched_getaffinity(0))) as pool:
        runs = [pool.submit(lambda name, edits: [*compiling.faults(crates[name], edits)], name, edits) for name, edits in chosen.items()]
        return [fault for run in runs for fault in run.result()]


def misuse_of(file):
    """Returns the parts of a misuse: the words with which the compiler must refuse it, the libraries that it uses, its
    source."""
    refused, uses, source = text_of(file).split("\n", 2)
    return refused.removeprefix("refused: ").strip(), uses.removeprefix("uses: "), source


def misuses(rt):
    """Compiles each misuse/*.misuse in a repository of copies of the sources. Returns how many there are, and those not
    refused with their words."""
    found = {os.path.basename(file).removesuffix(".misuse"): misuse_of(file) for file in sorted(glob.glob("misuse/*.misuse"))}
    with tempfile.TemporaryDirectory(prefix="misuse-") as top, contextlib.ExitStack() as kept:
        for sources in glob.glob("crates/*/src"):
            shutil.copytree(sources, f"{top}/{sources}")
        for name, (_, _, source) in found.items():
            os.makedirs(f"{top}/crates/{name}/src")
            kept.enter_context(open(f"{top}/crates/{name}/src/lib.rt", "w", encoding="utf-8")).write(source)
        kept.close()
        lines = "".join(f"{name}: {uses}\n" for name, (_, uses, _) in found.items())
        with open(f"{top}/crates.txt", "w", encoding="utf-8") as opened:
            opened.write(text_of("crates.txt") + lines)
        shutil.copy("HANDLES", top)
        os.mkdir(f"{top}/.git")
        crates = [crate for crate in rt.rtlib.crates_below(top) if crate.name in found]
        with ThreadPoolExecutor(len(os.sched_getaffinity(0))) as pool:
            said = dict(zip([crate.name for crate in crates], pool.map(lambda crate: read(rt, crate, crate.folder), crates)))
    return len(found), [name for name, (words, _, _) in found.items() if said[name][0] or not words or words not in said[name][1]]
