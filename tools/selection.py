"""Which wrong bodies are tried: those whose verdict depends on something that changed since the last commit whose gate
passed, and a few of the others, different ones at each commit."""
import hashlib

from edits import edits_of
from memo import REFUSED
from repository import by_crate, commit_count, git, is_ancestor, libraries, texts_at, texts_in_tree
from standing import COMMENT, Standing

PASSED = ".ci/passed"
# Of the edits that nothing touched, this many are tried, from this many crates.
SAMPLE, CRATES = 40, 2


def passed_commit():
    """The last commit whose gate passed, if it is an ancestor of this one; none if nothing names it."""
    try:
        with open(PASSED, encoding="utf-8") as opened:
            commit = opened.read().strip()
    except OSError:
        return None
    return commit if commit and is_ancestor(commit) else None


def sums_of(texts, kit, uses):
    """The edits that the prover judges, by file, and the sum that the verdict on each depends on."""
    standing = Standing(texts, kit, uses)
    edits = {edit.file: edit for crate, own in by_crate(texts).items() for edit in edits_of(crate, own) if not edit.judge}
    return edits, {file: standing.key(edit) for file, edit in edits.items()}


class Selection:
    """The wrong bodies of the tree on disk: what each depends on, and what changed since the last commit whose gate
    passed."""

    def __init__(self, kit):
        self.texts, self.base = texts_in_tree(), passed_commit()
        self.edits, self.sums = sums_of(self.texts, kit, libraries())
        self.before, texts = {}, {}
        if self.base:
            texts = texts_at(self.base)
            self.before = sums_of(texts, kit, libraries(git("show", f"{self.base}:crates.txt")))[1]
        self.changed = [file for file in self.edits if texts.get(file) != self.texts[file]]
        self.touched = [file for file in self.edits if self.before.get(file) != self.sums[file]]
        # Those that may no longer compile: the edit is new or changed, or a source that it changes has changed.
        self.rewritten = [file for file in self.touched if file in {*self.changed} or self.has_new_source(file, texts)]

    def has_new_source(self, file, before):
        """Whether a source that an edit changes differs from before, apart from comments."""
        edit = self.edits[file]
        paths = [f"crates/{edit.crate}/{path}" for path in edit.paths()]
        return any(COMMENT.sub("", before.get(path, "")) != COMMENT.sub("", self.texts.get(path, "")) for path in paths)

    def unknown(self, files, memo):
        """Those of these edits that the memo doesn't know as refused."""
        return [file for file in files if not memo.knows(REFUSED, self.sums[file])]

    def sample(self):
        """A few of the edits that nothing touched, from two crates, different ones at each commit."""
        rest, count = sorted({*self.edits} - {*self.touched}), commit_count()
        crates = sorted({self.edits[file].crate for file in rest})
        chosen = [crates[(CRATES * count + at) % len(crates)] for at in range(min(CRATES, len(crates)))]
        turn = lambda file: hashlib.sha256(f"{count} {file}".encode()).hexdigest()
        return [file for crate in chosen for file in sorted((it for it in rest if self.edits[it].crate == crate), key=turn)[: SAMPLE // CRATES]]
