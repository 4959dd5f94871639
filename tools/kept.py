"""The libraries that ./prove and `rt ci` keep on this machine: a check takes them as the next `rt ci` would, so nothing
below a crate is proved twice."""
import os
import shutil

# What this uses of the toolchain's command.
USED = {
    "rtlib.guarded": [],
    "handles_of": ["root"],
    "crates_of": ["root"],
    "Crate.cuts_libraries": None,
    "Crate.allowed": None,
    "Kept.key": ["self", "crate"],
    "Kept.give": ["self", "crate", "tests", "key"],
    "Kept.is_built": ["self", "crate"],
}
# Where a check over kept libraries leaves what it proved, in the crate's out/.
FOLDER = "gate-incremental"
# Processor minutes to prove 1,000 lines of code, as docs/PERFORMANCE.md has them.
MINUTES = 5


class Libraries:
    """The crates of the repository, over the libraries that are kept."""

    def __init__(self, rt):
        root = os.getcwd()
        # (its first call sets a signal's handler, which only the main thread may do)
        rt.rtlib.guarded()
        rt.Crate.cuts_libraries = True
        rt.Crate.allowed = rt.handles_of(root)
        self.crates = {crate.name: crate for crate in rt.crates_of(root)}
        self.kept = rt.Kept([*self.crates.values()])

    def lacking(self, crate):
        """Gives a crate the libraries below it, and names those that are not kept in their present form."""
        lacks = []
        for below in sorted(crate.below(), key=lambda found: len(found.below())):
            if below.name not in self.kept.rlibs and (lacks or not self.give(below)):
                lacks.append(below)
        return lacks

    def has(self, crate):
        """Copies a library and those below it to their folders, and returns whether all are kept in their present
        form."""
        return not self.lacking(crate) and (crate.name in self.kept.rlibs or self.give(crate))

    def give(self, crate):
        """Copies what is kept of a library to its folder, and returns whether that succeeded."""
        shutil.rmtree(f"{crate.folder}/out/rlib", ignore_errors=True)
        os.makedirs(f"{crate.folder}/out", exist_ok=True)
        if not self.kept.give(crate, False, self.kept.key(crate)):
            return False
        self.kept.is_built(crate)
        return True


def minutes_of(crates):
    """How many processor minutes the proofs of these crates take, by their lines."""
    return round(MINUTES * sum(crate.count(rb"\n") for crate in crates) / 1000) or 1
