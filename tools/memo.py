"""What this machine knows about wrong bodies, beside the proofs that it keeps: for each sum that a verdict depends on,
whether the edit was refused, and whether it compiles. It is never committed: a verdict would trust anyone who wrote
it."""
import contextlib
import os

NAME = "wrong-bodies"
REFUSED, COMPILES = "refused", "compiles"
# At most this many lines are read, the last ones.
MOST = 100_000


class Memo:
    """A file of lines, each a word and a sum. If there is no folder for it, nothing is known and nothing is kept."""

    def __init__(self, folder):
        self.file, self.lines = f"{folder}/{NAME}", set()
        with contextlib.suppress(OSError):
            with open(self.file, encoding="utf-8") as opened:
                self.lines = {line.strip() for line in opened.readlines()[-MOST:]}

    def knows(self, word, key):
        return f"{word} {key}" in self.lines

    def keep(self, word, key):
        """Adds a line, which is written at once: a run that is cut off keeps what it saw."""
        line = f"{word} {key}"
        if line not in self.lines:
            self.lines.add(line)
            with contextlib.suppress(OSError), open(self.file, "a", encoding="utf-8") as opened:
                opened.write(f"{line}\n")
