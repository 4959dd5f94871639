"""Wrong bodies: edits crates/NAME/wrong-bodies/*.edit, each of which changes what a function does.

An edit has a line `file: src/lib.rt` and pairs of lines `old: TEXT` and `new: TEXT`. Each old text occurs in that file
once. If no clause can see the change, its first line names who judges it
instead of the prover: `by: calls` or `by: cases`."""
import os
import re

from functions import functions, functions_at, homes_of, proof_folder

WORD = re.compile(r"[A-Za-z_]\w+")
# A proof cites a call, a local or an arm of the code as c.NAME, c.CALL-NAME or c.in-NAME, and answers a call's goals as
# NAME-GOAL.
CITED = re.compile(r"(?m)(?:\bc\.(?:[\w+]+-)*)([A-Za-z_]\w*)|^(?:pub )?([A-Za-z_]\w*)-\w")


class Edit:
    """A wrong body: the texts that it replaces, and the functions that it changes."""

    def __init__(self, file, text, sources):
        self.file, self.text = file, text
        self.crate, self.name = file.split("/")[1], os.path.basename(file)
        first = text.partition("\n")[0]
        self.judge = first.removeprefix("by: ") if first.startswith("by: ") else None
        self.pairs = [*pairs_of(text)]
        self.functions = set()
        for path, old, _ in self.pairs:
            source = sources.get(path, "")
            if old and old in source:
                self.functions |= functions_at(path, source, source.find(old), sources)

    def paths(self):
        """The sources of its crate that it changes."""
        return sorted({path for path, _, _ in self.pairs if path})

    def fault(self, sources):
        """Why it can't be made in these sources; empty if it can."""
        if not self.name.endswith(".edit") or not self.pairs:
            return "it has no pair of old and new texts, or its name doesn't end in .edit"
        if self.judge not in (None, "calls", "cases"):
            return "its first line names no judge"
        if apply([self], sources) is None:
            return "an old text doesn't stand in its file of src/ once"
        return ""


def pairs_of(text):
    """The path, the old text and the new text of each pair."""
    path = old = None
    for line in text.split("\n"):
        if line.startswith("file: "):
            path = line[6:].strip()
        elif line.startswith("old: "):
            old = line[5:]
        elif line.startswith("new:"):
            yield path, old, line[4:].removeprefix(" ")


def apply(edits, sources, made=()):
    """Returns the texts that these edits make, over those made before; none if an old text doesn't occur once."""
    made = dict(made)
    for path, old, new in (pair for edit in edits for pair in edit.pairs):
        text = made.get(path, sources.get(path, ""))
        if not old or text.count(old) != 1:
            return None
        made[path] = text.replace(old, new)
    return made


def sources_of(crate, texts):
    """The sources of a crate by their path in it."""
    start = f"crates/{crate}/"
    return {path.removeprefix(start): texts[path] for path in sorted(texts) if path.startswith(f"{start}src/") and path.endswith(".rt")}


def edits_of(crate, texts):
    """The edits of a crate, by name."""
    sources = sources_of(crate, texts)
    files = sorted(path for path in texts if path.startswith(f"crates/{crate}/wrong-bodies/"))
    return [Edit(file, texts[file], sources) for file in files]


def proofs_of(edit, texts):
    """The proof files of the functions that an edit changes."""
    folders = tuple(f"crates/{edit.crate}/{proof_folder(function)}/" for function in edit.functions)
    return {path: text for path, text in texts.items() if path.startswith(folders)} if folders else {}


def names_cited(edit, texts):
    """The names that an edit removes from a function and that the function's proof files cite: a refusal because a name
    is missing shows nothing."""
    sources = sources_of(edit.crate, texts)
    made = apply([edit], sources) or {}
    homes, cited = homes_of(sources), set()
    for function in edit.functions:
        proofs = "".join(text for path, text in texts.items() if path.startswith(f"crates/{edit.crate}/{proof_folder(function)}/"))
        gone = {word for _, old, new in edit.pairs for word in {*WORD.findall(old)} - {*WORD.findall(new)}}
        left = "".join(text[start:end] for path, text in made.items() for name, start, end in functions(path, text, homes) if name == function)
        named = {name for found in CITED.findall(proofs) for name in found}
        cited |= gone & named - {*WORD.findall(left)}
    return sorted(cited)
