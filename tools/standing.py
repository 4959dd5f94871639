"""What the verdict on a wrong body depends on, as one sum: the edit; the sources that it changes, except comments; the
contracts, views, invariants and traits named in those sources, of its crate's other sources and of the libraries below;
the definitions that all these name, in the files that the sources import and in those that these import, through the
crates; the proof files of the functions that it changes; the kit.

A check of a function reads no body of another function. So while the sum is the same, the prover says the same."""
import functools
import hashlib
import re

from edits import proofs_of
from repository import below, by_crate, libraries

COMMENT = re.compile(r"(?m)^ *(?://|--).*\n")
# A line at which an item begins, in a source laid out by rt fmt; and the parts of a head.
BEGINS = re.compile(r"(?:#\[|pub\b|(?:const|unsafe|extern|safe) |fn |struct |enum |trait |impl\b|type |static |use |ghost |mod |macro_rules!|requires|#!\[)")
FN = re.compile(r"( *)(pub )?(?:pub\(\w+\) )?(?:const )?(?:safe |unsafe )?fn (\w+)")
TYPE = re.compile(r"(?:pub(?:\(\w+\))? )?(?:struct|enum|trait|type|const|static|unsafe trait) (\w+)")
IMPL = re.compile(r"impl\b(?:<.*?>)? *(?:([\w:]+)(?:<.*?>)? for )?&?(?:mut )?([\w:]+)")
WORD = re.compile(r"\w+")
IMPORT = re.compile(r"ghost use [^;]*;")
USE = re.compile(r"Rattle\.(\w+)\.specs\.([\w.]+)")
# The words of a clause or a definition: operators are written with a place for each operand.
TOKEN = re.compile(r"[^\s(){}\[\],;.◌]+")
USE_LINE = re.compile(r"(?:pub |unfoldable )*use |pub mod |mod ")
DEFINES = re.compile(r"(?m)^ *(?:(?:pub|abbrev|unfoldable|data|record) )*([^\s:(){}]+)(?: \S+)* :(?= |$)")


class Item:
    """A declaration of a source without the bodies of its functions, and the names that others use for it."""

    def __init__(self, path, names, text, is_public, is_type):
        self.path, self.names, self.text, self.is_public, self.is_type = path, names, text, is_public, is_type
        self.words = {*WORD.findall(text)}


class Definition:
    """A definition of a file, and the names that it introduces: its own, and those of its constructors or fields."""

    def __init__(self, path, text):
        self.path, self.text = path, text.strip()
        self.names = {name for found in DEFINES.findall(text) for name in TOKEN.findall(found)}
        self.tokens = {*TOKEN.findall(text)}


def definitions_of(path, text):
    """The definitions of a file: rt fmt leaves a blank line between them."""
    lines = [line for line in text.split("\n") if not USE_LINE.match(line)]
    return [Definition(path, block) for block in "\n".join(lines).split("\n\n") if block.strip()]


def without_body(lines):
    """The head of a function: its signature and its contract. A clause is indented deeper than the function, so the
    body begins at a line at the function's own indent that is `{`, or that ends the signature and opens a brace."""
    indent, head = FN.match(lines[0])[1], []
    for at, line in enumerate(lines):
        head.append(line)
        ends_signature = at == 0 or line.startswith(f"{indent})")
        if line == f"{indent}{{" or ends_signature and line.endswith(("{", "}", ";")):
            break
    return head


def chunks(lines, indent):
    """Lines at this indent that begin an item, each with what is below it and with its attributes."""
    found, is_attribute = [], False
    for line in lines:
        here = line[len(indent) :]
        begins = line.startswith(indent) and BEGINS.match(here) and not here.startswith("requires")
        if begins and not is_attribute:
            found.append([])
        if found:
            found[-1].append(line)
        is_attribute = bool(begins) and here.startswith("#[") or is_attribute and not begins
    return found


def without_attributes(lines):
    """An item's lines from the first that is no attribute."""
    start = next((at for at, line in enumerate(lines) if not line.lstrip().startswith("#[")), 0)
    return lines[start:]


def seen_outside(lines):
    """What others see of a type: only the name of a struct without public fields, since they know it by its view."""
    is_closed = re.match(r"(?:pub(?:\(\w+\))? )?struct ", lines[0]) and not any(re.match(r" +pub ", line) for line in lines)
    return lines[:1] if is_closed else lines


def items_of_impl(path, lines):
    """The members of an impl or a trait, each under its head."""
    head = lines[0]
    found, trait = IMPL.match(head), TYPE.match(head)
    of_trait = trait or found and found[1]
    owner = {name.split("::")[-1] for name in (found.groups() if found else trait.groups()) if name}
    yield Item(path, owner, head, True, True)
    for member in chunks(lines[1:], "    "):
        lines = without_attributes(member)
        function = FN.match(lines[0])
        if function:
            text = "\n".join([head, *without_body(lines)])
            yield Item(path, {function[3], *(owner if of_trait else ())}, text, bool(function[2] or of_trait), False)
        elif not lines[0].startswith("    ghost use "):
            named = TYPE.match(lines[0].strip())
            yield Item(path, {named[1]} if named else owner, "\n".join([head, *lines]).strip(), True, True)


def items_of(path, text):
    """The items of a source."""
    for chunk in chunks(text.split("\n"), ""):
        lines = without_attributes(chunk)
        first = lines[0]
        function, named = FN.match(first), TYPE.match(first)
        if function:
            yield Item(path, {function[3]}, "\n".join(without_body(lines)), bool(function[2]), False)
        elif first.startswith("impl") or re.match(r"(?:pub )?(?:unsafe )?trait ", first):
            yield from items_of_impl(path, lines)
        elif named:
            yield Item(path, {named[1]}, "\n".join(seen_outside(lines)), True, True)


class Standing:
    """The sources of one tree, and the sums that verdicts on its wrong bodies depend on."""

    def __init__(self, texts, kit, uses=None):
        self.kit = kit
        self.below, self.of_crate = below(uses or libraries()), by_crate(texts)
        self.code = {path: COMMENT.sub("", text) for path, text in texts.items() if not path.endswith(".edit")}
        self.items = {}
        for path, text in self.code.items():
            if path.endswith(".rt"):
                self.items.setdefault(path.split("/")[1], []).extend(items_of(path, text))

    def key(self, edit):
        """The sum that the verdict on this edit depends on."""
        paths = [f"crates/{edit.crate}/{path}" for path in edit.paths()]
        parts = [self.kit, edit.text, *(self.code.get(path, "") for path in paths), *(self.around(path) for path in paths)]
        proofs = proofs_of(edit, self.of_crate[edit.crate])
        return hashlib.sha256(repr([*parts, sorted(proofs.items())]).encode()).hexdigest()

    @functools.cache
    def around(self, path):
        """The sum of what a source depends on outside itself."""
        items, source = self.named(path), self.code.get(path, "")
        files = self.imported(source).union(*(self.imported(self.heads(item.path)) for item in items))
        tokens = {*TOKEN.findall(source)}.union(*(TOKEN.findall(item.text) for item in items))
        parts = sorted((part.path, part.text) for part in {*items, *self.cited(self.through(files), tokens)})
        return hashlib.sha256(repr((path.split("/")[1], parts)).encode()).hexdigest()

    def named(self, path):
        """The items of other sources that this one names, and the types that these name."""
        crate, words = path.split("/")[1], {*WORD.findall(self.code.get(path, ""))}
        of_others = [item for name in {crate, *self.below.get(crate, ())} for item in self.items.get(name, ())]
        within = [item for item in of_others if item.path != path and (item.is_public or item.path.split("/")[1] == crate)]
        found = [item for item in within if item.names & words]
        types, known = [item for item in within if item.is_type], {*found}
        while found:
            words = set().union(*(item.words for item in found))
            found = [item for item in types if item not in known and item.names & words]
            known.update(found)
        return known

    def imported(self, text):
        """The files of definitions that a text imports."""
        found = set()
        for crate, module in USE.findall(text):
            parts = module.rstrip(".").split(".")
            files = [f"crates/{crate}/specs/{'/'.join(parts[:count])}.antt" for count in range(len(parts), 0, -1)]
            found.update([file for file in files if file in self.code][:1])
        return found

    def heads(self, path):
        """The lines of a source that import what its clauses cite."""
        return "\n".join(IMPORT.findall(self.code[path]))

    def cited(self, files, tokens):
        """The definitions of these files that these words name, and those that they name in turn."""
        left, known = [part for file in files for part in self.definitions(file)], set()
        found = [part for part in left if not part.names or part.names & tokens]
        while found:
            known.update(found)
            tokens = set().union(*(part.tokens for part in found))
            found = [part for part in left if part not in known and part.names & tokens]
        return known

    @functools.cache
    def definitions(self, file):
        return definitions_of(file, self.code[file])

    def through(self, modules):
        """These files of definitions, and all that they import."""
        known, left = set(), {*modules}
        while left:
            module = left.pop()
            known.add(module)
            left |= self.uses(module) - known
        return known

    @functools.cache
    def uses(self, module):
        return frozenset(self.imported(self.code[module]))
