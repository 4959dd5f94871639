"""The functions of Rattle sources: where each is, and the name that a check gives it. Sources are laid out by rt fmt,
so a line's indent tells what it ends."""
import re

FN = re.compile(r"(?m)^( *)(?:pub(?:\([a-z]+\))? )?(?:const )?fn (\w+)")
IMPL = re.compile(r"(?m)^impl\b(?:<([^{\n]*?)>)? *(?:([\w:]+)(?:<[^{\n]*>)? for )?([\w:&]+)")
TYPE = re.compile(r"(?m)^(?:pub(?:\([a-z]+\))? )?(?:struct|enum) (\w+)")
WITH_DEFAULT = re.compile(r"(?m)^(?:pub(?:\([a-z]+\))? )?(?:struct|enum) (\w+)<[^{\n]*? = ")
CONST = re.compile(r"(?m)^(?:pub(?:\([a-z]+\))? )?const (\w+)")


def module_of(path):
    """The module of a source: src/a/b.rt is a::b."""
    return tuple(part for part in path[4:-3].split("/") if part not in ("lib", "main", "mod"))


def homes_of(sources):
    """The module of each type: a check names a type's own methods by it, wherever they are."""
    return {name: module_of(path) for path, text in sources.items() for name in TYPE.findall(text)}


def name_of(path, text, found, homes):
    """A function as a check names it: its module, and the impl's type and trait before its name."""
    impls = [*IMPL.finditer(text, 0, found.start())] if found[1] else []
    if not impls:
        return module_of(path), found[2]
    parameters, trait, kind = impls[-1][1], impls[-1][2], impls[-1][3]
    if not trait and kind in WITH_DEFAULT.findall(text):
        # A type with a default parameter is named with its impl's parameters.
        owner = "+".join([kind, *re.findall(r"(?:^|, )(\w+)", parameters or "")])
        return homes.get(kind, module_of(path)), f"{owner}::{found[2]}"
    if trait:
        return module_of(path), f"{kind}{trait.split('::')[-1]}::{found[2]}"
    # (two modules may have a type of one name)
    is_own = kind in TYPE.findall(text)
    return module_of(path) if is_own else homes.get(kind, module_of(path)), f"{kind}::{found[2]}"


def functions(path, text, homes):
    """Each function of a source, with where its text begins and ends. A trait's method that is only declared, on one
    line, is none."""
    for found in FN.finditer(text):
        if text[: text.find("\n", found.end())].endswith(";"):
            continue
        end = re.compile(rf"(?m)^{found[1]}}}$").search(text, found.end())
        yield name_of(path, text, found, homes), found.start(), end.end() if end else len(text)


def functions_at(path, text, at, sources):
    """The functions that contain a place of a source, or that use the constant that contains it."""
    homes = homes_of(sources)
    inside = [name for name, start, end in functions(path, text, homes) if start <= at < end]
    if inside:
        return {inside[-1]}
    constants = CONST.findall(text, 0, text.find("\n", at))
    if not constants:
        return set()
    uses = re.compile(rf"\b{constants[-1]}\b")
    every = ((name, text, start, end) for path, text in sources.items() for name, start, end in functions(path, text, homes))
    return {name for name, text, start, end in every if uses.search(text, start, end)}


def proof_folder(function):
    """Where the proof files of a function are in its crate."""
    module, name = function
    return "/".join(["proofs", *module, *name.split("::")])
