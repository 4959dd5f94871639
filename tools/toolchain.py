"""The toolchain's command rt as a module, for the commands of this repository. Nothing that they use of it is a public
interface, so each names what it uses, and runs only if that has the known form."""
import functools
import importlib.machinery
import importlib.util
import inspect
import os
import shutil
import sys

KITS = ("rattle-kit-13b", "rattle-kit-13f")
# What `look_up_once` replaces.
LOOKS = {"rtlib.Crate.below": ["self"], "rtlib.Crate.stamp": ["crate", "made"]}


def command():
    """Where the command rt is."""
    return os.path.realpath(shutil.which("rt") or "")


def rattle():
    """Where the compiler is, which also lays files out."""
    return f"{os.path.dirname(command())}/rattle"


def kit():
    """The folder of the toolchain."""
    return os.path.dirname(os.path.dirname(command()))


def kit_line():
    """The line that identifies the kit, as `rt version` prints it; empty if there is none."""
    file = f"{kit()}/KIT-ID"
    if not os.path.isfile(file):
        return ""
    with open(file, encoding="utf-8") as opened:
        return opened.read().strip()


def member(rt, name):
    """What has this dotted name in the command; None if nothing has."""
    return functools.reduce(lambda found, part: getattr(found, part, None), name.split("."), rt)


def is_known(rt, name, parameters):
    """Whether the command has a function of this name with these parameters, or, with none given, a value."""
    found = member(rt, name)
    if parameters is None:
        return found is not None
    return callable(found) and list(inspect.signature(found).parameters) == parameters


def toolchain(script, used):
    """The command rt, if what the script uses of it is there with the parameters that it knows."""
    found = kit_line().split()[:1]
    if not set(found) & set(KITS):
        print(f"{script}: note: this script knows {' and '.join(KITS)}, and found {' '.join(found) or 'none'}", flush=True)
    loader = importlib.machinery.SourceFileLoader("rt", command())
    rt = importlib.util.module_from_spec(importlib.util.spec_from_loader("rt", loader))
    loader.exec_module(rt)
    for name, parameters in {**LOOKS, **used}.items():
        if not is_known(rt, name, parameters):
            sys.exit(f"{script}: the toolchain's {name} is not the one that this script knows")
    look_up_once(rt.rtlib.Crate)
    return rt


def look_up_once(kind):
    """Has the crates below a crate looked up once, and the stamp of its text taken once if none is written. The command
    walks every path of the graph at each look, which takes minutes of a run."""
    made, stamped, stamps = kind.below, kind.stamp, {}

    def below(crate):
        if "found_below" not in vars(crate):
            crate.found_below = made(crate)
        return [*crate.found_below]

    def stamp(crate):
        if not crate.cuts_libraries:
            return stamped(crate)
        if crate.folder not in stamps:
            stamps[crate.folder] = stamped(crate)
        return stamps[crate.folder]

    kind.below, kind.stamp = below, stamp
