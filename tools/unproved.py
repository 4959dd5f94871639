"""Builds programs from their sources without a proof: as `rt try` does, with every access checked, or optimised as
`rt ci` builds a proved program.

The toolchain has no command that keeps such a program. So `rt try` runs from a copy of the kit in which one tool is a
script. The script keeps the linked program, or the module that clang is to compile, and then fails, so that nothing is
run. The kit's files and clang's arguments are no public interface: each is compared with the text here before it is
used."""
import os
import shlex
import shutil
import subprocess
import tempfile

from optimised import UnknownForm, hints_of, lines_of_ci
from toolchain import kit

# The kit files that are used. The command finds the kit by its own path, so a copy of the kit copies these two.
COPIED = ("rt", "rtlib.py")
LIBRARIES = ("c/libos_c.a", "c/liblibc_c.a")
USED = ("bin/rt", "bin/rtlib.py", "bin/rattle-link", "toolchain/bin/clang", "toolchain/bin/ld.lld", *LIBRARIES)
TARGET = "x86_64-unknown-linux-gnu"
# The arguments that `rt try` gives clang for the program's module, except --sysroot.
CLANG = f"""--target={TARGET} -march=x86-64 -mllvm -no-trap-after-noreturn -ffunction-sections -fdata-sections
    -mllvm -trap-unreachable -mllvm -no-x86-call-frame-opt -mllvm -disable-machine-licm
    -mllvm -disable-postra-machine-licm -mllvm -sink-common-insts=false --no-default-config -no-canonical-prefixes
    -fintegrated-cc1 -fno-crash-diagnostics -Werror -c -x ir module.bc -o module.o -fPIE -O0 -fsanitize=address"""
# The arguments that `rt ci` gives instead of some of them; it compiles the module's text here.
CLANG_OF_CI = {
    "-O0": "-O3 -Xclang -fmerge-functions -mllvm -mergefunc-use-aliases",
    "-fsanitize=address": "",
    "module.bc": "module.ll",
}
KEEPS_PROGRAM = """#!/bin/sh
{tool} "$@" || exit
mv program {room}/program
exit 1
"""
# (the sanitizer is requested when the program's module is compiled, not when clang is tried out)
KEEPS_MODULE = """#!/bin/sh
for word; do
    if [ "$word" = -fsanitize=address ]; then
        cp module.bc {room}/module.bc
        printf '%s\\n' "$@" > {room}/words
        exit 1
    fi
done
exec {tool} "$@"
"""


class NotBuilt(Exception):
    """The program can't be built, for this reason."""


def known_kit():
    """The folder of the kit, if it has the files that are used."""
    folder = kit()
    missing = [it for it in USED if not os.path.isfile(f"{folder}/{it}")]
    if missing:
        raise NotBuilt(f"the toolchain is not one that tools/unproved.py knows: its kit has no {', no '.join(missing)}")
    return folder


def link_files(folder, to, left_out):
    """Makes a folder of links to what is in another, except these names."""
    os.makedirs(to)
    for name in os.listdir(folder):
        if name not in left_out:
            os.symlink(f"{folder}/{name}", f"{to}/{name}")


def copy_kit(room, tool, script):
    """Makes a kit in a room; its tool of this name is a script."""
    source, copy = known_kit(), f"{room}/kit"
    link_files(source, copy, ("bin", "toolchain"))
    link_files(f"{source}/bin", f"{copy}/bin", COPIED)
    link_files(f"{source}/toolchain", f"{copy}/toolchain", ("bin",))
    link_files(f"{source}/toolchain/bin", f"{copy}/toolchain/bin", (tool,))
    for name in COPIED:
        shutil.copy(f"{source}/bin/{name}", f"{copy}/bin")
    with open(f"{copy}/toolchain/bin/{tool}", "w", encoding="utf-8") as it:
        it.write(script.format(tool=shlex.quote(f"{source}/toolchain/bin/{tool}"), room=shlex.quote(room)))
    os.chmod(f"{copy}/toolchain/bin/{tool}", 0o755)
    return copy


def run_in(folder, words, **environment):
    """Runs a command, and returns its exit status and output."""
    how = {"stdin": subprocess.DEVNULL, "stdout": subprocess.PIPE, "stderr": subprocess.STDOUT}
    done = subprocess.run(words, cwd=folder, text=True, errors="replace", env={**os.environ, **environment}, **how)
    return done.returncode, done.stdout


def keep(crate, room, tool, script, name):
    """Has `rt try` build a crate's program with a kit with this script, and returns the file that the script keeps."""
    # (one step, so that the toolchain's interpreter doesn't run the program first)
    _, said = run_in(crate, [f"{copy_kit(room, tool, script)}/bin/rt", "try", "--steps", "1"], TMPDIR=room)
    if not os.path.isfile(f"{room}/{name}"):
        raise NotBuilt(said or "rt try said nothing, and built nothing")
    return f"{room}/{name}"


def build_checked(top, name, file):
    """Builds a program of a repository with the checks of `rt try`."""
    with tempfile.TemporaryDirectory(prefix="unproved-", dir=os.path.dirname(os.path.abspath(file))) as room:
        os.rename(keep(f"{top}/crates/{name}", room, "ld.lld", KEEPS_PROGRAM, "program"), file)


def build_optimised(top, name, file):
    """Builds a program of a repository as `rt ci` does, but without a proof."""
    with tempfile.TemporaryDirectory(prefix="unproved-") as room:
        keep(f"{top}/crates/{name}", room, "clang", KEEPS_MODULE, "module.bc")
        with open(f"{room}/words", encoding="utf-8") as it:
            words = it.read().splitlines()
        if [it for it in words if not it.startswith("--sysroot=")] != CLANG.split():
            raise NotBuilt(f"the toolchain is not one that tools/unproved.py knows: it gives clang {' '.join(words)}")
        write_optimised(room, [f"{top}/crates", f"{known_kit()}/rattle"])
        compile_module(room, file)


def write_optimised(room, folders):
    """Writes the text of a room's module as `rt ci` would, with the hints of the crates in these folders."""
    hints = {key: hint for folder in folders for key, hint in hints_of(folder).items()}
    clang = f"{known_kit()}/toolchain/bin/clang"
    words = [clang, "-S", "-emit-llvm", "-O0", "-Xclang", "-disable-llvm-passes", "-x", "ir", "module.bc", "-o", "-"]
    with open(f"{room}/module.ll", "w", encoding="utf-8") as to:
        with subprocess.Popen(words, cwd=room, stdout=subprocess.PIPE, text=True) as text:
            try:
                to.writelines(lines_of_ci(text.stdout, hints))
            except UnknownForm as why:
                raise NotBuilt(f"the toolchain is not one that tools/optimised.py knows: {why}") from why
    if text.returncode:
        raise NotBuilt("clang can't read the module that it was to compile")


def compile_module(room, file):
    """Compiles and links a room's module."""
    toolchain = f"{known_kit()}/toolchain"
    words = [word for old in CLANG.split() for word in CLANG_OF_CI.get(old, old).split()]
    clang = [f"{toolchain}/bin/clang", f"--sysroot={toolchain}", *words]
    link = [f"{known_kit()}/bin/rattle-link", "--target", TARGET, "--toolchain", toolchain, "-o", os.path.abspath(file)]
    for run in clang, [*link, "module.o", *(f"{known_kit()}/{it}" for it in LIBRARIES)]:
        status, said = run_in(room, run)
        if status:
            raise NotBuilt(said)
