"""What valgrind counts for one round of a bench task: the counts of a run of 20 rounds minus those of a run of 10,
divided by 10. What a run does once, at its start and end, is in neither."""
import collections
import json
import subprocess
import sys
import tempfile

FEWER, MORE = 10, 20


def words_of(task, rounds):
    """Returns the bench's words for a task, such as 'plain 0' or 'invite', and a number of rounds."""
    name, *amounts = task.split()
    return [name, *amounts[:1], str(rounds), *amounts[1:]]


def run(options, program, words):
    """Runs the bench on its data under valgrind."""
    how = {"cwd": "bench/data", "stdout": subprocess.DEVNULL, "stderr": subprocess.PIPE, "text": True}
    done = subprocess.run(["valgrind", *options, program, *words], **how)
    if done.returncode:
        sys.exit(f"{program} {' '.join(words)} failed under valgrind: {done.stderr[-2000:]}")


def both_runs(options, output, program, task, read):
    """Returns what is read from the output of the run of fewer rounds, and from that of more."""
    found = []
    with tempfile.TemporaryDirectory(prefix="counting-") as room:
        for rounds in (FEWER, MORE):
            run([*options, f"{output}={room}/{rounds}"], program, words_of(task, rounds))
            with open(f"{room}/{rounds}", encoding="utf-8", errors="replace") as it:
                found.append(read(it))
    return found


def a_round(fewer, more):
    """Returns the counts of one round, from those of both runs."""
    rounds = MORE - FEWER
    return collections.Counter({key: (it - fewer[key]) / rounds for key, it in more.items() if it != fewer[key]})


class Profile:
    """Instructions: at each address of each file; of each function alone, and including what it calls. Also how often
    each function is called."""

    def __init__(self):
        self.at, self.alone, self.whole, self.calls = (collections.Counter() for _ in range(4))


def read_profile(lines):
    """Returns the profile that callgrind wrote. All instances of a generic function count as one function."""
    found, file, function, callee, calls = Profile(), "", "", "", 0
    for line in lines:
        kind, _, value = line.rstrip("\n").partition("=")
        value = value.split("::<")[0]
        file = value if kind == "ob" else file
        function = value if kind == "fn" else function
        callee = value if kind == "cfn" else callee
        if kind == "calls":
            calls = int(value.split()[0])
            found.calls[callee] += calls
        elif line.startswith("0x"):
            address, _, count = line.split()
            found.whole[function] += 0 if calls and callee == function else int(count)
            found.alone[function] += 0 if calls else int(count)
            found.at[file, int(address, 16)] += 0 if calls else int(count)
            calls = 0
    return found


def profile_of(program, task):
    """Returns the profile of one round, by callgrind."""
    options = ["--tool=callgrind", "--dump-instr=yes", "--compress-strings=no", "--compress-pos=no"]
    fewer, more = both_runs(options, "--callgrind-out-file", program, task, read_profile)
    found = Profile()
    for kind, counts in vars(found).items():
        counts.update(a_round(vars(fewer)[kind], vars(more)[kind]))
    return found


def read_copies(file):
    """Returns how many copies, and of how many bytes in all, DHAT saw at each place of the program."""
    seen, copies, size = json.load(file), collections.Counter(), collections.Counter()
    for place in seen["pps"]:
        where = tuple(seen["ftbl"][it] for it in place["fs"])
        copies[where] += place["tbk"]
        size[where] += place["tb"]
    return copies, size


def copies_by_size(program, task):
    """Returns how many copies of each size memcpy and memmove make in a round, by DHAT. Copies at one place count with
    their mean size."""
    options = ["--tool=dhat", "--mode=copy", "--num-callers=2"]
    fewer, more = both_runs(options, "--dhat-out-file", program, task, read_copies)
    copies, size = (a_round(less, all_) for less, all_ in zip(fewer, more))
    found = collections.Counter()
    for where, count in copies.items():
        found[round(size[where] / count)] += count
    return found
