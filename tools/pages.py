"""What README.md names: each command, path, key and log line must exist. And what docs/OPERATORS.md says of the keys of
the configuration: the same as the program's table of them."""
import glob
import os
import re

from repository import libraries, text_of

PAGE, OPERATORS, EXAMPLE = "README.md", "docs/OPERATORS.md", "examples/office.toml"
KEY_TABLE = "crates/configuration/src/key.rt"
# A command or a path; a key with its value; a plain word; a log line; a page that a link leads to, and its heading.
PATH = re.compile(r"(?:\./)?[\w.-]+/[\w./-]*")
KEY = re.compile(r"(\w+) = ")
WORD = re.compile(r"[a-z_]+")
LINE = re.compile(r"    ([a-z][a-z-]+)((?: [a-z-]+=\S+)+)$", re.M)
LINK = re.compile(r"\]\(([^)#]*)(?:#([\w-]+))?\)")
# A row of the program's table of keys.
KEY_ROW = re.compile(r'(required|optional)\(\s*"(\w+)",\s*Kind::(\w+)(?:\(([^)]*)\))?')
PAGES = re.compile(r"(?:docs|examples|tools|crates|rows)/[\w./-]*\w")


def said_keys():
    """What the table for operators says of each key."""
    table = text_of(OPERATORS).partition("\n| Key |")[2].partition("\n\n")[0]
    rows = re.findall(r"^\| (`\w+`(?:, `\w+`)*) \| (.*) \|$", table, re.M)
    return {key: says for names, says in rows for key in re.findall(r"`(\w+)`", names)}


def program_keys():
    """The program's keys: whether each may be missing, and its least and greatest number, where it is one."""
    rows = KEY_ROW.findall(text_of(KEY_TABLE))
    return {key: (need == "optional", re.findall(r"\b\d+\b", words) if kind == "Between" else []) for need, key, kind, words in rows}


def key_faults():
    """Each key of which the page for operators and the program's table of keys say different things."""
    said, keys = said_keys(), program_keys()
    yield from (f"{OPERATORS}: {key}: not in the table of both" for key in sorted(set(said) ^ set(keys)))
    optional = text_of(OPERATORS).partition("these keys and no others.")[2].partition(" are optional.")[0]
    may_be_missing = {key for key, (is_optional, _) in keys.items() if is_optional}
    yield from (f"{OPERATORS}: {key}: optional in one of both" for key in sorted({*re.findall(r"`(\w+)`", optional)} ^ may_be_missing))
    for key, (_, numbers) in keys.items():
        if numbers and " to ".join(numbers) not in said.get(key, ""):
            yield f"{OPERATORS}: {key}: not {' to '.join(numbers)}"


def keys():
    """The keys of the configuration, from the table for operators and from the example."""
    return {*said_keys(), *re.findall(r"^(?:# )?(\w+) = ", text_of(EXAMPLE), re.M)}


def quoted():
    """The quoted words in the crates that write the log, and in the one of the command line."""
    crates = "note_lines", "operator", "log_pipe", "live_users", "server"
    text = "".join(text_of(file) for name in crates for file in glob.glob(f"crates/{name}/src/**/*.rt", recursive=True))
    return set(re.findall(r'"([\w-]+)"', text))


def known_words():
    """The plain words that the page may name: keys, crates and the libraries that they use, and the toolchain's
    command."""
    crates = libraries()
    return keys() | set(crates) | {name for names in crates.values() for name in names} | {"rt"}


def is_there(path):
    """Whether the path is a file's or folder's, in the repository or in a crate."""
    return bool(os.path.exists(path) or glob.glob(f"crates/*/{path}"))


def headings(page):
    """The headings of a page, as links name them."""
    titles = re.findall(r"^#+ (.*)$", text_of(page), re.M)
    return {re.sub(r"[^\w -]", "", title).strip().lower().replace(" ", "-") for title in titles}


def readme_faults():
    """Each name in README.md of something that does not exist."""
    text, words = text_of(PAGE), known_words()
    spans = re.findall(r"`([^`]+)`", text) + re.findall(r"^    \$ (.*)$", text, re.M)
    for span in spans:
        first = span.split()[0]
        if PATH.fullmatch(first) and not is_there(first):
            yield f"{PAGE}: {first}: no such file"
        elif KEY.match(span) and KEY.match(span)[1] not in keys():
            yield f"{PAGE}: {span}: no such key"
        elif WORD.fullmatch(span) and span not in words:
            yield f"{PAGE}: {span}: neither a key nor a crate"
    for word, fields in LINE.findall(text):
        yield from (f"{PAGE}: {it}: no word of a line of the log" for it in {word, *re.findall(r"([a-z-]+)=", fields)} - quoted())
    yield from (f"{PAGE}: {it}: no such file" for it in set(PAGES.findall(text)) if not os.path.exists(it))
    for page, heading in LINK.findall(text):
        if heading and os.path.exists(page or PAGE) and heading not in headings(page or PAGE):
            yield f"{PAGE}: {page}#{heading}: no such heading"
