#!/usr/bin/env python3
"""That what the documents name is there: each path and name in backticks, and each file that a link leads to.

A path is looked for beside the document, at the top, under `crates/`, and in the crates that the text is about: that whose README
it is, and those that its section and the headings above it name; `NAME` in it stands for any, and its ending may be left out. A
path that three crates have is of each crate. A bare name is that of a file anywhere in these crates, in `docs/` and at the top
anywhere at all.

A name is looked for in the code as a whole word: a crate in `crates.txt`, `Type::method` in one file that has both words, a lemma
as it is or by its parts, of a longer piece of code each word that is CamelCase or snake_case. One letter before `-` or `_` stands
for any name. What is no name of this repository is passed over: blocks of code, commands and options of other programs, JSON,
literals, and the list OTHERS. Prints `file:line: what` for each breach, and ends with status 1."""
import fnmatch
import glob
import os
import re
import sys

# Not the changelog: it is of what was, too.
PAGES = ["README.md", "CONTRIBUTING.md", "docs/*.md", "crates/*/README.md", "bench/README.md", "cases/README.md", "examples/**/README.md"]
CODE = (".rt", ".antt", ".sh", ".py", ".rs", ".c", ".h", ".cpp", ".txt", ".edit", ".tsv")
FILES = (*CODE, ".md", ".jsonl", ".expected", ".pbn")
# Where a path of a crate's README may begin.
PARTS = ("", "src", "specs", "proofs", "must-fail")
# Names that are not of this repository.
OTHERS = {
    # DDS has more calls than the benches make.
    *"AnalysePlay AnalysePlayBin CalcAllTables CalcPar DealerPar DealerParBin SidesPar SidesParBin".split(),
    # The proxy's words in the part on TLS.
    *"allow auth_basic limit_conn reverse_proxy".split(),
    # The standard library's and the prover's, where a text says what is not used, or what a word means to the prover.
    *"Dec Mutex::try_lock is_finished".split(),
    # The toolchain's, as in `rt plant`.
    "plant",
}
# A piece that begins with one of these words is a command of another program, of which only paths are looked at.
COMMANDS = "apt-get curl dpkg git nc openssl perf printf python3 rt rustc systemctl systemd-analyze ulimit".split()


def read(path):
    with open(path, encoding="utf-8", errors="replace") as file:
        return file.read()


def walk():
    """Returns each file of the repository, but for what is built."""
    found = []
    for at, folders, names in os.walk("."):
        folders[:] = [it for it in folders if it not in ("out", ".git", "__pycache__")]
        found += [os.path.normpath(os.path.join(at, it)) for it in names]
    return found


ALL = walk()
FOLDERS = {os.path.dirname(it) for it in ALL}
FOLDERS |= {it for folder in FOLDERS for it in (folder[:at] for at, char in enumerate(folder) if char == "/")}
KNOWN = {*ALL, *FOLDERS}
BASES = {}
for it in KNOWN:
    BASES.setdefault(os.path.basename(it), []).append(it)
# (This file names what it passes over.)
TEXTS = {it: read(it) for it in ALL if it.endswith(CODE) and it != ".ci/documents.py" or it in ("ddserve", "HANDLES", ".ci/run")}
# The words as the compiler has them, and as the prover has them, with their hyphens and primes.
WORDS = {path: {*re.findall(r"\w+", text), *re.findall(r"[\w'-]+", text)} for path, text in TEXTS.items()}
EVERY = set().union(*WORDS.values())
CRATES = {line.partition(":")[0].split()[0] for line in TEXTS["crates.txt"].splitlines() if ":" in line}
KIT = {word for line in TEXTS["crates.txt"].splitlines() for word in line.partition(":")[2].split()} - CRATES


def is_there(path, page, about):
    """Whether a path is there, seen from the page and from the crates that the text is about."""
    path = re.sub(r"\bNAME\b|\bMODULE\b|\.\.\.", "*", path)
    if "/out" in f"/{path}" or path.startswith(("/", "~")):
        return True
    roots = ["", "crates", os.path.dirname(page)]
    for crate in about:
        roots += [f"wrong_bodies/{crate}", *(f"crates/{crate}/{part}" for part in PARTS)]
    wholes = [os.path.normpath(os.path.join(root, path)) for root in roots]
    if any(f"{whole}{ending}" in KNOWN for whole in wholes for ending in ("", ".rt", ".antt")):
        return True
    if "*" in path:
        return any(fnmatch.filter(KNOWN, whole) for whole in [*wholes, f"crates/*/{path}"])
    if sum(os.path.normpath(f"crates/{crate}/{part}{path}") in KNOWN for crate in CRATES for part in ("", "src/")) >= 3:
        return True
    if "/" in path.rstrip("/"):
        return False
    found = BASES.get(path.rstrip("/"), [])
    homes = tuple(f"{home}/{crate}/" for crate in about for home in ("crates", "wrong_bodies"))
    return any(it.startswith(homes) or not page.startswith("crates/") for it in found)


def is_known(word):
    if word in CRATES or word in KIT or word in OTHERS:
        return True
    if re.fullmatch(r"dd_\w+|\w+_tests", word):
        return False
    if word in EVERY:
        return True
    # A lemma of the compiler's is named after what it is about, and one letter stands for any name.
    if "-" in word:
        return all(len(it) == 1 or it in EVERY for it in word.split("-"))
    pattern = re.fullmatch(r"[a-z](_\w+)", word)
    return bool(pattern) and any(it.endswith(pattern[1]) for it in EVERY)


def faults_of(piece, page, about):
    """Yields what a piece in backticks names that is not there."""
    piece = piece.strip()
    first, _, rest = piece.partition(" ")
    words = []
    if first in COMMANDS or piece in OTHERS or not re.search(r"[A-Za-z]{2}", piece):
        words = [it for it in rest.split() if re.fullmatch(r"[\w./-]+/[\w./-]+", it)]
    elif re.match(r"--?[a-z]", piece):
        option = re.match(r"-+([\w-]+)", piece)[1]
        if not EVERY & {option, f"--{option}", option.replace("-", "_")}:
            yield f"`{piece}` is no option of the code"
    elif piece[0] in "{[\"'<":
        for it in re.findall(r'"([a-z_]{2,})"', piece):
            if it not in EVERY:
                yield f"`{piece}`: {it} is in no code"
    elif re.fullmatch(r"[\w.*~-]*(/[\w.*-]*)+|\.?[\w-]+(\.[\w-]+)*\.\w+", piece) and ("/" in piece or piece.endswith(FILES)):
        words = [piece]
    elif re.fullmatch(r"[\w'-]+", piece):
        if not piece.isupper() and not is_known(piece):
            yield f"`{piece}` is in no code"
    elif re.fullmatch(r"\w+(::\w+)+(\(.*\))?!?", piece):
        names = re.findall(r"\w+", piece.partition("(")[0])
        if not any(set(names) <= words for words in WORDS.values()):
            yield f"`{piece}`: no file of the code has {' and '.join(names)}"
    else:
        words = [it for it in piece.split() if re.fullmatch(r"\.{0,2}/?[A-Za-z][\w.-]*/[\w./-]*", it)]
        for it in re.findall(r"(?<![\w./-])[A-Za-z][\w']*(?![\w/])", piece):
            if re.search(r"\w_\w|[a-z][A-Z]", it) and not is_known(it) and not is_known(it.rstrip("'")):
                yield f"`{piece}`: {it} is in no code"
    for it in words:
        if not is_there(it, page, about):
            yield f"`{it}` is not there"


def texts(lines):
    """Yields each line of text, with its number and the headings above it: no blocks of code."""
    fenced, coded, headings = False, True, {}
    for number, line in enumerate(lines, 1):
        if line.startswith(("```", "~~~")):
            fenced = not fenced
        marks = re.match(r"(#+) ", line)
        if marks and not fenced:
            headings = {rank: text for rank, text in headings.items() if rank < len(marks[1])}
            headings[len(marks[1])] = line
        coded = line.startswith("    ") and coded or not line.strip()
        if not fenced and not (coded and line.strip()):
            yield number, line, tuple(headings.values())


found = 0
for page in sorted(path for pattern in PAGES for path in glob.glob(pattern, recursive=True)):
    own = page.split("/")[1:2] if page.startswith("crates/") else []
    shown = list(texts(read(page).split("\n")))
    sections = {}
    for _, line, headings in shown:
        sections.setdefault(headings, {*own}).update(CRATES.intersection(re.findall(r"\w+", " ".join([*headings, line]))))
    for number, line, headings in shown:
        about = sections[headings]
        for piece in re.findall(r"(?<!`)`([^`]+)`(?!`)", line):
            for what in faults_of(piece, page, about):
                print(f"{page}:{number}: {what}")
                found += 1
        for target in re.findall(r"\]\(([^)#\s]+)(?:#[^)]*)?\)", line):
            if not re.match(r"\w+:", target) and os.path.normpath(os.path.join(os.path.dirname(page), target)) not in KNOWN:
                print(f"{page}:{number}: the link to {target} leads nowhere")
                found += 1
sys.exit(1 if found else 0)
