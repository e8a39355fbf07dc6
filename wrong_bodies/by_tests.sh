#!/usr/bin/env bash
# Tries the wrong bodies that no contract refuses, since no clause says what they change (`by_tests/`). In a copy of the last
# commit each is made by itself, and a test of the crate that its line `tests:` names has to fail; as the code stands, all of them
# pass. Modules named behind the crate are those whose tests are run, with what they use: where others take long and see nothing of
# it. A test that doesn't end in time refuses nothing. It proves nothing, and takes some three minutes for each. Words: crates (all
# that have a folder in `by_tests/`).
set -eu
here=$(cd -- "$(dirname -- "$0")" && pwd)
top=$(cd -- "$here/.." && pwd)
for tool in git python3 rt; do
    command -v "$tool" > /dev/null || { echo "wrong_bodies: the command $tool is missing" >&2; exit 1; }
done
[ $# -gt 0 ] || set -- $(cd "$here/by_tests" && ls)

work=$(mktemp -d)
trap 'rm -rf "$work"' EXIT
git -C "$top" archive HEAD | tar -x -C "$work"
python3 - "$work" "$@" <<'END'
import glob, os, re, shutil, subprocess, sys
work, *crates = sys.argv[1:]
os.chdir(work)
# What a test may take: a test that is stopped refuses nothing.
SECONDS = 900


def used_by(tests, modules):
    """These modules of a crate of tests, and those that they use."""
    found = set()
    while modules:
        module, *modules = modules
        if module not in found:
            found.add(module)
            own = f"crates/{tests}/src/{module}"
            for file in [f"{own}.rt", *glob.glob(f"{own}/**/*.rt", recursive=True)]:
                roots = "crate|super" if file == f"{own}.rt" else "crate"
                modules += re.findall(rf"\b(?:{roots})::(\w+)", open(file, encoding="utf-8").read())
    return found


def outcome(tests, modules):
    """How the tests end: "ok", "FAILED", "stopped" where some were and none failed, or "no end"; and those that failed."""
    if not modules:
        return ended_as(tests)
    kept, source, aside = used_by(tests, modules), f"crates/{tests}/src", f"{tests}.aside"
    shutil.copytree(source, aside)
    with open(f"{source}/lib.rt", encoding="utf-8") as file:
        whole = file.read()
    with open(f"{source}/lib.rt", "w", encoding="utf-8") as file:
        file.write(re.sub(r"#\[cfg\(test\)\]\nmod (\w+);\n", lambda found: found[0] if found[1] in kept else "", whole))
    # A file that no `mod` names stops the compiler.
    for name in os.listdir(source):
        module = name.removesuffix(".rt")
        if module not in kept | {"lib"}:
            (shutil.rmtree if os.path.isdir(f"{source}/{name}") else os.remove)(f"{source}/{name}")
    try:
        return ended_as(tests)
    finally:
        shutil.rmtree(source)
        shutil.move(aside, source)


def ended_as(tests):
    ran = subprocess.run(["rt", "try", "--test", "--seconds", str(SECONDS)], cwd=f"crates/{tests}", capture_output=True, text=True).stdout
    ended = re.search(r"^test result: (\w+)\.", ran, re.M)
    if not ended:
        return "no end", []
    # What a test said stands behind its line.
    told = re.split(r"^test (\S+) \.\.\. ", ran, flags=re.M)
    unlike = [(name, "no-answer" in said) for name, said in zip(told[1::2], told[2::2]) if said.startswith("FAILED")]
    failed = [name for name, is_stopped in unlike if not is_stopped]
    return ("stopped" if unlike and not failed else ended[1]), failed


passed, missed = set(), 0
for crate in crates:
    edits = sorted(glob.glob(f"wrong_bodies/by_tests/{crate}/*.edit"))
    if not edits:
        sys.exit(f"wrong_bodies: there is no folder by_tests/{crate} with edits in the last commit")
    for edit in edits:
        pairs = [line.partition(": ")[::2] for line in open(edit, encoding="utf-8").read().splitlines()]
        said = dict(pairs)
        (tests, *modules), path = said["tests"].split(), f"crates/{crate}/{said['file']}"
        if said["tests"] not in passed:
            ended, failed = outcome(tests, modules)
            if ended != "ok":
                sys.exit(f"wrong_bodies: {said['tests']} as the code stands: {ended} {' '.join(failed)}")
            passed.add(said["tests"])
        right = open(path, encoding="utf-8").read()
        wrong = right
        for (_, old), (_, new) in zip(pairs[2::2], pairs[3::2]):
            wrong = wrong.replace(old, new)
        open(path, "w", encoding="utf-8").write(wrong)
        ended, failed = outcome(tests, modules)
        open(path, "w", encoding="utf-8").write(right)
        refused = ended == "FAILED"
        missed += not refused
        print(f"{edit}: {'refused by ' + ', '.join(failed) if refused else f'NOT refused: {ended}'}", flush=True)
sys.exit(1 if missed else 0)
END
