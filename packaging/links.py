#!/usr/bin/env python3
"""That the pages of an unpacked package lead somewhere, and that its README tells what happens. Words: the folder of README.md, the
folder for files that it makes in place of /tmp, and an environment for its commands as `NAME=VALUE` words. Or `--links` and pages:
then only the links of these are followed.

Each link of each page leads to a file of the package, and to a heading that is there. Each path in the README, in backticks or in a
command, is there, but for those below bin/ and share/ where it is not the tarball. Each command of the README with lines below it prints
these, and the others end with status 0, but for the server, which has no end. Prints `page: what` for each breach, and ends with status 1."""
import os
import re
import subprocess
import sys

found = []


def read(path):
    with open(path, encoding="utf-8") as file:
        return file.read()


def anchors(text):
    """Returns the anchors of a page's headings."""
    titles = re.findall(r"^#+ (.*)$", text, re.M)
    return {re.sub(r"[^\w\- ]", "", title.lower()).replace(" ", "-") for title in titles}


def look_at_links(page):
    for target, anchor in re.findall(r"\]\(([^)#\s]*)(?:#([^)]*))?\)", read(page)):
        if re.match(r"\w+:", target):
            continue
        path = os.path.normpath(os.path.join(os.path.dirname(page), target)) if target else page
        if not os.path.exists(path):
            found.append(f"{page}: the link to {target} leads nowhere")
        elif anchor and anchor not in anchors(read(path)):
            found.append(f"{page}: {target} has no heading {anchor}")


def look_at_paths(page, text):
    """Of paths that begin here; others, such as /etc, are the system's."""
    is_tarball = os.path.exists(os.path.join(os.path.dirname(page), "bin"))
    for piece in re.findall(r"`([^`\n]+)`", text) + re.findall(r"^    (.*)$", text, re.M):
        for path in re.findall(r"(?<![\w/.~$-])\.?[a-z]+(?:/[\w.-]+)+", piece):
            if not os.path.exists(os.path.join(os.path.dirname(page), path)) and (is_tarball or not path.startswith(("bin/", "share/"))):
                found.append(f"{page}: {path} is not there")
        if re.match(r"\./\w+( |$)", piece) and not os.path.exists(os.path.join(os.path.dirname(page), piece.split()[0])):
            found.append(f"{page}: the command {piece.split()[0]} is not there")


def commands_of(text):
    """Returns each command of the README's blocks, with the lines that stand below it."""
    told = []
    for line in re.findall(r"^    (.*)\n", text, re.M):
        if re.match(r"(ddserve|echo|python3) ", line):
            told.append((line, []))
        elif told:
            told[-1][1].append(line)
        else:
            found.append(f"a block begins with {line!r}, which is no command")
    return told


def run_commands(page, text, scratch, environment):
    told = commands_of(text)
    if len(told) < 5:
        found.append(f"{page}: it has no more than {len(told)} commands")
    for command, lines in told:
        if " serve " in command:
            continue
        command = command.replace("/tmp/", f"{scratch}/")
        done = subprocess.run(["bash", "-c", command], cwd=os.path.dirname(page), env={**os.environ, **environment}, capture_output=True, text=True)
        if done.returncode or lines and done.stdout != "".join(f"{line}\n" for line in lines):
            found.append(f"{page}: `{command}` ends with {done.returncode} and prints {done.stdout!r}, {done.stderr!r}")


def look_at_package(folder, scratch, *environment):
    pages = [os.path.join(at, name) for at, _, names in os.walk(folder) for name in names if name.endswith(".md")]
    for page in sorted(pages):
        look_at_links(page)
    readme = os.path.join(folder, "README.md")
    text = read(readme)
    look_at_paths(readme, text)
    run_commands(readme, text, scratch, dict(it.split("=", 1) for it in environment))


def main(first, *words):
    if first == "--links":
        for page in words:
            look_at_links(page)
    else:
        look_at_package(first, *words)
    for it in found:
        print(it, file=sys.stderr)
    sys.exit(1 if found else 0)


main(*sys.argv[1:])
