#!/usr/bin/env python3
"""That the commands of the kit are used as they are: no script names what lies behind them, or starts a service manager.

A script is a file that begins with `#!`, or that ends with .sh or .py. Prints `file:line: what` for each breach, and ends with
status 1."""
import re
import subprocess
import sys

# This file names what it refuses.
OWN = ".ci/kit_commands.py"
BEHIND = {
    r"out/(incremental|rlib)\b|\b(incremental|rlib)\b.*\bout\b|\"(incremental|rlib)\"|\bincremental rlib\b": "what the kit keeps of a crate",
    r"crates/(\*|\{\w+,.*\})/out\b": "what the kit keeps of several crates",
    r"/opt/rattle|\bbin/rattle\b": "what lies behind the kit's commands",
    r"\bsystemd-nspawn\b|\bnspawn\b|--boot\b": "a service manager",
}
# As a module is loaded, and then the kit's command by its name.
LOADS = r"\bimportlib\b|\bSourceFileLoader\b|\bimp\.load|\brunpy\b"
COMMAND = r"[\"'/]rt\b|\bwhich\(.rt.\)"


def breaches(path, lines):
    """Yields the number of each line that goes behind the kit's commands, and what it names."""
    loads = any(re.search(COMMAND, line) for line in lines)
    for number, line in enumerate(lines, 1):
        for pattern, what in BEHIND.items():
            if re.search(pattern, line):
                yield number, what
                break
        if loads and re.search(LOADS, line):
            yield number, "the kit's command as a module"


found = 0
for path in subprocess.run(["git", "ls-files"], capture_output=True, text=True, check=True).stdout.splitlines():
    if path == OWN:
        continue
    with open(path, encoding="utf-8", errors="replace") as file:
        lines = file.read().splitlines()
    if path.endswith((".sh", ".py")) or lines and lines[0].startswith("#!"):
        for number, what in breaches(path, lines):
            print(f"{path}:{number}: names {what}")
            found += 1
sys.exit(1 if found else 0)
