#!/usr/bin/env python3
"""Processes that are held: `run COMMAND..` runs a command with a folder of its own, WORK, becomes the parent of all that it leaves
behind, daemons too, and at its end kills what is left and removes the folder. `spent PID` tells the processor seconds of a process and of all below it, ended ones counted; `below PID
[NAME]` the ids of those below it, or of those with this name."""
import ctypes
import os
import shutil
import signal
import subprocess
import sys
import tempfile

PR_SET_CHILD_SUBREAPER = 36
TICKS = os.sysconf("SC_CLK_TCK")


def processes():
    """The name, the parent and the clock ticks of each process, its ended children's counted."""
    found = {}
    for name in filter(str.isdigit, os.listdir("/proc")):
        try:
            with open(f"/proc/{name}/stat", "rb") as file:
                head, _, rest = file.read().decode(errors="replace").rpartition(") ")
        except (FileNotFoundError, ProcessLookupError):
            continue
        fields = rest.split()
        found[int(name)] = (head.partition(" (")[2], int(fields[1]), sum(map(int, fields[11:15])))
    return found


def below(root, found):
    """The ids below the root, children after their parents."""
    children = {}
    for pid, (_, parent, _) in found.items():
        children.setdefault(parent, []).append(pid)
    ids = [root]
    for pid in ids:
        ids += children.get(pid, [])
    return ids[1:]


def end_all():
    """Kills what is below, until nothing is."""
    while ids := below(os.getpid(), processes()):
        for pid in ids:
            try:
                os.kill(pid, signal.SIGKILL)
            except ProcessLookupError:
                pass
        try:
            while os.waitpid(-1, 0):
                pass
        except ChildProcessError:
            pass


def run(command):
    """The status with which the command ended."""
    ctypes.CDLL(None).prctl(PR_SET_CHILD_SUBREAPER, 1, 0, 0, 0)
    for number in (signal.SIGTERM, signal.SIGINT, signal.SIGHUP):
        signal.signal(number, lambda number, _: sys.exit(128 + number))
    folder = tempfile.mkdtemp()
    try:
        first = subprocess.Popen(command, env={**os.environ, "WORK": folder})
        while True:
            pid, status = os.wait()
            if pid == first.pid:
                # As `first` was waited for here, it asks no more.
                first.returncode = os.waitstatus_to_exitcode(status)
                return first.returncode if first.returncode >= 0 else 128 - first.returncode
    finally:
        end_all()
        shutil.rmtree(folder)


if __name__ == "__main__":
    what, *words = sys.argv[1:]
    if what == "run":
        sys.exit(run(words))
    root, found = int(words[0]), processes()
    ids = below(root, found)
    if what == "spent":
        print(sum(found[pid][2] for pid in [root, *ids] if pid in found) / TICKS)
    else:
        print(*(pid for pid in ids if not words[1:] or found[pid][0] == words[1]))
