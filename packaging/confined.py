#!/usr/bin/python3
"""Runs a command as a unit of systemd would have it run, without systemd: words ROOT, UNIT, and the command with its words.

Taken from the unit, read anew each time: no capability and no new privilege, the limit of open files, the mask of new files, the
system calls of SystemCallFilter (what the sets hold is asked of `systemd-analyze syscall-filter`), the families of addresses, and
no memory that can be written and run. The user is one without a name, from the range that systemd takes such users from. The
command is looked for below ROOT. Not tried here: what systemd does with folders, devices, namespaces and restarts. As root; takes
prlimit and setpriv below ROOT, and python3-seccomp."""
import errno
import os
import socket
import subprocess
import sys

import seccomp

# The first user that systemd makes up for DynamicUser.
USER = 61184
PROT_WRITE, PROT_EXEC = 2, 4


def settings(unit):
    """Returns the settings of a unit that stand once in it."""
    with open(unit, encoding="utf-8") as file:
        pairs = [line.strip().partition("=")[::2] for line in file if "=" in line and not line.startswith("#")]
    return {name: value for name, value in pairs if [it for it, _ in pairs].count(name) == 1}


def calls(name):
    """Returns the system calls of a set, with those of the sets that it names."""
    if not name.startswith("@"):
        return {name}
    told = subprocess.run(["systemd-analyze", "syscall-filter", name], capture_output=True, text=True, check=True).stdout
    listed = [line.strip() for line in told.splitlines() if line.startswith(" ") and not line.strip().startswith("#")]
    return set().union(*map(calls, listed))


def rules(call, said):
    """Returns under which conditions on its arguments a call is allowed: one of these has to hold."""
    written, run = (seccomp.Arg(2, seccomp.MASKED_EQ, bit, 0) for bit in (PROT_WRITE, PROT_EXEC))
    if call == "socket":
        return [[seccomp.Arg(0, seccomp.EQ, getattr(socket, it))] for it in said["RestrictAddressFamilies"].split()]
    if said["MemoryDenyWriteExecute"] == "yes":
        if call == "mmap":
            return [[written], [run]]
        if call in ("mprotect", "pkey_mprotect"):
            return [[run]]
    return [[]]


def filtered(said):
    """Returns the filter of system calls that the unit asks for."""
    made = seccomp.SyscallFilter(seccomp.ERRNO(getattr(errno, said["SystemCallErrorNumber"])))
    for call in sorted(set().union(*map(calls, said["SystemCallFilter"].split()))):
        if seccomp.resolve_syscall(seccomp.Arch.NATIVE, call) >= 0:
            for conditions in rules(call, said):
                made.add_rule(seccomp.ALLOW, call, *conditions)
    return made


def main(root, unit, *command):
    said = settings(unit)
    assert said["CapabilityBoundingSet"] == "" and said["NoNewPrivileges"] == "yes" and said["DynamicUser"] == "yes", unit
    made = filtered(said)
    os.chroot(root)
    os.chdir("/")
    os.umask(int(said["UMask"], 8))
    made.load()
    words = ["prlimit", f"--nofile={said['LimitNOFILE']}", "setpriv", f"--reuid={USER}", f"--regid={USER}", "--clear-groups"]
    words += ["--bounding-set=-all", "--inh-caps=-all", "--ambient-caps=-all", "--no-new-privs", *command]
    os.execvp(words[0], words)


if __name__ == "__main__":
    main(*sys.argv[1:])
