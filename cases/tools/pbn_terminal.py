#!/usr/bin/env python3
"""What `ddserve pbn` shows in the last line of a terminal: how many games have ended, and at which byte of the file, each of
which is the place of an empty line behind a game; and nothing where the standard error is no terminal. Words: the program, and a
file of games with an empty line behind each and nothing to say of them."""

import os
import re
import subprocess
import sys


def shown(program, data):
    """What the standard error gets as a terminal."""
    master, slave = os.openpty()
    child = subprocess.Popen([program, "pbn"], stdin=subprocess.PIPE, stdout=subprocess.DEVNULL, stderr=slave)
    os.close(slave)
    child.stdin.write(data)
    child.stdin.close()
    text = b""
    while True:
        try:
            piece = os.read(master, 4096)
        except OSError:
            piece = b""
        if not piece:
            break
        text += piece
    child.wait()
    return text


def main():
    program, path = sys.argv[1:]
    with open(path, "rb") as file:
        data = file.read()
    ends = [match.start() + 1 for match in re.finditer(rb"\n\n", data) if b"[Board" in data[: match.start()]]
    # The end of the file is none of these.
    wanted = b"".join(b"\r\x1b[Kddserve: %d games, %d bytes" % (1 + number, end) for number, end in enumerate(ends))
    told = shown(program, data)
    if told != wanted + b"\r\x1b[K":
        sys.exit(f"cases: on a terminal it shows {told!r}")
    ran = subprocess.run([program, "pbn"], input=data, stdout=subprocess.DEVNULL, stderr=subprocess.PIPE, check=True)
    if ran.stderr:
        sys.exit(f"cases: where there is no terminal it says {ran.stderr!r}")
    print(f"progress: {len(ends)} places are shown on a terminal, and none elsewhere")


if __name__ == "__main__":
    main()
