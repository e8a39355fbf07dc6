#!/usr/bin/env python3
"""Bad input for `ddserve pbn`: the bytes come out unchanged, with status 0, in memory below 64 MB. Words: the program, and for
how many bytes long input goes on (1,000,000,000)."""

import os
import resource
import subprocess
import sys
import threading

HERE = os.path.dirname(os.path.abspath(__file__))
# The most memory, in kB.
MOST = 64 * 1024
NO_GAME = b"ddserve: no game was found: the input has no tag of PBN\n"
PIECE = 1 << 20


def repeated(head, unit):
    """A head, and then the unit again and again, in pieces, for so many bytes."""

    def pieces(size):
        yield head
        block = unit * (PIECE // len(unit))
        left = size - len(head)
        while left > 0:
            yield block[:left]
            left -= len(block)

    return pieces


def run(program, name, pieces, size, notes):
    """Is what comes out what goes in, with just these notes, in little memory?"""
    child = subprocess.Popen([program, "pbn"], stdin=subprocess.PIPE, stdout=subprocess.PIPE, stderr=subprocess.PIPE)

    def feed():
        with child.stdin:
            for piece in pieces(size):
                child.stdin.write(piece)

    said = []
    threads = [threading.Thread(target=feed), threading.Thread(target=lambda: said.append(child.stderr.read()))]
    for thread in threads:
        thread.start()
    expected = pieces(size)
    held = b""
    is_same = True
    while piece := child.stdout.read(PIECE):
        while len(held) < len(piece):
            more = next(expected, None)
            if more is None:
                break
            held += more
        is_same = is_same and held[: len(piece)] == piece
        held = held[len(piece) :]
    is_same = is_same and held == b"" and next(expected, None) is None
    for thread in threads:
        thread.join()
    _, status, used = os.wait4(child.pid, 0)
    ok = is_same and status == 0 and said[0] == notes and used.ru_maxrss < MOST
    print(f"{name}: {'unchanged' if is_same else 'CHANGED'}, status {status}, {used.ru_maxrss / 1024:.0f} MB, {used.ru_utime:.1f} s")
    if not ok:
        sys.exit(f"cases: {name} went wrong: {said[0][:200]!r}")


def main():
    program = sys.argv[1]
    size = int(sys.argv[2]) if len(sys.argv) > 2 else 1_000_000_000
    # A first start may build the program.
    subprocess.run([program, "--version"], check=True, stdout=subprocess.DEVNULL)
    with open(os.path.join(HERE, "../../docs/page.png"), "rb") as file:
        picture = file.read()
    run(program, "a picture", lambda _: iter([picture]), 0, NO_GAME)
    run(program, "NUL bytes", repeated(b"", b"\0"), size // 10, NO_GAME)
    run(program, "a line that never ends", repeated(b"", b"abc [x] % "), size, NO_GAME)
    run(program, "a game that never ends", repeated(b'[Event "x"]\n', b"1 C 2 D 3 H\n"), size // 10, b"ddserve: game 1 (board ?): no deal\n")
    run(program, "a comment that never ends", repeated(b'[Event "x"]\n{', b"so on\n\n"), size // 10, b"ddserve: game 1 (board ?): not closed\n")
    run(program, "tags that never end", repeated(b'[Event "x"]\n', b'[Event "'), size // 10, b"ddserve: game 1 (board ?): not closed\n")
    # What begins at a byte is judged by the next 65,536 bytes: this is no tag that the end of the file cuts off.
    run(program, "a string that never ends", repeated(b'[Event "x"]\n[Site "', b"so on "), size // 10, b"ddserve: game 1 (board ?): no deal\n")


if __name__ == "__main__":
    main()
