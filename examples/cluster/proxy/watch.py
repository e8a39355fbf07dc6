#!/usr/bin/env python3
"""Asks each server behind nginx a line once a second, as nginx itself doesn't, and lets nginx leave those that don't answer:

    watch.py FOLDER

FOLDER has nginx.conf, and lists of servers. In these it writes `down` behind a server that failed twice, takes it away from one that
answers, and reloads nginx then. That closes the connections of all servers within `worker_shutdown_timeout`."""
import pathlib
import re
import socket
import subprocess
import sys
import time

FAILURES = 2
PATIENCE = 2
# What is sent, and what is waited for before the next.
ASKED = {
    "lines": [(b'{"do":"health"}\n', b"}\n")],
    "sockets": [
        (
            b"GET / HTTP/1.1\r\nHost: check\r\nUpgrade: websocket\r\nConnection: Upgrade\r\nSec-WebSocket-Version: 13\r\n"
            b"Sec-WebSocket-Key: AAAAAAAAAAAAAAAAAAAAAA==\r\n\r\n",
            b"\r\n\r\n",
        ),
        # A frame with that line, under a mask of zeros.
        (b'\x81\x8f\0\0\0\0{"do":"health"}', b'"workers":'),
    ],
}


def answers(address, steps):
    host, _, port = address.rpartition(":")
    try:
        with socket.create_connection((host, int(port)), timeout=PATIENCE) as stream:
            for line, wanted in steps:
                stream.sendall(line)
                told = b""
                while wanted not in told:
                    read = stream.recv(4096)
                    if not read:
                        return False
                    told += read
        return True
    except OSError:
        return False


def looked_at(text, kind, failures):
    """The list with each server's state as it is now."""
    lines = []
    for line in text.splitlines():
        address = line.split()[1].rstrip(";")
        failures[kind, address] = 0 if answers(address, ASKED[kind]) else failures.get((kind, address), 0) + 1
        if failures[kind, address] in (0, FAILURES):
            line = re.sub(r"( down)?;", " down;" if failures[kind, address] else ";", line)
        lines.append(f"{line}\n")
    # With none left nginx would not start: it may then try all.
    return "".join(lines) if any(" down;" not in it for it in lines) else text


folder = pathlib.Path(sys.argv[1]).resolve()
failures = {}
while True:
    changed = False
    for kind in ASKED:
        path = folder / f"{kind}.servers"
        before = path.read_text()
        after = looked_at(before, kind, failures)
        if after != before:
            path.write_text(after)
            changed = True
            print(f"{kind}: {[it for (of, it), count in failures.items() if of == kind and count >= FAILURES] or 'none'} down", flush=True)
    if changed:
        subprocess.run(["nginx", "-p", folder, "-c", folder / "nginx.conf", "-e", folder / "nginx.log", "-s", "reload"])
    time.sleep(1)
