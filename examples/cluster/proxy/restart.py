#!/usr/bin/env python3
"""Takes a server out of HAProxy, restarts it by a command, and takes it in again:

    restart.py RUN/haproxy.sock a -- systemctl restart ddserve

It gets no new connections. Those that it has may end for `--grace` seconds, and are closed then: their clients connect anew, to
another server, and ask again. The command returns when the server is started; it is in again when it has answered the check."""
import argparse
import csv
import socket
import subprocess
import sys
import time


def ask(path, line):
    """What HAProxy says to a command."""
    with socket.socket(socket.AF_UNIX) as stream:
        stream.connect(path)
        stream.sendall(f"{line}\n".encode())
        return stream.makefile().read()


def rows(path, name):
    """The statistics of the server in each part that has it."""
    table = csv.DictReader(ask(path, "show stat").removeprefix("# ").splitlines())
    return [row for row in table if row["svname"] == name]


def wait_until(seconds, is_so):
    end = time.monotonic() + seconds
    while not (came := is_so()) and time.monotonic() < end:
        time.sleep(0.05)
    return came


parser = argparse.ArgumentParser(description=__doc__, formatter_class=argparse.RawDescriptionHelpFormatter)
parser.add_argument("socket")
parser.add_argument("server")
parser.add_argument("command", nargs="+")
parser.add_argument("--grace", type=float, default=5)
parser.add_argument("--patience", type=float, default=30, help="seconds until it has to be in again")
words = parser.parse_args()
places = [f"{row['pxname']}/{words.server}" for row in rows(words.socket, words.server)]
if not places:
    sys.exit(f"{sys.argv[0]}: HAProxy has no server {words.server}")
for place in places:
    ask(words.socket, f"set server {place} state drain")
wait_until(words.grace, lambda: all(row["scur"] == "0" for row in rows(words.socket, words.server)))
for place in places:
    ask(words.socket, f"shutdown sessions server {place}")
status = subprocess.run(words.command).returncode
for place in places:
    ask(words.socket, f"set server {place} state ready")
if status or not wait_until(words.patience, lambda: all(row["status"] == "UP" for row in rows(words.socket, words.server))):
    sys.exit(f"{sys.argv[0]}: the command ended with {status}, and {words.server} is {[row['status'] for row in rows(words.socket, words.server)]}")
