#!/usr/bin/env python3
"""Whether a proxy lets each address have 32 connections at once and no more: `limits.py PORT lines|sockets`."""
import socket
import sys

MOST = 32
ASKED = {
    "lines": (b"?\n", b'{"fault":1}'),
    "sockets": (
        b"GET / HTTP/1.1\r\nHost: limits\r\nUpgrade: websocket\r\nConnection: Upgrade\r\nSec-WebSocket-Version: 13\r\n"
        b"Sec-WebSocket-Key: AAAAAAAAAAAAAAAAAAAAAA==\r\n\r\n",
        b"HTTP/1.1 101",
    ),
}
port, (line, reply) = int(sys.argv[1]), ASKED[sys.argv[2]]
held = []


def is_served(address):
    """Whether a connection from this address gets a reply. It stays open."""
    try:
        stream = socket.create_connection(("127.0.0.1", port), timeout=10, source_address=(address, 0))
        held.append(stream)
        stream.sendall(line)
        return stream.recv(64).startswith(reply)
    except ConnectionError:
        return False


served = [is_served("127.0.0.9") for _ in range(MOST + 8)]
if served != [True] * MOST + [False] * 8:
    sys.exit(f"cases/cluster: of {len(served)} connections of one address {sum(served)} are served, and not the first {MOST}")
if not is_served("127.0.0.10"):
    sys.exit("cases/cluster: another address is not served")
print(f"port {port}: an address has {MOST} connections, and no more; another is served beside it")
