"""The program under test, recorded answers of DDS, and servers."""
import json
import os
import re
import socket
import subprocess
import threading
from pathlib import Path
from typing import Any, Callable, Dict, Iterator, List, Tuple

import pytest

DATA = Path(__file__).resolve().parents[2] / "cases" / "data"
Recorded = List[Tuple[Dict[str, Any], Dict[str, Any]]]


def recorded(name: str) -> Recorded:
    """Requests of cases/data with the replies that are expected, which come from DDS."""
    requests = (DATA / f"{name}.jsonl").read_text().splitlines()
    replies = (DATA / f"{name}.expected").read_text().splitlines()
    assert len(requests) == len(replies) > 0
    return [(json.loads(request), json.loads(reply)) for request, reply in zip(requests, replies)]


@pytest.fixture(scope="session")
def program() -> str:
    path = os.environ.get("DDSERVE")
    assert path, "DDSERVE names the program"
    return path


class Serving:
    """The program as a server, at a free port where none is given."""

    def __init__(self, program: str, *options: str, port: int = 0) -> None:
        command = [program, "serve", "--listen", f"127.0.0.1:{port}", "--workers", "2", *options]
        self.process = subprocess.Popen(command, stdout=subprocess.PIPE, text=True)
        assert self.process.stdout is not None
        found = re.fullmatch(r"listening on 127\.0\.0\.1:(\d+)\n", self.process.stdout.readline())
        assert found
        self.port = int(found.group(1))

    def end(self) -> None:
        self.process.kill()
        self.process.wait()
        assert self.process.stdout is not None
        self.process.stdout.close()


@pytest.fixture
def serving(program: str) -> Iterator[Callable[..., Serving]]:
    started: List[Serving] = []

    def start(*options: str, port: int = 0) -> Serving:
        started.append(Serving(program, *options, port=port))
        return started[-1]

    yield start
    for it in started:
        it.end()


class Scripted:
    """A server by hand: for each connection the replies to its lines in turn. None closes the connection in place of a reply.

    `lines` has what each connection was asked."""

    def __init__(self, *connections: List[Any]) -> None:
        self.lines: List[List[Dict[str, Any]]] = []
        self._listener = socket.create_server(("127.0.0.1", 0))
        self.port = self._listener.getsockname()[1]
        self._thread = threading.Thread(target=self._serve, args=(connections,), daemon=True)
        self._thread.start()

    def _serve(self, connections: Tuple[List[Any], ...]) -> None:
        for replies in connections:
            stream, _ = self._listener.accept()
            asked: List[Dict[str, Any]] = []
            self.lines.append(asked)
            with stream, stream.makefile("rb") as lines:
                for reply in replies:
                    line = lines.readline()
                    if not line:
                        break
                    asked.append(json.loads(line))
                    if reply is None:
                        break
                    stream.sendall(json.dumps(reply).encode() + b"\n")
        self._listener.close()

    def finished(self) -> List[List[Dict[str, Any]]]:
        self._thread.join(10)
        assert not self._thread.is_alive()
        return self.lines
