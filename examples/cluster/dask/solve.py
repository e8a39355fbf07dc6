#!/usr/bin/python3
"""Solves request lines on the workers of Dask, and writes the replies in their order:

    solve.py SCHEDULER < requests > replies

Each worker keeps one `ddserve solve` alive, with as many threads as the worker has. A part of the lines is a task; a worker that is
lost loses its parts to others. What is held at once does not grow with the file."""
import argparse
import itertools
import sys
from collections import deque

from distributed import Client, WorkerPlugin, get_worker

NAME = "ddserve"


class Solver(WorkerPlugin):
    """The program as a process of the worker, started with the first part, and anew after it has ended."""

    name = NAME

    def __init__(self, program):
        self.program = program

    def setup(self, worker):
        import threading

        self.threads = worker.state.nthreads
        self.turn = threading.Lock()
        self.process = None

    def teardown(self, worker):
        if self.process:
            self.process.kill()
            self.process.wait()

    def solve(self, lines):
        """The replies to lines. They are one part's, whose turn it is."""
        import subprocess
        import threading

        with self.turn:
            if self.process is None:
                words = [self.program, "solve", "--workers", str(self.threads)]
                self.process = subprocess.Popen(words, stdin=subprocess.PIPE, stdout=subprocess.PIPE)
            process = self.process

            def send():
                try:
                    process.stdin.write(lines)
                    process.stdin.flush()
                except OSError:
                    pass

            # Beside the reading: neither of the two pipes holds a whole part.
            sender = threading.Thread(target=send)
            sender.start()
            replies = b"".join(process.stdout.readline() for _ in range(lines.count(b"\n")))
            sender.join()
            if replies.count(b"\n") != lines.count(b"\n"):
                self.teardown(None)
                self.process = None
                raise RuntimeError("the program ended before its replies")
            return replies


def solve(lines):
    return get_worker().plugins[NAME].solve(lines)


def parts(file, size):
    while lines := list(itertools.islice(file, size)):
        if not lines[-1].endswith(b"\n"):
            lines[-1] += b"\n"
        yield b"".join(lines)


parser = argparse.ArgumentParser(description=__doc__, formatter_class=argparse.RawDescriptionHelpFormatter)
parser.add_argument("scheduler", help="its address, as tcp://host:8786")
parser.add_argument("--program", default="ddserve", help="the program on the workers")
parser.add_argument("--lines", type=int, default=100, help="of a part")
parser.add_argument("--ahead", type=int, default=4, help="the parts for each thread that are held at once")
parser.add_argument("--retries", type=int, default=3, help="how often a part is begun anew whose program has ended")
words = parser.parse_args()
with Client(words.scheduler) as client:
    client.register_worker_plugin(Solver(words.program))
    held = deque()
    most = words.ahead * max(1, sum(client.nthreads().values()))
    for part in parts(sys.stdin.buffer, words.lines):
        held.append(client.submit(solve, part, pure=False, retries=words.retries))
        if len(held) == most:
            sys.stdout.buffer.write(held.popleft().result())
    for future in held:
        sys.stdout.buffer.write(future.result())
