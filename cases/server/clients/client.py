"""The built program as a process, and its clients: by lines over TCP, and by the frames of a WebSocket, written by hand.

What a journal holds follows from what the clients were replied: `is_event` says which replies are to a call of the book. Each
solve job that is done adds a claim and a finish, each table twenty of both, each play one of both for each of its numbers but
that after the last card, and each worker a last claim that finds the book shut. Each job that is open when its connection ends
adds a cancel."""
import atexit
import base64
import os
import re
import resource
import socket
import struct
import subprocess
import sys
import time

CASES = os.path.dirname(os.path.dirname(os.path.dirname(os.path.abspath(__file__))))
# The built program, and not the script that builds it: that one's own tools would lack memory too where a case refuses it.
PROGRAM = os.environ.get("DDSERVE") or os.path.join(os.path.dirname(CASES), "crates", "ddserve", "out", "ddserve")
ONE_CARD = '{"do":"solve","deal":"N:A... K... Q... J...","trump":4,"first":0,"solutions":3}'
ONE_CARD_REPLY = '{"cards":[{"equals":0,"rank":14,"score":1,"suit":0}]}'
STOP = '{"do":"stop"}'
CLOSING = '{"closing":true}'
# The faults of lines that made no call of the book, and of calls that left no event.
NO_EVENT = {f'{{"fault":{number}}}' for number in (*range(1, 13), 15, *range(19, 28))}


def is_event(reply):
    """Not par, either, nor how a run is: they are told without a call."""
    return reply not in NO_EVENT and not reply.startswith(('{"contracts"', '{"events_left"'))


def check(what, got, wanted):
    if got != wanted:
        sys.exit(f"cases/server: {what}: {got!r} in place of {wanted!r}")


def recorded(name, count=None):
    """Request lines with the line tool's replies."""
    with open(os.path.join(CASES, "data", f"{name}.jsonl")) as requests, open(os.path.join(CASES, "data", f"{name}.expected")) as replies:
        return list(zip(requests.read().splitlines(), replies.read().splitlines(), strict=True))[:count]


def done(expected, job):
    """The reply to a fetch of a job that is done, where the line tool replies so to its request."""
    if expected.startswith(('{"table"', '{"tricks"')):
        return f'{{"job":{job},"state":"done",{expected[1:]}'
    return f'{expected[:-1]},"job":{job},"state":"done"}}'


def fetch(job):
    return f'{{"do":"fetch","job":{job}}}'


def waiting(line, wait=60_000):
    """The line with a wait."""
    return f'{line[:-1]},"wait":{wait}}}'


def cancel(job):
    return f'{{"do":"cancel","job":{job}}}'


def state(job, name):
    return f'{{"job":{job},"state":"{name}"}}'


def is_open(reply, job):
    """The job waits or runs."""
    return reply in (state(job, "waiting"), state(job, "running"))


def deal(drawn, cards):
    """A deal of so many cards a hand, by a random generator."""
    pack = list(range(52))
    drawn.shuffle(pack)
    hands = [sorted(pack[cards * seat:cards * seat + cards], reverse=True) for seat in range(4)]
    suits = [[[card % 13 for card in hand if card // 13 == suit] for suit in range(4)] for hand in hands]
    return "N:" + " ".join(".".join("".join("23456789TJQKA"[rank] for rank in suit) for suit in hand) for hand in suits)


def full_deal(drawn):
    """A deal of all cards, by a random generator."""
    return deal(drawn, 13)


def number_of(reply):
    """The job of `{"job":j}`."""
    found = re.fullmatch(r'\{"job":(\d+)\}', reply or "")
    if not found:
        sys.exit(f"cases/server: a submit was replied {reply!r}")
    return int(found.group(1))


def more_descriptors(count=20_000):
    most = resource.getrlimit(resource.RLIMIT_NOFILE)[1]
    count = count if most == resource.RLIM_INFINITY else min(count, most)
    resource.setrlimit(resource.RLIMIT_NOFILE, (count, most))
    return count


class Server:
    """The program, serving at a free port with these options."""

    def __init__(self, *options, workers=2, descriptors=None):
        def limit():
            if descriptors:
                resource.setrlimit(resource.RLIMIT_NOFILE, (descriptors, descriptors))

        self.workers = workers
        command = [PROGRAM, "serve", "--listen", "127.0.0.1:0", "--workers", str(workers), *options]
        self.process = subprocess.Popen(command, stdout=subprocess.PIPE, stderr=subprocess.PIPE, text=True, preexec_fn=limit)
        # No program outlives a check that failed.
        atexit.register(self.process.kill)
        line = self.process.stdout.readline()
        found = re.fullmatch(r"listening on 127\.0\.0\.1:(\d+)\n", line)
        if not found:
            sys.exit(f"cases/server: in place of its address the program told {line!r}: {self.process.stderr.read()}")
        self.port = int(found.group(1))

    def connect(self, timeout=60):
        return Lines(self.stream(timeout))

    def stream(self, timeout=60):
        return socket.create_connection(("127.0.0.1", self.port), timeout=timeout)

    def resident(self, which="VmRSS"):
        """The memory in use, in MB; of `VmHWM` the most that ever was."""
        with open(f"/proc/{self.process.pid}/status") as file:
            return int(re.search(rf"{which}:\s+(\d+) kB", file.read()).group(1)) / 1024

    def descriptors(self):
        return len(os.listdir(f"/proc/{self.process.pid}/fd"))

    def threads(self):
        return os.listdir(f"/proc/{self.process.pid}/task")

    def switches(self):
        """How often the threads that are there have waited."""
        total = 0
        for thread in self.threads():
            with open(f"/proc/{self.process.pid}/task/{thread}/status") as file:
                total += sum(int(line.split()[1]) for line in file if line.startswith("voluntary_ctxt_switches"))
        return total

    def runs(self):
        return self.process.poll() is None

    def end_of_runs(self, timeout=60):
        """What the program told as the numbers of events of its runs, its status, and what it said on the standard error."""
        try:
            told, said = self.process.communicate(timeout=timeout)
        except subprocess.TimeoutExpired:
            self.process.kill()
            sys.exit(f"cases/server: the program did not end within {timeout} seconds")
        if not re.fullmatch(r"(closed after \d+ events\n)*", told):
            sys.exit(f"cases/server: at the end the program told {told!r}")
        return [int(number) for number in re.findall(r"\d+", told)], self.process.returncode, said

    def end(self, timeout=60):
        """The same of one run: its number of events, or nothing where none was told."""
        runs, status, said = self.end_of_runs(timeout)
        return runs[0] if len(runs) == 1 else runs or "", status, said

    def end_after(self, events, timeout=60):
        """Checks that the program ends well, with these events besides each worker's last claim."""
        check("the end", self.end(timeout), (events + self.workers, 0, ""))

    def end_between(self, least, most, timeout=60):
        """Checks that the program ends well, with so many events besides each worker's last claim."""
        events, status, said = self.end(timeout)
        check("the end", (status, said), (0, ""))
        check(f"{events} events", least <= events - self.workers <= most, True)


class Lines:
    """A connection by lines."""

    def __init__(self, stream):
        self.stream = stream
        self.reader = stream.makefile("rb")

    def send(self, *lines):
        self.stream.sendall("".join(f"{line}\n" for line in lines).encode())

    def line(self):
        """The next line, or None at the end, which is a reset where the program had not read all that was sent."""
        try:
            line = self.reader.readline()
        except ConnectionError:
            return None
        return line.decode()[:-1] if line.endswith(b"\n") else None

    def lines(self):
        """All lines up to the end."""
        return list(iter(self.line, None))

    def ask(self, line):
        self.send(line)
        return self.line()

    def until_done(self, job, most=1_000_000):
        """Fetches the job until it neither waits nor runs: the last reply, and how many fetches it took."""
        for asked in range(1, most):
            reply = self.ask(fetch(job))
            if not is_open(reply, job):
                return reply, asked
            time.sleep(0 if asked < 50 else 0.002)
        sys.exit(f"cases/server: job {job} is not done after {most} fetches")

    def finish(self):
        """Says that nothing more comes."""
        self.stream.shutdown(socket.SHUT_WR)

    def close(self):
        self.reader.close()
        self.stream.close()

    def __enter__(self):
        return self

    def __exit__(self, *_):
        self.close()


class Frames:
    """A connection by WebSocket frames."""

    TEXT, BINARY, CLOSE, PING, PONG = 1, 2, 8, 9, 10

    def __init__(self, stream, origin=None):
        self.stream = stream
        self.reader = stream.makefile("rb")
        key = base64.b64encode(os.urandom(16)).decode()
        head = ["GET / HTTP/1.1", "Host: 127.0.0.1", "Connection: Upgrade", "Upgrade: websocket", "Sec-WebSocket-Version: 13", f"Sec-WebSocket-Key: {key}"]
        if origin:
            head.append(f"Origin: {origin}")
        stream.sendall("".join(f"{line}\r\n" for line in [*head, ""]).encode())
        while (line := self.reader.readline()) != b"\r\n":
            if not line:
                raise ConnectionError("no handshake")

    @staticmethod
    def frame(kind, data, last=True):
        mask = b"\1\2\3\4"
        size = len(data)
        if size < 126:
            head = bytes([0x80 | size])
        elif size < 65_536:
            head = bytes([0x80 | 126]) + struct.pack(">H", size)
        else:
            head = bytes([0x80 | 127]) + struct.pack(">Q", size)
        return bytes([0x80 * last | kind]) + head + mask + bytes(byte ^ mask[place % 4] for place, byte in enumerate(data))

    def send(self, kind, data, last=True):
        self.stream.sendall(self.frame(kind, data, last))

    def receive(self):
        """The kind and the bytes of the next frame, or None at the end."""
        try:
            head = self.reader.read(2)
            if len(head) < 2:
                return None
            size = head[1]
            if size == 126:
                (size,) = struct.unpack(">H", self.reader.read(2))
            return head[0] & 15, self.reader.read(size)
        except ConnectionError:
            return None

    def text(self):
        frame = self.receive()
        return frame[1].decode() if frame and frame[0] == self.TEXT else frame

    def ask(self, line):
        self.send(self.TEXT, line.encode())
        return self.text()

    def close(self):
        self.reader.close()
        self.stream.close()


class Messages:
    """A connection by WebSocket frames, for those who speak in lines."""

    def __init__(self, stream):
        self.frames = Frames(stream)

    def send(self, *lines):
        self.frames.stream.sendall(b"".join(Frames.frame(Frames.TEXT, line.encode()) for line in lines))

    def line(self):
        return self.frames.text()

    def ask(self, line):
        self.send(line)
        return self.line()

    def close(self):
        self.frames.close()

    def __enter__(self):
        return self

    def __exit__(self, *_):
        self.close()
