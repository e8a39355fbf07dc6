"""An honest client beside newcomers: connections that come one after the other, each with one table of a full deal, and more of
them than the one worker can begin. The honest client asks for one card, has its reply, rests as a person does, and asks again.
Words: `leaving`, `staying`.

A client's place is that of its last turn, and of one that has had none that of its first submit. A free worker takes a part of the
client whose place lies furthest back. So a question waits for the part that is being searched, and for at most one part of each
client that had asked before the last turn of who asks. Where newcomers come before all who had a turn, it waits for as long as
they come.

`leaving`: for a minute each newcomer goes after a second, and its job is cancelled. The honest client rests longer than that, so
nobody is left who comes before it, and each of its questions is done within two seconds.
`staying`: no newcomer goes. Their tables pile up, so in no order is a question done soon for long, and what is compared is no time:
the parts that are searched while it waits, and the clients that had asked before its last turn."""
import random
import re
import statistics
import sys
import threading
import time
from client import CLOSING, ONE_CARD, ONE_CARD_REPLY, STOP, Server, cancel, check, done, fetch, full_deal, is_open, more_descriptors, number_of, waiting

HEALTH = '{"do":"health"}'
# So many deals are measured, and so many of them as whole tables.
SAMPLES, WHOLE = 30, 3
# How many times over the first parts of the newcomers' tables keep the worker busy, where each takes what it does by the median.
OVER = 2
# The seconds for which they come, and those after which each of them goes.
MINUTE, STAY = 60.0, 1.0
# How many come where they stay.
STAYING = 200
# The seconds that the honest client rests, and those within which its question is done.
SHORT_REST, REST, LONG_REST, SOON = 0.3, 1.0, 1.5, 2.0
# Parts that are searched between a reply and the look after it, and submits that are sent and not read.
SPARE = 20


def table(drawn):
    return f'{{"do":"table","deal":"{full_deal(drawn)}"}}'


def events_left(health):
    return int(re.match(r'\{"events_left":(\d+),', health)[1])


def stop(server, client):
    """The number of events."""
    check("a stop", client.ask(STOP), CLOSING)
    events, status, said = server.end()
    check("the end", (status, said), (0, ""))
    return events


def first_part(client, line):
    """The seconds until the first part of a table is handed in."""
    before = events_left(client.ask(HEALTH))
    since = time.monotonic()
    job = number_of(client.ask(line))
    # The submit, a claim and a finish.
    while before - events_left(client.ask(HEALTH)) < 3:
        time.sleep(0.0005)
    taken = time.monotonic() - since
    client.ask(cancel(job))
    # The search that is cancelled is given up.
    time.sleep(0.05)
    return taken


def rate():
    """How many newcomers a second are more than the worker can begin, as measured on this machine as it is now."""
    server, drawn = Server("--allow-stop", workers=1), random.Random(40)
    with server.connect() as client:
        firsts = [first_part(client, table(drawn)) for _ in range(SAMPLES)]
        since = time.monotonic()
        for _ in range(WHOLE):
            client.until_done(number_of(client.ask(table(drawn))))
        whole = (time.monotonic() - since) / WHOLE
        stop(server, client)
    first = statistics.median(firsts)
    print(f"newcomers: the first of a table's twenty parts takes {first:.3f} s by the median and {max(firsts):.3f} s at most, a table {whole:.2f} s: {OVER / first:.0f} newcomers a second", flush=True)
    return OVER / first


class Newcomers:
    """Connections that come at a rate, until they are so many or the time is over. `asked` is how many have asked."""

    def __init__(self, server, rate, seconds, stay=None, most=1_000_000):
        self.server, self.rate, self.seconds, self.stay, self.most = server, rate, seconds, stay, most
        self.asked, self.there, self.failed, self.drawn = 0, [], [], random.Random(41)
        self.thread = threading.Thread(target=self.guarded, daemon=True)
        self.thread.start()

    def come(self):
        """They come at equal distances; who is late comes at once."""
        begin = time.monotonic()
        while (now := time.monotonic()) < begin + self.seconds and self.asked < self.most:
            while self.there and self.stay and now >= self.there[0][0] + self.stay:
                self.leaves()
            due = begin + self.asked / self.rate
            if now < due:
                time.sleep(min(due - now, 0.01))
                continue
            client = self.server.connect()
            client.send(table(self.drawn))
            self.asked += 1
            self.there.append((now, client))
        while self.there and self.stay:
            self.leaves()

    def leaves(self):
        """The first of them goes, and its job was taken."""
        _, client = self.there.pop(0)
        number_of(client.line())
        client.close()

    def guarded(self):
        try:
            self.come()
        except SystemExit as end:
            self.failed.append(str(end.code))
        except Exception as fault:
            self.failed.append(repr(fault))

    def come_still(self):
        return self.thread.is_alive()

    def join(self):
        self.thread.join()
        check("the newcomers", self.failed, [])


def answered(reply, client):
    """The reply of a question that waits is its answer, or the time of the wait was over: how many fetches it took."""
    job, fetches = int(re.search(r'"job":(\d+)', reply)[1]), 1
    while is_open(reply, job):
        reply, fetches = client.ask(waiting(fetch(job))), fetches + 1
    check("an answer", reply, done(ONE_CARD_REPLY, job))
    return fetches


def leaving(rate):
    server = Server("--allow-stop", workers=1)
    client, times = server.connect(150), []
    # It has had a turn before they come. Of a question there are the submit, its claim and finish, and the fetches; of all the stop.
    events = 1 + 3 + answered(client.ask(waiting(ONE_CARD)), client)
    newcomers = Newcomers(server, rate, MINUTE, STAY)
    while newcomers.come_still():
        time.sleep(LONG_REST)
        since = time.monotonic()
        events += 3 + answered(client.ask(waiting(ONE_CARD)), client)
        times.append(time.monotonic() - since)
    newcomers.join()
    # Each newcomer's table is a submit and a cancel, and a claim and a finish for each part that was begun.
    rounds = stop(server, client) - server.workers - events - 2 * newcomers.asked
    client.close()
    check(f"{rounds} events of the worker", rounds >= 0 and rounds % 2 == 0, True)
    told = f"{newcomers.asked} newcomers with a table in {MINUTE:.0f} s, each gone after {STAY:.0f} s, of which a worker does {rounds // 2} parts; {len(times)} questions of one card take {statistics.median(times):.3f} s by the median, {max(times):.3f} s at most"
    # A worker with time to spare does all parts of each that it can within the second.
    check(f"leaving: {told}: they keep the worker busy", rounds // 2 < 1.5 * newcomers.asked, True)
    check(f"leaving: {told}: each is done soon", max(times) < SOON, True)
    print(f"leaving: {told}")


def staying(rate):
    server = Server("--allow-stop", workers=1)
    client, rows, before = server.connect(300), [], 0
    # It has had a turn before they come.
    answered(client.ask(waiting(ONE_CARD)), client)
    newcomers = Newcomers(server, rate, MINUTE, most=STAYING)
    time.sleep(SHORT_REST)
    while newcomers.come_still():
        asked, since = newcomers.asked, time.monotonic()
        client.send(HEALTH, waiting(ONE_CARD), HEALTH)
        left, reply = events_left(client.line()), client.line()
        more, taken = newcomers.asked - asked, time.monotonic() - since
        left -= events_left(client.line())
        # Besides the newcomers' submits there are its own, its claim and finish, and its fetches.
        parts = (left - more - 3 - answered(reply, client)) // 2
        rows.append((taken, parts, before))
        before = newcomers.asked
        time.sleep(REST)
    newcomers.join()
    for _, other in newcomers.there:
        other.close()
    stop(server, client)
    client.close()
    told = f"{newcomers.asked} newcomers with a table stay; questions of one card take " + ", ".join(f"{taken:.2f} s and {parts} parts beside {most} who had asked before" for taken, parts, most in rows)
    check(f"staying: {told}: at most a part of each of these", all(parts <= most + SPARE for _, parts, most in rows), True)
    print(f"staying: {told}")


more_descriptors()
rate = rate()
for kind in sys.argv[1:] or ["leaving", "staying"]:
    {"leaving": leaving, "staying": staying}[kind](rate)
