"""Plays and targets by lines over TCP, and over WebSockets: jobs of the book, each with the line tool's answer."""
import asyncio
import json
import websockets
from client import CLOSING, STOP, Server, check, done, fetch, is_open, number_of, recorded, state

FIRST = '{"do":"play","deal":"N:32... K4... AQ... 65...","trump":4,"first":0,"cards":[[0,2],[0,4],[0,14],[0,5]]}'
FIRST_REPLY = '{"tricks":[0,0,0,1,1]}'


def parts_of(request):
    """How many parts of the job are claimed."""
    asked = json.loads(request)
    if asked["do"] != "play":
        return 1
    cards = sum(character in "AKQJT98765432" for character in asked["deal"].partition(":")[2])
    return len(asked["cards"]) + (len(asked["cards"]) < cards)


def waiting(request):
    return f'{request[:-1]},"wait":60000}}'


def jobs(rows):
    return [(request, expected) for request, expected in rows if not expected.startswith('{"fault"')]


def faults(rows):
    return [(request, expected) for request, expected in rows if expected.startswith('{"fault"')]


def by_lines(rows, workers):
    """Each request as a job that is fetched, and each as one line that waits."""
    server = Server("--allow-stop", "--budget", "0", workers=workers)
    events = 0
    with server.connect() as client:
        for request, fault in faults(rows):
            check(request, client.ask(request), fault)
            check(request, client.ask(waiting(request) if request.endswith("}") else request), fault)
        number = 0
        for request, expected in jobs(rows):
            number += 2
            check(request, client.ask(request), f'{{"job":{number - 1}}}')
            check(request, client.ask(waiting(request)), done(expected, number))
            reply, fetches = client.until_done(number - 1)
            check(request, reply, done(expected, number - 1))
            events += 2 + fetches + 1 + 4 * parts_of(request)
        check("a stop", client.ask(STOP), CLOSING)
    server.end_after(events + 1)
    return number


def by_messages(rows, workers):
    """The same over WebSockets, by four connections."""
    server = Server("--websocket", "--allow-stop", "--budget", "0", workers=workers)
    events = 0

    async def ask(connection, message):
        await connection.send(message)
        return await connection.recv()

    async def work(part):
        nonlocal events
        async with websockets.connect(f"ws://127.0.0.1:{server.port}/", max_size=None) as connection:
            for request, fault in faults(part):
                check(request, await ask(connection, request), fault)
            for request, expected in jobs(part):
                job = number_of(await ask(connection, request))
                while is_open(reply := await ask(connection, fetch(job)), job):
                    events += 1
                    await asyncio.sleep(0.001)
                check(request, reply, done(expected, job))
                reply = await ask(connection, waiting(request))
                check(request, reply, done(expected, json.loads(reply)["job"]))
                events += 2 + 2 + 4 * parts_of(request)

    async def all_parts():
        await asyncio.gather(*(work(rows[part::4]) for part in range(4)))
        async with websockets.connect(f"ws://127.0.0.1:{server.port}/") as connection:
            check("a stop", await ask(connection, STOP), CLOSING)

    asyncio.run(all_parts())
    server.end_after(events + 1)


def shown():
    """What a fetch shows of a play before it is done, and what a cancel leaves."""
    server = Server("--allow-stop", "--budget", "0", workers=1)
    table, results = recorded("tables", 1)[0]
    with server.connect() as holder, server.connect() as client:
        check("a table", holder.ask(table), '{"job":1}')
        check("a play", client.ask(FIRST), '{"job":2}')
        check("a cancel", client.ask('{"do":"cancel","job":2}'), state(2, "cancelled"))
        check("a fetch", client.ask(fetch(2)), state(2, "cancelled"))
        check("a play that waits", client.ask(waiting(FIRST)), done(FIRST_REPLY, 3))
        check("another's play", holder.ask(fetch(3)), '{"fault":16}')
        check("the table", holder.ask(f'{fetch(1)[:-1]},"wait":60000}}'), done(results, 1))
        check("a stop", client.ask(STOP), CLOSING)
    server.end()


plays = recorded("plays")
targets = recorded("targets") + recorded("target_faults")
shown()
count = by_lines(plays, 4)
by_messages(plays, 4)
print(f"plays: {len(plays)} lines, {count} jobs over TCP, and as many over WebSockets")
count = by_lines(targets, 4)
by_messages(targets, 4)
print(f"targets: {len(targets)} lines, {count} jobs over TCP, and as many over WebSockets")
