"""A server with `--explain`: each reply has its own line's id, and a fault its field and a text, by lines and over a WebSocket. The replies were
written by hand from docs/PROTOCOL.md."""
import asyncio
import websockets
from client import CLOSING, ONE_CARD, ONE_CARD_REPLY, STOP, Server, check, done, recorded

EVENTS = 1_024
WRONG = "a field is missing, unknown or of the wrong kind"
PAR, PAR_REPLY = recorded("par", 1)[0]


def named(line, name):
    """The line, or the reply, with this id: in a line it may stand anywhere, in a reply it stands first."""
    return f'{line[:-1]},"id":{name}}}'


def reply(name, plain):
    return f'{{"id":{name},{plain[1:]}'


# Lines and their replies, in one session. Two jobs of one card; of the calls that are refused 16 and 17 are events.
ROWS = [
    ('{"do":"health","id":"h"}', f'{{"id":"h","events_left":{EVENTS},"jobs":0,"workers":1}}'),
    ('{"do":"health"}', f'{{"events_left":{EVENTS},"jobs":0,"workers":1}}'),
    (named(ONE_CARD, 7), '{"id":7,"job":1}'),
    ('{"id":"f","do":"fetch","job":1,"wait":60000}', reply('"f"', done(ONE_CARD_REPLY, 1))),
    (named(f'{ONE_CARD[:-1]},"wait":60000}}', 18446744073709551615), reply(18446744073709551615, done(ONE_CARD_REPLY, 2))),
    ('{"do":"fetch","job":9,"id":"a"}', '{"id":"a","fault":16,"field":"job","text":"this connection has no job of that number"}'),
    ('{"do":"cancel","job":1,"id":0}', '{"id":0,"fault":17,"text":"the job has ended, and there is nothing to cancel"}'),
    ('{"do":"cancel","job":1,"wait":5}', f'{{"fault":3,"field":"wait","text":"{WRONG}"}}'),
    ('{"do":"fetch","id":2}', f'{{"id":2,"fault":3,"field":"job","text":"{WRONG}"}}'),
    ('{"do":"nothing","id":"n"}', f'{{"id":"n","fault":3,"field":"do","text":"{WRONG}"}}'),
    ('{"do":"health","job":1}', f'{{"fault":3,"field":"job","text":"{WRONG}"}}'),
    ('{"do":"health","id":-1}', f'{{"fault":3,"field":"id","text":"{WRONG}"}}'),
    (named(PAR, '"p"'), reply('"p"', PAR_REPLY)),
    ('', '{"fault":1,"text":"the line is blank"}'),
    ('\ufeff{"do":"health"}', '{"fault":1,"text":"the line begins with a byte-order mark, which is to be left out"}'),
    (f'{{"do":"health","id":"{4096 * "x"}"}}', '{"fault":2,"text":"the line is over 4096 bytes"}'),
    (named(STOP, '"s"'), reply('"s"', CLOSING)),
]
# Two submits, two fetches, the claim and the finish of each, the two refusals, and the stop.
CALLS = 11


def by_lines():
    server = Server("--explain", "--allow-stop", "--events", str(EVENTS), workers=1)
    with server.connect() as client:
        for line, wanted in ROWS:
            check(line[:80], client.ask(line), wanted)
    server.end_after(CALLS)


def by_messages():
    server = Server("--websocket", "--explain", "--allow-stop", "--events", str(EVENTS), workers=1)

    async def ask_all():
        async with websockets.connect(f"ws://127.0.0.1:{server.port}/", max_size=None) as connection:
            for line, wanted in ROWS:
                await connection.send(line)
                check(line[:80], await connection.recv(), wanted)

    asyncio.run(ask_all())
    server.end_after(CALLS)


def without():
    """Without the option an id is a wrong field, and a stop without leave an unknown word, as ever."""
    server = Server("--allow-stop", workers=1)
    with server.connect() as client:
        check("an id", client.ask(named(ONE_CARD, 7)), '{"fault":3}')
        check("a stop", client.ask(STOP), CLOSING)
    server.end_after(1)
    server = Server("--explain", workers=1)
    with server.connect() as client:
        check("a stop without leave", client.ask(named(STOP, 1)), f'{{"id":1,"fault":3,"field":"do","text":"{WRONG}"}}')
    server.process.kill()


by_lines()
by_messages()
without()
print(f"explained: {len(ROWS)} lines have their ids, fields and texts, by lines and over a WebSocket")
