"""Par by lines over TCP: it is told at once, and leaves no job and no event."""
import json
from client import CLOSING, ONE_CARD, STOP, Server, check, recorded


def tables():
    server = Server("--allow-stop", workers=1)
    client = server.connect()
    rows = [row for name in ("par", "par_definition", "par_faults") for row in recorded(name)]
    # A server finds no results for par: with a deal the line has a field that it doesn't know.
    rows = [(line, '{"fault":3}' if '"deal":' in line else reply) for line, reply in rows]
    for line, reply in rows:
        check(line, client.ask(line), reply)
    check("a submit between", client.ask(ONE_CARD), '{"job":1}')
    client.send(*[line for line, _ in rows])
    check("all at once", [client.line() for _ in rows], [reply for _, reply in rows])
    reply, fetches = client.until_done(1)
    check("the answer", json.loads(reply)["state"], "done")
    check("a stop", client.ask(STOP), CLOSING)
    client.close()
    # The submit, the claim, the finish, the fetches and the shut: no line for par is among them.
    server.end_after(3 + fetches + 1)
    print(f"par: {2 * len(rows)} lines are replied at once as the line tool does, and leave no event")


def deals():
    """Par of a deal: its table is a job, and par is asked of the results."""
    server = Server("--allow-stop", workers=2)
    client = server.connect()
    events = 0
    for number, (line, reply) in enumerate(recorded("par_deals"), 1):
        asked = json.loads(line)
        check("a table", client.ask(json.dumps({"do": "table", "deal": asked["deal"]})), f'{{"job":{number}}}')
        found, fetches = client.until_done(number)
        del asked["deal"]
        check("its par", client.ask(json.dumps({**asked, "table": json.loads(found)["table"]})), reply)
        events += 1 + fetches + 40
    check("a stop", client.ask(STOP), CLOSING)
    client.close()
    server.end_after(events + 1)
    print(f"par: {number} deals have the par recorded, each by its table and a line more")


tables()
deals()
