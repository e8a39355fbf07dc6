"""The page in headless Chromium, over a server of the built program. What it shows is compared with the answers of DDS in cases/data.
Words: which parts to run (all).

PICTURES names a folder for pictures of the page."""
import json
import shutil
import socket
import sys
import threading
import time

import edits
import fits
import servers
import texts
from browser import Browser
from page import HERE, Page, Server, as_lin, as_pbn, card, check, par_text, recorded


def opening_leads(page):
    for request, reply in recorded("full")[::8]:
        page.paste(request["deal"])
        page.choose(request["trump"], (request["first"] + 3) % 4)
        wanted = {}
        for it in reply["cards"]:
            for rank in range(2, 15):
                if rank == it["rank"] or it["equals"] >> rank & 1:
                    wanted[card(it["suit"], rank)] = it["score"]
        check("the numbers of an opening lead", page.numbers(), wanted)
        check("the best leads", page.bold(), {it for it, tricks in wanted.items() if tricks == max(wanted.values())})
        check("whose turn it is", page.turn(), request["first"])


def whole_play(page, request, reply, latencies=None):
    """Plays the 52 cards by clicks: declarer's tricks that the cards' numbers come to are those of DDS, before each card."""
    page.paste(request["deal"])
    declarer = (request["first"] + 3) % 4
    page.choose(request["trump"], declarer)
    page.browser.value("""(() => {
      window.latencies = []; let start = null;
      document.addEventListener('click', event => { if (event.target.closest('.card')) { start = performance.now(); } }, true);
      new MutationObserver(() => { if (start !== null && document.querySelector('#table').dataset.state === 'shown') { window.latencies.push(performance.now() - start); start = null; } })
        .observe(document.querySelector('#table'), {attributes: true, attributeFilter: ['data-state']});
    })()""")
    for at, played in enumerate(request["cards"]):
        numbers = page.numbers()
        most = max(numbers.values())
        check(f"declarer's tricks before card {at + 1}", most if page.turn() % 2 == declarer % 2 else 13 - most, reply["tricks"][at])
        check("that a card may be played", card(*played) in numbers, True)
        page.browser.click(f".card[data-card={card(*played)}]")
        page.shown(at + 1)
    check("declarer's tricks at the end", page.won()[declarer % 2], reply["tricks"][-1])
    check("the trace", page.trace(), reply["tricks"])
    if latencies is not None:
        latencies += page.browser.value("window.latencies")


def marks(page, request, reply):
    tricks = reply["tricks"]
    wanted = sum(before != after for before, after in zip(tricks, tricks[1:]))
    check("how many cards cost a trick", page.browser.value("document.querySelectorAll('#costs button').length"), wanted)


def keys(page, request):
    browser = page.browser
    browser.key("Home")
    page.shown(0)
    browser.key("ArrowRight")
    page.shown(1)
    browser.key("ArrowRight")
    page.shown(2)
    browser.key("ArrowLeft")
    page.shown(1)
    browser.key("End")
    page.shown(52)
    browser.key("Home")
    page.shown(0)
    best = page.bold()
    browser.key("b")
    page.shown(1)
    gone = best - set(browser.value("[...document.querySelectorAll('.card')].map(it => it.dataset.card)"))
    check("that B plays a best card", len(gone), 1)
    browser.key("ArrowDown")
    focused = browser.value("document.activeElement.dataset.card")
    check("that an arrow chooses a card that may be played", focused in page.numbers(), True)
    browser.key("Enter")
    page.shown(2)
    check("that Enter plays it", focused in browser.value("[...document.querySelectorAll('.card')].map(it => it.dataset.card)"), False)
    check("that the next hand's card is chosen", browser.value("document.activeElement.dataset.card") in page.numbers(), True)
    browser.key("u")
    page.shown(1)
    browser.click("#undo")
    page.shown()
    # A first card that is the recorded one changes nothing, so there is nothing of it to undo.
    browser.key("n")
    page.shown(0)
    check("a deal by chance", len(browser.value("[...document.querySelectorAll('.card')].map(it => it.dataset.card)")), 52)
    browser.key("u")
    page.shown()
    capitals(page)


def capitals(page):
    """With the capitals lock, or with Shift."""
    browser, before = page.browser, page.hands()
    browser.key("Home")
    page.shown(0)
    browser.key("N")
    page.shown(0)
    check("that N deals", page.hands() == before, False)
    browser.key("U")
    page.shown()
    browser.key("Home")
    page.shown(0)
    best = page.bold()
    browser.key("B")
    page.shown(1)
    check("that B with Shift plays a best card", len(best - set(sum(page.hands(), []))), 1)
    browser.key("U")
    page.shown()


def table_and_par(page):
    for request, reply in recorded("tables")[:3]:
        page.paste(request["deal"])
        page.browser.until("!document.querySelector('#results').innerText.includes('·')")
        got = page.browser.value("[...document.querySelectorAll('#results tr')].slice(1).map(row => [...row.querySelectorAll('button')].map(it => +it.textContent))")
        check("the twenty results", got, [[reply["table"][strain][seat] for strain in (4, 0, 1, 2, 3)] for seat in range(4)])
    for request, reply in recorded("par_deals"):
        if "dealer" not in request:
            continue
        dealer, vulnerable = "NESW"[request["dealer"]], ("None", "All", "NS", "EW")[request["vulnerable"]]
        page.paste(f'[Event ""]\n[Dealer "{dealer}"]\n[Vulnerable "{vulnerable}"]\n[Deal "{request["deal"]}"]\n')
        page.browser.until("/^Par: [NEp]/.test(document.querySelector('#par').innerText)")
        check("par", page.text("#par"), par_text(reply))


def pasted_plays(page):
    for form, at in ((as_lin, 51), (as_pbn, 58), (as_lin, 69), (as_pbn, 9)):
        request, reply = recorded("plays")[at]
        page.paste(form(request, request["cards"]))
        page.browser.until("document.querySelectorAll('#chart').length && document.querySelector('#chart').dataset.values.split(',').every(it => it !== '')")
        check("the trace of a pasted play", page.trace(), reply["tricks"])
        marks(page, request, reply)


def places(page):
    """Where a click on the chart, on a card that cost tricks and on a result leads."""
    browser = page.browser
    browser.click("#chart svg")
    # The middle of the chart lies at (170 - 24) / 308 of the 52 cards.
    page.shown(25)
    wrong = next(at for at, (before, after) in enumerate(zip(page.trace(), page.trace()[1:])) if before != after)
    browser.click("#costs button")
    page.shown(wrong)
    browser.click("#results tr:nth-child(2) td:nth-child(3) button")
    page.shown(0)
    chosen = browser.value("[...document.querySelectorAll('.set button[aria-pressed=true]')].map(it => it.getAttribute('aria-label'))")
    check("what a click on North in spades chooses", chosen, ["spades", "North"])
    check("who leads then", page.turn(), 1)
    browser.click("#undo")
    page.shown(wrong)


def bad_texts(page):
    for text, told in (("N:A... K... Q... J2...", "The hands have 1, 1, 1 and 2 cards"), ("hello", "This is no deal of PBN: a seat, a colon and four hands"), ("N:A... A... Q... J...", "The ace of spades stands twice")):
        page.browser.fill("#text", text)
        page.browser.click("#paste button")
        check("what is said of a bad deal", page.text("#textWrong"), told)
    page.browser.fill("#typed1", "AK")
    page.browser.click("#typed button")
    check("what is said of a bad hand", page.text("#typedWrong"), "“AK” has 1 suits; write four with dots between")
    for seat, hand in enumerate(("A...", "K...", "Q...", "J...")):
        page.browser.fill(f"#typed{seat}", hand)
    page.browser.click("#typed button")
    page.choose(4, 2)
    check("a typed deal", (page.numbers(), page.text("#typedWrong")), ({"SJ": 0}, ""))


def away(page, server, picture):
    # A deal of which the page knows no answer yet.
    request, reply = recorded("plays")[64]
    page.paste(request["deal"])
    page.choose(request["trump"], (request["first"] + 3) % 4)
    server.end()
    page.browser.until("document.querySelector('#link').dataset.state === 'away'")
    page.browser.click(f".card[data-card={card(*request['cards'][0])}]")
    page.browser.until("document.querySelector('#table').dataset.at === '1'")
    check("that cards have no numbers while the server is away", set(page.numbers().values()), {None})
    check("that it is said", page.text("#linkText").startswith("No server at 127.0.0.1:"), True)
    picture()
    server = Server(port=server.port)
    page.shown(1)
    most = max(page.numbers().values())
    declarer = (request["first"] + 3) % 4
    check("declarer's tricks after the server came back", most if page.turn() % 2 == declarer % 2 else 13 - most, reply["tricks"][1])
    page.browser.until("document.querySelector('#link').dataset.state === 'here'")
    return server


def phone(page):
    for width in (360, 320):
        page.browser.size(width, 740, phone=True)
        check(f"that nothing is wider than {width} pixels", page.browser.value("document.documentElement.scrollWidth"), width)
        small = page.browser.value("[...document.querySelectorAll('button, select, summary')].filter(it => it.offsetParent).filter(it => { const box = it.getBoundingClientRect(); return box.width < 24 || box.height < 24; }).map(it => it.outerHTML)")
        check("that no button is too small for a finger", small, [])


class Others:
    """Other clients of the server: each solves deals one after the other over a WebSocket."""

    def __init__(self, port, count=2):
        sys.path.insert(0, str(HERE.parent / "cases" / "server" / "clients"))
        from client import Frames

        self.over = False
        self.threads = [threading.Thread(target=self.ask, args=(Frames(socket.create_connection(("127.0.0.1", port))),)) for _ in range(count)]
        for thread in self.threads:
            thread.start()

    def ask(self, frames):
        requests = [request for request, _ in recorded("small")]
        at = 0
        while not self.over:
            frames.ask(json.dumps({**requests[at % len(requests)], "wait": 30000}))
            at += 1
            time.sleep(0.01)
        frames.close()

    def end(self):
        self.over = True
        for thread in self.threads:
            thread.join()


def play(browser):
    server = Server()
    page = Page(browser, server.port)
    page.browser.until("/^Par: [NEp]/.test(document.querySelector('#par').innerText)")
    page.picture("first")
    opening_leads(page)
    print("page: opening leads have the numbers of DDS")
    # A first play, so that the browser has compiled the page.
    whole_play(page, *recorded("plays")[63])
    request, reply = recorded("plays")[51]
    others, latencies = Others(server.port), []
    whole_play(page, request, reply, latencies)
    others.end()
    marks(page, request, reply)
    page.picture("played")
    latencies.sort()
    print(f"page: 52 cards by clicks, each with the tricks of DDS; from a click to the next card's numbers {latencies[len(latencies) // 2]:.0f} ms by the median, {latencies[-1]:.0f} at most")
    keys(page, request)
    print("page: keys step, choose, play, undo and deal")
    table_and_par(page)
    print("page: the twenty results and par are those of DDS")
    pasted_plays(page)
    places(page)
    browser.key("Home")
    for _ in range(17):
        browser.key("ArrowRight")
    page.shown(17)
    page.picture("pasted")
    print("page: pasted plays have the trace of DDS")
    bad_texts(page)
    page.picture("typed")
    server = away(page, server, lambda: page.picture("away"))
    print("page: it says that the server is away, and asks again when it is back")
    server.end()
    small = Server("--events", "1024")
    page = Page(browser, small.port)
    for at in (1, 4, 9, 58):
        whole_play(page, *recorded("plays")[at])
    small.end()
    print("page: runs that are used up are left unseen")


def narrow(browser, server):
    request, reply = recorded("plays")[9]
    page = Page(browser, server.port, as_lin(request, request["cards"][:8]))
    page.browser.until("document.querySelector('#chart').dataset.values.split(',').every(it => it !== '')")
    check("the trace of a play in the address", page.trace(), reply["tricks"][:9])
    phone(page)
    browser.size(390, 844, phone=True)
    request, reply = recorded("plays")[51]
    page.paste(as_lin(request, request["cards"]))
    page.browser.until("document.querySelector('#chart').dataset.values.split(',').every(it => it !== '')")
    for _ in range(10):
        browser.click("#forth")
    page.shown(10)
    phone(page)
    browser.size(390, 844, phone=True)
    page.browser.value("document.querySelector('#input').open = false")
    page.picture("phone")
    browser.size(1280, 900)
    page.picture("wide")
    browser.size(390, 844, phone=True)
    browser.call("Emulation.setEmulatedMedia", features=[{"name": "prefers-color-scheme", "value": "dark"}])
    page.picture("phone-dark")
    browser.size(1280, 900)
    page.picture("dark")
    browser.call("Emulation.setEmulatedMedia", features=[])
    print("page: it fits a phone")


PARTS = {"narrow": narrow, "sizes": fits.sizes, "address": texts.address, "games": texts.games, "edits": edits.edits, "unanswered": servers.unanswered}


def main():
    words = sys.argv[1:] or ["play", *PARTS]
    browser = Browser(shutil.which("chromium") or shutil.which("chromium-browser"))
    if "play" in words:
        play(browser)
    server = Server()
    for word in words:
        if word in PARTS:
            browser.size(1280, 900)
            PARTS[word](browser, server)
    check("words that are no part", [it for it in words if it not in ("play", *PARTS)], [])
    check("exceptions of the page", browser.errors, [])
    browser.close()
    server.end()


main()
