"""A server of the built program, and the page at it in a browser, by what a user sees and does.

PICTURES names a folder for pictures of the page."""
import atexit
import json
import os
import subprocess
import sys
import time
import urllib.parse
from pathlib import Path

HERE = Path(__file__).resolve().parent
DATA = HERE.parent / "cases" / "data"
RANKS = "23456789TJQKA"
SYMBOLS = "♠♥♦♣"
PROGRAM = os.environ["DDSERVE"]
PICTURES = os.environ.get("PICTURES")


def recorded(name):
    return [tuple(map(json.loads, lines)) for lines in zip((DATA / f"{name}.jsonl").open(), (DATA / f"{name}.expected").open())]


def check(what, got, wanted):
    if got != wanted:
        sys.exit(f"web: {what}: {got!r} in place of {wanted!r}")


def card(suit, rank):
    return "SHDC"[suit] + RANKS[rank - 2]


def par_text(reply):
    """Par of a reply, as the page has it."""
    texts = []
    for it in reply["contracts"]:
        over = it["tricks"] - it["level"] - 6
        result = f"+{over}" if over > 0 else f"−{-over}" if over else "="
        texts.append(f"{it['level']}{(*SYMBOLS, 'NT')[it['trump']]}{'×' if over < 0 else ''} {''.join('NESW'[seat] for seat in it['declarers'])} {result}")
    return f"Par: {'NS' if reply['score'] >= 0 else 'EW'} {abs(reply['score'])}, {', '.join(texts)}" if texts else "Par: passed out"


def hands_of(deal):
    """The four suits of each hand, North's first."""
    first, _, rest = deal.partition(":")
    turned = [None] * 4
    for at, hand in enumerate(rest.split()):
        turned[("NESW".index(first) + at) % 4] = hand.split(".")
    return turned


def as_lin(request, cards):
    hands = hands_of(request["deal"])
    written = ["".join(letter + suit for letter, suit in zip("SHDC", hands[seat])) for seat in (2, 3, 0)]
    declarer = (request["first"] + 3) % 4
    bid = f"1{'SHDCN'[request['trump']]}"
    calls = "".join(f"mb|{call}|" for call in (bid, "p", "p", "p"))
    played = "".join(f"pc|{card(*it)}|" for it in cards)
    return f"pn|S,W,N,E|st||md|{(declarer + 2) % 4 + 1}{','.join(written)},|sv|b|{calls}{played}"


def as_pbn(request, cards):
    """A column of the section Play is a hand, whoever leads."""
    hands, first = hands_of(request["deal"]), request["first"]
    holder = {letter + rank: seat for seat, hand in enumerate(hands) for letter, suit in zip("SHDC", hand) for rank in suit}
    rows = []
    for at in range(0, len(cards), 4):
        four = {holder[card(*it)]: card(*it) for it in cards[at : at + 4]}
        rows.append(" ".join(four.get((first + place) % 4, "-") for place in range(4)))
    declarer = "NESW"[(first + 3) % 4]
    contract = "3NT" if request["trump"] == 4 else f"3{'SHDC'[request['trump']]}X"
    return f'[Deal "{request["deal"]}"]\n[Declarer "{declarer}"]\n[Contract "{contract}"]\n[Play "{"NESW"[first]}"]\n' + "\n".join(rows) + "\n*\n"


class Server:
    def __init__(self, *options, port=0, lines=False):
        words = [PROGRAM, "serve", *([] if lines else ["--websocket"]), "--listen", f"127.0.0.1:{port}", "--workers", "2", *options]
        self.process = subprocess.Popen(words, stdout=subprocess.PIPE, text=True)
        atexit.register(self.process.kill)
        self.port = int(self.process.stdout.readline().rpartition(":")[2])

    def end(self):
        self.process.kill()
        self.process.communicate()


class Page:
    """The page, by what a user sees and does."""

    def __init__(self, browser, port, deal=None, is_answered=True, **parts):
        self.browser = browser
        words = {"server": f"ws://127.0.0.1:{port}/", **({"deal": deal} if deal else {}), **parts}
        browser.open(f"file://{HERE}/index.html?" + urllib.parse.urlencode(words, safe=":/", quote_via=urllib.parse.quote))
        if is_answered:
            self.shown()

    def shown(self, at=None):
        where = "" if at is None else f" && document.querySelector('#table').dataset.at === '{at}'"
        self.browser.until(f"document.querySelector('#table').dataset.state === 'shown'{where}")

    def numbers(self):
        """The cards that may be played, with their numbers."""
        return dict(self.browser.value("[...document.querySelectorAll('.card.may')].map(it => [it.dataset.card, it.querySelector('b') ? +it.querySelector('b').textContent : null])"))

    def bold(self):
        return set(self.browser.value("[...document.querySelectorAll('.card.may b.best')].map(it => it.parentElement.dataset.card)"))

    def text(self, selector):
        return self.browser.value(f"document.querySelector({json.dumps(selector)}).innerText")

    def turn(self):
        return self.browser.value("[0, 1, 2, 3].findIndex(seat => document.querySelector('#hand' + seat).classList.contains('turn'))")

    def won(self):
        return [int(it) for it in self.browser.value("[...document.querySelectorAll('#won b')].map(it => it.textContent)")]

    def trace(self):
        return [int(it) if it else None for it in self.browser.value("document.querySelector('#chart').dataset.values").split(",")]

    def paste(self, text):
        self.browser.value("document.querySelector('#input').open = true")
        self.browser.fill("#text", text)
        self.browser.click("#paste button")
        self.shown(0)

    def choose(self, trump, declarer):
        self.browser.click(f"#trumps button:nth-child({trump + 1})")
        self.browser.click(f"#declarers button:nth-child({declarer + 1})")
        self.shown(0)

    def picture(self, name, whole=True):
        if PICTURES:
            time.sleep(0.3)
            self.browser.picture(os.path.join(PICTURES, f"{name}.png"), whole)

    def seen(self, text):
        """Whether the text stands within the window, and nothing over it."""
        return self.browser.value(f"""[...document.querySelectorAll('body *')].some(it => {{
          if (it.children.length || !it.textContent.includes({json.dumps(text)})) {{ return false; }}
          const box = it.getBoundingClientRect();
          return box.width > 0 && it.contains(document.elementFromPoint(box.x + box.width / 2, box.y + box.height / 2));
        }})""")

    def until_seen(self, text, seconds=10):
        end = time.monotonic() + seconds
        while not self.seen(text):
            if time.monotonic() > end:
                sys.exit(f"web: after {seconds} seconds {text!r} isn't seen: {self.browser.value('document.body.innerText')!r}")
            time.sleep(0.02)

    def hands(self):
        """The cards of each hand, North's first."""
        return self.browser.value("[0, 1, 2, 3].map(seat => [...document.querySelectorAll(`#hand${seat} .card`)].map(it => it.dataset.card))")

    def told(self):
        """All that is told of the game but the numbers: hands, trumps and declarer, dealer and vulnerability, the place and the cards of the play."""
        chosen = self.browser.value("[...document.querySelectorAll('.set button[aria-pressed=true]')].map(it => it.getAttribute('aria-label'))")
        values = self.browser.value("[document.querySelector('#dealer').value, document.querySelector('#vulnerable').value, document.querySelector('#table').dataset.at]")
        return self.hands(), chosen, values, len(self.trace())

    def reload(self):
        self.browser.value("window.isOld = true")
        self.browser.call("Page.reload")
        self.browser.until("!window.isOld && document.readyState === 'complete'")
        self.shown()
