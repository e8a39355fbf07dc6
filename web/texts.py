"""Texts that the page is given: by its address, pasted, and as files. Which games a file has says the program's `pbn`, and which deals
they have a reader of PBN by regular expressions (cases/tools/pbn_filled.py)."""
import json
import random
import re
import subprocess
import sys
import time

from page import DATA, PROGRAM, RANKS, Page, as_lin, check, hands_of, recorded

sys.path.insert(0, str(DATA.parent / "tools"))
from pbn_filled import filled

SAMPLES = DATA / "pbn"


def text_of(path):
    data = path.read_bytes()
    try:
        return data.decode()
    except UnicodeDecodeError:
        return data.decode("latin-1")


def games_of(data):
    """Of each game of a file its full deal as the page writes it, or why it has none: by the reader of cases/tools."""
    deals, order = [], RANKS[::-1].index
    # It asks for the results of games that lack the tag. Where it is told none, it notes that they are spent.
    _, notes = filled(re.sub(rb"(?i)DoubleDummyTricks", b"Other", data), deals.append, [b"doubledummytricks"])
    written = iter(["N:" + " ".join(".".join("".join(sorted((rank for s, rank in hand if s == suit), key=order)) for suit in range(4)) for hand in hands) for hands in deals])
    return [next(written) if reason == "spent" else reason for _, _, reason in notes]


def reasons_in(said):
    """The reasons in the program's notes on games, without what may stand behind them: what a fault means, or a value."""
    notes = [line for line in said.split("\n") if line.startswith("ddserve: game ")]
    return [re.fullmatch(r"ddserve: game \d+ \(board .{1,32}?\): ([^:]+).*", line).group(1) for line in notes]


def program_games(data):
    """Of each game of a file why the program gives it no results, where it may not search: all have a reason."""
    return reasons_in(subprocess.run([PROGRAM, "pbn", "--budget", "0", "--tags", "DoubleDummyTricks"], input=data, capture_output=True, check=True).stderr.decode("latin-1"))


def deals_of(data):
    return [it for it in games_of(data) if it.startswith("N:")]


def cards_of(deal):
    return [[letter + rank for letter, suit in zip("SHDC", hand) for rank in suit] for hand in hands_of(deal)]


def search(page):
    return page.browser.value("Object.fromEntries(new URLSearchParams(location.search))")


# ---- The address.


def bad_address(browser, server):
    good = "N:J6.72.AQ7643.AJ7 Q9842.Q854.T.K42 AT75.AT9.KJ8.T83 K3.KJ63.952.Q965"
    for deal, parts, told in (
        ("N:A... A... Q... J...", {}, "The ace of spades stands twice"),
        ("hello", {}, "This is no deal of PBN: a seat, a colon and four hands"),
        ("md|5SA,SK,SQ,SJ|", {}, "This is no deal of LIN"),
        (f'[Deal "{good}"][Play "E"]\nS6\n', {}, "East doesn’t have the six of spades"),
        (good, {"trumps": "X"}, "trumps is “X”, and has to be one of S, H, D, C, NT"),
        (good, {"declarer": "S", "cards": "SKS7"}, "North doesn’t have the seven of spades"),
        (good, {"cards": "SK S1"}, "“SKS1” is no list of cards as SASKS2"),
    ):
        page = Page(browser, server.port, deal, **parts)
        check("the cards that are shown of a bad address", sum(page.hands(), []), [])
        check(f"that it is seen that {told}", page.seen(told), True)
        check("the address, as it was", search(page)["deal"], deal)
        check("the text, which can be put right", browser.value("document.querySelector('#text').value"), deal)
        check("that no result is waited for", "·" in page.text("#results"), False)
    page.picture("bad-address")
    page.reload()
    check("that it is seen after a reload", page.seen(told), True)
    page.paste(good)
    check("the deal that is given in its place", page.hands(), cards_of(good))
    check("that nothing is wrong any more", page.seen(told), False)
    browser.key("u")
    check("that there is nothing to undo", page.hands(), cards_of(good))


def held_address(browser, server):
    request, reply = recorded("plays")[51]
    page = Page(browser, server.port, as_lin(request, request["cards"][:9]))
    for wanted in range(1, 7):
        browser.key("ArrowRight")
        page.shown(wanted)
    browser.value("(it => { it.value = 3; it.dispatchEvent(new Event('change')); })(document.querySelector('#dealer'))")
    for where, read in (("after a reload", page.reload), ("by the link", lambda: opened(page))):
        browser.until("new URLSearchParams(location.search).get('at') === '6' && new URLSearchParams(location.search).get('dealer') === 'W'", 5)
        before = page.told()
        read()
        check(f"what is told {where}", page.told(), before)
        browser.until("document.querySelector('#chart').dataset.values.split(',').every(it => it !== '')")
        check(f"the trace {where}", page.trace(), reply["tricks"][:10])
    check("the deal in the address", search(page)["deal"].split(":")[0], "N")
    check("the server in the address", search(page)["server"], f"ws://127.0.0.1:{server.port}/")
    browser.key("n")
    page.shown(0)
    browser.until("!new URLSearchParams(location.search).has('at')", 5)
    before = page.told()
    page.reload()
    check("a deal by chance after a reload", page.told(), before)
    many_steps(page, request)


def opened(page):
    address = page.browser.value("location.href")
    page.browser.open("about:blank")
    page.browser.open(address)
    page.shown()


def many_steps(page, request):
    """Browsers refuse more than a hundred changes of an address in half a minute."""
    browser = page.browser
    page.paste(as_lin(request, request["cards"]))
    time.sleep(0.5)
    browser.value("(() => { window.changes = 0; const was = history.replaceState.bind(history); history.replaceState = (...told) => { window.changes += 1; was(...told); }; })()")
    start = time.monotonic()
    for key in ["ArrowRight"] * 40 + ["ArrowLeft"] * 13:
        browser.key(key)
    taken = time.monotonic() - start
    browser.until("new URLSearchParams(location.search).get('at') === '27'", 5)
    changes = browser.value("window.changes")
    check(f"that {changes} changes of the address in {taken:.1f} s are not too many", changes <= 2 + taken / 0.3, True)


# ---- Texts with several games.


def boards(page):
    """The names of the boards that may be chosen, and of those that may not be."""
    return tuple(page.browser.value(f"[...document.querySelectorAll('#board option')].filter(it => it.disabled === {is_off}).map(it => it.textContent)") for is_off in ("false", "true"))


def choose(page, board):
    page.browser.value(f"(it => {{ it.value = {board}; it.dispatchEvent(new Event('change')); }})(document.querySelector('#board'))")
    page.shown(0)


def conditions(page):
    """The codes of dealer and vulnerability."""
    return page.browser.value("['#dealer', '#vulnerable'].map(it => document.querySelector(it).value)")


def inherited(browser, server):
    """Values of the games before; the README of the sample files has what they are."""
    page = Page(browser, server.port, text_of(SAMPLES / "09-inherited.pbn"))
    check("the boards of two rooms", boards(page)[0], ["Board 1", "Board 1 (2)", "Board 2", "Board 3", "Board 4"])
    first = page.hands()
    for at, wanted in enumerate((["0", "0"], ["0", "0"], ["1", "2"], ["1", "2"], ["3", "2"])):
        choose(page, at)
        check(f"dealer and vulnerability of game {at + 1}", conditions(page), wanted)
        check(f"whether game {at + 1} has the hands of the first", page.hands() == first, at < 2)


def foreign_contracts(browser, server):
    """A contract in words of another language is none: `3SA` is not spades."""
    page = Page(browser, server.port)
    for contract, trumps in (("4S", 0), ("3SA", 4), ("4HX", 1), ("4SP", 4), ("2DXX", 2), ("3NT", 4), ("4C\u0153ur", 4), ("4C", 3)):
        page.paste(f'[Deal "N:AK... QJ... T9... 87..."]\n[Declarer "N"]\n[Contract "{contract}"]\n')
        pressed = "[...document.querySelectorAll('#trumps button')].findIndex(it => it.getAttribute('aria-pressed') === 'true')"
        check(f"trumps of {contract}", browser.value(pressed), trumps)


def several_games(browser, server):
    page = Page(browser, server.port)
    name = "13-no-empty-lines"
    deals = deals_of((SAMPLES / f"{name}.pbn").read_bytes())
    page.paste(text_of(SAMPLES / f"{name}.pbn"))
    check("the boards of a file without an empty line", boards(page), (["Board 1", "Board 2", "Board 3", "Board 4"], []))
    for at, (dealer, vulnerable) in enumerate((("0", "0"), ("1", "2"), ("2", "3"), ("3", "1"))):
        choose(page, at)
        check(f"the hands of board {at + 1}", page.hands(), cards_of(deals[at]))
        check(f"dealer and vulnerability of board {at + 1}", conditions(page), [dealer, vulnerable])
    page.picture("boards")
    browser.key("u")
    page.shown(0)
    check("the board before", (browser.value("document.querySelector('#board').value"), page.hands()), ("2", cards_of(deals[2])))
    page.paste(deals[0])
    check("that one deal has no boards to choose from", browser.value("document.querySelector('#boards').hidden"), True)
    page.paste(f'[Event "A|B"]\n[Deal "{deals[1]}"]\n')
    check("the hands of a file of PBN with a stroke in it", page.hands(), cards_of(deals[1]))
    page.paste(text_of(SAMPLES / "16-bad-deals.pbn"))
    check("the boards of a file with bad ones", (boards(page)[0], [it.partition(":")[0] for it in boards(page)[1]]), (["Board 6", "Board 7"], ["Board 1", "Board 2", "Board 3"]))
    check("that it is said which aren't shown", page.text("#textWrong").startswith("Not shown: Board 1, "), True)
    page = Page(browser, server.port, text_of(SAMPLES / f"{name}.pbn"))
    check("the boards of a file in the address", boards(page)[0], ["Board 1", "Board 2", "Board 3", "Board 4"])


def several_of_lin(browser, server):
    page, plays = Page(browser, server.port), [recorded("plays")[at] for at in (51, 69)]
    page.paste("\n".join(as_lin(request, request["cards"]).replace("|sv|", f"|ah|Board {at + 7}|sv|") for at, (request, _) in enumerate(plays)))
    check("the boards of two lines of LIN", boards(page)[0], ["Board 7", "Board 8"])
    for at in (1, 0):
        choose(page, at)
        browser.until("document.querySelector('#chart').dataset.values.split(',').every(it => it !== '')")
        check("the trace of a board of LIN", page.trace(), plays[at][1]["tricks"])
    page.paste("".join(f"qx|o{at + 1}|{as_lin(request, request['cards'][:4])}|pg||" for at, (request, _) in enumerate(plays)))
    check("the boards by their rooms", boards(page)[0], ["Board o1", "Board o2"])


def file_opened(browser, server):
    page = Page(browser, server.port)
    document = browser.call("DOM.getDocument")["root"]["nodeId"]
    for name in ("12-latin1", "01-export-crlf", "19-blank-lines"):
        node = browser.call("DOM.querySelector", nodeId=document, selector="#file")["nodeId"]
        browser.call("DOM.setFileInputFiles", nodeId=node, files=[str(SAMPLES / f"{name}.pbn")])
        first, *_ = deals_of((SAMPLES / f"{name}.pbn").read_bytes())
        wanted = re.sub(r"[^\n -~é]", "", text_of(SAMPLES / f"{name}.pbn"))
        browser.until(f"document.querySelector('#text').value.replace(/[^\\n -~é]/g, '') === {json.dumps(wanted)}", 5)
        page.shown(0)
        check(f"the first deal of the file {name}", page.hands(), cards_of(first))
        check(f"how many boards {name} has", len(boards(page)[0]), 2)


def drawn_file(drawn, deals, wild=()):
    """A file whose games are cut in many ways: by empty lines, by tags that come again, and by neither."""
    pieces = [
        *wild, '[Event "a [Board \\"7\\"] b"]', '[Site ""]', '[Board "1"]', '[Board "#"]', '[Dealer "N"]', '[dealer "w"]', '[Vulnerable "NS"]', '[Result "9"]', '[Note "x"]', '[Auction "N"]\n1C Pass',
        "{ [Board \"3\"]\n\n }", "; [Dealer \"E\"] }", "\n% [Result \"1\"]", "\n% }", '"a ; { b"', '"open', '[Event "open', "[.", "]", "[ .", '[Deal "#"]', '[Deal "?"]', '[Deal ""]', '[Deal "-"]', "1.", ";", "%",
    ]
    between = ["\n", "\n", "\n", "\n", "\n\n", "\r\n", "\r\n\r\n", "\n \t\n", " ", "", "\n{ }\n", "\n;\n"]
    text = "\ufeff" if drawn.random() < 0.1 else ""
    for _ in range(drawn.randrange(1, 40)):
        if drawn.random() < 0.3:
            inner = drawn.choice([" ", "\n", " { \n\n } ", " ; ]\n", "\n% ]\n"])
            text += f"[{drawn.choice(['', inner])}{drawn.choice(['Deal', 'deal', 'DEAL'])}{inner}\"{drawn.choice(['', '', '##'])}{drawn.choice(deals)}\"{drawn.choice(['', inner])}]"
        else:
            text += drawn.choice(pieces)
        text += drawn.choice(between)
    # So that the last game is closed.
    return f"{text}\n.\n"


CUT = """window.texts.map(text => valuesOf(cutGames(text)).map(values => { try { return dealText(readDeal(values.get("deal"))); } catch { return null; } }))"""


def as_the_other_reader(browser, server, count=2000):
    """Games of the sample files and of drawn ones, each with its deal. Where the reader has another reason for none, the page may be more lenient."""
    Page(browser, server.port)
    drawn, deals = random.Random(61), [request["deal"] for request, _ in recorded("tables")]
    texts = [text_of(path) for path in sorted(SAMPLES.glob("*.pbn"))] + [drawn_file(drawn, deals) for _ in range(count)]
    found, lacking = 0, 0
    for at in range(0, len(texts), 50):
        some = texts[at : at + 50]
        browser.value("window.texts = " + json.dumps(some))
        for text, told in zip(some, browser.value(CUT)):
            wanted = games_of(text.encode())
            check(f"how many games {text!r} has", len(told), len(wanted))
            check(f"the deals of {text!r}", [it for it, why in zip(told, wanted) if why.startswith("N:")], deals_of(text.encode()))
            check(f"games without a deal in {text!r}", {it for it, why in zip(told, wanted) if why == "no deal"} - {None}, set())
            found, lacking = found + len(wanted), lacking + wanted.count("no deal")
    check("that the drawn files have many games, and some without a deal", found > 4 * count and lacking > count / 4, True)
    return len(texts), found


def as_the_program(browser, server, count=400):
    """Games of drawn files with more that is no tag, as the program's notes have them."""
    said = "ddserve: game 1 (board 1): deal refused, fault 4\nddserve: game 2 (board ?): deal refused, fault 4: the text of the deal has not the form of a deal\nddserve: game 12 (board (2)): spent\nddserve: no game was found: the input has no tag of PBN\n"
    check("the reasons in notes", reasons_in(said), ["deal refused, fault 4", "deal refused, fault 4", "spent"])
    Page(browser, server.port)
    drawn, deals = random.Random(7), [request["deal"] for request, _ in recorded("tables")]
    wild = ["[", "[ ]", "\n% {", "; {", "{ [ }", '"', "\\", "[Site", "[Site {", '[Note "', "}", "\n%", '; [Deal "x"]', "{ ; }"]
    texts = [drawn_file(drawn, deals, wild) for _ in range(count)]
    browser.value("window.texts = " + json.dumps(texts))
    found = 0
    for text, told in zip(texts, browser.value(CUT)):
        wanted = program_games(text.encode())
        check(f"how many games {text!r} has for the program", len(told), len(wanted))
        check(f"which of them have a deal, of {text!r}", [bool(it) for it, why in zip(told, wanted) if why in ("spent", "no deal")], [why == "spent" for why in wanted if why in ("spent", "no deal")])
        found += len(wanted)
    check("that there are many games", found > 3 * count, True)
    return found


def address(browser, server):
    bad_address(browser, server)
    held_address(browser, server)
    print("page: the address holds the deal and its play; of a bad one it says what is wrong, and shows no other deal")


def games(browser, server):
    several_games(browser, server)
    inherited(browser, server)
    foreign_contracts(browser, server)
    several_of_lin(browser, server)
    file_opened(browser, server)
    files, found = as_the_other_reader(browser, server)
    print(f"page: of a file with several games a board is chosen; {files} files have the {found} games that another reader finds, and 400 the {as_the_program(browser, server)} that the program does")
