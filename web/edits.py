"""Deals that are changed, what of a text can't be read, and tens: results and par are those of what is shown, or there are none."""
import json
import threading

from page import Page, check, hands_of, par_text, recorded
from servers import Between, answers, results
from texts import boards, choose, conditions, program_games

FULL = "N:J6.72.AQ7643.AJ7 Q9842.Q854.T.K42 AT75.AT9.KJ8.T83 K3.KJ63.952.Q965"
LIN = "md|3SAT75HAT9DKJ8CT83,SK3HKJ63D952CQ965,SJ6H72DAQ7643CAJ7,|sv|o|"


def select(page, name, value):
    page.browser.value(f"(it => {{ it.value = {value}; it.dispatchEvent(new Event('change')); }})(document.querySelector('#{name}'))")


def until_par(page, text):
    page.browser.until(f"document.querySelector('#par').innerText === {json.dumps(text)}", 20)


def until_results(page, reply):
    page.browser.until("!/[·–]/.test(document.querySelector('#results').innerText)", 20)
    check("the twenty results", results(page), answers(reply))


def game_of(deal, **tags):
    return "".join(f'[{name} "{value}"]\n' for name, value in {"Event": "", **tags, "Deal": deal}.items())


def typed(page, deal):
    page.browser.value("document.querySelector('#input').open = true")
    for seat, hand in enumerate(hands_of(deal)):
        page.browser.fill(f"#typed{seat}", ".".join(hand))
    page.browser.click("#typed button")


# ---- What can't be read.


def unread(browser, server):
    """A dealer, a vulnerability, a declarer and a contract in other words: each is told, and par waits for the user's choice."""
    asked = []
    between = Between(server.port, asked.append)
    request, reply = recorded("par_deals")[0]
    page = Page(browser, between.port, "N:A... K... Q... J...")
    page.paste(game_of(request["deal"], Dealer="Süd", Vulnerable="N/S", Declarer="Sud", Contract="3SA"))
    told = "Dealer “Süd”, Vulnerable “N/S”, Declarer “Sud” and Contract “3SA” can’t be read; shown is South as declarer, notrump as trumps."
    check("that it is seen what can't be read", (page.text("#unread"), page.seen(told)), (told, True))
    browser.until("!document.querySelector('#results').innerText.includes('·')")
    check("what stands in the place of par", page.text("#par"), "No par: choose the dealer and who is vulnerable.")
    check("what is chosen", conditions(page), ["", ""])
    page.picture("unread")
    for width in (360, 320):
        browser.size(width, 740, phone=True)
        check(f"that nothing is wider than {width} pixels", browser.value("document.documentElement.scrollWidth"), width)
    page.picture("unread-phone")
    browser.size(1280, 900)
    select(page, "dealer", request["dealer"])
    until_par(page, "No par: choose who is vulnerable.")
    check("what still can't be read", page.text("#unread"), "Vulnerable “N/S”, Declarer “Sud” and Contract “3SA” can’t be read; shown is South as declarer, notrump as trumps.")
    browser.click("#declarers button:nth-child(3)")
    check("what can't be read when the declarer is chosen", page.text("#unread"), "Vulnerable “N/S” and Contract “3SA” can’t be read; shown is notrump as trumps.")
    browser.click("#trumps button:nth-child(1)")
    check("what can't be read when trumps are chosen", page.text("#unread"), "Vulnerable “N/S” can’t be read.")
    browser.until("new URLSearchParams(location.search).get('trumps') === 'S'", 5)
    before = page.told()
    page.reload()
    check("what is told after a reload", (page.told(), conditions(page)), (before, [str(request["dealer"]), ""]))
    until_par(page, "No par: choose who is vulnerable.")
    check("that par wasn't asked before", [it for it in asked if it["do"] == "par"], [])
    select(page, "vulnerable", request["vulnerable"])
    until_par(page, par_text(reply))
    check("what can't be read at the end", page.text("#unread"), "")
    browser.click("#undo")
    until_par(page, "No par: choose who is vulnerable.")
    check("what was asked of par", {(it["dealer"], it["vulnerable"]) for it in asked if it["do"] == "par"}, {(request["dealer"], request["vulnerable"])})


def unread_of_others(browser, server):
    """It is that of the board that is shown; what isn't told is none; typed hands keep it."""
    page = Page(browser, server.port)
    request, reply = recorded("par_deals")[1]
    page.paste(game_of(request["deal"], Board="1", Dealer="Nord") + "\n" + game_of(request["deal"], Board="2", Dealer="?", Vulnerable="", Declarer="", Contract="Pass"))
    check("what can't be read of the first board", page.text("#unread"), "Dealer “Nord” can’t be read.")
    typed(page, FULL)
    until_par(page, "No par: choose the dealer.")
    check("what can't be read beside typed hands", page.text("#unread"), "Dealer “Nord” can’t be read.")
    browser.click("#undo")
    check("how many boards there are", len(boards(page)[0]), 2)
    choose(page, 1)
    check("what can't be read of the second", (page.text("#unread"), conditions(page)), ("", ["0", "0"]))
    until_par(page, par_text(reply))
    page.paste(LIN.replace("sv|o|", "sv|x|"))
    check("what can't be read of LIN", (page.text("#unread"), conditions(page)), ("Vulnerable “x” can’t be read.", ["0", ""]))
    until_par(page, "No par: choose who is vulnerable.")
    page.paste(LIN)
    until_par(page, "Par: NS 400, 3NT NS =")
    words = {"None": 0, "love": 0, "-": 0, "ALL": 1, "Both": 1, "NS": 2, "ns": 2, "EW": 3}
    for word, code in words.items():
        page.paste(game_of("N:A... K... Q... J...", Dealer="w", Vulnerable=word, Declarer="^e", Contract="1SX"))
        check(f"vulnerability {word}", (conditions(page), page.text("#unread")), (["3", str(code)], ""))
    page = Page(browser, server.port, game_of(request["deal"], Dealer="Nord", Vulnerable="x"), dealer="N", vulnerable="None")
    until_par(page, par_text(reply))
    check("what can't be read where the address tells it", page.text("#unread"), "")


# ---- Tens.


def tens(browser, server):
    """`10` is no rank in the text of a deal, as for the program. As a card of a play it is one."""
    check("what the program says", [program_games(game_of(FULL.replace(".T.", ten)).encode()) for ten in (".10.", ".T.")], [["deal refused, fault 4"], ["spent"]])
    page = Page(browser, server.port)
    for text in (FULL.replace(".T.", ".10."), game_of(FULL.replace("KJ8.T83", "KJ8.1083")), LIN.replace("CT83", "C1083"), LIN.replace("SAT75", "SA1075")):
        page.browser.value("document.querySelector('#input').open = true")
        page.browser.fill("#text", text)
        page.browser.click("#paste button")
        check(f"what is said of {text}", page.text("#textWrong"), "“10” is no rank: the ten is written T")
        page.paste(text.replace("10", "T"))
        check("the hand with the ten", page.hands()[1], ["SQ", "S9", "S8", "S4", "S2", "HQ", "H8", "H5", "H4", "DT", "CK", "C4", "C2"])
    typed(page, FULL.replace(".T.", ".10."))
    check("what is said of a hand with 10", page.text("#typedWrong"), "“10” is no rank: the ten is written T")
    page.paste('[Deal "N:T... K... Q... J..."]\n[Declarer "W"]\n[Play "N"]\nS10 SK SQ SJ\n')
    check("the cards of a play with S10", len(page.trace()), 5)
    page = Page(browser, server.port, "N:T... K... Q... J...", declarer="W", cards="S10SK")
    check("the cards of a play with S10 in the address", len(page.trace()), 3)
    page = Page(browser, server.port, "N:10... K... Q... J...")
    check("that it is seen of a deal in the address", page.seen("“10” is no rank: the ten is written T"), True)


# ---- A deal that is changed.


def asked_anew(browser, server):
    """Results of a deal are asked of the server, whatever the text tells, and those of another deal are never shown."""
    asked, may_reply = [], threading.Event()

    def told(request):
        asked.append(request)
        if request["do"] == "table":
            may_reply.wait(30)

    between = Between(server.port, told)
    (first, first_reply), (second, second_reply) = recorded("tables")[:2]
    may_reply.set()
    stale = {"DoubleDummyTricks": "d0d0d0d0d0d0d0d0d0d0", "OptimumScore": "NS 9999", "ParContract": "NS 7NT="}
    page = Page(browser, between.port, game_of(first["deal"], Dealer="W", Vulnerable="NS", **stale))
    until_results(page, first_reply)
    browser.until("/^Par: [NE]/.test(document.querySelector('#par').innerText)")
    check("that par isn't that of the text", "9999" in page.text("#par"), False)
    may_reply.clear()
    del asked[:]
    typed(page, second["deal"])
    check("the results and par while they are asked", (results(page), page.text("#par")), ([["·"] * 5] * 4, "Par: …"))
    may_reply.set()
    until_results(page, second_reply)
    check("that the changed deal was asked for", [hands_of(it["deal"]) for it in asked if it["do"] == "table"], [hands_of(second["deal"])])
    # Both with the dealer and the vulnerability that were there, West and North-South.
    for at in (4, 5):
        request, reply = recorded("par_deals")[at]
        typed(page, request["deal"])
        check("dealer and vulnerability beside typed hands", conditions(page), ["3", "2"])
        until_par(page, par_text(reply))
    browser.click("#undo")
    until_par(page, par_text(recorded("par_deals")[4][1]))
    for at in (0, 3, 8, 5):
        request, reply = recorded("par_deals")[at]
        typed(page, request["deal"])
        select(page, "dealer", request["dealer"])
        select(page, "vulnerable", request["vulnerable"])
        until_par(page, par_text(reply))


def undone_before_par(browser, server):
    """The dealer is changed and changed back before there was a par."""
    may_reply = threading.Event()
    between = Between(server.port, lambda it: (it["do"] == "table" and may_reply.wait(30), None)[1])
    request, reply = recorded("par_deals")[4]
    page = Page(browser, between.port, game_of(request["deal"], Dealer="W", Vulnerable="NS"))
    select(page, "dealer", 0)
    may_reply.set()
    browser.until("/^Par: [NE]/.test(document.querySelector('#par').innerText)")
    browser.click("#undo")
    check("the dealer after the change was undone", conditions(page), ["3", "2"])
    until_par(page, par_text(reply))


def edits(browser, server):
    unread(browser, server)
    unread_of_others(browser, server)
    print("page: it says which dealer, vulnerability, declarer and contract can't be read, and has no par until they are chosen")
    tens(browser, server)
    asked_anew(browser, server)
    undone_before_par(browser, server)
    print("page: a changed deal, dealer or vulnerability has results and par of its own; 10 is no rank of a deal")
