"""What is seen at once while cards are played, on a phone and on a laptop, and what a screen reader is told."""
from page import Page, Server, as_lin, card, check, recorded
from texts import SAMPLES, text_of

# Width and height in pixels, and whether a finger points.
WINDOWS = {"phone": (360, 740, True), "laptop": (1366, 650, False), "small-laptop": (1024, 650, False)}


def outside(page):
    """What of the hands and the trick is not seen: boxes that are not within the window, and cards with something over them."""
    return page.browser.value("""(() => {
      const boxes = [...document.querySelectorAll('.hand, #trick, .laid')].filter(it => {
        const box = it.getBoundingClientRect();
        return box.left < 0 || box.top < 0 || box.right > innerWidth || box.bottom > innerHeight || !box.height;
      });
      const covered = [...document.querySelectorAll('.card, .laid, .symbol')].filter(it => {
        const box = it.getBoundingClientRect();
        return [[2, 2], [box.width - 2, box.height - 2]].some(([x, y]) => { const top = document.elementFromPoint(box.x + x, box.y + y); return !top || !(it.contains(top) || top.contains(it)); });
      });
      return [...boxes, ...covered].map(it => it.id || it.dataset.card || it.className);
    })()""")


def played_in(browser, server, name, at):
    """A recorded play, each card by a click or a touch, with all seen before each."""
    width, height, is_phone = WINDOWS[name]
    browser.size(width, height, phone=is_phone)
    request, _ = recorded("plays")[at]
    page = Page(browser, server.port, as_lin(request, []))
    places = set()
    for count, played in enumerate(request["cards"]):
        check(f"what isn't seen at {width} x {height} before card {count + 1} of play {at}", outside(page), [])
        check("that nothing was scrolled", browser.value("[scrollX, scrollY]"), [0, 0])
        if count in (0, 6):
            page.picture(f"{name}-{at}-{count}", whole=False)
        browser.click(f".card[data-card={card(*played)}]")
        page.shown(count + 1)
        places.add(browser.value("document.querySelector('#forth').getBoundingClientRect().top"))
    check(f"what isn't seen at {width} x {height} after the last card", outside(page), [])
    if is_phone:
        check("the places of a button while cards were played", len(places), 1)


def pasted_in(browser, server, name):
    """After a text is pasted, which on a phone is done far below."""
    width, height, is_phone = WINDOWS[name]
    browser.size(width, height, phone=is_phone)
    page = Page(browser, server.port)
    for at in (1, 4, 9):
        page.paste(as_lin(recorded("plays")[at][0], []))
        check(f"what isn't seen at {width} x {height} after a deal was pasted", outside(page), [])
        check("the choices above", browser.value("document.querySelector('#trumps').getBoundingClientRect().top >= 0"), True)
    page.paste(text_of(SAMPLES / "22-sixteen.pbn"))
    check(f"what isn't seen at {width} x {height} with sixteen boards to choose from", outside(page), [])
    page.picture(f"{name}-boards", whole=False)


def away_in(browser, name):
    """While the server is away, which is said above."""
    width, height, is_phone = WINDOWS[name]
    browser.size(width, height, phone=is_phone)
    server = Server()
    page = Page(browser, server.port)
    server.end()
    page.until_seen("No server at 127.0.0.1:")
    check(f"what isn't seen at {width} x {height} while the server is away", outside(page), [])
    page.picture(f"{name}-away", whole=False)
    page = Page(browser, server.port, is_answered=False)
    page.until_seen("--websocket")
    check(f"what isn't seen at {width} x {height} while there never was one", outside(page), [])
    page.picture(f"{name}-never", whole=False)


def many_deals(browser, server):
    """Every deal of the recorded tables and plays, with its longest suits, at its start."""
    deals = [request["deal"] for name in ("tables", "plays", "full") for request, _ in recorded(name)]
    page = Page(browser, server.port)
    for width, height, is_phone in WINDOWS.values():
        browser.size(width, height, phone=is_phone)
        for deal in deals:
            browser.value(f"deal(readDeal({deal!r}))")
            check(f"what isn't seen at {width} x {height} of {deal}", outside(page), [])


def names(browser):
    """Roles and names of what a screen reader can reach, in order, without cards and results."""
    nodes = browser.call("Accessibility.getFullAXTree")["nodes"]
    kept = {"button", "combobox", "textbox", "group", "alert", "status", "region", "heading", "list", "table", "DisclosureTriangle"}
    return [(node["role"]["value"], node.get("name", {}).get("value", "")) for node in nodes if not node["ignored"] and node["role"]["value"] in kept]


def labels(browser, server):
    """What is named to a screen reader: all that was, and what is new."""
    browser.size(1280, 900)
    request, _ = recorded("plays")[51]
    page = Page(browser, server.port, as_lin(request, request["cards"][:8]))
    browser.until("!document.querySelector('#results').innerText.includes('·')")
    browser.value("document.querySelector('#input').open = true")
    told = names(browser)
    wanted = [("group", "Trumps"), ("group", "Declarer"), ("region", "Play"), ("button", "spades"), ("button", "notrump"), ("button", "North"), ("button", "West"), ("button", "Deal by chance"), ("button", "To the first card"), ("button", "One card back"), ("button", "One card forward"), ("button", "To the last card"), ("button", "Undo"), ("combobox", "Dealer"), ("combobox", "Vulnerable"), ("textbox", "North"), ("textbox", "East"), ("textbox", "South"), ("textbox", "West"), ("textbox", "Server"), ("button", "Show it"), ("button", "Show these hands"), ("button", "Connect"), ("list", "Cards that cost a trick"), ("heading", "A deal, double dummy"), ("heading", "Tricks of each declarer")]
    check("names for a screen reader that aren't there", [it for it in wanted if it not in told], [])
    check("what has no name", [role for role, name in told if not name and role in ("button", "combobox", "textbox")], [])
    cards = browser.value("[...document.querySelectorAll('.card.may')].map(it => [it.getAttribute('aria-label'), it.querySelector('b').textContent])")
    check("that a card that may be played tells its tricks", [name for name, tricks in cards if not name.endswith(f", {tricks} trick{'' if tricks == '1' else 's'}")], [])
    cells = browser.value("[...document.querySelectorAll('#results td button')].map(it => it.getAttribute('aria-label'))")
    check("that each result has a name", (len(cells), [it for it in cells if " in " not in it or not it.endswith("tricks")]), (20, []))
    check("what says by itself that it changed", browser.value("['#link', '#say', '#par', '#gaps', '#notice', '#unread', '#textWrong', '#typedWrong'].map(it => document.querySelector(it).getAttribute('role'))"), ["status"] * 4 + ["alert"] * 4)


def reached(browser, server):
    """What the key Tab reaches, in order."""
    browser.size(1280, 900)
    page = Page(browser, server.port, '[Board "1"]\n[Deal "N:A... K... Q... J..."]\n[Board "2"]\n[Deal "N:A... K... Q... J..."]\n')
    found = []
    browser.value("document.activeElement.blur()")
    for _ in range(45):
        browser.key("Tab")
        found.append(browser.value("document.activeElement.id || document.activeElement.closest('[id]')?.id || document.activeElement.tagName"))
    check("what Tab doesn't reach", [it for it in ("trumps", "declarers", "board", "chance", "results", "dealer", "vulnerable", "input") if it not in found], [])
    check("how many cards Tab reaches", sum(it.startswith("hand") for it in found), 1)
    page.shown()


def sizes(browser, server):
    for name in WINDOWS:
        for at in (51, 9):
            played_in(browser, server, name, at)
        pasted_in(browser, server, name)
        away_in(browser, name)
    many_deals(browser, server)
    labels(browser, server)
    reached(browser, server)
    browser.size(1280, 900)
    print("page: all hands and the trick are seen at once on a phone and on a laptop; all that can be reached has a name")
