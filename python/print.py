"""The page of hand records in headless Chromium, on a screen and as a print: 36 boards, sixteen to a sheet of A4, and nothing broken.

Words: the filled files of these boards and of tests/records/merged.pbn. PICTURES names a folder for a picture of the screen and for the print."""
import base64
import os
import re
import shutil
import subprocess
import sys
import tempfile
from pathlib import Path

HERE = Path(__file__).resolve().parent
sys.path.insert(0, str(HERE.parent / "web"))

from browser import Browser

PICTURES = os.environ.get("PICTURES")
# A sheet of A4 without its margins, in pixels: 196 x 283 mm at 96 to the inch.
WIDTH, HEIGHT = 741, 1069
# What stands in more than one line, or beyond the frame of its board or over another hand.
BROKEN = """(() => {
  const found = [];
  for (const section of document.querySelectorAll("section")) {
    const frame = section.getBoundingClientRect();
    const hands = [...section.querySelectorAll(".hand")].map(it => it.getBoundingClientRect());
    for (const it of section.querySelectorAll(".hand div, .whole, td, th")) {
      const range = document.createRange();
      range.selectNodeContents(it);
      const boxes = [...range.getClientRects()].filter(box => box.width > 0);
      const top = Math.min(...boxes.map(box => box.bottom)), bottom = Math.max(...boxes.map(box => box.bottom));
      const right = Math.max(...boxes.map(box => box.right));
      if (boxes.length && (bottom - top > 6 || right > frame.right)) found.push(section.innerText.slice(0, 10) + it.innerText);
    }
    const over = (one, other) => one.left < other.right && other.left < one.right && one.top < other.bottom - 1 && other.top < one.bottom - 1;
    if (hands.some((one, at) => hands.slice(at + 1).some(other => over(one, other)))) found.push(section.innerText.slice(0, 10) + "hands");
  }
  return found;
})()"""


def check(what, got, wanted):
    if got != wanted:
        sys.exit(f"python: {what}: {got!r} in place of {wanted!r}")


def opened(browser, folder, source):
    """Opens the page of a filled file."""
    path = Path(folder, "record.html")
    with open(source, "rb") as data, open(path, "wb") as target:
        subprocess.run([sys.executable, "-m", "ddserve", "record"], stdin=data, stdout=target, stderr=subprocess.DEVNULL, check=True)
    browser.call("Emulation.setEmulatedMedia", media="")
    browser.open(f"file://{path}")


def check_screens(browser, boards):
    check("boards on the screen", browser.value("document.querySelectorAll('section').length"), boards)
    check("headings on the screen", browser.value("[...document.querySelectorAll('header')].filter(it => it.offsetHeight > 0).length"), 1)
    for width in (360, 1280):
        browser.size(width, 900)
        check(f"what is broken on a screen of {width} pixels", browser.value(BROKEN), [])


def check_print(browser, pages):
    browser.call("Emulation.setEmulatedMedia", media="print")
    browser.size(WIDTH, HEIGHT)
    check("what is broken on paper", browser.value(BROKEN), [])
    heights = browser.value("[...document.querySelectorAll('.sheet')].map(it => it.offsetHeight)")
    check("sheets that are higher than one of A4", [it for it in heights if it > HEIGHT], [])
    browser.call("Emulation.setEmulatedMedia", media="")
    data = base64.b64decode(browser.call("Page.printToPDF", preferCSSPageSize=True, displayHeaderFooter=False)["data"])
    check("pages of the print", len(re.findall(rb"/Type\s*/Page\b", data)), pages)
    sizes = {tuple(round(float(it)) for it in box.split()[2:]) for box in re.findall(rb"/MediaBox\s*\[([^]]*)\]", data)}
    check("their sizes in points", sizes, {(595, 842)})
    return data


def main(filled, extreme):
    browser = Browser(shutil.which("chromium") or shutil.which("chromium-browser"))
    with tempfile.TemporaryDirectory() as folder:
        opened(browser, folder, filled)
        check_screens(browser, 36)
        if PICTURES:
            browser.picture(Path(PICTURES, "hand_record_screen.png"))
        data = check_print(browser, 3)
        if PICTURES:
            Path(PICTURES, "hand_record.pdf").write_bytes(data)
        # Thirteen cards of a suit in each hand.
        opened(browser, folder, extreme)
        check_screens(browser, 2)
        check_print(browser, 1)
    browser.close()
    print("python: 36 boards stand on three sheets of A4, and no suit and no contract is broken")


if __name__ == "__main__":
    main(*sys.argv[1:])
