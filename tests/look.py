#!/usr/bin/env python3
"""Opens the web page in a headless Chromium, from a folder and from a web server on the loopback, and looks at what it shows: the
period, values and picture of a game; who wins a position and by which move; a game that is played to its end; files that are
dropped, whose report and catalogue are those of the program, and in which no script runs; a search that is stopped; faults; a
browser without 64-bit memory. Nothing is asked for but the files of the page, and the console says nothing. No element is wider than
the window at 360 and 1,280 pixels, each text has contrast enough by day and by night, and each field and button is reached by the
keyboard, and has a name. It also stands beside the tables of a site, where the link of a game leads to it. Where there is no
Chromium it says so, and looks at nothing.
"""

import contextlib
import functools
import http.server
import json
import os
import random
import re
import shutil
import threading
import time
import xml.etree.ElementTree as xml

from browser import Browser, chromium
from lib import TOP, done, folder, need, nim_values, read, run, same, write

WEB = TOP / "web"
FILES = {"index.html", "page.css", "module.js", "page.js"}
SVG = "{http://www.w3.org/2000/svg}"
RULES = {"0.77": (0, 7, 7), "0.07": (0, 0, 7)}

# The elements that are wider than the window, but for what scrolls by itself.
WIDE = """[...document.body.querySelectorAll('*')]
  .filter((element) => !element.parentElement.closest('.scroll') && element.getBoundingClientRect().right > document.documentElement.clientWidth + 1)
  .map((element) => `${element.tagName} ${element.id}`).concat(
    document.documentElement.scrollWidth > document.documentElement.clientWidth ? ['the page'] : [])"""

# The texts with less contrast to their ground than 4.5, as the guidelines for accessible pages reckon, but for buttons that are off.
FAINT = """(() => {
  const parts = (colour) => colour.match(/[\\d.]+/g).map(Number);
  const light = (colour) => parts(colour).slice(0, 3).map((part) => part / 255)
    .map((part) => (part <= 0.04045 ? part / 12.92 : ((part + 0.055) / 1.055) ** 2.4))
    .reduce((sum, part, at) => sum + part * [0.2126, 0.7152, 0.0722][at], 0);
  const ground = (element) => {
    const colour = getComputedStyle(element).backgroundColor;
    return parts(colour)[3] !== 0 || !element.parentElement ? colour : ground(element.parentElement);
  };
  return [...document.body.querySelectorAll('*')]
    .filter((element) => element.checkVisibility() && !element.disabled && [...element.childNodes].some((node) => node.nodeType === 3 && node.data.trim()))
    .filter((element) => {
      const [low, high] = [light(getComputedStyle(element).color), light(ground(element))].sort((one, other) => one - other);
      return (high + 0.05) / (low + 0.05) < 4.5;
    }).map((element) => `${element.tagName} ${element.id} ${element.textContent.slice(0, 40)}`);
})()"""


class Page:
    """The page in a browser."""

    def __init__(self, browser, address):
        self.browser, self.address = browser, address

    def open(self, query=""):
        self.browser.open(f"{self.address}{query}")

    def value(self, text):
        return self.browser.run(text)

    def text(self, name):
        return self.value(f"document.getElementById({json.dumps(name)}).textContent")

    def shown(self, name):
        return self.value(f"document.getElementById({json.dumps(name)}).checkVisibility()")

    def told(self, name):
        """What an element says, once it says something and nothing is done any more."""
        self.browser.wait(f"document.getElementById({json.dumps(name)}).textContent && !giveUp")
        return self.text(name)

    def fill(self, **fields):
        for name, value in fields.items():
            self.value(f"document.getElementById({json.dumps(name)}).value = {json.dumps(value)}")

    def ask(self, form, status, **fields):
        """What a form answers to these fields."""
        self.fill(**fields)
        self.value(f"document.getElementById({json.dumps(status)}).textContent = ''; document.getElementById({json.dumps(form)}).requestSubmit()")
        return self.told(status)

    def click(self, name):
        self.value(f"document.getElementById({json.dumps(name)}).click()")

    def drop(self, path):
        """What the page says of a file that is dropped on its place."""
        self.value("document.getElementById('verdict').textContent = ''; document.getElementById('drop').scrollIntoView()")
        at = self.value("(() => { const { x, y } = document.getElementById('drop').getBoundingClientRect(); return [x + 20, y + 20]; })()")
        data = {"items": [], "files": [os.path.abspath(path)], "dragOperationsMask": 1}
        for kind in ("dragEnter", "dragOver", "drop"):
            self.browser.ask("Input.dispatchDragEvent", type=kind, x=at[0], y=at[1], data=data)
        return self.told("verdict")


# ---- games


def game(page):
    """The period, the values and the picture of a game."""
    done("init", "game.state", "1")
    done("survey", "game.state", "200", "0.77")
    sentence = page.ask("game-form", "period", code="0.77", count="20000")
    same("the sentence", sentence, "0.77 has period 12 from heap 71 on: proved, for every heap, by its first 168 values.")
    rows = page.value("[...document.querySelectorAll('#values tr')].map((row) => [...row.children].map((cell) => cell.textContent))")
    values = nim_values("0.77", 95)
    same("the heads of rows", [head for head, _ in rows], ["0", "24", "48", "71"])
    same("the values", [int(value) for _, row in rows for value in row.split()], values)
    same("the first run", page.text("values").count("7") > 0 and page.value("document.querySelector('mark').textContent").split(), [*map(str, values[71:83])])
    root = xml.fromstring(done("plot", "game.state", "0.77"))
    words = f"{root.find(SVG + 'title').text}. {root.find(SVG + 'desc').text}"
    same("the words for the picture", page.value("document.getElementById('picture').alt"), words)
    page.browser.wait("document.getElementById('picture').naturalWidth > 0")
    kept(page, "keep-bfile", "0.77.txt", done("search", "--bfile", "20000", "0.77"))
    kept(page, "keep-picture", "0.77.svg", done("plot", "game.state", "0.77"))
    same("the sentence behind it", page.told("period"), sentence)
    none = page.ask("game-form", "period", code="0.6", count="500")
    same("no period", none, "0.6: no period seen in 500 values.")
    same("values", page.value("document.querySelectorAll('#values tr').length"), 25)


def kept(page, button, name, due):
    """A file that the page gives to be kept."""
    os.makedirs("kept", exist_ok=True)
    page.browser.ask("Page.setDownloadBehavior", behavior="allow", downloadPath=os.path.abspath("kept"))
    page.click(button)
    end = time.monotonic() + 60
    while time.monotonic() < end and not (os.path.exists(f"kept/{name}") and os.path.getsize(f"kept/{name}") == len(due)):
        time.sleep(0.02)
    same(f"what is kept in {name}", read(f"kept/{name}").decode(), due)
    os.remove(f"kept/{name}")


def faults(page):
    """Fields with what is no code, no number or no heap, and marks that stay text."""
    for code, count, fault in (("0.8", "10", "Code Digit"), ("<b>x</b>", "10", "Code Form"), ("0.77", "0", "Number"), ("0.77", "many", "Number")):
        told = page.ask("game-form", "period", code=code, count=count)
        need(told.endswith(f"({fault})"), f"{code} {count}: {told}")
        need(page.shown("period"), f"{code} {count}: the fault is not shown")
        need(not page.shown("game-answer"), "an answer stays beside a fault")
    told = page.ask("position-form", "winner", code="0.77", count="200", heaps="5 <i>six</i>")
    need("“<i>six</i>” is none" in told, told)
    need(page.shown("winner"), "the fault of a heap is not shown")
    told = page.ask("position-form", "winner", code="0.6", count="100", heaps="5 100")
    need("heap of 100 is not known: 100 values prove no period" in told, told)


# ---- positions


def position(page):
    """Who wins, and by which move."""
    for heaps in (["5", "6", "9"], ["5", "5"], ["1000000000000000000", "70", "3"]):
        value = done("value", "game.state", "0.77", *heaps)
        told = page.ask("position-form", "winner", code="0.77", count="20000", heaps=" ".join(heaps))
        number, outcome = re.fullmatch(r"value (\d+)\nnext player (\w+)\n", value).groups()
        same(f"position {heaps}", told, f"The nim-value is {number}: who moves next {outcome}.")
        found = re.fullmatch(r"heap \d+ of (\d+): remove (\d+), leave (.*)\n", done("move", "game.state", "0.77", *heaps))
        same(f"a move of {heaps}", page.shown("move"), bool(found))
        if found:
            same(f"the move of {heaps}", page.text("move"), f"Take {found[2]} of the heap of {found[1]}, leave {found[3]}.")


def heaps_after(line, heaps, code):
    """The heaps after a line of the game, which is a move by the rules."""
    removed, heap, rest = re.fullmatch(r"\w+: take (\d+) of the heap of (\d+), leave (.*)", line).groups()
    left = [int(part) for part in re.findall(r"\d+", rest)]
    rule = RULES[code][int(removed)]
    need(int(heap) in heaps and sum(left) == int(heap) - int(removed) and rule >> len(left) & 1, f"{line}, of {heaps}")
    heaps = list(heaps)
    heaps.remove(int(heap))
    return heaps + left


def play(page, code, heaps, rng):
    """A game from a position that the page loses, if the program plays well: its last line."""
    page.ask("position-form", "winner", code=code, count="1000", heaps=" ".join(map(str, heaps)))
    said = 0
    while True:
        count = page.value("document.querySelectorAll('#board button:enabled').length")
        page.value(f"document.querySelectorAll('#board button:enabled')[{rng.randrange(count)}].click()")
        moves = page.value("document.querySelectorAll('#moves button').length")
        page.value(f"document.querySelectorAll('#moves button')[{rng.randrange(moves)}].click()")
        page.browser.wait("!giveUp && !document.getElementById('turn').textContent.includes('looks')")
        lines = page.value("[...document.querySelectorAll('#played li')].map((item) => item.textContent)")
        for line in lines[said:]:
            heaps = heaps_after(line, heaps, code)
        said = len(lines)
        left = page.value("[...document.querySelectorAll('#board button')].map((button) => button.firstChild.data)")
        same("the heaps on the board", sorted(map(int, left)), sorted(heaps))
        turn = page.text("turn")
        if "wins" in turn or "you win" in turn:
            return turn


def games_played(page):
    """Games to the end; a move that is taken back; the program moves first; a heap that has too many moves for buttons."""
    rng = random.Random(5)
    for code, heaps in (("0.77", [5, 5]), ("0.77", [9, 4, 4, 9]), ("0.07", [6, 6]), ("0.77", [12, 12])):
        need(play(page, code, heaps, rng).endswith("the program wins."), f"the program lost {code} {heaps}")
    page.ask("position-form", "winner", code="0.77", count="1000", heaps="1")
    page.value("document.querySelector('#board button').click(); document.querySelector('#moves button').click()")
    page.browser.wait("document.getElementById('turn').textContent === 'You made the last move: you win.'")
    page.click("back")
    page.browser.wait("document.querySelectorAll('#board button').length === 1 && !giveUp")
    page.click("pass")
    page.browser.wait("document.getElementById('turn').textContent.endsWith('the program wins.')")
    page.ask("position-form", "winner", code="0.77", count="1000", heaps="1000000000000 1000000000000")
    page.value("document.querySelector('#board button').click()")
    page.value("document.querySelector('#moves input').value = '7'; document.querySelector('#moves button').click()")
    page.browser.wait("document.querySelectorAll('#played li').length === 2 && !giveUp")
    same("the first move", page.value("document.querySelector('#played li').textContent"), "You: take 1 of the heap of 1000000000000, leave 7 and 999999999992")


# ---- files


def table():
    """A state with wrong claims and with marks in its notes, its delta, lines, and b-files."""
    done("init", "wrong.state", "2")
    write("block.json", json.dumps({"code": "0.77", "start": 68, "values": [1, 8, 2, 7]}).encode())
    done("import", "wrong.state", "block.json")
    done("period", "wrong.state", "0.77", "70", "12")
    done("note", "wrong.state", "marks", "<script>parent.document.title = 'run'; alert(1)</script><img src=x onerror=alert(2)>")
    done("delta", "game.state", "game.delta")
    done("merge", "wrong.state", "game.delta")
    done("delta", "wrong.state", "wrong.delta")
    write("lines.hex", f"{read('wrong.delta').hex()}\nno line\n".encode())
    write("damaged.state", read("wrong.state")[:-1])
    write("picture.gif", b"GIF89a\0\1\n")
    text = done("search", "--bfile", "200", "0.77")
    write("right.txt", text.encode())
    write("wrong.txt", text.replace("\n70 6\n", "\n70 2\n").encode())
    write(f"{'long' * 50}.txt", text.replace(" ", " 1").encode())


def files(page):
    """What is said of files that are dropped."""
    table()
    page.fill(code="0.77", count="200")
    shown = done("show", "wrong.state")
    summary = "1 game; of what is claimed 2 proved, 0 pending, 2 refuted."
    refuted = ["0.77, heap 70: 2.1 says 2, but 6 is right", "0.77, heap 70: here the period 12 from 70 on breaks, which 2.2 claims"]
    for name, more in (("wrong.state", ""), ("wrong.delta", ""), ("lines.hex", " 1 line is no delta in hexadecimal, and was passed over.")):
        same(name, page.drop(name), f"{name}: {summary}{more}")
        same(f"the catalogue of {name}", page.text("catalogue"), shown)
        same(f"the report of {name}", page.value("document.getElementById('report').srcdoc"), done("report", "wrong.state"))
        same(f"what is refuted in {name}", page.value("[...document.querySelectorAll('#refuted li')].map((item) => item.textContent)"), refuted)
    same("a script of a note", page.value("document.title"), "census in the browser")
    same("the frame", page.value("document.getElementById('report').getAttribute('sandbox')"), "")
    same("wrong.txt", page.drop("wrong.txt"), "wrong.txt, a b-file of 0.77: 1 value is wrong, the first at heap 70: 2 in the file, 6 is right.")
    same("the comparison", page.text("wrong"), run("check", "0.77", "wrong.txt").out)
    same("right.txt", page.drop("right.txt"), "right.txt, a b-file of 0.77: 200 values, all right.")
    need(": 200 values are wrong, the first at heap 0: 10 in the file, 0 is right." in page.drop(f"{'long' * 50}.txt"), "a b-file of wrong values")
    need(page.drop("damaged.state").endswith("(Load Refused)"), "a damaged state")
    need(page.drop("picture.gif").startswith("picture.gif is no state, no delta and no b-file"), "a file that is nothing of these")
    need(not page.shown("report-answer"), "a report stays beside a fault")
    node = page.browser.ask("DOM.getDocument")["root"]["nodeId"]
    chosen = page.browser.ask("DOM.querySelector", nodeId=node, selector="#chosen")["nodeId"]
    page.browser.ask("DOM.setFileInputFiles", nodeId=chosen, files=[os.path.abspath("wrong.delta")])
    page.browser.wait(f"document.getElementById('verdict').textContent === {json.dumps(f'wrong.delta: {summary}')}")


# ---- how it works


def stopped(page):
    """A search that would take hours says so after half a second, and is stopped; the next one is answered."""
    page.fill(code="0.106", count="4294967296")
    hidden = page.value("document.getElementById('game-form').requestSubmit(), document.getElementById('working').hidden")
    need(hidden, "work is told at once")
    page.browser.wait("document.getElementById('working').checkVisibility()")
    same("what is done", page.text("doing"), "Computing 0.106")
    page.click("stop")
    same("what is said", page.told("period"), "Stopped.")
    page.browser.wait("!document.getElementById('working').checkVisibility()")
    page.value("document.getElementById('game-form').requestSubmit()")
    sentence = page.ask("game-form", "period", code="0.07", count="200")  # which ends the one before
    same("a search behind it", sentence, "0.07 has period 34 from heap 53 on: proved, for every heap, by its first 176 values.")


def fits(page):
    """How wide it is, and how readable by day and by night."""
    page.ask("position-form", "winner", code="0.77", count="200", heaps="5 6 9 18446744073709551615")
    page.value("document.querySelector('#board button').click()")
    for name in ("wrong.txt", "wrong.state", f"{'long' * 50}.txt"):
        page.drop(name)
    page.value("for (const name of ['report-answer', 'check-answer']) document.getElementById(name).hidden = false")
    page.value("document.querySelectorAll('details').forEach((element) => (element.open = true))")
    for width in (360, 768, 1280):
        page.browser.size(width)
        same(f"what is too wide at {width}", page.value(WIDE), [])
    for scheme in ("dark", "light"):
        page.browser.scheme(scheme)
        same(f"what is too faint, {scheme}", page.value(FAINT), [])


def keys(page):
    """A search by the keyboard alone, and what the tabulator reaches: each with a name, and seen."""
    press = functools.partial(page.browser.ask, "Input.dispatchKeyEvent")
    page.value("document.getElementById('code').select()")
    page.browser.ask("Input.insertText", text="4.3")
    page.value("document.getElementById('period').textContent = ''")
    for kind in ("keyDown", "keyUp"):
        press(type=kind, key="Enter", code="Enter", windowsVirtualKeyCode=13, text="\r")
    same("a search by keys", page.told("period"), "4.3 has period 2 from heap 2 on: proved, for every heap, by its first 9 values.")
    page.open()
    page.told("period")
    page.ask("position-form", "winner", code="0.77", count="200", heaps="5 6 9")
    page.value("document.querySelector('#board button').click(); document.activeElement.blur()")
    page.drop("wrong.txt")
    page.value("document.querySelector('a').focus()")  # the first of all, from which the tabulator goes on
    reached = []
    for _ in range(60):
        press(type="keyDown", key="Tab", code="Tab", windowsVirtualKeyCode=9)
        press(type="keyUp", key="Tab", code="Tab", windowsVirtualKeyCode=9)
        name, seen = page.value(
            "(({ activeElement }) => [activeElement.id || activeElement.textContent, activeElement !== document.body && getComputedStyle(activeElement).outlineStyle])(document)"
        )
        if not seen or name in reached[:1]:
            break
        need(seen != "none", f"the focus on {name} is not seen")
        reached.append(name)
    for name in ("code", "count", "Compute", "rows", "keep-bfile", "keep-picture", "heaps", "Who wins?", "A winning move", "take 1, leave 4", "pass", "chosen", "wrong"):
        need(name in reached, f"the tabulator does not reach {name}, but {reached}")
    tree = page.browser.ask("Accessibility.getFullAXTree")["nodes"]
    for node in tree:
        role = node.get("role", {}).get("value")
        if role in ("button", "textbox", "link", "combobox", "image", "Iframe", "region", "table"):
            need(node.get("name", {}).get("value"), f"a {role} has no name: {node}")


def without_memory(page):
    """A browser that has no 64-bit memory."""
    script = page.browser.ask("Page.addScriptToEvaluateOnNewDocument", source="WebAssembly.validate = () => false")["identifier"]
    page.open("?code=0.07&count=900")
    told = page.told("missing")
    need("no 64-bit memory" in told and told.endswith("census search 900 0.07"), told)
    page.browser.ask("Page.removeScriptToEvaluateOnNewDocument", identifier=script)


def is_closed(page):
    """Nothing is asked for but the files of the page."""
    for event in page.browser.events:
        if event.get("method") == "Network.requestWillBeSent":
            address = event["params"]["request"]["url"].split("?")[0]
            here = page.address.rpartition("/")[0]
            need(address in {f"{here}/{name}" for name in FILES} or address.startswith("blob:"), f"the page asks for {address}")


def look(address):
    """All of it, at one address."""
    with Browser(os.path.abspath("browser")) as browser:
        page = Page(browser, address)
        page.open("?code=0.07&count=300")
        same("a game by the address", page.told("period"), "0.07 has period 34 from heap 53 on: proved, for every heap, by its first 176 values.")
        for part in (game, faults, position, games_played, files, stopped, fits, keys, without_memory):
            part(page)
        is_closed(page)
        same("faults on the console", browser.faults(), [])
    for name in ("game.state", "wrong.state"):
        os.remove(name)


# ---- a web server


class Quiet(http.server.SimpleHTTPRequestHandler):
    def log_message(self, *_):
        pass

    def do_GET(self):
        if self.path != "/favicon.ico":
            super().do_GET()
            return
        # a browser asks for it by itself where a page, as those of a site, names none
        self.send_response(204)
        self.end_headers()


@contextlib.contextmanager
def served(place):
    """The address of a web server on the loopback for this folder."""
    server = http.server.ThreadingHTTPServer(("127.0.0.1", 0), functools.partial(Quiet, directory=place))
    threading.Thread(target=server.serve_forever, daemon=True).start()
    try:
        yield f"http://127.0.0.1:{server.server_port}"
    finally:
        server.shutdown()


def beside_tables():
    """The page beside the tables of a site: the link of a game leads to it, and it computes that game."""
    done("init", "tables.state", "1")
    done("survey", "tables.state", "200", "0.07")
    done("site", "tables.state", "site", "--web", "web")
    with served("site") as address, Browser(os.path.abspath("browser")) as browser:
        browser.open(f"{address}/0.07.html")
        link = browser.run("document.querySelector('a[href^=\"compute.html\"]').href")
        same("the link of a game", link, f"{address}/compute.html?code=0.07")
        page = Page(browser, link)
        page.open()
        same("the game of the link", page.told("period"), "0.07 has period 34 from heap 53 on: proved, for every heap, by its first 176 values.")
        same("faults on the console", browser.faults(), [])


def main():
    if not chromium():
        print("no Chromium is here: how the web page looks and works was left out")
        return
    shutil.copytree(WEB, "web")
    look(f"file://{os.path.abspath('web')}/index.html")
    with served("web") as address:
        look(f"{address}/index.html")
    beside_tables()
    print("a browser shows the web page from a folder and from a server: games, positions, files, and a search that is stopped, and beside a site")


with folder():
    main()
