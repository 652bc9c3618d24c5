#!/usr/bin/env python3
"""Makes a table with each kind of row, and compares its b-files, plots, page, site and JSON with what `show` says: each point that
is drawn with the known values, each number and each status of the pages, that a note with the marks of a page stands there as
text, that the name of an author stands behind each of its dots, which columns the table of games has and which of its rows are marked, and what
`games` says in each form. Also whether each text has contrast enough to what it stands
on, whether pictures and pages are well-formed XML with no script and nothing from outside, whether each link of the site leads
somewhere, which folders a site is not written to, that the page that computes stands beside it where it is asked for, with a link
from each game, and, where there is a Chromium, that no part of a page is wider than the window at 360, 400, 768 and 1,280 pixels
but those that scroll by themselves.
"""

import csv
import io
import json
import os
import re
import shutil
import subprocess
import xml.etree.ElementTree as xml

import lib
from browser import chromium
from lib import done, fail, refused, same

SVG = "{http://www.w3.org/2000/svg}"
HTML = "{http://www.w3.org/1999/xhtml}"
NAME = 'Anna "A\\B" <Berg>'
MARKS = "<script src=\"http://example.org/x.js\">alert('x') && 1 < 2</script>"


# ---- the table, and what `show` says of it


def note(name, author, text):
    """The file of one note, in a state of its own."""
    state = f"{name}.state"
    done("init", state, author)
    done("note", state, "read-me", text)
    done("delta", state, f"{name}.delta")
    return f"{name}.delta"


def claim(state, code, start, values):
    with open("block.json", "w", encoding="utf-8") as file:
        json.dump({"code": code, "start": start, "values": values}, file)
    done("import", state, "block.json")


def table():
    """A state with a proved period, a refuted and a pending claim, refuted and pending blocks, marks in a note, and a fork."""
    state, other = "pages.state", "other.state"
    done("init", state, "1")
    done("extend", state, "3000", "0.77", "0.07")
    done("compute", state, "0.3", "6")
    for period in (("0.77", "71", "12"), ("0.77", "1", "5"), ("0.07", "2900", "700"), ("0.3", "1", "2")):
        done("period", state, *period)
    done("note", state, "marks", MARKS)
    done("note", state, "author-name", "Anna")
    done("note", state, "author-name", NAME)
    done("init", other, "2")
    claim(other, "0.77", 5, [4, 3, 9, 1])
    claim(other, "0.137", 5000, [1, 2])
    done("delta", other, "other.delta")
    for file in ("other.delta", note("first", "3", "one"), note("second", "3", "another")):
        done("merge", state, file)
    return state


def catalogue(text):
    """The lines of a catalogue as games, notes, forks and authors."""
    games, notes, forks, authors = {}, [], [], []
    for line in text.splitlines():
        kind, *words = line.split(" ")
        if kind == "game":
            game = games[words[0]] = {"code": words[0], "values": [], "blocks": [], "periods": []}
            game["known"] = game["values"]
        elif kind == "values":
            game["values"] += map(int, words[1:])
        elif kind == "block":
            game["blocks"].append((words[0], words[2], words[4], words[5:]))
        elif kind == "period":
            game["periods"].append((words[0], words[2], words[4], words[5:]))
        elif kind == "note":
            notes.append((words[0], words[1], " ".join(words[2:])))
        elif kind == "fork":
            forks.append((words[0], words[2]))
        elif kind == "author":
            authors.append((words[0], words[2], words[4]))
    return games, notes, forks, authors


def least(code, values):
    """The least period that these values of a game prove, and the least heap from which on they do: 2E + 2P and one for each digit of
    the code have to be known. None where they prove none."""
    for period in range(1, len(values) // 2):
        start = next((heap + 1 for heap in range(len(values) - period - 1, 0, -1) if values[heap] != values[heap + period]), 1)
        if 2 * start + 2 * period + len(code.partition(".")[2]) <= len(values):
            return period, start
    return None


def proved(game):
    """Start and period of the least period that the known values of a game prove."""
    found = least(game["code"], game["known"])
    return found and found[::-1]


# ---- pictures


def is_closed(what, root, near=()):
    """No script and nothing from outside: each reference is to a part of the same text, or to a file that is near."""
    ids = [element.get("id") for element in root.iter() if element.get("id")]
    same(f"{what}: ids that come twice", len(ids), len(set(ids)))
    for element in root.iter():
        if element.tag in (f"{HTML}script", f"{SVG}script", f"{SVG}image", f"{SVG}use"):
            fail(f"{what} has {element.tag}")
        for name, value in element.attrib.items():
            if name in ("aria-labelledby", "aria-describedby") and value not in ids:
                fail(f"{what} refers to {value}")
            if name.endswith("href") or name == "src":
                file, _, place = value.partition("#")
                if file and file not in near or place and not file and place not in ids:
                    fail(f"{what} refers to {value}")
            if name.startswith("on") or "http" in value or "url(" in re.sub(r"url\(#([\w.-]+)\)", lambda part: "" if part[1] in ids else part[0], value):
                fail(f"{what} has {name}={value!r}")
        if element.tag.endswith("style") and re.search(r"url|@import|http|expression", element.text or ""):
            fail(f"{what} has a style from outside")


def points(values):
    """Where the values fall on a grid of 640 rows and 1,400 columns, each point once."""
    last, greatest = max(1, len(values) - 1), max(1, *values)
    return sorted({(value * 640 // greatest, heap * 1400 // last) for heap, value in enumerate(values)})


def drawn(path):
    """Where a path has its points: M to a column and a row, h so many columns further."""
    found, row, column = [], None, None
    for move, first, second in re.findall(r"([A-Za-z])(\d+)(?: (\d+))?", path):
        row, column = (int(second), int(first)) if move == "M" else (row, column + int(first))
        found.append((row, column))
    return found


def parts(root, tag, kind):
    return [element for element in root.iter(SVG + tag) if element.get("class") == kind]


def title(code, game):
    period = proved(game)
    return f"{code}: nim-values of heaps 0 to {len(game['values']) - 1}" + (f", period {period[1]} from {period[0]}" if period else "")


def sentence(game):
    """What is proved of all heaps, in words."""
    if not proved(game):
        return "No period is proved."
    start, period = proved(game)
    words = "".join(f" {value}" for value in game["values"][start:start + period])
    return f"From heap {start} on the nim-values repeat with period {period}, for ever" + (f":{words}." if period <= 40 else ".")


def pictured(game):
    """The game with the values of its picture alone: those up to the end of the second run, where a period is proved."""
    period = proved(game)
    return {**game, "values": game["values"][:period[0] + 2 * period[1]]} if period else game


def is_plot(what, root, code, game):
    values, period = game["values"], proved(game)
    last = max(1, len(values) - 1)
    same(f"{what}: title", root.find(SVG + "title").text, title(code, game))
    same(f"{what}: description", root.find(SVG + "desc").text, sentence(game))
    (path,) = parts(root, "path", "points few" if len(values) < 500 else "points")
    (dot,) = parts(root, "marker", "dot")
    same(f"{what}: dot", (dot.get("id"), [part.attrib for part in dot]), (f"dot-{code}", [{"r": ".5"}]))
    same(f"{what}: dots", path.get("style"), f"marker:url(#dot-{code})")
    same(f"{what}: form of the points", re.sub(r"M\d+ \d+|h\d+", "", path.get("d")), "")
    same(f"{what}: points", drawn(path.get("d")), points(values))
    starts = [start.get("d") for start in parts(root, "path", "start")]
    ends = [min(period[0] + i * period[1], last) * 700 // last for i in range(3)] if period else []
    for i, run in enumerate(("period", "again")):
        shades = [(shade.get("x"), shade.get("width")) for shade in parts(root, "rect", run)]
        same(f"{what}: shades", shades, [(str(ends[i]), str(ends[i + 1] - ends[i]))] if period else [])
    same(f"{what}: starts", starts, [f"M{ends[0]} 0V-320"] if period else [])


# ---- colours


def light(colour):
    """How light a colour is, 0 to 1, as the guidelines for accessible pages reckon."""
    digits = colour[1:] if len(colour) == 7 else "".join(digit * 2 for digit in colour[1:])
    parts = [int(digits[at:at + 2], 16) / 255 for at in (0, 2, 4)]
    red, green, blue = (part / 12.92 if part <= 0.04045 else ((part + 0.055) / 1.055) ** 2.4 for part in parts)
    return 0.2126 * red + 0.7152 * green + 0.0722 * blue


def is_readable(what, style):
    """By day and by night, each colour of a text has a contrast of 4.5 at least to each that it may stand on."""
    night = r"@media\(prefers-color-scheme:dark\)\{((?:[^{}]*\{[^{}]*\})*)\}"
    for rules in (re.sub(night, "", style), "".join(re.findall(night, style))):
        texts, grounds = (re.findall(rf"[{{;]{kind}:(#\w+)", rules) for kind in ("color", "background"))
        for text, ground in ((text, ground) for text in texts for ground in grounds):
            low, high = sorted((light(text), light(ground)))
            if (high + 0.05) / (low + 0.05) < 4.5:
                fail(f"{what} has {text} on {ground}")
        same(f"{what}: colours are there", bool(texts and grounds), True)


# ---- pages


def table_of(root, caption):
    """The table of this caption, or none where there is no such table."""
    for element in root.iter(HTML + "table"):
        if element.find(HTML + "caption").text == caption:
            return element
    return None


def rows(root, caption):
    """The cells of its rows."""
    element = table_of(root, caption)
    return [] if element is None else [tuple("".join(cell.itertext()) for cell in row) for row in element.find(HTML + "tbody")]


FRONT = "Nim-values: each row from the heap at its head on"
BACK = "The last 100 known nim-values"


def width(period):
    """How many values stand in a row: a multiple or a divisor of the period, 20 to 40."""
    if period <= 40:
        return next(wide for wide in range(20, 41) if wide % period == 0)
    return next((wide for wide in range(40, 19, -1) if period % wide == 0), 20)


def is_run(what, root, caption, first, values, period):
    """The table of these values, which are those of the heaps from `first` on: its rows, its shade and its columns."""
    table = table_of(root, caption)
    if not values:
        return same(f"{what}: {caption}", table, None)
    wide = 1 + len(str(max(values)))
    end = first + len(values)
    begins = {first} | {heap for heap in range(max(first, period[0]), end) if (heap - period[0]) % width(period[1]) == 0}
    begins |= {heap for heap in range(first, period[0]) if (heap - first) % width(period[1]) == 0}
    heap = first
    for row in table.find(HTML + "tbody"):
        head, cell = row
        same(f"{what}: first heap of a row", int(head.text), heap)
        if heap not in begins:
            fail(f"{what}: a row begins at {heap}")
        text = "".join(cell.itertext())
        shaded = "".join("".join(mark.itertext()) for mark in cell)
        if [mark.tag for mark in cell] not in ([], [f"{HTML}mark"]) or shaded and not text.startswith(shaded) or cell.text and shaded:
            fail(f"{what}: the shade of the row at {heap}")
        places = [text[at:at + wide] for at in range(0, len(text), wide)]
        for at, place in enumerate(places):
            same(f"{what}: heap {heap}", place, str(values[heap - first]).rjust(wide))
            same(f"{what}: shade of heap {heap}", at * wide < len(shaded), bool(period[2] and period[0] <= heap < sum(period[:2])))
            heap += 1
        same(f"{what}: shade of the row at {head.text}", len(shaded) % wide, 0)
        begins.discard(int(head.text))
    same(f"{what}: values", heap, first + len(values))
    return same(f"{what}: rows that lack", begins, set())


def front(game):
    """How many values are shown from heap 0 on, in short."""
    period, known = proved(game), len(game["values"])
    return period[0] + 2 * period[1] if period else 1000 if known > 1100 else known


def called(dot, names):
    """A dot, with the name of its author behind it where there is one."""
    author = dot.partition(".")[0]
    return f"{dot} {names[author]}" if author in names else dot


def of_claim(values, period, status):
    """What is said of a claim of this period; where it is refuted, with both values, which differ."""
    if status[0] != "refuted":
        return " ".join(status).replace("pending", "pending,")
    at, later = int(status[2]), int(status[2]) + int(period)
    if values[at] == values[later]:
        fail(f"a claim of the period {period} does not break at {at}")
    return f"refuted at {at}: value {values[at]}, at {later} value {values[later]}"


def is_game(what, root, code, game, names, brief):
    """What a page shows of a game below its picture."""
    values, period = game["values"], proved(game)
    told = [element.text for element in root.iter(HTML + "p")]
    if sentence(game) not in told:
        fail(f"{what} does not say {sentence(game)}")
    caption = "Each point is the nim-value of a heap." + (" The first two runs of the period are shaded." if period else "")
    same(f"{what}: below the picture", [element.text for element in root.iter(HTML + "figcaption")], [caption])
    claimed = period in [(int(start), int(of)) for _, start, of, _ in game["periods"]]
    same(f"{what}: that no claim says so", told.count("No claim says so."), int(bool(period) and not claimed))
    shown = front(game) if brief else len(values)
    back = 100 if brief and not period and len(values) > 1100 else 0
    run = (*period, True) if period else (0, 20, False)
    is_run(what, root, FRONT, 0, values[:shown], run)
    is_run(what, root, BACK, len(values) - back, values[len(values) - back:] if back else [], (len(values) - back, 20, False))
    blocks = game["blocks"]
    same(f"{code}: blocks", rows(root, "Blocks"), [(called(dot, names), start, count, status[0]) for dot, start, count, status in blocks])
    refuted = [(called(dot, names), status[2], status[4], status[6]) for dot, _, _, status in blocks if status[0] == "refuted"]
    same(f"{code}: refuted blocks", rows(root, "Refuted blocks"), refuted)
    claims = [(called(dot, names), start, period, of_claim(values, period, status)) for dot, start, period, status in game["periods"]]
    same(f"{code}: claims", rows(root, "Period claims"), claims)
    same(f"{code}: refuted claims", rows(root, "Refuted period claims"), [claim for claim in claims if claim[3].startswith("refuted")])
    if root.find(f".//*[@id='refuted-{code}']") is None:
        fail(f"{what} has no place of what is refuted")


def is_landmarked(what, root):
    """One main part, one heading of the first rank, and a head for each column and row."""
    for tag in ("main", "h1", "nav"):
        same(f"{what}: {tag}", len(list(root.iter(HTML + tag))), 1)
    for head in root.iter(HTML + "th"):
        if head.get("scope") not in ("row", "col"):
            fail(f"{what} has a head without a scope")


HEADS = ("code", "values", "period", "start", *(f"{kind} {word}" for kind in ("blocks", "claims") for word in ("proved", "refuted", "pending")))
ALWAYS = ("code", "values", "blocks proved")


def is_table_of_games(what, root, summary):
    """The table of games: its caption says how many there are, a column in which no game has anything is left out, and the row of a game
    of which something is refuted is marked."""
    caption = f"Games ({len(summary)})"
    stand = [at for at, head in enumerate(HEADS) if head in ALWAYS or any(row[at] not in ("", "0") for row in summary)]
    same(f"{what}: games", rows(root, caption), [tuple(row[at] for at in stand) for row in summary])
    table = table_of(root, caption)
    if table is not None:
        same(f"{what}: columns of games", [head.text for head in table.iter(HTML + "th") if head.get("scope") == "col"], [HEADS[at] for at in stand])
        marks = [row.get("class") for row in table.find(HTML + "tbody")]
        same(f"{what}: games that are marked", marks, ["refuted" if row[5] != "0" or row[8] != "0" else None for row in summary])
        same(f"{what}: regions of games", [part.get("aria-label") for part in root.iter(HTML + "div") if table in part and part.get("role")], [caption])


def counted(count, word):
    """So many of what a word names."""
    return f"{count} {word if count == 1 else word + 's'}"


def is_index(what, root, games, notes, forks, authors, names):
    summary = []
    for code, game in games.items():
        period = proved(game)
        statuses = [[row[-1][0] for row in game[kind]] for kind in ("blocks", "periods")]
        counts = [words.count(word) for words in statuses for word in ("proved", "refuted", "pending")]
        summary.append((code, str(len(game["values"])), *((str(period[1]), str(period[0])) if period else ("", "")), *map(str, counts)))
    is_table_of_games(what, root, summary)
    same(f"{what}: refuted", rows(root, "Refuted"), [(row[0], row[5], row[8]) for row in summary if row[5] != "0" or row[8] != "0"])
    by_period = sorted((int(row[2]), int(row[3]), list(games).index(row[0])) for row in summary if row[2])
    same(f"{what}: by period", rows(root, "Games by period"), [(str(p), str(start), list(games)[at]) for p, start, at in by_period])
    known = sum(len(game["values"]) for game in games.values())
    totals = f"{counted(len(games), 'game')}, {len(by_period)} with a proved period; {counted(known, 'value')} known."
    if totals not in [element.text for element in root.iter(HTML + "p")]:
        fail(f"{what} does not say {totals}")
    same(f"{what}: notes", rows(root, "Notes"), [(name, called(dot, names), text) for name, dot, text in notes])
    same(f"{what}: forks", rows(root, "Forks"), [(called(dot, names), contents) for dot, contents in forks])
    same(f"{what}: authors", rows(root, "Authors"), [(author, names.get(author, ""), *rest) for author, *rest in authors])


def is_page(text, games, notes, forks, authors, names, brief):
    root = xml.fromstring(text)
    is_closed("the page", root)
    is_landmarked("the page", root)
    is_index("the page", root, games, notes, forks, authors, names)
    sections = list(root.iter(HTML + "section"))
    same("sections", [section.get("id") for section in sections], [f"game-{code}" for code in games])
    for section, (code, game) in zip(sections, games.items()):
        same(f"{code}: heading", section.find(HTML + "h2").text, code)
        drawn_here = {**game, "values": game["values"][:front(game)]} if brief else game
        is_plot(f"{code} on the page", section.find(f"{HTML}figure/{SVG}svg"), code, drawn_here)
        is_game(f"{code} on the page", section, code, game, names, brief)


# ---- the site


WEB = str(lib.TOP / "web")
PAGE = {"compute.html": "index.html", "page.css": "page.css", "page.js": "page.js", "module.js": "module.js"}


def files_in(folder):
    return {name: open(f"{folder}/{name}", encoding="utf-8").read() for name in os.listdir(folder)}


def is_site(folder, state, games, notes, forks, authors, names, page=False):
    files = files_in(folder)
    due = {"census-site", "index.html", "style.css"} | {code + end for code in games for end in (".html", ".svg", ".txt", ".json")}
    beside = {name: files.pop(name, None) for name in PAGE} if page else {}
    same("files of the page", beside, {name: files_in(WEB)[own] for name, own in PAGE.items()} if page else {})
    same("files of the site", set(files), due)
    if re.search(r"url|@import|http|expression", files["style.css"]):
        fail("the style sheet has a style from outside")
    is_readable("the style sheet", files["style.css"])
    for code in games:
        is_readable(f"the picture of {code}", xml.fromstring(files[f"{code}.svg"]).find(SVG + "style").text)
    for name, text in files.items():
        if name.endswith(".html"):
            root = xml.fromstring(text)
            computed = f"compute.html?code={name.removesuffix('.html')}"
            is_closed(name, root, due | {computed} if page else due)
            is_landmarked(name, root)
            links = [element.get("href") for element in root.iter(HTML + "a")]
            same(f"links of {name} to the page", links.count(computed), int(page and name != "index.html"))
    is_index("the index", xml.fromstring(files["index.html"]), games, notes, forks, authors, names)
    whole = json.loads(done("json", state))
    for code, game in games.items():
        root = xml.fromstring(files[f"{code}.html"])
        same(f"{code}: heading", root.find(f".//{HTML}h1").text, code)
        (image,) = root.iter(HTML + "img")
        same(f"{code}: words for the picture", image.get("alt"), f"{title(code, pictured(game))}. {sentence(game)}")
        is_game(f"the page of {code}", root, code, game, names, True)
        same(f"{code}: picture", files[f"{code}.svg"], done("plot", state, code))
        same(f"{code}: b-file", files[f"{code}.txt"], done("bfile", state, code))
        same(f"{code}: JSON", json.loads(files[f"{code}.json"]), next(row for row in whole["games"] if row["code"] == code))
    for element in xml.fromstring(files["index.html"]).iter(HTML + "a"):
        file, _, place = element.get("href").partition("#")
        if file and place and f'id="{place}"' not in files[file]:
            fail(f"{element.get('href')} leads nowhere")


def is_refused(folder, state, fault, *options):
    """A folder that is not written to, and stays as it is."""
    before = files_in(folder) if os.path.isdir(folder) else None
    refused(1 if fault == "Load Version" else 3, fault, "site", state, folder, *options)
    same(f"{folder} stays", files_in(folder) if os.path.isdir(folder) else None, before)


def sites_with_page(state, told, first):
    """The page that computes beside a site, with a link from each game; the site without it again; and folders that are no page."""
    done("site", state, "site", "--web", WEB)
    is_site("site", state, *told, page=True)
    both = files_in("site")
    done("site", "--web", WEB, state, "site")
    same("the site and the page a second time", files_in("site"), both)
    for name in PAGE.values():
        shutil.copytree(WEB, "part")
        os.remove(f"part/{name}")
        is_refused("site", state, "File", "--web", "part")
        is_refused("nowhere", state, "File", "--web", "part")
        os.symlink(os.path.abspath(state), f"part/{name}")
        is_refused("site", state, "File", "--web", "part")
        os.remove(f"part/{name}")
        os.mkdir(f"part/{name}")
        is_refused("site", state, "File", "--web", "part")
        shutil.rmtree("part")
    for folder in ("nowhere", "site", state):  # the second has a file of each name of the page, and its index is another
        is_refused("site", state, "File", "--web", folder)
    shutil.copytree(WEB, "part")
    is_refused("part", state, "Occupied", "--web", "part")
    os.symlink(os.path.abspath("part"), "linked")
    done("site", state, "site", "--web", "linked")
    same("the site with the page of a folder behind a link", files_in("site"), both)
    done("site", state, "site")
    same("the site without the page again", files_in("site"), first)


def sites(state, told):
    """A site that is made, made again, replaced by a smaller one, and folders that are not written to."""
    folder = "site"
    done("site", state, folder)
    is_site(folder, state, *told)
    first = files_in(folder)
    done("site", state, folder)
    same("the site a second time", files_in(folder), first)
    sites_with_page(state, told, first)
    done("site", "other.state", folder)
    is_site(folder, "other.state", *catalogue(done("show", "other.state")), {})
    with open(f"{folder}/thesis.txt", "w", encoding="utf-8") as file:
        file.write("mine")
    is_refused(folder, state, "Occupied")
    os.mkdir("mine")
    with open("mine/index.html", "w", encoding="utf-8") as file:
        file.write("mine")
    is_refused("mine", state, "Occupied")
    is_refused(state, state, "Occupied")
    is_refused("none", "block.json", "Load Version")
    os.mkdir("empty")
    done("site", state, "empty")
    same("a site in an empty folder", files_in("empty"), first)
    return "empty"


# ---- a browser


WIDE = """
const wide = [], root = document.documentElement;
for (const e of document.body.querySelectorAll('*')) {
  if (e.closest('.scroll') && !e.matches('.scroll') || e.closest('svg') && !e.matches('svg')) continue;
  if (e.getBoundingClientRect().right > root.clientWidth + 1) wide.push(e.tagName + ' ' + e.getBoundingClientRect().right);
}
if (root.scrollWidth > root.clientWidth) wide.push('page ' + root.scrollWidth);
const words = document.createTreeWalker(document.body, NodeFilter.SHOW_TEXT);
while (words.nextNode()) {
  const node = words.currentNode;
  if (!node.parentElement.closest('h1,h2,th,caption')) continue;
  for (const word of node.data.matchAll(/[^\\s-]+/g)) {
    const range = document.createRange();
    range.setStart(node, word.index); range.setEnd(node, word.index + word[0].length);
    if (range.getClientRects().length > 1) wide.push('broken ' + word[0]);
  }
}
for (const table of document.querySelectorAll('table.values')) {
  const widths = new Set([...table.querySelectorAll('tbody td')].map(e => {
    const range = document.createRange();
    range.selectNodeContents(e);
    return (range.getBoundingClientRect().width / e.textContent.length).toFixed(1);
  }));
  if (widths.size > 1) wide.push('columns ' + [...widths]);
}
document.title = 'seen ' + root.clientWidth + ':' + wide.join(';');
"""


def looks(folder, pages):
    """What a browser finds too wide or broken; whether there is one."""
    browser = chromium()
    if not browser:
        return False
    for page in pages:
        with open(f"{folder}/{page}", encoding="utf-8") as file:
            text = file.read()
        frames = "".join(f"<iframe width='{wide}' height='800' src='seen-{page}'></iframe>" for wide in (360, 400, 768, 1280))
        with open(f"{folder}/seen-{page}", "w", encoding="utf-8") as file:
            file.write(text.replace("</body>", f"<script>//<![CDATA[\n{WIDE}\n//]]>\nparent.postMessage(document.title, '*');</script></body>"))
        with open(f"{folder}/frames.html", "w", encoding="utf-8") as file:
            file.write(f"<pre id='told'></pre><script>onmessage = m => told.append(m.data + '\\n');</script>{frames}")
        ran = subprocess.run(
            [browser, "--headless", "--no-sandbox", "--disable-gpu", "--hide-scrollbars", "--allow-file-access-from-files",
             "--virtual-time-budget=5000", "--window-size=1600,4000", "--dump-dom", f"file://{os.path.abspath(folder)}/frames.html"], capture_output=True, timeout=60, check=False)
        told = re.search(r"<pre id=\"told\">(.*?)</pre>", ran.stdout.decode(), re.S)
        lines = sorted(told[1].split("\n")) if told else []
        same(f"{page}: windows that were seen", len([line for line in lines if line]), 4)
        for line in lines:
            if line and not line.endswith(":"):
                fail(f"{page} in a browser: {line}")
        os.remove(f"{folder}/seen-{page}")
        os.remove(f"{folder}/frames.html")
    return True


# ---- lines


def is_told(state, games, names):
    """The lines of what is refuted, as words and as objects, with the names of authors."""
    lines = done("games", state, "--refuted").splitlines()
    objects = [json.loads(line) for line in done("games", state, "--refuted", "--json").splitlines()]
    due = []
    for code, game in games.items():
        for kind, rows_of in (("block", game["blocks"]), ("period", game["periods"])):
            for dot, start, count, status in rows_of:
                if status[0] == "refuted":
                    words = f"at {start} count {count}" if kind == "block" else f"from {start} by {count}"
                    due.append((f"{code} {kind} {dot} {words} {' '.join(status)}", names.get(dot.partition(".")[0])))
    same("lines of what is refuted", (len(lines), len(objects)), (len(due), len(due)))
    for line, row, (front, name) in zip(lines, objects, due):
        same("a line of what is refuted", (line[:len(front)], line.partition(" author ")[2]), (front, name or ""))
        same("the name in an object", row.get("name"), name)
    return len(due)


def overview(code, game):
    """What `games` says of a game: its known heaps, its period, start and whether they are claimed, and how many of its blocks and of
    its claims are proved, refuted and pending."""
    found = least(code, game["values"])
    claims = [(int(period), int(start)) for _, start, period, _ in game["periods"]]
    counts = [[sum(row[3][0] == status for row in rows) for status in ("proved", "refuted", "pending")] for rows in (game["blocks"], game["periods"])]
    return len(game["values"]), found, found in claims, *counts


def words_of(code, known, found, claimed, blocks, claims):
    """The line of a game."""
    period = f"period {found[0]} from {found[1]}{'' if claimed else ' unclaimed'}" if found else "no period"
    counts = [" ".join(f"{name} {count}" for name, count in zip(("proved", "refuted", "pending"), tally)) for tally in (blocks, claims)]
    return f"{code} known {known} {period} blocks {counts[0]} claims {counts[1]}"


def object_of(code, known, found, claimed, blocks, claims):
    """The object of a game."""
    names = ("proved", "refuted", "pending")
    unclaimed = {} if claimed or not found else {"claimed": False}
    period = {"period": found[0], "from": found[1], **unclaimed} if found else {"period": None}
    return {"code": code, "known": known, **period, "blocks": dict(zip(names, blocks)), "claims": dict(zip(names, claims))}


def row_of(code, known, found, claimed, blocks, claims):
    """The fields of a game in a table."""
    period = [found[0], found[1], "true" if claimed else "false"] if found else ["", "", ""]
    return [str(field) for field in (code, known, *period, *blocks, *claims)]


def is_overview(state, games):
    """The lines of games in each form, and which games each option leaves."""
    due = [(code, *overview(code, game)) for code, game in games.items()]
    named = ["0.6", *games]
    none = ("0.6", 1, None, False, [0, 0, 0], [0, 0, 0])
    same("lines of games", done("games", state).splitlines(), [words_of(*row) for row in due])
    same("lines of games that are named", done("games", state, *named).splitlines(), [words_of(*row) for row in (none, *due)])
    lines = done("games", state, "--json", *named).splitlines()
    same("objects of games", lines, [json.dumps(object_of(*row), separators=(",", ":")) for row in (none, *due)])
    table = done("games", state, "--csv", *named)
    same("ends of the lines of a table", (table.count("\r\n"), table.count("\n")), (len(named) + 1, len(named) + 1))
    head, *rows_of_table = csv.reader(io.StringIO(table, newline=""))
    columns = [f"{what}_{status}" for what in ("blocks", "claims") for status in ("proved", "refuted", "pending")]
    same("columns of a table", head, ["code", "known", "period", "start", "claimed", *columns])
    same("rows of a table", rows_of_table, [row_of(*row) for row in (none, *due)])
    cells = [[code, str(known), *(map(str, found) if found else ("--", "--"))] for code, known, found, *_ in due]
    latex = done("games", state, "--latex")
    front, foot = "\\begin{tabular}{lrrr}\nCode & Known & Period & Start \\\\\n\\hline\n", "\\end{tabular}\n"
    same("a table of LaTeX", latex, front + "".join(" & ".join(row) + " \\\\\n" for row in cells) + foot)
    for options, holds in (
        (["--period", "12"], lambda known, found, claimed: found is not None and found[0] == 12),
        (["--no-period"], lambda known, found, claimed: found is None),
        (["--unclaimed"], lambda known, found, claimed: found is not None and not claimed),
        (["--known-below", "3000"], lambda known, found, claimed: known < 3000),
        (["--period", "34", "--unclaimed", "--known-below", "3001"], lambda known, found, claimed: found == (34, 53) and not claimed and known < 3001),
        (["--no-period", "--known-below", "7"], lambda known, found, claimed: found is None and known < 7),
        (["--period", "12", "--unclaimed"], lambda known, found, claimed: False),
    ):
        rest = [words_of(*row) for row in due if holds(*row[1:4])]
        same(f"games with {' '.join(options)}", done("games", state, *options).splitlines(), rest)
    same("games that are left", [done("games", state, *option).count("\n") for option in (["--period", "12"], ["--unclaimed"], ["--no-period"])], [1, 1, 1])
    told = done("games", state, "--refuted").splitlines(keepends=True)
    same("what is refuted of a period", done("games", state, "--refuted", "--period", "12"), "".join(line for line in told if line.startswith("0.77 ")))
    same("a table of no game", done("games", state, "--csv", "--known-below", "1"), ",".join(head) + "\r\n")


# ---- JSON


def status_of(row):
    if row["status"] == "refuted" and "true" in row:
        return f"refuted at {row['at']} claimed {row['claimed']} true {row['true']}".split()
    return [row["status"], *(["at", str(row["at"])] if "at" in row else ["needs", str(row["needs"])] if "needs" in row else [])]


def dot(row):
    return f"{row['author']}.{row['number']}"


def is_json(text, games, notes, forks, authors, names):
    found = json.loads(text)
    same("edition in JSON", found["census"], 2)
    same("codes in JSON", [game["code"] for game in found["games"]], list(games))
    for game in found["games"]:
        due = games[game["code"]]
        same("known in JSON", game["known"], len(due["values"]))
        same("values in JSON", game["values"], due["values"])
        blocks = [(dot(row), str(row["start"]), str(row["count"]), status_of(row)) for row in game["blocks"]]
        same("blocks in JSON", blocks, due["blocks"])
        claims = [(dot(row), str(row["start"]), str(row["period"]), status_of(row)) for row in game["periods"]]
        same("claims in JSON", claims, due["periods"])
        _, period, claimed, *_ = overview(game["code"], due)
        same("the least period in JSON", game["least_period"], {"claimed": claimed, "period": period[0], "start": period[1]} if period else None)
    same("notes in JSON", [(row["name"], dot(row), row["text"]) for row in found["notes"]], notes)
    same("forks in JSON", [(dot(row), str(row["contents"])) for row in found["forks"]], forks)
    same("authors in JSON", [(str(row["author"]), str(row["through"]), str(row["last"])) for row in found["authors"]], authors)
    same("names in JSON", {str(row["author"]): row["name"] for row in found["authors"] if "name" in row}, names)


def is_listed(games):
    """The b-file and the plot of each game."""
    for code, game in games.items():
        lines = [f"{heap} {value}\n" for heap, value in enumerate(game["values"])]
        same(f"b-file of {code}", done("bfile", "pages.state", code), "".join(lines))
        root = xml.fromstring(done("plot", "pages.state", code))
        is_closed(f"the plot of {code}", root)
        is_plot(f"the plot of {code}", root, code, pictured(game))
        whole = xml.fromstring(done("plot", "pages.state", code, "--from", "0"))
        is_plot(f"the plot of all of {code}", whole, code, game)


def main():
    state = table()
    games, *others = catalogue(done("show", state))
    names = {"1": NAME}
    same("texts of notes", [text for name, _, text in others[0] if name == "marks"], [MARKS])
    games_and_one = {**games, "0.6": {"code": "0.6", "values": [0], "known": [0], "blocks": [], "periods": []}}
    is_listed(games_and_one)
    is_page(done("report", state), games, *others, names, True)
    is_page(done("report", state, "--values", "all"), games, *others, names, False)
    is_json(done("json", state), games, *others, names)
    same("what is refuted", is_told(state, games, names), 2)
    is_overview(state, games)
    folder = sites(state, (games, *others, names))
    with open(f"{folder}/report.html", "w", encoding="utf-8") as file:
        file.write(done("report", state))
    seen = looks(folder, ["index.html", *(f"{code}.html" for code in games), "report.html"])
    print(f"{len(games_and_one)} b-files and plots, two pages, a site and JSON, and each says what the catalogue says")
    print("a browser shows them at four widths" if seen else "no Chromium is here: how wide the pages are was left out")


with lib.folder():
    main()
