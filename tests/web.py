#!/usr/bin/env python3
"""Asks the module of the web page, dist/page.wasm, what the program is asked, by the page's own script under node, and looks whether
it answers the same bytes: searches, b-files, pictures and positions of games, b-files with wrong values, states, deltas and lines of
hexadecimal, and damaged inputs, whose faults are those of the program with its exit status. An answer that is longer than its room
comes whole, and a loan that is too small is made larger. Also whether web/module.js has the bytes of the module.
"""

import base64
import json
import os
import random
import re
import shutil
import subprocess

from lib import THREE_DIGITS, TOP, done, folder, need, read, run, same, write

MODULE = TOP / "dist" / "page.wasm"
SCRIPT = TOP / "web" / "page.js"
COUNT = 400
LARGEST = 2**64 - 1

NAMED = ["0.77", "0.07", "0.137", "0.6", "4.3", "0.16", "0.777", "0.0", "4.0", ".77", "0.7700", "0.1234567012345671"]
POSITIONS = [
    ("0.77", []),
    ("0.77", [0]),
    ("0.77", [5, 6, 9]),
    ("0.77", [5, 5]),
    ("0.77", [70, 10**18, LARGEST]),
    ("0.07", [1, 2, 3]),
    ("0.07", [60, 61, 62, 63]),
    ("4.3", [17, 1000]),
    ("0.6", [5, 399]),
    ("0.6", [5, 400]),
    ("0.137", [12, 4, 9, 30]),
    ("4.0", [7, 8, 9]),
]


def codes():
    """Forty codes: some that have a name or a form of their own, and others."""
    return NAMED + random.Random(7).sample([code for code in THREE_DIGITS if code not in NAMED], 40 - len(NAMED))


# ---- the module


def node():
    """The words that start a node with 64-bit memory, or none: earlier versions need a word for it, and later ones have it so."""
    memory = "process.exit(WebAssembly.validate(new Uint8Array([0, 97, 115, 109, 1, 0, 0, 0, 5, 3, 1, 4, 1])) ? 0 : 1)"
    for words in (["node", "--no-warnings", "--experimental-wasm-memory64"], ["node", "--no-warnings"]):
        if shutil.which("node") and not subprocess.run([*words, "-e", memory], capture_output=True, check=False).returncode:
            return words
    return None


class Host:
    """The module, asked by the page's script."""

    def __enter__(self):
        words = [*node(), str(TOP / "tests" / "host.mjs"), str(SCRIPT), str(MODULE)]
        self.runs = subprocess.Popen(words, stdin=subprocess.PIPE, stdout=subprocess.PIPE, text=True)
        return self

    def __exit__(self, *_):
        self.runs.stdin.close()
        self.runs.wait(60)

    def ask(self, name, *values, loan=2**26, room=2**20):
        """Exit status, text, and how many lines were refused."""
        json.dump({"name": name, "values": [packed(value) for value in values], "loan": loan, "room": room}, self.runs.stdin)
        self.runs.stdin.write("\n")
        self.runs.stdin.flush()
        line = self.runs.stdout.readline()
        need(line, f"{name}: the host ended")
        found = json.loads(line)
        return found["fault"], found["text"], found.get("refused")


def packed(value):
    """A code, a number, heaps or the bytes of a file, for the host."""
    match value:
        case str():
            return {"text": value}
        case int():
            return {"number": str(value)}
        case list():
            return {"heaps": [str(heap) for heap in value]}
        case _:
            return {"base64": base64.b64encode(value).decode()}


def told(*words, **more):
    """What the program says to the same question: its status, and what it prints, or the words of its fault."""
    answer = run(*words, **more)
    fault = re.fullmatch(r"census: (.*)\n", answer.err)
    return (answer.status, fault[1]) if fault else (0, answer.out)


def is_same(host, name, values, due, **more):
    """The module answers a question as it is due."""
    same(f"{name} {values!r:.200}", host.ask(name, *values, **more)[:2], due)


# ---- games and positions


def games(host):
    """Searches, b-files and pictures of all codes."""
    all_codes = codes()
    done("init", "games.state", "1")
    done("survey", "games.state", str(COUNT), *all_codes)
    for code in all_codes:
        for count in (1, COUNT, 3000):
            is_same(host, "search", [code, count], told("search", str(count), code))
        is_same(host, "values", [code, COUNT], told("search", "--bfile", str(COUNT), code))
        is_same(host, "picture", [code, COUNT], told("plot", "games.state", code))
    return len(all_codes)


def positions(host):
    """Values and moves of positions, by the values of the same state."""
    for code, heaps in POSITIONS:
        words = ["games.state", code, *map(str, heaps)]
        is_same(host, "position", [code, COUNT, heaps], (0, done("value", *words) + done("move", *words)))
    return len(POSITIONS)


# ---- b-files


def bfiles(host):
    """B-files with one value changed, with many, with comments and other ends of lines, and one that begins late."""
    values = [int(line.split()[1]) for line in done("search", "--bfile", "300", "0.77").splitlines()]
    changed = [values[:at] + [values[at] + 1] + values[at + 1 :] for at in (0, 70, 299)]
    texts = ["".join(f"{n} {v}\n" for n, v in enumerate(row)) for row in [*changed, [v ^ 1 for v in values]]]
    texts.append("# of Kayles\r\n\r\n" + "".join(f"{n} {v}\r\n" for n, v in enumerate(changed[1])))
    texts.append("".join(f"{n} {changed[1][n]}\n" for n in range(60, 80)))
    for text in texts:
        write("b.txt", text.encode())
        due = run("check", "0.77", "b.txt")
        same("status of a wrong b-file", due.status, 1)
        is_same(host, "check", ["0.77", text.encode()], (0, due.out))
    is_same(host, "check", ["0.77", done("search", "--bfile", "300", "0.77").encode()], (0, "300 values, all right\n"))
    return len(texts)


# ---- states, deltas and lines


def note(state, author, name, text):
    done("init", state, author)
    done("note", state, name, text)


def states():
    """Four states: one without operations, one of games, one with wrong claims and one of notes, some of them under one number."""
    done("init", "empty.state", "5")
    done("init", "wrong.state", "2")
    for start, row in ((68, [1, 8, 2, 7]), (1000, [1, 2, 3]), (1, [1, 2, 3, 1, 4])):
        write("block.json", json.dumps({"code": "0.77", "start": start, "values": row}).encode())
        done("import", "wrong.state", "block.json")
    done("period", "wrong.state", "0.77", "70", "12")
    note("notes.state", "3", "author-name", "Ben <b>\"A&B\"</b>")
    note("other.state", "3", "marks", "<script>alert('x')</script>")
    for name in ("games", "wrong", "notes", "other"):
        done("delta", f"{name}.state", f"{name}.delta")
    done("merge", "wrong.state", "games.delta")
    done("merge", "notes.state", "other.delta")
    return ["empty.state", "games.state", "wrong.state", "notes.state"]


def report_of(*deltas):
    """What `report` prints of the operations of deltas."""
    done("init", "reader.state", "9")
    for delta in deltas:
        done("merge", "reader.state", delta)
    page = done("report", "reader.state")
    os.remove("reader.state")
    return page


def files(host):
    """Catalogues and reports of states, of deltas and of lines."""
    kept = states()
    for state in kept:
        is_same(host, "catalogue", [read(state)], (0, done("read", state)))
        is_same(host, "report", [read(state)], (0, done("report", state)))
    deltas = ["games.delta", "wrong.delta", "notes.delta"]
    for delta in deltas:
        is_same(host, "catalogue", [read(delta)], (0, done("read", delta)))
        is_same(host, "report", [read(delta)], (0, report_of(delta)))
    lines = "".join(f"{read(delta).hex()}\n" for delta in deltas).encode()
    is_same(host, "catalogue", [lines], (0, done("read", *deltas)))
    is_same(host, "report", [lines], (0, report_of(*deltas)))
    return len(kept)


# ---- damage


def damaged(host):
    """Inputs that are refused, or read in part."""
    state, delta = read("wrong.state"), read("wrong.delta")
    count = 0
    for code in ("", "0", "0.", "0.8", "5.77", "0.77 ", "0.12345670123456712"):
        is_same(host, "search", [code, 100], told("search", "100", code))
        count += 1
    for number in (0, 2**32 + 1):
        is_same(host, "search", ["0.77", number], told("search", str(number), "0.77"))
        count += 1
    for text in ("0 0\n1 1\n2 two\n", "0 0\n-1 1\n", "# a line\n\n5 1\n5 2\n", "65535 1\n65536 1\n", "# nothing\n\n", ""):
        write("b.txt", text.encode())
        is_same(host, "check", ["0.77", text.encode()], told("check", "0.77", "b.txt"))
        count += 1
    for name, content in (("state", state[:-1]), ("state", state[:9]), ("delta", delta + b"\0"), ("delta", delta[:40])):
        write("damaged", content)
        due = told("read", "damaged") if name == "delta" else told("report", "damaged")
        is_same(host, "catalogue", [content], due)
        is_same(host, "report", [content], due)
        count += 1
    lines = f"{delta.hex()}\n\nno line\n{delta.hex()[:-2]}\n{delta.hex()}0\n".encode()
    folded = run("fold", given=lines)
    same("lines with three that are none", host.ask("catalogue", lines), (0, folded.out, int(folded.err.split()[-1])))
    same("a file that is nothing", host.ask("catalogue", b"GIF89a\0\1\n\2\n"), (0, "census 2\nend\n", 2))
    return count + 2


def bounds(host):
    """Small rooms and loans: an answer comes whole in the end."""
    due = told("search", "--bfile", "3000", "0.77")
    is_same(host, "values", ["0.77", 3000], due, room=1)
    is_same(host, "values", ["0.77", 3000], due, loan=4096)
    return due


def is_packed():
    """The script beside the page has the bytes of the module."""
    text = read(TOP / "web" / "module.js").decode()
    found = re.search(r"^const PAGE_WASM = `\n([A-Za-z0-9+/=\n]*)`;$", text, re.M)
    need(found, "web/module.js has no module")
    need(base64.b64decode(found[1]) == read(MODULE), "web/module.js is not dist/page.wasm: dist/pack makes it")


def main():
    is_packed()
    if not node():
        print("no node with 64-bit memory is here: what the module answers was left out")
        return
    with Host() as host:
        counts = [part(host) for part in (games, positions, bfiles, files, damaged)]
        bounds(host)
    print("the module answers as the program: {} games, {} positions, {} b-files, {} states and {} damaged inputs".format(*counts))


with folder():
    main()
