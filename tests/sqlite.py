#!/usr/bin/env python3
"""Makes databases of tables, by Python's SQLite and by `sqlite3` where it is installed, and compares each number and each text with
what `json` and `log` say of the same state: every status of blocks and claims, a fork, and texts with quotes. A script that runs
again replaces what it made, and leaves other tables; states with the same operations give the same bytes. The questions of
docs/DATABASE.md are asked of a table whose answers stand here, from the literature and by hand.
"""

import contextlib
import json
import re
import shutil
import sqlite3
import subprocess

import lib
from lib import TOP, done, need, refused, same, write

QUOTES = "it's '' \"quoted\"; DROP TABLE games; -- \\"
KAYLES = "0.77"

# The columns of each table, in the order of its rows.
ORDERS = {
    "authors": "author",
    "blocks": "place",
    "claims": "place",
    "forks": "author, number",
    "game_values": "code, heap",
    "games": "code",
    "notes": "place",
    "operations": "place",
}


def block(state, code, start, values):
    write("block.json", json.dumps({"code": code, "start": start, "values": values}).encode())
    done("import", state, "block.json")


def note_of(author, text):
    """The file of one note of an author, in a state of its own."""
    state = f"{text}.state"
    done("init", state, author)
    done("note", state, "read-me", text)
    done("delta", state, f"{text}.delta")
    return f"{text}.delta"


def table():
    """A state with each status of blocks and claims, a note that is taken back, an empty one, texts with quotes, and a fork."""
    state, other = "all.state", "ben.state"
    done("init", state, "1")
    done("extend", state, "3000", KAYLES, "0.07")
    done("compute", state, "0.3", "6")
    for period in ((KAYLES, "71", "12"), (KAYLES, "1", "5"), ("0.07", "2900", "700"), ("0.3", "1", "2")):
        done("period", state, *period)
    for name, text in (("gone", "gone"), ("quotes", QUOTES), ("empty", ""), ("author-name", "Anna 'A' O'Neil")):
        done("note", state, name, text)
    done("unnote", state, "gone")
    done("init", other, "2")
    block(other, KAYLES, 68, [1, 8, 2, 7])
    block(other, "0.137", 5000, [1, 2])
    done("delta", other, "ben.delta")
    for file in ("ben.delta", note_of("3", "one"), note_of("3", "another")):
        done("merge", state, file)
    return state


def database(script):
    """A database in memory that the script makes, with foreign keys enforced as it runs."""
    found = sqlite3.connect(":memory:")
    found.execute("PRAGMA foreign_keys = ON")
    found.executescript(script)
    return found


def rows(found, name):
    return found.execute(f"SELECT * FROM {name} ORDER BY {ORDERS[name]}").fetchall()


def content(found):
    """All rows of all tables, and the lines of the log."""
    return {name: rows(found, name) for name in ORDERS} | {"log": found.execute("SELECT line FROM log").fetchall()}


def places(listed):
    """The rows, each behind its place."""
    return [(place, *row) for place, row in enumerate(listed, 1)]


def dot(row):
    return row["author"], row["number"]


def game_row(game):
    least = game["least_period"]
    return game["code"], game["known"], *((least["period"], least["start"], int(least["claimed"])) if least else (None, None, None))


def block_row(game, row):
    return *dot(row), game["code"], row["start"], row["count"], row["status"], row.get("at"), row.get("claimed"), row.get("true")


def claim_row(game, row):
    return *dot(row), game["code"], row["start"], row["period"], row["status"], row.get("at"), row.get("needs")


def said_row(line):
    """What a line of the log says of an operation; a name in parentheses has no two of them here."""
    dotted, _, rest = line.partition(" ")
    said = re.sub(r"^\([^()]*\) ", "", rest)
    author, _, number = dotted.partition(".")
    word, *others = said.split(" ")
    kind = {"takes": "removal"}.get(word, word)
    return int(author), int(number), kind, others[0] if kind in ("block", "period") else None, said


def due(state):
    """What `json` and `log` have for each table."""
    known, log = json.loads(done("json", state)), done("log", state).splitlines()
    games = known["games"]
    return {
        "authors": [(row["author"], row.get("name"), row["through"], row["last"]) for row in known["authors"]],
        "blocks": places(block_row(game, row) for game in games for row in game["blocks"]),
        "claims": places(claim_row(game, row) for game in games for row in game["periods"]),
        "forks": [(*dot(row), row["contents"]) for row in known["forks"]],
        "game_values": sorted((game["code"], heap, value) for game in games for heap, value in enumerate(game["values"])),
        "games": sorted(game_row(game) for game in games),
        "log": [(line,) for line in log],
        "notes": places((*dot(row), row["name"], row["text"]) for row in known["notes"]),
        "operations": places(said_row(line) for line in log),
    }


def is_whole(found):
    """No row refers to one that is not there, and the database is sound."""
    same("rows that refer to nothing", found.execute("PRAGMA foreign_key_check").fetchall(), [])
    same("the database", found.execute("PRAGMA integrity_check").fetchall(), [("ok",)])


def is_compared(state):
    script = done("sqlite", state)
    with contextlib.closing(database(script)) as found:
        wanted, had = due(state), content(found)
        for name, listed in wanted.items():
            same(f"{state}: {name}", had[name], listed)
        is_whole(found)
    return script


def is_replaced(state, script):
    """A script brings a database up to date, and leaves other tables in it."""
    with contextlib.closing(database(script)) as found:
        found.executescript("CREATE TABLE mine(line TEXT); INSERT INTO mine VALUES('kept')")
        done("note", state, "later", "more")
        found.executescript(done("sqlite", state))
        wanted, had = due(state), content(found)
        for name, listed in wanted.items():
            same(f"again, {name}", had[name], listed)
        same("another table", found.execute("SELECT * FROM mine").fetchall(), [("kept",)])
        is_whole(found)


def is_read_by_program(state):
    """`sqlite3` makes the same of it, and prints nothing."""
    program = shutil.which("sqlite3")
    if not program:
        return
    made = subprocess.run([program, "-bail", "all.db"], input=done("sqlite", state), capture_output=True, text=True, check=False)
    same("sqlite3", (made.returncode, made.stdout, made.stderr), (0, "", ""))
    with contextlib.closing(sqlite3.connect("all.db")) as found, contextlib.closing(database(done("sqlite", state))) as again:
        same("what sqlite3 made", content(found), content(again))


def are_same_bytes(state):
    """States of other authors with the same operations, which came in another order, give the same bytes."""
    done("delta", state, "all.delta")
    done("init", "other.state", "9")
    done("merge", "other.state", "ben.delta")
    done("merge", "other.state", "all.delta")
    same("the script of another state", done("sqlite", "other.state"), done("sqlite", state))


def of_nothing():
    """A state with no operation has tables with no row."""
    done("init", "none.state", "5")
    with contextlib.closing(database(done("sqlite", "none.state"))) as found:
        same("tables of nothing", content(found), {name: [] for name in (*ORDERS, "log")})


# ---- the questions of the document


def questions():
    """The questions of docs/DATABASE.md, in their order."""
    text = (TOP / "docs" / "DATABASE.md").read_text(encoding="utf-8")
    asked = re.findall(r"^```sql\n(.*?)^```$", text, re.MULTILINE | re.DOTALL)
    same("questions", len(asked), 5)
    return asked


def example():
    """Kayles, and 0.3 and 0.5, which both have the parity of the heap: a heap of 0.5 is left as two whose beans are one fewer together.

    Anna says what is right. Ben says that Kayles has 1, 8, 2, 7 from heap 68 on, which has 6 at heap 70, and that it has the
    period 5 from heap 1 on, but heap 1 has 1 and heap 6 has 3. Cleo says that it has 3 at heap 4, which has 1.
    """
    state = "example.state"
    done("init", state, "1")
    done("note", state, "author-name", "Anna")
    done("extend", state, "1100", KAYLES, "0.3", "0.5")
    done("init", "b.state", "2")
    done("note", "b.state", "author-name", "Ben")
    block("b.state", KAYLES, 68, [1, 8, 2, 7])
    done("period", "b.state", KAYLES, "1", "5")
    done("init", "c.state", "3")
    block("c.state", KAYLES, 3, [3, 3])
    for name in ("b", "c"):
        done("delta", f"{name}.state", f"{name}.delta")
        done("merge", state, f"{name}.delta")
    return state


# The values of Kayles repeat from heap 71 on, twelve heaps later, and before that the greatest is 8, first at heap 27 (Guy and Smith
# 1956; Winning Ways, chapter 4).
ANSWERS = [
    [(KAYLES, 71)],
    [("0.3 0.5",)],
    [(2, "Ben", 2), (3, None, 1)],
    [(KAYLES, "2.2", 70, 2, 6), (KAYLES, "3.1", 4, 3, 1)],
    [("0.3", 1, 1), ("0.5", 1, 1), (KAYLES, 8, 27)],
]


def are_answered():
    with contextlib.closing(database(done("sqlite", example()))) as found:
        for question, answer in zip(questions(), ANSWERS):
            same(question, found.execute(question).fetchall(), answer)


def is_written(state, script):
    """The script in a file: in place of an earlier one, of a file without bytes, and of nothing else unless that is asked for."""
    same("what is printed", done("sqlite", state, "all.sql"), "")
    same("the file", lib.read("all.sql").decode(), script)
    done("init", "small.state", "4")
    done("sqlite", "small.state", "all.sql")
    same("an earlier script is replaced", lib.read("all.sql").decode(), done("sqlite", "small.state"))
    same("a second time", (done("sqlite", state, "all.sql"), lib.read("all.sql").decode()), ("", script))
    write("none.sql", b"")
    done("sqlite", state, "none.sql")
    same("a file without bytes", lib.read("none.sql").decode(), script)
    same("standard output", done("sqlite", state, "-"), script)
    same("a stream", done("sqlite", state, "/dev/stdout"), script)
    with contextlib.closing(sqlite3.connect("table.db")) as found:
        found.executescript(script)
    for other in ("table.db", "ben.delta"):
        before = lib.read(other)
        refused(3, "Occupied", "sqlite", state, other)
        same(f"{other} stays", lib.read(other), before)
    write("begun.sql", script[:9].encode())
    refused(3, "Occupied", "sqlite", state, "begun.sql")
    refused(3, "Occupied", "sqlite", state, "all.sql.new")
    refused(3, "Same", "sqlite", state, state)
    refused(3, "File", "sqlite", state, "missing/all.sql")
    same("by force", (done("sqlite", state, "begun.sql", "--replace"), lib.read("begun.sql").decode()), ("", script))


def is_refused():
    refused(1, "Load Version", "sqlite", "ben.delta")
    refused(3, "File", "sqlite", "not-there.state")


def main():
    state = table()
    script = is_compared(state)
    need(script.startswith("-- ") and script.endswith("COMMIT;\n"), "the script begins or ends otherwise")
    is_read_by_program(state)
    are_same_bytes(state)
    is_replaced(state, script)
    is_written(state, done("sqlite", state))
    of_nothing()
    are_answered()
    is_refused()
    print("databases have what json and log say, and answer what is asked of them")


with lib.folder():
    main()
