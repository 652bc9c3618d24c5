#!/usr/bin/env python3
"""What is shown on a terminal alone. On standard output: the columns and colours of games, which a pipe never has unless they are asked
for. On standard error: the line that says how far a command is, how fast it goes on, and how long it may take; and which game has its
turn."""

import os
import pty
import re
import subprocess
import time

from lib import PROGRAM, QUIET, done, expect, finish, folder, need, read, read_terminal, run, same, write

COLORLESS = {name: value for name, value in QUIET.items() if name not in ("NO_COLOR", "COLUMNS")}
RED, GREEN = "\x1b[31m", "\x1b[32m"
DEAR = "4.3746474646463667"  # a game whose values take seconds


def shown(*words, env=COLORLESS):
    """What a command prints where its standard output is a terminal."""
    master, slave = pty.openpty()
    with subprocess.Popen([*PROGRAM, *words], env=env, stdin=subprocess.DEVNULL, stdout=slave, stderr=subprocess.PIPE) as running:
        os.close(slave)
        text = read_terminal(master)
        need(not running.stderr.read(), " ".join(words))
    need(running.returncode == 0, " ".join(words))
    return text.replace("\r\n", "\n")


def without_colors(text):
    return re.sub(r"\x1b\[\d+m", "", text)


def narrowed(text):
    """The lines without what fills their columns."""
    return re.sub(r" +", " ", without_colors(text))


def starts(line):
    """Where the columns of a line begin."""
    return [found.end() for found in re.finditer(r" +(?=known |period \d|no period|blocks |refuted |pending |claims )", line)]


# ---- games


def table():
    """A state with a long code, an unclaimed period, refuted and withdrawn claims, and a game of which nothing is known."""
    done("init", "a.state", "1")
    done("survey", "a.state", "2000", "0.77", "0.07", "0.137")
    done("compute", "a.state", "0.45", "400")
    done("compute", "a.state", "0.3", "9")
    done("init", "b.state", "2")
    wrong = b'{"code":"0.77","start":1,"values":[1,2,7]}'
    write("wrong.json", wrong)
    done("import", "b.state", "wrong.json")
    done("period", "b.state", "0.07", "1", "34")
    done("note", "b.state", "withdrawn", "2.2")
    done("delta", "b.state", "b.delta")
    done("merge", "a.state", "b.delta")


def games():
    bare = done("games", "a.state")
    need("refuted 1" in bare and "withdrawn 1" in bare and "unclaimed" in bare and "no period" in bare, f"the table: {bare}")
    same("a pipe, no colours", done("games", "a.state", "--color", "never"), bare)

    text = shown("games", "a.state")
    same("a terminal", narrowed(text), bare)
    lines = without_colors(text).splitlines()
    for line in lines:
        same(f"the columns of {line!r}", starts(line), starts(lines[0]))
    same("the periods", re.findall(r"\x1b\[32m(.*?)\x1b\[0m", text), re.findall(r" period \d+ from \d+", bare))
    same("the counts", re.findall(r"\x1b\[31m(.*?)\x1b\[0m", text), re.findall(r" refuted [1-9]\d*", bare))
    same("the escapes", text.count("\x1b"), 2 * (text.count(RED) + text.count(GREEN)))

    columns = without_colors(text)
    same("NO_COLOR", shown("games", "a.state", env=dict(COLORLESS, NO_COLOR="1")), columns)
    same("an empty NO_COLOR", shown("games", "a.state", env=dict(COLORLESS, NO_COLOR="")), text)
    same("--color never", shown("games", "a.state", "--color", "never"), columns)
    same("--color always", done("games", "a.state", "--color", "always"), text)
    same("--color always over NO_COLOR", done("games", "a.state", "--color", "always", env=dict(COLORLESS, NO_COLOR="1")), text)
    same("some games", narrowed(shown("games", "a.state", "0.3", "0.77")), done("games", "a.state", "0.3", "0.77"))
    same("no games", shown("games", "a.state", "--period", "5"), "")
    for form in ("--json", "--csv", "--latex", "--refuted"):
        plain = done("games", "a.state", form)
        same(f"{form} on a terminal", shown("games", "a.state", form).replace("\r", ""), plain.replace("\r", ""))
        same(f"{form} with colours", done("games", "a.state", form, "--color", "always"), plain)
    answer = run("games", "a.state", "--color", "blue", "--explain")
    need(answer.status == 2 and "--color must be always, never or auto, and is blue" in answer.err, f"blue: {answer}")


def cut(line, width):
    """What is left of a line: never less than what stands before the counts, or before who says it."""
    room = max(width, re.search(r" blocks |, by ", line).start() + 2)
    return line if len(line) <= room else line[: room - 2] + ".."


def widths():
    """Lines that do not fit a terminal are cut, by the option or by the variable, but never the code, the known length or the period."""
    columns = without_colors(shown("games", "a.state")).splitlines()
    for width in (1, 20, 60, 80, len(columns[0]) - 1, len(columns[0]), 1000):
        due = [cut(line, width) for line in columns]
        narrow = dict(COLORLESS, COLUMNS=str(width))
        same(f"--width {width}", without_colors(shown("games", "a.state", "--width", str(width))).splitlines(), due)
        same(f"COLUMNS={width}", without_colors(shown("games", "a.state", env=narrow)).splitlines(), due)
        same("--width before COLUMNS", without_colors(shown("games", "a.state", "--width", "1000", env=narrow)).splitlines(), columns)
        same("no terminal", done("games", "a.state", "--width", str(width), env=narrow), done("games", "a.state"))
        same("colours and no terminal", without_colors(done("games", "a.state", "--color", "always", env=narrow)).splitlines(), columns)
        same("colours and a width", without_colors(done("games", "a.state", "--color", "always", "--width", str(width))).splitlines(), due)
    for strange in ("", "0", "wide", "-5"):
        same(f"COLUMNS={strange}", without_colors(shown("games", "a.state", env=dict(COLORLESS, COLUMNS=strange))).splitlines(), columns)
    answer = run("games", "a.state", "--width", "0", "--explain")
    need(answer.status == 2, f"no width: {answer}")


def said():
    """A line that says what a note says of a period stays as it is, whatever words are in it."""
    done("note", "a.state", "period-0-16", "0.16 period 149459 from 105351")
    done("note", "a.state", "author-name", "Anna  known  Berg")
    done("compute", "a.state", "0.16", "10")
    bare = done("games", "a.state", "0.16", "0.77")
    note = next(line for line in bare.splitlines() if "said:" in line)
    need("Anna  known  Berg" in note, f"the note: {note}")
    expect(note in shown("games", "a.state", "0.16", "0.77").splitlines(), "the line of a note has columns")


# ---- how far a command is


def told(*words, seconds, env=QUIET):
    """The lines that stand on standard error, one in place of the other, in so many seconds."""
    master, slave = pty.openpty()
    with subprocess.Popen([*PROGRAM, *words], env=env, stdin=subprocess.DEVNULL, stdout=subprocess.PIPE, stderr=slave) as running:
        os.close(slave)
        end = time.monotonic() + seconds
        while time.monotonic() < end and running.poll() is None:
            time.sleep(0.05)
        running.kill()
        said = read_terminal(master)
    return re.findall(r"\r([^\r\x1b]+)\x1b\[K", said)


def searches():
    lines = told("search", "4000000000", "0.106", seconds=4)
    form = re.compile(r"0\.106 \d+ of 4000000000(, \d+ a second)?(, \d+ (s|min|h|d) left)?")
    need(len(lines) > 5, f"a search says {lines}")
    for line in lines:
        expect(form.fullmatch(line), f"a search says {line!r}")
    expect("left" not in lines[0], f"in the first second it is said how long it takes: {lines[0]!r}")
    expect("left" in lines[-1], f"it is never said how long it takes: {lines[-1]!r}")
    known, wanted, rate, left, unit = re.fullmatch(r"0\.106 (\d+) of (\d+), (\d+) a second, (\d+) (s|min|h|d) left", lines[-1]).groups()
    seconds = int(left) * {"s": 1, "min": 60, "h": 3600, "d": 86400}[unit]
    due = (int(wanted) - int(known)) / int(rate)
    expect(due <= seconds * 1.01 + 1 and seconds <= max(1.5 * due + 2, due + 1), f"how long it takes is no rest by a rate: {lines[-1]!r}")


def resumes():
    """A search that is taken up again says at once how far it had come, and its rate leaves out what was known before."""
    words = ("--window", "--save", "told.search")
    before = 30_000_000
    same("a search that ends", done("search", str(before), "0.106", *words), f"0.106 no period seen in {before} values\n")
    lines = told("search", "4000000000", "0.106", *words, seconds=2)
    need(len(lines) > 5, f"a search that goes on says {lines}")
    for line in lines:
        known, rate, left = re.fullmatch(r"0\.106 (\d+) of 4000000000(?:, (\d+) a second)?(, .* left)?", line).groups()
        expect(int(known) >= before, f"a search that goes on behind {before} values says {line!r}")
        expect(not left or int(rate) <= int(known) - before, f"a rate counts what {before} values were before: {line!r}")


def turns():
    done("init", "c.state", "3")
    lines = told("extend", "c.state", "65536", "0.777", DEAR, "0.7777", seconds=3)
    need(any("game 2 of 3" in line for line in lines), f"an extension says {lines}")
    for line in lines:
        expect(re.fullmatch(r"\d\.\d+ \d+ of 65536, game [123] of 3(, \d+ (s|min|h|d) left)?", line), f"an extension says {line!r}")
    lines = told("extend", "c.state", "65536", DEAR, seconds=1)
    need(lines and all("game" not in line for line in lines), f"of one game it is said which it is: {lines}")


def rechecks():
    lines = told("recheck", "a.state", seconds=20)
    for line in lines:
        expect(re.fullmatch(r"0\.16 \d+ of \d+(, \d+ a second)?(, \d+ s left)?", line), f"a recheck says {line!r}")


def files():
    """Which file of several is next, where those before it took more than a second; the line goes in the end."""
    done("delta", "c.state", "c.delta")
    for words in (("digest",), ("union", "all.delta")):
        master, slave = pty.openpty()
        words = [*PROGRAM, *words, "/dev/stdin", "c.delta"]
        with subprocess.Popen(words, env=QUIET, stdin=subprocess.PIPE, stdout=subprocess.PIPE, stderr=slave) as running:
            os.close(slave)
            time.sleep(1.3)
            running.stdin.write(read("c.delta"))
            running.stdin.close()
            said = read_terminal(master)
        expect(re.fullmatch(r"\rfile 2 of 2(, \d+ s left)?\x1b\[K\r\x1b\[K", said), f"{words[len(PROGRAM)]} says {said!r}")
        same(f"the end of {words[len(PROGRAM)]}", running.returncode, 0)


def main():
    with folder():
        table()
        games()
        said()
        widths()
        searches()
        resumes()
        turns()
        rechecks()
        files()
    finish("what stands on a terminal alone is right there, and nowhere else")


if __name__ == "__main__":
    main()
