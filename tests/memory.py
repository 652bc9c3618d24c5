#!/usr/bin/env python3
"""How much memory the views of a table take: each is written as it is made, so that it takes little beside the set of operations.

Of a table of many values a view takes under eight bytes for each byte of the state, with the set and without the program itself; of
one of many games with few values the set takes more than that by itself, and the view takes under eight beside it. A view is read
until little of it is left, so that the program waits with most of it behind, and then the system says how much it has had.
"""

import itertools
import re
import subprocess

from lib import done, expect, finish, folder, need, read, start

KIB = 1 << 10
LEFT = 160 * KIB  # so much of a view is unread while the program is looked at: more than a pipe and a piece hold
MOST = 8  # bytes for a byte of the state


def codes(digits, count):
    """So many codes with so many digits."""
    middle = ["01234567"] * (digits - 2)
    return ["0." + "".join(each) for each in itertools.islice(itertools.product("1234567", *middle, "1234567"), count)]


def table(state, games, heaps, digits):
    """A state with so many values of so many games, and its length."""
    done("init", state, "1")
    every = codes(digits, games)
    for at in range(0, games, 4_000):
        done("extend", state, str(heaps), *every[at : at + 4_000])
    return len(read(state))


def had(process):
    """The most bytes that the process has had in memory."""
    with open(f"/proc/{process.pid}/status", encoding="ascii") as file:
        return KIB * int(re.search(r"VmHWM:\s+(\d+)", file.read())[1])


def peak(*words):
    """The most bytes that a command has in memory while it prints all but the end."""
    length = len(done(*words))
    need(length > 2 * LEFT, f"{' '.join(words)} prints {length} bytes, too few to be stopped")
    with start(*words, stderr=subprocess.DEVNULL) as running:
        running.stdout.read(length - LEFT)
        most = had(running)
        running.stdout.read()
    return most


def alone():
    """The most bytes that the program has in memory where it waits for its input, and does nothing."""
    with start("fold", stdin=subprocess.PIPE, stderr=subprocess.DEVNULL) as running:
        most = had(running)
        running.stdin.close()
        running.stdout.read()
    return most


def main():
    """Measures the views of both tables."""
    itself = alone()
    size = table("values", 1_000, 1_000, 4)
    for view in ("json", "report", "show"):
        took = peak(view, "values") - itself
        expect(took < MOST * size, f"{view} of {size} bytes takes {took} bytes, {took / size:.1f} for each")
        print(f"{view} of 1,000 values of each of 1,000 games: {took / size:.1f} bytes for each of the state")
    size = table("games", 20_000, 4, 6)
    catalogue = peak("show", "games")
    for view in ("json", "report"):
        took = peak(view, "games") - catalogue
        expect(took < MOST * size, f"{view} of {size} bytes takes {took} bytes beside the set, {took / size:.1f} for each")
        print(f"{view} of 4 values of each of 20,000 games: {took / size:.1f} bytes for each of the state, beside the set")
    finish("each view is written as it is made")


with folder():
    main()
