#!/usr/bin/env python3
"""Plays positions of Kayles and Dawson's Kayles against the program: whether each move that it names is one by the rules, leaves
the nim-value 0, and is there exactly where the position's nim-value is not 0. The values are computed by the rule up to the end of
the first period, and go on with the periods of the literature (12 from 71 and 34 from 53). Moves past what a state gives are the
first of all that win: these are tried here one after another, with values that are computed by the rule alone.
"""

import functools
import json
import operator
import random
import re

from lib import done, folder, need, nim_values, refused, run, same

LARGEST = 2**64 - 1
STATE = "moves.state"

# The beans that may be removed, from a heap that may then be left as no heap, as one or as two; start and period of the values.
GAMES = {"0.77": ((1, 2), 71, 12), "0.07": ((2,), 53, 34)}


def value_of(heap, values, start, period):
    """The nim-value of a heap, of which the values up to the end of the first period are given."""
    return values[heap if heap < start + period else start + (heap - start) % period]


def nim_sum(heaps, value):
    """The nim-value of a position."""
    return functools.reduce(operator.xor, map(value, heaps), 0)


def is_right(answer, heaps, removals, value):
    """Whether the line names a move that wins, or says that there is none where the position loses."""
    total = nim_sum(heaps, value)
    if answer == "none: the player to move loses\n":
        return total == 0
    found = re.fullmatch(r"heap (\d+) of (\d+): remove (\d+), leave (nothing|\d+(?: and \d+)?)\n", answer)
    if not found:
        return False
    index, beans, removed = (int(found[i]) for i in (1, 2, 3))
    left = [int(heap) for heap in re.findall(r"\d+", found[4])]
    is_move = index < len(heaps) and heaps[index] == beans and removed in removals and sum(left) == beans - removed and 0 not in left
    after = total ^ value(heaps[index]) ^ nim_sum(left, value)
    return is_move and after == 0 and total != 0


def as_object(answer):
    """What --json says in place of the line."""
    if answer == "none: the player to move loses\n":
        return {"heap": None, "next_player": "loses"}
    index, beans, removed, *left = (int(number) for number in re.findall(r"\d+", answer))
    return {"heap": index, "of": beans, "remove": removed, "leave": left}


def positions(rng):
    """Positions of no heap, of small ones, of heaps past every known value, and of the largest."""
    yield []
    yield [0]
    yield [LARGEST]
    yield [LARGEST, LARGEST]
    yield [10**18 + 3, 10**18 + 4, 5]
    for largest in (20, 300, 10**6, LARGEST):
        for count in (1, 2, 3, 4, 7):
            for _ in range(3):
                yield [rng.randrange(largest) for _ in range(count)]


def play(code):
    """How many positions of a game were played, each with a right answer."""
    removals, start, period = GAMES[code]
    values = nim_values(code, start + period)

    def value(heap):
        return value_of(heap, values, start, period)

    done("extend", STATE, "400", code)
    done("period", STATE, code, str(start), str(period))
    count = 0
    for count, heaps in enumerate(positions(random.Random(code)), 1):
        words = [STATE, code, *map(str, heaps)]
        answer = done("move", *words)
        need(is_right(answer, heaps, removals, value), f"{code} {heaps}: {answer!r}")
        total = nim_sum(heaps, value)
        wanted = [as_object(answer), {"value": total, "next_player": "wins" if total else "loses"}]
        same(f"{code} {heaps}", [json.loads(done(command, "--json", *words)) for command in ("move", "value")], wanted)
    return count


def moves(code, heap):
    """The moves in a heap, by the beans removed and then by the smaller heap left: each with the heaps that are left."""
    head, digits = code.split(".")
    for removed, rule in enumerate(map(int, head + digits)):
        rest = heap - removed
        if removed and rest >= 0 and rule & (2 if rest else 1):
            yield removed, [rest] if rest else []
        if rule & 4:
            yield from ((removed, [less, rest - less]) for less in range(1, rest // 2 + 1))


def first_move(code, heaps, value):
    """The first of all moves after which the other player loses, as it is said."""
    total = nim_sum(heaps, value)
    for index, beans in enumerate(heaps):
        for removed, left in moves(code, beans):
            if total ^ value(beans) ^ nim_sum(left, value) == 0:
                return f"heap {index} of {beans}: remove {removed}, leave {' and '.join(map(str, left)) or 'nothing'}\n"
    return "none: the player to move loses\n"


def moves_searched():
    """Moves past what a state gives: all of a game whose period is found, and those below COUNT of one that shows none there."""
    rng = random.Random(9)
    for code, count, largest in (("0.77", 200, 900), ("0.07", 200, 900), ("4.5", 700, 700), ("0.16", 2000, 2000), ("0.137", 600, 3000)):
        values = nim_values(code, largest)
        for size in (1, 2, 3, 5):
            for _ in range(4):
                heaps = [rng.randrange(largest) for _ in range(size)]
                words = [STATE, code, *map(str, heaps), "--search", str(count)]
                line = first_move(code, heaps, values.__getitem__)
                same(f"a move by a search: {code} {heaps}", done("move", *words), line)
                same(f"the same as JSON: {code} {heaps}", json.loads(done("move", *words, "--json")), as_object(line))
    for heaps in ([LARGEST], [10**18 + 3, 5, 10**12], [LARGEST, LARGEST], [7] * 4):
        words = [STATE, "0.77", *map(str, heaps)]
        removals, start, period = GAMES["0.77"]
        values = nim_values("0.77", start + period)
        answer = done("move", *words, "--search", "168")
        need(is_right(answer, heaps, removals, lambda heap: value_of(heap, values, start, period)), f"{heaps}: {answer!r}")
    same("one value fewer proves no period", done("move", STATE, "0.77", "9", str(LARGEST), "--search", "167"), "unknown at 1\n")
    same("a search that ends before a heap", done("move", STATE, "0.16", "9", "2000", "--search", "2000"), "unknown at 1\n")
    same("the same as JSON", done("move", STATE, "0.16", "9", "2000", "--search", "2000", "--json"), '{"unknown":1}\n')
    same("a move that the state gives", done("move", STATE, "0.77", "7", "18", "--search", "1"), done("move", STATE, "0.77", "7", "18"))
    refused(2, "Number", "move", STATE, "0.77", "7", "--search", "0")
    refused(2, "Number", "move", STATE, "0.77", "7", "--search", "4294967297")
    refused(1, "Code Digit", "move", STATE, "0.x", "7", "--search", "9")
    refused(3, "File", "move", "missing.state", "0.77", "7", "--search", "9")


def is_allowed(code, answer):
    """Whether the digit of the beans that are removed allows so many heaps to be left."""
    return answer["heap"] is None or int(code.replace(".", "")[answer["remove"]]) >> len(answer["leave"]) & 1 == 1


def far_moves():
    """Moves by a period that no claim can have: those of 0.16, by values of the program up to the end of the first one."""
    start, period = 105351, 149459
    values = [int(line.split()[1]) for line in done("search", "--bfile", str(start + period), "0.16").splitlines() if not line.startswith("#")]

    def value(heap):
        return value_of(heap, values, start, period)

    for heaps in ([10**10], [10**10, 7], [LARGEST, 10**18 + 3, 5], [LARGEST] * 2, [10**12, 10**12 + start, 10**6 + 1]):
        words = [STATE, "0.16", *map(str, heaps), "--search", "1000000"]
        answer = done("move", *words)
        need(is_right(answer, heaps, (1, 2), value) and is_allowed("0.16", as_object(answer)), f"0.16 {heaps}: {answer!r}")
        same(f"0.16 {heaps} as JSON", json.loads(done("move", *words, "--json")), as_object(answer))
    for heaps in ([70_000, 65_536], [start + period] * 3, [start + period + 9, start + 9], [3 * period, 2 * period + 1]):
        line = first_move("0.16", heaps, value)
        same(f"0.16 {heaps}", done("move", STATE, "0.16", *map(str, heaps), "--search", "600000"), line)
    same("one value fewer proves no period", done("move", STATE, "0.16", "9", str(LARGEST), "--search", "509621"), "unknown at 1\n")
    answer = done("move", STATE, "0.16", "9", str(LARGEST), "--search", "509622")
    need(is_right(answer, [9, LARGEST], (1, 2), value), f"as many as prove it: {answer!r}")


def searched():
    """Values past what a state gives: by a search that finds the period, and by one that ends before it."""
    _, start, period = GAMES["0.77"]
    values = nim_values("0.77", start + period)
    done("compute", STATE, "0.77", "20")
    heaps = ["5000", "3", str(LARGEST)]
    total = nim_sum(map(int, heaps), lambda heap: value_of(heap, values, start, period))
    line = f"value {total}\nnext player {'wins' if total else 'loses'}\n"
    same("a value by a search", done("value", STATE, "0.77", *heaps, "--search", "1000"), line)
    same("a value of the state", done("value", STATE, "0.77", "7", "18", "--search", "1"), f"value {values[7] ^ values[18]}\nnext player wins\n")
    same("a search that ends before the heap", done("value", STATE, "0.77", "7", "60", "--search", "50"), "unknown at 1\n")
    same("the same as JSON", done("value", STATE, "0.77", "7", "60", "--search", "50", "--json"), '{"unknown":1}\n')
    refused(2, "Number", "value", STATE, "0.77", "7", "--search", "0")
    refused(1, "Code Digit", "value", STATE, "0.x", "7", "--search", "9")


def advised():
    """What is said of a heap that is not known: how far they are, and the claim of the period that they prove, or what computes on."""
    told = "told.state"
    done("init", told, "2")
    for code, count, heap, advice in (
        ("0.77", 1000, 5000, f"to heap 1000; census find proves period 12 from 71: census period {told} 0.77 71 12"),
        ("0.6", 100, 5000, f"to heap 100, and prove no period; census extend {told} 5001 0.6 computes them"),
        ("0.6", 1, 70000, "to heap 101, and prove no period; --search COUNT looks for one among more values"),
    ):
        done("compute", told, code, str(count))
        for command in ("value", "move"):
            status, printed, said = run("--explain", command, told, code, "1", str(heap))
            same(f"{command} of heap {heap} of {code}", (status, printed), (0, "unknown at 1\n"))
            same(f"what is said of it by {command}", said.strip(), f"heap {heap} is not known: values are known {advice}")


def main():
    done("init", STATE, "1")
    same("a heap that is not known", done("move", STATE, "0.77", "0", "9"), "unknown at 1\n")
    for command in ("move", "value"):
        same(f"{command} --json of a heap that is not known", done(command, "--json", STATE, "0.77", "0", "9"), '{"unknown":1}\n')
    searched()
    moves_searched()
    far_moves()
    advised()
    print(f"{sum(map(play, GAMES))} positions, and each answer is right")


with folder():
    main()
