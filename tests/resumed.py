#!/usr/bin/env python3
"""Searches that are saved and taken up again. Those that end at a COUNT, and go on to a greater one, and those that are killed
say what a search says that was never stopped. A second search with the same file waits for the first. Damaged files, those
of another game and all others are refused and stay as they are, and where the file can't be written the search ends.
The bytes of the file are what docs/FORMATS.md says.
"""

import hashlib
import os
import time

from lib import Answer, done, folder, need, read, refused, run, same, start, write

SECONDS = 120
SAVED = " from a saved search\n"

# The numbers of values at which a search stops, and the game.
CODE = "0.16"
COUNTS = [65_537, 100_000, 262_143, 262_144, 400_000, 411_602, 411_603]
PERIOD = "0.16 period 149459 from 105351 needs 509622 values 411603"

# Games whose windows are looked at behind so many values.
GAMES = ["0.104", "0.106", "0.054", "0.454", "0.16", "0.56", "0.354", "0.64", "4.65"]
FAR = 150_000

# Numbers that do not fit together with the others: a stage, a head, how many values are listed, the heap of the mark, the reach,
# the next heap, the bits of the mask, its parity and its turn.
SCALARS = [(0, 2), (1, 1), (2, 2**32), (2, 100_000), (3, 0), (3, 100_000), (4, 0), (4, 32_767), (5, 65_536), (5, 2**61)]
SCALARS += [(6, 0), (6, 2**32), (7, 2), (8, 256)]

# A search that takes some time.
LONG = "0.354"
MANY = 16_000_000


def search(file, count, code=CODE, *more):
    """What a search in windows answers that is saved in this file."""
    return run("search", str(count), code, "--window", "--save", file, *more, seconds=SECONDS)


def alike(what, found, due):
    """The same as `same`, of long lists, which are not printed."""
    need(found == due, f"{what} are not as they should be")


def check_counts():
    """Each search goes on from where the one before it ended."""
    file = "counts.search"
    for at, count in enumerate(COUNTS):
        ran = search(file, count)
        text = PERIOD if count >= 411_603 else f"{CODE} no period seen in {count} values"
        same(f"up to {count}", ran, (0, text + (SAVED if at else "\n"), ""))
    same("once more", search(file, 1).out, PERIOD + SAVED)
    object_of = '{"code":"0.16","period":149459,"from":105351,"needs":509622,"values":411603,"saved":true}\n'
    same("JSON", search(file, 1, CODE, "--json").out, object_of)
    same("a search that is not saved", done("search", "1000000", CODE, "--window"), PERIOD + "\n")
    seen = "  a window of 411603 values shows that the period goes on; a list, without --window, needs 509622\n"
    same("what is said", search(file, 1, CODE, "--explain").err, f"the search in {file} goes on behind 411603 values\n{seen}")
    same("what is said of no file", run("search", "1000000", CODE, "--window", "--explain").err, seen)
    same("what is said of a list", run("search", "1000000", CODE, "--explain").err, "")


def lists_of(data):
    """The lists of numbers of a saved search."""
    same("the tag", data[:4], b"OGW1")
    same("the checksum", data[4:36], hashlib.sha256(data[36:]).digest())
    same("the length", len(data) % 8, 4)
    numbers = [int.from_bytes(data[at : at + 8], "big") for at in range(36, len(data), 8)]
    lists = []
    while numbers:
        lists.append(numbers[1 : 1 + numbers[0]])
        same("a list", len(lists[-1]), numbers[0])
        numbers = numbers[1 + numbers[0] :]
    return lists


def check_bytes():
    """What a file has while a window is watched, and when the least heap has been looked for."""
    file = "bytes.search"
    rows = done("search", "--bfile", "400000", CODE).splitlines()
    values = [int(row.split(" ")[1]) for row in rows]
    search(file, 200_000)
    scalars, digits, rare, held, marked = lists_of(read(file))
    kind, head, listed, at, reach, heap, bits, parity, turn = scalars
    same("what is watched", (kind, head, listed, heap, digits), (0, 0, 65_536, 200_000, [1, 6]))
    same("the reach", reach, (65_536 - 4) // 2)
    alike("the small heaps", held[: reach + 1], values[: reach + 1])
    last = reach + 2
    alike("the last values", held[-last:], values[heap - last : heap])
    alike("the marked values", marked, values[at - last : at])
    need(at <= heap <= 2 * at, "the mark is not where it should be")

    def is_rare(n):
        return ((values[n] & bits).bit_count() + (n + turn if parity else 0)) % 2 == 0

    alike("the rare heaps", rare, [n for n in range(1, heap) if is_rare(n)])

    search(file, 1_000_000)
    scalars, digits, rare, held, rare_ahead, held_ahead = lists_of(read(file))
    same("what is compared", scalars[:3] + scalars[4:7], [1, 0, 65_536, 411_603, 149_459, 105_351])
    first, second = scalars[7:13], scalars[13:]
    same("the readers", (first[0], second[0], second[0] - first[0]), (scalars[3], scalars[3] + 149_459, 149_459))
    alike("the last values behind", held[-last:], values[first[2] - last : first[2]])
    alike("the last values ahead", held_ahead[-last:], values[second[2] - last : second[2]])
    alike("the rare heaps", rare, [n for n in range(1, 65_536) if is_rare(n)])
    alike("the rare heaps ahead", rare_ahead, rare)


def check_values():
    """The values that a window has are those that a list has: also where it went on by sets, or where they are too large for that."""
    for at, code in enumerate(GAMES):
        file = f"{at}.search"
        search(file, FAR, code)
        scalars, _, _, held, _ = lists_of(read(file))
        same(f"what is watched of {code}", (scalars[0], scalars[5]), (0, FAR))
        rows = done("search", "--bfile", str(FAR), code, seconds=SECONDS).splitlines()
        values = [int(row.split(" ")[1]) for row in rows]
        reach = scalars[4]
        last = reach + len(code.split(".")[1])
        alike(f"the small heaps of {code}", held[: reach + 1], values[: reach + 1])
        alike(f"the last values of {code}", held[-last:], values[-last:])


def check_kills():
    """A search is killed three times, and another one waits for it."""
    os.mkdir("kills")
    file = "kills/kills.search"
    for _ in range(3):
        running = start("search", str(MANY), LONG, "--window", "--save", file)
        wait_for(file)
        time.sleep(0.5)
        second = start("search", "1", LONG, "--window", "--save", file)
        time.sleep(0.5)
        same("a second search", second.poll(), None)
        running.kill()
        running.communicate()
        told = second.communicate(timeout=SECONDS)[0].decode()
        right = told.startswith(f"{LONG} no period seen in ") and told.endswith(" values" + SAVED)
        need(right, f"the second search says {told!r}")
    whole = done("search", "4000000", LONG, "--window", seconds=SECONDS)
    same("after the kills", search(file, 4_000_000, LONG).out, whole.replace("\n", SAVED))
    same("what is left", os.listdir("kills"), ["kills.search"])


def wait_for(file):
    """Waits until the file is there."""
    end = time.monotonic() + SECONDS
    while not os.path.exists(file):
        need(time.monotonic() < end, "no file was written")
        time.sleep(0.1)


def check_damage():
    """A file with one bit turned, cut, too long, or of numbers that do not fit, and one of another game, are refused."""
    whole = saved()
    for at in [4, 35, 36, 43, 44, 51, 99, len(whole) // 2, len(whole) - 1]:
        check_refused(f"byte {at}", turned(whole, at), "Saved Refused")
    for at in [0, 3]:
        check_refused(f"byte {at}", turned(whole, at), "Saved Version")
    for size in [4, 20, 36, 44, len(whole) - 8, len(whole) - 1]:
        check_refused(f"{size} bytes", whole[:size], "Saved Refused")
    check_refused("three bytes", whole[:3], "Saved Version")
    check_refused("a byte more", whole + b"\0", "Saved Refused")
    check_refused("another game", whole, "Saved Game", "0.56")
    same("the same scalar", with_scalar(whole, 1, 0), whole)
    check_refused("another head", with_scalar(whole, 1, 4), "Saved Game")
    for place, value in SCALARS:
        check_refused(f"{value} as scalar {place}", with_scalar(whole, place, value), "Saved Refused")
    done("init", "some.state", "1")
    check_refused("a state", read("some.state"), "Saved Version")


def saved():
    """The bytes of a search that is saved, from its beginning."""
    write("whole.search", b"")
    search("whole.search", 100_000)
    return read("whole.search")


def turned(whole, at):
    """The bytes, with one bit of that byte turned."""
    return whole[:at] + bytes([whole[at] ^ 1]) + whole[at + 1 :]


def with_scalar(whole, place, value):
    """The bytes with another number at this place of the first list, and with their checksum."""
    at = 44 + 8 * place
    body = whole[36:at] + value.to_bytes(8, "big") + whole[at + 8 :]
    return b"OGW1" + hashlib.sha256(body).digest() + body


def check_refused(what, data, fault, code=CODE):
    """A file of these bytes is refused, and stays as it is."""
    write("bad.search", data)
    same(what, search("bad.search", 200_000, code), Answer(1, "", f"census: {fault}\n"))
    same(f"{what}: the file", read("bad.search"), data)


def check_places():
    """An empty file is as none; where the file can't be written, and beside words that have no such file, it is refused."""
    file, whole = "whole.search", saved()
    write("empty.search", b"")
    same("an empty file", search("empty.search", 100_000).out, f"{CODE} no period seen in 100000 values\n")
    same("its bytes", read("empty.search"), whole)
    same("no folder", search("nowhere/some.search", 100_000), Answer(3, "", "census: File\n"))
    os.chmod("empty.search", 0o444)
    same("a closed file", search("empty.search", 200_000), Answer(3, "", "census: File\n"))
    same("its bytes", read("empty.search"), whole)
    for words in [["--save", file], ["0.56", "--window", "--save", file], ["--bfile", "--save", file]]:
        refused(2, "Words", "search", "100", CODE, *words)


def main():
    check_counts()
    check_bytes()
    check_values()
    check_kills()
    check_damage()
    check_places()
    print(f"a search goes on {len(COUNTS)} times by COUNT and 3 times after a kill, its file is as documented, and damage is refused")


with folder():
    main()
