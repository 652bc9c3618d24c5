#!/usr/bin/env python3
"""Searches for periods far beyond 65,536 heaps. The periods of published tables are found, each with its least heap and by as many
values as prove it; with `--window`, which keeps few values, the same ones are found. The values that `--at` gives at great heaps
are those that the rule of the period gives from the values that `--bfile` lists. The first values of sixty games are those that the
rule of the games gives, and 20,000 of each have the checksums of values/checksums.txt. For all three-digit games of Winning Ways,
chapter 4, the same periods are found as a survey finds.

With --long all of this, which takes two minutes and more, most of it for the two periods that begin past two and past ten million
heaps. Else these two are left out, and every third of the sixty games and every fourth of the three-digit games is looked at.
"""

import json

from lib import LONG, TESTS, THREE_DIGITS, done, folder, need, nim_values, refused, run, same

SECONDS = 300

# Tables of periods of octal games (Gangolli and Plambeck 1989; Flammenkamp): the period, and the first heap of it.
PERIODS = {
    "0.127": (4, 46_578),
    "0.16": (149_459, 105_351),
    "0.56": (144, 326_640),
    "0.561": (144, 326_640),
    "0.562": (144, 326_640),
    "0.563": (144, 326_640),
    "0.376": (4, 2_268_248),
    "0.354": (1_180, 10_061_916),
}
MOST = 30_000_000
if not LONG:
    PERIODS = {code: found for code, found in PERIODS.items() if found[1] < 1_000_000}

# What is asked of 0.16, of which so many values are listed.
FAR = "0.16"
LISTED = 300_000
HEAPS = [0, 1, 105_350, 105_351, 254_810, 1_000_000, 10**12, 2**63, 2**64 - 1]

# Sixty games, each with a checksum of its first values that another program gave; and how many values are computed here.
with open(TESTS / "values" / "checksums.txt", encoding="utf-8") as table:
    CHECKSUMS = dict(row.split() for row in table if not row.startswith("#"))
LONGER = 20_000
FIRST = 1_500
CODES = list(CHECKSUMS)[:: 1 if LONG else 3]

# The games of a survey, and how many values it has of each.
GAMES = THREE_DIGITS[:: 1 if LONG else 4]
KNOWN = 4_096

# Words that are refused, the exit status, and the fault; it is not said in these words where none stands here.
REFUSED = [
    (["--bfile", "10", "0.77", "0.6"], 2, "Words"),
    (["--bfile", "10", "0.77", "--at", "5"], 2, "Words"),
    (["--bfile", "10", "0.77", "--json"], 2, "Words"),
    (["--bfile", "10", "0.77", "--window"], 2, "Words"),
    (["10", "0.77", "--window", "--at", "5"], 2, "Words"),
    ([str(2**60 + 1), "0.77", "--window"], 2, "Number"),
    (["--bfile", "0", "0.77"], 2, "Number"),
    (["--bfile", "10", "0.8"], 1, "Code Digit"),
    (["10", "0.77", "--at", str(2**64)], 2, "Number"),
    (["10", "0.77", "--at", "-1"], 2, None),
]


def found_by(*words):
    """What a search prints."""
    return done("search", *words, seconds=SECONDS)


def needs(code):
    period, start = PERIODS[code]
    return 2 * start + 2 * period + len(code.split(".")[1])


def listed(code, count):
    """The values of a game, as `--bfile` lists them."""
    rows = [line.split(" ") for line in found_by("--bfile", str(count), code).splitlines()]
    same(f"the heaps of {code}", [heap for heap, _ in rows], [str(heap) for heap in range(count)])
    return [int(value) for _, value in rows]


def check_periods():
    for code, (period, start) in PERIODS.items():
        words = found_by(str(MOST), code).split()
        same(code, words[:-1], f"{code} period {period} from {start} needs {needs(code)} values".split())
        need(int(words[-1]) >= needs(code), f"{code}: {words[-1]} values are too few")
    last = needs("0.127") - 1
    same("0.127 by one value too few", found_by(str(last), "0.127"), f"0.127 no period in {last} values\n")


def check_windows():
    for code, (period, start) in PERIODS.items():
        words = found_by(str(MOST), code, "--window").split()
        same(f"{code} in windows", words[:-1], f"{code} period {period} from {start} needs {needs(code)} values".split())
        need(start + period <= int(words[-1]) <= MOST, f"{code} in windows: {words[-1]} values")
    unseen = found_by(str(LISTED), "0.106", "--window")
    same("0.106 in windows", unseen, f"0.106 no period seen in {LISTED} values\n")
    told = json.loads(found_by(str(LISTED), "0.106", "--window", "--json"))
    same("JSON of 0.106", told, {"code": "0.106", "period": None, "values": LISTED, "unseen": True})


def checksum(values):
    """FNV-1a of 64 bits, over values in place of bytes."""
    total = 1_469_598_103_934_665_603
    for value in values:
        total = (total ^ value) * 1_099_511_628_211 % 2**64
    return f"{total:016x}"


def check_values():
    """The first values are those that the rule gives, and more of them have the checksum."""
    same("the games with checksums", len(CHECKSUMS), 60)
    for code in CODES:
        same(f"the values of {code}", listed(code, FIRST), nim_values(code, FIRST))
        same(f"the checksum of {code}", checksum(listed(code, LONGER)), CHECKSUMS[code])


def check_heaps():
    period, start = PERIODS[FAR]
    values = listed(FAR, LISTED)
    due = [values[heap if heap < start else start + (heap - start) % period] for heap in HEAPS]
    asked = [word for heap in HEAPS for word in ("--at", str(heap))]
    lines = found_by("1000000", FAR, *asked).splitlines()
    same("heaps", lines[1:], [f"{FAR} at {heap} value {value}" for heap, value in zip(HEAPS, due)])

    told = json.loads(found_by("1000000", FAR, "--json", *asked))
    at = [{"heap": heap, "value": value} for heap, value in zip(HEAPS, due)]
    found = {"code": FAR, "period": period, "from": start, "needs": needs(FAR), "values": told["values"], "at": at}
    same("JSON", list(told.items()), list(found.items()))

    few = found_by("100", "0.6", "--at", "99", "--at", "100")
    value = listed("0.6", 100)[99]
    same("0.6", few, f"0.6 no period in 100 values\n0.6 at 99 value {value}\n0.6 at 100 not known\n")
    object_of = '{"code":"0.6","period":null,"values":100'
    same("JSON of 0.6", found_by("100", "0.6", "--json"), object_of + "}\n")
    at = f',"at":[{{"heap":99,"value":{value}}},{{"heap":100,"value":null}}]'
    same("JSON of 0.6", found_by("100", "0.6", "--json", "--at", "99", "--at", "100"), object_of + at + "}\n")


def periods_of(lines):
    """For each code the period, the heap and the need that its line names, or none."""
    words = [line.split() for line in lines.splitlines()]
    return {line[0]: tuple(line[2:7:2]) if line[1] == "period" else None for line in words}


def check_survey():
    """How many games have a period; each has the one that a survey finds."""
    done("init", "games.state", "1")
    surveyed = periods_of(done("survey", "games.state", str(KNOWN), *GAMES, seconds=SECONDS))
    searched = periods_of(found_by(str(KNOWN), *GAMES))
    same("the games of a survey", [list(surveyed), list(searched)], [GAMES, GAMES])
    for code in GAMES:
        same(code, searched[code], surveyed[code])
    return sum(found is not None for found in searched.values())


def check_refusals():
    for words, status, fault in REFUSED:
        if fault:
            refused(status, fault, "search", *words)
        else:
            answer = run("search", *words)
            same(words, (answer.status, answer.out), (status, ""))


def main():
    check_periods()
    check_windows()
    check_heaps()
    check_values()
    periods = check_survey()
    check_refusals()
    print(
        f"{len(PERIODS)} periods of published tables are found, {len(HEAPS)} heaps follow the rule, the values of"
        f" {len(CODES)} games are right, and {periods} of {len(GAMES)} games have the periods of a survey"
    )


with folder():
    main()
