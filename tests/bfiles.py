#!/usr/bin/env python3
"""Claims b-files whose values stand in the literature, and looks at what the catalogue says of them: all of them proved, and where
one value was changed, the block refuted at that heap; `check` says the same of each value, with no state. Then the b-file that the
program prints is claimed into another state, and files that are no b-files are refused by their first faulty line.
"""

from lib import done, folder, read, refused, run, same, write

# Winning Ways, chapter 4: Kayles has period 12 from heap 71 on, and fourteen exceptions before; Dawson's Kayles has period 34 from heap
# 53 on, and eight exceptions before. Dawson's Chess has at n the value of Dawson's Kayles at n + 1.
KAYLES = [4, 1, 2, 8, 1, 4, 7, 2, 1, 8, 2, 7]
KAYLES_BUT = {0: 0, 3: 3, 6: 3, 9: 4, 11: 6, 15: 7, 18: 3, 21: 4, 22: 6, 28: 5, 34: 6, 39: 3, 57: 4, 70: 6}
DAWSON = [4, 8, 1, 1, 2, 0, 3, 1, 1, 0, 3, 3, 2, 2, 4, 4, 5, 5, 9, 3, 3, 0, 1, 1, 3, 0, 2, 1, 1, 0, 4, 5, 3, 7]
DAWSON_BUT = {0: 0, 1: 0, 15: 0, 17: 2, 18: 2, 32: 2, 35: 0, 52: 2}
COUNT = 2500


def row(period, but, count):
    return [but.get(n, period[n % len(period)]) for n in range(count)]


GAMES = {
    "0.77": row(KAYLES, KAYLES_BUT, COUNT),
    "0.07": row(DAWSON, DAWSON_BUT, COUNT),
    "0.137": row(DAWSON, DAWSON_BUT, COUNT + 1)[1:],
}

# Texts that are no b-file, and what is said of them.
BAD = [
    (b"0 0\n1 1\n2 two\n", "Bfile Form 3"),
    (b"0 0\r\n1 1 1\r\n", "Bfile Form 2"),
    (b"0 0\n-1 1\n", "Bfile Form 2"),
    (b"# a line\n\n5 1\n5 2\n", "Bfile Order 4"),
    (b"65535 1\n65536 1\n", "Bfile PastLimit 2"),
    (b"# nothing\n\n", "Bfile Empty"),
]


def text(values):
    return "".join(f"{n} {v}\n" for n, v in enumerate(values))


def statuses(state):
    """What the catalogue says of each block, in the order of the operations."""
    return [line.split(" ", 6)[6] for line in done("show", state).splitlines() if line.startswith("block ")]


def issued(values):
    """What `claim` prints of so many values in a new state of author 1."""
    blocks = -(-len(values) // 1024)
    return "issued 1.1\n" if blocks == 1 else f"issued 1.1 to 1.{blocks}\n"


def check_game(code, values):
    """A game of the literature: claimed right, with one value changed, and again as the program prints it."""
    blocks = -(-len(values) // 1024)
    true, wrong, again = (f"{code}-{name}.state" for name in ("true", "wrong", "again"))
    for state in (true, wrong, again):
        done("init", state, "1")
    write("b.txt", text(values).encode())
    same(code, done("claim", true, code, "b.txt"), issued(values))
    same(f"blocks of {code}", statuses(true), ["proved"] * blocks)

    at = 1500
    write("b.txt", text(changed(values, at)).encode())
    done("claim", wrong, code, "b.txt")
    due = ["proved", f"refuted at {at} claimed {values[at] + 1} true {values[at]}"] + ["pending"] * (blocks - 2)
    same(f"blocks of {code} with one value changed", statuses(wrong), due)

    check_verdicts(code, values, at)
    check_shifts(code, values)

    printed = done("bfile", true, code)
    same(f"b-file of {code}", printed, text(values))
    write("b.txt", b"# a b-file\r\n" + printed.replace("\n", "\r\n").replace(" ", " \t ").encode())
    same(f"{code} again", done("claim", again, code, "b.txt"), issued(values))
    same(f"blocks of {code} again", statuses(again), ["proved"] * blocks)


def changed(values, at):
    """The values, of which that one is one greater."""
    return [value + (heap == at) for heap, value in enumerate(values)]


def answered(content, code):
    """The status of `check` over a file of this text, and what it says of it; it says nothing else."""
    write("b.txt", content.encode())
    answer = run("check", code, "b.txt")
    same(f"what check says of {code} beside its verdict", answer.err, "")
    return answer.status, answer.out


def check_verdicts(code, values, at):
    """What `check` says of right values, one wrong one, a part from a later heap on, and a hundred and more wrong ones."""
    same(f"check of {code}", answered(text(values), code), (0, f"{len(values)} values, all right\n"))
    due = f"heap {at}: {values[at] + 1} in the file, {values[at]} is right\n"
    same(f"check of {code} with one value changed", answered(text(changed(values, at)), code), (1, due))
    part = "".join(f"{n} {values[n]}\n" for n in range(at, at + 9))
    same(f"check of a part of {code}", answered(part, code), (0, "9 values, all right\n"))
    for count, end in ((100, ""), (101, "and 1 more\n"), (len(values), f"and {len(values) - 100} more\n")):
        lines = [f"heap {n}: {v + 1} in the file, {v} is right\n" for n, v in enumerate(values[:100])]
        wrong = text([v + 1 for v in values[:count]])
        same(f"check of {count} wrong values of {code}", answered(wrong, code), (1, "".join(lines) + end))


def check_shifts(code, values):
    """What is said of a part whose values are those of other heaps, and only where it was asked for."""
    places = range(10, 60)
    for by in (-3, -2, -1, 1, 2, 3):
        write("b.txt", "".join(f"{n} {values[n + by]}\n" for n in places).encode())
        way, sign = ("on", "+") if by > 0 else ("back", "-")
        said = f"  all are right {abs(by)} further {way}: the file has under each n the value of heap n {sign} {abs(by)}\n"
        answer = run("--explain", "check", code, "b.txt")
        same(f"check of {code} shifted by {by}", (answer.status, answer.err), (1, said if abs(by) < 3 else ""))
        same(f"check of {code} shifted by {by} that nobody asks", run("check", code, "b.txt"), (1, answer.out, ""))
    # As where heap 0 stands under 1.
    write("b.txt", "".join(f"{n + 1} {v}\n" for n, v in enumerate(values[:50])).encode())
    same(f"check of {code} from 1 on", run("--explain", "check", code, "b.txt").err, "  all are right 1 further back: the file has under each n the value of heap n - 1\n")


def check_faults():
    """Texts that are no b-files are refused by both commands, and the state stays as it is."""
    done("init", "bad.state", "1")
    before = read("bad.state")
    for content, fault in BAD:
        write("b.txt", content)
        refused(1, fault, "claim", "bad.state", "0.77", "b.txt")
        refused(1, fault, "check", "0.77", "b.txt")
    refused(1, "Code Digit", "check", "0.87", "b.txt")
    same("the state after faults", read("bad.state"), before)


def main():
    for code, values in GAMES.items():
        check_game(code, values)
    check_faults()
    print(f"{len(GAMES)} b-files of {COUNT} values from the literature are proved, changed ones refuted, and {len(BAD)} texts refused")


with folder():
    main()
