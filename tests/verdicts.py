#!/usr/bin/env python3
"""What is said of what a command said or took in: what became of one block or claim, or how many of several are proved, refuted and
pending. Each command runs on copies of one state, with no terminal, with --explain, with CENSUS_EXPLAIN=1 and on a terminal: in the
first nothing is said, in the others what is due, and all print and write the same bytes. The values come from the rule of the games.
Connections are on the loopback, on a free port.
"""

import json
import os
import random

import lib
from lib import ASKING, Hub, expect, finish, folder, nim_values, read, run, watched, write

SEED = 20240607
tried = 0


# ---- the games


def first_break(values, start, period):
    """The first heap from the start on whose value is not that of the heap one period later; None where there is none among these."""
    return next((n for n in range(start, len(values) - period) if values[n] != values[n + period]), None)


# ---- the program


def done(words, given=None):
    """What a command prints that leads to a case, and is none itself."""
    return lib.done(*words.split(), given=given)


def block(code, start, values):
    return json.dumps({"code": code, "start": start, "values": values}).encode()


def said_of(words, due, given=b"", on_terminal=None):
    """The command, which changes a.state, says what is due, and that alone where somebody wants to know. Its state stands then."""
    global tried
    tried += 1
    words = words.split()
    before = read("a.state")
    ways = {
        "with no terminal": (lambda: run(*words, given=given), ""),
        "with --explain": (lambda: run("--explain", *words, given=given), due),
        "with CENSUS_EXPLAIN=1": (lambda: run(*words, env=ASKING, given=given), due),
        "on a terminal": (lambda: watched(*words, given=given), due if on_terminal is None else on_terminal),
    }
    first = None
    for way, (act, wanted) in ways.items():
        write("a.state", before)
        status, printed, said = act()
        expect(status == 0, f"{words} {way}: the status is {status}")
        expect(said == wanted, f"{words} {way}: {said!r}, and not {wanted!r}")
        left = printed, read("a.state")
        first = first or left
        expect(left == first, f"{words} {way}: it prints {printed!r}, or writes another state than with no terminal")


def lists(state):
    return f"; census games {state} --refuted lists them"


# ---- the cases


def try_claims():
    """Claims of periods of Kayles, which has period 12 from 71 on."""
    values = nim_values("0.77", 200)
    done("init a.state 1")
    said_of("compute a.state 0.77 199", "1.1: proved\n")
    said_of("period a.state 0.77 71 12", "1.2: proved\n")
    number = 3
    for start, period in ((70, 12), (12, 71), (12, 72), (72, 12), (1, 1), (13, 70), (150, 24), (24, 71), (36, 71)):
        heap = first_break(values, start, period)
        dot = f"1.{number}"
        number += 1
        if heap is None:
            needs = 2 * start + 2 * period + 2
            due = f"{dot}: proved\n" if needs <= len(values) else f"{dot}: pending, until the first {needs} values are known\n"
        else:
            later = heap + period
            due = f"{dot}: refuted at {heap}, which has the value {values[heap]}, and {later} the value {values[later]}\n"
            # The exchanged claim is proved where its values are known and none breaks it.
            if first_break(values, period, start) is None and 2 * start + 2 * period + 2 <= len(values):
                due += f"warning: {dot} says from {start} by {period}; from {period} by {start} is proved: were the two exchanged?\n"
        said_of(f"period a.state 0.77 {start} {period}", due)
        expect(("exchanged" in due) == ((start, period) in ((12, 71), (12, 72), (24, 71))), f"the case {start} {period}: {due!r}")
    said_of("note a.state kayles twelve", "")
    said_of("period --quiet a.state 0.77 69 12", "")


def try_blocks():
    """Blocks of Kayles with a wrong value, past what is known, and of a game of which nothing is known."""
    values = nim_values("0.77", 5000)
    os.remove("a.state")
    done("init a.state 7")
    done("compute a.state 0.77 199")
    done("period a.state 0.77 71 12")
    said_of("import a.state -", "7.3: refuted at 70, claimed 2, true 6\n", given=block("0.77", 68, [1, 8, 2, 7]))
    said_of("import a.state -", "7.4: proved\n", given=block("0.77", 68, values[68:72]))
    # Beyond the known values a proved period decides.
    said_of("import a.state -", "7.5: proved\n", given=block("0.77", 4000, values[4000:4900]))
    wrong = values[4000:4900]
    wrong[123] += 1
    said_of("import a.state -", f"7.6: refuted at 4123, claimed {wrong[123]}, true {values[4123]}\n", given=block("0.77", 4000, wrong))
    said_of("import a.state -", "7.7: pending, since it starts beyond the known values\n", given=block("0.6", 10, [1, 2]))
    # Several blocks of one b-file, of which one is wrong.
    listed = values[:2500]
    listed[1500] += 4
    rows = "".join(f"{heap} {value}\n" for heap, value in enumerate(listed)).encode()
    said_of("claim a.state 0.77 -", "3 new: 2 proved, 1 refuted, 0 pending" + lists("a.state") + "\n", given=rows)
    write("b.txt", rows)
    check = "  census check 0.77 b.txt lists each wrong value\n"
    said_of("claim a.state 0.77 b.txt", "3 new: 2 proved, 1 refuted, 0 pending" + lists("a.state") + "\n" + check)
    said_of("claim a.state 0.77 -", "7.14: proved\n", given=b"100 " + str(values[100]).encode() + b"\n")


def try_chance():
    """Blocks of games by chance, right or with one wrong value."""
    chance = random.Random(SEED)
    os.remove("a.state")
    done("init a.state 3")
    for number in range(1, 13):
        code = "0." + "".join(str(chance.randrange(8)) for _ in range(chance.randrange(1, 4))) + str(chance.randrange(1, 8))
        values = nim_values(code, 300)
        claimed = values[1:]
        at = chance.randrange(1, 300)
        due = f"3.{number}: proved\n"
        if chance.random() < 0.7:
            claimed[at - 1] = chance.choice([value for value in range(20) if value != values[at]])
            due = f"3.{number}: refuted at {at}, claimed {claimed[at - 1]}, true {values[at]}\n"
        said_of("import a.state -", due, given=block(code, 1, claimed))


def try_exchange():
    """What comes by a delta and by a session: three blocks and claims are proved, three refuted, one is pending, and a note."""
    values = nim_values("0.77", 300)
    for path in ("a.state", "b.state"):
        if os.path.exists(path):
            os.remove(path)
    done("init a.state 1")
    # What was pending before is not new, but what comes decides it.
    done("import a.state -", block("0.77", 150, values[150:160]))
    done("init b.state 2")
    done("compute b.state 0.77 199")
    done("period b.state 0.77 71 12")
    done("period b.state 0.77 70 12")
    done("import b.state -", block("0.77", 68, [1, 8, 2, 7]))
    done("import b.state -", block("0.77", 5, [values[5] + 1]))
    done("import b.state -", block("0.77", 250, values[250:260]))
    done("import b.state -", block("0.6", 100, [1]))
    done("note b.state kayles twelve")
    done("delta b.state b.delta")
    fresh = read("a.state")
    due = "7 new: 3 proved, 3 refuted, 1 pending" + lists("a.state") + "\ndecided now: 1.1: proved\n"
    said_of("merge a.state b.delta", due)
    said_of("merge a.state b.delta", "")
    # Where one operation alone is new, it is said what became of it.
    done("period b.state 0.77 72 12")
    done("delta b.state b.delta")
    said_of("merge a.state b.delta", "2.9: proved\n")
    try_session(fresh, "8 new: 4 proved, 3 refuted, 1 pending" + lists("a.state") + "\ndecided now: 1.1: proved\n")


def try_decided():
    """What was pending and is decided by what comes: one's own apart, what others said, and nothing twice."""
    values = nim_values("0.77", 300)
    for path in ("a.state", "b.state"):
        os.remove(path)
    done("init b.state 3")
    done("import b.state -", block("0.77", 180, values[180:190]))
    done("delta b.state b.delta")
    done("init a.state 2")
    wrong = [values[150] + 1, *values[151:160]]
    said_of("import a.state -", "2.1: pending, since it starts beyond the known values\n", given=block("0.77", 150, wrong))
    said_of("import a.state -", "2.2: pending, since it starts beyond the known values\n", given=block("0.77", 160, values[160:170]))
    said_of("period a.state 0.77 71 12", "2.3: pending, until the first 168 values are known\n")
    said_of("period a.state 0.77 70 12", "2.4: pending, until the first 166 values are known\n")
    # What nothing decides is not counted, nor what another game has.
    said_of("import a.state -", "2.5: pending, since it starts beyond the known values\n", given=block("0.77", 250, values[250:260]))
    said_of("import a.state -", "2.6: pending, since it starts beyond the known values\n", given=block("0.6", 10, [1, 2]))
    said_of("merge a.state b.delta", "3.1: pending, since it starts beyond the known values\n")
    # The values decide claims of periods alone; a proved period decides each block.
    os.remove("b.state")
    done("init b.state 1")
    done("compute b.state 0.77 70")
    done("compute b.state 0.77 70")
    done("compute b.state 0.6 4")
    done("delta b.state b.delta")
    break_at = first_break(values, 70, 12)
    later = break_at + 12
    due = f"2.4: refuted at {break_at}, which has the value {values[break_at]}, and {later} the value {values[later]}\n"
    said_of("merge a.state b.delta", "3 new: 3 proved, 0 refuted, 0 pending\ndecided now: " + due)
    done("compute b.state 0.77 59")
    done("compute b.state 0.6 4")
    done("delta b.state b.delta")
    counts = "decided now: 3 of yours proved, 1 of yours refuted, 1 of others proved" + lists("a.state") + "\n"
    said_of("merge a.state b.delta", "2 new: 2 proved, 0 refuted, 0 pending\n" + counts)
    said_of("compute a.state 0.77 10", "2.7: proved\n")
    # What one says oneself decides what was pending, too.
    said_of("compute a.state 0.6 10", "2.8: proved\ndecided now: 2.6: refuted at 10, claimed 1, true 3\n")


def try_session(fresh, counts):
    """The same by a session of the state as it was with a hub on b.state."""
    for way, act, more, due in (
        ("with no terminal", run, [], ""),
        ("with --explain", run, ["--explain"], counts),
        ("on a terminal", watched, [], counts),
        ("on a terminal with --quiet", watched, ["--quiet"], ""),
    ):
        write("a.state", fresh)
        with Hub("b.state", "--peers", "1") as hub:
            ended = act("sync", "a.state", hub.address, *more)
            hub.runs.wait(60)
        expect(ended == (0, "" if "--quiet" in more else "done\n", due), f"sync {way}: {ended}")


def try_twice():
    """A number that is used twice: what comes under a number that was there before is new, where it says something else."""
    values = nim_values("0.77", 50)
    os.remove("a.state")
    os.remove("b.state")
    done("init a.state 5")
    done("init b.state 5")
    done("compute a.state 0.77 49")
    done("import b.state -", block("0.77", 20, [values[20] + 1]))
    done("delta b.state b.delta")
    status, _, said = run("--explain", "merge", "a.state", "b.delta")
    due = f"5.1: refuted at 20, claimed {values[20] + 1}, true {values[20]}\n"
    expect(status == 0 and said.startswith("warning: 5.1 is by your number") and said.endswith("\n" + due), f"merge of a number that is used twice: {said!r}")


def try_surveys():
    """Surveys, and games so large that it is said on demand alone."""
    os.remove("a.state")
    done("init a.state 9")
    said_of("survey a.state 200 0.77 0.6", "3 new: 3 proved, 0 refuted, 0 pending\n")
    said_of("survey a.state 200 0.77 0.6", "")
    said_of("extend a.state 300 0.6", "9.4: proved\n")
    said_of("extend a.state 300 0.6", "")
    done("extend a.state 65536 0.77")
    said_of("period a.state 0.77 1000 12", "9.69: proved\n", on_terminal="")
    said_of("period a.state 0.6 1 1", "9.70: refuted at 1, which has the value 0, and 2 the value 1\n")


def main():
    try_claims()
    try_blocks()
    try_chance()
    try_exchange()
    try_decided()
    try_twice()
    try_surveys()
    finish(f"verdicts: what became of it is said of each of {tried} commands where it should be, and only there")


with folder():
    main()
