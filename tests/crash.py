#!/usr/bin/env python3
"""Kills commands at random moments, and says whether the state is whole after each: it loads, nothing that it held before is
gone, each operation that was answered `issued` is there, beside them at most what the killed command was about to do, and no
number has two contents. At the end another person, with whom the killed commands exchanged, has the same catalogue and no fork.
The moments are drawn from a seed. With --long three hundred commands are killed, and else fifty.
"""

import os
import random
import re
import statistics
import struct
import time

from lib import LONG, Hub, delta, done, folder, need, note, read, start, write

KILLED = 300 if LONG else 50  # commands that are killed over one state
BEGUN = 60 if LONG else 20  # states of which the making is killed
SECONDS = 150
SEED = 1956
STATE = "state"
OTHERS = 1000  # notes of another author, so that the state takes a while to be written


def after(text, at):
    """Where the operation ends whose body begins there, in its text."""
    kind, at = text[at], at + 1
    if kind in (1, 2):
        at += 2 + text[at + 1]  # the code
        return at + 6 + 4 * struct.unpack_from(">H", text, at + 4)[0] if kind == 1 else at + 8
    if kind == 3:
        at += 1 + text[at]
        return at + 1 + text[at]
    return at + 2 + 8 * struct.unpack_from(">H", text, at)[0]


def held():
    """The operations of the state file, each as its dot and its text; none may have a dot that another has."""
    text = read(STATE)
    need(text[:8] == b"OGS1\0\0\0\1", "the state is not that of author 1")
    count, at, found = struct.unpack_from(">I", text, 12)[0], 16, {}
    for _ in range(count):
        end = after(text, at + 8)
        dot = struct.unpack_from(">II", text, at)
        need(dot not in found, f"{dot} has two contents")
        found[dot] = text[at:end]
        at = end
    need(at == len(text), "the state goes on after its operations")
    return found


def cut(words, seconds):
    """What a command printed, and whether it was killed, after so many seconds."""
    running = start(*words)
    time.sleep(seconds)
    running.kill()
    out, err = running.communicate(timeout=20)
    need(running.returncode in (0, -9), f"{words[0]} answered {err.decode()!r}")
    return out.decode(), running.returncode == -9


def kinds(address):
    """The commands, each with the author whose operations it may add, and how many at most."""
    return {
        "note": (lambda turn: ["note", STATE, f"n{turn % 7}", f"turn {turn}"], 1, 1),
        "compute": (lambda turn: ["compute", STATE, "0.77", "9"], 1, 1),
        "import": (lambda turn: ["import", STATE, "block"], 1, 1),
        "unnote": (lambda turn: ["unnote", STATE, "again"], 1, 1),
        "merge": (lambda turn: ["merge", STATE, f"delta{turn % 400}"], 3, 5),
        "sync": (lambda turn: ["sync", STATE, address], 2, OTHERS),
    }


def prepare():
    done("init", STATE, "1")
    done("init", "friend", "2")
    write("block", b'{"code":"0.07","start":0,"values":[0,0,1,1,2,0,3]}')
    write("others", delta(*(note(4, number, b"other", b"one of many") for number in range(1, OTHERS + 1))))
    for turn in range(400):
        write(f"delta{turn}", delta(*(note(3, 5 * turn + more, b"other", b"merged") for more in range(1, 6))))
    done("merge", STATE, "others")


def typical(words):
    """How long the command takes."""
    taken = []
    for _ in range(5):
        before = time.monotonic()
        done(*words)
        taken.append(time.monotonic() - before)
    return statistics.median(taken)


def ready(kind):
    """Makes sure that there is something to take back, or to fetch."""
    if kind == "unnote":
        done("note", STATE, "again", "taken back")
    if kind == "sync":
        done("note", "friend", "friend", "to be fetched")


def kill_commands(address, end):
    """Kills commands until they are enough. Gives how many were killed, how many of these had changed the state, and how many had
    said so."""
    dice, commands, issued = random.Random(SEED), kinds(address), {}
    takes = {kind: typical(words(0)) for kind, (words, _, _) in commands.items() if kind != "unnote"}
    takes["unnote"] = takes["note"]
    turn = killed = changed = said = 0
    while killed < KILLED:
        need(time.monotonic() < end, f"only {killed} commands were killed in {SECONDS} seconds")
        turn += 1
        kind = dice.choice(list(commands))
        ready(kind)
        new, printed, was_killed = kill_one(turn, kind, commands[kind], dice.uniform(0, 1.2 * takes[kind]), issued)
        killed += was_killed
        changed += was_killed and bool(new)
        said += was_killed and bool(printed)
    now = held()
    need(all(now.get(dot) == text for dot, text in issued.items()), "an operation that was issued is gone or is another")
    return killed, changed, said


def kill_one(turn, kind, command, seconds, issued):
    """Kills a command after so many seconds. Gives how many operations are new, what it printed, and whether it was killed. What it
    said that it issued is there."""
    words, author, most = command
    before = held()
    printed, was_killed = cut(words(turn), seconds)
    done("page", STATE, "0")  # it loads
    now = held()
    new = check(before, now, author, most, f"{kind}, turn {turn}")
    for number in re.findall(r"^issued 1\.(\d+)$", printed, re.M):
        dot = 1, int(number)
        need(dot in now, f"turn {turn}: 1.{number} was issued and is not there")
        issued[dot] = now[dot]
    need(was_killed or new or kind in ("merge", "sync"), f"{kind}, turn {turn}, was done and changed nothing")
    return new, printed, was_killed


def check(before, now, author, most, what):
    """How many operations are new, all of them of the author, and none of the others has changed."""
    need(all(now.get(dot) == text for dot, text in before.items()), f"{what}: an operation is gone or is another")
    new = [dot for dot in now if dot not in before]
    need(all(dot[0] == author for dot in new) and len(new) <= most, f"{what}: {new[:9]} came")
    return len(new)


def beginnings():
    """Kills the making of states, and gives how many were killed: each state is whole, or is made again."""
    dice, takes, killed = random.Random(SEED), [], 0
    for turn in range(BEGUN):
        words, before = ["init", f"begun{turn}", "5"], time.monotonic()
        if turn < 5:
            done(*words)
            takes.append(time.monotonic() - before)
        else:
            killed += cut(words, dice.uniform(0, 1.2 * statistics.median(takes)))[1]
        if not os.path.exists(words[1]):
            need(turn >= 5 and done(*words) == "author 5\n", "a state that was not made cannot be made again")
        need(done("show", words[1]) == "census 2\nend\n", "a state that was begun is not empty")
    return killed


def main():
    end = time.monotonic() + SECONDS
    prepare()
    begun = beginnings()
    with Hub("friend", "--patience", "5") as hub:
        killed, changed, said = kill_commands(hub.address, end)
        done("sync", STATE, hub.address)
        done("sync", STATE, hub.address)
    shown = done("show", STATE)
    need(shown == done("show", "friend"), "the two catalogues differ")
    need("\nfork " not in shown, "there is a fork")
    print(
        f"{killed} commands killed, {killed - changed} before they had changed the state, {changed} after, of which {said} had said"
        f" so, and {begun} that make one: nothing is lost or doubled"
    )


with folder():
    main()
