#!/usr/bin/env python3
"""Kills a survey of many games after 40 seconds, and says whether the games that were done before the last half minute were
kept: their lines are printed, the state has their values and claims, and the same survey goes on from there without computing
them again. Takes a minute, since a survey saves what is done each half minute.
"""

import subprocess
import time

from lib import THREE_DIGITS, done, folder, need, start

COUNT = 65536
KILLED = 40  # seconds after the beginning
SECONDS = 300  # that all may take
GAMES = [code + digit for digit in ("", *"1234567") for code in THREE_DIGITS]  # more than are done by then


def killed(state):
    """The lines that a survey printed which was killed."""
    with start("survey", state, str(COUNT), *GAMES, stderr=subprocess.DEVNULL, text=True) as survey:
        time.sleep(KILLED)
        survey.kill()
        return survey.stdout.read().splitlines()


def main():
    done("init", "state", "7")
    begun = time.monotonic()
    lines = killed("state")
    need(lines, f"no game was kept in {KILLED} seconds")
    need(len(lines) < len(GAMES), "the survey was over before it was killed")
    codes = [line.split(" ")[0] for line in lines]
    need(codes == GAMES[: len(codes)], "the lines are not those of the first games")
    need(all(line.endswith((f" known {COUNT}", f" in {COUNT} values")) for line in lines), "a line is of a game that is not whole")
    some = lines[:20] + lines[-5:]
    found = done("find", "state", *(line.split(" ")[0] for line in some), seconds=SECONDS)
    need(found.splitlines() == some, "the state has not what the lines say")
    later = time.monotonic()
    again = done("extend", "state", str(COUNT), *codes[:20], seconds=SECONDS)
    need(again == "".join(f"{code} known {COUNT} issued 0\n" for code in codes[:20]), "a game that was kept is computed again")
    print(f"stopped: {len(codes)} games were kept {KILLED} seconds after the beginning; {time.monotonic() - begun:.0f} s in all")
    need(later - begun < SECONDS, "it took too long")


with folder():
    main()
