#!/usr/bin/env python3
"""Hands the program inputs made to be slow or large, and says whether each answer is right and comes within the processor time
and the memory that stand beside it.

With --long they are as large as they can be. This takes twenty seconds and more, since inputs of up to a gigabyte are read. Else
they are a tenth of that, within a tenth of the time, and of the greatest files there is only the one that is too long.
"""

import os
import resource
import socket
import struct
import subprocess

from lib import CLOCK, DELTA, EMPTY_CLOCK, END, LONG, connect, delta, expect, finish, folder, frame, free_port, note, start, write

MIB = 1 << 20
GREATEST = 1 << 30  # bytes of a file that is read
PART = 1 if LONG else 10  # of the numbers below, and of the seconds for them
BLOCKS = 100_000 // PART
HEAPS = 65_535 // PART
LINES = 2_000_000 // PART
REMOVALS = 10_000 // PART
NOTES = 1_000_000 // PART
NAMES = 20_000


def state(*operations, count=None):
    """A state of author 7, or the beginning of one that says it has so many operations."""
    return b"OGS1" + struct.pack(">I", 7) + delta(*operations, count=count)


def block(author, number, at, value):
    """The operation that says one value of the game 0.3."""
    return struct.pack(">IIB", author, number, 1) + b"\0\1\3" + struct.pack(">IHI", at, 1, value)


def removal(author, number, dots):
    """The operation that takes notes back."""
    return struct.pack(">IIBH", author, number, 4, len(dots)) + b"".join(struct.pack(">II", *dot) for dot in dots)


def write_lines(operations):
    """The file `lines`: a delta of each operation, in hexadecimal, written one by one, so that this process stays small: what it
    holds counts for the program when that starts."""
    with open("lines", "w", encoding="ascii") as lines:
        lines.writelines(delta(operation).hex() + "\n" for operation in operations)


class Ran:
    """What a command answered, in which processor time and memory; a peer may meet it meanwhile."""

    def __init__(self, *words, given=os.devnull, meet=None):
        with open(given, "rb") as stdin, open("out", "wb") as out:
            running = start(*words, stdin=stdin, stdout=out, stderr=subprocess.STDOUT)
            if meet:
                meet(running)
            _, running.returncode, used = os.wait4(running.pid, 0)
        self.seconds = used.ru_utime + used.ru_stime
        self.mib = used.ru_maxrss / 1024
        with open("out", encoding="utf-8") as out:
            self.lines = out.read().splitlines()


def report(what, ran, right, seconds, mib):
    """Prints a line for the case: what it took, and whether it is as it should be."""
    fits = ran.seconds <= seconds and ran.mib <= mib
    word = "right" if right and fits else "WRONG" if fits else "TOO MUCH"
    print(f"{word:8} {ran.seconds:6.2f} s of {seconds:3}, {ran.mib:5.0f} MiB of {mib:4}  {what}", flush=True)
    expect(word == "right", "\n".join([what, *(line[:200] for line in [*ran.lines[:5], "..", *ran.lines[-5:]])]))


def try_falling_blocks():
    """Blocks of one game in falling order: the last one settles them all."""
    starts = ((number, 1 + (number - 1) * HEAPS // BLOCKS) for number in range(BLOCKS, 0, -1))
    write_lines(block(1, number, at, at % 2) for number, at in starts)
    ran = Ran("fold", given="lines")
    proved = sum(line.endswith(" proved") for line in ran.lines)
    right = ran.lines[1] == f"game 0.3 known {1 + HEAPS}" and proved == BLOCKS
    report(f"{BLOCKS:,} blocks of one game, the last first", ran, right, 10 // PART, 128)


def try_contents_of_one_dot():
    """One name of an operation, under which many say something else each."""
    write_lines(block(1, 1, 1, value) for value in range(BLOCKS))
    ran = Ran("fold", given="lines")
    refuted = sum(" refuted at 1 claimed " in line for line in ran.lines)
    right = f"fork 1.1 contents {BLOCKS}" in ran.lines and refuted == BLOCKS - 1
    report(f"{BLOCKS:,} contents of one dot", ran, right, 10 // PART, 128)


def try_lines_that_are_no_deltas():
    """Lines that break off before the last byte: of these 140 MB none has to be kept."""
    line = delta(block(1, 1, 1, 1))[:-1].hex() + "\n"
    with open("lines", "w", encoding="ascii") as lines:
        for _ in range(LINES // 2000):
            lines.write(line * 2000)
    ran = Ran("fold", given="lines")
    report(f"{LINES:,} lines that are no deltas", ran, ran.lines == ["census 2", "end", f"refused {LINES}"], 10 // PART, 64)


def try_removals():
    """Removals, each of the same 1,024 dots."""
    dots = [(1, number) for number in range(1, 1025)]
    write("state", state(*(note(*dot, b"a") for dot in dots)))
    write("delta", delta(count=REMOVALS), (removal(2, number, dots) for number in range(1, REMOVALS + 1)))
    merged = Ran("merge", "state", "delta")
    shown = Ran("show", "state")
    report(f"{REMOVALS:,} removals of 1,024 dots, merged", merged, merged.lines == [f"new {REMOVALS}"], 10 // PART, 600)
    right = ["census 2", "author 1 through 1024 last 1024", f"author 2 through {REMOVALS} last {REMOVALS}", "end"]
    report(f"{REMOVALS:,} removals of 1,024 dots, shown", shown, shown.lines == right, 10 // PART, 600)


def try_long_delta():
    """A delta of many notes, merged twice."""
    write("state", state())
    write("delta", delta(count=NOTES), (note(1, number, b"a") for number in range(1, NOTES + 1)))
    merged = Ran("merge", "state", "delta")
    again = Ran("merge", "state", "delta")
    report(f"a delta of {NOTES:,} operations", merged, merged.lines == [f"new {NOTES}"], 20 // PART, 800)
    report("the same delta again", again, again.lines == ["new 0"], 20 // PART, 800)


def try_names():
    """Authors with names, each of whom says a block that is wrong: a pass over all names for each of them would take minutes."""
    said = ((note(author, 1, b"author-name", b"Anna"), block(author, 2, 1, 5)) for author in range(1, NAMES + 1))
    write("state", state(*(operation for operations in said for operation in operations)))
    for words, times in ((["games", "--refuted", "state"], 1), (["json", "state"], 2), (["report", "state"], 5), (["site", "state", "pages"], 0)):
        ran = Ran(*words)
        right = sum(line.count("Anna") for line in ran.lines) == times * NAMES
        report(f"{NAMES:,} authors with names, by {words[0]}", ran, right, 2, 64)


def try_greatest_files():
    """Files at the limit of 2^30 bytes and one byte past it: holes, and a count that the bytes cannot hold."""
    write("state", state(count=0xFFFFFFFF))
    os.truncate("state", GREATEST + 1)
    longer = Ran("show", "state")
    report("a state of 2^30 + 1 bytes", longer, longer.lines == ["census: TooLong"], 20, 1200)
    if not LONG:
        return
    os.truncate("state", GREATEST)
    full = Ran("show", "state")
    report("a state of 2^30 bytes", full, full.lines == ["census: Load Refused"], 20, 1200)
    write("lines", b"\n")
    os.truncate("lines", GREATEST)
    folded = Ran("fold", given="lines")
    report("a line of 2^30 - 1 bytes", folded, folded.lines == ["census 2", "end", "refused 1"], 20, 1200)


def try_peer(what, pieces, answer, seconds):
    """The answer of a server to a peer that sends these pieces as long as the server reads."""
    write("state", state())
    port = free_port()

    def meet(running):
        with connect(port, running) as peer:
            peer.setsockopt(socket.IPPROTO_TCP, socket.TCP_NODELAY, 1)
            try:
                for piece in pieces:
                    peer.sendall(piece)
                peer.shutdown(socket.SHUT_WR)
                while peer.recv(MIB):
                    pass
            except OSError:  # it was closed at the other end
                pass

    ran = Ran("serve", "state", f"127.0.0.1:{port}", meet=meet)
    report(what, ran, ran.lines[-1:] == [answer], seconds, 64)


def try_peers():
    """Peers that are slow, that never end, and that send the longest clocks."""
    nothing = frame(CLOCK, EMPTY_CLOCK)
    slow = nothing + frame(DELTA, delta(block(1, 1, 1, 1))) + frame(END)
    many = 131_071  # authors, as many as a frame holds
    clock = struct.pack(">I", many) + b"".join(struct.pack(">II", author, 1) for author in range(1, many + 1))
    endless = [nothing] + [frame(DELTA, delta()) * 1000] * 1000
    try_peer("a peer that sends one byte at a time", [slow[at : at + 1] for at in range(len(slow))], "done", 5)
    try_peer("a clock of 131,071 authors", [frame(CLOCK, clock), frame(END)], "done", 5)
    try_peer("a clock of 1,000,000 authors", [struct.pack(">IB", 8_000_005, CLOCK)], "census: Sync Frame", 5)
    try_peer("a peer that never ends", endless, "census: Sync Turns", 20)


def main():
    resource.setrlimit(resource.RLIMIT_CPU, (120, 120))
    try_peers()
    try_falling_blocks()
    try_contents_of_one_dot()
    try_lines_that_are_no_deltas()
    try_removals()
    try_long_delta()
    try_names()
    try_greatest_files()
    finish("each answer came within its time and its memory")


with folder():
    main()
