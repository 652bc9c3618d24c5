#!/usr/bin/env python3
"""Has sessions that end with each kind of fault, after an operation came over them, and says whether the fault is the one
that is due, and whether the state file has what came, beside what another command wrote meanwhile.
"""

import re
import socket
import struct

from lib import CLOCK, DELTA, EMPTY_CLOCK, END, Hub, delta, done, expect, finish, folder, frame, note, start, write

SECONDS = 30
CAME = frame(CLOCK, EMPTY_CLOCK) + frame(DELTA, delta(note(9, 1, b"came"), edition=1))
LARGE = 40_000  # notes, more than a connection holds


def close(peer):
    peer.shutdown(socket.SHUT_WR)


def wait(peer):
    """Is silent, and takes nothing."""


def say(text):
    return lambda peer: peer.sendall(text)


# How each session ends: its fault, its exit status, and what the peer does once its note was sent.
ENDS = [
    ("Frame", 1, say(struct.pack(">I", 0))),
    ("Order", 1, say(frame(CLOCK, EMPTY_CLOCK))),
    ("Delta", 1, say(frame(DELTA, b"OGD1"))),
    ("Cut", 3, close),
    ("Read", 3, wait),
    ("Write", 3, say(frame(END))),
]


def state_of(author, large):
    """A new state; a large one has more to send than a connection holds, all in one delta."""
    state = f"state-{author}"
    done("init", state, str(author))
    if large:
        write("large", delta(*(note(author + 1, number, b"n", b"x" * 200) for number in range(1, LARGE + 1)), edition=1))
        done("merge", state, "large")
    return state


def meet(peer, state, end):
    """What a peer does, while another command writes the state."""
    peer.settimeout(SECONDS)
    peer.sendall(CAME)
    done("note", state, "meanwhile", "")
    end(peer)


def sync(state, end):
    """The exit status of a session that a state begins, and the line of its fault."""
    with socket.create_server(("127.0.0.1", 0)) as listener:
        listener.settimeout(SECONDS)
        with start("sync", state, "127.0.0.1:%d" % listener.getsockname()[1], "--patience", "1") as running:
            with listener.accept()[0] as peer:
                meet(peer, state, end)
                _, errors = running.communicate(timeout=SECONDS)
    return running.returncode, errors.decode().rstrip("\n")


def hub(state, end):
    """The exit status of a hub that serves one peer, and the line of the peer's fault; the lines after it explain it."""
    with Hub(state, "--patience", "1", "--peers", "1") as serving:
        with serving.connect() as peer:
            meet(peer, state, end)
            status = serving.runs.wait(SECONDS)
    with open(serving.faults, encoding="ascii") as faults:
        return status, faults.readline().rstrip("\n")


def main():
    author = 20
    for fault, due, end in ENDS:
        for session in (sync, hub):
            if session == hub and fault == "Write":
                continue  # a server sends what it has before it takes anything
            author += 10
            state = state_of(author, fault == "Write")
            status, line = session(state, end)
            what = f"{session.__name__}, {fault}"
            time_and_peer = r"[-0-9]+T[:0-9]+Z peer 127\.0\.0\.1:\d+ " if session == hub else ""
            expect(re.fullmatch(rf"census: {time_and_peer}Sync {fault}", line), f"{what}: {line!r}")
            expect(status == (0 if session == hub else due), f"{what}: status {status}")
            shown = done("show", state)
            expect("note came 9.1 \n" in shown, f"{what}: what came is not there")
            expect(f"note meanwhile {author}.1 \n" in shown, f"{what}: what was written meanwhile is not there")
    finish(f"saved: {2 * len(ENDS) - 1} sessions ended by a fault, and what came over them was kept")


with folder():
    main()
