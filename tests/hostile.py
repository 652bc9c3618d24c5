#!/usr/bin/env python3
"""Hands the program what is no delta, state, block or session, line by line from the tables in hostile/, and says whether
each answer is the one that stands there, and whether what was kept before is kept.
"""

import socket
import subprocess

from lib import TESTS, connect, done, expect, finish, folder, free_port, read, run, start, write

STATE = b"OGS1\0\0\0\x07OGD1\0\0\0\0"  # author 7, no operation
SECONDS = 60


def rows(name):
    """The cells of each line of a table."""
    with open(TESTS / "hostile" / name, encoding="utf-8", newline="\n") as table:
        lines = [line.rstrip("\n") for line in table if not line.startswith("#")]
    columns = 2 if name == "blocks.txt" else 4 if name == "frames.txt" else 3
    return [[cell.strip(" ") for cell in line.split("|", columns - 1)] for line in lines]


def last_line(*words):
    """The exit status of a command, and the last line that it printed, on either stream."""
    answer = run(*words)
    return answer.status, (answer.out + answer.err).rpartition("\n")[0].rpartition("\n")[2]


def wanted(answer, fault, faults):
    """The status and the line of an answer: those of the fault, where it is one of its causes."""
    statuses = {cause: status for status, causes in faults.items() for cause in causes}
    return (statuses[answer], f"census: {fault} {answer}") if answer in statuses else (0, answer)


def deltas():
    for answer, what, text in rows("deltas.txt"):
        write("state", STATE)
        write("delta", bytes.fromhex(text))
        right = last_line("merge", "state", "delta") == wanted(answer, "Merge", {1: ("Version", "Refused")})
        yield what, right and (read("state") == STATE) == (answer in ("Version", "Refused", "new 0"))


def states():
    for answer, what, text in rows("states.txt"):
        write("state", bytes.fromhex(text))
        yield what, last_line("show", "state") == wanted(answer, "Load", {1: ("Version", "Refused")})


def blocks():
    for answer, text in rows("blocks.txt"):
        write("state", STATE)
        write("block", text.encode())
        if answer.startswith("issued"):
            yield text, last_line("import", "state", "block") == (0, answer) and read("state") != STATE
        else:
            yield text, last_line("import", "state", "block") == (1, f"census: {answer}") and read("state") == STATE


def meet(command, said):
    """What a command answers to a peer that says this and then nothing more."""
    with socket.create_server(("127.0.0.1", 0)) as listener:
        port = listener.getsockname()[1] if command == "sync" else free_port()
        with start(command, "state", f"127.0.0.1:{port}", stderr=subprocess.STDOUT) as running:
            with listener.accept()[0] if command == "sync" else connect(port, running) as peer:
                peer.settimeout(SECONDS)
                say_all(peer, said)
            text = running.communicate(timeout=SECONDS)[0]
    return running.returncode, text.decode().rstrip("\n")


def say_all(peer, said):
    """Says this to the end, and takes what comes until the other side closes the connection."""
    try:
        peer.sendall(said)
        peer.shutdown(socket.SHUT_WR)
        while peer.recv(65536):
            pass
    except OSError:  # it was closed at the other end
        pass


def frames():
    for answer, command, what, text in rows("frames.txt"):
        write("state", STATE)
        answers = meet(command, bytes.fromhex(text))
        right = answers == wanted(answer, "Sync", {1: ("Frame", "Order", "Clock", "Delta"), 3: ("Cut",)})
        yield f"{command}: {what}", right and done("show", "state").endswith("end\n")


def main():
    count = 0
    for table in (deltas, states, blocks, frames):
        for what, right in table():
            count += 1
            expect(right, f"{table.__name__}: {what}")
    finish(f"{count} lines of the tables are answered as it stands there")


with folder():
    main()
