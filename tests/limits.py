#!/usr/bin/env python3
"""How much one session may bring: so many authors, and so many bytes, to a hub, to `serve` and to `sync`. What is refused leaves the
set as it was, both sides say why, and others go on. Who wants memory that there is not is named. The connections are on the
loopback, on free ports.
"""

import contextlib
import re
import socket
import struct
import threading

from lib import ASKING, CLOCK, DELTA, EMPTY_CLOCK, END, Hub
from lib import connect, delta, done, expect, finish, folder, frame, free_port, need, note, read, run, same, start, write

REFUSAL = 5  # the tag of the frame that says why a session ends
LIMIT = 65_536  # the most authors of a clock that is sent
NOTES = 4_000  # in one frame


def receive(peer, count):
    """The next bytes, so many; fewer where the connection ends."""
    content = b""
    while len(content) < count and (more := peer.recv(count - len(content))):
        content += more
    return content


def read_frame(peer):
    """The tag and the payload of the next frame; none at the end."""
    length = receive(peer, 4)
    if len(length) < 4:
        return None
    content = receive(peer, struct.unpack(">I", length)[0])
    return content[0], content[1:]


def greet(peer):
    """Sends a clock that covers nothing, and reads the answer."""
    peer.sendall(frame(CLOCK, EMPTY_CLOCK))
    while (answer := read_frame(peer)) and answer[0] != END:
        pass
    need(answer, "a clock is not answered")


def notes(authors):
    """A delta frame of a note by each of these authors."""
    return frame(DELTA, delta(*(note(author, 1, b"n", b"t") for author in authors)))


def state_of(name, author, authors):
    """A state of this author, in which each of these has said something."""
    write(name, b"OGS1" + struct.pack(">I", author) + delta(*(note(other, 1, b"n", b"t") for other in authors), edition=1))


def authors_of(name):
    """The authors whose operations a state has."""
    return [int(number) for number in re.findall(r"(?m)^author (\d+) ", done("show", name))]


@contextlib.contextmanager
def serving(answer):
    """The address of a server that reads a clock, and then does this with the connection."""
    with socket.create_server(("127.0.0.1", 0)) as listener:

        def serve():
            peer, _ = listener.accept()
            with peer, contextlib.suppress(OSError):
                read_frame(peer)
                answer(peer)

        threading.Thread(target=serve, daemon=True).start()
        yield "127.0.0.1:%d" % listener.getsockname()[1]


def without_end(text=b"t"):
    """Sends a clock and then operations for ever."""

    def answer(peer):
        peer.sendall(frame(CLOCK, EMPTY_CLOCK))
        for first in range(1, 1 << 32, NOTES):
            peer.sendall(frame(DELTA, delta(*(note(7, number, b"n", text) for number in range(first, first + NOTES)))))

    return answer


# ---- authors


def hub_of_few():
    """A hub takes no session that would bring its table to more authors than it may have, says so, and goes on."""
    state_of("hub", 9, [9])
    state_of("anna", 1, [1, 2])
    state_of("ben", 3, [3])
    with Hub("hub", "--authors", "3") as hub:
        done("sync", "anna", hub.address)
        kept = done("show", "hub")
        answer = run("sync", "ben", hub.address, env=ASKING)
        expect(answer.status == 1 and answer.err.startswith("census: Sync Frame\n"), f"a fourth author: {answer}")
        for text in ("at most 3 authors", "a greater --authors"):
            expect(text in answer.err, f"a fourth author is not told {text}: {answer.err!r}")
        hub.await_line(hub.faults, r"census: \S+ peer \S+ Authors 4 3")
        with hub.connect() as peer:
            greet(peer)
            peer.sendall(notes([4, 5]) + frame(END))
            same("two further authors", read_frame(peer), (REFUSAL, struct.pack(">I", 3)))
        hub.await_line(hub.faults, r"census: \S+ peer \S+ Authors 5 3")
        with hub.connect() as peer:
            greet(peer)
            peer.sendall(notes([4]))
        hub.await_line(hub.faults, r"  what came could not be saved either \(Authors 4 3\); .*")
        same("the table of a hub that refused", done("show", "hub"), kept)
        done("note", "anna", "late", "t")
        done("sync", "anna", hub.address)
        expect("note late 1.2 t\n" in done("show", "hub"), "a known author is refused")
    same("the authors of a hub that refused", authors_of("hub"), [1, 2, 9])
    # What the table has by itself is no session's fault.
    with Hub("hub", "--authors", "1") as hub:
        done("note", "anna", "later", "t")
        done("sync", "anna", hub.address)
        answer = run("sync", "ben", hub.address)
        same("an author beyond those that are too many", answer, (1, "", "census: Sync Frame\n"))
        hub.await_line(hub.faults, r"census: \S+ peer \S+ Authors 4 1")


def many_by_default():
    """A hub has a thousand authors unless it is told otherwise."""
    state_of("hub", 9, [])
    state_of("fits", 1, range(1, 1001))
    state_of("over", 1, range(1000, 1002))
    with Hub("hub") as hub:
        done("sync", "fits", hub.address)
        same("author 1,001", run("sync", "over", hub.address)[:1], (1,))
        hub.await_line(hub.faults, r"census: \S+ peer \S+ Authors 1001 1000")
    same("the authors of a hub", authors_of("hub"), list(range(1, 1001)))


def one_session_of_few():
    """`sync` and `serve` take no session by more authors than they may; the other side of a `serve` is told."""
    state_of("many", 1, range(1, 6))
    state_of("few", 9, [9])
    kept = read("few")
    port = free_port()
    with start("serve", "many", f"127.0.0.1:{port}") as server:
        answer = run("sync", "few", f"127.0.0.1:{port}", "--authors", "5", env=ASKING)
        expect(answer.status == 1 and answer.err.startswith("census: Authors 6 5\n  "), f"sync by six authors: {answer}")
        expect("--authors" in answer.err, f"what is said of six authors: {answer.err!r}")
        server.wait()
    same("a state after a refused sync", read("few"), kept)
    port = free_port()
    with start("serve", "few", f"127.0.0.1:{port}", "--authors", "5") as server:
        answer = run("sync", "many", f"127.0.0.1:{port}", env=ASKING)
        expect(answer.status == 1 and answer.err.startswith("census: Sync Frame\n"), f"a sync that is refused: {answer}")
        expect("at most 5 authors" in answer.err, f"a sync that is refused is told {answer.err!r}")
        same("a serve that refuses", (server.communicate()[1], server.returncode), (b"census: Authors 6 5\n", 1))
    same("a state after a refusing serve", read("few"), kept)
    port = free_port()
    with start("serve", "few", f"127.0.0.1:{port}", "--authors", "6") as server:
        same("six of six authors", run("sync", "many", f"127.0.0.1:{port}"), (0, "done\n", ""))
        server.wait()
    same("the authors after it", authors_of("few"), [1, 2, 3, 4, 5, 9])


def cut_clock():
    """Where the clock of a hub is cut, its line says so."""
    state_of("hub", 9, range(1, LIMIT + 5))
    state_of("anna", 1, [1])
    with Hub("hub") as hub:
        same("65,540 authors", run("sync", "anna", hub.address)[::2], (1, f"census: Authors {LIMIT + 4} 60000\n"))
        done("sync", "anna", hub.address, "--authors", "70000")
        hub.await_line(hub.served, rf"\S+ peer \S+ new 0 operations {LIMIT + 4} digest \w+; clock cut by 4 authors")
    state_of("hub", 9, range(1, LIMIT + 1))
    with Hub("hub") as hub:
        done("sync", "hub", hub.address)
        hub.await_line(hub.served, rf"\S+ peer \S+ new 0 operations {LIMIT} digest \w+")


# ---- bytes


def too_long():
    """`sync` and `serve` end a session in which more comes than they take; what came before stays."""
    state_of("anna", 1, [1])
    with serving(without_end()) as address:
        answer = run("sync", "anna", address, "--most", "100000", env=ASKING)
        expect(answer.status == 3 and answer.err.startswith("census: TooLong\n"), f"a delta without end: {answer}")
        for text in ("sent over 100000 bytes", "--most", "what came before is saved"):
            expect(text in answer.err, f"of a delta without end is not said {text}: {answer.err!r}")
    count = done("show", "anna").count("note n 7.")
    expect(NOTES <= count <= 100_000 // 14, f"{count} notes of a delta without end are kept")
    with serving(without_end()) as address:
        same("a frame that is too long", run("sync", "anna", address, "--most", "1")[::2], (3, "census: TooLong\n"))
    state_of("ben", 2, [2])
    port = free_port()
    with start("serve", "ben", f"127.0.0.1:{port}", "--most", "100000") as server:
        with connect(port, server) as peer:
            greet(peer)
            peer.sendall(notes(range(10, 13)))
            with contextlib.suppress(OSError):
                peer.sendall(notes(range(20, 20 + NOTES)) * 10)
                peer.shutdown(socket.SHUT_WR)
        same("a serve of which too much is asked", (server.communicate()[1], server.returncode), (b"census: TooLong\n", 3))
    expect(authors_of("ben")[:4] == [2, 10, 11, 12], "what came before it was too much is lost")
    state_of("long", 3, range(1, 5_000))
    port = free_port()
    with start("serve", "ben", f"127.0.0.1:{port}", "--most", "10000") as server:
        answer = run("sync", "long", f"127.0.0.1:{port}", env=ASKING)
        expect(answer.status in (1, 3) and answer.err.startswith("census: Sync "), f"a sync that says too much: {answer}")
        expect("as its --most says" in answer.err, f"a sync that says too much is told {answer.err!r}")
        server.wait()


def over_streams():
    """So it is over standard input and output."""
    state_of("anna", 1, [1])
    kept = read("anna")
    content = frame(CLOCK, EMPTY_CLOCK) + notes(range(10, 20)) + frame(END) + frame(END)
    for words, line, status in (
        (["--authors", "10"], b"census: Authors 11 10\n", 1),
        (["--most", "40"], b"census: TooLong\n", 3),
    ):
        answer = run("sync", "--stdio", "anna", *words, given=content, text=False)
        same(f"sync --stdio {words}", (answer.status, answer.err), (status, line))
        same(f"the state after sync --stdio {words}", read("anna"), kept)
    content = frame(CLOCK, EMPTY_CLOCK) + notes(range(10, 20)) + frame(END)
    answer = run("serve", "--stdio", "anna", "--authors", "10", given=content, text=False)
    same("serve --stdio", (answer.status, answer.err), (1, b"census: Authors 11 10\n"))
    expect(answer.out.endswith(frame(END) + frame(REFUSAL, struct.pack(">I", 10))), f"serve --stdio ends by {answer.out[-20:]!r}")
    same("the state after serve --stdio", read("anna"), kept)


def memory():
    """Where memory is refused, it is the system's, and not the other side's."""
    state_of("anna", 1, [1])
    limited = ("sh", "-c", 'ulimit -v 200000; exec "$@"', "")
    with serving(without_end(b"")) as address:
        answer = run("sync", "anna", address, "--most", "4294967295", env=ASKING, before=limited)
        expect(answer.status == 4 and answer.err.startswith("census: OutOfMemory\n"), f"a session beyond the memory: {answer}")
        expect("  the system gave no more memory\n" in answer.err, f"of a session beyond the memory is said {answer.err!r}")


def main():
    for case in (hub_of_few, many_by_default, one_session_of_few, cut_clock, too_long, over_streams, memory):
        with folder():
            case()
    finish("sessions by too many authors and with too many bytes are refused by a hub, serve and sync, and both sides say why")


main()
