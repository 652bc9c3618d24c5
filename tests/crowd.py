#!/usr/bin/env python3
"""Many peers of one hub at once, and says how long the slowest honest one took: ten that exchange beside twenty that are silent and
one that sends a byte each second; more connections than sessions; a peer that sends more than it may; one that reads nothing while
the hub has much to send; two that bring operations at the same time; and a state that can't be saved, where no peer is told that
its exchange is done. It takes never more than a minute. The connections are on the loopback, on a free port.
"""

import contextlib
import os
import re
import signal
import socket
import struct
import threading
import time

from lib import CLOCK, DELTA, EMPTY_CLOCK, END, Hub, delta, done, folder, frame, need, note, read, refused, write

CLOSING = 4  # the tag of the frame that may stand behind the last one
SECONDS = 55
SOON = 3  # seconds that an honest exchange may take, also on a busy machine


class Crowded(Hub):
    """A hub on a state of author 100, which is new where there is none."""

    def __init__(self, state, *words, files=256):
        if not os.path.exists(state):
            done("init", state, "100")
        super().__init__(state, *words, before=("sh", "-c", f'ulimit -n {files}; exec "$@"', ""))

    def await_peer(self, peer, form):
        """The line of the peer's session."""
        return self.await_line(self.served, rf"\S+ peer {re.escape('%s:%d' % peer.getsockname())} {form} digest .*")

    def await_fault(self, peer, fault):
        """The line of the fault that ended the peer's session."""
        return self.await_line(self.faults, rf"census: \S+ peer {re.escape('%s:%d' % peer.getsockname())} {fault}")

    def sync(self, state):
        """How long an exchange took, which has to end soon."""
        before = time.monotonic()
        need(done("sync", state, self.address) == "done\n", f"the exchange of {state} was not done")
        took = time.monotonic() - before
        need(took < SOON, f"the exchange of {state} took {took:.2f} seconds")
        return took


def receive(peer, count):
    """The next bytes, so many; fewer where the connection ends."""
    content = b""
    while len(content) < count and (more := peer.recv(count - len(content))):
        content += more
    return content


def read_frame(peer):
    """The tag and the payload of the next frame; none at the end."""
    length = receive(peer, 4)
    if not length:
        return None
    content = receive(peer, struct.unpack(">I", length)[0])
    return content[0], content[1:]


def read_to_end(peer):
    """All frames until an end frame, with it."""
    frames = [read_frame(peer)]
    while frames[-1] and frames[-1][0] != END:
        frames.append(read_frame(peer))
    return frames


def at_once(tasks):
    """What the tasks give, each done in a thread of its own."""
    results = [None] * len(tasks)

    def do(at):
        results[at] = tasks[at]()

    threads = [threading.Thread(target=do, args=[at]) for at in range(len(tasks))]
    for thread in threads:
        thread.start()
    for thread in threads:
        thread.join()
    need(all(result is not None for result in results), "a task failed")
    return results


def drip(peer, stop):
    """Sends a byte of a clock frame each second."""
    for byte in frame(CLOCK, bytes(4 + 8 * 100)):
        if stop.wait(1):
            return
        peer.sendall(bytes([byte]))


def crowd():
    """Ten honest peers beside twenty silent ones and a slow one, all at once and then one after another."""
    people = [f"person{who}" for who in range(1, 11)]
    for who, state in enumerate(people, 1):
        done("init", state, str(who))
        done("note", state, "own", f"of {who}")
    with Crowded("crowd", "--patience", "30") as hub:
        silent = [hub.connect() for _ in range(20)]
        slow, stop = hub.connect(), threading.Event()
        dripping = threading.Thread(target=drip, args=[slow, stop])
        dripping.start()
        took = at_once([lambda state=state: hub.sync(state) for state in people])
        took += [hub.sync(state) for state in people]
        stop.set()
        dripping.join()
        for peer in [*silent, slow]:
            peer.close()
        hub.await_line(hub.faults, r"census: \S+ peer \S+ Sync Cut", 21)
        catalogue = done("show", "crowd")
    for who in range(1, 11):
        need(f"note own {who}.1 of {who}\n" in catalogue, f"the note of {who} is not there")
        need(done("show", people[who - 1]) == catalogue, f"{people[who - 1]} has another catalogue than the hub")
    return max(took)


def patience():
    """Silent peers end by themselves, each after its own time, and so does a session that is too long."""
    with Crowded("patient", "--patience", "1", "--longest", "2") as hub:
        began = time.monotonic()
        silent, lasting = hub.connect(), hub.connect()
        with contextlib.suppress(OSError):  # the hub closes the connection at some byte
            for byte in frame(CLOCK, EMPTY_CLOCK):
                lasting.sendall(bytes([byte]))
                time.sleep(0.4)
        hub.await_fault(silent, "Sync Read")
        need(time.monotonic() - began < 5, "a silent peer had too much time")
        hub.await_fault(lasting, "Sync Read")
        need(1.9 < time.monotonic() - began < 6, "a session did not end at its longest time")


def full():
    """More connections than sessions: those that are too many wait until one of the others has ended."""
    with Crowded("full", "--sessions", "2", "--patience", "30") as hub:
        first, second = hub.connect(), hub.connect()
        ended = []
        waiting = threading.Thread(target=lambda: ended.append(done("sync", "person1", hub.address)))
        waiting.start()
        time.sleep(0.5)
        need(not ended, "there were more sessions than two")
        first.close()
        waiting.join(SOON)
        need(ended == ["done\n"], "a connection that waited was not served")
        second.close()


def exhausted():
    """Where the system gives the hub no more connections, they wait, and are taken once others have ended."""
    with Crowded("exhausted", "--patience", "30", files=12) as hub:
        silent = [hub.connect() for _ in range(12)]
        ended = []
        waiting = threading.Thread(target=lambda: ended.append(done("sync", "person1", hub.address)))
        waiting.start()
        time.sleep(0.5)
        need(not ended and hub.runs.poll() is None, "there were more connections than files")
        for peer in silent:
            peer.close()
        waiting.join(SOON)
        need(ended == ["done\n"], "a connection that could not be taken at first was not served")


def too_much():
    """A peer that sends more than it may is cut off there; what it brought before is kept."""
    texts = [delta(note(70, number, b"many", b"x" * 200)) for number in range(1, 10)]
    with Crowded("bounded", "--most", "1000", "--patience", "30") as hub:
        peer = hub.connect(frame(CLOCK, EMPTY_CLOCK) + b"".join(frame(DELTA, text) for text in texts))
        hub.await_fault(peer, "TooLong")
        kept = done("show", "bounded")
        need("author 70 through 4 last 4\n" in kept, f"the frames within the bound are not there: {kept}")
        hub.sync("person2")


def deaf():
    """A peer that reads nothing while the hub has much to send, and all of it later."""
    count = 30000
    write("much", delta(*(note(8, number, b"many", b"x" * 200) for number in range(1, count + 1))))
    done("init", "deaf", "100")
    done("merge", "deaf", "much")
    done("init", "knows", "9")
    done("merge", "knows", "much")
    with Crowded("deaf", "--patience", "30") as hub:
        peers = [hub.connect(frame(CLOCK, EMPTY_CLOCK), 4096) for _ in range(3)]
        for peer in peers:
            need(peer.recv(1, socket.MSG_PEEK), "the hub did not begin to answer")
        took = max(hub.sync("knows") for _ in range(3))
        frames = read_to_end(peers[0])
        need(sum(struct.unpack(">I", content[4:8])[0] for tag, content in frames if tag == DELTA) == count, "not all was sent")
        peers[0].sendall(frame(END))
        need(read_frame(peers[0]) == (END, b""), "the session was not done")
        hub.await_peer(peers[0], f"new 0 operations {count}")
        peers[1].close()
        return took


def two_bring():
    """Two peers that bring operations while both sessions go on: the hub has both, and each has the other's after its next."""
    for who in (21, 22):
        done("init", f"brings{who}", str(who))
        done("note", f"brings{who}", "brought", f"by {who}")
        done("delta", f"brings{who}", f"delta{who}")
    with Crowded("both", "--patience", "30") as hub:
        peers = [hub.connect(frame(CLOCK, EMPTY_CLOCK)) for _ in range(2)]
        for peer in peers:
            need([tag for tag, _ in read_to_end(peer)] == [CLOCK, END], "the hub had something to send")
        for peer, who in zip(peers, (21, 22)):
            peer.sendall(frame(DELTA, read(f"delta{who}")))
        for peer in peers:
            peer.sendall(frame(END))
            need(read_frame(peer) == (END, b""), "the session was not done")
            behind = read_frame(peer)
            need(behind is None or behind[0] == CLOSING, "something came after the end")
        there = [int(hub.await_peer(peer, r"new 1 operations (\d+)").group(1)) for peer in peers]
        need(sorted(there) == [1, 2], f"{there} operations are there")
        for who in (21, 22):
            need(f"note brought {who}.1 by {who}\n" in done("show", "both"), f"what {who} brought is not in the file")
        for who in (21, 22):
            hub.sync(f"brings{who}")
            need(done("show", f"brings{who}") == done("show", "both"), f"{who} has not what the other brought")


def unsaved():
    """Where the state can't be saved no peer is told that its exchange is done, and once it can be, all is there."""
    done("init", "writer", "31")
    with Crowded("closed", "--patience", "30") as hub:
        hub.sync("writer")
        done("note", "writer", "late", "not saved at first")
        os.makedirs("closed.new/full")
        for turn in (1, 2):
            refused(3, "Sync Cut", "sync", "writer", hub.address)
            hub.await_line(hub.faults, r"census: \S+ peer \S+ Occupied", turn)
        need("late" not in done("show", "closed"), "the state was written")
        os.removedirs("closed.new/full")
        hub.sync("writer")
        need("note late 31.1 not saved at first\n" in done("show", "closed"), "the note is not in the file")
        hub.await_line(hub.served, r"\S+ peer \S+ new 1 operations 1 digest .*")


def main():
    slowest = max(crowd(), deaf())
    patience()
    full()
    exhausted()
    too_much()
    two_bring()
    unsaved()
    print(
        "one hub served ten peers beside twenty silent ones and a slow one, and said of each other what ended it;"
        f" the slowest exchange took {slowest:.2f} seconds"
    )


signal.alarm(SECONDS)
with folder():
    main()
