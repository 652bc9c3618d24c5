#!/usr/bin/env python3
"""What one peer of a hub may not spoil for the others: a session that stays open while the hub's state is renumbered, sessions
whose operations can't be saved, an output that nobody reads, a session by more authors than a line may name, and silent peers in
all places; nor what many may cost it who ask for all of a great table. What is said of a session that failed is so. The connections are on the loopback, on a free port.
"""

import fcntl
import os
import re
import struct
import subprocess
import time

from lib import ASKING, CLOCK, DELTA, EMPTY_CLOCK, END, PROGRAM, QUIET
from lib import Hub, connect, delta, done, expect, finish, folder, frame, free_port, need, note, read, run, same, start, write

MEGABYTE = 1 << 20
NOTES = 4_000  # in one frame
FRAMES = 5  # in one session that can't be saved
SESSIONS = 5  # of these


def receive(peer, count):
    """The next bytes, so many; fewer where the connection ends."""
    content = b""
    while len(content) < count and (more := peer.recv(count - len(content))):
        content += more
    return content


def read_to_end(peer):
    """Reads all frames until an end frame; whether it came."""
    while length := receive(peer, 4):
        if receive(peer, struct.unpack(">I", length)[0])[0] == END:
            return True
    return False


def greeted(hub):
    """A peer whose clock, which covers nothing, was answered."""
    peer = hub.connect(frame(CLOCK, EMPTY_CLOCK))
    need(read_to_end(peer), "a clock is not answered")
    return peer


def states(**authors):
    for name, author in authors.items():
        done("init", name, str(author))
        done("note", name, "own", f"of {name}")


def renumbered():
    """A session is open, and has brought something, when the hub's state is renumbered."""
    states(hub=9, anna=1, ben=2)
    with Hub("hub") as hub:
        peer = greeted(hub)
        peer.sendall(frame(DELTA, delta(note(7, 1, b"open", b"t"))))
        time.sleep(0.3)
        done("renumber", "hub", "19")
        for name in ("anna", "ben", "anna"):
            answer = run("sync", name, hub.address)
            expect(answer == (0, "done\n", ""), f"sync of {name} after a renumber: {answer}")
        peer.sendall(frame(END))
        expect(read_to_end(peer), "a session that was open over a renumber is not done")
    shown = done("show", "hub")
    for line in ("note open 7.1 t", "note own 1.1 of anna", "note own 2.1 of ben", "note own 9.1 of hub"):
        expect(line + "\n" in shown, f"after a renumber there is no line {line}")
    expect(done("note", "hub", "n", "t") == "issued 19.1\n", "the state of the hub is not renumbered any more")


def memory(process, which="RSS"):
    """How many bytes a process has in memory, or has had (`HWM`)."""
    with open(f"/proc/{process.pid}/status", encoding="ascii") as file:
        return 1024 * int(re.search(rf"Vm{which}:\s+(\d+)", file.read())[1])


def unsaved():
    """Where nothing can be saved, each session that brings something is refused, and the others are served; memory stays."""
    states(hub=9, anna=1, ben=2)
    with Hub("hub") as hub:
        for name in ("anna", "ben", "anna"):
            done("sync", name, hub.address)
        kept = done("show", "hub")
        done("note", "anna", "late", "t")
        os.makedirs("hub.new/full")
        taken = []
        for author in range(100, 100 + SESSIONS):
            peer = greeted(hub)
            for part in range(FRAMES):
                notes = (note(author, part * NOTES + at, b"n", b"x" * 200) for at in range(1, NOTES + 1))
                peer.sendall(frame(DELTA, delta(*notes)))
            peer.sendall(frame(END))
            expect(not read_to_end(peer), "what could not be saved is said to be done")
            taken.append(memory(hub.runs))
        answer = run("sync", "anna", hub.address)
        expect(answer == (3, "", "census: Sync Cut\n"), f"what could not be saved: {answer}")
        answer = run("sync", "ben", hub.address)
        expect(answer == (0, "done\n", ""), f"a member with nothing new: {answer}")
        expect(taken[-1] - taken[0] < 8 * MEGABYTE, f"what could not be saved takes {taken} bytes")
        expect(done("show", "hub") == kept, "the state has changed")
        os.removedirs("hub.new/full")
        done("sync", "anna", hub.address)
        hub.await_line(hub.served, r"\S+ peer \S+ new 1 operations 4 digest .*; 1 by 1")
        done("sync", "ben", hub.address)
        expect("note late 1.2 t\n" in done("show", "ben"), "what came once it could be saved is lost")


def said_of_what_came():
    """Where what came before a fault is not saved, that is said."""
    states(hub=9, anna=1)
    with Hub("hub") as hub:
        os.makedirs("hub.new/full")
        peer = greeted(hub)
        peer.sendall(frame(DELTA, delta(note(7, 1, b"n", b"t"))))
        peer.close()
        hub.await_line(hub.faults, r"census: \S+ peer \S+ Sync Cut")
        hub.await_line(hub.faults, r"  what came could not be saved either \(Occupied\); .*")
        os.removedirs("hub.new/full")
        peer = greeted(hub)
        peer.sendall(frame(DELTA, delta(note(7, 1, b"n", b"t"))))
        peer.close()
        hub.await_line(hub.faults, r"  what came is saved; .*")
    expect("note n 7.1 t\n" in done("show", "hub"), "what is said to be saved is not")
    os.makedirs("anna.new/full")
    port = free_port()
    serving = start("serve", "anna", f"127.0.0.1:{port}", "--explain")
    with connect(port, serving) as peer:
        peer.sendall(frame(CLOCK, EMPTY_CLOCK) + frame(DELTA, delta(note(7, 1, b"n", b"t"))))
    _, err = serving.communicate(timeout=20)
    expect(b"what came could not be saved either (Occupied)" in err, f"serve said {err!r}")


def unread():
    """A hub whose output nobody reads, and one whose output is closed, go on; how many lines were dropped is said."""
    states(hub=9, anna=1)
    for is_closed in (False, True):
        reader, writer = os.pipe()
        fcntl.fcntl(writer, fcntl.F_SETPIPE_SZ, 4096)
        words = [*PROGRAM, "hub", "hub", "127.0.0.1:0"]
        with subprocess.Popen(words, stdin=subprocess.DEVNULL, stdout=writer, stderr=subprocess.DEVNULL, env=QUIET) as hub:
            os.close(writer)
            address = os.read(reader, 4096).decode().split()[-1]
            if is_closed:
                os.close(reader)
            try:
                for turn in range(60):
                    if run("sync", "anna", address, seconds=5).status:
                        expect(False, f"the exchange {turn} of a hub whose output is not read failed")
                        break
            except subprocess.TimeoutExpired:
                expect(False, f"the exchange {turn} of a hub whose output is not read does not end")
            if not is_closed:
                lines = os.read(reader, 8192).decode().splitlines()
                expect(0 < len(lines) < 60, f"an output of 4,096 bytes took {len(lines)} lines")
                done("sync", "anna", address, seconds=5)
                told = os.read(reader, 8192).decode().splitlines()
                dropped = f"lines dropped {60 - len(lines)}"
                expect(len(told) == 2 and told[0].endswith(dropped), f"after {dropped} is said {told}")
                os.close(reader)
            hub.kill()


def long_lines():
    """A session by many authors has a line that is no longer than others may be."""
    states(hub=9)
    with Hub("hub", "--authors", "5000") as hub:
        peer = greeted(hub)
        peer.sendall(frame(DELTA, delta(*(note(author, 1, b"n", b"") for author in range(100_000, 103_000)))) + frame(END))
        expect(read_to_end(peer), "a session by many authors is not done")
        hub.await_line(hub.served, r"\S+ peer \S+ new 3000 operations 3001 digest .*")
        line = read(hub.served).splitlines()[-1].decode()
        shares, count = re.fullmatch(r"[^;]*;((?: 1 by \d+,)+) and (\d+) authors", line).groups() if len(line) < 9000 else ("", 0)
        expect(len(line) <= 4000, f"a line has {len(line)} bytes")
        expect(shares.count("by") + int(count) == 3000, f"a line says {shares.count('by')} authors and {count} more")


def silent():
    """Silent peers in all places: the one that was silent longest gives way after ten seconds."""
    states(hub=9, anna=1)
    with Hub("hub", "--sessions", "3", "--patience", "60") as hub:
        peers = [hub.connect() for _ in range(3)]
        time.sleep(0.2)
        peers[0].sendall(frame(CLOCK, EMPTY_CLOCK)[:3])
        before = time.monotonic()
        try:
            answer = run("sync", "anna", hub.address, seconds=14)
            expect(answer == (0, "done\n", ""), f"beside silent peers: {answer}")
        except subprocess.TimeoutExpired:
            expect(False, "an exchange beside silent peers does not end")
        took = time.monotonic() - before
        expect(took > 8, f"a silent peer gave way after {took:.1f} seconds")
        peers[0].settimeout(0.1)
        try:
            expect(peers[0].recv(1) != b"", "the peer that was not silent longest gave way")
        except TimeoutError:
            pass


def stamp(path):
    """Which file it is, and when it was last written."""
    there = os.stat(path)
    return there.st_ino, there.st_mtime_ns, there.st_size


def great():
    """64 peers ask for all of a great table and read nothing, and an honest one comes by: there is no copy of the table for a peer,
    and none for its text, as it is saved. A session that brings a member nothing leaves its file as it is."""
    values = struct.pack(">IH", 0, 1024) + bytes(4096)
    blocks = [struct.pack(">IIB", 9, number, 1) + b"\0\1\3" + values for number in range(1, 5001)]
    for name, author in (("hub", 9), ("anna", 1)):
        write(name, b"OGS1" + struct.pack(">I", author) + delta(*blocks, edition=1))
    size = os.path.getsize("hub")
    done("note", "anna", "n", "t")
    before = stamp("anna")
    with Hub("hub", "--patience", "60") as hub:
        deaf = [hub.connect(frame(CLOCK, EMPTY_CLOCK)) for _ in range(60)]
        hub.await_line(hub.served, r"listening on .*")
        with open(f"/proc/{hub.runs.pid}/clear_refs", "w", encoding="ascii") as file:
            file.write("5")  # forgets what it had
        done("sync", "anna", hub.address)
        most = memory(hub.runs, "HWM")
        expect(most < 1.2 * size + (len(deaf) + 8) * MEGABYTE, f"a hub over {size} bytes with {len(deaf)} deaf peers has {most} in memory")
        for peer in deaf:
            peer.close()
    same("the file of a member that is brought nothing", stamp("anna"), before)
    expect("note n 1.1 t\n" in done("show", "hub"), "the note of an honest peer beside deaf ones is lost")


def main():
    for case in (renumbered, unsaved, said_of_what_came, unread, long_lines, silent, great):
        with folder():
            case()
    finish("sessions that stay, can't be saved, are silent, deaf or by many, and an output that nobody reads: none stops others")


main()
