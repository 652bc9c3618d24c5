#!/usr/bin/env python3
"""Two tables that hold other operations under one number are told so after a session: with a hub, with `serve`, and over standard
input and output; and `sync --all` brings them together. A fork that comes in is named. What a server says behind its last frame is
the digest of its state, and nothing where another session changed that meanwhile; a peer need not read it. A hub that takes fewer
bytes than a member would send says so. The connections are on the loopback, on a free port.
"""

import os
import shutil
import struct
import subprocess
import time

from lib import ASKING, CLOCK, DELTA, EMPTY_CLOCK, END, PROGRAM, QUIET
from lib import Hub, delta, done, expect, finish, folder, frame, free_port, need, note, read, run, same, start

CLOSING = 4  # the tag of the frame behind the last one
APART = (1, "done\n", "census: Apart\n")
TOGETHER = (0, "done\n", "")


def copied():
    """A state, a copy of it, and a note in each under the same number."""
    done("init", "ben", "2")
    done("note", "ben", "kayles", "octal code 0.77")
    shutil.copy("ben", "dora")
    done("note", "ben", "said", "by ben")
    done("note", "dora", "said", "by dora")


def digest(state):
    return done("digest", state)[:64]


def with_a_hub():
    """The second of two that use one number is told, and then the first; with everything they are together again."""
    copied()
    done("init", "hub", "9")
    with Hub("hub") as hub:
        same("the first", run("sync", "ben", hub.address), TOGETHER)
        same("the second", run("sync", "dora", hub.address), APART)
        need(digest("dora") != digest("hub"), "the two tables do not differ")
        same("all of the second", run("sync", "--all", "dora", hub.address), TOGETHER)
        hub.await_line(hub.served, r"\S+ peer \S+ new 1 operations 3 digest \S+; 1 by 2; fork 2\.2")
        same("the first again", run("sync", "ben", hub.address), APART)
        answer = run("sync", "ben", hub.address, env=ASKING)
        expect("census sync --all" in answer.err and "census renumber" in answer.err, f"advice: {answer.err}")
        same("quietly", run("sync", "--quiet", "ben", hub.address), (1, "", "census: Apart\n"))
        answer = run("sync", "--all", "ben", hub.address, env=ASKING)
        expect(answer.status == 0 and "warning: 2.2 is by your number" in answer.err, f"the fork is not named: {answer}")
    same("digests", {digest(state) for state in ("ben", "dora", "hub")}, {digest("hub")})


def with_serve():
    """The same with `serve`, which names the fork that came to it."""
    copied()
    done("init", "anna", "1")
    done("delta", "ben", "ben.delta")
    done("merge", "anna", "ben.delta")
    for words, wanted, said in ((), APART, ""), (("--all",), TOGETHER, "warning: fork 2.2: "):
        port = free_port()
        with start("serve", "anna", f"127.0.0.1:{port}", env=ASKING) as serving:
            answer = asked(port, serving, *words)
            serving.wait(60)
            told = serving.stderr.read().decode()
        same(f"sync {words} with serve", answer, wanted)
        same("the end of serve", serving.returncode, 0)
        expect(said in told, f"serve says {told!r}")


def asked(port, serving, *words):
    """What `sync` of dora answers, once the server listens."""
    for _ in range(400):
        answer = run("sync", *words, "dora", f"127.0.0.1:{port}")
        if answer.err != "census: Net\n" or serving.poll() is not None:
            break
        time.sleep(0.01)
    return answer


def over_streams():
    """The same over standard input and output."""
    copied()
    os.mkfifo("way")
    for words, status, told in ((), 1, "done\ncensus: Apart\n"), (("--all",), 0, "done\n"):
        line = '"$@" < way 2> synced | "$0" serve --stdio ben > way; exit "${PIPESTATUS[0]}"'
        ran = subprocess.run(
            ["bash", "-c", line, *PROGRAM, *PROGRAM, "sync", *words, "--stdio", "dora"], env=QUIET, timeout=60, check=False
        )
        same(f"sync {words} over streams", (ran.returncode, read("synced").decode()), (status, told))


def merged():
    """A delta that brings a fork names it where that is asked for."""
    copied()
    done("delta", "dora", "dora.delta")
    same("quietly", run("merge", "ben", "dora.delta"), (0, "new 1\n", ""))
    copied_again = run("merge", "ben", "dora.delta", env=ASKING)
    expect("fork" not in copied_again.err, f"an old fork is named: {copied_again.err}")
    done("init", "anna", "1")
    done("delta", "ben", "both.delta")
    answer = run("merge", "anna", "both.delta", env=ASKING)
    expect("warning: fork 2.2: " in answer.err, f"the fork is not named: {answer.err}")


def frames(peer):
    """The frames that come, until the connection ends."""
    content = b""
    while more := peer.recv(65536):
        content += more
    found = []
    while content:
        length = struct.unpack(">I", content[:4])[0]
        found.append((content[4], content[5 : 4 + length]))
        content = content[4 + length :]
    return found


def greeted(hub):
    """A peer that has sent its clock, which covers nothing, and read the answer to its end."""
    peer = hub.connect(frame(CLOCK, EMPTY_CLOCK))
    content = b""
    while not content.endswith(frame(END)):
        content += peer.recv(65536)
    return peer


def behind_the_end():
    """What stands behind the last frame."""
    done("init", "hub", "9")
    done("note", "hub", "n", "t")
    with Hub("hub") as hub:
        peer = greeted(hub)
        peer.sendall(frame(DELTA, delta(note(7, 1, b"n", b"t"))) + frame(END))
        same("behind the end", frames(peer), [(END, b""), (CLOSING, digest("hub").encode())])
        # Another session changes the state between the answer and the end.
        peer, other = greeted(hub), greeted(hub)
        other.sendall(frame(DELTA, delta(note(7, 2, b"n", b"t"))) + frame(END))
        same("of the other", [tag for tag, _ in frames(other)], [END, CLOSING])
        peer.sendall(frame(DELTA, delta(note(7, 3, b"n", b"t"))) + frame(END))
        same("behind the end of a session that another one crossed", frames(peer), [(END, b"")])
        # A peer that goes with the last frame was served well.
        peer = greeted(hub)
        peer.sendall(frame(END))
        need(peer.recv(5) == frame(END), "no end came")
        peer.close()
        hub.await_line(hub.served, r"\S+ peer \S+ new 0 operations 4 digest .*")
        same("faults", read(hub.faults), b"")


def too_much():
    """A member that would send more than a hub takes is told so, also where it has sent all before it is told."""
    done("init", "hub", "9")
    done("init", "anna", "1")
    for number in range(1, 40):
        done("note", "anna", f"n{number}", "x" * 200)
    with Hub("hub", "--most", "3000") as hub:
        answer = run("sync", "anna", hub.address, env=ASKING)
        expect(answer.status in (1, 3) and answer.err.startswith("census: Sync "), f"a session of too much: {answer}")
        expect("--most" in answer.err and "census delta STATE OUT" in answer.err, f"it is not said why: {answer.err}")
        hub.await_line(hub.faults, r"census: \S+ peer \S+ TooLong")


for each in with_a_hub, with_serve, over_streams, merged, behind_the_end, too_much:
    with folder():
        each()
finish("apart: two tables that differ after a session are told so, and a fork is named")
