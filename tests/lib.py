"""What the tests share that are Python scripts: the program and what it answers, a folder, peers, the bytes of deltas and frames,
and the rule of the games.

The words of a script are the program to try, and words that it is given before all others; where there are none, it is the one
that dist/program names. The first word of a script may be --long, which is for those that have a short form and a long one.
"""

import contextlib
import operator
import os
import pathlib
import pty
import re
import select
import shutil
import socket
import struct
import subprocess
import sys
import tempfile
import time
import typing

TOP = pathlib.Path(__file__).resolve().parent.parent
TESTS = TOP / "tests"
NAME = pathlib.Path(sys.argv[0]).stem
LONG = sys.argv[1:2] == ["--long"]

# The octal codes of three digits.
THREE_DIGITS = [f"0.{a}{b}{c}" for a in range(8) for b in range(8) for c in range(1, 8)]

# The environment with nothing in it that asks for advice, and one that asks for it.
QUIET = {name: value for name, value in os.environ.items() if name != "CENSUS_EXPLAIN"}
ASKING = dict(QUIET, CENSUS_EXPLAIN="1")


def program(words):
    """The program that these words name."""
    if not words:
        ready = subprocess.run([TOP / "dist" / "program", "--ready"], stdout=subprocess.PIPE, text=True, check=False)
        if ready.returncode:
            sys.exit(1)  # it has said why
        words = [ready.stdout.rstrip("\n")]
    return [os.path.abspath(shutil.which(words[0]) or words[0]), *words[1:]]


PROGRAM = program(sys.argv[1 + LONG :])


# ---- what is looked at

failures = []


def fail(what):
    """Ends the script."""
    sys.exit(f"{NAME}: {what}")


def need(right, what):
    """Ends the script where this is not right."""
    if not right:
        fail(what)


def same(what, found, due):
    """Ends the script where what was found is not what is due."""
    if found != due:
        fail(f"{what}: {found!r}, and not {due!r}")


def expect(right, what):
    """Says where something is not right, and goes on: `finish` fails then."""
    if not right:
        failures.append(what)
        print(f"{NAME}: {what}", file=sys.stderr)


def finish(text):
    """The end of a script: it fails where something was not right, and else prints the text."""
    need(not failures, f"{len(failures)} failed")
    print(text)


# ---- files


def read(path):
    """The bytes of a file."""
    with open(path, "rb") as file:
        return file.read()


def write(path, first, rest=()):
    """Makes a file of these bytes, and of the rest, piece by piece."""
    with open(path, "wb") as file:
        file.write(first)
        file.writelines(rest)


@contextlib.contextmanager
def folder():
    """An empty folder to work in, which goes at the end of the block."""
    before = os.getcwd()
    with tempfile.TemporaryDirectory() as room:
        os.chdir(room)
        try:
            yield
        finally:
            os.chdir(before)


# ---- the program


class Answer(typing.NamedTuple):
    """The exit status of a command, and what it printed to each stream."""

    status: int
    out: str | bytes
    err: str | bytes


def run(*words, before=(), given=None, stdin=subprocess.DEVNULL, env=QUIET, seconds=60, text=True, **more):
    """What a command answers, with no terminal. Given bytes are its standard input, and some words may stand before the program."""
    source = {"stdin": stdin} if given is None else {"input": given}
    ran = subprocess.run(
        [*before, *PROGRAM, *words], capture_output=True, env=env, timeout=seconds, check=False, **source, **more
    )
    streams = ran.stdout, ran.stderr
    return Answer(ran.returncode, *(stream.decode() if text else stream for stream in streams))


def done(*words, **more):
    """What a command printed that is done, and says nothing else."""
    answer = run(*words, **more)
    need(answer.status == 0 and not answer.err, f"{' '.join(words)}: status {answer.status}, {answer.err!r}")
    return answer.out


def refused(status, fault, *words, **more):
    """A command that is refused: by this exit status and the line of this fault alone."""
    same(" ".join(words), run(*words, **more), (status, "", f"census: {fault}\n"))


def watched(*words, given=b""):
    """What a command answers where its standard error is a terminal."""
    master, slave = pty.openpty()
    pipes = {"stdin": subprocess.PIPE, "stdout": subprocess.PIPE, "stderr": slave}
    with subprocess.Popen([*PROGRAM, *words], env=QUIET, **pipes) as running:
        os.close(slave)
        running.stdin.write(given)
        running.stdin.close()
        said = read_terminal(master)
        printed = running.stdout.read()
    # What shows how far a command is takes its line away again.
    return Answer(running.returncode, printed.decode(), re.sub(r"\r[^\r\n]*\x1b\[K", "", said.replace("\r\n", "\n")))


def read_terminal(master):
    """What is said on a terminal until its other end is closed."""
    said = b""
    with open(master, "rb", buffering=0) as terminal:
        while select.select([terminal], [], [], 60)[0]:
            try:
                said += terminal.read(65536)
            except OSError:  # the other end is closed
                break
    return said.decode()


def start(*words, **more):
    """A command that runs in the background, with pipes for both streams where nothing else is said."""
    streams = {"stdin": subprocess.DEVNULL, "stdout": subprocess.PIPE, "stderr": subprocess.PIPE, "env": QUIET}
    return subprocess.Popen([*PROGRAM, *words], **{**streams, **more})


# ---- peers


def free_port():
    """A port of the loopback on which nobody listens."""
    with socket.create_server(("127.0.0.1", 0)) as listener:
        return listener.getsockname()[1]


def connect(port, running):
    """A connection to a server that runs, and may not listen yet."""
    while running.poll() is None:
        try:
            return socket.create_connection(("127.0.0.1", port), timeout=60)
        except ConnectionRefusedError:
            time.sleep(0.005)
    return fail("the server ended before anyone came")


class Hub:
    """A hub on a state, with more words, which ends with the block. What it says is in the files `served` and `faults`."""

    def __init__(self, state, *words, before=()):
        self.state, self.before = state, before
        self.words = ["hub", state, "127.0.0.1:0", *words]
        self.served, self.faults = f"{state}.served", f"{state}.faults"

    def __enter__(self):
        with open(self.served, "wb") as served, open(self.faults, "wb") as faults:
            words = [*self.before, *PROGRAM, *self.words]
            self.runs = subprocess.Popen(words, stdin=subprocess.DEVNULL, stdout=served, stderr=faults, env=QUIET)
        self.address = self.await_line(self.served, r"listening on (.*)")[1]
        host, _, port = self.address.rpartition(":")
        self.at = host, int(port)
        return self

    def __exit__(self, *_):
        self.runs.kill()
        self.runs.wait()

    def await_line(self, path, form, count=1):
        """The line of this form in the file, once there are so many of them."""
        end = time.monotonic() + 20
        while time.monotonic() < end:
            ended = self.runs.poll() is not None
            with open(path, encoding="ascii") as file:
                found = [line for line in map(re.compile(form).fullmatch, file.read().splitlines()) if line]
            if len(found) >= count:
                return found[-1]
            need(not ended, f"the hub of {self.state} ended")
            time.sleep(0.01)
        return fail(f"no line {form} came from the hub of {self.state}")

    def connect(self, content=b"", window=None):
        """A peer that sends these bytes, and has room for no more than a window of what comes."""
        peer = socket.socket()
        if window:
            peer.setsockopt(socket.SOL_SOCKET, socket.SO_RCVBUF, window)
        peer.settimeout(20)
        peer.connect(self.at)
        peer.sendall(content)
        return peer


# ---- bytes, as docs/FORMATS.md has them

CLOCK, DELTA, END = 1, 2, 3  # the tags of frames
EMPTY_CLOCK = bytes(4)  # one that covers nothing


def frame(tag, payload=b""):
    """A frame of a session."""
    return struct.pack(">IB", 1 + len(payload), tag) + payload


def delta(*operations, count=None, edition=2):
    """A delta of these operations, or the beginning of one that says it has so many."""
    count = len(operations) if count is None else count
    return b"OGD%d" % edition + struct.pack(">I", count) + b"".join(operations)


def note(author, number, name, text=b""):
    """The operation that says a note."""
    return struct.pack(">IIB", author, number, 3) + bytes([len(name)]) + name + bytes([len(text)]) + text


# ---- the games


def nim_values(code, count):
    """The nim-values of the heaps below count, by the rule of the games: the bits 1, 2 and 4 of a digit allow to leave no heap,
    one heap and two heaps, where as many beans are removed as the digit's place says."""
    head, digits = code.split(".")
    rules = [int(digit) for digit in head + digits]
    values = [0]
    for heap in range(1, count):
        options = set()
        for removed, rule in enumerate(rules[: heap + 1]):
            rest = heap - removed
            if removed and (rule & 2 if rest else rule & 1):
                options.add(values[rest])
            if rule & 4:
                options.update(map(operator.xor, values[1 : rest // 2 + 1], values[rest - 1 : 0 : -1]))
        values.append(next(value for value in range(len(options) + 1) if value not in options))
    return values
