#!/usr/bin/env python3
"""Wrong inputs, and what the program says of them: the line of the fault alone where standard error is no terminal, and behind it
what was wrong and what to do with --explain, with CENSUS_EXPLAIN=1 and on a terminal. Connections are on the loopback, on free
ports.
"""

import os
import pty
import re
import socket
import threading

from lib import ASKING, TOP, done, expect, finish, folder, free_port, read, run, start, watched, write

SECONDS = 20
MOST = 300
FORM = '{"code":"0.77","start":0,"values":['

# Words of the command line; the line of the fault, behind `census: `; its exit status; and what must stand behind it.
CASES = [
    # Files that are not there, or are something else.
    ("show nofile", "File", 3, ["nofile: no such file", "census init --draw nofile"]),
    ("show folder", "File", 3, ["folder: it is a folder"]),
    ("show pipe", "File", 3, ["pipe", "no plain file"]),
    ("show loop", "File", 3, ["loop: too many links in a row"]),
    ("merge a.state nofile", "File", 3, ["nofile: no such file", "census delta STATE nofile"]),
    ("import a.state nofile", "File", 3, ["nofile: no such file"]),
    ("init folder/none/new 1", "File", 3, ["folder/none/new: the folder for it is not there"]),
    ("init a.state 1", "Exists", 3, ["a.state stands there already"]),
    ("delta a.state a.state", "Same", 3, ["a.state is the state file"]),
    ("sqlite a.state a.state", "Same", 3, ["a.state is the state file", "name another file"]),
    ("delta a.state b.txt", "Occupied", 3, ["b.txt holds something that is no delta", "--replace"]),
    ("delta a.state a.state.lock", "Occupied", 3, ["a.state.lock would be the lock"]),
    ("union b.txt a.delta", "Occupied", 3, ["b.txt is none of the files that are read", "--replace"]),
    # Files of another kind, or damaged.
    ("show a.delta", "Load Version", 1, ["a.delta is a delta, and no state", "census merge STATE a.delta"]),
    ("show b.txt", "Load Version", 1, ["b.txt is no state", "b-file", "census claim STATE CODE b.txt"]),
    ("show form.json", "Load Version", 1, ["form.json is no state", "JSON", "census import STATE form.json"]),
    ("show empty", "Load Version", 1, ["empty has no bytes"]),
    ("show hex", "Load Version", 1, ["hex is hexadecimal text", "census fold < hex"]),
    ("show cut.state", "Load Refused", 1, ["cut.state is cut off", "the operation that begins at byte 16"]),
    ("show bad.state", "Load Refused", 1, ["bad.state is damaged", "the operation that begins at byte 55"]),
    ("show nobody.state", "Load Refused", 1, ["nobody.state is damaged", "bytes 4 to 7", "author"]),
    ("merge a.state a.state", "Merge Version", 1, ["a.state is a state, and no delta", "census delta a.state a.delta"]),
    ("merge a.state b.txt", "Merge Version", 1, ["b.txt is no delta", "census claim STATE CODE b.txt"]),
    ("merge a.state cut.delta", "Merge Refused", 1, ["cut.delta is cut off", "byte 8"]),
    ("digest bad.delta", "Merge Refused", 1, ["bad.delta is damaged", "the operation that begins at byte 47"]),
    ("union new.delta a.delta a.state", "Union 2 Version", 1, ["a.state is a state, and no delta"]),
    ("log a.state bad.delta", "Merge Refused", 1, ["bad.delta is damaged", "the operation that begins at byte 47"]),
    ("diff a.state cut.state", "Load Refused", 1, ["cut.state is cut off", "the operation that begins at byte 16"]),
    ("diff b.txt cut.state", "Merge Version", 1, ["b.txt is no"]),
    # Saved searches.
    ("show a.search", "Load Version", 1, ["a.search is a saved search, and no state"]),
    ("merge a.state a.search", "Merge Version", 1, ["a.search is a saved search, and no delta"]),
    ("search 70000 0.16 --window --save a.state", "Saved Version", 1, ["a.state is a state, and no saved search", "--save"]),
    ("search 70000 0.16 --window --save cut.search", "Saved Refused", 1, ["cut.search is damaged", "begins anew"]),
    ("search 70000 0.56 --window --save a.search", "Saved Game", 1, ["a.search is of another game", "CODE of its game"]),
    ("search 70000 0.16 --window --save folder/none/new", "File", 3, ["folder/none/new: the folder for it is not there"]),
    ("search 70000 0.16 --window --save a.state.lock", "Occupied", 3, ["a.state.lock would be the lock"]),
    ("search 70000 0.16 --save new", "Words", 2, ["--save takes one CODE, --window, and neither --codes nor --part"]),
    # Games that are left out.
    ("games a.state --no-period --period 12", "Words", 2, ["--no-period goes with neither --period nor --unclaimed"]),
    ("games a.state --no-period --unclaimed", "Words", 2, ["--no-period goes with neither --period nor --unclaimed"]),
    ("games a.state --csv --latex", "Words", 2, ["--csv and --latex go with neither --json, --refuted nor one another"]),
    ("games a.state --csv --json", "Words", 2, ["--csv and --latex go with neither --json, --refuted nor one another"]),
    ("games a.state --latex --refuted", "Words", 2, ["--csv and --latex go with neither --json, --refuted nor one another"]),
    ("games a.state --period 0", "Number", 2, ["--period must be 1 to 4294967295, and is 0"]),
    ("games a.state --known-below many", "Number", 2, ["--known-below must be 1 to 4294967295, and is many"]),
    # Blocks and b-files.
    ("import a.state open.json", "Json", 1, ["open.json", "line 2 column 11", FORM]),
    ("import a.state short.json", "Import Shape", 1, ["short.json is no object with exactly", FORM]),
    ("import a.state code.json", "Import Code", 1, ["code.json has a code that is no text", "0.77"]),
    ("import a.state values.json", "Import Values", 1, ["values.json has values", "4294967296"]),
    ("import a.state none.json", "Import Empty", 1, ["none.json has no value"]),
    ("claim a.state 0.77 b.txt", "Bfile Form 3", 1, ["b.txt, line 3", "`2 x`", "0 0"]),
    ("check 0.77 gap.txt", "Bfile Order 2", 1, ["gap.txt, line 2", "`2 2`"]),
    ("check 0.77 empty", "Bfile Empty", 1, ["empty has no line with a number and a value"]),
    # Words.
    ("extend a.state 0.77 1000", "Number", 2, ["COUNT must be 1 to 65536, and is 0.77", "STATE COUNT CODE.."]),
    ("compute a.state 10 0.77", "Number", 2, ["COUNT must be 1 to 1024, and is 0.77", "STATE CODE COUNT"]),
    ("period a.state 0.77 x 12", "Number", 2, ["E must be 1 to 65536, and is x", "STATE CODE E P"]),
    ("hub a.state 127.0.0.1:0 --sessions 2000", "Number", 2, ["--sessions must be 1 to 1024, and is 2000"]),
    ("search 10 0.77 --at -", "Number", 2, ["HEAP must be 0 to 18446744073709551615, and is -"]),
    ("search --bfile 10 0.77 0.07", "Words", 2, ["--bfile takes one CODE"]),
    ("explain Lod", "Words", 2, ["no fault is called Lod", "census explain"]),
    ("explain Sync Cutt", "Words", 2, ["no fault is called Sync Cutt", "census explain"]),
    ("completion tcsh", "Words", 2, ["bash, zsh or fish", "tcsh"]),
    ("find a.state 0.77 0.87", "Code Digit", 1, ["0.87: the digit 8 is none of 0 to 7"]),
    ("find a.state 0.7\x1b", "Code Digit", 1, ["0.7\\x1b: the sign \\x1b is none"]),
    ("find a.state 1.7", "Code Head", 1, ["1.7: the sign 1 before the point is neither 0 nor 4"]),
    ("find a.state 077", "Code Form", 1, ["077: it has no point"]),
    ("find a.state 0.", "Code Form", 1, ["0.: no digit after the point"]),
    ("find a.state 0.11111111111111111", "Code Long", 1, ["over 16 digits"]),
    ("compute a.state 0.77 2000", "Compute TooMany", 1, ["COUNT must be 1 to 1024, and is 2000", "census extend"]),
    ("compute a.state 0.77 0", "Compute Zero", 1, ["COUNT must be 1 to 1024, and is 0"]),
    ("period a.state 0.77 71 70000", "Period PastLimit", 1, ["P must be 1 to 65536, and is 70000"]),
    ("note a.state Kayles x", "Note Name", 1, ["`Kayles` has a `K`", "a-z, 0-9 and -"]),
    ("note a.state kayles \x07", "Note Text", 1, ["byte 1", "\\x07", "printable ASCII"]),
    ("unnote a.state kayles", "Removal NoNote", 1, ["kayles is that of no note", "census show STATE"]),
    ("page a.state 99", "NoPage", 1, ["no page 99", "census page STATE 0"]),
    ("init new.state 0", "Zero", 1, ["0 is no author's number", "census init --draw STATE"]),
    ("renumber a.state 1", "Held", 1, ["a.state holds operations by this number", "census renumber STATE"]),
    # The network. PORT is one on which nobody listens, TAKEN one in use, STRANGE and SHUT ones of peers that are no census.
    ("sync a.state 127.0.0.1:PORT", "Net", 3, ["cannot connect to 127.0.0.1:PORT: connection refused", "is a hub running there?", "census hub STATE 127.0.0.1:PORT"]),
    ("sync a.state 127.0.0.1", "Net", 3, ["127.0.0.1 has no port"]),
    ("sync a.state no_such_host!:4000", "Net", 3, ["cannot find the host of no_such_host!:4000"]),
    ("serve a.state 127.0.0.1:TAKEN", "Net", 3, ["cannot listen at 127.0.0.1:TAKEN: another program listens there"]),
    ("hub a.state --unix b.txt", "Net", 3, ["cannot make a socket at b.txt: something stands there", "is not removed"]),
    ("sync a.state 127.0.0.1:STRANGE", "Sync Frame", 1, ["127.0.0.1:STRANGE sends something that is no frame"]),
    ("sync a.state 127.0.0.1:SHUT", "Sync Cut", 3, ["127.0.0.1:SHUT closed the connection before the session was done"]),
    ("sync a.state 127.0.0.1:MUTE --patience 1", "Sync Read", 3, ["127.0.0.1:MUTE: the other side was silent for too long", "--patience"]),
]

def explained(what, line, texts, answer, wanted):
    """The errors are the line of the fault, and behind it one to three lines with these texts."""
    said = answer.err
    expect(answer.status == wanted, f"{what}: the status is {answer.status}, and not {wanted}")
    front = f"census: {line}\n"
    expect(said.startswith(front), f"{what}: {said!r} does not begin with {front!r}")
    behind = said[len(front) :]
    lines = behind.splitlines()
    expect(1 <= len(lines) <= 3 and all(line.startswith("  ") for line in lines), f"{what}: {lines}")
    expect(len(behind.encode()) <= MOST, f"{what}: {len(behind.encode())} bytes")
    expect(not re.search(r"[\x00-\x09\x0b-\x1f\x7f]", said), f"{what}: control characters in {said!r}")
    for text in texts:
        expect(text in " ".join(lines), f"{what}: `{text}` is not in {lines}")


def peer(answer):
    """A port of the loopback at which each connection has this answer; none is one that waits, and b"" closes it."""
    listener = socket.create_server(("127.0.0.1", 0))

    def serve():
        kept = []
        while True:
            taken, _ = listener.accept()
            if answer is None:
                kept.append(taken)
                continue
            taken.recv(65536)
            taken.sendall(answer)
            taken.close()

    threading.Thread(target=serve, daemon=True).start()
    return str(listener.getsockname()[1])


def make_files():
    """The files that the table names."""
    for words in ("init a.state 1", "compute a.state 0.77 5", "note a.state early x", "unnote a.state early", "delta a.state a.delta"):
        done(*words.split())
    done(*"search 70000 0.16 --window --save a.search".split())
    write("cut.search", read("a.search")[:100])
    state, delta = read("a.state"), read("a.delta")
    os.mkdir("folder")
    os.mkfifo("pipe")
    os.symlink("loop", "loop")
    write("empty", b"")
    write("hex", delta.hex().encode() + b"\n")
    write("cut.state", state[:40])
    write("cut.delta", delta[:12])
    # The block is 39 bytes long; then the kind of the note is one that no operation has.
    write("bad.delta", delta[:55] + b"\x09" + delta[56:])
    write("bad.state", state[:63] + b"\x09" + state[64:])
    write("nobody.state", state[:4] + b"\0\0\0\0" + state[8:])
    write("b.txt", b"0 0\n1 1\n2 x\n")
    write("gap.txt", b"0 0\n2 2\n")
    write("form.json", FORM.encode() + b"0,1]}\n")
    write("open.json", b'{"code":"0.77",\n"start":0,,')
    write("short.json", b'{"code":"0.77","start":0}')
    write("code.json", b'{"code":"7","start":0,"values":[0]}')
    write("values.json", FORM.encode() + b"-1]}")
    write("none.json", FORM.encode() + b"]}")


def try_table():
    """Each case of the table: with no terminal, with the option, with the variable, and on a terminal."""
    taken = socket.create_server(("127.0.0.1", 0))
    ports = {
        "TAKEN": str(taken.getsockname()[1]),
        "STRANGE": peer(b"HTTP/1.1 400 Bad Request\r\n\r\n"),
        "SHUT": peer(b""),
        "MUTE": peer(None),
        "PORT": str(free_port()),
    }

    def named(text):
        for name, port in ports.items():
            text = text.replace(name, port)
        return text

    for case, line, wanted, texts in CASES:
        try_case(named(case), line, wanted, [named(text) for text in texts])


def try_case(case, line, wanted, texts):
    """A case, of whose words each stands for itself. A hub explains its faults always."""
    words = case.split(" ")
    alone = run(*words, seconds=SECONDS)
    if words[0] == "hub":
        explained(case, line, texts, alone, wanted)
    else:
        expect((alone.status, alone.err) == (wanted, f"census: {line}\n"), f"{case}: {alone}")
    asked = run("--explain", *words, seconds=SECONDS)
    explained(f"--explain {case}", line, texts, asked, wanted)
    if words[0] != "sync":
        again = run(*words, env=ASKING, seconds=SECONDS)
        expect((again.status, again.err) == (wanted, asked.err), f"CENSUS_EXPLAIN=1 {case}: {again.err!r}, and not {asked.err!r}")
    explained(f"on a terminal {case}", line, texts, watched(*words), wanted)


def try_streams():
    """Standard input and output in place of files."""
    delta = read("a.delta")
    for words, given, out in (
        ("delta a.state -", b"", delta),
        ("union - - a.delta", delta, delta),
        ("init b.state 2", b"", b"author 2\n"),
        ("merge b.state -", delta, b"new 3\n"),
        ("check 0.77 -", b"0 0\n1 1\n", b"2 values, all right\n"),
        ("claim b.state 0.77 -", b"0 0\n1 1\n", b"issued 2.1\n"),
        ("import --quiet b.state -", FORM.encode() + b"0]}", b""),
    ):
        answer = run(*words.split(), given=given, text=False)
        expect(answer == (0, out, b""), f"{words}: {answer}")
    expect(not os.path.exists("-"), "a file was made that is called -")
    expect(done("delta", "a.state", "./-") == "operations 3\n" and os.path.exists("-"), "delta to ./-")
    answer = run("--explain", "merge", "b.state", "-", given=b"OGS1")
    explained("merge of a state from standard input", "Merge Version", ["standard input is a state"], answer, 1)


def try_closed_reader():
    """Much output into a pipe that nobody reads: on a terminal nothing stands behind the line."""
    done(*"extend b.state 60000 0.77".split())
    master, slave = pty.openpty()
    reads, writes = os.pipe()
    os.close(reads)
    running = start("show", "b.state", stdout=writes, stderr=slave)
    os.close(writes)
    os.close(slave)
    expect(running.wait(SECONDS) == 3, "show into a closed pipe has another status than 3")
    expect(os.read(master, 65536) == b"census: Write\r\n", "show into a closed pipe says something else")
    os.close(master)


def try_missing():
    """A word that is missing is named with what may stand in its place."""
    for words, shown in (
        ("init new.state", "<ID|--draw|--for TEXT>"),
        ("hub a.state", "<ADDR|--unix PATH>"),
        ("sync a.state", "<ADDR|--stdio|--unix PATH>"),
        ("serve a.state", "<ADDR|--stdio|--unix PATH>"),
    ):
        status, out, said = run(*words.split())
        expect((status, out) == (2, "") and said.count(shown) == 2, f"{words}: {status}, {out!r}, {said!r}")


def try_list():
    """`census explain` and the manual have each fault of the documents, and `census explain` no other."""
    with open(TOP / "docs" / "FORMATS.md", encoding="utf-8") as file:
        rows = re.findall(r"^\| `([A-Za-z]+)` \| (.*) \| ([1-4]) \|$", file.read().split("## Faults")[1], re.M)
    expect(len(rows) > 30, f"docs/FORMATS.md has {len(rows)} faults")
    listed = done("explain")
    page = done("manual")
    documented = set()
    for name, causes, status in rows:
        for cause in re.findall(r"`([A-Z][A-Za-z]+)(?: L)?`", causes) or [""]:
            called = f"{name} {cause}".strip()
            documented.add(called)
            expect(f"{called}, status {status}\n  " in listed, f"census explain does not list {called}, status {status}")
            expect(f'"{called}" " (status {status})"' in page, f"the manual does not list {called}")
            said = done("explain", *called.split())
            expect(said.startswith(f"{called}, status {status}\n"), f"explain {called}: {said}")
    for entry in re.split(r"(?m)^(?=\S)", listed)[1:]:
        expect(entry.split(",", 1)[0] in documented, f"docs/FORMATS.md does not list {entry}")
        expect(len(entry.split("\n", 1)[1]) <= MOST, f"over {MOST} bytes: {entry}")


def main():
    make_files()
    try_table()
    try_streams()
    try_closed_reader()
    try_missing()
    try_list()
    finish(f"faults: each of {len(CASES)} wrong inputs is explained where it should be, and only there")


with folder():
    main()
