#!/usr/bin/env python3
"""Has states and deltas stand where files get lost: behind links in folders whose names or depth no path can have, under two
names, under a lock or a delta that is a link, a pipe or a device, and where a call of the system fails. Says whether each file is
the old one or the new one after each command, and whether what would be lost is refused. The failing calls are left out where
there is no strace.
"""

import fcntl
import os
import random
import resource
import select
import shutil
import subprocess
import time

import lib
from lib import ASKING, delta, folder, need, note, read, start, write

SECONDS = 10
SEED = 1949
KILLED = 100  # deltas that are killed
NOTES = 1000  # in the deltas that are killed


def run(*words, **more):
    """What a command answers, which may wait for nothing."""
    return lib.run(*words, seconds=SECONDS, **more)


def done(*words, **more):
    """What a command printed that is done, and says nothing else."""
    return lib.done(*words, seconds=SECONDS, **more)


def refused(status, fault, *words, **more):
    """A command that is refused, and changes no file here."""
    before = files()
    lib.refused(status, fault, *words, seconds=SECONDS, **more)
    need(files() == before, f"{words} was refused, and left other files")


def files():
    """The bytes of each file in the folder; of what is none, its kind and where it leads."""
    found = {}
    for entry in os.scandir("."):
        if entry.is_symlink():
            found[entry.name] = os.readlink(entry.name)
        else:
            found[entry.name] = read(entry.name) if entry.is_file() else entry.stat().st_mode
    return found


def notes(state):
    """How many notes the catalogue has; it may have no fork."""
    shown = done("show", state)
    need("\nfork " not in shown, f"{state} has a fork")
    return shown.count("\nnote ")


def issue_through_a_link():
    done("init", "a.state", "1")
    os.symlink("a.state", "near")
    os.symlink("near", "far")
    for name in ("far", "a.state", "near", "./far", "far"):
        need(done("note", name, "n", name).startswith("issued 1."), f"{name} issued nothing")
    need(os.path.islink("far") and os.path.islink("near"), "a link was replaced")
    need(notes("a.state") == 5 and notes("far") == 5, "the link and the file are two")
    need(sorted(os.listdir(".")) == ["a.state", "far", "near"], f"these are left: {os.listdir('.')}")


def unreadable_name():
    """A folder whose name is not UTF-8; a link that names it can't be followed."""
    os.mkdir(b"\xff\xfe")
    os.chdir(b"\xff\xfe")
    issue_through_a_link()
    os.symlink(os.path.join(os.getcwdb(), b"a.state"), b"whole")
    refused(3, "File", "note", "whole", "n", "t")
    os.symlink(b"a\xff", b"named")
    refused(3, "File", "note", "named", "n", "t")


def deep_folder():
    """A working folder whose path has more than 4,096 bytes."""
    for _ in range(25):
        os.mkdir("d" * 200)
        os.chdir("d" * 200)
    issue_through_a_link()


def closed_folder():
    """A link into a folder that may not be searched."""
    if os.geteuid() == 0:
        return
    os.mkdir("closed")
    done("init", "closed/a.state", "1")
    os.symlink("closed/a.state", "link")
    os.chmod("closed", 0)
    refused(3, "File", "note", "link", "n", "t")
    refused(3, "File", "init", "closed/a.state", "1")
    os.chmod("closed", 0o700)


def links_that_lead_nowhere():
    os.symlink("self", "self")
    refused(3, "File", "note", "self", "n", "t")
    os.symlink("absent", "link")
    refused(3, "File", "note", "link", "n", "t")
    refused(3, "Exists", "init", "link", "1")
    done("init", "a.state", "1")
    need(done("delta", "a.state", "link") == "operations 0\n", "no delta through a link")
    need(os.readlink("link") == "absent" and read("absent")[:3] == b"OGD", "the delta is not where the link leads")


def two_names():
    """A state with two names: a change leaves the other name as it was, and is warned of."""
    for explained, more in ((("--explain",), {}), ((), {"env": ASKING}), ((), {})):
        for words, verdict in ((["note", "b.state", "n", "t"], ""), (["extend", "b.state", "9", "0.77"], "1.1: proved\n")):
            for name in ("a.state", "b.state"):
                if os.path.exists(name):
                    os.remove(name)
            done("init", "a.state", "1")
            os.link("a.state", "b.state")
            old = read("a.state")
            status, out, err = run(*explained, *words, **more)
            warning = "warning: b.state has another name, which stays as it was: use one of the two only\n"
            need(status == 0 and out != "", f"{words} answered {status}, {err!r}")
            need(err == (warning + verdict if explained or more else ""), f"{words} said {err!r}")
            need(read("a.state") == old and read("b.state") != old, "the state or its other name is not as it should be")
            need(run(*explained, *words, **more)[2] == "", "a state with one name is warned of")


def three_states():
    for author, name in ((1, "a"), (2, "b"), (3, "c")):
        done("init", f"{name}.state", str(author))
        done("note", f"{name}.state", "n", f"of {name}")
        done("delta", f"{name}.state", f"{name}.delta")


def forced(out, *words):
    """The same command with --replace is done, and OUT is a delta then."""
    need(done(*words, "--replace").startswith("operations "), f"{words} --replace is not done")
    need(read(out)[:3] == b"OGD", f"{out} is no delta")
    need(not os.path.exists(out + ".new") and not os.path.exists(out + ".lock"), f"something is left beside {out}")


def deltas_over_others():
    """What delta and union may not write over; with --replace they do."""
    three_states()
    write("text", b"a text\n")
    write("cut", read("a.delta")[:-1])
    os.symlink("b.state", "link")
    for name in ("a.state", "./a.state"):
        refused(3, "Same", "delta", "a.state", name)
        refused(3, "Same", "delta", "a.state", name, "--replace")
    for name in ("b.state", "link", "text", "cut", "b.state.lock", "b.state.new", "a.delta.new"):
        kept = files()
        refused(3, "Occupied", "delta", "a.state", name)
        refused(3, "Occupied", "union", name, "a.delta", "b.delta")
        out = os.readlink(name) if name == "link" else name
        forced(out, "delta", "a.state", name)
        forced(out, "union", name, "a.delta", "b.delta")
        for changed in files():
            if changed not in kept:
                os.remove(changed)
        for changed, content in kept.items():
            if not os.path.islink(changed):
                write(changed, content)
    refused(1, "Union 1 Version", "union", "text", "text", "a.delta")
    os.mkdir("folder")
    refused(3, "File", "delta", "a.state", "folder", "--replace")
    refused(3, "File", "union", "folder", "a.delta", "--replace")


def deltas_over_deltas():
    """What delta and union write over: deltas, files without bytes, streams; and a delta that is not among those of a union."""
    three_states()
    refused(3, "Occupied", "union", "a.delta", "b.delta")
    refused(3, "Occupied", "union", "a.delta", "b.delta", "c.delta")
    need(done("union", "a.delta", "a.delta", "b.delta") == "operations 2\n", "no union in place")
    os.symlink("a.delta", "link")
    need(done("union", "link", "c.delta", "./a.delta") == "operations 3\n", "no union through a link")
    need(os.path.islink("link") and done("merge", "a.state", "a.delta") == "new 2\n", "the union is not where the link leads")
    os.chmod("a.delta", 0o640)
    need(done("delta", "a.state", "link") == "operations 3\n", "no delta over a delta")
    need(os.stat("a.delta").st_mode & 0o777 == 0o640, "the mode of a delta has changed")
    write("empty", b"")
    need(done("delta", "a.state", "empty") == "operations 3\n" and read("empty") == read("a.delta"), "no delta over nothing")
    need(done("union", "fresh.delta", "a.delta", "b.delta") == "operations 3\n", "no union in a new file")
    need(run("delta", "a.state", "/dev/stdout")[1].endswith("operations 3\n"), "no delta to a pipe")
    need(run("union", "/dev/stdout", "a.delta")[1].endswith("operations 3\n"), "no union to a pipe")
    need(done("delta", "a.state", "/dev/null") == "operations 3\n", "no delta to a device")
    need(done("union", "/dev/null", "a.delta") == "operations 3\n", "no union to a device")
    need(not os.path.exists("/dev/null.lock") and not os.path.exists("/dev/null.new"), "something is left beside a device")


def killed_deltas():
    """Deltas that are killed leave the old file or the new one."""
    done("init", "a.state", "1")
    write("large", delta(*(note(2, number, b"other", b"x" * 200) for number in range(1, NOTES + 1))))
    done("merge", "a.state", "large")
    before = time.monotonic()
    done("delta", "a.state", "out")
    whole, takes = read("out"), time.monotonic() - before
    old = delta(edition=1)
    dice, killed, news = random.Random(SEED), 0, 0
    while killed < KILLED:
        write("out", old)
        running = start("delta", "a.state", "out", stdout=subprocess.DEVNULL, stderr=None)
        time.sleep(dice.uniform(0, 1.1 * takes))
        running.kill()
        killed += running.wait() == -9
        need(read("out") in (old, whole), "a delta that was killed is broken")
        news += read("out") == whole
    done("delta", "a.state", "out")
    need(read("out") == whole and not os.path.exists("out.new") and not os.path.exists("out.lock"), "the next delta is not whole")


def no_files():
    """Pipes, devices and folders in place of a state, of a delta or of a lock are refused at once; a pipe of the shell is read."""
    three_states()
    os.mkfifo("pipe")
    os.mkdir("folder")
    for name in ("pipe", "/dev/null", "/dev/zero", "folder"):
        refused(3, "File", "show", name)
        refused(3, "File", "note", name, "n", "t")
        refused(3, "File", "extend", name, "9", "0.77")
        refused(3, "File", "merge", "a.state", name)
        refused(3, "File", "claim", "a.state", "0.77", name)
        refused(3, "File", "union", "out", "a.delta", name)
    need(done("merge", "a.state", "/dev/stdin", stdin=pipe_of(read("b.delta"))) == "new 1\n", "no delta from a pipe")
    need(done("union", "out", "a.delta", "/dev/stdin", stdin=pipe_of(read("b.delta"))) == "operations 2\n", "no union of a pipe")
    need(done("claim", "a.state", "0.77", "/dev/stdin", stdin=pipe_of(b"0 0\n1 1\n2 2\n")) == "issued 1.2\n", "no b-file of a pipe")
    need(done("show", "/dev/stdin", stdin=pipe_of(read("a.state"))) == done("show", "a.state"), "no state from a pipe")
    with open("b.delta", "rb") as file:
        need(done("merge", "c.state", "/dev/stdin", stdin=file) == "new 1\n", "no delta from a file of the shell")
    refused(3, "File", "note", "/dev/stdin", "n", "t", stdin=pipe_of(read("a.state")))


def pipe_of(content):
    """A pipe with these few bytes, whose writer is gone."""
    reader, writer = os.pipe()
    os.write(writer, content)
    os.close(writer)
    return reader


def locks_that_are_none():
    """A lock that is a link is not followed, nor is a pipe waited for; what a link to a lock names is not made."""
    done("init", "a.state", "1")
    write("victim", b"text")
    for make in (
        lambda: os.symlink("victim", "a.state.lock"),
        lambda: os.symlink("absent", "a.state.lock"),
        lambda: os.mkfifo("a.state.lock"),
        lambda: os.mkdir("a.state.lock"),
    ):
        make()
        refused(3, "File", "note", "a.state", "n", "t")
        os.rmdir("a.state.lock") if os.path.isdir("a.state.lock") else os.remove("a.state.lock")
    write("a.state.lock", b"")  # what a stop left
    os.symlink("victim", "a.state.new")
    done("note", "a.state", "n", "t")
    need(sorted(os.listdir(".")) == ["a.state", "victim"] and read("victim") == b"text", f"these are left: {os.listdir('.')}")


def read_only():
    """A state that its owner may not write is not replaced, nor is such a delta."""
    three_states()
    for name in ("a.state", "a.delta"):
        os.chmod(name, 0o444)
    refused(3, "File", "note", "a.state", "n", "t")
    refused(3, "File", "merge", "a.state", "b.delta")
    refused(3, "File", "delta", "b.state", "a.delta")
    refused(3, "File", "union", "a.delta", "a.delta", "b.delta")
    need(done("page", "a.state", "0") != "", "a state that is read-only can't be read")


def held_lock():
    """A command that waits for another one says so after two seconds, where that is asked for."""
    done("init", "a.state", "1")
    with open("a.state.lock", "wb") as lock:
        fcntl.flock(lock, fcntl.LOCK_EX)
        waiting = start("note", "a.state", "n", "t", "--explain")
        said = select.select([waiting.stderr], [], [], SECONDS)[0] and waiting.stderr.readline()
    out, err = waiting.communicate(timeout=SECONDS)
    need(waiting.returncode == 0 and (out, err) == (b"issued 1.1\n", b""), f"a command that waited answered {err!r}")
    need(said == b"  waiting for another command that changes a.state\n", f"a command that waited said {said!r}")


def small_limit():
    """Where the system lets no file grow, the state and the delta stay as they are, and the next command is done."""
    three_states()
    for number in range(9):
        done("note", "b.state", f"n{number}", "x" * 200)
    for words, path in ((["note", "b.state", "n", "t"], "b.state"), (["delta", "b.state", "b.delta"], "b.delta")):
        old = read(path)
        limit = lambda: resource.setrlimit(resource.RLIMIT_FSIZE, (1000, 1000))
        status, _, err = run(*words, preexec_fn=limit)
        need(status == -25 or (status, err) == (3, "census: File\n"), f"{words} answered {status}, {err!r}")
        need(read(path) == old, f"{path} is another one after a write that failed")
        done(*words)
        need(read(path) != old and not os.path.exists(path + ".new"), f"{path} is not as it should be")


CALLS = {
    "openat": ("EACCES", "EIO"),
    "write": ("EINTR", "ENOSPC", "EIO"),
    "fsync": ("EIO",),
    "rename": ("EIO",),
    "flock": ("ENOLCK", "EINTR"),
    "ftruncate": ("EIO",),
}
COMMANDS = {
    "note": (["note", "a.state", "n", "t"], "a.state"),
    "merge": (["merge", "a.state", "b.delta"], "a.state"),
    "delta": (["delta", "b.state", "a.delta"], "a.delta"),
    "union": (["union", "a.delta", "a.delta", "b.delta"], "a.delta"),
}


def failing_calls():
    """Each call of the system on the files fails once: the command is done or refused, and its file is the new or the old one."""
    three_states()
    kept, failed = files(), 0
    for words, path in COMMANDS.values():
        old = kept[path]
        done(*words)
        new = read(path)
        names = [name + end for name in ("a.state", "a.delta", "b.delta", "b.state") for end in ("", ".lock", ".new")]
        paths = [word for name in (*names, ".") for word in ("-P", name)]
        for call, error, when in [(call, error, when) for call in CALLS for error in CALLS[call] for when in (1, 2, 3)]:
            for name in files():
                os.remove(name)
            for name, content in kept.items():
                write(name, content)
            inject = ["strace", "-f", "-o", "/dev/null", *paths, "-e", f"inject={call}:error={error}:when={when}"]
            status, _, err = run(*words, before=inject)
            what = f"{words[0]} under {call} {error} {when}"
            need(status in (0, 3), f"{what} answered {status}, {err!r}")
            need(read(path) in (old, new), f"{what} left another file")
            need(status == 3 or read(path) == new, f"{what} is done and is not")
            need(error != "EINTR" or status == 0, f"{what} is not tried again")
            failed += status == 3
        for name, content in kept.items():
            write(name, content)
    need(failed > 0, "no call of the system failed")


def can_trace():
    """Whether strace is there and may trace a program."""
    words = ["strace", "-o", "/dev/null", "true"]
    return shutil.which("strace") is not None and subprocess.run(words, capture_output=True, check=False).returncode == 0


def main():
    cases = [unreadable_name, deep_folder, closed_folder, links_that_lead_nowhere, two_names, deltas_over_others, deltas_over_deltas]
    cases += [killed_deltas, no_files, locks_that_are_none, read_only, held_lock, small_limit]
    if can_trace():
        cases.append(failing_calls)
    for case in cases:
        with folder():
            case()
    print("links, names, locks, pipes, deltas over other files, kills and limits: no file is lost, and each is the old or the new one")
    if failing_calls not in cases:
        print("files: strace is not there or may not trace, so failing calls of the system were left out")


main()
