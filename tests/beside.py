#!/usr/bin/env python3
"""What stands beside a file that a command replaces: links, hard links and pipes in the place of the new text, in a folder of a
site too, are never written through; somebody's files there stay, and the command is refused; what a kill left goes. Two sites at
once are one of the two. A lock that is removed while its command works, or left by another user, loses nothing and refuses
nobody, and a file that was put in the place of a saved search meanwhile stays.
"""

import fcntl
import os
import resource
import stat
import struct
import subprocess
import time

import lib
from lib import ASKING, Hub, delta, expect, folder, need, note, read, run, start, write

SECONDS = 20
ROUNDS = 6  # of two sites at once
SIGXFSZ = 25

# Another user and its group, where the tests may run a program as one.
OTHER = 65_534

# A search in windows that takes a second or more, and whose file is written at its first place and at its end.
LONG = ["search", "1500000", "0.354", "--window", "--save"]


def done(*words, **more):
    """What a command printed that is done, and says nothing else."""
    return lib.done(*words, seconds=SECONDS, **more)


def refused(fault, *words, **more):
    """A command that is refused for what stands in a file, and changes no file here."""
    before = files()
    answer = run(*words, seconds=SECONDS, **more)
    expect(answer == (3, "", f"census: {fault}\n"), f"{' '.join(words)}: {answer}")
    expect(files() == before, f"{' '.join(words)}: {fault} left other files: {sorted(files())}, and not {sorted(before)}")


def files():
    """The bytes of each file in the folder; of what is none, where it leads or its kind."""
    found = {}
    for entry in os.scandir("."):
        if entry.is_symlink():
            found[entry.name] = os.readlink(entry.name)
        else:
            found[entry.name] = read(entry.name) if entry.is_file() else entry.stat().st_mode
    return found


def site(path):
    """The bytes of each file of a folder."""
    return {name: read(f"{path}/{name}") for name in os.listdir(path) if os.path.isfile(f"{path}/{name}")}


def await_that(right, what):
    """Waits until this holds."""
    end = time.monotonic() + SECONDS
    while not right():
        need(time.monotonic() < end, f"{what} did not come")
        time.sleep(0.005)


def state(name, author):
    """A state with a note."""
    done("init", name, str(author))
    done("note", name, "n", f"of {name}")


# What may stand in the way of a new text, and how it is made there; a victim stands beside the folder.
WAYS = {
    "link": lambda path, victim: os.symlink(victim, path),
    "link that leads nowhere": lambda path, victim: os.symlink(victim + ".absent", path),
    "hard link": lambda path, victim: os.link(victim, path),
    "pipe": lambda path, victim: os.mkfifo(path),
    "file without bytes": lambda path, victim: write(path, b""),
}


def ways_to_a_state():
    for way, make in WAYS.items():
        for words, out in ((["note", "s", "n", "t"], "s"), (["delta", "s", "out"], "out"), (["union", "out", "d"], "out")):
            with folder():
                state("s", 1)
                done("delta", "s", "d")
                write("victim", b"text")
                make(f"{out}.new", os.path.abspath("victim"))
                run(*words, seconds=SECONDS)
                expect(read("victim") == b"text", f"{words} wrote through a {way}")
                expect(set(os.listdir(".")) == {"s", "d", "victim"} | {out}, f"{words}: a {way} left {os.listdir('.')}")


def ways_to_a_site():
    """What is in the way of any file of a site is removed, and never written through."""
    state("s", 1)
    done("compute", "s", "0.77", "40")
    done("site", "s", "public")
    due = site("public")
    for way, make in WAYS.items():
        for name in ("index.html", "0.77.svg", "census-site"):
            write("victim", b"text")
            make(f"public/{name}.new", os.path.abspath("victim"))
            try:
                answer = run("site", "s", "public", seconds=5)
                expect(answer == (0, "", ""), f"site with a {way} at {name}.new: {answer}")
            except subprocess.TimeoutExpired:
                expect(False, f"site waits for a {way} at {name}.new")
                os.remove(f"public/{name}.new")
            expect(read("victim") == b"text", f"site wrote through a {way} at {name}.new")
            expect(not os.path.exists("victim.absent"), f"site made what a {way} names")
            expect(site("public") == due, f"the site is another one after a {way} at {name}.new")
            for left in ("victim.absent", f"public/{name}.new"):
                if os.path.lexists(left):
                    os.remove(left)


def two_sites():
    """Two sites at once into one folder: each file is of the same one."""
    due = {}
    for author, name in ((1, "a"), (2, "b")):
        state(name, author)
        for digits in range(1, 41):
            done("compute", name, f"0.{digits:03o}"[:5], str(20 + author))
        done("site", name, f"of.{name}")
        due[name] = site(f"of.{name}")
    for turn in range(ROUNDS):
        both = [start("site", name, "public") for name in due]
        for running in both:
            out, err = running.communicate(timeout=SECONDS)
            expect((running.returncode, out, err) == (0, b"", b""), f"one of two sites: {running.returncode}, {err}")
        expect(site("public") in due.values(), f"two sites at once left a mixture, in round {turn}")
        if turn % 2:
            subprocess.run(["rm", "-r", "public"], check=True)


def a_site_that_waits():
    """A site waits for one that is being made, and takes the lock that a kill left; it says for what it waits."""
    state("s", 1)
    done("site", "s", "public")
    first = site("public")
    done("note", "s", "more", "text")
    with open("public/census-site.lock", "wb") as lock:
        fcntl.flock(lock, fcntl.LOCK_EX)
        running = start("site", "s", "public", "--explain")
        time.sleep(0.5)
        expect(running.poll() is None, "a site does not wait for another one")
        now = site("public")
        now.pop("census-site.lock", None)
        expect(now == first, "a site is changed that another command writes")
        os.remove("public/census-site.lock")
    running.communicate(timeout=SECONDS)
    expect(running.returncode == 0, "a site that waited is not made")
    expect(set(site("public")) == set(first) and site("public") != first, f"after it there are {sorted(site('public'))}")
    write("public/census-site.lock", b"")
    done("site", "s", "public")
    expect(set(site("public")) == set(first), "the lock that a kill left is still there")
    os.mkdir("begun")
    write("begun/census-site.lock", b"")
    write("begun/census-site.new", b"a ha")
    expect(run("site", "s", "begun").status == 0, "a site that was killed at its beginning is not made")
    expect(os.path.isdir("begun") and site("begun") == site("public"), "a site that was killed at its beginning is another one")


def reasons_of_a_site():
    """What the system says, with the name of the file."""
    state("s", 1)
    done("site", "s", "public")
    os.remove("public/index.html")
    os.mkdir("public/index.html")
    status, out, err = run("site", "s", "public", "--explain")
    expect((status, out) == (3, "") and err.startswith("census: File\n"), f"a site over a folder: {status}, {err!r}")
    expect("  public/index.html: it is a folder\n" in err, f"no reason of the system: {err!r}")
    expect(run("site", "s", "public")[2] == "census: File\n", "the line is another one")


def commands():
    """The commands that replace a file, each with the file that it replaces."""
    write("block", b'{"code":"0.77","start":0,"values":[0,1,2,3,1]}')
    write("bfile", b"0 0\n1 1\n2 2\n")
    yield from ((["note", "s", "m", "t"], "s"), (["unnote", "s", "n"], "s"), (["compute", "s", "0.77", "9"], "s"))
    yield from ((["period", "s", "0.77", "12", "71"], "s"), (["import", "s", "block"], "s"), (["claim", "s", "0.77", "bfile"], "s"))
    yield from ((["extend", "s", "9", "0.77"], "s"), (["survey", "s", "9", "0.77"], "s"), (["merge", "s", "d"], "s"))
    yield from ((["renumber", "s", "9"], "s"), (["delta", "s", "d"], "d"), (["union", "d", "d"], "d"), (["init", "t", "5"], "t"))
    yield from ((["delta", "s", "d", "--replace"], "d"), (["search", "70000", "0.16", "--window", "--save", "f"], "f"))


def others():
    """What somebody may keep under such a name: a state, a delta, a text."""
    done("init", "other", "7")
    done("note", "other", "mine", "text")
    done("delta", "other", "other.delta")
    return read("other"), read("other.delta"), b"a text\n", b"OGL1 is how it begins"


def somebodys_files():
    """Where somebody's file stands in the place of a new text or of a lock, it stays, and the command is refused."""
    with folder():
        contents = others()
    for end in (".new", ".lock"):
        for at, content in enumerate(contents):
            with folder():
                state("s", 1)
                done("delta", "s", "d")
                for words, path in list(commands()):
                    write(path + end, content)
                    refused("Occupied", *words)
                    if os.path.exists(path + end):
                        os.remove(path + end)
                    if at:  # each command once, and one of them with each content
                        break


def somebodys_files_and_peers():
    """The same of sessions: what came is not saved, and said so."""
    for end in (".new", ".lock"):
        for name, author in (("s", 1), ("t", 2)):
            state(name, author)
        with Hub("t") as hub:
            state("s" + end, 3)
            mine = read("s" + end)
            answer = run("sync", "s", hub.address)
            expect(answer.status == 3 and "Occupied" in answer.err, f"sync with somebody's s{end}: {answer}")
            expect(read("s" + end) == mine, f"sync changed somebody's s{end}")
            os.remove("s" + end)
        state("t" + end, 3)
        mine = read("t" + end)
        done("note", "s", "later", "t")
        with Hub("t") as hub:
            answer = run("sync", "s", hub.address)
            expect(answer.status != 0, f"a hub with somebody's t{end} said that all is done")
            hub.await_line(hub.faults, r"census: \S+ peer \S+ Occupied")
            expect(read("t" + end) == mine, f"a hub changed somebody's t{end}")
        for left in list(files()):
            os.remove(left)


def explained():
    """What is said of somebody's file names both."""
    state("s", 1)
    for end, what in ((".new", "the new text"), (".lock", "the lock")):
        state("s" + end, 2)
        said = run("note", "s", "n", "t", env=ASKING).err
        due = f"census: Occupied\n  s{end} stands where {what} of s is to be, and stays as it is\n"
        expect(said.startswith(due) and said.count("\n") == 3, f"of somebody's s{end} is said {said!r}")
        os.remove("s" + end)


def killed(*words):
    """A command that is killed while it writes its new text."""
    limit = lambda: resource.setrlimit(resource.RLIMIT_FSIZE, (1000, 1000))
    status = run(*words, preexec_fn=limit).status
    need(status == -SIGXFSZ, f"{words} was not killed: {status}")


def what_a_kill_left():
    """The new text that a kill left goes with the next command, if it is still what the lock names."""
    state("s", 1)
    for number in range(9):
        done("note", "s", f"n{number}", "x" * 200)
    killed("note", "s", "m", "t")
    left = os.stat("s.new")
    expect(read("s.lock") == b"OGL1" + struct.pack(">QQ", left.st_dev, left.st_ino), f"the lock says {read('s.lock')}")
    expect(0 < left.st_size < 1001, f"a kill left {left.st_size} bytes")
    done("note", "s", "m", "t")
    expect(sorted(os.listdir(".")) == ["s"], f"after a kill there are {os.listdir('.')}")
    # A command that is refused, too, takes away what a kill left.
    killed("note", "s", "m", "t")
    run("unnote", "s", "absent")
    done("note", "s", "m", "u")
    expect(sorted(os.listdir(".")) == ["s"], f"after a kill there are {os.listdir('.')}")
    # Somebody puts a state there, or writes into what was left.
    with folder():
        state("mine", 2)
        mine = read("mine")
    killed("note", "s", "m", "t")
    write("mine", mine)
    os.replace("mine", "s.new")
    kept = read("s")
    answers = [run("note", "s", "m", "t"), run("note", "s", "m", "t")]
    expect(answers == [(3, "", "census: Occupied\n")] * 2, f"a state in the place of what a kill left: {answers}")
    expect(read("s.new") == mine and read("s") == kept, "a state in the place of what a kill left is lost")
    os.remove("s.new")
    killed("note", "s", "m", "t")
    with open("s.new", "r+b") as file:
        file.write(b"text")
    answer = run("note", "s", "m", "t")
    expect(answer == (3, "", "census: Occupied\n"), f"somebody's text in what a kill left: {answer}")
    expect(read("s.new")[:4] == b"text", "somebody's text in what a kill left is lost")


def reading(words, content):
    """Starts a command that holds a lock and waits for its input; what it is given, and what it answers then."""
    reader, writer = os.pipe()
    running = start(*words, stdin=reader)
    os.close(reader)
    await_that(lambda: os.path.exists("s.lock"), "a lock")
    time.sleep(0.2)  # it has read the state by then

    def end():
        os.write(writer, content)
        os.close(writer)
        out, err = running.communicate(timeout=SECONDS)
        return running.returncode, out.decode(), err.decode()

    return end


def locks_that_are_removed():
    """A lock that is removed while its command works: what another command said meanwhile stays."""
    for words in (["merge", "s", "/dev/stdin"], ["merge", "s", "/dev/stdin", "--explain"]):
        done("init", "s", "1")
        end = reading(words, delta(note(2, 1, b"other", b"text")))
        os.remove("s.lock")
        said = done("note", "s", "n", "t")
        status, out, err = end()
        shown = done("show", "s")
        need(said == "issued 1.1\n", "nothing is issued")
        expect("note n 1.1 t\n" in shown, f"what was issued is lost: {status}, {out!r}, {shown!r}")
        expect(status == 0 or (status, out, err.split("\n")[0]) == (3, "", "census: File"), f"then {status}, {out!r}, {err!r}")
        expect((status == 0) == ("note other 2.1 text\n" in shown), f"done is not what it is: {status}, {shown!r}")
        expect(sorted(os.listdir(".")) == ["s"], f"then there are {os.listdir('.')}")
        os.remove("s")


def locks_of_another_command():
    """The lock that another command took meanwhile is not removed, and its new text neither."""
    done("init", "s", "1")
    end = reading(["merge", "s", "/dev/stdin"], delta(note(2, 1, b"other", b"text")))
    old = read("s")
    os.remove("s.lock")
    with open("s.lock", "wb") as lock:
        fcntl.flock(lock, fcntl.LOCK_EX)
        write("s.new", b"")
        expect(end() == (3, "", "census: File\n"), "a command without its lock is not refused")
        expect(read("s") == old, "a command without its lock wrote")
        expect(sorted(os.listdir(".")) == ["s", "s.lock", "s.new"], f"then there are {os.listdir('.')}")


def as_other(*words, **more):
    """What a command answers that another user runs."""
    return run(*words, seconds=SECONDS, user=OTHER, group=OTHER, extra_groups=[], **more)


def can_be_other():
    """Whether the program can be run as another user."""
    try:
        return os.geteuid() == 0 and as_other("--version").status == 0
    except (OSError, subprocess.SubprocessError):
        return False


def locks_of_another_user():
    """A lock that another user left refuses nobody who may write the state; one that is held is waited for."""
    if can_be_other():
        os.chmod(".", 0o777)
        run_it = as_other
    elif os.geteuid() == 0:
        return
    else:
        run_it = run
    done("init", "s", "1")
    os.chmod("s", 0o666)
    for mode in (0o644, 0o444):
        write("s.lock", b"")
        os.chmod("s.lock", mode)
        answer = run_it("note", "s", f"n{mode}", "t")
        expect(answer.status == 0 and answer.out.startswith("issued 1."), f"with a lock that was left: {answer}")
        expect(sorted(os.listdir(".")) == ["s"], f"then there are {os.listdir('.')}")
    killed_more = "x" * 200
    for number in range(9):
        done("note", "s", f"m{number}", killed_more)
    killed("note", "s", "m", "t")
    os.chmod("s.lock", 0o644)
    expect(run_it("note", "s", "after", "t").status == 0, "with all that a kill of another user left")
    expect(sorted(os.listdir(".")) == ["s"], f"then there are {os.listdir('.')}")
    write("s.lock", b"")
    os.chmod("s.lock", 0o444)
    with open("s.lock", "rb") as lock:
        fcntl.flock(lock, fcntl.LOCK_EX)
        more = {"user": OTHER, "group": OTHER, "extra_groups": []} if run_it is as_other else {}
        running = start("note", "s", "last", "t", **more)
        time.sleep(0.5)
        expect(running.poll() is None, "a lock of another user is not waited for")
    out, err = running.communicate(timeout=SECONDS)
    expect(running.returncode == 0 and out.startswith(b"issued 1."), f"after a lock of another user: {out}, {err}")


def who_may_take_a_lock():
    """A lock may be written by whoever may write the state, whatever the umask is."""
    done("init", "s", "1")
    os.chmod("s", 0o664)
    end = reading(["merge", "s", "/dev/stdin"], delta())
    expect(stat.S_IMODE(os.stat("s.lock").st_mode) == 0o664, f"the mode of a lock: {os.stat('s.lock').st_mode:o}")
    expect(end()[0] == 0, "a merge is not done")


def a_search_that_is_replaced():
    """What is put in the place of the file of a search meanwhile stays."""
    for content in (b"mine\n", None):
        running = start(*LONG, "f")
        await_that(lambda: os.path.exists("f") and not os.path.exists("f.new"), "a saved search")
        if content is None:
            os.remove("f")
        else:
            write("mine", content)
            os.replace("mine", "f")
        need(running.poll() is None, "the search was over too soon")
        out, err = running.communicate(timeout=60)
        if content is None:
            expect(running.returncode == 0 and read("f")[:4] == b"OGW1", f"a search whose file was removed: {err}")
        else:
            expect((running.returncode, out, err) == (3, b"", b"census: Occupied\n"), f"a search whose file is another: {out}, {err}")
            expect(read("f") == content, "a file in the place of a saved search is lost")
        expect(sorted(os.listdir(".")) == ["f"], f"then there are {os.listdir('.')}")
        os.remove("f")


CASES = [ways_to_a_state, ways_to_a_site, two_sites, a_site_that_waits, reasons_of_a_site, somebodys_files]
CASES += [somebodys_files_and_peers, explained, what_a_kill_left, locks_that_are_removed, locks_of_another_command]
CASES += [locks_of_another_user, who_may_take_a_lock, a_search_that_is_replaced]


def main():
    for case in CASES:
        with folder():
            before = len(lib.failures)
            case()
            if len(lib.failures) > before:
                print(f"beside: these were of {case.__name__}")
    lib.finish("links, pipes, locks and somebody's files beside a file: nothing is written through, lost or mixed")


main()
