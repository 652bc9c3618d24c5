#!/usr/bin/env python3
"""Tests wrong_bodies.py over a crate of six small functions that is made for it. Takes some fifteen short checks, about a minute.

A wrong body is refused, also one of a trait's method; so are two of one function, each in a group of its own. A body that is
right is reported, though the function that it calls has a wrong one in its group; so is an edit that doesn't compile, though
others stand beside it, one that a proof file refuses for a name alone, and one that fits no line. What was refused is not tried
again, and where the time is over before a check begins, nothing is tried, and this is said. Nothing is said of a static library
that is not proved as it stands.
"""

import os
import subprocess
import sys
import tempfile

HERE = os.path.dirname(os.path.abspath(__file__))

SOURCE = """\
//! Numbers.
#![tactic(auto)]

ghost use Rattle.std.specs.Prelude.{◌≡◌};

/// One.
pub fn one() -> u8
    ensures { result ≡ 1 }
{
    1 // one
}

/// One, which is asked for.
pub fn asked() -> u8
    ensures { result ≡ 1 }
{
    one() // asked
}

/// One, whose proof names the call.
pub fn named() -> u8
    ensures { result ≡ 1 }
{
    one() // named
}

/// The first of two numbers.
pub fn first(a: u8, b: u8) -> u8
    ensures { result ≡ a }
{
    a // first
}

/// The second of two numbers.
pub fn second(a: u8, b: u8) -> u8
    ensures { result ≡ b }
{
    b // second
}

/// What can be counted.
pub trait Count {
    /// How many it is.
    fn count(self) -> u8
        ensures { result ≡ 1 };
}

impl Count for bool {
    fn count(self) -> u8 {
        one() // count
    }
}
"""
STATIC = """\
//! A number.
#![tactic(auto)]

ghost use Rattle.std.specs.Prelude.{◌≡◌};

/// Two.
#[unsafe(no_mangle)]
pub extern "C" fn two() -> u8
    ensures { result ≡ 2 }
{
    2 // two
}
"""
ANSWERS = """\
use Rattle.small.proofs.named.Goals as goal

pub returns : goal.returns
returns c = c.one.ensures
"""
# Of each edit: the line that it changes, what stands there then, and what has to come of it.
EDITS = {
    "one_is_two": ("    1 // one", "    2", "refused"),
    "one_is_three": ("    1 // one", "    3", "refused"),
    "first_is_the_second": ("    a // first", "    b", "refused"),
    "count_is_none": ("        one() // count", "        0", "refused"),
    "asked_in_another_way": ("    one() // asked", "    first(one(), 2)", "NOT REFUSED"),
    "named_calls_nothing": ("    one() // named", "    1", "REFUSED BY A NAME ALONE"),
    "second_does_not_compile": ("    b // second", "    c", "BAD EDIT"),
    "second_is_no_text": ("    b // second", "    b }", "BAD EDIT"),
    "fits_no_line": ("    7", "    8", "BAD EDIT"),
}


def write(path, text):
    os.makedirs(os.path.dirname(path), exist_ok=True)
    with open(path, "w", encoding="utf-8") as file:
        file.write(text)


def run(room, *given):
    """Returns how a run of the script ended, and what it printed."""
    words = [sys.executable, f"{HERE}/wrong_bodies.py", "--told", "--root", f"{room}/repository", *given]
    ran = subprocess.run(words, env={**os.environ, "XDG_CACHE_HOME": f"{room}/cache"}, capture_output=True, text=True)
    return ran.returncode, ran.stdout + ran.stderr


def need(fact, said):
    if not fact:
        sys.exit(f"wrong_bodies_test: not so: the script said\n{said}")


def main():
    with tempfile.TemporaryDirectory(prefix="wrong-bodies-test-") as room:
        crate = f"{room}/repository/crates/small"
        write(f"{room}/repository/crates.txt", "small:\n")
        write(f"{crate}/src/lib.rt", SOURCE)
        write(f"{crate}/proofs/named/Answers.antt", ANSWERS)
        # those that compile in one run, so that they stay together, and all of them in the next
        compile_all = [it for it, (_, _, wanted) in EDITS.items() if wanted != "BAD EDIT"]
        for chosen, left in ((compile_all, 6), ([*EDITS], 4)):
            for name in chosen:
                old, new, _ = EDITS[name]
                write(f"{crate}/wrong/{name}.edit", f"file: src/lib.rt\nold: {old}\nnew: {new}\n")
            status, said = run(room, "--until", "0")
            need(f"{left} of them were not tried" in said, said)
            status, said = run(room)
            need(status == 1 and all(f"small/{it}: {EDITS[it][2]}: " in said for it in chosen), said)
        need("9, of which 4 were refused by an earlier run" in said, said)
        for name, (_, _, wanted) in EDITS.items():
            if wanted != "refused":
                os.remove(f"{crate}/wrong/{name}.edit")
        status, said = run(room)
        need(status == 0 and "4, of which 4 were refused by an earlier run" in said, said)
        write(f"{room}/repository/crates.txt", "small:\nheld staticlib:\n")
        write(f"{room}/repository/crates/held/wrong/two_is_three.edit", "file: src/lib.rt\nold:     2 // two\nnew:     3\n")
        write(f"{room}/repository/crates/held/src/lib.rt", STATIC.replace("result ≡ 2", "result ≡ 4"))
        status, said = run(room)
        need(status == 1 and "held/two_is_three: NOT TRIED: without it the crate is not proved" in said, said)
        write(f"{room}/repository/crates/held/src/lib.rt", STATIC)
        status, said = run(room)
        need(status == 0 and "held/two_is_three: refused: " in said, said)
    print("wrong_bodies_test: as it has to be")
    return 0


if __name__ == "__main__":
    sys.exit(main())
