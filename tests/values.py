#!/usr/bin/env python3
"""Times how long oct_mex computes the first 65,536 nim-values of the sixty games of values/checksums.txt. This is a benchmark and
no test: it prints each code with a checksum of the values and the processor seconds, and says only where two trees differ in a
checksum.

    values.py [TREE ..]           a tree is a checkout of this repository; this one where none is named

For each tree a small program, values/program.txt, is built by the kit (`rt` on the path) in a copy of the crates that it stands on,
which proves them where the tree keeps no proofs of them. The trees run by turns, and the least of three runs counts.
"""

import os
import resource
import shutil
import subprocess
import sys
import tempfile

HERE = os.path.dirname(os.path.abspath(__file__))
CRATES = "oct_code:\noct_mex: oct_code\nvalues: oct_mex oct_code\n"
RUNS = 3
with open(os.path.join(HERE, "values", "checksums.txt"), encoding="utf-8") as table:
    CODES = [row.split()[0] for row in table if not row.startswith("#")]


def built(tree, room):
    """The program over the crates of a tree, built in a folder of its own."""
    for crate in ("oct_code", "oct_mex"):
        shutil.copytree(os.path.join(tree, "crates", crate), os.path.join(room, "crates", crate), symlinks=True)
    program = os.path.join(room, "crates", "values")
    os.makedirs(os.path.join(program, "src"))
    shutil.copy(os.path.join(HERE, "values", "program.txt"), os.path.join(program, "src", "main.rt"))
    for name, text in (("crates.txt", CRATES), ("HANDLES", "Handles allowed: none.\n")):
        with open(os.path.join(room, name), "w", encoding="utf-8") as file:
            file.write(text)
    ran = subprocess.run(["rt", "run"], cwd=program, stdin=subprocess.DEVNULL, capture_output=True, text=True)
    path = os.path.join(program, "out", "values")
    if ran.returncode != 0 or not os.path.exists(path):
        sys.exit(f"values.py: the program over {tree} was not built\n{ran.stdout}{ran.stderr}")
    return path


def timed(program, code):
    """What the program prints of a code, and the processor seconds that it took."""
    before = resource.getrusage(resource.RUSAGE_CHILDREN)
    ran = subprocess.run([program], input=code + "\n", capture_output=True, text=True, check=True)
    after = resource.getrusage(resource.RUSAGE_CHILDREN)
    return ran.stdout.strip(), after.ru_utime + after.ru_stime - before.ru_utime - before.ru_stime


def main():
    trees = sys.argv[1:] or [os.path.join(HERE, "..")]
    same = True
    totals = [0.0] * len(trees)
    with tempfile.TemporaryDirectory() as room:
        programs = [built(os.path.abspath(tree), os.path.join(room, str(at))) for at, tree in enumerate(trees)]
        for code in CODES:
            rounds = [[timed(program, code) for program in programs] for _ in range(RUNS)]
            texts = {text for row in rounds for text, _ in row}
            same = same and len(texts) == 1
            least = [min(row[at][1] for row in rounds) for at in range(len(programs))]
            totals = [total + seconds for total, seconds in zip(totals, least)]
            print(" ".join([*sorted(texts), *(f"{seconds:.3f}" for seconds in least)]), flush=True)
    print("together", *(f"{total:.3f}" for total in totals))
    if not same:
        sys.exit("values.py: the trees differ in a value")


if __name__ == "__main__":
    main()
