#!/usr/bin/env python3
"""Whether what README, CONTRIBUTING and the documents cite is there: functions and their clauses, wrong bodies, definitions, files.

    cited.py

    `crate::Type::function` (ok, err)     something that the crate exports, and clauses of it
    `crate/name`                          a wrong body of the crate
    `Name.antt`: `word`, `word`           a file of specs/ or proofs/, and words in it
    `crates/name/src/file.rt`             a file or a folder, also of docs/, tests/ and examples/

One of several is written with braces, as `oct_verify::Ledger::{known, status}`. The ways through the house, in ARCHITECTURE, also go
down it: no file of one is of a crate that stands on the crate of the file before it, but where a way goes on behind "Back in". And
crates.txt has the lowest crates first. Takes a second.
"""

import functools
import itertools
import re
import sys

import contracts
from contracts import TOP

PAGES = [TOP / "README.md", TOP / "CONTRIBUTING.md", *sorted((TOP / "docs").glob("*.md"))]
FUNCTION = re.compile(r"`(?P<path>[a-z_0-9]+::[A-Za-z_0-9:]*(?:\{[^`]*\})?)`(?:\s+\((?P<clauses>[a-z_0-9, \n]+)\))?")
WRONG_BODY = re.compile(r"`(?P<crate>[a-z_0-9]+)/(?P<name>[a-z_0-9]+|\{[a-z_0-9, \n]+\})`")
DEFINITION = re.compile(r"`(?P<file>[\w/]+\.antt)`(?:[:,]\s+(?P<words>`\w+`(?:,\s+`\w+`)*))?")
FILE = re.compile(r"`(?P<path>(?:crates|docs|tests|examples|dist|web)/[\w./{}*, -]+)`")
WAYS = re.compile(r"(?ms)^## Five ways through the house$(.*?)^## ")
STEP = re.compile(r"`(?:(?P<crate>\w+)/src/)?(?P<file>[\w/]+\.rt)`")


def each(text):
    """Each text that a text with braces stands for."""
    found = re.fullmatch(r"([^{}]*)\{([^{}]*)\}(.*)", text, re.DOTALL)
    if not found:
        return [text]
    return [more for part in found[2].split(",") for more in each(found[1] + part.strip() + found[3])]


def clauses_by_name(names):
    """The clauses of whatever the crates export, lowest first, by the path under which that is called."""
    known = {}

    def add(crate, front, exported):
        for name, function in exported.functions:
            known[front + name] = {clause for _, clause in function.clauses}
        for name, module, declared in exported.types:
            known[front + name] = set()
            for method_name, method in crate.methods(module, declared):
                known[f"{front}{name}::{method_name}"] = {clause for _, clause in method.clauses}
        for path, shown in exported.passed_on:
            known[front + shown] = set()
            passed_on = {name: clauses for name, clauses in known.items() if f"{name}::".startswith(f"{path}::")}
            for name, clauses in passed_on.items():
                known[front + shown + name[len(path) :]] = clauses
        for name, further in exported.modules:
            known[front + name] = set()
            add(crate, f"{front}{name}::", further)

    for name in names:
        crate = contracts.Crate(name)
        add(crate, f"{name}::", crate.exported())
    return known


def elsewhere(found):
    """What is said of a thing that is not where it is cited, by the places where one of its name is."""
    return f", but {' and '.join(sorted(found))}" if found else ""


def missing_functions(text, crates, known):
    """What is cited of crates and is not there."""
    for found in FUNCTION.finditer(text):
        if found["path"].split("::")[0] not in crates:
            continue
        for path in each(found["path"]):
            if path not in known:
                yield path + elsewhere({name for name in known if name.endswith("::" + path.split("::", 1)[1])})
            elif found["clauses"]:
                words = {word.strip() for word in found["clauses"].split(",")}
                yield from (f"{path}, clause {word}" for word in sorted(words - known[path]))


def missing_wrong_bodies(text, crates):
    """The wrong bodies that are cited and are not there."""
    for found in WRONG_BODY.finditer(text):
        if found["crate"] not in crates:
            continue
        for name in each(found["name"]):
            files = itertools.chain.from_iterable(TOP.glob(f"crates/*/{folder}/{name}.edit") for folder in ("must-fail", "wrong"))
            homes = {file.parent.parent.name for file in files}
            if found["crate"] not in homes:
                yield f"{found['crate']}/{name}" + elsewhere({f"{home}/{name}" for home in homes})


@functools.cache
def definitions():
    """The files of definitions and proofs, by their names."""
    found = {}
    for folder in ("specs", "proofs"):
        for file in TOP.glob(f"crates/*/{folder}/**/*.antt"):
            found.setdefault(file.name, []).append(file)
    return found


def missing_definitions(text):
    """The files of definitions that are cited and are not there, and the words that are not in them."""
    for found in DEFINITION.finditer(text):
        named = definitions().get(found["file"].split("/")[-1], [])
        files = [file for file in named if file.as_posix().endswith("/" + found["file"])]
        if not files:
            yield found["file"] + elsewhere({file.relative_to(TOP).as_posix() for file in named})
        has = set(itertools.chain.from_iterable(re.findall(r"\w+", file.read_text(encoding="utf-8")) for file in files))
        yield from (f"{found['file']}: {word}" for word in re.findall(r"\w+", found["words"] or "") if files and word not in has)


def missing_files(text):
    """The files and folders that are cited and are not there."""
    for found in FILE.finditer(text):
        for path in each(found["path"]):
            if path.endswith(".antt") or re.search(r"\b[A-Z]+/", path) or list(TOP.glob(path.rstrip("/"))):
                continue
            yield path


@functools.cache
def below():
    """Of each crate those that it stands on, at once or by others."""
    found = {}
    for line in (TOP / "crates.txt").read_text(encoding="utf-8").splitlines():
        if line and not line.startswith("#"):
            name, _, named = line.partition(":")
            found[name.split()[0]] = {more for it in named.split() for more in {it, *found.get(it, ())}}
    return found


def steps_back(text):
    """What of the ways through the house is not there, or goes up."""
    for ways in WAYS.finditer(text):
        for way in re.findall(r"(?ms)^\*\*`(\w+)`\*\*(.*?)(?=^\*\*|\Z)", ways[1]):
            for part in way[1].split("Back in"):
                last = None
                for step in STEP.finditer(part):
                    crate = step["crate"] or last
                    if not (TOP / "crates" / str(crate) / "src" / step["file"]).exists():
                        yield f"{crate}/src/{step['file']}, of the way of {way[0]}"
                    elif last in below()[crate]:
                        yield f"way down from {last} to {crate}, which stands on it, in the way of {way[0]}"
                    last = crate


def out_of_order():
    """The crates that stand in crates.txt before one that they stand on."""
    places = {name: at for at, name in enumerate(below())}
    for name, lower in below().items():
        for it in lower:
            if places.get(it, -1) > places[name]:
                yield f"{name} stands before {it}, which it stands on"


def main():
    crates = contracts.crates()
    known = clauses_by_name(crates)
    failed = False
    for wrong in out_of_order():
        failed = True
        print(f"cited: crates.txt: {wrong}", file=sys.stderr)
    for page in PAGES:
        text = page.read_text(encoding="utf-8")
        for missing in itertools.chain(
            missing_functions(text, crates, known),
            missing_wrong_bodies(text, crates),
            missing_definitions(text),
            missing_files(text),
            steps_back(text),
        ):
            failed = True
            print(f"cited: {page.relative_to(TOP)}: there is no {missing}", file=sys.stderr)
    return 1 if failed else 0


if __name__ == "__main__":
    sys.exit(main())
