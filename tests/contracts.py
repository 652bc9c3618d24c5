#!/usr/bin/env python3
"""The public functions of all crates, each with the first sentence of its comment and the names of its clauses: docs/CONTRACTS.md.

    contracts.py             prints the page
    contracts.py --check     says whether docs/CONTRACTS.md is this page, and what mends it

It reads crates.txt and the sources of the crates. Public is what a crate's lib.rt exports: with pub use, pub mod, or because it stands
there. A crate that exports nothing, as a crate of tests or the program, has no section. Takes a second.
"""

import difflib
import pathlib
import re
import sys
import textwrap
from dataclasses import dataclass, field

TOP = pathlib.Path(__file__).resolve().parent.parent
PAGE = TOP / "docs" / "CONTRACTS.md"
MENDED_BY = "tests/contracts.py > docs/CONTRACTS.md"
WIDTH = 100
# A sentence of more signs is cut at a colon or semicolon, but not before so many.
LONG = 100
SHORT = 30
# The allocator and the texts of tests have no clause.
LEFT_OUT = {"metered", "worked"}

NAME = r"[A-Za-z_][A-Za-z0-9_]*"
VISIBLE = r"(?P<visible>pub(?:\([a-z ]+\))?\s+)?"
FUNCTION = re.compile(VISIBLE + rf"(?:const\s+)?(?:unsafe\s+)?(?:extern\s+\S*\s+)?fn\s+(?P<name>{NAME})")
DECLARED = re.compile(VISIBLE + rf"(?P<kind>struct|enum|union|trait|type|const|static)\s+(?P<name>{NAME})")
IMPLEMENTED = re.compile(r"(?:unsafe\s+)?impl\b")
MODULE = re.compile(VISIBLE + rf"mod\s+(?P<name>{NAME})\s*(?P<end>[;{{])")
USE = re.compile(VISIBLE + r"use\s+(?P<tree>[^;]*);")
CLAUSE = re.compile(rf"(?P<kind>requires|ensures)\b\s*(?P<name>{NAME})?\s*(?=\{{)")


class Unreadable(Exception):
    """What the script can't make sense of: the sources have a form that it does not know."""


# ---- reading a file


def blanked(text):
    """The text with each comment, string and sign literal as blanks, so that braces are braces. It has the length of the text."""
    literal = re.compile(
        r"""//[^\n]*                                  # a comment
          | r(?P<hashes>\#*)"(?:.|\n)*?"(?P=hashes)   # a raw string
          | "(?:\\(?:.|\n)|[^"\\])*"                 # a string
          | '(?:\\(?:x..|u\{[^}]*\}|.)|[^'\\])'      # a sign
        """,
        re.VERBOSE,
    )
    return literal.sub(lambda found: re.sub(r"[^\n]", " ", found.group()), text)


def end_of(text, at, pair="{}"):
    """The place behind the brace, or the bracket, that closes the one at this place."""
    depth = 0
    for place in range(at, len(text)):
        depth += (text[place] == pair[0]) - (text[place] == pair[1])
        if depth == 0:
            return place + 1
    raise Unreadable(f"a {pair[0]} is not closed")


class Source:
    """A file of a crate: its text, and the same with comments and strings as blanks."""

    def __init__(self, path):
        self.path = path
        self.text = path.read_text(encoding="utf-8")
        self.plain = blanked(self.text)
        self.functions = []
        self.types = {}
        self.implementations = []
        self.uses = {}
        self.exports = []
        self.public_modules = []
        try:
            self.read_items()
        except (Unreadable, IndexError, ValueError) as fault:
            raise Unreadable(f"{path}: {fault}") from fault

    def read_items(self):
        """Reads what stands in the file, item by item."""
        at = 0
        while at < len(self.plain):
            at = self.read_item(at)

    def read_item(self, at):
        """Reads the item at this place, if there is one, and gives the place behind it or behind one sign."""
        plain = self.plain
        if not is_start(plain, at):
            return at + 1
        if plain.startswith("#", at):
            return end_of(plain, plain.index("[", at), "[]")
        if found := FUNCTION.match(plain, at):
            function, behind = self.read_function(found)
            self.functions.append(function)
            return behind
        if found := USE.match(plain, at):
            self.read_use(found)
            return found.end()
        if re.compile(r"ghost\b").match(plain, at):
            return self.behind_item(at)
        if found := MODULE.match(plain, at):
            if found["end"] == "{":
                return end_of(plain, found.end() - 1)
            if is_public(found):
                self.public_modules.append(found["name"])
            return found.end()
        if found := DECLARED.match(plain, at):
            behind = self.behind_item(found.end(), found["kind"] in ("type", "const", "static"))
            self.types[found["name"]] = self.read_type(found, behind)
            return behind
        if found := IMPLEMENTED.match(plain, at):
            opened = plain.index("{", at)
            behind = end_of(plain, opened)
            self.implementations.append(self.read_implementation(at, opened, behind))
            return behind
        return at + 1

    def read_type(self, found, behind):
        """A type, a trait or a constant; of a trait its methods."""
        is_trait = found["kind"] == "trait"
        methods = self.read_methods(self.plain.index("{", found.end()), behind) if is_trait else []
        return Declared(found["name"], is_trait, is_public(found), self.comment_before(found.start()), methods)

    def read_implementation(self, at, opened, behind):
        """For which type an impl is, and of which trait, with its methods."""
        head = without_parameters(re.sub(r"^(unsafe\s+)?impl\b", "", self.plain[at:opened]).strip())
        head = re.split(r"\bwhere\b", head)[0].strip()
        trait, _, of = head.rpartition(" for ")
        return Implementation(last_name(of or head), last_name(trait), self.read_methods(opened, behind))

    def read_methods(self, opened, behind):
        """The functions between these braces."""
        methods = []
        at = opened + 1
        while at < behind - 1:
            found = FUNCTION.match(self.plain, at) if is_start(self.plain, at) else None
            if found:
                method, at = self.read_function(found)
                methods.append(method)
            elif self.plain[at] == "{":
                at = end_of(self.plain, at)
            else:
                at += 1
        return methods

    def read_function(self, found):
        """A function with its clauses, which stand between its head and its body or semicolon, and the place behind it."""
        plain = self.plain
        clauses = []
        at = found.end()
        while plain[at] not in "{;":
            clause = CLAUSE.match(plain, at) if is_start(plain, at) else None
            if clause:
                clauses.append((clause["kind"], clause["name"]))
                at = end_of(plain, clause.end())
            elif plain[at] == "[":
                at = end_of(plain, at, "[]")
            else:
                at += 1
        behind = at + 1 if plain[at] == ";" else end_of(plain, at)
        comment = self.comment_before(found.start())
        return Function(found["name"], is_public(found), comment, clauses), behind

    def read_use(self, found):
        """Which names a use brings in, and from where."""
        for path, name in names_of(re.sub(r"\s+", "", re.sub(r"\bas\b", "@", found["tree"]))):
            self.uses[name] = path
            if is_public(found):
                self.exports.append((name, path))

    def behind_item(self, at, has_value=False):
        """The place behind an item, which ends with a semicolon, or with a block unless it has a value."""
        depth = 0
        while at < len(self.plain):
            sign = self.plain[at]
            depth += {"[": 1, "(": 1, "]": -1, ")": -1}.get(sign, 0)
            at = end_of(self.plain, at) if sign == "{" else at + 1
            if depth == 0 and (sign == ";" or sign == "{" and not has_value):
                rest = re.compile(r"\s*;").match(self.plain, at)
                return rest.end() if rest else at
        raise Unreadable("an item has no end")

    def comment_before(self, at):
        """The lines of the /// comment in front of the item at this place; attributes may stand between."""
        lines = []
        for line in reversed(self.text[: self.text.rfind("\n", 0, at) + 1].splitlines()):
            line = line.strip()
            if line.startswith("///"):
                lines.insert(0, line[3:].strip())
            elif not line.startswith("#["):
                break
        return lines

    def head(self):
        """The lines of the //! comment of the file."""
        lines = [line.strip() for line in self.text.splitlines()]
        return [line[3:].strip() for line in lines if line.startswith("//!")]


@dataclass
class Declared:
    """A type, a trait or a constant; of a trait its methods."""

    name: str
    is_trait: bool
    is_public: bool
    comment: list
    methods: list


@dataclass
class Implementation:
    """The functions that a type has, by itself or by a trait."""

    of: str
    trait: str
    methods: list


@dataclass
class Function:
    """A function: its comment, and the kind and name of each of its clauses."""

    name: str
    is_public: bool
    comment: list
    clauses: list


def is_start(plain, at):
    """Whether a word, or an attribute, may begin at this place."""
    if plain[at].isspace():
        return False
    return at == 0 or not (plain[at - 1].isalnum() or plain[at - 1] in "_'")


def is_public(found):
    """Whether what was found is seen outside of the crate."""
    return (found["visible"] or "").strip() == "pub"


def without_parameters(head):
    """The head of an impl without the parameters in angle brackets."""
    depth = 0
    kept = []
    for sign in head.replace("->", "  "):
        depth += sign == "<"
        if depth == 0:
            kept.append(sign)
        depth -= sign == ">"
    return " ".join("".join(kept).split())


def last_name(path):
    """The last name of a path or a reference."""
    found = re.findall(NAME, path)
    return found[-1] if found else ""


def names_of(tree, before=()):
    """Each name of a tree of a use, with the path that it stands for."""
    found = re.fullmatch(r"((?:[^{}]*::)?)\{(.*)\}", tree)
    if not found:
        path, _, name = tree.partition("@")
        path = [*before, *path.split("::")]
        if path[-1] == "self":
            path.pop()
        return [(tuple(path), name or path[-1])]
    front = [*before, *filter(None, found[1].split("::"))]
    return [pair for part in parted(found[2]) for pair in names_of(part, front)]


def parted(text):
    """The parts of a list with commas, some of which may be lists in braces."""
    parts, depth, part = [], 0, ""
    for sign in text:
        depth += {"{": 1, "}": -1}.get(sign, 0)
        if sign == "," and depth == 0:
            parts.append(part)
            part = ""
        else:
            part += sign
    return [part for part in [*parts, part] if part]


# ---- what a crate exports


@dataclass
class Exported:
    """What a crate exports: functions, each under its name; types, each under its name, with its module; modules; what is of others,
    by its path there, with its name here."""

    functions: list = field(default_factory=list)
    types: list = field(default_factory=list)
    modules: list = field(default_factory=list)
    passed_on: list = field(default_factory=list)

    def is_empty(self):
        """Whether the crate exports nothing of its own."""
        return not (self.functions or self.types or self.modules)


class Crate:
    """A crate, by its files."""

    def __init__(self, name):
        self.name = name
        self.sources = {}
        folder = TOP / "crates" / name / "src"
        for path in sorted(folder.rglob("*.rt")):
            parts = path.relative_to(folder).with_suffix("").parts
            self.sources[tuple(part for part in parts if part not in ("lib", "main", "mod"))] = Source(path)
        if () not in self.sources:
            raise Unreadable(f"crates/{name}/src has neither lib.rt nor main.rt")
        self.root = self.sources[()]

    def exported(self):
        """What the crate exports."""
        found = self.exported_by(())
        found.modules = [(name, self.exported_by((name,))) for name in self.root.public_modules]
        for name, path in self.root.exports:
            self.add_name(path, name, found)
        return found

    def exported_by(self, module):
        """What stands as public in a module that others see."""
        source = self.sources[module]
        found = Exported()
        found.functions = [(function.name, function) for function in source.functions if function.is_public]
        found.types = [(name, module, declared) for name, declared in source.types.items() if declared.is_public]
        return found

    def add_name(self, path, shown, found):
        """Adds what a path leads to: something of a module, which may have it from another one, or of another crate."""
        module, name = self.module_of(path), path[-1]
        if module is None:
            found.passed_on.append(("::".join(path), shown))
            return
        source = self.sources[module]
        functions = [function for function in source.functions if function.name == name]
        if name in source.types:
            found.types.append((shown, module, source.types[name]))
        elif functions:
            found.functions.append((shown, functions[0]))
        elif source.uses.get(name, path) != path:
            self.add_name(source.uses[name], shown, found)
        else:
            raise Unreadable(f"{self.name} exports {shown}, which is not in {source.path}")

    def module_of(self, path):
        """The module of this crate in which a path ends, or None where it is of another crate."""
        module = path[1:-1] if path[0] in ("crate", "self") else path[:-1]
        return tuple(module) if tuple(module) in self.sources else None

    def methods(self, module, declared):
        """The methods of a type that others see, and those of its traits that have clauses, under the names of these."""
        found = [(method.name, method) for method in declared.methods]
        for here, source in self.sources.items():
            for implementation in source.implementations:
                if implementation.of == declared.name and self.means(here, declared.name, module):
                    found.extend(seen_methods(implementation))
        return found

    def means(self, here, name, module):
        """Whether a name stands in one module for what is declared in another."""
        source = self.sources[here]
        if name in source.types:
            return here == module
        path = source.uses.get(name)
        if path is None:
            return here[: len(module)] == module
        home = self.module_of(path)
        if home is None or home == here:
            return False
        return home == module or self.means(home, path[-1], module)


def seen_methods(implementation):
    """The methods of an impl that others see: its own that are public, or those of a trait that have clauses."""
    if not implementation.trait:
        return [(method.name, method) for method in implementation.methods if method.is_public]
    return [(f"{implementation.trait}::{method.name}", method) for method in implementation.methods if method.clauses]


# ---- the page


def crates():
    """The names of the crates, lowest first."""
    lines = (TOP / "crates.txt").read_text(encoding="utf-8").splitlines()
    # behind the name may stand a word for the kind of the crate
    return [line.split(":")[0].split()[0] for line in lines if line.strip() and not line.startswith("#")]


def first_sentence(lines):
    """The first sentence of a comment, or its first paragraph where that has no full stop."""
    paragraph = []
    for line in lines:
        if not line:
            break
        paragraph.append(line)
    text = " ".join(" ".join(paragraph).split())
    return front(text, r"(?<!\.)\.(?=\s|$)", 0) or text.rstrip(":.") + "." * bool(text)


def front(text, end, least):
    """The text up to what ends it, outside of parentheses and code, with a full stop; empty where nothing does."""
    for found in re.finditer(end, text):
        plain = re.sub(r"`[^`]*`", "", text[: found.start()])
        if found.start() >= least and plain.count("(") == plain.count(")") and "`" not in plain:
            return text[: found.start()] + "."
    return ""


def in_short(function):
    """The first sentence of a function's comment, and of a long one the part before a colon or semicolon."""
    sentence = first_sentence(function.comment) or "As its trait says."
    return len(sentence) > LONG and front(sentence, r"[:;]\s", SHORT) or sentence


def clause_words(function):
    """The names of the clauses: what a caller has to see to, and what is promised, unless that is one clause without a name."""
    asked = [name for kind, name in function.clauses if kind == "requires"]
    promised = [name for kind, name in function.clauses if kind == "ensures"]
    words = [listed("asks", asked)] * bool(asked) + [listed("promises", promised)] * (promised != [None])
    return "; ".join(words).capitalize() + "." * bool(words)


def listed(word, names):
    """The clauses of one kind, those without a name by how many they are."""
    said = [name for name in names if name]
    unnamed = len(names) - len(said)
    if unnamed:
        said.append("one clause" if unnamed == 1 else f"{unnamed} clauses")
    return f"{word} " + ", ".join(said or ["nothing"])


def wrapped(text, first="", rest=""):
    """The text in lines of one width. A name with its clauses is not parted within a word."""
    return textwrap.fill(
        text, WIDTH, initial_indent=first, subsequent_indent=rest, break_long_words=False, break_on_hyphens=False
    )


def rows(functions, said):
    """The lines of functions, and one for all that have no clause."""
    lines = [
        wrapped(f"`{name}`: {said(function)} {clause_words(function)}", "- ", "  ")
        for name, function in functions
        if function.clauses
    ]
    without = [name for name, function in functions if not function.clauses]
    if without:
        lines.append(wrapped(f"Without a clause: {in_words(without)}.", "- ", "  "))
    return [*lines, ""]


def in_words(names):
    """The names as code, with commas."""
    return ", ".join(f"`{name}`" for name in names)


def passed_on(path, shown):
    """What is of another crate, and the name that it has here where that is another one."""
    return f"`{path}`" if shown == last_name(path) else f"`{path}` as `{shown}`"


def section(crate, exported):
    """The part of a crate: what stands under its own name, and then its modules."""
    lines = [f"## {crate.name}", "", wrapped(first_sentence(crate.root.head())), ""]
    lines += exports(crate, exported, in_short)
    for name, found in exported.modules:
        lines += [wrapped(f"**Module `{name}`.** {first_sentence(crate.sources[(name,)].head())}"), ""]
        lines += exports(crate, found, whole if name == "laws" else in_short)
    return lines


def whole(function):
    """The first sentence of a law, however long."""
    return first_sentence(function.comment)


def exports(crate, exported, said):
    """Functions, then each type that has some, then what is there beside these."""
    lines = rows(exported.functions, said) if exported.functions else []
    alone = []
    for name, module, declared in exported.types:
        methods = crate.methods(module, declared)
        if any(method.clauses for _, method in methods):
            lines += [wrapped(f"{title(name, declared)} {first_sentence(declared.comment)}"), ""]
            lines += rows(methods, said)
        else:
            alone.append(name)
    if alone:
        lines += [wrapped(f"Beside these: {in_words(alone)}."), ""]
    if exported.passed_on:
        lines += [wrapped(f"Passed on: {', '.join(passed_on(path, shown) for path, shown in exported.passed_on)}."), ""]
    return lines


def title(name, declared):
    """What stands before the first sentence of a type."""
    return f"**Trait `{name}`.**" if declared.is_trait else f"**`{name}`.**"


def functions_of(crate, exported):
    """All functions that are exported."""
    functions = [function for _, function in exported.functions]
    functions += [method for _, module, declared in exported.types for _, method in crate.methods(module, declared)]
    return functions + [function for _, found in exported.modules for function in functions_of(crate, found)]


HEAD = """\
# The contracts

Each public function of each crate, with what its comment says first and the names of the clauses of
its contract. `tests/contracts.py` makes this page from the sources, and `make test` compares it
with them.

A clause stands in the source, between the head of a function and its body. What the function *asks*
(`requires`), a caller has to see to; what it *promises* (`ensures`), the checker has proved of its
body. Behind these two words stand the names of the clauses: ok speaks of an answer that is no error,
err of an error and of what it leaves. Where no promise is mentioned, there is exactly one, without
a name. The functions of a module `laws` do nothing: their clauses are theorems. `Beside these` are
types whose functions have no clause, or that have none, and constants.

The definitions that clauses cite are in each crate's `specs/`, and [DEFINITIONS.md](DEFINITIONS.md)
says them in words. [PROMISES.md](PROMISES.md) says by which of these contracts a reader judges.
"""


def page():
    """The whole page."""
    found = [Crate(name) for name in crates() if name not in LEFT_OUT]
    exported = [(crate, crate.exported()) for crate in found]
    exported = [(crate, parts) for crate, parts in exported if not parts.is_empty()]
    functions = [function for crate, parts in exported for function in functions_of(crate, parts)]
    clauses = sum(len(function.clauses) for function in functions)
    lines = [HEAD, f"{len(exported)} crates, lowest first; {len(functions)} functions with {clauses} clauses.", ""]
    for crate, parts in exported:
        lines += section(crate, parts)
    return "\n".join(lines).rstrip("\n") + "\n"


def check(made):
    """Whether the page that stands is the one that was made; if not, what differs first."""
    stands = PAGE.read_text(encoding="utf-8") if PAGE.exists() else ""
    if stands == made:
        return 0
    differs = difflib.unified_diff(stands.splitlines(), made.splitlines(), "docs/CONTRACTS.md", "the sources", "", "", 0, "")
    print("\n".join(list(differs)[:12]))
    print(f"contracts: docs/CONTRACTS.md is not what the sources say; this mends it: {MENDED_BY}", file=sys.stderr)
    return 1


def main(words):
    if words not in ([], ["--check"]):
        print(__doc__, file=sys.stderr)
        return 2
    try:
        made = page()
    except Unreadable as fault:
        print(f"contracts: {fault}", file=sys.stderr)
        return 1
    if words:
        return check(made)
    sys.stdout.write(made)
    return 0


if __name__ == "__main__":
    sys.exit(main(sys.argv[1:]))
