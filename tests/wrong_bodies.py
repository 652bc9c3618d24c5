#!/usr/bin/env python3
"""Tries the wrong bodies of crates/NAME/wrong/*.edit, many at once: the prover has to refuse each of them by a clause.

    wrong_bodies.py [--anew] [--told] [--until SECONDS] [--in FOLDER] [NAME ..]
    wrong_bodies.py --read [--in FOLDER] [NAME ..]

NAME limits it to these crates. --anew also tries what was refused before. --told says of each edit what refused it. --read only
reads the edits, and says which no longer fit the sources. --in must-fail tries those of that folder in place of wrong/. With --until
no check begins after that time, in seconds since 1970; then the crates that were changed last come first, and it is said at the end
how many edits are left.

A wrong body is an edit, in the form that `rt` without a word explains: lines `file:`, `old:` and `new:`. `rt ci` tries those of
must-fail/ one by one. Here the edits of a crate are tried in groups, no two of them in one function. For the prover names each
function that it refuses, and the place in its proof that no longer fits. A caller is proved by the contract of what it calls, and
not by its body. So one wrong body hides no other, and none is refused for another's sake. And so each function that no edit of the
group changes has no body there, and a hole for its proof: it would be proved again, and what it calls. What changes more than
bodies, as a definition, a constant or a clause, is tried alone, and so is what is not refused in its group. Such an edit has a line
`in: PATH` with the function that has to be refused, as `in: reading::read_list`: with it that function alone is proved. What is not
refused alone either is tried once more over the whole crate, with all its bodies and proofs.

The crate as it stands is proved already: `rt ci` or `rt lib` left its library in out/, or it is built first, and so is what it
stands on. A static library leaves nothing there, so its first check is of the sources as they are. The first check of a crate
begins with what `rt check` kept, or with nothing, and the others go on from its work. Some checks run side by side: as many as
there are processors, or RT_JOBS, where each finds MEMORY bytes free. An edit is refused by a clause where an error stands in the
proof of its function, or a goal of it is left open. It doesn't count where all errors are of names: a proof that names what the
edit took away, or a text that doesn't compile.

What was refused is kept by the checksum of all that was read, in ${XDG_CACHE_HOME:-~/.cache}/census/wrong-bodies, so that a later
run tries only what changed. The exit status is 0 only where each edit is refused by a clause.
"""

import argparse
import concurrent.futures
import difflib
import functools
import hashlib
import importlib.machinery
import importlib.util
import json
import os
import re
import shutil
import signal
import subprocess
import sys
import tempfile
import time

ROOT = os.path.dirname(os.path.dirname(os.path.abspath(__file__)))
MOST = 24  # edits of a group: more would leave a lane at work when the others have ended
MEMORY = 4_500_000_000  # what a check may take
KEPT = os.path.join(os.environ.get("XDG_CACHE_HOME") or os.path.expanduser("~/.cache"), "census", "wrong-bodies")
KEPT_DAYS = 60

REFUSED = "refused"
BY_NAME = "REFUSED BY A NAME ALONE"
BY_LIMIT = "REFUSED BY A LIMIT ALONE"
MISSED = "NOT REFUSED"
BAD = "BAD EDIT"
UNSURE = "NOT TRIED"

# Errors of a proof that names what an edit took away, and of what rests on that proof. The words may stand below the first line.
OF_A_NAME = re.compile(r"(note: )?(\./)?proofs/.*(has no field|is not in scope|has no `|was not admitted)", re.DOTALL)
AT_A_PLACE = re.compile(r"(note: )?\S+:\d+:\d+:")
PROOF_ERROR = re.compile(r"(?:\./)?proofs/(?:(\S+)/)?[^/\s]+\.antt:\d+:\d+: error")
OPEN_GOAL = re.compile(r"note: src/\S+:\d+:\d+: it is not proved that")
FUNCTION = re.compile(r"fn (\S+): (.*)")
NO_FUNCTION = re.compile(r"has no function `(\S+)`")

# The proof of a function that is not tried.
HOLE = """\
use Rattle.{crate}.proofs.{module}.Statement.{{statement}}

pub {name}_spec : {{M : Type 1}} → statement M
{name}_spec = ?
"""


def load_kit():
    """Loads rt, from which the list of the crates, the words of a check and the reading of an edit are taken."""
    program = shutil.which("rt") or sys.exit("wrong_bodies: there is no rt on the path")
    sys.dont_write_bytecode = True
    loader = importlib.machinery.SourceFileLoader("rt", os.path.realpath(program))
    made = importlib.util.module_from_spec(importlib.util.spec_from_loader("rt", loader))
    sys.modules["rt"] = made
    loader.exec_module(made)
    return made


rt = load_kit()


# What an edit changes


@functools.cache
def tokens_of(file):
    """Returns the tokens of a source that are code, each with its line and its first byte: no comment, no literal and no clause."""
    with open(file, "rb") as it:
        data = it.read()
    ran = subprocess.run([rt.rtlib.RATTLE, "fmt", "--tokens", file], capture_output=True, check=True)
    rows = re.finditer(rb"(?m)^(\d+) (\d+) (\d+) Code\b", ran.stdout)
    return [(int(row[1]), int(row[2]), data[int(row[2]) : int(row[3])].decode()) for row in rows]


def after_generics(words):
    """Returns what follows the parameters in < > at the front, if there are any."""
    if not words or words[0] != "<":
        return words
    depth = 0
    for at, word in enumerate(words):
        depth += (word == "<") - (word == ">" and words[at - 1] != "-")
        if not depth:
            return words[at + 1 :]
    return []


def name_of_type(words):
    """Returns how the prover names a type: the last name of its path, without what stands in < >, with a capital, as `U64`, and with a
    Ref before that where it is behind a `&`; or ? where it is another one."""
    names = []
    for word in words[1:] if words[:1] == ["&"] else words:
        if word in ("(", "[", "&", "mut"):
            return "?"
        if word == "<":
            break
        if re.fullmatch(r"\w+", word) and word != "dyn":
            names.append(word)
    ref = "Ref" if words[:1] == ["&"] else ""
    return ref + names[-1][0].upper() + names[-1][1:] if names else "?"


def arguments_of(words):
    """Returns what stands in the < > of a type, or of the parameters of an impl, each part between commas."""
    found, depth = [[]], 0
    for at, word in enumerate(words):
        depth -= word == ">" and words[at - 1] != "-"
        if depth == 1 and word == ",":
            found.append([])
        elif depth:
            found[-1].append(word)
        depth += word == "<"
        if not depth and word == ">":
            break
    return [it for it in found if it]


def name_of_impl(words):
    """Returns how the prover names an impl: by the type, and by the trait and the types that it is for, if there is one."""
    parameters = {it[0] for it in arguments_of(words)} if words[:1] == ["<"] else set()
    words, depth = after_generics(words), 0
    for at, word in enumerate(words):
        depth += (word == "<") - (word == ">" and words[at - 1] != "-")
        if word == "for" and not depth:
            types = [name_of_type(it) for it in arguments_of(words[:at]) if it[0] not in parameters]
            return "".join([name_of_type(words[at + 1 :]), name_of_type(words[:at]), *types]), True
    return name_of_type(words), False


class Function:
    """A function of a source: the place that its name has in the crate, the lines and the first bytes of the braces of its body, and
    whether the body alone says what is constant, or what type is returned."""

    def __init__(self, place, head, opens, closes):
        self.place, self.first, self.last, self.opens, self.closes = place, opens[0], closes[0], opens[1], closes[1]
        returned = head[head.index("-") :] if "-" in head else []
        self.says_more = "const" in head or "impl" in returned


def functions_of(file, module):
    """Returns the functions of a source."""
    tokens, found, scopes, pending, depth = tokens_of(file), [], [], None, 0
    for at, (line, first, word) in enumerate(tokens):
        following = tokens[at + 1][2] if at + 1 < len(tokens) else ""
        in_body = any(kind == "fn" for kind, *_ in scopes)
        if word in ("(", "["):
            depth += 1
        elif word in (")", "]"):
            depth -= 1
        elif word == "{":
            scopes.append((*(pending or ("block", "", at)), (line, first), at, depth))
            pending, depth = None, 0
        elif word == "}":
            kind, name, begins, opens, ends, depth = scopes.pop()
            if kind == "fn" and not any(it[0] in ("fn", "macro") for it in scopes):
                above = [it[1] for it in scopes if it[0] == "mod"]
                owner = next((it[1] for it in scopes if it[0] in ("impl", "trait")), None)
                head = [it for _, _, it in tokens[max(begins - 1, 0) : ends]]
                found.append(Function((*module, *above, *([owner] if owner else []), name), head, opens, (line, first)))
        elif word == ";" and not depth:
            pending = None
        elif not in_body and not pending:
            if word in ("fn", "mod", "trait") and re.fullmatch(r"\w+", following):
                pending = word, (following, False) if word == "trait" else following, at
            elif word == "impl":
                head = [it for _, _, it in tokens[at + 1 : at + 200]]
                ends = [head.index(it) for it in ("{", "where") if it in head]
                pending = "impl", name_of_impl(head[: min(ends, default=0)]), at
            elif word == "macro_rules":
                pending = "macro", "", at
    return found


def module_of(file):
    """Returns the path of the module that a source is, below the crate."""
    path = file[len("src/") : -len(".rt")].split("/")
    return path[:-1] if path[-1] in ("lib", "main", "mod") else path


def types_of(file, module):
    """Returns the structs and enums that a source declares, each with the path of its module."""
    words = [word for _, _, word in tokens_of(file)]
    return [(words[at + 1], tuple(module)) for at, word in enumerate(words[:-1]) if word in ("struct", "enum")]


def path_of(place):
    """Returns the path that a check is given for the function at a place, and that of its module, if it is not the crate's root."""
    names = [it[0] if isinstance(it, tuple) else it for it in place]
    owner = next((at for at, it in enumerate(place) if isinstance(it, tuple)), len(place) - 1)
    return "::".join(names), "::".join(names[:owner])


def is_named(place, names):
    """Returns whether the names, those of a path of modules, lead to the function at this place, or to a closure in it."""
    names = [it.partition("+")[0] for it in names if it != "fn"]
    if len(names) < len(place):
        return False
    for part, name in zip(place, names):
        if isinstance(part, tuple):
            owner, has_trait = part
            if not (name.startswith(owner) if has_trait else name == owner):
                return False
        elif part != name:
            return False
    return True


def changes_of(was, now):
    """Returns the lines that differ: where they begin and end in the first text, and what the second has in their place."""
    was, now = was.splitlines(True), now.splitlines(True)
    pairs = difflib.SequenceMatcher(None, was, now, autojunk=False).get_opcodes()
    return [(first, end, now[start:stop]) for kind, first, end, start, stop in pairs if kind != "equal"]


class Edit:
    """A wrong body: the lines that it changes, by file, the functions in whose bodies they stand, or None, and the functions that the
    edit itself names as those that are refused."""

    def __init__(self, crate, path, functions):
        self.name = f"{crate.name}/{os.path.splitext(os.path.basename(path))[0]}"
        with open(path, "rb") as it:
            data = it.read()
        self.sum = hashlib.sha256(data).hexdigest()
        self.named = re.findall(r"(?m)^in: (\S+)$", data.decode(errors="replace"))
        texts, self.fault = rt.read_edit(path, crate.folder)
        self.texts, self.changes, found = texts or {}, {}, []
        for file, text in self.texts.items():
            with open(f"{crate.folder}/{file}", encoding="utf-8") as it:
                self.changes[file] = changes_of(it.read(), text)
            for first, end, _ in self.changes[file]:
                inside = (it.place for it in functions(file) if it.first <= first and max(end, first + 1) < it.last)
                found.append(next(inside, None))
        self.places = {*found} if found and None not in found else None


class Crate:
    """A crate with wrong bodies: those that are to be tried, the folders where it is tried, and what came of each."""

    def __init__(self, known, folder):
        self.known, self.name, self.sources, self.types = known, known.name, {}, None
        at = f"{known.folder}/{folder}"
        files = sorted(it for it in os.listdir(at) if it.endswith(".edit")) if os.path.isdir(at) else []
        self.edits = [Edit(known, f"{at}/{it}", self.functions) for it in files]
        self.found = {it: (BAD, it.fault) for it in self.edits if it.fault}
        self.left, self.later, self.seed, self.copy, self.rank, self.unholed = [], [], None, None, 0, set()
        self.groups, self.checks, self.seconds, self.memory, self.dearest = 0, 0, 0.0, 0.0, (0.0, "")

    def functions(self, file):
        """Returns the functions of a source, and none of a definition."""
        if not file.startswith("src/") or not file.endswith(".rt"):
            return []
        if file not in self.sources:
            self.sources[file] = self.functions_at(f"{self.known.folder}/{file}", file)
        return self.sources[file]

    def functions_at(self, path, file):
        """Returns the functions of a source, or of a text at this path that is to be one."""
        found = functions_of(path, module_of(file))
        for it in found:
            it.place = self.at_home(it.place)
        return found

    def at_home(self, place):
        """Returns the place of a function as the prover has it: a method that is no trait's stands where its type does."""
        at = next((at for at, it in enumerate(place) if isinstance(it, tuple) and not it[1]), None)
        home = None if at is None else self.homes().get(place[at][0])
        return place if home is None else (*home, *place[at:])

    def homes(self):
        """Returns of each type of the crate the path of its module."""
        if self.types is None:
            self.types = dict(it for file in self.all_sources() for it in types_of(f"{self.known.folder}/{file}", module_of(file)))
        return self.types

    def all_sources(self):
        """Returns the paths of all sources, from the crate's folder."""
        at = f"{self.known.folder}/src"
        return [os.path.relpath(f"{top}/{it}", self.known.folder) for top, _, names in os.walk(at) for it in names if it.endswith(".rt")]

    def all_functions(self):
        """Returns the places of all functions of the sources."""
        return {it.place for file in self.all_sources() for it in self.functions(file)}

    def stamp(self):
        """Returns a sum of all that a check of the crate reads, and of what judges it here."""
        total = hashlib.sha256(self.known.stamp().encode())
        for file in (f"{rt.KIT}/KIT-ID", os.path.abspath(__file__)):
            with open(file, "rb") as it:
                total.update(it.read())
        return total.hexdigest()

    def begin(self, anew):
        """Sets apart what an earlier run saw refused."""
        self.first_stamp = self.stamp()
        kept = {} if anew else self.kept()
        self.found.update({it: (REFUSED, kept[it.sum]) for it in self.edits if it.sum in kept and it not in self.found})
        self.left = [it for it in self.edits if it not in self.found]
        self.old = sum(kind == REFUSED for kind, _ in self.found.values())

    def kept(self):
        try:
            with open(f"{KEPT}/{self.name}-{self.first_stamp}.json", encoding="utf-8") as it:
                return json.load(it)
        except (OSError, ValueError):
            return {}

    def keep(self):
        """Keeps what was refused, unless a file was changed while it was tried."""
        if self.stamp() != self.first_stamp:
            return
        told = {it.sum: told for it, (kind, told) in self.found.items() if kind == REFUSED}
        os.makedirs(KEPT, exist_ok=True)
        with tempfile.NamedTemporaryFile("w", dir=KEPT, delete=False, encoding="utf-8") as it:
            json.dump({**self.kept(), **told}, it)
        os.replace(it.name, f"{KEPT}/{self.name}-{self.first_stamp}.json")


# A check


def is_left_by_ci(known):
    """Returns whether the crate's library is one that rt ci left, which has no stamp, after the last change of a source."""
    top = f"{known.folder}/out/rlib"
    if os.path.exists(f"{top}/stamp") or not os.path.isfile(f"{known.rlib}/format"):
        return False
    made = os.stat(known.rlib).st_mtime
    parts = [f"{it.folder}/{part}" for it in [known, *known.below()] for part in rt.rtlib.PARTS]
    read = [path for part in parts for at, _, files in os.walk(part) for path in [at, *(f"{at}/{it}" for it in files)]]
    return all(os.lstat(it).st_mtime < made for it in read)


def build_libraries(crates):
    """Builds the libraries of these crates and those below, where rt ci has not just left them, and returns why that failed, if it did.
    A crate whose library is there is proved as it stands; a static one is a library of no other crate."""
    wanted = []
    for crate in crates:
        own = [] if crate.known.is_static else [crate.known]
        wanted += [it for it in [*crate.known.below(), *own] if it not in wanted]
    if all(is_left_by_ci(it) for it in wanted):
        return None
    for known in wanted:
        if not known.is_built():
            ran = subprocess.run([f"{rt.KIT}/bin/rt", "lib", "--jobs", "1"], cwd=known.folder, stdout=subprocess.PIPE, stderr=subprocess.STDOUT, text=True, errors="replace")
            if ran.returncode:
                return f"the library {known.name} did not build: {ran.stdout[-600:]}"
    return None


class Check:
    """One check of a crate with some edits, or with none, of what all of them change, and what it came to. Where it is the crate's first
    it leaves its work for the others, which go on from a copy."""

    def __init__(self, crate, edits):
        self.crate, self.edits, self.is_first, self.is_again, self.unknown = crate, edits, False, False, set()
        self.about, self.is_whole, self.is_emptied = edits or crate.left, False, True
        self.status, self.lines, self.seconds, self.memory, self.holes = None, [], 0.0, 0.0, []

    def paths(self):
        """Returns what is to be proved: the functions that are changed, or the module of one that the prover calls otherwise than the
        source does; those that an edit names; or, where there are none, the whole crate."""
        if self.is_whole:
            return []
        # (what calls a refused function would be tried again, to no end)
        changed = [path_of(place) for it in self.about for place in it.places or []]
        found = {module if path in self.unknown else path for path, module in changed}
        found.update(path for it in self.about if not it.places for path in it.named)
        return [] if "" in found else sorted(found)

    def has_holes(self):
        """Returns whether each function that is not tried has a hole for its proof: where the whole crate is not tried."""
        return bool(self.paths())

    def unknown_path(self):
        """Returns the path of a changed function that the prover said not to know, if it did."""
        said = next((match[1] for it in self.lines for match in [NO_FUNCTION.search(it)] if match), None)
        known = {path_of(place)[0] for it in self.about for place in it.places or []}
        return said if said in known - self.unknown else None

    def refused_holes(self):
        """Returns the paths of the functions in whose proofs a hole stands that the prover cannot read, or that it calls otherwise."""
        names = {"/".join(it.split("::")): it for it in self.holes}
        found = {names.get(match[1]) for it in self.lines for match in [PROOF_ERROR.match(it)] if match}
        found.update(match[1] for it in self.lines for match in [NO_FUNCTION.search(it)] if match)
        return found & {*self.holes}

    def about_what(self):
        """Returns which edit is tried, or one of them and how many others."""
        if not self.edits:
            return "the crate as it is"
        others = f" and {len(self.edits) - 1} others" if len(self.edits) > 1 else ""
        return os.path.basename(self.edits[0].name) + others

    def has_verdict(self):
        """Returns whether each edit was read, so that the prover says of each function whether it is proved."""
        if any(rt.unread(it, {file for edit in self.edits for file in edit.changes}) for it in self.lines):
            return False
        return self.status in (0, 1) and self.lines[-1].startswith(("only=", "logic="))

    def texts(self):
        """Returns the files with all edits in them."""
        if len(self.edits) == 1:
            return self.edits[0].texts
        found = {}
        for file in sorted({file for it in self.edits for file in it.changes}):
            with open(f"{self.crate.copy}/{file}", encoding="utf-8") as it:
                lines = it.read().splitlines(True)
            for first, end, new in sorted((it for edit in self.edits for it in edit.changes.get(file, [])), key=lambda it: it[:2], reverse=True):
                lines[first:end] = new
            found[file] = "".join(lines)
        return found

    def leave_holes(self, room):
        """Has a hole stand for the proof of each function that is not tried, and no body: its callers are proved by its contract all the
        same, and what it calls is not asked for."""
        tried = {path_of(place)[0] for it in self.about for place in it.places or []}
        tried.update(path for it in self.about for path in it.named)
        tried.update(self.crate.unholed)
        self.holes = sorted(it for it in {path_of(it)[0] for it in self.crate.all_functions()} - tried if "?" not in it)
        for path in self.holes:
            names = path.split("::")
            at = f"{room}/proofs/{'/'.join(names)}"
            os.makedirs(at, exist_ok=True)
            for file in ("Answers.antt", "Invariants.antt"):
                if os.path.exists(f"{at}/{file}"):
                    os.remove(f"{at}/{file}")
            with open(f"{at}/Proof.antt", "w", encoding="utf-8") as it:
                it.write(HOLE.format(crate=self.crate.name, module=".".join(names), name=names[-1]))
        for file in self.crate.all_sources() if self.is_emptied else []:
            self.empty_bodies(f"{room}/{file}", self.functions_in(room, file))

    def functions_in(self, room, file):
        """Returns the functions of a source as it stands in a room, and none where its text cannot be read."""
        if not any(file in it.texts for it in self.edits):
            return self.crate.functions(file)
        try:
            return self.crate.functions_at(f"{room}/{file}", file)
        except (subprocess.CalledProcessError, IndexError):
            return []

    def empty_bodies(self, path, functions):
        """Has each function of a source that has a hole run for ever."""
        holes = {*self.holes}
        with open(path, "rb") as it:
            data = it.read()
        for it in sorted(functions, key=lambda it: -it.opens):
            if path_of(it.place)[0] in holes and not it.says_more:
                data = data[: it.opens] + b"{ loop {} }" + data[it.closes + 1 :]
        with open(path, "wb") as it:
            it.write(data)

    def run(self):
        with tempfile.TemporaryDirectory(prefix="wrong-body-", dir=os.path.dirname(self.crate.copy)) as room:
            work = self.crate.seed
            if not self.is_first:
                work = f"{room}/work"
                rt.linked(self.crate.seed, work)
            for part in rt.rtlib.PARTS:
                if os.path.isdir(f"{self.crate.copy}/{part}"):
                    shutil.copytree(f"{self.crate.copy}/{part}", f"{room}/{part}")
            for file, text in self.texts().items():
                with open(f"{room}/{file}", "w", encoding="utf-8") as it:
                    it.write(text)
            if self.has_holes():
                self.leave_holes(room)
            words = [rt.rtlib.RATTLE, "check", *self.crate.known.words(["--jobs", "1"], keeps=False), "--incremental", work]
            words += ["--allow-holes"] * self.has_holes()
            words += [word for path in self.paths() for word in ("--only", path)]
            with open(f"{room}/said", "w+", encoding="utf-8", errors="replace") as said:
                ran = subprocess.Popen([*rt.rtlib.guarded(), *words], cwd=room, stdin=subprocess.DEVNULL, stdout=said, stderr=subprocess.STDOUT)
                _, status, used = os.wait4(ran.pid, 0)
                ran.returncode = self.status = os.waitstatus_to_exitcode(status)
                said.seek(0)
                self.lines = said.read().rstrip("\n").split("\n")
        self.seconds, self.memory = self.seconds + used.ru_utime + used.ru_stime, max(self.memory, used.ru_maxrss / 1e6)
        return self


# What a check came to


def messages_of(lines):
    """Returns what was said, each message with the indented lines below its first."""
    found = []
    for line in lines:
        if line.startswith("  ") and found:
            found[-1] += "\n" + line
        else:
            found.append(line)
    return found


def refusals_of(check):
    """Returns what was refused by a clause: of each function or file of lemmas its names, and what was said."""
    said = messages_of(check.lines)
    errors = [((match[1] or "").split("/"), it) for it in said for match in [PROOF_ERROR.match(it)] if match]
    told = [(match[1].split("::")[1:], it) for it in said for match in [FUNCTION.match(it)] if match]
    open_goals = [it for it in told if "`search` did not prove" in it[1] or "`search` gave up" in it[1]]
    return [it for it in [*errors, *open_goals] if not OF_A_NAME.match(it[1])]


def stands(check):
    """Returns whether a check of the sources as they are found no fault, but for the holes."""
    if not check.has_holes():
        return not check.status
    told = [match[2] for it in check.lines for match in [FUNCTION.match(it)] if match]
    return check.has_verdict() and all(it.startswith(("no holes", "depends on a hole", "assumed")) for it in told)


def judged_together(check):
    """Returns of each edit of a group what refused it by a clause, or None."""
    refused = refusals_of(check)
    return {it: next((told for names, told in refused if any(is_named(place, names) for place in it.places)), None) for it in check.edits}


def judged_alone(check):
    """Returns what an edit that was tried alone came to, and what was said, as rt judges one."""
    lines = check.lines
    if check.status == -signal.SIGKILL:
        return UNSURE, "its check was killed, most likely for memory"
    unread = next((it for it in lines if rt.unread(it, check.edits[0].texts)), None)
    if check.status == 1 and unread:
        return BAD, unread
    if check.status == 1 and lines[-1].startswith(("logic=not-proved", "only=")):
        told = [it for it in messages_of(lines) if AT_A_PLACE.match(it)]
        told = [it for it in told if ": error" in it or it.startswith("note: ")] or told
        by_clause = [it for it in told if not OF_A_NAME.match(it)]
        if told and not by_clause:
            return BY_NAME, told[0]
        return REFUSED, (by_clause or lines)[0]
    if check.status == 0:
        return MISSED, "it is still proved with this edit"
    limit = next((it for it in lines if rt.LIMITS.search(it)), None)
    if check.status == 3 and limit:
        return BY_LIMIT, limit
    error = next((it for it in lines if re.search(r"\berror\[[\w-]+\]", it)), None)
    if check.status == 1 and error:
        return BAD, error
    return UNSURE, f"its check ended with status {check.status}: {' '.join(lines[:3])}"


def parted(edits):
    """Parts edits into groups of one size, no two of them in one function."""
    counts = {}
    for it in edits:
        for place in it.places:
            counts[place] = counts.get(place, 0) + 1
    groups = [[] for _ in range(max(-(-len(edits) // MOST), max(counts.values(), default=0)))]
    for edit in sorted(edits, key=lambda it: -max(counts[place] for place in it.places)):
        groups.sort(key=len)
        free = [it for it in groups if not any(edit.places & other.places for other in it)]
        if free:
            free[0].append(edit)
        else:
            groups.append([edit])
    return groups


# All of them


class Trials:
    """The checks that are to be made, side by side, and what is made of each that has ended."""

    def __init__(self, crates, room):
        self.crates, self.room, self.waiting = crates, room, []
        for number, crate in enumerate(crates):
            crate.copy, crate.seed = f"{room}/{number}-{crate.name}", f"{room}/{number}-{crate.name}.seed"
            for part in rt.rtlib.PARTS:
                if os.path.isdir(f"{crate.known.folder}/{part}"):
                    shutil.copytree(f"{crate.known.folder}/{part}", f"{crate.copy}/{part}")
            begin_seed(crate)
            groups = parted([it for it in crate.left if it.places])
            groups += [[it] for it in crate.left if not it.places]
            crate.groups = len(groups)
            crate.later = [Check(crate, it) for it in ([[]] if crate.known.is_static else []) + groups]
            self.begin_first(crate)

    def begin_first(self, crate):
        """Has one check of a crate go before the others, which begin with its work."""
        first = crate.later.pop(0)
        first.is_first = True
        self.waiting.append(first)

    def run(self, lanes, until):
        running = set()
        with concurrent.futures.ThreadPoolExecutor(lanes) as pool:
            while self.waiting or running:
                if until is not None and time.time() >= until:
                    self.waiting = []
                # the first check of each crate comes first, those of the largest crates before all
                self.waiting.sort(key=lambda it: (it.crate.rank, not it.is_first, -it.crate.known.count(rb"\n")))
                while self.waiting and len(running) < lanes and (not running or rt.free() > MEMORY):
                    running.add(pool.submit(self.waiting.pop(0).run))
                if not running:
                    break
                ended, running = concurrent.futures.wait(running, return_when=concurrent.futures.FIRST_COMPLETED)
                for it in ended:
                    self.take(it.result())

    def take(self, check):
        """Takes what a check came to, and sets on those that follow from it."""
        crate = check.crate
        following = self.following(check)
        if check not in following:
            crate.checks, crate.seconds, crate.memory = crate.checks + 1, crate.seconds + check.seconds, max(crate.memory, check.memory)
            crate.dearest = max(crate.dearest, (check.seconds, check.about_what()))
            crate.keep()
        if check in following or not check.is_first:
            self.waiting += following
        else:
            crate.later += following
            if check.status in (0, 1):
                self.waiting += crate.later
                crate.later = []
            elif crate.later:
                self.begin_first(crate)
        if not crate.left:
            shutil.rmtree(crate.seed, ignore_errors=True)
            tried = len(crate.edits) - crate.old
            took = f"{clock(crate.seconds)} of processor time, {crate.memory:.1f} GB at most"
            dearest = f"the dearest {clock(crate.dearest[0])}, of {crate.dearest[1]}"
            print(f"{crate.name}: {tried} tried in {crate.groups} groups, {crate.checks} checks, {took}; {dearest}", flush=True)

    def following(self, check):
        """Settles what a check tells of its edits, and returns the checks that are still wanted for them."""
        unknown = check.unknown_path()
        if unknown:
            check.unknown.add(unknown)
            return [check]
        if check.status == -signal.SIGKILL and not check.is_again:
            # most likely for memory
            check.is_again = True
            return [check]
        holes = check.refused_holes()
        if holes:
            check.crate.unholed |= holes
            return [check]
        if check.has_holes() and check.is_emptied and not check.has_verdict():
            # it doesn't compile, most likely: for an edit's sake, or since a body is gone
            check.is_emptied = False
            return [check]
        if not check.edits:
            if not stands(check):
                for edit in [*check.about]:
                    self.settle(check.crate, edit, UNSURE, f"without it the crate is not proved: {' '.join(check.lines[:3])}")
                check.crate.later = []
            return []
        if len(check.edits) == 1 and check.has_holes():
            told = [it for _, it in refusals_of(check)] or [it for it in messages_of(check.lines) if OPEN_GOAL.match(it)]
            if told and check.has_verdict():
                self.settle(check.crate, check.edits[0], REFUSED, told[0])
                return []
            # (it may be refused elsewhere in the crate)
            whole = Check(check.crate, check.edits)
            whole.is_whole = True
            return [whole]
        if len(check.edits) == 1:
            self.settle(check.crate, check.edits[0], *judged_alone(check))
            return []
        if not check.has_verdict():
            # one of them doesn't compile, say
            half = len(check.edits) // 2
            return [Check(check.crate, check.edits[:half]), Check(check.crate, check.edits[half:])]
        wanted = []
        for edit, told in judged_together(check).items():
            if told:
                self.settle(check.crate, edit, REFUSED, told)
            else:
                wanted.append(Check(check.crate, [edit]))
        return wanted

    def settle(self, crate, edit, kind, told):
        crate.found[edit] = kind, told
        crate.left.remove(edit)
        if kind != REFUSED:
            print(f"{edit.name}: {kind}: {' '.join(told.split())[:400]}", flush=True)


def begin_seed(crate):
    """Makes the folder in which the crate's first check leaves its work, with what `rt check` kept, where it did."""
    work = rt.work_for(crate.known)
    if work:
        try:
            return rt.linked(work, crate.seed)
        except (OSError, shutil.Error):
            # (another command may write what this one copies)
            shutil.rmtree(crate.seed, ignore_errors=True)
    os.makedirs(crate.seed)


def clock(seconds):
    return f"{int(seconds) // 60}:{int(seconds) % 60:02}"


def tell(crates, began):
    """Says what came of the edits, and what it took; returns whether each was refused by a clause."""
    edits, old = sum(len(it.edits) for it in crates), sum(it.old for it in crates)
    lost, left = sum(kind != REFUSED for it in crates for kind, _ in it.found.values()), sum(len(it.left) for it in crates)
    took = f"{clock(time.monotonic() - began)} by the clock and {clock(sum(it.seconds for it in crates))} of processor time"
    print(f"wrong bodies: {edits}, of which {old} were refused by an earlier run; {took}")
    if left:
        print(f"{left} of them were not tried, since the time was over: the next run on this machine tries those")
    print(f"{lost} of them are not refused by a clause" if lost else f"each {'that was tried ' if left else ''}is refused by a clause")
    return not lost


def changed_last(crates):
    """Ranks the crates by when their files were last changed, as git has it: the newest comes first."""
    words = ["git", "-C", os.path.dirname(crates[0].known.folder), "log", "-1", "--format=%ct", "--"] if crates else []
    times = {it: subprocess.run([*words, it.known.folder], capture_output=True, text=True).stdout.strip() or "0" for it in crates}
    for rank, crate in enumerate(sorted(crates, key=lambda it: -int(times[it]))):
        crate.rank = rank


def forget_old():
    """Removes what no run has kept anew for long."""
    for at, _, files in os.walk(KEPT):
        for it in files:
            if os.stat(f"{at}/{it}").st_mtime < time.time() - KEPT_DAYS * 86400:
                os.remove(f"{at}/{it}")


def main():
    words = argparse.ArgumentParser(description=__doc__.split("\n")[0])
    words.add_argument("names", nargs="*", metavar="NAME")
    words.add_argument("--anew", action="store_true")
    words.add_argument("--told", action="store_true")
    words.add_argument("--read", action="store_true")
    words.add_argument("--until", type=int, metavar="SECONDS")
    words.add_argument("--in", dest="folder", default="wrong")
    words.add_argument("--root", default=ROOT, help=argparse.SUPPRESS)
    given = words.parse_args()
    began = time.monotonic()
    rt.rtlib.guarded()
    known = rt.rtlib.crates_below(os.path.abspath(given.root))
    lacking = {*given.names} - {it.name for it in known}
    if lacking:
        words.error(f"crates.txt names no crate {min(lacking)}")
    crates = [Crate(it, given.folder) for it in known if not given.names or it.name in given.names]
    crates = [it for it in crates if it.edits]
    if given.read:
        bad = [f"{it.name}: {BAD}: {why}" for crate in crates for it, (_, why) in crate.found.items()]
        print(*bad, f"{sum(len(it.edits) for it in crates)} edits read, {len(bad)} of them bad", sep="\n")
        return 1 if bad else 0
    for crate in crates:
        crate.begin(given.anew)
        for edit, (kind, why) in crate.found.items():
            if kind != REFUSED:
                print(f"{edit.name}: {kind}: {why}", flush=True)
    tried = [it for it in crates if it.left]
    if given.until is not None:
        changed_last(tried)
    why = build_libraries(tried)
    if why:
        print(f"wrong_bodies: {why}", file=sys.stderr)
        return 1
    lanes = int(os.environ.get("RT_JOBS") or 0) or max(1, min(rt.processors(), int(rt.free() // MEMORY)))
    with tempfile.TemporaryDirectory(prefix="wrong-bodies-") as room:
        Trials(tried, room).run(lanes, given.until)
    if given.told:
        for crate in crates:
            for edit in (it for it in crate.edits if it in crate.found):
                kind, told = crate.found[edit]
                print(f"{edit.name}: {kind}: {' '.join(told.split())[:160]}")
    if os.path.isdir(KEPT):
        forget_old()
    return 0 if tell(crates, began) else 1


if __name__ == "__main__":
    sys.exit(main())
