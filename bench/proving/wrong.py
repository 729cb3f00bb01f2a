#!/usr/bin/env python3
"""Tries the wrong bodies of crates: each file of `crates/CRATE/wrong/` and `crates/CRATE/must-fail/` is an edit that turns the
meaning of a function. It is made in a copy of the crate, and the prover checks that function alone, over the libraries that
`bash .ci/run` has left in `crates/*/out`. A proof sees of other functions only their contracts, so edits of different functions
are made in one copy, and one check tells of each. As many crates are tried side by side as there are processors with memory.

Of each edit it says at which goal it is refused; or that it is let through; or that it is of no use, since it can't be made or
compiled, or is refused only where a proof names what went with the edit, where arithmetic overflows, or at the condition of a
call. The last line counts them; the status is 0 where all are refused. Run it at the top of a checkout:
bench/proving/wrong.py [CRATE ..] [--only NAME]"""
import argparse
import concurrent.futures
import glob
import os
import re
import shutil
import subprocess
import sys
import tempfile

KIT = os.path.dirname(subprocess.run(["rt", "doc"], capture_output=True, text=True, check=True).stdout.strip())
PARTS = ["src", "specs", "proofs"]
MEMORY_OF_A_CHECK = 3_000_000
EDITS_OF_A_CHECK = 12
REFUSED, THROUGH, USELESS = "refused", "let through", "of no use"
FUNCTION = r"(?:pub(?:\([a-z]+\))? |unsafe |const |ghost )*fn (?P<function>\w+)"
ITEM = re.compile(rf"^(?P<indent>[ ]*)(?:#\[[^\n]*\]\n[ ]*)*(?:{FUNCTION}|impl\b(?P<impl>.*?)(?:\{{| where|$))", re.M)
VANISHED = re.compile(r"has no field|is not in scope|has no `|was not admitted|is no name")
CONDITION = re.compile(r"(overflow|index|divisor|shift|cast)[\w-]*|.*-requires(-.*)?|requires(-.*)?")


class Place:
    """Where an edit stands: in a function, which the prover may call by some paths, or in a module outside of functions."""

    def __init__(self, file, text, at):
        items = [it for it in ITEM.finditer(text) if it.start() <= at]
        self.file, self.module = file, re.sub(r"^src/(lib|main)?|(/mod)?\.rt$", "", file).replace("/", "::")
        self.item = self.kind = None
        self.paths = []
        if items and items[-1]["function"]:
            self.item = items[-1]
            kinds = [it["impl"] for it in items if it["impl"] is not None]
            self.kind = kinds[-1] if kinds and self.item["indent"] else None
            self.paths = ["::".join(filter(None, (self.module, it, self.item["function"]))) for it in names_of(self.kind)]

    def has(self, file, line, texts):
        """Whether a line of a file in these texts is one of the function."""
        if file != self.file:
            return False
        items, kind, last = ITEM.finditer(texts[file]), None, None
        for it in items:
            if texts[file].count("\n", 0, it.start()) + 1 > line:
                break
            kind, last = (it["impl"] if it["impl"] is not None else kind), it
        return last is not None and last["function"] == self.item["function"] and (kind if last["indent"] else None) == self.kind


def names_of(kind):
    """What the prover may call an `impl`: by its type, and by its trait and what that is of, as `StopFromAllocError`."""
    if kind is None:
        return [""]
    plain = re.sub(r"^<[^<>]*(?:<[^<>]*>[^<>]*)*>", "", kind.strip()).strip()
    trait, _, of = plain.rpartition(" for ")
    of = re.sub(r"<.*", "", of).strip().lstrip("&").split("::")[-1]
    whole = "".join(re.findall(r"\w+", re.sub(r"\w+::", "", trait)))
    return list(dict.fromkeys([of + whole, of + re.sub(r"<.*", "", trait).split("::")[-1]]))


class Edit:
    """An edit of a crate: its pairs of texts, and where they stand."""

    def __init__(self, file):
        self.crate = file.split("/")[1]
        self.name = os.path.basename(file).removesuffix(".edit")
        self.pairs, path, old = [], None, None
        with open(file, encoding="utf-8") as lines:
            for line in lines.read().split("\n"):
                if line.startswith("file: "):
                    path = line[6:].strip()
                elif line.startswith("old: "):
                    old = line[5:]
                elif line.startswith("new:"):
                    self.pairs.append((path, old, line[4:].removeprefix(" ")))

    def made(self, texts):
        """The places of the edit and the texts with it in them, or why it can't be made in these texts."""
        texts, places = dict(texts), []
        for path, old, new in self.pairs:
            if path not in texts:
                with open(f"crates/{self.crate}/{path}", encoding="utf-8") as file:
                    texts[path] = file.read()
            if texts[path].count(old) != 1:
                return None, None, f"its old text stands {texts[path].count(old)} times in {path}"
            at = texts[path].index(old)
            texts[path] = texts[path].replace(old, new)
            places.append(Place(path, texts[path], at))
        return (places, texts, "") if places else (None, None, "it has no texts")


class Crates:
    """The crates, as crates.txt has them, and the words of their checks."""

    def __init__(self):
        self.uses = {}
        with open("crates.txt", encoding="utf-8") as file:
            for line in file:
                if re.match(r"\w+:", line):
                    name, _, words = line.partition(":")
                    self.uses[name] = words.split()

    def below(self, crate):
        """The libraries of the repository below a crate, lowest first."""
        found = {}
        for name in self.uses[crate]:
            if name in self.uses:
                found.update({**self.below(name), name: None})
        return found

    def is_program(self, crate):
        return os.path.isfile(f"crates/{crate}/src/main.rt")

    def library(self, crate):
        return os.path.abspath(f"crates/{crate}/out/rlib/{crate}.rlib")

    def lacking(self, crate):
        """The crates, among this one and those below it, that the gate hasn't proved as they stand. A library that was kept has its
        old time of writing, so the time at which it came to stand here is taken."""
        lacks = []
        for name in [*self.below(crate), crate]:
            built = f"crates/{name}/out/{name}" if self.is_program(name) else f"{self.library(name)}/format"
            files = [file for part in PARTS for file in glob.glob(f"crates/{name}/{part}/**", recursive=True)]
            if not os.path.isfile(built) or max(map(os.path.getmtime, files)) > os.path.getctime(built):
                lacks.append(name)
        return lacks

    def words(self, crate):
        """The words of a check of a crate over its libraries."""
        words = ["--crate-name", crate, f"src/{'main' if self.is_program(crate) else 'lib'}.rt"]
        words += ["--extern", f"std={KIT}/rlibs/std.rlib", "-L", f"dependency={KIT}/rlibs"]
        for name in self.uses[crate]:
            words += ["--extern", f"{name}={self.library(name) if name in self.uses else f'{KIT}/rlibs/{name}.rlib'}"]
        for name in self.below(crate):
            words += ["-L", f"dependency={os.path.dirname(self.library(name))}"]
        project = f"{KIT}/rattle/logic/antt-project.json"
        return [*words, "--antt-project", project, "--logic-built", f"{KIT}/logic_built", "--links", f"{crate}=", "--jobs", "1"]


def goals_in(said, is_here):
    """The goals that are not proved in the proofs and at the lines that are asked for, and the names that those proofs lack."""
    goals, vanished = {}, {}
    for line in said.split("\n"):
        answer = re.match(r"(?:\./)?(proofs/\S+?):(\d+):\d+: error: (?:`([^`]+)`: )?(.*)", line)
        left = re.match(r"note: (\S+?):(\d+):\d+: it is not proved .*?\(`([^`]+)`\)", line)
        if answer and is_here(answer[1], int(answer[2]), answer[3] or ""):
            (vanished if VANISHED.search(answer[4]) else goals)[answer[3] or answer[4][:80]] = None
        elif left and is_here(left[1], int(left[2]), left[3]):
            goals[left[3]] = None
    return list(goals), list(vanished)


def verdict_by(goals, vanished):
    """The verdict on an edit that isn't proved."""
    clauses = [it for it in goals if not CONDITION.fullmatch(it)]
    if clauses:
        return REFUSED, f"at {clauses[0]}"
    if goals:
        return USELESS, f"refused only at {goals[0]}, a condition"
    return USELESS, f"refused only where a proof names {vanished[0]}" if vanished else "refused at no goal"


def verdict_on(said, crate, places, texts):
    """What the check of an edit at these places came to, and why; None where the check tells nothing of its functions."""
    goals, vanished, proved = [], [], []
    for place in places:
        told = [(it, re.search(rf"^fn {crate}::{re.escape(it)}: (.*)$", said, re.M)) for it in place.paths]
        path, line = next(((it, found[1]) for it, found in told if found), (None, "could not tell"))
        if line.startswith("could not tell"):
            return None
        proved.append(line == "proved")
        # a cycle of calls has its proofs in one folder, and there the goals of a function begin with its name
        module, _, function = path.replace("::", "/").rpartition("/")
        folder, cycle = f"proofs/{module}/{function}/", f"proofs/{module}/+"

        def is_here(file, number, goal):
            in_cycle = file.startswith(cycle) and goal.startswith(f"{function}-")
            return file.startswith(folder) or in_cycle or place.has(file, number, texts)

        here = goals_in(said, is_here)
        goals, vanished = goals + here[0], vanished + here[1]
    return (THROUGH, "") if all(proved) else verdict_by(goals, vanished)


class Trying:
    """The edits of one crate, tried check by check over what the earlier ones kept."""

    def __init__(self, crates, crate, edits, room):
        self.crates, self.crate, self.edits, self.kept = crates, crate, edits, f"{room}/{crate}"
        os.makedirs(self.kept)

    def check(self, texts, only):
        """Checks functions or modules of the crate with other texts in place of its own; answers what was said."""
        with tempfile.TemporaryDirectory(prefix="wrong-") as room:
            for part in PARTS:
                if os.path.isdir(f"crates/{self.crate}/{part}"):
                    shutil.copytree(f"crates/{self.crate}/{part}", f"{room}/{part}")
            for path, text in texts.items():
                with open(f"{room}/{path}", "w", encoding="utf-8") as file:
                    file.write(text)
            words = [f"{KIT}/bin/rattle", "check", *self.crates.words(self.crate), "--incremental", self.kept]
            words += [word for path in only for word in ("--only", path)]
            how = {"stdin": subprocess.DEVNULL, "stdout": subprocess.PIPE, "stderr": subprocess.STDOUT, "errors": "replace"}
            return subprocess.run(words, cwd=room, **how).stdout

    def check_functions(self, texts, places):
        """Checks the functions of some places, each by the first of its names that the prover knows."""
        names = [list(it.paths) for it in places]
        while all(names):
            said = self.check(texts, list(dict.fromkeys(it[0] for it in names)))
            unknown = [it for it in names if re.search(rf"^rattle: error: .*has no function `{re.escape(it[0])}`", said, re.M)]
            if not unknown:
                return said
            for it in unknown:
                it.pop(0)
        return ""

    def alone(self, edit):
        """Tries one edit by its functions, and where that tells nothing or lets it through, by its modules: closures stand apart."""
        places, texts, why = edit.made({})
        if why:
            return USELESS, why
        told = verdict_on(self.check_functions(texts, places), self.crate, places, texts)
        if told and told[0] != THROUGH:
            return told
        said = self.check(texts, [it.module for it in places if it.module])
        if re.search(r"^fn \S+: (not proved|no proof)", said, re.M):
            return verdict_by(*goals_in(said, lambda file, number, goal: True))
        if re.search(r"^only=(\d+) proved=\1$|^logic=proved", said, re.M):
            return THROUGH, ""
        lines = [it for it in said.split("\n") if "error" in it] or said.rstrip().split("\n")
        return USELESS, f"it isn't checked: {lines[0][:160]}"

    def together(self):
        """The edits in groups, each of edits of different functions, with the texts that have them all."""
        groups = []
        for edit in self.edits:
            places, _, why = edit.made({})
            if why or not all(it.paths for it in places):
                continue
            for group in groups:
                taken = {path for _, others in group[0] for it in others for path in it.paths}
                made = edit.made(group[1]) if len(group[0]) < EDITS_OF_A_CHECK else (None, None, "full")
                if not made[2] and not taken & {path for it in places for path in it.paths}:
                    group[0].append((edit, made[0]))
                    group[1] = made[1]
                    break
            else:
                groups.append([[(edit, places)], edit.made({})[1]])
        return groups

    def all(self):
        """Each edit with its verdict."""
        lacks = self.crates.lacking(self.crate)
        told = {}
        if lacks:
            return [(edit, (USELESS, f"{' '.join(lacks)} isn't proved as it stands: run bash .ci/run first")) for edit in self.edits]
        for group, texts in self.together():
            said = self.check_functions(texts, [it for _, places in group for it in places])
            told.update({edit.name: verdict_on(said, self.crate, places, texts) for edit, places in group})
        # what one check doesn't tell is tried alone
        settled = lambda it: it is not None and it[0] == REFUSED
        return [(edit, told[edit.name] if settled(told.get(edit.name)) else self.alone(edit)) for edit in self.edits]


def lanes():
    """As many checks at once as there are processors, while there is memory for each."""
    with open("/proc/meminfo", encoding="utf-8") as file:
        free = int(re.search(r"MemAvailable: *(\d+)", file.read())[1])
    return max(1, min(len(os.sched_getaffinity(0)), free // MEMORY_OF_A_CHECK))


def tell(tried, counts):
    for edit, (kind, why) in tried:
        counts[kind] += 1
        print(f"{edit.crate}/{edit.name}: {kind}{' ' if kind == REFUSED else ': ' if why else ''}{why}", flush=True)


def main():
    reader = argparse.ArgumentParser(description=__doc__, formatter_class=argparse.RawDescriptionHelpFormatter)
    reader.add_argument("crates", nargs="*", metavar="CRATE")
    reader.add_argument("--only", metavar="NAME", help="the edit of this name alone")
    asked, by_crate = reader.parse_args(), {}
    for file in sorted(glob.glob("crates/*/wrong/*.edit") + glob.glob("crates/*/must-fail/*.edit")):
        edit = Edit(file)
        if (not asked.crates or edit.crate in asked.crates) and asked.only in (None, edit.name):
            by_crate.setdefault(edit.crate, []).append(edit)
    if not by_crate:
        sys.exit("no such edit")
    crates, counts = Crates(), dict.fromkeys((REFUSED, THROUGH, USELESS), 0)
    with tempfile.TemporaryDirectory(prefix="wrong-") as room, concurrent.futures.ThreadPoolExecutor(lanes()) as pool:
        begun = [pool.submit(Trying(crates, crate, edits, room).all) for crate, edits in by_crate.items()]
        for tried in concurrent.futures.as_completed(begun):
            tell(tried.result(), counts)
    print(", ".join(f"{counts[kind]} {kind}" for kind in counts))
    sys.exit(1 if counts[THROUGH] or counts[USELESS] else 0)


if __name__ == "__main__":
    main()
