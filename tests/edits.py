#!/usr/bin/env python3
"""The mutation tests: that the prover refuses each edit, tried on the functions that it changes, over the libraries that are built.

    edits.py [--crate NAME].. [--folder edits|gate|must-fail] [--anew] [--jobs N]

tests/edit_files.py has what an edit is. The functions are checked as they stand first (`rattle check --only`, with all that they call): an
edit counts where they are proved then, and one of them isn't with the edit. The libraries below a crate are those of crates/*/out/rlib, as
`make prove` leaves them; the kit is the one that `rt` belongs to. What was proved of a crate as it stands is kept in crates/NAME/out/edits,
for the next run that isn't told --anew. A check takes 1 to 3 GB. With `--folder gate` they are those of
edits/ that edits/gate.txt lists: the gate tries these so, and `rt ci` in it those of `must-fail`.

Prints a line for each edit; last 'N passed, M failed', by edits, and ends with 1 where one failed.
"""
import argparse
import os
import re
import shutil
import signal
import subprocess
import sys
import tempfile
from concurrent.futures import ThreadPoolExecutor, as_completed
from pathlib import Path

from edit_files import PARTS, ROOT, Unusable, read_edit

FOLDERS = {"edits": "edits/{}", "gate": "edits/{}", "must-fail": "crates/{}/must-fail"}
# Those that the gate tries of the first folder, as lines CRATE/NAME.
GATE = ROOT / "edits" / "gate.txt"
# How the prover tells what it found of a function, and that it knows none of that name.
VERDICT = re.compile(r"^fn (\S+): (.*)$", re.M)
UNKNOWN = re.compile(r"^rattle: error: `\w+` has no function `(.*?)`", re.M)
# A limit of the prover's own, which it meets wherever it checks the same.
LIMIT = re.compile(
    r"antt ran out of (stack|the (steps|memory) that the check of one declaration may (take|use))|"
    r"(outgrew the memory limit|stopped at the step limit) \(")
# Where it couldn't read a text: an edit that only makes a statement false reads well.
PLACE = re.compile(r"(?:\./)?(\S+?):\d+:\d+: error: (`[^`]*`: )?(.*)")
ILLEGIBLE = re.compile(r"is not in scope|has no field|is no name|operand is missing|expected the end|cannot continue")


class Crate:
    """A crate, the libraries that it uses, and what a check of it as it stands proved."""

    def __init__(self, name, used, kit):
        self.name, self.used, self.kit = name, used, kit
        self.folder = ROOT / "crates" / name
        self.kept = self.folder / "out" / "edits"

    def below(self, name=None):
        """The crates of this repository that it stands on, through others too."""
        found = []
        for it in self.used[name or self.name]:
            if it in self.used:
                found += [more for more in [*self.below(it), it] if more not in found]
        return found

    def unbuilt(self):
        """Those of them that aren't built, or have a newer source."""
        return [it for it in self.below() if not is_built(it)]

    def words(self):
        """What rattle is told of the crate: its root, its libraries and the kit's logic."""
        libraries = ["std", *(it for it in self.used[self.name] if it not in self.used)]
        words = ["--crate-name", self.name, "src/main.rt" if (self.folder / "src/main.rt").is_file() else "src/lib.rt"]
        for it in dict.fromkeys(libraries):
            words += ["--extern", f"{it}={self.kit}/rlibs/{it}.rlib"]
        words += ["-L", f"dependency={self.kit}/rlibs"]
        for it in self.used[self.name]:
            words += ["--extern", f"{it}={library(it)}"] if it in self.used else []
        for it in self.below():
            words += ["-L", f"dependency={library(it).parent}"]
        words += ["--antt-project", f"{self.kit}/rattle/logic/antt-project.json", "--logic-built", f"{self.kit}/logic_built"]
        return [*words, "--links", f"{self.name}=", "--jobs", "1"]

    def check(self, functions, kept, texts=None):
        """Checks these functions, with these texts in place of the crate's own: the status and what was printed."""
        only = [word for it in functions for word in ("--only", it)]
        with tempfile.TemporaryDirectory(prefix="edit-") as room:
            for part in PARTS:
                if (self.folder / part).is_dir():
                    shutil.copytree(self.folder / part, f"{room}/{part}")
            for path, text in (texts or {}).items():
                Path(room, path).write_text(text, encoding="utf-8")
            words = [f"{self.kit}/bin/rattle", "check", *self.words(), *only, "--incremental", str(kept)]
            how = {"cwd": room, "stdin": subprocess.DEVNULL, "stdout": subprocess.PIPE, "stderr": subprocess.STDOUT}
            for _ in range(2):
                ran = subprocess.run(words, errors="replace", check=False, **how)
                # Most likely for want of memory.
                if ran.returncode != -signal.SIGKILL:
                    break
        return ran.returncode, ran.stdout


def library(name):
    """Where a crate's library is, once it is built."""
    return ROOT / "crates" / name / "out" / "rlib" / f"{name}.rlib"


def is_built(name):
    """Whether a crate's library is there, and no source of it is newer."""
    made = library(name)
    if not (made / "format").is_file():
        return False
    sources = [it for part in PARTS for it in (ROOT / "crates" / name / part).rglob("*") if it.is_file()]
    return all(it.stat().st_mtime <= made.stat().st_ctime for it in sources)


def path_of(function):
    return "::".join(function)


def told_of(function, name, said):
    """What the prover found of a function, asked for by this name, and of its closures."""
    # A method is in the module of its type, wherever its `impl` stands: then it was asked for by its end.
    module = rf"{re.escape(function[0])}::" if name == path_of(function) else "(.*::)?"
    is_its = re.compile(rf"{module}(fn::{re.escape(function[1])}::.*|{re.escape(function[1])})")
    return [found for path, found in VERDICT.findall(said) if is_its.fullmatch(path)]


def ask(crate, functions):
    """Checks these functions as they stand: the names by which the prover knows them, of those that it knows, and what it said."""
    crate.kept.mkdir(parents=True, exist_ok=True)
    asked, said = {it: path_of(it) for it in functions}, ""
    while asked:
        status, said = crate.check(asked.values(), crate.kept)
        strange = set(UNKNOWN.findall(said)) if status == 2 else set()
        if not strange & set(asked.values()):
            break
        # The end of a method's name is enough where no other has it.
        ends = {it: it[1] for it, name in asked.items() if name in strange and name != it[1] and "::" in it[1]}
        asked = {it: ends.get(it, name) for it, name in asked.items() if it in ends or name not in strange}
    return asked, said


def control(crate, edits):
    """Checks the functions of these edits as they stand: the names by which the prover knows them, and what is wrong, by function."""
    functions = list(dict.fromkeys(it for edit in edits for it in edit.functions))
    known, said = ask(crate, functions)
    wrong = {it: f"the prover knows no function {path_of(it)}" for it in functions if it not in known}
    for function, name in known.items():
        told = told_of(function, name, said)
        # Of a function that may wait or abort the prover says so behind that.
        if not told or not all(it.startswith("proved") for it in told):
            wrong[function] = f"{path_of(function)} isn't proved as it stands: {first_error(said)}"
    return known, wrong


def first_error(said):
    """The first line that tells of an error, else the last line."""
    lines = said.strip().split("\n")
    return next((it for it in lines if re.search(r":\d+:\d+: error|\berror\[|^rattle: ", it)), lines[-1])[:200]


def is_illegible(line, texts):
    """Whether a line tells that a text of src, of specs or of the edit couldn't be read."""
    at = PLACE.match(line)
    if not at or at[1] not in texts and not at[1].startswith(("src/", "specs/")):
        return False
    return not at[2] or bool(ILLEGIBLE.search(re.sub(r"`[^`]*`", "", at[3])))


def verdict(edit, known, status, said):
    """Whether a check says that the edit is refused, and how that is told."""
    lines = said.strip().split("\n")
    illegible = next((it for it in lines if is_illegible(it, edit.texts)), None)
    if status == 1 and illegible:
        return False, f"BAD EDIT: its text can't be read: {illegible[:200]}"
    found = {it: told_of(it, known[it], said) for it in edit.functions}
    refused = [it for it, told in found.items() if any(one.startswith(("not proved", "no proof")) for one in told)]
    if status == 1 and refused and lines[-1].startswith("only="):
        return True, f"refused in {path_of(refused[0])}: {first_error(said)}"
    if status == 0:
        return False, f"NOT REFUSED: still proved: {' '.join(map(path_of, edit.functions))}"
    limit = next((it for it in lines if LIMIT.search(it)), None)
    if status == 3 and limit:
        return True, f"refused by a limit of the prover alone, which says less of the contract: {limit[:160]}"
    return False, f"NOT TRIED: the check ended with status {status}: {first_error(said)}"


def attempt(crate, edit, known, wrong):
    """Tries one edit: whether it is refused, and how that is told."""
    faults = [wrong[it] for it in edit.functions if it in wrong]
    if faults:
        return False, f"NOT TRIED: {faults[0]}"
    with tempfile.TemporaryDirectory(prefix="edit-kept-") as room:
        shutil.copytree(crate.kept, f"{room}/kept", copy_function=link)
        return verdict(edit, known, *crate.check([known[it] for it in edit.functions], f"{room}/kept", edit.texts))


def link(one, other):
    """Gives what was proved a second name: a check replaces such a file, and changes none."""
    try:
        if one.endswith(".oantt"):
            return os.link(one, other)
    except OSError:
        pass
    return shutil.copy2(one, other)


def kit_folder():
    """The folder of the kit that `rt` belongs to."""
    rt = shutil.which("rt")
    return Path(rt).resolve().parent.parent if rt else None


def used_crates():
    """Each crate of crates.txt with the libraries that are listed for it."""
    lines = [line.partition("#")[0] for line in (ROOT / "crates.txt").read_text(encoding="utf-8").splitlines()]
    return {name.strip(): rest.split() for name, mark, rest in (line.partition(":") for line in lines) if mark}


def read_all(files):
    """The edits of these files by crate; says which can't be made."""
    found = {}
    for crate, file in files:
        try:
            edit = read_edit(file, crate)
        except Unusable as fault:
            print(f"{crate}/{file.stem}: BAD EDIT: {fault}", flush=True)
        else:
            found.setdefault(crate, []).append(edit)
    return found


def ready(crates, edits):
    """The crates whose libraries are built; says of the others what builds them."""
    built = []
    for crate in crates:
        unbuilt = crate.unbuilt()
        if unbuilt:
            what = f"its libraries {' '.join(unbuilt)} aren't built, or a source is newer: make prove builds all"
            print(f"{crate.name}: {len(edits[crate.name])} edits aren't tried, since {what}", flush=True)
        else:
            built.append(crate)
    return built


def try_all(crates, edits, jobs):
    """Tries the edits of these crates, several at a time: how many are refused."""
    passed, trials = 0, {}
    with ThreadPoolExecutor(jobs) as pool:
        controls = {pool.submit(control, it, edits[it.name]): it for it in crates}
        for done in as_completed(controls):
            crate = controls[done]
            for edit in edits[crate.name]:
                trials[pool.submit(attempt, crate, edit, *done.result())] = f"{crate.name}/{edit.name}"
        for done in as_completed(trials):
            is_refused, told = done.result()
            passed += is_refused
            print(f"{trials[done]}: {told}", flush=True)
    return passed


def main():
    parser = argparse.ArgumentParser(description=__doc__, formatter_class=argparse.RawDescriptionHelpFormatter)
    parser.add_argument("--crate", action="append")
    parser.add_argument("--folder", choices=FOLDERS, default="edits")
    parser.add_argument("--anew", action="store_true")
    parser.add_argument("--jobs", type=int, default=2)
    options = parser.parse_args()
    used, kit = used_crates(), kit_folder()
    names = options.crate or list(used)
    files = [(name, file) for name in names for file in sorted((ROOT / FOLDERS[options.folder].format(name)).glob("*.edit"))]
    if options.folder == "gate":
        listed = set(GATE.read_text(encoding="utf-8").split())
        files = [(name, file) for name, file in files if f"{name}/{file.stem}" in listed]
    if kit is None or not files:
        print("rt isn't on the PATH" if files else f"there is no edit of {' '.join(names)}")
        print("0 passed, 1 failed")
        return 1
    edits = read_all(files)
    crates = [Crate(name, used, kit) for name in edits]
    if options.anew:
        for crate in crates:
            shutil.rmtree(crate.kept, ignore_errors=True)
    passed = try_all(ready(crates, edits), edits, options.jobs)
    failed = len(files) - passed
    print(f"{passed} passed, {failed} failed")
    return 1 if failed else 0


if __name__ == "__main__":
    sys.exit(main())
