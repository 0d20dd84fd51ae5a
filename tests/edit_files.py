"""The edits that the prover must refuse: what the file of one says, and which functions it changes.

A file has lines `file: PATH`, below its crate, and then pairs `old: TEXT` and `new: TEXT`; each old text stands exactly once in what the
pairs before it have made of that file. The prover has to refuse the functions that it changes, or those that lines `refused: FUNCTION` name,
from the crate on: a change of a definition or of a constant stands in no function. No other line is read.
"""
import re
from dataclasses import dataclass, field
from functools import cache
from pathlib import Path

ROOT = Path(__file__).resolve().parent.parent
PARTS = ("src", "specs", "proofs")
# What may hold braces that are no code: comments, strings and characters.
HIDDEN = re.compile(
    r"""//[^\n]*|/\*.*?\*/|b?r(#*)".*?"\1|b?"(?:\\.|[^"\\])*"|b?'(?:\\[^\n]*?|[^\\'\n])'""", re.S)
TOKEN = re.compile(r"\b(?:fn|mod|trait|impl)\b|[{};]")
# What stands before a brace that opens a clause of a function, and not its body.
CLAUSE = re.compile(r"(?:\b(?:requires|ensures|measure)\*?(?:\s+[\w-]+)?|\bghost\s+\S+\s*:)\s*\Z")


class Unusable(Exception):
    """Why an edit can't be made."""


@dataclass
class Edit:
    """What an edit makes of its crate: the files' new texts by their paths, and the functions that have to be refused, each as its module
    and its name there."""

    crate: str
    name: str
    texts: dict = field(default_factory=dict)
    functions: list = field(default_factory=list)


@dataclass
class Scope:
    """Part of a source: what it is, the name that it gives to what stands in it, and where it begins."""

    kind: str
    name: str
    start: int


def bare(text):
    """A source with blanks for its comments, strings and characters."""
    return HIDDEN.sub(lambda it: re.sub(r"[^\n]", " ", it[0]), text)


def closing(text, start):
    """Where the angle bracket that opens at `start` is closed."""
    depth = 0
    for at in range(start, len(text)):
        depth += {"<": 1, ">": -1}.get(text[at], 0)
        if depth == 0:
            return at
    raise Unusable(f"an angle bracket isn't closed: {text[start:start + 40]}")


def head(text):
    """The last name of a path to a type or a trait, and behind it those of what `From` is given."""
    path, _, given = text.strip().lstrip("&").partition("<")
    name = re.sub(r"^(?:'\w+\s+)?(?:mut\s+)?", "", path.strip()).split("::")[-1]
    return name + (head(given.rpartition(">")[0]) if name == "From" else "")


def name_of_impl(text):
    """The name under which the prover has the functions of an `impl`, whose text this is up to its brace."""
    text = text.removeprefix("impl").replace("->", "  ").strip()
    if text.startswith("<"):
        text = text[closing(text, 0) + 1:]
    text = re.split(r"\bwhere\b", text)[0]
    trait, of, kind = text.partition(" for ")
    return head(kind) + head(trait) if of else head(text)


def opened(text, kind, start, brace):
    """The scope that a brace opens behind the word `kind`."""
    if kind == "impl":
        return Scope(kind, name_of_impl(text[start:brace]), start)
    return Scope(kind, re.match(r"\w+\s+(\w+)", text[start:brace])[1], start)


def is_within(text):
    """Whether a round or square bracket of a text is still open behind it, as in `[u8; 8]`."""
    return sum(text.count(it) for it in "([") > sum(text.count(it) for it in ")]")


def functions_in(source):
    """The functions of a source that have a body: the name of each in its module, where it begins and where it ends."""
    text, open_ones, found, pending = bare(source), [], [], None
    for token in TOKEN.finditer(text):
        word, at = token[0], token.start()
        if word == "{":
            if pending and pending[0] == "fn" and CLAUSE.search(text[pending[1]:at]):
                open_ones.append(pending)
                pending = None
                continue
            open_ones.append(opened(text, *pending, at) if pending else None)
            pending = None
        elif word == "}":
            last = open_ones.pop() if open_ones else None
            if isinstance(last, tuple):
                pending = last
            elif last and last.kind == "fn":
                names = [it.name for it in open_ones if isinstance(it, Scope)]
                found.append(("::".join([*names, last.name]), last.start, token.end()))
        elif word == ";":
            pending = pending if pending and is_within(text[pending[1]:at]) else None
        elif pending is None and (word == "impl" or re.match(r"\s+\w", text[token.end():])):
            pending = (word, at)
    return found


def module_of(crate, path):
    """The module that a source is: crates/CRATE/src/one/two.rt is CRATE::one::two."""
    names = Path(path).with_suffix("").parts[1:]
    return "::".join([crate, *names]) if names not in (("lib",), ("main",)) else crate


def change_of(at, old, new):
    """From where to where a text changes in which `new` takes the place of the `old` at `at`."""
    before = next((it for it, pair in enumerate(zip(old, new)) if pair[0] != pair[1]), min(len(old), len(new)))
    most = min(len(old), len(new)) - before
    behind = next((it for it in range(most) if old[-1 - it] != new[-1 - it]), most)
    return at + before, at + len(old) - behind


def note_function(edit, path, source, change):
    """Notes the function that a change stands in, where it stands in one."""
    found = functions_in(source) if path.startswith("src/") else []
    around = [it for it in found if it[1] <= change[0] and change[1] <= it[2]]
    if around:
        function = (module_of(edit.crate, path), max(around, key=lambda it: it[1])[0])
        edit.functions += [function] if function not in edit.functions else []


def replace(edit, path, old, new):
    """Makes one change, in what the earlier ones made of the file."""
    file = ROOT / "crates" / edit.crate / path
    if not path.startswith(tuple(f"{it}/" for it in PARTS)) or not file.is_file():
        raise Unusable(f"there is no {path} in src, specs or proofs")
    source = edit.texts.get(path) or file.read_text(encoding="utf-8")
    if source.count(old) != 1:
        raise Unusable(f"the old text stands {source.count(old)} times: {old}")
    at = source.index(old)
    note_function(edit, path, source, change_of(at, old, new))
    edit.texts[path] = source.replace(old, new)


@cache
def functions_of(crate):
    """The functions of a crate by the names that the prover has for them: the module and the name there of each."""
    folder = ROOT / "crates" / crate
    sources = {it.relative_to(folder).as_posix(): it.read_text(encoding="utf-8") for it in (folder / "src").rglob("*.rt")}
    found = [(module_of(crate, path), it[0]) for path, text in sources.items() for it in functions_in(text)]
    return {"::".join(it): it for it in found}


def read_edit(file, crate):
    """What an edit's file says; raises Unusable where it can't be made of the crate as it stands."""
    edit, path, old, named = Edit(crate, file.stem), None, None, []
    for line in file.read_text(encoding="utf-8").split("\n"):
        if line.startswith("file: "):
            path = line[6:].strip()
        elif line.startswith("old: "):
            old = line[5:]
        elif line.startswith("new:"):
            if path is None or old is None:
                raise Unusable("a new text has no old one, or no file")
            replace(edit, path, old, line[4:].removeprefix(" "))
            old = None
        elif line.startswith("refused: "):
            named.append(line[9:].strip())
    if not edit.texts or old is not None:
        raise Unusable("it edits nothing, or an old text has no new one")
    strange = [it for it in named if it not in functions_of(crate)]
    if strange:
        raise Unusable(f"{crate} has no function {strange[0]}")
    edit.functions = [functions_of(crate)[it] for it in named] or edit.functions
    if not edit.functions:
        raise Unusable("it changes no function: name what has to be refused by a line 'refused: FUNCTION'")
    return edit
