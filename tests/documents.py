#!/usr/bin/env python3
"""The documents: README.md, CHANGELOG.md and all Markdown below docs/.

    python3 tests/documents.py

Checks that each relative link leads to a file or a folder that is there, and each anchor to a heading, by the anchors that GitHub gives
headings; that the documents with a limit have no more words than that, as `wc -w` counts them, ARCHITECTURE without the table that
tests/crates.py writes; that no cell of a table in CLAIMS has more than 40 words; that each function of a walk in WALKS stands in the file
that is named there; and that no document names a path of one machine or an issue by its number. Prints what fails; last 'N passed, M
failed', and ends with 1 where one failed.
"""
import re
import sys
from functools import cache
from pathlib import Path
from urllib.parse import unquote

ROOT = Path(__file__).resolve().parent.parent
MOST_WORDS = {"README.md": 900, "docs/ARCHITECTURE.md": 2_000, "docs/CONTRIBUTING.md": 1_200, "docs/CLAIMS.md": 3_000}
GENERATED = {"docs/ARCHITECTURE.md"}  # a table between two lines that begin with '<!-- crates' doesn't count
MOST_WORDS_OF_CELL = {"docs/CLAIMS.md": 40}
WALKS = "docs/audit/WALKS.md"
STEP = re.compile(r"\| `([a-z_]+)/([\w/]+\.rt)` \| (.+?) \|")  # a row of a walk: its crate, its file and the functions in it
# What no document says, and what it is.
UNSAID = {
    "a path of one machine": re.compile(r"(?<![\w.])/(?:work|tmp|home|root|Users|opt/rattle)/[\w.-]*"),
    "an issue by its number": re.compile(r"\b(?:issue|ticket|pull request|PR|task|demand|trial|paper)s?\s+(?:no\.?\s*)?#?\d+", re.I),
}

FENCE = re.compile(r"^[ >]*(`{3,}|~{3,})")
CODE = re.compile(r"(?<!`)(`+)(?!`)((?:(?!\n\s*\n).)+?)(?<!`)\1(?!`)", re.S)
# A target in angle brackets, or one without spaces, and a title behind it.
TARGET = r"(?:<([^<>\n]*)>|((?:[^\s()<>]|\([^\s()]*\))+))(?:\s+(?:\"[^\"]*\"|'[^']*'))?"
INLINE = re.compile(rf"\]\(\s*{TARGET}\s*\)")
DEFINED = re.compile(rf"^ {{0,3}}\[[^\]\n]+\]:\s*{TARGET}\s*$", re.M)
SCHEME = re.compile(r"^(?:[a-z][a-z0-9+.-]*:|//)", re.I)
HEADING = re.compile(r"^ {0,3}#{1,6}\s+(.*?)\s*#*\s*$")
UNDERLINE = re.compile(r"^ {0,3}(?:=+|-+)\s*$")
IDENTIFIER = re.compile(r"<[a-z]+\s[^>]*?\b(?:id|name)=[\"']([^\"']+)[\"']", re.I)
LINES = re.compile(r"L(\d+)(?:-L(\d+))?")


def documents():
    """The documents, in the order of their paths."""
    return [ROOT / "README.md", ROOT / "CHANGELOG.md", *sorted((ROOT / "docs").rglob("*.md"))]


def name_of(path):
    return path.relative_to(ROOT).as_posix()


@cache
def text_of(path):
    return path.read_text(encoding="utf-8")


def without_fences(text):
    """The text with the lines of fenced code left empty, so that line numbers stay."""
    lines, fence = [], None
    for line in text.split("\n"):
        mark = FENCE.match(line)
        if fence is None:
            fence = mark[1] if mark else None
            lines.append("" if mark else line)
        else:
            if mark and mark[1].startswith(fence) and not line.strip(" >").strip(fence[0]):
                fence = None
            lines.append("")
    return "\n".join(lines)


def without_code(text):
    """The text without what stands in code, with as many characters and lines."""
    return CODE.sub(lambda code: re.sub(r"[^\n]", "x", code[0]), without_fences(text))


def anchor_of(heading):
    """The anchor that GitHub gives a heading: its text as it is shown, small, without punctuation, with hyphens for spaces."""
    shown = re.sub(r"!?\[([^\]]*)\]\([^)]*\)", r"\1", heading)
    shown = re.sub(r"<[^>]*>", "", shown) if "`" not in shown else shown
    return re.sub(r"[^\w\- ]", "", shown.lower()).replace(" ", "-")


@cache
def anchors_of(path):
    """All anchors of a document: of its headings, a number behind those that come again, and of its own identifiers."""
    text = without_fences(text_of(path))
    found, before = set(IDENTIFIER.findall(without_code(text))), ""
    for line in text.split("\n"):
        heading = HEADING.match(line)
        shown = heading[1] if heading else before if UNDERLINE.match(line) and before and "|" not in before else None
        before = line.strip() if heading is None else ""
        if shown is None:
            continue
        anchor, again = anchor_of(shown), 0
        while f"{anchor}-{again}" in found if again else anchor in found:
            again += 1
        found.add(f"{anchor}-{again}" if again else anchor)
    return found


def fault_of_link(document, target):
    """Why a link of a document leads nowhere; None where it leads somewhere."""
    path, _, anchor = target.partition("#")
    path, anchor = unquote(path.partition("?")[0]), unquote(anchor)
    to = (ROOT / path.lstrip("/") if path.startswith("/") else document.parent / path).resolve() if path else document
    if to != ROOT and ROOT not in to.parents:
        return "leads out of the repository"
    if not to.exists():
        return "leads to nothing"
    if not anchor:
        return None
    if to.suffix == ".md":
        return None if anchor in anchors_of(to) else "leads to no heading"
    lines = LINES.fullmatch(anchor) if to.is_file() else None
    last = max(int(it) for it in lines.groups() if it) if lines else 0
    return None if lines and last <= len(text_of(to).splitlines()) else "leads to no line"


def links(document):
    """Each relative link, as what is wrong with it, or None."""
    text = without_code(text_of(document))
    found = sorted((match.start(), match[1] or match[2] or "") for form in (INLINE, DEFINED) for match in form.finditer(text))
    for start, target in found:
        if not SCHEME.match(target):
            fault = fault_of_link(document, target)
            yield fault and f"{name_of(document)}:{text.count(chr(10), 0, start) + 1}: {target} {fault}"


def counted(name, text):
    """The text whose words count towards the limit."""
    lines = text.split("\n")
    marks = [number for number, line in enumerate(lines) if re.match(r"<!-- /?crates\b", line)] if name in GENERATED else []
    return "\n".join(lines[: marks[0]] + lines[marks[-1] + 1 :] if len(marks) > 1 else lines)


def words(document):
    """Whether it has no more words than it may."""
    name = name_of(document)
    if name in MOST_WORDS:
        count = len(counted(name, text_of(document)).split())
        yield f"{name}: {count} words, at most {MOST_WORDS[name]}" if count > MOST_WORDS[name] else None


def cells(document):
    """Each row of a table, as its first cell that is too long, or None."""
    name = name_of(document)
    if name not in MOST_WORDS_OF_CELL:
        return
    for number, line in enumerate(without_fences(text_of(document)).split("\n"), 1):
        if line.lstrip().startswith("|"):
            most = max(len(cell.split()) for cell in re.split(r"(?<!\\)\|", line))
            limit = MOST_WORDS_OF_CELL[name]
            yield f"{name}:{number}: a cell of {most} words, at most {limit}" if most > limit else None


def stands(function, source):
    """Whether a source has a function, given as `name` or `Type::name`."""
    kind, _, name = function.rpartition("::")
    return bool(re.search(rf"\bfn {name}\b", source)) and (not kind or bool(re.search(rf"\b{kind}\b", source)))


def walks(document):
    """For each row of a walk its functions that don't stand in its file, or None."""
    if name_of(document) != WALKS:
        return
    for number, line in enumerate(text_of(document).split("\n"), 1):
        row = STEP.match(line)
        if row:
            file = ROOT / "crates" / row[1] / "src" / row[2]
            source = text_of(file) if file.is_file() else ""
            missing = [it for it in re.findall(r"`([\w:]+)`", row[3]) if not stands(it, source)]
            yield f"{WALKS}:{number}: not in {row[1]}/{row[2]}: {', '.join(missing)}" if missing else None


def unsaid(document):
    """For each thing that no document says, where it is said first, or None."""
    text = text_of(document)
    for what, form in UNSAID.items():
        found = form.search(text)
        yield found and f"{name_of(document)}:{text.count(chr(10), 0, found.start()) + 1}: {what}: {found[0]}"


def main():
    passed = failed = 0
    for document in documents():
        for check in (links, words, cells, walks, unsaid):
            for fault in check(document):
                if fault:
                    print(fault)
                    failed += 1
                else:
                    passed += 1
    missing = [name for name in MOST_WORDS if not (ROOT / name).is_file()]
    for name in missing:
        print(f"{name}: isn't there")
    print(f"{passed} passed, {failed + len(missing)} failed")
    return 1 if failed or missing else 0


if __name__ == "__main__":
    sys.exit(main())
