#!/usr/bin/env python3
"""The counts of lines in docs/audit/DEFINITIONS.md, so that nobody keeps them by hand.

    python3 tests/definitions.py            compares them with the files; ends with 'N passed, M failed'
    python3 tests/definitions.py --write    writes them anew

A count stands in brackets behind a definition's name: `CRATE/FILE` [LINES], and `FILE` [LINES] for a further one of that crate. Their
sums, by heading, are the table of the page's last section.
"""
import argparse
import re
import sys
from pathlib import Path

ROOT = Path(__file__).resolve().parent.parent
PAGE = ROOT / "docs" / "audit" / "DEFINITIONS.md"
COUNT = re.compile(r"`(?:([a-z_]+)/)?([A-Z]\w*)`\s\[(\d+)\]")
SUMS = "| Part | Lines in its tables | Lines in its text |\n|---|---|---|\n"


def lines_of(crate, name):
    """How many lines a definition's file has; None where there is none."""
    path = ROOT / "crates" / crate / "specs" / f"{name}.antt"
    return len(path.read_text().splitlines()) if path.is_file() else None


def counted(text):
    """The text with the counts that the files have, and what differs."""
    crate, wrong, passed = "", [], 0

    def count(match):
        nonlocal crate, passed
        crate = match[1] or crate
        lines = lines_of(crate, match[2])
        if lines == int(match[3]):
            passed += 1
            return match[0]
        wrong.append(f"{crate}/{match[2]}: {match[3]} on the page, {'no file' if lines is None else lines}")
        return match[0] if lines is None else match[0].replace(f"[{match[3]}]", f"[{lines}]")

    return COUNT.sub(count, text), wrong, passed


def summed(text):
    """The rows of the sums: of each heading the lines of what its tables name, and of what its other text names. What stands twice is
    counted where it stands first."""
    crate, heading, seen, sums = "", "", set(), {}
    for line in re.sub(r"\n(?=\[\d+\])", " ", text).splitlines():
        if line.startswith("## "):
            heading = line[3:]
        for match in COUNT.finditer(line):
            crate = match[1] or crate
            if (crate, match[2]) not in seen:
                seen.add((crate, match[2]))
                sums.setdefault(heading, [0, 0])[not line.startswith("|")] += int(match[3])
    sums["All"] = [sum(both) for both in zip(*sums.values())]
    return "".join(f"| {part} | {in_tables:,} | {in_text:,} |\n" for part, (in_tables, in_text) in sums.items())


def with_sums(text):
    """The text with the sums of its counts; None where it has no table for them."""
    if SUMS not in text:
        return None
    front, behind = text.split(SUMS, 1)
    rows = re.match(r"(?:\|.*\n)*", behind)[0]
    return front + SUMS + summed(text) + behind[len(rows):]


def compared(text):
    """The text with all counts as they have to be, and what differs."""
    text_counted, wrong, passed = counted(text)
    whole = with_sums(text_counted)
    if whole is None:
        return text_counted, [*wrong, "the sums: no table for them on the page"], passed
    if whole != text_counted:
        return whole, [*wrong, "the sums: not those of the counts"], passed
    return whole, wrong, passed + 1


def main():
    parser = argparse.ArgumentParser(description="Compares the counts of lines in docs/audit/DEFINITIONS.md with the files.")
    parser.add_argument("--write", action="store_true", help="write them anew")
    is_written = parser.parse_args().write
    text, wrong, passed = compared(PAGE.read_text())
    if is_written:
        PAGE.write_text(text)
        _, wrong, passed = compared(text)
    for line in wrong:
        print(line)
    print(f"{passed} passed, {len(wrong)} failed")
    return 1 if wrong else 0


if __name__ == "__main__":
    sys.exit(main())
