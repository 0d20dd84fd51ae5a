#!/usr/bin/env python3
"""The mutation tests, as texts: that each edit in crates/CRATE/must-fail/ and edits/CRATE/ can be made, and what it changes is a function.

    python3 tests/mutations.py

tests/edit_files.py has what an edit is. Whether the prover refuses it is what `rt must-fail` and tests/edits.py try; here an edit is found
that a change of the code has left behind. Prints those; ends with 'N passed, M failed', and with 1 where one failed.
"""
import sys

from edit_files import ROOT, Unusable, read_edit


def main():
    gate = [(it, it.parent.parent.name) for it in ROOT.glob("crates/*/must-fail/*.edit")]
    others = [(it, it.parent.name) for it in ROOT.glob("edits/*/*.edit")]
    failed = 0
    for file, crate in sorted(gate + others):
        try:
            read_edit(file, crate)
        except Unusable as fault:
            failed += 1
            print(f"{file.relative_to(ROOT)}: {fault}")
    print(f"{len(gate) + len(others) - failed} passed, {failed} failed")
    return 1 if failed else 0


sys.exit(main())
