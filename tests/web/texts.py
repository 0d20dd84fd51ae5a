#!/usr/bin/env python3
"""The files of web/ as they lie in the program: crates/server_page/src/texts, a constant for each.

    texts.py write     writes them anew from web/; run rt fmt in crates/server_page after it
    texts.py check     says where they differ from web/, byte for byte, and ends with 1 then

A new file of web/ needs a line of crates/server_page/src/file.rt and specs/File.antt too.
"""

import os
import re
import sys

TOP = os.path.dirname(os.path.dirname(os.path.dirname(os.path.abspath(__file__))))
WEB = f"{TOP}/web"
CRATE = f"{TOP}/crates/server_page/src"
LITERAL = re.compile(r'r(#+)"(.*)"\1;\n', re.DOTALL)


def module(name):
    """The module of a file, as author_js."""
    return name.replace(".", "_")


def source(name, text):
    """The source with a file's text."""
    marks = "#"
    while f'"{marks}' in text:
        marks += "#"
    return f'//! The text of `web/{name}`, as it is.\n\n/// The text.\npub const {module(name).upper()}: &str = r{marks}"{text}"{marks};\n'


def root(names):
    """The source that names the others."""
    lines = "".join(f"mod {module(it)};\n" for it in names)
    uses = "".join(f"pub use {module(it)}::{module(it).upper()};\n" for it in names)
    return f"//! The texts of the files of `web/`, as `tests/web/texts.py` writes them.\n{lines}\n{uses}"


def texts():
    """The files of web/ with their texts."""
    found = {}
    for name in sorted(os.listdir(WEB)):
        with open(f"{WEB}/{name}", encoding="utf-8", newline="") as file:
            found[name] = file.read()
    return found


def kept(name):
    """The text that lies in the program; None, where there is none."""
    try:
        with open(f"{CRATE}/texts/{module(name)}.rt", encoding="utf-8", newline="") as file:
            found = LITERAL.search(file.read())
    except FileNotFoundError:
        return None
    return found and found[2]


def write():
    """Writes the sources of all files."""
    found = texts()
    for name, text in found.items():
        with open(f"{CRATE}/texts/{module(name)}.rt", "w", encoding="utf-8", newline="") as file:
            file.write(source(name, text))
    with open(f"{CRATE}/texts.rt", "w", encoding="utf-8") as file:
        file.write(root(found))
    return 0


def check():
    """Compares the texts in the program with web/."""
    found = texts()
    wrong = [name for name, text in found.items() if kept(name) != text]
    strange = {f"{module(it)}.rt" for it in found} ^ set(os.listdir(f"{CRATE}/texts"))
    for name in wrong:
        print(f"crates/server_page: {name} isn't web/{name}")
    for name in sorted(strange):
        print(f"crates/server_page: {name} is the text of no file, or is missing")
    if not wrong and not strange:
        print(f"page: {len(found)} files in the program are those of web/")
    return 1 if wrong or strange else 0


if __name__ == "__main__":
    if sys.argv[1:] not in (["write"], ["check"]):
        sys.exit(__doc__)
    sys.exit(write() if sys.argv[1] == "write" else check())
