#!/usr/bin/env python3
"""The table of crates in docs/ARCHITECTURE.md, by layer: what each crate says it is, and what it stands on.

    python3 tests/crates.py            prints the table
    python3 tests/crates.py --write    puts it between the two marks in the document
    python3 tests/crates.py --check    compares the document with it, and ends with 1 where they differ

What a crate is, is the first sentence of its src/lib.rt or src/main.rt. Of the crates that crates.txt lists for it, the table has those
that no other of them stands on. Each crate stands in one layer of LAYERS, and uses crates of that layer and of those before it alone.
No crate is listed for one whose files don't name it, and each that they cite, or library of the kit, is, but for `std`. The last line of
--write and --check is 'N passed, M failed', over the rows of the table and whatever is wrong with the crates.
"""
import difflib
import re
import sys
from pathlib import Path

ROOT = Path(__file__).resolve().parent.parent
PAGE = ROOT / "docs" / "ARCHITECTURE.md"
BEGIN, END = "<!-- crates: begin (tests/crates.py --write) -->", "<!-- crates: end -->"
HEAD = ["| Crate | What it says it is | Stands on |", "|---|---|---|"]
LAYERS = (
    ("Core", "`mds_`: the protocol and its state, in memory", """
        mds_text mds_json mds_geometry mds_geography mds_policy mds_match mds_verdict mds_bitmaps mds_fleet mds_parallel mds_catalog
        mds_drafts mds_snapshot mds_append_list mds_request mds_config_error mds_machine mds_world mds_desk
        mds_script"""),
    ("Journal", "`journal_`: what a disk keeps", """
        journal_laws journal_file journal_swap journal_register journal_etcd journal_remote journal_gateway journal_cluster
        journal_entry journal_commit journal_recovery journal_folder journal_samples journal_compaction"""),
    ("Server", "`server_`: from a socket to the core", """
        server_admission server_responses server_app server_state server_public server_http server_start server_settings server_page
        server_routes server_control server_durable server_past server_journal server_standby server_site"""),
    ("Command line", "`cli_`: what a shell asks for", """
        cli_host cli_args cli_timezone cli_config cli_calendar cli_client cli_documents cli_report cli_vehicles cli_transfer
        cli_log cli_journal cli_report_command"""),
    ("Programs", "what is run", """
        mds_replay mds_serve ruffletuff"""),
    ("Tests", "`tests_`: tests and worked examples", """
        tests_fixtures tests_core tests_examples_core tests_server tests_examples_server tests_register tests_journal tests_cli"""),
)


def listed_crates():
    """Each crate of crates.txt with all that is listed for it, in the order of the file."""
    lines = [line for line in (ROOT / "crates.txt").read_text().splitlines() if line and not line.startswith("#")]
    return {name: rest.split() for name, _, rest in (line.partition(":") for line in lines)}


def own_crates():
    """Each crate of crates.txt with those of this repository that are listed for it."""
    listed = listed_crates()
    return {name: [it for it in rest if it in listed] for name, rest in listed.items()}


def all_below(crates, name):
    """All crates that a crate stands on, through others too."""
    return set(crates[name]).union(*(all_below(crates, it) for it in crates[name]))


def highest(crates, name):
    """Those crates listed for a crate that no other of them stands on."""
    through = set().union(*(all_below(crates, it) for it in crates[name]))
    return [it for it in crates[name] if it not in through]


def first_sentence(name):
    """The first sentence of a crate's own text, without its full stop; empty where there is none."""
    for file in ("lib.rt", "main.rt"):
        path = ROOT / "crates" / name / "src" / file
        if path.is_file():
            block = re.match(r"(?://! ?.*\n)*", path.read_text())[0].split("//!\n")[0]
            text = " ".join(line.removeprefix("//!").strip() for line in block.splitlines())
            return re.split(r"\.(?=\s+[A-Z]|\s*$)", text)[0].replace("|", "\\|")
    return ""


def table(crates):
    """The lines of the table, and what is wrong with the crates."""
    lines, wrong, seen = list(HEAD), [], []
    for layer, what, names in LAYERS:
        lines.append(f"| **{layer}** | **{what}** | |")
        names = names.split()
        seen += names
        for name in (it for it in crates if it in names):
            sentence = first_sentence(name)
            if not sentence:
                wrong.append(f"{name}: its source doesn't say what it is")
            wrong += [f"{name}, of {layer}, uses {it}, of no layer up to it" for it in crates[name] if it not in seen]
            lines.append(f"| `{name}` | {sentence} | {', '.join(f'`{it}`' for it in highest(crates, name)) or 'none'} |")
    folders = {it.name for it in (ROOT / "crates").iterdir() if (it / "src").is_dir()}
    wrong += [f"{it}: in LAYERS {seen.count(it)} times" for it in crates if seen.count(it) != 1]
    wrong += [f"{it}: in LAYERS, and not in crates.txt" for it in seen if it not in crates]
    wrong += [f"{it}: in one of crates.txt and crates/ alone" for it in sorted(folders ^ set(crates))]
    return lines, wrong


def misnamed(crates):
    """The crates that crates.txt lists for one whose files don't name them, since each doubles what rt sums over; and the crates and the
    kit's libraries that a file cites by `Rattle.NAME` and that aren't listed for its crate. The prover is passed what is listed, and `std`:
    it refuses another, whatever those stand on, and no check of sources tells so."""
    found, listed = [], listed_crates()
    for name, used in crates.items():
        folder = ROOT / "crates" / name
        files = [it for part in ("src", "specs", "proofs") for it in (folder / part).rglob("*") if it.suffix in (".rt", ".antt")]
        texts = {it.relative_to(ROOT): it.read_text(encoding="utf-8") for it in sorted(files)}
        text = "\n".join(texts.values())
        found += [f"crates.txt: {name} names nothing of {it}" for it in used if not re.search(rf"\b{it}::|\bRattle\.{it}\b|\buse {it}\b", text)]
        for path, text in texts.items():
            cited = set(re.findall(r"\bRattle\.(\w+)", text)) - {name, "std", *listed[name]}
            found += [f"{path} cites {it}, which crates.txt doesn't list for {name}" for it in sorted(cited)]
    return found


def compared(made, found):
    """How many rows of the table the document has, and the lines that differ: those it lacks by '+', those it has in their place by '-'."""
    differing = [it for it in difflib.ndiff(found, made) if it[0] in "+-"]
    rows = len(made) - len(HEAD)
    return rows - sum(it.startswith("+ | ") for it in differing if it[2:] not in HEAD), differing


def main():
    lines, wrong = table(own_crates())
    if not sys.argv[1:]:
        print("\n".join(lines))
        return 0
    if sys.argv[1:] not in (["--write"], ["--check"]):
        sys.exit(__doc__)
    text = PAGE.read_text()
    if text.count(BEGIN) != 1 or text.count(END) != 1 or text.index(BEGIN) > text.index(END):
        passed, differing = 0, [f"{PAGE.relative_to(ROOT)} hasn't the two marks, once each: {BEGIN} {END}"]
    else:
        before, _, rest = text.partition(BEGIN)
        found, _, after = rest.partition(END)
        if sys.argv[1] == "--write":
            found = "\n" + "\n".join(lines) + "\n"
            PAGE.write_text(before + BEGIN + found + END + after)
        passed, differing = compared(lines, found.strip("\n").split("\n"))
    wrong += misnamed(own_crates())
    for line in wrong + differing:
        print(line)
    print(f"{passed} passed, {len(wrong) + len(differing)} failed")
    return 1 if wrong or differing else 0


if __name__ == "__main__":
    sys.exit(main())
