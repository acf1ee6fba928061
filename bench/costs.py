#!/usr/bin/env python3
"""What one more costs, counted in the text: for some primitives, commands, messages, events, statuses and parameters the lines, files and crates that name it, without comments, imports, tests and docs;
and how many lines of source, of definitions and of proofs there are, by wings.

    bench/costs.py"""
import glob
import os
import re

HERE = os.path.dirname(os.path.dirname(os.path.realpath(__file__)))

# What is counted by which words of it.
NAMED = {
    "`STRCAT`": r"\bstr_?cat\b",
    "`GETLINK`": r"\bget_?link\b",
    "`NOTIFY`": r"\bnotify\b",
    "`SLEEP`": r"\bsleep\b",
    "`@chown`": r"\bchown\b",
    "`whisper`": r"\bwhisper\b",
    "`@wall`": r"\bwall\b",
    "a message, `@osuccess`": r"\bothers_?success\b|osuccess",
    "an event, Lost": r"(?-i:\bLost\b)",
    "an event, StopSeen": r"(?-i:\bStopSeen\b)",
    "an event, Slice": r"(?-i:\bSlice\b)",
    "a status, ListenFault": r"(?-i:\bListenFault\b)",
    "a status, StoreFull": r"(?-i:\bStoreFull\b)",
    "a parameter, `dump_interval`": r"\bdump_?interval\b",
}

WINGS = {
    "commands": "cmd_ muck_edit muck_library spec_commands spec_admin",
    "language": "muf_ mpi prim_ spec_prims spec_mpi muck_mpi",
    "server": "muck_machine muck_work muck_worker muck_porter muck_peer muck_dumper muck_dumping muck_crew muck_server spec_claims spec_talks spec_serve spec_dumps",
    "run and top": "muckd muck_run muck_script muck_watching muck_debugging muck_mirroring",
}


def files():
    """Each file of source, definitions or proofs: its crate, which of the three it is, its name and its lines."""
    for crate in sorted(os.listdir(f"{HERE}/crates")):
        if crate.startswith("tests_") or crate == "bench":
            continue
        for part in ("src", "specs", "proofs"):
            for name in glob.glob(f"{HERE}/crates/{crate}/{part}/**/*", recursive=True):
                if name.endswith((".rt", ".antt")):
                    with open(name, encoding="utf-8") as it:
                        yield crate, part, name, it.read().splitlines()


def is_text(line):
    return not line.strip().startswith(("use ", "pub use ", "ghost use ", "unfolding ", "//", "--"))


def wing_of(crate):
    for wing, begins in WINGS.items():
        if crate.startswith(tuple(begins.split())):
            return wing
    return "all else"


def main():
    every = list(files())
    print("| | lines | files | crates |\n|---|---|---|---|")
    for what, words in NAMED.items():
        pattern = re.compile(words, re.IGNORECASE)
        found = [(crate, name, sum(1 for line in lines if is_text(line) and pattern.search(line))) for crate, _, name, lines in every]
        found = [it for it in found if it[2]]
        print(f"| {what} | {sum(it[2] for it in found)} | {len({it[1] for it in found})} | {len({it[0] for it in found})} |")
    print("\n| wing | src | specs | proofs | proofs : src |\n|---|---|---|---|---|")
    for wing in [*WINGS, "all else", "whole"]:
        sizes = {part: sum(len(lines) for crate, p, _, lines in every if p == part and wing in ("whole", wing_of(crate))) for part in ("src", "specs", "proofs")}
        print(f"| {wing} | {sizes['src']:,} | {sizes['specs']:,} | {sizes['proofs']:,} | {sizes['proofs'] / sizes['src']:.2f} |")


if __name__ == "__main__":
    main()
