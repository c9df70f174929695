#!/usr/bin/env python3
"""Sees that definitions and laws stand below code: `checks/layers.py`.

A crate of definitions, laws or worked values has no code: each function of its sources is public and does nothing, but for
what a definition cites, as a constant or the type of a value. What lies below such a crate, by crates.txt, are crates of
the same kind and the crates of code that are named here alone, which read and write texts or keep keys. Laws on nodes
stand on the code of nodes' logs too. Ends with 1 where one stands on more."""
import sys
from pathlib import Path

ROOT = Path(__file__).resolve().parent.parent

# Definitions, laws and worked values.
SPECIFICATIONS = {
    "fs_spec", "nfs_spec", "server_spec", "state_spec", "replay_spec", "evidence_spec", "witness_spec", "stream_spec",
    "nfs_laws", "nfs_count_laws", "nfs_error_laws", "witness_laws", "witness_book_laws", "witness_node_laws",
    "nfs_examples", "witness_examples",
}
# Code that a definition may name: what is read and written, keys, chains and messages.
TEXTS = {
    "xdr", "nfs_items", "nfs_types", "mount_types", "rpc", "sha256_lanes", "lamport", "merkle_keys", "authenticator",
    "secure_log", "envelopes", "packets", "commitment",
}
# Laws on what nodes do stand on these besides.
ON_NODES = {"witness_node_laws": "node_logs"}


def read_lines():
    """For each crate of crates.txt all libraries that its line names."""
    lines = {}
    with open(ROOT / "crates.txt", encoding="utf-8") as file:
        for line in file:
            name, colon, libraries = line.partition("#")[0].partition(":")
            if colon:
                lines[name.split()[0]] = libraries.split()
    return lines


def below(lines, crate, seen=None):
    """All crates of the repository that a crate stands on."""
    seen = set() if seen is None else seen
    for library in lines.get(crate, []):
        if library in lines and library not in seen:
            seen.add(library)
            below(lines, library, seen)
    return seen


def main():
    lines = read_lines()
    status = 0
    for crate in sorted(SPECIFICATIONS | TEXTS):
        if crate not in lines:
            print(f"crates.txt has no {crate}", file=sys.stderr)
            status = 1
    for crate in sorted(SPECIFICATIONS & set(lines)):
        allowed = SPECIFICATIONS | TEXTS
        if crate in ON_NODES:
            allowed = allowed | {ON_NODES[crate]} | below(lines, ON_NODES[crate])
        for library in sorted(below(lines, crate) - allowed):
            print(f"{crate} stands on {library}", file=sys.stderr)
            status = 1
    return status


if __name__ == "__main__":
    sys.exit(main())
