#!/usr/bin/env python3
"""Finds lines that stand twice: `checks/duplicates.py LINES`. So many lines of .rt or .antt, one after the other, that
stand at two places of the crates, are named with both places. Blank lines, comments, imports and lines that only open or
close count for nothing. Ends with 1 where any stand twice, but for those below, each with its reason."""
import os
import re
import sys

WORKED = "worked values are written out, so that a reader compares them with the standard"
CONTRACT = "a function and the private one that does its work have one contract"
FIELDS = "a pattern names each field of an entry"
ORDER = "the refusals of a check in their order, with a cache of signatures and without"
SHAPE = "proofs of two functions of one shape, whose goals have names of their own"
CONNECTION = "the stream, reader and writer of a connection borrow each other, so no function can hand them out"
LENDS = "segments of logs of version 1, and of either version, lend their parts alike"

# Pairs of files whose lines may agree, each with the reason. Paths begin at crates/.
ALIKE = {
    ("explain/src/procedures.rt", "explain/src/procedures.rt"): "the fields of SETATTR and of CREATE, as the standard has them",
    ("nfs_spec/src/laws.rt", "nfs_types/src/result_texts/worked.rt"): WORKED,
    ("nfs_types/src/result_texts/worked.rt", "nfs_types/src/result_texts/worked.rt"): WORKED,
    ("nfs_examples/src/linked.rt", "nfs_examples/src/linked.rt"): WORKED,
    ("rpc_streams/src/stream.rt", "rpc_streams/src/stream.rt"): CONTRACT,
    ("file_tree/src/making.rt", "file_tree/src/making.rt"): CONTRACT,
    ("nodes/src/locked.rt", "nodes/src/locked.rt"): CONTRACT,
    ("remote_sharing/src/caller.rt", "remote_sharing/src/caller.rt"): CONTRACT,
    ("replay/src/steps.rt", "replay/src/steps.rt"): CONTRACT,
    ("explain/src/comparison.rt", "explain/src/entry.rt"): FIELDS,
    ("envelopes/src/checks.rt", "witness_service/src/checking.rt"): ORDER,
    ("witness_books/proofs/books/noted_step_of/Answers.antt", "witness_books/proofs/books/step_of/Answers.antt"): SHAPE,
    ("witness_books/proofs/books/Books/make_step/Answers.antt",
     "witness_books/proofs/books/Books/step_noting/Answers.antt"): SHAPE,
    ("witness_service/proofs/shared/WitnessService/close/Answers.antt",
     "witness_service/proofs/shared/WitnessService/close/Answers.antt"): SHAPE,
    ("file_tree/proofs/tree/Tree/create/Answers.antt", "file_tree/proofs/tree/Tree/create/Answers.antt"): SHAPE,
    ("secure_log/proofs/logged/logged_end/Answers.antt", "secure_log/proofs/logged/logged_end/Answers.antt"): SHAPE,
    ("secure_log/proofs/logged/last_word/Answers.antt", "secure_log/proofs/write/add_each_logged/Answers.antt"): SHAPE,
    ("secure_log/proofs/worded/WordedSegment/into_segment/Answers.antt",
     "secure_log/proofs/worded/WordedSegment/into_segment/Answers.antt"): SHAPE,
    ("secure_log/proofs/entry_places/places_of/Answers.antt", "secure_log/proofs/logged/logged_end/Answers.antt"): SHAPE,
    ("secure_log/proofs/entry_places/places_of/Answers.antt",
     "secure_log/proofs/entry_places/places_of/Answers.antt"): SHAPE,
    ("secure_log/proofs/versioned/BoundedSegment/ends/Answers.antt",
     "secure_log/proofs/versioned/BoundedSegment/places/Answers.antt"): SHAPE,
    ("evidence_showings/proofs/showing/Showing/of_segment/Answers.antt",
     "evidence_showings/proofs/showing/Showing/of_segment/Answers.antt"): SHAPE,
    ("replay/proofs/verdict/replay/Answers.antt", "replay/proofs/verdict/replay/Answers.antt"): SHAPE,
    ("secure_log/src/segment.rt", "secure_log/src/versioned.rt"): LENDS,
    ("server_process/src/server.rt", "witness_process/src/witness.rt"): CONNECTION,
}

SKIPPED = re.compile(r"^(\s*(//|--).*|\s*(pub |ghost )*use .*|\s*[\]\[(){};,.]*\s*)$")


def lines_of(path):
    """The lines of a file that count, each with its number."""
    with open(path, encoding="utf-8") as file:
        found = [(number, line.strip()) for number, line in enumerate(file, 1)]
    return [(number, line) for number, line in found if not SKIPPED.match(line)]


def sources():
    for at, folders, files in os.walk("crates"):
        folders[:] = sorted(it for it in folders if it not in ("out", "wrong-bodies", "must-fail"))
        yield from (f"{at}/{name}" for name in sorted(files) if name.endswith((".rt", ".antt")))


def main(least):
    first, found = {}, []
    for path in sources():
        lines = lines_of(path)
        for at in range(len(lines) - least + 1):
            text = "\n".join(line for _, line in lines[at : at + least])
            where = (path, lines[at][0])
            other = first.setdefault(text, where)
            if other != where:
                found.append((other, where))
    pairs = {}
    for (one, at), (other, there) in found:
        pairs.setdefault((one, other), []).append((at, there))
    known = {(f"crates/{one}", f"crates/{other}") for one, other in ALIKE}
    bad = {it: places for it, places in pairs.items() if it not in known}
    for (one, other), places in sorted(bad.items(), key=lambda it: -len(it[1])):
        at, there = places[0]
        print(f"{one}:{at} and {other}:{there}: {least + len(places) - 1} lines or more")
    return 1 if bad else 0


if __name__ == "__main__":
    sys.exit(main(int(sys.argv[1])))
