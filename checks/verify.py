#!/usr/bin/env python3
"""A second verifier: says of a file of evidence what `nfsacc check FILE` says, `exposed N` (status 0) or
`no evidence` (status 1). What judges was written from the pages of docs, CHECKING.md and FORMATS.md above all, by somebody
who hadn't read the crates.

With two files more, of what `nfsacc check --json` and `--explain` say of that file, it works out by itself what the
file shows, and tells each thing that they say otherwise (status 1 where there is one). The options are those that
`nfsacc check` was given, too.

usage: checks/verify.py FILE
       checks/verify.py FILE JSON LINES [--entries] [--state K] [--roster ROSTER]
"""

import argparse
import sys

sys.dont_write_bytecode = True
from verifier.evidence import judge  # noqa: E402
from verifier.explain import Detail, differences  # noqa: E402
from verifier.keys import read_roster  # noqa: E402
from verifier.xdr import Reader  # noqa: E402


def compare(words: list[str]) -> int:
    """Compares what a program says of a file with what the file shows."""
    parser = argparse.ArgumentParser()
    for name in ('file', 'json', 'lines'):
        parser.add_argument(name)
    parser.add_argument('--entries', action='store_true')
    parser.add_argument('--state', type=int)
    parser.add_argument('--roster')
    asked, trusted = parser.parse_args(words), None
    if asked.roster:
        with open(asked.roster, 'rb') as file:
            trusted = read_roster(Reader(file.read()))
    with open(asked.file, 'rb') as file, open(asked.json) as said, open(asked.lines) as lines:
        wrong = differences(file.read(), said.read(), lines.read(), Detail(asked.entries, asked.state), trusted)
    print('\n'.join(wrong), end='\n' if wrong else '')
    return 1 if wrong else 0


def main() -> int:
    if len(sys.argv) >= 4:
        return compare(sys.argv[1:])
    if len(sys.argv) != 2:
        print(__doc__, file=sys.stderr)
        return 2
    with open(sys.argv[1], 'rb') as file:
        verdict = judge(file.read())
    print(verdict.line())
    return 1 if verdict.exposed is None else 0


if __name__ == '__main__':
    sys.exit(main())
