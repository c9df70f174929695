#!/usr/bin/env python3
"""What a change of a crate proves anew: `checks/anew.py [--write | --check | --most CRATE PERCENT]`.

Prints for each crate its lines of src/, specs/ and proofs/, and how many lines a change of it proves anew, its own and
those of all crates above it, in percent of all. With --write it puts a table by tenths into CONTRIBUTING.md, and with
--check it ends with 1 where another one stands there. With --most it prints the share of one crate, and ends with 1 where
it is greater."""
import os
import re
import sys
from layers import below, read_lines

PAGE = "CONTRIBUTING.md"
TABLE = re.compile(r"(<!-- by checks/anew.py -->\n)(.*?)(\n<!-- end -->)", re.S)


def count(crate):
    """The lines of a crate's sources, definitions and proofs."""
    lines = 0
    for part in ("src", "specs", "proofs"):
        for at, _, names in os.walk(f"crates/{crate}/{part}"):
            for name in names:
                with open(f"{at}/{name}", encoding="utf-8") as file:
                    lines += sum(1 for _ in file)
    return lines


def by_tenths(named, share):
    """A table of the crates by the tenth that their share of the lines lies in."""
    tenths = {}
    for crate in named:
        tenths.setdefault(int(share(crate) // 10), []).append(f"`{crate}`")
    rows = [f"| {10 * it} to {10 * it + 10} % | {', '.join(tenths[it])} |" for it in sorted(tenths, reverse=True)]
    return "\n".join(["| Lines proved anew | A change of |", "|---|---|", *rows])


def main(words):
    named = read_lines()
    lines = {crate: count(crate) for crate in named}
    under = {crate: below(named, crate) for crate in named}
    whole = sum(lines.values())

    def share(crate):
        return 100 * sum(lines[it] for it in named if it == crate or crate in under[it]) / whole

    if words[:1] == ["--most"]:
        print(f"a change of {words[1]} proves {share(words[1]):.1f} % of all lines anew")
        return 1 if share(words[1]) > float(words[2]) else 0
    if words in (["--write"], ["--check"]):
        with open(PAGE, encoding="utf-8") as file:
            page = file.read()
        new = TABLE.sub(lambda found: found[1] + by_tenths(named, share) + found[3], page)
        if words == ["--check"]:
            return 1 if new != page else 0
        with open(PAGE, "w", encoding="utf-8") as file:
            file.write(new)
        return 0
    print("| Crate | Lines | Proved anew, in percent of all |\n|---|---|---|")
    for crate in named:
        print(f"| `{crate}` | {lines[crate]:,} | {share(crate):.0f} |")
    print(f"| all | {whole:,} | |")
    return 0


if __name__ == "__main__":
    sys.exit(main(sys.argv[1:]))
