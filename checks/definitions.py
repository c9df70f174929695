#!/usr/bin/env python3
"""Writes docs/DEFINITIONS.md: the definitions that public contracts cite, crate by crate, each by the comment above it.
With --check it writes nothing, and ends with 1 where the page isn't what it would write."""
import pathlib
import re
import sys
from layers import read_lines
from reading import CRATES, ROOT, scope_of

PAGE = ROOT / "docs" / "DEFINITIONS.md"
CITING = 2

INTRO = """# Definitions

What a reader must believe: the definitions that public contracts cite, crate by crate and lowest first, each with the
comment that stands above it and two of those contracts at most. Smaller definitions stand in the same files, and
[READING.md](READING.md) lists for each claim all that it stands on, down to the last one.

`checks/definitions.py` makes this page from the sources. A file is named by its path in the crate's `specs/`.
"""

START = re.compile(r"^(?:abbrev |unfoldable |opaque )*pub (?:(?:record|data) )?([^\s:({]+)")


def read_definitions(path):
    """The public definitions of a file, each with its comment; one without goes with the one above it."""
    comment, found = [], []
    for line in path.read_text(encoding="utf-8").split("\n"):
        match = START.match(line)
        if line.startswith("-- ") and not line.startswith("-- ----"):
            comment.append(line[3:])
        elif match and match[1] not in ("mod", "use"):
            if comment or not found:
                found.append(([match[1]], " ".join(comment)))
            else:
                found[-1][0].append(match[1])
            comment = []
        elif not line.strip() or line.startswith("use "):
            comment = []
    return [(names, words) for names, words in found if words]


def citing():
    """For each definition's crate, file and name, the public functions whose contracts cite it."""
    found = {}
    for path in sorted(CRATES.glob("*/src/**/*.rt")):
        if path.relative_to(CRATES).parts[0].startswith("acceptance"):
            continue
        for function in scope_of(path).functions:
            if "pub fn" in function.text:
                name = f"{function.owner}::{function.name}" if function.owner else function.name
                for each in function.cites:
                    found.setdefault((each.scope.path, each.name), []).append(name)
    return found


def plain(text):
    return text.replace("|", "\\|")


def write_page():
    cited = citing()
    parts = [INTRO]
    for crate in read_lines():
        folder = CRATES / crate
        rows = []
        for path in sorted((folder / "specs").rglob("*.antt")):
            file = str(path.relative_to(folder / "specs")).removesuffix(".antt")
            for names, words in read_definitions(path) if path.stem != "Lib" else []:
                functions = dict.fromkeys(it for name in names for it in cited.get((path, name), []))
                told = ", ".join(f"`{it}`" for it in list(functions)[:CITING])
                if told:
                    shown = ", ".join(f"`{plain(it)}`" for it in names)
                    rows.append(f"| {shown} | {plain(words)} | {file} | {told} |")
        if rows:
            root = next(it for it in (folder / "src/lib.rt", folder / "src/main.rt") if it.is_file())
            about = " ".join(re.findall(r"^//! ?(.*)$", root.read_text(encoding="utf-8"), re.M))
            parts.append(f"## {crate}\n\n{about}\n")
            parts.append("| Definition | What it says | File | Cited by |\n|---|---|---|---|")
            parts.append("\n".join(rows) + "\n")
    return "\n".join(parts)


def main(words):
    page = write_page()
    if words == ["--check"]:
        return 0 if PAGE.is_file() and PAGE.read_text(encoding="utf-8") == page else 1
    PAGE.write_text(page, encoding="utf-8")
    return 0


if __name__ == "__main__":
    sys.exit(main(sys.argv[1:]))
