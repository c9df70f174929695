#!/usr/bin/env python3
"""Makes modules of the ```rust blocks in the READMEs of crates/.

    checks/examples.py FOLDER [NAME..]    of all crates, if none is named

It writes to FOLDER a program that has a module for each README with such blocks, and prints their crates, and the
libraries that the blocks' `use` lines name. A module has its README's lines of code at the places that they have there, and is empty
elsewhere, so that an error in it names a line of the README. checks/examples.sh calls this.
"""
import pathlib
import re
import sys

TOP = pathlib.Path(__file__).resolve().parent.parent
OWN = {"core", "crate", "self", "std", "super"}
PROGRAM = """//! The example calls in the READMEs of crates/.
#![tactic(auto)]

{modules}

fn main() {{}}
"""


def code_of(readme):
    """Returns the README's lines, each of them empty that isn't of a ```rust block."""
    lines, in_block = [], False
    for line in readme.read_text(encoding="utf-8").splitlines():
        is_mark = line.startswith("```")
        lines.append(line if in_block and not is_mark else "")
        if is_mark:
            in_block = not in_block and line.startswith("```rust")
    return lines


def libraries_of(lines):
    """Returns the libraries that `use` lines name."""
    found = (re.match(r"\s*use (\w+)\b", line) for line in lines)
    return {it[1] for it in found if it} - OWN


def main(folder, *names):
    folder = pathlib.Path(folder)
    names = names or sorted(it.parent.name for it in TOP.glob("crates/*/README.md"))
    modules, libraries = [], set()
    for name in names:
        lines = code_of(TOP / "crates" / name / "README.md")
        if any(lines):
            modules.append(f"mod {name}_readme;")
            libraries |= {name} | libraries_of(lines)
            (folder / f"{name}_readme.rt.txt").write_text("\n".join(lines) + "\n", encoding="utf-8")
    program = PROGRAM.format(modules="\n".join(modules))
    (folder / "main.rt.txt").write_text(program, encoding="utf-8")
    print(*sorted(libraries))


if __name__ == "__main__":
    main(*sys.argv[1:])
