#!/usr/bin/env python3
"""Counts the ways down crates.txt, and sees through how many crates each import goes: `checks/ways.py WAYS CRATES`.

The ways of a crate are one, and all the ways of each library of the repository that its line names. `rt` of kit
13f sums up each library once a call, so there ways cost next to nothing. That of kit 13b sums it up once for each way,
twice in a run of the gate: two milliseconds each time. A bound keeps crates.txt readable. Ends with 1 where there are more
than WAYS in all.

An import names a crate that may only pass on what it names, from a crate that may only pass it on again. Who reads it
follows each of these steps, so it ends with 1, too, where an import goes through more than CRATES crates before it
reaches the one that has what it names.
"""
import os
import re
import sys
from functools import lru_cache
from layers import read_lines

# `use Rattle.low.specs.Module.{a, b as c}` or `use Rattle.low.specs.Module as Other`, in a file of definitions or proofs
# or, as `ghost use`, among code.
CITES = re.compile(
    r"^[ \t]*((?:\w+ )*)use Rattle\.([^\s;{]+?)(?:\.\{([^}]*)\})?(?:\s+as\s+([^\s;]+))?[ \t]*;?[ \t]*$", re.M
)
# `use low::{a, b as c};` among code.
USES = re.compile(r"^[ \t]*(pub(?:\([^)]*\))? )?use ([^;]+);", re.M)


def crates():
    """For each crate of crates.txt the libraries of the repository that its line names."""
    lines = read_lines()
    return {crate: [it for it in libraries if it in lines] for crate, libraries in lines.items()}


def count_ways(named):
    """For each crate the paths that begin at it."""

    @lru_cache(maxsize=None)
    def ways(crate):
        return 1 + sum(ways(library) for library in named[crate])

    return {crate: ways(crate) for crate in named}


def text_of(path):
    """The text of a file without its comments."""
    with open(path, encoding="utf-8") as file:
        return re.sub(r"//.*" if path.endswith(".rt") else r"--.*", "", file.read())


def renamed(words):
    """What `a as b` names, and the name that it gets."""
    old, _, new = words.partition(" as ")
    return old.strip(), (new or old).strip()


def cites(text):
    """The imports of definitions and lemmas: whether each is passed on, its path and the name that it gets."""
    for words, path, names, new in CITES.findall(text):
        passed, path = "pub" in words.split(), path.split(".")
        if not names:
            yield passed, path, new or path[-1]
        for name in filter(None, parts(names)):
            old, new_name = renamed(name)
            yield passed, [*path, old], new_name


def parts(words):
    """The parts between those commas that stand in no braces."""
    depth, begin = 0, 0
    for at, letter in enumerate(words + ","):
        depth += (letter == "{") - (letter == "}")
        if letter == "," and depth == 0:
            yield words[begin:at].strip()
            begin = at + 1


def leaves(tree):
    """The paths that the tree of a `use` names, each with the name that it gets."""
    head, brace, rest = tree.partition("{")
    if not brace:
        path, new = renamed(tree)
        yield path.split("::"), new.split("::")[-1]
        return
    before = [it for it in head.strip().split("::") if it]
    for part in filter(None, parts(rest.rstrip()[:-1])):
        for path, new in leaves(part):
            is_self = path == ["self"]
            yield (before if is_self else before + path), (before[-1] if is_self and new == "self" else new)


def uses(text):
    """The imports of code, likewise."""
    for passed, tree in USES.findall(text):
        for path, new in leaves(" ".join(tree.split())) if not tree.startswith("Rattle.") else ():
            yield bool(passed), path, new


@lru_cache(maxsize=None)
def module(crate, side, path):
    """What a module passes on, by name, as the crate, side and path where that stands; None where there is no such module.

    A side is `specs`, `proofs` or `src`, a path the names that lead to the module from the side's first file.
    """
    file = module_file(crate, side, path)
    if file is None:
        return None
    if side == "src":
        return {new: code_place(crate, path, at) for passed, at, new in uses(text_of(file)) if passed}
    return {new: (at[0], at[1], at[2:]) for passed, at, new in cites(text_of(file)) if passed}


def module_file(crate, side, path):
    """The file of a module, or None."""
    folder = "/".join(["crates", crate, side, *path])
    if side != "src":
        files = [f"{folder}/Lib.antt", f"{folder}.antt"]
    elif path:
        files = [f"{folder}.rt", f"{folder}/mod.rt"]
    else:
        files = [f"{folder}/lib.rt", f"{folder}/main.rt"]
    return next(filter(os.path.isfile, files), None)


def code_place(crate, inside, path):
    """Where a path of code leads that stands in this module of a crate."""
    first, rest = path[0], path[1:]
    if first == "crate":
        return crate, "src", rest
    if first == "self":
        return crate, "src", [*inside, *rest]
    if first == "super":
        return code_place(crate, inside[:-1], ["self", *rest])
    if module_file(crate, "src", (*inside, first)) is not None:
        return crate, "src", [*inside, *path]
    return first, "src", rest


def way(named, crate, side, path):
    """The crates that an import of this path goes through, the last of which has what it names."""
    through, at, seen = [crate], (), set()
    while crate in named and path and (crate, side, at, *path) not in seen:
        seen.add((crate, side, at, *path))
        passed = module(crate, side, at) or {}
        if path[0] in passed:
            crate, side, beyond = passed[path[0]]
            path, at = [*beyond, *path[1:]], ()
            if crate != through[-1]:
                through.append(crate)
        elif module(crate, side, (*at, path[0])) is not None:
            at, path = (*at, path[0]), path[1:]
        else:
            break
    return through


def imports(crate):
    """The imports of all files of a crate: the file, the crate that is named, the side and the path in it."""
    for side in ("specs", "proofs", "src"):
        for folder, folders, files in os.walk(f"crates/{crate}/{side}"):
            folders.sort()
            for file in sorted(files):
                path = f"{folder}/{file}"
                if file.endswith((".rt", ".antt")):
                    yield from ((path, *it) for it in imports_of(crate, path))


def imports_of(crate, path):
    """Those of one file."""
    text = text_of(path)
    for _, at, _ in cites(text):
        if len(at) > 2:
            yield at[0], at[1], at[2:]
    if path.endswith(".rt"):
        inside = os.path.splitext(path)[0].split("/")[3:]
        inside = [] if inside in (["lib"], ["main"]) else [it for it in inside if it != "mod"]
        for _, at, _ in uses(text):
            yield code_place(crate, inside, at)


def check_ways(named, most):
    ways = count_ways(named)
    total = sum(ways.values())
    print(f"{total} ways lead down crates.txt")
    if total > most:
        widest = sorted(ways, key=ways.get, reverse=True)[:5]
        words = ", ".join(f"{ways[it]} of {it}" for it in widest)
        print(f"that is more than {most}; most are {words}", file=sys.stderr)
    return total <= most


def check_imports(named, most):
    counts, far = {}, {}
    for crate in named:
        for file, low, side, path in imports(crate):
            # Where a crate's own first file passes on what it imports, the crate itself isn't one gone through.
            through = [it for it in way(named, low, side, path) if it != crate]
            count = max(len(through) - 1, 0)
            counts[count] = counts.get(count, 0) + (low in named)
            if count > most:
                far.setdefault((file, *through), []).append(path[-1])
    words = ", ".join(f"{counts[it]} through {it}" for it in sorted(counts))
    print(f"imports, by the crates that they go through: {words}")
    for (file, *through, home), names in far.items():
        print(f"{file}: {', '.join(names)} of {home}, through {', '.join(through)}", file=sys.stderr)
    return not far


def main():
    if len(sys.argv) != 3:
        sys.exit(__doc__)
    most_ways, most_crates = map(int, sys.argv[1:])
    os.chdir(os.path.join(os.path.dirname(os.path.abspath(__file__)), ".."))
    named = crates()
    few_ways = check_ways(named, most_ways)
    near = check_imports(named, most_crates)
    sys.exit(not (few_ways and near))


if __name__ == "__main__":
    main()
