#!/usr/bin/env python3
"""Writes docs/READING.md: for each row of the tables in docs/PROVED.md under "What is proved", the definitions that
its contracts stand on, file by file and lowest first, and laws about them. With --check it writes nothing, and ends
with 1 where the page isn't what it would write."""
import difflib
import functools
import pathlib
import re
import sys
from layers import read_lines

ROOT = pathlib.Path(__file__).resolve().parent.parent
CRATES = ROOT / "crates"
PAGE = ROOT / "docs" / "READING.md"
CLAIMS = ROOT / "docs" / "PROVED.md"
LAWS = 5
SHOWN = 8

INTRO = """# What to read before you believe a row

For an auditor who draws one row of the tables in [PROVED.md](PROVED.md) and asks what must be believed. A contract
says no more than its definitions mean; this page lists those of each row, in the order to read them: first what
stands on nothing, last what the contract cites itself. Read these and the contracts: bodies and proofs are
checked by the prover, and what is trusted besides stands in PROVED.md.

`checks/reading.py` makes the page from these tables and the sources. It takes the signatures and clauses of a
row's functions, and of a type that the row names its model and its invariant. It resolves each name that they
cite through the `use` lines to the definition at its home, and goes on from there, until only libraries from
outside the repository are left. A type with a model counts by the value that clauses see, without its private
fields and, unless the row names it, its invariant; a trait by its ghost members and contracts. Definitions of
one file stand together, so where two files cite each other either may come first. Lines are counted without
comments and blank lines. The laws below a row are proved of definitions in its list: those that cite the most of
them, where what the contracts cite themselves counts most, and five at most. Where a law says what you would
have looked for in a definition, you may read it in place of the definition's text; what else its statement
cites stands beside it.

The words of the kit that a row's definitions use, beyond those of its prelude (lists, numbers, options), stand
below its table with their modules; the kit documents them. The words of the field that comments use in a sense of
our own are in [WORDS.md](WORDS.md). What this profile chooses where a standard leaves room, or departs from it, is
in [DECISIONS.md](DECISIONS.md) and, for the procedures of NFS and MOUNT, in [CHECKING.md](CHECKING.md).
"""


class Definition:
    """A top-level definition of specs/, or a declaration of the code that contracts speak of."""

    def __init__(self, scope, name, text, imports=None):
        self.scope, self.name, self.text, self.imports = scope, name, text, imports or {}

    @property
    def lines(self):
        return sum(1 for line in self.text.split("\n") if line.strip())

    @functools.cached_property
    def cites(self):
        found = (self.scope.look_up(token, self.imports) for token in tokens(self.text, self.scope.is_code))
        return {each: None for each in found if isinstance(each, Definition) and each is not self}

    @functools.cached_property
    def kit_words(self):
        """The words of the kit's modules that it uses, each with its module, but for those of the prelude."""
        found = set()
        for head, *_ in tokens(self.text, self.scope.is_code):
            path = self.imports.get(operator(head)) or self.scope.imports.get(operator(head)) or ()
            if path[:1] == ("Rattle",) and not (CRATES / path[1]).is_dir() and "Prelude" not in path:
                found.add((".".join(path[1:-1]).replace(".specs", ""), path[-1]))
        return found


class Function(Definition):
    """A function; its text is its contract, after the head of its impl."""

    def __init__(self, scope, owner, head, name, text, imports, doc):
        indent, plain = re.match(r"\s*", text)[0], uncommented(text, "//")
        contract = re.split(rf"(?m)^{indent}\{{|(?<=\S) \{{$", plain, maxsplit=1)[0]
        super().__init__(scope, name, f"{head}\n{contract}", imports)
        self.owner, self.doc = owner, doc
        self.is_law = re.match(r"pub fn \w+\(\)\n", text) and text.endswith("\n{}")


class Scope:
    """A file, with what it defines and what it brings in by `use`."""

    def __init__(self, path):
        self.path, self.is_code = path, path.suffix == ".rt"
        self.crate = path.relative_to(CRATES).parts[0]
        self.definitions, self.imports, self.functions, self.models, self.impls = {}, {}, [], {}, []
        self.folder = path.parent if path.stem in ("lib", "main", "Lib") else path.with_suffix("")
        (self.read_code if self.is_code else self.read_specs)(path.read_text())

    def read_specs(self, text):
        words = r"(?:abbrev|unfoldable|opaque|pub|record|data) "
        for block in re.split(rf"(?m)^(?={words}|module |mod |use |infix|\S+ : )", uncommented(text, "--")):
            names = re.findall(rf"^(?:{words})*([^\s:]+)", block)
            if re.match(r"(pub )?use ", block):
                self.imports.update(imported(block))
            elif re.match(r"(pub )?data ", block):
                names += re.findall(r"^  (\S+) :", block, re.M)
            elif block.startswith("module "):
                names = re.findall(rf"^ +(?:{words})+([^\s:]+)", block, re.M)
            if not re.match(r"(pub )?(use|mod) |infix|\s*$", block):
                definition = Definition(self, names[0], block)
                self.definitions.update((operator(name), definition) for name in names)

    def read_code(self, text):
        for block, doc in items(text.split("\n"), ""):
            head = re.sub(r"^pub(\(.*?\))? ", "", block)
            kind, name = (re.match(r"(\w+)\s*(?:<.*?>)?\s*(\w*)", head).groups())
            plain = uncommented(block, "//")
            if kind in ("use", "ghost"):
                self.imports.update(imported(plain))
            elif kind in ("struct", "enum", "trait", "const", "type"):
                shown = re.sub(r"^\s*#\[.*\]$", "", plain, flags=re.M)
                self.definitions[name] = Definition(self, name, shown)
            if kind == "fn":
                self.functions.append(Function(self, "", "", name, block, {}, doc))
            if kind in ("impl", "trait"):
                self.read_members(block)
        for name, (text, imports) in self.models.items():
            if name in self.definitions:
                value = "\n".join(re.findall(r"^\s*ghost Value = .*?\};$", text, re.M | re.S))
                self.definitions[name] = Definition(self, name, value, imports)

    def read_members(self, block):
        head = re.match(r"(?:pub(?:\(.*?\))? )?(?:impl|trait)\s*(?:<.*?>\s)?\s*(?:(\w+)(?:<.*?>)? for )?&?(\w+)", block)
        trait, owner = head.groups()
        members, imports = list(items(block.split("\n")[1:], "    ")), {}
        for member, _ in members:
            if re.match(r"\s*ghost use", member):
                imports.update(imported(member))
        ghost = "\n".join(uncommented(m, "//") for m, _ in members if re.match(r"\s*ghost (?!use|coded)", m))
        if trait == "Model":
            self.models[owner] = (ghost, imports)
        elif trait:
            self.impls.append((trait, owner, Definition(self, owner, f"{ghost}\n{trait} {owner}", imports)))
        for member, doc in members:
            if match := re.match(r"\s*(?:pub(?:\(.*?\))? )?fn (\w+)", member):
                self.functions.append(Function(self, owner, block.split(" {")[0], match[1], member, imports, doc))

    def look_up(self, token, imports={}):
        head, *rest = token
        if (head := operator(head)) in imports or head not in self.definitions and head in self.imports:
            return resolve(self, (imports if head in imports else self.imports)[head] + tuple(rest))
        if head in self.definitions:
            return self.definitions[head]
        return resolve(self, tuple(token)) if self.is_code and len(token) > 1 else None


def operator(name):
    return next(part for part in name.split("◌") if part) if "◌" in name else name


def uncommented(text, mark):
    return re.sub(rf"(^|\s){mark}.*$", "", text, flags=re.M)


def tokens(text, is_code):
    """The names in a text, each as its parts; what stands after a dot is a field unless its head is a module."""
    if is_code:
        yield from (word.split("::") for word in re.findall(r"(?<![\w.:])[A-Za-z_]\w*(?:::\w+)*", text))
    text = re.sub(r"([{;]\s*)\w+ =(?!=)", r"\1", re.sub(r"^\s*pub \w+ :", " ", text, flags=re.M))
    for word in re.findall(r"[^\s(){}\[\],;]+", text):
        parts = word.rstrip(":").split(".")
        if parts[0]:
            yield [">>="] if word == "do" else [part for part in parts if part]


def items(lines, indent):
    """The items of a file of code or of a block at this indentation, each with its doc comment."""
    item, doc = [], []
    for line in lines:
        if not item:
            if line.startswith(indent + "///"):
                doc.append(line.strip()[3:].strip())
                continue
            if not re.match(indent + r"(pub|ghost|use|struct|enum|trait|const|type|fn|impl)\b", line):
                doc = doc if line.strip() else []
                continue
        item.append(line)
        flat = uncommented("\n".join(item), "//").rstrip()
        is_level = flat.count("{") == flat.count("}") and flat.count("(") == flat.count(")")
        if re.match(indent + r"(\}|\{\})", line) or is_level and flat.endswith((";", "}")[:1 + (len(item) == 1)]):
            yield "\n".join(item), " ".join(doc)
            item, doc = [], []


def imported(text):
    """What a `use` item brings in: each name with its path."""
    found, fronts, path = {}, [()], ()
    text = re.sub(r"^\s*(pub(\(.*?\))? )?(ghost )?use |;\s*$", "", text.strip()).replace("::", ".")
    for part, mark in re.findall(r"([^{},]*)([{},]|$)", text):
        name, _, local = part.strip().partition(" as ")
        path = fronts[-1] + tuple(each for each in name.strip().split(".") if each)
        if mark == "{":
            fronts.append(path)
        elif name:
            path = path[:-1] if path[-1] == "self" else path
            found[operator(local or path[-1])] = path
        if mark == "}":
            fronts.pop()
    return found


@functools.cache
def scope_of(path):
    return Scope(path) if path.is_file() else None


def root_of(crate, folder):
    names = ("Lib.antt",) if folder == "specs" else ("lib.rt", "main.rt")
    return next(filter(None, (scope_of(CRATES / crate / folder / name) for name in names)), None)


def resolve(scope, path):
    """What a path names: a definition, a file, or None for what isn't of the repository."""
    if path[0] == "Rattle":
        if path[2] != "specs" or not (CRATES / path[1]).is_dir():
            return None
        if path[3:4] == ("declared",):
            return descend(root_of(path[1], "src"), path[4:], path)
        return descend(root_of(path[1], "specs"), path[3:], path)
    if not scope.is_code:
        return None
    if path[0] == "crate":
        return descend(root_of(scope.crate, "src"), path[1:])
    if path[0] in scope.imports or (scope.folder / f"{path[0]}.rt").is_file():
        return descend(scope, path)
    return descend(root_of(path[0], "src"), path[1:])


def descend(scope, path, asked=None):
    while path and isinstance(scope, Scope):
        name, rest = operator(path[0]), path[1:]
        below = scope_of(scope.folder / (name + scope.path.suffix))
        if name in scope.definitions:
            return scope.definitions[name]
        if below or name == "TheConstants":
            scope, path = below or scope, rest
        elif name in scope.imports and scope.imports[name] != path:
            return resolve(scope, scope.imports[name] + rest)
        elif asked:
            fail(f"{'.'.join(asked)} is cited, and {scope.path.relative_to(ROOT)} has no {name}")
        else:
            return None
    return scope


def fail(message):
    sys.exit(f"checks/reading.py: {message}")


def closure(starts):
    """All that these contracts stand on, each with how many steps it is away from them."""
    found, next_ones, steps = {}, starts, 0
    while next_ones:
        cited, steps = dict.fromkeys(each for one in next_ones for each in one.cites), steps + 1
        next_ones = [each for each in cited if each not in found]
        found.update((each, steps) for each in next_ones)
    return found


def levels(below):
    """For each name how many stand under it, one upon the other."""
    found = {}

    def level(name):
        if name not in found:
            found[name] = 0
            found[name] = max((1 + level(each) for each in below[name] if each in below), default=0)
        return found[name]
    return {name: level(name) for name in below}


def crate_levels():
    return levels(read_lines())


def by_file(definitions, crates):
    """The definitions of each file, and the files lowest first."""
    files = {}
    for each in definitions:
        files.setdefault(each.scope, []).append(each)
    within = levels({scope: [cited.scope for each in files[scope] for cited in each.cites
                             if cited.scope.crate == scope.crate] for scope in sorted(files, key=shown)})
    order = sorted(files, key=lambda scope: (crates[scope.crate], scope.crate, within[scope], shown(scope)))
    places = {each: k for scope in files for k, each in enumerate(scope.definitions.values())}
    return [(scope, sorted(files[scope], key=places.get)) for scope in order]


def rows():
    """The rows of the tables: claim, names, and files."""
    section = re.search(r"^## What is proved\n(.*?)(^## |\Z)", CLAIMS.read_text(), re.M | re.S)
    lines = section[1] if section else fail("docs/PROVED.md has no section 'What is proved'")
    bodies = re.findall(r"^\|.*\n\|[-|]+\n((?:\|.*\n)+)", lines, re.M)
    for line in "".join(bodies).splitlines():
        claim, functions, places, *_ = (cell.strip() for cell in line.strip("|").split("|"))
        scopes, crate = [], ""
        for place in re.findall(r"`([^`]+)`", places):
            folder = CRATES if "/src/" in place else CRATES / crate
            matched = sorted(path for path in folder.glob(place) if path.suffix == ".rt")
            if not matched:
                fail(f"the row '{claim}' names the file {place}, which isn't there")
            crate = matched[0].parent.relative_to(CRATES)
            scopes += [scope_of(path) for path in matched]
        yield claim, functions, scopes


def starts_of(claim, functions, scopes):
    """The contracts that a row's second column names."""
    as_traits = dict(re.findall(r"`(\w+)`,? as an? `(\w+)`", functions))
    for name in re.findall(r"`([^`]+)`", functions):
        owner, _, last = name.rpartition("::")
        found = [each for scope in scopes for each in scope.functions
                 if each.name == last and (owner or each.owner) == each.owner]
        for scope in scopes:
            if name in as_traits:
                found += [each for trait, of, each in scope.impls if (trait, of) == (as_traits[name], name)]
            elif name in scope.models:
                found.append(Definition(scope, name, *scope.models[name]))
            elif name in scope.definitions:
                found.append(scope.definitions[name])
        if not found and name not in as_traits.values():
            what = f"{name} as {as_traits[name]}" if name in as_traits else name
            fail(f"the row '{claim}' names {what}, which isn't in " + ", ".join(shown(s) for s in scopes))
        yield from found


def all_laws():
    """The laws, each with the definitions that its statement cites."""
    for path in sorted(CRATES.glob("*/src/**/*.rt")):
        if any("laws" in part for part in path.relative_to(CRATES).parts[2:]):
            for law in scope_of(path).functions:
                statements = [each for each in law.cites if not each.scope.is_code]
                if law.is_law and statements:
                    homes = {each.scope for each in statements}
                    cited = dict.fromkeys(statements)
                    for each in statements:
                        cited.update(each.cites)
                    for each in [each for each in cited if each.scope in homes]:
                        cited.update(each.cites)
                    yield law, cited


def laws_for(needed, starts, laws):
    """The laws that cite most of what a row needs; what the row's contracts cite themselves counts most."""
    def rank(pair):
        law, cited = pair
        return -sum(1 / needed[each] ** 2 for each in cited if each in needed), shown(law.scope), law.name
    fitting = [(law, cited) for law, cited in laws if cited.keys() & needed.keys() and law not in starts]
    return [law for law, _ in sorted(fitting, key=rank)[:LAWS]]


def kit_words(definitions):
    """The words of the kit that definitions use, by module."""
    modules = {}
    for module, word in sorted(set().union(*(each.kit_words for each in definitions))):
        modules.setdefault(module, []).append(f"`{word}`")
    return "; ".join(f"{', '.join(words)} ({module})" for module, words in modules.items())


def shown(scope):
    return str(scope.path.relative_to(CRATES))


def page():
    crates, laws, parts = crate_levels(), list(all_laws()), [INTRO]
    for number, (claim, functions, scopes) in enumerate(rows(), 1):
        starts = list(starts_of(claim, functions, scopes))
        needed = closure(starts)
        total = sum(each.lines for each in needed)
        parts.append(f"## {number}. {functions}\n\n{claim}. {len(needed)} definitions, {total} lines.\n")
        parts.append("| File in `crates/` | Definitions | Lines |\n|---|---|---|")
        for scope, definitions in by_file(needed, crates):
            names = ", ".join(f"`{each.name}`" for each in definitions)
            parts.append(f"| `{shown(scope)}` | {names} | {sum(each.lines for each in definitions)} |")
        if words := kit_words([*starts, *needed]):
            parts.append(f"\nOf the kit: {words}.")
        chosen = laws_for(needed, starts, laws)
        if chosen:
            parts.append("\n| Law | File in `crates/` | What it says | Cites besides |\n|---|---|---|---|")
        for law in chosen:
            says = re.split(r"(?<=\.)\s", law.doc, maxsplit=1)[0]
            more = [each.name for each in closure([law]) if each not in needed]
            besides = ", ".join(f"`{name}`" for name in more[:SHOWN])
            besides += f" and {len(more) - SHOWN} more" if len(more) > SHOWN else ""
            parts.append(f"| `{law.name}` | `{shown(law.scope)}` | {says} | {besides} |")
        parts.append("")
    return "\n".join(parts).rstrip("\n") + "\n"


def main():
    made, stands = page(), PAGE.read_text() if PAGE.is_file() else ""
    if "--check" not in sys.argv[1:]:
        PAGE.write_text(made)
    elif made != stands:
        changes = difflib.unified_diff(stands.splitlines(), made.splitlines(), "as it stands", "as it is made", n=0)
        print(*(line[:300].rstrip() for line in changes), sep="\n", flush=True)
        fail("docs/READING.md isn't what this script makes: run it without --check")


if __name__ == "__main__":
    main()
