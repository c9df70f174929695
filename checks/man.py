#!/usr/bin/env python3
"""Writes docs/man/nfsacc.1, the manual page of the program, from the help of its commands as command_line's sources
have it. With --check it writes nothing, and ends with 1 where the page isn't what it would write."""
import dataclasses
import difflib
import pathlib
import re
import sys

ROOT = pathlib.Path(__file__).resolve().parent.parent
SOURCES = ROOT / "crates" / "command_line" / "src"
VERSION = ROOT / "crates" / "shown_names" / "src" / "version.rt"
PAGE = ROOT / "docs" / "man" / "nfsacc.1"

TEXT = r'"((?:[^"\\]|\\.)*)"'
CONSTANT = re.compile(rf"const (\w+): &str =\s*{TEXT};")
ARGUMENTS = re.compile(r"static (\w+): \[ArgumentRow<'static>; \d+\] = \[\n?(.*?)\];\n", re.S)
ARGUMENT = re.compile(rf"(\w+)!\(((?:{TEXT}|[^)\"])*)\)", re.S)
ROW = re.compile(r"fn (\w+)_row\(\) -> CommandRow<'static>.*?\n\{\n    CommandRow \{\n(.*?)\n    \}\n\}\n", re.S)
COMMANDS = re.compile(r"fn commands<'a>.*?\n\{\n(.*?)\n\}\n", re.S)

INTRO = """.SH DESCRIPTION
A server of NFS version 2 (RFC 1094) whose log holds it to account: each reply is signed, witnesses replay the log, and
who answered otherwise than it owed is shown by a file of evidence that anybody can check."""

SEE_ALSO = """.SH SEE ALSO
The documents of the repository: README.md, and in docs/ HOSTS.md (parties on hosts of their own), KEYS.md (secrets,
rosters, epochs), CLIENTS.md (\\fBserve\\fR), CHECKING.md (evidence), SCRIPTS.md (\\fBrun\\fR) and LIMITS.md.
.PP
.BR mount.nfs (8),
.BR systemd.service (5),
.BR logrotate (8)"""


@dataclasses.dataclass
class Argument:
    """An argument of a command, by the macro of command_line that makes its row."""

    kind: str
    name: str
    value: str | None
    about: str

    @property
    def is_option(self):
        return self.kind != "place"

    @property
    def is_needed(self):
        return self.kind in ("needed", "place")

    def spelled(self):
        if not self.is_option:
            return f"\\fI{escaped(self.value)}\\fR"
        word = f"\\fB\\-\\-{escaped(self.name)}\\fR"
        return word if self.value is None else f"{word} \\fI{escaped(self.value)}\\fR"


@dataclasses.dataclass
class Command:
    """A subcommand, with what its help says."""

    name: str
    about: str
    notes: str
    arguments: list[Argument]


def escaped(text):
    """A text as roff writes it."""
    lines = text.replace("\\", "\\e").replace("-", "\\-").split("\n")
    return "\n".join("\\&" + line if line.startswith((".", "'")) else line for line in lines)


def unquoted(text):
    """What a string of the sources stands for."""
    return re.sub(r"\\(.)", lambda found: {"n": "\n"}.get(found[1], found[1]), text, flags=re.S)


def values(text, constants):
    """The strings and names of constants between commas, as texts."""
    found = re.findall(rf"{TEXT}|(\w+)", text, re.S)
    return [constants[name] if name in constants else unquoted(string) for string, name in found]


def argument_of(kind, inside, constants):
    """The argument of a row of a table."""
    words = values(inside, constants)
    if kind == "flag":
        return Argument(kind, words[0], None, words[1])
    if kind in ("word", "needed", "place"):
        return Argument(kind, *words)
    raise ValueError(f"what {kind} makes is not known here")


def command_of(name, text, tables, constants):
    """The subcommand whose row has these fields."""
    about, = values(re.search(rf"about: ({TEXT})", text, re.S)[1], constants)
    notes = re.search(r"notes: Some\((\w+)\)", text)
    table = re.search(r"arguments: &(\w+)", text)
    arguments = ARGUMENT.finditer(tables[table[1]]) if table else []
    return Command(name, about, constants[notes[1]] if notes else "",
                   [argument_of(each[1], each[2], constants) for each in arguments])


def read_commands():
    """What the program says of itself, and its subcommands in the order of its help."""
    rows, own = {}, None
    for path in sorted(SOURCES.glob("*.rt")):
        text = path.read_text()
        constants = {name: unquoted(string) for name, string in CONSTANT.findall(text)}
        tables = dict(ARGUMENTS.findall(text))
        rows |= {name: command_of(name, fields, tables, constants) for name, fields in ROW.findall(text)}
        own = COMMANDS.search(text) or own
    about = unquoted(re.search(rf"\.about\(\s*{TEXT}", own[1], re.S)[1])
    return Command("nfsacc", about, "", []), [rows[name] for name in re.findall(r"(\w+)_row\(\)", own[1])]


def synopsis(command):
    words = [f"\\fBnfsacc {command.name}\\fR"]
    options = [each for each in command.arguments if each.is_option]
    words += [each.spelled() for each in options if each.is_needed]
    words += [f"[{each.spelled()}]" for each in options if not each.is_needed]
    words += [each.spelled() for each in command.arguments if not each.is_option]
    return " ".join(words)


def is_laid_out(line):
    return line.startswith(" ")


def notes(text):
    """Paragraphs; lines that begin with a blank stay as they are laid out."""
    lines, was_laid_out = [], False
    for line in text.split("\n"):
        if is_laid_out(line) != was_laid_out:
            was_laid_out = not was_laid_out
            lines.append(".nf" if was_laid_out else ".fi")
        lines.append(escaped(line) if line else ".PP")
    return [*lines, ".fi"] if was_laid_out else lines


def section(command):
    lines = [f".SS {command.name}", ".nh", ".ad l", synopsis(command), ".ad b", ".hy", ".PP", f"{escaped(command.about)}."]
    for each in command.arguments:
        lines += [".TP", each.spelled(), f"{escaped(each.about)}."]
    if command.notes:
        lines += [".PP", *notes(command.notes)]
    return lines


def page():
    own, commands = read_commands()
    version, = re.findall(rf"VERSION: &str = {TEXT}", VERSION.read_text())
    lines = ['.\\" Made by checks/man.py of the sources of crates/command_line.',
             f'.TH NFSACC 1 "" "nfsacc {version}" "User Commands"',
             ".SH NAME", f"nfsacc \\- {escaped(own.about[0].lower() + own.about[1:])}",
             ".SH SYNOPSIS", "\\fBnfsacc\\fR \\fICOMMAND\\fR [\\fIOPTIONS\\fR] [\\fIARGUMENTS\\fR]", ".br",
             "\\fBnfsacc\\fR [\\fICOMMAND\\fR] \\fB\\-\\-help\\fR", ".br", "\\fBnfsacc \\-\\-version\\fR",
             INTRO, ".SH COMMANDS"]
    for command in commands:
        lines += section(command)
    return "\n".join([*lines, SEE_ALSO, ""])


def main(words):
    made = page()
    if words != ["--check"]:
        PAGE.parent.mkdir(exist_ok=True)
        PAGE.write_text(made)
        return 0
    stands = PAGE.read_text() if PAGE.exists() else ""
    sys.stdout.writelines(difflib.unified_diff(stands.splitlines(True), made.splitlines(True), str(PAGE), "as it is made"))
    return 0 if stands == made else 1


if __name__ == "__main__":
    sys.exit(main(sys.argv[1:]))
