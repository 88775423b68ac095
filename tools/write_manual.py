#!/usr/bin/env python3
"""Writes docs/uffs.1, the man page of `uffs`, and tools/uffs.bash, what bash completes after it, from
the texts of the help in crates/command_words. With --check it writes nothing, and fails where one is stale.

The help is read from the sources, so that neither a proof nor a program is wanted: each subcommand is a
constant with its name, what it is about, its help, and its arguments, of which some are constants that
several subcommands share."""
import re
import sys
from dataclasses import dataclass, field
from pathlib import Path

ROOT = Path(__file__).resolve().parent.parent
SOURCES = sorted((ROOT / "crates/command_words/src").glob("*.rt"))
PAGE = ROOT / "docs/uffs.1"
COMPLETION = ROOT / "tools/uffs.bash"

TEXT = r'"(?:[^"\\]|\\.)*"'
FIELD = rf"(\w+): ({TEXT}|\w+)"
ARGUMENT = rf"Argument::(\w+) \{{((?:\s*\w+: (?:{TEXT}|\w+),?)*)\s*\}}"
SHARED = re.compile(rf"const (\w+): Argument =\s*{ARGUMENT};")
ELEMENT = re.compile(rf"{ARGUMENT}|(\w+)")
SUBCOMMAND = re.compile(rf"const \w+: Subcommand = Subcommand \{{\s*name: ({TEXT}),\s*about: ({TEXT}),\s*help: (\w+),\s*arguments: &\[(.*?)\],\s*\}};", re.S)


@dataclass
class Word:
    """A word or an option of a subcommand, as the help shows it."""
    shown: str
    help: str
    option: str = ""


@dataclass
class Subcommand:
    name: str
    about: str
    help: str
    words: list = field(default_factory=list)


def text_of(spelled):
    """A string of the source, with its quotes, as the program prints it."""
    return re.sub(r"\\(.)", lambda m: {"n": "\n"}.get(m.group(1), m.group(1)), spelled[1:-1])


def all_sources():
    return "\n".join(path.read_text() for path in SOURCES)


def constants(sources):
    """The texts of the constants of crates/command_words, by name."""
    return {name: text_of(value) for name, value in re.findall(rf"const (\w+): &str =\s*({TEXT});", sources)}


def word_of(kind, spelled, known):
    """An argument as the help shows it."""
    fields = {name: text_of(value) if value.startswith('"') else known[value] for name, value in re.findall(FIELD, spelled)}
    about = fields["help"]
    if kind == "Word":
        return Word(fields["name"], about)
    if kind == "OptionalWord":
        return Word(f"[{fields['name']}]", about)
    if kind == "ShownWord":
        return Word(fields["shown"], about)
    if kind == "Count":
        return Word(f"[{known['COUNT']}]", about)
    option = "--" + (fields["long"] if kind == "FileOption" else fields["name"])
    value = {"NumberOption": fields.get("shown"), "FileOption": known["FILE"], "Flag": None}[kind]
    return Word(f"[{option} {value}]" if value else f"[{option}]", about, option)


def words_of(spelled, shared, known):
    """The arguments of a subcommand, in order."""
    return [shared[name] if name else word_of(kind, fields, known) for kind, fields, name in ELEMENT.findall(spelled)]


def subcommands():
    """The texts of the constants, and each subcommand, by name."""
    sources = all_sources()
    known = constants(sources)
    shared = {name: word_of(kind, fields, known) for name, kind, fields in SHARED.findall(sources)}
    found = [Subcommand(text_of(name), text_of(about), known[told], words_of(words, shared, known)) for name, about, told, words in SUBCOMMAND.findall(sources)]
    return known, sorted(found, key=lambda made: made.name)


def roff(text):
    """Plain text for a man page."""
    lines = text.replace("\\", "\\e").replace("-", "\\-").split("\n")
    return "\n".join("\\&" + line if line[:1] in ("'", ".") else line for line in lines)


def flowing(text):
    """Paragraphs of a help text: what is indented stays as it stands."""
    out = []
    for block in text.split("\n\n"):
        lines = block.split("\n")
        kept = [line for line in lines if line.startswith("  ")]
        if kept:
            plain = [line for line in lines if not line.startswith("  ")]
            out += [".PP", *map(roff, plain), ".nf", *map(roff, kept), ".fi"]
        else:
            out += [".PP", roff(re.sub(r"`([^`]*)`", r"\1", block))]
    return out


def head(one):
    """A subcommand with its words, on one line."""
    words = " ".join(word.shown for word in one.words)
    return [f".B uffs {one.name}"] + ([roff(words)] if words else [])


def manual(known, made):
    lines = [
        ".\\\" Written by tools/write_manual.py from the texts of the help.",
        f'.TH UFFS 1 "" "uffs {known["VERSION"]}" "undofs"',
        ".SH NAME",
        "uffs \\- a file system with undo and rollback, on an image of raw flash",
        ".SH SYNOPSIS",
    ]
    for one in made:
        lines += [*head(one), ".br"]
    lines += [".SH DESCRIPTION", "The scripts of run, memory and serve have a call a line, and each is answered by a line: docs/scripts.md of the sources tells them."]
    for one in made:
        lines += [f".SH {one.name.upper()}", *head(one), ".PP", roff(one.about) + "."]
        for word in one.words:
            lines += [".TP", f".B {roff(word.shown.strip('[]'))}", roff(word.help)]
        lines += flowing(one.help)
    lines += [".SH STATUS AND EXAMPLE", *flowing(known["PROGRAM_HELP"])]
    return "\n".join(lines) + "\n"


def completion(made):
    names = " ".join(one.name for one in made)
    lines = [
        "# What bash completes after `uffs`. Written by tools/write_manual.py from the texts of the help.",
        "_uffs() {",
        '    local word="${COMP_WORDS[COMP_CWORD]}"',
        f'    local words="{names}"',
        "    if [ \"$COMP_CWORD\" -eq 1 ]; then",
        '        COMPREPLY=($(compgen -W "$words --help --version" -- "$word"))',
        "        return",
        "    fi",
        '    if [ "$COMP_CWORD" -eq 2 ] && [ "${COMP_WORDS[1]}" = help ]; then',
        '        COMPREPLY=($(compgen -W "$words --help" -- "$word"))',
        "        return",
        "    fi",
        '    local options="--help"',
        '    case "${COMP_WORDS[1]}" in',
    ]
    for one in made:
        options = " ".join(word.option for word in one.words if word.option)
        if options:
            lines.append(f'        {one.name}) options="{options} --help" ;;')
    lines += [
        "    esac",
        '    if [[ "$word" == -* ]]; then',
        '        COMPREPLY=($(compgen -W "$options" -- "$word"))',
        "    else",
        '        COMPREPLY=($(compgen -f -- "$word"))',
        "    fi",
        "}",
        "complete -o filenames -F _uffs uffs",
    ]
    return "\n".join(lines) + "\n"


def pages():
    """Each file that is written, with what it has to hold."""
    known, made = subcommands()
    return {PAGE: manual(known, made), COMPLETION: completion(made)}


def stale():
    """The names of the files that do not hold what they have to."""
    return [str(path.relative_to(ROOT)) for path, text in pages().items() if not path.exists() or path.read_text() != text]


def main():
    if "--check" in sys.argv[1:]:
        for name in stale():
            print(f"{name} is stale: run tools/write_manual.py")
        return 1 if stale() else 0
    for path, text in pages().items():
        path.write_text(text)
    return 0


if __name__ == "__main__":
    sys.exit(main())
