#!/usr/bin/env python3
"""Checks what `uffs` tells on standard error, with no proof and no program.

  tools/check_messages.py

Its messages are the texts `uffs: ..` in the sources of the crates that are no tests, and the causes that come in them.
  - Each has to be wanted somewhere: in a line `$!` or `$!*` of a row, in a test crate, or in a script of tools/. Those
    that no call can bring about are named in NOT_REACHED.
  - Each message that a page names, in backticks, has to be one of them.
It prints a line for each that is not so; its status is 1 where there is one.
"""
import glob
import os
import re
import sys

TOP = os.path.dirname(os.path.dirname(os.path.abspath(__file__)))
# The files with the causes that are told after a colon.
CAUSES = [
    "crates/host_interface/src/image_files.rt", "crates/image_jobs/src/source_fault.rt", "crates/archives/src/step.rt",
    "crates/tar_format/src/header_fault.rt", "crates/tar_format/src/record_fault.rt", "crates/flash_simulation/src/image_fault.rt", "crates/part_file/src/part_file.rt",
]
# What no call of the program tells, and why.
NOT_REACHED = {
    "uffs: unmounted": "a word mounts before it asks",
    "uffs: line {line}: unmounted": "the restart that was refused before is told",
    "uffs: lost checkpoint": "want of memory for the name",
    "uffs: dropped checkpoint": "want of memory for the name",
    "uffs: lost path": "want of memory for the path",
    "it cannot be read": "a look at the name tells more",
    "out of memory": "told as ENOMEM 25",
    "Memory": "told as ENOMEM 25",
    "the head cannot be read": "told as a file that cannot be read",
    "page {0} cannot be read": "told with the name of the file",
    "the file failed": "told with the name of the file",
    "the file was not brought to the disk": "told as a file that cannot be written",
    "{0}": "a cause of another kind",
    "the archive has a link or something else, of typeflag {0}": "told with the name, as what cannot be put",
    "a name in the archive is refused: {0}": "told with the name, as what cannot be put",
    "a pax header has a keyword that is not read": "told with the name, as what cannot be put",
    "a file has over 16777216 bytes": "told with the name, as what cannot be put",
}
# What stands for a part of a message: in the sources by its name, on pages in capitals.
NUMBER = r"(?:[0-9][0-9,]*|[A-Z]+|\{\w+\})"
PARTS = {name: NUMBER for name in ("number", "line", "page", "pages", "blocks", "serial", "done", "all", "least", "most", "history")}
PARTS["word"] = r"(?:[A-Z]+|\{\w+\})"
PARTS["fault"] = PARTS["cause"] = r"[^:]+?"


def read(path):
    with open(path, encoding="utf-8") as text:
        return text.read()


def is_test(path):
    return re.search(r"/crates/(?:\w+_tests|host_rows|rows|operations|stress)/", path) is not None


def sources():
    """The texts of all source files, by their paths."""
    return {path: read(path) for path in sorted(glob.glob(f"{TOP}/crates/*/src/**/*.rt", recursive=True))}


def messages(texts):
    """The messages in sources that are no tests. Those to which more may be added end in a star."""
    for path, text in texts.items():
        if not is_test(path):
            for mark, told in re.findall(r'(write(?:ln)?!)\(\s*\w+,\s*"(uffs: [^"]*)"', text):
                yield told + ("" if mark == "writeln!" else "*")


def causes(texts):
    """What comes after the colon of messages."""
    for path in CAUSES:
        text = texts[f"{TOP}/{path}"]
        yield from re.findall(r'#\[error\("([^"]*)"\)\]', text)
        yield from re.findall(r'=> "([^"]*)"', text)
    yield from added(texts[f"{TOP}/crates/job_messages/src/failure_messages.rt"])


def added(text):
    """What is added to a refusal."""
    yield from re.findall(r'(?:format!\(in alloc; |write!\(text, |from_str\(\s*alloc,\s*)"([^"]*)"', text)


def pattern(message):
    """What finds a message with any parts."""
    more = message.endswith("*")
    pieces = re.split(r"\{(\w*)\}", message.rstrip("*"))
    found = "".join(re.escape(it) if at % 2 == 0 else PARTS.get(it, r"[^:,\n]+?") for at, it in enumerate(pieces))
    return found + (r"(?:(?::| ).*)?" if more else "")


def wanted_lines():
    """The texts in which messages are wanted."""
    for path in glob.glob(f"{TOP}/crates/*/data/*.row"):
        yield "\n".join(line for line in read(path).splitlines() if line.startswith("$!"))
    for path, text in sources().items():
        if re.search(r"/crates/\w+_tests/", path):
            yield text
    for path in [*glob.glob(f"{TOP}/tools/check_*.py"), *glob.glob(f"{TOP}/tools/host_*.py"), *glob.glob(f"{TOP}/tools/c/*.sh"), *glob.glob(f"{TOP}/tools/python/*.py")]:
        if path != os.path.abspath(__file__):
            yield read(path)


def unwanted(texts):
    """The messages and causes that stand in no wanted line."""
    lines = "\n".join(wanted_lines())
    for message in sorted(set(messages(texts))):
        if message.rstrip("*") not in NOT_REACHED and not re.search(pattern(message) + r'(?:$|["\'\\])', lines, re.M):
            yield message.rstrip("*")
    for cause in sorted(set(causes(texts))):
        if cause not in NOT_REACHED and not re.search(r"(?:: |image |part )" + pattern(cause) if cause[0] != "," else pattern(cause), lines):
            yield cause


def named(text):
    """The messages that a page names, by the number of the line."""
    for number, line in enumerate(text.split("\n"), 1):
        yield from ((number, told) for told in re.findall(r"`(uffs: [^`]*)`", line))


def unknown(texts):
    """The messages that pages name and no source has."""
    known = re.compile("|".join(f"(?:{pattern(it)})" for it in sorted(set(messages(texts)))))
    for path in [f"{TOP}/README.md", *sorted(glob.glob(f"{TOP}/docs/*.md"))]:
        for number, told in named(read(path)):
            if not known.fullmatch(told):
                yield f"{os.path.relpath(path, TOP)}:{number}: no source tells `{told}`"


def main():
    texts = sources()
    told = [f"in no line that is wanted: {it}" for it in unwanted(texts)]
    known = {it.rstrip("*") for it in [*messages(texts), *causes(texts)]}
    told += [f"named as not reached, and in no source: {it}" for it in NOT_REACHED if it not in known]
    told += unknown(texts)
    for line in told:
        print(line)
    print(f"{len(set(messages(texts)))} messages, {len(set(causes(texts)))} causes, {len(told)} faults")
    return 1 if told else 0


if __name__ == "__main__":
    sys.exit(main())
