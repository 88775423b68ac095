#!/usr/bin/env python3
"""Builds a wrong driver or a wrong daemon: build_wrong.py NAME FOLDER

wrong/NAME.edit has the file below tools/ that is changed, pairs of lines of it, and the case that has to see it. FOLDER gets `part_test`
for a case of the driver by itself, and `undofs-fuse` for one of a folder; the name of the case is printed. The status is 1 where a line
stands there never or twice, or nothing is built.
"""
import os
import shutil
import subprocess
import sys
import tempfile

HERE = os.path.dirname(os.path.abspath(__file__))
TOOLS = os.path.dirname(HERE)


def read_edit(name):
    """The file, the case, and the pairs of lines of an edit."""
    fields, pairs = {}, []
    with open(f"{HERE}/wrong/{name}.edit") as text:
        for line in text.read().splitlines():
            key, _, value = line.partition(": ")
            if key == "old":
                pairs.append([value, None])
            elif key == "new":
                pairs[-1][1] = value
            else:
                fields[key] = value
    return fields["file"], fields["case"], pairs


def change(path, pairs):
    with open(path) as file:
        text = file.read()
    for old, new in pairs:
        if text.count(old) != 1:
            sys.exit(f"{path}: {old!r} stands {text.count(old)} times")
        text = text.replace(old, new)
    with open(path, "w") as file:
        file.write(text)


def main():
    file, case, pairs = read_edit(sys.argv[1])
    with tempfile.TemporaryDirectory() as space:
        for part in ("c", "fuse"):
            shutil.copytree(f"{TOOLS}/{part}", f"{space}/{part}", ignore=shutil.ignore_patterns("out", "__pycache__"))
        change(f"{space}/{file}", pairs)
        env = {**os.environ, "CFLAGS": "-Wno-error -w"}
        made = os.path.abspath(sys.argv[2])
        words = [f"{HERE}/build_part_test.sh", space, made] if case.startswith("driver_") else [f"{space}/fuse/build.sh", made]
        done = subprocess.run(words, env=env)
    print(case)
    return done.returncode


if __name__ == "__main__":
    sys.exit(main())
