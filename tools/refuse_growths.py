#!/usr/bin/env python3
"""Refuses one growth of memory of the program uffs alone, and compares what it answers.

  tools/refuse_growths.py [ROW ..] [--first N] [--step N] [--runs N]

ROW is the name of a file of crates/rows/data without `.row`; without one, those of ROWS below. A
script is run by `uffs memory`, or, where its flash has other sizes, by `uffs run` on an image that is
formatted first. For N from --first on, in steps of --step, `rt try --fail-alloc N` makes the Nth
allocation of the program fail. What it answers has to be one of these:

- what the row says: no growth was refused of which the run tells;
- what the row says up to a line that is answered `err ENOMEM 25`, which is none of undo, redo, goto, begin, end,
  abandon and close, and from then on what the script is answered without that line;
- a beginning of what the row says, with `uffs: ENOMEM 25` on standard error and status 1.

A run takes the better part of a minute, so this is no part of the gate. It prints a line for each run,
and its status is 1 where one was answered otherwise. RT in the environment is the command to run in
place of `rt`.
"""
import argparse
import os
import shlex
import subprocess
import sys
import tempfile

TOP = os.path.dirname(os.path.dirname(os.path.abspath(__file__)))
ROWS = ["undo_redo", "gap_in_a_file", "rollback_after_a_hundred", "torn_commit", "full_flash"]
WANT = "err ENOMEM 25"
NEVER = ("undo", "redo", "goto", "begin", "end", "abandon", "close")


def read_row(name):
    """The lines of a row, the reply to each, and the options of its format."""
    lines, replies, options = [], [], []
    with open(f"{TOP}/crates/rows/data/{name}.row", encoding="utf-8") as row:
        for text in row.read().splitlines():
            key, _, value = text.partition(": ")
            if text.startswith("> "):
                lines.append(text[2:])
            elif text.startswith("< "):
                replies.append(text[2:])
            elif key in ("page", "pages", "blocks", "history"):
                options += [f"--{key}", value]
    return lines, replies, options


def run(words, lines, refused=None):
    """What uffs writes for these words and lines on standard output, line by line, on standard error, and its status."""
    command = shlex.split(os.environ.get("RT", "rt")) + ["try"]
    if refused is not None:
        command += ["--fail-alloc", str(refused)]
    done = subprocess.run(
        command + ["--"] + words,
        input="".join(f"{line}\n" for line in lines),
        capture_output=True,
        text=True,
        cwd=f"{TOP}/crates/uffs",
        check=False,
    )
    told = [line for line in done.stdout.splitlines() if not line.startswith(("run=", "checked: ", "interpreter: ", "rt: "))]
    return told, done.stderr, done.returncode


def serve(lines, options, refused=None):
    """The same of a script, on a new file system."""
    if not options:
        return run(["memory"], lines, refused)
    with tempfile.TemporaryDirectory() as folder:
        os.chmod(folder, 0o777)
        image = f"{folder}/image"
        run(["format", image] + options, [])
        os.chmod(image, 0o666)
        return run(["run", image], lines, refused)


def judge(lines, replies, options, told):
    """What a run comes to, and whether that may be."""
    answers, errors, _ = told
    if answers == replies:
        return "as the row", True
    if "uffs: ENOMEM 25" in errors:
        return f"ended after {len(answers)} lines", answers == replies[: len(answers)]
    if WANT not in answers:
        return "otherwise", False
    place = answers.index(WANT)
    word = lines[place].split(" ")[0]
    if word in NEVER or answers[:place] != replies[:place]:
        return f"{word} refused", False
    rest, _, _ = serve(lines[:place] + lines[place + 1 :], options)
    return f"{word} refused, line {place + 1}", answers[:place] + answers[place + 1 :] == rest


def main():
    parser = argparse.ArgumentParser()
    parser.add_argument("rows", nargs="*", default=ROWS)
    parser.add_argument("--first", type=int, default=1)
    parser.add_argument("--step", type=int, default=100)
    parser.add_argument("--runs", type=int, default=10)
    words = parser.parse_args()
    wrong = 0
    for name in words.rows:
        lines, replies, options = read_row(name)
        for refused in range(words.first, words.first + words.runs * words.step, words.step):
            told = serve(lines, options, refused)
            what, is_right = judge(lines, replies, options, told)
            print(f"{name} {refused}: {what}{'' if is_right else ' WRONG'}", flush=True)
            if not is_right:
                wrong += 1
                print(told, flush=True)
    return 1 if wrong else 0


if __name__ == "__main__":
    sys.exit(main())
