#!/usr/bin/env python3
"""Runs the tests of all crates and all programs with no proof, by `rt try`.

  tools/try_quickly.py [--side-by-side N] [CRATE ..]

A crate with tests passes where each of its tests does; a program where it writes what its file stdout has, and ends
with the status of its file status, or 0. Four run side by side, or N. Crates are left out that `rt try` does not end
in time: LEFT_OUT names them, and so does a line of the output. RT in the environment is the command that is called in
the place of `rt`. The last line is `N passed, M failed`, and the status is 1 where M is not 0.
"""
import argparse
import glob
import os
import re
import subprocess
import sys
import time
from concurrent.futures import ThreadPoolExecutor

TOP = os.path.dirname(os.path.dirname(os.path.abspath(__file__)))
TEST = re.compile(r"^\s*#\[test\]", re.M)
# The longest that one may take, its compilation included, and what a program or a test has of it.
SECONDS, RUN_SECONDS = 1500, 900
# What `rt try` does not end in time, and why: it compiles without optimizing, and with an address checker.
LEFT_OUT = dict.fromkeys(("fault_trials", "hostile_images", "latency", "operations", "stress", "trial_update"), "it tries more cases than end within ten minutes")


def text_of(path, missing=""):
    """A file's text, or another text where there is none."""
    if not os.path.isfile(path):
        return missing
    with open(path, encoding="utf-8", errors="surrogateescape") as file:
        return file.read()


def crates():
    """The crates of crates.txt, in its order."""
    lines = (it.partition("#")[0].partition(":") for it in text_of(f"{TOP}/crates.txt").splitlines())
    return [words.split()[0] for words, colon, _ in lines if colon]


def has_tests(crate):
    return any(TEST.search(text_of(it)) for it in glob.glob(f"{TOP}/crates/{crate}/src/**/*.rt", recursive=True))


def kinds_of(crate):
    """What is to be run of a crate: its tests, its program."""
    return ["tests"] * has_tests(crate) + ["program"] * os.path.isfile(f"{TOP}/crates/{crate}/src/main.rt")


def words_of(folder, kind):
    """The words of `rt try`."""
    if kind == "tests":
        return ["--test", "--seconds", str(RUN_SECONDS)]
    data = [os.path.relpath(it, f"{folder}/data") for it in sorted(glob.glob(f"{folder}/data/**", recursive=True)) if os.path.isfile(it)]
    words = [word for it in data for word in ("--data", f"{it}=data/{it}")]
    return ["--seconds", str(RUN_SECONDS), *words, "--", *text_of(f"{folder}/args").splitlines()]


def tried(crate, kind):
    """Runs the tests or the program of a crate, and returns what was wrong."""
    folder, begun = f"{TOP}/crates/{crate}", time.monotonic()
    words = [os.environ.get("RT", "rt"), "try", *words_of(folder, kind)]
    given = text_of(f"{folder}/stdin").encode("utf-8", "surrogateescape") if kind == "program" else b""
    try:
        ran = subprocess.run(words, cwd=folder, input=given, capture_output=True, timeout=SECONDS, check=False)
    except subprocess.TimeoutExpired:
        return f"it had not ended after {SECONDS} seconds"
    wanted = int(text_of(f"{folder}/status", "0")) if kind == "program" else 0
    wrong = f"it ended with {ran.returncode}, and not {wanted}" if ran.returncode != wanted else ""
    if kind == "program" and ran.stdout != text_of(f"{folder}/stdout").encode("utf-8", "surrogateescape"):
        wrong += f"{' and ' if wrong else ''}it wrote something else than its file stdout has"
    if wrong:
        wrong += "\n" + (ran.stdout if kind == "tests" else b"").decode(errors="replace")[-1500:] + ran.stderr.decode(errors="replace")[-1500:]
    print(f"{crate}: its {kind} {'FAILED: ' + wrong if wrong else 'passed'} ({time.monotonic() - begun:.0f} seconds)", flush=True)
    return wrong


def main():
    parser = argparse.ArgumentParser(description=__doc__.split("\n\n")[0])
    parser.add_argument("--side-by-side", type=int, default=4, metavar="N")
    parser.add_argument("crates", metavar="CRATE", nargs="*")
    given = parser.parse_args()
    every = [(crate, kind) for crate in given.crates or crates() for kind in kinds_of(crate)]
    for crate, why in LEFT_OUT.items():
        if (crate, "tests") in every or (crate, "program") in every:
            print(f"{crate} is left out: {why}", flush=True)
    with ThreadPoolExecutor(given.side_by_side) as pool:
        wrong = list(pool.map(lambda it: tried(*it), [it for it in every if it[0] not in LEFT_OUT]))
    failed = sum(map(bool, wrong))
    print(f"{len(wrong) - failed} passed, {failed} failed", flush=True)
    return int(bool(failed))


if __name__ == "__main__":
    sys.exit(main())
