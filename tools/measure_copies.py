#!/usr/bin/env python3
"""Measures copies of histories in which versions share much: what OLD keeps, what the copy keeps, and the seconds.

  tools/measure_copies.py PROGRAM [ROW ..]

PROGRAM is crates/uffs/out/uffs, as `rt run` builds it there; a ROW is a name of ROWS, and without one each is measured.
Kept are the blocks that `map` counts as such. A copy of the same sizes should keep at most 1.3 times what OLD does, and take a
second of the processor. The last row is the script of `update --changes` for one byte of 16 MiB, which should have at most
20,000 bytes.
"""
import os
import random
import re
import subprocess
import sys
import tempfile

NUMBERS = random.Random(7)
PIECE = 30_000


def told_by(words, script=b""):
    """The status of a process, what it printed, and its seconds of the processor."""
    before = os.times()
    done = subprocess.run(words, input=script, capture_output=True, check=False)
    after = os.times()
    seconds = after.children_user + after.children_system - before.children_user - before.children_system
    if done.returncode:
        print(" ".join(map(str, words[1:3])), "status", done.returncode, done.stderr.decode(errors="replace").strip())
    return done.stdout, seconds


def writes(path, data, at=0):
    """The lines that write bytes into a file from a place on."""
    lines = [f"open {path} 6"]
    for start in range(0, len(data), PIECE):
        lines.append(f"pwrite 0 {at + start} {data[start : start + PIECE].hex()}")
    return [*lines, "close 0"]


def version(*lines):
    return ["begin", *lines, "end"]


def appended():
    """100 bytes appended 30 times to 30 kB."""
    lines = version(*writes("/log", NUMBERS.randbytes(30_000)))
    for number in range(30):
        lines += version(*writes("/log", NUMBERS.randbytes(100), 30_000 + 100 * number))
    return {"history": 32, "blocks": 512}, lines


def one_byte():
    """A byte changed 100 times in 1 MB."""
    lines = version(*writes("/data", NUMBERS.randbytes(1_000_000)))
    for number in range(100):
        lines += version(*writes("/data", bytes([number + 1]), 999_000 + number))
    return {"history": 128, "blocks": 2048}, lines


def renamed():
    """A folder of 100 kB renamed 30 times."""
    lines = version("mkdir /d0", *(line for number in range(10) for line in writes(f"/d0/f{number}", NUMBERS.randbytes(10_000))))
    for number in range(30):
        lines += version(f"rename /d{number} /d{number + 1}")
    return {"history": 32, "blocks": 2048}, lines


def files_changed():
    """102 versions of 1,000 files of 20 kB, one changed each time."""
    lines = []
    for folder in range(10):
        lines += version(f"mkdir /d{folder}", *(line for number in range(100) for line in writes(f"/d{folder}/f{number}", NUMBERS.randbytes(20_000))))
    for number in range(101):
        lines += version(*writes(f"/d{number % 10}/f{number % 100}", NUMBERS.randbytes(20_000)))
    return {"history": 102, "blocks": 8192}, lines


def entries_changed():
    """127 versions of 1,000 entries, one more each time."""
    lines = version(*(line for number in range(873) for line in (f"write /f{number} -",)))
    for number in range(126):
        lines += version(f"write /g{number} {number:08x}")
    return {"history": 127, "blocks": 4096}, lines


ROWS = {"appended": appended, "one_byte": one_byte, "renamed": renamed, "files_changed": files_changed, "entries_changed": entries_changed}


def kept(program, image):
    """How many blocks the versions of an image keep."""
    told, _ = told_by([program, "map", image])
    found = re.search(rb"kept (\d+)", told)
    return int(found[1]) if found else 0


def measure(program, name, room):
    sizes, lines = ROWS[name]()
    old, new = f"{room}/{name}", f"{room}/{name}.copy"
    told_by([program, "format", old, "--page", "256", "--pages", "16", "--blocks", str(sizes["blocks"]), "--history", str(sizes["history"])])
    replies, _ = told_by([program, "run", old], ("\n".join([*lines, "sync"]) + "\n").encode())
    refused = [it for it in replies.splitlines() if it[:1] == b"E"]
    if refused:
        print(name, "refused:", refused[:3])
    _, seconds = told_by([program, "copy", old, new])
    before, after = kept(program, old), kept(program, new)
    print(f"{name}: OLD keeps {before}, the copy {after}, {after / max(before, 1):.2f} times, {seconds:.2f} s of the processor ({ROWS[name].__doc__})", flush=True)


def measure_changes(program, room):
    """One byte of 16 MiB."""
    data = NUMBERS.randbytes(16_777_216)
    for name, change in (("old", data), ("new", data[:8_000_000] + bytes([data[8_000_000] ^ 1]) + data[8_000_001:])):
        told_by([program, "format", f"{room}/{name}", "--page", "4096", "--pages", "16", "--blocks", "1024"])
        told_by([program, "run", f"{room}/{name}"], ("\n".join([*version(*writes("/big", change)), "sync"]) + "\n").encode())
    script, seconds = told_by([program, "update", "--changes", f"{room}/old", f"{room}/new"])
    print(f"update --changes: {len(script)} bytes, {seconds:.2f} s of the processor (one byte of 16 MiB)", flush=True)


def main():
    if len(sys.argv) < 2:
        sys.exit(__doc__)
    program, names = os.path.abspath(sys.argv[1]), sys.argv[2:] or [*ROWS, "changes"]
    with tempfile.TemporaryDirectory() as room:
        for name in names:
            measure_changes(program, room) if name == "changes" else measure(program, name, room)


if __name__ == "__main__":
    main()
