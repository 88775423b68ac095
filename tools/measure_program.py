#!/usr/bin/env python3
"""Measures what the built program takes of the host: docs/embedding.md and docs/speed.md have the figures.

  tools/measure_program.py PROGRAM

PROGRAM is crates/uffs/out/uffs, as `rt run` builds it there. It tells
  - the bytes of the program's file, and those of its code and constants and of its data as `size` counts them;
  - the least limit of the stack, in steps of 4 KiB, under which `uffs memory` runs scripts to their end:
    one line, and each script of rows in which faults, calls of every kind and restarts stand;
  - of a flash of 67,108,864 bytes, new and with data in every page, the seconds by the clock and the
    most memory that was resident, as the system tells it of a process at its end, of `uffs format`,
    `check` and a `run` of ten lines.
"""
import glob
import os
import random
import resource
import shutil
import subprocess
import sys
import tempfile
import time

TOP = os.path.dirname(os.path.dirname(os.path.abspath(__file__)))
P, K, N = 4096, 64, 256
RUN = "mkdir /d\nopen /d/f 7\npwrite 0 0 4142\npwrite 0 4096 4344\nclose 0\nsync\nls /d\nstat /d/f\nread /d/f 4096 2\nlog\n"


def script_of(row):
    """The script of a row."""
    with open(row, encoding="utf-8") as lines:
        return "".join(line[2:] for line in lines if line.startswith("> "))


def runs_with(program, kib, script):
    """Whether the script runs with so much stack."""
    def limit():
        resource.setrlimit(resource.RLIMIT_STACK, (kib * 1024, kib * 1024))
    done = subprocess.run([program, "memory"], input=script.encode(), stdout=subprocess.DEVNULL,
                          stderr=subprocess.DEVNULL, preexec_fn=limit, check=False)
    return done.returncode == 0


def least_stack(program, script):
    """The least limit with which a script runs, in KiB, in steps of 4."""
    for kib in range(16, 1028, 4):
        if runs_with(program, kib, script):
            return kib
    return None


def tell_size(program):
    """The bytes of the file, and of what is loaded of it."""
    told = subprocess.run(["size", program], capture_output=True, text=True, check=True).stdout
    text, data, zeros = told.splitlines()[1].split()[:3]
    print(f"size: file {os.path.getsize(program)}, code and constants {text}, data {data}, zeros {zeros}")


def tell_stack(program):
    """The limits of a script of one line, and of the rows."""
    print("stack: one line", least_stack(program, "ls /\n"), "KiB")
    worst, where = 0, ""
    for row in sorted(glob.glob(f"{TOP}/crates/rows/data/*.row")):
        kib = least_stack(program, script_of(row)) or 1024
        if kib > worst:
            worst, where = kib, os.path.basename(row)
    print("stack: every row", worst, f"KiB ({where})")


def used_by(words, script=b""):
    """The status of a process, its seconds by the clock, and what it used."""
    began = time.monotonic()
    child = subprocess.Popen(words, stdin=subprocess.PIPE, stdout=subprocess.DEVNULL)
    child.stdin.write(script)
    child.stdin.close()
    _, status, used = os.wait4(child.pid, 0)
    return status, time.monotonic() - began, used


def measured(words, script=b""):
    """Seconds and the most resident KiB of a process."""
    status, seconds, used = used_by(words, script)
    return status, seconds, used.ru_maxrss


def fill(image):
    """Puts data into each erased page of an image."""
    with open(image, "rb") as file:
        old = file.read()
    new, at = bytearray(old[:20]), 20
    for _ in range(N):
        new.append(old[at])
        at += 1
        for _ in range(K):
            has_data = old[at] == 1
            new += old[at : at + 1 + P] if has_data else b"\1" + b"\x5a" * P
            at += 1 + P if has_data else 1
    with open(image, "wb") as file:
        file.write(new)


def tell_image(program):
    """The largest flash, new and full."""
    with tempfile.TemporaryDirectory() as room:
        image = f"{room}/large.image"
        sizes = ["--page", str(P), "--pages", str(K), "--blocks", str(N)]
        for kind in ("fresh", "full"):
            print(kind, "format: status %d, %.2f s, %d KiB" % measured([program, "format", image, *sizes]))
            if kind == "full":
                fill(image)
            print(kind, "check: status %d, %.2f s, %d KiB" % measured([program, "check", image]))
            print(kind, "run: status %d, %.2f s, %d KiB" % measured([program, "run", image], RUN.encode()))


def make_folder(folder):
    """A folder of 1,000 files of 20,000 bytes, in ten folders."""
    numbers = random.Random(1)
    for number in range(1000):
        at = f"{folder}/d{number % 10}"
        os.makedirs(at, exist_ok=True)
        with open(f"{at}/f{number}", "wb") as file:
            file.write(numbers.randbytes(20_000))


def flash_bytes(image):
    """The bytes of the flash of an image: its sizes stand before its first block."""
    with open(image, "rb") as file:
        head = file.read(20)
    page, pages, blocks = (int.from_bytes(head[at : at + 4], "little") for at in (8, 12, 16))
    return page * pages * blocks


def tell_word(name, words, most=None, script=b""):
    """Tells of a word how long it took and what it held, beside what it may hold."""
    status, seconds, used = used_by(words, script)
    kib, own = used.ru_maxrss, used.ru_utime + used.ru_stime
    bound = "" if most is None else f" of {most // 1024}" + (", TOO MUCH" if most < kib * 1024 else "")
    print(f"{name}: status {os.waitstatus_to_exitcode(status)}, {seconds:.2f} s, {own:.2f} s of the processor, {kib} KiB{bound}")


def tell_words(program):
    """1,000 files of 20,000 bytes, in and out."""
    with tempfile.TemporaryDirectory() as room:
        folder, image, other, archive = f"{room}/folder", f"{room}/image", f"{room}/other", f"{room}/archive"
        make_folder(folder)
        tell_word("tar cf", ["tar", "-C", folder, "-cf", archive, "."])
        os.mkdir(f"{room}/untarred")
        tell_word("tar xf", ["tar", "-C", f"{room}/untarred", "-xf", archive])
        tell_word("create", [program, "create", image, folder])
        most = flash_bytes(image) + os.path.getsize(image) + (4 << 20)
        print(f"flash {flash_bytes(image)} bytes, image {os.path.getsize(image)} bytes")
        tell_word("put of the same", [program, "put", image, folder, "/"])
        tell_word("get", [program, "get", image, "/", f"{room}/out"], most)
        same = subprocess.run(["diff", "-r", folder, f"{room}/out"], check=False).returncode
        print("what came out is", "the same" if same == 0 else "OTHER")
        with open(f"{room}/archive_of_image", "wb") as file:
            file.write(subprocess.run([program, "tar", image], capture_output=True, check=True).stdout)
        for word in ("tar", "tree", "versions", "map", "check"):
            tell_word(word, [program, word, image], most)
        shutil.copyfile(image, other)
        with open(f"{room}/archive_of_image", "rb") as file:
            tell_word("untar", [program, "untar", other, "/new"], None, file.read())
        tell_word("diff", [program, "diff", image, "@1", "@2"], most)
        tell_word("update", [program, "update", other, image], 2 * most)
        tell_word("copy", [program, "copy", image, f"{room}/copied"], 2 * most)


def main():
    if len(sys.argv) != 2:
        sys.exit(__doc__)
    program = os.path.abspath(sys.argv[1])
    tell_size(program)
    tell_stack(program)
    # (what this program itself held counts for those that it starts, so the large image comes last)
    tell_words(program)
    tell_image(program)


if __name__ == "__main__":
    main()
