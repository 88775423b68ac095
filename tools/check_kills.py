#!/usr/bin/env python3
"""Kills the built program at random moments in each word that writes a file, and in some that only read one, and
looks at what is left.

  tools/check_kills.py PROGRAM [TIMES]

PROGRAM is crates/uffs/out/uffs, as `rt run` builds it there. Each word is killed TIMES times, 200 if it is left out,
each time at a moment between its start and a little past its end. Afterwards the file that it writes has to be the
one from before or the one that a run to the end writes, byte for byte, and the next run of the word has to end as
ever. A word that only reads leaves its file as it was. Each word is a line `ok` or `WRONG` with how often the file
was which; the status is the number of wrong ones.
All files stand in a new folder that is removed again.
"""
import io
import os
import random
import shutil
import signal
import subprocess
import sys
import tarfile
import tempfile
import time

SIZES = ["--page", "256", "--pages", "16", "--blocks", "200"]
SCRIPT = b"mkdir /x\nopen /x/y 7\npwrite 0 0 %s\nclose 0\nsync\n" % (b"41" * 900)


class Wrong(Exception):
    """What was found where something else has to be."""


def run(program, words, given=b""):
    """Runs the program to its end, which has to be a good one, and answers how long that took."""
    begun = time.monotonic()
    done = subprocess.run([program, *words], input=given, capture_output=True, check=False, timeout=120)
    if done.returncode != 0:
        raise Wrong(f"{words[0]} ended with {done.returncode}: {done.stderr!r}")
    return time.monotonic() - begun


def kill(program, words, given, moment):
    """Begins the program, and kills it after so many seconds."""
    with tempfile.TemporaryFile() as told:
        told.write(given)
        told.seek(0)
        child = subprocess.Popen([program, *words], stdin=told, stdout=subprocess.DEVNULL, stderr=subprocess.DEVNULL)
        time.sleep(moment)
        child.send_signal(signal.SIGKILL)
        child.wait()


def read(name):
    """The bytes of a file, or those of each file of a folder; none where there is none."""
    if os.path.isdir(name):
        return {os.path.join(at, file): read(os.path.join(at, file)) for at, _, files in os.walk(name) for file in files}
    try:
        with open(name, "rb") as file:
            return file.read()
    except FileNotFoundError:
        return None


def write(name, data):
    """Makes a file of these bytes, or none."""
    if data is None:
        if os.path.isdir(name):
            shutil.rmtree(name)
        elif os.path.exists(name):
            os.remove(name)
        return
    with open(name, "wb") as file:
        file.write(data)


def make_folder(folder):
    """A folder of 40 files in 4 folders."""
    for number in range(40):
        name = os.path.join(folder, f"d{number % 4}", f"f{number}")
        os.makedirs(os.path.dirname(name), exist_ok=True)
        write(name, bytes([number]) * (number * 150))


def archive_of(folder):
    """An archive of a folder."""
    out = io.BytesIO()
    with tarfile.open(fileobj=out, mode="w", format=tarfile.USTAR_FORMAT) as archive:
        archive.add(folder, ".")
    return out.getvalue()


def words_of(folder):
    """Each word that writes a file or a folder: its words, what it is given, and the file."""
    image, source, other = (os.path.join(folder, name) for name in ("image", "source", "other"))
    part, raw, got, out = (os.path.join(folder, name) for name in ("part", "raw", "got", "out"))
    return [
        ("format", ["format", image, *SIZES], b"", image),
        ("format --part", ["format", "--part", part, *SIZES], b"", part),
        ("create", ["create", other, source], b"", other),
        ("copy", ["copy", image, other, "--blocks", "300"], b"", other),
        ("run", ["run", image], SCRIPT, image),
        ("put", ["put", image, source, "/new"], b"", image),
        ("put --mirror", ["put", image, source, "/old", "--mirror"], b"", image),
        ("put -", ["put", image, "-", "/input"], b"z" * 5000, image),
        ("untar", ["untar", image, "/untarred"], archive_of(source), image),
        ("trim", ["trim", image], b"", image),
        ("get", ["get", image, "/old/d1/f5", got], b"", got),
        ("get of a folder", ["get", image, "/old", out], b"", out),
        ("map --html", ["map", image, "--html", got], b"", got),
        ("undo", ["undo", image], b"", image),
        ("goto", ["goto", image, "2"], b"", image),
        ("checkpoint", ["checkpoint", image, "kept"], b"", image),
        ("forget", ["forget", image, "1"], b"", image),
        ("to-part", ["to-part", image, part], b"", part),
        ("from-part", ["from-part", part, other], b"", other),
        ("raw", ["raw", image, raw], b"", raw),
        ("from-raw", ["from-raw", raw, other, "--page", "256", "--pages", "16"], b"", other),
    ]


def reading_words_of(folder):
    """Words that only read a file, in the same way."""
    image = os.path.join(folder, "image")
    return [
        ("ls", ["ls", image, "/old/d1"], b"", image),
        ("history", ["history", image, "/old/d1"], b"", image),
        ("du", ["du", image, "/old"], b"", image),
    ]


def begin(program, folder):
    """Makes what the words begin with: an image of a folder, an older part and older bytes for a chip, and files to be
    replaced."""
    image, source = os.path.join(folder, "image"), os.path.join(folder, "source")
    make_folder(source)
    run(program, ["format", image, *SIZES])
    run(program, ["put", image, source, "/old"])
    run(program, ["to-part", image, os.path.join(folder, "part")])
    run(program, ["raw", image, os.path.join(folder, "raw")])
    run(program, ["run", image], SCRIPT)
    write(os.path.join(folder, "got"), b"as it was")
    write(os.path.join(folder, "other"), read(image))
    os.remove(os.path.join(source, "d1", "f5"))


def keep(folder):
    """The bytes of all files of a folder, but for those that are put."""
    return {name: read(os.path.join(folder, name)) for name in ("image", "part", "raw", "got", "other", "out")}


def bring_back(folder, kept):
    """Brings all of them back, and removes what a killed run left."""
    for name, data in kept.items():
        write(os.path.join(folder, name), data)
        write(os.path.join(folder, name + ".new"), None)


def kill_word(program, folder, kept, case, times):
    """Kills one word so often, and counts what is left."""
    name, words, given, file = case
    bring_back(folder, kept)
    before = read(file)
    took = run(program, words, given)
    after = read(file)
    found = {"as before": 0, "as after": 0}
    for _ in range(times):
        bring_back(folder, kept)
        kill(program, words, given, random.uniform(0, took * 1.2))
        left = read(file)
        if left == before:
            found["as before"] += 1
        elif left == after:
            found["as after"] += 1
        else:
            raise Wrong(f"{name}: {file} is neither as before nor as after")
        if os.path.isdir(file + ".new"):
            # A folder that a killed run left has to be removed by hand.
            shutil.rmtree(file + ".new")
        if left == before:
            run(program, words, given)
            if read(file) != after:
                raise Wrong(f"{name}: the run after a kill ended in another file")
    return found


def main():
    """Kills each word."""
    program = os.path.abspath(sys.argv[1])
    times = int(sys.argv[2]) if len(sys.argv) > 2 else 200
    folder = tempfile.mkdtemp()
    wrong = 0
    try:
        begin(program, folder)
        kept = keep(folder)
        for case in words_of(folder) + reading_words_of(folder):
            try:
                found = kill_word(program, folder, kept, case, times)
                print(f"ok {case[0]}: {found['as before']} as before, {found['as after']} as after", flush=True)
            except Wrong as told:
                wrong += 1
                print(f"WRONG {case[0]}: {told}", flush=True)
    finally:
        shutil.rmtree(folder)
    return wrong


if __name__ == "__main__":
    sys.exit(main())
