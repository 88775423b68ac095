#!/usr/bin/env python3
"""Tries the built program on what no test of the gate can make: closed streams, limits of the process, words
that are no UTF-8, links that come in between, and a full disk. docs/tests_of_the_program.md tells of each case.

  tools/check_host.py PROGRAM [CASE ..]

PROGRAM is crates/uffs/out/uffs, as `rt run` builds it there. Each case is a line `ok` or `WRONG` with its name
and what was found; the status is the number of the wrong ones. All files stand in a new folder that is removed
again. The full disk is a small file system in memory, for which the caller has to be the superuser; else that
case is told as not tried. The cases of tools/host_cases.py and tools/host_between.py see the calls to the host,
make some fail, and put something else in the place of what was looked at, by a library that is built of
tools/host_shim.c. Where there is no C compiler they are told as not tried.
"""
import os
import random
import resource
import shutil
import signal
import subprocess
import sys
import tempfile
from concurrent import futures

import check_kills
import host_between
import host_calls
import host_cases
from host_calls import Wrong

SCRIPT = b"mkdir /a\nsync\n"


def run(program, words, given=b"", **how):
    """The status of the program, its output and what it says on standard error."""
    done = subprocess.run([program, *words], input=given, capture_output=True, check=False, timeout=60, **how)
    return done.returncode, done.stdout, done.stderr


def want(found, wanted):
    """Refuses anything but what is wanted."""
    if found != wanted:
        raise Wrong(f"{found!r} in place of {wanted!r}")


def read(name):
    """The bytes of a file."""
    with open(name, "rb") as file:
        return file.read()


def made(program, folder, name="image"):
    """A new image in a folder."""
    image = os.path.join(folder, name)
    want(run(program, ["format", image]), (0, b"", b""))
    return image


def closed(program, words, stream):
    """The status of the program with a standard stream closed, and a script on its input if that is open."""
    def close():
        os.close(stream)
    given = subprocess.DEVNULL if stream == 0 else subprocess.PIPE
    kept = [subprocess.PIPE, subprocess.PIPE]
    done = subprocess.Popen([program, *words], stdin=given, stdout=kept[0], stderr=kept[1], preexec_fn=close)
    out, err = done.communicate(None if stream == 0 else SCRIPT, timeout=60)
    return done.returncode, out, err


def closed_output(program, folder):
    """With standard output closed the replies are not written, and the image stays."""
    image = made(program, folder)
    before = read(image)
    want(closed(program, ["run", image], 1), (1, b"", b"uffs: output\n"))
    want(read(image), before)
    want(closed(program, ["check", image], 1), (1, b"", b"uffs: output\n"))
    want(closed(program, ["format", image], 1), (0, b"", b""))


def closed_errors(program, folder):
    """With standard error closed a message is lost, and written to no file."""
    image = made(program, folder)
    before = read(image)
    want(closed(program, ["run", image, "--stop"], 2), (0, b"ok\nok\n", b""))
    changed = read(image)
    want(changed != before, True)
    want(closed(program, ["format", image, "--blocks", "1"], 2), (3, b"", b""))
    want(closed(program, ["put", image, folder, "/x"], 2)[0], 1)
    want(read(image), changed)


def closed_input(program, folder):
    """With standard input closed no file is read as the script."""
    image = made(program, folder)
    before = read(image)
    want(closed(program, ["run", image], 0), (1, b"", b"uffs: input\n"))
    want(read(image), before)


def all_closed(program, folder):
    """With all three closed the image stays."""
    image = made(program, folder)
    before = read(image)
    def close():
        os.closerange(0, 3)
    done = subprocess.run([program, "run", image], check=False, timeout=60, preexec_fn=close)
    want((done.returncode, read(image)), (1, before))


def unwritable(program, folder):
    """Beside a folder at the new file's name all replies are written, the image is told and stays, and the status is 1."""
    image = made(program, folder)
    before = read(image)
    beside = os.path.join(image + ".new", "kept")
    os.mkdir(image + ".new")
    with open(beside, "wb") as kept:
        kept.write(b"kept")
    script = b"mkdir /a\nundo\nls /\nredo\nls /\n"
    replies = b"ok\nok\nentries 0\nok\nentries 1 a/\n"
    told = f"uffs: cannot write {image}: {image}.new is in the way, remove it\n".encode()
    want(run(program, ["run", image], script), (1, replies, told))
    want((read(image), read(beside)), (before, b"kept"))


def limited(program, folder):
    """A file that may not grow is told as one that cannot be written, the image stays, and no new file is left."""
    image = made(program, folder)
    before = read(image)
    def limit():
        signal.signal(signal.SIGXFSZ, signal.SIG_IGN)
        resource.setrlimit(resource.RLIMIT_FSIZE, (100, 100))
    told = f"uffs: cannot write {image}: it would be too large for the host\n".encode()
    want(run(program, ["run", image], SCRIPT, preexec_fn=limit, restore_signals=False), (1, b"ok\nok\n", told))
    want((read(image), os.listdir(folder)), (before, ["image"]))


def not_utf8(program, folder):
    """A word that is no UTF-8 is a wrong use."""
    want(run(program, ["check", b"\xff"])[:2], (2, b""))
    want(run(program, [b"\xff"])[:2], (2, b""))


def fifos(program, folder):
    """What is no plain file is refused, and not waited for."""
    fifo = os.path.join(folder, "fifo")
    os.mkfifo(fifo)
    for name in (fifo, "/dev/null", "/dev/zero"):
        told = f"uffs: cannot write {name}: it is neither a folder nor a plain file\n".encode()
        want(run(program, ["run", name], SCRIPT), (1, b"", told))
        want(run(program, ["format", name]), (1, b"", told))
        told = f"uffs: cannot read {name}: it is neither a folder nor a plain file\n".encode()
        want(run(program, ["check", name]), (1, b"", told))


def in_use(program, folder):
    """While a script waits for its next line the image is refused to others, and read by those that only look."""
    image = made(program, folder)
    first = subprocess.Popen([program, "run", image], stdin=subprocess.PIPE, stdout=subprocess.PIPE)
    first.stdin.write(SCRIPT)
    first.stdin.flush()
    want(first.stdout.readline() + first.stdout.readline(), b"ok\nok\n")
    told = f"uffs: cannot write {image}: another program has it\n".encode()
    want(run(program, ["run", image], SCRIPT), (1, b"", told))
    want(run(program, ["format", image]), (1, b"", told))
    want(run(program, ["undo", image]), (1, b"", told))
    want(run(program, ["check", image]), (0, b"ok\n", b""))
    first.stdin.close()
    want(first.wait(60), 0)
    first.stdout.close()
    want(run(program, ["run", image], b"ls /\n"), (0, b"entries 1 a/\n", b""))


def full_disk(program, folder):
    """On a full disk the image stays, and no new file is left."""
    disk = os.path.join(folder, "disk")
    os.mkdir(disk)
    if subprocess.run(["mount", "-t", "tmpfs", "-o", "size=64k", "tmpfs", disk], capture_output=True, check=False).returncode:
        return "not tried: no file system can be mounted"
    try:
        image = made(program, disk)
        before = read(image)
        with open(os.path.join(disk, "rest"), "wb", buffering=0) as rest:
            try:
                while True:
                    rest.write(b"x" * 4096)
            except OSError:
                pass
        told = f"uffs: cannot write {image}: the disk is full\n".encode()
        want(run(program, ["run", image], SCRIPT), (1, b"ok\nok\n", told))
        want((read(image), sorted(os.listdir(disk))), (before, ["image", "rest"]))
    finally:
        subprocess.run(["umount", disk], check=True)
    return None


def full_output(program, folder):
    """An output that is full is told, and the image stays."""
    image = made(program, folder)
    before = read(image)
    with open("/dev/full", "wb", buffering=0) as full:
        done = subprocess.run([program, "run", image], input=SCRIPT, stdout=full, stderr=subprocess.PIPE, check=False, timeout=60)
    want((done.returncode, done.stderr, read(image)), (1, b"uffs: output\n", before))


def dash(program, folder):
    """A file is written to the output where `-` stands for it, and to the file of that name for `./-`."""
    image = made(program, folder)
    want(run(program, ["run", image], b"write /f 6f6e650a\nsync\n"), (0, b"ok\nok\n", b""))
    want(run(program, ["get", image, "/f", "-"], cwd=folder), (0, b"one\n", b""))
    want(sorted(os.listdir(folder)), ["image"])
    want(run(program, ["get", image, "/f", "./-"], cwd=folder), (0, b"", b""))
    want((sorted(os.listdir(folder)), read(os.path.join(folder, "-"))), (["-", "image"], b"one\n"))


def about(program, folder):
    """`version` writes to the output what `--version` tells, `help` what can be asked for, and with a word what `--help` tells of it."""
    for word in ("help", "version"):
        status, out, told = run(program, ["--" + word])
        want((status, out), (2, b""))
        printed = run(program, [word])
        begin = told if word == "version" else told.split(b"\n")[0]
        want((printed[0], printed[1].startswith(begin), printed[2]), (0, True, b""))
    for word in ("put", "goto", "help"):
        want(run(program, ["help", word]), (0, run(program, [word, "--help"])[2], b""))


def same_folder(program, folder):
    """Two folders with the same files, made in another order and with other times, make the same image."""
    files = [("a/one", b"1" * 5000), ("a/two", b""), ("b/c/three", b"3"), ("four", b"4" * 100)]
    images = []
    for name, order, time in (("first", files, 1), ("second", files[::-1], 10**9)):
        source = os.path.join(folder, name)
        for way, data in order:
            path = os.path.join(source, way)
            os.makedirs(os.path.dirname(path), exist_ok=True)
            with open(path, "wb") as file:
                file.write(data)
            os.utime(path, (time, time))
        image = made(program, folder, name + ".image")
        want(run(program, ["put", image, source, "/"]), (0, b"", b""))
        whole = os.path.join(folder, name + ".whole")
        want(run(program, ["create", whole, source, "--blocks", "32"]), (0, b"", b""))
        images += [read(image), read(whole)]
    want([it == images[0] for it in images], [True] * 4)


def large_folder(program, folder):
    """A folder of 54,525,952 bytes becomes an image with no number of blocks worked out, and comes out as it was."""
    source, image, got = (os.path.join(folder, name) for name in ("source", "image", "got"))
    for number in range(4):
        os.makedirs(os.path.join(source, "ab"[number % 2]), exist_ok=True)
        with open(os.path.join(source, "ab"[number % 2], f"file{number}"), "wb") as file:
            file.write(random.Random(number).randbytes(13 << 20))
    told = b"uffs: 16384 blocks of 16 pages of 256 bytes\nuffs: room for 0 changes of the largest file, not for --history 8\n"
    want(run(program, ["create", image, source]), (0, b"", told))
    want(run(program, ["get", image, "/", got]), (0, b"", b""))
    want(subprocess.run(["diff", "-r", source, got], check=False).returncode, 0)


CASES = [
    closed_output, closed_errors, closed_input, all_closed, unwritable, limited, not_utf8, fifos, in_use, full_disk, full_output,
    dash, about, same_folder, large_folder,
]

# Those in which the calls to the host are seen.
WATCHED = host_cases.CASES + host_between.CASES


def try_case(case, program):
    """Whether a case went as it has to, which is told."""
    folder = tempfile.mkdtemp(prefix="uffs-host-")
    try:
        note = case(program, folder)
        print("ok   ", case.__name__, note or "", flush=True)
        return True
    except (Wrong, check_kills.Wrong, OSError, subprocess.SubprocessError) as wrong:
        print("WRONG", case.__name__, wrong, flush=True)
        return False
    finally:
        shutil.rmtree(folder)


def try_all(program, names):
    """How many cases are wrong: those of these names, or all. Those that another program may be asked beside go side by side."""
    alone, beside = ([it for it in cases if not names or it.__name__ in names] for cases in (CASES, WATCHED))
    if len(alone) + len(beside) < len(names):
        sys.exit(f"no such case among {' '.join(names)}")
    wrong = sum(not try_case(case, program) for case in alone)
    if host_calls.Shim.library is None:
        print(f"not tried: {len(beside)} cases, which want a C compiler")
        return wrong
    with futures.ThreadPoolExecutor(2 * os.cpu_count()) as threads:
        return wrong + sum(threads.map(lambda case: not try_case(case, program), beside))


def main():
    """Tries the cases."""
    if len(sys.argv) < 2:
        sys.exit(__doc__)
    with tempfile.TemporaryDirectory(prefix="uffs-shim-") as folder:
        # A program of another user has to find the library, and to write the log.
        os.chmod(folder, 0o777)
        host_calls.build(folder)
        wrong = try_all(os.path.abspath(sys.argv[1]), sys.argv[2:])
    sys.exit(wrong)


if __name__ == "__main__":
    main()
