#!/usr/bin/env python3
"""Measures a mounted folder beside a plain folder of the host, on the disk on which TMPDIR lies, and beside that folder bound by bindfs,
where that is installed.

  measure.py DAEMON PROGRAM      as tools/fuse/build.sh and `rt run` in crates/uffs leave them

The part is a flat file of 16,384 blocks of one page of 4,096 bytes. Each figure is the median of three. With each stands the processor
time that the daemon and its child took for one, on an average of the three. With UNDOFS_LIBRARY, over which DAEMON is built, it has no
child.
"""
import contextlib
import os
import shutil
import statistics
import subprocess
import sys
import time

from mounts import SHARED, Folder, child_of, run


def save(path, text):
    with open(path, "wb") as file:
        file.write(text)
        file.flush()
        os.fsync(file.fileno())


def write_large(folder):
    """MB of 12 MB written and synced in a second."""
    start = time.time()
    save(f"{folder}/large", os.urandom(12000000))
    return 12 / (time.time() - start)


def read_large(folder):
    start = time.time()
    with open(f"{folder}/large", "rb") as file:
        while file.read(1 << 17):
            pass
    return 12 / (time.time() - start)


def make_files(folder):
    """Files of 100 bytes made in a second, in folders of 250."""
    start, place = time.time(), f"{folder}/d{start_number()}"
    for i in range(500):
        if i % 250 == 0:
            os.makedirs(f"{place}/{i}")
        with open(f"{place}/{i - i % 250}/{i}", "wb") as file:
            file.write(bytes(100))
    return 500 / (time.time() - start)


def append_and_sync(folder):
    """Milliseconds of an append of 4 KiB with its fsync."""
    file = os.open(f"{folder}/log", os.O_WRONLY | os.O_CREAT | os.O_APPEND)
    start = time.time()
    for _ in range(100):
        os.write(file, bytes(4096))
        os.fsync(file)
    took = time.time() - start
    os.close(file)
    return took * 10


def undo_and_redo(folder):
    """Milliseconds of an `undo` or a `redo` by .undofs, which syncs."""
    if not os.path.exists(f"{folder}/.undofs"):
        return 0
    start = time.time()
    for line in ("undo\n", "redo\n") * 20:
        with open(f"{folder}/.undofs", "w") as control:
            control.write(line)
    return (time.time() - start) * 25


def processor_seconds(number):
    """The processor time that a process has taken."""
    with open(f"/proc/{number}/stat") as stat:
        words = stat.read().rsplit(")", 1)[1].split()
    return (int(words[11]) + int(words[12])) / os.sysconf("SC_CLK_TCK")


numbers = iter(range(100))


def start_number():
    return next(numbers)


ROWS = [
    ("write 12 MB and fsync, MB/s", write_large),
    ("read 12 MB, MB/s", read_large),
    ("make files of 100 bytes, files/s", make_files),
    ("append 4 KiB and fsync, ms", append_and_sync),
    ("undo or redo, ms", undo_and_redo),
]


def three_of(measure, folder):
    return statistics.median(measure(folder) for _ in range(3))


@contextlib.contextmanager
def bound(folder, space):
    """The folder bound by bindfs; nothing where that is not installed."""
    if shutil.which("bindfs") is None:
        yield None
        return
    os.mkdir(space + "/bound")
    run("bindfs", folder, space + "/bound")
    try:
        yield space + "/bound"
    finally:
        subprocess.run(["fusermount3", "-u", space + "/bound"], check=False)


def resident_kib(number):
    """The memory that a process holds now."""
    with open(f"/proc/{number}/status") as status:
        return next(int(line.split()[1]) for line in status if line.startswith("VmRSS"))


def processes_of(f):
    """The daemon, and its child where it has one."""
    return [number for number in (f.process.pid, child_of(f.process)) if number]


def measure_all(f, numbers):
    plain, under = f.space + "/plain", f.space + "/under"
    for place in (plain, under):
        os.mkdir(place)
    with bound(under, f.space) as other:
        for name, measure in ROWS:
            before = [processor_seconds(number) for number in numbers]
            here = three_of(measure, f.path)
            took = " and ".join(f"{(processor_seconds(number) - start) / 3:.2f} s" for number, start in zip(numbers, before))
            there, by_bindfs = three_of(measure, plain), "-" if other is None else f"{three_of(measure, other):.1f}"
            print(f"{name}: {here:.1f} here, {by_bindfs} by bindfs, {there:.1f} there; {took} of the daemon and its child", flush=True)


def main():
    SHARED["daemon"], SHARED["program"] = (os.path.abspath(word) for word in sys.argv[1:3])
    with Folder(blocks=16384, history=128) as f:
        start = time.time()
        f.mount()
        print(f"make a part and mount it, s: {time.time() - start:.2f}")
        measure_all(f, processes_of(f))
        f.unmount()
        start = time.time()
        f.mount()
        print(f"mount it again, s: {time.time() - start:.2f}")
        print("held then by the daemon and its child, KiB:", *map(resident_kib, processes_of(f)))
        f.unmount()
    print(f"load of the host at the end: {os.getloadavg()[0]:.1f} on {os.cpu_count()} processors")


if __name__ == "__main__":
    main()
