"""Cases of hosts and parts that fail one kind of call, of kills right after an answer, and of calls that are told wrong easily."""
import contextlib
import ctypes
import errno
import os
import re
import subprocess
import time

from kept_times import try_unit
from losses import SMALL, save_and_sync
from mounts import LIBRARY, SHARED, Folder, mounted, tree_of, want

RENAME_NOREPLACE, RENAME_EXCHANGE = 1, 2
LIBC = ctypes.CDLL(None, use_errno=True)
UNREAD = re.compile(r"page \d+ of the part cannot be read")


def saved(path, text):
    with open(path, "wb") as file:
        file.write(text)


def refusal_of(call, *words):
    try:
        call(*words)
        return None
    except OSError as error:
        return errno.errorcode[error.errno]


def kills_after_an_answer():
    """`undo`, `redo`, `goto`, `rollback` and `end` are on the part once they are answered: a kill at once loses none of them."""
    with Folder(**SMALL, options="commit=0") as f:
        f.mount()
        for text in (b"one", b"two", b"six"):
            saved(f("a"), text)
        f.order("checkpoint six")
        for lines, text in ((["undo"], b"two"), (["undo"], b"one"), (["redo"], b"two"), (["goto 2"], b"one"), (["rollback six"], b"six"), (["begin", None, "end"], b"ten")):
            for line in lines:
                f.order(line) if line else saved(f("a"), b"ten")
            f.kill()
            f.mount()
            want(tree_of(f.path), {"a": text}, f"after {lines} and a kill")


def rename_with(flags, one, other):
    if LIBC.renameat2(-100, one.encode(), -100, other.encode(), flags) != 0:
        raise OSError(ctypes.get_errno(), os.strerror(ctypes.get_errno()))


def files_are_not_exchanged():
    """RENAME_EXCHANGE is EINVAL and both files are whole; RENAME_NOREPLACE moves to a free name alone."""
    with mounted() as f:
        saved(f("a"), b"one")
        saved(f("b"), b"two")
        before = f.versions()
        want(refusal_of(rename_with, RENAME_EXCHANGE, f("a"), f("b")), "EINVAL", "an exchange")
        want(refusal_of(rename_with, RENAME_NOREPLACE, f("a"), f("b")), "EEXIST", "a move onto a file")
        want((tree_of(f.path), f.versions()), ({"a": b"one", "b": b"two"}, before), "both then")
        want(refusal_of(rename_with, RENAME_NOREPLACE, f("a"), f("c")), None, "a move to a free name")
        want(tree_of(f.path), {"b": b"two", "c": b"one"}, "after the move")


def read(path):
    with open(path, "rb") as file:
        return file.read()


def blocks_of(f):
    """What the core tells of its blocks: `data`, `bad`, `free`."""
    with open(f(".undofs")) as control:
        words = control.read().splitlines()[1].split()
    return {words[i]: int(words[i + 1]) for i in range(1, len(words), 2)}


def df_and_du_tell_blocks():
    """`df` tells the blocks of the core, less the reserve where it tells what is available; `du` tells the bytes of a file."""
    with mounted(page=256, pages=16, blocks=256, history=8) as f:
        free = []
        for count in (0, 1, 4016, 4017, 12048):  # a node has 4,016 bytes of a file
            saved(f("a"), bytes(count))
            space, told = os.statvfs(f.path), blocks_of(f)
            want((space.f_bsize, space.f_blocks, space.f_bfree), (4096, told["data"], told["free"]), f"df beside the core with {count} bytes")
            want(space.f_bavail, told["free"] - 8, f"available blocks with {count} bytes")
            want((os.stat(f("a")).st_size, os.stat(f("a")).st_blocks), (count, (count + 511) // 512), "du")
            free.append(told["free"])
        want([one - other for one, other in zip(free, free[1:])], [2, 2, 3, 4], "blocks that each version takes: its nodes, and the root")


def a_host_that_fails_one_kind_of_call():
    """The write of a page's bytes fails, or that of its state alone: it is EIO, and what was synced is found. A read that fails at the
    start refuses it, with the number of the page."""
    for kind in ("bytes", "state"):
        with Folder(**SMALL, options="commit=0") as f:
            f.mount()
            save_and_sync(f("a"), b"synced")
            f.unmount()
            f.mount({"SHIM_FILE": f.part, "SHIM_FAIL": "3", "SHIM_KIND": kind})
            told = [refusal_of(save_and_sync, f("b"), b"x" * 3000) for _ in range(4)]
            want(told[-1], "EIO", f"saves where {kind} cannot be written: {told}")
            want(refusal_of(os.mkdir, f("d")), "EIO", "mkdir then")
            f.kill()
            f.mount()
            found = tree_of(f.path)
            want(found.get("a"), b"synced", f"what was synced, {kind}")
            want(found.get("b", b"x" * 3000) in (b"", b"x" * 3000), True, f"what was not, {kind}: {found}")
            f.unmount()
    with Folder(**SMALL) as f:
        f.mount()
        save_and_sync(f("a"), b"synced")
        f.unmount()
        for starts, first in enumerate(("2", "20", "21"), 1):  # the state of the first page, and a state or bytes of later ones
            shim = {"SHIM_FILE": f.part, "SHIM_FAIL": first, "SHIM_KIND": "read"}
            want(f.mount(shim, wait=False), False, "is a part mounted that cannot be read")
            f.process.wait(60)
            want(len(UNREAD.findall(f.told())), starts, f"starts of which a page is told: {f.told()}")
        f.mount()
        want(tree_of(f.path), {"a": b"synced"}, "after it")
        f.unmount()


def a_host_that_reads_nothing_for_a_while():
    """With no child a page is read when it is wanted. Where it cannot be read that is EIO, the log tells its number, and what comes after is
    right. A child has read all pages at its start, and sees nothing of it."""
    with Folder(**SMALL, options="commit=0") as f:
        f.mount()
        texts = {name: os.urandom(60000) for name in ("a", "b")}
        for name, text in texts.items():
            save_and_sync(f(name), text)
        f.unmount()
        fails = f.space + "/fails"
        f.mount({"SHIM_FILE": f.part, "SHIM_FAIL": "1", "SHIM_KIND": "read", "SHIM_WHILE": fails})
        saved(fails, b"")
        told = [refusal_of(read, f(name)) for name in texts]
        want(told, ["EIO", "EIO"] if LIBRARY else [None, None], "reads while no page can be read")
        want(UNREAD.search(f.told()) is not None, bool(LIBRARY), f"is a page told: {f.told()}")
        os.unlink(fails)
        want(tree_of(f.path), texts, "once pages can be read")
        save_and_sync(f("c"), b"later")
        f.unmount()
        f.mount()
        want(tree_of(f.path), {**texts, "c": b"later"}, "after a new mount")
        f.unmount()


def a_second_daemon_behind_mtd():
    """A part behind MTD that a daemon has is refused to a second one, which waits ten seconds and tells it, and nothing is lost by it."""
    with Folder(history=8) as f:
        base = {"MTD_FILE": f.part, "MTD_KIND": "nor"}
        with open(f.part, "wb"):
            pass
        f.mount(base, more="format")
        saved(f("a"), b"one")
        other = f.space + "/other"
        os.mkdir(other)
        env = {**os.environ, **base, "LD_PRELOAD": f"{SHARED['shims']}/mtd_shim.so"}
        start = time.time()
        done = subprocess.run([SHARED["daemon"], f.part, other, "-o", f"serve={SHARED['program']}"], env=env, capture_output=True, text=True, timeout=100)
        subprocess.run(["fusermount3", "-u", "-z", other], capture_output=True)  # where it was begun
        want((done.returncode, done.stderr.count("in use: waiting"), done.stderr.count("in use")), (1, 1, 2), f"a second daemon: {done.stderr}")
        want(9 < time.time() - start, True, f"it waited {time.time() - start:.1f} s")
        save_and_sync(f("b"), b"two")
        f.unmount()
        f.mount(base)
        want(tree_of(f.path), {"a": b"one", "b": b"two"}, "after it")
        f.unmount()


def the_driver_behind_mtd():
    """What it tells of pages: corrected errors, sums of other places, blank spare bytes, bad blocks, failed pages and torn marks of a NOR."""
    try_unit("mtd_part_test", "mtd_part", "../c/raw_nand", "tests/mtd_shim")


def a_worn_flash():
    """Each program of an anchor fails from some time on, until the flash takes nothing any more: fsync, close with -o durable, and `end` fail,
    and what is read afterwards is what a new mount finds."""
    acts = {
        "fsync": ("commit=0", lambda f, i: save_and_sync(f("b"), b"b%d" % i)),
        "close": ("durable,commit=0", lambda f, i: saved(f("b"), b"b%d" % i)),
        "end": ("commit=0", lambda f, i: (f.order("begin"), saved(f("b"), b"b%d" % i), f.order("end"))),
    }
    for name, (options, act) in acts.items():
        with Folder(history=8, options=options) as f:
            base = {"MTD_FILE": f.part, "MTD_KIND": "nor"}
            with open(f.part, "wb"):
                pass
            f.mount(base, more="format")
            save_and_sync(f("a"), b"one")
            f.unmount()
            f.mount({**base, "MTD_WORN": "8"})
            told = []
            while not told or told[-1] is None:
                told.append(refusal_of(act, f, len(told)))
                want(len(told) < 30, True, f"{name} is refused some time: {told}")
            want(told[-1], "EROFS", f"{name} on a worn flash")
            with contextlib.suppress(OSError):
                f.order("abandon")
            shown = tree_of(f.path)
            want(refusal_of(act, f, 99), "EROFS", f"{name} once more")
            with contextlib.suppress(OSError):
                f.order("abandon")
            want(tree_of(f.path), shown, f"what is read after {name} was refused once more")
            f.unmount()
            f.mount(base)
            want(tree_of(f.path), shown, f"what a new mount finds after {name} was refused")
            f.unmount()


CASES = [
    kills_after_an_answer,
    files_are_not_exchanged,
    df_and_du_tell_blocks,
    a_host_that_fails_one_kind_of_call,
    a_host_that_reads_nothing_for_a_while,
    a_second_daemon_behind_mtd,
    the_driver_behind_mtd,
    a_worn_flash,
]
