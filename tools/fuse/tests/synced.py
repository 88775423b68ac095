"""Cases of what is on the part, and when: beside other programs that write, around a group by hand, at an unmount, on a full host."""
import contextlib
import errno
import os
import subprocess
import threading
import time

from losses import SMALL, save_and_sync
from mounts import SHARED, Folder, Wrong, mounted, run, tree_of, want


@contextlib.contextmanager
def log_writer(path, seconds):
    """A program that has a file open and appends a line to it again and again."""
    is_ended = threading.Event()

    def write():
        with contextlib.suppress(OSError), open(path, "ab", buffering=0) as file:
            while not is_ended.is_set():
                file.write(b"a line\n")
                is_ended.wait(seconds)

    thread = threading.Thread(target=write)
    thread.start()
    try:
        yield
    finally:
        is_ended.set()
        thread.join()


def a_log_beside_a_save():
    """A log that is written twice a second keeps nothing back: what another program saved is on the part five seconds later."""
    with Folder(**SMALL) as f:
        f.mount()
        with log_writer(f("log"), 0.5):
            time.sleep(1.2)
            with open(f("a"), "w") as file:
                file.write("saved")
            time.sleep(6.5)
            f.kill()
        f.mount()
        found = tree_of(f.path)
        want(found.get("a"), b"saved", "what was saved 6.5 seconds before")
        want(len(found["log"]) >= 5 * len(b"a line\n"), True, f"the log {found['log']}")


def errno_of(call):
    """The name of a refusal, or nothing."""
    try:
        call()
    except OSError as error:
        return errno.errorcode[error.errno]
    return None


def write_through(path, text):
    file = os.open(path, os.O_WRONLY | os.O_CREAT | os.O_SYNC)
    try:
        os.write(file, text)
    finally:
        os.close(file)


def a_group_by_hand_and_syncs():
    """`begin` syncs what was saved; inside, a sync is EBUSY, or with `begin unsynced` it is answered; no timer ends the group."""
    with Folder(**SMALL, options="commit=0") as f:
        f.mount()
        with open(f("a"), "w") as file:
            file.write("before")
        f.order("begin")
        f.kill()
        f.mount()
        want(tree_of(f.path), {"a": b"before"}, "what was saved before `begin`, after a kill")
        f.order("begin")
        want(errno_of(lambda: save_and_sync(f("b"), b"inside")), "EBUSY", "an fsync inside")
        want(errno_of(lambda: write_through(f("c"), b"through")), "EBUSY", "a write through inside")
        want(tree_of(f.path), {"a": b"before", "b": b"inside", "c": b""}, "inside")
        f.order("end")
        f.kill()
        f.mount()
        want(tree_of(f.path), {"a": b"before", "b": b"inside", "c": b""}, "after `end` and a kill")
        f.order("begin unsynced")
        save_and_sync(f("b"), b"more")
        write_through(f("c"), b"through")
        f.kill()
        f.mount()
        want(tree_of(f.path), {"a": b"before", "b": b"inside", "c": b""}, "after a kill in a group")
        f.order("begin unsynced")
        f.order("abandon")
        f.order("begin")
        want(errno_of(lambda: save_and_sync(f("b"), b"inside")), "EBUSY", "an fsync in the next group")
        f.order("abandon")


def no_timer_ends_a_group_by_hand():
    """It is as long as who began it likes; the unmount ends it, and it is one version."""
    with Folder(**SMALL, options="commit=1") as f:
        f.mount()
        before = f.versions()
        f.order("begin")
        for i in range(4):
            with open(f(f"f{i}"), "w") as file:
                file.write("x")
            time.sleep(0.8)
        want(f.versions(), before, "versions inside")
        f.unmount()
        f.mount()
        want(f.versions() - before, 1, "versions after the unmount")
        want(len(os.listdir(f.path)), 4, "files after the unmount")


def begin_and_end_beside_a_log():
    """No open file refuses `begin` and `end`, nor what makes no leap."""
    with mounted() as f:
        with open(f("log"), "ab", buffering=0) as log:
            log.write(b"one\n")
            f.order("begin")
            log.write(b"two\n")
            before = f.versions()
            f.order("end")
            want(f.versions() - before, 1, "versions of the group")
            log.write(b"three\n")
            for line in ("sync", "checkpoint x", "rmcheckpoint x", "reclaim 1", "forget 1"):
                want(f.refusal(line), None, line)
            f.order("begin")
            f.order("abandon")
            log.write(b"four\n")
        want(open(f("log")).read(), "one\ntwo\nthree\nfour\n", "the log")


def umount(f, *words):
    """The status of undofs-umount and what it tells."""
    done = subprocess.run([f"{SHARED['tools']}/fuse/undofs-umount", f.path, *words], capture_output=True, text=True, timeout=100)
    return done.returncode, done.stderr


def an_unmount_that_waits():
    """undofs-umount comes back when all is on the part and the part is free; what it cannot end is left as it is, and told."""
    with Folder(**SMALL, options="commit=0") as f:
        f.mount({"SHIM_FILE": f.part, "SHIM_LATE": "1500"})
        with open(f("a"), "w") as file:
            file.write("saved")
        f.order("begin")
        status, told = umount(f)
        want((status, "`end`" in told or "end or abandon" in told, os.path.ismount(f.path)), (1, True, True), f"in a group {told}")
        f.order("end")
        with open(f("a")):
            status, told = umount(f)
            want((status, "still mounted" in told, os.path.ismount(f.path)), (1, True, True), f"with an open file {told}")
        with open(f("b"), "w") as file:
            file.write("later")
        want(umount(f), (0, ""), "undofs-umount")
        want(f.process.poll() is not None, True, "is the daemon gone")
        run(SHARED["program"], "from-part", f.part, f.space + "/image")
        told = run(SHARED["program"], "run", f.space + "/image", text="read /a 0 10\nread /b 0 10\n")
        want(told, "data 7361766564\ndata 6c61746572\n", "what the part holds")
        want(umount(f)[0], 2, "a folder that is not mounted")
        f.part = f.space + "/a,part"
        f.mount()
        status, told = umount(f)
        want((status, "second word" in told, os.path.ismount(f.path)), (2, True, True), f"a part with a comma {told}")
        want(umount(f, f.part), (0, ""), "its part named")
        want(f.process.poll() is not None, True, "is the daemon gone then")


def durable_beside_a_writer():
    """With -o durable what is closed, made, moved, removed and cut is on the part at once, while another program's file is in the group."""
    acts = {
        "a save": (lambda f: save(f("a")), lambda tree: tree.get("a") == b"saved"),
        "mkdir": (lambda f: os.mkdir(f("d")), lambda tree: "d" in tree),
        "rename": (lambda f: os.rename(f("a"), f("d/a")), lambda tree: tree.get("d/a") == b"saved" and "a" not in tree),
        "truncate": (lambda f: os.truncate(f("d/a"), 2), lambda tree: tree.get("d/a") == b"sa"),
        "unlink": (lambda f: os.unlink(f("d/a")), lambda tree: "d" in tree and "d/a" not in tree),
        "rmdir": (lambda f: os.rmdir(f("d")), lambda tree: "d" not in tree),
    }
    with Folder(**SMALL, options="commit=0,durable") as f:
        for name, (act, is_there) in acts.items():
            f.mount()
            log = os.open(f("log"), os.O_WRONLY | os.O_CREAT)
            os.write(log, b"half")
            act(f)
            f.kill()
            with contextlib.suppress(OSError):
                os.close(log)
            f.mount()
            want(is_there(tree_of(f.path)), True, f"{name}, killed at once")
            f.unmount()


def save(path):
    with open(path, "w") as file:
        file.write("saved")


def a_full_host():
    """All room of a new part is taken when it is made: a host's disk that is full later ends nothing, and one without room is told."""
    with Folder(page=4096, pages=1, blocks=1024, history=8) as f:
        disk = f.space + "/disk"
        os.mkdir(disk)
        run("mount", "-t", "tmpfs", "-o", "size=6m", "none", disk)
        try:
            f.part = disk + "/part"
            f.mount()
            with contextlib.suppress(OSError), open(disk + "/rest", "wb", buffering=0) as rest:
                while rest.write(bytes(1 << 16)):
                    pass
            save_and_sync(f("a"), b"x" * 100000)
            want(open(f("a"), "rb").read(), b"x" * 100000, "a save on a full disk")
            f.unmount()
            f.part = disk + "/other"
            want(f.mount(wait=False), False, "a part for which there is no room is mounted")
            f.process.wait(60)
            want("No space" in f.told(), True, f"what is told then {f.told()}")
            want(os.path.exists(f.part), False, "is it left behind")
        finally:
            f.end()
            run("umount", disk, check=False)


def a_new_part_and_its_folder():
    """The name of a new part is on the disk too: a folder of the host that cannot be synced refuses it."""
    with Folder(**SMALL) as f:
        shim = {"SHIM_FILE": f.part, "SHIM_FOLDER": "1"}
        want(f.mount(shim, wait=False), False, "a part in a folder that cannot be synced is mounted")
        want(os.path.exists(f.part), False, "is it left behind")
        f.mount()
        f.unmount()
        f.mount(shim)
        f.unmount()


CASES = [
    a_log_beside_a_save,
    a_group_by_hand_and_syncs,
    no_timer_ends_a_group_by_hand,
    begin_and_end_beside_a_log,
    an_unmount_that_waits,
    durable_beside_a_writer,
    a_full_host,
    a_new_part_and_its_folder,
]
