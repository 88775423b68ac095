"""Cases of how the daemon starts and ends, and of what it refuses then."""
import contextlib
import errno
import os
import signal
import subprocess
import threading
import time

from mounts import SHARED, Folder, child_of, run, tree_of, want


def save(path, text):
    with open(path, "w") as file:
        file.write(text)


def errno_of(call):
    """The number of the refusal of a call; none where it is done."""
    try:
        call()
    except OSError as error:
        return error.errno
    return None


def refused(f, *options, sizes=True):
    """The status and the message of a start that is refused. In it the part of `f` may be made."""
    words = [SHARED["daemon"], f.part, f.path, "-f", "-o", ",".join([*([f.sizes] if sizes else []), f"serve={SHARED['program']}", *options])]
    done = subprocess.run(words, capture_output=True, text=True, timeout=100)
    return done.returncode, done.stderr


def options_are_refused_first():
    """An option that is none, and a number that none can be, are told before a part is made."""
    with Folder() as f:
        for options, status, text in ((["blub"], 1, "blub"), (["history=1"], 2, "2 to 128"), (["history=129"], 2, "2 to 128")):
            found, told = refused(f, *options, sizes=False)
            want((found, text in told), (status, True), f"{options}: {told}")
            want(os.path.exists(f.part), False, f"is there a part after {options}")


def a_part_in_use_is_waited_for():
    """After a second the second daemon tells that it waits, and it starts once the first is gone; after ten it is refused."""
    with Folder() as f, Folder() as other:
        f.mount()
        other.part = f.part
        start = time.time()
        found, told = refused(other)
        want((found, told.count("in use: waiting"), told.count("in use")), (1, 1, 2), f"beside a daemon: {told}")
        want(9 < time.time() - start, True, f"it waited {time.time() - start:.1f} s")
        open(other.space + "/log", "w").close()
        waiting = threading.Thread(target=other.mount)
        waiting.start()
        until = time.time() + 60
        while "in use: waiting" not in other.told():
            want(time.time() < until, True, f"does it tell that it waits: {other.told()}")
            time.sleep(0.1)
        f.unmount()
        waiting.join(30)
        want(os.path.ismount(other.path), True, "is it mounted once the first is gone")
        other.unmount()


def a_host_has_no_dev_fd():
    """A device has /dev/fuse and /dev/null, and no link /dev/fd: the child finds its streams all the same."""
    with Folder() as f:
        made = "mkdir dev && mount -t tmpfs none dev && mknod -m 666 dev/fuse c 10 229 && mknod -m 666 dev/null c 1 3 && mount --move dev /dev"
        mount = f"{SHARED['daemon']} {f.part} {f.path} -o {f.sizes},serve={SHARED['program']}"
        told = run("unshare", "-m", "--propagation", "slave", "sh", "-c", f"{made} && ! ls /dev/fd 2> told && {mount} && echo hi > folder/a && cat folder/a && umount folder", cwd=f.space)
        want(told, "hi\n", "what a file holds")


def go_on(child):
    with contextlib.suppress(ProcessLookupError):
        os.kill(child, signal.SIGCONT)


def a_child_that_hangs_is_ended():
    """With its child stopped a change is EIO once the time is over, and a signal ends the daemon; so it does where nothing was asked."""
    for is_asked in (True, False):
        with Folder("wait=2,commit=0") as f:
            f.mount()
            save(f("a"), "synced")
            f.order("sync")
            child, start = child_of(f.process), time.time()
            os.kill(child, signal.SIGSTOP)
            later = threading.Timer(20, go_on, (child,))  # so that a daemon that waits for ever is seen
            later.start()
            if is_asked:
                want(errno_of(lambda: save(f("b"), "more")), errno.EIO, "a save")
                want(1 < time.time() - start < 8, True, f"it took {time.time() - start:.1f} s")
                want(errno_of(lambda: os.mkdir(f("d"))), errno.EIO, "a folder after that")
            f.process.send_signal(signal.SIGTERM)
            want(f.process.wait(15), 0, "the daemon's status")
            later.cancel()
            want(os.path.exists(f"/proc/{child}"), False, "is the child there")
            f.mount()
            want(tree_of(f.path), {"a": b"synced"}, "after a new mount")
            f.unmount()


CASES = [
    options_are_refused_first,
    a_part_in_use_is_waited_for,
    a_host_has_no_dev_fd,
    a_child_that_hangs_is_ended,
]
