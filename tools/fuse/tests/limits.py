"""Cases of where the folder is otherwise than a plain one, and of what is told where something is not to be had."""
import errno
import os
import signal
import time

from losses import SMALL, save_and_sync
from mounts import HERE, LIBRARY, Folder, Wrong, build, child_of, mounted, put_between, tree_of, want
from starts import errno_of, save


def a_dropped_version_is_not_there():
    """One that was dropped is ENOENT, by `goto` and in .history; that nothing is before the first one is another thing."""
    with mounted("settle=0", history=4, blocks=256) as f:
        for i in range(6):
            save(f("a"), str(i))
        f.settled()
        want(f.refusal("goto 1"), errno.ENOENT, "goto a dropped version")
        want(errno_of(lambda: os.stat(f(".history/@1"))), errno.ENOENT, "a dropped version in .history")
        want(errno_of(lambda: open(f(".history/@1/a"))), errno.ENOENT, "a file of it")
        for _ in range(3):
            f.order("undo")
        want(f.refusal("undo"), errno.ENODATA, "undo at the first that is kept")


def no_memory_is_told():
    """Where no memory is had for the text of .undofs it is ENOMEM, and the daemon goes on."""
    with Folder() as f:
        f.daemon = build(f.space + "/made", "-Wl,--wrap=asprintf", f"{HERE}/no_memory.c")
        f.environment = {"NO_MEMORY": f.space + "/none"}
        f.mount()
        held = os.open(f(".undofs"), os.O_WRONLY)
        save(f.space + "/none", "")
        for call in (lambda: os.stat(f(".undofs")), lambda: os.fstat(held), lambda: open(f(".undofs"))):
            want(errno_of(call), errno.ENOMEM, "what .undofs tells")
        os.unlink(f.space + "/none")
        want(f.log_words()[0], "log", "what it tells then")
        os.close(held)
        f.unmount()


def a_removed_file_keeps_its_folder():
    """FUSE keeps a removed file under another name until it is closed, so that its folder has an entry."""
    with mounted(blocks=256) as f:
        os.mkdir(f("d"))
        with open(f("d/a"), "w+") as file:
            file.write("kept")
            file.flush()
            os.unlink(f("d/a"))
            want(os.path.exists(f("d/a")), False, "is the name there")
            want(errno_of(lambda: os.rmdir(f("d"))), errno.ENOTEMPTY, "rmdir while it is open")
            file.seek(0)
            want(file.read(), "kept", "its bytes")
        os.rmdir(f("d"))
        want(os.listdir(f.path), [], "names at the end")


def zeroes_take_blocks():
    """A file that is only made longer takes as many blocks as one of these bytes."""
    with mounted(blocks=256) as f:
        save(f("a"), "x")
        before = os.statvfs(f.path).f_bfree
        os.truncate(f("a"), 400000)
        want(99 <= before - os.statvfs(f.path).f_bfree <= 102, True, "blocks of 400,000 bytes")
        want(open(f("a"), "rb").read(), b"x" + bytes(399999), "its bytes")
        want(errno_of(lambda: os.truncate(f("a"), 16000000)), errno.ENOSPC, "a file longer than the flash")


def end_file_system(f):
    """Kills the child, and waits until it has ended; a file system in the daemon itself ends where the daemon looks whether it is there."""
    if LIBRARY:
        save(f.space + "/ended", "")
        return
    child = child_of(f.process)
    os.kill(child, signal.SIGKILL)
    for _ in range(200):
        with open(f"/proc/{child}/stat") as stat:
            if stat.read().rsplit(")", 1)[1].split()[0] == "Z":
                return
        time.sleep(0.05)
    raise Wrong("the child does not end")


def reads_go_on_after_a_failure():
    """After the part failed all that reads shows what was synced last, and each change is EIO; once the file system itself has ended, all
    is EIO."""
    with Folder(**SMALL, options="commit=0") as f:
        if LIBRARY:
            put_between(f, "")  # which ends it
        f.mount()
        save_and_sync(f("a"), b"synced")
        f.unmount()
        f.mount({"SHIM_FILE": f.part, "SHIM_FAIL": "4"})
        want(errno_of(lambda: [save_and_sync(f("b"), b"x" * 3000) for _ in range(10)]), errno.EIO, "a save")
        want(tree_of(f.path), {"a": b"synced"}, "what is read then")
        for call in (lambda: os.mkdir(f("d")), lambda: save(f("a"), "more"), lambda: os.unlink(f("a")), lambda: os.rename(f("a"), f("c"))):
            want(errno_of(call), errno.EIO, "a change")
        want((f.refusal("undo"), f.refusal("begin")), (errno.EIO, errno.EIO), "lines of .undofs")
        want("the part failed" in open(f(".undofs")).read(), True, "what .undofs tells")
        want(tree_of(f.path), {"a": b"synced"}, "what is read after refusals")
        end_file_system(f)
        want(errno_of(lambda: open(f("a"), "rb").read()), errno.EIO, "a read without the file system")
        f.kill()
        f.mount()
        want(tree_of(f.path).get("a"), b"synced", "after a new mount")


CASES = [
    a_dropped_version_is_not_there,
    no_memory_is_told,
    a_removed_file_keeps_its_folder,
    zeroes_take_blocks,
    reads_go_on_after_a_failure,
]
