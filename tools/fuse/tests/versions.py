"""Cases of versions: one a save, undo and redo, .undofs and .history, times."""
import errno
import mmap
import os
import shutil
import signal
import subprocess
import time

from mounts import LIBRARY, SHARED, Folder, Wrong, child_of, mounted, run, tree_of, want

NODATA = 61


def one_version_a_save():
    with mounted() as f:
        saves = {
            "made by a shell": lambda: run("sh", "-c", "echo hi > a", cwd=f.path),
            "touch": lambda: run("touch", "b", cwd=f.path),
            "cp of 300,000 bytes": lambda: shutil.copyfile(big, f("c")),
            "cp over it": lambda: run("cp", other, f("c")),
            "append": lambda: run("sh", "-c", "echo more >> a", cwd=f.path),
            "truncate": lambda: run("truncate", "-s", "3", f("a")),
            "1,000 flushed writes": lambda: flushed(f("d")),
            "dd of 1 MB": lambda: run("dd", "if=/dev/zero", f"of={f('e')}", "bs=64k", "count=16"),
            "a mapped write": lambda: mapped(f("a")),
            "mkdir": lambda: os.mkdir(f("g")),
            "rename": lambda: os.rename(f("a"), f("g/a")),
            "unlink": lambda: os.unlink(f("g/a")),
        }
        big, other = f.space + "/big", f.space + "/other"
        for path in (big, other):
            with open(path, "wb") as file:
                file.write(os.urandom(300000))
        for name, save in saves.items():
            before = f.versions()
            save()
            want(f.settled() - before, 1, name)


def flushed(path):
    with open(path, "w") as file:
        for _ in range(1000):
            file.write("hello")
            file.flush()


def mapped(path):
    with open(path, "r+b") as file, mmap.mmap(file.fileno(), 3) as view:
        view[0:2] = b"XY"
        view.flush()


def undo_gives_each_tree():
    """Saves with a copy of each tree; back all the way and forth again, each tree compared, names too."""
    with mounted() as f:
        trees = [tree_of(f.path)]
        steps = [
            lambda: os.mkdir(f("a")),
            lambda: run("sh", "-c", "echo one > a/f", cwd=f.path),
            lambda: run("sh", "-c", "echo longer than one > a/f", cwd=f.path),
            lambda: os.rename(f("a"), f("b")),
            lambda: run("sh", "-c", "echo two > a", cwd=f.path),
            lambda: os.unlink(f("b/f")),
            lambda: os.rmdir(f("b")),
            lambda: os.unlink(f("a")),
            lambda: os.mkdir(f("a")),
        ]
        for step in steps:
            step()
            trees.append(tree_of(f.path))
        for tree in trees[-2::-1]:
            f.order("undo")
            want(tree_of(f.path), tree, "after undo")
            compare_names(f, tree, trees)
        want(f.refusal("undo"), NODATA, "undo at the first version")
        for tree in trees[1:]:
            f.order("redo")
            want(tree_of(f.path), tree, "after redo")
            compare_names(f, tree, trees)
        want(f.refusal("redo"), NODATA, "redo at the last version")


def compare_names(f, tree, trees):
    """No name of another tree is left, and each one's kind is right."""
    for name in {name for other in trees for name in other}:
        want(os.path.lexists(f(name)), name in tree, f"is {name} there")
        if name in tree:
            want(os.path.isdir(f(name)), tree[name] is None, f"is {name} a directory")


def no_name_is_stale():
    """A file that was just looked at is gone at once after an undo, and back after a redo."""
    with mounted() as f:
        with open(f("a"), "w") as file:
            file.write("one")
        with open(f("a"), "w") as file:
            file.write("other")
        held = open(f("a"))
        for _ in range(20):
            want(os.stat(f("a")).st_size, 5, "length")
            f.order("undo")
            want(os.stat(f("a")).st_size, 3, "length after undo")
            held.seek(0)
            want(held.read(), "one", "an open file after undo")
            f.order("undo")
            want(os.path.exists(f("a")), False, "a name after undo")
            f.order("redo")
            want(open(f("a")).read(), "one", "bytes after redo")
            f.order("redo")
        held.close()
        # the kernel is told of names that are open alone
        for _ in range(20):
            want(os.stat(f("a")).st_size, 5, "length of a file that is closed")
            f.order("undo")
            want(os.stat(f("a")).st_size, 3, "its length after undo")
            f.order("redo")


def orders_are_refused():
    with mounted() as f:
        want(f.refusal("none"), errno.EINVAL, "a word that is none")
        want(f.refusal("undo now"), errno.EINVAL, "a word too many")
        want(f.refusal("goto 99"), errno.ENOENT, "a version that is not there")
        want(f.refusal("end"), errno.EINVAL, "end of no group")
        with open(f("a"), "w") as writer:
            writer.write("half")
            writer.flush()
            for line in ("undo", "redo", "goto 1", "rollback x"):
                want(f.refusal(line), errno.EBUSY, f"{line} while a file is written")
            want(f.log_words()[2], "2", "versions while a file is written")
        f.order("undo")
        want(os.listdir(f.path), [], "after undo")
        f.order("redo")
        want(open(f("a")).read(), "half", "after redo")


def views_are_read_only():
    with mounted() as f:
        with open(f("a"), "w") as file:
            file.write("one")
        f.order("checkpoint before-this")
        os.unlink(f("a"))
        want(sorted(os.listdir(f.path)), [], "names: .undofs and .history are not listed")
        want(sorted(os.listdir(f(".history"))), ["=before-this", "@1", "@2", "@3"], "names of .history")
        for view in ("@2", "=before-this"):
            want(open(f(".history", view, "a")).read(), "one", view)
            for call in (lambda: os.unlink(f(".history", view, "a")), lambda: open(f(".history", view, "a"), "w"), lambda: os.mkdir(f(".history", view, "b"))):
                try:
                    call()
                    raise Wrong(f"{view} was changed")
                except OSError as error:
                    want(error.errno, errno.EROFS, view)
        for name in ("@9", "@x", "none", "=none"):
            want(os.path.exists(f(".history", name)), False, name)
        run("cp", "-r", f(".history", "@2") + "/.", f.path)
        want(tree_of(f.path), {"a": b"one"}, "a file brought back by cp")
        f.order("rollback before-this")
        f.order("rmcheckpoint before-this")
        want(os.listdir(f(".history")).count("=before-this"), 0, "a removed checkpoint")


def a_group_by_hand():
    """All that programs do between begin and end is one version, also where they sync, with `begin unsynced`."""
    with mounted() as f:
        want(f.refusal("abandon"), errno.EINVAL, "abandon of no group")
        before = f.versions()
        f.order("begin unsynced")
        for i in range(5):
            with open(f(f"f{i}"), "w") as file:
                file.write("x" * 1000)
                os.fsync(file.fileno())
        want(f.refusal("undo"), errno.EBUSY, "undo in a group")
        time.sleep(1.5)
        f.order("end")
        want(f.versions() - before, 1, "versions")
        f.order("undo")
        want(os.listdir(f.path), [], "after undo")
        f.order("redo")
        f.order("begin")
        os.unlink(f("f1"))
        f.order("abandon")
        want(len(os.listdir(f.path)), 5, "after abandon")


def times_follow_versions():
    with mounted() as f:
        start = os.stat(f.path).st_mtime
        with open(f("a"), "w") as file:
            file.write("one")
        os.utime(f("a"), (1000, 1000))
        want(os.stat(f("a")).st_mtime, 1000, "a time that was set")
        f.order("checkpoint x")
        with open(f("a"), "a") as file:
            file.write("two")
        want(os.stat(f("a")).st_mtime >= start, True, "the time of a write")
        f.order("undo")
        want(os.stat(f("a")).st_mtime, 1000, "after undo")
        f.order("redo")
        want(os.stat(f("a")).st_mtime >= start, True, "after redo")
        os.rename(f("a"), f("b"))
        f.order("undo")
        f.order("undo")
        os.mkdir(f("d"))
        os.rename(f("a"), f("d/a"))
        os.rename(f("d"), f("e"))
        want(os.stat(f("e/a")).st_mtime, 1000, "in a folder that moved")
        f.order("rollback x")
        want(os.stat(f("a")).st_mtime, 1000, "after rollback")
        f.unmount()
        f.mount()
        want(os.stat(f("a")).st_mtime, 1000, "after a new mount")
        f.unmount()
        os.unlink(f.part + ".times")
        f.mount()
        want(os.stat(f("a")).st_mtime > start, True, "after a new mount where the times are lost")


def make_is_right_after_undo():
    with mounted() as f:
        for name, text in (("Makefile", "b: a\n\tcp a b\n"), ("a", "one\n")):
            with open(f(name), "w") as file:
                file.write(text)
        run("make", cwd=f.path)
        want("up to date" in run("make", cwd=f.path), True, "made twice")
        with open(f("a"), "w") as file:
            file.write("two\n")
        run("make", cwd=f.path)
        want(open(f("b")).read(), "two\n", "made after an edit")
        f.order("undo")
        want(open(f("b")).read(), "one\n", "the target after undo")
        run("make", cwd=f.path)
        want(open(f("b")).read(), "two\n", "made after undo of the target")
        f.order("undo")
        f.order("undo")
        want(open(f("a")).read(), "one\n", "the source after undo")
        want("up to date" in run("make", cwd=f.path), True, "made after undo of both")


def a_mount_is_found_again():
    """Unmounted and mounted at once; in use; no file system; a file that is none."""
    with mounted() as f:
        with open(f("a"), "w") as file:
            file.write("one")
        f.unmount()
        f.mount()
        want(tree_of(f.path), {"a": b"one"}, "after a new mount")
        f.order("undo")
        want(os.listdir(f.path), [], "undo after a new mount")
        f.unmount()
        f.mount()
        want(os.listdir(f.path), [], "an undo after a new mount")
        other = f.space + "/other"
        os.mkdir(other)
        with open(f.space + "/none", "wb") as file:
            file.write(bytes(5000))
        done = subprocess.run([SHARED["daemon"], f.space + "/none", other, "-o", f"serve={SHARED['program']}"], capture_output=True, text=True)
        want((done.returncode, "neither a part" in done.stderr), (1, True), f"a file that is no part {done.stderr}")


SIGNALS = (signal.SIGINT, signal.SIGHUP, signal.SIGTERM)


def a_signal_ends_it_well():
    """A signal to the daemon and its child, as at a shutdown of the host: what was saved is brought to the part first, and no child is left.
    With the file system in itself the daemon has none, before the signal too."""
    for last in SIGNALS:
        with Folder("settle=100,commit=0") as f:
            f.mount()
            before = f.versions()
            with open(f("a"), "w") as file:
                file.write("one")
            child = child_of(f.process)
            want(child is None, bool(LIBRARY), "is there no child")
            for number in SIGNALS if child else ():
                os.kill(child, number)
            f.process.send_signal(last)
            want(f.process.wait(60), 0, f"the daemon's status after {last.name}")
            want(os.path.ismount(f.path), False, "is it mounted")
            want(child is not None and os.path.exists(f"/proc/{child}"), False, "is the child there")
            f.mount()
            want((tree_of(f.path), f.versions() - before), ({"a": b"one"}, 1), "after a new mount")
            f.unmount()


def a_signal_before_a_wait():
    """A signal that comes after a request and before the wait for the next one, which begins late and has no end: it is not waited past."""
    with Folder("commit=0") as f:
        f.mount({"SHIM_FILE": f.part, "SHIM_WAIT": "3000"})
        time.sleep(5)
        os.listdir(f.path)
        time.sleep(1.5)
        f.process.send_signal(signal.SIGTERM)
        want(f.process.wait(15), 0, "the daemon's status")
        want(os.path.ismount(f.path), False, "is it mounted")


def a_second_signal_breaks_nothing_off():
    """Once one has unmounted the folder, more of them leave the daemon to what it brings to the part, and so does a log that nobody reads."""
    texts = {f"f{i}": bytes([i]) * 1000000 for i in range(12)}
    with Folder("settle=100,commit=0", blocks=8192) as f:
        f.mount()
        for name, text in texts.items():
            with open(f(name), "wb") as file:
                file.write(text)
        f.process.send_signal(signal.SIGTERM)
        until, sent = time.time() + 60, 0
        while f.process.poll() is None and time.time() < until:
            if not os.path.ismount(f.path):
                f.process.send_signal((*SIGNALS, signal.SIGPIPE)[sent % 4])
                sent += 1
            time.sleep(0.01)
        want((f.process.wait(1), sent > 3), (0, True), f"the daemon's status after {sent} more")
        f.mount()
        want({name: found == texts[name] for name, found in tree_of(f.path).items()}, dict.fromkeys(texts, True), "after a new mount")
        f.unmount()


CASES = [
    one_version_a_save,
    undo_gives_each_tree,
    no_name_is_stale,
    orders_are_refused,
    views_are_read_only,
    a_group_by_hand,
    times_follow_versions,
    make_is_right_after_undo,
    a_mount_is_found_again,
    a_signal_ends_it_well,
    a_signal_before_a_wait,
    a_second_signal_breaks_nothing_off,
]
