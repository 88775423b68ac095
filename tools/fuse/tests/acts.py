"""Cases of what a person did as one version: acts of programs, quiet, two programs at once, and what ends a group besides."""
import contextlib
import os
import sqlite3
import tarfile
import time

from leaps import Editor
from losses import save_and_sync
from mounts import Folder, mounted, run, tree_of, want
from programs import GIT

SETTLE = {"settle": None}  # the daemon's own


def act(f, what, words, most=1):
    """Carries an act out, and wants one version of it once all is ended; undo takes it back, and redo brings it again."""
    f.order("sync")
    before, tree = f.versions(), tree_of(f.path)
    words() if callable(words) else run(*words, cwd=f("work"), env=GIT)
    f.order("sync")
    made, after = f.versions() - before, tree_of(f.path)
    want(1 <= made <= most, True, f"{what}: {made} versions")
    for _ in range(made):
        f.order("undo")
    want(tree_of(f.path), tree, f"{what}: the tree after undo")
    for _ in range(made):
        f.order("redo")
    want(tree_of(f.path), after, f"{what}: the tree after redo")


def an_act_is_one_version():
    """git, make, tar, sed, rm, and an editor, each with the time to settle that the daemon has by itself."""
    with mounted("commit=60", **SETTLE, blocks=4096) as f:
        os.mkdir(f("work"))
        for name, text in (("Makefile", "all: b c\nb: a\n\tcp a b\nc: b\n\tcp b c\n"), ("a", "one\n")):
            with open(f("work", name), "w") as file:
                file.write(text)
        with tarfile.open(f.space + "/some.tar", "w") as archive:
            archive.add(os.path.dirname(os.path.abspath(__file__)) + "/wrong", "some")
        commit = ["git", "-c", "init.defaultBranch=main", "commit", "-q", "-m", "one"]
        act(f, "git init", ["git", "-c", "init.defaultBranch=main", "init", "-q"])
        act(f, "git add", ["git", "add", "a"])
        act(f, "git commit", commit)
        act(f, "make", ["make"])
        act(f, "tar", ["tar", "-xf", f.space + "/some.tar"])
        act(f, "sed", ["sed", "-i", "s/one/1/", "a"])
        act(f, "git checkout", ["git", "checkout", "-q", "a"])
        act(f, "rm -r", ["rm", "-r", "some"])
        act(f, "an editor", lambda: edit(f("work/a")), 3)
        run("git", "commit", "-q", "--allow-empty", "-m", "two", cwd=f("work"), env=GIT)
        f.order("undo")
        want(run("git", "log", "--format=%s", cwd=f("work"), env=GIT), "one\n", "git log after an undo of a commit")
        run("git", "fsck", "--strict", cwd=f("work"), env=GIT)


def edit(path):
    editor = Editor(path)
    editor.type(b"Oa line\033:wq\r", lambda: open(path).read().startswith("a line\n"))
    editor.close()


def quiet_ends_a_version():
    """Two saves are one version where less than the time to settle is between them, and two where more is; a kill then loses nothing."""
    with Folder(**SETTLE) as f:
        f.mount()
        before = f.versions()
        for name in ("a", "b"):
            with open(f(name), "w") as file:
                file.write(name)
        want(f.versions(), before, "versions at once")
        time.sleep(3.5)
        want(f.versions() - before, 1, "versions after a time with no change")
        os.mkdir(f("d"))
        f.kill()
        f.mount()
        want(tree_of(f.path), {"a": b"a", "b": b"b"}, "after a kill at once, with what had settled")
        want(f.versions() - before, 1, "versions then")
        os.mkdir(f("d"))
        with open(f("d/c"), "w") as file:
            file.write("c")
        f.order("undo")
        want(tree_of(f.path), {"a": b"a", "b": b"b"}, "an undo at once takes back all since then")
        f.order("redo")
        os.mkdir(f("e"))
        f.unmount()
        f.mount()
        want(f.versions() - before, 3, "versions after an unmount")
        want(sorted(tree_of(f.path)), ["a", "b", "d", "d/c", "e"], "after an unmount")
        f.unmount()


def what_is_never_quiet():
    """Where something always changes, a version is made and synced `commit` seconds after its first change."""
    with Folder("commit=3", **SETTLE) as f:
        f.mount()
        before, end = f.versions(), time.time() + 8
        with open(f("a"), "w") as file:
            file.write("saved")
        log = os.open(f("log"), os.O_WRONLY | os.O_CREAT | os.O_APPEND)
        while time.time() < end:
            os.write(log, b"a line\n")
            time.sleep(0.3)
        want(2 <= f.versions() - before <= 3, True, f"versions in eight seconds: {f.versions() - before}")
        f.kill()
        with contextlib.suppress(OSError):
            os.close(log)
        f.mount()
        found = tree_of(f.path)
        want(found.get("a"), b"saved", "what was saved eight seconds before")
        want(len(found["log"]) >= 8 * len(b"a line\n"), True, f"lines of the log {len(found['log'])}")


def syncs_end_a_version():
    """An fsync and a write through O_SYNC make a version each, synced; sqlite has one each commit at least."""
    with Folder("commit=0", **SETTLE) as f:
        f.mount()
        before = f.versions()
        os.mkdir(f("d"))
        save_and_sync(f("a"), b"one")
        want(f.versions() - before, 1, "versions after an fsync")
        through = os.open(f("b"), os.O_WRONLY | os.O_CREAT | os.O_SYNC)
        os.write(through, b"two")
        os.close(through)
        want(f.versions() - before, 2, "versions after a write through")
        base = sqlite3.connect(f("x.db"), isolation_level=None)
        base.execute("pragma synchronous=extra")  # the removal of the journal is synced too
        base.execute("create table t(n)")
        base.close()
        f.kill()
        f.mount()
        want(sorted(tree_of(f.path)), ["a", "b", "d", "x.db"], "after a kill")
        want(run("sqlite3", f("x.db"), "select count(*) from t"), "0\n", "the base after a kill")
        f.unmount()


def durable_does_not_settle():
    """With -o durable a folder that is made and a save, killed at once, are both there, also with a time to settle."""
    with Folder("durable,commit=0", settle=2) as f:
        f.mount()
        before = f.versions()
        log = os.open(f("log"), os.O_WRONLY | os.O_CREAT)
        os.write(log, b"half")
        os.mkdir(f("d"))
        with open(f("d/a"), "w") as file:
            file.write("saved")
        want(f.versions() - before, 2, "versions")
        f.kill()
        with contextlib.suppress(OSError):
            os.close(log)
        f.mount()
        want(tree_of(f.path), {"d": None, "d/a": b"saved", "log": b"half"}, "after a kill")
        f.unmount()


CASES = [
    an_act_is_one_version,
    quiet_ends_a_version,
    what_is_never_quiet,
    syncs_end_a_version,
    durable_does_not_settle,
]
