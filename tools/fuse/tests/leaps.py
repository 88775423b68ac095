"""Cases of what programs see that have files open while the present tree moves: bytes that are read, maps, appends, editors, watchers."""
import contextlib
import errno
import fcntl
import mmap
import os
import pty
import select
import subprocess
import sys
import threading
import time

from mounts import Wrong, mounted, want


def save(path, text, when=None):
    """Saves a file, and gives it a time."""
    with open(path, "wb") as file:
        file.write(text)
    if when is not None:
        os.utime(path, (when, when))


def open_files_follow_an_undo():
    """Two versions of one length, with one time that a program set: what is read of an open file is that of the present version."""
    with mounted() as f:
        for when in (None, 1000):
            save(f("a"), b"one" * 2000, when)
            save(f("a"), b"two" * 2000, when)
            file = os.open(f("a"), os.O_RDONLY)
            for line, text in (("undo", b"one"), ("redo", b"two"), ("undo", b"one"), ("redo", b"two")):
                f.order(line)
                want(os.pread(file, 3, 4200), text, f"an open file after {line}")
            os.close(file)
        save(f("a"), b"six", 1000)
        f.order("checkpoint x")
        os.rename(f("a"), f("b"))
        file = os.open(f("b"), os.O_RDONLY)
        save(f("b"), b"ten", 1000)
        want(os.pread(file, 3, 0), b"ten", "a file that was moved")
        os.mkdir(f("d"))
        os.rename(f("b"), f("d/c"))
        save(f("d/c"), b"two", 1000)
        want(os.pread(file, 3, 0), b"two", "a file that was moved while it was open")
        f.order("undo")
        want(os.pread(file, 3, 0), b"ten", "the same after undo")
        os.close(file)


def saved_at_once(f, line):
    """What a line answers to a person who waits until no save is in its way."""
    for _ in range(100):
        if f.refusal(line) != errno.EBUSY:
            return
        time.sleep(0.1)
    raise Wrong(f"{line} is refused for ten seconds")


def a_log_through_an_undo():
    """What is appended after an undo stands at the end that the file has then, with no byte between."""
    with mounted() as f:
        log = os.open(f("log"), os.O_WRONLY | os.O_CREAT | os.O_APPEND)
        for text in (b"A" * 10, b"B" * 10):
            os.write(log, text)
            f.order("sync")
        f.order("undo")
        os.write(log, b"C")
        want(open(f("log"), "rb").read(), b"A" * 10 + b"C", "a log after undo")
        f.order("sync")
        with open(f("log"), "ab") as other:
            other.write(b"D" * 20)
        f.order("undo")
        os.write(log, b"E")
        want(open(f("log"), "rb").read(), b"A" * 10 + b"CE", "a log after the undo of what another program wrote")
        os.close(log)
        file = os.open(f("log"), os.O_RDWR)
        os.pwrite(file, b"a", 0)
        fcntl.fcntl(file, fcntl.F_SETFL, os.O_APPEND)
        os.write(file, b"F")
        with mmap.mmap(file, 2) as view:
            view[0:2] = b"bb"
            view.flush()
        fcntl.fcntl(file, fcntl.F_SETFL, 0)
        os.pwrite(file, b"c", 1)
        os.close(file)
        want(open(f("log"), "rb").read(), b"bc" + b"A" * 8 + b"CEF", "appends by a flag that was set later, and a map")


def a_map_through_an_undo():
    """A mapped page is that of the present version at once. One that was changed is a version of its own before the undo, and redo has it."""
    with mounted() as f:
        save(f("a"), b"one" * 1000, 1000)
        save(f("a"), b"two" * 1000, 1000)
        file = os.open(f("a"), os.O_RDWR)
        with mmap.mmap(file, 3000) as view:
            want(view[0:3], b"two", "a map")
            f.order("undo")
            want(view[0:3], b"one", "a map after undo")
            f.order("redo")
            want(view[0:3], b"two", "a map after redo")
            before = f.versions()
            view[0:3] = b"map"
            f.order("undo")
            want(view[0:3], b"two", "a changed map after undo")
            want(f.versions() - before, 1, "versions of the map")
            with open(f("a"), "rb") as other:
                want(other.read(3), b"two", "the file after undo")
            f.order("redo")
            want(view[0:3], b"map", "the map after redo")
        os.close(file)
        want(open(f("a"), "rb").read(6), b"maptwo", "the file after redo")


def leaps_at_once():
    """Several programs undo and redo at once, while maps are changed and files are read: none waits for ever, and none is lost."""
    with mounted() as f:
        for i in range(6):
            save(f("a"), bytes([65 + i]) * 5000)
        f.order("forget 1")  # in which the file is not: a map of it would end this program
        file, is_ended, answers = os.open(f("a"), os.O_RDWR), threading.Event(), []

        def leap(lines):
            for line in lines * 6:
                answers.append(f.refusal(line))

        def change():
            with mmap.mmap(file, 5000) as view:
                while not is_ended.is_set():
                    view[4999:5000] = b"m"
                    os.pread(file, 10, 0)
                    time.sleep(0.02)

        changer = threading.Thread(target=change, daemon=True)
        leapers = [threading.Thread(target=leap, args=(lines,), daemon=True) for lines in (["undo", "redo"], ["goto 3", "undo"], ["redo", "sync"])]
        for thread in [changer, *leapers]:
            thread.start()
        for thread in leapers:
            thread.join(120)
            want(thread.is_alive(), False, "does a leap wait for ever")
        is_ended.set()
        changer.join(60)
        os.close(file)
        want(len(answers), 36, "answers")
        allowed = {None, errno.ENODATA, errno.EBUSY, errno.ENOENT}
        want(set(answers) <= allowed and None in answers, True, f"answers {set(answers)}")


# Tells each event of a path until there was none for three seconds, and then what it reads there.
WATCHER = """
import ctypes, os, select, sys
libc = ctypes.CDLL(None)
file = libc.inotify_init1(0)
libc.inotify_add_watch(file, sys.argv[1].encode(), 0x3ce)
print("watching", flush=True)
while select.select([file], [], [], 3)[0]:
    os.read(file, 4096)
    print("told", flush=True)
print(open(sys.argv[1]).read())
"""


def no_watcher_is_told():
    """An undo raises no event of inotify, as the page says; who looks again sees the present version."""
    with mounted() as f:
        save(f("a"), b"one")
        save(f("a"), b"two")
        watcher = subprocess.Popen([sys.executable, "-c", WATCHER, f("a")], stdout=subprocess.PIPE, text=True)
        want(watcher.stdout.readline(), "watching\n", "a watcher")
        f.order("undo")
        want(watcher.communicate(timeout=60)[0], "one\n", "what a watcher is told and then reads")


class Editor:
    """vi in a terminal of its own."""

    def __init__(self, path):
        self.process, self.terminal = pty.fork()
        if self.process == 0:
            os.environ["TERM"] = "vt100"
            with contextlib.suppress(OSError):
                os.execvp("vi", ["vi", "-u", "NONE", path])
            os._exit(127)

    def type(self, keys, until=None):
        """Types keys, and waits until something holds."""
        os.write(self.terminal, keys)
        end = time.time() + 60
        while time.time() < end:
            if select.select([self.terminal], [], [], 0.1)[0]:
                with contextlib.suppress(OSError):
                    os.read(self.terminal, 65536)
            if until is None or until():
                return
        raise Wrong(f"vi did not do {keys}")

    def close(self):
        with contextlib.suppress(OSError):
            self.type(b"\033:q!\r")
        os.close(self.terminal)
        os.waitpid(self.process, 0)


def an_undo_beside_an_editor():
    """vi has its swap file open and writes to it: what it saved before is taken back all the same."""
    with mounted() as f:
        save(f("a"), b"one\n")
        editor = Editor(f("a"))
        try:
            editor.type(b"", lambda: os.path.exists(f(".a.swp")))
            editor.type(b"Atwo\033:w\r", lambda: open(f("a")).read() == "onetwo\n")
            saved_at_once(f, "sync")
            f.order("checkpoint saved")
            saved_at_once(f, "undo")
            while open(f("a")).read() != "one\n":
                saved_at_once(f, "undo")
            f.order("rollback saved")
            want(open(f("a")).read(), "onetwo\n", "after the rollback")
            editor.type(b"Athree\033:w!\r", lambda: open(f("a")).read() == "onetwothree\n")
        finally:
            editor.close()


CASES = [
    open_files_follow_an_undo,
    a_log_through_an_undo,
    a_map_through_an_undo,
    leaps_at_once,
    no_watcher_is_told,
    an_undo_beside_an_editor,
]
