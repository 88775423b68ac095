"""Cases of bytes that are kept until a group ends: nobody sees that they are kept."""
import contextlib
import errno
import os
import random
import threading

from kept_times import try_unit
from mounts import Folder, mounted, put_between, tree_of, want
from starts import errno_of, save

SIZES = ("4096", "16777216")
FLAGS = (os.O_RDWR, os.O_RDWR | os.O_CREAT, os.O_RDWR | os.O_CREAT | os.O_TRUNC, os.O_RDWR | os.O_APPEND)


def the_write_buffer():
    try_unit("write_buffer_test", "write_buffer", "../c/undofs_calls", "../c/undofs_client")


class Caller:
    """Makes random calls below a folder. Two with one seed make the same calls, and keep files open over them."""

    def __init__(self, root, seed):
        self.root, self.draw, self.files = root, random.Random(seed), []

    def path(self):
        return os.path.join(self.root, *[self.draw.choice("abc") for _ in range(self.draw.randrange(1, 4))])

    def close_all(self):
        for file in self.files:
            os.close(file)
        self.files = []

    def open(self):
        path, flags = self.path(), self.draw.choice(FLAGS)
        if len(self.files) == 6:
            os.close(self.files.pop(0))
        self.files.append(os.open(path, flags))

    def write(self):
        count, at, bytes_of = self.draw.choice((3, 700, 5000, 40000)), self.draw.randrange(9000), self.draw.randbytes
        text = bytes_of(self.draw.randrange(1, count))
        return os.pwrite(self.draw.choice(self.files), text, at) if self.files else None

    def read(self):
        count, at = self.draw.randrange(1, 20000), self.draw.randrange(9000)
        return os.pread(self.draw.choice(self.files), count, at) if self.files else None

    def cut(self):
        length = self.draw.randrange(12000) * self.draw.randrange(2)
        return os.ftruncate(self.draw.choice(self.files), length) if self.files else None

    def length(self):
        return os.fstat(self.draw.choice(self.files)).st_size if self.files else None

    def look(self):
        found = os.lstat(self.path())
        return (found.st_mode & 0o170000, found.st_size if found.st_mode & 0o100000 else 0)

    def list(self):
        with os.scandir(self.path()) as entries:
            return sorted((entry.name, entry.is_dir(), 0 if entry.is_dir() else entry.stat().st_size) for entry in entries)

    def read_all(self):
        with open(self.path(), "rb") as file:
            return file.read()

    def rename(self):
        source, target = self.path(), self.path()
        if os.path.lexists(target):
            self.close_all()  # FUSE keeps an open file that is removed under a name of its own
        return os.rename(source, target)

    def remove(self):
        self.close_all()
        return self.draw.choice((os.unlink, os.rmdir))(self.path())

    def call(self):
        """The answer of one call, or its errno."""
        calls = (self.open, self.open, self.write, self.write, self.write, self.read, self.cut, self.length, self.look, self.list, self.read_all, self.rename, self.remove)
        calls += (lambda: os.mkdir(self.path()), lambda: os.mkdir(self.path()), lambda: os.truncate(self.path(), self.draw.randrange(9000)))
        try:
            return self.draw.choice(calls)()
        except OSError as error:
            return errno.errorcode[error.errno]


def calls_in_a_group_beside_the_host():
    """Random calls in groups by hand, with files that stay open, on the folder and on a plain one: each answer is the same, and the
    trees are, in the group, after it, and after an undo and a redo. So with a small buffer and with a large one."""
    for size in SIZES:
        with mounted(f"buffer={size}", blocks=4096, history=8) as f:
            plain = f.space + "/plain"
            os.mkdir(plain)
            for group in range(3):
                callers, before = [Caller(root, 10 * group + len(size)) for root in (f.path, plain)], tree_of(f.path)
                f.order("begin unsynced")
                for step in range(250):
                    here, there = (caller.call() for caller in callers)
                    want(here, there, f"call {step} of group {group} with {size}")
                for caller in callers:
                    caller.close_all()
                want(tree_of(f.path), tree_of(plain), "the tree in the group")
                f.order("end")
                want(tree_of(f.path), tree_of(plain), "the tree after the group")
                f.order("undo")
                want(tree_of(f.path), before, "the tree after undo")
                f.order("redo")
                want(tree_of(f.path), tree_of(plain), "the tree after redo")


def a_reader_beside_a_writer():
    """What one program wrote another sees at once: bytes, lengths, an end that moves, and names that move above."""
    with mounted() as f:
        os.mkdir(f("d"))
        writer, other = os.open(f("d/a"), os.O_RDWR | os.O_CREAT | os.O_APPEND), os.open(f("d/a"), os.O_WRONLY | os.O_APPEND)
        for i in range(20):
            os.write(writer, b"one\n")
            os.write(other, b"other\n")
            want(os.stat(f("d/a")).st_size, 10 * (i + 1), "length")
            with open(f("d/a"), "rb") as reader:
                want(reader.read(), b"one\nother\n" * (i + 1), "bytes")
        os.rename(f("d"), f("e"))
        os.write(writer, b"more\n")
        want(open(f("e/a"), "rb").read(), b"one\nother\n" * 20 + b"more\n", "after a folder above moved")
        os.truncate(f("e/a"), 7)
        os.write(other, b"!\n")
        want(open(f("e/a"), "rb").read(), b"one\noth!\n", "after it was cut")
        want(os.path.exists(f(".history", "@2", "e")), False, "does a version have it")
        os.close(writer)
        os.close(other)


def no_kept_byte_outlives_a_kill():
    """A kill finds nothing of a group that did not end, and all of what was synced, whether bytes were kept or given."""
    for size in SIZES:
        with Folder(f"commit=0,buffer={size}", history=8) as f:
            f.mount()
            with open(f("a"), "wb") as file:
                file.write(b"a" * 20000)
            f.order("sync")
            half = os.open(f("b"), os.O_WRONLY | os.O_CREAT)
            os.write(half, b"b" * 20000)
            f.kill()
            with contextlib.suppress(OSError):
                os.close(half)
            f.mount()
            want(tree_of(f.path), {"a": b"a" * 20000}, f"after a kill with {size}")
            f.unmount()


def a_write_is_refused_when_it_is_made():
    """On a full flash the write is refused that has no room, and not the close; what was answered before it is there."""
    with mounted(page=256, pages=16, blocks=64, history=4) as f:
        file, written = os.open(f("a"), os.O_WRONLY | os.O_CREAT), 0
        with contextlib.suppress(OSError):
            for _ in range(400):
                written += os.write(file, b"x" * 1000)
        want(100000 < written < 56 * 4016, True, f"{written} bytes before it was full")
        os.close(file)
        found = open(f("a"), "rb").read()
        want((len(found) - written < 1000, found.count(b"x")), (True, len(found)), f"what is there of {written} bytes")


def many_at_once():
    """Several programs write files of their own and one log, while others read them."""
    with mounted("buffer=65536", blocks=4096) as f:
        wrong = []

        def work(name):
            for i in range(30):
                with open(f("log"), "ab", buffering=0) as log:
                    log.write(name.encode() + b"\n")
                with open(f(name), "wb") as file:
                    file.write(name.encode() * 500 * (i + 1))
                if open(f(name), "rb").read() != name.encode() * 500 * (i + 1):
                    wrong.append((name, i))

        threads = [threading.Thread(target=work, args=(name,)) for name in "abcd"]
        for thread in threads:
            thread.start()
        for thread in threads:
            thread.join()
        want(wrong, [], "files that were read otherwise")
        lines = open(f("log")).read().split("\n")[:-1]
        want({name: lines.count(name) for name in "abcd"}, dict.fromkeys("abcd", 30), "lines of the log")


def lines_of(f, call):
    """How many lines the file system is given while something is done."""
    before = os.stat(f.space + "/lines").st_size
    call()
    return os.stat(f.space + "/lines").st_size - before


@contextlib.contextmanager
def counted(options="", **sizes):
    """A folder each line of which is counted by a byte in `lines`."""
    with Folder(options, **sizes) as f:
        put_between(f, COUNTING)
        f.mount()
        yield f
        f.unmount()


COUNTING = """#!/usr/bin/env python3
import subprocess, sys
child = subprocess.Popen(["{program}", *sys.argv[1:]], stdin=subprocess.PIPE, close_fds=False)
with open("{space}/lines", "ab", buffering=0) as lines:
    for line in sys.stdin.buffer:
        lines.write(b".")
        child.stdin.write(line)
        child.stdin.flush()
child.stdin.close()
sys.exit(child.wait())
"""


def a_save_is_few_lines():
    """The lines of a save do not grow with its writes, and a listing with its looks is one line."""
    with counted("settle=0", blocks=1024) as f:

        def save(writes):
            with open(f("a"), "wb", buffering=0) as file:
                for _ in range(writes):
                    file.write(b"x" * 100)

        save(1)
        few, many = lines_of(f, lambda: save(2)), lines_of(f, lambda: save(200))
        want(many <= few + 2, True, f"{many} lines of 200 writes, and {few} of two")
        os.mkdir(f("d"))
        for i in range(30):
            with open(f("d", str(i)), "w") as file:
                file.write("x" * i)
        found = {}
        listed = lines_of(f, lambda: found.update((entry.name, entry.stat().st_size) for entry in os.scandir(f("d"))))
        want(found, {str(i): i for i in range(30)}, "names and lengths")
        want(listed <= 6, True, f"{listed} lines of a listing of 30 files")


def a_new_file_is_one_change():
    """A file that is made, written and renamed in a group is one line that changes the tree, and looks; one that is made and removed is none.
    All see them meanwhile, and a kill finds nothing of the group."""
    with counted("settle=100,commit=0", blocks=1024) as f:
        names = [str(i) for i in range(20)]

        def replace_all(text):
            for name in names:
                save(f("new"), text + name)
                os.rename(f("new"), f(name))

        replace_all("one")
        f.order("sync")
        lines = lines_of(f, lambda: replace_all("other"))
        want(lines <= 5 * len(names), True, f"{lines} lines of {len(names)} files renamed over old ones")
        want(tree_of(f.path), {name: f"other{name}".encode() for name in names}, "the tree in the group")
        os.mkdir(f("d"))
        lines = lines_of(f, lambda: [(save(f("d", name), name), os.unlink(f("d", name))) for name in names])
        want(lines <= 2 * len(names), True, f"{lines} lines of {len(names)} files that are removed again")
        os.rmdir(f("d"))
        save(f("last"), "last")
        f.kill()
        f.mount()
        want(tree_of(f.path), {name: f"one{name}".encode() for name in names}, "the tree after a kill")


def new_files_are_seen_by_names():
    """A new file is in each listing, keeps its folder, and is cut, moved and replaced as an old one."""
    with mounted("settle=100", blocks=1024, history=4) as f:
        for name in ("listed", "kept", "replaced", "other", "d"):
            os.mkdir(f(name))
        for name in ("listed/a", "kept/a", "replaced/a"):
            save(f(name), "a")
        want(os.listdir(f("listed")), ["a"], "a listing")
        want(errno_of(lambda: os.rmdir(f("kept"))), errno.ENOTEMPTY, "a folder with a new file is removed")
        want(errno_of(lambda: os.rename(f("other"), f("replaced"))), errno.ENOTEMPTY, "a folder takes the place of one with a new file")
        for name, length in (("d/a", 0), ("d/b", 3), ("d/c", 5000)):
            save(f(name), "x" * 100)
            os.truncate(f(name), length)
        save(f("d/b"), "again")
        for name, length in (("empty", 0), ("more", 70000), ("one line", 100)):
            save(f("new"), "y" * length)
            os.rename(f("new"), f("other", name))
            save(f("new"), "z" * length)
            os.rename(f("new"), f("d/a"))
            want(open(f("d/a"), "rb").read(), b"z" * length, f"a new file of {length} bytes over another one")
        file = os.open(f("opened"), os.O_WRONLY | os.O_CREAT)
        os.rename(f("opened"), f("moved"))
        os.write(file, b"later")
        os.close(file)
        wanted = {"moved": b"later", "d/a": b"z" * 100, "d/b": b"again", "d/c": b"x" * 100 + bytes(4900), "listed/a": b"a", "kept/a": b"a", "replaced/a": b"a"}
        wanted |= {"other/empty": b"", "other/one line": b"y" * 100, "other/more": b"y" * 70000}
        wanted |= dict.fromkeys(("listed", "kept", "replaced", "other", "d"))
        want(tree_of(f.path), wanted, "the tree")
        f.unmount()
        f.mount()
        want(tree_of(f.path), wanted, "the tree after a new mount")


def a_cut_goes_through_kept_bytes():
    """A file that is there, of which bytes are kept, is cut within them."""
    with mounted("settle=100", blocks=1024) as f:
        save(f("a"), "a" * 10)
        f.order("sync")
        file = os.open(f("a"), os.O_RDWR)
        os.pwrite(file, b"b" * 20, 0)
        os.ftruncate(file, 15)
        os.close(file)
        want(open(f("a"), "rb").read(), b"b" * 15, "the file")
        f.unmount()
        f.mount()
        want(open(f("a"), "rb").read(), b"b" * 15, "the file after a new mount")


def a_full_folder_takes_no_file():
    """A folder of 1,024 entries refuses one more when it is made, also where those are new."""
    with mounted("settle=100", blocks=2048, history=2) as f:
        for i in range(1024):
            os.close(os.open(f(str(i)), os.O_WRONLY | os.O_CREAT))
        want(errno_of(lambda: os.open(f("more"), os.O_WRONLY | os.O_CREAT)), errno.ENOSPC, "one file too many")
        want(errno_of(lambda: os.mkdir(f("more"))), errno.ENOSPC, "one folder too many")


def pages_are_kept_until_the_tree_moves():
    """A file that is read a second time asks no child, and after an undo, a rename and a removal no page is of another file."""
    with counted("settle=0,commit=0", blocks=1024) as f:

        def read(name):
            with open(f(name), "rb") as file:
                return file.read()

        texts = {name: os.urandom(300000) for name in "abc"}
        for name in "abc":
            for text in (bytes(300000), texts[name]):
                with open(f(name), "wb") as file:
                    file.write(text)
                os.utime(f(name), (1000, 1000))
        read("a")
        again = lines_of(f, lambda: want(read("a"), texts["a"], "read again"))
        want(again, 0, "lines of a second read")
        read("b")
        f.order("undo")  # of c
        want((read("c"), read("a")), (bytes(300000), texts["a"]), "after undo")
        f.order("undo")
        f.order("undo")
        want((read("b"), read("a")), (bytes(300000), texts["a"]), "after more of them")
        os.rename(f("a"), f("d"))
        want((read("d"), os.path.exists(f("a"))), (texts["a"], False), "after a rename")
        os.rename(f("b"), f("d"))
        want(read("d"), bytes(300000), "after a rename over it")
        os.unlink(f("d"))
        with open(f("d"), "wb") as file:
            file.write(b"new")
        want(read("d"), b"new", "a file of the same name")


def a_rename_brings_no_stale_page():
    """A file that changed by an undo since it was last opened keeps no page under the name of one that was opened since."""
    with mounted("settle=0", blocks=1024) as f:
        one, two = os.urandom(50000), os.urandom(50000)
        for text in (one, two):
            with open(f("a"), "wb") as file:
                file.write(text)
            os.utime(f("a"), (1000, 1000))
        with open(f("b"), "wb") as file:
            file.write(two)
        with open(f("a"), "rb") as held:
            want(held.read(), two, "before")
        f.order("goto 2")  # a as it was first, and no b
        os.utime(f("a"), (1000, 1000))
        with open(f("c"), "wb") as file:
            file.write(b"other")
        want(open(f("c"), "rb").read(), b"other", "the other file")
        os.rename(f("a"), f("c"))
        want(open(f("c"), "rb").read(), one, "after a rename")


def files_are_read_in_turn():
    """In turn, backwards and by two readers; a write in between is seen; a file of a megabyte in turn is few lines."""
    with counted("settle=0", blocks=2048) as f:
        text = bytearray(os.urandom(1500000))
        with open(f("a"), "wb") as file:
            file.write(text)
        lines = lines_of(f, lambda: want(open(f("a"), "rb").read(), bytes(text), "in turn"))
        want(lines <= 8, True, f"{lines} lines of 1,500,000 bytes")
        f.order("undo")
        f.order("redo")
        one, two = os.open(f("a"), os.O_RDWR), os.open(f("a"), os.O_RDONLY)
        for at in [*range(0, 1500000, 50000), *range(1400000, 0, -140000)]:
            want(os.pread(one, 50000, at), bytes(text[at : at + 50000]), f"from {at}")
            text[at + 60000 : at + 60100] = b"y" * min(100, max(0, len(text) - at - 60000))
            if at + 60100 <= len(text):
                os.pwrite(one, b"y" * 100, at + 60000)
            want(os.pread(two, 70000, at), bytes(text[at : at + 70000]), f"by another from {at}")
        os.close(one)
        os.close(two)
        want(open(f("a"), "rb").read(), bytes(text), "at the end")


def a_large_group_ends_in_the_middle():
    """Where old versions may be forgotten what a group was given is kept, as much as is told; a larger one is two versions, which is
    told. One by hand cannot end: it goes on, and a full flash is ENOSPC then."""
    with mounted("forget,commit=0,buffer=1048576", blocks=2048, history=16) as f:
        before = f.versions()
        with open(f("a"), "wb") as file:
            file.write(bytes(900000))
        want((f.settled() - before, "in the middle" in f.told()), (1, False), "versions of a group, and what is told")
        with open(f("a"), "wb") as file:
            for i in range(25):
                file.write(bytes([i]) * 100000)
        want((f.settled() - before, "in the middle" in f.told()), (3, True), "versions of a large group, and what is told")
        want(os.stat(f("a")).st_size, 2500000, "its length")
        f.order("begin unsynced")
        with open(f("b"), "wb") as file:
            file.write(bytes(500000))
        want(errno_of(lambda: save(f("c"), "x" * 6000000)), errno.ENOSPC, "a group by hand that is too large")
        f.order("end")
        want((sorted(os.listdir(f.path)), open(f("b"), "rb").read()), (["a", "b", "c"], bytes(500000)), "what it wrote before")
        f.order("undo")
        want(os.listdir(f.path), ["a"], "names before it")


CASES = [
    the_write_buffer,
    calls_in_a_group_beside_the_host,
    a_reader_beside_a_writer,
    no_kept_byte_outlives_a_kill,
    a_write_is_refused_when_it_is_made,
    many_at_once,
    a_save_is_few_lines,
    a_new_file_is_one_change,
    new_files_are_seen_by_names,
    a_cut_goes_through_kept_bytes,
    a_full_folder_takes_no_file,
    pages_are_kept_until_the_tree_moves,
    a_rename_brings_no_stale_page,
    files_are_read_in_turn,
    a_large_group_ends_in_the_middle,
]
