"""Cases of groups whose tree is that before: they make no version, and what could be redone is there still."""
import os
import random
import time

from mounts import mounted, run, tree_of, want
from programs import GIT


def saved(path, text):
    with open(path, "wb") as file:
        file.write(text)


def looking_makes_no_version():
    """git status after an undo writes its index anew; what was undone can be redone all the same."""
    with mounted("commit=60", settle=None) as f:
        os.mkdir(f("work"))
        run("git", "-c", "init.defaultBranch=main", "init", "-q", cwd=f("work"), env=GIT)
        saved(f("work/a"), b"one\n")
        run("git", "add", "a", cwd=f("work"), env=GIT)
        run("git", "commit", "-q", "-m", "one", cwd=f("work"), env=GIT)
        f.order("sync")
        saved(f("work/b"), b"two\n")
        f.order("sync")
        after = tree_of(f.path)
        f.order("undo")
        before, tree = f.versions(), tree_of(f.path)
        for _ in range(3):
            want(run("git", "status", "--short", cwd=f("work"), env=GIT), "", "git status")
            index = open(f("work/.git/index"), "rb").read()
            saved(f("work/.git/index.lock"), index)  # as git status does it, where what it knows of times is old
            os.rename(f("work/.git/index.lock"), f("work/.git/index"))
            os.mkdir(f("work/.git/made"))
            os.rmdir(f("work/.git/made"))
            f.order("sync")
        want(f.versions(), before, "versions after git status")
        want(tree_of(f.path), tree, "the tree after git status")
        f.order("redo")
        want(tree_of(f.path), after, "after redo")


def equal_bytes_make_no_version():
    """The same bytes saved again, what is made and removed, and what is moved there and back; their times stay with the version."""
    with mounted() as f:
        text = bytes(range(256)) * 40
        saved(f("a"), text)
        os.utime(f("a"), (1000, 1000))
        before = f.versions()
        for _ in range(3):
            saved(f("a"), text)
        want(f.versions(), before, "versions after three saves of equal bytes")
        want(abs(os.stat(f("a")).st_mtime - time.time()) < 300, True, "the time of the last save")
        for place in (0, 5000, 10239):
            with open(f("a"), "r+b") as file:
                file.seek(place)
                file.write(b"\xff" if text[place] == 0 else b"\0")
            want(f.versions() - before, 1, f"versions after byte {place} alone is another")
            f.order("undo")
            saved(f("a"), text)
            f.order("redo")
            f.order("undo")
            before = f.versions()
        f.order("begin")
        os.mkdir(f("d"))
        os.rename(f("a"), f("d/a"))
        os.rename(f("d"), f("e"))
        os.rename(f("e/a"), f("a"))
        os.rmdir(f("e"))
        f.order("end")
        want(f.versions(), before, "versions after all was brought back")
        want(open(f("a"), "rb").read(), text, "the file then")
        for name in ("d", "e"):
            os.mkdir(f(name))
            saved(f(name, "x"), name.encode())
        before = f.versions()
        f.order("begin")
        for old, new in (("d", "t"), ("e", "d"), ("t", "e")):
            os.rename(f(old), f(new))
        f.order("end")
        want(f.versions() - before, 1, "versions after two folders of the same names took each other's place")
        want(open(f("d/x")).read(), "e", "a file of the folder that moved")


def change_at_random(draw, root):
    """One change of a few names below a folder; where it is refused nothing is done."""
    names = [os.path.join(root, *path) for path in (("a",), ("b",), ("d",), ("e",), ("d", "a"), ("d", "b"), ("e", "a"), ("d", "f"), ("d", "f", "a"))]
    one, other = draw.choice(names), draw.choice(names)

    def patch():
        with open(one, "r+b") as file:
            file.seek(draw.randrange(4))
            file.write(draw.choice([b"x", b"y"]))

    try:
        draw.choice(
            [
                lambda: saved(one, draw.choice([b"", b"xx", b"xy", b"xxx"])), patch, lambda: os.mkdir(one), lambda: os.rmdir(one),
                lambda: os.unlink(one), lambda: os.rename(one, other), lambda: os.rename(one, other), lambda: os.truncate(one, draw.randrange(3)),
            ]  # fmt: skip
        )()
    except OSError:
        pass


def groups_at_random():
    """Groups of random changes: each makes a version if and only if its tree is another one, and undo takes back just that."""
    draw, unchanged = random.Random(6), 0
    with mounted(blocks=512) as f:
        for number in range(120):
            before, tree = f.versions(), tree_of(f.path)
            f.order("begin")
            for _ in range(draw.randrange(1, 6)):
                change_at_random(draw, f.path)
            after = tree_of(f.path)
            f.order("end")
            want(tree_of(f.path), after, f"the tree of group {number}")
            want(f.versions() - before, 0 if after == tree else 1, f"versions of group {number}: {tree} then {after}")
            unchanged += after == tree
            if after != tree and number % 5 == 0:
                f.order("undo")
                want(tree_of(f.path), tree, f"the tree before group {number}")
                f.order("redo")
        want(unchanged > 10, True, f"{unchanged} groups whose tree is that before")


CASES = [
    looking_makes_no_version,
    equal_bytes_make_no_version,
    groups_at_random,
]
