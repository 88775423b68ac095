"""Cases of a full flash: what is forgotten and what is not, the reserve, and data bases that roll back."""
import contextlib
import errno
import os
import sqlite3

from mounts import Folder, mounted, put_between, run, tree_of, want

SMALL_PART = {"page": 4096, "pages": 1, "blocks": 96, "history": 32}


def saved(path, text):
    with open(path, "wb") as file:
        file.write(text)


def refusal_of(call, *words):
    try:
        call(*words)
        return None
    except OSError as error:
        return errno.errorcode[error.errno]


def versions_kept(f):
    words = f.log_words()
    return words.index("checkpoints") - words.index("versions") - 1


def a_full_flash_forgets_by_need():
    """A flash that is full forgets the oldest versions, and no more than are in the way, so that each save is one version."""
    with mounted(**SMALL_PART) as f:
        before = f.versions()
        for i in range(30):
            saved(f("a"), bytes([i]) * 20000)
            want(f.versions() - before, i + 1, "versions")
            want(versions_kept(f) >= min(i + 2, 5), True, f"{versions_kept(f)} versions are kept after {i + 1} saves")
        for i in range(28, 25, -1):
            f.order("undo")
            want(open(f("a"), "rb").read(), bytes([i]) * 20000, "after undo")
        want("full: " in open(f(".undofs")).read(), False, "what .undofs tells")


def no_save_is_refused_while_versions_can_go():
    """A file that is cut and written anew takes blocks twice in one group. Whatever room there is, it is made for both."""
    for blocks in range(32, 41):
        with mounted("settle=0", page=2048, pages=32, blocks=blocks, history=8) as f:
            saves = {}
            for i in range(30):
                name = f"f{i % 5}"
                saves[name] = os.urandom(i * 7919 % 60000 + 1)
                want(refusal_of(saved, f(name), saves[name]), None, f"save {i} on {blocks} blocks")
                want(versions_kept(f) > 1, True, f"{versions_kept(f)} versions are kept after save {i} on {blocks} blocks")
            want({name: open(f(name), "rb").read() == saves[name] for name in saves}, dict.fromkeys(saves, True), "the files")


def a_save_over_what_could_be_redone():
    """All is undone on a full flash: what could be redone gives its blocks to the next save, which one undo takes back."""
    with mounted(**SMALL_PART) as f:
        for i in range(9):
            saved(f("a"), bytes([i]) * 20000)
        while f.refusal("undo") is None:
            pass
        tree = tree_of(f.path)
        saved(f("b"), b"b" * 150000)
        want(open(f("b"), "rb").read(), b"b" * 150000, "a save that takes most of the flash")
        f.order("undo")
        want(tree_of(f.path), tree, "after undo")
        f.order("redo")
        want(open(f("b"), "rb").read(3), b"bbb", "after redo")


def the_reserve_is_for_what_grows_not():
    """With -o keep what makes a file longer, or a new one, is ENOSPC while blocks are left: cuts, removals, moves and writes in place are done."""
    with mounted("keep", **SMALL_PART) as f:
        for i in range(40):
            if refusal_of(saved, f(f"f{i}"), bytes([i]) * 10000) is not None:
                break
        want(3 < i < 39, True, f"{i} files were written")
        folders = 0
        while folders < 10 and refusal_of(os.mkdir, f(f"d{folders}")) is None:
            folders += 1
        want(folders < 5, True, f"{folders} folders were made")
        space = os.statvfs(f.path)
        want(7 <= space.f_bfree <= 11, True, f"{space.f_bfree} blocks are left")
        want("full: " in open(f(".undofs")).read(), True, "what .undofs tells")
        want(refusal_of(saved, f("new"), b"x"), "ENOSPC", "a new file")
        want(refusal_of(os.truncate, f("f1"), 30000), "ENOSPC", "a longer file")
        with open(f("f1"), "r+b") as file:
            file.seek(9000)
            want(refusal_of(lambda: (file.write(b"y"), file.flush())), None, "a write in place")
        want(open(f("f1"), "rb").read(), b"\1" * 9000 + b"y" + b"\1" * 999, "the file then")
        want(refusal_of(os.rename, f("f0"), f("g0")), None, "rename")
        want(refusal_of(os.unlink, f("f2")), None, "unlink")
        f.order("forgetfree 30")
        want(refusal_of(os.mkdir, f("d")), None, "mkdir after forgetfree")
        want(f.refusal("forgetfree 1000"), errno.ENOSPC, "more than there are")
        want("full: " in open(f(".undofs")).read(), False, "what .undofs tells then")
    with mounted("keep,reserve=40", **SMALL_PART) as f:
        while refusal_of(saved, f("a"), os.urandom(10000)) is None:
            pass
        want(36 <= os.statvfs(f.path).f_bfree <= 46, True, "blocks that are left with another reserve")


def no_more_is_forgotten_than_a_save_takes():
    """A save on a full flash counts its blocks once: so many are free afterwards as the reserve and a sixteenth, and hardly more."""
    with mounted(**{**SMALL_PART, "history": 64}) as f:
        for i in range(60):
            saved(f("a"), bytes([i]))
        want(os.statvfs(f.path).f_bfree < 8 + 5 + 20, True, "is the flash full")
        saved(f("b"), b"b" * 70000)
        free = os.statvfs(f.path).f_bfree
        want(8 + 5 <= free <= 8 + 5 + 4, True, f"{free} blocks are free after a save")


def a_move_takes_no_room_of_kept_bytes():
    """Bytes that were answered are given before moves take the reserve that they count on: the close is no refusal."""
    with mounted("keep,commit=0,reserve=12", **{**SMALL_PART, "blocks": 128, "history": 64}) as f:
        for i in range(20):
            f.order("begin")
            os.mkdir(f(f"d{i}"))
            saved(f(f"d{i}/a"), b"open")
            f.order("end")
        while refusal_of(saved, f("x"), os.urandom(4100)) is None:
            pass
        file = os.open(f("d0/a"), os.O_WRONLY)
        want(os.pwrite(file, b"kept", 0), 4, "a write in place")
        told = [refusal_of(os.rename, f(f"d{i}/a"), f(f"d{i}/b")) for i in range(1, 20)]
        want((told[0], told[-1]), (None, "ENOSPC"), f"moves until no block is left: {told}")
        want(refusal_of(os.close, file), None, "the close")
        want(open(f("d0/a"), "rb").read(), b"kept", "what was written")
        f.order("forgetfree 20")
        want(refusal_of(os.rename, f("d19/a"), f("d19/b")), None, "a move then")


# ---- a file system that finds no room for some lines ----

REFUSING = """#!/usr/bin/env python3
import os, subprocess, sys
child = subprocess.Popen(["{program}", *sys.argv[1:]], stdin=subprocess.PIPE, stdout=subprocess.PIPE, close_fds=False)
for line in sys.stdin.buffer:
    is_refused = os.path.exists("{space}/verbs") and line.split()[0].decode() in open("{space}/verbs").read().split()
    if not is_refused:
        child.stdin.write(line)
        child.stdin.flush()
    sys.stdout.buffer.write(b"err ENOSPC 15\\n" if is_refused else child.stdout.readline())
    sys.stdout.buffer.flush()
child.stdin.close()
sys.exit(child.wait())
"""


@contextlib.contextmanager
def refusing(options):
    """A folder that finds no room for the lines whose verbs stand in the file `verbs`."""
    with Folder(options, blocks=256, history=8) as f:
        put_between(f, REFUSING)
        yield f


def refuse(f, verbs):
    with open(f.space + "/verbs.new", "w") as file:
        file.write(verbs)
    os.rename(f.space + "/verbs.new", f.space + "/verbs")


def a_group_that_finds_no_room_at_its_end():
    """The close is refused, and the bytes are kept. What moves the tree is refused; what makes room is done, and the bytes are a version
    once there is room for them."""
    for options in ("keep,commit=0", "commit=0"):
        with refusing(options) as f:
            f.mount()
            for text in (b"one", b"two"):
                saved(f("a"), text)
            f.order("checkpoint x")
            file, made = os.open(f("a"), os.O_WRONLY), os.open(f("b"), os.O_WRONLY | os.O_CREAT)
            os.write(file, b"six")
            os.write(made, b"new")
            os.mkdir(f("d"))
            refuse(f, "write pwrite")
            seen = {"a": b"six", "b": b"new", "d": None}
            os.close(file)
            want(refusal_of(os.close, made), "ENOSPC", "the last close")
            for line in ("undo", "sync", "checkpoint y"):
                want(f.refusal(line), errno.ENOSPC, line)
            want((os.statvfs(f.path).f_blocks, tree_of(f.path)), (248, seen), "what is seen")
            for line, refusal in (("forget 1", None), ("forgetfree 9000", errno.ENOSPC), ("rmcheckpoint x", None)):
                want(f.refusal(line), refusal, line)
                want(tree_of(f.path), seen, f"what is seen after {line}")
            want(f.refusal("undo"), errno.ENOSPC, "undo before there is room")
            refuse(f, "")
            want(f.refusal("forgetfree 9"), None, "a line once there is room")
            f.kill()
            f.mount()
            want(tree_of(f.path), seen, "after a kill")
            f.order("undo")
            want(tree_of(f.path), {"a": b"two", "d": None}, "the version that was ended without them")
            f.unmount()


def what_was_refused_is_not_sent_again():
    """A folder and bytes for which there was no room stay away, also where the group is sent again to make room for something else."""
    with refusing("commit=0") as f:
        f.mount()
        f.order("begin unsynced")
        saved(f("a"), b"one")
        refuse(f, "mkdir")
        want(refusal_of(os.mkdir, f("d")), "ENOSPC", "a folder")
        refuse(f, "rename write")
        want(refusal_of(os.rename, f("a"), f("b")), "ENOSPC", "a move")
        refuse(f, "")
        f.order("end")
        want(tree_of(f.path), {"a": b"one"}, "what is there")
        f.unmount()


def a_group_that_cannot_be_sent_again():
    """Where the group was given up to make room, and finds none itself, that is told, and nothing of it is there; the folder goes on."""
    with refusing("commit=0") as f:
        f.mount()
        saved(f("a"), b"one")
        f.order("begin unsynced")
        saved(f("b"), b"two")
        os.mkdir(f("d"))
        refuse(f, "mkdir")
        want(refusal_of(os.mkdir, f("e")), "ENOSPC", "a folder")
        want("is lost" in f.told(), True, f"what is told: {f.told()}")
        want(tree_of(f.path), {"a": b"one"}, "what is there")
        refuse(f, "")
        os.mkdir(f("e"))
        f.order("sync")
        f.kill()
        f.mount()
        want(tree_of(f.path), {"a": b"one", "e": None}, "after a kill")
        f.unmount()


def rows_until_full(path, most):
    """Changes rows until that is refused: how often it was done."""
    done = 0
    with contextlib.closing(sqlite3.connect(path, isolation_level=None)) as base, contextlib.suppress(sqlite3.OperationalError):
        for i in range(most):
            base.execute("begin")
            base.execute("update t set n = ?, text = ? where id = 1", (i + 1, f"{i:08}" * 125))
            base.execute("commit")
            done = i + 1
    return done


def a_base(path):
    """A data base of 40 rows of 1,000 bytes."""
    with contextlib.closing(sqlite3.connect(path, isolation_level=None)) as base:
        base.execute("create table t(id integer primary key, n, text)")
        base.execute("begin")
        base.executemany("insert into t(n, text) values(0, ?)", [("a" * 1000,) for _ in range(40)])
        base.execute("commit")


def is_sound(f, done, what):
    """The base can be opened, and has what was answered."""
    told = run("sqlite3", f("x.db"), "pragma integrity_check; select count(*), max(n) from t")
    want(told, f"ok\n40|{done}\n", f"the base {what}")


def sqlite_on_a_full_flash():
    """A data base on a full flash: by itself nothing is refused. With -o keep it rolls back, however many blocks were left, and can be
    opened; forgetting lets it go on."""
    with mounted(**SMALL_PART) as f:
        a_base(f("x.db"))
        want(rows_until_full(f("x.db"), 12), 12, "updates where versions are forgotten")
        is_sound(f, 12, "where versions are forgotten")
    for blocks in range(105, 111):
        with mounted("keep", **{**SMALL_PART, "blocks": blocks}) as f:
            a_base(f("x.db"))
            done = rows_until_full(f("x.db"), 40)
            want(0 < done < 10, True, f"{done} updates with -o keep")
            is_sound(f, done, f"after {done} updates of a flash of {blocks} blocks")
            f.order("forgetfree 75")
            want(rows_until_full(f("x.db"), 2), 2, "updates after forgetfree")


CASES = [
    a_full_flash_forgets_by_need,
    a_save_over_what_could_be_redone,
    the_reserve_is_for_what_grows_not,
    no_save_is_refused_while_versions_can_go,
    no_more_is_forgotten_than_a_save_takes,
    a_move_takes_no_room_of_kept_bytes,
    a_group_that_finds_no_room_at_its_end,
    what_was_refused_is_not_sent_again,
    a_group_that_cannot_be_sent_again,
    sqlite_on_a_full_flash,
]
