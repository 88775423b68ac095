"""Cases of what may be lost: kills, cuts, barriers, a part that fails, a full flash, and flash behind MTD."""
import contextlib
import errno
import os
import random
import sqlite3
import struct
import subprocess
import sys
import time

from mounts import HERE, SHARED, Folder, Wrong, mounted, run, tree_of, want

sys.path.insert(0, os.path.join(HERE, "..", "..", "python"))
from undofs import FlatFilePart, Refused, Undofs  # noqa: E402

SMALL = {"page": 256, "pages": 16, "blocks": 256, "history": 8}


def save_and_sync(path, text):
    file = os.open(path, os.O_WRONLY | os.O_CREAT | os.O_TRUNC)
    try:
        os.write(file, text)
        os.fsync(file)
    finally:
        os.close(file)


def kills_after_fsync():
    """60 kills of the daemon and its child, each after some answered fsyncs: all of these are found."""
    draw, synced = random.Random(2), {}
    with Folder(**SMALL, options="commit=0") as f:
        for _ in range(60):
            f.mount()
            want({name: tree_of(f.path).get(name) for name in synced}, synced, "what was synced")
            for _ in range(draw.randrange(1, 4)):
                name, text = f"f{draw.randrange(6)}", draw.randbytes(draw.randrange(1, 2000))
                save_and_sync(f(name), text)
                synced[name] = text
            with open(f("unsynced"), "w") as file:
                file.write("x")
            f.kill()


def a_sync_inside_a_save():
    """A program that writes, syncs and goes on writing: what it synced is found after a kill; O_SYNC does so by itself."""
    with Folder(**SMALL, options="commit=0") as f:
        f.mount()
        log = os.open(f("log"), os.O_WRONLY | os.O_CREAT)
        other = os.open(f("other"), os.O_WRONLY | os.O_CREAT | os.O_SYNC)
        for i in range(5):
            os.write(log, b"line\n")
            os.fsync(log)
            os.write(other, b"more\n")
        os.write(log, b"not synced")
        f.kill()
        for file in (log, other):
            try:
                os.close(file)
            except OSError:
                pass
        f.mount()
        want(tree_of(f.path), {"log": b"line\n" * 5, "other": b"more\n" * 5}, "after a kill")


def changes_are_synced_unasked():
    with Folder(**SMALL, options="commit=1") as f:
        f.mount()
        with open(f("a"), "w") as file:
            file.write("x")
        held = open(f("b"), "w")
        held.write("y")
        held.flush()
        time.sleep(4)
        f.kill()
        f.mount()
        want(tree_of(f.path), {"a": b"x", "b": b"y"}, "four seconds after a save")
        f.unmount()
        f.options = "commit=0,durable"
        f.mount()
        os.mkdir(f("d"))
        f.kill()
        f.mount()
        want(os.path.isdir(f("d")), True, "with -o durable, at once")


def cuts_under_sqlite():
    """Power goes in a write of the daemon while sqlite commits: each commit that was answered is found, and the base is sound."""
    draw = random.Random(3)
    with Folder(blocks=1024, history=16) as f:
        f.mount()
        base = sqlite3.connect(f("x.db"))
        base.execute("create table t(n integer primary key, text text)")
        base.commit()
        base.close()
        f.unmount()
        done = 0
        for _ in range(25):
            if not f.mount({"SHIM_FILE": f.part, "SHIM_CUT": str(draw.randrange(1, 250))}, wait=False):
                f.clear()
                continue
            answered = rows_written(f("x.db"), done)
            f.clear()
            f.mount()
            told = run("sqlite3", f("x.db"), "pragma integrity_check; select count(*) from t").split()
            want(told[0], "ok", "the base")
            found = int(told[1])
            want(answered <= found <= answered + 1, True, f"{answered} rows were answered and {found} are found")
            done = found
            f.unmount()


def rows_written(path, first):
    """Writes rows until that fails. How many rows there are for certain."""
    rows = first
    try:
        with contextlib.closing(sqlite3.connect(path, timeout=0.1)) as base:
            base.execute("pragma synchronous=extra")  # the removal of the journal is synced too
            for i in range(100):
                base.execute("insert into t(text) values(?)", ("x" * 100,))
                base.commit()
                rows += 1
    except (sqlite3.Error, OSError):
        pass
    return rows


# Commits four times. Each is told once a `sync` after it was answered: git syncs what it writes, and no name that it moves.
COMMITS = """
i=0
while [ $i -lt 4 ]; do
    echo $i $$ > f$i && git add -A && git commit -q -m m && echo sync > ../.undofs && git log --format=%H -1
    i=$((i+1))
done
"""


def git_of(f, *words):
    env = {**os.environ, "GIT_CONFIG_NOSYSTEM": "1", "HOME": "/"}
    return run("git", "-c", "user.name=a", "-c", "user.email=a@b", *words, cwd=f("w"), env=env).split()


def cuts_under_git():
    """The same under git commit: the repository is sound, at a commit that was made, and has each that was synced."""
    draw, found = random.Random(4), 0
    with Folder(blocks=2048, history=16, options="commit=1") as f:
        f.mount()
        os.mkdir(f("w"))
        git_of(f, "init", "-q")
        for name, value in (("user.name", "a"), ("user.email", "a@b"), ("core.fsync", "all")):
            git_of(f, "config", name, value)
        git_of(f, "commit", "-q", "--allow-empty", "-m", "first")
        f.unmount()
        for i in range(8):
            if not f.mount({"SHIM_FILE": f.part, "SHIM_CUT": str(draw.randrange(20, 1800))}, wait=False):
                f.clear()
                continue
            synced = subprocess.run(["sh", "-c", COMMITS], cwd=f("w"), capture_output=True, text=True).stdout.split()
            f.clear()
            f.mount()
            for lock in run("find", f("w"), "-name", "*.lock").split():
                os.unlink(lock)
            git_of(f, "fsck", "--strict")
            want(set(synced) <= set(git_of(f, "log", "--format=%H")), True, f"commits that were synced before cut {i}: {synced}")
            found += len(synced)
            git_of(f, "config", "core.fsync", ("none", "all")[i % 2])  # what the line synced, git has not to sync itself
            f.unmount()
        want(found > 4, True, f"{found} commits were synced")


def a_part_that_fails():
    """A write of the part that fails is told as EIO, what was synced is found afterwards, and nothing else is answered as done."""
    with Folder(**SMALL, options="commit=0") as f:
        f.mount()
        save_and_sync(f("a"), b"synced")
        f.unmount()
        f.mount({"SHIM_FILE": f.part, "SHIM_FAIL": "4"})
        try:
            for _ in range(10):
                save_and_sync(f("b"), b"x" * 3000)
            raise Wrong("a part that fails took ten saves")
        except OSError as error:
            want(error.errno, errno.EIO, "a save")
        try:
            os.mkdir(f("d"))
            raise Wrong("a folder was made after that")
        except OSError as error:
            want(error.errno, errno.EIO, "mkdir")
        f.kill()
        f.mount()
        want(tree_of(f.path).get("a"), b"synced", "what was synced")


# ---- barriers: any part of what was written since the last one may be lost ----


def records_of(trace):
    """The writes and barriers of a trace, each with the place where it ends."""
    records, at = [], 0
    while at + 17 <= len(trace):
        kind, place, count = struct.unpack_from("<cQQ", trace, at)
        at += 17 + count
        records.append((kind, place, trace[at - count : at], at))
    return records


def part_after(records, cut, length, draw):
    """The file after a cut: all that was written before the last barrier, and each 512 bytes of each later write or not."""
    part = bytearray(length)
    barrier = max((i for i in range(cut) if records[i][0] == b"B"), default=-1)
    for i in range(cut):
        kind, place, text, _ = records[i]
        for start in range(0, len(text) if kind == b"W" else 0, 512):
            if i < barrier or draw.random() < 0.5:
                piece = text[start : start + 512]
                part[place + start : place + start + len(piece)] = piece
    return part


def cuts_of_the_host():
    """The host loses power: 150 cuts of a trace of saves, each synced. What was answered is found in each."""
    draw, answered = random.Random(5), []
    with Folder(page=256, pages=16, blocks=64, history=4, options="commit=0") as f:
        trace = f.space + "/trace"
        f.mount({"SHIM_FILE": f.part, "SHIM_TRACE": trace})
        for i in range(60):
            save_and_sync(f(f"f{i % 5}"), str(i).encode() * 300)
            answered.append((os.stat(trace).st_size, f"f{i % 5}", str(i).encode() * 300))
        f.unmount()
        with open(trace, "rb") as file:
            records = records_of(file.read())
        length, first = os.stat(f.part).st_size, answered[0][0]
        cuts = [i for i in range(len(records)) if records[i][3] > first]
        wrong = [cut for cut in draw.sample(cuts, min(150, len(cuts))) if not is_found(f, part_after(records, cut, length, draw), answered, records[cut - 1][3])]
        want(len(wrong), 0, "cuts that lose what was synced")


def is_found(f, part, answered, end):
    name = f.space + "/replayed"
    with open(f.part, "rb") as file:
        part[:20] = file.read(20)  # the head was written and synced before the trace
    with open(name, "wb") as file:
        file.write(part)
    synced, later = {}, {}
    for at, path, text in answered:
        if at <= end:
            synced[path] = text
        else:
            later.setdefault(path, text)
    held = FlatFilePart(name)
    try:
        with Undofs(held, program=SHARED["program"]) as fs:
            return all(fs.read("/" + path) in (text, later.get(path)) for path, text in synced.items())
    except Refused:
        return False
    finally:
        held.close()


# ---- a full flash ----


def full_by_history(f):
    """Rewrites a file until that is refused. How many times it was written."""
    for i in range(60):
        try:
            with open(f("x"), "wb") as file:
                file.write(bytes([i]) * 100000)
        except OSError as error:
            want(error.errno, errno.ENOSPC, "refusal")
            return i
    return 60


def a_flash_full_of_versions():
    """With -o keep it is ENOSPC, told in .undofs, and `forget` helps; without it, each save is one version."""
    with mounted("keep", page=256, pages=16, blocks=256, history=32) as f:
        written = full_by_history(f)
        want(5 <= written < 20, True, f"written {written} times")
        want("full: " in open(f(".undofs")).read(), True, "what .undofs tells")
        f.order("forget 5")
        with open(f("x"), "wb") as file:
            file.write(b"x" * 100000)
        want("full: " in open(f(".undofs")).read(), False, "what .undofs tells then")
    with mounted("forget", page=256, pages=16, blocks=256, history=32) as f:
        before = f.versions()
        want(full_by_history(f), 60, "saves with -o forget")
        want(f.settled() - before, 60, "versions")
        f.order("undo")
        want(open(f("x"), "rb").read(), bytes([58]) * 100000, "after undo")
        f.order("redo")
        try:
            with open(f("y"), "wb") as file:
                for _ in range(10):
                    file.write(b"y" * 100000)
                    file.flush()
            raise Wrong("a file longer than the flash was written")
        except OSError as error:
            want(error.errno, errno.ENOSPC, "a file longer than the flash")
        want(open(f("x"), "rb").read(), bytes([59]) * 100000, "the other file then")


# ---- MTD ----


def on_mtd(kind, shim, operations, options="commit=0"):
    """Saves on a part behind the shim, with a cut at each operation of a save; what was synced is found after each."""
    draw, synced, cuts = random.Random(kind), {}, 0
    with Folder(history=8, options=options) as f:
        base = {"MTD_FILE": f.part, "MTD_KIND": kind, **shim}
        with open(f.part, "wb"):
            pass
        want(f.mount(base, wait=False), False, "a part with no file system is mounted")
        want("-o format" in f.told(), True, "what is told then")
        f.mount(base, more="format")
        f.unmount()
        for cut in range(1, operations):
            f.mount({**base, "MTD_CUT": str(cut)})
            found = tree_of(f.path)
            want({name: found.get(name) for name in synced}, synced, f"what was synced before cut {cut}")
            name, text = f"f{cut % 3}", draw.randbytes(600)
            try:
                save_and_sync(f(name), text)
                synced[name] = text
            except OSError:
                synced.pop(name, None)
                cuts += 1
            f.clear()
        want("misused" in f.told(), False, f"the part is misused: {f.told()[-200:]}")
        f.mount(base)
        save_and_sync(f("last"), b"x")
        f.unmount()
        want(0 < cuts < operations - 1, True, f"{cuts} saves were cut")


def nor_behind_mtd():
    on_mtd("nor", {}, 26)


def dense_nor_behind_mtd():
    on_mtd("nor", {}, 32, "commit=0,dense=2")


def nand_behind_mtd():
    on_mtd("nand", {"MTD_BAD": "13"}, 12)


def failures_behind_mtd():
    """One in forty programs fails, with a part of its bytes done or all: no save is lost, and blocks are bad afterwards."""
    for kind, whole in (("nor", "0"), ("nand", "0"), ("nand", "1")):
        with Folder(history=8) as f:
            base = {"MTD_FILE": f.part, "MTD_KIND": kind, "MTD_FAIL": "40", "MTD_WHOLE": whole}
            with open(f.part, "wb"):
                pass
            f.mount(base, more="format")
            texts = {f"f{i}": bytes([i]) * 9000 for i in range(10)}
            for name, text in texts.items():
                save_and_sync(f(name), text)
            f.unmount()
            f.mount({"MTD_FILE": f.part, "MTD_KIND": kind})
            want(tree_of(f.path), texts, kind)
            bad = int(open(f(".undofs")).read().split(" bad ")[1].split()[0])
            want(bad > 0, True, "blocks that are bad")


def is_part_taken(f, kind, more):
    """Whether a part of this kind is mounted. A file on it grows by 3,000 bytes then, and it is unmounted."""
    f.part = f"{f.space}/{kind}"
    open(f.part, "ab").close()
    if not f.mount({"MTD_FILE": f.part, "MTD_KIND": kind}, more=more, wait=False):
        return False
    with open(f("a"), "ab") as file:
        file.write(b"x" * 3000)
    want(os.path.getsize(f("a")) in (3000, 6000), True, "bytes of a file")
    f.unmount()
    return True


def a_ram_part_for_trials():
    """A part of type RAM is refused unless -o nor is given, and is a NOR then. Neither a NAND nor a flat file is one."""
    with Folder(history=8) as f:
        for kind, more, taken in (
            ("ram", "format", False),
            ("ram", "format,nor", True),
            ("ram", "", False),
            ("ram", "nor", True),
            ("nor", "format,nor", True),
            ("nor", "", True),
            ("nand", "format,nor", False),
        ):
            want(is_part_taken(f, kind, more), taken, f"whether {kind} is taken with {more}")
        f.part = f"{f.space}/flat"
        want(f.mount(more="nor", wait=False), False, "whether a flat file is taken with -o nor")
        want(os.path.exists(f.part), False, "a file that was made")
        want(f.told().count("No such device"), 4, "refusals that are told")


CASES = [
    kills_after_fsync,
    a_sync_inside_a_save,
    changes_are_synced_unasked,
    cuts_under_sqlite,
    cuts_under_git,
    a_part_that_fails,
    cuts_of_the_host,
    a_flash_full_of_versions,
    nor_behind_mtd,
    dense_nor_behind_mtd,
    nand_behind_mtd,
    failures_behind_mtd,
    a_ram_part_for_trials,
]
