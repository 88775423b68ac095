"""Cases of times: the file in which they stand, versions asked for by the clock, checkpoints by the clock, and modes."""
import errno
import glob
import os
import random
import re
import shutil
import struct
import subprocess
import tempfile
import time
import zlib

from full import refuse, refusing
from losses import save_and_sync
from mounts import SHARED, Folder, NotBuilt, Wrong, mounted, run, tree_of, want

SMALL = {"page": 256, "pages": 16, "blocks": 512, "history": 32}

FLAGS = "-std=c11 -Wall -Wextra -Werror -g -fsanitize=address,undefined -fno-sanitize-recover".split()


def try_unit(name, *sources, flags=()):
    """Builds a test of some files of the daemon with the sanitizers, and runs it in a folder of its own."""
    with tempfile.TemporaryDirectory() as space:
        folder = SHARED["tools"] + "/fuse"
        words = ["gcc", *FLAGS, *flags, f"{folder}/tests/{name}.c", *(f"{folder}/{source}.c" for source in sources), "-o", f"{space}/{name}"]
        built = subprocess.run(words, capture_output=True, text=True)
        if built.returncode != 0:
            raise NotBuilt(built.stderr[-300:])
        told = tempfile.mkdtemp(dir=space)
        run(f"{space}/{name}", told)


def the_table_of_times():
    try_unit("times_test", "times")


def the_file_of_times():
    sources = ("times", "timeline", "times_bytes", "times_file", "time_words")
    try_unit("times_file_test", *sources, flags=["-Wl,--wrap=fsync,--wrap=rename"])


def words_of_time():
    try_unit("time_words_test", "time_words")


def names_of_checkpoints():
    try_unit("auto_checkpoints_test", "auto_checkpoints", "time_words")


def what_was_present_when():
    try_unit("timeline_test", "timeline")


# ---- what a folder shows ----


def save(path, text, at=None, mode=None):
    with open(path, "w") as file:
        file.write(text)
    if mode is not None:
        os.chmod(path, mode)
    if at is not None:
        os.utime(path, (at, at))


def shown(path):
    """The times and modes of all that stands below a folder."""
    found = {}
    for place, folders, files in os.walk(path):
        for name in folders + files:
            status = os.stat(os.path.join(place, name))
            found[os.path.relpath(os.path.join(place, name), path)] = (status.st_mtime_ns, status.st_mode)
    return found


def mode_of(path):
    return os.stat(path).st_mode & 0o777


def listing(f):
    """The lines of versions in .undofs."""
    with open(f(".undofs")) as control:
        return [line.rstrip("\n") for line in control if line.lstrip("*").startswith("@")]


def mount_anew(f, more=""):
    f.unmount()
    f.mount(more=more)


def times_file(f):
    return f.part + ".times"


def files_aside(f):
    """Files of times that were moved away."""
    return [name for name in glob.glob(glob.escape(times_file(f)) + ".*") if not name.endswith(".new")]


# ---- the file of times ----


def fill(f):
    """Some versions: 2 to 6, and a checkpoint of 4."""
    os.mkdir(f("d"))
    save(f("d/a"), "one", 1000)
    save(f("run"), "#!/bin/sh\necho ran\n", 2000, 0o755)
    f.order("checkpoint x")
    save(f("d/a"), "two", 3000)
    os.rename(f("run"), f("d/run"))


def times_outlive_a_mount():
    """Times and modes in the tree, in each version and in a checkpoint, and the list of versions, after a new mount and after a kill."""
    with Folder(options="commit=1", **SMALL) as f:
        f.mount()
        fill(f)
        want(os.stat(f("d/a")).st_mtime, 3000, "a time that was set")
        for way in (lambda: mount_anew(f), lambda: mount_anew(f), f.kill):
            save(f("more"), "more")
            f.settled()
            tree, views, versions = shown(f.path), shown(f(".history")), listing(f)
            want("-" in " ".join(versions).split(), False, f"a version with no time: {versions}")
            time.sleep(2.5)  # what is to be kept over a kill is written unasked
            way()
            if not os.path.ismount(f.path):
                f.mount()
            want(shown(f.path), tree, "the tree")
            want(shown(f(".history")), views, "the views")
            want(listing(f), versions, "the list of versions")
        want(run(f("d/run")), "ran\n", "a script")
        f.order("goto 5")
        want(run(f("run")), "ran\n", "a script in another version")
        f.order("rollback x")
        want((os.stat(f("d/a")).st_mtime, os.stat(f("run")).st_mtime), (1000, 2000), "after a rollback")
        f.unmount()
        want(files_aside(f), [], "files aside")


def want_no_times(f, tree, start):
    want(tree_of(f.path), tree, "the tree")
    for path, (at, mode) in shown(f.path).items():
        want((at >= start * 10**9, mode & 0o777), (True, 0o755), path)
    for line in listing(f):
        want(line.endswith(" -"), True, f"a version with a time {line}")


def lost_times_lose_nothing():
    """With no file of times all show the time of the mount and 755; what is saved then has its time again."""
    with Folder(**SMALL) as f:
        f.mount()
        fill(f)
        save(f("d/plain"), "plain")
        want(mode_of(f("d/plain")), 0o644, "the mode of a file")
        tree = tree_of(f.path)
        f.unmount()
        os.unlink(times_file(f))
        start = time.time()
        f.mount()
        want_no_times(f, tree, start)
        f.order("undo")
        f.order("redo")
        save(f("d/plain"), "anew", 5000, 0o644)
        mount_anew(f)
        want((os.stat(f("d/plain")).st_mtime, mode_of(f("d/plain"))), (5000, 0o644), "what was saved then")
        want(mode_of(f("d/a")), 0o755, "what was not")


def older_times_tell_what_they_know():
    """A file of times from before some versions: these have none, what is seen in them has the time of the mount, and versions before
    them are as they were."""
    with Folder(**SMALL) as f:
        f.mount()
        save(f("a"), "one", 1000)
        save(f("b"), "one", 1500)
        mount_anew(f)
        old = f.space + "/old"
        shutil.copy(times_file(f), old)
        save(f("a"), "two", 2000)
        save(f("c"), "two", 2500)
        f.order("undo")
        save(f("e"), "three", 3500)
        tree = tree_of(f.path)
        f.unmount()
        shutil.copy(old, times_file(f))
        start = time.time()
        f.mount()
        want(tree_of(f.path), tree, "the tree")
        lines = listing(f)
        want([line.endswith(" -") for line in lines], [True, True, False, False, False], f"versions with no time {lines}")
        for name in ("a", "b", "e"):
            want((os.stat(f(name)).st_mtime >= start, mode_of(f(name))), (True, 0o755), name)
        want(os.stat(f(".history/@3/a")).st_mtime, 1000, "a version that is known")
        f.order("goto 3")
        want((os.stat(f("b")).st_mtime, mode_of(f("b"))), (1500, 0o644), "undone to one that is known")
        f.order("goto 6")
        mount_anew(f)
        want(os.stat(f("a")).st_mtime > 5000, True, "after one more mount")


def times_of_another_part():
    """A file of times of another part, of another history of this part, or of the one before a format is moved aside, and told."""
    with Folder(**SMALL) as f, Folder(**SMALL) as g:
        for folder in (f, g):
            folder.mount()
            fill(folder)
            tree = tree_of(folder.path)
            folder.unmount()
        shutil.copy(f.part, f.space + "/part-then")
        shutil.copy(g.part + ".times", times_file(f))
        start = time.time()
        f.mount()
        want_no_times(f, tree, start)
        want((len(files_aside(f)), "of another part" in f.told()), (1, True), "moved aside and told")
        save(f("more"), "more")
        f.unmount()
        shutil.copy(f.space + "/part-then", f.part)
        time.sleep(1)
        f.mount()
        want_no_times(f, tree, start)
        want((len(files_aside(f)), "of another history" in f.told()), (2, True), "moved aside and told")
        f.unmount()
        time.sleep(1)
        f.mount(more="format")
        want([line.split()[0] for line in listing(f)], ["*@1"], "versions after a format")
        want(listing(f)[0].endswith(" -"), False, "the first version has a time")
        want((len(files_aside(f)), "that was here before" in f.told()), (3, True), "moved aside and told")
        f.unmount()
        want(open(f.part, "rb").read(36)[20:] == open(f.space + "/part-then", "rb").read(36)[20:], False, "the identity after a format")


def a_damaged_file_of_times():
    with Folder(**SMALL) as f:
        f.mount()
        fill(f)
        tree = tree_of(f.path)
        f.unmount()
        with open(times_file(f), "r+b") as file:
            file.seek(100)
            file.write(b"\xff\xfe")
        start = time.time()
        f.mount()
        want_no_times(f, tree, start)
        want((len(files_aside(f)), "is damaged" in f.told()), (1, True), "moved aside and told")


def times_are_not_before_the_part():
    """What was saved and not synced is in no file of times: its serial is given again after a kill."""
    with Folder(options="commit=4", **SMALL) as f:
        f.mount()
        save_and_sync(f("a"), b"one")
        os.utime(f("a"), (1000, 1000))
        mount_anew(f)
        save(f("lost"), "lost", 2000)
        time.sleep(2.5)
        f.kill()
        f.mount()
        want(os.listdir(f.path), ["a"], "what is there after a kill")
        want(os.stat(f("a")).st_mtime, 1000, "a time that was synced")
        save(f("other"), "other", 3000)
        mount_anew(f)
        want({path: at // 10**9 for path, (at, _) in shown(f.path).items()}, {"a": 1000, "other": 3000}, "times")
        want(len(listing(f)), 3, "versions")
        want(files_aside(f), [], "files aside")


def times_in_another_folder():
    with Folder(**SMALL) as f:
        where = f.space + "/times"
        os.mkdir(where)
        f.options = f"times={where}"
        f.mount()
        save(f("a"), "one", 1000)
        mount_anew(f)
        want(os.stat(f("a")).st_mtime, 1000, "a time")
        want((os.listdir(where), os.path.exists(times_file(f))), (["part.times"], False), "where they stand")
        f.unmount()
        words = [SHARED["daemon"], f.part, f.path, "-o", f"serve={SHARED['program']},times={f.space}/none"]
        done = subprocess.run(words, capture_output=True, text=True)
        want((done.returncode, "none" in done.stderr), (2, True), f"a folder that is not there {done.stderr}")


def times_of_a_part_behind_mtd():
    """In a folder that is given; with none they are those of the mount. A format takes them away."""
    for kind in ("nor", "nand"):
        with Folder(history=8) as f:
            where, shim = f.space + "/times", {"MTD_FILE": f.part, "MTD_KIND": kind}
            os.mkdir(where)
            open(f.part, "wb").close()
            f.mount(shim, more=f"format,times={where}")
            save(f("a"), "one", 1000)
            f.unmount()
            f.mount(shim, more=f"times={where}")
            want((os.stat(f("a")).st_mtime, mode_of(f("a"))), (1000, 0o644), f"a time on {kind}")
            f.unmount()
            f.mount(shim)
            want((os.stat(f("a")).st_mtime > 1000, mode_of(f("a"))), (True, 0o755), "with no folder for it")
            f.unmount()
            want(os.path.exists(times_file(f)), False, "a file of times beside the part")
            f.mount(shim, more=f"format,times={where}")
            want([line.split()[0] for line in listing(f)], ["*@1"], "versions after a format")
            save(f("a"), "one")
            f.unmount()
            want(sorted(name[:10] for name in os.listdir(where)), ["part.times", "part.times"], "files of times")
            want("that was here before" in f.told(), True, "what is told")


def times_that_cannot_be_written():
    """The folder goes on, and the log says so, once; when they can be written they are."""
    with Folder(options="commit=1", **SMALL) as f:
        where = f.space + "/times"
        os.mkdir(where)
        f.options += f",times={where}"
        f.mount()
        shutil.rmtree(where)
        for i in range(3):
            save(f("a"), str(i), 1000 + i)
            f.order("sync")
            time.sleep(1.2)
        want(f.told().count("times are not kept"), 1, "how often it is told")
        os.mkdir(where)
        save(f("a"), "last", 2000)
        mount_anew(f)
        want((text_of(f("a")), os.stat(f("a")).st_mtime), ("last", 2000), "after a new mount")


def times_wait_for_the_sync():
    """Where a sync is refused no file of times is written: after a kill it tells nothing that is not on the part."""
    with refusing("commit=0") as f:
        f.mount()
        save(f("a"), "one", 1000)
        mount_anew(f)
        refuse(f, "sync")
        try:
            save_and_sync(f("b"), b"two")
            raise Wrong("a sync that is refused was answered")
        except OSError as error:
            want(error.errno, errno.ENOSPC, "a sync")
        f.kill()
        refuse(f, "")
        f.mount()
        want((tree_of(f.path), os.stat(f("a")).st_mtime), ({"a": b"one"}, 1000), "after a kill")
        want(files_aside(f), [], "files aside")
        f.unmount()


def times_after_kills():
    """Kills at random moments of saves: no file has the time of another save, and what was synced is there."""
    draw, at, synced, saved = random.Random(5), 5000, {}, {}
    with Folder(options="commit=1", **SMALL) as f:
        for turn in range(12):
            start = time.time()
            f.mount()
            for name in os.listdir(f.path):
                text, found = text_of(f(name)), os.stat(f(name)).st_mtime
                if text == "":
                    continue  # half of a save
                is_written = saved[text] <= found <= saved[text] + 9  # its time was not set yet
                want(found == int(text) or is_written or found >= start, True, f"{name} has {found} in turn {turn} and was saved with {text}")
            want({name: text_of(f(name)) >= text for name, text in synced.items()}, dict.fromkeys(synced, True), "what was synced")
            for line in listing(f):
                want(re.fullmatch(r"\*?@\d+ (-|\S+ \d+ paths)", line) is not None, True, line)
            for _ in range(draw.randrange(2, 9)):
                name, at = f"f{draw.randrange(4)}", at + 1
                saved[str(at)] = time.time() - 0.01
                save(f(name), str(at), at)
                if draw.randrange(3) == 0:
                    save_and_sync(f(name), str(at).encode())
                    os.utime(f(name), (at, at))
                    synced[name] = str(at)
                if draw.randrange(4) == 0:
                    f.refusal("undo")
                    synced = {}  # what was synced may be undone
                time.sleep(draw.random() / 2)
            f.kill()
        want(files_aside(f), [], "files aside")


def the_list_of_versions():
    """Each version with its time and how many paths it changed, the newest first; what was made and removed in one counts for none."""
    with mounted(**SMALL) as f:
        want(len(listing(f)), 1, "at the start")
        begin = time.strftime("%Y-%m-%dT%H:%M:%S")
        f.order("begin")
        for name in ("a", "b", "c"):
            save(f(name), "one")
        save(f("lock"), "one")
        os.unlink(f("lock"))
        f.order("end")
        os.rename(f("a"), f("d"))
        os.chmod(f("b"), 0o755)
        os.unlink(f("b"))
        f.settled()
        f.order("undo")
        with open(f(".undofs")) as control:
            lines = control.read().splitlines()
        want([line.split()[0] for line in lines[:2]], ["log", "df"], "the first lines")
        want([(line.split()[0], line.split()[2:]) for line in lines[2:]],
             [("@4", ["1", "paths"]), ("*@3", ["2", "paths"]), ("@2", ["3", "paths"]), ("@1", ["0", "paths"])], "versions")  # fmt: skip
        for line in lines[2:]:
            want(re.fullmatch(r"\*?@\d+ \d{4}-\d\d-\d\dT\d\d:\d\d:\d\d \d+ paths", line) is not None, True, line)
        want(begin <= lines[3].split()[1] <= time.strftime("%Y-%m-%dT%H:%M:%S"), True, f"the time of a version {lines[3]}")


# ---- versions by the clock ----


def set_moments(f, times):
    """Gives each moment of the file of times a time of its own, and the file its sum."""
    with open(times_file(f), "rb") as file:
        text = bytearray(file.read()[:-4])
    want(struct.unpack_from("<I", text, 48)[0], len(times), "moments")
    for place, at in enumerate(times):
        struct.pack_into("<q", text, 52 + 21 * place, at)
    with open(times_file(f), "wb") as file:
        file.write(text + struct.pack("<I", zlib.crc32(text)))


def clock(at, form="%H:%M:%S"):
    return time.strftime(form, time.localtime(at))


def text_of(path):
    with open(path) as file:
        return file.read()


def versions_by_the_clock():
    """Versions an hour ago and since, one of them discarded: by the time of day, by the date and by a duration; refusals."""
    sizes = {**SMALL, "history": 8}
    with Folder(options="commit=0", **sizes) as f:
        f.mount()
        save(f("a"), "one")
        save(f("a"), "two")
        f.order("undo")
        save(f("a"), "four")
        f.unmount()
        start = int(time.time()) // 60 * 60 - 3600
        set_moments(f, [start + 600 * i for i in range(5)])  # 1, 2, 3, 2 by an undo, 4
        f.mount()
        want([line.split()[:2] for line in listing(f)], [["*@4", clock(start + 2400, "%Y-%m-%dT%H:%M:%S")], ["@2", clock(start + 600, "%Y-%m-%dT%H:%M:%S")], ["@1", clock(start, "%Y-%m-%dT%H:%M:%S")]], "versions")  # fmt: skip
        for line, wanted in (
            (f"goto {clock(start + 700)}", "one"),
            (f"goto {clock(start + 2500)}", "four"),
            (f"goto {clock(start + 1860, '%H:%M')}", "one"),
            (f"goto {clock(start + 2400, '%Y-%m-%dT%H:%M')}", "four"),
            (f"goto {clock(start + 600, '%Y-%m-%dT%H:%M:%S')}", "one"),
            ("redo", "four"),
            ("undo 25m", "one"),
            ("undo 10m", "four"),
        ):
            f.order(line)
            want(text_of(f("a")), wanted, line)
        f.order("undo 1h")
        want(os.listdir(f.path), [], "undo 1h")
        f.order("undo 5m")
        for line in (
            f"goto {clock(start + 1300)}",
            "undo 2h",
            f"goto {clock(start - 1)}",
            f"goto {clock(time.time() + 200)}",
            f"goto {clock(time.time() + 86400, '%Y-%m-%dT%H:%M')}",
            "undo 99999999d",
        ):
            want(f.refusal(line), errno.ENOENT, line)
        for line in ("goto 25:00", "goto 14:3", "undo 0m", "undo 10", "undo 10w", "goto 2026-02-30T10:00", "undo 10m ago"):
            want(f.refusal(line), errno.EINVAL, line)
        with open(f("b"), "w") as writer:
            writer.write("half")
            writer.flush()
            for line in ("undo 10m", f"goto {clock(start + 700)}"):
                want(f.refusal(line), errno.EBUSY, f"{line} while a file is written")
        f.order("begin")
        want(f.refusal("undo 10m"), errno.EBUSY, "in a group by hand")
        f.order("end")
        want(text_of(f("b")), "half", "what is there after refusals")
        for i in range(9):
            save(f("c"), str(i))
        want(f.refusal(f"goto {clock(start + 2500)}"), errno.ENOENT, "a version that was dropped")
        time.sleep(1.1)
        f.order("undo 1s")
        want(text_of(f("c")), "8", "what was there a second ago")


def versions_that_settle():
    """With the time to settle that is usual: the open group ends first, and is what was present since its last change."""
    with Folder(settle=None, **SMALL) as f:
        f.mount()
        save(f("a"), "one")
        save(f("b"), "one", 1000, 0o755)
        time.sleep(3)
        want([line.split()[2:] for line in listing(f)], [["2", "paths"], ["0", "paths"]], "two saves")
        save(f("c"), "two", 2000)
        time.sleep(1.3)
        f.order("undo 1s")
        want(sorted(os.listdir(f.path)), ["a", "b", "c"], "what was there a second ago")
        want(len(listing(f)), 3, "versions")
        save(f("d"), "three")
        os.chmod(f("a"), 0o755)
        f.order("undo")
        want((os.path.exists(f("d")), mode_of(f("a"))), (False, 0o644), "a mode that was set in the group that is undone")
        os.utime(f("b"), (3000, 3000))
        time.sleep(2.5)
        want(len(listing(f)), 4, "a time alone makes no version")
        mount_anew(f)
        want([os.stat(f(name)).st_mtime for name in "bc"], [3000, 2000], "after a new mount")


def times_that_are_not_known():
    """What was present after the file of times was written last, and before the mount that found the part changed, is not known."""
    with Folder(options="commit=0", **SMALL) as f:
        f.mount()
        save(f("a"), "one")
        known = time.time() + 1
        time.sleep(2.1)
        f.unmount()
        old = f.space + "/old"
        shutil.copy(times_file(f), old)
        time.sleep(1.1)
        written = time.time()
        f.mount()
        save(f("a"), "two")
        f.unmount()
        shutil.copy(old, times_file(f))
        time.sleep(2)
        f.mount()
        time.sleep(2)
        want(f.refusal(f"goto {clock(written)}"), errno.ENOENT, "a time that is not known")
        f.order("undo 1s")
        want(text_of(f("a")), "two", "since the mount")
        f.order(f"goto {clock(known)}")
        want(text_of(f("a")), "one", "a time before")


# ---- checkpoints by the clock ----


def checkpoints(f):
    words = f.log_words()
    return words[words.index("checkpoints") + 1 :]


def wait_for(what, wanted, seconds=20):
    """Waits until something is as it is wanted."""
    until = time.time() + seconds
    while what() != wanted and time.time() < until:
        time.sleep(0.1)
    want(what(), wanted, "what was waited for")


def autos(f):
    return sorted(name for name in checkpoints(f) if name.startswith("auto-"))


def count_autos(f):
    return len(autos(f))


def checkpoints_by_the_clock():
    """One at the end of each period in which something changed, and none in a group; those of a person are never taken."""
    with mounted("checkpoint=2s,commit=1", **SMALL) as f:
        time.sleep(5)
        before = count_autos(f)
        want(before <= 1, True, "checkpoints of an empty folder")
        start = time.time()
        save(f("a"), "one", 1000)
        wait_for(lambda: count_autos(f), before + 1)
        name = autos(f)[-1]
        want(re.fullmatch(r"auto-\d{4}-\d\d-\d\dT\d\d:\d\d:\d\d", name) is not None, True, name)
        want(clock(start, "auto-%Y-%m-%dT%H:%M:%S") <= name <= clock(time.time(), "auto-%Y-%m-%dT%H:%M:%S"), True, f"its time {name}")
        want(text_of(f(f".history/={name}/a")), "one", "its tree")
        time.sleep(5)
        want(count_autos(f), before + 1, "checkpoints while nothing changed")
        f.order("begin")
        save(f("a"), "two", 2000)
        time.sleep(3)
        want(count_autos(f), before + 1, "checkpoints in a group")
        f.order("end")
        wait_for(lambda: count_autos(f), before + 2)
        with open(f("log"), "w") as log:
            for _ in range(25):
                log.write("line\n")
                log.flush()
                time.sleep(0.2)
        want("no checkpoint by the clock" in f.told(), False, "what the daemon tells of a log that is written")
        for line in ("checkpoint auto-x", "checkpoint auto-2026-11-30T14:30:00"):
            want(f.refusal(line), errno.EINVAL, line)
        for i in range(16 - len(checkpoints(f))):
            f.order(f"checkpoint p{i}")
        persons = [one for one in checkpoints(f) if one.startswith("p")]
        for i in range(3):
            newest = autos(f)[-1]
            save(f("a"), str(i), 3000)
            wait_for(lambda: autos(f)[-1] != newest, True)
            want([one for one in checkpoints(f) if one.startswith("p")], persons, "those of a person")
            want(len(checkpoints(f)), 16, "all names")
        newest = autos(f)[-1]
        mount_anew(f)
        want(os.stat(f(f".history/={newest}/a")).st_mtime, 3000, "a time in one, after a new mount")
        want(clock(os.stat(f(f".history/={newest}")).st_mtime, "auto-%Y-%m-%dT%H:%M:%S"), newest, "when it was made")
        f.order(f"rmcheckpoint {newest}")
        f.order(f"rollback {autos(f)[-1]}")


def checkpoints_are_thinned():
    """In a run of seconds the newest four stay, with the first of an hour and of a day."""
    with mounted("checkpoint=1s", **SMALL) as f:
        made = set()
        for i in range(40):
            save(f("a"), str(i))
            time.sleep(0.3)
            made.update(checkpoints(f))
        wait_for(lambda: len(made) >= 8, True)
        names = checkpoints(f)
        made.update(names)
        want(set(sorted(made)[-4:]) <= set(names), True, f"the newest four of {sorted(made)} in {names}")
        want(sorted(made)[0] in names, True, "the first of the day")
        want(len(names) <= 8, True, f"no more than the newest four, and the first of each hour and day {names}")


def a_checkpoint_after_a_mount():
    """What changed before an unmount has its checkpoint after the next mount, and once."""
    with Folder(**SMALL) as f:
        f.mount()
        save(f("a"), "one")
        f.unmount()
        f.options = "checkpoint=2s"
        f.mount()
        wait_for(lambda: count_autos(f), 1)
        time.sleep(2)
        mount_anew(f)
        time.sleep(3)
        want(count_autos(f), 1, "after one more mount, with nothing changed")
        f.unmount()
        words = [SHARED["daemon"], f.part, f.path, "-o", f"serve={SHARED['program']},checkpoint=often"]
        done = subprocess.run(words, capture_output=True, text=True)
        want((done.returncode, "often" in done.stderr), (2, True), f"a time that is none {done.stderr}")


def checkpoints_give_way():
    """On a full flash versions before the newest eight go first, then checkpoints by the clock, the oldest first, and none of a person.
    They are made by one mount, so that none is made or thinned meanwhile in the next one."""
    draw = random.Random(6)
    with Folder(page=256, pages=16, blocks=256, history=32) as f:
        f.mount(more="checkpoint=1s")
        for i in range(6):
            known = autos(f)
            save(f("a"), draw.randbytes(60000).hex())
            if i == 0:
                f.order("checkpoint person")
            wait_for(lambda: autos(f) != known, True)
        mount_anew(f)
        for i in range(9):
            save(f("s"), str(i))
        before, tree = autos(f), tree_of(f.path)
        want(len(before), 5, f"checkpoints by the clock {before}")
        with open(f("big"), "wb") as file:
            file.write(draw.randbytes(240000))
        f.settled()
        left = autos(f)
        want(0 < len(left) < 5, True, f"checkpoints that are left of {before}: {left}")
        want(left, before[-len(left) :], "the oldest are gone")
        want("person" in checkpoints(f), True, "that of a person")
        want(len(listing(f)) >= 8, True, f"the newest eight versions {listing(f)}")
        f.order("undo")
        want(tree_of(f.path), tree, "the tree before")


# ---- programs ----


def rsync_sends_nothing_anew():
    """After a new mount, and after an undo, rsync finds all files as they were sent."""
    with mounted(blocks=1024) as f:
        source = f.space + "/source"
        shutil.copytree(os.path.dirname(os.path.abspath(__file__)), source, ignore=shutil.ignore_patterns("out", "__pycache__", "wrong"))
        words = ["rsync", "-a", "--no-o", "--no-g", "--itemize-changes", source + "/", f("copy/")]
        for path in glob.glob(source + "/*"):
            os.chmod(path, 0o755 if path.endswith(".py") else 0o644)
        os.mkdir(f("copy"))
        run(*words)
        want(run(*words), "", "a second rsync")
        mount_anew(f)
        want(run(*words), "", "after a new mount")
        save(f("copy/times_test.c"), "changed")
        f.settled()
        f.order("undo")
        mount_anew(f)
        want(run(*words), "", "after an undo and a new mount")


def make_is_right_after_a_mount():
    with mounted(**SMALL) as f:
        save(f("Makefile"), "b: a\n\tcp a b\n")
        save(f("a"), "one\n")
        run("make", cwd=f.path)
        mount_anew(f)
        want("up to date" in run("make", cwd=f.path), True, "after a new mount")
        time.sleep(0.01)
        save(f("a"), "two\n")
        mount_anew(f)
        run("make", cwd=f.path)
        want(open(f("b")).read(), "two\n", "what was due before the mount")
        f.settled()
        f.order("undo")
        mount_anew(f)
        run("make", cwd=f.path)
        want(open(f("b")).read(), "two\n", "what an undo made due")


# ---- modes ----


def modes_are_kept():
    """The exec bit is kept by path and version; a chmod makes no version, and belongs to the present one."""
    with mounted(**SMALL) as f:
        save(f("a"), "#!/bin/sh\necho ran\n")
        want(mode_of(f("a")), 0o644, "a new file")
        try:
            run(f("a"))
            raise Wrong("a file with no exec bit was run")
        except PermissionError:
            pass
        before = f.settled()
        os.chmod(f("a"), 0o700)
        want((mode_of(f("a")), run(f("a"))), (0o755, "ran\n"), "after a chmod")
        want(f.settled() - before, 0, "versions of a chmod")
        with open(f("a"), "a") as file:
            file.write("# more\n")
            file.flush()
            os.fchmod(file.fileno(), 0o600)
        want(mode_of(f("a")), 0o644, "after one in a save")
        f.order("undo")
        want(mode_of(f("a")), 0o755, "after an undo")
        f.order("redo")
        want(mode_of(f("a")), 0o644, "after a redo")
        want([mode_of(f(f".history/@{n}/a")) for n in (2, 3)], [0o555, 0o444], "in views")
        want(len(listing(f)), 3, "versions")
        for mask, made, wanted in ((0, 0o777, 0o755), (0o177, 0o777, 0o644), (0o077, 0o700, 0o755), (0, 0o611, 0o644)):
            mask_before = os.umask(mask)
            os.close(os.open(f("b"), os.O_CREAT | os.O_WRONLY, made))
            os.mknod(f("c"), made | 0o100000)
            os.umask(mask_before)
            want((mode_of(f("b")), mode_of(f("c"))), (wanted, wanted), f"made with {made:o}, less {mask:o}")
            os.unlink(f("b"))
            os.unlink(f("c"))
        os.mkdir(f("d"), 0o700)
        want(mode_of(f("d")), 0o755, "a folder")
        mount_anew(f)
        want(mode_of(f("a")), 0o644, "after a new mount")
        want([mode_of(f(f".history/@{n}/a")) for n in (2, 3)], [0o555, 0o444], "in views, after a new mount")


def a_copy_of_a_repository():
    """`cp -a` of a git repository, into the folder and out of it: git reports no change of modes, after a new mount neither."""
    with mounted(blocks=1024) as f:
        source, back = f.space + "/source", f.space + "/back"
        os.mkdir(source)
        git = ["git", "-c", "user.name=a", "-c", "user.email=a@b", "-c", "core.fileMode=true"]
        run("git", "init", "-q", source)
        save(source + "/script", "#!/bin/sh\n", mode=0o755)
        save(source + "/text", "text\n", mode=0o644)
        run(*git, "add", ".", cwd=source)
        run(*git, "commit", "-q", "-m", "one", cwd=source)
        run("cp", "-a", source, f("work"))
        for folder in (f("work"), back):
            want(run(*git, "status", "--porcelain", cwd=f("work")), "", "what git reports in the folder")
            mount_anew(f)
            if folder == back:
                run("cp", "-a", f("work"), back)
            want(run(*git, "status", "--porcelain", cwd=folder), "", f"what git reports in {folder}")
        want([mode_of(f(f"work/{name}")) for name in ("script", "text")], [0o755, 0o644], "modes")
        run("git", "init", "-q", f("new"))
        want(run("git", "config", "core.fileMode", cwd=f("new")), "true\n", "whether git sees that modes are kept")


CASES = [
    the_table_of_times,
    the_file_of_times,
    words_of_time,
    what_was_present_when,
    names_of_checkpoints,
    times_outlive_a_mount,
    lost_times_lose_nothing,
    older_times_tell_what_they_know,
    times_of_another_part,
    a_damaged_file_of_times,
    times_are_not_before_the_part,
    times_in_another_folder,
    times_of_a_part_behind_mtd,
    times_that_cannot_be_written,
    times_wait_for_the_sync,
    times_after_kills,
    the_list_of_versions,
    versions_by_the_clock,
    versions_that_settle,
    times_that_are_not_known,
    checkpoints_by_the_clock,
    checkpoints_are_thinned,
    a_checkpoint_after_a_mount,
    checkpoints_give_way,
    rsync_sends_nothing_anew,
    make_is_right_after_a_mount,
    modes_are_kept,
    a_copy_of_a_repository,
]
