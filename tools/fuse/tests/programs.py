"""Cases of real programs in the folder, and of random calls beside a plain folder of the host."""
import errno
import glob
import mmap
import os
import random
import shutil
import sqlite3
import tempfile

from mounts import HERE, Wrong, mounted, run, tree_of, want

GIT = {**os.environ, "GIT_CONFIG_NOSYSTEM": "1", "GIT_AUTHOR_NAME": "a", "GIT_AUTHOR_EMAIL": "a@b", "GIT_COMMITTER_NAME": "a", "GIT_COMMITTER_EMAIL": "a@b", "HOME": "/"}


def git(f, *words, folder="work"):
    return run("git", "-c", "init.defaultBranch=main", *words, cwd=f(folder), env=GIT)


def git_works():
    with mounted() as f:
        os.mkdir(f("work"))
        git(f, "init", "-q")
        for i in range(5):
            os.makedirs(f(f"work/d{i}"), exist_ok=True)
            with open(f(f"work/d{i}/f"), "w") as file:
                file.write(f"text {i}\n" * 200)
            git(f, "add", ".")
            git(f, "commit", "-q", "-m", str(i))
        git(f, "gc", "-q")
        git(f, "fsck", "--strict")
        git(f, "clone", "-q", ".", f("other"))
        want(git(f, "log", "--oneline", folder="other").count("\n"), 5, "commits of the clone")
        want(git(f, "status", "--short", folder="other"), "", "what the clone has changed")


def git_commit_is_one_version():
    with mounted() as f:
        os.mkdir(f("work"))
        git(f, "init", "-q")
        with open(f("work/f"), "w") as file:
            file.write("one\n")
        before, tree = f.settled(), tree_of(f.path)
        f.order("begin")
        git(f, "add", ".")
        git(f, "commit", "-q", "-m", "one")
        f.order("end")
        want(f.versions() - before, 1, "versions")
        git(f, "fsck", "--strict")
        f.order("undo")
        want(tree_of(f.path), tree, "the tree after undo")


def sqlite_works():
    """Transactions in each journal mode, and a rollback; then the file is sound and has what was committed."""
    with mounted() as f:
        for mode in ("delete", "truncate", "persist", "memory", "off", "wal"):
            base = sqlite3.connect(f(f"{mode}.db"), isolation_level=None)
            want(base.execute(f"pragma journal_mode={mode}").fetchone()[0], mode, "journal mode")
            base.execute("create table t(n integer primary key, text text)")
            for i in range(12):
                base.execute("begin")
                base.executemany("insert into t(text) values(?)", [(f"{i} {j} " * 20,) for j in range(10)])
                base.execute("rollback" if mode != "off" and i % 4 == 3 else "commit")
            base.close()
            rows = 120 if mode == "off" else 90
            told = run("sqlite3", f(f"{mode}.db"), "pragma integrity_check; select count(*) from t")
            want(told, f"ok\n{rows}\n", mode)


def archives_are_the_same():
    """tar, diff -r and rsync over a tree of the host; a second rsync sends nothing, since times are kept."""
    with mounted() as f:
        source = f.space + "/source"
        shutil.copytree(os.path.dirname(HERE), source, ignore=shutil.ignore_patterns("out", "__pycache__"))
        run("sh", "-c", f"tar -C {source} -cf - . | tar -C {f.path} -xf -")
        run("diff", "-r", source, f.path)
        words = ["rsync", "-rt", "--itemize-changes", source + "/", f("copy/")]
        os.mkdir(f("copy"))
        run(*words)
        run("diff", "-r", source, f("copy"))
        want([line for line in run(*words).splitlines() if line.startswith(">f")], [], "files of a second rsync")
        run("sh", "-c", f"cd {f('copy')} && tar -cf ../all.tar . && mkdir ../again && tar -C ../again -xf ../all.tar")
        run("diff", "-r", f("copy"), f("again"))


def editors_work():
    """Programs that save by a new file and a rename, that remove what is open, and that ask for a temporary file."""
    with mounted() as f:
        with open(f("a"), "w") as file:
            file.write("one\ntwo\n")
        run("sed", "-i", "s/one/1/", f("a"))
        run("perl", "-pi", "-e", "s/two/2/", f("a"))
        want(open(f("a")).read(), "1\n2\n", "sed and perl")
        with tempfile.TemporaryFile(dir=f.path) as file:
            file.write(b"x" * 5000)
            file.seek(4999)
            want(file.read(), b"x", "a temporary file")
        with open(f("b"), "w+") as file:
            os.unlink(f("b"))
            file.write("still")
            file.seek(0)
            want(file.read(), "still", "a removed file")
        opened = [open(f(f"o{i}"), "w") for i in range(40)]
        for file in opened:
            file.write("x")
            file.close()
        want(len(glob.glob(f("o*"))), 40, "40 open files")
        os.symlink("a", f.space + "/link")
        for call in (lambda: os.symlink("a", f("l")), lambda: os.link(f("a"), f("l")), lambda: os.mkfifo(f("l"))):
            try:
                call()
                raise Wrong("a link or a fifo was made")
            except OSError as error:
                want(error.errno, errno.EPERM, "a link")
        os.chmod(f("a"), 0o600)
        want(sorted(name for name in os.listdir(f.path) if not name.startswith("o")), ["a"], "names at the end")


def names_and_lengths():
    """The limits, and names that are spelled in lines."""
    with mounted() as f:
        for name in (b"a b", b"%41", b"-", b"\xff\x01", b"x" * 64):
            path = os.path.join(os.fsencode(f.path), name)
            with open(path, "wb") as file:
                file.write(name)
            want(open(path, "rb").read(), name, "bytes")
        want(sorted(os.listdir(os.fsencode(f.path))), sorted([b"a b", b"%41", b"-", b"\xff\x01", b"x" * 64]), "names")
        for call, number in (
            (lambda: open(f("y" * 65), "w"), errno.ENAMETOOLONG),
            (lambda: os.truncate(f("-"), 16777217), errno.EFBIG),
            (lambda: os.makedirs(f("/".join("d" * 17))), errno.ENAMETOOLONG),
        ):
            try:
                call()
                raise Wrong(f"no {errno.errorcode[number]}")
            except OSError as error:
                want(errno.errorcode[error.errno], errno.errorcode[number], "refusal")


def files_beside_a_model():
    """Random reads, writes, cuts and mapped writes of one file, as fsx does them."""
    draw, most = random.Random(1), 60000
    with mounted() as f:
        model = bytearray()
        file = os.open(f("x"), os.O_RDWR | os.O_CREAT)
        for step in range(400):
            at, count = draw.randrange(most), draw.randrange(1, 9000)
            kind = draw.choice(["read", "write", "write", "cut", "map", "map read", "close", "sync"])
            if kind == "read":
                want(os.pread(file, count, at), bytes(model[at : at + count]), f"read in step {step}")
            elif kind == "write":
                text = draw.randbytes(count)
                model.extend(bytes(max(0, at + count - len(model))))
                model[at : at + count] = text
                want(os.pwrite(file, text, at), count, "written")
            elif kind == "cut":
                os.ftruncate(file, at)
                model = model[:at] + bytes(max(0, at - len(model)))
            elif kind in ("map", "map read") and len(model) > 0:
                with mmap.mmap(file, len(model)) as view:
                    at %= len(model)
                    end = min(at + count, len(model))
                    if kind == "map":
                        model[at:end] = view[at:end] = draw.randbytes(end - at)
                    want(view[at:end], bytes(model[at:end]), f"mapped in step {step}")
            elif kind == "close":
                os.close(file)
                file = os.open(f("x"), os.O_RDWR)
            elif kind == "sync":
                os.fsync(file)
            want(os.fstat(file).st_size, len(model), f"length in step {step}")
        os.close(file)
        want(open(f("x"), "rb").read(), bytes(model), "at the end")


def random_call(draw, root):
    """One call on a path below a folder: its answer, or its errno."""

    def path():
        return os.path.join(root, *[draw.choice("abc") for _ in range(draw.randrange(1, 4))])

    def write():
        flags = draw.choice([os.O_RDWR, os.O_WRONLY | os.O_CREAT, os.O_RDWR | os.O_CREAT | os.O_TRUNC, os.O_WRONLY | os.O_APPEND, os.O_WRONLY | os.O_CREAT | os.O_EXCL])
        where, text, at = path(), draw.randbytes(draw.randrange(3000)), draw.randrange(3000)
        file = os.open(where, flags)
        try:
            return os.pwrite(file, text, at)
        finally:
            os.close(file)

    def read():
        where = path()
        with open(where, "rb") as file:
            return file.read()

    def stat():
        where = path()
        found = os.lstat(where)
        return (found.st_mode & 0o170000, found.st_size if found.st_mode & 0o100000 else 0)

    calls = [
        write, write, read, stat,
        lambda: os.mkdir(path()), lambda: os.mkdir(path()), lambda: os.rmdir(path()), lambda: os.unlink(path()),
        lambda: os.rename(path(), path()), lambda: os.truncate(path(), draw.randrange(5000)), lambda: sorted(os.listdir(path())),
    ]  # fmt: skip
    call = draw.choice(calls)
    try:
        return call()
    except OSError as error:
        return errno.errorcode[error.errno]


def calls_beside_the_host():
    """4,000 random calls on the folder and on a plain one: each answer and each errno is the same, and the trees are."""
    with mounted(blocks=4096) as f:
        plain = f.space + "/plain"
        os.mkdir(plain)
        for step in range(4000):
            seed = draw_seed(step)
            here, there = random_call(random.Random(seed), f.path), random_call(random.Random(seed), plain)
            want(here, there, f"call {step}")
            if step % 500 == 499:
                want(tree_of(f.path), tree_of(plain), f"the tree after call {step}")


def draw_seed(step):
    return 7000000 + step


CASES = [
    git_works,
    git_commit_is_one_version,
    sqlite_works,
    archives_are_the_same,
    editors_work,
    names_and_lengths,
    files_beside_a_model,
    calls_beside_the_host,
]
